/* Calls each entry so that it is refused, and checks what it returns and that every lent list is as it was. */
#include "spdz.h"

#include <inttypes.h>
#include <stdbool.h>
#include <stdio.h>
#include <string.h>

#define LENGTH(list) (sizeof(list) / sizeof((list)[0]))

enum { PARTIES = 2, PREP = 13, SCRATCH = 38, NONCES = 128, WORDS = 78, OUTPUTS = 1, ROOM = 18, LENGTH_OF_NONCE = 25 };

/* Every list that an entry is lent, the docket's, with its length beside it where a case changes that. */
struct lent {
    uint32_t circuit[16], preps[PARTIES * PREP], inputs[PARTIES], scratch[PARTIES * SCRATCH], coefficients[4];
    uint32_t heard[PARTIES * SPDZ_MOST_WORDS], out[SPDZ_MOST_WORDS], transcript[WORDS], outputs[OUTPUTS];
    uint8_t nonces[NONCES + 1];
    uint64_t answer[SPDZ_PLACES];
    size_t parties, me, gate, prep_len, scratch_len, heard_len, out_len, transcript_len, outputs_len, answer_len, coefficients_len, nonces_len;
    uint32_t half, round, held;
};

static const struct lent docket = {
    .circuit = {1, 0, 0, 0, 1, 1, 0, 0, 6, 0, 1, 0, 7, 2, 0, 0},
    .preps = {3, 1, 10, 2, 4, 30, 0, 1, 11, 3, 8, 5, 44, 4, 1, 4, 0, 6, 40, 10, 2, 10, 1, 20, 7, 40},
    .inputs = {5, 6},
    .coefficients = {1, 2, 5},
    .heard = {3, 0},
    .out = {77},
    .transcript = {78, 79},
    .outputs = {80},
    .answer = {91, 92, 93, 94, 95, 96},
    .parties = PARTIES, .prep_len = PREP, .scratch_len = SCRATCH, .heard_len = PARTIES, .out_len = 1, .transcript_len = WORDS,
    .outputs_len = OUTPUTS, .answer_len = SPDZ_PLACES,
};

typedef struct spdz_refusal entry(struct lent *x);

static struct spdz_refusal open_run(struct lent *x)
{
    return spdz_open_run(x->parties, x->me, x->circuit, LENGTH(x->circuit), x->preps, x->prep_len, x->inputs, 1, x->scratch, x->scratch_len,
                         x->answer, x->answer_len);
}

static struct spdz_refusal send(struct lent *x)
{
    return spdz_send(x->parties, x->me, x->circuit, LENGTH(x->circuit), x->preps, x->prep_len, x->inputs, 1, x->scratch, x->scratch_len,
                     x->gate, x->half, x->round, x->held, x->coefficients, x->coefficients_len, x->nonces, x->nonces_len, x->out, x->out_len,
                     x->answer, x->answer_len);
}

static struct spdz_refusal receive(struct lent *x)
{
    return spdz_receive(x->parties, x->me, x->circuit, LENGTH(x->circuit), x->preps, x->prep_len, x->inputs, 1, x->scratch, x->scratch_len,
                        x->gate, x->half, x->round, x->held, x->heard, x->heard_len, x->answer, x->answer_len);
}

static struct spdz_refusal joint_run(struct lent *x)
{
    return spdz_joint_run(x->parties, x->circuit, LENGTH(x->circuit), x->preps, PARTIES * x->prep_len, x->inputs, PARTIES, x->scratch,
                          PARTIES * x->scratch_len, x->coefficients, x->coefficients_len, x->nonces, x->nonces_len, x->transcript,
                          x->transcript_len, x->outputs, x->outputs_len, x->answer, x->answer_len);
}

static int faults;

/* The call is refused by the question, at the index, and leaves all that it was lent. */
static void refused(const char *name, entry *call, struct lent x, uint32_t number, size_t index)
{
    struct lent before;
    memcpy(&before, &x, sizeof x);
    const struct spdz_refusal told = call(&x);
    if (told.number == number && told.index == index && memcmp(&x, &before, sizeof x) == 0) return;
    fprintf(stderr, "refusals: %s: %" PRIu32 " %zu, wanted %" PRIu32 " %zu%s\n", name, told.number, told.index, number, index,
            memcmp(&x, &before, sizeof x) == 0 ? "" : "; a list is changed");
    faults++;
}

/* The call is accepted: 0 and 0. */
static void accepted(const char *name, entry *call, struct lent x)
{
    const struct spdz_refusal told = call(&x);
    if (told.number == 0 && told.index == 0 && x.answer[0] == SPDZ_NEXT) return;
    fprintf(stderr, "refusals: %s: %" PRIu32 " %zu, and not accepted\n", name, told.number, told.index);
    faults++;
}

/* The questions that every entry asks, and the list for the answer last. */
static void alike(const char *name, entry *call, struct lent x)
{
    struct lent y = x;
    y.parties = 9;
    refused(name, call, y, 1, 0);
    y.answer_len = 0;
    refused(name, call, y, 1, 0);
    y = x;
    y.circuit[5] = 2;
    refused(name, call, y, 5, 1);
    y = x;
    y.preps[5] = SPDZ_P;
    refused(name, call, y, 9, 5);
    y.answer_len = SPDZ_PLACES - 1;
    refused(name, call, y, 9, 5);
    y = x;
    y.scratch_len--;
    refused(name, call, y, 12, 0);
    y = x;
    y.answer_len = SPDZ_PLACES - 1;
    refused(name, call, y, ROOM, 0);
    y.answer_len = 0;
    refused(name, call, y, ROOM, 0);
}

/* Numbers that name no half and no round, a round that the gate has not, and a round beside an end, at the gate that finishes the run. */
static void nowhere(const char *name, entry *call, struct lent x)
{
    struct lent y = x;
    y.half = SPDZ_ABORTED + 1;
    refused(name, call, y, 13, 0);
    y.answer_len = 0;
    refused(name, call, y, 13, 0);
    y = x;
    y.round = SPDZ_REVEAL_SECOND + 1;
    refused(name, call, y, 13, 0);
    y.round = SPDZ_OPEN;
    refused(name, call, y, 13, 0);
    y = x;
    y.gate = LENGTH(x.circuit) / 4 - 1;
    y.half = SPDZ_FINISHED;
    y.round = SPDZ_NO_ROUND;
    refused(name, call, y, 14, 0);
    y.round = SPDZ_OPEN;
    refused(name, call, y, 13, 0);
}

/* Nonces of any other length than the right one: asked after the coefficients, and before the list for the words. */
static void nonces_of(const char *name, entry *call, struct lent x)
{
    const size_t len = x.nonces_len;
    struct lent y = x;
    y.nonces_len = len + 1;
    refused(name, call, y, LENGTH_OF_NONCE, 0);
    y.out_len = y.transcript_len = y.answer_len = 0;
    refused(name, call, y, LENGTH_OF_NONCE, 0);
    if (len > 0) {
        y.nonces_len = len - 1;
        refused(name, call, y, LENGTH_OF_NONCE, 0);
        y.nonces_len = 0;
        refused(name, call, y, LENGTH_OF_NONCE, 0);
        y.coefficients[x.coefficients_len - 1] = SPDZ_P;
        refused(name, call, y, 17, x.coefficients_len - 1);
    }
    y.coefficients_len++;
    refused(name, call, y, 16, 0);
    y = x;
    y.out_len = y.transcript_len = 0;
    refused(name, call, y, ROOM, 0);
}

int main(void)
{
    struct lent x = docket;
    alike("open_run", open_run, x);
    accepted("open_run", open_run, x);

    x.half = SPDZ_SEND;
    x.round = SPDZ_OWN;
    alike("send", send, x);
    accepted("send", send, x);
    nonces_of("send", send, x);
    x.out_len = 0;
    refused("send", send, x, ROOM, 0);
    nowhere("send", send, x);
    x.half = SPDZ_RECEIVE;
    refused("send", send, x, 14, 0);

    /* The commitment of the output's opening: a coefficient and a nonce are wanted. */
    x = docket;
    x.half = SPDZ_SEND;
    x.round = SPDZ_COMMIT_SECOND;
    x.gate = LENGTH(x.circuit) / 4 - 1;
    x.coefficients_len = 1;
    x.nonces_len = SPDZ_NONCE;
    x.out_len = 8;
    alike("send", send, x);
    accepted("send", send, x);
    nonces_of("send", send, x);
    x.out_len = 7;
    refused("send", send, x, ROOM, 0);

    x = docket;
    x.half = SPDZ_RECEIVE;
    x.round = SPDZ_OWN;
    alike("receive", receive, x);
    accepted("receive", receive, x);
    x.heard[1] = SPDZ_P;
    refused("receive", receive, x, 20, 1);
    x.answer_len = 0;
    refused("receive", receive, x, 20, 1);
    x.heard_len = 1;
    refused("receive", receive, x, 19, 0);
    nowhere("receive", receive, x);

    /* Of what is revealed the check shares must be elements, the words of nonces need not be. */
    x = docket;
    x.half = SPDZ_RECEIVE;
    x.round = SPDZ_REVEAL_SECOND;
    x.gate = LENGTH(x.circuit) / 4 - 1;
    x.heard_len = LENGTH(x.heard);
    x.heard[8] = UINT32_MAX;
    x.heard[9] = SPDZ_P;
    refused("receive", receive, x, 20, 9);
    x.heard_len--;
    refused("receive", receive, x, 19, 0);

    x = docket;
    x.coefficients_len = 3;
    x.nonces_len = NONCES;
    alike("joint_run", joint_run, x);
    nonces_of("joint_run", joint_run, x);
    x.coefficients[2] = SPDZ_P;
    refused("joint_run", joint_run, x, 17, 2);
    x.answer_len = 0;
    refused("joint_run", joint_run, x, 17, 2);
    x.coefficients_len = 2;
    refused("joint_run", joint_run, x, 16, 0);
    x = docket;
    x.coefficients_len = 3;
    x.nonces_len = NONCES;
    x.outputs_len = 0;
    refused("joint_run", joint_run, x, ROOM, 0);
    return faults != 0;
}
