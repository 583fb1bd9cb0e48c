/* Runs the docket twice, by the single entries of both parties and by the joint run, and prints it where both agree; then with a word that is heard
 * otherwise than it was sent, and checks which party is named. */
#include "spdz.h"

#include <inttypes.h>
#include <stdbool.h>
#include <stdio.h>
#include <string.h>

#define LENGTH(list) (sizeof(list) / sizeof((list)[0]))

enum { PARTIES = 2, PREP = 13, SCRATCH = 38, CHECKS = 2, WORDS = 78, OUTPUTS = 1 };

static const uint32_t circuit[] = {
    1, 0, 0, 0,
    1, 1, 0, 0,
    6, 0, 1, 0,
    7, 2, 0, 0,
};
static const uint32_t preps[PARTIES][PREP] = {
    {3, 1, 10, 2, 4, 30, 0, 1, 11, 3, 8, 5, 44},
    {4, 1, 4, 0, 6, 40, 10, 2, 10, 1, 20, 7, 40},
};
static const uint32_t inputs[PARTIES] = {5, 6};
static const uint32_t coefficients[] = {1, 2, 5};
static const uint8_t nonces[CHECKS * PARTIES * SPDZ_NONCE];

/* A word of a round that both parties hear otherwise than it was sent, and what is added. Nothing is added in a run that is printed. */
struct tamper {
    size_t round, word;
    uint32_t by;
};

/* What a run leaves. */
struct run {
    uint32_t scratch[PARTIES][SCRATCH];
    uint32_t transcript[WORDS];
    uint32_t outputs[OUTPUTS];
    size_t rounds;
};

/* The number of the kind mul, at which a gate's own round has two words. */
enum { MUL = 6 };

static bool is_mul(uint64_t gate) { return circuit[4 * gate] == MUL; }

/* The name that is printed for a round. */
static const char *name_of(uint64_t gate, uint64_t round)
{
    static const char *const names[] = {"in", "show", "seal", "reveal", "seal", "reveal"};
    return round == SPDZ_OWN && is_mul(gate) ? "mul" : names[round];
}

/* The words of one party in a round: those of a commitment are its mark, those of a reveal its check share and its nonce. */
static size_t words_of(uint64_t gate, uint64_t round)
{
    switch (round) {
    case SPDZ_OWN: return is_mul(gate) ? 2 : 1;
    case SPDZ_COMMIT_FIRST: case SPDZ_COMMIT_SECOND: return 8;
    case SPDZ_REVEAL_FIRST: case SPDZ_REVEAL_SECOND: return 9;
    default: return 1;
    }
}

/* The coefficients that a round takes: the first check's two entries are the product's. */
static size_t coefficients_of(uint64_t round)
{
    switch (round) {
    case SPDZ_COMMIT_FIRST: return 2;
    case SPDZ_COMMIT_SECOND: return 1;
    default: return 0;
    }
}

static bool refused(struct spdz_refusal refusal, const char *what, size_t party)
{
    if (refusal.number != 0)
        fprintf(stderr, "docket: %s of party %zu: refusal %" PRIu32 ", %zu\n", what, party, refusal.number, refusal.index);
    return refusal.number != 0;
}

static bool aborted(const char *what, size_t party, const uint64_t *answer)
{
    fprintf(stderr, "docket: %s of party %zu: kind %" PRIu64 "\n", what, party, answer[0]);
    return false;
}

/* One round of both parties, printed where no word is tampered with. The position stands at 2 to 5 of each party's last answer. False where a call is
 * refused or aborts the run. */
static bool round_of_both(struct run *run, struct tamper tamper, uint64_t answers[PARTIES][SPDZ_PLACES], size_t *used, size_t *written)
{
    const uint64_t gate = answers[0][2], round = answers[0][4];
    const size_t words = words_of(gate, round), draws = coefficients_of(round);
    const size_t bytes = draws > 0 ? SPDZ_NONCE : 0;
    uint32_t heard[PARTIES * SPDZ_MOST_WORDS];
    bool goes_on = true;
    for (size_t i = 0; i < PARTIES; i++) {
        uint64_t *at = answers[i];
        struct spdz_refusal refusal =
            spdz_send(PARTIES, i, circuit, LENGTH(circuit), preps[i], PREP, &inputs[i], 1, run->scratch[i], SCRATCH,
                      (size_t)at[2], (uint32_t)at[3], (uint32_t)at[4], (uint32_t)at[5], &coefficients[*used], draws, nonces, bytes,
                      &heard[i * words], words, at, SPDZ_PLACES);
        if (refused(refusal, "sending", i)) return false;
    }
    if (tamper.by == 0) {
        printf("%s", name_of(gate, round));
        for (size_t k = 0; k < PARTIES * words; k++) printf(" %" PRIu32, heard[k]);
        printf("\n");
    }
    if (run->rounds == tamper.round) heard[tamper.word] += tamper.by;
    for (size_t i = 0; i < PARTIES; i++) {
        uint64_t *at = answers[i];
        struct spdz_refusal refusal =
            spdz_receive(PARTIES, i, circuit, LENGTH(circuit), preps[i], PREP, &inputs[i], 1, run->scratch[i], SCRATCH,
                         (size_t)at[2], (uint32_t)at[3], (uint32_t)at[4], (uint32_t)at[5], heard, PARTIES * words, at, SPDZ_PLACES);
        if (refused(refusal, "receiving", i)) return false;
        if (at[0] == SPDZ_OUTPUT) run->outputs[0] = (uint32_t)at[1];
        else if (at[0] != SPDZ_NEXT) goes_on = false;
    }
    memcpy(&run->transcript[*written], heard, PARTIES * words * sizeof(uint32_t));
    *used += draws;
    *written += PARTIES * words;
    run->rounds++;
    return goes_on;
}

static bool by_single_entries(struct run *run, struct tamper tamper, uint64_t answers[PARTIES][SPDZ_PLACES])
{
    size_t used = 0, written = 0;
    memset(answers, 0, PARTIES * sizeof answers[0]);
    for (size_t i = 0; i < PARTIES; i++) {
        struct spdz_refusal refusal =
            spdz_open_run(PARTIES, i, circuit, LENGTH(circuit), preps[i], PREP, &inputs[i], 1, run->scratch[i], SCRATCH, answers[i], SPDZ_PLACES);
        if (refused(refusal, "opening", i)) return false;
    }
    while (answers[0][3] != SPDZ_FINISHED)
        if (!round_of_both(run, tamper, answers, &used, &written)) return false;
    if (tamper.by == 0) printf("out %" PRIu32 "\n", run->outputs[0]);
    return true;
}

/* Both parties abort at the out gate after so many rounds, and tell the party: one more than its number, or 0 where none is named. */
static bool aborts(struct tamper tamper, size_t rounds, uint64_t party)
{
    static const uint64_t gate = LENGTH(circuit) / 4 - 1;
    uint64_t answers[PARTIES][SPDZ_PLACES];
    struct run run;
    memset(&run, 0, sizeof run);
    if (by_single_entries(&run, tamper, answers) || run.rounds != rounds) return aborted("a word tampered with", 0, answers[0]);
    for (size_t i = 0; i < PARTIES; i++) {
        const uint64_t expected[SPDZ_PLACES] = {SPDZ_ABORT, party, gate, SPDZ_ABORTED, SPDZ_NO_ROUND, 0};
        if (memcmp(answers[i], expected, sizeof expected) != 0) return aborted("a word tampered with", i, answers[i]);
    }
    return true;
}

/* A joint run with a bad MAC share of the product: it is aborted at the output's second check, and no party is named. */
static bool joint_run_aborts(void)
{
    static const uint64_t expected[SPDZ_PLACES] = {SPDZ_ABORTED_RUN, 8, LENGTH(circuit) / 4 - 1, 0, 0, 0};
    uint64_t answer[SPDZ_PLACES];
    uint32_t bad[PARTIES][PREP];
    struct run run;
    memset(&run, 0, sizeof run);
    memcpy(bad, preps, sizeof bad);
    bad[1][PREP - 1]++;
    struct spdz_refusal refusal =
        spdz_joint_run(PARTIES, circuit, LENGTH(circuit), bad[0], PARTIES * PREP, inputs, PARTIES, run.scratch[0], PARTIES * SCRATCH,
                       coefficients, LENGTH(coefficients), nonces, LENGTH(nonces), run.transcript, WORDS, run.outputs, OUTPUTS, answer, SPDZ_PLACES);
    if (refused(refusal, "the joint run", 0)) return false;
    return memcmp(answer, expected, sizeof expected) == 0 || aborted("the joint run", 0, answer);
}

static bool by_joint_run(struct run *run)
{
    uint64_t answer[SPDZ_PLACES];
    struct spdz_refusal refusal =
        spdz_joint_run(PARTIES, circuit, LENGTH(circuit), preps[0], PARTIES * PREP, inputs, PARTIES, run->scratch[0], PARTIES * SCRATCH,
                       coefficients, LENGTH(coefficients), nonces, LENGTH(nonces), run->transcript, WORDS, run->outputs, OUTPUTS, answer, SPDZ_PLACES);
    if (refused(refusal, "the joint run", 0)) return false;
    if (answer[0] != SPDZ_DONE) return aborted("the joint run", 0, answer);
    run->rounds = (size_t)answer[1];
    return true;
}

int main(void)
{
    static const struct tamper none;
    uint64_t answers[PARTIES][SPDZ_PLACES];
    struct run single, joint;
    memset(&single, 0, sizeof single);
    memset(&joint, 0, sizeof joint);
    if (!by_single_entries(&single, none, answers)) {
        aborted("receiving", 0, answers[0]);
        return 1;
    }
    if (!by_joint_run(&joint)) return 1;
    if (memcmp(&single, &joint, sizeof single) != 0) {
        fprintf(stderr, "docket: the single entries and the joint run differ\n");
        return 1;
    }
    /* A bit of party 0's mark, party 1's first nonce word and its check share name their party; party 1's word of the opening names none. */
    const bool named = aborts((struct tamper){3, 0, UINT32_C(1) << 31}, 5, 1) && aborts((struct tamper){4, 10, 1}, 5, 2) &&
                       aborts((struct tamper){7, 9, 1}, 8, 2) && aborts((struct tamper){5, 1, 1}, 8, 0);
    return !named || !joint_run_aborts();
}
