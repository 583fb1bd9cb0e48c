/* Runs the worked circuit with a give, an input of party 0 that party 1 alone is told, by the single entries of both parties and by the joint run: the
 * receiver gets an output, the other party the next position, and the joint run lists the output. Then with a word that is heard otherwise than it was
 * sent, with masks that do not fit, and with lists that are too short. */
#include "spdz.h"

#include <inttypes.h>
#include <stdbool.h>
#include <stdio.h>
#include <string.h>

#define LENGTH(list) (sizeof(list) / sizeof((list)[0]))

enum { PARTIES = 2, RECEIVER = 1, PREP = 7, SCRATCH = 30, WORDS = 38, OUTPUTS = 1, ROUNDS = 4, ROOM = 18 };

static const uint32_t circuit[] = {
    1, 0, 0, 0,
    9, 0, 1, 0,
};
static const uint32_t good[PARTIES][PREP] = {
    {3, 1, 10, 2, 6, 30, 0},
    {4, 1, 4, 0, 4, 40, 10},
};
static const uint32_t inputs[] = {5};
static const uint32_t coefficients[] = {1};
static const uint8_t nonces[PARTIES * SPDZ_NONCE];

/* The words of all rounds; the number of each round, and how many words each party sends in it. */
static const uint32_t transcript[WORDS] = {
    3, 0,
    2147483645, 2147483644,
    1244417175, 3912128754, 936072702, 961251672, 2215093797, 1217134647, 3141193240, 50545820,
    831648754, 3312203175, 2291131991, 1992365589, 2348552288, 2624841683, 2809434074, 1669061681,
    4, 0, 0, 0, 0, 0, 0, 0, 0, 2147483643, 0, 0, 0, 0, 0, 0, 0, 0,
};
static const uint64_t rounds[ROUNDS] = {SPDZ_OWN, SPDZ_OPEN, SPDZ_COMMIT_SECOND, SPDZ_REVEAL_SECOND};
static const size_t words_of[ROUNDS] = {1, 1, 8, 9};

static int faults;

static void expect(const char *what, const uint64_t *found, uint64_t kind, uint64_t second, uint64_t third, uint64_t fourth)
{
    const uint64_t expected[SPDZ_PLACES] = {kind, second, third, fourth, 0, 0};
    if (memcmp(found, expected, sizeof expected) == 0) return;
    fprintf(stderr, "give: %s: %" PRIu64 " %" PRIu64 " %" PRIu64 " %" PRIu64 "\n", what, found[0], found[1], found[2], found[3]);
    faults++;
}

static bool refused(const char *what, struct spdz_refusal told, uint32_t number)
{
    if (told.number == number && told.index == 0) return number != 0;
    fprintf(stderr, "give: %s: refusal %" PRIu32 ", %zu\n", what, told.number, told.index);
    faults++;
    return true;
}

static void same(const char *what, const uint32_t *found, const uint32_t *expected, size_t len)
{
    if (memcmp(found, expected, len * sizeof found[0]) == 0) return;
    fprintf(stderr, "give: %s: other words\n", what);
    faults++;
}

/* A run by the single entries of both parties, in which `by` is added to party 1's word of the opening. Their last answers. */
static bool by_single_entries(const uint32_t preps[PARTIES][PREP], uint32_t by, uint64_t answers[PARTIES][SPDZ_PLACES])
{
    uint32_t scratch[PARTIES][SCRATCH] = {{0}}, heard[PARTIES * SPDZ_MOST_WORDS];
    size_t written = 0;
    for (size_t i = 0; i < PARTIES; i++)
        if (refused("opening", spdz_open_run(PARTIES, i, circuit, LENGTH(circuit), preps[i], PREP, inputs, i == 0, scratch[i], SCRATCH, answers[i], SPDZ_PLACES), 0))
            return false;
    for (size_t round = 0; round < ROUNDS; round++) {
        const size_t words = words_of[round], checked = rounds[round] == SPDZ_COMMIT_SECOND, bytes = checked * SPDZ_NONCE;
        for (size_t i = 0; i < PARTIES; i++) {
            uint64_t *at = answers[i];
            expect("a position", (uint64_t[SPDZ_PLACES]){at[0], at[2], at[3], at[4]}, SPDZ_NEXT, round > 0, SPDZ_SEND, rounds[round]);
            if (refused("sending", spdz_send(PARTIES, i, circuit, LENGTH(circuit), preps[i], PREP, inputs, i == 0, scratch[i], SCRATCH, (size_t)at[2],
                                             (uint32_t)at[3], (uint32_t)at[4], (uint32_t)at[5], coefficients, checked, nonces, bytes, &heard[i * words], words,
                                             at, SPDZ_PLACES), 0))
                return false;
        }
        if (by == 0 && preps == good) same("a round", heard, &transcript[written], PARTIES * words);
        if (rounds[round] == SPDZ_OPEN) heard[1] = (heard[1] + by) % SPDZ_P;
        for (size_t i = 0; i < PARTIES; i++) {
            uint64_t *at = answers[i];
            if (refused("receiving", spdz_receive(PARTIES, i, circuit, LENGTH(circuit), preps[i], PREP, inputs, i == 0, scratch[i], SCRATCH, (size_t)at[2],
                                                  (uint32_t)at[3], (uint32_t)at[4], (uint32_t)at[5], heard, PARTIES * words, at, SPDZ_PLACES), 0))
                return false;
        }
        written += PARTIES * words;
    }
    return true;
}

/* A joint run, of which the outputs list has so many numbers. */
static struct spdz_refusal joint(const uint32_t preps[PARTIES][PREP], uint32_t words[WORDS], uint32_t *outputs, size_t outputs_len, uint64_t *answer)
{
    uint32_t scratch[PARTIES][SCRATCH] = {{0}};
    return spdz_joint_run(PARTIES, circuit, LENGTH(circuit), preps[0], PARTIES * PREP, inputs, LENGTH(inputs), scratch[0], PARTIES * SCRATCH, coefficients,
                          LENGTH(coefficients), nonces, LENGTH(nonces), words, WORDS, outputs, outputs_len, answer, SPDZ_PLACES);
}

/* Finished, with this output for the receiver and in the joint run's list. */
static void gives(const char *what, const uint32_t preps[PARTIES][PREP], uint32_t output)
{
    uint64_t answers[PARTIES][SPDZ_PLACES], answer[SPDZ_PLACES];
    uint32_t words[WORDS], outputs[OUTPUTS] = {99};
    if (by_single_entries(preps, 0, answers)) {
        expect(what, answers[RECEIVER], SPDZ_OUTPUT, output, 1, SPDZ_FINISHED);
        expect(what, answers[1 - RECEIVER], SPDZ_NEXT, 0, 1, SPDZ_FINISHED);
    }
    if (refused(what, joint(preps, words, outputs, OUTPUTS, answer), 0)) return;
    expect(what, answer, SPDZ_DONE, ROUNDS, 0, 0);
    same(what, words, transcript, WORDS);
    same(what, outputs, &output, OUTPUTS);
}

/* Aborted at the give's second check, and no party named. */
static void aborts(const char *what, const uint32_t preps[PARTIES][PREP], uint32_t by)
{
    uint64_t answers[PARTIES][SPDZ_PLACES], answer[SPDZ_PLACES];
    uint32_t words[WORDS], outputs[OUTPUTS] = {99}, untouched = 99;
    if (by_single_entries(preps, by, answers))
        for (size_t i = 0; i < PARTIES; i++) expect(what, answers[i], SPDZ_ABORT, 0, 1, SPDZ_ABORTED);
    if (by != 0 || refused(what, joint(preps, words, outputs, OUTPUTS, answer), 0)) return;
    expect(what, answer, SPDZ_ABORTED_RUN, ROUNDS, 1, 0);
    same(what, outputs, &untouched, OUTPUTS);
}

int main(void)
{
    uint32_t preps[PARTIES][PREP], words[WORDS], outputs[OUTPUTS];
    uint64_t answer[SPDZ_PLACES];
    gives("the worked run", good, 5);
    aborts("a word of the opening", good, 1);

    /* The receiver's whole mask moves what it is given; the other party's is never read. A mask share or a MAC share that does not fit aborts. */
    memcpy(preps, good, sizeof preps);
    preps[RECEIVER][6]++;
    gives("a whole mask of the receiver", preps, 6);
    memcpy(preps, good, sizeof preps);
    preps[1 - RECEIVER][6] = SPDZ_P - 1;
    gives("a whole mask that is not read", preps, 5);
    for (size_t number = 4; number < 6; number++) {
        memcpy(preps, good, sizeof preps);
        preps[0][number]++;
        aborts("a mask that does not fit", preps, 0);
    }

    /* A place in the list of outputs for each give. */
    refused("no room for the output", joint(good, words, outputs, 0, answer), ROOM);
    return faults != 0;
}
