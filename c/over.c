/* Runs circuits with overs by the single entries of both parties and by the joint run: the worked one, in which an input of party 0 is divided by 2 modulo the
 * prime, overs by other constants, and times and over by the same constant, which give the input again in either order. Then with a word that is heard otherwise
 * than it was sent, with a MAC share that does not fit, and with overs that are refused. */
#include "spdz.h"

#include <inttypes.h>
#include <stdbool.h>
#include <stdio.h>
#include <string.h>

#define LENGTH(list) (sizeof(list) / sizeof((list)[0]))

/* The lists of a circuit of at most 4 gates with one input and one output. */
enum { PARTIES = 2, GATES = 4, PREP = 4, SCRATCH = 34, WORDS = 38, OUTPUTS = 1, ROUNDS = 4 };
enum { KIND = 4, NAME = 5, FIELD = 6, MARK = 99 };
enum { IN = 1, TIMES = 5, OUT = 7, OVER = 10, NO_KIND = 11 };

struct circuit {
    uint32_t lines[GATES][4];
    size_t gates;
};

static const struct circuit worked = {{{IN, 0, 0, 0}, {OVER, 0, 0, 2}, {OUT, 1, 0, 0}}, 3};
static const uint32_t good[PARTIES][PREP] = {
    {3, 1, 10, 2},
    {4, 1, 4, 0},
};
static const uint32_t inputs[] = {5};
static const uint32_t coefficients[] = {1};
static const uint8_t nonces[PARTIES * SPDZ_NONCE];

/* The words of all rounds of the worked run; the number of each round, and how many words each party sends in it. */
static const uint32_t transcript[WORDS] = {
    3, 0,
    2, 1073741824,
    2909025353, 2768623834, 3335632940, 1558578817, 4082417423, 4156862914, 2842596033, 3638096078,
    3317699358, 2382214783, 2615545980, 3630183587, 1732416100, 329990769, 3338177010, 1019762326,
    2, 0, 0, 0, 0, 0, 0, 0, 0, 2147483645, 0, 0, 0, 0, 0, 0, 0, 0,
};
static const uint64_t rounds[ROUNDS] = {SPDZ_OWN, SPDZ_OPEN, SPDZ_COMMIT_SECOND, SPDZ_REVEAL_SECOND};
static const size_t words_of[ROUNDS] = {1, 1, 8, 9};

static int faults;

static void expect(const char *what, const uint64_t *found, uint64_t kind, uint64_t second, uint64_t third, uint64_t fourth)
{
    const uint64_t expected[SPDZ_PLACES] = {kind, second, third, fourth, 0, 0};
    if (memcmp(found, expected, sizeof expected) == 0) return;
    fprintf(stderr, "over: %s: %" PRIu64 " %" PRIu64 " %" PRIu64 " %" PRIu64 "\n", what, found[0], found[1], found[2], found[3]);
    faults++;
}

static bool refused(const char *what, struct spdz_refusal told, uint32_t number, size_t index)
{
    if (told.number == number && told.index == index) return number != 0;
    fprintf(stderr, "over: %s: refusal %" PRIu32 ", %zu\n", what, told.number, told.index);
    faults++;
    return true;
}

static void same(const char *what, const uint32_t *found, const uint32_t *expected, size_t len)
{
    if (memcmp(found, expected, len * sizeof found[0]) == 0) return;
    fprintf(stderr, "over: %s: other numbers\n", what);
    faults++;
}

static struct spdz_refusal open_run(const struct circuit *circuit, size_t party, const uint32_t *prep, const uint32_t *scratch, uint64_t *answer)
{
    return spdz_open_run(PARTIES, party, circuit->lines[0], 4 * circuit->gates, prep, PREP, inputs, party == 0, scratch, SCRATCH, answer, SPDZ_PLACES);
}

/* A run by the single entries of both parties, in which `by` is added to party 1's word of the opening. Their last answers. */
static bool by_single_entries(const struct circuit *circuit, const uint32_t preps[PARTIES][PREP], uint32_t by, uint64_t answers[PARTIES][SPDZ_PLACES])
{
    uint32_t scratch[PARTIES][SCRATCH] = {{0}}, heard[PARTIES * SPDZ_MOST_WORDS];
    const uint32_t *lines = circuit->lines[0];
    const size_t len = 4 * circuit->gates, last = circuit->gates - 1;
    size_t written = 0;
    for (size_t i = 0; i < PARTIES; i++)
        if (refused("opening", open_run(circuit, i, preps[i], scratch[i], answers[i]), 0, 0)) return false;
    for (size_t round = 0; round < ROUNDS; round++) {
        const size_t words = words_of[round], checked = rounds[round] == SPDZ_COMMIT_SECOND, bytes = checked * SPDZ_NONCE;
        for (size_t i = 0; i < PARTIES; i++) {
            uint64_t *at = answers[i];
            /* An over is worked out by the hearing before it, and has no position. */
            expect("a position", (uint64_t[SPDZ_PLACES]){at[0], at[2], at[3], at[4]}, SPDZ_NEXT, round == 0 ? 0 : last, SPDZ_SEND, rounds[round]);
            if (refused("sending", spdz_send(PARTIES, i, lines, len, preps[i], PREP, inputs, i == 0, scratch[i], SCRATCH, (size_t)at[2], (uint32_t)at[3],
                                             (uint32_t)at[4], (uint32_t)at[5], coefficients, checked, nonces, bytes, &heard[i * words], words, at,
                                             SPDZ_PLACES), 0, 0))
                return false;
        }
        if (circuit == &worked && by == 0 && preps == good) same("a round", heard, &transcript[written], PARTIES * words);
        if (rounds[round] == SPDZ_OPEN) heard[1] = (heard[1] + by) % SPDZ_P;
        for (size_t i = 0; i < PARTIES; i++) {
            uint64_t *at = answers[i];
            if (refused("receiving", spdz_receive(PARTIES, i, lines, len, preps[i], PREP, inputs, i == 0, scratch[i], SCRATCH, (size_t)at[2],
                                                  (uint32_t)at[3], (uint32_t)at[4], (uint32_t)at[5], heard, PARTIES * words, at, SPDZ_PLACES), 0, 0))
                return false;
        }
        written += PARTIES * words;
    }
    return true;
}

static struct spdz_refusal joint(const struct circuit *circuit, const uint32_t preps[PARTIES][PREP], uint32_t scratch[PARTIES * SCRATCH],
                                 uint32_t words[WORDS], uint32_t outputs[OUTPUTS], uint64_t *answer)
{
    return spdz_joint_run(PARTIES, circuit->lines[0], 4 * circuit->gates, preps[0], PARTIES * PREP, inputs, LENGTH(inputs), scratch, PARTIES * SCRATCH,
                          coefficients, LENGTH(coefficients), nonces, LENGTH(nonces), words, WORDS, outputs, OUTPUTS, answer, SPDZ_PLACES);
}

/* Finished, with this output for both parties and in the joint run's list. */
static void gives(const char *what, const struct circuit *circuit, uint32_t output)
{
    uint64_t answers[PARTIES][SPDZ_PLACES], answer[SPDZ_PLACES];
    uint32_t scratch[PARTIES * SCRATCH] = {0}, words[WORDS], outputs[OUTPUTS] = {MARK};
    if (by_single_entries(circuit, good, 0, answers))
        for (size_t i = 0; i < PARTIES; i++) expect(what, answers[i], SPDZ_OUTPUT, output, circuit->gates - 1, SPDZ_FINISHED);
    if (refused(what, joint(circuit, good, scratch, words, outputs, answer), 0, 0)) return;
    expect(what, answer, SPDZ_DONE, ROUNDS, 0, 0);
    if (circuit == &worked) same(what, words, transcript, WORDS);
    same(what, outputs, &output, OUTPUTS);
}

/* The worked circuit is aborted at the output's check, and no party named. */
static void aborts(const char *what, const uint32_t preps[PARTIES][PREP], uint32_t by)
{
    const uint32_t untouched = MARK;
    uint64_t answers[PARTIES][SPDZ_PLACES], answer[SPDZ_PLACES];
    uint32_t scratch[PARTIES * SCRATCH] = {0}, words[WORDS], outputs[OUTPUTS] = {MARK};
    if (by_single_entries(&worked, preps, by, answers))
        for (size_t i = 0; i < PARTIES; i++) expect(what, answers[i], SPDZ_ABORT, 0, 2, SPDZ_ABORTED);
    if (by != 0 || refused(what, joint(&worked, preps, scratch, words, outputs, answer), 0, 0)) return;
    expect(what, answer, SPDZ_ABORTED_RUN, ROUNDS, 2, 0);
    same(what, outputs, &untouched, OUTPUTS);
}

/* The worked circuit with this gate for its over is refused at gate 1, and every list stays as it was. */
static void refuses(const uint32_t line[4], uint32_t number)
{
    struct circuit circuit = worked;
    uint32_t lists[PARTIES * SCRATCH + WORDS + OUTPUTS], before[LENGTH(lists)];
    uint32_t *scratch = lists, *words = &lists[PARTIES * SCRATCH], *outputs = &lists[PARTIES * SCRATCH + WORDS];
    uint64_t answer[SPDZ_PLACES];
    for (size_t i = 0; i < LENGTH(lists); i++) before[i] = lists[i] = MARK;
    memcpy(circuit.lines[1], line, sizeof circuit.lines[1]);
    for (size_t i = 0; i < PARTIES; i++) refused("a refused over", open_run(&circuit, i, good[i], scratch, answer), number, 1);
    refused("a refused over", joint(&circuit, good, scratch, words, outputs, answer), number, 1);
    same("a refused over", lists, before, LENGTH(lists));
}

int main(void)
{
    static const struct { uint32_t constant, output; } overs[] = {
        {1, 5}, {2, 1073741826}, {3, 715827884}, {5, 1}, {SPDZ_P - 2, 1073741821}, {SPDZ_P - 1, SPDZ_P - 5},
    };
    static const struct { uint32_t line[4], number; } no_overs[] = {
        {{NO_KIND, 0, 0, 2}, KIND}, {{OVER, 1, 0, 2}, NAME},      {{OVER, 2, 0, 2}, NAME},          {{OVER, 0, 1, 2}, FIELD},
        {{OVER, 0, 0, 0}, FIELD},   {{OVER, 0, 0, SPDZ_P}, FIELD}, {{OVER, 0, 0, UINT32_MAX}, FIELD},
    };
    uint32_t preps[PARTIES][PREP];
    gives("the worked run", &worked, 1073741826);
    for (size_t i = 0; i < LENGTH(overs); i++) {
        const struct circuit by = {{{IN, 0, 0, 0}, {OVER, 0, 0, overs[i].constant}, {OUT, 1, 0, 0}}, 3};
        gives("an over", &by, overs[i].output);
        for (size_t first = 0; first < 2; first++) {
            const uint32_t kinds[2] = {TIMES, OVER};
            const struct circuit both = {{{IN, 0, 0, 0},
                                          {kinds[first], 0, 0, overs[i].constant},
                                          {kinds[1 - first], 1, 0, overs[i].constant},
                                          {OUT, 2, 0, 0}}, 4};
            gives("times and over", &both, 5);
        }
    }
    const struct circuit by_0 = {{{IN, 0, 0, 0}, {TIMES, 0, 0, 0}, {OVER, 1, 0, 7}, {OUT, 2, 0, 0}}, 4};
    gives("an over of 0", &by_0, 0);

    aborts("a word of the opening", good, 1);
    memcpy(preps, good, sizeof preps);
    preps[1][2]++;
    aborts("a MAC share that does not fit", preps, 0);

    for (size_t i = 0; i < LENGTH(no_overs); i++) refuses(no_overs[i].line, no_overs[i].number);
    return faults != 0;
}
