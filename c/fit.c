/* Asks whether the docket's circuit fits, with a change and without one, at the largest ranges at which it does and at the next, at which its product leaves;
 * then so that the call is refused, and checks what it returns and that every lent list is as it was. */
#include "spdz.h"

#include <inttypes.h>
#include <stdio.h>
#include <string.h>

#define LENGTH(list) (sizeof(list) / sizeof((list)[0]))

enum { GATES = 4, OUTPUTS = 1, EXCESS = 2, MARK = 99 };
enum { PARTIES_OUT_OF_RANGE = 1, NAME = 5, ROOM = 18, RANGES = 26, CHANGE = 27 };
enum { NO_CHANGE = 0, SOME_CHANGE = 1 };

/* Every list that the entry is lent, with its length beside it where a case changes that; room for more than is written. */
struct lent {
    uint32_t circuit[4 * GATES], ranges[5], intervals[2 * GATES + EXCESS], moves[OUTPUTS + EXCESS];
    uint64_t answer[SPDZ_PLACES + EXCESS];
    size_t parties, ranges_len, gate, intervals_len, moves_len, answer_len;
    uint32_t changes, amount;
};

static const struct lent docket = {
    .circuit = {1, 0, 0, 0, 1, 1, 0, 0, 6, 0, 1, 0, 7, 2, 0, 0},
    .ranges = {0, 100, 0, 1000},
    .intervals = {MARK, MARK, MARK, MARK, MARK, MARK, MARK, MARK, MARK, MARK},
    .moves = {MARK, MARK, MARK},
    .answer = {MARK, MARK, MARK, MARK, MARK, MARK, MARK, MARK},
    .parties = 2, .ranges_len = 4, .gate = 0, .intervals_len = 2 * GATES + EXCESS, .moves_len = OUTPUTS + EXCESS,
    .answer_len = SPDZ_PLACES + EXCESS, .changes = SOME_CHANGE, .amount = 5,
};

static int faults;

static struct spdz_refusal will_fit(struct lent *x)
{
    return spdz_will_fit(x->parties, x->circuit, LENGTH(x->circuit), x->ranges, x->ranges_len, x->changes, x->gate, x->amount, x->intervals,
                         x->intervals_len, x->moves, x->moves_len, x->answer, x->answer_len);
}

/* The call returns this refusal, and what it was lent is afterwards as expected. */
static void told(const char *what, struct lent x, uint32_t number, size_t index, const struct lent *expected)
{
    const struct spdz_refusal found = will_fit(&x);
    if (found.number == number && found.index == index && memcmp(&x, expected, sizeof x) == 0) return;
    fprintf(stderr, "fit: %s: %" PRIu32 " %zu, wanted %" PRIu32 " %zu%s\n", what, found.number, found.index, number, index,
            memcmp(&x, expected, sizeof x) == 0 ? "" : "; a list is not as it should be");
    faults++;
}

static void answers(struct lent *x, uint64_t kind, uint64_t gate)
{
    const uint64_t answer[SPDZ_PLACES] = {kind, gate};
    memcpy(x->answer, answer, sizeof answer);
}

/* Every gate fits: the intervals are written, and the move where one is expected, and nothing beyond them. */
static void fits(const char *what, struct lent x, const uint32_t intervals[2 * GATES], const uint32_t *move)
{
    struct lent after;
    memcpy(&after, &x, sizeof x);
    answers(&after, SPDZ_FITS, 0);
    memcpy(after.intervals, intervals, 2 * GATES * sizeof intervals[0]);
    if (move != NULL) after.moves[0] = *move;
    told(what, x, 0, 0, &after);
}

/* The gate leaves, and the answer alone is written. */
static void leaves(const char *what, struct lent x, uint64_t gate)
{
    struct lent after;
    memcpy(&after, &x, sizeof x);
    answers(&after, SPDZ_LEAVES, gate);
    told(what, x, 0, 0, &after);
}

static void refused(const char *what, struct lent x, uint32_t number, size_t index)
{
    struct lent before;
    memcpy(&before, &x, sizeof x);
    told(what, x, number, index, &before);
}

/* A list that is too short is asked last, that for the answer at the very end. */
static void refused_first(const char *what, struct lent x, uint32_t number, size_t index)
{
    refused(what, x, number, index);
    x.answer_len = SPDZ_PLACES - 1;
    refused(what, x, number, index);
    x.intervals_len = x.moves_len = x.answer_len = 0;
    refused(what, x, number, index);
}

static struct lent with_ranges(uint32_t lowest, uint32_t highest)
{
    struct lent x = docket;
    x.ranges[0] = x.ranges[2] = lowest;
    x.ranges[1] = x.ranges[3] = highest;
    return x;
}

static void it_fits(void)
{
    static const uint32_t intervals[2 * GATES] = {0, 100, 0, 1000, 0, 100000, 0, 0};
    static const uint32_t widest[2 * GATES] = {0, 46340, 0, 46340, 0, 2147395600, 0, 0};
    static const uint32_t by_first = 5000, by_second = 500, by_widest = 231700;
    struct lent x = docket;
    fits("the docket", x, intervals, &by_first);
    x.changes = UINT32_MAX;
    fits("any number but 0", x, intervals, &by_first);
    x.gate = 1;
    fits("the other in gate", x, intervals, &by_second);

    /* No change: neither its gate nor its amount nor the list for the moves matters. */
    x = docket;
    x.changes = NO_CHANGE;
    fits("no change", x, intervals, NULL);
    x.gate = GATES;
    x.amount = UINT32_MAX;
    x.moves_len = 0;
    fits("no change", x, intervals, NULL);

    /* Lists as long as they must be. */
    x = docket;
    x.intervals_len = 2 * GATES;
    x.moves_len = OUTPUTS;
    x.answer_len = SPDZ_PLACES;
    fits("lists of the least length", x, intervals, &by_first);

    fits("the widest ranges", with_ranges(0, 46340), widest, &by_widest);
}

static void it_leaves(void)
{
    struct lent x = with_ranges(0, 46341);
    leaves("ranges too wide", x, 2);
    x.changes = NO_CHANGE;
    leaves("ranges too wide", x, 2);

    /* An over leaves, whatever its constant. */
    static const uint32_t over[4] = {10, 0, 0, 1};
    x = docket;
    memcpy(&x.circuit[8], over, sizeof over);
    leaves("an over", x, 2);
}

static void it_is_refused(void)
{
    struct lent x = docket;
    x.parties = 9;
    refused_first("too many parties", x, PARTIES_OUT_OF_RANGE, 0);
    x = docket;
    x.circuit[5] = 2;
    refused_first("a party that there is not", x, NAME, 1);

    refused_first("an end that is p", with_ranges(0, SPDZ_P), RANGES, 0);
    refused_first("both ends p", with_ranges(SPDZ_P, SPDZ_P), RANGES, 0);
    refused_first("a range reversed", with_ranges(1, 0), RANGES, 0);
    x = docket;
    x.ranges[2] = 1001;
    refused_first("the second range reversed", x, RANGES, 0);
    for (size_t len = 0; len <= LENGTH(x.ranges); len++) {
        x = docket;
        x.ranges_len = len;
        if (len != 4) refused_first("ranges of the wrong count", x, RANGES, 0);
        x.gate = 2;
        if (len != 4) refused_first("ranges of the wrong count", x, RANGES, 0);
    }

    /* A mul, an out, and no gate at all. */
    for (size_t gate = 2; gate <= GATES; gate++) {
        x = docket;
        x.gate = gate;
        refused_first("a change of no in gate", x, CHANGE, 0);
    }
    x.gate = SIZE_MAX;
    refused_first("a change of no gate", x, CHANGE, 0);

    x = docket;
    x.intervals_len = 2 * GATES - 1;
    refused_first("too few intervals", x, ROOM, 0);
    x.changes = NO_CHANGE;
    refused_first("too few intervals", x, ROOM, 0);
    x = docket;
    x.moves_len = OUTPUTS - 1;
    refused_first("too few moves", x, ROOM, 0);
    x = docket;
    x.answer_len = SPDZ_PLACES - 1;
    refused_first("no room for the answer", x, ROOM, 0);
    x.changes = NO_CHANGE;
    refused_first("no room for the answer", x, ROOM, 0);
    x = with_ranges(0, 46341);
    x.answer_len = SPDZ_PLACES - 1;
    refused_first("no room for the answer", x, ROOM, 0);
}

int main(void)
{
    it_fits();
    it_leaves();
    it_is_refused();
    return faults != 0;
}
