/* Reads a sheet, writes the circuit as a sheet, and reads that back as the same circuit; then calls reader and writer so that they are refused, and checks
 * what they return and that every lent list is as it was.
 *   sheet FILE */
#include "spdz.h"

#include <inttypes.h>
#include <stdbool.h>
#include <stdio.h>
#include <string.h>

#define LENGTH(list) (sizeof(list) / sizeof((list)[0]))

enum { PARTIES = 5, ROOM = 18, SHAPE = 22, DEEP = 23, EXCESS = 3, MARK = 99 };

static int faults;

static void fault(const char *what, struct spdz_refusal told)
{
    fprintf(stderr, "sheet: %s: %" PRIu32 " %zu\n", what, told.number, told.index);
    faults++;
}

/* Numbers and bytes beyond what a call writes, which stay as they were. */
static bool untouched(const uint32_t *numbers, size_t from, size_t to)
{
    for (size_t i = from; i < to; i++)
        if (numbers[i] != MARK) return false;
    return true;
}

static bool untouched_bytes(const uint8_t *bytes, size_t from, size_t to)
{
    for (size_t i = from; i < to; i++)
        if (bytes[i] != MARK) return false;
    return true;
}

/* The gates of a sheet; 0 after a fault. */
static size_t gates_of(const uint8_t *text, size_t len, uint32_t circuit[SPDZ_MOST_NUMBERS + EXCESS])
{
    uint64_t answer[SPDZ_PLACES] = {0};
    for (size_t i = 0; i < SPDZ_MOST_NUMBERS + EXCESS; i++) circuit[i] = MARK;
    const struct spdz_refusal told =
        spdz_read_sheet(PARTIES, text, len, circuit, SPDZ_MOST_NUMBERS + EXCESS, answer, SPDZ_PLACES);
    const size_t gates = (size_t)answer[1];
    if (told.number == 0 && told.index == 0 && answer[0] == SPDZ_READ && answer[2] == 0 && answer[3] == 0 && answer[4] == 0 && answer[5] == 0 &&
        gates <= SPDZ_MOST_NUMBERS / 4 && untouched(circuit, 4 * gates, SPDZ_MOST_NUMBERS + EXCESS))
        return gates;
    fault("reading", told);
    return 0;
}

/* The bytes of a circuit's sheet; 0 after a fault. */
static size_t bytes_of(const uint32_t *circuit, size_t gates, uint8_t text[SPDZ_MOST_BYTES + EXCESS])
{
    uint64_t answer[SPDZ_PLACES] = {0};
    memset(text, MARK, SPDZ_MOST_BYTES + EXCESS);
    const struct spdz_refusal told =
        spdz_write_sheet(PARTIES, circuit, 4 * gates, text, SPDZ_MOST_BYTES + EXCESS, answer, SPDZ_PLACES);
    const size_t bytes = (size_t)answer[1];
    if (told.number == 0 && told.index == 0 && answer[0] == SPDZ_WRITTEN && answer[2] == 0 && answer[3] == 0 && answer[4] == 0 && answer[5] == 0 &&
        bytes <= SPDZ_MOST_BYTES && untouched_bytes(text, bytes, SPDZ_MOST_BYTES + EXCESS))
        return bytes;
    fault("writing", told);
    return 0;
}

static void there_and_back(const uint8_t *text, size_t len)
{
    static uint32_t first[SPDZ_MOST_NUMBERS + EXCESS], second[SPDZ_MOST_NUMBERS + EXCESS];
    static uint8_t written[SPDZ_MOST_BYTES + EXCESS];
    const size_t gates = gates_of(text, len, first);
    const size_t bytes = bytes_of(first, gates, written);
    if (gates_of(written, bytes, second) == gates && memcmp(first, second, sizeof first) == 0) return;
    fprintf(stderr, "sheet: what is written is read as another circuit\n");
    faults++;
}

/* Every list that an entry is lent, with its length beside it. */
struct lent {
    uint8_t text[128];
    uint32_t circuit[16];
    uint64_t answer[SPDZ_PLACES];
    size_t parties, text_len, circuit_len, answer_len;
};

typedef struct spdz_refusal entry(struct lent *x);

static struct spdz_refusal read_sheet(struct lent *x)
{
    return spdz_read_sheet(x->parties, x->text, x->text_len, x->circuit, x->circuit_len, x->answer, x->answer_len);
}

static struct spdz_refusal write_sheet(struct lent *x)
{
    return spdz_write_sheet(x->parties, x->circuit, x->circuit_len, x->text, x->text_len, x->answer, x->answer_len);
}

/* The call is refused by the question, at the index, and leaves all that it was lent. */
static void refused(const char *name, entry *call, struct lent x, uint32_t number, size_t index)
{
    struct lent before;
    memcpy(&before, &x, sizeof x);
    const struct spdz_refusal told = call(&x);
    if (told.number == number && told.index == index && memcmp(&x, &before, sizeof x) == 0) return;
    fprintf(stderr, "sheet: %s: %" PRIu32 " %zu, wanted %" PRIu32 " %zu%s\n", name, told.number, told.index, number, index,
            memcmp(&x, &before, sizeof x) == 0 ? "" : "; a list is changed");
    faults++;
}

/* A short list for the answer is asked last. */
static void refused_first(const char *name, entry *call, struct lent x, uint32_t number, size_t index)
{
    refused(name, call, x, number, index);
    x.answer_len = SPDZ_PLACES - 1;
    refused(name, call, x, number, index);
    x.answer_len = 0;
    refused(name, call, x, number, index);
}

static void accepted(const char *name, entry *call, struct lent x, uint64_t kind, uint64_t count)
{
    const struct spdz_refusal told = call(&x);
    if (told.number != 0 || told.index != 0 || x.answer[0] != kind || x.answer[1] != count) fault(name, told);
}

static struct lent lent_text(const char *text)
{
    struct lent x;
    memset(&x, 0, sizeof x);
    x.parties = 2;
    x.text_len = strlen(text);
    memcpy(x.text, text, x.text_len);
    for (size_t i = 0; i < LENGTH(x.circuit); i++) x.circuit[i] = MARK;
    x.circuit_len = LENGTH(x.circuit);
    x.answer_len = SPDZ_PLACES;
    return x;
}

static void reader_refuses(void)
{
    static const struct { const char *text; uint32_t number; size_t index; } cases[] = {
        {"", 3, 0},
        {"(in 0)\n", 3, 0},
        {"(in 0)\n(out (in 2))\n", 5, 1},
        {"(out (plus (in 0) 2147483647))\n", 6, 1},
        {"(in 0)\n(in 1)\n", 7, 0},
        {"(in 0)\n(out (line 0))", SHAPE, 21},
        {"(in 0)\n(out (line 1))\n", SHAPE, 18},
        {"(add (line 0) (in 0))\n", SHAPE, 6},
        {"(sq (in 0) (in 0))\n", SHAPE, 10},
        {"(sx", SHAPE, 2},
        {"(sq", SHAPE, 3},
        {"(gx", SHAPE, 2},
        {"(giv", SHAPE, 4},
        {"(give (in 0))\n", SHAPE, 12},
        {"(give (give (in 0) 1) 1)\n", SHAPE, 7},
        {"(in 0)\n(give (line 0) 4294967296)\n", SHAPE, 31},
        {"(in 0)\n(give (in 0) 1)\n(out (line 1))\n", SHAPE, 34},
        {"(give (in 0) 2)\n", 5, 1},
        {"(give (in 0) 1)\n(in 0)\n", 7, 0},
        {"(ox", SHAPE, 2},
        {"(ove", SHAPE, 4},
        {"(over (in 0))\n", SHAPE, 12},
        {"(over (out (in 0)) 2)\n", SHAPE, 8},
        {"(over (in 0) 4294967296)\n", SHAPE, 22},
        {"(over (in 0) 0)\n(out (line 0))\n", 6, 1},
        {"(over (in 0) 2147483647)\n(out (line 0))\n", 6, 1},
        {"(over (in 0) 2)\n", 7, 0},
        {"(in 4294967296)\n", SHAPE, 13},
        {"(plus (plus (plus (plus (plus (plus (plus (plus (plus (plus (plus (plus (plus (plus (plus (plus (", DEEP, 96},
    };
    for (size_t i = 0; i < LENGTH(cases); i++)
        refused_first("read_sheet", read_sheet, lent_text(cases[i].text), cases[i].number, cases[i].index);

    accepted("read_sheet", read_sheet, lent_text("(in 0)\n(give (line 0) 1)\n"), SPDZ_READ, 2);
    accepted("read_sheet", read_sheet, lent_text("(out (over (in 0) 3))\n"), SPDZ_READ, 3);

    struct lent x = lent_text("(in 0)\n(out (line 0))\n");
    accepted("read_sheet", read_sheet, x, SPDZ_READ, 2);
    x.circuit_len = 8;
    accepted("read_sheet", read_sheet, x, SPDZ_READ, 2);
    x.circuit_len = 7;
    refused_first("read_sheet", read_sheet, x, ROOM, 0);
    x.circuit_len = 8;
    x.answer_len = SPDZ_PLACES - 1;
    refused("read_sheet", read_sheet, x, ROOM, 0);
    x.parties = 9;
    refused_first("read_sheet", read_sheet, x, 1, 0);
}

static struct lent lent_circuit(const uint32_t circuit[8])
{
    struct lent x = lent_text("");
    memset(x.text, MARK, sizeof x.text);
    x.text_len = sizeof x.text;
    memcpy(x.circuit, circuit, 8 * sizeof circuit[0]);
    x.circuit_len = 8;
    return x;
}

static void writer_refuses(void)
{
    static const struct { uint32_t circuit[8], number; size_t index; } cases[] = {
        {{1, 0, 0, 0, 11, 0, 0, 1}, 4, 1},
        {{1, 2, 0, 0, 7, 0, 0, 0}, 5, 0},
        {{1, 0, 0, 0, 7, 1, 0, 0}, 5, 1},
        {{1, 0, 0, 0, 8, 1, 0, 0}, 5, 1},
        {{1, 0, 0, 0, 9, 0, 2, 0}, 5, 1},
        {{1, 0, 0, 0, 9, 1, 1, 0}, 5, 1},
        {{1, 0, 0, 0, 10, 1, 0, 1}, 5, 1},
        {{1, 0, 0, 1, 7, 0, 0, 0}, 6, 0},
        {{1, 0, 0, 0, 8, 0, 1, 0}, 6, 1},
        {{1, 0, 0, 0, 9, 0, 1, 1}, 6, 1},
        {{1, 0, 0, 0, 10, 0, 1, 1}, 6, 1},
        {{1, 0, 0, 0, 10, 0, 0, 0}, 6, 1},
        {{1, 0, 0, 0, 10, 0, 0, 2147483647}, 6, 1},
        {{1, 0, 0, 0, 1, 1, 0, 0}, 7, 0},
        {{1, 0, 0, 0, 8, 0, 0, 0}, 7, 0},
        {{1, 0, 0, 0, 10, 0, 0, 1}, 7, 0},
    };
    for (size_t i = 0; i < LENGTH(cases); i++)
        refused_first("write_sheet", write_sheet, lent_circuit(cases[i].circuit), cases[i].number, cases[i].index);

    static const uint32_t give[8] = {1, 0, 0, 0, 9, 0, 1, 0};
    accepted("write_sheet", write_sheet, lent_circuit(give), SPDZ_WRITTEN, 25);

    static const uint32_t two[8] = {1, 0, 0, 0, 7, 0, 0, 0};
    struct lent x = lent_circuit(two);
    accepted("write_sheet", write_sheet, x, SPDZ_WRITTEN, 22);
    x.text_len = 22;
    accepted("write_sheet", write_sheet, x, SPDZ_WRITTEN, 22);
    x.text_len = 21;
    refused_first("write_sheet", write_sheet, x, ROOM, 0);
    x.text_len = 22;
    x.answer_len = SPDZ_PLACES - 1;
    refused("write_sheet", write_sheet, x, ROOM, 0);
    x.circuit_len = 7;
    refused_first("write_sheet", write_sheet, x, 3, 0);
    x.parties = 1;
    refused_first("write_sheet", write_sheet, x, 1, 0);
}

int main(int count, char **arguments)
{
    static const char squares[] = "(in 0)\n(out (sub (sq (line 0)) (sq (sq (in 1)))))\n";
    static const char gives[] = "(in 0)\n(give (mul (line 0) (in 4)) 3)\n(out (line 0))\n(give (line 0) 4)\n";
    static const char overs[] = "(over (in 0) 2147483646)\n(out (times (over (sq (line 0)) 7) 7))\n(give (over (line 0) 1) 4)\n";
    static uint8_t text[SPDZ_MOST_BYTES];
    if (count != 2) {
        fprintf(stderr, "usage: sheet FILE\n");
        return 2;
    }
    FILE *file = fopen(arguments[1], "rb");
    if (file == NULL) {
        perror(arguments[1]);
        return 2;
    }
    const size_t len = fread(text, 1, sizeof text, file);
    fclose(file);
    there_and_back(text, len);
    there_and_back((const uint8_t *)squares, strlen(squares));
    there_and_back((const uint8_t *)gives, strlen(gives));
    there_and_back((const uint8_t *)overs, strlen(overs));
    reader_refuses();
    writer_refuses();
    return faults != 0;
}
