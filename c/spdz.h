/* The proved online phase for callers in C. Build the archive with `c/archive`; link target/staticlib/libcapi.a.
 *
 * Every list is a pointer and a length in numbers, a text one in bytes. Lists of one call must not overlap, except that two lists that are only
 * read may. Nothing is kept between calls, and nothing is allocated. What each entry does is proved (crates/capi/src)
 * for lists of any length and numbers of any size; that the pointers and lengths are right is the caller's part.
 */
#ifndef SPDZ_H
#define SPDZ_H

#include <stddef.h>
#include <stdint.h>

/* The size of the field. An element is a number below it. */
#define SPDZ_P UINT32_C(2147483647)

/* What every entry returns: the number of the first question that refuses, and its index; 0 and 0 where the call is accepted.
 * A refused call writes into none of its lists. A list for the answer that is shorter than SPDZ_PLACES is refusal 18, which
 * is asked last: every other question goes first. */
struct spdz_refusal {
    uint32_t number;
    size_t index;
};

/* The answer of an accepted call is SPDZ_PLACES numbers, of which the first is its kind; a longer list stays as it was beyond them.
 *
 *   of a party's entry                       [0]               [1]     [2]    [3]    [4]    [5]
 *   the next position                        SPDZ_NEXT         0       gate   half   round  held
 *   an output, and the next position         SPDZ_OUTPUT       output  gate   half   round  held
 *   the run is aborted                       SPDZ_ABORT        party   gate   half   round  held
 *
 *   of the joint run
 *   the run is finished                      SPDZ_DONE         rounds  0      0      0      0
 *   the run is aborted at a gate             SPDZ_ABORTED_RUN  rounds  gate   party  0      0
 *
 *   of the reader and the writer of sheets
 *   a sheet is read as a circuit             SPDZ_READ         gates   0      0      0      0
 *   a circuit is written as a sheet          SPDZ_WRITTEN      bytes   0      0      0      0
 *
 *   of the entry that asks whether a circuit fits
 *   every gate fits                          SPDZ_FITS         0       0      0      0      0
 *   a gate is an over, or may leave          SPDZ_LEAVES       gate    0      0      0      0
 *
 * At an out gate (kind 7) every party is told the output; at a give gate (kind 9) its receiver alone, and every other party gets the next position.
 * Gates of kinds 2 to 5 and 10 (add, sub, plus, times, over) are linear: they have no round and no position, and are worked out by the receiving half before them.
 * An over divides by its constant modulo SPDZ_P; a constant 0 is refusal 6 there, and not at a times.
 *
 * Where a run is aborted, `party` is one more than the number of the lowest party whose revealed words do not hash to its mark, and 0 where all do and the
 * check shares do not sum to zero. In a joint run every mark is made of the very words that are revealed, so that it is always 0 there.
 */
#define SPDZ_PLACES 6

enum { SPDZ_NEXT = 1, SPDZ_OUTPUT = 2, SPDZ_ABORT = 3 };
enum { SPDZ_DONE = 1, SPDZ_ABORTED_RUN = 2 };
enum { SPDZ_READ = 4, SPDZ_WRITTEN = 5 };
enum { SPDZ_FITS = 6, SPDZ_LEAVES = 7 };

/* A position is four numbers: a gate, a half, a round, and the check share held. Numbers that name no half or no round, or a round beside
 * SPDZ_FINISHED or SPDZ_ABORTED, name a position that cannot occur, and question 13 refuses it in its turn. A number keeps its meaning:
 * a round that is added later gets the next one. */

/* Halves: the sending or the receiving half of a round; the ends of a run, which have no round: theirs is SPDZ_NO_ROUND. */
enum { SPDZ_SEND = 0, SPDZ_RECEIVE = 1, SPDZ_FINISHED = 2, SPDZ_ABORTED = 3 };

/* Rounds. */
enum {
    SPDZ_NO_ROUND = 0,
    SPDZ_OWN = 0,           /* an in, a mul or an sq gate's own */
    SPDZ_OPEN = 1,          /* an output's opening: of an out or a give gate */
    SPDZ_COMMIT_FIRST = 2,  /* the check of what is opened and unchecked before an output */
    SPDZ_REVEAL_FIRST = 3,
    SPDZ_COMMIT_SECOND = 4, /* the check of the output's opening */
    SPDZ_REVEAL_SECOND = 5
};

/* Opening a run: the position at which party `me` of `parties` starts. */
struct spdz_refusal spdz_open_run(size_t parties, size_t me,
                                  const uint32_t *circuit, size_t circuit_len,
                                  const uint32_t *prep, size_t prep_len,
                                  const uint32_t *inputs, size_t inputs_len,
                                  const uint32_t *scratch, size_t scratch_len,
                                  uint64_t *answer, size_t answer_len);

/* Bytes of a nonce, and the most words that a party sends in one round: its check share and its nonce, where it reveals them. */
enum { SPDZ_NONCE = 32, SPDZ_MOST_WORDS = 9 };

/* Sending at a position: the party's words go to the start of `out`. The coefficients are those of a commitment, else none; the nonce is its SPDZ_NONCE
 * bytes, else none, and is written into the scratch, where the reveal reads it. Any other sending writes nothing there. */
struct spdz_refusal spdz_send(size_t parties, size_t me,
                              const uint32_t *circuit, size_t circuit_len,
                              const uint32_t *prep, size_t prep_len,
                              const uint32_t *inputs, size_t inputs_len,
                              uint32_t *scratch, size_t scratch_len,
                              size_t gate, uint32_t half, uint32_t round, uint32_t held,
                              const uint32_t *coefficients, size_t coefficients_len,
                              const uint8_t *nonce, size_t nonce_len,
                              uint32_t *out, size_t out_len,
                              uint64_t *answer, size_t answer_len);

/* Receiving at a position: `heard` has the words of all parties in party order, this party's own among them. */
struct spdz_refusal spdz_receive(size_t parties, size_t me,
                                 const uint32_t *circuit, size_t circuit_len,
                                 const uint32_t *prep, size_t prep_len,
                                 const uint32_t *inputs, size_t inputs_len,
                                 uint32_t *scratch, size_t scratch_len,
                                 size_t gate, uint32_t half, uint32_t round, uint32_t held,
                                 const uint32_t *heard, size_t heard_len,
                                 uint64_t *answer, size_t answer_len);

/* All parties in one run: preprocessing, inputs and scratch are joined in party order, coefficients in order of use; nonces in the order of the checks,
 * the parties in order within each. `outputs` has a place for each out and each give gate, in the order of the gates. */
struct spdz_refusal spdz_joint_run(size_t parties,
                                   const uint32_t *circuit, size_t circuit_len,
                                   const uint32_t *preps, size_t preps_len,
                                   const uint32_t *inputs, size_t inputs_len,
                                   uint32_t *scratch, size_t scratch_len,
                                   const uint32_t *coefficients, size_t coefficients_len,
                                   const uint8_t *nonces, size_t nonces_len,
                                   uint32_t *transcript, size_t transcript_len,
                                   uint32_t *outputs, size_t outputs_len,
                                   uint64_t *answer, size_t answer_len);

/* A circuit as text, a sheet: bracketed forms, one on each line; (out F) and (give F S) stand outermost only. The numbers that refuse a text are
 * 22 (it breaks the shape), 23 (a bracket opens depth 17) and 24 (a bracket closes gate 257), each with the index of the byte; then come 3 to 7 of
 * the circuit that is read, and 18.
 *
 * Reading a sheet: the gates' numbers go to the start of `circuit`, four for each gate. SPDZ_MOST_NUMBERS are enough for any sheet. */
struct spdz_refusal spdz_read_sheet(size_t parties,
                                    const uint8_t *text, size_t text_len,
                                    uint32_t *circuit, size_t circuit_len,
                                    uint64_t *answer, size_t answer_len);

/* Writing a circuit as a sheet with a line for each gate, which reads back as the same circuit: its bytes go to the start of `text`, with none after them to
 * mark the end. SPDZ_MOST_BYTES are enough for any circuit. */
struct spdz_refusal spdz_write_sheet(size_t parties,
                                     const uint32_t *circuit, size_t circuit_len,
                                     uint8_t *text, size_t text_len,
                                     uint64_t *answer, size_t answer_len);

/* 256 gates of four numbers; 256 lines of at most 30 bytes. */
enum { SPDZ_MOST_NUMBERS = 1024, SPDZ_MOST_BYTES = 7680 };

/* Does a circuit fit: are the values of all its gates, for all inputs in range, the whole numbers that its sums, differences and products come to, so that
 * none wraps round? `ranges` has two numbers for each in gate in the order of the gates, the lowest and the highest of its input. `changes` is 0 where no
 * change is given, and `gate` and `amount` are then not looked at; every other number says that the input of that in gate may change by that amount at most.
 * The numbers that refuse are 1 and 3 to 7, 26 (ranges of the wrong count, reversed, or with an end at or above SPDZ_P), 27 (the change is of a gate that is no
 * in gate) and 18, of which 26, 27 and 18 have index 0.
 *
 * Where every gate fits, the lowest and the highest value of each gate go to the start of `intervals`, 0 and 0 for an out and for a give gate; and where a
 * change is given, by how much it can move each output, of out and give gates as they come, to the start of `moves`. Without a change nothing is written there,
 * and its length is not asked. Where a gate leaves, the first such gate is told, and nothing is written but the answer.
 * SPDZ_MOST_INTERVALS and SPDZ_MOST_MOVES are enough for any circuit. */
struct spdz_refusal spdz_will_fit(size_t parties,
                                  const uint32_t *circuit, size_t circuit_len,
                                  const uint32_t *ranges, size_t ranges_len,
                                  uint32_t changes, size_t gate, uint32_t amount,
                                  uint32_t *intervals, size_t intervals_len,
                                  uint32_t *moves, size_t moves_len,
                                  uint64_t *answer, size_t answer_len);

/* Two numbers for each of 256 gates; a number for each output, of which there are fewer than gates. */
enum { SPDZ_MOST_INTERVALS = 512, SPDZ_MOST_MOVES = 256 };

#endif
