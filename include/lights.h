/*
 * A desk for a wall of lamps. Each of n lamps has a button; pressing it changes the lamp and every
 * lamp it is wired to. The desk finds fewest presses that put all out, or a set of lamps that shows
 * that there is no way, and says how many ways there are.
 *
 * Link with libexports.a (`tools/library` builds it), which needs memcpy, memmove and memset.
 * Nothing is allocated, no file or clock is used: a board lives in memory that the caller lends, and
 * boards in different memory are independent.
 *
 * Every slice is a pointer and a length, in elements. The caller sees to it that a pointer is not
 * null, is aligned for its type and points to so many elements, and that no two slices of one call
 * overlap: a library can't test that. Everything else it tests: whatever the number of lamps, the
 * lengths, the bytes of the call and the contents of the memory are, nothing is read or written
 * outside the slices.
 */
#ifndef LIGHTS_H
#define LIGHTS_H

#include <stddef.h>
#include <stdint.h>

#ifdef __cplusplus
extern "C" {
#endif

/* The most lamps that a board can have. */
#define LIGHTS_MOST 1024

/* How much must be lent for a board of n lamps; more may be, and what is past it stays as it is. */
#define LIGHTS_ROW_WORDS(n) (((size_t)(n) + 63) / 64)
#define LIGHTS_TABLE_WORDS(n) ((size_t)(n) * LIGHTS_ROW_WORDS(n))
#define LIGHTS_ANSWER_BYTES(n) (((size_t)(n) + 7) / 8 + 16)

/*
 * The memory of a board of n lamps:
 *
 *   slice    element   at least                 what it holds
 *   wires    uint64_t  LIGHTS_TABLE_WORDS(n)    for each lamp a row of bits: what pressing it changes
 *   rows     uint64_t  LIGHTS_TABLE_WORDS(n)    those rows in reduced steps
 *   done     uint64_t  LIGHTS_TABLE_WORDS(n)    which rows of `wires` each of them is the sum of
 *   pivots   uint16_t  n                        the column that each of them owns, or n
 *   lit      uint64_t  LIGHTS_ROW_WORDS(n)      which lamps are on
 *   marks    uint64_t  LIGHTS_ROW_WORDS(n)      which rows of `wires` have changed since
 *
 * It may be copied, kept and taken up again. A caller who writes into it gets answers that need not
 * be right, and no other harm.
 *
 * What is returned is not negative, or it is -(refusal * 2^32 + place), and then nothing was written:
 *
 *   refusal 3 at 0   there is no board of so many lamps (1 to 1,024)
 *   refusal 3 at 1   a slice is shorter than it must be
 */
#define LIGHTS_REFUSAL(r) ((unsigned)((uint64_t)(-(r)) >> 32))
#define LIGHTS_PLACE(r) ((unsigned)((uint64_t)(-(r)) & 0xffffffffu))

/* How many words each of `wires`, `rows` and `done` must have, for so many lamps. */
int64_t lights_words(uint64_t lamps);

/* Opens a board without wires and with every lamp off, whatever the memory held before, and returns
 * the number of lamps. */
int64_t lights_open(uint64_t lamps,
                    uint64_t *wires, size_t wires_len,
                    uint64_t *rows, size_t rows_len,
                    uint64_t *done, size_t done_len,
                    uint16_t *pivots, size_t pivots_len,
                    uint64_t *lit, size_t lit_len,
                    uint64_t *marks, size_t marks_len);

/*
 * Performs one call on the board in the memory, writes the answer to the beginning of `answer` (at
 * least LIGHTS_ANSWER_BYTES(n)) and returns how many bytes that is; those past them stay.
 *
 * A call is a byte and then its lamps, two bytes each, low byte first:
 *
 *   0 wire i j    the wire between two lamps comes, or goes if it is there    answers 1 with i
 *   1 turn i      lamp i is turned on, or off                                 answers 1 with i
 *   2 press i     button i is pressed                                         answers 1 with i
 *   3 lit         which lamps are on                                          answers 2
 *   4 out         presses that put all out                                    answers 3, 4 or 5
 *   5 ways        how many sets of presses put all out                        answers 1 with k + 1 for
 *                                                                             2^k ways, 0 for none
 *
 * An answer begins with a byte:
 *
 *   0 refused     the refusal (a byte), its place (two bytes)
 *   1 number      two bytes
 *   2 lit         the lamps that are on
 *   3 fewest      fewest presses that put all out
 *   4 some way    presses that put all out, where there are more than 65,536 ways
 *   5 never       no presses put all out: these lamps are a quiet set (every press changes an even
 *                 number of them) of which an odd number is on; none that shows as much has fewer
 *                 lamps, unless there are more than 65,536 quiet sets
 *
 * From 2 on follow the number of lamps in two bytes and the lamps as bits, lamp 0 the lowest bit of
 * the first byte; spare bits are 0. Numbers of two bytes have the low byte first.
 *
 * A refused call is answered as well, and changes nothing of the memory:
 *
 *   refusal 1 at p   these bytes are no call; p is the length of the longest beginning that some call has
 *   refusal 2 at 0   a wire from a lamp to itself
 *   refusal 4 at 0   there is no such lamp
 */
int64_t lights_call(uint64_t lamps,
                    uint64_t *wires, size_t wires_len,
                    uint64_t *rows, size_t rows_len,
                    uint64_t *done, size_t done_len,
                    uint16_t *pivots, size_t pivots_len,
                    uint64_t *lit, size_t lit_len,
                    uint64_t *marks, size_t marks_len,
                    const uint8_t *call, size_t call_len,
                    uint8_t *answer, size_t answer_len);

#define LIGHTS_WIRE 0
#define LIGHTS_TURN 1
#define LIGHTS_PRESS 2
#define LIGHTS_LIT 3
#define LIGHTS_OUT 4
#define LIGHTS_WAYS 5

#define LIGHTS_SAYS_REFUSED 0
#define LIGHTS_SAYS_NUMBER 1
#define LIGHTS_SAYS_LIT 2
#define LIGHTS_SAYS_FEWEST 3
#define LIGHTS_SAYS_SOME_WAY 4
#define LIGHTS_SAYS_NEVER 5

#ifdef __cplusplus
}
#endif

#endif
