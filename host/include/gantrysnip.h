/* The calls of the proved merge engine, for C. The library is target/staticlib/libexports.a, which
   `host/library` makes; link it as it is: cc program.c libexports.a

   Everything is in slices of 64-bit words that the caller lends; a slice is passed as a pointer and a length in words.
   docs/LAYOUT.md has the words of rows, successors, operations and picture entries. Slices that a call writes must not
   overlap others. Nothing else is asked: for any lengths, words and counts a call ends and keeps to the slices, and
   lengths other than these are answer 1.

   A pointer is not NULL, even where its length is 0. */
#ifndef GANTRYSNIP_H
#define GANTRYSNIP_H

#include <stddef.h>
#include <stdint.h>

#ifdef __cplusplus
extern "C" {
#endif

/* At most so many in a document or a batch. */
#define GANTRYSNIP_ROWS 4096
#define GANTRYSNIP_SUCCESSORS 8192
#define GANTRYSNIP_BATCH 256

/* Words of one. */
#define GANTRYSNIP_ROW_WORDS 12
#define GANTRYSNIP_SUCCESSOR_WORDS 4
#define GANTRYSNIP_OPERATION_WORDS 29
#define GANTRYSNIP_ENTRY_WORDS 14

/* Lengths of the lent slices: rows, successors, working room, a clock (or 0 for no clock) and the answer.
   A batch has 29 words for each operation of op_count, and a picture's output at least 14 for each row of row_count. */
#define GANTRYSNIP_ROWS_LENGTH (GANTRYSNIP_ROWS * GANTRYSNIP_ROW_WORDS)
#define GANTRYSNIP_SUCCESSORS_LENGTH (GANTRYSNIP_SUCCESSORS * GANTRYSNIP_SUCCESSOR_WORDS)
#define GANTRYSNIP_ROOM_LENGTH 65536
#define GANTRYSNIP_CLOCK_LENGTH 64
#define GANTRYSNIP_ANSWER_LENGTH 3

/* An id is counter * 64 + actor; ROOT and HEAD are 0. */
#define GANTRYSNIP_ID(counter, actor) ((uint64_t)(counter) * 64 + (uint64_t)(actor))

/* Each call gives its number back, 0 where it accepts, and writes three words to the answer: the number and two values,
   or the number, the place and 0. A refused call changes nothing lent but the room, which it clears; answer 1 changes
   nothing at all. */

/* Accepted: 0, rows, successors; the new document stands at the start of rows and succs. */
uint64_t gantrysnip_merge(uint64_t *rows, size_t rows_length,
                          uint64_t *succs, size_t succs_length,
                          uint64_t row_count, uint64_t succ_count,
                          const uint64_t *batch, size_t batch_length,
                          uint64_t op_count,
                          uint64_t *room, size_t room_length,
                          uint64_t *answer, size_t answer_length);

/* Accepted: 0, entries, 0; the entries stand at the start of out. */
uint64_t gantrysnip_picture(const uint64_t *rows, size_t rows_length,
                            const uint64_t *succs, size_t succs_length,
                            uint64_t row_count, uint64_t succ_count,
                            const uint64_t *clock, size_t clock_length,
                            uint64_t *out, size_t out_length,
                            uint64_t *room, size_t room_length,
                            uint64_t *answer, size_t answer_length);

/* Accepted: 0, the element (0 for HEAD), the place of the row, counted from 0. */
uint64_t gantrysnip_spot(const uint64_t *rows, size_t rows_length,
                         const uint64_t *succs, size_t succs_length,
                         uint64_t row_count, uint64_t succ_count,
                         const uint64_t *clock, size_t clock_length,
                         uint64_t object, uint64_t target,
                         uint64_t *room, size_t room_length,
                         uint64_t *answer, size_t answer_length);

/* The sizes above, as the library has them: 0 to 2 the three counts, 3 to 6 the words of one, 7 the room, 8 a clock;
   0 for any other number. */
uint64_t gantrysnip_size(uint64_t which);

#ifdef __cplusplus
}
#endif

#endif
