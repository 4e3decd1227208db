/* The calls from C: a list with two elements of different actors is made, looked at and asked for a spot.
   Ends with 0 if all was as it should be; else the failed line is on the error output. */
#include "gantrysnip.h"
#include <stdio.h>
#include <string.h>

static uint64_t rows[GANTRYSNIP_ROWS_LENGTH];
static uint64_t succs[GANTRYSNIP_SUCCESSORS_LENGTH];
static uint64_t room[GANTRYSNIP_ROOM_LENGTH];
static uint64_t out[GANTRYSNIP_ROWS * GANTRYSNIP_ENTRY_WORDS];
static uint64_t answer[GANTRYSNIP_ANSWER_LENGTH];
static int failed = 0;

static void expect(int holds, int line) {
    if (!holds) {
        fprintf(stderr, "use.c:%d: not as expected; the answer is %llu %llu %llu\n", line,
                (unsigned long long)answer[0], (unsigned long long)answer[1], (unsigned long long)answer[2]);
        failed = 1;
    }
}
#define EXPECT(holds) expect((holds), __LINE__)

#define LIST GANTRYSNIP_ID(1, 0)
#define OLDER GANTRYSNIP_ID(2, 0)
#define NEWER GANTRYSNIP_ID(2, 1)

/* Make list at ROOT key "r", then two inserts at HEAD: the one with the greater id stands first. */
static const uint64_t made[3][GANTRYSNIP_ROW_WORDS] = {
    {LIST, 0, 0, 0, 1, (uint64_t)'r' << 56, 0, 0, 0, 2, 0, 0},
    {NEWER, LIST, 1, 0, 0, 0, 0, 0, 1, 1, 3, 99},
    {OLDER, LIST, 1, 0, 0, 0, 0, 0, 1, 1, 8, (uint64_t)-5},
};

static uint64_t merge(const uint64_t *batch, uint64_t operations, uint64_t row_count) {
    return gantrysnip_merge(rows, GANTRYSNIP_ROWS_LENGTH, succs, GANTRYSNIP_SUCCESSORS_LENGTH, row_count, 0, batch,
                            operations * GANTRYSNIP_OPERATION_WORDS, operations, room, GANTRYSNIP_ROOM_LENGTH, answer,
                            GANTRYSNIP_ANSWER_LENGTH);
}

static void make(void) {
    uint64_t batch[3][GANTRYSNIP_OPERATION_WORDS] = {{0}};
    /* the order of a batch is free */
    for (int at = 0; at < 3; at++)
        memcpy(batch[2 - at], made[at], sizeof made[at]);
    EXPECT(merge(batch[0], 3, 0) == 0 && answer[0] == 0 && answer[1] == 3 && answer[2] == 0);
    EXPECT(memcmp(rows, made, sizeof made) == 0);
    EXPECT(merge(batch[0], 3, 3) == 5 && answer[1] == 0);
    EXPECT(memcmp(rows, made, sizeof made) == 0);
}

static uint64_t spot(uint64_t target, size_t room_length) {
    return gantrysnip_spot(rows, GANTRYSNIP_ROWS_LENGTH, succs, GANTRYSNIP_SUCCESSORS_LENGTH, 3, 0, succs, 0, LIST,
                           target, room, room_length, answer, GANTRYSNIP_ANSWER_LENGTH);
}

int main(void) {
    static const uint64_t sizes[] = {GANTRYSNIP_ROWS, GANTRYSNIP_SUCCESSORS, GANTRYSNIP_BATCH, GANTRYSNIP_ROW_WORDS,
        GANTRYSNIP_SUCCESSOR_WORDS, GANTRYSNIP_OPERATION_WORDS, GANTRYSNIP_ENTRY_WORDS, GANTRYSNIP_ROOM_LENGTH,
        GANTRYSNIP_CLOCK_LENGTH, 0};
    for (uint64_t which = 0; which < sizeof sizes / sizeof sizes[0]; which++)
        EXPECT(gantrysnip_size(which) == sizes[which]);

    make();
    uint64_t clock[GANTRYSNIP_CLOCK_LENGTH] = {2};
    uint64_t number = gantrysnip_picture(rows, GANTRYSNIP_ROWS_LENGTH, succs, GANTRYSNIP_SUCCESSORS_LENGTH, 3, 0, clock,
                                         GANTRYSNIP_CLOCK_LENGTH, out, sizeof out / sizeof out[0], room,
                                         GANTRYSNIP_ROOM_LENGTH, answer, GANTRYSNIP_ANSWER_LENGTH);
    EXPECT(number == 0 && answer[1] == 2);
    EXPECT(out[0] == LIST && out[GANTRYSNIP_ENTRY_WORDS] == OLDER);
    EXPECT((int64_t)out[GANTRYSNIP_ENTRY_WORDS + 10] == -5);

    EXPECT(spot(2, GANTRYSNIP_ROOM_LENGTH) == 0 && answer[1] == OLDER && answer[2] == 3);
    EXPECT(spot(3, GANTRYSNIP_ROOM_LENGTH) == 10);
    EXPECT(spot(0, GANTRYSNIP_ROOM_LENGTH - 1) == 1);
    if (!failed)
        puts("the calls answer C as documented");
    return failed;
}
