/* The planner of task periods, for programs in C and C++.
 *
 * Plan file in, block of 100 bytes out, both little-endian: docs/FORMAT.md has
 * the bytes of both. All times are ticks of 100 microseconds. A task is what a
 * plan file calls a job.
 */
#ifndef DESK_H
#define DESK_H

#include <stddef.h>
#include <stdint.h>

#ifdef __cplusplus
extern "C" {
#endif

/* Plans the file's tasks with at most `budget` rounds and returns the number,
 * which the block carries too. The block is written whole for every number but
 * DESK_BLOCK_SIZE; nothing else is written. Neither pointer may be null, even
 * for a length of 0, and the two spaces may not overlap. Keeps no state between
 * calls; its work space of 64,000 bytes is on the stack. */
uint32_t desk_call(const uint8_t *file, size_t file_len, uint8_t *block,
                   size_t block_len, uint64_t budget);

enum desk_number {
    DESK_ANSWERED = 0,      /* the cheapest schedulable periods; place 0 */

    /* The file is refused; n is 0. */
    DESK_FILE_SIZE = 1,     /* length below 16 or above 2,048; place 0 */
    DESK_VERSION = 2,       /* version neither 1 nor 2; place 0 */
    DESK_TASK_COUNT = 3,    /* n not 1 to 16; place 0 */
    DESK_TOTAL = 4,         /* total differs from the file's length; place 0 */
    DESK_AREA = 5,          /* an area before byte 16 or past the total; place 1 rows, 2 names */
    DESK_OVERLAP = 6,       /* the areas share a byte; place 0 */
    DESK_GAP = 7,           /* a gap byte is not zero; place: its offset */
    DESK_FIELD = 8,         /* a field outside its limits; place: the task, from 1 */
    DESK_BOUNDS = 9,        /* least period above the greatest; place: the task */
    DESK_NAME = 10,         /* not 1 to 16 of A-Z a-z 0-9 -, then zeros; place: the task */
    DESK_SAME_NAME = 11,    /* a name equal to an earlier one; place: the later task */

    /* The call is refused. */
    DESK_BLOCK_SIZE = 25,   /* block_len is not 100; tested before the file, nothing written */

    /* No periods within the bounds are schedulable. */
    DESK_LONE = 31,         /* work, hold and late above the greatest period or the cap; place: first such task */
    DESK_NONE = 32,         /* late even at all greatest periods; place: first late task */

    /* Stopped: the periods are the incumbent's, the cheapest schedulable ones found;
     * no schedulable periods cost less than the bound. Place 0. */
    DESK_BUDGET = 33,       /* the budget of rounds is spent */
    DESK_SPACE = 34         /* the work space of 16,000 numbers is full */
};

enum desk_size {
    DESK_BLOCK_LENGTH = 100,
    DESK_TASKS_MAX = 16,
    DESK_FILE_MAX = 2048
};

/* Offsets in the block. */
enum desk_offset {
    DESK_AT_NUMBER = 0,     /* 4 bytes */
    DESK_AT_PLACE = 4,      /* 4 */
    DESK_AT_COST = 8,       /* 8; 0 unless answered or stopped */
    DESK_AT_ROUNDS = 16,    /* 8 */
    DESK_AT_BOUND = 24,     /* 8; 0 unless stopped */
    DESK_AT_N = 32,         /* 4; 0 if the file was refused */
    DESK_AT_PERIODS = 36    /* 16 of 4; unused ones 0, all 0 unless answered or stopped */
};

/* By bytes: right on any machine and at any alignment. No casts: C++ would warn of
 * C's. */
static inline uint32_t desk_u32(const uint8_t *bytes)
{
    uint32_t value = 0;

    for (int k = 3; k >= 0; k--)
        value = value << 8 | bytes[k];
    return value;
}

static inline uint64_t desk_u64(const uint8_t *bytes)
{
    uint64_t high = desk_u32(bytes + 4);

    return high << 32 | desk_u32(bytes);
}

static inline uint32_t desk_number_of(const uint8_t *block) { return desk_u32(block + DESK_AT_NUMBER); }
static inline uint32_t desk_place_of(const uint8_t *block) { return desk_u32(block + DESK_AT_PLACE); }
static inline uint64_t desk_cost_of(const uint8_t *block) { return desk_u64(block + DESK_AT_COST); }
static inline uint64_t desk_rounds_of(const uint8_t *block) { return desk_u64(block + DESK_AT_ROUNDS); }
static inline uint64_t desk_bound_of(const uint8_t *block) { return desk_u64(block + DESK_AT_BOUND); }
static inline uint32_t desk_n_of(const uint8_t *block) { return desk_u32(block + DESK_AT_N); }

/* The period of a task counted from 1; 0 where there is no such task. */
static inline uint32_t desk_period_of(const uint8_t *block, uint32_t task)
{
    if (task < 1 || task > DESK_TASKS_MAX)
        return 0;
    return desk_u32(block + DESK_AT_PERIODS + 4 * (task - 1));
}

#ifdef __cplusplus
}
#endif

#endif
