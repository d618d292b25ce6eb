/* Calls desk_call as a C program would: plan P of docs/FORMAT.md, its stops and
 * one file for each refusal, in both versions. Every call is made twice: with guard
 * bytes around both lent buffers, and with buffers of exactly their size, for tools
 * that watch the heap. */
#include "../desk/desk.h"

#include <stdio.h>
#include <stdlib.h>
#include <string.h>

enum { GUARD = 64, P_LENGTH = 88, P_ROWS = 16, P_NAMES = 56 };
enum { HELD_LENGTH = 104, HELD_ROWS = 16, HELD_NAMES = 72, HOLD = 20, LATE = 24 };

static unsigned checks;

static void check(int holds, const char *what, const char *detail)
{
    checks++;
    if (!holds) {
        printf("desk_test: %s: %s\n", what, detail);
        exit(1);
    }
}

static void *lend(size_t size)
{
    void *space = malloc(size > 0 ? size : 1); /* malloc(0) may be null */

    if (space == NULL) {
        puts("desk_test: out of memory");
        exit(1);
    }
    return space;
}

static void put(uint8_t *at, uint64_t value, int width)
{
    for (int k = 0; k < width; k++)
        at[k] = (uint8_t)(value >> 8 * k);
}

/* Plan P, byte for byte. */
static const uint8_t P[P_LENGTH] = {
    1, 0, 2, 0, 16, 0, 0, 0, 56, 0, 0, 0, 88, 0, 0, 0,
    1, 0, 0, 0, 1, 0, 0, 0, 6, 0, 0, 0, 0xe8, 3, 0, 0, 1, 0, 0, 0,
    2, 0, 0, 0, 1, 0, 0, 0, 8, 0, 0, 0, 0xe8, 3, 0, 0, 1, 0, 0, 0,
    'g', 'a', 'u', 'g', 'e', 0, 0, 0, 0, 0, 0, 0, 0, 0, 0, 0,
    'r', 'a', 'd', 'i', 'o', 0, 0, 0, 0, 0, 0, 0, 0, 0, 0, 0,
};

/* P's answer, byte for byte: cost 6, rounds 4, periods 2 and 4. */
static const uint8_t P_ANSWER[DESK_BLOCK_LENGTH] = {
    0, 0, 0, 0, 0, 0, 0, 0,
    6, 0, 0, 0, 0, 0, 0, 0,
    4, 0, 0, 0, 0, 0, 0, 0,
    0, 0, 0, 0, 0, 0, 0, 0,
    2, 0, 0, 0,
    2, 0, 0, 0, 4, 0, 0, 0,
};

/* P in version 2, with radio's hold 1 and gauge's late 3. */
static const uint8_t HELD[HELD_LENGTH] = {
    2, 0, 2, 0, 16, 0, 0, 0, 72, 0, 0, 0, 104, 0, 0, 0,
    1, 0, 0, 0, 1, 0, 0, 0, 6, 0, 0, 0, 0xe8, 3, 0, 0, 1, 0, 0, 0, 0, 0, 0, 0, 3, 0, 0, 0,
    2, 0, 0, 0, 1, 0, 0, 0, 8, 0, 0, 0, 0xe8, 3, 0, 0, 1, 0, 0, 0, 1, 0, 0, 0, 0, 0, 0, 0,
    'g', 'a', 'u', 'g', 'e', 0, 0, 0, 0, 0, 0, 0, 0, 0, 0, 0,
    'r', 'a', 'd', 'i', 'o', 0, 0, 0, 0, 0, 0, 0, 0, 0, 0, 0,
};

/* Its answer, byte for byte: cost 9, rounds 3, periods 4 and 5. */
static const uint8_t HELD_ANSWER[DESK_BLOCK_LENGTH] = {
    0, 0, 0, 0, 0, 0, 0, 0,
    9, 0, 0, 0, 0, 0, 0, 0,
    3, 0, 0, 0, 0, 0, 0, 0,
    0, 0, 0, 0, 0, 0, 0, 0,
    2, 0, 0, 0,
    4, 0, 0, 0, 5, 0, 0, 0,
};

/* One call within guards. `wanted` is the block afterwards, or null where it
 * must stay as it was. */
static void call_guarded(const char *what, const uint8_t *file, size_t file_len, size_t block_len, uint64_t budget,
                         uint32_t number, const uint8_t *wanted)
{
    size_t file_size = file_len + 2 * GUARD, block_size = block_len + 2 * GUARD;
    uint8_t *file_space = lend(file_size), *file_before = lend(file_size);
    uint8_t *block_space = lend(block_size), *block_after = lend(block_size);

    memset(file_space, 0xc3, file_size);
    memcpy(file_space + GUARD, file, file_len);
    memcpy(file_before, file_space, file_size);
    memset(block_space, 0x96, block_size);
    memcpy(block_after, block_space, block_size);
    if (wanted != NULL)
        memcpy(block_after + GUARD, wanted, block_len);

    uint32_t returned = desk_call(file_space + GUARD, file_len, block_space + GUARD, block_len, budget);
    check(returned == number, what, "the returned number");
    check(memcmp(block_space, block_after, block_size) == 0, what, "the block or the bytes around it");
    check(memcmp(file_space, file_before, file_size) == 0, what, "the file or the bytes around it changed");

    free(file_space);
    free(file_before);
    free(block_space);
    free(block_after);
}

static void call_exact(const char *what, const uint8_t *file, size_t file_len, size_t block_len, uint64_t budget,
                       uint32_t number, const uint8_t *wanted)
{
    uint8_t *file_space = lend(file_len), *block_space = lend(block_len);

    if (file_len > 0)
        memcpy(file_space, file, file_len);
    if (block_len > 0)
        memset(block_space, 0x69, block_len);
    uint32_t returned = desk_call(file_space, file_len, block_space, block_len, budget);
    check(returned == number, what, "the returned number, exact sizes");
    if (wanted != NULL)
        check(memcmp(block_space, wanted, block_len) == 0, what, "the block, exact sizes");
    else
        for (size_t k = 0; k < block_len; k++)
            check(block_space[k] == 0x69, what, "the block changed, exact sizes");

    free(file_space);
    free(block_space);
}

static void call(const char *what, const uint8_t *file, size_t file_len, size_t block_len, uint64_t budget,
                 uint32_t number, const uint8_t *wanted)
{
    call_guarded(what, file, file_len, block_len, budget, number, wanted);
    call_exact(what, file, file_len, block_len, budget, number, wanted);
}

/* A refusal: the block has number, place, n and zeros. */
static void refuses(const char *what, const uint8_t *file, size_t file_len, uint32_t number, uint32_t place, uint32_t n)
{
    uint8_t wanted[DESK_BLOCK_LENGTH] = {0};

    put(wanted + DESK_AT_NUMBER, number, 4);
    put(wanted + DESK_AT_PLACE, place, 4);
    put(wanted + DESK_AT_N, n, 4);
    call(what, file, file_len, DESK_BLOCK_LENGTH, 9, number, wanted);
}

/* A search of as many rounds as its budget, of two tasks of weight 1. The periods are
 * the answer's or the incumbent's. */
static void ends(const char *what, const uint8_t *file, size_t file_len, uint64_t budget, uint32_t number,
                 uint64_t bound, const uint32_t *periods)
{
    uint8_t wanted[DESK_BLOCK_LENGTH] = {0};

    put(wanted + DESK_AT_NUMBER, number, 4);
    put(wanted + DESK_AT_COST, periods[0] + periods[1], 8);
    put(wanted + DESK_AT_ROUNDS, budget, 8);
    put(wanted + DESK_AT_BOUND, bound, 8);
    put(wanted + DESK_AT_N, 2, 4);
    put(wanted + DESK_AT_PERIODS, periods[0], 4);
    put(wanted + DESK_AT_PERIODS + 4, periods[1], 4);
    call(what, file, file_len, DESK_BLOCK_LENGTH, budget, number, wanted);
}

/* A file with one field of `width` bytes changed. */
static void changed_in(const uint8_t *sound, size_t length, const char *what, size_t at, uint64_t value, int width,
                       uint32_t number, uint32_t place, uint32_t n)
{
    uint8_t file[HELD_LENGTH];

    memcpy(file, sound, length);
    put(file + at, value, width);
    refuses(what, file, length, number, place, n);
}

static void changed(const char *what, size_t at, uint64_t value, int width, uint32_t number, uint32_t place, uint32_t n)
{
    changed_in(P, sizeof P, what, at, value, width, number, place, n);
}

static void held_changed(const char *what, size_t at, uint64_t value, int width, uint32_t number, uint32_t place,
                         uint32_t n)
{
    changed_in(HELD, sizeof HELD, what, at, value, width, number, place, n);
}

static void test_answer(void)
{
    uint8_t block[DESK_BLOCK_LENGTH];

    call("P", P, sizeof P, DESK_BLOCK_LENGTH, 4, DESK_ANSWERED, P_ANSWER);
    call("P, usual budget", P, sizeof P, DESK_BLOCK_LENGTH, 100000, DESK_ANSWERED, P_ANSWER);
    call("P, greatest budget", P, sizeof P, DESK_BLOCK_LENGTH, UINT64_MAX, DESK_ANSWERED, P_ANSWER);

    desk_call(P, sizeof P, block, sizeof block, 100000);
    check(desk_number_of(block) == DESK_ANSWERED && desk_place_of(block) == 0, "accessors", "number, place");
    check(desk_cost_of(block) == 6 && desk_rounds_of(block) == 4, "accessors", "cost, rounds");
    check(desk_bound_of(block) == 0 && desk_n_of(block) == 2, "accessors", "bound, n");
    check(desk_period_of(block, 1) == 2 && desk_period_of(block, 2) == 4, "accessors", "periods");
    for (uint32_t task = 3; task <= DESK_TASKS_MAX + 1; task++)
        check(desk_period_of(block, task) == 0, "accessors", "a period of no task");
    check(desk_period_of(block, 0) == 0, "accessors", "a period of task 0");
}

static void test_stops(void)
{
    static const uint32_t greatest[] = {6, 8}, lowered[] = {2, 4};
    uint8_t block[DESK_BLOCK_LENGTH];

    ends("P, budget 0", P, sizeof P, 0, DESK_BUDGET, 2, greatest);
    ends("P, budget 1", P, sizeof P, 1, DESK_BUDGET, 4, lowered);
    ends("P, budget 2", P, sizeof P, 2, DESK_BUDGET, 5, lowered);
    ends("P, budget 3", P, sizeof P, 3, DESK_BUDGET, 6, lowered);

    desk_call(P, sizeof P, block, sizeof block, 0);
    check(desk_number_of(block) == DESK_BUDGET && desk_place_of(block) == 0, "a stop's accessors", "number, place");
    check(desk_cost_of(block) == 14 && desk_rounds_of(block) == 0, "a stop's accessors", "cost, rounds");
    check(desk_bound_of(block) == 2 && desk_n_of(block) == 2, "a stop's accessors", "bound, n");
    check(desk_period_of(block, 1) == 6 && desk_period_of(block, 2) == 8, "a stop's accessors", "periods");
}

static void test_refusals(void)
{
    uint8_t file[DESK_FILE_MAX + 1] = {0};

    refuses("an empty file", file, 0, DESK_FILE_SIZE, 0, 0);
    refuses("15 bytes", P, 15, DESK_FILE_SIZE, 0, 0);
    memcpy(file, P, sizeof P);
    put(file + 12, DESK_FILE_MAX + 1, 4);
    refuses("2,049 bytes", file, DESK_FILE_MAX + 1, DESK_FILE_SIZE, 0, 0);
    changed("version 0", 0, 0, 2, DESK_VERSION, 0, 0);
    changed("version 3", 0, 3, 2, DESK_VERSION, 0, 0);
    changed("version 257", 0, 257, 2, DESK_VERSION, 0, 0);
    changed("version 2 with rows of version 1", 0, 2, 2, DESK_OVERLAP, 0, 0);
    changed("no task", 2, 0, 2, DESK_TASK_COUNT, 0, 0);
    changed("seventeen tasks", 2, 17, 2, DESK_TASK_COUNT, 0, 0);
    changed("total one more", 12, P_LENGTH + 1, 4, DESK_TOTAL, 0, 0);
    refuses("one byte short", P, sizeof P - 1, DESK_TOTAL, 0, 0);
    changed("rows in the header", 4, 15, 4, DESK_AREA, 1, 0);
    changed("rows past the end", 4, P_LENGTH - 39, 4, DESK_AREA, 1, 0);
    changed("names in the header", 8, 0, 4, DESK_AREA, 2, 0);
    changed("names far past the end", 8, UINT32_MAX, 4, DESK_AREA, 2, 0);
    changed("names from the last byte of the rows", 8, P_NAMES - 1, 4, DESK_OVERLAP, 0, 0);
    memcpy(file, P, sizeof P);
    put(file + 12, DESK_FILE_MAX, 4);
    file[DESK_FILE_MAX - 1] = 1;
    refuses("last gap byte not zero", file, DESK_FILE_MAX, DESK_GAP, DESK_FILE_MAX - 1, 0);
    changed("no work", P_ROWS, 0, 4, DESK_FIELD, 1, 0);
    changed("weight 1,001", P_ROWS + 36, 1001, 4, DESK_FIELD, 2, 0);
    changed("bounds crossed", P_ROWS + 24, 9, 4, DESK_BOUNDS, 2, 0);
    changed("an empty name", P_NAMES, 0, 1, DESK_NAME, 1, 0);
    changed("a letter after the end", P_NAMES + 31, 'x', 1, DESK_NAME, 2, 0);
    memcpy(file, P, sizeof P);
    memcpy(file + P_NAMES + 16, P + P_NAMES, 16);
    refuses("a name twice", file, sizeof P, DESK_SAME_NAME, 2, 0);
    changed("work above the cap", P_ROWS + 32, 1, 4, DESK_LONE, 2, 2);
    changed("gauge at 1 only", P_ROWS + 8, 1, 4, DESK_NONE, 2, 2);
}

/* HELD with other holds and lates, each of gauge and of radio, and its answer. Gauge's
 * hold lengthens its own period only; its late may cost radio one more run of gauge, too. */
static const struct held {
    const char *what;
    uint32_t holds[2], lates[2];
    uint64_t rounds;
    uint32_t periods[2];
} HELD_CASES[] = {
    {"version 2, no hold, no late", {0, 0}, {0, 0}, 4, {2, 4}},
    {"version 2, radio's hold 1", {0, 1}, {0, 0}, 5, {2, 6}},
    {"version 2, gauge's hold 2", {2, 0}, {0, 0}, 3, {3, 3}},
    {"version 2, gauge's late 3", {0, 0}, {3, 0}, 4, {4, 4}},
    {"version 2, gauge's late 5", {0, 0}, {5, 0}, 3, {6, 4}},
    {"version 2, radio's late 1", {0, 0}, {0, 1}, 4, {2, 5}},
    {"version 2, radio's hold 3", {0, 3}, {0, 0}, 5, {3, 8}},
    {"version 2, a late that leaves the periods", {0, 3}, {1, 0}, 4, {3, 8}},
};

static void test_held_answers(void)
{
    call("version 2", HELD, sizeof HELD, DESK_BLOCK_LENGTH, 3, DESK_ANSWERED, HELD_ANSWER);
    ends("version 2, budget 2", HELD, sizeof HELD, 2, DESK_BUDGET, 9, (const uint32_t[]){4, 5});
    for (size_t k = 0; k < sizeof HELD_CASES / sizeof HELD_CASES[0]; k++) {
        const struct held *held = &HELD_CASES[k];
        uint8_t file[HELD_LENGTH];

        memcpy(file, HELD, sizeof file);
        for (int i = 0; i < 2; i++) {
            put(file + HELD_ROWS + 28 * i + HOLD, held->holds[i], 4);
            put(file + HELD_ROWS + 28 * i + LATE, held->lates[i], 4);
        }
        ends(held->what, file, sizeof file, held->rounds, DESK_ANSWERED, 0, held->periods);
    }
}

static void test_held_refusals(void)
{
    uint8_t file[HELD_LENGTH];

    held_changed("version 258", 0, 258, 2, DESK_VERSION, 0, 0);
    held_changed("version 1 with rows of version 2", 0, 1, 2, DESK_GAP, HELD_ROWS + 40, 0);
    held_changed("total of version 1", 12, P_LENGTH, 4, DESK_TOTAL, 0, 0);
    held_changed("rows past the end, version 2", 4, HELD_LENGTH - 55, 4, DESK_AREA, 1, 0);
    held_changed("names past the end, version 2", 8, HELD_NAMES + 1, 4, DESK_AREA, 2, 0);
    held_changed("names where version 1 has them", 8, P_NAMES, 4, DESK_OVERLAP, 0, 0);
    held_changed("hold 1,000,001", HELD_ROWS + HOLD, 1000001, 4, DESK_FIELD, 1, 0);
    held_changed("late 1,000,001", HELD_ROWS + 28 + LATE, 1000001, 4, DESK_FIELD, 2, 0);
    held_changed("bounds crossed, version 2", HELD_ROWS + 32, 9, 4, DESK_BOUNDS, 2, 0);
    held_changed("an empty name, version 2", HELD_NAMES + 16, 0, 1, DESK_NAME, 2, 0);
    memcpy(file, HELD, sizeof file);
    memcpy(file + HELD_NAMES + 16, HELD + HELD_NAMES, 16);
    refuses("a name twice, version 2", file, sizeof file, DESK_SAME_NAME, 2, 0);
    held_changed("greatest hold", HELD_ROWS + HOLD, 1000000, 4, DESK_LONE, 1, 2);
    held_changed("work and hold one above high", HELD_ROWS + 28 + HOLD, 7, 4, DESK_LONE, 2, 2);
    held_changed("work and hold at high", HELD_ROWS + 28 + HOLD, 6, 4, DESK_NONE, 2, 2);
    held_changed("work and hold one above the cap", HELD_ROWS + 40, 2, 4, DESK_LONE, 2, 2);
    held_changed("work and hold at the cap", HELD_ROWS + 40, 3, 4, DESK_NONE, 2, 2);
    held_changed("greatest late", HELD_ROWS + LATE, 1000000, 4, DESK_LONE, 1, 2);
    held_changed("work and late one above high", HELD_ROWS + LATE, 6, 4, DESK_LONE, 1, 2);
    held_changed("work, hold and late one above high", HELD_ROWS + 28 + LATE, 6, 4, DESK_LONE, 2, 2);
    held_changed("work, hold and late at high", HELD_ROWS + 28 + LATE, 5, 4, DESK_NONE, 2, 2);
    held_changed("work and late one above the cap", HELD_ROWS + 12, 3, 4, DESK_LONE, 1, 2);
    held_changed("radio late by gauge's late", HELD_ROWS + 40, 4, 4, DESK_NONE, 2, 2);
}

static void test_block_lengths(void)
{
    static const size_t lengths[] = {0, 1, 99, 101, 1000};

    for (size_t k = 0; k < sizeof lengths / sizeof lengths[0]; k++) {
        call("a block of a wrong length", P, sizeof P, lengths[k], 9, DESK_BLOCK_SIZE, NULL);
        call("a wrong length before a wrong file", P, 3, lengths[k], 9, DESK_BLOCK_SIZE, NULL);
    }
}

int main(void)
{
    test_answer();
    test_stops();
    test_refusals();
    test_held_answers();
    test_held_refusals();
    test_block_lengths();
    printf("desk_test: %u checks hold\n", checks);
    return 0;
}
