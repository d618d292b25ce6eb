/* Times desk_call against planner.c in one run: the calls interleaved, the least of
 * several, processor time. First all must give the same block. planner.c comes in two
 * ways to a maximal unschedulable assignment and to a lowering, "bisect" and "jumps"
 * (the product's), each from gcc and, where it is installed, from clang.
 * Random plans: work 1 to 100, weight 1 to 1,000, caps 1,000,000; "wide" bounds
 * from the work to 5 times the sum of all work, "narrow" ones from 0.9 to 2
 * times that sum; docs/BENCHMARKS.md has where they come from. */
#define _POSIX_C_SOURCE 200809L

#include "../desk/desk.h"
#include "planner.h"

#include <inttypes.h>
#include <stdio.h>
#include <stdlib.h>
#include <string.h>
#include <time.h>

typedef uint32_t planner(const uint8_t *file, size_t file_len, uint8_t *block, size_t block_len, uint64_t budget);

/* planner.c compiled once more; reference_call is gcc's bisection. */
planner gcc_jumps_call;
#ifdef WITH_CLANG
planner clang_bisect_call, clang_jumps_call;
#endif

enum { SAMPLES = 15, TIMED_BUDGET = 3000, SHARE_PLANS = 100, SHARE_BUDGET = 100000 };

static const double SAMPLE_SECONDS = 0.02;

struct column {
    const char *maker, *way;
    planner *call;
};

static const struct column COLUMNS[] = {
    {"desk", "call", desk_call},
    {"gcc", "bisect", reference_call},
    {"gcc", "jumps", gcc_jumps_call},
#ifdef WITH_CLANG
    {"clang", "bisect", clang_bisect_call},
    {"clang", "jumps", clang_jumps_call},
#endif
};

enum { COLUMN_COUNT = sizeof COLUMNS / sizeof COLUMNS[0] };

struct task {
    uint32_t wcet, period_min, period_max, deadline_cap, weight;
};

struct file {
    uint32_t n;
    size_t length;
    uint8_t bytes[DESK_FILE_MAX];
};

/* Plans */

static void put(uint8_t *at, uint64_t value, int width)
{
    for (int k = 0; k < width; k++)
        at[k] = (uint8_t)(value >> 8 * k);
}

static struct file encode(const struct task *tasks, uint32_t n)
{
    struct file file = {.n = n, .length = 16 + 36 * n};

    put(file.bytes, 1, 2);
    put(file.bytes + 2, n, 2);
    put(file.bytes + 4, 16, 4);
    put(file.bytes + 8, 16 + 20 * n, 4);
    put(file.bytes + 12, file.length, 4);
    for (uint32_t i = 0; i < n; i++) {
        uint8_t *row = file.bytes + 16 + 20 * i;
        put(row, tasks[i].wcet, 4);
        put(row + 4, tasks[i].period_min, 4);
        put(row + 8, tasks[i].period_max, 4);
        put(row + 12, tasks[i].deadline_cap, 4);
        put(row + 16, tasks[i].weight, 4);
        file.bytes[16 + 20 * n + 16 * i] = (uint8_t)('a' + i);
    }
    return file;
}

/* splitmix64 */
static uint32_t within(uint64_t *state, uint32_t low, uint32_t high)
{
    uint64_t z = *state += UINT64_C(0x9e3779b97f4a7c15);

    z = (z ^ z >> 30) * UINT64_C(0xbf58476d1ce4e5b9);
    z = (z ^ z >> 27) * UINT64_C(0x94d049bb133111eb);
    z ^= z >> 31;
    return low + (uint32_t)(z % (high - low + 1));
}

/* All ticks times `scale`: the same plan over a longer range. */
static struct file random_plan(uint32_t n, int narrow, uint32_t scale, uint64_t seed)
{
    struct task tasks[DESK_TASKS_MAX];
    uint64_t state = seed * 1000 + n;
    uint32_t sum = 0;

    for (uint32_t i = 0; i < n; i++) {
        tasks[i].wcet = scale * within(&state, 1, 100);
        tasks[i].weight = within(&state, 1, 1000);
        tasks[i].deadline_cap = 1000000;
        sum += tasks[i].wcet;
    }
    for (uint32_t i = 0; i < n; i++) {
        tasks[i].period_min = narrow ? sum * 9 / 10 : tasks[i].wcet;
        tasks[i].period_max = narrow ? 2 * sum : 5 * sum;
        if (tasks[i].period_min < 1)
            tasks[i].period_min = 1;
    }
    return encode(tasks, n);
}

static struct file plan_s(void)
{
    struct task tasks[6];

    for (uint32_t i = 0; i < 6; i++)
        tasks[i] = (struct task){20 + 10 * i, 1, 1000, 1000, 1};
    return encode(tasks, 6);
}

static struct file read_file(const char *path)
{
    struct file file = {0};
    FILE *in = fopen(path, "rb");

    if (in == NULL) {
        perror(path);
        exit(1);
    }
    file.length = fread(file.bytes, 1, sizeof file.bytes, in);
    fclose(in);
    file.n = file.bytes[2];
    return file;
}

/* Timing */

static double now(void)
{
    struct timespec time;

    clock_gettime(CLOCK_PROCESS_CPUTIME_ID, &time);
    return (double)time.tv_sec + 1e-9 * (double)time.tv_nsec;
}

static double seconds(planner *call, const struct file *file, uint64_t budget, unsigned calls)
{
    uint8_t block[DESK_BLOCK_LENGTH];
    double start = now();

    for (unsigned k = 0; k < calls; k++)
        call(file->bytes, file->length, block, sizeof block, budget);
    return now() - start;
}

/* All planners must give one block, which is returned in `block`. */
static void same_block(const char *what, const struct file *file, uint64_t budget, uint8_t *block)
{
    desk_call(file->bytes, file->length, block, DESK_BLOCK_LENGTH, budget);
    for (int p = 1; p < COLUMN_COUNT; p++) {
        uint8_t given[DESK_BLOCK_LENGTH];
        COLUMNS[p].call(file->bytes, file->length, given, sizeof given, budget);
        if (memcmp(block, given, sizeof given) != 0) {
            printf("%s: desk and %s %s give different blocks\n", what, COLUMNS[p].maker, COLUMNS[p].way);
            exit(1);
        }
    }
}

static void heading(void)
{
    printf("%-16s %3s %6s %6s %5s", "plan", "n", "number", "rounds", "open");
    for (int p = 0; p < COLUMN_COUNT; p++)
        printf(" %7s", COLUMNS[p].maker);
    for (int p = 1; p < COLUMN_COUNT; p++)
        printf(" /%6s", COLUMNS[p].maker);
    printf("\n%-16s %3s %6s %6s %5s", "", "", "", "", "");
    for (int p = 0; p < COLUMN_COUNT; p++)
        printf(" %7s", COLUMNS[p].way);
    for (int p = 1; p < COLUMN_COUNT; p++)
        printf(" %7s", COLUMNS[p].way);
    printf("\n");
}

static void time_plan(const char *name, const struct file *file, uint64_t budget)
{
    uint8_t block[DESK_BLOCK_LENGTH];
    double least[COLUMN_COUNT];

    same_block(name, file, budget, block);
    double one = seconds(reference_call, file, budget, 1);
    unsigned calls = one < SAMPLE_SECONDS ? (unsigned)(SAMPLE_SECONDS / (one + 1e-7)) + 1 : 1;
    for (int sample = 0; sample < SAMPLES; sample++)
        for (int p = 0; p < COLUMN_COUNT; p++) {
            double time = seconds(COLUMNS[p].call, file, budget, calls) / calls;
            if (sample == 0 || time < least[p])
                least[p] = time;
        }
    double rounds = desk_rounds_of(block) > 0 ? (double)desk_rounds_of(block) : 1;
    printf("%-16s %3" PRIu32 " %6" PRIu32 " %6" PRIu64 " %5" PRIu32, name, file->n, desk_number_of(block),
           desk_rounds_of(block), reference_open_nodes);
    for (int p = 0; p < COLUMN_COUNT; p++)
        printf(" %7.2f", 1e6 * least[p] / rounds);
    for (int p = 1; p < COLUMN_COUNT; p++)
        printf(" %7.2f", least[0] / least[p]);
    printf("\n");
    fflush(stdout);
}

static void time_random(const char *kind, uint32_t n, int narrow, uint32_t scale, uint64_t seed)
{
    char name[32];
    struct file file = random_plan(n, narrow, scale, seed);

    if (scale == 1)
        snprintf(name, sizeof name, "%s %" PRIu64, kind, seed);
    else
        snprintf(name, sizeof name, "%s %" PRIu64 " x %" PRIu32, kind, seed, scale);
    time_plan(name, &file, TIMED_BUDGET);
}

static void time_plans(char **paths, int path_count)
{
    struct file s = plan_s();

    heading();
    time_plan("S", &s, SHARE_BUDGET);
    for (int k = 0; k < path_count; k++) {
        struct file file = read_file(paths[k]);
        const char *slash = strrchr(paths[k], '/');
        time_plan(slash != NULL ? slash + 1 : paths[k], &file, SHARE_BUDGET);
    }
    for (uint32_t n = 4; n <= 16; n += 4)
        for (uint64_t seed = 1; seed <= 2; seed++)
            time_random("wide", n, 0, 1, seed);
    for (uint32_t n = 4; n <= 16; n += 4)
        for (uint64_t seed = 1; seed <= 2; seed++)
            time_random("narrow", n, 1, 1, seed);
    for (uint32_t scale = 10; scale <= 100; scale *= 10)
        time_random("wide", 8, 0, scale, 1);
}

/* Shares and gaps */

static int ascending(const void *a, const void *b)
{
    double x = *(const double *)a, y = *(const double *)b;

    return (x > y) - (x < y);
}

/* The median and the greatest of the gaps, which it sorts. */
static void print_gaps(double *gaps, unsigned count)
{
    if (count == 0) {
        printf(" %9s %9s", "-", "-");
        return;
    }
    qsort(gaps, count, sizeof *gaps, ascending);
    printf(" %9.2f %9.2f", (gaps[(count - 1) / 2] + gaps[count / 2]) / 2, gaps[count - 1]);
}

/* In percent of the bound. */
static double gap(uint64_t cost, uint64_t bound) { return 100 * (double)(cost - bound) / (double)bound; }

/* How many of 100 random plans are answered and, of the others, how far the first
 * incumbent and the last one are above the bound, by the C reference; the timed plans
 * have shown that its blocks are the product's. */
static void share(uint32_t n, int narrow)
{
    unsigned answered = 0, budget = 0, space = 0;
    uint64_t rounds = 0;
    double first[SHARE_PLANS], last[SHARE_PLANS];

    for (uint64_t seed = 1; seed <= SHARE_PLANS; seed++) {
        uint8_t start[DESK_BLOCK_LENGTH], block[DESK_BLOCK_LENGTH];
        struct file file = random_plan(n, narrow, 1, seed);
        gcc_jumps_call(file.bytes, file.length, start, sizeof start, 0);
        uint32_t number = gcc_jumps_call(file.bytes, file.length, block, sizeof block, SHARE_BUDGET);
        if (number != DESK_ANSWERED) {
            first[budget + space] = gap(desk_cost_of(start), desk_bound_of(block));
            last[budget + space] = gap(desk_cost_of(block), desk_bound_of(block));
        }
        answered += number == DESK_ANSWERED;
        budget += number == DESK_BUDGET;
        space += number == DESK_SPACE;
        rounds += desk_rounds_of(block);
    }
    printf("%-6s %3" PRIu32 " %9u %9u %9u %12" PRIu64, narrow ? "narrow" : "wide", n, answered, budget, space,
           rounds / SHARE_PLANS);
    print_gaps(last, budget + space);
    print_gaps(first, budget + space);
    printf("\n");
    fflush(stdout);
}

int main(int argc, char **argv)
{
    printf("Processor microseconds a round, least of %d; budget %d, for S and files %d.\n", SAMPLES, TIMED_BUDGET,
           SHARE_BUDGET);
    printf("open: open nodes at the end; desk: the product; /: its time over that of C.\n\n");
    time_plans(argv + 1, argc - 1);

    printf("\nOf %d random plans, budget %d. Gap: what the incumbent of a stop costs above its bound, in percent of\n"
           "the bound; the first incumbent is all greatest periods.\n",
           SHARE_PLANS, SHARE_BUDGET);
    printf("%-6s %3s %9s %9s %9s %12s %19s %19s\n", "", "", "", "", "", "", "gap at the end", "of the first");
    printf("%-6s %3s %9s %9s %9s %12s %9s %9s %9s %9s\n", "bounds", "n", "answered", "33", "34", "mean rounds",
           "median", "worst", "median", "worst");
    static const uint32_t sizes[] = {2, 4, 6, 8, 10, 12, 16};
    for (int narrow = 0; narrow <= 1; narrow++)
        for (size_t k = 0; k < sizeof sizes / sizeof sizes[0]; k++)
            share(sizes[k], narrow);
    return 0;
}
