/* desk PLAN [BUDGET]: plans the jobs of a plan file and says the outcome in
 * words; USAGE below has the rest. The printed words are those of
 * docs/FORMAT.md. */
#include "desk.h"

#include <errno.h>
#include <inttypes.h>
#include <limits.h>
#include <stdio.h>
#include <stdlib.h>
#include <string.h>

enum { ANSWER = 0, STOP = 1, REFUSAL = 2, TROUBLE = 3 };

static const uint64_t DEFAULT_BUDGET = 100000;

static const char USAGE[] =
    "usage: desk PLAN [BUDGET]\n"
    "       desk --help\n"
    "Finds the cheapest periods at which every job of a plan file is on time.\n"
    "At a stop the best timetable found is listed; no timetable on time costs less than the\n"
    "bound.\n"
    "PLAN is the file's path, or - for standard input.\n"
    "BUDGET is the most rounds of the search, 0 to 18446744073709551615; 100000 if not given.\n"
    "All times are ticks of 100 microseconds.\n"
    "Exit status: 0 an answer; 1 a stop; 2 a refusal; 3 wrong arguments, or something that cannot\n"
    "be read or written.\n";

struct meaning {
    uint32_t number;
    const char *text;
    const char *place; /* what the place counts, or null where it is 0 */
};

static const struct meaning MEANINGS[] = {
    {DESK_FILE_SIZE, "the file is shorter than 16 or longer than 2,048 bytes", NULL},
    {DESK_VERSION, "the version is neither 1 nor 2", NULL},
    {DESK_TASK_COUNT, "the number of jobs is not 1 to 16", NULL},
    {DESK_TOTAL, "the total differs from the file's length", NULL},
    {DESK_AREA, "an area (1 rows, 2 names) starts before byte 16 or ends past the total", "area"},
    {DESK_OVERLAP, "rows and names share a byte", NULL},
    {DESK_GAP, "a gap byte is not zero", "offset"},
    {DESK_FIELD,
     "a field is outside its limits (work, low, high and cap 1 to 1,000,000, weight 0 to 1,000, "
     "hold and late 0 to 1,000,000)",
     "job"},
    {DESK_BOUNDS, "the low bound is above the high bound", "job"},
    {DESK_NAME, "a name is not 1 to 16 of A-Z, a-z, 0-9 and hyphen, then zeros", "job"},
    {DESK_SAME_NAME, "a name is equal to an earlier one", "job"},
    {DESK_BLOCK_SIZE, "the block is not 100 bytes long", NULL},
    {DESK_LONE, "work, hold and late are together above the job's own high bound or cap", "job"},
    {DESK_NONE, "late even with every period at its high bound", "job"},
    {DESK_BUDGET, "the budget of rounds is spent", NULL},
    {DESK_SPACE, "the work space is full", NULL},
};

static const struct meaning *meaning_of(uint32_t number)
{
    static const struct meaning unknown = {0, "a number that this program does not know", NULL};

    for (size_t i = 0; i < sizeof MEANINGS / sizeof MEANINGS[0]; i++)
        if (MEANINGS[i].number == number)
            return &MEANINGS[i];
    return &unknown;
}

/* Decimal digits only: strtoull alone would take blanks and signs. */
static int parse_budget(const char *text, uint64_t *budget)
{
    char *end;

    if (text[0] < '0' || text[0] > '9')
        return 0;
    errno = 0;
    unsigned long long value = strtoull(text, &end, 10);
    if (errno != 0 || *end != '\0')
        return 0;
#if ULLONG_MAX > UINT64_MAX
    if (value > UINT64_MAX)
        return 0;
#endif
    *budget = value;
    return 1;
}

/* Reads at most `room` bytes: with one more than a plan may have, a longer
 * file still arrives too long and is refused by its length. */
static int read_file(const char *path, uint8_t *bytes, size_t room, size_t *length)
{
    FILE *in = strcmp(path, "-") == 0 ? stdin : fopen(path, "rb");

    if (in == NULL)
        return 0;
    errno = 0;
    *length = fread(bytes, 1, room, in);
    int failed = ferror(in);
    int why = errno;
    fclose(in);
    errno = why;
    return !failed;
}

/* A job's name in a file that was accepted: its 16 bytes, zeros after the name. */
static const char *name_of(const uint8_t *file, uint32_t job)
{
    return (const char *)file + desk_u32(file + 8) + 16 * (job - 1);
}

static void tell_jobs(const uint8_t *file, const uint8_t *block)
{
    for (uint32_t job = 1; job <= desk_n_of(block); job++)
        printf("job %" PRIu32 ", %.16s: period %" PRIu32 "\n", job, name_of(file, job), desk_period_of(block, job));
}

static int tell_answer(const uint8_t *file, const uint8_t *block)
{
    printf("answer: cost %" PRIu64 ", rounds %" PRIu64 "; periods in ticks of 100 microseconds\n",
           desk_cost_of(block), desk_rounds_of(block));
    tell_jobs(file, block);
    return ANSWER;
}

/* By how much a stop's cost can be above the optimum, which is no less than the bound:
 * rounded up, so that it is never said too low. A cost is 16,000,000,000 at most: a
 * thousand times that fits 64 bits. */
static void tell_excess(uint64_t cost, uint64_t bound)
{
    if (bound == 0)
        return;
    uint64_t tenths = ((cost - bound) * 1000 + bound - 1) / bound;
    printf("the cost is at most %" PRIu64 ".%" PRIu64 " %% above the cheapest timetable's\n", tenths / 10, tenths % 10);
}

static int tell_stop(const uint8_t *file, const uint8_t *block, const char *text, const char *hint)
{
    uint64_t cost = desk_cost_of(block), bound = desk_bound_of(block);

    printf("stop %" PRIu32 ": %s; cost %" PRIu64 ", bound %" PRIu64 ", rounds %" PRIu64
           "; periods in ticks of 100 microseconds\n",
           desk_number_of(block), text, cost, bound, desk_rounds_of(block));
    tell_jobs(file, block);
    tell_excess(cost, bound);
    printf("hint: %s\n", hint);
    return STOP;
}

static int tell_refusal(const uint8_t *block, const struct meaning *meaning)
{
    uint32_t place = desk_place_of(block);

    printf("refused %" PRIu32 ", place %" PRIu32 ": %s", desk_number_of(block), place, meaning->text);
    if (meaning->place != NULL)
        printf("; %s %" PRIu32, meaning->place, place);
    putchar('\n');
    return REFUSAL;
}

static int tell(const uint8_t *file, const uint8_t *block)
{
    const struct meaning *meaning = meaning_of(desk_number_of(block));

    switch (desk_number_of(block)) {
    case DESK_ANSWERED:
        return tell_answer(file, block);
    case DESK_BUDGET:
        return tell_stop(file, block, meaning->text, "try a larger budget, or narrower bounds of some jobs");
    case DESK_SPACE:
        return tell_stop(file, block, meaning->text,
                         "try narrower bounds of some jobs; a larger budget stops here, too");
    default:
        return tell_refusal(block, meaning);
    }
}

static int plan(const char *path, uint64_t budget)
{
    uint8_t file[DESK_FILE_MAX + 1];
    uint8_t block[DESK_BLOCK_LENGTH];
    size_t length;

    if (!read_file(path, file, sizeof file, &length)) {
        fprintf(stderr, "desk: %s: %s\n", strcmp(path, "-") == 0 ? "standard input" : path,
                errno != 0 ? strerror(errno) : "cannot be read");
        return TROUBLE;
    }
    desk_call(file, length, block, sizeof block, budget);
    return tell(file, block);
}

int main(int argc, char **argv)
{
    uint64_t budget = DEFAULT_BUDGET;
    int status = ANSWER;

    if (argc == 2 && strcmp(argv[1], "--help") == 0) {
        fputs(USAGE, stdout);
    } else if (argc < 2 || argc > 3) {
        fputs(USAGE, stderr);
        return TROUBLE;
    } else if (argc == 3 && !parse_budget(argv[2], &budget)) {
        fprintf(stderr, "desk: %s: not a number of rounds, 0 to 18446744073709551615 in digits\n", argv[2]);
        return TROUBLE;
    } else {
        status = plan(argv[1], budget);
    }
    if (fflush(stdout) != 0 || ferror(stdout)) {
        fputs("desk: cannot write\n", stderr);
        return TROUBLE;
    }
    return status;
}
