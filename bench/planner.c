/* The planner in plain C, as a measure for the proved one: docs/FORMAT.md's rule,
 * with the costs kept beside the nodes and no work space to clear. The way to a
 * maximal unschedulable assignment and to a lowering is bisection or, with JUMPS
 * defined, the product's. */
#include "planner.h"

#include <string.h>

enum { TASKS_MAX = 16, WORK_LENGTH = 16000, TICK_MAX = 1000000, WEIGHT_MAX = 1000 };

/* Bytes of a row in version 1 and in version 2. */
enum { ROW_1 = 20, ROW_2 = 28 };

struct plan {
    uint32_t n;
    uint32_t wcet[TASKS_MAX];
    uint32_t own_demand[TASKS_MAX]; /* wcet + blocking */
    uint32_t period_min[TASKS_MAX];
    uint32_t period_max[TASKS_MAX];
    uint32_t deadline_cap[TASKS_MAX];
    uint32_t weight[TASKS_MAX];
    uint32_t blocking[TASKS_MAX];
    uint32_t jitter[TASKS_MAX];
};

struct outcome {
    uint32_t number, place;
    uint64_t cost, rounds, bound;
    uint32_t n;
    uint32_t periods[TASKS_MAX];
};

/* Node k is the stretch periods[k * n] to periods[k * n + n - 1]. */
struct open_nodes {
    uint32_t count;
    uint32_t periods[WORK_LENGTH];
    uint64_t cost[WORK_LENGTH];
};

uint32_t reference_open_nodes;

/* The plan file */

static uint32_t u16_at(const uint8_t *p) { return p[0] | (uint32_t)p[1] << 8; }
static uint32_t u32_at(const uint8_t *p) { return u16_at(p) | u16_at(p + 2) << 16; }

static int is_tick(uint32_t value) { return value >= 1 && value <= TICK_MAX; }

static int is_name(const uint8_t *name)
{
    int length = 0;

    while (length < 16 && name[length] != 0) {
        uint8_t c = name[length];
        if (!((c >= 'A' && c <= 'Z') || (c >= 'a' && c <= 'z') || (c >= '0' && c <= '9') || c == '-'))
            return 0;
        length++;
    }
    for (int k = length; k < 16; k++)
        if (name[k] != 0)
            return 0;
    return length > 0;
}

static uint32_t refuse(uint32_t number, uint32_t place, uint32_t *where)
{
    *where = place;
    return number;
}

/* 0 for an unknown version. */
static uint32_t row_width(uint32_t version) { return version == 1 ? ROW_1 : version == 2 ? ROW_2 : 0; }

/* Row i into the plan; 0 if a field is outside its limits. */
static int read_row(const uint8_t *row, uint32_t width, struct plan *plan, uint32_t i)
{
    plan->wcet[i] = u32_at(row);
    plan->period_min[i] = u32_at(row + 4);
    plan->period_max[i] = u32_at(row + 8);
    plan->deadline_cap[i] = u32_at(row + 12);
    plan->weight[i] = u32_at(row + 16);
    plan->blocking[i] = width == ROW_2 ? u32_at(row + 20) : 0;
    plan->jitter[i] = width == ROW_2 ? u32_at(row + 24) : 0;
    plan->own_demand[i] = plan->wcet[i] + plan->blocking[i];
    return is_tick(plan->wcet[i]) && is_tick(plan->period_min[i]) && is_tick(plan->period_max[i]) &&
           is_tick(plan->deadline_cap[i]) && plan->weight[i] <= WEIGHT_MAX && plan->blocking[i] <= TICK_MAX &&
           plan->jitter[i] <= TICK_MAX;
}

/* 0, or the number of the first broken rule with its place. */
static uint32_t read_plan(const uint8_t *file, size_t length, struct plan *plan, uint32_t *place)
{
    if (length < 16 || length > 2048)
        return refuse(1, 0, place);
    uint32_t width = row_width(u16_at(file));
    if (width == 0)
        return refuse(2, 0, place);
    uint32_t n = u16_at(file + 2);
    if (n < 1 || n > TASKS_MAX)
        return refuse(3, 0, place);
    if (u32_at(file + 12) != length)
        return refuse(4, 0, place);
    uint64_t rows = u32_at(file + 4), rows_end = rows + width * n;
    uint64_t names = u32_at(file + 8), names_end = names + 16 * n;
    if (rows < 16 || rows_end > length)
        return refuse(5, 1, place);
    if (names < 16 || names_end > length)
        return refuse(5, 2, place);
    if (rows < names_end && names < rows_end)
        return refuse(6, 0, place);
    for (uint32_t at = 16; at < length; at++)
        if (file[at] != 0 && !(at >= rows && at < rows_end) && !(at >= names && at < names_end))
            return refuse(7, at, place);
    plan->n = n;
    for (uint32_t i = 0; i < n; i++) {
        if (!read_row(file + rows + width * i, width, plan, i))
            return refuse(8, i + 1, place);
        if (plan->period_min[i] > plan->period_max[i])
            return refuse(9, i + 1, place);
        if (!is_name(file + names + 16 * i))
            return refuse(10, i + 1, place);
    }
    for (uint32_t i = 1; i < n; i++)
        for (uint32_t j = 0; j < i; j++)
            if (memcmp(file + names + 16 * i, file + names + 16 * j, 16) == 0)
                return refuse(11, i + 1, place);
    return 0;
}

/* The time test */

static uint32_t deadline_at(const struct plan *plan, uint32_t k, uint32_t period)
{
    return period < plan->deadline_cap[k] ? period : plan->deadline_cap[k];
}

static uint32_t rounded_up(uint32_t a, uint32_t b) { return (a + b - 1) / b; }

/* The last t at which task k, which responds its jitter later, meets its deadline; 0,
 * at which no busy period ends, where there is none. */
static uint32_t last_end(const struct plan *plan, uint32_t k, uint32_t period)
{
    uint32_t deadline = deadline_at(plan, k, period);

    return deadline > plan->jitter[k] ? deadline - plan->jitter[k] : 0;
}

/* The busy period of task k: the least t up to `last` that covers its demand by t, 0
 * where there is none. No such t may be below `start`. */
static uint32_t busy_from(const struct plan *plan, const uint32_t *periods, uint32_t k, uint32_t last, uint32_t start)
{
    uint32_t t = start;

    while (t <= last) {
        uint64_t demand = plan->own_demand[k];
        for (uint32_t j = 0; j < k; j++)
            demand += (uint64_t)plan->wcet[j] * rounded_up(t + plan->jitter[j], periods[j]);
        if (demand <= t)
            return t;
        if (demand > last)
            return 0;
        t = (uint32_t)demand;
    }
    return 0;
}

static int meets_deadline(const struct plan *plan, const uint32_t *periods, uint32_t k)
{
    return busy_from(plan, periods, k, last_end(plan, k, periods[k]), plan->own_demand[k]) != 0;
}

/* The first task that misses its deadline, or n. */
static uint32_t first_late(const struct plan *plan, const uint32_t *periods)
{
    uint32_t k = 0;

    while (k < plan->n && meets_deadline(plan, periods, k))
        k++;
    return k;
}

/* The lowest task first: it is mostly the one that misses. */
static int is_schedulable(const struct plan *plan, const uint32_t *periods)
{
    for (uint32_t k = plan->n; k-- > 0;)
        if (!meets_deadline(plan, periods, k))
            return 0;
    return 1;
}

/* raise_to_mua(plan, periods): an unschedulable assignment becomes its maximal
 * unschedulable one.
 * lower_to(plan, node, node_cost, limit, periods): the periods become the greatest
 * ones, each in turn lowered to the least value from the node's on that leaves all
 * schedulable; returns their cost, or where that is above `limit` something above it. */
#ifdef JUMPS
#include "jumps.h"
#else
#include "bisection.h"
#endif

/* The open nodes */

static uint64_t cost_of(const struct plan *plan, const uint32_t *periods)
{
    uint64_t cost = 0;

    for (uint32_t i = 0; i < plan->n; i++)
        cost += (uint64_t)plan->weight[i] * periods[i];
    return cost;
}

static int comes_first(const uint32_t *a, const uint32_t *b, uint32_t n)
{
    for (uint32_t i = 0; i < n; i++)
        if (a[i] != b[i])
            return a[i] < b[i];
    return 0;
}

static int is_less(uint64_t a_cost, const uint32_t *a, uint64_t b_cost, const uint32_t *b, uint32_t n)
{
    return a_cost < b_cost || (a_cost == b_cost && comes_first(a, b, n));
}

static uint32_t least_open(const struct open_nodes *open, uint32_t n)
{
    uint32_t least = 0;

    for (uint32_t k = 1; k < open->count; k++)
        if (open->cost[k] <= open->cost[least] && /* mostly decides by itself */
            is_less(open->cost[k], open->periods + k * n, open->cost[least], open->periods + least * n, n))
            least = k;
    return least;
}

static void list(struct open_nodes *open, const struct plan *plan, const uint32_t *periods)
{
    memcpy(open->periods + open->count * plan->n, periods, plan->n * sizeof *periods);
    open->cost[open->count] = cost_of(plan, periods);
    open->count++;
}

/* Takes node k off; the last one moves into its stretch. */
static void take(struct open_nodes *open, uint32_t k, uint32_t n, uint32_t *periods)
{
    memcpy(periods, open->periods + k * n, n * sizeof *periods);
    open->count--;
    if (k != open->count)
        memcpy(open->periods + k * n, open->periods + open->count * n, n * sizeof *periods);
    open->cost[k] = open->cost[open->count];
}

/* Bit i: child i of `node`, whose i-th period is mua[i] + 1, dominates an open
 * node. The open node then exceeds `node` at most in place i. */
static uint32_t dropped_children(const struct open_nodes *open, const uint32_t *node, const uint32_t *mua, uint32_t n)
{
    uint32_t dropped = 0;

    for (uint32_t k = 0; k < open->count; k++) {
        const uint32_t *other = open->periods + k * n;
        uint32_t exceeds = 0, place = 0;
        for (uint32_t i = 0; i < n; i++) { /* no branch: it would be hard to predict */
            exceeds += other[i] > node[i];
            place = other[i] > node[i] ? i : place;
        }
        if (exceeds == 0)
            return UINT32_MAX;
        if (exceeds == 1 && other[place] <= mua[place] + 1)
            dropped |= (uint32_t)1 << place;
    }
    return dropped;
}

/* Lists the children of a taken node; 0 if they do not fit. */
static int list_children(struct open_nodes *open, const struct plan *plan, uint32_t *node)
{
    uint32_t n = plan->n, children = 0;
    uint32_t mua[TASKS_MAX];

    memcpy(mua, node, n * sizeof *mua);
    raise_to_mua(plan, mua);
    uint32_t dropped = dropped_children(open, node, mua, n);
    for (uint32_t i = 0; i < n; i++) {
        if (mua[i] == plan->period_max[i])
            dropped |= (uint32_t)1 << i;
        children += (~dropped >> i) & 1;
    }
    if (open->count + children > WORK_LENGTH / n)
        return 0;
    for (uint32_t i = 0; i < n; i++)
        if (!(dropped >> i & 1)) {
            uint32_t kept = node[i];
            node[i] = mua[i] + 1;
            list(open, plan, node);
            node[i] = kept;
        }
    return 1;
}

static void write_periods(const struct plan *plan, const uint32_t *periods, uint64_t cost, struct outcome *outcome)
{
    outcome->cost = cost;
    memcpy(outcome->periods, periods, plan->n * sizeof *periods);
}

/* The first incumbent. It lies in the outcome, whose cost and periods an answer
 * overwrites. */
static void begin_incumbent(const struct plan *plan, struct outcome *outcome)
{
    write_periods(plan, plan->period_max, cost_of(plan, plan->period_max), outcome);
}

/* The lowering of an unschedulable node becomes the incumbent if it is less. */
static void improve(const struct plan *plan, const uint32_t *node, uint64_t node_cost, struct outcome *outcome)
{
    uint32_t periods[TASKS_MAX];

    uint64_t cost = lower_to(plan, node, node_cost, outcome->cost, periods);
    if (is_less(cost, periods, outcome->cost, outcome->periods, plan->n))
        write_periods(plan, periods, cost, outcome);
}

static void search(const struct plan *plan, uint64_t budget, struct outcome *outcome)
{
    struct open_nodes open;
    uint32_t n = plan->n;

    for (uint32_t i = 0; i < n; i++)
        if (plan->own_demand[i] + plan->jitter[i] > deadline_at(plan, i, plan->period_max[i])) {
            outcome->number = refuse(31, i + 1, &outcome->place);
            return;
        }
    uint32_t late = first_late(plan, plan->period_max);
    if (late < n) {
        outcome->number = refuse(32, late + 1, &outcome->place);
        return;
    }
    open.count = 0;
    list(&open, plan, plan->period_min);
    begin_incumbent(plan, outcome);
    while (outcome->rounds < budget) {
        uint32_t node[TASKS_MAX];
        uint32_t least = least_open(&open, n);
        uint64_t cost = open.cost[least];
        take(&open, least, n, node);
        outcome->rounds++;
        reference_open_nodes = open.count;
        if (is_schedulable(plan, node)) {
            write_periods(plan, node, cost, outcome);
            return;
        }
        improve(plan, node, cost, outcome);
        if (!list_children(&open, plan, node)) {
            outcome->number = 34;
            outcome->bound = cost;
            return;
        }
    }
    outcome->number = 33;
    outcome->bound = open.cost[least_open(&open, n)];
    reference_open_nodes = open.count;
}

/* The block */

static uint8_t *put(uint8_t *at, uint64_t value, int width)
{
    for (int k = 0; k < width; k++)
        *at++ = (uint8_t)(value >> 8 * k);
    return at;
}

uint32_t reference_call(const uint8_t *file, size_t file_len, uint8_t *block, size_t block_len, uint64_t budget)
{
    struct plan plan;
    struct outcome outcome = {0};

    if (block_len != 100)
        return 25;
    reference_open_nodes = 0;
    outcome.number = read_plan(file, file_len, &plan, &outcome.place);
    if (outcome.number == 0) {
        outcome.n = plan.n;
        search(&plan, budget, &outcome);
    }
    block = put(block, outcome.number, 4);
    block = put(block, outcome.place, 4);
    block = put(block, outcome.cost, 8);
    block = put(block, outcome.rounds, 8);
    block = put(block, outcome.bound, 8);
    block = put(block, outcome.n, 4);
    for (int i = 0; i < TASKS_MAX; i++)
        block = put(block, outcome.periods[i], 4);
    return outcome.number;
}
