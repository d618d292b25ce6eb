/* The way to the mua and to a lowering as crates/boundary/src/begins.rt, misses.rt,
 * mua.rt and lowering.rt go it: jumps from busy periods, and climbs that begin by those
 * that are known. Part of planner.c. */

static uint32_t greater(uint32_t a, uint32_t b) { return a < b ? b : a; }

static uint32_t probe(uint32_t low, uint32_t high, uint32_t turn)
{
    if (turn == 0)
        return low + 1;
    if (turn % 4 == 3)
        return low + (high - low) / 2;
    return high - 1;
}

/* The last period at which a deadline is missed, and where the climbs right past it may
 * begin: at a busy period there, or where they began before. */
struct miss {
    uint32_t last, busy;
};

/* Whether task k's demand is at least that of task j, above it, by every time: all but
 * j's blocking is part of it, and k's own demand has to make up for that. */
static int is_covered(const struct plan *plan, uint32_t j, uint32_t k)
{
    return plan->blocking[j] <= plan->own_demand[k];
}

/* No busy period of task k is below this, where that of task j above it is `above`:
 * with its own demand in the place of that one's blocking it is no shorter, if its
 * demand covers that one's. */
static uint32_t start_below(const struct plan *plan, uint32_t j, uint32_t k, uint32_t above)
{
    if (!is_covered(plan, j, k))
        return plan->own_demand[k];
    return above - plan->blocking[j] + plan->own_demand[k];
}

/* The same of task k by the task right above it; the first has none. */
static uint32_t start_at(const struct plan *plan, uint32_t k, uint32_t above)
{
    return k == 0 ? plan->own_demand[k] : start_below(plan, k - 1, k, above);
}

/* The last period of task i, from `low` up to its greatest, at which task k, below
 * it, misses its deadline; `low` where there is none above. No busy period there may
 * be below `start`. Where task i runs more often, task k's is longer by one run of it
 * at least. Leaves periods[i] at some value. */
static struct miss last_miss(const struct plan *plan, uint32_t *periods, uint32_t i, uint32_t k, uint32_t low,
                             uint32_t start)
{
    uint32_t end = last_end(plan, k, periods[k]);
    uint32_t high = plan->period_max[i] + 1, busy = start;

    for (uint32_t turn = 0; low + 1 < high; turn++) {
        uint32_t period = probe(low, high, turn);
        periods[i] = period;
        uint32_t found = busy_from(plan, periods, k, end, start);
        if (found == 0) {
            low = period;
        } else {
            uint32_t window = found + plan->jitter[i];
            busy = found;
            start = found + plan->wcet[i];
            high = rounded_up(window, rounded_up(window, period));
        }
    }
    return (struct miss){low, busy};
}

/* The same of the tasks between task i and task k, whose own is `known`: it settles
 * every task whose demand k's covers and which meets its deadline with k's busy
 * period for its own. */
static uint32_t last_miss_between(const struct plan *plan, uint32_t *periods, uint32_t i, uint32_t k,
                                  struct miss known)
{
    for (uint32_t j = k - 1; j > i; j--)
        if (last_end(plan, j, periods[j]) < known.busy || !is_covered(plan, j, k)) {
            known = last_miss(plan, periods, i, j, known.last, plan->own_demand[j]);
            k = j;
        }
    return known.last;
}

/* The same of all tasks below task i, the lowest first; the time is the lowest one's. */
static struct miss last_miss_below(const struct plan *plan, uint32_t *periods, uint32_t i, uint32_t low,
                                   uint32_t start)
{
    uint32_t k = plan->n - 1;
    struct miss lowest = last_miss(plan, periods, i, k, low, start);
    uint32_t last = last_miss_between(plan, periods, i, k, lowest);

    return lowest.last < last ? (struct miss){last, start} : lowest;
}

/* The same of task i, too, which meets its deadline from its busy period `own` and its
 * jitter on. */
static struct miss last_miss_from(const struct plan *plan, uint32_t *periods, uint32_t i, uint32_t own, uint32_t low,
                                  uint32_t start)
{
    uint32_t from = greater(low, own + plan->jitter[i] - 1), lowest = plan->n - 1;

    if (lowest <= i)
        return (struct miss){from, start};
    return last_miss_below(plan, periods, i, from, greater(start, start_below(plan, i, lowest, own)));
}

/* The greatest period of task i that leaves the assignment unschedulable; its busy
 * period then, which is none below `start`, 0 if it misses its deadline. */
static uint32_t raise_one(const struct plan *plan, uint32_t *periods, uint32_t i, uint32_t start)
{
    uint32_t least = periods[i];

    periods[i] = plan->period_max[i];
    uint32_t own = busy_from(plan, periods, i, last_end(plan, i, periods[i]), start);
    if (own == 0)
        return 0;
    periods[i] = last_miss_from(plan, periods, i, own, least, plan->own_demand[plan->n - 1]).last;
    return own + plan->jitter[i] <= periods[i] ? own : 0;
}

/* Below a task that is late at periods that are final every value will do. */
static void raise_to_mua(const struct plan *plan, uint32_t *periods)
{
    uint32_t above = 1;

    for (uint32_t i = 0; i < plan->n; i++)
        if (above != 0)
            above = raise_one(plan, periods, i, start_at(plan, i, above));
        else
            periods[i] = plan->period_max[i];
}

/* The lowest task's busy period is no shorter than before a period was lowered: its
 * climbs begin there. */
static uint64_t lower_to(const struct plan *plan, const uint32_t *node, uint64_t node_cost, uint64_t limit,
                         uint32_t *periods)
{
    uint32_t own = 0, start = plan->own_demand[plan->n - 1];
    uint64_t cost = node_cost;

    memcpy(periods, plan->period_max, plan->n * sizeof *periods);
    for (uint32_t i = 0; i < plan->n && cost <= limit; i++) {
        own = busy_from(plan, periods, i, last_end(plan, i, periods[i]), start_at(plan, i, own));
        struct miss miss = last_miss_from(plan, periods, i, own, node[i] - 1, start);
        periods[i] = miss.last + 1;
        cost += (uint64_t)plan->weight[i] * (periods[i] - node[i]);
        start = miss.busy;
    }
    return cost;
}
