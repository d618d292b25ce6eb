/* The way to the mua and to a lowering by whole tests, bisected. Part of planner.c. */

/* The greatest period of task i that leaves task k late, if that is above
 * `late`; else `late`. Leaves periods[i] at some value. */
static uint32_t greatest_late(const struct plan *plan, uint32_t *periods, uint32_t i, uint32_t k, uint32_t late)
{
    uint32_t beyond = plan->period_max[i];

    if (late == beyond)
        return late;
    periods[i] = late + 1;
    if (meets_deadline(plan, periods, k))
        return late;
    late++;
    periods[i] = beyond;
    if (!meets_deadline(plan, periods, k))
        return beyond;
    while (beyond - late > 1) {
        uint32_t middle = late + (beyond - late) / 2;
        periods[i] = middle;
        if (!meets_deadline(plan, periods, k))
            late = middle;
        else
            beyond = middle;
    }
    return late;
}

/* The same of task i and those below it, the only ones that its period matters to. The
 * lowest first: it is mostly the one that misses. */
static uint32_t greatest_late_of_any(const struct plan *plan, uint32_t *periods, uint32_t i, uint32_t late)
{
    for (uint32_t k = plan->n; k-- > i;)
        late = greatest_late(plan, periods, i, k, late);
    return late;
}

/* With a late task above, every value will do. */
static void raise_to_mua(const struct plan *plan, uint32_t *periods)
{
    int late_above = 0;

    for (uint32_t i = 0; i < plan->n; i++) {
        periods[i] = late_above ? plan->period_max[i] : greatest_late_of_any(plan, periods, i, periods[i]);
        late_above = late_above || !meets_deadline(plan, periods, i);
    }
}

static uint64_t lower_to(const struct plan *plan, const uint32_t *node, uint64_t node_cost, uint64_t limit,
                         uint32_t *periods)
{
    uint64_t cost = node_cost;

    memcpy(periods, plan->period_max, plan->n * sizeof *periods);
    for (uint32_t i = 0; i < plan->n && cost <= limit; i++) {
        periods[i] = greatest_late_of_any(plan, periods, i, node[i] - 1) + 1;
        cost += (uint64_t)plan->weight[i] * (periods[i] - node[i]);
    }
    return cost;
}
