/* libFuzzer on the calls that take columns. An input is a host, rows and a group; each answer is held against the others'.
 * Every sixteenth input has one of its allocations refused. */
#include "../../share/arbiter.h"
#include "guard.h"
#define FUZZER "fuzz_columns"
#include "fuzzing.h"

#include <string.h>

#define MOST 48
#define MARK 0x5a
#define NONE ARBITER_NO_LIMIT

__attribute__((section("__libfuzzer_extra_counters"))) static uint8_t seen[128 * 16];

static unsigned long calls;

struct host {
    uint64_t processors, period, slice;
};

/* The rows, each column a block of its own. */
struct rows {
    size_t parents_length, weights_length, limits_length, demands_length;
    uint32_t *parents;
    uint64_t *weights, *limits, *demands;
};

#define HOST(h) (h).processors, (h).period, (h).slice
#define ROWS(r) (r).parents, (r).parents_length, (r).weights, (r).weights_length, (r).limits, (r).limits_length, (r).demands, (r).demands_length

static void tell(void)
{
    fprintf(stderr, "calls: %lu; ", calls);
    tell_answers();
}

static uint32_t counted(uint32_t answer)
{
    demand(answer < 128, "an answer that the header does not have");
    demand(guard_held == 0, "a block that is not given back");
    calls++;
    answers[answer]++;
    return answer;
}

/* What is left of the input. */
static const uint8_t *at;
static size_t left;

static uint64_t taken(size_t bytes)
{
    uint64_t number = 0;

    for (; bytes && left; bytes--, left--)
        number = number << 8 | *at++;
    return number;
}

/* A number that is mostly small, at times great, and at times one of the ends of its range. */
static uint64_t number(uint64_t most)
{
    uint64_t kind = taken(1);

    if (kind < 160)
        return kind % (most < 64 ? most + 1 : 64);
    if (kind < 224)
        return most ? taken(3) % (most + (most < UINT64_MAX)) : 0;
    return kind < 232 ? most : kind < 240 ? most + 1 : kind < 248 ? UINT64_MAX : taken(8);
}

static struct host some_host(void)
{
    static const uint64_t slices[] = {1000, 5000, 2500, 100000, 50000, 1001};
    uint64_t kind = taken(1);
    struct host host = {1 + kind % 64, 100000, slices[kind % 6]};

    if (kind >= 250)
        host = (struct host){number(64), number(1000000), number(1000000)};
    return host;
}

static void *column(size_t length, size_t size)
{
    return guard_block(length * size, (int)(left & 1));
}

static struct rows some_rows(void)
{
    size_t count = taken(1) % (MOST + 1);
    uint64_t uneven = taken(1);
    size_t lengths[4] = {count, count, count, count};

    if (uneven >= 240 && count)
        lengths[uneven % 4] -= uneven % 8 < 4 ? 1 : count;
    struct rows rows = {lengths[0], lengths[1], lengths[2], lengths[3], column(lengths[0], 4), column(lengths[1], 8),
                        column(lengths[2], 8), column(lengths[3], 8)};
    for (size_t row = 0; row < count; row++) {
        uint64_t kind = taken(1);
        uint32_t parent = row ? (uint32_t)(kind < 128 ? row - 1 - kind % 4 % row : kind % row) : ARBITER_NO_PARENT;
        if (kind >= 250)
            parent = (uint32_t)number(MOST);
        if (row < lengths[0])
            rows.parents[row] = parent;
        if (row < lengths[1])
            rows.weights[row] = 1 + number(9999);
        if (row < lengths[2])
            rows.limits[row] = !row || taken(1) < 128 ? NONE : number(1000);
        if (row < lengths[3])
            rows.demands[row] = number(1000000);
    }
    /* Mostly no group with children asks for something itself. */
    if (taken(1) < 240)
        for (size_t row = 0; row < lengths[0] && row < lengths[3]; row++)
            if (rows.parents[row] < lengths[3])
                rows.demands[rows.parents[row]] = 0;
    return rows;
}

static int are_even(const struct rows *rows)
{
    return rows->parents_length == rows->weights_length && rows->weights_length == rows->limits_length
           && rows->limits_length == rows->demands_length;
}

static int is_marked(const void *block, size_t size)
{
    for (const uint8_t *byte = block; size; byte++, size--)
        if (*byte != MARK)
            return 0;
    return 1;
}

static void *marked(size_t length, size_t size)
{
    void *block = column(length, size);

    memset(block, MARK, length * size);
    return block;
}

/* A plan with its certificate. */
struct answer {
    size_t count;
    uint64_t *amounts, *nums, *dens;
    uint8_t *flags;
    uint32_t *places;
};

static struct answer room(size_t count)
{
    return (struct answer){count, marked(count, 8), marked(count, 8), marked(count, 8), marked(count, 1), marked(count, 4)};
}

static void drop(struct answer *answer)
{
    guard_drop(answer->amounts);
    guard_drop(answer->nums);
    guard_drop(answer->dens);
    guard_drop(answer->flags);
    guard_drop(answer->places);
}

static uint32_t certify(struct host host, struct rows rows, struct answer *found)
{
    size_t n = found->count;

    return counted(arbiter_certify(HOST(host), ROWS(rows), found->amounts, n, found->flags, n, found->nums, n, found->dens, n,
                                   found->places, n));
}

static uint32_t check(struct host host, struct rows rows, const struct answer *found, uint32_t *row)
{
    size_t n = found->count;

    return counted(arbiter_check(HOST(host), ROWS(rows), found->amounts, n, found->flags, n, found->nums, n, found->dens, n,
                                 found->places, n, row));
}

/* The amount of one group by a plan of its own. */
static uint64_t planned(struct host host, struct rows rows, uint32_t group)
{
    size_t n = rows.parents_length;
    uint64_t *amounts = column(n, 8);

    demand(counted(arbiter_plan(HOST(host), ROWS(rows), amounts, n)) == 0, "a plan is refused of rows that have one");
    uint64_t amount = amounts[group];
    guard_drop(amounts);
    return amount;
}

/* What holds of each plan: no group is above its limit or demand, and one with children gets what they get. */
static void hold_plan(struct host host, struct rows rows, const uint64_t *amounts)
{
    uint64_t below[MOST] = {0}, children[MOST] = {0};

    for (size_t row = 1; row < rows.parents_length; row++) {
        below[rows.parents[row]] += amounts[row];
        children[rows.parents[row]]++;
    }
    for (size_t row = 0; row < rows.parents_length; row++) {
        uint64_t limit = row ? rows.limits[row] : host.processors * (host.period / host.slice);
        demand(amounts[row] <= limit, "an amount above its limit");
        demand(amounts[row] <= (children[row] ? below[row] : rows.demands[row]), "an amount above what is asked");
        demand(!children[row] || amounts[row] == below[row], "a group that gets other than its children");
    }
}

static void hold_check(struct host host, struct rows rows, struct answer *found)
{
    uint32_t row = 77;

    demand(check(host, rows, found, &row) == 0 && row == 77, "a plan is not accepted");
    size_t forged = taken(2) % found->count;
    found->amounts[forged] += taken(1) % 2 ? 1 : UINT64_MAX;
    uint32_t answer = check(host, rows, found, &row);
    demand(answer >= 51 && answer <= 58 && row < found->count, "a forged amount is accepted");
}

static void hold_text(struct host host, struct rows rows, const struct answer *found)
{
    static char text[MOST * 200 + 200];
    size_t size = (size_t)sprintf(text, "bw 1 %lu %lu %lu %zu\n", host.processors, host.period, host.slice, found->count);
    uint32_t row = 77;

    for (size_t g = 0; g < found->count; g++) {
        size += (size_t)(g ? sprintf(text + size, "%u %lu ", rows.parents[g], rows.weights[g]) : sprintf(text + size, "- %lu ", rows.weights[g]));
        size += (size_t)(rows.limits[g] == NONE ? sprintf(text + size, "max ") : sprintf(text + size, "%lu ", rows.limits[g]));
        size += (size_t)sprintf(text + size, "%lu %lu %u ", rows.demands[g], found->amounts[g], found->flags[g]);
        size += (size_t)(found->dens[g] ? sprintf(text + size, "%lu/%lu@%u\n", found->nums[g], found->dens[g], found->places[g])
                                        : sprintf(text + size, "-\n"));
    }
    uint8_t *block = column(size, 1);
    memcpy(block, text, size);
    demand(counted(arbiter_check_text(block, size, &row)) == 0 && row == 77, "the text of a plan is not accepted");
    guard_drop(block);
}

static void hold_limiting(struct host host, struct rows rows, const uint64_t *amounts)
{
    size_t n = rows.parents_length;
    uint32_t *groups = marked(n, 4), count = 77;
    uint64_t rest = 77;

    demand(counted(arbiter_limiting(HOST(host), ROWS(rows), groups, n, &count, &rest)) == 0 && count <= n, "no limiting groups");
    for (uint32_t each = 0; each < count; each++)
        rest += groups[each] ? rows.limits[groups[each]] : host.processors * (host.period / host.slice);
    demand(rest == amounts[0], "limits and the rest are not the total");
    demand(is_marked(groups + count, (n - count) * 4), "more was written than was counted");
    guard_drop(groups);
}

static void hold_reasons(struct host host, struct rows rows, const uint64_t *amounts)
{
    size_t n = rows.parents_length;
    uint8_t *reasons = marked(n, 1);
    uint32_t *blamed = marked(n, 4);

    demand(counted(arbiter_reasons(HOST(host), ROWS(rows), reasons, n, blamed, n)) == 0, "no reasons");
    for (uint32_t row = 0; row < n; row++) {
        uint32_t above = row;
        demand(reasons[row] <= ARBITER_HOST_FULL, "no reason");
        demand(reasons[row] == ARBITER_LIMIT_ABOVE || blamed[row] == row, "another row is blamed");
        demand(reasons[row] != ARBITER_NOTHING_ASKED || amounts[row] == 0, "nothing asked, and something given");
        demand(reasons[row] != ARBITER_OWN_LIMIT || amounts[row] == rows.limits[row], "no own limit");
        demand(reasons[row] != ARBITER_HOST_FULL || amounts[0] == host.processors * (host.period / host.slice), "no full host");
        if (reasons[row] == ARBITER_LIMIT_ABOVE) {
            while (above && above != blamed[row])
                above = rows.parents[above];
            demand(above == blamed[row] && above != row && amounts[above] == rows.limits[above], "no limit above");
        }
    }
    guard_drop(reasons);
    guard_drop(blamed);
}

/* The figures of each row, which are worked out here from the last row to the first. */
static void hold_figures(struct host host, struct rows rows, const uint64_t *amounts)
{
    size_t n = rows.parents_length;
    uint64_t *wants = marked(n, 8), *mosts = marked(n, 8), *weights = marked(n, 8), *withheld = marked(n, 8);
    uint64_t below[MOST] = {0}, active_weights[MOST] = {0};
    uint32_t *actives = marked(n, 4), many[MOST] = {0};
    uint8_t *tights = marked(n, 1), is_inner[MOST] = {0};

    demand(counted(arbiter_figures(HOST(host), ROWS(rows), wants, n, mosts, n, tights, n, actives, n, weights, n, withheld, n)) == 0, "no figures");
    for (size_t row = n; row--;) {
        uint64_t want = is_inner[row] ? below[row] : rows.demands[row];
        uint64_t limit = row ? rows.limits[row] : host.processors * (host.period / host.slice);
        uint64_t most = want < limit ? want : limit;
        demand(wants[row] == want && mosts[row] == most && tights[row] == (limit < want), "other figures");
        demand(actives[row] == many[row] && weights[row] == active_weights[row], "other children");
        demand(withheld[row] == (row ? want - most : 0) && amounts[row] <= most, "other slices withheld");
        if (row) {
            uint32_t above = rows.parents[row];
            is_inner[above] = 1, below[above] += most, many[above] += most > 0;
            active_weights[above] += most > 0 ? rows.weights[row] : 0;
        }
    }
    guard_drop(wants), guard_drop(mosts), guard_drop(weights), guard_drop(withheld), guard_drop(actives), guard_drop(tights);
}

/* A period that drew the plan with a quota below each limit: what it leaves and counts is worked out here. */
static void hold_book(struct host host, struct rows rows, const uint64_t *amounts)
{
    size_t n = rows.parents_length;
    uint64_t *wants = marked(n, 8), *spare[3] = {marked(n, 8), marked(n, 8), marked(n, 8)};
    uint64_t *quotas = marked(n, 8), *carries = marked(n, 8), *sums[6];
    uint8_t *tights = marked(n, 1);
    uint32_t *actives = marked(n, 4);

    for (int each = 0; each < 6; each++)
        sums[each] = marked(n, 8);
    uint64_t before = n ? sums[0][0] : 0;
    for (size_t row = 0; row < n; row++)
        quotas[row] = rows.limits[row] == NONE ? NONE : rows.limits[row] - rows.limits[row] / 4;
    demand(counted(arbiter_figures(HOST(host), ROWS(rows), wants, n, spare[0], n, tights, n, actives, n, spare[1], n, spare[2], n)) == 0, "no figures");
    demand(counted(arbiter_book(HOST(host), ROWS(rows), quotas, n, amounts, n, carries, n, sums[0], n, sums[1], n, sums[2], n, sums[3], n,
                                sums[4], n, sums[5], n)) == 0, "no counters");
    for (size_t row = 0; row < n; row++) {
        int is_limited = row && rows.limits[row] != NONE;
        uint64_t withheld = is_limited && wants[row] > rows.limits[row] ? wants[row] - rows.limits[row] : 0;
        uint64_t burst = is_limited && amounts[row] > quotas[row] ? amounts[row] - quotas[row] : 0;
        demand(carries[row] == (is_limited ? rows.limits[row] - amounts[row] : 0), "another carry");
        demand(sums[0][row] == before + amounts[row] * host.slice && sums[1][row] == before + 1, "another use or number of periods");
        demand(sums[2][row] == before + (withheld > 0) && sums[3][row] == before + withheld * host.slice, "other throttling");
        demand(sums[4][row] == before + (burst > 0) && sums[5][row] == before + burst * host.slice, "other bursts");
    }
    for (int each = 0; each < 6; each++)
        guard_drop(sums[each]);
    guard_drop(spare[0]), guard_drop(spare[1]), guard_drop(spare[2]);
    guard_drop(wants), guard_drop(quotas), guard_drop(carries), guard_drop(tights), guard_drop(actives);
}

/* What a scheduler is given: no amount is below the plan, no limit above an own one, and none of a leaf below its plan. */
static void hold_served(struct host host, struct rows rows, const uint8_t *hungry, const uint8_t *is_inner, const uint64_t *plan)
{
    size_t n = rows.parents_length;
    uint64_t *amounts = marked(n, 8), *most = marked(n, 8);

    demand(counted(arbiter_serve(HOST(host), ROWS(rows), hungry, n, amounts, n, most, n)) == 0, "nothing served");
    for (size_t each = 0; each < n; each++) {
        demand(amounts[each] >= plan[each], "an amount below its plan");
        demand(is_inner[each] ? most[each] == rows.limits[each] : most[each] >= plan[each], "another limit");
        for (size_t above = each; !is_inner[each] && above != ARBITER_NO_PARENT; above = rows.parents[above])
            demand(most[each] <= rows.limits[above], "a limit above one");
    }
    guard_drop(amounts), guard_drop(most);
}

/* The limits of a round: a leaf's is no less than its guarantee, and no more than its own. The certificate is that of the plan. */
static void hold_round(struct host host, struct rows rows)
{
    size_t n = rows.parents_length;
    uint8_t *hungry = column(n, 1), is_inner[MOST] = {0};
    uint64_t *held = marked(n, 8), *demands = marked(n, 8), least = 77;
    struct answer found = room(n);
    uint32_t row = 77, group = (uint32_t)(taken(1) % n);

    for (size_t each = n; each--;) {
        hungry[each] = taken(1) % 3 == 0 ? (uint8_t)(1 + taken(1) % 255) : 0;
        if (each)
            is_inner[rows.parents[each]] = 1;
    }
    demand(counted(arbiter_hold(HOST(host), ROWS(rows), hungry, n, held, n, demands, n, found.amounts, n, found.flags, n, found.nums, n,
                                found.dens, n, found.places, n)) == 0, "no round");
    struct rows asked = rows;
    asked.demands = demands;
    demand(check(host, asked, &found, &row) == 0 && row == 77, "the plan of a round is not accepted");
    for (size_t each = 0; each < n; each++) {
        demand(demands[each] == (is_inner[each] || !hungry[each] ? rows.demands[each] : 1000000), "another demand");
        demand(is_inner[each] ? held[each] == rows.limits[each] : held[each] <= rows.limits[each], "a limit above its own");
    }
    hold_served(host, rows, hungry, is_inner, found.amounts);
    if (!is_inner[group]) {
        demands[group] = 1000000;
        demand(counted(arbiter_guarantee(HOST(host), ROWS(asked), group, &least)) == 0 && least <= held[group], "a limit below a guarantee");
    }
    drop(&found);
    guard_drop(hungry), guard_drop(held), guard_drop(demands);
}

/* What a group gets by the plan, or whatever the others ask for. */
static uint64_t gets(struct host host, struct rows rows, uint32_t group, uint32_t guaranteed)
{
    uint64_t amount = 77;

    if (!guaranteed)
        return planned(host, rows, group);
    demand(counted(arbiter_guarantee(HOST(host), ROWS(rows), group, &amount)) == 0, "no guarantee");
    return amount;
}

/* Weights of the rows that may change meet the goals of rows, or a row is told. */
static void hold_tune(struct host host, struct rows rows)
{
    size_t n = rows.parents_length;
    uint64_t *goals = column(n, 8), *tuned = marked(n, 8), unmet = 77;
    uint8_t *may = column(n, 1);
    uint32_t guaranteed = (uint32_t)(taken(1) % 2);

    for (size_t row = 0; row < n; row++) {
        may[row] = (uint8_t)(taken(1) % 3);
        goals[row] = taken(1) % 4 ? 0 : number(12);
    }
    demand(counted(arbiter_tune(HOST(host), ROWS(rows), goals, n, may, n, guaranteed, tuned, n, &unmet)) == 0, "no weights from the root down");
    demand(unmet == ARBITER_NO_GOAL || unmet < n, "another row is told");
    for (size_t row = 0; row < n; row++)
        demand(tuned[row] == rows.weights[row] || (may[row] && unmet == ARBITER_NO_GOAL && tuned[row] - 1 < 10000), "another weight");
    rows.weights = tuned;
    for (uint32_t row = 0; row < n && unmet == ARBITER_NO_GOAL; row++)
        demand(gets(host, rows, row, guaranteed) >= goals[row], "a goal of a row is not met");
    guard_drop(goals), guard_drop(tuned), guard_drop(may);
}

/* Each leaf with no goal at it or above it keeps half of what it gets. Goals come to more up the tree. */
static void hold_goals(struct host host, struct rows rows)
{
    size_t n = rows.parents_length;
    uint64_t *goals = column(n, 8), *kept = marked(n, 8), *come_to = marked(n, 8), *below = column(n, 8);
    uint8_t *inner = column(n, 1), *has = column(n, 1);
    uint32_t guaranteed = (uint32_t)(taken(1) % 2);

    for (size_t row = 0; row < n; row++) {
        goals[row] = taken(1) % 4 ? 0 : number(12);
        inner[row] = 0, below[row] = 0;
    }
    demand(counted(arbiter_goals(HOST(host), ROWS(rows), goals, n, guaranteed, kept, n, come_to, n)) == 0, "no goals");
    for (size_t row = 1; row < n; row++)
        inner[rows.parents[row]] = 1;
    for (size_t row = 0; row < n; row++) {
        has[row] = goals[row] > 0 || (row && has[rows.parents[row]]);
        uint64_t half = row && !inner[row] && !has[row] ? (gets(host, rows, (uint32_t)row, guaranteed) + 1) / 2 : goals[row];
        demand(kept[row] == half, "another half");
    }
    for (size_t row = n; row-- > 0;) {
        demand(come_to[row] == (goals[row] > below[row] ? goals[row] : below[row]), "another sum of goals");
        uint64_t *above = row ? &below[rows.parents[row]] : below;
        *above = come_to[row] > UINT64_MAX - *above ? UINT64_MAX : *above + come_to[row];
    }
    guard_drop(goals), guard_drop(kept), guard_drop(come_to), guard_drop(below), guard_drop(inner), guard_drop(has);
}

/* With limits of some rows weights of rows that may change meet the goals, or with none from the lowest on. */
static void hold_limit_others(struct host host, struct rows rows)
{
    size_t n = rows.parents_length;
    uint64_t *goals = column(n, 8), *lowest = column(n, 8), *limited = marked(n, 8), *tuned = marked(n, 8), unmet = 77;
    uint8_t *may = column(n, 1);
    uint32_t guaranteed = (uint32_t)(taken(1) % 2), met = 77;

    for (size_t row = 0; row < n; row++) {
        may[row] = (uint8_t)(taken(1) % 3);
        goals[row] = taken(1) % 4 ? 0 : number(12);
        lowest[row] = taken(1) % 3 ? number(12) : NONE;
    }
    demand(counted(arbiter_limit_others(HOST(host), ROWS(rows), goals, n, may, n, lowest, n, guaranteed, limited, n, &met)) == 0 && met < 2, "no limits");
    for (size_t row = 0; row < n; row++)
        demand(limited[row] == rows.limits[row] || (row && met && limited[row] >= lowest[row] && limited[row] < rows.limits[row]), "another limit");
    rows.limits = limited;
    demand(counted(arbiter_tune(HOST(host), ROWS(rows), goals, n, may, n, guaranteed, tuned, n, &unmet)) == 0, "no weights for limits");
    demand(met ? unmet == ARBITER_NO_GOAL : unmet != ARBITER_NO_GOAL, "no weights for limits");
    guard_drop(goals), guard_drop(lowest), guard_drop(limited), guard_drop(tuned), guard_drop(may);
}

/* One period of one sample gives the plan, as limits of whole slices do. */
static void hold_periods(struct host host, struct rows rows, const uint64_t *amounts)
{
    size_t n = rows.parents_length;
    uint64_t *quotas = column(n, 8), *own = column(n, 8), *bursts = column(n, 8), *carries = column(n, 8), *sums[9], wrong = taken(1);

    for (size_t row = 0; row < n; row++) {
        /* a limit above each capacity is none */
        quotas[row] = row && rows.limits[row] < 100000 ? rows.limits[row] * host.slice : NONE;
        own[row] = host.period;
        bursts[row] = carries[row] = 0;
    }
    for (int each = 0; each < 9; each++)
        sums[each] = marked(n, 8);
    uint32_t answer = counted(arbiter_periods(HOST(host), rows.parents, n, rows.weights, n, quotas, n, own, n, bursts, n, rows.demands, n, 1 + wrong % 3,
                                              carries, n, sums[0], n, sums[1], n, sums[2], n, sums[3], n, sums[4], n, sums[5], n, sums[6], n, sums[7], n,
                                              sums[8], n));
    demand(answer == 0 || answer == 13 || answer == 14 || answer == 15, "periods answer another number");
    for (size_t row = 0; row < n && !answer; row++)
        demand(sums[0][row] == (1 + wrong % 3) * amounts[row], "a period gives another amount");
    for (int each = 0; each < 9; each++) {
        demand(!answer || is_marked(sums[each], n * 8), "refused periods wrote");
        guard_drop(sums[each]);
    }
    guard_drop(quotas), guard_drop(own), guard_drop(bursts), guard_drop(carries);
}

/* The least number of a row that follows it as a unit's weight is the row's least weight. */
static void hold_setting(struct host host, struct rows rows, uint32_t group, uint64_t amount, uint64_t weight)
{
    size_t n = rows.parents_length;
    uint32_t *formulas = guard_block(n * 4, 0);
    uint64_t *none = guard_block(n * 8, 1), asked[1] = {amount}, first[1] = {1}, last[1] = {10000}, set[1] = {77}, stuck = 77;
    uint32_t own[1] = {group};

    memset(formulas, 0, n * 4), memset(none, 0, n * 8);
    formulas[group] = ARBITER_UNIT_WEIGHT;
    demand(counted(arbiter_settle(HOST(host), ROWS(rows), formulas, n, none, n, none, n, own, 1, asked, 1, own, 1, own, 1, first, 1, last, 1, 0,
                                  set, 1, &stuck)) == 0, "nothing is settled");
    demand(weight ? stuck == NONE && *set == weight : stuck == 0, "a setting that is no least weight");
    guard_drop(formulas), guard_drop(none);
}

/* The least value reaches the amount, and one less does not. */
static void hold_least(struct host host, struct rows rows, uint32_t group, uint64_t amount)
{
    uint64_t least = 77, before;

    demand(counted(arbiter_guarantee(HOST(host), ROWS(rows), group, &least)) == 0, "no guarantee");
    demand(least <= planned(host, rows, group), "a guarantee above the plan");
    demand(counted(arbiter_least_weight(HOST(host), ROWS(rows), group, amount, &least)) == 0 && least <= 10000, "no least weight");
    hold_setting(host, rows, group, amount, least);
    before = rows.weights[group];
    rows.weights[group] = least ? least : 10000;
    demand((planned(host, rows, group) >= amount) == (least != 0), "a least weight that is none");
    rows.weights[group] = least - 1;
    demand(least <= 1 || planned(host, rows, group) < amount, "a weight that is not the least");
    rows.weights[group] = before;
    if (group) {
        demand(counted(arbiter_least_limit(HOST(host), ROWS(rows), group, amount, &least)) == 0, "no least limit");
        before = rows.limits[group];
        rows.limits[group] = least;
        demand(planned(host, rows, group) >= amount || least == NONE, "a least limit that is none");
        rows.limits[group] = least - 1;
        demand(least == NONE || !least || planned(host, rows, group) < amount, "a limit that is not the least");
        rows.limits[group] = before;
    }
    demand(counted(arbiter_least_processors(HOST(host), ROWS(rows), group, amount, &least)) == 0 && least <= 64, "no least number");
    host.processors = least ? least : 64;
    demand((planned(host, rows, group) >= amount) == (least != 0), "a least number that is none");
    host.processors = least - 1;
    demand(least <= 1 || planned(host, rows, group) < amount, "a number that is not the least");
}

/* Every call answers what the plan answered, and writes nothing. */
static void hold_refusal(struct host host, struct rows rows, struct answer *found, uint32_t answer)
{
    size_t n = found->count;
    uint32_t count = 77, row = 77;
    uint64_t number_ = 77;

    demand(is_marked(found->amounts, n * 8), "a refused plan wrote");
    demand(counted(arbiter_limiting(HOST(host), ROWS(rows), found->places, n, &count, &number_)) == answer, "limiting answers another number");
    demand(counted(arbiter_reasons(HOST(host), ROWS(rows), found->flags, n, found->places, n)) == answer, "reasons answer another number");
    demand(counted(arbiter_guarantee(HOST(host), ROWS(rows), 0, &number_)) == answer, "guarantee answers another number");
    demand(counted(arbiter_figures(HOST(host), ROWS(rows), found->amounts, n, found->nums, n, found->flags, n, found->places, n, found->dens, n,
                                   found->amounts, n)) == answer, "figures answer another number");
    demand(counted(arbiter_book(HOST(host), ROWS(rows), found->nums, n, found->nums, n, found->amounts, n, found->dens, n, found->amounts, n,
                                found->dens, n, found->amounts, n, found->dens, n, found->amounts, n)) == answer, "book answers another number");
    uint64_t *held = marked(n, 8), *demands = marked(n, 8);
    uint8_t *hungry = column(n, 1);
    demand(counted(arbiter_hold(HOST(host), ROWS(rows), hungry, n, held, n, demands, n, found->amounts, n, found->flags, n, found->nums, n,
                                found->dens, n, found->places, n)) == answer, "hold answers another number");
    demand(counted(arbiter_serve(HOST(host), ROWS(rows), hungry, n, demands, n, held, n)) == answer, "serve answers another number");
    demand(counted(arbiter_tune(HOST(host), ROWS(rows), demands, n, hungry, n, 0, held, n, &number_)) == answer, "tune answers another number");
    demand(counted(arbiter_goals(HOST(host), ROWS(rows), found->dens, n, 0, held, n, demands, n)) == answer, "goals answer another number");
    demand(counted(arbiter_limit_others(HOST(host), ROWS(rows), demands, n, hungry, n, demands, n, 0, held, n, &count)) == answer,
           "limit_others answers another number");
    demand(is_marked(held, n * 8) && is_marked(demands, n * 8), "a refused call wrote");
    guard_drop(held), guard_drop(demands), guard_drop(hungry);
    demand(is_marked(found->amounts, n * 8) && is_marked(found->nums, n * 8) && is_marked(found->dens, n * 8), "a refused call wrote");
    demand(count == 77 && number_ == 77 && is_marked(found->places, n * 4) && is_marked(found->flags, n), "a refused call wrote");
    uint32_t which = counted(arbiter_refused_row(ROWS(rows), &row));
    demand(answer < 4 || which == answer, "refused_row answers another number");
    demand(which < 4 || which > 10 ? row == 77 : row < n || !n, "refused_row names no row");
}

static void hold_memory(struct host host, struct rows rows, const uint64_t *amounts, uint32_t answer, unsigned long turn)
{
    struct answer found = room(rows.parents_length);

    guard_asked = 0;
    guard_refused = 1 + (long)(turn % 40);
    uint32_t other = certify(host, rows, &found);
    refused += guard_asked >= guard_refused;
    guard_refused = 0;
    demand(other == answer || (other == 71 && (answer > 3 || !answer) && answer != 50), "another answer where memory was refused");
    if (other == 0)
        demand(!memcmp(found.amounts, amounts, found.count * 8), "another plan where memory was refused");
    else
        demand(is_marked(found.amounts, found.count * 8) && is_marked(found.nums, found.count * 8), "a refused call wrote");
    drop(&found);
}

static void hold_answer(struct host host, struct rows rows, struct answer *found, const uint64_t *amounts, uint32_t answer)
{
    demand(!memcmp(found->amounts, amounts, found->count * 8), "plan and certify differ");
    hold_plan(host, rows, amounts);
    hold_text(host, rows, found);
    hold_limiting(host, rows, amounts);
    hold_reasons(host, rows, amounts);
    hold_figures(host, rows, amounts);
    hold_book(host, rows, amounts);
    uint32_t group = (uint32_t)(taken(1) % found->count);
    hold_least(host, rows, group, number(64));
    hold_round(host, rows);
    hold_tune(host, rows);
    hold_goals(host, rows);
    hold_limit_others(host, rows);
    hold_periods(host, rows, amounts);
    hold_check(host, rows, found);
    seen[answer * 16 + amounts[0] % 16] = 1;
}

int LLVMFuzzerTestOneInput(const uint8_t *data, size_t size)
{
    static unsigned long turn;

    if (!turn++)
        atexit(tell);
    at = data;
    left = size;
    struct host host = some_host();
    struct rows rows = some_rows();
    struct answer found = room(rows.parents_length);
    uint64_t *amounts = marked(found.count, 8);

    guard_refused = 0;
    uint32_t answer = counted(arbiter_plan(HOST(host), ROWS(rows), amounts, found.count));
    demand(certify(host, rows, &found) == answer, "certify answers another number");
    demand((answer == 50) == !are_even(&rows), "uneven lengths");
    seen[answer * 16 + found.count % 16] = 1;
    if (turn % 16 == 0)
        hold_memory(host, rows, amounts, answer, turn / 16);
    if (answer == 0)
        hold_answer(host, rows, &found, amounts, answer);
    else
        hold_refusal(host, rows, &found, answer);
    guard_drop(amounts);
    drop(&found);
    guard_drop(rows.parents);
    guard_drop(rows.weights);
    guard_drop(rows.limits);
    guard_drop(rows.demands);
    return 0;
}
