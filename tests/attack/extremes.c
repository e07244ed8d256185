/* Calls at the ends of what the header allows: const columns that overlap, columns of bytes at odd addresses, true lengths
 * of millions, lengths of 0, hosts and rows at and past their bounds. What the header forbids is not called. 0 where all holds. */
#define _GNU_SOURCE
#include "../../share/arbiter.h"
#include "guard.h"

#include <stdio.h>
#include <stdlib.h>
#include <string.h>
#include <sys/mman.h>

#define NONE ARBITER_NO_LIMIT
/* The greatest sum that arbiter_lost takes. */
#define SUM ((uint64_t)1 << 60)
#define MOST 16385
#define FLAT 0
#define CHAIN 1
#define PAIRS 2

static unsigned long calls;

static void demand(int holds, int line)
{
    calls++;
    if (!holds || guard_held) {
        fprintf(stderr, "extremes.c:%d: %s\n", line, holds ? "a block that is not given back" : "another answer");
        abort();
    }
}

#define IS(answer, call) demand((call) == (answer), __LINE__)
#define HOST 1, 100000, 5000
#define ALL(n) parents, n, weights, n, limits, n, demands, n

static void *copied(const void *from, size_t size)
{
    return memcpy(guard_block(size, 0), from, size);
}

/* A script with room for so many groups, bytes of names and refused lines, of blocks between guard pages. */
static uint32_t script(const void *text, size_t size, size_t n, size_t names, size_t lines, uint32_t *count)
{
    uint32_t *parents = guard_block(n * 4, 0), *faults = guard_block(lines * 4, 0);
    uint64_t *columns[7], *at = guard_block(lines * 8, 1), names_count = 7, refused = 7;
    uint8_t *told = guard_block(names, 0);

    for (int each = 0; each < 7; each++)
        columns[each] = guard_block(n * 8, each % 2);
    uint32_t answer = arbiter_script(HOST, UINT64_MAX, text, size, parents, n, columns[0], n, columns[1], n, columns[2], n, columns[3], n, columns[4], n,
                                     columns[5], n, columns[6], n, told, names, at, lines, faults, lines, count, &names_count, &refused);
    demand(answer ? names_count == 7 && refused == 7 : names_count <= names && refused <= lines && *count <= n, __LINE__);
    for (int each = 0; each < 7; each++)
        guard_drop(columns[each]);
    guard_drop(parents), guard_drop(faults), guard_drop(at), guard_drop(told);
    return answer;
}

/* Scripts at odd addresses and cut behind each letter, of nothing, of the most groups and one more, of a line of millions. */
static void scripts(void)
{
    static const char text[] = "mkdir a\nwrite a cpu.max 5000\nmkdir a/b\ndemand a/b 3\nperiod\n\xff\nmkdir a";
    const size_t most = 16384, long_line = (size_t)1 << 21;
    char *many = guard_block((most + 1) * 12 + 1, 0), *zeros = guard_block(long_line, 0);
    uint32_t count = 7;
    size_t size = 0;

    for (size_t cut = 0; cut < sizeof text; cut++)
        for (size_t odd = 0; odd < 16; odd++) {
            uint8_t *block = guard_block(cut + odd, 0);
            memcpy(block + odd, text, cut);
            IS(0, script(block + odd, cut, 8, cut + 1, 8, &count));
            guard_drop(block);
        }
    demand(count == 3, __LINE__);
    IS(0, script("", 0, 1, 1, 0, &count));
    demand(count == 1, __LINE__);
    IS(50, script("", 0, 0, 1, 0, &count));
    IS(50, script("", 0, 1, 0, 0, &count));
    IS(50, script("x", 1, 1, 1, 0, &count));
    demand(count == 1, __LINE__);
    for (size_t each = 0; each <= most; each++)
        size += (size_t)sprintf(many + size, "mkdir %05zu\n", each);
    IS(0, script(many, size, most, size, 2, &count));
    demand(count == most, __LINE__);
    IS(50, script(many, size, most, size, 1, &count));
    memset(zeros, 0, long_line);
    IS(0, script(zeros, long_line, 1, 1, 1, &count));
    guard_drop(many), guard_drop(zeros);
}

/* What every call answers for rows, told apart by one number: the answers and all that was written. */
static uint64_t told(const uint32_t *parents, const uint64_t *weights, const uint64_t *limits, const uint64_t *demands, size_t n)
{
    uint64_t *amounts = guard_block(n * 8, 0), *nums = guard_block(n * 8, 0), *dens = guard_block(n * 8, 0), rest = 7, sum = 0, least[4] = {7, 7, 7, 7};
    uint32_t *places = guard_block(n * 4, 0), *groups = guard_block(n * 4, 0), count = 7, row = 7;
    /* bytes may stand at any address */
    uint8_t *flags = guard_block(n, 0), *reasons = guard_block(n, 0), *tights = guard_block(n, 0);
    uint64_t *wants = guard_block(n * 8, 0), *mosts = guard_block(n * 8, 1), *shares = guard_block(n * 8, 0), *withheld = guard_block(n * 8, 1);
    uint32_t *actives = guard_block(n * 4, 1);
    uint64_t *carries = guard_block(n * 8, 0), *sums[6];
    uint8_t *hungry = copied(weights, n);
    uint64_t *held = guard_block(n * 8, 0), *round = guard_block(n * 8, 1), *tuned = guard_block(n * 8, 0), unmet = 7;
    uint32_t answers[17], met = 7;

    answers[0] = arbiter_plan(HOST, ALL(n), amounts, n);
    answers[1] = arbiter_certify(HOST, ALL(n), amounts, n, flags, n, nums, n, dens, n, places, n);
    answers[2] = arbiter_check(HOST, ALL(n), amounts, n, flags, n, nums, n, dens, n, places, n, &row);
    answers[3] = arbiter_limiting(HOST, ALL(n), groups, n, &count, &rest);
    answers[4] = arbiter_reasons(HOST, ALL(n), reasons, n, places, n);
    answers[5] = arbiter_guarantee(HOST, ALL(n), (uint32_t)n - 1, &least[0]);
    answers[6] = arbiter_least_weight(HOST, ALL(n), (uint32_t)n - 1, 5, &least[1]);
    answers[7] = arbiter_least_limit(HOST, ALL(n), (uint32_t)n - 1, 5, &least[2]);
    answers[8] = arbiter_least_processors(HOST, ALL(n), (uint32_t)n - 1, 5, &least[3]);
    answers[9] = arbiter_figures(HOST, ALL(n), wants, n, mosts, n, tights, n, actives, n, shares, n, withheld, n);
    for (size_t g = 0; g < n; g++)
        sum = sum * 31 + amounts[g] + 3 * nums[g] + 5 * dens[g] + 7 * flags[g];
    answers[10] = arbiter_hold(HOST, ALL(n), hungry, n, held, n, round, n, amounts, n, flags, n, nums, n, dens, n, places, n);
    uint64_t *goals = guard_block(n * 8, 1);
    for (size_t g = 0; g < n; g++)
        goals[g] = g + 1 < n ? 0 : 1;
    answers[11] = arbiter_tune(HOST, ALL(n), goals, n, hungry, n, 0, tuned, n, &unmet);
    for (int each = 0; each < 6; each++)
        sums[each] = guard_block(n * 8, 1);
    answers[12] = arbiter_book(HOST, ALL(n), limits, n, demands, n, carries, n, sums[0], n, sums[1], n, sums[2], n, sums[3], n, sums[4], n, sums[5], n);
    for (size_t g = 0; g < n; g++)
        sum = sum * 31 + held[g] + 3 * round[g] + 5 * tuned[g] + 7 * (g ? 0 : unmet);
    answers[15] = arbiter_serve(HOST, ALL(n), hungry, n, round, n, held, n);
    for (size_t g = 0; g < n; g++)
        sum = sum * 31 + held[g] + 3 * round[g];
    answers[13] = arbiter_tune(HOST, ALL(n), goals, n, hungry, n, 1, tuned, n, &unmet);
    answers[16] = arbiter_limit_others(HOST, ALL(n), goals, n, hungry, n, goals, n, 1, held, n, &met);
    guard_drop(goals);
    /* as many periods as there can be, of quotas that are none */
    uint64_t *quotas = guard_block(n * 8, 0), *own = guard_block(n * 8, 1), *bursts = guard_block(n * 8, 0), *left = guard_block(n * 8, 1), *cells[9];
    for (size_t g = 0; g < n; g++)
        quotas[g] = ARBITER_NO_LIMIT, own[g] = 100000, bursts[g] = 0, left[g] = 0;
    for (int each = 0; each < 9; each++)
        cells[each] = guard_block(n * 8, each % 2);
    answers[14] = arbiter_periods(HOST, parents, n, weights, n, quotas, n, own, n, bursts, n, demands, n, UINT64_MAX, left, n, cells[0], n, cells[1], n,
                                  cells[2], n, cells[3], n, cells[4], n, cells[5], n, cells[6], n, cells[7], n, cells[8], n);
    for (int each = 0; each < 9; each++) {
        for (size_t g = 0; g < n; g++)
            sum = sum * 31 + cells[each][g];
        guard_drop(cells[each]);
    }
    guard_drop(quotas), guard_drop(own), guard_drop(bursts), guard_drop(left);
    for (int each = 0; each < 17; each++)
        sum = sum * 31 + answers[each];
    for (size_t g = 0; g < n; g++)
        sum = sum * 31 + tuned[g] + 3 * held[g] + 7 * (g ? met : unmet);
    for (size_t g = 0; g < n; g++)
        sum = sum * 31 + carries[g] + 3 * sums[0][g] + 5 * sums[1][g] + 7 * sums[2][g] + 11 * sums[3][g] + 13 * sums[4][g] + 17 * sums[5][g];
    for (size_t g = 0; g < n; g++)
        sum = sum * 31 + wants[g] + 3 * mosts[g] + 5 * tights[g] + 7 * actives[g] + 11 * shares[g] + 13 * withheld[g];
    for (size_t g = 0; g < n; g++)
        sum = sum * 31 + amounts[g] + 3 * nums[g] + 5 * dens[g] + 7 * flags[g] + 11 * places[g] + 13 * groups[g] + 17 * reasons[g];
    for (int each = 0; each < 4; each++)
        sum = sum * 31 + least[each];
    calls += 17;
    demand(1, __LINE__);
    for (int each = 0; each < 6; each++)
        guard_drop(sums[each]);
    guard_drop(carries);
    guard_drop(hungry), guard_drop(held), guard_drop(round), guard_drop(tuned);
    guard_drop(amounts), guard_drop(nums), guard_drop(dens), guard_drop(places), guard_drop(groups), guard_drop(flags), guard_drop(reasons);
    guard_drop(tights), guard_drop(wants), guard_drop(mosts), guard_drop(shares), guard_drop(withheld), guard_drop(actives);
    return sum * 31 + rest + count + row;
}

/* Columns that lie over each other answer as their copies do. */
static void overlap(void)
{
    uint64_t numbers[12];
    const uint32_t parents[8] = {ARBITER_NO_PARENT, 0, 0, 1, 1, 2, 2, 0};

    for (unsigned seed = 0; seed < 200; seed++) {
        for (int each = 0; each < 12; each++)
            numbers[each] = seed % 2 ? 1 + (seed * 7 + (unsigned)each * 13) % 40 : each % 3 ? NONE : 20;
        for (size_t n = 1; n <= 8; n++)
            for (int shape = 0; shape < 4; shape++) {
                const uint64_t *weights = numbers, *limits = numbers + shape, *demands = numbers + shape * 2 % 4;
                uint32_t *own = copied(parents, n * 4);
                uint64_t *w = copied(weights, n * 8), *l = copied(limits, n * 8), *d = copied(demands, n * 8);
                demand(told(parents, weights, limits, demands, n) == told(own, w, l, d, n), __LINE__);
                guard_drop(own), guard_drop(w), guard_drop(l), guard_drop(d);
            }
    }
}

/* The columns of a certificate may lie over those of the rows: all are const. */
static void overlap_of_a_check(void)
{
    const uint32_t parents[3] = {ARBITER_NO_PARENT, 0, 0}, zeros[3] = {0, 0, 0};
    const uint64_t weights[3] = {100, 100, 200}, limits[3] = {NONE, NONE, NONE}, demands[3] = {0, 20, 20};
    uint64_t amounts[3], nums[3], dens[3];
    uint8_t flags[3];
    uint32_t places[3], row = 7;

    IS(0, arbiter_certify(HOST, ALL(3), amounts, 3, flags, 3, nums, 3, dens, 3, places, 3));
    IS(0, arbiter_check(HOST, ALL(3), amounts, 3, flags, 3, nums, 3, dens, 3, zeros, 3, &row));
    demand(row == 7, __LINE__);
    /* the demands as amounts: the root gets nothing, its children 40 of 20 slices */
    uint32_t answer = arbiter_check(HOST, ALL(3), demands, 3, (const uint8_t *)weights, 3, weights, 3, weights, 3, parents, 3, &row);
    demand(answer >= 51 && answer <= 58 && row < 3, __LINE__);
}

/* Lengths of 0, of blocks of which no byte may be read or written. */
static void nothing(void)
{
    uint32_t *parents = guard_block(0, 0), *places = guard_block(0, 0), count = 7, row = 7;
    uint64_t *weights = guard_block(0, 0), *limits = weights, *demands = weights, *amounts = guard_block(0, 0), number = 7;
    uint8_t *flags = guard_block(0, 0);

    IS(5, arbiter_plan(HOST, ALL(0), amounts, 0));
    IS(5, arbiter_certify(HOST, ALL(0), amounts, 0, flags, 0, amounts, 0, amounts, 0, places, 0));
    IS(5, arbiter_check(HOST, ALL(0), amounts, 0, flags, 0, amounts, 0, amounts, 0, places, 0, &row));
    IS(5, arbiter_limiting(HOST, ALL(0), places, 0, &count, &number));
    IS(5, arbiter_reasons(HOST, ALL(0), flags, 0, places, 0));
    IS(5, arbiter_guarantee(HOST, ALL(0), 0, &number));
    IS(5, arbiter_figures(HOST, ALL(0), amounts, 0, weights, 0, flags, 0, parents, 0, limits, 0, demands, 0));
    IS(5, arbiter_book(HOST, ALL(0), limits, 0, demands, 0, amounts, 0, amounts, 0, amounts, 0, amounts, 0, amounts, 0, amounts, 0, amounts, 0));
    IS(5, arbiter_least_weight(HOST, ALL(0), UINT32_MAX, UINT64_MAX, &number));
    IS(5, arbiter_settle(HOST, ALL(0), places, 0, limits, 0, demands, 0, places, 0, limits, 0, places, 0, places, 0, limits, 0, limits, 0, 1, amounts, 0, &number));
    IS(5, arbiter_refused_row(ALL(0), &row));
    IS(5, arbiter_hold(HOST, ALL(0), flags, 0, amounts, 0, amounts, 0, amounts, 0, flags, 0, amounts, 0, amounts, 0, places, 0));
    IS(5, arbiter_serve(HOST, ALL(0), flags, 0, amounts, 0, amounts, 0));
    IS(5, arbiter_tune(HOST, ALL(0), amounts, 0, flags, 0, 1, amounts, 0, &number));
    IS(5, arbiter_goals(HOST, ALL(0), amounts, 0, 1, weights, 0, amounts, 0));
    IS(5, arbiter_limit_others(HOST, ALL(0), amounts, 0, flags, 0, amounts, 0, 1, weights, 0, &count));
    IS(50, arbiter_periods(HOST, parents, 0, weights, 0, limits, 0, weights, 0, demands, 0, demands, 0, UINT64_MAX, amounts, 0, amounts, 0, amounts, 0,
                           amounts, 0, amounts, 0, amounts, 0, amounts, 0, amounts, 0, amounts, 0, amounts, 0));
    IS(50, arbiter_plan(0, 0, 0, parents, 0, weights, 0, limits, 0, demands, 0, &number, 1));
    IS(13, arbiter_name(57, (char *)flags, 0));
    IS(strlen(ARBITER_VERSION), arbiter_version((char *)flags, 0));
    uint32_t answer = arbiter_check_text(flags, 0, &row);
    demand(answer >= 40 && answer <= 43, __LINE__);
    demand(count == 7 && number == 7 && row == 7, __LINE__);
    guard_drop(parents), guard_drop(places), guard_drop(weights), guard_drop(amounts), guard_drop(flags);
}

static void *mapped(size_t size)
{
    void *found = mmap(NULL, size, PROT_READ | PROT_WRITE, MAP_PRIVATE | MAP_ANONYMOUS | MAP_NORESERVE, -1, 0);

    if (found == MAP_FAILED)
        abort();
    return found;
}

/* Lengths of millions that are true: refused by the first row that is too many, and nothing is written. */
static void millions(void)
{
    const size_t n = (size_t)1 << 21;
    uint64_t *weights = mapped(n * 8), *limits = weights, *demands = weights, *amounts = mapped(n * 8), number = 7;
    uint32_t *parents = mapped(n * 4), *places = mapped(n * 4), count = 7, row = 7;
    uint8_t *flags = mapped(n);
    uint64_t *nums = mapped(n * 8), *dens = mapped(n * 8), *more = mapped(n * 8);

    IS(4, arbiter_plan(HOST, ALL(n), amounts, n));
    IS(4, arbiter_certify(HOST, ALL(n), amounts, n, flags, n, nums, n, dens, n, places, n));
    IS(4, arbiter_check(HOST, ALL(n), weights, n, flags, n, weights, n, weights, n, parents, n, &row));
    IS(4, arbiter_limiting(HOST, ALL(n), places, n, &count, &number));
    IS(4, arbiter_reasons(HOST, ALL(n), flags, n, places, n));
    IS(4, arbiter_guarantee(HOST, ALL(n), 0, &number));
    IS(4, arbiter_figures(HOST, ALL(n), amounts, n, nums, n, flags, n, places, n, dens, n, more, n));
    IS(4, arbiter_least_processors(HOST, ALL(n), 0, 1, &number));
    IS(4, arbiter_settle(HOST, ALL(n), places, n, nums, n, dens, n, places, n, nums, n, places, n, places, n, nums, n, dens, n, 1, amounts, n, &number));
    uint64_t *held = mapped(n * 8), *round = mapped(n * 8);
    uint8_t *hungry = mapped(n);
    IS(4, arbiter_hold(HOST, ALL(n), hungry, n, held, n, round, n, amounts, n, flags, n, nums, n, dens, n, places, n));
    IS(4, arbiter_serve(HOST, ALL(n), hungry, n, round, n, held, n));
    IS(4, arbiter_tune(HOST, ALL(n), weights, n, hungry, n, 1, held, n, &number));
    IS(4, arbiter_goals(HOST, ALL(n), weights, n, 1, held, n, round, n));
    IS(4, arbiter_limit_others(HOST, ALL(n), weights, n, hungry, n, limits, n, 1, held, n, &count));
    munmap(held, n * 8), munmap(round, n * 8), munmap(hungry, n);
    IS(50, arbiter_plan(HOST, parents, n, weights, 3, limits, n, demands, n, amounts, n));
    IS(50, arbiter_plan(HOST, ALL(n), amounts, n - 1));
    row = 7;
    IS(4, arbiter_refused_row(ALL(n), &row));
    demand(row == 16384 && number == 7 && count == 7, __LINE__);
    demand(amounts[0] == 0 && amounts[16384] == 0 && amounts[n - 1] == 0 && places[0] == 0 && flags[n - 1] == 0, __LINE__);
    uint32_t answer = arbiter_check_text(flags, n, &row);
    demand(answer >= 40 && answer <= 43 && row == 16384, __LINE__);
    IS(13, arbiter_name(57, (char *)flags, n));
    demand(!strcmp((char *)flags, "LastMarkAbove"), __LINE__);
    IS(strlen(ARBITER_VERSION), arbiter_version((char *)flags, n));
    munmap(weights, n * 8), munmap(amounts, n * 8), munmap(parents, n * 4), munmap(places, n * 4), munmap(flags, n), munmap(nums, n * 8), munmap(dens, n * 8), munmap(more, n * 8);
}

/* A text at each place of a word, and cut behind each of its letters. */
static void odd_addresses(void)
{
    static const char text[] = "bw 1 1 100000 5000 3\n- 100 max 0 20 1 13/100@0\n0 100 max 20 7 0 -\n0 200 max 20 13 0 -\n";
    uint32_t row = 7;

    for (size_t size = 0; size < sizeof text; size++)
        for (size_t odd = 0; odd < 16; odd++) {
            uint8_t *block = guard_block(size + odd, 1);
            memcpy(block + odd, text, size);
            uint32_t answer = arbiter_check_text(block + odd, size, &row);
            demand((answer == 0) == (size + 1 == sizeof text) && row == 7, __LINE__);
            guard_drop(block);
        }
}

static uint64_t greatest(uint64_t seed, uint64_t most)
{
    return seed % 4 ? most - seed % 3 : seed % 100;
}

/* Rows at their bound and one past it, with the greatest numbers: plan, certificate and check agree, or all refuse. */
static void many_rows(void)
{
    static uint32_t parents[MOST], places[MOST];
    static uint64_t weights[MOST], limits[MOST], demands[MOST], amounts[MOST], nums[MOST], dens[MOST];
    static uint8_t flags[MOST];

    for (int shape = FLAT; shape <= PAIRS; shape++)
        for (size_t n = MOST - 2; n <= MOST; n++)
            for (uint64_t seed = 0; seed < 4; seed++) {
                uint32_t row = 7, refused = n > 16384 ? 4 : 0;
                for (size_t g = 0; g < n; g++) {
                    parents[g] = !g ? ARBITER_NO_PARENT : shape == FLAT ? 0 : shape == PAIRS ? (uint32_t)(g - 1) / 2 : (uint32_t)(g % 64 == 1 ? 0 : g - 1);
                    weights[g] = 1 + greatest(g + seed, 9999);
                    limits[g] = g ? greatest(g * seed, NONE) : NONE;
                    demands[g] = 0;
                }
                for (size_t g = n - 1; g > 0; g--)
                    demands[g] = demands[g] ? 0 : greatest(g + seed, 1000000), demands[parents[g]] = 1;
                demands[0] = 0;
                for (size_t g = 1; g < n; g++)
                    demands[parents[g]] = 0;
                uint32_t answer = arbiter_certify(64, 1000000, 1000, ALL(n), amounts, n, flags, n, nums, n, dens, n, places, n);
                demand(answer == refused, __LINE__);
                IS(refused, arbiter_check(64, 1000000, 1000, ALL(n), amounts, n, flags, n, nums, n, dens, n, places, n, &row));
                demand(refused || (amounts[0] <= 64000 && row == 7), __LINE__);
            }
    /* one level more than 64 */
    for (uint32_t g = 0; g < 66; g++) {
        parents[g] = g - 1;
        weights[g] = 1, limits[g] = NONE, demands[g] = 0;
    }
    IS(0, arbiter_plan(HOST, ALL(65), amounts, 65));
    IS(7, arbiter_plan(HOST, ALL(66), amounts, 66));
}

/* Rounds of a loop whose numbers are all one of two. */
static void rounds(uint64_t one, uint64_t other)
{
    uint64_t ones[61], others[61], written[61], counts[61] = {0}, lost = 7, guessed = 7;
    uint8_t flags[61] = {0}, all[61];
    for (size_t at = 0; at < 61; at++)
        ones[at] = one, others[at] = other, written[at] = 7, all[at] = 7;
    IS(50, arbiter_round(ones, 61, others, 60, ones, 61, flags, 61, written, 61, all, 61, counts, 61));
    demand(written[60] == 7 && all[60] == 7, __LINE__);
    flags[60] = (uint8_t)one;
    IS(0, arbiter_round(ones, 61, others, 61, ones, 61, flags, 61, written, 61, all, 61, counts, 61));
    demand(written[60] == (one < 1000000 ? one : other) && all[60] == (one >= 1000000), __LINE__);
    demand(counts[60] == (flags[60] && one > other ? one - other : 0) && counts[0] == 0, __LINE__);
    for (size_t at = 0; at < 61; at++)
        counts[at] = UINT64_MAX - at, written[at] = at;
    IS(0, arbiter_swings(ones, 61, others, 61, ones, 61, counts, 61, written, 61));
    demand(counts[0] == counts[1] && (counts[0] == 0 || (counts[0] == UINT64_MAX && one != other)), __LINE__);
    demand(one == other ? written[60] == 0 : written[0] == 1 && written[60] == 61, __LINE__);
    uint32_t reason = 7;
    IS(50, arbiter_let_go(ones, 61, others, 61, ones, 61, others, 61, ones, 61, one, other, all, 60, &reason));
    demand(reason == 7, __LINE__);
    IS(0, arbiter_let_go(ones, 61, others, 61, ones, 61, others, 61, ones, 61, one, other, all, 61, &reason));
    demand(reason == (one >= 60 ? 1 : one ? 2 : other ? 3 : 0), __LINE__);
    demand(one < 60 || (all[0] == 1 && all[1] == 0 && all[60] == 0), __LINE__);
    uint64_t amount = 7, guarantee = 8;
    IS(one > 1000000000 ? 9 : 0, arbiter_rest(one, other, ones, 61, others, 61, &amount, &guarantee));
    demand(one > 1000000000 ? amount == 7 && guarantee == 8 : guarantee <= 1000000000 - one && amount >= guarantee, __LINE__);
    IS(50, arbiter_rest(one, other, ones, 61, others, 60, &amount, &guarantee));
    uint32_t great = one > SUM / 60 || other > SUM / 60 ? 9 : 0;
    IS(great, arbiter_judged(ones, 61, others, 61, others, 61, ones, 61, ones, 61, others, 61, &lost, &guessed));
    demand(great ? lost == 7 && guessed == 7 : guessed == (other > one ? 60 * (other - one) : 0), __LINE__);
    IS(0, arbiter_judged(ones, 0, others, 0, others, 0, ones, 0, ones, 0, others, 0, &lost, &guessed));
    demand(lost == 0 && guessed == 0, __LINE__);
}

/* Hosts, groups and amounts at and past the ends of their ranges. */
static void numbers(void)
{
    static const uint64_t ends[] = {0, 1, 2, 63, 64, 65, 999, 1000, 1001, 999999, 1000000, 1000001, UINT32_MAX, (uint64_t)1 << 32, (uint64_t)1 << 63, UINT64_MAX - 1, UINT64_MAX};
    const size_t many = sizeof ends / sizeof *ends;
    const uint32_t parents[3] = {ARBITER_NO_PARENT, 0, 0};
    const uint64_t weights[3] = {100, 10000, 1}, limits[3] = {NONE, 0, UINT64_MAX - 1}, demands[3] = {0, 1000000, 1000000};

    for (size_t p = 0; p < many; p++)
        for (size_t u = 0; u < many; u++)
            for (size_t s = 0; s < many; s++) {
                uint64_t amounts[3] = {7, 7, 7}, number = 7;
                uint32_t host = ends[p] < 1 || ends[p] > 64 ? 1 : ends[u] < 1000 || ends[u] > 1000000 ? 2 : ends[s] < 1000 || ends[s] > ends[u] || ends[u] % ends[s] ? 3 : 0;
                IS(host, arbiter_plan(ends[p], ends[u], ends[s], ALL(3), amounts, 3));
                demand(host ? amounts[0] == 7 && amounts[2] == 7 : amounts[0] == ends[p] * (ends[u] / ends[s]), __LINE__);
                uint32_t answer = arbiter_slices(ends[p], ends[u], ends[s], ends[(u + s) % many], ends[(p + s) % many], &number);
                demand(host ? answer == host && number == 7 : answer == 0 || answer == 14 || answer == 15, __LINE__);
                uint64_t parts = ends[(u * 2 + p) % many];
                answer = arbiter_demand(ends[p], ends[u], ends[s], ends[(p * 3 + s) % many], parts, &number);
                demand(host ? answer == host : parts ? answer == 0 || answer == 9 : answer == 11, __LINE__);
                uint64_t cpus = 7, period = 7, slice = 7;
                answer = arbiter_planned_host(ends[p], ends[u], ends[s], &cpus, &period, &slice);
                demand(host == 1 && ends[p] ? answer < 4 : answer == host, __LINE__);
                demand(answer ? cpus == 7 && period == 7 && slice == 7 : cpus * (period / slice) == ends[p] * (ends[u] / ends[s]), __LINE__);
                demand(answer || arbiter_plan(cpus, period, slice, ALL(3), amounts, 3) == 0, __LINE__);
                uint64_t ran[2] = {ends[u], ends[p]}, asked = 7, quota = 7, weight = 7;
                uint32_t hungry = 7, guess = 7;
                number = 7;
                answer = arbiter_reading(ends[p], ends[u], ends[s], ends[(u * 5 + p) % many], ends[(s + p) % many], ends[(s * 3 + u) % many], p % 2 ? 2 : UINT32_MAX, s % 2,
                                         ends[(u + p * 3) % many], ran, 2, ran, 2, &number, &asked, &hungry, &guess);
                demand(host ? answer == host : answer == 0 || answer == 15, __LINE__);
                demand(answer ? number == 7 && asked == 7 && hungry == 7 && guess == 7 : number <= asked && asked <= 1000000 && hungry < 2 && guess < 2, __LINE__);
                number = asked = 7;
                answer = arbiter_leaf_reading(ends[p], ends[u], ends[s], ends[(u * 5 + p) % many], ends[(s + p) % many], ends[(s * 3 + u) % many], ends[(p * 3 + s) % many],
                                              &number, &asked);
                demand(host ? answer == host : answer == 0 || answer == 15, __LINE__);
                demand(answer ? number == 7 && asked == 7 : number <= asked && asked <= 1000000, __LINE__);
                answer = arbiter_written(ends[p], ends[u], ends[s], ends[(p + u) % many], ends[(u + s) % many], ends[(s + p) % many], (uint32_t)ends[(p * 7 + s) % many], &quota, &weight);
                demand(host ? answer == host : answer == 0 || answer == 14, __LINE__);
                demand(answer ? quota == 7 && weight == 7 : (quota >= 1000 || quota == NONE) && weight >= 1 && weight <= 10000, __LINE__);
                answer = arbiter_period_limit(ends[p], ends[u], ends[s], ends[(u + s) % many], ends[(p + s) % many], ends[(p + u) % many], ends[(s * 3) % many], &number);
                demand(host ? answer == host : answer == 0 || (answer >= 13 && answer <= 15), __LINE__);
            }
    static const uint32_t no_formulas[3];
    for (size_t each = 0; each < many; each++)
        for (size_t other = 0; other < many; other++) {
            uint64_t number = 7, group = (uint32_t)ends[each];
            uint32_t answer = group < 3 ? 0 : 20;
            IS(answer, arbiter_guarantee(HOST, ALL(3), (uint32_t)group, &number));
            IS(answer, arbiter_least_weight(HOST, ALL(3), (uint32_t)group, ends[other], &number));
            IS(answer, arbiter_least_processors(HOST, ALL(3), (uint32_t)group, ends[other], &number));
            uint32_t goal[1] = {(uint32_t)group};
            uint64_t asked[1] = {ends[each]}, last[1] = {ends[other]}, set[1] = {7};
            IS(answer, arbiter_settle(HOST, ALL(3), no_formulas, 3, ends, 3, ends, 3, goal, 1, asked, 1, goal, 1, goal, 1, asked, 1, last, 1, other % 2, set, 1, &number));
            demand(answer ? *set == 7 : number == NONE || number == 0, __LINE__);
            IS(group ? answer : 10, arbiter_least_limit(HOST, ALL(3), (uint32_t)group, ends[other], &number));
            number = arbiter_weight_of_shares(ends[other], (uint32_t)ends[each]);
            demand(ends[each] == 1 || ends[each] == 2 ? number >= 1 && number <= 10000 : (uint32_t)ends[each] == 1 || (uint32_t)ends[each] == 2 || number == 0, __LINE__);
        }
    for (uint32_t formula = 0; formula < 8; formula++)
        for (size_t each = 0; each < many; each++)
            for (size_t other = 0; other < many; other++) {
                uint64_t weight = 7, least = 7, quota = 7, period = 7;
                uint32_t known = formula >= 1 && formula <= 6 ? 0 : 11;
                IS(known, arbiter_owned_weight(formula, ends[each], &weight));
                demand(known ? weight == 7 : weight >= 1 && weight <= 10000, __LINE__);
                uint32_t answer = known ? 11 : ends[each] < 1 || ends[each] > 10000 ? 12 : 0;
                IS(answer, arbiter_least_owned(formula, ends[each], &least));
                demand(answer ? least == 7 : least <= 262144, __LINE__);
                known = formula >= 1 && formula <= 4 ? 0 : 11;
                IS(known, arbiter_owned_limit(formula, ends[each], ends[other], &quota, &period));
                demand(known ? quota == 7 && period == 7 : quota >= 1000 && period >= 1000 && period <= 1000000, __LINE__);
                demand(known || quota == NONE || quota <= (uint64_t)1000000000000000, __LINE__);
                const uint8_t kinds[2] = {(uint8_t)ends[each], (uint8_t)formula};
                const uint64_t amounts[2] = {ends[each], ends[other]};
                IS(50, arbiter_pod_amount(kinds, 1, amounts, 2, &weight));
                IS(0, arbiter_pod_amount(kinds, 2, amounts, 2, &weight));
                demand(weight >= ends[each] && weight >= ends[other], __LINE__);
                known = formula >= 1 && formula <= 6 ? 0 : 11;
                uint64_t written = 7, greatest = 7, allowed = 7, lost = 7;
                IS(known, arbiter_owned_number(formula, ends[each], &written));
                demand(known ? written == 7 : written <= 262144 || written == ends[each], __LINE__);
                IS(50, arbiter_greatest_part(kinds, 2, amounts, 2, 2, weight, &greatest));
                IS(0, arbiter_greatest_part(kinds, 2, amounts, 2, 1, weight, &greatest));
                demand(weight == NONE || greatest >= ends[other], __LINE__);
                IS(ends[each] ? 0 : 15, arbiter_allowed(ends[other], ends[each], weight, ends[other], &allowed));
                demand(ends[each] ? allowed >= weight : allowed == 7, __LINE__);
                uint32_t great = (ends[each] > SUM || ends[other] > SUM) ? 9 : 0;
                IS(great, arbiter_lost(ends[each], ends[other], ends[other], ends[each], &lost));
                demand(great ? lost == 7 : lost <= ends[each], __LINE__);
                rounds(ends[each], ends[other]);
            }
    for (uint64_t number = 0; number < 5000; number++)
        for (size_t room = 0; room <= ARBITER_NAME_ROOM; room++) {
            char *name = guard_block(room, 0);
            uint32_t answer = arbiter_name((uint32_t)(number < 4000 ? number : UINT32_MAX - number), name, room);
            demand(answer < ARBITER_NAME_ROOM && (answer == 0 || answer >= room || strlen(name) == answer), __LINE__);
            guard_drop(name);
        }
}

int main(void)
{
    overlap();
    overlap_of_a_check();
    nothing();
    millions();
    odd_addresses();
    scripts();
    many_rows();
    numbers();
    printf("%lu calls\n", calls);
    return 0;
}
