/* Sixteen threads that call at once, each on memory of its own: each answer is the one that a single thread got before.
 * threads SECONDS prints the number of calls. 0 where all holds. */
#include "../../share/arbiter.h"

#include <pthread.h>
#include <stdatomic.h>
#include <stdio.h>
#include <stdlib.h>
#include <string.h>
#include <time.h>

#define THREADS 16
#define MOST 200
#define CALLS 21
#define NONE ARBITER_NO_LIMIT
#define TEXT 4000
#define LINES 90

struct answers {
    uint64_t carries[MOST], sums[6][MOST], left[MOST], cells[9][MOST];
    uint64_t amounts[MOST], nums[MOST], dens[MOST], wants[MOST], mosts[MOST], weights[MOST], withheld[MOST], rest, least[6];
    uint32_t places[MOST], groups[MOST], blamed[MOST], actives[MOST], count, met, row, numbers[CALLS];
    uint8_t flags[MOST], reasons[MOST], tights[MOST];
    /* of a round and its scheduler, of goals, and of a script */
    uint64_t held[MOST], demands[MOST], planned[MOST], round_nums[MOST], round_dens[MOST], kept[MOST], tuned[MOST], limited[MOST], served[MOST], parts[MOST], unmet;
    uint64_t halves[MOST], come_to[MOST];
    uint32_t round_places[MOST], above[LINES], faults[LINES], made;
    uint8_t round_flags[MOST], names[TEXT];
    uint64_t columns[7][LINES], lines[LINES], names_count, refused_count;
};

struct tree {
    size_t n;
    uint32_t parents[MOST];
    uint64_t weights[MOST], limits[MOST], demands[MOST], quotas[MOST], own[MOST], bursts[MOST];
    uint8_t hungry[MOST];
    char script[TEXT];
    struct answers alone;
};

static const uint32_t no_formulas[MOST];
static atomic_ulong calls, wrong;
static atomic_int is_over;

static void make(struct tree *tree, unsigned seed)
{
    tree->n = 3 + seed * 13 % (MOST - 3);
    for (size_t g = 0; g < tree->n; g++) {
        tree->parents[g] = g ? (uint32_t)((g - 1) / (2 + seed % 5)) : ARBITER_NO_PARENT;
        tree->weights[g] = 1 + g * 7919 * (seed + 1) % 10000;
        tree->limits[g] = g % 4 == 3 ? g * seed % 30 : NONE;
        tree->demands[g] = (g * 31 + seed) % 25;
        tree->quotas[g] = g % 4 == 3 ? 1000 + g * seed % 40 * 1000 : NONE;
        tree->own[g] = 100000;
        tree->bursts[g] = g % 8 == 3 ? 1000 : 0;
        tree->hungry[g] = (g + seed) % 3 == 0;
    }
    for (size_t g = 1; g < tree->n; g++)
        tree->demands[tree->parents[g]] = 0;
    for (unsigned line = 0, at = 0; line < LINES - 10; line += 4)
        at += (unsigned)sprintf(tree->script + at, "mkdir g%u\nwrite g%u cpu.max %u\ndemand g%u %u\n%s\n", line, line, 20000 + seed * line, line,
                                seed + line % 7, line % 3 ? "period" : "none");
}

#define ROWS tree->parents, n, tree->weights, n, tree->limits, n, tree->demands, n
#define HOST 2, 100000, 1000

static void ask(const struct tree *tree, struct answers *found)
{
    size_t n = tree->n;
    uint32_t last = (uint32_t)n - 1, *numbers = found->numbers;
    uint64_t first = 1, asked = 3;

    memset(found, 0, sizeof *found);
    numbers[0] = arbiter_plan(HOST, ROWS, found->amounts, n);
    numbers[1] = arbiter_certify(HOST, ROWS, found->amounts, n, found->flags, n, found->nums, n, found->dens, n, found->places, n);
    numbers[2] = arbiter_check(HOST, ROWS, found->amounts, n, found->flags, n, found->nums, n, found->dens, n, found->places, n, &found->row);
    numbers[3] = arbiter_limiting(HOST, ROWS, found->groups, n, &found->count, &found->rest);
    numbers[4] = arbiter_reasons(HOST, ROWS, found->reasons, n, found->blamed, n);
    numbers[5] = arbiter_guarantee(HOST, ROWS, last, &found->least[0]);
    numbers[6] = arbiter_least_weight(HOST, ROWS, last, 3, &found->least[1]);
    numbers[7] = arbiter_least_limit(HOST, ROWS, last, 3, &found->least[2]);
    numbers[8] = arbiter_least_processors(HOST, ROWS, last, 3, &found->least[3]);
    numbers[9] = arbiter_check_text((const uint8_t *)"bw 1 1 100000 5000 1\n- 100 max 0 0 0 -\n", 39, &found->row);
    numbers[10] = arbiter_figures(HOST, ROWS, found->wants, n, found->mosts, n, found->tights, n, found->actives, n, found->weights, n, found->withheld, n);
    numbers[11] = arbiter_hold(HOST, ROWS, tree->hungry, n, found->held, n, found->demands, n, found->planned, n, found->round_flags, n, found->round_nums, n,
                               found->round_dens, n, found->round_places, n);
    numbers[12] = arbiter_tune(HOST, ROWS, found->amounts, n, tree->hungry, n, 1, found->kept, n, &found->unmet);
    numbers[13] = arbiter_script(HOST, (uintptr_t)found, (const uint8_t *)tree->script, strlen(tree->script), found->above, LINES, found->columns[0], LINES,
                                 found->columns[1], LINES, found->columns[2], LINES, found->columns[3], LINES, found->columns[4], LINES, found->columns[5], LINES,
                                 found->columns[6], LINES, found->names, TEXT, found->lines, LINES, found->faults, LINES, &found->made, &found->names_count,
                                 &found->refused_count);
    numbers[14] = arbiter_book(HOST, ROWS, tree->limits, n, found->amounts, n, found->carries, n, found->sums[0], n, found->sums[1], n,
                               found->sums[2], n, found->sums[3], n, found->sums[4], n, found->sums[5], n);
    numbers[15] = arbiter_tune(HOST, ROWS, found->amounts, n, tree->hungry, n, 0, found->tuned, n, &found->unmet);
    numbers[16] = arbiter_periods(HOST, tree->parents, n, tree->weights, n, tree->quotas, n, tree->own, n, tree->bursts, n, tree->demands, n, 9,
                                  found->left, n, found->cells[0], n, found->cells[1], n, found->cells[2], n, found->cells[3], n, found->cells[4], n,
                                  found->cells[5], n, found->cells[6], n, found->cells[7], n, found->cells[8], n);
    numbers[17] = arbiter_limit_others(HOST, ROWS, found->amounts, n, tree->hungry, n, found->amounts, n, 0, found->limited, n, &found->met);
    numbers[18] = arbiter_serve(HOST, ROWS, tree->hungry, n, found->served, n, found->parts, n);
    numbers[19] = arbiter_goals(HOST, ROWS, found->amounts, n, 1, found->halves, n, found->come_to, n);
    numbers[20] = arbiter_settle(HOST, ROWS, no_formulas, n, tree->demands, n, tree->demands, n, &last, 1, &asked, 1, &last, 1, &last, 1, &first, 1,
                                 &asked, 1, 1, &found->least[4], 1, &found->least[5]);
    atomic_fetch_add(&calls, CALLS);
}

static void *run(void *given)
{
    const struct tree *tree = given;
    struct answers *found = malloc(sizeof *found);

    while (!atomic_load(&is_over)) {
        ask(tree, found);
        if (memcmp(found, &tree->alone, sizeof *found))
            atomic_fetch_add(&wrong, 1);
    }
    free(found);
    return NULL;
}

int main(int count, char **words)
{
    static struct tree trees[THREADS];
    pthread_t threads[THREADS];
    struct timespec pause = {count > 1 ? atoi(words[1]) : 2, 0};

    for (unsigned each = 0; each < THREADS; each++) {
        make(&trees[each], each);
        ask(&trees[each], &trees[each].alone);
        for (int number = 0; number < CALLS; number++)
            if (trees[each].alone.numbers[number])
                return 2;
    }
    for (unsigned each = 0; each < THREADS; each++)
        if (pthread_create(&threads[each], NULL, run, &trees[each]))
            return 3;
    nanosleep(&pause, NULL);
    atomic_store(&is_over, 1);
    for (unsigned each = 0; each < THREADS; each++)
        pthread_join(threads[each], NULL);
    printf("%lu calls, %lu wrong\n", atomic_load(&calls), atomic_load(&wrong));
    return atomic_load(&wrong) != 0;
}
