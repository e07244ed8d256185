/* Refuses each allocation of each call of the C library in turn: 71, nothing written, nothing kept. 0 where all is so.
 * Linked with --wrap for malloc, realloc and free. */
#include "../share/arbiter.h"

void *__real_malloc(size_t size);
void *__real_realloc(void *block, size_t size);
void __real_free(void *block);
void *__wrap_malloc(size_t size);
void *__wrap_realloc(void *block, size_t size);
void __wrap_free(void *block);

static int turn, refused_turn, held;

void *__wrap_malloc(size_t size)
{
    void *block = ++turn == refused_turn ? 0 : __real_malloc(size);
    held += block != 0;
    return block;
}

void *__wrap_realloc(void *block, size_t size)
{
    void *moved = ++turn == refused_turn ? 0 : __real_realloc(block, size);
    held += moved != 0 && block == 0;
    return moved;
}

void __wrap_free(void *block)
{
    held -= block != 0;
    __real_free(block);
}

static const uint32_t parents[5] = {ARBITER_NO_PARENT, 0, 1, 1, 0};
static const uint64_t weights[5] = {100, 100, 100, 300, 100};
static const uint64_t limits[5] = {ARBITER_NO_LIMIT, 10, ARBITER_NO_LIMIT, ARBITER_NO_LIMIT, ARBITER_NO_LIMIT};
static const uint64_t demands[5] = {0, 0, 20, 20, 20};
static const char text[] = "bw 1 1 100000 5000 3\n- 100 max 0 20 1 13/100@0\n0 100 max 20 7 0 -\n0 200 max 20 13 0 -\n";
static const uint8_t hungry[5] = {0, 0, 1, 0, 1};
static uint64_t amounts[5], nums[5], dens[5], caps[5], asks[5], rest, planned[3];
static uint64_t wants[5], mosts[5], active_weights[5], withheld[5];
static uint8_t flags[5], reasons[5], tights[5];
/* The second pod of the host is to have 16: only weights that are lower give it that. */
static const uint64_t greatest[5] = {100, 10000, 100, 300, 10000};
static const uint64_t most_for_one[5] = {0, 0, 0, 0, 16};
static const uint64_t asks_too_much[5] = {0, 7, 0, 0, 14};
static const uint8_t may[5] = {0, 1, 1, 1, 1};
static const uint64_t just_one[5] = {0, 0, 0, 0, 15}, lowest[5];
static const uint8_t none[5];
/* The third row's weight follows. */
static const uint32_t by_weight[5] = {0, 0, 0, ARBITER_UNIT_WEIGHT, 0};
static uint64_t tuned[5], unmet;
static uint32_t met;
static uint32_t places[5], groups[5], blamed[5], actives[5], count, row;
/* Each command of a script, a name that takes memory, a period with a carry, and refused lines. */
static const char script[] = "mkdir pod\nmkdir pod/a-name-of-more-than-24-bytes\nmkdir pod/y\nwrite pod cpu.max 50000\n"
                             "write pod cpu.max.burst 25000\ndemand pod/y 4\nread pod cpu.max\nperiod\nmkdir pod\nrmdir x\n";
static uint32_t above[5], faults[5];
static uint64_t columns[7][5], lines[5], names_count, refused_count;
static uint8_t names[64];

/* Two samples of a pod with a quota and a burst. */
static const uint64_t quotas[5] = {ARBITER_NO_LIMIT, 50000, ARBITER_NO_LIMIT, ARBITER_NO_LIMIT, ARBITER_NO_LIMIT};
static const uint64_t lasting[5] = {100000, 100000, 100000, 100000, 100000}, bursts[5] = {0, 25000, 0, 0, 0};
static const uint64_t two_samples[10] = {0, 0, 2, 2, 20, 0, 0, 20, 20, 20};
static uint64_t carried[5], cells[9][10];
/* Goals of two rows, each with a number of its own. */
static const uint32_t owners[2] = {3, 4};
static const uint64_t asked[2] = {9, 3}, firsts[2] = {1, 1}, lasts[2] = {10000, 10000};

#define ROWS 1, 100000, 5000, parents, 5, weights, 5, limits, 5, demands, 5
/* The calls before the check. */
#define CALLS 21

static void mark(void)
{
    for (int g = 0; g < 5; g++) {
        amounts[g] = nums[g] = dens[g] = caps[g] = asks[g] = 7;
        wants[g] = mosts[g] = active_weights[g] = withheld[g] = 7;
        flags[g] = reasons[g] = tights[g] = 7;
        places[g] = groups[g] = blamed[g] = actives[g] = above[g] = faults[g] = 7;
        for (int column = 0; column < 7; column++)
            columns[column][g] = 7;
        lines[g] = names[g] = 7;
    }
    for (int g = 0; g < 5; g++)
        tuned[g] = carried[g] = 7;
    for (int cell = 0; cell < 90; cell++)
        cells[cell / 10][cell % 10] = 7;
    unmet = met = 7;
    rest = count = row = 7;
    names_count = refused_count = 7;
}

static int is_marked(void)
{
    for (int g = 0; g < 5; g++)
        if (amounts[g] != 7 || nums[g] != 7 || dens[g] != 7 || flags[g] != 7 || places[g] != 7 || groups[g] != 7
                || reasons[g] != 7 || blamed[g] != 7 || wants[g] != 7 || mosts[g] != 7 || tights[g] != 7
                || actives[g] != 7 || active_weights[g] != 7 || withheld[g] != 7 || caps[g] != 7 || asks[g] != 7
                || above[g] != 7 || faults[g] != 7 || lines[g] != 7 || names[g] != 7)
            return 0;
    for (int g = 0; g < 5; g++)
        for (int column = 0; column < 7; column++)
            if (columns[column][g] != 7)
                return 0;
    for (int g = 0; g < 5; g++)
        if (tuned[g] != 7 || carried[g] != 7)
            return 0;
    for (int cell = 0; cell < 90; cell++)
        if (cells[cell / 10][cell % 10] != 7)
            return 0;
    if (unmet != 7 || met != 7)
        return 0;
    return rest == 7 && count == 7 && row == 7 && names_count == 7 && refused_count == 7;
}

static uint32_t call(int which)
{
    switch (which) {
    case 0: return arbiter_plan(ROWS, amounts, 5);
    case 1: return arbiter_certify(ROWS, amounts, 5, flags, 5, nums, 5, dens, 5, places, 5);
    case 2: return arbiter_limiting(ROWS, groups, 5, &count, &rest);
    case 3: return arbiter_check_text((const uint8_t *)text, sizeof text - 1, &row);
    case 4: return arbiter_reasons(ROWS, reasons, 5, blamed, 5);
    case 5: return arbiter_guarantee(ROWS, 3, &rest);
    case 6: return arbiter_least_weight(ROWS, 3, 9, &rest);
    case 7: return arbiter_least_limit(ROWS, 1, 8, &rest);
    case 8: return arbiter_least_processors(ROWS, 4, 15, &rest);
    case 9: return arbiter_figures(ROWS, wants, 5, mosts, 5, tights, 5, actives, 5, active_weights, 5, withheld, 5);
    case 10: return arbiter_hold(ROWS, hungry, 5, caps, 5, asks, 5, amounts, 5, flags, 5, nums, 5, dens, 5, places, 5);
    case 11: return arbiter_script(1, 100000, 5000, 7, (const uint8_t *)script, sizeof script - 1, above, 5, columns[0], 5,
                                  columns[1], 5, columns[2], 5, columns[3], 5, columns[4], 5, columns[5], 5, columns[6], 5,
                                  names, sizeof names, lines, 5, faults, 5, &count, &names_count, &refused_count);
    case 12: return arbiter_tune(1, 100000, 5000, parents, 5, greatest, 5, limits, 5, demands, 5, most_for_one, 5, may, 5, 0,
                                tuned, 5, &unmet);
    case 13: return arbiter_tune(ROWS, asks_too_much, 5, may, 5, 0, tuned, 5, &unmet);
    case 14: return arbiter_book(ROWS, limits, 5, demands, 5, columns[0], 5, columns[1], 5, columns[2], 5, columns[3], 5,
                                columns[4], 5, columns[5], 5, columns[6], 5);
    case 15: return arbiter_periods(1, 100000, 5000, parents, 5, weights, 5, quotas, 5, lasting, 5, bursts, 5, two_samples, 10, 5,
                                   carried, 5, cells[0], 10, cells[1], 10, cells[2], 10, cells[3], 10, cells[4], 10,
                                   cells[5], 10, cells[6], 10, cells[7], 10, cells[8], 10);
    case 16: return arbiter_tune(1, 100000, 5000, parents, 5, greatest, 5, limits, 5, demands, 5, most_for_one, 5, may, 5, 1,
                                tuned, 5, &unmet);
    case 17: return arbiter_limit_others(ROWS, just_one, 5, none, 5, lowest, 5, 0, tuned, 5, &met);
    case 18: return arbiter_serve(ROWS, hungry, 5, asks, 5, caps, 5);
    case 19: return arbiter_goals(ROWS, just_one, 5, 1, tuned, 5, caps, 5);
    case 20: return arbiter_settle(ROWS, by_weight, 5, lowest, 5, lowest, 5, owners, 2, asked, 2, owners, 2, owners, 2, firsts, 2, lasts, 2, 1, caps, 2, &rest);
    default: return arbiter_check(ROWS, amounts, 5, flags, 5, nums, 5, dens, 5, places, 5, &row);
    }
}

int main(void)
{
    for (int which = 0; which < CALLS; which++) {
        int refusals = 0;
        refused_turn = 0;
        /* a list that is refused twice its room takes the room that it needs, so not each refusal is answered */
        do {
            refused_turn++;
            mark();
            turn = 0;
            uint32_t number = call(which);
            if (held != 0)
                return 60 + which;
            if (number != 0 && (number != 71 || !is_marked()))
                return 80 + which;
            refusals += number != 0;
        } while (turn >= refused_turn);
        if (refusals < 3)
            return 100 + which;
    }
    /* the check of a certificate that holds */
    refused_turn = 0;
    if (call(1) != 0)
        return 40;
    do {
        refused_turn++;
        turn = 0;
        row = 7;
        uint32_t number = call(CALLS);
        if (held != 0 || row != 7 || (number != 0 && number != 71))
            return 41;
    } while (turn >= refused_turn);
    if (refused_turn <= 3)
        return 42;
    /* the other calls ask for no memory */
    turn = 0;
    refused_turn = 1;
    char words[ARBITER_NAME_ROOM];
    if (arbiter_refused_row(parents, 5, weights, 5, limits, 5, weights, 5, &row) != 8 || row != 0)
        return 50;
    if (arbiter_slices(1, 100000, 5000, 5000, 100000, &rest) != 0 || arbiter_demand(1, 100000, 5000, 50, 1000, &rest) != 0 || arbiter_planned_host(65, 100000, 5000, &planned[0], &planned[1], &planned[2]) != 0)
        return 51;
    if (arbiter_weight_of_shares(3, ARBITER_SHARES_LOGARITHMIC) != 2 || arbiter_weight_of_shares(3, ARBITER_SHARES_LINEAR) != 1)
        return 52;
    if (arbiter_version(words, sizeof words) != 5 || arbiter_name(71, words, sizeof words) != 11)
        return 53;
    const uint64_t ran[1] = {500000000};
    uint64_t two[2];
    uint32_t is_hungry, is_guess;
    if (arbiter_reading(1, 100000, 5000, 1000000000, 500000, 500000, 1, 0, ARBITER_NO_LIMIT, ran, 1, ran, 1, two, two + 1, &is_hungry, &is_guess) != 0 || is_hungry != 1)
        return 55;
    if (arbiter_leaf_reading(1, 100000, 5000, 1000000000, 500000000, 500000000, 500000000, two, two + 1) != 0 || two[1] != 20)
        return 57;
    if (arbiter_written(1, 100000, 5000, 10, ARBITER_NO_LIMIT, 0, 1, two, two + 1) != 0)
        return 56;
    return turn == 0 ? 0 : 54;
}
