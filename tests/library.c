/* Calls the C library as a C program does: 0 where each answer is the one that is known. */
#include "../share/arbiter.h"

static int is_same(const char *one, const char *other)
{
    while (*one && *one == *other)
        one++, other++;
    return *one == *other;
}

int main(void)
{
    const uint32_t parents[3] = {ARBITER_NO_PARENT, 0, 0};
    const uint64_t weights[3] = {100, 100, 200};
    const uint64_t limits[3] = {ARBITER_NO_LIMIT, ARBITER_NO_LIMIT, ARBITER_NO_LIMIT};
    const uint64_t demands[3] = {0, 20, 20};
    uint64_t amounts[3] = {1, 1, 1}, nums[3], dens[3], rest = 1;
    uint8_t flags[3];
    uint32_t places[3], groups[3], count = 9, row = 9;
    uint64_t slices = 9, host[3] = {9, 9, 9};
    char name[ARBITER_NAME_ROOM] = "as it was", version[ARBITER_NAME_ROOM] = "1";
    /* two groups alike; then one beside a pod of two groups with a limit, an idle one and one that wants a slice */
    const uint64_t alike[3] = {100, 100, 100};
    const uint32_t above[7] = {ARBITER_NO_PARENT, 0, 0, 2, 2, 0, 0};
    const uint64_t hundreds[7] = {100, 100, 100, 100, 100, 100, 100};
    const uint64_t pod_of_9[7] = {ARBITER_NO_LIMIT, ARBITER_NO_LIMIT, 9, ARBITER_NO_LIMIT, ARBITER_NO_LIMIT, ARBITER_NO_LIMIT, ARBITER_NO_LIMIT};
    const uint64_t wanted[7] = {0, 20, 0, 20, 20, 0, 1};
    const uint8_t because[7] = {ARBITER_HOST_FULL, ARBITER_HOST_FULL, ARBITER_OWN_LIMIT, ARBITER_LIMIT_ABOVE, ARBITER_LIMIT_ABOVE, ARBITER_NOTHING_ASKED, ARBITER_ALL_WANTED};
    const uint32_t to_blame[7] = {0, 1, 2, 2, 2, 5, 6};
    uint8_t reasons[7];
    uint32_t blamed[7];
    uint64_t least = 9;
    const uint64_t wants_of[7] = {30, 20, 40, 20, 20, 0, 1}, mosts_of[7] = {20, 20, 9, 20, 20, 0, 1};
    const uint64_t weights_of[7] = {300, 0, 200, 0, 0, 0, 0}, withheld_of[7] = {0, 0, 31, 0, 0, 0, 0};
    const uint8_t tights_of[7] = {1, 0, 1, 0, 0, 0, 0};
    const uint32_t actives_of[7] = {3, 0, 2, 0, 0, 0, 0};
    uint64_t wants[7], mosts[7], active_weights[7], withheld[7];
    uint8_t tights[7];
    uint32_t actives[7];
    const uint64_t goals[3] = {0, 14, 6}, too_much[3] = {0, 14, 7}, just_one[3] = {0, 14, 0}, lowest[3] = {0};
    const uint8_t may[3] = {0, 1, 1}, stay[3] = {0};
    uint64_t unmet = 9;
    uint32_t met = 9;
    const uint64_t half[1] = {500000000};
    uint64_t used_now = 9, asked_now = 9;
    uint32_t is_hungry = 9, is_guess = 9;
    const uint64_t used[3] = {0, 4, 10};
    const uint8_t hungry[3] = {0, 0, 1};
    uint64_t caps[3] = {0, 0, 0}, asks[3];
    /* a pod with a limit, a burst and a carry over a group; and a refused line */
    const char script[] = "mkdir web\nwrite web cpu.max 50000\nwrite web cpu.max.burst 25000\nmkdir web/a\ndemand web/a 4\nperiod\nmkdir web\n";
    uint32_t up[3], fault[1];
    uint64_t heavy[3], capped[3], asked[3], quotas[3], periods[3], bursts[3], carries[3], line[1], names_count = 9, refused_count = 9;
    char path[8];
    const uint64_t granted[3] = {ARBITER_NO_LIMIT, 15, 9}, base[3] = {ARBITER_NO_LIMIT, 10, 9}, served[3] = {20, 12, 8}, left_of[3] = {0, 3, 1};
    const uint64_t sums_of[6][3] = {{100007, 60007, 40007}, {8, 8, 8}, {7, 8, 8}, {7, 25007, 55007}, {7, 8, 7}, {7, 10007, 7}};
    const uint64_t quota_of_one[3] = {ARBITER_NO_LIMIT, 50000, ARBITER_NO_LIMIT}, own_periods[3] = {100000, 100000, 100000};
    const uint64_t burst_of_one[3] = {0, 25000, 0}, in_samples[6] = {0, 4, 20, 0, 20, 0};
    const uint64_t none = ARBITER_NO_LIMIT;
    const uint64_t cells_of[9][6] = {{40, 8, 32, 25, 25, 0}, {48, 8, 40, 25, 40, 0}, {none, 25, none, none, 25, none}, {0, 0, 0, 0, 2, 0},
                                     {0, 0, 0, 0, 75000, 0}, {0, 0, 0, 0, 1, 0}, {0, 0, 0, 0, 25000, 0}, {0}, {0}};
    uint64_t saved[3] = {0, 0, 0}, cells[9][6] = {{7}};
    uint64_t left[3] = {7, 7, 7}, sums[6][3] = {{7, 7, 7}, {7, 7, 7}, {7, 7, 7}, {7, 7, 7}, {7, 7, 7}, {7, 7, 7}};

    if (arbiter_plan(0, 100000, 5000, parents, 3, weights, 3, limits, 3, demands, 3, amounts, 3) != 1 || amounts[0] != 1)
        return 1;
    if (arbiter_plan(1, 100000, 5000, parents, 3, weights, 3, limits, 3, demands, 3, amounts, 3) != 0)
        return 2;
    if (amounts[0] != 20 || amounts[1] != 7 || amounts[2] != 13)
        return 3;
    if (arbiter_certify(1, 100000, 5000, parents, 3, weights, 3, limits, 3, demands, 3, amounts, 3, flags, 3, nums, 3, dens, 3, places, 3) != 0)
        return 4;
    if (flags[0] != 1 || flags[1] != 0 || nums[0] != 13 || dens[0] != 100 || places[0] != 0 || dens[1] != 0)
        return 5;
    if (arbiter_check(1, 100000, 5000, parents, 3, weights, 3, limits, 3, demands, 3, amounts, 3, flags, 3, nums, 3, dens, 3, places, 3, &row) != 0 || row != 9)
        return 6;
    amounts[1] = 8;
    amounts[2] = 12;
    if (arbiter_check(1, 100000, 5000, parents, 3, weights, 3, limits, 3, demands, 3, amounts, 3, flags, 3, nums, 3, dens, 3, places, 3, &row)
            != 57 || row != 1)
        return 7;
    if (arbiter_limiting(1, 100000, 5000, parents, 3, weights, 3, limits, 3, demands, 3, groups, 3, &count, &rest) != 0)
        return 8;
    if (count != 1 || groups[0] != 0 || rest != 0)
        return 9;
    if (arbiter_check_text((const uint8_t *)"bw 1 1 100000 5000 1\n- 100 max 0 0 0 -\n", 39, &row) != 0)
        return 10;
    if (arbiter_name(0, name, sizeof name) != 0 || arbiter_name(57, name, 13) != 13 || !is_same(name, "as it was"))
        return 11;
    if (arbiter_name(57, name, 14) != 13 || !is_same(name, "LastMarkAbove"))
        return 12;
    if (arbiter_name(58, name, sizeof name) != 16 || !is_same(name, "NextMarkNotAbove"))
        return 13;
    if (arbiter_version(version, 5) != 5 || !is_same(version, "1"))
        return 14;
    if (arbiter_version(version, 6) != 5 || !is_same(version, ARBITER_VERSION))
        return 15;
    if (arbiter_slices(1, 100000, 5000, 1000000000000001, 0, &slices) != 14 || arbiter_slices(1, 100000, 5000, 0, 999, &slices) != 15 || slices != 9)
        return 16;
    if (arbiter_slices(1, 100000, 5000, 50000, 200000, &slices) != 0 || slices != 5)
        return 17;
    if (arbiter_demand(1, 100000, 5000, 50000001, 1000, &slices) != 9 || arbiter_demand(1, 100000, 5000, 1, 0, &slices) != 11 || slices != 5)
        return 18;
    if (arbiter_demand(1, 100000, 5000, 51, 1000, &slices) != 0 || slices != 2 || arbiter_demand(1, 100000, 5000, 1, 3, &slices) != 0 || slices != 7)
        return 18;
    if (arbiter_planned_host(1009, 5000, 5000, &host[0], &host[1], &host[2]) != 1 || host[0] != 9 || host[1] != 9 || host[2] != 9)
        return 18;
    if (arbiter_planned_host(65, 100000, 5000, &host[0], &host[1], &host[2]) != 0 || host[0] != 52 || host[1] != 25000 || host[2] != 1000)
        return 18;
    if (arbiter_owned_weight(ARBITER_REQUEST_LOGARITHMIC, 1000, &host[0]) != 0 || host[0] != 100 || arbiter_owned_weight(7, 1, &host[0]) != 11)
        return 19;
    if (arbiter_least_owned(ARBITER_REQUEST_LINEAR, 39, &host[0]) != 0 || host[0] != 976 || arbiter_least_owned(ARBITER_UNIT_WEIGHT, 0, &host[0]) != 12)
        return 19;
    if (arbiter_owned_limit(ARBITER_PER_SECOND, 5000, 0, &host[0], &host[1]) != 0 || host[0] != 1000 || host[1] != 200000)
        return 19;
    const uint8_t kinds[3] = {ARBITER_INIT_CONTAINER, ARBITER_SIDECAR, 0};
    const uint64_t parts[3] = {500, 100, 200};
    if (arbiter_pod_amount(kinds, 3, parts, 3, &host[2]) != 0 || host[2] != 500)
        return 19;
    if (arbiter_greatest_part(kinds, 3, parts, 3, 2, 500, &host[2]) != 0 || host[2] != 400 || arbiter_greatest_part(kinds, 3, parts, 3, 2, 499, &host[2]) != 0 || host[2] != ARBITER_NO_LIMIT)
        return 19;
    if (arbiter_owned_number(ARBITER_UNIT_WEIGHT, 1001, &host[2]) != 0 || host[2] != 101 || arbiter_owned_number(ARBITER_UNIT_SHARES, 1000, &host[2]) != 0 || host[2] != 1024)
        return 19;
    if (arbiter_allowed(50000, 100000, 7, 3001, &host[2]) != 0 || host[2] != 8500 || arbiter_allowed(1, 0, 0, 1, &host[2]) != 15)
        return 19;
    if (arbiter_lost(90, 100, 84, 100, &host[2]) != 0 || host[2] != 1 || arbiter_lost(90, 100, 85, 100, &host[2]) != 0 || host[2] != 0)
        return 19;
    /* Two leaves that ask for 9 slices and for everything used 5, and the first was planned 8. Its limit goes back. */
    const uint64_t given[2] = {8, 5}, spent[2] = {5, 5}, read_asks[2] = {9, 1000000};
    const uint8_t lacking[2] = {1, 1};
    uint64_t asks_now[2] = {7, 7}, short_of[2] = {7, 7}, backs[2] = {3, 3}, turns[2] = {3, 3}, judged[2] = {7, 7};
    uint8_t everything[2] = {7, 7};
    if (arbiter_round(given, 2, spent, 2, read_asks, 2, lacking, 1, asks_now, 2, everything, 2, short_of, 2) != 50 || asks_now[0] != 7)
        return 19;
    if (arbiter_round(given, 2, spent, 2, read_asks, 2, lacking, 2, asks_now, 2, everything, 2, short_of, 2) != 0)
        return 19;
    if (asks_now[0] != 9 || asks_now[1] != 5 || everything[0] != 0 || everything[1] != 1 || short_of[0] != 3 || short_of[1] != 0)
        return 19;
    if (arbiter_swings(given, 2, spent, 2, given, 1, backs, 2, turns, 2) != 50 || backs[0] != 3)
        return 19;
    if (arbiter_swings(given, 2, spent, 2, given, 2, backs, 2, turns, 2) != 0 || backs[0] != 4 || backs[1] != 0 || turns[0] != 4 || turns[1] != 0)
        return 19;
    if (arbiter_judged(given, 2, spent, 2, given, 2, spent, 2, spent, 2, spent, 1, &judged[0], &judged[1]) != 50 || judged[0] != 7 || judged[1] != 7)
        return 19;
    if (arbiter_judged(given, 2, spent, 2, given, 2, spent, 2, spent, 2, given, 2, &judged[0], &judged[1]) != 0 || judged[0] != 0 || judged[1] != 0)
        return 19;
    if (arbiter_weight_of_shares(1024, ARBITER_SHARES_LINEAR) != 39 || arbiter_weight_of_shares(1024, ARBITER_SHARES_LOGARITHMIC) != 100
            || arbiter_weight_of_shares(1024, 0) != 0)
        return 19;
    row = 9;
    if (arbiter_refused_row(parents, 3, weights, 3, limits, 3, demands, 3, &row) != 0 || arbiter_refused_row(parents, 3, weights, 2, limits, 3, demands, 3, &row) != 50 || row != 9)
        return 20;
    if (arbiter_refused_row(parents, 3, weights, 3, limits, 3, weights, 3, &row) != 8 || row != 0)
        return 21;
    if (arbiter_reasons(1, 100000, 5000, above, 7, hundreds, 7, pod_of_9, 7, wanted, 7, reasons, 7, blamed, 7) != 0)
        return 22;
    for (int g = 0; g < 7; g++)
        if (reasons[g] != because[g] || blamed[g] != to_blame[g])
            return 23;
    if (arbiter_reasons(1, 100000, 5000, above, 7, hundreds, 7, pod_of_9, 7, wanted, 7, reasons, 7, blamed, 6) != 50 || reasons[3] != ARBITER_LIMIT_ABOVE)
        return 24;
    if (arbiter_guarantee(1, 100000, 5000, above, 7, hundreds, 7, pod_of_9, 7, wanted, 7, 7, &least) != 20 || least != 9)
        return 25;
    if (arbiter_guarantee(1, 100000, 5000, above, 7, hundreds, 7, pod_of_9, 7, wanted, 7, 3, &least) != 0 || least != 3)
        return 26;
    if (arbiter_least_weight(1, 100000, 5000, parents, 3, alike, 3, limits, 3, demands, 3, 1, 14, &least) != 0 || least != 208)
        return 27;
    if (arbiter_least_weight(1, 100000, 5000, parents, 3, alike, 3, limits, 3, demands, 3, 1, 21, &least) != 0 || least != 0)
        return 28;
    uint32_t by_weight[3] = {0, ARBITER_UNIT_WEIGHT, 0};
    uint64_t nothing[3] = {0};
    uint32_t own[1] = {1};
    uint64_t share[1] = {14}, begin[1] = {1}, end[1] = {10000}, number[1];
    if (arbiter_settle(1, 100000, 5000, parents, 3, alike, 3, limits, 3, demands, 3, by_weight, 3, nothing, 3, nothing, 3, own, 1, share, 1, own, 1, own, 1, begin, 1, end, 1, 0, number, 1, &least) != 0 || least != ARBITER_NO_LIMIT || *number != 208)
        return 74;
    if (arbiter_least_limit(1, 100000, 5000, parents, 3, alike, 3, limits, 3, demands, 3, 1, 10, &least) != 0 || least != 10)
        return 29;
    if (arbiter_least_limit(1, 100000, 5000, parents, 3, alike, 3, limits, 3, demands, 3, 1, 11, &least) != 0 || least != ARBITER_NO_LIMIT)
        return 30;
    if (arbiter_least_limit(1, 100000, 5000, parents, 3, alike, 3, limits, 3, demands, 3, 0, 10, &least) != 10 || least != ARBITER_NO_LIMIT)
        return 31;
    if (arbiter_least_processors(1, 100000, 5000, parents, 3, alike, 3, limits, 3, demands, 3, 1, 14, &least) != 0 || least != 2)
        return 32;
    if (arbiter_least_processors(1, 100000, 5000, parents, 3, alike, 3, limits, 3, demands, 3, 1, 21, &least) != 0 || least != 0)
        return 33;
    if (arbiter_name(20, name, sizeof name) != 8 || !is_same(name, "NotFound"))
        return 34;
    if (arbiter_figures(1, 100000, 5000, above, 7, hundreds, 7, pod_of_9, 7, wanted, 7, wants, 7, mosts, 7, tights, 7, actives, 7, active_weights, 7, withheld, 7) != 0)
        return 35;
    for (int g = 0; g < 7; g++)
        if (wants[g] != wants_of[g] || mosts[g] != mosts_of[g] || tights[g] != tights_of[g] || actives[g] != actives_of[g]
                || active_weights[g] != weights_of[g] || withheld[g] != withheld_of[g])
            return 36;
    if (arbiter_figures(1, 100000, 5000, above, 7, hundreds, 7, pod_of_9, 7, wanted, 7, wants, 7, mosts, 7, tights, 7, actives, 7, active_weights, 7, withheld, 6) != 50 || withheld[2] != 31)
        return 37;
    /* The first used 4 of its 7, so the second, which would have used more, may have 16. */
    if (arbiter_hold(1, 100000, 5000, parents, 3, weights, 3, limits, 3, used, 3, hungry, 2, caps, 3, asks, 3, amounts, 3, flags, 3, nums, 3, dens, 3, places, 3)
            != 50 || caps[1] != 0)
        return 38;
    if (arbiter_hold(1, 100000, 5000, parents, 3, weights, 3, limits, 3, used, 3, hungry, 3, caps, 3, asks, 3, amounts, 3, flags, 3, nums, 3, dens, 3, places, 3) != 0)
        return 39;
    if (caps[0] != ARBITER_NO_LIMIT || caps[1] != 7 || caps[2] != 16 || asks[1] != 4 || asks[2] != 1000000 || amounts[1] != 4 || amounts[2] != 16)
        return 40;
    if (arbiter_check(1, 100000, 5000, parents, 3, weights, 3, limits, 3, asks, 3, amounts, 3, flags, 3, nums, 3, dens, 3, places, 3, &row) != 0)
        return 41;
    /* The first may use 7, and the second 13, which has 16: 7 times 16 over 13. */
    if (arbiter_serve(1, 100000, 5000, parents, 3, weights, 3, limits, 3, used, 3, hungry, 3, asks, 3, caps, 2) != 50 || caps[1] != 7)
        return 66;
    if (arbiter_serve(1, 100000, 5000, parents, 3, weights, 3, limits, 3, used, 3, hungry, 3, asks, 3, caps, 3) != 0)
        return 67;
    if (asks[0] != 20 || asks[1] != 8 || asks[2] != 16 || caps[1] != ARBITER_NO_LIMIT || caps[2] != ARBITER_NO_LIMIT)
        return 68;
    if (arbiter_script(1, 100000, 5000, 7, (const uint8_t *)script, sizeof script - 1, up, 3, heavy, 3, capped, 3, asked, 3, quotas, 3, periods, 3,
                       bursts, 3, carries, 2, (uint8_t *)path, 7, line, 1, fault, 1, &count, &names_count, &refused_count) != 50 || count != 1)
        return 42;
    if (arbiter_script(1, 100000, 5000, 7, (const uint8_t *)script, sizeof script - 1, up, 3, heavy, 3, capped, 3, asked, 3, quotas, 3, periods, 3,
                       bursts, 3, carries, 3, (uint8_t *)path, 7, line, 1, fault, 1, &count, &names_count, &refused_count) != 0)
        return 43;
    path[7] = 0;
    if (count != 3 || names_count != 7 || refused_count != 1 || !is_same(path, "\nweb\na\n") || line[0] != 7 || fault[0] != 21)
        return 44;
    if (up[0] != ARBITER_NO_PARENT || up[1] != 0 || up[2] != 1 || heavy[1] != 100 || asked[2] != 4 || quotas[1] != 50000 || periods[1] != 100000)
        return 45;
    if (bursts[1] != 25000 || carries[1] != 6 || capped[1] != 15 || capped[2] != ARBITER_NO_LIMIT || quotas[2] != ARBITER_NO_LIMIT)
        return 46;
    /* The fourteenth slice of the first costs 27 / 208, the seventh of the second 13 / 100: less with 208, and more with 207. */
    if (arbiter_tune(1, 100000, 5000, parents, 3, alike, 3, limits, 3, demands, 3, goals, 2, may, 3, 0, heavy, 3, &unmet) != 50)
        return 47;
    if (heavy[1] != 100 || unmet != 9)
        return 50;
    if (arbiter_tune(1, 100000, 5000, parents, 3, alike, 3, limits, 3, demands, 3, goals, 3, may, 3, 0, heavy, 3, &unmet) != 0)
        return 51;
    if (heavy[0] != 100 || heavy[1] != 208 || heavy[2] != 100 || unmet != ARBITER_NO_GOAL)
        return 52;
    if (arbiter_tune(1, 100000, 5000, parents, 3, alike, 3, limits, 3, demands, 3, too_much, 3, may, 3, 1, heavy, 3, &unmet) != 0)
        return 53;
    if (heavy[0] != 100 || heavy[1] != 100 || heavy[2] != 100 || unmet != 0)
        return 54;
    /* The first has 14 where the second may use 6. */
    if (arbiter_limit_others(1, 100000, 5000, parents, 3, alike, 3, limits, 3, demands, 3, goals, 3, may, 3, lowest, 2, 0, caps, 3, &met) != 50 || met != 9)
        return 61;
    if (arbiter_limit_others(1, 100000, 5000, parents, 3, alike, 3, limits, 3, demands, 3, just_one, 3, stay, 3, lowest, 3, 0, caps, 3, &met) != 0)
        return 62;
    if (met != 1 || caps[0] != ARBITER_NO_LIMIT || caps[1] != ARBITER_NO_LIMIT || caps[2] != 6)
        return 63;
    if (arbiter_limit_others(1, 100000, 5000, parents, 3, alike, 3, limits, 3, demands, 3, too_much, 3, may, 3, lowest, 3, 1, caps, 3, &met) != 0 || met != 0)
        return 64;
    /* The second keeps half of its 10. */
    if (arbiter_goals(1, 100000, 5000, parents, 3, alike, 3, limits, 3, demands, 3, just_one, 3, 0, caps, 3, heavy, 2) != 50 || heavy[1] != 100)
        return 71;
    if (arbiter_goals(1, 100000, 5000, parents, 3, alike, 3, limits, 3, demands, 3, just_one, 3, 1, caps, 3, heavy, 3) != 0)
        return 72;
    if (caps[0] != 0 || caps[1] != 14 || caps[2] != 5 || heavy[0] != 14 || heavy[1] != 14 || heavy[2] != 0)
        return 73;
    /* A starved task used half of the processor and could have used it whole. Its group may use three quarters of it. */
    if (arbiter_reading(1, 100000, 5000, 1000000000, 500000, 500000, 1, 0, ARBITER_NO_LIMIT, half, 1, half, 0, &used_now, &asked_now, &is_hungry, &is_guess) != 50
            || arbiter_reading(1, 100000, 5000, 0, 500000, 500000, 1, 0, ARBITER_NO_LIMIT, half, 1, half, 1, &used_now, &asked_now, &is_hungry, &is_guess) != 15 || used_now != 9)
        return 56;
    if (arbiter_reading(2, 100000, 5000, 1000000000, 500000, 500000, 1, 0, ARBITER_NO_LIMIT, half, 1, half, 1, &used_now, &asked_now, &is_hungry, &is_guess) != 0
            || used_now != 10 || asked_now != 20 || is_hungry != 1 || is_guess != 0)
        return 57;
    /* A leaf of a scheduler used half of the processor, and its tasks waited for the other half. */
    if (arbiter_leaf_reading(1, 100000, 5000, 0, 1, 1, 1, &used_now, &asked_now) != 15 || used_now != 10)
        return 69;
    if (arbiter_leaf_reading(1, 100000, 5000, 1000000000, 500000000, 500000000, 500000000, &used_now, &asked_now) != 0 || used_now != 10 || asked_now != 20)
        return 70;
    if (arbiter_written(1, 100000, 5000, ARBITER_NO_LIMIT, 0, 0, 1, &used_now, &asked_now) != 14 || used_now != 10)
        return 58;
    if (arbiter_written(1, 100000, 5000, 15, 20, 0, 1, &used_now, &asked_now) != 0 || used_now != 75585 || asked_now != 288)
        return 59;
    if (arbiter_written(1, 100000, 5000, 15, 15, 0, 1, &used_now, &asked_now) != 0 || used_now != ARBITER_NO_LIMIT)
        return 60;
    if (arbiter_name(26, name, sizeof name) != 9 || !is_same(name, "RootFixed"))
        return 55;
    /* A quota of 10 slices and a burst of 5: with 6 left of the last period the next has 15. */
    if (arbiter_period_limit(1, 100000, 5000, 999, 999, 0, 0, &slices) != 13 || arbiter_period_limit(1, 100000, 5000, 50000, 999, UINT64_MAX, 0, &slices) != 15)
        return 56;
    if (arbiter_period_limit(1, 100000, 5000, 50000, 100000, UINT64_MAX, 0, &slices) != 14 || slices != 7)
        return 57;
    if (arbiter_period_limit(1, 100000, 5000, 50000, 100000, 25000, 6, &slices) != 0 || slices != 15)
        return 58;
    if (arbiter_period_limit(1, 100000, 5000, ARBITER_NO_LIMIT, 100000, 25000, 6, &slices) != 0 || slices != ARBITER_NO_LIMIT)
        return 59;
    /* Groups of 15 and 9 slices of which quotas were 10 and 9: the first used 12, the second 8 and wanted 20. */
    if (arbiter_book(1, 100000, 5000, parents, 3, weights, 3, granted, 3, demands, 3, base, 3, served, 3, left, 3, sums[0], 3, sums[1], 3, sums[2], 3,
                     sums[3], 3, sums[4], 3, sums[5], 2) != 50 || left[1] != 7 || sums[0][1] != 7)
        return 60;
    if (arbiter_book(1, 100000, 5000, parents, 3, weights, 3, granted, 3, demands, 3, base, 3, served, 3, left, 3, sums[0], 3, sums[1], 3, sums[2], 3,
                     sums[3], 3, sums[4], 3, sums[5], 3) != 0)
        return 61;
    for (int g = 0; g < 3; g++)
        for (int each = 0; each < 6; each++)
            if (left[g] != left_of[g] || sums[each][g] != sums_of[each][g])
                return 62;
    /* The quota and the burst again: in two samples of two periods 6 slices are saved up, then 11, of which 5 count. */
    if (arbiter_periods(1, 100000, 5000, parents, 3, weights, 3, quota_of_one, 3, own_periods, 3, burst_of_one, 3, in_samples, 6, 2, saved, 3,
                        cells[0], 6, cells[1], 6, cells[2], 6, cells[3], 6, cells[4], 6, cells[5], 6, cells[6], 6, cells[7], 6, cells[8], 5) != 50
            || cells[0][0] != 7 || saved[0] != 0)
        return 63;
    if (arbiter_periods(1, 100000, 5000, parents, 3, weights, 3, quota_of_one, 3, own_periods, 3, burst_of_one, 3, in_samples, 6, 2, saved, 3,
                        cells[0], 6, cells[1], 6, cells[2], 6, cells[3], 6, cells[4], 6, cells[5], 6, cells[6], 6, cells[7], 6, cells[8], 6) != 0)
        return 64;
    for (int each = 0; each < 9; each++)
        for (int cell = 0; cell < 6; cell++)
            if (cells[each][cell] != cells_of[each][cell] || saved[cell % 3] != 0)
                return 65;
    return 0;
}
