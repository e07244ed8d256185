/* The calls of arbiter.h by the checked build: see library.c. Made from python/arbiter_pages/calls.py; a test compares them. */

uint32_t arbiter_plan(uint64_t processors, uint64_t period_us, uint64_t slice_us,
                      const uint32_t *parents, size_t parents_length, const uint64_t *weights, size_t weights_length,
                      const uint64_t *limits, size_t limits_length, const uint64_t *demands, size_t demands_length,
                      uint64_t *amounts, size_t amounts_length)
{
    begin("plan");
    put(' ', processors);
    put(' ', period_us);
    put(' ', slice_us);
    COLUMN(parents, parents_length);
    COLUMN(weights, weights_length);
    COLUMN(limits, limits_length);
    COLUMN(demands, demands_length);
    COLUMN(amounts, amounts_length);
    uint32_t answer = (uint32_t)sent_line();
    TOLD(amounts, amounts_length);
    pthread_mutex_unlock(&lock);
    return answer;
}

uint32_t arbiter_certify(uint64_t processors, uint64_t period_us, uint64_t slice_us,
                         const uint32_t *parents, size_t parents_length, const uint64_t *weights, size_t weights_length,
                         const uint64_t *limits, size_t limits_length, const uint64_t *demands, size_t demands_length,
                         uint64_t *amounts, size_t amounts_length, uint8_t *flags, size_t flags_length,
                         uint64_t *nums, size_t nums_length, uint64_t *dens, size_t dens_length,
                         uint32_t *places, size_t places_length)
{
    begin("certify");
    put(' ', processors);
    put(' ', period_us);
    put(' ', slice_us);
    COLUMN(parents, parents_length);
    COLUMN(weights, weights_length);
    COLUMN(limits, limits_length);
    COLUMN(demands, demands_length);
    COLUMN(amounts, amounts_length);
    COLUMN(flags, flags_length);
    COLUMN(nums, nums_length);
    COLUMN(dens, dens_length);
    COLUMN(places, places_length);
    uint32_t answer = (uint32_t)sent_line();
    TOLD(amounts, amounts_length);
    TOLD(flags, flags_length);
    TOLD(nums, nums_length);
    TOLD(dens, dens_length);
    TOLD(places, places_length);
    pthread_mutex_unlock(&lock);
    return answer;
}

uint32_t arbiter_check(uint64_t processors, uint64_t period_us, uint64_t slice_us,
                       const uint32_t *parents, size_t parents_length, const uint64_t *weights, size_t weights_length,
                       const uint64_t *limits, size_t limits_length, const uint64_t *demands, size_t demands_length,
                       const uint64_t *amounts, size_t amounts_length, const uint8_t *flags, size_t flags_length,
                       const uint64_t *nums, size_t nums_length, const uint64_t *dens, size_t dens_length,
                       const uint32_t *places, size_t places_length, uint32_t *row)
{
    begin("check");
    put(' ', processors);
    put(' ', period_us);
    put(' ', slice_us);
    COLUMN(parents, parents_length);
    COLUMN(weights, weights_length);
    COLUMN(limits, limits_length);
    COLUMN(demands, demands_length);
    COLUMN(amounts, amounts_length);
    COLUMN(flags, flags_length);
    COLUMN(nums, nums_length);
    COLUMN(dens, dens_length);
    COLUMN(places, places_length);
    put(' ', *row);
    uint32_t answer = (uint32_t)sent_line();
    *row = (uint32_t)get();
    pthread_mutex_unlock(&lock);
    return answer;
}

uint32_t arbiter_check_text(const uint8_t *text, size_t text_length, uint32_t *row)
{
    begin("check_text");
    COLUMN(text, text_length);
    put(' ', *row);
    uint32_t answer = (uint32_t)sent_line();
    *row = (uint32_t)get();
    pthread_mutex_unlock(&lock);
    return answer;
}

uint32_t arbiter_limiting(uint64_t processors, uint64_t period_us, uint64_t slice_us,
                          const uint32_t *parents, size_t parents_length, const uint64_t *weights, size_t weights_length,
                          const uint64_t *limits, size_t limits_length, const uint64_t *demands, size_t demands_length,
                          uint32_t *groups, size_t groups_length, uint32_t *count, uint64_t *rest)
{
    begin("limiting");
    put(' ', processors);
    put(' ', period_us);
    put(' ', slice_us);
    COLUMN(parents, parents_length);
    COLUMN(weights, weights_length);
    COLUMN(limits, limits_length);
    COLUMN(demands, demands_length);
    COLUMN(groups, groups_length);
    put(' ', *count);
    put(' ', *rest);
    uint32_t answer = (uint32_t)sent_line();
    TOLD(groups, groups_length);
    *count = (uint32_t)get();
    *rest = (uint64_t)get();
    pthread_mutex_unlock(&lock);
    return answer;
}

uint32_t arbiter_figures(uint64_t processors, uint64_t period_us, uint64_t slice_us,
                         const uint32_t *parents, size_t parents_length, const uint64_t *weights, size_t weights_length,
                         const uint64_t *limits, size_t limits_length, const uint64_t *demands, size_t demands_length,
                         uint64_t *wants, size_t wants_length, uint64_t *mosts, size_t mosts_length,
                         uint8_t *tights, size_t tights_length, uint32_t *actives, size_t actives_length,
                         uint64_t *active_weights, size_t active_weights_length, uint64_t *withheld, size_t withheld_length)
{
    begin("figures");
    put(' ', processors);
    put(' ', period_us);
    put(' ', slice_us);
    COLUMN(parents, parents_length);
    COLUMN(weights, weights_length);
    COLUMN(limits, limits_length);
    COLUMN(demands, demands_length);
    COLUMN(wants, wants_length);
    COLUMN(mosts, mosts_length);
    COLUMN(tights, tights_length);
    COLUMN(actives, actives_length);
    COLUMN(active_weights, active_weights_length);
    COLUMN(withheld, withheld_length);
    uint32_t answer = (uint32_t)sent_line();
    TOLD(wants, wants_length);
    TOLD(mosts, mosts_length);
    TOLD(tights, tights_length);
    TOLD(actives, actives_length);
    TOLD(active_weights, active_weights_length);
    TOLD(withheld, withheld_length);
    pthread_mutex_unlock(&lock);
    return answer;
}

uint32_t arbiter_reasons(uint64_t processors, uint64_t period_us, uint64_t slice_us,
                         const uint32_t *parents, size_t parents_length, const uint64_t *weights, size_t weights_length,
                         const uint64_t *limits, size_t limits_length, const uint64_t *demands, size_t demands_length,
                         uint8_t *reasons, size_t reasons_length, uint32_t *blamed, size_t blamed_length)
{
    begin("reasons");
    put(' ', processors);
    put(' ', period_us);
    put(' ', slice_us);
    COLUMN(parents, parents_length);
    COLUMN(weights, weights_length);
    COLUMN(limits, limits_length);
    COLUMN(demands, demands_length);
    COLUMN(reasons, reasons_length);
    COLUMN(blamed, blamed_length);
    uint32_t answer = (uint32_t)sent_line();
    TOLD(reasons, reasons_length);
    TOLD(blamed, blamed_length);
    pthread_mutex_unlock(&lock);
    return answer;
}

uint32_t arbiter_guarantee(uint64_t processors, uint64_t period_us, uint64_t slice_us,
                           const uint32_t *parents, size_t parents_length, const uint64_t *weights, size_t weights_length,
                           const uint64_t *limits, size_t limits_length, const uint64_t *demands, size_t demands_length,
                           uint32_t group, uint64_t *amount)
{
    begin("guarantee");
    put(' ', processors);
    put(' ', period_us);
    put(' ', slice_us);
    COLUMN(parents, parents_length);
    COLUMN(weights, weights_length);
    COLUMN(limits, limits_length);
    COLUMN(demands, demands_length);
    put(' ', group);
    put(' ', *amount);
    uint32_t answer = (uint32_t)sent_line();
    *amount = (uint64_t)get();
    pthread_mutex_unlock(&lock);
    return answer;
}

uint32_t arbiter_least_weight(uint64_t processors, uint64_t period_us, uint64_t slice_us,
                              const uint32_t *parents, size_t parents_length, const uint64_t *weights, size_t weights_length,
                              const uint64_t *limits, size_t limits_length, const uint64_t *demands, size_t demands_length,
                              uint32_t group, uint64_t amount, uint64_t *weight)
{
    begin("least_weight");
    put(' ', processors);
    put(' ', period_us);
    put(' ', slice_us);
    COLUMN(parents, parents_length);
    COLUMN(weights, weights_length);
    COLUMN(limits, limits_length);
    COLUMN(demands, demands_length);
    put(' ', group);
    put(' ', amount);
    put(' ', *weight);
    uint32_t answer = (uint32_t)sent_line();
    *weight = (uint64_t)get();
    pthread_mutex_unlock(&lock);
    return answer;
}

uint32_t arbiter_least_limit(uint64_t processors, uint64_t period_us, uint64_t slice_us,
                             const uint32_t *parents, size_t parents_length, const uint64_t *weights, size_t weights_length,
                             const uint64_t *limits, size_t limits_length, const uint64_t *demands, size_t demands_length,
                             uint32_t group, uint64_t amount, uint64_t *limit)
{
    begin("least_limit");
    put(' ', processors);
    put(' ', period_us);
    put(' ', slice_us);
    COLUMN(parents, parents_length);
    COLUMN(weights, weights_length);
    COLUMN(limits, limits_length);
    COLUMN(demands, demands_length);
    put(' ', group);
    put(' ', amount);
    put(' ', *limit);
    uint32_t answer = (uint32_t)sent_line();
    *limit = (uint64_t)get();
    pthread_mutex_unlock(&lock);
    return answer;
}

uint32_t arbiter_least_processors(uint64_t processors, uint64_t period_us, uint64_t slice_us,
                                  const uint32_t *parents, size_t parents_length,
                                  const uint64_t *weights, size_t weights_length, const uint64_t *limits, size_t limits_length,
                                  const uint64_t *demands, size_t demands_length, uint32_t group, uint64_t amount,
                                  uint64_t *least)
{
    begin("least_processors");
    put(' ', processors);
    put(' ', period_us);
    put(' ', slice_us);
    COLUMN(parents, parents_length);
    COLUMN(weights, weights_length);
    COLUMN(limits, limits_length);
    COLUMN(demands, demands_length);
    put(' ', group);
    put(' ', amount);
    put(' ', *least);
    uint32_t answer = (uint32_t)sent_line();
    *least = (uint64_t)get();
    pthread_mutex_unlock(&lock);
    return answer;
}

uint32_t arbiter_settle(uint64_t processors, uint64_t period_us, uint64_t slice_us,
                        const uint32_t *parents, size_t parents_length, const uint64_t *weights, size_t weights_length,
                        const uint64_t *limits, size_t limits_length, const uint64_t *demands, size_t demands_length,
                        const uint32_t *formulas, size_t formulas_length, const uint64_t *floors, size_t floors_length,
                        const uint64_t *bases, size_t bases_length, const uint32_t *groups, size_t groups_length,
                        const uint64_t *amounts, size_t amounts_length, const uint32_t *owners, size_t owners_length,
                        const uint32_t *tops, size_t tops_length, const uint64_t *firsts, size_t firsts_length,
                        const uint64_t *lasts, size_t lasts_length, uint32_t guaranteed,
                        uint64_t *numbers, size_t numbers_length, uint64_t *stuck)
{
    begin("settle");
    put(' ', processors);
    put(' ', period_us);
    put(' ', slice_us);
    COLUMN(parents, parents_length);
    COLUMN(weights, weights_length);
    COLUMN(limits, limits_length);
    COLUMN(demands, demands_length);
    COLUMN(formulas, formulas_length);
    COLUMN(floors, floors_length);
    COLUMN(bases, bases_length);
    COLUMN(groups, groups_length);
    COLUMN(amounts, amounts_length);
    COLUMN(owners, owners_length);
    COLUMN(tops, tops_length);
    COLUMN(firsts, firsts_length);
    COLUMN(lasts, lasts_length);
    put(' ', guaranteed);
    COLUMN(numbers, numbers_length);
    put(' ', *stuck);
    uint32_t answer = (uint32_t)sent_line();
    TOLD(numbers, numbers_length);
    *stuck = (uint64_t)get();
    pthread_mutex_unlock(&lock);
    return answer;
}

uint32_t arbiter_tune(uint64_t processors, uint64_t period_us, uint64_t slice_us,
                      const uint32_t *parents, size_t parents_length, const uint64_t *weights, size_t weights_length,
                      const uint64_t *limits, size_t limits_length, const uint64_t *demands, size_t demands_length,
                      const uint64_t *goals, size_t goals_length, const uint8_t *may, size_t may_length, uint32_t guaranteed,
                      uint64_t *tuned, size_t tuned_length, uint64_t *unmet)
{
    begin("tune");
    put(' ', processors);
    put(' ', period_us);
    put(' ', slice_us);
    COLUMN(parents, parents_length);
    COLUMN(weights, weights_length);
    COLUMN(limits, limits_length);
    COLUMN(demands, demands_length);
    COLUMN(goals, goals_length);
    COLUMN(may, may_length);
    put(' ', guaranteed);
    COLUMN(tuned, tuned_length);
    put(' ', *unmet);
    uint32_t answer = (uint32_t)sent_line();
    TOLD(tuned, tuned_length);
    *unmet = (uint64_t)get();
    pthread_mutex_unlock(&lock);
    return answer;
}

uint32_t arbiter_goals(uint64_t processors, uint64_t period_us, uint64_t slice_us,
                       const uint32_t *parents, size_t parents_length, const uint64_t *weights, size_t weights_length,
                       const uint64_t *limits, size_t limits_length, const uint64_t *demands, size_t demands_length,
                       const uint64_t *goals, size_t goals_length, uint32_t guaranteed, uint64_t *kept, size_t kept_length,
                       uint64_t *come_to, size_t come_to_length)
{
    begin("goals");
    put(' ', processors);
    put(' ', period_us);
    put(' ', slice_us);
    COLUMN(parents, parents_length);
    COLUMN(weights, weights_length);
    COLUMN(limits, limits_length);
    COLUMN(demands, demands_length);
    COLUMN(goals, goals_length);
    put(' ', guaranteed);
    COLUMN(kept, kept_length);
    COLUMN(come_to, come_to_length);
    uint32_t answer = (uint32_t)sent_line();
    TOLD(kept, kept_length);
    TOLD(come_to, come_to_length);
    pthread_mutex_unlock(&lock);
    return answer;
}

uint32_t arbiter_limit_others(uint64_t processors, uint64_t period_us, uint64_t slice_us,
                              const uint32_t *parents, size_t parents_length, const uint64_t *weights, size_t weights_length,
                              const uint64_t *limits, size_t limits_length, const uint64_t *demands, size_t demands_length,
                              const uint64_t *goals, size_t goals_length, const uint8_t *may, size_t may_length,
                              const uint64_t *lowest, size_t lowest_length, uint32_t guaranteed,
                              uint64_t *limited, size_t limited_length, uint32_t *met)
{
    begin("limit_others");
    put(' ', processors);
    put(' ', period_us);
    put(' ', slice_us);
    COLUMN(parents, parents_length);
    COLUMN(weights, weights_length);
    COLUMN(limits, limits_length);
    COLUMN(demands, demands_length);
    COLUMN(goals, goals_length);
    COLUMN(may, may_length);
    COLUMN(lowest, lowest_length);
    put(' ', guaranteed);
    COLUMN(limited, limited_length);
    put(' ', *met);
    uint32_t answer = (uint32_t)sent_line();
    TOLD(limited, limited_length);
    *met = (uint32_t)get();
    pthread_mutex_unlock(&lock);
    return answer;
}

uint32_t arbiter_refused_row(const uint32_t *parents, size_t parents_length, const uint64_t *weights, size_t weights_length,
                             const uint64_t *limits, size_t limits_length, const uint64_t *demands, size_t demands_length,
                             uint32_t *row)
{
    begin("refused_row");
    COLUMN(parents, parents_length);
    COLUMN(weights, weights_length);
    COLUMN(limits, limits_length);
    COLUMN(demands, demands_length);
    put(' ', *row);
    uint32_t answer = (uint32_t)sent_line();
    *row = (uint32_t)get();
    pthread_mutex_unlock(&lock);
    return answer;
}

uint32_t arbiter_hold(uint64_t processors, uint64_t period_us, uint64_t slice_us,
                      const uint32_t *parents, size_t parents_length, const uint64_t *weights, size_t weights_length,
                      const uint64_t *limits, size_t limits_length, const uint64_t *used, size_t used_length,
                      const uint8_t *hungry, size_t hungry_length, uint64_t *held, size_t held_length,
                      uint64_t *demands, size_t demands_length, uint64_t *amounts, size_t amounts_length,
                      uint8_t *flags, size_t flags_length, uint64_t *nums, size_t nums_length,
                      uint64_t *dens, size_t dens_length, uint32_t *places, size_t places_length)
{
    begin("hold");
    put(' ', processors);
    put(' ', period_us);
    put(' ', slice_us);
    COLUMN(parents, parents_length);
    COLUMN(weights, weights_length);
    COLUMN(limits, limits_length);
    COLUMN(used, used_length);
    COLUMN(hungry, hungry_length);
    COLUMN(held, held_length);
    COLUMN(demands, demands_length);
    COLUMN(amounts, amounts_length);
    COLUMN(flags, flags_length);
    COLUMN(nums, nums_length);
    COLUMN(dens, dens_length);
    COLUMN(places, places_length);
    uint32_t answer = (uint32_t)sent_line();
    TOLD(held, held_length);
    TOLD(demands, demands_length);
    TOLD(amounts, amounts_length);
    TOLD(flags, flags_length);
    TOLD(nums, nums_length);
    TOLD(dens, dens_length);
    TOLD(places, places_length);
    pthread_mutex_unlock(&lock);
    return answer;
}

uint32_t arbiter_serve(uint64_t processors, uint64_t period_us, uint64_t slice_us,
                       const uint32_t *parents, size_t parents_length, const uint64_t *weights, size_t weights_length,
                       const uint64_t *limits, size_t limits_length, const uint64_t *used, size_t used_length,
                       const uint8_t *hungry, size_t hungry_length, uint64_t *amounts, size_t amounts_length,
                       uint64_t *most, size_t most_length)
{
    begin("serve");
    put(' ', processors);
    put(' ', period_us);
    put(' ', slice_us);
    COLUMN(parents, parents_length);
    COLUMN(weights, weights_length);
    COLUMN(limits, limits_length);
    COLUMN(used, used_length);
    COLUMN(hungry, hungry_length);
    COLUMN(amounts, amounts_length);
    COLUMN(most, most_length);
    uint32_t answer = (uint32_t)sent_line();
    TOLD(amounts, amounts_length);
    TOLD(most, most_length);
    pthread_mutex_unlock(&lock);
    return answer;
}

uint32_t arbiter_reading(uint64_t processors, uint64_t period_us, uint64_t slice_us, uint64_t passed_ns, uint64_t used_us,
                         uint64_t waited_us, uint32_t tasks, uint32_t throttled, uint64_t allowed_us,
                         const uint64_t *ran, size_t ran_length, const uint64_t *waited, size_t waited_length, uint64_t *used,
                         uint64_t *asked, uint32_t *hungry, uint32_t *guess)
{
    begin("reading");
    put(' ', processors);
    put(' ', period_us);
    put(' ', slice_us);
    put(' ', passed_ns);
    put(' ', used_us);
    put(' ', waited_us);
    put(' ', tasks);
    put(' ', throttled);
    put(' ', allowed_us);
    COLUMN(ran, ran_length);
    COLUMN(waited, waited_length);
    put(' ', *used);
    put(' ', *asked);
    put(' ', *hungry);
    put(' ', *guess);
    uint32_t answer = (uint32_t)sent_line();
    *used = (uint64_t)get();
    *asked = (uint64_t)get();
    *hungry = (uint32_t)get();
    *guess = (uint32_t)get();
    pthread_mutex_unlock(&lock);
    return answer;
}

uint32_t arbiter_leaf_reading(uint64_t processors, uint64_t period_us, uint64_t slice_us, uint64_t passed_ns, uint64_t used_ns,
                              uint64_t waited_ns, uint64_t some_ns, uint64_t *used, uint64_t *asked)
{
    begin("leaf_reading");
    put(' ', processors);
    put(' ', period_us);
    put(' ', slice_us);
    put(' ', passed_ns);
    put(' ', used_ns);
    put(' ', waited_ns);
    put(' ', some_ns);
    put(' ', *used);
    put(' ', *asked);
    uint32_t answer = (uint32_t)sent_line();
    *used = (uint64_t)get();
    *asked = (uint64_t)get();
    pthread_mutex_unlock(&lock);
    return answer;
}

uint32_t arbiter_round(const uint64_t *planned, size_t planned_length, const uint64_t *used, size_t used_length,
                       const uint64_t *asked, size_t asked_length, const uint8_t *hungry, size_t hungry_length,
                       uint64_t *demands, size_t demands_length, uint8_t *all, size_t all_length,
                       uint64_t *unserved, size_t unserved_length)
{
    begin("round");
    COLUMN(planned, planned_length);
    COLUMN(used, used_length);
    COLUMN(asked, asked_length);
    COLUMN(hungry, hungry_length);
    COLUMN(demands, demands_length);
    COLUMN(all, all_length);
    COLUMN(unserved, unserved_length);
    uint32_t answer = (uint32_t)sent_line();
    TOLD(demands, demands_length);
    TOLD(all, all_length);
    TOLD(unserved, unserved_length);
    pthread_mutex_unlock(&lock);
    return answer;
}

uint32_t arbiter_swings(const uint64_t *now, size_t now_length, const uint64_t *last, size_t last_length,
                        const uint64_t *before, size_t before_length, uint64_t *backs, size_t backs_length,
                        uint64_t *turns, size_t turns_length)
{
    begin("swings");
    COLUMN(now, now_length);
    COLUMN(last, last_length);
    COLUMN(before, before_length);
    COLUMN(backs, backs_length);
    COLUMN(turns, turns_length);
    uint32_t answer = (uint32_t)sent_line();
    TOLD(backs, backs_length);
    TOLD(turns, turns_length);
    pthread_mutex_unlock(&lock);
    return answer;
}

uint32_t arbiter_judged(const uint64_t *free_used, size_t free_used_length,
                        const uint64_t *free_planned, size_t free_planned_length,
                        const uint64_t *held_used, size_t held_used_length,
                        const uint64_t *held_planned, size_t held_planned_length, const uint64_t *sure, size_t sure_length,
                        const uint64_t *guesses, size_t guesses_length, uint64_t *lost, uint64_t *guessed)
{
    begin("judged");
    COLUMN(free_used, free_used_length);
    COLUMN(free_planned, free_planned_length);
    COLUMN(held_used, held_used_length);
    COLUMN(held_planned, held_planned_length);
    COLUMN(sure, sure_length);
    COLUMN(guesses, guesses_length);
    put(' ', *lost);
    put(' ', *guessed);
    uint32_t answer = (uint32_t)sent_line();
    *lost = (uint64_t)get();
    *guessed = (uint64_t)get();
    pthread_mutex_unlock(&lock);
    return answer;
}

uint32_t arbiter_let_go(const uint64_t *backs, size_t backs_length, const uint64_t *turns, size_t turns_length,
                        const uint64_t *moved, size_t moved_length, const uint64_t *left, size_t left_length,
                        const uint64_t *guessed, size_t guessed_length, uint64_t lost, uint64_t guesses,
                        uint8_t *go, size_t go_length, uint32_t *reason)
{
    begin("let_go");
    COLUMN(backs, backs_length);
    COLUMN(turns, turns_length);
    COLUMN(moved, moved_length);
    COLUMN(left, left_length);
    COLUMN(guessed, guessed_length);
    put(' ', lost);
    put(' ', guesses);
    COLUMN(go, go_length);
    put(' ', *reason);
    uint32_t answer = (uint32_t)sent_line();
    TOLD(go, go_length);
    *reason = (uint32_t)get();
    pthread_mutex_unlock(&lock);
    return answer;
}

uint32_t arbiter_rest(uint64_t slices, uint64_t planned, const uint64_t *own, size_t own_length,
                      const uint64_t *others, size_t others_length, uint64_t *amount, uint64_t *guarantee)
{
    begin("rest");
    put(' ', slices);
    put(' ', planned);
    COLUMN(own, own_length);
    COLUMN(others, others_length);
    put(' ', *amount);
    put(' ', *guarantee);
    uint32_t answer = (uint32_t)sent_line();
    *amount = (uint64_t)get();
    *guarantee = (uint64_t)get();
    pthread_mutex_unlock(&lock);
    return answer;
}

uint32_t arbiter_written(uint64_t processors, uint64_t period_us, uint64_t slice_us, uint64_t limit, uint64_t own,
                         uint64_t stands_us, uint32_t tasks, uint64_t *quota, uint64_t *weight)
{
    begin("written");
    put(' ', processors);
    put(' ', period_us);
    put(' ', slice_us);
    put(' ', limit);
    put(' ', own);
    put(' ', stands_us);
    put(' ', tasks);
    put(' ', *quota);
    put(' ', *weight);
    uint32_t answer = (uint32_t)sent_line();
    *quota = (uint64_t)get();
    *weight = (uint64_t)get();
    pthread_mutex_unlock(&lock);
    return answer;
}

uint32_t arbiter_script(uint64_t processors, uint64_t period_us, uint64_t slice_us, uint64_t hash_key,
                        const uint8_t *text, size_t text_length, uint32_t *parents, size_t parents_length,
                        uint64_t *weights, size_t weights_length, uint64_t *limits, size_t limits_length,
                        uint64_t *demands, size_t demands_length, uint64_t *quotas, size_t quotas_length,
                        uint64_t *periods, size_t periods_length, uint64_t *bursts, size_t bursts_length,
                        uint64_t *carries, size_t carries_length, uint8_t *names, size_t names_length,
                        uint64_t *refused_lines, size_t refused_lines_length,
                        uint32_t *refused_faults, size_t refused_faults_length, uint32_t *count, uint64_t *names_count,
                        uint64_t *refused_count)
{
    begin("script");
    put(' ', processors);
    put(' ', period_us);
    put(' ', slice_us);
    put(' ', hash_key);
    COLUMN(text, text_length);
    COLUMN(parents, parents_length);
    COLUMN(weights, weights_length);
    COLUMN(limits, limits_length);
    COLUMN(demands, demands_length);
    COLUMN(quotas, quotas_length);
    COLUMN(periods, periods_length);
    COLUMN(bursts, bursts_length);
    COLUMN(carries, carries_length);
    COLUMN(names, names_length);
    COLUMN(refused_lines, refused_lines_length);
    COLUMN(refused_faults, refused_faults_length);
    put(' ', *count);
    put(' ', *names_count);
    put(' ', *refused_count);
    uint32_t answer = (uint32_t)sent_line();
    TOLD(parents, parents_length);
    TOLD(weights, weights_length);
    TOLD(limits, limits_length);
    TOLD(demands, demands_length);
    TOLD(quotas, quotas_length);
    TOLD(periods, periods_length);
    TOLD(bursts, bursts_length);
    TOLD(carries, carries_length);
    TOLD(names, names_length);
    TOLD(refused_lines, refused_lines_length);
    TOLD(refused_faults, refused_faults_length);
    *count = (uint32_t)get();
    *names_count = (uint64_t)get();
    *refused_count = (uint64_t)get();
    pthread_mutex_unlock(&lock);
    return answer;
}

uint32_t arbiter_book(uint64_t processors, uint64_t period_us, uint64_t slice_us,
                      const uint32_t *parents, size_t parents_length, const uint64_t *weights, size_t weights_length,
                      const uint64_t *limits, size_t limits_length, const uint64_t *demands, size_t demands_length,
                      const uint64_t *quotas, size_t quotas_length, const uint64_t *drawn, size_t drawn_length,
                      uint64_t *carries, size_t carries_length, uint64_t *usage_usec, size_t usage_usec_length,
                      uint64_t *nr_periods, size_t nr_periods_length, uint64_t *nr_throttled, size_t nr_throttled_length,
                      uint64_t *throttled_usec, size_t throttled_usec_length, uint64_t *nr_bursts, size_t nr_bursts_length,
                      uint64_t *burst_usec, size_t burst_usec_length)
{
    begin("book");
    put(' ', processors);
    put(' ', period_us);
    put(' ', slice_us);
    COLUMN(parents, parents_length);
    COLUMN(weights, weights_length);
    COLUMN(limits, limits_length);
    COLUMN(demands, demands_length);
    COLUMN(quotas, quotas_length);
    COLUMN(drawn, drawn_length);
    COLUMN(carries, carries_length);
    COLUMN(usage_usec, usage_usec_length);
    COLUMN(nr_periods, nr_periods_length);
    COLUMN(nr_throttled, nr_throttled_length);
    COLUMN(throttled_usec, throttled_usec_length);
    COLUMN(nr_bursts, nr_bursts_length);
    COLUMN(burst_usec, burst_usec_length);
    uint32_t answer = (uint32_t)sent_line();
    TOLD(carries, carries_length);
    TOLD(usage_usec, usage_usec_length);
    TOLD(nr_periods, nr_periods_length);
    TOLD(nr_throttled, nr_throttled_length);
    TOLD(throttled_usec, throttled_usec_length);
    TOLD(nr_bursts, nr_bursts_length);
    TOLD(burst_usec, burst_usec_length);
    pthread_mutex_unlock(&lock);
    return answer;
}

uint32_t arbiter_periods(uint64_t processors, uint64_t period_us, uint64_t slice_us,
                         const uint32_t *parents, size_t parents_length, const uint64_t *weights, size_t weights_length,
                         const uint64_t *quotas, size_t quotas_length, const uint64_t *periods, size_t periods_length,
                         const uint64_t *bursts, size_t bursts_length, const uint64_t *demands, size_t demands_length,
                         uint64_t times, uint64_t *carries, size_t carries_length, uint64_t *amounts, size_t amounts_length,
                         uint64_t *wants, size_t wants_length, uint64_t *limits, size_t limits_length,
                         uint64_t *nr_throttled, size_t nr_throttled_length,
                         uint64_t *throttled_usec, size_t throttled_usec_length, uint64_t *nr_bursts, size_t nr_bursts_length,
                         uint64_t *burst_usec, size_t burst_usec_length, uint64_t *nr_short, size_t nr_short_length,
                         uint64_t *nr_starved, size_t nr_starved_length)
{
    begin("periods");
    put(' ', processors);
    put(' ', period_us);
    put(' ', slice_us);
    COLUMN(parents, parents_length);
    COLUMN(weights, weights_length);
    COLUMN(quotas, quotas_length);
    COLUMN(periods, periods_length);
    COLUMN(bursts, bursts_length);
    COLUMN(demands, demands_length);
    put(' ', times);
    COLUMN(carries, carries_length);
    COLUMN(amounts, amounts_length);
    COLUMN(wants, wants_length);
    COLUMN(limits, limits_length);
    COLUMN(nr_throttled, nr_throttled_length);
    COLUMN(throttled_usec, throttled_usec_length);
    COLUMN(nr_bursts, nr_bursts_length);
    COLUMN(burst_usec, burst_usec_length);
    COLUMN(nr_short, nr_short_length);
    COLUMN(nr_starved, nr_starved_length);
    uint32_t answer = (uint32_t)sent_line();
    TOLD(carries, carries_length);
    TOLD(amounts, amounts_length);
    TOLD(wants, wants_length);
    TOLD(limits, limits_length);
    TOLD(nr_throttled, nr_throttled_length);
    TOLD(throttled_usec, throttled_usec_length);
    TOLD(nr_bursts, nr_bursts_length);
    TOLD(burst_usec, burst_usec_length);
    TOLD(nr_short, nr_short_length);
    TOLD(nr_starved, nr_starved_length);
    pthread_mutex_unlock(&lock);
    return answer;
}

uint32_t arbiter_slices(uint64_t processors, uint64_t period_us, uint64_t slice_us, uint64_t us, uint64_t own_period_us,
                        uint64_t *slices)
{
    begin("slices");
    put(' ', processors);
    put(' ', period_us);
    put(' ', slice_us);
    put(' ', us);
    put(' ', own_period_us);
    put(' ', *slices);
    uint32_t answer = (uint32_t)sent_line();
    *slices = (uint64_t)get();
    pthread_mutex_unlock(&lock);
    return answer;
}

uint32_t arbiter_period_limit(uint64_t processors, uint64_t period_us, uint64_t slice_us, uint64_t quota_us,
                              uint64_t own_period_us, uint64_t burst_us, uint64_t carry, uint64_t *limit)
{
    begin("period_limit");
    put(' ', processors);
    put(' ', period_us);
    put(' ', slice_us);
    put(' ', quota_us);
    put(' ', own_period_us);
    put(' ', burst_us);
    put(' ', carry);
    put(' ', *limit);
    uint32_t answer = (uint32_t)sent_line();
    *limit = (uint64_t)get();
    pthread_mutex_unlock(&lock);
    return answer;
}

uint32_t arbiter_demand(uint64_t processors, uint64_t period_us, uint64_t slice_us, uint64_t numerator, uint64_t denominator,
                        uint64_t *slices)
{
    begin("demand");
    put(' ', processors);
    put(' ', period_us);
    put(' ', slice_us);
    put(' ', numerator);
    put(' ', denominator);
    put(' ', *slices);
    uint32_t answer = (uint32_t)sent_line();
    *slices = (uint64_t)get();
    pthread_mutex_unlock(&lock);
    return answer;
}

uint32_t arbiter_planned_host(uint64_t processors, uint64_t period_us, uint64_t slice_us, uint64_t *planned_processors,
                              uint64_t *planned_period_us, uint64_t *planned_slice_us)
{
    begin("planned_host");
    put(' ', processors);
    put(' ', period_us);
    put(' ', slice_us);
    put(' ', *planned_processors);
    put(' ', *planned_period_us);
    put(' ', *planned_slice_us);
    uint32_t answer = (uint32_t)sent_line();
    *planned_processors = (uint64_t)get();
    *planned_period_us = (uint64_t)get();
    *planned_slice_us = (uint64_t)get();
    pthread_mutex_unlock(&lock);
    return answer;
}

uint64_t arbiter_weight_of_shares(uint64_t shares, uint32_t conversion)
{
    begin("weight_of_shares");
    put(' ', shares);
    put(' ', conversion);
    uint64_t answer = (uint64_t)sent_line();
    pthread_mutex_unlock(&lock);
    return answer;
}

uint32_t arbiter_owned_weight(uint32_t formula, uint64_t number, uint64_t *weight)
{
    begin("owned_weight");
    put(' ', formula);
    put(' ', number);
    put(' ', *weight);
    uint32_t answer = (uint32_t)sent_line();
    *weight = (uint64_t)get();
    pthread_mutex_unlock(&lock);
    return answer;
}

uint32_t arbiter_owned_limit(uint32_t formula, uint64_t number, uint64_t own_period_us, uint64_t *quota, uint64_t *period)
{
    begin("owned_limit");
    put(' ', formula);
    put(' ', number);
    put(' ', own_period_us);
    put(' ', *quota);
    put(' ', *period);
    uint32_t answer = (uint32_t)sent_line();
    *quota = (uint64_t)get();
    *period = (uint64_t)get();
    pthread_mutex_unlock(&lock);
    return answer;
}

uint32_t arbiter_least_owned(uint32_t formula, uint64_t weight, uint64_t *least)
{
    begin("least_owned");
    put(' ', formula);
    put(' ', weight);
    put(' ', *least);
    uint32_t answer = (uint32_t)sent_line();
    *least = (uint64_t)get();
    pthread_mutex_unlock(&lock);
    return answer;
}

uint32_t arbiter_owned_number(uint32_t formula, uint64_t request, uint64_t *number)
{
    begin("owned_number");
    put(' ', formula);
    put(' ', request);
    put(' ', *number);
    uint32_t answer = (uint32_t)sent_line();
    *number = (uint64_t)get();
    pthread_mutex_unlock(&lock);
    return answer;
}

uint32_t arbiter_pod_amount(const uint8_t *kinds, size_t kinds_length, const uint64_t *amounts, size_t amounts_length,
                            uint64_t *amount)
{
    begin("pod_amount");
    COLUMN(kinds, kinds_length);
    COLUMN(amounts, amounts_length);
    put(' ', *amount);
    uint32_t answer = (uint32_t)sent_line();
    *amount = (uint64_t)get();
    pthread_mutex_unlock(&lock);
    return answer;
}

uint32_t arbiter_greatest_part(const uint8_t *kinds, size_t kinds_length, const uint64_t *amounts, size_t amounts_length,
                               uint32_t part, uint64_t room, uint64_t *greatest)
{
    begin("greatest_part");
    COLUMN(kinds, kinds_length);
    COLUMN(amounts, amounts_length);
    put(' ', part);
    put(' ', room);
    put(' ', *greatest);
    uint32_t answer = (uint32_t)sent_line();
    *greatest = (uint64_t)get();
    pthread_mutex_unlock(&lock);
    return answer;
}

uint32_t arbiter_allowed(uint64_t quota_us, uint64_t own_period_us, uint64_t burst_us, uint64_t passed_ns, uint64_t *allowed)
{
    begin("allowed");
    put(' ', quota_us);
    put(' ', own_period_us);
    put(' ', burst_us);
    put(' ', passed_ns);
    put(' ', *allowed);
    uint32_t answer = (uint32_t)sent_line();
    *allowed = (uint64_t)get();
    pthread_mutex_unlock(&lock);
    return answer;
}

uint32_t arbiter_lost(uint64_t free_used, uint64_t free_planned, uint64_t held_used, uint64_t held_planned, uint64_t *lost)
{
    begin("lost");
    put(' ', free_used);
    put(' ', free_planned);
    put(' ', held_used);
    put(' ', held_planned);
    put(' ', *lost);
    uint32_t answer = (uint32_t)sent_line();
    *lost = (uint64_t)get();
    pthread_mutex_unlock(&lock);
    return answer;
}

uint32_t arbiter_version(char *version, size_t version_length)
{
    begin("version");
    COLUMN((uint8_t *)version, version_length);
    uint32_t answer = (uint32_t)sent_line();
    TOLD((uint8_t *)version, version_length);
    pthread_mutex_unlock(&lock);
    return answer;
}

uint32_t arbiter_name(uint32_t number, char *name, size_t name_length)
{
    begin("name");
    put(' ', number);
    COLUMN((uint8_t *)name, name_length);
    uint32_t answer = (uint32_t)sent_line();
    TOLD((uint8_t *)name, name_length);
    pthread_mutex_unlock(&lock);
    return answer;
}
