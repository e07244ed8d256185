//! The calls of `arbiter.h`, on slices. Made from python/arbiter_pages/calls.py; a test compares them.
//!
//! Each call has what the header asks: lengths that are those of the slices, pointers that are not null (a slice has none), and no
//! memory that is written and read at once (a `&mut` overlaps nothing).
use crate::Host;

pub(crate) const NO_PARENT: u32 = u32::MAX;
pub(crate) const NO_LIMIT: u64 = u64::MAX;
pub(crate) const NO_GOAL: u64 = u64::MAX;
pub(crate) const NAME_ROOM: usize = 17;

extern "C" {
    fn arbiter_plan(processors: u64, period_us: u64, slice_us: u64, parents: *const u32, parents_length: usize,
                    weights: *const u64, weights_length: usize, limits: *const u64, limits_length: usize,
                    demands: *const u64, demands_length: usize, amounts: *mut u64, amounts_length: usize) -> u32;
    fn arbiter_certify(processors: u64, period_us: u64, slice_us: u64, parents: *const u32, parents_length: usize,
                       weights: *const u64, weights_length: usize, limits: *const u64, limits_length: usize,
                       demands: *const u64, demands_length: usize, amounts: *mut u64, amounts_length: usize,
                       flags: *mut u8, flags_length: usize, nums: *mut u64, nums_length: usize,
                       dens: *mut u64, dens_length: usize, places: *mut u32, places_length: usize) -> u32;
    fn arbiter_check(processors: u64, period_us: u64, slice_us: u64, parents: *const u32, parents_length: usize,
                     weights: *const u64, weights_length: usize, limits: *const u64, limits_length: usize,
                     demands: *const u64, demands_length: usize, amounts: *const u64, amounts_length: usize,
                     flags: *const u8, flags_length: usize, nums: *const u64, nums_length: usize,
                     dens: *const u64, dens_length: usize, places: *const u32, places_length: usize, row: *mut u32) -> u32;
    fn arbiter_check_text(text: *const u8, text_length: usize, row: *mut u32) -> u32;
    fn arbiter_limiting(processors: u64, period_us: u64, slice_us: u64, parents: *const u32, parents_length: usize,
                        weights: *const u64, weights_length: usize, limits: *const u64, limits_length: usize,
                        demands: *const u64, demands_length: usize, groups: *mut u32, groups_length: usize, count: *mut u32,
                        rest: *mut u64) -> u32;
    fn arbiter_figures(processors: u64, period_us: u64, slice_us: u64, parents: *const u32, parents_length: usize,
                       weights: *const u64, weights_length: usize, limits: *const u64, limits_length: usize,
                       demands: *const u64, demands_length: usize, wants: *mut u64, wants_length: usize,
                       mosts: *mut u64, mosts_length: usize, tights: *mut u8, tights_length: usize,
                       actives: *mut u32, actives_length: usize, active_weights: *mut u64, active_weights_length: usize,
                       withheld: *mut u64, withheld_length: usize) -> u32;
    fn arbiter_reasons(processors: u64, period_us: u64, slice_us: u64, parents: *const u32, parents_length: usize,
                       weights: *const u64, weights_length: usize, limits: *const u64, limits_length: usize,
                       demands: *const u64, demands_length: usize, reasons: *mut u8, reasons_length: usize,
                       blamed: *mut u32, blamed_length: usize) -> u32;
    fn arbiter_guarantee(processors: u64, period_us: u64, slice_us: u64, parents: *const u32, parents_length: usize,
                         weights: *const u64, weights_length: usize, limits: *const u64, limits_length: usize,
                         demands: *const u64, demands_length: usize, group: u32, amount: *mut u64) -> u32;
    fn arbiter_least_weight(processors: u64, period_us: u64, slice_us: u64, parents: *const u32, parents_length: usize,
                            weights: *const u64, weights_length: usize, limits: *const u64, limits_length: usize,
                            demands: *const u64, demands_length: usize, group: u32, amount: u64, weight: *mut u64) -> u32;
    fn arbiter_least_limit(processors: u64, period_us: u64, slice_us: u64, parents: *const u32, parents_length: usize,
                           weights: *const u64, weights_length: usize, limits: *const u64, limits_length: usize,
                           demands: *const u64, demands_length: usize, group: u32, amount: u64, limit: *mut u64) -> u32;
    fn arbiter_least_processors(processors: u64, period_us: u64, slice_us: u64, parents: *const u32, parents_length: usize,
                                weights: *const u64, weights_length: usize, limits: *const u64, limits_length: usize,
                                demands: *const u64, demands_length: usize, group: u32, amount: u64, least: *mut u64) -> u32;
    fn arbiter_settle(processors: u64, period_us: u64, slice_us: u64, parents: *const u32, parents_length: usize,
                      weights: *const u64, weights_length: usize, limits: *const u64, limits_length: usize,
                      demands: *const u64, demands_length: usize, formulas: *const u32, formulas_length: usize,
                      floors: *const u64, floors_length: usize, bases: *const u64, bases_length: usize,
                      groups: *const u32, groups_length: usize, amounts: *const u64, amounts_length: usize,
                      owners: *const u32, owners_length: usize, tops: *const u32, tops_length: usize,
                      firsts: *const u64, firsts_length: usize, lasts: *const u64, lasts_length: usize, guaranteed: u32,
                      numbers: *mut u64, numbers_length: usize, stuck: *mut u64) -> u32;
    fn arbiter_tune(processors: u64, period_us: u64, slice_us: u64, parents: *const u32, parents_length: usize,
                    weights: *const u64, weights_length: usize, limits: *const u64, limits_length: usize,
                    demands: *const u64, demands_length: usize, goals: *const u64, goals_length: usize,
                    may: *const u8, may_length: usize, guaranteed: u32, tuned: *mut u64, tuned_length: usize,
                    unmet: *mut u64) -> u32;
    fn arbiter_goals(processors: u64, period_us: u64, slice_us: u64, parents: *const u32, parents_length: usize,
                     weights: *const u64, weights_length: usize, limits: *const u64, limits_length: usize,
                     demands: *const u64, demands_length: usize, goals: *const u64, goals_length: usize, guaranteed: u32,
                     kept: *mut u64, kept_length: usize, come_to: *mut u64, come_to_length: usize) -> u32;
    fn arbiter_limit_others(processors: u64, period_us: u64, slice_us: u64, parents: *const u32, parents_length: usize,
                            weights: *const u64, weights_length: usize, limits: *const u64, limits_length: usize,
                            demands: *const u64, demands_length: usize, goals: *const u64, goals_length: usize,
                            may: *const u8, may_length: usize, lowest: *const u64, lowest_length: usize, guaranteed: u32,
                            limited: *mut u64, limited_length: usize, met: *mut u32) -> u32;
    fn arbiter_refused_row(parents: *const u32, parents_length: usize, weights: *const u64, weights_length: usize,
                           limits: *const u64, limits_length: usize, demands: *const u64, demands_length: usize,
                           row: *mut u32) -> u32;
    fn arbiter_hold(processors: u64, period_us: u64, slice_us: u64, parents: *const u32, parents_length: usize,
                    weights: *const u64, weights_length: usize, limits: *const u64, limits_length: usize,
                    used: *const u64, used_length: usize, hungry: *const u8, hungry_length: usize,
                    held: *mut u64, held_length: usize, demands: *mut u64, demands_length: usize,
                    amounts: *mut u64, amounts_length: usize, flags: *mut u8, flags_length: usize,
                    nums: *mut u64, nums_length: usize, dens: *mut u64, dens_length: usize,
                    places: *mut u32, places_length: usize) -> u32;
    fn arbiter_serve(processors: u64, period_us: u64, slice_us: u64, parents: *const u32, parents_length: usize,
                     weights: *const u64, weights_length: usize, limits: *const u64, limits_length: usize,
                     used: *const u64, used_length: usize, hungry: *const u8, hungry_length: usize,
                     amounts: *mut u64, amounts_length: usize, most: *mut u64, most_length: usize) -> u32;
    fn arbiter_reading(processors: u64, period_us: u64, slice_us: u64, passed_ns: u64, used_us: u64, waited_us: u64, tasks: u32,
                       throttled: u32, allowed_us: u64, ran: *const u64, ran_length: usize,
                       waited: *const u64, waited_length: usize, used: *mut u64, asked: *mut u64, hungry: *mut u32,
                       guess: *mut u32) -> u32;
    fn arbiter_leaf_reading(processors: u64, period_us: u64, slice_us: u64, passed_ns: u64, used_ns: u64, waited_ns: u64,
                            some_ns: u64, used: *mut u64, asked: *mut u64) -> u32;
    fn arbiter_round(planned: *const u64, planned_length: usize, used: *const u64, used_length: usize,
                     asked: *const u64, asked_length: usize, hungry: *const u8, hungry_length: usize,
                     demands: *mut u64, demands_length: usize, all: *mut u8, all_length: usize,
                     unserved: *mut u64, unserved_length: usize) -> u32;
    fn arbiter_swings(now: *const u64, now_length: usize, last: *const u64, last_length: usize,
                      before: *const u64, before_length: usize, backs: *mut u64, backs_length: usize,
                      turns: *mut u64, turns_length: usize) -> u32;
    fn arbiter_judged(free_used: *const u64, free_used_length: usize, free_planned: *const u64, free_planned_length: usize,
                      held_used: *const u64, held_used_length: usize, held_planned: *const u64, held_planned_length: usize,
                      sure: *const u64, sure_length: usize, guesses: *const u64, guesses_length: usize, lost: *mut u64,
                      guessed: *mut u64) -> u32;
    fn arbiter_let_go(backs: *const u64, backs_length: usize, turns: *const u64, turns_length: usize,
                      moved: *const u64, moved_length: usize, left: *const u64, left_length: usize,
                      guessed: *const u64, guessed_length: usize, lost: u64, guesses: u64, go: *mut u8, go_length: usize,
                      reason: *mut u32) -> u32;
    fn arbiter_rest(slices: u64, planned: u64, own: *const u64, own_length: usize, others: *const u64, others_length: usize,
                    amount: *mut u64, guarantee: *mut u64) -> u32;
    fn arbiter_written(processors: u64, period_us: u64, slice_us: u64, limit: u64, own: u64, stands_us: u64, tasks: u32,
                       quota: *mut u64, weight: *mut u64) -> u32;
    fn arbiter_script(processors: u64, period_us: u64, slice_us: u64, hash_key: u64, text: *const u8, text_length: usize,
                      parents: *mut u32, parents_length: usize, weights: *mut u64, weights_length: usize,
                      limits: *mut u64, limits_length: usize, demands: *mut u64, demands_length: usize,
                      quotas: *mut u64, quotas_length: usize, periods: *mut u64, periods_length: usize,
                      bursts: *mut u64, bursts_length: usize, carries: *mut u64, carries_length: usize,
                      names: *mut u8, names_length: usize, refused_lines: *mut u64, refused_lines_length: usize,
                      refused_faults: *mut u32, refused_faults_length: usize, count: *mut u32, names_count: *mut u64,
                      refused_count: *mut u64) -> u32;
    fn arbiter_book(processors: u64, period_us: u64, slice_us: u64, parents: *const u32, parents_length: usize,
                    weights: *const u64, weights_length: usize, limits: *const u64, limits_length: usize,
                    demands: *const u64, demands_length: usize, quotas: *const u64, quotas_length: usize,
                    drawn: *const u64, drawn_length: usize, carries: *mut u64, carries_length: usize,
                    usage_usec: *mut u64, usage_usec_length: usize, nr_periods: *mut u64, nr_periods_length: usize,
                    nr_throttled: *mut u64, nr_throttled_length: usize, throttled_usec: *mut u64, throttled_usec_length: usize,
                    nr_bursts: *mut u64, nr_bursts_length: usize, burst_usec: *mut u64, burst_usec_length: usize) -> u32;
    fn arbiter_periods(processors: u64, period_us: u64, slice_us: u64, parents: *const u32, parents_length: usize,
                       weights: *const u64, weights_length: usize, quotas: *const u64, quotas_length: usize,
                       periods: *const u64, periods_length: usize, bursts: *const u64, bursts_length: usize,
                       demands: *const u64, demands_length: usize, times: u64, carries: *mut u64, carries_length: usize,
                       amounts: *mut u64, amounts_length: usize, wants: *mut u64, wants_length: usize,
                       limits: *mut u64, limits_length: usize, nr_throttled: *mut u64, nr_throttled_length: usize,
                       throttled_usec: *mut u64, throttled_usec_length: usize, nr_bursts: *mut u64, nr_bursts_length: usize,
                       burst_usec: *mut u64, burst_usec_length: usize, nr_short: *mut u64, nr_short_length: usize,
                       nr_starved: *mut u64, nr_starved_length: usize) -> u32;
    fn arbiter_slices(processors: u64, period_us: u64, slice_us: u64, us: u64, own_period_us: u64, slices: *mut u64) -> u32;
    fn arbiter_period_limit(processors: u64, period_us: u64, slice_us: u64, quota_us: u64, own_period_us: u64, burst_us: u64,
                            carry: u64, limit: *mut u64) -> u32;
    fn arbiter_demand(processors: u64, period_us: u64, slice_us: u64, numerator: u64, denominator: u64, slices: *mut u64) -> u32;
    fn arbiter_planned_host(processors: u64, period_us: u64, slice_us: u64, planned_processors: *mut u64,
                            planned_period_us: *mut u64, planned_slice_us: *mut u64) -> u32;
    fn arbiter_weight_of_shares(shares: u64, conversion: u32) -> u64;
    fn arbiter_owned_weight(formula: u32, number: u64, weight: *mut u64) -> u32;
    fn arbiter_owned_limit(formula: u32, number: u64, own_period_us: u64, quota: *mut u64, period: *mut u64) -> u32;
    fn arbiter_least_owned(formula: u32, weight: u64, least: *mut u64) -> u32;
    fn arbiter_owned_number(formula: u32, request: u64, number: *mut u64) -> u32;
    fn arbiter_pod_amount(kinds: *const u8, kinds_length: usize, amounts: *const u64, amounts_length: usize,
                          amount: *mut u64) -> u32;
    fn arbiter_greatest_part(kinds: *const u8, kinds_length: usize, amounts: *const u64, amounts_length: usize, part: u32,
                             room: u64, greatest: *mut u64) -> u32;
    fn arbiter_allowed(quota_us: u64, own_period_us: u64, burst_us: u64, passed_ns: u64, allowed: *mut u64) -> u32;
    fn arbiter_lost(free_used: u64, free_planned: u64, held_used: u64, held_planned: u64, lost: *mut u64) -> u32;
    fn arbiter_version(version: *mut u8, version_length: usize) -> u32;
    fn arbiter_name(number: u32, name: *mut u8, name_length: usize) -> u32;
}

/// Rows of a tree, by column.
pub(crate) struct Columns {
    pub(crate) parents: Vec<u32>,
    pub(crate) weights: Vec<u64>,
    pub(crate) limits: Vec<u64>,
    pub(crate) demands: Vec<u64>,
}

/// A certificate of amounts, by column.
pub(crate) struct Claim {
    pub(crate) flags: Vec<u8>,
    pub(crate) nums: Vec<u64>,
    pub(crate) dens: Vec<u64>,
    pub(crate) places: Vec<u32>,
}

impl Claim {
    /// Columns of so many zeros.
    pub(crate) fn room(count: usize) -> Claim {
        Claim {
            flags: vec![0; count],
            nums: vec![0; count],
            dens: vec![0; count],
            places: vec![0; count],
        }
    }
}

/// Figures, by column.
pub(crate) struct FigureColumns {
    pub(crate) wants: Vec<u64>,
    pub(crate) mosts: Vec<u64>,
    pub(crate) tights: Vec<u8>,
    pub(crate) actives: Vec<u32>,
    pub(crate) active_weights: Vec<u64>,
    pub(crate) withheld: Vec<u64>,
}

impl FigureColumns {
    /// Columns of so many zeros.
    pub(crate) fn room(count: usize) -> FigureColumns {
        FigureColumns {
            wants: vec![0; count],
            mosts: vec![0; count],
            tights: vec![0; count],
            actives: vec![0; count],
            active_weights: vec![0; count],
            withheld: vec![0; count],
        }
    }
}

/// The groups after a script and its refused lines, by column.
pub(crate) struct Told {
    pub(crate) parents: Vec<u32>,
    pub(crate) weights: Vec<u64>,
    pub(crate) limits: Vec<u64>,
    pub(crate) demands: Vec<u64>,
    pub(crate) quotas: Vec<u64>,
    pub(crate) periods: Vec<u64>,
    pub(crate) bursts: Vec<u64>,
    pub(crate) carries: Vec<u64>,
    pub(crate) names: Vec<u8>,
    pub(crate) refused_lines: Vec<u64>,
    pub(crate) refused_faults: Vec<u32>,
    pub(crate) count: u32,
    pub(crate) names_count: u64,
    pub(crate) refused_count: u64,
}

/// Counters of cpu.stat, by column.
pub(crate) struct StatColumns {
    pub(crate) usage_usec: Vec<u64>,
    pub(crate) nr_periods: Vec<u64>,
    pub(crate) nr_throttled: Vec<u64>,
    pub(crate) throttled_usec: Vec<u64>,
    pub(crate) nr_bursts: Vec<u64>,
    pub(crate) burst_usec: Vec<u64>,
}

/// Settings over several periods, by column.
pub(crate) struct SettingColumns {
    pub(crate) parents: Vec<u32>,
    pub(crate) weights: Vec<u64>,
    pub(crate) quotas: Vec<u64>,
    pub(crate) periods: Vec<u64>,
    pub(crate) bursts: Vec<u64>,
}

/// Sums over the periods of samples, by column.
pub(crate) struct SumColumns {
    pub(crate) amounts: Vec<u64>,
    pub(crate) wants: Vec<u64>,
    pub(crate) limits: Vec<u64>,
    pub(crate) nr_throttled: Vec<u64>,
    pub(crate) throttled_usec: Vec<u64>,
    pub(crate) nr_bursts: Vec<u64>,
    pub(crate) burst_usec: Vec<u64>,
    pub(crate) nr_short: Vec<u64>,
    pub(crate) nr_starved: Vec<u64>,
}

impl SumColumns {
    /// Columns of so many zeros.
    pub(crate) fn room(count: usize) -> SumColumns {
        SumColumns {
            amounts: vec![0; count],
            wants: vec![0; count],
            limits: vec![0; count],
            nr_throttled: vec![0; count],
            throttled_usec: vec![0; count],
            nr_bursts: vec![0; count],
            burst_usec: vec![0; count],
            nr_short: vec![0; count],
            nr_starved: vec![0; count],
        }
    }
}

pub(crate) fn plan(host: Host, columns: &Columns, amounts: &mut [u64]) -> u32 {
    // SAFETY: as the head of this file says
    unsafe {
        arbiter_plan(host.processors, host.period_us, host.slice_us, columns.parents.as_ptr(), columns.parents.len(),
                     columns.weights.as_ptr(), columns.weights.len(), columns.limits.as_ptr(), columns.limits.len(),
                     columns.demands.as_ptr(), columns.demands.len(), amounts.as_mut_ptr(), amounts.len())
    }
}

pub(crate) fn certify(host: Host, columns: &Columns, amounts: &mut [u64], claim: &mut Claim) -> u32 {
    // SAFETY: as the head of this file says
    unsafe {
        arbiter_certify(host.processors, host.period_us, host.slice_us, columns.parents.as_ptr(), columns.parents.len(),
                        columns.weights.as_ptr(), columns.weights.len(), columns.limits.as_ptr(), columns.limits.len(),
                        columns.demands.as_ptr(), columns.demands.len(), amounts.as_mut_ptr(), amounts.len(),
                        claim.flags.as_mut_ptr(), claim.flags.len(), claim.nums.as_mut_ptr(), claim.nums.len(),
                        claim.dens.as_mut_ptr(), claim.dens.len(), claim.places.as_mut_ptr(), claim.places.len())
    }
}

pub(crate) fn check(host: Host, columns: &Columns, amounts: &[u64], claim: &Claim, row: &mut u32) -> u32 {
    // SAFETY: as the head of this file says
    unsafe {
        arbiter_check(host.processors, host.period_us, host.slice_us, columns.parents.as_ptr(), columns.parents.len(),
                      columns.weights.as_ptr(), columns.weights.len(), columns.limits.as_ptr(), columns.limits.len(),
                      columns.demands.as_ptr(), columns.demands.len(), amounts.as_ptr(), amounts.len(),
                      claim.flags.as_ptr(), claim.flags.len(), claim.nums.as_ptr(), claim.nums.len(),
                      claim.dens.as_ptr(), claim.dens.len(), claim.places.as_ptr(), claim.places.len(), row)
    }
}

pub(crate) fn check_text(text: &[u8], row: &mut u32) -> u32 {
    // SAFETY: as the head of this file says
    unsafe {
        arbiter_check_text(text.as_ptr(), text.len(), row)
    }
}

pub(crate) fn limiting(host: Host, columns: &Columns, groups: &mut [u32], count: &mut u32, rest: &mut u64) -> u32 {
    // SAFETY: as the head of this file says
    unsafe {
        arbiter_limiting(host.processors, host.period_us, host.slice_us, columns.parents.as_ptr(), columns.parents.len(),
                         columns.weights.as_ptr(), columns.weights.len(), columns.limits.as_ptr(), columns.limits.len(),
                         columns.demands.as_ptr(), columns.demands.len(), groups.as_mut_ptr(), groups.len(), count, rest)
    }
}

pub(crate) fn figures(host: Host, columns: &Columns, figures: &mut FigureColumns) -> u32 {
    // SAFETY: as the head of this file says
    unsafe {
        arbiter_figures(host.processors, host.period_us, host.slice_us, columns.parents.as_ptr(), columns.parents.len(),
                        columns.weights.as_ptr(), columns.weights.len(), columns.limits.as_ptr(), columns.limits.len(),
                        columns.demands.as_ptr(), columns.demands.len(), figures.wants.as_mut_ptr(), figures.wants.len(),
                        figures.mosts.as_mut_ptr(), figures.mosts.len(), figures.tights.as_mut_ptr(), figures.tights.len(),
                        figures.actives.as_mut_ptr(), figures.actives.len(),
                        figures.active_weights.as_mut_ptr(), figures.active_weights.len(),
                        figures.withheld.as_mut_ptr(), figures.withheld.len())
    }
}

pub(crate) fn reasons(host: Host, columns: &Columns, reasons: &mut [u8], blamed: &mut [u32]) -> u32 {
    // SAFETY: as the head of this file says
    unsafe {
        arbiter_reasons(host.processors, host.period_us, host.slice_us, columns.parents.as_ptr(), columns.parents.len(),
                        columns.weights.as_ptr(), columns.weights.len(), columns.limits.as_ptr(), columns.limits.len(),
                        columns.demands.as_ptr(), columns.demands.len(), reasons.as_mut_ptr(), reasons.len(),
                        blamed.as_mut_ptr(), blamed.len())
    }
}

pub(crate) fn guarantee(host: Host, columns: &Columns, group: u32, amount: &mut u64) -> u32 {
    // SAFETY: as the head of this file says
    unsafe {
        arbiter_guarantee(host.processors, host.period_us, host.slice_us, columns.parents.as_ptr(), columns.parents.len(),
                          columns.weights.as_ptr(), columns.weights.len(), columns.limits.as_ptr(), columns.limits.len(),
                          columns.demands.as_ptr(), columns.demands.len(), group, amount)
    }
}

pub(crate) fn least_weight(host: Host, columns: &Columns, group: u32, amount: u64, weight: &mut u64) -> u32 {
    // SAFETY: as the head of this file says
    unsafe {
        arbiter_least_weight(host.processors, host.period_us, host.slice_us, columns.parents.as_ptr(), columns.parents.len(),
                             columns.weights.as_ptr(), columns.weights.len(), columns.limits.as_ptr(), columns.limits.len(),
                             columns.demands.as_ptr(), columns.demands.len(), group, amount, weight)
    }
}

pub(crate) fn least_limit(host: Host, columns: &Columns, group: u32, amount: u64, limit: &mut u64) -> u32 {
    // SAFETY: as the head of this file says
    unsafe {
        arbiter_least_limit(host.processors, host.period_us, host.slice_us, columns.parents.as_ptr(), columns.parents.len(),
                            columns.weights.as_ptr(), columns.weights.len(), columns.limits.as_ptr(), columns.limits.len(),
                            columns.demands.as_ptr(), columns.demands.len(), group, amount, limit)
    }
}

pub(crate) fn least_processors(host: Host, columns: &Columns, group: u32, amount: u64, least: &mut u64) -> u32 {
    // SAFETY: as the head of this file says
    unsafe {
        arbiter_least_processors(host.processors, host.period_us, host.slice_us, columns.parents.as_ptr(), columns.parents.len(),
                                 columns.weights.as_ptr(), columns.weights.len(), columns.limits.as_ptr(), columns.limits.len(),
                                 columns.demands.as_ptr(), columns.demands.len(), group, amount, least)
    }
}

pub(crate) fn settle(host: Host, columns: &Columns, formulas: &[u32], floors: &[u64], bases: &[u64], groups: &[u32],
                     amounts: &[u64], owners: &[u32], tops: &[u32], firsts: &[u64], lasts: &[u64], guaranteed: u32,
                     numbers: &mut [u64], stuck: &mut u64) -> u32 {
    // SAFETY: as the head of this file says
    unsafe {
        arbiter_settle(host.processors, host.period_us, host.slice_us, columns.parents.as_ptr(), columns.parents.len(),
                       columns.weights.as_ptr(), columns.weights.len(), columns.limits.as_ptr(), columns.limits.len(),
                       columns.demands.as_ptr(), columns.demands.len(), formulas.as_ptr(), formulas.len(),
                       floors.as_ptr(), floors.len(), bases.as_ptr(), bases.len(), groups.as_ptr(), groups.len(),
                       amounts.as_ptr(), amounts.len(), owners.as_ptr(), owners.len(), tops.as_ptr(), tops.len(),
                       firsts.as_ptr(), firsts.len(), lasts.as_ptr(), lasts.len(), guaranteed,
                       numbers.as_mut_ptr(), numbers.len(), stuck)
    }
}

pub(crate) fn tune(host: Host, columns: &Columns, goals: &[u64], may: &[u8], guaranteed: u32, tuned: &mut [u64],
                   unmet: &mut u64) -> u32 {
    // SAFETY: as the head of this file says
    unsafe {
        arbiter_tune(host.processors, host.period_us, host.slice_us, columns.parents.as_ptr(), columns.parents.len(),
                     columns.weights.as_ptr(), columns.weights.len(), columns.limits.as_ptr(), columns.limits.len(),
                     columns.demands.as_ptr(), columns.demands.len(), goals.as_ptr(), goals.len(), may.as_ptr(), may.len(),
                     guaranteed, tuned.as_mut_ptr(), tuned.len(), unmet)
    }
}

pub(crate) fn goals(host: Host, columns: &Columns, goals: &[u64], guaranteed: u32, kept: &mut [u64], come_to: &mut [u64]) -> u32 {
    // SAFETY: as the head of this file says
    unsafe {
        arbiter_goals(host.processors, host.period_us, host.slice_us, columns.parents.as_ptr(), columns.parents.len(),
                      columns.weights.as_ptr(), columns.weights.len(), columns.limits.as_ptr(), columns.limits.len(),
                      columns.demands.as_ptr(), columns.demands.len(), goals.as_ptr(), goals.len(), guaranteed,
                      kept.as_mut_ptr(), kept.len(), come_to.as_mut_ptr(), come_to.len())
    }
}

pub(crate) fn limit_others(host: Host, columns: &Columns, goals: &[u64], may: &[u8], lowest: &[u64], guaranteed: u32,
                           limited: &mut [u64], met: &mut u32) -> u32 {
    // SAFETY: as the head of this file says
    unsafe {
        arbiter_limit_others(host.processors, host.period_us, host.slice_us, columns.parents.as_ptr(), columns.parents.len(),
                             columns.weights.as_ptr(), columns.weights.len(), columns.limits.as_ptr(), columns.limits.len(),
                             columns.demands.as_ptr(), columns.demands.len(), goals.as_ptr(), goals.len(),
                             may.as_ptr(), may.len(), lowest.as_ptr(), lowest.len(), guaranteed,
                             limited.as_mut_ptr(), limited.len(), met)
    }
}

pub(crate) fn refused_row(columns: &Columns, row: &mut u32) -> u32 {
    // SAFETY: as the head of this file says
    unsafe {
        arbiter_refused_row(columns.parents.as_ptr(), columns.parents.len(), columns.weights.as_ptr(), columns.weights.len(),
                            columns.limits.as_ptr(), columns.limits.len(), columns.demands.as_ptr(), columns.demands.len(), row)
    }
}

pub(crate) fn hold(host: Host, columns: &Columns, hungry: &[u8], held: &mut [u64], demands: &mut [u64], amounts: &mut [u64],
                   claim: &mut Claim) -> u32 {
    // SAFETY: as the head of this file says
    unsafe {
        arbiter_hold(host.processors, host.period_us, host.slice_us, columns.parents.as_ptr(), columns.parents.len(),
                     columns.weights.as_ptr(), columns.weights.len(), columns.limits.as_ptr(), columns.limits.len(),
                     columns.demands.as_ptr(), columns.demands.len(), hungry.as_ptr(), hungry.len(),
                     held.as_mut_ptr(), held.len(), demands.as_mut_ptr(), demands.len(), amounts.as_mut_ptr(), amounts.len(),
                     claim.flags.as_mut_ptr(), claim.flags.len(), claim.nums.as_mut_ptr(), claim.nums.len(),
                     claim.dens.as_mut_ptr(), claim.dens.len(), claim.places.as_mut_ptr(), claim.places.len())
    }
}

pub(crate) fn serve(host: Host, columns: &Columns, hungry: &[u8], amounts: &mut [u64], most: &mut [u64]) -> u32 {
    // SAFETY: as the head of this file says
    unsafe {
        arbiter_serve(host.processors, host.period_us, host.slice_us, columns.parents.as_ptr(), columns.parents.len(),
                      columns.weights.as_ptr(), columns.weights.len(), columns.limits.as_ptr(), columns.limits.len(),
                      columns.demands.as_ptr(), columns.demands.len(), hungry.as_ptr(), hungry.len(),
                      amounts.as_mut_ptr(), amounts.len(), most.as_mut_ptr(), most.len())
    }
}

pub(crate) fn reading(host: Host, passed_ns: u64, used_us: u64, waited_us: u64, tasks: u32, throttled: u32, allowed_us: u64,
                      ran: &[u64], waited: &[u64], used: &mut u64, asked: &mut u64, hungry: &mut u32, guess: &mut u32) -> u32 {
    // SAFETY: as the head of this file says
    unsafe {
        arbiter_reading(host.processors, host.period_us, host.slice_us, passed_ns, used_us, waited_us, tasks, throttled,
                        allowed_us, ran.as_ptr(), ran.len(), waited.as_ptr(), waited.len(), used, asked, hungry, guess)
    }
}

pub(crate) fn leaf_reading(host: Host, passed_ns: u64, used_ns: u64, waited_ns: u64, some_ns: u64, used: &mut u64,
                           asked: &mut u64) -> u32 {
    // SAFETY: as the head of this file says
    unsafe {
        arbiter_leaf_reading(host.processors, host.period_us, host.slice_us, passed_ns, used_ns, waited_ns, some_ns, used, asked)
    }
}

pub(crate) fn round(planned: &[u64], used: &[u64], asked: &[u64], hungry: &[u8], demands: &mut [u64], all: &mut [u8],
                    unserved: &mut [u64]) -> u32 {
    // SAFETY: as the head of this file says
    unsafe {
        arbiter_round(planned.as_ptr(), planned.len(), used.as_ptr(), used.len(), asked.as_ptr(), asked.len(),
                      hungry.as_ptr(), hungry.len(), demands.as_mut_ptr(), demands.len(), all.as_mut_ptr(), all.len(),
                      unserved.as_mut_ptr(), unserved.len())
    }
}

pub(crate) fn swings(now: &[u64], last: &[u64], before: &[u64], backs: &mut [u64], turns: &mut [u64]) -> u32 {
    // SAFETY: as the head of this file says
    unsafe {
        arbiter_swings(now.as_ptr(), now.len(), last.as_ptr(), last.len(), before.as_ptr(), before.len(),
                       backs.as_mut_ptr(), backs.len(), turns.as_mut_ptr(), turns.len())
    }
}

pub(crate) fn judged(free_used: &[u64], free_planned: &[u64], held_used: &[u64], held_planned: &[u64], sure: &[u64],
                     guesses: &[u64], lost: &mut u64, guessed: &mut u64) -> u32 {
    // SAFETY: as the head of this file says
    unsafe {
        arbiter_judged(free_used.as_ptr(), free_used.len(), free_planned.as_ptr(), free_planned.len(),
                       held_used.as_ptr(), held_used.len(), held_planned.as_ptr(), held_planned.len(), sure.as_ptr(), sure.len(),
                       guesses.as_ptr(), guesses.len(), lost, guessed)
    }
}

pub(crate) fn let_go(backs: &[u64], turns: &[u64], moved: &[u64], left: &[u64], guessed: &[u64], lost: u64, guesses: u64,
                     go: &mut [u8], reason: &mut u32) -> u32 {
    // SAFETY: as the head of this file says
    unsafe {
        arbiter_let_go(backs.as_ptr(), backs.len(), turns.as_ptr(), turns.len(), moved.as_ptr(), moved.len(),
                       left.as_ptr(), left.len(), guessed.as_ptr(), guessed.len(), lost, guesses, go.as_mut_ptr(), go.len(),
                       reason)
    }
}

pub(crate) fn rest(slices: u64, planned: u64, own: &[u64], others: &[u64], amount: &mut u64, guarantee: &mut u64) -> u32 {
    // SAFETY: as the head of this file says
    unsafe {
        arbiter_rest(slices, planned, own.as_ptr(), own.len(), others.as_ptr(), others.len(), amount, guarantee)
    }
}

pub(crate) fn written(host: Host, limit: u64, own: u64, stands_us: u64, tasks: u32, quota: &mut u64, weight: &mut u64) -> u32 {
    // SAFETY: as the head of this file says
    unsafe {
        arbiter_written(host.processors, host.period_us, host.slice_us, limit, own, stands_us, tasks, quota, weight)
    }
}

pub(crate) fn script(host: Host, hash_key: u64, text: &[u8], told: &mut Told) -> u32 {
    // SAFETY: as the head of this file says
    unsafe {
        arbiter_script(host.processors, host.period_us, host.slice_us, hash_key, text.as_ptr(), text.len(),
                       told.parents.as_mut_ptr(), told.parents.len(), told.weights.as_mut_ptr(), told.weights.len(),
                       told.limits.as_mut_ptr(), told.limits.len(), told.demands.as_mut_ptr(), told.demands.len(),
                       told.quotas.as_mut_ptr(), told.quotas.len(), told.periods.as_mut_ptr(), told.periods.len(),
                       told.bursts.as_mut_ptr(), told.bursts.len(), told.carries.as_mut_ptr(), told.carries.len(),
                       told.names.as_mut_ptr(), told.names.len(), told.refused_lines.as_mut_ptr(), told.refused_lines.len(),
                       told.refused_faults.as_mut_ptr(), told.refused_faults.len(), &mut told.count, &mut told.names_count,
                       &mut told.refused_count)
    }
}

pub(crate) fn book(host: Host, columns: &Columns, quotas: &[u64], drawn: &[u64], carries: &mut [u64],
                   stats: &mut StatColumns) -> u32 {
    // SAFETY: as the head of this file says
    unsafe {
        arbiter_book(host.processors, host.period_us, host.slice_us, columns.parents.as_ptr(), columns.parents.len(),
                     columns.weights.as_ptr(), columns.weights.len(), columns.limits.as_ptr(), columns.limits.len(),
                     columns.demands.as_ptr(), columns.demands.len(), quotas.as_ptr(), quotas.len(), drawn.as_ptr(), drawn.len(),
                     carries.as_mut_ptr(), carries.len(), stats.usage_usec.as_mut_ptr(), stats.usage_usec.len(),
                     stats.nr_periods.as_mut_ptr(), stats.nr_periods.len(),
                     stats.nr_throttled.as_mut_ptr(), stats.nr_throttled.len(),
                     stats.throttled_usec.as_mut_ptr(), stats.throttled_usec.len(),
                     stats.nr_bursts.as_mut_ptr(), stats.nr_bursts.len(), stats.burst_usec.as_mut_ptr(), stats.burst_usec.len())
    }
}

pub(crate) fn periods(host: Host, settings: &SettingColumns, demands: &[u64], times: u64, carries: &mut [u64],
                      sums: &mut SumColumns) -> u32 {
    // SAFETY: as the head of this file says
    unsafe {
        arbiter_periods(host.processors, host.period_us, host.slice_us, settings.parents.as_ptr(), settings.parents.len(),
                        settings.weights.as_ptr(), settings.weights.len(), settings.quotas.as_ptr(), settings.quotas.len(),
                        settings.periods.as_ptr(), settings.periods.len(), settings.bursts.as_ptr(), settings.bursts.len(),
                        demands.as_ptr(), demands.len(), times, carries.as_mut_ptr(), carries.len(),
                        sums.amounts.as_mut_ptr(), sums.amounts.len(), sums.wants.as_mut_ptr(), sums.wants.len(),
                        sums.limits.as_mut_ptr(), sums.limits.len(), sums.nr_throttled.as_mut_ptr(), sums.nr_throttled.len(),
                        sums.throttled_usec.as_mut_ptr(), sums.throttled_usec.len(),
                        sums.nr_bursts.as_mut_ptr(), sums.nr_bursts.len(), sums.burst_usec.as_mut_ptr(), sums.burst_usec.len(),
                        sums.nr_short.as_mut_ptr(), sums.nr_short.len(), sums.nr_starved.as_mut_ptr(), sums.nr_starved.len())
    }
}

pub(crate) fn slices(host: Host, us: u64, own_period_us: u64, slices: &mut u64) -> u32 {
    // SAFETY: as the head of this file says
    unsafe {
        arbiter_slices(host.processors, host.period_us, host.slice_us, us, own_period_us, slices)
    }
}

pub(crate) fn period_limit(host: Host, quota_us: u64, own_period_us: u64, burst_us: u64, carry: u64, limit: &mut u64) -> u32 {
    // SAFETY: as the head of this file says
    unsafe {
        arbiter_period_limit(host.processors, host.period_us, host.slice_us, quota_us, own_period_us, burst_us, carry, limit)
    }
}

pub(crate) fn demand(host: Host, numerator: u64, denominator: u64, slices: &mut u64) -> u32 {
    // SAFETY: as the head of this file says
    unsafe {
        arbiter_demand(host.processors, host.period_us, host.slice_us, numerator, denominator, slices)
    }
}

pub(crate) fn planned_host(host: Host, planned: &mut Host) -> u32 {
    // SAFETY: as the head of this file says
    unsafe {
        arbiter_planned_host(host.processors, host.period_us, host.slice_us, &mut planned.processors, &mut planned.period_us,
                             &mut planned.slice_us)
    }
}

pub(crate) fn weight_of_shares(shares: u64, conversion: u32) -> u64 {
    // SAFETY: as the head of this file says
    unsafe {
        arbiter_weight_of_shares(shares, conversion)
    }
}

pub(crate) fn owned_weight(formula: u32, number: u64, weight: &mut u64) -> u32 {
    // SAFETY: as the head of this file says
    unsafe {
        arbiter_owned_weight(formula, number, weight)
    }
}

pub(crate) fn owned_limit(formula: u32, number: u64, own_period_us: u64, quota: &mut u64, period: &mut u64) -> u32 {
    // SAFETY: as the head of this file says
    unsafe {
        arbiter_owned_limit(formula, number, own_period_us, quota, period)
    }
}

pub(crate) fn least_owned(formula: u32, weight: u64, least: &mut u64) -> u32 {
    // SAFETY: as the head of this file says
    unsafe {
        arbiter_least_owned(formula, weight, least)
    }
}

pub(crate) fn owned_number(formula: u32, request: u64, number: &mut u64) -> u32 {
    // SAFETY: as the head of this file says
    unsafe {
        arbiter_owned_number(formula, request, number)
    }
}

pub(crate) fn pod_amount(kinds: &[u8], amounts: &[u64], amount: &mut u64) -> u32 {
    // SAFETY: as the head of this file says
    unsafe {
        arbiter_pod_amount(kinds.as_ptr(), kinds.len(), amounts.as_ptr(), amounts.len(), amount)
    }
}

pub(crate) fn greatest_part(kinds: &[u8], amounts: &[u64], part: u32, room: u64, greatest: &mut u64) -> u32 {
    // SAFETY: as the head of this file says
    unsafe {
        arbiter_greatest_part(kinds.as_ptr(), kinds.len(), amounts.as_ptr(), amounts.len(), part, room, greatest)
    }
}

pub(crate) fn allowed(quota_us: u64, own_period_us: u64, burst_us: u64, passed_ns: u64, allowed: &mut u64) -> u32 {
    // SAFETY: as the head of this file says
    unsafe {
        arbiter_allowed(quota_us, own_period_us, burst_us, passed_ns, allowed)
    }
}

pub(crate) fn lost(free_used: u64, free_planned: u64, held_used: u64, held_planned: u64, lost: &mut u64) -> u32 {
    // SAFETY: as the head of this file says
    unsafe {
        arbiter_lost(free_used, free_planned, held_used, held_planned, lost)
    }
}

pub(crate) fn version(version: &mut [u8]) -> u32 {
    // SAFETY: as the head of this file says
    unsafe {
        arbiter_version(version.as_mut_ptr(), version.len())
    }
}

pub(crate) fn name(number: u32, name: &mut [u8]) -> u32 {
    // SAFETY: as the head of this file says
    unsafe {
        arbiter_name(number, name.as_mut_ptr(), name.len())
    }
}
