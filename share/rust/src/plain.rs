//! The calls whose words are numbers and rows alone. Made from python/arbiter_pages/calls.py; a test compares them.
use crate::columns::number_of;
use crate::raw::{self, Columns};
use crate::{answered, of_rows, Fault, Host, Row};

/// The plan of the rows.
///
/// Gives slices that each row gets.
///
/// # Errors
/// - 1 to 3: the host is refused.
/// - 4 to 10: the rows are refused.
/// - 71: memory was refused.
pub fn plan(host: Host, rows: &[Row]) -> Result<Vec<u64>, Fault> {
    let columns = Columns::of(rows);
    let mut amounts = vec![0; rows.len()];
    of_rows(raw::plan(host, &columns, &mut amounts), &columns)?;
    Ok(amounts)
}

/// The slices that a group gets whatever the groups ask for that are not under it. They give it no less, and for some
/// demands of theirs no more.
///
/// `group`: the row of the group.
///
/// Gives the slices.
///
/// # Errors
/// - 1 to 3: the host is refused.
/// - 4 to 10: the rows are refused.
/// - 20: the group is no row.
/// - 71: memory was refused.
pub fn guarantee(host: Host, rows: &[Row], group: u32) -> Result<u64, Fault> {
    let columns = Columns::of(rows);
    let mut amount = 0;
    of_rows(raw::guarantee(host, &columns, group, &mut amount), &columns)?;
    Ok(amount)
}

/// The least weight with which the plan gives a group at least `amount` slices. All else is as the rows say. At most 14
/// plans.
///
/// `group`: the row of the group.
///
/// `amount`: the slices that it is to get at least.
///
/// Gives 1 to 10000; none where no weight does.
///
/// # Errors
/// - 1 to 3: the host is refused.
/// - 4 to 10: the rows are refused.
/// - 20: the group is no row.
/// - 71: memory was refused.
pub fn least_weight(host: Host, rows: &[Row], group: u32, amount: u64) -> Result<Option<u64>, Fault> {
    let columns = Columns::of(rows);
    let mut weight = 0;
    of_rows(raw::least_weight(host, &columns, group, amount, &mut weight), &columns)?;
    Ok(Some(weight).filter(|number| *number != 0))
}

/// The least limit with which the plan gives a group at least `amount` slices. All else is as the rows say. One plan.
///
/// `group`: the row of the group.
///
/// `amount`: the slices that it is to get at least.
///
/// Gives the limit in slices; none where no limit does, nor the group without one.
///
/// # Errors
/// - 1 to 3: the host is refused.
/// - 4 to 10: the rows are refused.
/// - 20: the group is no row.
/// - 10: it is row 0, whose only limit is the capacity.
/// - 71: memory was refused.
pub fn least_limit(host: Host, rows: &[Row], group: u32, amount: u64) -> Result<Option<u64>, Fault> {
    let columns = Columns::of(rows);
    let mut limit = 0;
    of_rows(raw::least_limit(host, &columns, group, amount, &mut limit), &columns)?;
    Ok(Some(limit).filter(|number| *number != raw::NO_LIMIT))
}

/// The least number of processors, of a host of this period and slice, with which the plan gives a group at least `amount`
/// slices. `processors` itself changes no answer but 1. At most 7 plans.
///
/// `group`: the row of the group.
///
/// `amount`: the slices that it is to get at least.
///
/// Gives 1 to 64; none where no number does.
///
/// # Errors
/// - 1 to 3: the host is refused.
/// - 4 to 10: the rows are refused.
/// - 20: the group is no row.
/// - 71: memory was refused.
pub fn least_processors(host: Host, rows: &[Row], group: u32, amount: u64) -> Result<Option<u64>, Fault> {
    let columns = Columns::of(rows);
    let mut least = 0;
    of_rows(raw::least_processors(host, &columns, group, amount, &mut least), &columns)?;
    Ok(Some(least).filter(|number| *number != 0))
}

/// The whole slices of one period of the host that a quota or burst allows, rounded down: a limit of a row. Below one slice
/// it allows none.
///
/// `us`: the quota or burst, 0 to 10^15 microseconds of each own period.
///
/// `own_period_us`: the own period, 1000 to 1000000 microseconds.
///
/// Gives the slices.
///
/// # Errors
/// - 1 to 3: the host is refused.
/// - 14: the quota is out of range.
/// - 15: the own period is out of range.
pub fn slices(host: Host, us: u64, own_period_us: u64) -> Result<u64, Fault> {
    let mut slices = 0;
    answered(raw::slices(host, us, own_period_us, &mut slices), None)?;
    Ok(slices)
}

/// The slices that a group may use in the next period: the limit of its row. It is the quota plus `carry`, and at most the
/// quota plus the burst.
///
/// `quota_us`: the quota, 1000 to 10^15 microseconds of each own period; none where it has none.
///
/// `own_period_us`: the own period, 1000 to 1000000 microseconds.
///
/// `burst_us`: the burst, 0 to 10^15 microseconds of each own period.
///
/// `carry`: slices of its limit that the last period left.
///
/// Gives the limit in slices; none where there is no quota.
///
/// # Errors
/// - 1 to 3: the host is refused.
/// - 13, 14: the quota is out of range.
/// - 15: the own period is out of range.
/// - 14: the burst is out of range.
pub fn period_limit(host: Host, quota_us: Option<u64>, own_period_us: u64, burst_us: u64,
                    carry: u64) -> Result<Option<u64>, Fault> {
    let mut limit = 0;
    answered(raw::period_limit(host, number_of(quota_us), own_period_us, burst_us, carry, &mut limit), None)?;
    Ok(Some(limit).filter(|number| *number != raw::NO_LIMIT))
}

/// The slices of one period of the host that a demand takes, rounded up: a demand of a row.
///
/// `numerator`: the demand is `numerator` over `denominator` processors.
///
/// `denominator`: above 0.
///
/// Gives 0 to 1000000 slices.
///
/// # Errors
/// - 1 to 3: the host is refused.
/// - 11: the denominator is 0.
/// - 9: it takes more than 1000000 slices.
pub fn demand(host: Host, numerator: u64, denominator: u64) -> Result<u64, Fault> {
    let mut slices = 0;
    answered(raw::demand(host, numerator, denominator, &mut slices), None)?;
    Ok(slices)
}

/// The weight of a number that an owner set: a request, shares or a weight. A greater number has no lesser weight.
///
/// `formula`: ARBITER_SHARES_LINEAR to ARBITER_UNIT_WEIGHT.
///
/// `number`: the number.
///
/// Gives 1 to 10000; none where logarithms do not tell it, which is of no number of shares.
///
/// # Errors
/// - 11: no formula has the number.
pub fn owned_weight(formula: u32, number: u64) -> Result<Option<u64>, Fault> {
    let mut weight = 0;
    answered(raw::owned_weight(formula, number, &mut weight), None)?;
    Ok(Some(weight).filter(|number| *number != 0))
}

/// The least number of those that an owner can set whose weight is at least `weight`. At most 18 weights are worked out.
///
/// `formula`: ARBITER_SHARES_LINEAR to ARBITER_UNIT_WEIGHT.
///
/// `weight`: the weight, 1 to 10000.
///
/// Gives the number; none where logarithms do not tell a weight, which is of no number of shares.
///
/// # Errors
/// - 11: no formula has the number.
/// - 12: the weight is out of range.
pub fn least_owned(formula: u32, weight: u64) -> Result<Option<u64>, Fault> {
    let mut least = 0;
    answered(raw::least_owned(formula, weight, &mut least), None)?;
    Ok(Some(least).filter(|number| *number != raw::NO_LIMIT))
}

/// The number that is written for a request in thousandths of a CPU. Of shares it is that of kubelet, of a request the
/// request itself. `CPUWeight=` is 100 for each CPU, rounded up.
///
/// `formula`: ARBITER_SHARES_LINEAR to ARBITER_UNIT_WEIGHT.
///
/// `request`: the request in thousandths of a CPU.
///
/// Gives the number.
///
/// # Errors
/// - 11: no formula has the number.
pub fn owned_number(formula: u32, request: u64) -> Result<u64, Fault> {
    let mut number = 0;
    answered(raw::owned_number(formula, request, &mut number), None)?;
    Ok(number)
}

/// The nanoseconds that a limit allows in some time: the part of it that the quota is of its own period, rounded down, and
/// the burst.
///
/// `quota_us`: the quota in microseconds of each own period.
///
/// `own_period_us`: the own period in microseconds, above 0.
///
/// `burst_us`: the burst in microseconds.
///
/// `passed_ns`: the time in nanoseconds.
///
/// Gives the nanoseconds; they stop at their greatest value.
///
/// # Errors
/// - 15: the own period is 0.
pub fn allowed(quota_us: u64, own_period_us: u64, burst_us: u64, passed_ns: u64) -> Result<u64, Fault> {
    let mut allowed = 0;
    answered(raw::allowed(quota_us, own_period_us, burst_us, passed_ns, &mut allowed), None)?;
    Ok(allowed)
}

/// The slices that rounds under limits served too little; 0 where limits did no harm. They do harm where the part of the
/// plan that is served is more than a twentieth of the plan below that of rounds without limits. A plan of nothing is
/// served.
///
/// `free_used`: slices used in rounds without limits, up to 2^60.
///
/// `free_planned`: slices planned for these, up to 2^60.
///
/// `held_used`: slices used in rounds under limits, up to 2^60.
///
/// `held_planned`: slices planned for these, up to 2^60.
///
/// Gives the slices.
///
/// # Errors
/// - 9: a sum is above 2^60.
pub fn lost(free_used: u64, free_planned: u64, held_used: u64, held_planned: u64) -> Result<u64, Fault> {
    let mut lost = 0;
    answered(raw::lost(free_used, free_planned, held_used, held_planned, &mut lost), None)?;
    Ok(lost)
}
