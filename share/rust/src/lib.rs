//! The planner and the checker of arbiter, over the C library that `arbiter.h` describes.
//!
//! ```
//! use arbiter::{least_weight, plan, Host, Row};
//! let rows = [Row::ROOT, Row { demand: 20, ..Row::under(0) }, Row { weight: 200, demand: 20, ..Row::under(0) }];
//! assert_eq!(plan(Host::default(), &rows), Ok(vec![20, 7, 13]));
//! // The least weight with which row 1 gets 14 slices.
//! assert_eq!(least_weight(Host::default(), &rows, 1, 14), Ok(Some(416)));
//! ```
//!
//! The code that plans and checks is proved; these wrappers are not.
#![warn(missing_docs)]

mod columns;
#[rustfmt::skip]
mod plain;
#[rustfmt::skip]
#[allow(clippy::too_many_arguments)]
mod raw;

pub use plain::*;
use raw::Columns;
use std::fmt;

/// 1 to 64 processors, a period of 1000 to 1000000 microseconds, and a slice of at least 1000 that divides it.
#[derive(Clone, Copy, Debug, PartialEq, Eq)]
pub struct Host {
    /// The processors, 1 to 64.
    pub processors: u64,
    /// The period in microseconds.
    pub period_us: u64,
    /// A slice in microseconds.
    pub slice_us: u64,
}

impl Default for Host {
    /// One processor, 20 slices of 5000 microseconds in a period.
    fn default() -> Self {
        Host {
            processors: 1,
            period_us: 100_000,
            slice_us: 5000,
        }
    }
}

/// A group; each but the root stands after its parent.
#[derive(Clone, Copy, Debug, PartialEq, Eq)]
pub struct Row {
    /// The row of its parent, none at the root, which is row 0.
    pub parent: Option<u32>,
    /// Its weight among its siblings, 1 to 10000.
    pub weight: u64,
    /// The most slices of one period that it may have. `u64::MAX` is told as one less, which bounds as little.
    pub limit: Option<u64>,
    /// The slices of one period that it wants, 0 where it has children.
    pub demand: u64,
}

impl Row {
    /// The root, with weight 100, no limit and no demand.
    pub const ROOT: Row = Row {
        parent: None,
        weight: 100,
        limit: None,
        demand: 0,
    };

    /// A child of a row, with weight 100, no limit and no demand.
    pub const fn under(parent: u32) -> Row {
        Row {
            parent: Some(parent),
            ..Row::ROOT
        }
    }
}

/// The greatest cost of a child's last slice: `num / den` at `place`.
#[derive(Clone, Copy, Debug, PartialEq, Eq)]
pub struct Level {
    /// Above 0.
    pub num: u64,
    /// Above 0.
    pub den: u64,
    /// The child's place among its siblings.
    pub place: u32,
}

/// What shows that amounts are the plan, one entry in each list for each row.
#[derive(Clone, Debug, PartialEq, Eq)]
pub struct Certificate {
    /// Whether the group's own limit is below what it wants.
    pub flags: Vec<bool>,
    /// The level of each group that shares something out.
    pub levels: Vec<Option<Level>>,
}

/// What a group wants, can be given and splits, in slices of one period.
#[derive(Clone, Copy, Debug, PartialEq, Eq)]
pub struct Figures {
    /// The slices that it would take without its own limit.
    pub want: u64,
    /// The slices that it can be given at most: the root its capacity at most.
    pub most: u64,
    /// Whether its own limit is below its want.
    pub tight: bool,
    /// The number of its children that can be given a slice.
    pub active: u32,
    /// The sum of the weights of these children.
    pub active_weight: u64,
    /// The slices that its own limit withholds of its want, 0 for the root.
    pub withheld: u64,
}

/// The counters of a group over the periods that [`book`] counted, as `cpu.stat` has them.
#[derive(Clone, Copy, Debug, Default, PartialEq, Eq)]
pub struct Stat {
    /// Microseconds that it used.
    pub usage_usec: u64,
    /// Periods.
    pub nr_periods: u64,
    /// Periods in which it wanted more than its limit.
    pub nr_throttled: u64,
    /// Microseconds that it wanted more.
    pub throttled_usec: u64,
    /// Periods in which it used more than its quota.
    pub nr_bursts: u64,
    /// Microseconds that it used more.
    pub burst_usec: u64,
}

/// Why a group gets its amount. Each group has exactly one reason.
#[derive(Clone, Copy, Debug, PartialEq, Eq)]
pub enum Reason {
    /// It wants nothing.
    NothingAsked,
    /// It gets all that it wants.
    AllWanted,
    /// It gets its own limit.
    OwnLimit,
    /// The group of this row, above it, gets its limit, and no group between the two does.
    LimitAbove(u32),
    /// The host gives out its capacity, and no group from this one up gets its limit.
    HostFull,
}

/// A group after a script.
#[derive(Clone, Debug, PartialEq, Eq)]
pub struct Group {
    /// Its last name, empty at the root.
    pub name: String,
    /// Its row in the next period.
    pub row: Row,
    /// Its quota in microseconds of each own period.
    pub quota: Option<u64>,
    /// The length of its own period in microseconds.
    pub period: u64,
    /// Its burst in microseconds of each own period.
    pub burst: u64,
    /// The slices of its limit that the last period left.
    pub carry: u64,
}

/// A line of a script that was refused.
#[derive(Clone, Copy, Debug, PartialEq, Eq)]
pub struct RefusedLine {
    /// Its number. The first line has 1.
    pub line: u64,
    /// Why it was refused.
    pub fault: Fault,
}

/// What a script leads to.
#[derive(Clone, Debug, PartialEq, Eq)]
pub struct Script {
    /// The groups in order of creation, the root first.
    pub groups: Vec<Group>,
    /// The refused lines in order.
    pub refused: Vec<RefusedLine>,
}

/// What a call answers in place of 0.
#[derive(Clone, Copy, Debug, PartialEq, Eq)]
pub struct Fault {
    /// Its number, as `docs/USING.md` has it.
    pub number: u32,
    /// The row of the group that has it, where one has.
    pub row: Option<u32>,
}

impl Fault {
    /// Its name.
    pub fn name(self) -> String {
        name(self.number).unwrap_or_default()
    }
}

impl fmt::Display for Fault {
    fn fmt(&self, into: &mut fmt::Formatter<'_>) -> fmt::Result {
        write!(into, "{} {}", self.number, self.name())?;
        self.row.map_or(Ok(()), |row| write!(into, " {row}"))
    }
}

impl std::error::Error for Fault {}

/// How container runtimes convert `cpu.shares`.
#[derive(Clone, Copy, Debug, PartialEq, Eq)]
pub enum Conversion {
    /// As runc before 1.3.2 and crun before 1.23.
    Linear = 1,
    /// As runc from 1.3.2 on and crun from 1.23 on.
    Logarithmic = 2,
}

/// A refusal of rows, with the row that it speaks of.
fn of_rows(number: u32, columns: &Columns) -> Result<(), Fault> {
    let mut row = u32::MAX;
    if (4..=10).contains(&number) {
        raw::refused_row(columns, &mut row);
    }
    answered(number, Some(row).filter(|row| *row != u32::MAX))
}

fn answered(number: u32, row: Option<u32>) -> Result<(), Fault> {
    match number {
        0 => Ok(()),
        _ => Err(Fault { number, row }),
    }
}

/// The plan, and its certificate.
///
/// # Errors
/// As of [`plan`].
pub fn certify(host: Host, rows: &[Row]) -> Result<(Vec<u64>, Certificate), Fault> {
    let (columns, mut amounts) = (Columns::of(rows), vec![0; rows.len()]);
    let mut claim = raw::Claim::room(rows.len());
    of_rows(raw::certify(host, &columns, &mut amounts, &mut claim), &columns)?;
    Ok((amounts, claim.certificate()))
}

/// Ok where the certificate shows that the amounts are the plan, whoever made it.
///
/// # Errors
/// 50 to 58, with the row of the first group that has the fault; and as of [`plan`].
pub fn check(
    host: Host,
    rows: &[Row],
    amounts: &[u64],
    certificate: &Certificate,
) -> Result<(), Fault> {
    let (columns, mut row) = (Columns::of(rows), u32::MAX);
    let number = raw::check(host, &columns, amounts, &raw::Claim::of(certificate), &mut row);
    if number <= 10 {
        return of_rows(number, &columns);
    }
    answered(number, Some(row).filter(|row| *row != u32::MAX))
}

/// Ok where the amounts of a certified text are the plan of its instance, as `arbiter check` finds it.
///
/// # Errors
/// 51 to 58, with the row of the first group that has the fault; 1 to 10 and 40 to 43 where it is no certified text; 71.
pub fn check_text(text: &[u8]) -> Result<(), Fault> {
    let mut row = u32::MAX;
    let number = raw::check_text(text, &mut row);
    answered(number, Some(row).filter(|row| *row != u32::MAX))
}

/// The groups after a script, as `arbiter run` reads it, and its refused lines.
///
/// Each `period` serves the plan where every leaf uses its slices.
///
/// # Errors
/// The host is refused (1 to 3), or memory is (71).
pub fn script(host: Host, text: &[u8]) -> Result<Script, Fault> {
    let mut told = raw::Told::room(text);
    answered(told.read(host, text), None)?;
    Ok(told.script())
}

/// The groups whose limits hold the total down, and what is wanted outside them: their limits and the rest add up to it.
///
/// # Errors
/// As of [`plan`].
pub fn limiting(host: Host, rows: &[Row]) -> Result<(Vec<u32>, u64), Fault> {
    let (columns, mut groups) = (Columns::of(rows), vec![0; rows.len()]);
    let (mut count, mut rest) = (0, 0);
    of_rows(
        raw::limiting(host, &columns, &mut groups, &mut count, &mut rest),
        &columns,
    )?;
    groups.truncate(count as usize);
    Ok((groups, rest))
}

/// The figures of each row.
///
/// # Errors
/// As of [`plan`].
pub fn figures(host: Host, rows: &[Row]) -> Result<Vec<Figures>, Fault> {
    let (columns, mut found) = (Columns::of(rows), raw::FigureColumns::room(rows.len()));
    of_rows(raw::figures(host, &columns, &mut found), &columns)?;
    Ok((0..rows.len())
        .map(|row| Figures {
            want: found.wants[row],
            most: found.mosts[row],
            tight: found.tights[row] != 0,
            active: found.actives[row],
            active_weight: found.active_weights[row],
            withheld: found.withheld[row],
        })
        .collect())
}

/// The reason for each row's amount.
///
/// # Errors
/// As of [`plan`].
pub fn reasons(host: Host, rows: &[Row]) -> Result<Vec<Reason>, Fault> {
    let (columns, mut kinds) = (Columns::of(rows), vec![0; rows.len()]);
    let mut blamed = vec![0; rows.len()];
    of_rows(raw::reasons(host, &columns, &mut kinds, &mut blamed), &columns)?;
    let told = kinds.into_iter().zip(blamed);
    Ok(told.map(|(kind, row)| columns::reason(kind, row)).collect())
}

/// The limits of a round, with the demands and the certified plan that they come from.
#[derive(Clone, Debug, PartialEq, Eq)]
pub struct Round {
    /// One limit per row in slices. Groups with children keep their own limit or none, and so do leaves where nobody lacks anything.
    pub limits: Vec<Option<u64>>,
    /// One demand per row in slices: 1000000 at a hungry leaf, else what it used.
    pub demands: Vec<u64>,
    /// The plan of the demands.
    pub amounts: Vec<u64>,
    /// The certificate of the amounts, for the rows with the demands.
    pub certificate: Certificate,
}

/// The limits of the next round, from what each leaf used in the last one.
///
/// The demand of each row is what it used, in slices rounded up. A flag of `hungry` tells for each row whether it would have used
/// more; those of groups with children are not read.
///
/// # Errors
/// 50 where there is not one flag for each row; and as of [`plan`].
pub fn hold(host: Host, rows: &[Row], hungry: &[bool]) -> Result<Round, Fault> {
    let (columns, flags) = (Columns::of(rows), flags(hungry));
    let (mut held, mut demands) = (vec![0; rows.len()], vec![0; rows.len()]);
    let (mut amounts, mut claim) = (vec![0; rows.len()], raw::Claim::room(rows.len()));
    let number = raw::hold(host, &columns, &flags, &mut held, &mut demands, &mut amounts, &mut claim);
    of_rows(number, &columns)?;
    Ok(Round {
        limits: limits(held),
        demands,
        amounts,
        certificate: claim.certificate(),
    })
}

fn flags(each: &[bool]) -> Vec<u8> {
    each.iter().map(|flag| u8::from(*flag)).collect()
}

fn limits(numbers: Vec<u64>) -> Vec<Option<u64>> {
    let limits = numbers.into_iter();
    limits
        .map(|limit| Some(limit).filter(|limit| *limit != raw::NO_LIMIT))
        .collect()
}

/// What a scheduler is given for a round in the place of limits.
#[derive(Clone, Debug, PartialEq, Eq)]
pub struct Served {
    /// One amount per row in slices: its plan, or its part beside the plans of the others if that is more.
    pub amounts: Vec<u64>,
    /// One limit per row in slices: of a leaf its least part of the limits at or above it, of another row its own.
    pub limits: Vec<Option<u64>>,
}

/// What a scheduler is given for a round, whose rows and flags are those of [`hold`].
///
/// # Errors
/// As of [`hold`].
pub fn serve(host: Host, rows: &[Row], hungry: &[bool]) -> Result<Served, Fault> {
    let columns = Columns::of(rows);
    let (mut amounts, mut most) = (vec![0; rows.len()], vec![0; rows.len()]);
    let number = raw::serve(host, &columns, &flags(hungry), &mut amounts, &mut most);
    of_rows(number, &columns)?;
    Ok(Served {
        amounts,
        limits: limits(most),
    })
}

/// What is counted of a group in a round, which is the time between two readings.
#[derive(Clone, Copy, Debug, PartialEq, Eq)]
pub struct RoundTimes {
    /// Nanoseconds that passed.
    pub passed_ns: u64,
    /// Microseconds that it used.
    pub used_us: u64,
    /// Microseconds in which some task of it waited for a processor.
    pub waited_us: u64,
    /// Its tasks at the end.
    pub tasks: u32,
    /// Whether it was throttled at a limit of its own.
    pub is_throttled: bool,
    /// Microseconds that this limit allowed it, if it has one.
    pub allowed_us: Option<u64>,
}

/// What a group used in a round and asks for, in slices of one period, rounded up.
#[derive(Clone, Copy, Debug, PartialEq, Eq)]
pub struct Reading {
    /// What it used.
    pub used: u64,
    /// What it asks for, 1000000 for everything.
    pub asked: u64,
    /// Whether it would have used more.
    pub is_hungry: bool,
    /// Whether that is a guess, since its tasks that were there at both readings tell too little.
    pub is_guess: bool,
}

/// What a group used in a round, whether it would have used more, and what it asks for.
///
/// `ran` and `waited` have the nanoseconds of each task that was there at both readings.
///
/// # Errors
/// 50 where these differ in length or have more entries than the group has tasks; the host is refused (1 to 3), or no time
/// passed (15).
pub fn reading(host: Host, times: RoundTimes, ran: &[u64], waited: &[u64]) -> Result<Reading, Fault> {
    let (mut used, mut asked, mut hungry, mut guess) = (0, 0, 0, 0);
    let allowed_us = times.allowed_us.unwrap_or(raw::NO_LIMIT);
    let throttled = u32::from(times.is_throttled);
    answered(
        raw::reading(host, times.passed_ns, times.used_us, times.waited_us, times.tasks, throttled, allowed_us,
                     ran, waited, &mut used, &mut asked, &mut hungry, &mut guess),
        None,
    )?;
    Ok(Reading { used, asked, is_hungry: hungry != 0, is_guess: guess != 0 })
}

/// What is counted of a leaf that a scheduler serves in a round, in nanoseconds.
#[derive(Clone, Copy, Debug, PartialEq, Eq)]
pub struct LeafTimes {
    /// The time that passed.
    pub passed_ns: u64,
    /// What it used.
    pub used_ns: u64,
    /// How long its tasks waited for a processor, added up.
    pub waited_ns: u64,
    /// How long one or more of them waited.
    pub some_ns: u64,
}

/// What a leaf that a scheduler serves used in a round, and what it asks for: what it used if it was idle for more than a
/// twentieth of it, else what it would have used if no task had waited.
///
/// # Errors
/// The host is refused (1 to 3), or no time passed (15).
pub fn leaf_reading(host: Host, times: LeafTimes) -> Result<Reading, Fault> {
    let (mut used, mut asked) = (0, 0);
    let LeafTimes { passed_ns, used_ns, waited_ns, some_ns } = times;
    answered(raw::leaf_reading(host, passed_ns, used_ns, waited_ns, some_ns, &mut used, &mut asked), None)?;
    Ok(Reading { used, asked, is_hungry: used < asked, is_guess: false })
}

/// What a round asks for each leaf, and what each was not served in the last one.
#[derive(Clone, Debug, PartialEq, Eq)]
pub struct RoundAsks {
    /// What stands in the place of a demand in the rows of [`hold`].
    pub demands: Vec<u64>,
    /// The flags of [`hold`].
    pub hungry: Vec<bool>,
    /// Slices of its plan that each leaf was not served, 0 where it would not have used more.
    pub unserved: Vec<u64>,
}

/// What a round asks for each leaf: what its reading asks for. `planned` has the slices that the plan of the last round gave it.
///
/// # Errors
/// 50 where there is not one number of slices for each reading.
pub fn round(planned: &[u64], readings: &[Reading]) -> Result<RoundAsks, Fault> {
    let used: Vec<u64> = readings.iter().map(|reading| reading.used).collect();
    let asked: Vec<u64> = readings.iter().map(|reading| reading.asked).collect();
    let hungry: Vec<u8> = readings.iter().map(|reading| u8::from(reading.is_hungry)).collect();
    let (mut demands, mut all, mut unserved) = (vec![0; used.len()], vec![0; used.len()], vec![0; used.len()]);
    answered(raw::round(planned, &used, &asked, &hungry, &mut demands, &mut all, &mut unserved), None)?;
    Ok(RoundAsks {
        demands,
        hungry: all.iter().map(|flag| *flag != 0).collect(),
        unserved,
    })
}

/// Counts for how many rounds in a row numbers of groups go back, and turn: each count is raised by one, or is 0.
///
/// `now` has the number of each group in this round, `last` that of the last one and `before` that of the one before. A number goes
/// back where it is that of two rounds before to a twentieth, and a quarter off the last. It turns where it rose and falls, or fell
/// and rises.
///
/// # Errors
/// 50 where the columns differ in length.
pub fn swings(now: &[u64], last: &[u64], before: &[u64], backs: &mut [u64], turns: &mut [u64]) -> Result<(), Fault> {
    answered(raw::swings(now, last, before, backs, turns), None)
}

/// What limits did in the last 60 rounds of each kind.
#[derive(Clone, Copy, Debug, PartialEq, Eq)]
pub struct Judged {
    /// Slices that they served too little, as [`lost`] has them.
    pub lost: u64,
    /// By how many slices guesses are more than what was sure.
    pub guessed: u64,
}

/// What limits did in the last rounds: nothing where fewer than 60 were under limits.
///
/// `free` has the slices used and planned in each round without limits. `held` has those of rounds under limits, then those used by
/// groups that were hungry for sure, and those used where that was a guess.
///
/// # Errors
/// 50 where the columns of one kind of rounds differ in length, or a sum of the last rounds is above 2^60 (9).
pub fn judged(free: [&[u64]; 2], held: [&[u64]; 4]) -> Result<Judged, Fault> {
    let (mut lost, mut guessed) = (0, 0);
    answered(raw::judged(free[0], free[1], held[0], held[1], held[2], held[3], &mut lost, &mut guessed), None)?;
    Ok(Judged { lost, guessed })
}

/// What each group did in the last rounds, by which some are let go. One number of each group in each column.
#[derive(Clone, Copy, Debug, PartialEq, Eq)]
pub struct Lately<'a> {
    /// Rounds in a row in which its limit went back, as [`swings`] counts them.
    pub backs: &'a [u64],
    /// Rounds in a row in which what it asked for turned.
    pub turns: &'a [u64],
    /// Slices by which its use changed.
    pub moved: &'a [u64],
    /// Slices of its plans that it did not use.
    pub left: &'a [u64],
    /// Slices that it used where its hunger was a guess.
    pub guessed: &'a [u64],
}

/// Why groups are let go.
#[derive(Clone, Copy, Debug, PartialEq, Eq)]
pub enum LetGo {
    /// Nobody is.
    Nothing,
    /// Limits went back and forth.
    Swings,
    /// Slices were lost under limits.
    Losses,
    /// Hunger was mostly a guess.
    Guesses,
}

/// Which groups are let go, since limits do harm to them, and why.
///
/// # Errors
/// 50 where the columns differ in length.
pub fn let_go(groups: &Lately<'_>, judged: Judged) -> Result<(LetGo, Vec<bool>), Fault> {
    let (mut go, mut reason) = (vec![0; groups.backs.len()], 0);
    let Lately { backs, turns, moved, left, guessed } = *groups;
    answered(raw::let_go(backs, turns, moved, left, guessed, judged.lost, judged.guessed, &mut go, &mut reason), None)?;
    let why = match reason {
        0 => LetGo::Nothing,
        1 => LetGo::Swings,
        2 => LetGo::Losses,
        _ => LetGo::Guesses,
    };
    Ok((why, go.iter().map(|flag| *flag != 0).collect()))
}

/// What the rest of a host is given beside a plan, in slices.
#[derive(Clone, Copy, Debug, PartialEq, Eq)]
pub struct Rest {
    /// What it has of what all have.
    pub amount: u64,
    /// What it has at least.
    pub guarantee: u64,
}

/// What the rest of a host is given beside a plan of so many slices, of which some are planned.
///
/// `own` has the weights of the planned groups' top and of each group above it but the root, `others` those of the groups beside each.
///
/// # Errors
/// 50 where the columns differ in length; the plan is of more than 10^9 slices (9).
pub fn rest(slices: u64, planned: u64, own: &[u64], others: &[u64]) -> Result<Rest, Fault> {
    let (mut amount, mut guarantee) = (0, 0);
    answered(raw::rest(slices, planned, own, others, &mut amount, &mut guarantee), None)?;
    Ok(Rest { amount, guarantee })
}

/// The quota and the weight that are written for a leaf's limit of a round, as share/arbiter.h has them.
///
/// `own` is its own limit, and `stands_us` the quota that stands in it, of the host's period. No quota: its own limit is written.
///
/// # Errors
/// The host is refused (1 to 3), or the limit is too large (14).
pub fn written(host: Host, limit: u64, own: Option<u64>, stands_us: u64, tasks: u32) -> Result<(Option<u64>, u64), Fault> {
    let (own, mut quota, mut weight) = (own.unwrap_or(raw::NO_LIMIT), 0, 0);
    let number = raw::written(host, limit, own, stands_us, tasks, &mut quota, &mut weight);
    answered(number, None)?;
    Ok((Some(quota).filter(|quota| *quota != raw::NO_LIMIT), weight))
}

/// The answer to goals of rows.
#[derive(Clone, Debug, PartialEq, Eq)]
pub enum Tuning {
    /// The weight of each row with which each has its goal.
    Met(Vec<u64>),
    /// A row. No weights meet the goals of it and below it together, whatever it is given.
    Unmet(u32),
}

/// The weights under which each row has its goal: by the plan or, where `guaranteed`, as [`guarantee`] has it.
///
/// `goals` has the slices that each row is to get at least, 0 for none. Weights change where `may` says so, within 1 to 10000.
/// They are the least from the root down that are no less than those of the rows, or else of all.
///
/// # Errors
/// As of [`plan`], and 50 where there is not one goal and one `may` for each row.
pub fn tune(host: Host, rows: &[Row], goals: &[u64], may: &[bool], guaranteed: bool) -> Result<Tuning, Fault> {
    let flags = flags(may);
    let (columns, mut tuned) = (Columns::of(rows), vec![0; rows.len()]);
    let mut unmet = raw::NO_GOAL;
    let number = raw::tune(host, &columns, goals, &flags, u32::from(guaranteed), &mut tuned, &mut unmet);
    of_rows(number, &columns)?;
    Ok(match u32::try_from(unmet) {
        Ok(row) => Tuning::Unmet(row),
        Err(_) => Tuning::Met(tuned),
    })
}

/// A goal of a group, and the number that an owner sets for it.
#[derive(Clone, Copy, Debug, PartialEq, Eq)]
pub struct OwnerGoal {
    /// Row of the group.
    pub group: u32,
    /// Least slices of one period that the group is to get.
    pub amount: u64,
    /// Row whose number is set: the group, one above it or below it.
    pub owner: u32,
    /// Highest row that has the number too; the owner's for none.
    pub top: u32,
    /// Least number that may be set.
    pub first: u64,
    /// Greatest number that may be set.
    pub last: u64,
}

/// Numbers that owners set for goals, one for each.
#[derive(Clone, Debug, PartialEq, Eq)]
pub enum Settling {
    /// All goals are met, and each number is the least beside the others.
    Settled(Vec<u64>),
    /// No number of the range of the goal at this place meets it beside the others.
    Stuck(u64),
    /// Numbers still changed in the last pass, or logarithms do not tell a weight.
    Unsettled,
}

/// The least numbers of their ranges that owners can set with which groups get at least so many slices, each the least beside
/// the others.
///
/// `formulas` has the number of a formula of [`owned_weight`] for each row whose weight follows, and 0 for each other row. A row
/// has the numbers of the goals whose owner's row it is, or lies below it and whose highest row is it or above it. Its number is
/// what `bases` has and these, and no less than what `floors` has. If `guaranteed`, groups get their amounts whatever the others
/// ask for.
///
/// # Errors
/// As of [`plan`], then 20 where a goal's group or its owner's row is no row, or neither of them is the other or below it.
pub fn settle(
    host: Host,
    rows: &[Row],
    formulas: &[u32],
    floors: &[u64],
    bases: &[u64],
    goals: &[OwnerGoal],
    guaranteed: bool,
) -> Result<Settling, Fault> {
    let of_rows_of = |field: fn(&OwnerGoal) -> u32| -> Vec<u32> { goals.iter().map(field).collect() };
    let numbers_of = |field: fn(&OwnerGoal) -> u64| -> Vec<u64> { goals.iter().map(field).collect() };
    let (columns, mut numbers, mut stuck) = (Columns::of(rows), vec![0; goals.len()], 0);
    let number = raw::settle(
        host,
        &columns,
        formulas,
        floors,
        bases,
        &of_rows_of(|each| each.group),
        &numbers_of(|each| each.amount),
        &of_rows_of(|each| each.owner),
        &of_rows_of(|each| each.top),
        &numbers_of(|each| each.first),
        &numbers_of(|each| each.last),
        u32::from(guaranteed),
        &mut numbers,
        &mut stuck,
    );
    of_rows(number, &columns)?;
    Ok(match stuck {
        raw::NO_LIMIT => Settling::Settled(numbers),
        place if place < goals.len() as u64 => Settling::Stuck(place),
        _ => Settling::Unsettled,
    })
}

/// Goals with halves of others, and what goals come to at each row.
///
/// `goals` and `guaranteed` are those of [`tune`]. Each leaf below the root with no goal at it or above it is to keep half of what
/// it has, rounded up. The goals of a row come to its own, or to those of its children together, if that is more.
///
/// # Errors
/// As of [`plan`], and 50 where there is not one goal for each row.
pub fn goals(host: Host, rows: &[Row], goals: &[u64], guaranteed: bool) -> Result<(Vec<u64>, Vec<u64>), Fault> {
    let (columns, mut kept, mut come_to) = (Columns::of(rows), vec![0; rows.len()], vec![0; rows.len()]);
    let number = raw::goals(host, &columns, goals, u32::from(guaranteed), &mut kept, &mut come_to);
    of_rows(number, &columns)?;
    Ok((kept, come_to))
}

/// The limit of each row with which weights that [`tune`] gives meet the goals, or none where no limits do.
///
/// `goals`, `may` and `guaranteed` are those of [`tune`]. `lowest` has the lowest limit in slices that each row may get, none where
/// its limit stays. That of the root stays, and that of a row with a goal at, above or below it. The limits are the greatest: one
/// level for all, and then each in row order.
///
/// # Errors
/// As of [`tune`], and 50 where there is not one `lowest` for each row.
pub fn limit_others(
    host: Host,
    rows: &[Row],
    goals: &[u64],
    may: &[bool],
    lowest: &[Option<u64>],
    guaranteed: bool,
) -> Result<Option<Vec<Option<u64>>>, Fault> {
    let flags = flags(may);
    let least: Vec<u64> = lowest.iter().map(|each| each.unwrap_or(raw::NO_LIMIT)).collect();
    let (columns, mut limited, mut met) = (Columns::of(rows), vec![0; rows.len()], 0);
    let guaranteed = u32::from(guaranteed);
    let number = raw::limit_others(host, &columns, goals, &flags, &least, guaranteed, &mut limited, &mut met);
    of_rows(number, &columns)?;
    let limits = limited.iter().map(|limit| Some(*limit).filter(|limit| *limit != raw::NO_LIMIT));
    Ok((met != 0).then(|| limits.collect()))
}

/// Counts one period for each row and gives the slices that each left of its limit, 0 without one.
///
/// The rows are those of the period. `drawn` are the slices that each group used, as a plan gives them. `quotas` are in slices,
/// without what was carried in. A counter stops at its greatest value.
///
/// # Errors
/// As of [`plan`], and 50 if there are not one quota, one number of slices and one `Stat` for each row.
pub fn book(
    host: Host,
    rows: &[Row],
    quotas: &[Option<u64>],
    drawn: &[u64],
    stats: &mut [Stat],
) -> Result<Vec<u64>, Fault> {
    let columns = Columns::of(rows);
    let quotas: Vec<u64> = quotas.iter().map(|quota| columns::number_of(*quota)).collect();
    let (mut carries, mut found) = (vec![0; rows.len()], raw::StatColumns::of(stats));
    of_rows(raw::book(host, &columns, &quotas, drawn, &mut carries, &mut found), &columns)?;
    for (row, stat) in stats.iter_mut().enumerate() {
        *stat = found.stat(row);
    }
    Ok(carries)
}

/// A group over several periods; each but the root stands after its parent.
#[derive(Clone, Copy, Debug, PartialEq, Eq)]
pub struct Settings {
    /// The row of its parent, none at the root, which is row 0.
    pub parent: Option<u32>,
    /// Its weight among its siblings, 1 to 10000.
    pub weight: u64,
    /// The quota, 1000 to 10^15 microseconds of each own period.
    pub quota_us: Option<u64>,
    /// The own period, 1000 to 1000000 microseconds.
    pub period_us: u64,
    /// The burst, 0 to 10^15 microseconds.
    pub burst_us: u64,
}

/// Sums of a group over the periods of a sample.
#[derive(Clone, Copy, Debug, Default, PartialEq, Eq)]
pub struct Sums {
    /// Slices that it got.
    pub amount: u64,
    /// Slices that it wanted.
    pub want: u64,
    /// Slices of its limits, none if it has no quota.
    pub limit: Option<u64>,
    /// Periods in which it was throttled.
    pub nr_throttled: u64,
    /// Microseconds that it wanted more than its limit.
    pub throttled_usec: u64,
    /// Periods in which it used more than its quota.
    pub nr_bursts: u64,
    /// Microseconds that it used more than its quota.
    pub burst_usec: u64,
    /// Periods in which it was throttled and got less than its limit.
    pub nr_short: u64,
    /// Periods in which it wanted something and got nothing.
    pub nr_starved: u64,
}

/// Samples of so many periods each, one after another: the sums of each group in the first sample, then in the next.
///
/// `demands` has the slices of each group in the first sample, then in the next. `carries` has the slices of its limit that each
/// group left of the period before, and gets those that it leaves of the last one. The check has accepted the plan of each period.
///
/// # Errors
/// 50 where the demands are not some for each group of each sample, or the carries not one for each group. Then as of
/// [`planned_host`], as of [`period_limit`] (13 to 15), and as of [`plan`].
pub fn periods(
    host: Host,
    groups: &[Settings],
    demands: &[u64],
    times: u64,
    carries: &mut [u64],
) -> Result<Vec<Sums>, Fault> {
    let (columns, mut sums) = (raw::SettingColumns::of(groups), raw::SumColumns::room(demands.len()));
    answered(raw::periods(host, &columns, demands, times, carries, &mut sums), None)?;
    Ok((0..demands.len()).map(|at| sums.sums(at)).collect())
}

/// The host that is planned in place of one of any number of processors: itself up to 64, else one of the same capacity.
///
/// # Errors
/// There is no processor (1), period or slice are refused (2, 3), or no host of at most 64 processors has the capacity (1).
pub fn planned_host(host: Host) -> Result<Host, Fault> {
    let mut planned = host;
    answered(raw::planned_host(host, &mut planned), None)?;
    Ok(planned)
}

/// The `cpu.weight`, 1 to 10000, that container runtimes write for `cpu.shares`.
pub fn weight_of_shares(shares: u64, conversion: Conversion) -> u64 {
    raw::weight_of_shares(shares, conversion as u32)
}

/// The quota, None for no limit, and the period in microseconds of a number that an owner set.
///
/// `formula` is 1 to 4: thousandths of a CPU, `NanoCpus`, `CpuQuota`, and microseconds of each
/// second. `own_period_us` is the period that was set beside it, 0 for 100000.
///
/// # Errors
/// - 11: no formula has the number.
pub fn owned_limit(formula: u32, number: u64, own_period_us: u64) -> Result<(Option<u64>, u64), Fault> {
    let (mut quota, mut period) = (0, 0);
    answered(raw::owned_limit(formula, number, own_period_us, &mut quota, &mut period), None)?;
    Ok((Some(quota).filter(|number| *number != raw::NO_LIMIT), period))
}

/// The most that the containers of a pod take at any time, by their kinds and amounts in the order
/// in which they start: 1 is an init container, 2 a sidecar.
///
/// # Errors
/// - 50: the columns differ in length.
pub fn pod_amount(kinds: &[u8], amounts: &[u64]) -> Result<u64, Fault> {
    let mut amount = 0;
    answered(raw::pod_amount(kinds, amounts, &mut amount), None)?;
    Ok(amount)
}

/// The greatest amount of the container at a place with which a pod takes no more than some room; None where the others alone
/// take more. Kinds and amounts are those of [`pod_amount`]. Its own amount is not read.
///
/// # Errors
/// - 50: the columns differ in length, or have no such place.
pub fn greatest_part(kinds: &[u8], amounts: &[u64], part: u32, room: u64) -> Result<Option<u64>, Fault> {
    let mut greatest = 0;
    answered(raw::greatest_part(kinds, amounts, part, room, &mut greatest), None)?;
    Ok(Some(greatest).filter(|number| *number != raw::NO_LIMIT))
}

/// The version of the library.
pub fn version() -> String {
    let mut room = [0; raw::NAME_ROOM];
    let count = raw::version(&mut room) as usize;
    String::from_utf8_lossy(&room[..count]).into_owned()
}

/// The name of a fault's number.
pub fn name(number: u32) -> Option<String> {
    let mut room = [0; raw::NAME_ROOM];
    let count = raw::name(number, &mut room) as usize;
    (count > 0).then(|| String::from_utf8_lossy(&room[..count]).into_owned())
}

#[cfg(test)]
mod tests {
    use super::*;

    fn two() -> [Row; 3] {
        [
            Row::ROOT,
            Row {
                demand: 20,
                ..Row::under(0)
            },
            Row {
                weight: 200,
                demand: 20,
                ..Row::under(0)
            },
        ]
    }

    fn fault(number: u32, row: Option<u32>) -> Fault {
        Fault { number, row }
    }

    /// A leaf of a scheduler used half of a processor, and its tasks waited for the other half.
    #[test]
    fn reads_a_leaf() {
        let mut times = LeafTimes {
            passed_ns: 1_000_000_000,
            used_ns: 500_000_000,
            waited_ns: 500_000_000,
            some_ns: 500_000_000,
        };
        let found = leaf_reading(Host::default(), times).unwrap();
        assert_eq!((found.used, found.asked, found.is_hungry), (10, 20, true));
        times.passed_ns = 0;
        assert_eq!(leaf_reading(Host::default(), times), Err(fault(15, None)));
    }

    /// Of 20 slices `two` shares 7 and 13 if both ask for all. The first used 4, so the second may have 16.
    #[test]
    fn holds() {
        let mut used = two();
        (used[1].demand, used[2].demand) = (4, 10);
        let round = hold(Host::default(), &used, &[false, false, true]).unwrap();
        assert_eq!(round.limits, [None, Some(7), Some(16)]);
        assert_eq!(round.demands, [0, 4, 1_000_000]);
        assert_eq!(round.amounts, [20, 4, 16]);
        used[2].demand = 1_000_000;
        check(Host::default(), &used, &round.amounts, &round.certificate).unwrap();
        assert_eq!(hold(Host::default(), &used, &[true]), Err(fault(50, None)));
    }

    /// The first used 4, and may have the 11 that the limit of the second leaves it.
    #[test]
    fn serves() {
        let mut used = two();
        (used[1].demand, used[2].demand, used[2].limit) = (4, 9, Some(9));
        let served = serve(Host::default(), &used, &[false, false, true]).unwrap();
        assert_eq!(served.amounts, [20, 11, 9]);
        assert_eq!(served.limits, [None, None, Some(9)]);
        assert_eq!(serve(Host::default(), &used, &[true]), Err(fault(50, None)));
    }

    #[test]
    fn plans_and_certifies() {
        let (amounts, certificate) = certify(Host::default(), &two()).unwrap();
        assert_eq!(plan(Host::default(), &two()).as_ref(), Ok(&amounts));
        assert_eq!(amounts, [20, 7, 13]);
        assert_eq!(certificate.flags, [true, false, false]);
        assert_eq!(
            certificate.levels,
            [
                Some(Level {
                    num: 13,
                    den: 100,
                    place: 0
                }),
                None,
                None
            ]
        );
        assert_eq!(
            check(Host::default(), &two(), &amounts, &certificate),
            Ok(())
        );
        assert_eq!(limiting(Host::default(), &two()), Ok((vec![0], 0)));
    }

    #[test]
    fn keeps_limits() {
        let pod = Row {
            limit: Some(10),
            ..Row::under(0)
        };
        let wants = |parent, weight, demand| Row {
            weight,
            demand,
            ..Row::under(parent)
        };
        let rows = [
            Row::ROOT,
            pod,
            wants(1, 100, 20),
            wants(1, 300, 20),
            wants(0, 100, 5),
        ];
        assert_eq!(plan(Host::default(), &rows), Ok(vec![15, 10, 3, 7, 5]));
        assert_eq!(limiting(Host::default(), &rows), Ok((vec![1], 5)));
        let two = Host {
            processors: 2,
            ..Host::default()
        };
        let wide = [Row::ROOT, wants(0, 1, 50)];
        assert_eq!(plan(two, &wide), Ok(vec![40, 40]));
    }

    /// Two groups of weight 100 that want 20 slices each.
    fn equal() -> [Row; 3] {
        let wants = Row {
            demand: 20,
            ..Row::under(0)
        };
        [Row::ROOT, wants, wants]
    }

    /// A group (1), a pod with limit 9 (2) over two (3, 4), an idle one (5), one of a slice (6).
    fn pod() -> [Row; 7] {
        let wants = |parent, demand| Row {
            demand,
            ..Row::under(parent)
        };
        let pod = Row {
            limit: Some(9),
            ..Row::under(0)
        };
        let (web, a, b) = (wants(0, 20), wants(2, 20), wants(2, 20));
        [Row::ROOT, web, pod, a, b, Row::under(0), wants(0, 1)]
    }

    #[test]
    fn tells_figures() {
        let leaf = |want| Figures {
            want,
            most: want,
            tight: false,
            active: 0,
            active_weight: 0,
            withheld: 0,
        };
        let root = Figures {
            want: 30,
            most: 20,
            tight: true,
            active: 3,
            active_weight: 300,
            withheld: 0,
        };
        let pod_of_9 = Figures {
            want: 40,
            most: 9,
            tight: true,
            active: 2,
            active_weight: 200,
            withheld: 31,
        };
        assert_eq!(
            figures(Host::default(), &pod()),
            Ok(vec![
                root,
                leaf(20),
                pod_of_9,
                leaf(20),
                leaf(20),
                leaf(0),
                leaf(1)
            ])
        );
        assert_eq!(figures(Host::default(), &[]), Err(fault(5, None)));
    }

    #[test]
    fn books() {
        let mut rows = equal();
        rows[1].limit = Some(15);
        let mut stats = [Stat::default(); 3];
        let carries = book(Host::default(), &rows, &[None, Some(10), None], &[20, 12, 8], &mut stats);
        assert_eq!(carries, Ok(vec![0, 3, 0]));
        let first = Stat {
            usage_usec: 60_000,
            nr_periods: 1,
            nr_throttled: 1,
            throttled_usec: 25_000,
            nr_bursts: 1,
            burst_usec: 10_000,
        };
        assert_eq!((stats[1], stats[2].usage_usec), (first, 40_000));
        assert_eq!(
            book(Host::default(), &rows, &[None], &[20, 12, 8], &mut stats),
            Err(fault(50, None))
        );
        assert_eq!(stats[1], first);
    }

    #[test]
    fn tells_reasons() {
        use Reason::*;
        let (full, above) = (HostFull, LimitAbove(2));
        assert_eq!(
            reasons(Host::default(), &pod()),
            Ok(vec![
                full,
                full,
                OwnLimit,
                above,
                above,
                NothingAsked,
                AllWanted
            ])
        );
        assert_eq!(
            reasons(Host::default(), &[Row::ROOT]),
            Ok(vec![NothingAsked])
        );
    }

    #[test]
    fn guarantees() {
        let amounts = [20, 5, 5, 3, 2, 0, 1];
        for (group, amount) in (0..).zip(amounts) {
            assert_eq!(guarantee(Host::default(), &pod(), group), Ok(amount));
        }
    }

    #[test]
    fn finds_least_values() {
        let (host, rows) = (Host::default(), equal());
        assert_eq!(least_weight(host, &rows, 1, 0), Ok(Some(1)));
        assert_eq!(least_weight(host, &rows, 1, 14), Ok(Some(208)));
        assert_eq!(least_weight(host, &rows, 1, 21), Ok(None));
        assert_eq!(least_weight(host, &rows, 1, u64::MAX), Ok(None));
        assert_eq!(least_limit(host, &rows, 1, 0), Ok(Some(0)));
        assert_eq!(least_limit(host, &rows, 1, 10), Ok(Some(10)));
        assert_eq!(least_limit(host, &rows, 1, 11), Ok(None));
        assert_eq!(least_limit(host, &rows, 1, u64::MAX), Ok(None));
        assert_eq!(least_limit(host, &pod(), 2, 9), Ok(Some(9)));
        let wide = Host {
            processors: 64,
            ..host
        };
        for host in [host, wide] {
            assert_eq!(least_processors(host, &rows, 1, 10), Ok(Some(1)));
            assert_eq!(least_processors(host, &rows, 1, 14), Ok(Some(2)));
            assert_eq!(least_processors(host, &rows, 1, 21), Ok(None));
        }
    }

    #[test]
    fn tunes() {
        let (host, rows, may) = (Host::default(), equal(), [false, true, true]);
        let met = Ok(Tuning::Met(vec![100, 208, 100]));
        assert_eq!(tune(host, &rows, &[0, 14, 6], &may, false), met);
        assert_eq!(tune(host, &rows, &[0, 14, 6], &may, true), met);
        let same = Ok(Tuning::Met(vec![100; 3]));
        assert_eq!(tune(host, &rows, &[0; 3], &may, true), same);
        let unmet = Ok(Tuning::Unmet(0));
        assert_eq!(tune(host, &rows, &[0, 14, 7], &may, false), unmet);
        assert_eq!(tune(host, &rows, &[0, 14, 6], &[false; 3], true), unmet);
        let refused = Err(fault(50, None));
        assert_eq!(tune(host, &rows, &[0, 14], &may, false), refused);
        assert_eq!(tune(host, &rows, &[0, 14, 6], &may[1..], false), refused);
    }

    #[test]
    fn asks_as_read() {
        let read = |used, asked, is_hungry| Reading { used, asked, is_hungry, is_guess: false };
        let readings = [read(5, 9, true), read(5, 1_000_000, true), read(5, 5, false)];
        let (demands, hungry, unserved) = (vec![9, 5, 5], vec![false, true, false], vec![3, 0, 0]);
        assert_eq!(round(&[8, 4, 8], &readings), Ok(RoundAsks { demands, hungry, unserved }));
        assert_eq!(round(&[8, 4], &readings), Err(fault(50, None)));
        let (mut backs, mut turns) = ([3, 3], [4, 4]);
        assert_eq!(swings(&[200, 90], &[50, 100], &[200, 90], &mut backs, &mut turns), Ok(()));
        assert_eq!((backs, turns), ([4, 0], [5, 5]));
        assert_eq!(swings(&[200], &[50], &[], &mut backs, &mut turns), Err(fault(50, None)));
    }

    #[test]
    fn lets_go_and_leaves_a_rest() {
        let mut groups = Lately { backs: &[60, 60], turns: &[0, 0], moved: &[3, 5], left: &[7, 2], guessed: &[1, 9] };
        let judged = Judged { lost: 8, guessed: 9 };
        assert_eq!(let_go(&groups, judged), Ok((LetGo::Swings, vec![false, true])));
        groups.backs = &[59, 0];
        assert_eq!(let_go(&groups, judged), Ok((LetGo::Losses, vec![true, true])));
        assert_eq!(let_go(&groups, Judged { lost: 0, ..judged }), Ok((LetGo::Guesses, vec![false, true])));
        assert_eq!(let_go(&groups, Judged { lost: 0, guessed: 0 }), Ok((LetGo::Nothing, vec![false, false])));
        groups.turns = &[0];
        assert_eq!(let_go(&groups, judged), Err(fault(50, None)));
        assert_eq!(rest(200, 150, &[100, 300], &[50, 200]), Ok(Rest { amount: 400, guarantee: 400 }));
        assert_eq!(rest(200, 150, &[100], &[]), Err(fault(50, None)));
        assert_eq!(rest(1_000_000_001, 0, &[], &[]), Err(fault(9, None)));
    }

    #[test]
    fn settles() {
        let (host, rows) = (Host::default(), equal());
        let goal = |group, amount| OwnerGoal {
            group,
            amount,
            owner: group,
            top: group,
            first: 1,
            last: 10000,
        };
        let both = [goal(1, 14), goal(2, 6)];
        let asked = |goals: &[OwnerGoal], guaranteed| {
            settle(host, &rows, &[0, 6, 6], &[0; 3], &[0; 3], goals, guaranteed)
        };
        for guaranteed in [false, true] {
            assert_eq!(asked(&[], guaranteed), Ok(Settling::Settled(vec![])));
            // (slice 14 of row 1 costs 27/3, and slice 7 of row 2, whose number is 0, 13)
            assert_eq!(asked(&both[..1], guaranteed), Ok(Settling::Settled(vec![3])));
            // (slice 14 of row 1 costs 27/5, and slice 7 of row 2 13/2)
            assert_eq!(asked(&both, guaranteed), Ok(Settling::Settled(vec![5, 2])));
            assert_eq!(asked(&[goal(1, 14), goal(2, 7)], guaranteed), Ok(Settling::Unsettled));
            assert_eq!(asked(&[goal(1, 21)], guaranteed), Ok(Settling::Stuck(0)));
        }
        assert_eq!(asked(&[goal(3, 1)], false), Err(fault(20, None)));
    }

    #[test]
    fn leaves_halves() {
        let (host, rows) = (Host::default(), equal());
        assert_eq!(goals(host, &rows, &[0, 14, 0], false), Ok((vec![0, 14, 5], vec![14, 14, 0])));
        assert_eq!(goals(host, &rows, &[0, 14, 7], true), Ok((vec![0, 14, 7], vec![21, 14, 7])));
        assert_eq!(goals(host, &rows, &[0, 14], true), Err(fault(50, None)));
    }

    #[test]
    fn limits_others() {
        let (host, rows, may) = (Host::default(), equal(), [false; 3]);
        let goals = [0, 14, 0];
        let limited = Ok(Some(vec![None, None, Some(6)]));
        assert_eq!(limit_others(host, &rows, &goals, &may, &[None, None, Some(0)], false), limited);
        assert_eq!(limit_others(host, &rows, &goals, &may, &[Some(0); 3], true), limited);
        assert_eq!(limit_others(host, &rows, &goals, &may, &[Some(7); 3], true), Ok(None));
        let same = Ok(Some(vec![None; 3]));
        assert_eq!(limit_others(host, &rows, &goals, &[true; 3], &[Some(0); 3], true), same);
        let refused = Err(fault(50, None));
        assert_eq!(limit_others(host, &rows, &goals, &may, &[Some(0); 2], true), refused);
    }

    #[test]
    fn refuses_questions() {
        let (host, rows) = (Host::default(), equal());
        assert_eq!(least_limit(host, &rows, 0, 10), Err(fault(10, None)));
        for group in [3, u32::MAX] {
            let none = fault(20, None);
            assert_eq!(none.name(), "NotFound");
            assert_eq!(guarantee(host, &rows, group), Err(none));
            assert_eq!(least_weight(host, &rows, group, 1), Err(none));
            assert_eq!(least_limit(host, &rows, group, 1), Err(none));
            assert_eq!(least_processors(host, &rows, group, 1), Err(none));
        }
        let mut heavy = rows;
        heavy[2].weight = 10_001;
        let refused = fault(6, Some(2));
        assert_eq!(reasons(host, &heavy), Err(refused));
        assert_eq!(guarantee(host, &heavy, 3), Err(refused));
        assert_eq!(least_weight(host, &heavy, 3, 1), Err(refused));
        assert_eq!(least_limit(host, &heavy, 0, 1), Err(refused));
        assert_eq!(least_processors(host, &heavy, 3, 1), Err(refused));
    }

    #[test]
    fn finds_faults() {
        let (_, certificate) = certify(Host::default(), &two()).unwrap();
        let found = check(Host::default(), &two(), &[20, 8, 12], &certificate);
        assert_eq!(found, Err(fault(57, Some(1))));
        assert_eq!(found.unwrap_err().to_string(), "57 LastMarkAbove 1");
        assert_eq!(
            check(Host::default(), &two(), &[20], &certificate),
            Err(fault(50, Some(0)))
        );
        assert_eq!(
            check_text(b"bw 1 1 100000 5000 1\n- 100 max 0 0 0 -\n"),
            Ok(())
        );
        assert_eq!(
            check_text(b"bw 1 1 100000 5000 1\n- 100 max 0 1 0 -\n"),
            Err(fault(52, Some(0)))
        );
        assert_eq!(check_text(b""), Err(fault(42, None)));
    }

    #[test]
    fn reads_scripts() {
        let text = b"mkdir web\nwrite web cpu.max 50000\nmkdir web/x\ndemand web/x 20\nmkdir web\n";
        let read = script(Host::default(), text).unwrap();
        let names: Vec<&str> = read
            .groups
            .iter()
            .map(|group| group.name.as_str())
            .collect();
        assert_eq!(names, ["", "web", "x"]);
        assert_eq!(read.groups[1].row.limit, Some(10));
        assert_eq!(read.groups[1].quota, Some(50_000));
        assert_eq!(
            read.groups[2].row,
            Row {
                demand: 20,
                ..Row::under(1)
            }
        );
        assert_eq!(
            read.refused,
            [RefusedLine {
                line: 5,
                fault: fault(21, None)
            }]
        );
        let none = Host {
            processors: 0,
            ..Host::default()
        };
        assert_eq!(script(none, text), Err(fault(1, None)));
        assert_eq!(script(Host::default(), b"").unwrap().groups.len(), 1);
    }

    #[test]
    fn refuses() {
        assert_eq!(
            plan(
                Host {
                    processors: 0,
                    ..Host::default()
                },
                &two()
            ),
            Err(fault(1, None))
        );
        assert_eq!(plan(Host::default(), &[]), Err(fault(5, None)));
        assert_eq!(
            plan(Host::default(), &[Row::under(u32::MAX)]),
            Err(fault(5, Some(0)))
        );
        let heavy = Row {
            weight: 10_001,
            ..Row::under(0)
        };
        assert_eq!(
            certify(Host::default(), &[Row::ROOT, Row::under(0), heavy]).unwrap_err(),
            fault(6, Some(2))
        );
        assert_eq!(
            plan(
                Host::default(),
                &[Row {
                    limit: Some(u64::MAX),
                    ..Row::ROOT
                }]
            ),
            Err(fault(10, Some(0)))
        );
        assert_eq!(name(0), None);
        assert_eq!(name(71).as_deref(), Some("OutOfMemory"));
        assert_eq!(name(58).as_deref(), Some("NextMarkNotAbove"));
    }

    /// A quota of 10 slices of 20 and a burst of 5 for a group that wants 4 and then 20 slices.
    #[test]
    fn counts_periods() {
        let open = Settings { parent: None, weight: 100, quota_us: None, period_us: 100_000, burst_us: 0 };
        let web = Settings { parent: Some(0), quota_us: Some(50_000), burst_us: 25_000, ..open };
        let groups = [open, web, Settings { parent: Some(0), ..open }];
        let mut carries = [0; 3];
        let sums = periods(Host::default(), &groups, &[0, 4, 2, 0, 20, 2], 1, &mut carries).unwrap();
        assert_eq!(sums[1], Sums { amount: 4, want: 4, limit: Some(10), ..Sums::default() });
        let second = Sums {
            amount: 15,
            want: 20,
            limit: Some(15),
            nr_throttled: 1,
            throttled_usec: 25_000,
            nr_bursts: 1,
            burst_usec: 25_000,
            ..Sums::default()
        };
        assert_eq!((sums[4], sums[5].limit, sums.len()), (second, None, 6));
        assert_eq!(carries, [0, 0, 0]);
        let host = Host::default();
        assert_eq!(periods(host, &groups, &[0; 4], 1, &mut carries), Err(fault(50, None)));
        assert_eq!(periods(host, &groups, &[0; 3], 1, &mut [0; 2]), Err(fault(50, None)));
        let small = [open, Settings { quota_us: Some(999), ..web }];
        assert_eq!(periods(host, &small, &[0; 2], 1, &mut [0; 2]), Err(fault(13, None)));
    }

    #[test]
    fn converts() {
        let host = Host::default();
        assert_eq!(slices(host, 12_000, 100_000), Ok(2));
        assert_eq!(slices(host, 4999, 100_000), Ok(0));
        assert_eq!(slices(host, 1_000_000_000_000_001, 0), Err(fault(14, None)));
        assert_eq!(slices(host, 0, 999), Err(fault(15, None)));
        assert_eq!(period_limit(host, Some(50_000), 100_000, 25_000, 6), Ok(Some(15)));
        assert_eq!(period_limit(host, None, 100_000, 25_000, 6), Ok(None));
        assert_eq!(period_limit(host, Some(999), 0, 0, 0), Err(fault(13, None)));
        assert_eq!(demand(host, 51, 1000), Ok(2));
        assert_eq!(demand(host, 1, 3), Ok(7));
        assert_eq!(demand(host, 1, 0), Err(fault(11, None)));
        assert_eq!(demand(host, 50_000_001, 1000), Err(fault(9, None)));
        let many = Host { processors: 65, ..host };
        let planned = Host { processors: 52, period_us: 25_000, slice_us: 1000 };
        assert_eq!((planned_host(host), planned_host(many)), (Ok(host), Ok(planned)));
        let prime = Host { processors: 67, period_us: 5000, slice_us: 5000 };
        assert_eq!(planned_host(prime).map(|planned| planned.processors), Ok(1));
        assert_eq!(planned_host(Host { processors: 1009, ..prime }), Err(fault(1, None)));
        assert_eq!(weight_of_shares(1024, Conversion::Linear), 39);
        assert_eq!(weight_of_shares(1024, Conversion::Logarithmic), 100);
        assert_eq!(owned_weight(3, 1000), Ok(Some(39)));
        assert_eq!(least_owned(4, 100), Ok(Some(989)));
        assert_eq!(owned_limit(1, 1500, 0), Ok((Some(150000), 100000)));
        assert_eq!(owned_limit(1, 0, 0), Ok((None, 100000)));
        assert_eq!(owned_limit(5, 1, 0), Err(fault(11, None)));
        assert_eq!(pod_amount(&[1, 2, 0], &[500, 100, 200]), Ok(500));
        assert_eq!(greatest_part(&[1, 2, 0], &[500, 100, 200], 2, 500), Ok(Some(400)));
        assert_eq!(greatest_part(&[1, 2, 0], &[500, 100, 200], 2, 499), Ok(None));
        assert_eq!(owned_number(6, 1001), Ok(101));
        assert_eq!(allowed(50000, 100000, 7, 3001), Ok(8500));
        assert_eq!(lost(90, 100, 84, 100), Ok(1));
        let (free, planned, used, few, sure) = ([90; 70], [100; 70], [84; 60], [84; 59], [40; 60]);
        let found = Ok(Judged { lost: 60, guessed: 240 });
        assert_eq!(judged([&free, &planned], [&used, &planned[10..], &sure, &[44; 60]]), found);
        assert_eq!(judged([&free, &planned], [&few, &planned[11..], &few, &few]), Ok(Judged { lost: 0, guessed: 0 }));
        assert_eq!(judged([&free, &used], [&used, &used, &used, &used]), Err(fault(50, None)));
        assert_eq!(version(), env!("CARGO_PKG_VERSION"));
    }
}
