//! Rows, certificates and other answers by column, as C has them.
use crate::raw::{
    self, Claim, Columns, SettingColumns, StatColumns, SumColumns, Told, NO_LIMIT, NO_PARENT,
};
use crate::{Certificate, Fault, Group, Host, Level, Reason, RefusedLine, Row, Script, Settings, Stat, Sums};
use std::collections::hash_map::RandomState;
use std::hash::{BuildHasher, Hasher};

const MOST_GROUPS: usize = 16_384;

/// The number of a limit or quota. The greatest stands for none, and one less bounds no amount either.
pub(crate) fn number_of(limit: Option<u64>) -> u64 {
    limit.map_or(NO_LIMIT, |limit| limit.min(NO_LIMIT - 1))
}

/// The number of a parent. The greatest stands for none, and one less is no row's parent.
fn parent_number(parent: Option<u32>) -> u32 {
    parent.map_or(NO_PARENT, |parent| parent.min(NO_PARENT - 1))
}

impl Columns {
    pub(crate) fn of(rows: &[Row]) -> Columns {
        Columns {
            parents: rows.iter().map(|row| parent_number(row.parent)).collect(),
            weights: rows.iter().map(|row| row.weight).collect(),
            limits: rows
                .iter()
                .map(|row| number_of(row.limit))
                .collect(),
            demands: rows.iter().map(|row| row.demand).collect(),
        }
    }
}

impl StatColumns {
    pub(crate) fn of(stats: &[Stat]) -> StatColumns {
        StatColumns {
            usage_usec: stats.iter().map(|stat| stat.usage_usec).collect(),
            nr_periods: stats.iter().map(|stat| stat.nr_periods).collect(),
            nr_throttled: stats.iter().map(|stat| stat.nr_throttled).collect(),
            throttled_usec: stats.iter().map(|stat| stat.throttled_usec).collect(),
            nr_bursts: stats.iter().map(|stat| stat.nr_bursts).collect(),
            burst_usec: stats.iter().map(|stat| stat.burst_usec).collect(),
        }
    }

    pub(crate) fn stat(&self, row: usize) -> Stat {
        Stat {
            usage_usec: self.usage_usec[row],
            nr_periods: self.nr_periods[row],
            nr_throttled: self.nr_throttled[row],
            throttled_usec: self.throttled_usec[row],
            nr_bursts: self.nr_bursts[row],
            burst_usec: self.burst_usec[row],
        }
    }
}

impl SettingColumns {
    pub(crate) fn of(groups: &[Settings]) -> SettingColumns {
        SettingColumns {
            parents: groups.iter().map(|group| parent_number(group.parent)).collect(),
            weights: groups.iter().map(|group| group.weight).collect(),
            quotas: groups.iter().map(|group| number_of(group.quota_us)).collect(),
            periods: groups.iter().map(|group| group.period_us).collect(),
            bursts: groups.iter().map(|group| group.burst_us).collect(),
        }
    }
}

impl SumColumns {
    pub(crate) fn sums(&self, at: usize) -> Sums {
        Sums {
            amount: self.amounts[at],
            want: self.wants[at],
            limit: Some(self.limits[at]).filter(|limit| *limit != NO_LIMIT),
            nr_throttled: self.nr_throttled[at],
            throttled_usec: self.throttled_usec[at],
            nr_bursts: self.nr_bursts[at],
            burst_usec: self.burst_usec[at],
            nr_short: self.nr_short[at],
            nr_starved: self.nr_starved[at],
        }
    }
}

impl Claim {
    pub(crate) fn of(certificate: &Certificate) -> Claim {
        let levels = &certificate.levels;
        Claim {
            flags: certificate
                .flags
                .iter()
                .map(|flag| u8::from(*flag))
                .collect(),
            nums: levels
                .iter()
                .map(|level| level.map_or(0, |level| level.num))
                .collect(),
            dens: levels
                .iter()
                .map(|level| level.map_or(0, |level| level.den))
                .collect(),
            places: levels
                .iter()
                .map(|level| level.map_or(0, |level| level.place))
                .collect(),
        }
    }

    pub(crate) fn certificate(&self) -> Certificate {
        let level = |g: usize| Level {
            num: self.nums[g],
            den: self.dens[g],
            place: self.places[g],
        };
        Certificate {
            flags: self.flags.iter().map(|flag| *flag != 0).collect(),
            levels: (0..self.nums.len())
                .map(|g| (self.nums[g] > 0 && self.dens[g] > 0).then(|| level(g)))
                .collect(),
        }
    }
}

impl Told {
    /// Room for whatever a text of so many lines leads to.
    pub(crate) fn room(text: &[u8]) -> Told {
        let lines = text.iter().filter(|byte| **byte == b'\n').count() + 1;
        let groups = MOST_GROUPS.min(lines + 1);
        Told {
            parents: vec![0; groups],
            weights: vec![0; groups],
            limits: vec![0; groups],
            demands: vec![0; groups],
            quotas: vec![0; groups],
            periods: vec![0; groups],
            bursts: vec![0; groups],
            carries: vec![0; groups],
            names: vec![0; text.len() + 1],
            refused_lines: vec![0; lines],
            refused_faults: vec![0; lines],
            count: 0,
            names_count: 0,
            refused_count: 0,
        }
    }

    pub(crate) fn read(&mut self, host: Host, text: &[u8]) -> u32 {
        // Random keys of the standard library, by which whoever wrote the text cannot choose names.
        let hash_key = RandomState::new().build_hasher().finish();
        raw::script(host, hash_key, text, self)
    }

    fn group(&self, g: usize, name: &[u8]) -> Group {
        let some = |number: u64| Some(number).filter(|number| *number != NO_LIMIT);
        Group {
            name: String::from_utf8_lossy(name).into_owned(),
            row: Row {
                parent: Some(self.parents[g]).filter(|parent| *parent != NO_PARENT),
                weight: self.weights[g],
                limit: some(self.limits[g]),
                demand: self.demands[g],
            },
            quota: some(self.quotas[g]),
            period: self.periods[g],
            burst: self.bursts[g],
            carry: self.carries[g],
        }
    }

    pub(crate) fn script(&self) -> Script {
        let names = self.names[..self.names_count as usize].split(|byte| *byte == b'\n');
        let refused = (0..self.refused_count as usize).map(|i| RefusedLine {
            line: self.refused_lines[i],
            fault: Fault {
                number: self.refused_faults[i],
                row: None,
            },
        });
        Script {
            groups: (0..self.count as usize)
                .zip(names)
                .map(|(g, name)| self.group(g, name))
                .collect(),
            refused: refused.collect(),
        }
    }
}

/// A reason by its number in `arbiter.h`, with the row that it blames.
pub(crate) fn reason(number: u8, blamed: u32) -> Reason {
    match number {
        0 => Reason::NothingAsked,
        1 => Reason::AllWanted,
        2 => Reason::OwnLimit,
        3 => Reason::LimitAbove(blamed),
        4 => Reason::HostFull,
        _ => unreachable!("arbiter.h has no reason {number}"),
    }
}
