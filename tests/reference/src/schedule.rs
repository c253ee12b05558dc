//! Document 01: "A schedule is endless. Report 0 is at minute 0. A stretch of n minutes from a (a at least 0) is minutes a to
//! a + n − 1. It holds, summed, the sizes of the reports at those minutes."

use crate::Spec;

/// An endless schedule that repeats after `reports_in_round` reports. No gap is 0.
pub trait Schedule {
    fn gap(&self, i: u64) -> u64;
    fn size(&self, i: u64) -> u64;
    fn reports_in_round(&self) -> u64;

    fn minutes_in_round(&self) -> u64 {
        (0..self.reports_in_round()).map(|i| self.gap(i)).sum()
    }
}

/// The most minutes that are laid out one by one. Longer rounds are looked at report by report.
pub const LAID_OUT: u64 = 200_000;

/// Stretches looked up by minute.
pub struct Minutes {
    /// The records at the minutes below each minute.
    below: Vec<u64>,
}

impl Minutes {
    /// Lays out the minutes 0 to `end` − 1.
    pub fn lay_out(schedule: &impl Schedule, end: u64) -> Minutes {
        let mut held = vec![0u64; end as usize];
        let (mut i, mut minute) = (0, 0);
        while minute < end {
            held[minute as usize] += schedule.size(i);
            minute += schedule.gap(i);
            i += 1;
        }
        let mut below = vec![0u64];
        for records in held {
            below.push(below[below.len() - 1] + records);
        }
        Minutes { below }
    }

    pub fn stretch(&self, a: u64, n: u64) -> u64 {
        self.below[(a + n) as usize] - self.below[a as usize]
    }
}

/// Stretches looked up by report, for rounds with many minutes and few reports.
pub struct Reports {
    minute: Vec<u64>,
    /// The records of the reports before each report.
    below: Vec<u64>,
}

impl Reports {
    /// Lays out the reports at the minutes 0 to `end` − 1.
    pub fn lay_out(schedule: &impl Schedule, end: u64) -> Reports {
        let mut reports = Reports { minute: vec![], below: vec![0] };
        let (mut i, mut minute) = (0, 0);
        while minute < end {
            reports.minute.push(minute);
            reports.below.push(reports.below[i as usize] + schedule.size(i));
            minute += schedule.gap(i);
            i += 1;
        }
        reports
    }

    pub fn stretch(&self, a: u64, n: u64) -> u64 {
        let reports_before = |minute: u64| self.minute.partition_point(|&m| m < minute);
        self.below[reports_before(a + n)] - self.below[reports_before(a)]
    }

    /// The starts at which a stretch can gain or lose a report: at a report, just after one, and minute 0.
    fn starts(&self, round: u64) -> impl Iterator<Item = u64> + '_ {
        self.minute.iter().take_while(move |&&m| m < round).flat_map(|&m| [m, m + 1])
    }
}

/// The least and the most that any stretch of `n` minutes holds: every starting minute of a round is tried.
pub fn least_and_most_by_minute(schedule: &impl Schedule, n: u64) -> (u64, u64) {
    let round = schedule.minutes_in_round();
    let minutes = Minutes::lay_out(schedule, round + n);
    let (mut least, mut most) = (u64::MAX, 0);
    for a in 0..round {
        let held = minutes.stretch(a, n);
        least = least.min(held);
        most = most.max(held);
    }
    (least, most)
}

/// The same with fewer starts.
pub fn least_and_most_by_report(schedule: &impl Schedule, n: u64) -> (u64, u64) {
    let round = schedule.minutes_in_round();
    let reports = Reports::lay_out(schedule, round + n + 1);
    let (mut least, mut most) = (u64::MAX, 0);
    for a in reports.starts(round) {
        let held = reports.stretch(a, n);
        least = least.min(held);
        most = most.max(held);
    }
    (least, most)
}

/// By minute where that is at most `laid_out` minutes, else by report.
pub fn least_and_most(schedule: &impl Schedule, n: u64, laid_out: u64) -> (u64, u64) {
    if schedule.minutes_in_round() + n <= laid_out {
        least_and_most_by_minute(schedule, n)
    } else {
        least_and_most_by_report(schedule, n)
    }
}

/// The four rules.
pub fn obeys(spec: &Spec, schedule: &impl Schedule) -> bool {
    let round = 0..schedule.reports_in_round();
    round.clone().all(|i| spec.size.0 <= schedule.size(i) && schedule.size(i) <= spec.size.1)
        && round.clone().all(|i| spec.allows_gap(schedule.gap(i)))
        && spec.supply.map_or(true, |(b, r)| least_and_most(schedule, r, LAID_OUT).1 <= b)
        && spec.demand.map_or(true, |(l, p)| least_and_most(schedule, p, LAID_OUT).0 >= l)
}
