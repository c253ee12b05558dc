//! Document 02, Req 03: the plain machine of the meter, "a list of accepted reports, empty at the start". It keeps every report that
//! it has accepted, and every sum runs over all of them.

use crate::{Refusal, Spec};

/// A report, or the offer of one.
#[derive(Clone, Copy, Debug, PartialEq, Eq)]
pub struct Report {
    pub minute: u64,
    pub size: u64,
}

#[derive(Clone)]
pub struct Machine<'a> {
    pub spec: &'a Spec,
    pub accepted: Vec<Report>,
}

impl Machine<'_> {
    pub fn new(spec: &Spec) -> Machine<'_> {
        Machine { spec, accepted: vec![] }
    }

    /// The number that an offer gets, and the budget left after it, where there is a supply rate.
    pub fn offer(&mut self, offered: Report) -> (Refusal, Option<u64>) {
        let number = self.number(offered);
        if number == 0 {
            self.accepted.push(offered);
        }
        (number, self.left(offered.minute))
    }

    fn number(&self, offered: Report) -> Refusal {
        let (dmin, dmax) = self.spec.size;
        // Req 06: "The meter keeps the first range's smin."
        let smin = self.spec.gap.0;
        if self.accepted.last().is_some_and(|last| offered.minute < last.minute + smin) {
            return 13;
        }
        if offered.size < dmin || offered.size > dmax {
            return 14;
        }
        let Some((b, r)) = self.spec.supply else { return 0 };
        if self.records_ending_with(offered.minute, r) + offered.size > b {
            return 15;
        }
        if self.ending_with(offered.minute, r).count() >= 1_024 {
            return 22;
        }
        0
    }

    /// "B less the accepted records of the R minutes that end with the later of the offered and the last accepted minute (the
    /// offered one while nothing has been accepted)".
    pub fn left(&self, offered: u64) -> Option<u64> {
        let (b, r) = self.spec.supply?;
        let end = self.accepted.last().map_or(offered, |last| offered.max(last.minute));
        Some(b - self.records_ending_with(end, r))
    }

    /// The accepted reports of the `r` minutes that end with minute `end`: those above `end` − `r`, from 0 on where `end` is less.
    fn ending_with(&self, end: u64, r: u64) -> impl Iterator<Item = &Report> {
        self.accepted.iter().filter(move |report| report.minute + r > end && report.minute <= end)
    }

    fn records_ending_with(&self, end: u64, r: u64) -> u64 {
        self.ending_with(end, r).map(|report| report.size).sum()
    }
}

/// What minutes `a` to `a` + `n` − 1 hold of these reports.
pub fn stretch(reports: &[Report], a: u64, n: u64) -> u64 {
    reports.iter().filter(|report| (a..a + n).contains(&report.minute)).map(|report| report.size).sum()
}

/// The most that any `n` minutes hold of these reports. A stretch holds no more than the one that starts at its first report.
pub fn fullest(reports: &[Report], n: u64) -> u64 {
    reports.iter().map(|first| stretch(reports, first.minute, n)).max().unwrap_or(0)
}
