//! Document 02, Req 05: from a minute back to the report, and what lies between two minutes. The reports are walked one by one from
//! report 0 on, and the answer is picked from those that the walk passes.
//!
//! Before a far minute there are too many of them. The second way, of the same names without `_by_walk`, begins its walk with the
//! period that the minute lies in: each whole period before it has k reports, and the minutes and the records of one period, added up
//! report by report.

use crate::schedule::Schedule;
use crate::{Plan, Refusal};

impl Plan {
    /// The reports from this one on, by number and minute: the next is at the minute after the gap.
    fn walk(&self, number: u64, minute: u64) -> impl Iterator<Item = (u64, u64)> + '_ {
        let mut next = minute;
        (number..).map(move |i| {
            let minute = next;
            next += self.gap(i);
            (i, minute)
        })
    }

    /// "the number of the last report at or before it"
    pub fn last_report_by_walk(&self, minute: u64) -> Result<u64, Refusal> {
        if !self.proper() {
            return Err(11);
        }
        Ok(last_of(self.walk(0, 0), minute))
    }

    /// "the nearest report, the earlier of two equally near". No report past twice the minute is as near as report 0.
    pub fn nearest_report_by_walk(&self, minute: u64) -> Result<u64, Refusal> {
        if !self.proper() {
            return Err(11);
        }
        Ok(nearest_of(self.walk(0, 0).take_while(|&(_, at)| at <= 2 * minute), minute))
    }

    /// "how many reports, and how many records, lie from minute a up to but not including b"
    pub fn between_by_walk(&self, a: u64, b: u64) -> Result<(u64, u64), Refusal> {
        if !self.proper() {
            return Err(11);
        }
        if b < a {
            return Err(23);
        }
        let before_b = self.walk(0, 0).take_while(|&(_, at)| at < b);
        Ok(self.count(before_b.filter(|&(_, at)| a <= at)))
    }

    /// How many reports these are, and their records.
    fn count(&self, reports: impl Iterator<Item = (u64, u64)>) -> (u64, u64) {
        reports.fold((0, 0), |(count, records), (i, _)| (count + 1, records + self.size(i)))
    }

    /// Number and minute of the first report of the period that this minute lies in.
    fn period_of(&self, minute: u64) -> (u64, u64) {
        let round = self.minutes_in_round();
        (minute / round * self.k, minute / round * round)
    }

    pub fn last_report(&self, minute: u64) -> Result<u64, Refusal> {
        if !self.proper() {
            return Err(11);
        }
        let (first, start) = self.period_of(minute);
        Ok(last_of(self.walk(first, start), minute))
    }

    /// Of the reports of the minute's period, and the first after it. All others lie beyond the first or the last of these.
    pub fn nearest_report(&self, minute: u64) -> Result<u64, Refusal> {
        if !self.proper() {
            return Err(11);
        }
        let (first, start) = self.period_of(minute);
        Ok(nearest_of(self.walk(first, start).take(self.k as usize + 1), minute))
    }

    /// What lies before b, less what lies before a.
    pub fn between(&self, a: u64, b: u64) -> Result<(u64, u64), Refusal> {
        if !self.proper() {
            return Err(11);
        }
        if b < a {
            return Err(23);
        }
        let ((reports, records), (reports_before, records_before)) = (self.before(b), self.before(a));
        Ok((reports - reports_before, records - records_before))
    }

    /// The reports before a minute, and their records.
    fn before(&self, minute: u64) -> (u64, u64) {
        let (first, start) = self.period_of(minute);
        let (_, records_in_round) = self.count(self.walk(0, 0).take(self.k as usize));
        let (reports, records) = self.count(self.walk(first, start).take_while(|&(_, at)| at < minute));
        (first + reports, first / self.k * records_in_round + records)
    }
}

/// The last of these reports, by number and minute, that is at or before a minute. The first of them is.
fn last_of(reports: impl Iterator<Item = (u64, u64)>, minute: u64) -> u64 {
    reports.take_while(|&(_, at)| at <= minute).last().expect("a report at or before the minute").0
}

/// The nearest of these reports; of several, the first.
fn nearest_of(reports: impl Iterator<Item = (u64, u64)>, minute: u64) -> u64 {
    reports.min_by_key(|&(_, at)| at.abs_diff(minute)).expect("a report").0
}
