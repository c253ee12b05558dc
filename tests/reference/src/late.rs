//! Document 02, Req 09: "A cycle is passed for lateness J exactly when the four rules hold however each report is delayed, by any
//! number of minutes from 0 to J of its own." Every choice of delays is tried.
//!
//! Where there are too many, the second way, of the same names without `_by_choices`, goes by what follows from each report having a
//! delay of its own: some choice puts into a stretch all the reports that can lie in it, and some choice keeps out all those that can
//! lie elsewhere. Every delay of each report is tried for that.

use crate::cycle::{numbered, Cycle};
use crate::schedule::Schedule;
use crate::{Pair, Refusal, Spec};
use std::ops::Range;

/// The number for a lateness, by the judgement of a gap and the least and the most of a stretch. "26 when J is above 1,440, after 24".
fn check_with<'a>(
    spec: &Spec,
    late: &Late<'a>,
    gap_allowed: impl Fn(&Late<'a>, &Spec, u64) -> bool,
    least_and_most: impl Fn(&Late<'a>, u64) -> (u64, u64),
) -> Refusal {
    if late.lateness > 1_440 {
        return 26;
    }
    numbered(spec, late.cycle.0, |gap| gap_allowed(late, spec, gap), |n| least_and_most(late, n))
}

pub fn check_by_choices(spec: &Spec, pairs: &[Pair], lateness: u64) -> Refusal {
    check_with(spec, &Late::new(pairs, lateness), Late::gap_allowed_by_choices, Late::least_and_most_by_choices)
}

pub fn check(spec: &Spec, pairs: &[Pair], lateness: u64) -> Refusal {
    check_with(spec, &Late::new(pairs, lateness), Late::gap_allowed, Late::least_and_most)
}

/// The minute that a report is planned for, and its size.
type Report = (u64, u64);

/// A cycle's endless repetition, whose reports arrive up to `lateness` minutes after the minutes that they are planned for.
pub struct Late<'a> {
    cycle: Cycle<'a>,
    lateness: u64,
}

impl<'a> Late<'a> {
    pub fn new(pairs: &'a [Pair], lateness: u64) -> Late<'a> {
        Late { cycle: Cycle(pairs), lateness }
    }

    /// Whether a gap is allowed with every delay of the two reports that it lies between. Where the second arrives with the first or
    /// before it, that is a gap of 0, "below every range".
    fn gap_allowed_by_choices(&self, spec: &Spec, gap: u64) -> bool {
        let delays = 0..=self.lateness;
        let allowed = |first: u64, second: u64| spec.allows_gap((gap + second).saturating_sub(first));
        delays.clone().all(|first| delays.clone().all(|second| allowed(first, second)))
    }

    /// "So every gap from J less to J more than the planned one must be allowed."
    fn gap_allowed(&self, spec: &Spec, gap: u64) -> bool {
        (gap.saturating_sub(self.lateness)..=gap + self.lateness).all(|gap| spec.allows_gap(gap))
    }

    /// The reports that are planned for the minutes 0 to `end` − 1. No gap is 0.
    fn planned_before(&self, end: u64) -> Vec<Report> {
        let (mut i, mut minute, mut reports) = (0, 0, vec![]);
        while minute < end {
            reports.push((minute, self.cycle.size(i)));
            minute += self.cycle.gap(i);
            i += 1;
        }
        reports
    }

    /// Those of the reports that some delay could take into the stretch: planned before its end, and no more than J before it.
    fn near<'r>(&self, reports: &'r [Report], stretch: &Range<u64>) -> &'r [Report] {
        let first = reports.partition_point(|(minute, _)| minute + self.lateness < stretch.start);
        let end = reports.partition_point(|(minute, _)| *minute < stretch.end);
        &reports[first..end]
    }

    /// The least and the most that any stretch of `n` minutes holds, by any choice of delays.
    ///
    /// Every start below J is tried, and a round of starts from J on. That is enough: what can lie in a stretch from minute a on is planned
    /// for a − J at the earliest, and where that is minute 0 or later, the plan is the same a round later.
    pub fn least_and_most_by_choices(&self, n: u64) -> (u64, u64) {
        let starts = self.lateness + self.cycle.minutes_in_round();
        let reports = self.planned_before(starts + n);
        let (mut least, mut most) = (u64::MAX, 0);
        for stretch in (0..starts).map(|a| a..a + n) {
            self.each_choice(self.near(&reports, &stretch), &stretch, 0, &mut |held| {
                least = least.min(held);
                most = most.max(held);
            });
        }
        (least, most)
    }

    /// What a stretch holds by each choice of delays of these reports, beside the records that it holds already.
    fn each_choice(&self, reports: &[Report], stretch: &Range<u64>, held: u64, tell: &mut impl FnMut(u64)) {
        let Some((&(minute, size), others)) = reports.split_first() else { return tell(held) };
        for delay in 0..=self.lateness {
            let more = if stretch.contains(&(minute + delay)) { size } else { 0 };
            self.each_choice(others, stretch, held + more, tell);
        }
    }

    /// The same with the delays of each report alone, and with fewer starts.
    ///
    /// From one start to the next a stretch can only lose a report that it leaves behind: at the report's planned minute, where the
    /// report can from then on lie before the stretch, or at its latest, where it must. So the fullest stretches start at such a
    /// minute, and the thinnest at the next, or at minute 0. Those of a round are tried.
    pub fn least_and_most(&self, n: u64) -> (u64, u64) {
        let round = self.cycle.minutes_in_round();
        let reports = self.planned_before(round + self.lateness + n + 1);
        let (mut least, mut most) = (u64::MAX, 0);
        for (minute, _) in self.planned_before(round) {
            let latest = minute + self.lateness;
            for a in [minute, minute + 1, latest, latest + 1] {
                let (surely, possibly) = self.held(&reports, a..a + n);
                least = least.min(surely);
                most = most.max(possibly);
            }
        }
        (least, most)
    }

    /// The records of the reports that every delay puts into the stretch, and of those that some delay does.
    fn held(&self, reports: &[Report], stretch: Range<u64>) -> (u64, u64) {
        let (mut surely, mut possibly) = (0, 0);
        for &(minute, size) in self.near(reports, &stretch) {
            let mut arrivals = minute..=minute + self.lateness;
            surely += if arrivals.clone().all(|minute| stretch.contains(&minute)) { size } else { 0 };
            possibly += if arrivals.any(|minute| stretch.contains(&minute)) { size } else { 0 };
        }
        (surely, possibly)
    }
}
