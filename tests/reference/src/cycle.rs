//! Document 01, "Cycles" and "Checking a cycle"; document 02, Req 06: "The check of cycles uses both" ranges.

use crate::schedule::{least_and_most, Schedule, LAID_OUT};
use crate::{Refusal, Spec};

#[repr(C)]
#[derive(Clone, Copy, Debug, PartialEq, Eq)]
pub struct Pair {
    pub gap: u16,
    pub size: u16,
}

/// "That of a cycle of c pairs gives report i the size of pair i mod c, counted from 0, and that pair's gap to report i + 1."
pub struct Cycle<'a>(pub &'a [Pair]);

impl Schedule for Cycle<'_> {
    fn gap(&self, i: u64) -> u64 {
        self.0[i as usize % self.0.len()].gap.into()
    }

    fn size(&self, i: u64) -> u64 {
        self.0[i as usize % self.0.len()].size.into()
    }

    fn reports_in_round(&self) -> u64 {
        self.0.len() as u64
    }
}

pub fn check(spec: &Spec, pairs: &[Pair]) -> Refusal {
    check_laid_out(spec, pairs, LAID_OUT)
}

/// Up to `laid_out` minutes every start is tried, beyond that every report.
pub fn check_laid_out(spec: &Spec, pairs: &[Pair], laid_out: u64) -> Refusal {
    numbered(spec, pairs, |gap| spec.allows_gap(gap), |n| least_and_most(&Cycle(pairs), n, laid_out))
}

/// "12 count 0 or above 512; 13 some gap out of range; 14 some size; 15 some R minutes too full; 16 some P minutes too thin", by
/// whether a gap is allowed, and by the least and the most that stretches of so many minutes hold.
pub fn numbered(
    spec: &Spec,
    pairs: &[Pair],
    gap_allowed: impl Fn(u64) -> bool,
    least_and_most: impl Fn(u64) -> (u64, u64),
) -> Refusal {
    if pairs.is_empty() || pairs.len() > 512 {
        return 12;
    }
    if pairs.iter().any(|p| !gap_allowed(p.gap.into())) {
        return 13;
    }
    if pairs.iter().any(|p| u64::from(p.size) < spec.size.0 || u64::from(p.size) > spec.size.1) {
        return 14;
    }
    if spec.supply.is_some_and(|(b, r)| least_and_most(r).1 > b) {
        return 15;
    }
    if spec.demand.is_some_and(|(l, p)| least_and_most(p).0 < l) {
        return 16;
    }
    0
}
