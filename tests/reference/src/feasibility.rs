//! Document 01: minimum demand, maximum supply, consistency, the test; document 02, Req 06: none of them takes a second range of gaps;
//! Req 07: condition 4 counts from a report on, and the test always finds some k.

use crate::schedule::{least_and_most, Schedule};
use crate::{Kind, Plan, Refusal, Spec};
use std::cmp::Reverse;

/// "25 when consistency, a k-report schedule or the test is given a specification with a second range, next after 24"
fn one_range(spec: &Spec) -> Result<(), Refusal> {
    if spec.second.is_some() {
        Err(25)
    } else {
        Ok(())
    }
}

/// Why a specification is not consistent, or why the test passes no plan. The inconsistent case carries the condition that failed
/// first.
#[derive(Clone, Copy, Debug, PartialEq, Eq)]
pub enum Failure {
    Inconsistent(u32),
    Refused(Refusal),
}

pub fn consistency(spec: &Spec) -> Result<(), Failure> {
    one_range(spec).map_err(Failure::Refused)?;
    match failing_condition(spec) {
        Some(condition) => Err(Failure::Inconsistent(condition)),
        None => Ok(()),
    }
}

/// The first condition that fails. "A part that names an absent value is not applied."
fn failing_condition(spec: &Spec) -> Option<u32> {
    let (dmin, dmax) = spec.size;
    let (smin, smax) = spec.gap;
    let b = spec.supply.map(|(b, _)| b);
    let r = spec.supply.map(|(_, r)| r);
    let l = spec.demand.map(|(l, _)| l);
    let p = spec.demand.map(|(_, p)| p);
    let tmin = spec.duration.map(|(tmin, _)| tmin);
    // Each part as Some(holds), or None where a value is absent.
    let conditions: [(u32, Vec<Option<bool>>); 4] = [
        (3, vec![b.map(|b| dmax <= b), p.map(|p| smax <= p), p.and_then(|p| tmin.map(|tmin| p <= tmin))]),
        (4, vec![b.and_then(|b| r.map(|r| dmin * r.div_ceil(smax) <= b))]),
        (5, vec![l.and_then(|l| p.map(|p| l.div_ceil(dmax) <= p / smin))]),
        (6, vec![spec.supply.and_then(|(b, r)| spec.demand.map(|(l, p)| b * p >= l * r))]),
    ];
    conditions.iter().find(|(_, parts)| parts.contains(&Some(false))).map(|(number, _)| *number)
}

/// "It exists when k × smin ≤ P and k × dmax ≥ L." With its required supply: "what minutes 0 to R − 1 hold".
pub fn min_demand(spec: &Spec, k: u64) -> Result<(Plan, u64), Refusal> {
    one_range(spec)?;
    let (Some((_, r)), Some((l, p))) = (spec.supply, spec.demand) else { return Err(5) };
    if !(k * spec.gap.0 <= p && k * spec.size.1 >= l) {
        return Err(6);
    }
    let period = (k * spec.gap.1).min(p);
    let total = (k * spec.size.0).max(l);
    let plan = Plan { kind: Kind::WellFormed, k, period, total };
    Ok((plan, held_before(&plan, r)))
}

/// What the minutes 0 to `end` − 1 hold, report by report.
fn held_before(schedule: &impl Schedule, end: u64) -> u64 {
    let (mut i, mut minute, mut held) = (0, 0, 0);
    while minute < end {
        held += schedule.size(i);
        minute += schedule.gap(i);
        i += 1;
    }
    held
}

/// "It exists when k × smax ≥ R and k × dmin ≤ B." With its available supply: "the least that any stretch of P minutes holds".
/// Up to `laid_out` minutes every start is tried, beyond that every report.
pub fn max_supply(spec: &Spec, k: u64, laid_out: u64) -> Result<(Plan, u64), Refusal> {
    one_range(spec)?;
    let (Some((b, r)), Some((_, p))) = (spec.supply, spec.demand) else { return Err(5) };
    if !(k * spec.gap.1 >= r && k * spec.size.0 <= b) {
        return Err(6);
    }
    let period = (k * spec.gap.0).max(r);
    let total = (k * spec.size.1).min(b);
    let plan = Plan { kind: Kind::WellFormed, k, period, total };
    Ok((plan, least_and_most(&plan, p, laid_out).0))
}

/// The test. Every k is tried that the inequalities leave: a k above 20,160 has k × smin > P and k × dmin > B. That some k has a schedule
/// is what document 02, Req 07, says of every consistent specification: where none had one, this would stop.
pub fn test(spec: &Spec, laid_out: u64) -> Result<(Plan, u64), Failure> {
    one_range(spec).map_err(Failure::Refused)?;
    let (Some((b, r)), Some((l, p))) = (spec.supply, spec.demand) else { return Err(Failure::Refused(5)) };
    consistency(spec)?;
    let every_k = 0..=20_161;
    // `min_by_key` takes the first of equals, so the smaller k.
    let taken = if r >= p {
        every_k.filter_map(|k| min_demand(spec, k).ok()).min_by_key(|&(_, required)| required)
    } else {
        every_k.filter_map(|k| max_supply(spec, k, laid_out).ok()).min_by_key(|&(_, available)| Reverse(available))
    };
    let (plan, supply) = taken.expect("a k with a schedule");
    let passes = if r >= p { supply <= b } else { supply >= l };
    if passes {
        Ok((plan, supply))
    } else {
        Err(Failure::Refused(9))
    }
}
