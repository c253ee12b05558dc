//! How much leeway a cycle has: the most and the least that stretches of it hold, and how late its reports may be; and the plan with one gap
//! whose reports may be latest. Every start of a few rounds is tried, every lateness, and for each of them the box plan.
//!
//! Where reports are many there is a second way to find the margins, of the same name without `_by_sums`, with fewer starts.

use crate::cycle::{self, Cycle};
use crate::schedule::{least_and_most, Reports, Schedule};
use crate::{box_plan, late, Pair, Plan, Refusal, Spec};

/// What so many minutes hold, and the number of a report at which they begin, or just after which.
#[derive(Clone, Copy, Debug, PartialEq, Eq)]
pub struct Margin {
    pub records: u64,
    pub report: u64,
}

/// "The most records that any R minutes hold, with the lowest number of a report that begins such minutes; the least that any P minutes
/// hold, with the lowest number of a report just after which they begin." A rate that is absent has none.
#[derive(Clone, Copy, Debug, PartialEq, Eq)]
pub struct Margins {
    pub most: Option<Margin>,
    pub least: Option<Margin>,
}

/// A stretch is begun in each of so many rounds: none of them is another.
const ROUNDS: usize = 3;

/// "12, 13, 14; 15 and 16 are not given here": what the check gives where there is no rate.
fn without_rates(spec: &Spec, pairs: &[Pair]) -> Result<(), Refusal> {
    match cycle::check(&Spec { supply: None, demand: None, ..spec.clone() }, pairs) {
        0 => Ok(()),
        number => Err(number),
    }
}

/// By the least and the most that so many minutes hold, and what so many from a minute on do.
fn margins_with(
    spec: &Spec,
    pairs: &[Pair],
    least_and_most: impl Fn(u64) -> (u64, u64),
    held: impl Fn(u64, u64) -> u64,
) -> Margins {
    let most = spec.supply.map(|(_, r)| lowest(pairs, least_and_most(r).1, |minute| held(minute, r)));
    let least = spec.demand.map(|(_, p)| lowest(pairs, least_and_most(p).0, |minute| held(minute + 1, p)));
    Margins { most, least }
}

/// "Both numbers below the count": the first report of the first round that has so many records, by its minute.
fn lowest(pairs: &[Pair], records: u64, held: impl Fn(u64) -> u64) -> Margin {
    let mut minute = 0;
    for (report, pair) in (0..).zip(pairs) {
        if held(minute) == records {
            return Margin { records, report };
        }
        minute += u64::from(pair.gap);
    }
    panic!("no report of a round begins minutes that hold {records}");
}

/// Report by report, what the minutes a to a + n − 1 hold.
pub fn held(pairs: &[Pair], a: u64, n: u64) -> u64 {
    let run = Cycle(pairs);
    let (mut i, mut minute, mut sum) = (0, 0, 0);
    while minute < a + n {
        sum += if minute < a { 0 } else { run.size(i) };
        minute += run.gap(i);
        i += 1;
    }
    sum
}

/// Every minute of the rounds is a start.
fn least_and_most_by_sums(pairs: &[Pair], n: u64) -> (u64, u64) {
    let starts = 0..ROUNDS as u64 * Cycle(pairs).minutes_in_round();
    let sums = || starts.clone().map(|a| held(pairs, a, n));
    (sums().min().expect("a start"), sums().max().expect("a start"))
}

pub fn margins_by_sums(spec: &Spec, pairs: &[Pair]) -> Result<Margins, Refusal> {
    without_rates(spec, pairs)?;
    Ok(margins_with(spec, pairs, |n| least_and_most_by_sums(pairs, n), |a, n| held(pairs, a, n)))
}

/// The most minutes of which every one is a start.
const MINUTES_TRIED: u64 = 30_000;

/// Beyond so many minutes the starts are the reports of the rounds, and the minutes after them.
pub fn margins(spec: &Spec, pairs: &[Pair]) -> Result<Margins, Refusal> {
    without_rates(spec, pairs)?;
    let (run, rounds) = (Cycle(pairs), pairs.repeat(ROUNDS));
    let longest = [spec.supply, spec.demand].into_iter().flatten().map(|(_, minutes)| minutes).max().unwrap_or(0);
    let reports = Reports::lay_out(&run, run.minutes_in_round() + longest + 1);
    let least_and_most = |n| least_and_most(&Cycle(&rounds), n, MINUTES_TRIED);
    Ok(margins_with(spec, pairs, least_and_most, |a, n| reports.stretch(a, n)))
}

/// The greatest lateness that is asked for.
pub const LATEST: u64 = 1_440;

/// Every lateness for which a cycle is passed.
pub fn passing(spec: &Spec, pairs: &[Pair]) -> Vec<u64> {
    (0..=LATEST).filter(|&lateness| late::check(spec, pairs, lateness) == 0).collect()
}

/// "The largest lateness J up to 1,440 for which it passes; the check's refusals (J = 0) where it does not pass at all."
pub fn tolerance(spec: &Spec, pairs: &[Pair]) -> Result<u64, Refusal> {
    match cycle::check(spec, pairs) {
        0 => Ok(*passing(spec, pairs).last().expect("lateness 0, at least")),
        number => Err(number),
    }
}

/// Every lateness for which there is a box plan, with that plan.
pub fn box_plans(spec: &Spec, box_plan: impl Fn(&Spec, u64) -> Result<Plan, Refusal>) -> Vec<(u64, Plan)> {
    (0..=LATEST).filter_map(|lateness| Some((lateness, box_plan(spec, lateness).ok()?))).collect()
}

/// "The largest J up to 1,440 for which a box plan exists, with the box plan for it; 30 where there is none for J = 0."
pub fn tolerant_plan(spec: &Spec) -> Result<(u64, Plan), Refusal> {
    box_plan::box_plan(spec, 0)?;
    Ok(*box_plans(spec, box_plan::box_plan).last().expect("that for reports on time, at least"))
}
