//! Plans and cycles that are run on duty minutes: "still holds at most B in any R calendar minutes and keeps smin there". Each report is at
//! the calendar minute that the library tells of its duty minute, and the sums are made here.

use crate::calls::hex;
use crate::generate::{self, MID, SMALL, TINY};
use crate::group::{same, Counts, Met, Runner, Verdict, RUNS};
use crate::library::Library;
use crate::plans::{Handed, LAST};
use crate::random::Random;
use crate::tables::{calendar_minute, duty_minute, good_table};
use reference::cycle::Cycle;
use reference::duty::{most, most_by_walk, shortest_gap, Report, Week};
use reference::schedule::Schedule;
use reference::{spec, Pair, Spec};

pub fn all(runner: &mut Runner) {
    runner.random("reference: the most of some reports by minute and by report", RUNS / 400, &[0, 1], two_ways_case);
    runner.random(
        "plans run on duty minutes",
        RUNS / 20,
        &[0, 1, 2, JUST_FULL, NOT_FULL, NO_SUPPLY, AS_BEFORE, THINNER],
        plan_case,
    );
    runner.random("cycles run on duty minutes", RUNS / 20, &[0, JUST_FULL, NOT_FULL, NO_SUPPLY, AS_BEFORE, THINNER], cycle_case);
}

/// What a run is counted as, beside its kind: some R calendar minutes hold just B, or none do; there is no supply rate; its fullest R
/// calendar minutes hold what its fullest R duty minutes do, or less, by the rests between.
const JUST_FULL: u32 = 10;
const NOT_FULL: u32 = 11;
const NO_SUPPLY: u32 = 12;
const AS_BEFORE: u32 = 20;
const THINNER: u32 = 21;

/// Up to so many minutes every start is tried, and the reference walks them.
const WALKED: u64 = 50_000;

/// Reports at some minutes in order, in few minutes or in many.
fn two_ways_case(random: &mut Random, _: &mut Library) -> Verdict {
    let (gaps, sizes) = (random.between(1, 300), random.between(1, 20));
    let mut minute = random.below(1_000);
    let mut reports = vec![];
    for _ in 0..random.below(100) {
        reports.push((minute, random.between(1, sizes)));
        minute += random.between(1, gaps);
    }
    let n = random.between(1, 1_000);
    let (by_report, by_minute) = (most(&reports, n), most_by_walk(&reports, n));
    same(u32::from(by_minute > sizes), by_report, by_minute, || format!("{reports:?} {n} minutes"))
}

/// The most that any `n` minutes hold, by report and, where they are few, by minute; both must agree.
fn fullest(reports: &[Report], n: u64) -> u64 {
    let fullest = most(reports, n);
    if let (Some(first), Some(last)) = (reports.first(), reports.last()) {
        if last.0 - first.0 <= WALKED {
            assert_eq!(fullest, most_by_walk(reports, n), "two ways of the reference");
        }
    }
    fullest
}

/// These reports, by duty minute and size, run on duty minutes.
fn run_on_duty(spec: &Spec, table: &[u16], reports: &[Report], library: &mut Library) -> Result<(Vec<Report>, Counts), String> {
    let input = || format!("spec {} table {table:?}, from duty minute {:?} on", hex(&spec::write(spec)), reports.first());
    let run: Vec<Report> = reports.iter().map(|&(duty, size)| (calendar_minute(table, duty, library), size)).collect();
    for (&(duty, _), &(calendar, _)) in reports.iter().zip(&run).filter(|(_, at)| at.0 <= LAST) {
        same(0, duty_minute(table, calendar, library), Some(duty), || format!("{}: back from {calendar}", input()))?;
    }
    if shortest_gap(&run).is_some_and(|gap| gap < spec.gap.0) {
        return Err(format!("two reports less than smin apart: {}", input()));
    }
    let mut counts = Counts::new();
    let Some((b, r)) = spec.supply else {
        NO_SUPPLY.add_to(&mut counts);
        return Ok((run, counts));
    };
    let (on_the_calendar, in_duty_minutes) = (fullest(&run, r), fullest(reports, r));
    if on_the_calendar > b {
        return Err(format!("some {r} calendar minutes hold {on_the_calendar} records: {}", input()));
    }
    (if on_the_calendar == b { JUST_FULL } else { NOT_FULL }).add_to(&mut counts);
    (if on_the_calendar == in_duty_minutes { AS_BEFORE } else { THINNER }).add_to(&mut counts);
    Ok((run, counts))
}

/// The reports before some calendar minute are where the reference meets them, which walks the calendar.
fn as_walked(schedule: &impl Schedule, table: &[u16], run: &[Report]) -> Result<(), String> {
    let week = Week::read(table).expect("a good table");
    let end = run.last().map_or(0, |&(calendar, _)| calendar + 1).min(WALKED);
    let before: Vec<Report> = run.iter().copied().take_while(|&(calendar, _)| calendar < end).collect();
    same(0, before, week.run(schedule, end), || format!("{table:?}")).map(|_| ())
}

/// How many reports are looked at.
fn some_count(random: &mut Random) -> usize {
    random.pick(&[100, 300, 2_000])
}

/// A specification that has a plan which the test passed, or an even plan, and that plan.
fn spec_and_plan(random: &mut Random, library: &mut Library) -> (Spec, Handed) {
    loop {
        let scale = random.pick(&[TINY, SMALL, SMALL, MID]);
        let spec = generate::near_spec(random, scale);
        let file = spec::write(&spec);
        let (kind, answer, [k, period, total]) = if random.once_in(2) {
            let got = library.test(&file, [0; 5]);
            (0, got.answer, [1, 2, 3].map(|place| got.places[place].into()))
        } else {
            let got = library.even_plan(&file, [0; 3]);
            (1, got.answer, got.places.map(u64::from))
        };
        if answer == 0 {
            return (spec, Handed { kind, k, period, total });
        }
    }
}

/// From report 0 on, or from any other whose minute is below 2³². It counts as 0 for a plan that the test passed, 1 for an even plan, 2
/// for one of two ranges of gaps.
fn plan_case(random: &mut Random, library: &mut Library) -> Result<Counts, String> {
    let ((spec, handed), table) = (spec_and_plan(random, library), good_table(random));
    let first = if random.once_in(2) { 0 } else { random.of_any_length(32) * handed.k / handed.period };
    let all = (first..=LAST).map(|i| handed.report(i, library)).take(some_count(random));
    let reports: Vec<Report> = all.take_while(|&(duty, _)| duty <= LAST).collect();
    let (run, mut counts) = run_on_duty(&spec, &table, &reports, library)?;
    if first == 0 {
        as_walked(&handed.plan().expect("a plan of one of the kinds"), &table, &run)?;
    }
    (if spec.second.is_some() { 2 } else { handed.kind }).add_to(&mut counts);
    Ok(counts)
}

/// A specification and a cycle that the check passed.
fn spec_and_cycle(random: &mut Random, library: &mut Library) -> (Spec, Vec<Pair>) {
    loop {
        let (spec, pairs) = generate::spec_and_cycle(random);
        if library.check_cycle(&spec::write(&spec), &pairs) == 0 {
            return (spec, pairs);
        }
    }
}

/// The rules are those of a plan.
fn cycle_case(random: &mut Random, library: &mut Library) -> Result<Counts, String> {
    let ((spec, pairs), table) = (spec_and_cycle(random, library), good_table(random));
    let cycle = Cycle(&pairs);
    let (mut minute, mut reports) = (0, vec![]);
    for i in 0..some_count(random) as u64 {
        reports.push((minute, cycle.size(i)));
        minute += cycle.gap(i);
    }
    let (run, mut counts) = run_on_duty(&spec, &table, &reports, library)?;
    as_walked(&cycle, &table, &run)?;
    0.add_to(&mut counts);
    Ok(counts)
}
