//! How late the reports of a cycle may be, against the reference, which tries every lateness where that takes few steps, and the tolerance and
//! one more where a check does. The library's answers are also held against each other: against the check of late reports, for every
//! lateness, and for a cycle turned or written out several times.

use crate::box_plans::steps_of_check;
use crate::calls::{expected, hex};
use crate::checks::HELD;
use crate::exhaustive::SmallCycles;
use crate::generate::{self, Scale, FULL, MID};
use crate::group::{same, Counts, Met, Runner, Verdict, RUNS};
use crate::late::{self as late_reports, shortest_gap};
use crate::library::{Library, Outcome};
use crate::normal::{start_and_times, turned, AGAIN};
use crate::plans::word;
use crate::random::Random;
use crate::rounds::{cases_of, Rates};
use reference::late::{self, Late};
use reference::leeway::{self, LATEST};
use reference::{cycle, spec, Pair, Refusal, Spec};

pub fn all(runner: &mut Runner) {
    let by = [NONE, ONE_MORE + 13, ONE_MORE + 15, ONE_MORE + 16];
    runner.random("reference: every lateness up to the tolerance is passed", RUNS / 40, &by, passing_case);
    let name = "every small cycle: its tolerance, rates at what it holds with some";
    runner.every(name, (CYCLES.count() - 1) * LATENESSES, &[&[15, 16], &by[..]].concat(), rates_case);
    let refused = [1, 2, 3, 4, 12, 13, 14, 15, 16, 24];
    let met = [0, NONE, MOST, ONE_MORE + 13, ONE_MORE + 15, ONE_MORE + 16, OVER_BOTH, BETWEEN, EVERY, BOTH_SIDES];
    runner.random("tolerance of a cycle", RUNS / 2, &[&refused[..], &met].concat(), any_case);
    runner.random("tolerance of a cycle, every lateness tried", RUNS / 400, &[0, MOST, EVERY], every_case);
    let name = "tolerance of a cycle beside the check for every lateness";
    runner.random(name, RUNS / 200, &[0, 13, 15, 16, ONE_MORE + 13, ONE_MORE + 15, ONE_MORE + 16], beside_check_case);
    let name = "tolerance of a cycle turned or written out several times";
    runner.random(name, RUNS / 4, &[0, 12, 13, 14, 15, 16, MOST, ONE_MORE + 13, ONE_MORE + 15, ONE_MORE + 16], elsewhere_case);
}

/// What a tolerance counts as beside its answer, and the number that a minute more gets: none, or as much as can be.
const ONE_MORE: u32 = 100;
const NONE: u32 = 200;
const MOST: u32 = 201;
/// Delays take a gap into the second range where the first alone would not do; or of two ranges into the gaps between them.
const OVER_BOTH: u32 = 300;
const BETWEEN: u32 = 301;
/// The reference has tried every lateness, or the tolerance and a minute more.
const EVERY: u32 = 400;
const BOTH_SIDES: u32 = 401;

/// Up to so many steps the reference tries every lateness: in each case, and in those of a group that seeks them; and up to so many it does
/// the two checks.
const FEW_STEPS: u64 = 100_000;
const MANY_STEPS: u64 = 60_000_000;
const FEW_CHECK_STEPS: u64 = 200_000;

/// About how many steps that takes: for every lateness below the shortest gap each gap that delays make, and where all of these are allowed
/// a check. One that is not below it is refused at once.
fn steps_of_every_check(spec: &Spec, pairs: &[Pair]) -> u64 {
    let (reports, shortest) = (pairs.len() as u64, shortest_gap(pairs).min(LATEST + 1));
    let minutes = pairs.iter().map(|pair| u64::from(pair.gap)).sum();
    let room = pairs.iter().map(|pair| room_of(spec, pair.gap.into())).min().unwrap_or(0);
    let checks: u64 = (0..room).map(|lateness| steps_of_check(spec, lateness, reports, minutes)).sum();
    reports * shortest * shortest + checks
}

/// How many latenesses keep a gap in the ranges.
fn room_of(spec: &Spec, gap: u64) -> u64 {
    let kept = |lateness: &u64| *lateness < gap && spec.allows_gap(gap - lateness) && spec.allows_gap(gap + lateness);
    (0..=LATEST).take_while(kept).count() as u64
}

/// What the call answers, and what its place holds afterwards, as the reference has it; none where that takes more than so many steps.
fn given_for(file: &[u8], pairs: &[Pair], before: [u32; 1], most: u64) -> Option<Outcome<1>> {
    let passed = spec::read(file).and_then(|spec| match cycle::check(&spec, pairs) {
        0 => Ok(spec),
        number => Err(number),
    });
    let made = match passed {
        Ok(spec) if steps_of_every_check(&spec, pairs) > most => return None,
        passed => passed.and_then(|spec| leeway::tolerance(&spec, pairs)),
    };
    Some(expected(made.map(|lateness| [lateness]), before))
}

/// The check of late reports passes the cycle for its tolerance, and refuses it for a minute more, with the number that comes back.
fn one_more(spec: &Spec, pairs: &[Pair], tolerance: u64, library: &mut Library) -> Verdict {
    let file = spec::write(spec);
    let numbers = [0, 1].map(|more| library.check_late(&file, pairs, word(tolerance + more)));
    if numbers[0] != 0 || numbers[1] == 0 {
        return Err(format!("tolerance {tolerance}, checks for it and one more {numbers:?}, input {spec:?} {pairs:?}"));
    }
    Ok(numbers[1])
}

/// The reference gives these numbers too, where that takes no more than so many steps; whether it does.
fn on_both_sides(spec: &Spec, pairs: &[Pair], tolerance: u64, number: Refusal) -> Result<bool, String> {
    let minutes = pairs.iter().map(|pair| u64::from(pair.gap)).sum();
    let tried = steps_of_check(spec, tolerance + 1, pairs.len() as u64, minutes) <= FEW_CHECK_STEPS;
    if tried {
        let numbers = [0, 1].map(|more| late::check(spec, pairs, tolerance + more));
        same(0, [0, number], numbers, || format!("checks for tolerance {tolerance} and one more, {spec:?} {pairs:?}"))?;
    }
    Ok(tried)
}

/// What a tolerance counts as beside itself, by the number that a minute more gets.
fn marks(spec: &Spec, pairs: &[Pair], tolerance: u64, number: Refusal) -> Vec<u32> {
    let over = |pair: &Pair| tolerance > 0 && room_of(&Spec { second: None, ..spec.clone() }, pair.gap.into()) <= tolerance;
    let between = |pair: &Pair| {
        let (gap, more, upper) = (u64::from(pair.gap), tolerance + 1, spec.second.map_or(0, |(_, upper)| upper));
        room_of(spec, gap) == more && gap >= spec.gap.0 + more && gap + more <= upper
    };
    let in_first = |pair: &Pair| u64::from(pair.gap) <= spec.gap.1;
    let marks = [
        (tolerance == 0, NONE),
        (tolerance == LATEST, MOST),
        (number != 26, ONE_MORE + number),
        (pairs.iter().filter(|pair| in_first(pair)).any(over), OVER_BOTH),
        (number == 13 && pairs.iter().any(between), BETWEEN),
    ];
    marks.into_iter().filter(|(holds, _)| *holds).map(|(_, mark)| mark).collect()
}

/// The library's tolerance is the reference's where that tries every lateness, in so many steps; it is the greatest for which the check
/// passes the cycle, and where there is none it is what that gives for reports on time.
fn compare(file: &[u8], pairs: &[Pair], before: [u32; 1], most: u64, library: &mut Library) -> Result<Counts, String> {
    let input = || format!("spec {} pairs {pairs:?}", hex(file));
    let got = library.tolerance(file, pairs, before);
    let by_check = library.check_cycle(file, pairs);
    let wanted = given_for(file, pairs, before, most);
    same(by_check, got.answer, by_check, || format!("{}, checked", input()))?;
    same(by_check, got, wanted.unwrap_or(got), input)?;
    let mut counts = counted(file, pairs, &got, library)?;
    if let (Ok(spec), 0) = (spec::read(file), got.answer) {
        let tolerance = got.places[0];
        let number = library.check_late(file, pairs, tolerance + 1);
        match wanted {
            Some(_) => EVERY.add_to(&mut counts),
            None if on_both_sides(&spec, pairs, tolerance.into(), number)? => BOTH_SIDES.add_to(&mut counts),
            None => (),
        }
    }
    Ok(counts)
}

/// What a tolerance counts as, which the check of late reports bears out.
fn counted(file: &[u8], pairs: &[Pair], got: &Outcome<1>, library: &mut Library) -> Result<Counts, String> {
    let mut counts = Counts::new();
    got.answer.add_to(&mut counts);
    if let (Ok(spec), 0) = (spec::read(file), got.answer) {
        let tolerance = got.places[0].into();
        let number = one_more(&spec, pairs, tolerance, library)?;
        marks(&spec, pairs, tolerance, number).into_iter().for_each(|mark| mark.add_to(&mut counts));
    }
    Ok(counts)
}

/// The same with as many steps as every case of a group can take.
fn compare_in_few_steps(file: &[u8], pairs: &[Pair], before: [u32; 1], library: &mut Library) -> Result<Counts, String> {
    compare(file, pairs, before, FEW_STEPS, library)
}

/// A cycle that is refused is refused again where nothing can be written.
fn again(file: &[u8], pairs: &[Pair], library: &mut Library) -> Verdict {
    let answer = library.check_cycle(file, pairs);
    let got = library.refused_tolerance(file, pairs);
    same(answer, got, answer, || format!("spec {} pairs {pairs:?}, again", hex(file)))
}

/// The same of one that is refused rightly.
pub fn compare_and_again(file: &[u8], pairs: &[Pair], library: &mut Library) -> Result<Outcome<1>, String> {
    compare_in_few_steps(file, pairs, [HELD], library)?;
    let got = library.tolerance(file, pairs, [HELD]);
    if got.answer != 0 {
        again(file, pairs, library)?;
    }
    Ok(got)
}

/// A specification and a cycle, whose gaps and rates have room for some delays. Half of them have more room for the gaps, so that a rate is
/// what more lateness breaks.
fn some_input(random: &mut Random, scale: Scale) -> (Spec, Vec<Pair>) {
    let (mut spec, pairs, _) = late_reports::some_input(random, scale);
    if random.once_in(2) {
        let (lower, upper) = (1 + random.of_any_length(14).min(spec.gap.0 - 1), spec.gap.1 + random.of_any_length(14));
        spec.gap = (lower, upper.min(spec.second.map_or(20_160, |second| second.0 - 1)));
    }
    (spec, pairs)
}

/// "Passing for J passes for every smaller one", up to the tolerance.
fn passing_case(random: &mut Random, _: &mut Library) -> Result<Counts, String> {
    let (spec, pairs) = loop {
        let scale = generate::scale(random);
        let (spec, pairs) = some_input(random, scale);
        if cycle::check(&spec, &pairs) == 0 && steps_of_every_check(&spec, &pairs) <= FEW_STEPS {
            break (spec, pairs);
        }
    };
    let input = || format!("{spec:?} {pairs:?}");
    let tolerance = leeway::tolerance(&spec, &pairs).map_err(|refusal| format!("{refusal}, {}", input()))?;
    same(0, leeway::passing(&spec, &pairs), (0..=tolerance).collect(), input)?;
    let mut counts = Counts::new();
    let number = late::check(&spec, &pairs, tolerance + 1);
    marks(&spec, &pairs, tolerance, number).into_iter().for_each(|mark| mark.add_to(&mut counts));
    Ok(counts)
}

const CYCLES: SmallCycles = SmallCycles { pairs: 2, gaps: 8, sizes: 2 };

/// A lateness is 0 to 6, and R and P are 1 to `WINDOWS` minutes.
const LATENESSES: u64 = 7;
const WINDOWS: u64 = 14;

/// B and L lie at what a cycle holds with so much lateness, by every choice of delays, one below and one above.
fn rates_case(number: u64, library: &mut Library) -> Result<Counts, String> {
    let (pairs, lateness) = (CYCLES.cycle(1 + number / LATENESSES), number % LATENESSES);
    let late = Late::new(&pairs, lateness);
    let mut counts = Counts::new();
    if shortest_gap(&pairs) <= lateness {
        return Ok(counts);
    }
    let rates: Vec<Rates> = (1..=WINDOWS).map(|n| Rates::new(n, late.least_and_most_by_choices(n))).collect();
    for case in cases_of(&pairs, &rates) {
        compare_in_few_steps(&spec::write(&case.spec), &pairs, [HELD], library)?.add_to(&mut counts);
    }
    Ok(counts)
}

fn any_case(random: &mut Random, library: &mut Library) -> Result<Counts, String> {
    let scale = generate::scale(random);
    let (spec, pairs) = some_input(random, scale);
    let file = if random.once_in(40) { generate::spec_file(random) } else { spec::write(&spec) };
    let counts = compare_in_few_steps(&file, &pairs, random.places(), library)?;
    if !counts.contains_key(&0) && random.once_in(AGAIN) {
        again(&file, &pairs, library)?;
    }
    Ok(counts)
}

/// Cycles that are passed, for which it takes long to try every lateness.
fn every_case(random: &mut Random, library: &mut Library) -> Result<Counts, String> {
    loop {
        let scale = random.pick(&[MID, FULL, FULL]);
        let (spec, pairs) = some_input(random, scale);
        let takes_long = (FEW_STEPS..=MANY_STEPS).contains(&steps_of_every_check(&spec, &pairs));
        if takes_long && cycle::check(&spec, &pairs) == 0 {
            return compare(&spec::write(&spec), &pairs, random.places(), MANY_STEPS, library);
        }
    }
}

/// The check passes the cycle for every lateness up to the tolerance, and for no other up to the greatest.
fn beside_check_case(random: &mut Random, library: &mut Library) -> Result<Counts, String> {
    let scale = generate::scale(random);
    let (spec, pairs) = some_input(random, scale);
    let file = spec::write(&spec);
    let got = library.tolerance(&file, &pairs, [HELD]);
    let passed = |lateness: &u64| library.check_late(&file, &pairs, word(*lateness)) == 0;
    let passing: Vec<u64> = (0..=LATEST).filter(passed).collect();
    let wanted: Vec<u64> = if got.answer == 0 { (0..=got.places[0].into()).collect() } else { vec![] };
    same(0, &passing, &wanted, || format!("{spec:?} {pairs:?}"))?;
    counted(&file, &pairs, &got, library)
}

fn elsewhere_case(random: &mut Random, library: &mut Library) -> Result<Counts, String> {
    let scale = generate::scale(random);
    let (spec, pairs) = some_input(random, scale);
    let (start, times) = start_and_times(random, pairs.len());
    let (file, other) = (spec::write(&spec), turned(&pairs, start).repeat(times));
    let got = library.tolerance(&file, &pairs, [HELD]);
    same(0, library.tolerance(&file, &other, [HELD]), got, || format!("{spec:?} {pairs:?}, {times} times from {start} on"))?;
    counted(&file, &other, &got, library)
}
