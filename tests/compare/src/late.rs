//! The check of cycles whose reports may arrive late. Where the choices of delays are few the reference tries all of them; on every
//! small input they are. The library's answers are also held against each other: for lateness 0 against the check of a cycle, and
//! for one lateness against those for others.

use crate::calls::{expected, hex};
use crate::checks::{no_rates, HELD};
use crate::exhaustive::{one_range, two_ranges, SmallCycles};
use crate::generate::{self, Scale, TINY};
use crate::group::{same, Counts, Met, Runner, Verdict, RUNS};
use crate::library::Library;
use crate::plans::{word, LAST};
use crate::random::Random;
use crate::rounds::{cases_of, Case, Rates};
use reference::late::{self, Late};
use reference::{spec, Pair, Spec};

pub fn all(runner: &mut Runner) {
    runner.random("reference: delays of each report, and choices of all", RUNS / 4, &[0, 13, 15, 16], two_ways_case);
    let specs = small_ranges();
    let name = "every small range of gaps: every gap, up to 5 minutes late, and its tolerance";
    runner.every(name, specs.len() as u64 * GAPS.count(), &[0, 12, 13], |number, library| {
        let (spec, cycle) = (number / GAPS.count(), number % GAPS.count());
        every_lateness(&specs[spec as usize], &GAPS.cycle(cycle), 5, library)
    });
    let name = "every small cycle, up to 6 minutes late: rates at what it holds";
    runner.every(name, (CYCLES.count() - 1) * LATENESSES, &[0, 13, 15, 16], rates_case);
    let by_lateness = [100, 113, 115, 116];
    let numbers = [0, 1, 2, 3, 4, 12, 13, 14, 15, 16, 24, 26];
    runner.random("check of late reports", RUNS, &[&numbers[..], &by_lateness].concat(), late_case);
    runner.random("check of late reports, of which none is late", RUNS, &numbers[..11], not_late_case);
    runner.random("check of late reports, for more and more lateness", RUNS / 4, &by_lateness, growing_case);
}

/// Up to so many steps of the reference every choice of delays is tried.
const FEW_STEPS: u64 = 20_000;

/// The reference's number, by the delays of each report. Where the choices of all are few, these must give it too.
pub fn number(file: &[u8], pairs: &[Pair], lateness: u64) -> u32 {
    let spec = match spec::read(file) {
        Ok(spec) => spec,
        Err(refusal) => return refusal,
    };
    let number = late::check(&spec, pairs, lateness);
    if steps_by_choices(&spec, pairs, lateness) <= FEW_STEPS {
        assert_eq!(number, late::check_by_choices(&spec, pairs, lateness), "two ways of the reference");
    }
    number
}

/// About how many steps the choices take: for each start, the choices of delays of as many reports as the longer window can meet.
fn steps_by_choices(spec: &Spec, pairs: &[Pair], lateness: u64) -> u64 {
    let starts = lateness + pairs.iter().map(|pair| u64::from(pair.gap)).sum::<u64>();
    let longest = spec.supply.map_or(0, |(_, r)| r).max(spec.demand.map_or(0, |(_, p)| p));
    let reports = (longest + lateness) / shortest_gap(pairs).max(1) + 1;
    let choices = (lateness + 1).saturating_pow(reports.min(64) as u32);
    choices.saturating_mul(reports).saturating_mul(starts)
}

pub fn shortest_gap(pairs: &[Pair]) -> u64 {
    pairs.iter().map(|pair| u64::from(pair.gap)).min().unwrap_or(1)
}

/// Whether some lateness is refused and a greater one passed.
fn passed_later(answers: &[u32]) -> bool {
    answers.windows(2).any(|two| two[0] != 0 && two[1] == 0)
}

/// Every lateness from 0 to `most`, by every choice of delays, and the tolerance: the ranges have room for no more.
pub fn every_lateness(spec: &Spec, pairs: &[Pair], most: u64, library: &mut Library) -> Result<Counts, String> {
    let file = spec::write(spec);
    let got: Vec<u32> = (0..=most).map(|lateness| library.check_late(&file, pairs, word(lateness))).collect();
    let wanted: Vec<u32> = (0..=most).map(|lateness| late::check_by_choices(spec, pairs, lateness)).collect();
    if passed_later(&got) {
        return Err(format!("answers {got:?} for more and more lateness, input {spec:?} {pairs:?}"));
    }
    same(0, &got, &wanted, || format!("{spec:?} {pairs:?}"))?;
    assert!(spec.gaps().all(|gap| gap <= 2 * (most + 1)), "no gap is most + 1 minutes from both ends, and above that");
    let tolerance = (0..=most).filter(|&lateness| wanted[lateness as usize] == 0).last().ok_or(wanted[0]);
    let tolerance = expected(tolerance.map(|lateness| [lateness]), [HELD]);
    same(0, library.tolerance(&file, pairs, [HELD]), tolerance, || format!("tolerance, {spec:?} {pairs:?}"))?;
    let mut counts = Counts::new();
    wanted.into_iter().for_each(|answer| answer.add_to(&mut counts));
    Ok(counts)
}

/// Every range of gaps within 1 to 8, and every two of them.
fn small_ranges() -> Vec<Spec> {
    one_range(8).chain(two_ranges(8)).map(|(gap, second)| Spec { second, ..no_rates((1, 1), gap) }).collect()
}

/// Gaps that are in these ranges and beyond them.
const GAPS: SmallCycles = SmallCycles { pairs: 2, gaps: 10, sizes: 1 };

const CYCLES: SmallCycles = SmallCycles { pairs: 3, gaps: 8, sizes: 2 };

/// A lateness is 0 to 6, and R and P are 1 to `WINDOWS` minutes.
const LATENESSES: u64 = 7;
const WINDOWS: u64 = 18;

/// Every cycle that has a pair. Where one report can arrive with the next it gets 13. Else B and L lie at what it holds by every choice of
/// delays, one below and one above.
fn rates_case(number: u64, library: &mut Library) -> Result<Counts, String> {
    let (pairs, lateness) = (CYCLES.cycle(1 + number / LATENESSES), number % LATENESSES);
    let late = Late::new(&pairs, lateness);
    let cases = if shortest_gap(&pairs) > lateness {
        let rates = (1..=WINDOWS).map(|n| Rates::new(n, late.least_and_most_by_choices(n)));
        cases_of(&pairs, &rates.collect::<Vec<Rates>>())
    } else {
        vec![Case { pairs: &pairs, spec: no_rates((1, 2), (1, 20)), answer: 13 }]
    };
    let mut counts = Counts::new();
    for Case { spec, answer, .. } in cases {
        let got = library.check_late(&spec::write(&spec), &pairs, word(lateness));
        same(answer, got, answer, || format!("{spec:?} {pairs:?}, {lateness} minutes late"))?.add_to(&mut counts);
    }
    Ok(counts)
}

/// Less than the shortest gap, mostly; about as much, about the greatest that is taken, or any number.
fn some_lateness(random: &mut Random, pairs: &[Pair]) -> u64 {
    let shortest = shortest_gap(pairs);
    match random.below(12) {
        0 => 0,
        1 => random.pick(&[1_439, 1_440, 1_441, 65_536, LAST]),
        2 => random.of_any_length(32),
        3 => random.near(shortest, 1, 1_440),
        4..=6 => random.below(4),
        _ => random.below(shortest.min(1_441)),
    }
}

/// The range, widened or narrowed to what delays make of those gaps of the cycle that are in it; seldom one off.
fn with_room(random: &mut Random, range: (u64, u64), pairs: &[Pair], lateness: u64) -> (u64, u64) {
    let gaps = || pairs.iter().map(|pair| u64::from(pair.gap)).filter(|gap| (range.0..=range.1).contains(gap));
    let (Some(least), Some(most)) = (gaps().min(), gaps().max()) else { return range };
    let mut off = |gap: u64| {
        let by = random.pick(&[0, 0, 0, 0, 1]);
        random.near(gap, by, 20_160)
    };
    (off(least.saturating_sub(lateness)), off(most + lateness))
}

/// Gives both ranges room for the delays. Where they meet then they are cut anew: they touch, or leave out a gap.
pub fn make_room(random: &mut Random, spec: &mut Spec, pairs: &[Pair], lateness: u64) {
    let first = with_room(random, spec.gap, pairs, lateness);
    spec.gap = (first.0, first.1.max(first.0));
    let Some(second) = spec.second else { return };
    let (lower, upper) = with_room(random, second, pairs, lateness);
    if lower > spec.gap.1 {
        spec.second = Some((lower, upper.max(lower)));
        return;
    }
    let upper = upper.max(spec.gap.0 + 2);
    spec.gap.1 = random.between(spec.gap.0, upper - 2);
    spec.second = Some((spec.gap.1 + random.pick(&[1, 1, 1, 2]), upper));
}

/// A specification, a cycle and a lateness. What delays make of the gaps is just in the ranges, or just not, and the rates are at what
/// the cycle then holds, or one off.
pub fn some_input(random: &mut Random, scale: Scale) -> (Spec, Vec<Pair>, u64) {
    let mut spec = generate::near_spec(random, scale);
    let count = generate::count(random);
    let mut pairs = generate::cycle_in_range(random, &spec, count);
    let lateness = some_lateness(random, &pairs);
    make_room(random, &mut spec, &pairs, lateness.min(1_440));
    if shortest_gap(&pairs) > lateness && !random.once_in(4) {
        generate::fit_rates(random, &mut spec, |n| Late::new(&pairs, lateness).least_and_most(n));
    }
    if random.once_in(8) {
        generate::spoil(random, &spec, &mut pairs);
    }
    (spec, pairs, lateness)
}

/// With up to ten times as many choices of delays as `number` tries.
fn two_ways_case(random: &mut Random, _: &mut Library) -> Verdict {
    let (spec, pairs, lateness) = loop {
        let (spec, pairs, lateness) = some_input(random, TINY);
        let tried = !pairs.is_empty() && shortest_gap(&pairs) > 0 && lateness <= 1_440;
        if tried && steps_by_choices(&spec, &pairs, lateness) <= 10 * FEW_STEPS {
            break (spec, pairs, lateness);
        }
    };
    let late = Late::new(&pairs, lateness);
    let window = spec.supply.or(spec.demand).map_or(1, |(_, minutes)| minutes);
    let by_choices = (late::check_by_choices(&spec, &pairs, lateness), late.least_and_most_by_choices(window));
    let by_report = (late::check(&spec, &pairs, lateness), late.least_and_most(window));
    same(by_choices.0, by_report, by_choices, || format!("{spec:?} {pairs:?}, {lateness} minutes late"))
}

/// The answer counts as 100 more where the cycle is passed if no report is late, and some may be.
fn late_case(random: &mut Random, library: &mut Library) -> Verdict {
    let scale = generate::scale(random);
    let (spec, pairs, lateness) = some_input(random, scale);
    let file = if random.once_in(40) { generate::spec_file(random) } else { spec::write(&spec) };
    let answer = number(&file, &pairs, lateness);
    let by_lateness = lateness > 0 && library.check_cycle(&file, &pairs) == 0;
    let met = answer + 100 * u32::from(by_lateness);
    same(met, library.check_late(&file, &pairs, word(lateness)), answer, || {
        format!("spec {} pairs {pairs:?}, {lateness} minutes late", hex(&file))
    })
}

/// Lateness 0 is the check of a cycle.
fn not_late_case(random: &mut Random, library: &mut Library) -> Verdict {
    let (spec, pairs) = generate::spec_and_cycle(random);
    let file = if random.once_in(40) { generate::spec_file(random) } else { spec::write(&spec) };
    let answer = library.check_cycle(&file, &pairs);
    same(answer, library.check_late(&file, &pairs, 0), answer, || format!("spec {} pairs {pairs:?}", hex(&file)))
}

/// What is passed for one lateness is passed for every smaller one. It counts as the first refusal, and as 100 more where the cycle is
/// passed for lateness 0.
fn growing_case(random: &mut Random, library: &mut Library) -> Verdict {
    let scale = generate::scale(random);
    let (spec, pairs, _) = some_input(random, scale);
    let file = spec::write(&spec);
    let most = shortest_gap(&pairs).min(1_441);
    let every = most <= 40;
    let mut latenesses: Vec<u64> = (0..=most.min(40)).map(|i| if every { i } else { random.below(most + 1) }).collect();
    latenesses[0] = 0;
    latenesses.sort();
    let answers: Vec<u32> = latenesses.iter().map(|&lateness| library.check_late(&file, &pairs, word(lateness))).collect();
    if passed_later(&answers) {
        return Err(format!("answers {answers:?} for lateness {latenesses:?}, spec {} pairs {pairs:?}", hex(&file)));
    }
    let refusal = answers.iter().copied().find(|&answer| answer != 0).unwrap_or(0);
    Ok(if answers[0] == 0 { 100 + refusal } else { refusal })
}
