//! The shortest stretch that shows a 15 or a 16, against the reference, which tries every number of reports from every start. The library's
//! answers are also held against each other: for a cycle, for the same one turned or written out several times, and for rates that are
//! moved just as far as the stretch allows, or one farther.

use crate::calls::hex;
use crate::checks::{demand_only, supply_only, HELD};
use crate::exhaustive::SmallCycles;
use crate::generate::{self, Scale, MID, SMALL, TINY};
use crate::group::{same, Counts, Met, Runner, Verdict, RUNS};
use crate::library::{Library, Outcome};
use crate::normal::{start_and_times, turned, AGAIN};
use crate::plans::word;
use crate::random::Random;
use reference::cycle::Cycle;
use reference::schedule::{least_and_most_by_report, Schedule};
use reference::shortest::{self, Stretch};
use reference::{spec, Pair, Refusal, Spec};

pub fn all(runner: &mut Runner) {
    let shown = [15, 16, 115, 116, 215, 216, 316];
    runner.random("reference: shortest stretches by sums and by a table", RUNS / 20, &shown, two_ways_case);
    every_small_cycle(runner);
    let numbers = [0, 1, 2, 3, 4, 12, 13, 14, 24];
    runner.random("shortest stretch of a cycle", RUNS / 2, &[&numbers[..], &shown].concat(), any_case);
    let name = "shortest stretch of a cycle, rates at some reports in a row";
    runner.random(name, RUNS / 2, &[&[0, 12, 13, 14], &shown[..]].concat(), row_case);
    runner.random("shortest stretch of up to 512 pairs and thousands of reports", RUNS / 400, &[215, 216], many_case);
    let name = "shortest stretch of a cycle turned or written out several times";
    runner.random(name, RUNS, &[&[0], &shown[..]].concat(), elsewhere_case);
    let name = "shortest stretch for rates that it just breaks, and just does not";
    runner.random(name, RUNS, &[0, 15, 16, 100, 101, 102], moved_case);
}

/// What the call answers, and what its places hold afterwards, as the reference has it.
pub fn given((answer, stretch): (Refusal, Option<Stretch>), before: [u32; 2]) -> Outcome<2> {
    let places = stretch.map_or(before, |Stretch { first, reports }| [first, reports].map(word));
    Outcome { answer, places }
}

/// The same of a specification's file.
pub fn given_for(file: &[u8], pairs: &[Pair], before: [u32; 2]) -> Outcome<2> {
    let made = spec::read(file).map_or_else(|refusal| (refusal, None), |spec| shortest::shortest(&spec, pairs));
    given(made, before)
}

/// The number, which counts as 100 more where the reports reach beyond the cycle's round, 200 where they are those of two rounds or more,
/// and 300 where there are none.
fn met(outcome: &Outcome<2>, pairs: &[Pair]) -> u32 {
    let Outcome { answer, places: [first, reports] } = *outcome;
    let count = pairs.len() as u32;
    match answer {
        15 | 16 if reports == 0 => 300 + answer,
        15 | 16 if reports >= 2 * count => 200 + answer,
        15 | 16 if first + reports + (answer - 15) > count => 100 + answer,
        _ => answer,
    }
}

/// What the library answers is the reference's.
fn compare(file: &[u8], pairs: &[Pair], before: [u32; 2], library: &mut Library) -> Verdict {
    let wanted = given_for(file, pairs, before);
    let got = library.shortest_stretch(file, pairs, before);
    same(met(&wanted, pairs), got, wanted, || format!("spec {} pairs {pairs:?}", hex(file)))
}

/// The same of a specification with small numbers.
pub fn compare_small(spec: &Spec, pairs: &[Pair], library: &mut Library) -> Verdict {
    compare(&spec::write(spec), pairs, [HELD; 2], library)
}

/// The records of so many reports, from this one on, and the minutes to the report after them.
fn sums(pairs: &[Pair], first: u64, reports: u64) -> (u64, u64) {
    let run = Cycle(pairs);
    (first..first + reports).fold((0, 0), |(records, minutes), i| (records + run.size(i), minutes + run.gap(i)))
}

/// What the reports of a row hold, and how far the first and the last are apart: R must be more.
fn held_within(pairs: &[Pair], Stretch { first, reports }: Stretch) -> (u64, u64) {
    (sums(pairs, first, reports).0, sums(pairs, first, reports - 1).1)
}

/// What the reports between two hold, and how far the two are apart: P must be less.
fn held_between(pairs: &[Pair], Stretch { first, reports }: Stretch) -> (u64, u64) {
    (sums(pairs, first + 1, reports).0, sums(pairs, first, reports + 1).1)
}

/// So many reports, or as many as rates can be moved to.
fn as_many_as_fit(pairs: &[Pair], first: u64, reports: u64) -> u64 {
    let run = Cycle(pairs);
    let (mut records, mut minutes) = (0, 0);
    let mut rest = (0..reports).skip_while(|n| {
        records += run.size(first + n);
        minutes += run.gap(first + n);
        records <= 20_001 && minutes <= 20_160
    });
    rest.next().unwrap_or(reports)
}

/// Reports in a row: a few, about a whole number of rounds, or any number up to this.
fn some_row(random: &mut Random, pairs: &[Pair], most: u64) -> Stretch {
    let count = pairs.len() as u64;
    let first = random.below(count);
    let reports = match random.below(4) {
        0 => random.below(4),
        1 => count * random.between(1, 4) + random.below(3) - 1,
        2 => random.of_any_length(15),
        _ => most,
    };
    Stretch { first, reports: as_many_as_fit(pairs, first, reports.min(most)) }
}

/// B and R, which the row breaks, or just does not.
fn supply_at(random: &mut Random, pairs: &[Pair], row: Stretch) -> (u64, u64) {
    let (records, minutes) = held_within(pairs, Stretch { reports: row.reports.max(1), ..row });
    let [fewer, more] = [0; 2].map(|_| random.pick(&[0, 1, 1, 1, 2]));
    (records.saturating_sub(fewer).clamp(1, 20_000), (minutes + more).clamp(1, 20_160))
}

/// L and P, which the row breaks, or just does not.
fn demand_at(random: &mut Random, pairs: &[Pair], row: Stretch) -> (u64, u64) {
    let (records, minutes) = held_between(pairs, row);
    let [more, fewer] = [0; 2].map(|_| random.pick(&[0, 1, 1, 1, 2]));
    ((records + more).clamp(1, 20_000), minutes.saturating_sub(fewer).clamp(1, 20_160))
}

/// A specification and a cycle of so many pairs. The supply rate, or the demand rate, lies at what reports in a row take, up to so many of
/// them, or a little off. In the second case the cycle mostly keeps the supply rate, if there is one.
fn spec_and_row(random: &mut Random, scale: Scale, count: usize, most: u64) -> (Spec, Vec<Pair>) {
    let mut spec = generate::near_spec(random, scale);
    let pairs = generate::cycle_in_range(random, &spec, count);
    let row = some_row(random, &pairs, most);
    if random.once_in(2) {
        spec.supply = Some(supply_at(random, &pairs, row));
        return (spec, pairs);
    }
    spec.demand = Some(demand_at(random, &pairs, row));
    if !random.once_in(20) {
        let most = spec.supply.map(|(_, r)| (least_and_most_by_report(&Cycle(&pairs), r).1, r));
        spec.supply = most.filter(|(b, _)| *b <= 20_000);
    }
    (spec, pairs)
}

/// Of so many sums that the reference looks up at most, how many reports that are for a cycle of so many pairs.
fn reports_for(sums: u64, count: usize) -> u64 {
    sums / (2 * count as u64)
}

/// Up to some 40 reports of few pairs: each sum is made anew.
fn two_ways_case(random: &mut Random, _: &mut Library) -> Verdict {
    let count = random.between(1, 8) as usize;
    let scale = generate::scale(random);
    let (spec, pairs) = spec_and_row(random, scale, count, 40);
    let by_sums = shortest::shortest_by_sums(&spec, &pairs);
    let by_table = shortest::shortest(&spec, &pairs);
    same(met(&given(by_sums, [HELD; 2]), &pairs), by_table, by_sums, || format!("{spec:?} {pairs:?}"))
}

const CYCLES: SmallCycles = SmallCycles { pairs: 4, gaps: 3, sizes: 2 };
const FLAT_CYCLES: SmallCycles = SmallCycles { pairs: 8, gaps: 2, sizes: 1 };
const EVEN_CYCLES: SmallCycles = SmallCycles { pairs: 6, gaps: 1, sizes: 3 };

/// R and P are 1 to `WINDOWS` minutes, B and L 1 to `RECORDS`.
const WINDOWS: u64 = 13;
const RECORDS: u64 = 10;

fn every_small_cycle(runner: &mut Runner) {
    let cycles = [("three gaps and two sizes", CYCLES), ("two gaps", FLAT_CYCLES), ("three sizes", EVEN_CYCLES)];
    for (name, cycles) in cycles {
        let name = format!("every cycle of up to {} pairs, {name}: the shortest stretch for every small rate", cycles.pairs);
        let answers = [0, 12, 15, 16, 115, 116, 215, 216];
        runner.every(&name, cycles.count(), &answers, |number, library| every_rate(&cycles.cycle(number), library));
    }
}

/// Each rate alone.
fn every_rate(pairs: &[Pair], library: &mut Library) -> Result<Counts, String> {
    let mut counts = Counts::new();
    for (records, minutes) in (1..=RECORDS).flat_map(|records| (1..=WINDOWS).map(move |minutes| (records, minutes))) {
        for alone in [supply_only, demand_only] {
            compare_small(&alone((1, 3), (1, 3), (records, minutes)), pairs, library)?.add_to(&mut counts);
        }
    }
    Ok(counts)
}

/// Of what gets no stretch some is asked for again where nothing can be written.
fn seldom_again(random: &mut Random, file: &[u8], pairs: &[Pair], met: u32, library: &mut Library) -> Verdict {
    if met % 100 != 15 && met % 100 != 16 && random.once_in(AGAIN) {
        let got = library.no_stretch(file, pairs);
        same(met, got, met, || format!("spec {} pairs {pairs:?}, again", hex(file)))?;
    }
    Ok(met)
}

fn any_case(random: &mut Random, library: &mut Library) -> Verdict {
    let (spec, pairs) = generate::spec_and_cycle(random);
    let file = if random.once_in(40) { generate::spec_file(random) } else { spec::write(&spec) };
    let met = compare(&file, &pairs, random.places(), library)?;
    seldom_again(random, &file, &pairs, met, library)
}

fn row_case(random: &mut Random, library: &mut Library) -> Verdict {
    let (count, scale) = (generate::count(random), generate::scale(random));
    let (spec, mut pairs) = spec_and_row(random, scale, count, reports_for(40_000, count));
    if random.once_in(20) {
        generate::spoil(random, &spec, &mut pairs);
    }
    let file = spec::write(&spec);
    let met = compare(&file, &pairs, random.places(), library)?;
    seldom_again(random, &file, &pairs, met, library)
}

fn many_case(random: &mut Random, library: &mut Library) -> Verdict {
    let (count, scale) = (random.between(100, 512) as usize, random.pick(&[TINY, TINY, SMALL]));
    let (spec, pairs) = spec_and_row(random, scale, count, 20_001);
    compare(&spec::write(&spec), &pairs, random.places(), library)
}

/// A specification and a cycle for which the reference may take too long, and what the library answers: as the check does, with a first
/// report of the first round, and reports that show the number.
fn shown(random: &mut Random, library: &mut Library) -> Result<(Spec, Vec<Pair>, Outcome<2>), String> {
    let (count, scale) = (generate::count(random), random.pick(&[TINY, SMALL, MID]));
    let (spec, pairs) = spec_and_row(random, scale, count, 20_001);
    let file = spec::write(&spec);
    let got = library.shortest_stretch(&file, &pairs, [HELD; 2]);
    let number = library.check_cycle(&file, &pairs);
    let holds = match stretch_of(&got) {
        Some(stretch) => stretch.first < count as u64 && shortest::shows(&spec, &pairs, number, stretch),
        None => got.places == [HELD; 2],
    };
    if got.answer != number || !holds {
        return Err(format!("check {number}, shortest stretch {got:?}, input {spec:?} {pairs:?}"));
    }
    Ok((spec, pairs, got))
}

/// Where there is one.
fn stretch_of(outcome: &Outcome<2>) -> Option<Stretch> {
    let [first, reports] = outcome.places.map(u64::from);
    matches!(outcome.answer, 15 | 16).then_some(Stretch { first, reports })
}

/// A stretch has as many reports wherever the cycle is begun. Begun at its first report or before it, the cycle has the same stretch, and
/// begun after it that of the next equal one, or the same a round later; to write the cycle out several times moves neither.
fn elsewhere_case(random: &mut Random, library: &mut Library) -> Verdict {
    let (spec, pairs, got) = shown(random, library)?;
    let (start, times) = start_and_times(random, pairs.len());
    let other = library.shortest_stretch(&spec::write(&spec), &turned(&pairs, start).repeat(times), [HELD; 2]);
    let (start, count) = (start as u64, pairs.len() as u64);
    let holds = match (stretch_of(&got), stretch_of(&other)) {
        (Some(one), Some(other)) if start <= one.first => other == Stretch { first: one.first - start, ..one },
        (Some(one), Some(other)) => {
            other.reports == one.reports && other.first < count && (other.first + start) % count >= one.first
        }
        _ => got == other,
    };
    if got.answer != other.answer || !holds {
        return Err(format!("{got:?}, {times} times from pair {start} on {other:?}, input {spec:?} {pairs:?}"));
    }
    Ok(met(&got, &pairs))
}

/// The specification with the rate that a number stands for moved.
fn with_rate(spec: &Spec, number: Refusal, rate: (u64, u64)) -> Spec {
    match number {
        15 => Spec { supply: Some(rate), ..spec.clone() },
        _ => Spec { demand: Some(rate), ..spec.clone() },
    }
}

/// The rate that the stretch just breaks, and the two that it just does not, as its records do not, or its minutes.
fn rates_around(pairs: &[Pair], number: Refusal, stretch: Stretch) -> ((u64, u64), [(u64, u64); 2]) {
    if number == 15 {
        let (records, minutes) = held_within(pairs, stretch);
        let broken = (records - 1, minutes + 1);
        return (broken, [(records, minutes + 1), (records - 1, minutes)]);
    }
    let (records, minutes) = held_between(pairs, stretch);
    let broken = (records + 1, minutes - 1);
    (broken, [(records, minutes - 1), (records + 1, minutes)])
}

/// Where the rate is moved as far as the stretch allows, the same one shows that it is broken. Moved farther, others do, which have more
/// reports or a higher number, or none does. A rate beyond its limits is not asked. It counts as 100 where none does, as 101 where as
/// many do, and as 102 where more.
fn moved_case(random: &mut Random, library: &mut Library) -> Result<Counts, String> {
    let (spec, pairs, got) = shown(random, library)?;
    let mut counts = Counts::new();
    got.answer.add_to(&mut counts);
    let Some(stretch) = stretch_of(&got) else { return Ok(counts) };
    let (broken, kept) = rates_around(&pairs, got.answer, stretch);
    let mut ask = |rate: (u64, u64)| {
        let within = (1..=20_000).contains(&rate.0) && (1..=20_160).contains(&rate.1);
        let moved = with_rate(&spec, got.answer, rate);
        within.then(|| library.shortest_stretch(&spec::write(&moved), &pairs, [HELD; 2]))
    };
    let input = |rate: (u64, u64)| format!("{got:?}, with rate {rate:?}, input {spec:?} {pairs:?}");
    if ask(broken).is_some_and(|other| other != got) {
        return Err(input(broken));
    }
    for rate in kept {
        let Some(other) = ask(rate) else { continue };
        let other = stretch_of(&other).filter(|_| other.answer == got.answer);
        if other.is_some_and(|other| (other.reports, other.first) <= (stretch.reports, stretch.first)) {
            return Err(input(rate));
        }
        other.map_or(100, |other| if other.reports == stretch.reports { 101 } else { 102 }).add_to(&mut counts);
    }
    Ok(counts)
}
