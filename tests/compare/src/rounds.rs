//! Cycles whose round is longer than R and P, divides them, or misses them by a minute: there a check that counts the whole
//! rounds of a stretch could count one too many or too few. What the fullest and the thinnest stretch hold is summed report by report
//! over the endless repetition, and B and L lie there, one below and one above; the margins must say the same. Nothing here is left to
//! chance.

use crate::checks::{no_rates, pairs_of};
use crate::group::{same, Runner, Verdict};
use crate::library::Library;
use crate::margins::{self, report_minutes, HELD_MARGINS};
use reference::leeway::held;
use reference::{cycle, file, spec, verdict, Pair, Spec};
use std::collections::BTreeSet;

/// The greatest R and P, and the greatest B and L.
const LONGEST: u64 = 20_160;
const MOST_RECORDS: u64 = 20_000;

pub fn all(runner: &mut Runner) {
    group(runner, "rounds of one pair, up to the longest R and P", single_pairs());
    group(runner, "rounds that divide R or P, or miss them by a minute", divisors());
    group(runner, "rounds longer than R and P", long_rounds());
}

/// A cycle, and how many minutes R and P are in turn.
type Input = (Vec<Pair>, Vec<u64>);

fn group(runner: &mut Runner, name: &str, inputs: Vec<Input>) {
    let rates = |(pairs, windows): &Input| windows.iter().map(|&minutes| rates_of(pairs, minutes)).collect::<Vec<Rates>>();
    let cases: Vec<Case> = inputs.iter().flat_map(|input| cases_of(&input.0, &rates(input))).collect();
    runner.every(name, cases.len() as u64, &[0, 15, 16], |number, library| compare(&cases[number as usize], library));
}

/// A cycle, a specification, and the answer that follows from the sums.
pub struct Case<'a> {
    pub pairs: &'a [Pair],
    pub spec: Spec,
    pub answer: u32,
}

fn compare(case: &Case, library: &mut Library) -> Verdict {
    let spec_file = spec::write(&case.spec);
    let cycle_file = file::write(case.pairs, usize::MAX).expect("1 to 512 pairs");
    let input = || format!("{:?} {:?}", case.spec, case.pairs);
    let reference = (cycle::check(&case.spec, case.pairs), verdict(&spec_file, &cycle_file));
    if reference != (case.answer, case.answer) {
        return Err(format!("reference {reference:?}, by the sums {}, input {}", case.answer, input()));
    }
    let got = (library.check_cycle(&spec_file, case.pairs), library.verdict(&spec_file, &cycle_file));
    margins::compare(&spec_file, case.pairs, HELD_MARGINS, library)?;
    same(case.answer, got, reference, input)
}

fn minutes_of(pairs: &[Pair]) -> u64 {
    pairs.iter().map(|pair| u64::from(pair.gap)).sum()
}

fn records_of(pairs: &[Pair]) -> u64 {
    pairs.iter().map(|pair| u64::from(pair.size)).sum()
}

/// Up to so many minutes of a round every one is a start.
const EVERY_START: u64 = 2_000;

/// The starts of a longer round are its reports, where a fullest stretch starts, and the minutes after them, where a thinnest
/// does.
fn starts(pairs: &[Pair]) -> Vec<u64> {
    match minutes_of(pairs) {
        round if round <= EVERY_START => (0..round).collect(),
        _ => report_minutes(pairs).into_iter().flat_map(|minute| [minute, minute + 1]).collect(),
    }
}

/// A rate, and whether the cycle keeps it.
#[derive(Clone, Copy)]
struct Rate {
    records: u64,
    minutes: u64,
    kept: bool,
}

fn rates_of(pairs: &[Pair], minutes: u64) -> Rates {
    let sums: Vec<u64> = starts(pairs).into_iter().map(|a| held(pairs, a, minutes)).collect();
    Rates::new(minutes, (*sums.iter().min().expect("a start"), *sums.iter().max().expect("a start")))
}

/// The supply rates and the demand rates of so many minutes, each at what the cycle holds, one below and one above.
pub struct Rates {
    supplies: Vec<Rate>,
    demands: Vec<Rate>,
}

impl Rates {
    /// By the least and the most that so many minutes hold.
    pub fn new(minutes: u64, (least, most): (u64, u64)) -> Rates {
        Rates {
            supplies: around(most).map(|b| Rate { records: b, minutes, kept: most <= b }).collect(),
            demands: around(least).map(|l| Rate { records: l, minutes, kept: least >= l }).collect(),
        }
    }
}

/// These records, one less and one more; where B and L cannot be so few or so many, as near as they can be.
fn around(records: u64) -> impl Iterator<Item = u64> {
    let near = [records.saturating_sub(1), records, records + 1];
    near.map(|records| records.clamp(1, MOST_RECORDS)).into_iter().collect::<BTreeSet<u64>>().into_iter()
}

/// Each window as R alone, as P alone, and as R with itself for P and with the window that is as far from the other end.
pub fn cases_of<'a>(pairs: &'a [Pair], rates: &[Rates]) -> Vec<Case<'a>> {
    let mut cases = vec![];
    for (one, other) in rates.iter().zip(rates.iter().rev()) {
        cases.extend(one.supplies.iter().map(|&supply| case_of(pairs, Some(supply), None)));
        cases.extend(one.demands.iter().map(|&demand| case_of(pairs, None, Some(demand))));
        for &demand in one.demands.iter().chain(&other.demands) {
            cases.extend(one.supplies.iter().map(|&supply| case_of(pairs, Some(supply), Some(demand))));
        }
    }
    cases
}

fn case_of(pairs: &[Pair], supply: Option<Rate>, demand: Option<Rate>) -> Case<'_> {
    let numbers = |rate: Rate| (rate.records, rate.minutes);
    let answer = match (supply, demand) {
        (Some(Rate { kept: false, .. }), _) => 15,
        (_, Some(Rate { kept: false, .. })) => 16,
        _ => 0,
    };
    let (supply, demand) = (supply.map(numbers), demand.map(numbers));
    let spec = Spec { supply, demand, ..no_rates((1, 1_000), (1, 20_160)) };
    Case { pairs, spec, answer }
}

/// With gap 1 the longest windows hold the most reports. 20,160 reports of 4 or of 10 records would be few records in 16 bits.
fn single_pairs() -> Vec<Input> {
    let windows = [1, 2, 19_999, 20_000, 20_001, 20_159, 20_160];
    let gaps = [1, 2, 3, 7, 10_079, 10_080, 10_081, 20_159, 20_160];
    let pairs = gaps.into_iter().flat_map(|gap| [1, 2, 4, 10, 1_000].map(|size| Pair { gap, size }));
    pairs.map(|pair| (vec![pair], windows.to_vec())).collect()
}

/// Those of the minutes that R and P can be, in order and each once.
fn windows(minutes: impl Iterator<Item = u64>) -> Vec<u64> {
    minutes.filter(|n| (1..=LONGEST).contains(n)).collect::<BTreeSet<u64>>().into_iter().collect()
}

fn and_neighbours(minutes: u64) -> [u64; 3] {
    [minutes.saturating_sub(1), minutes, minutes + 1]
}

/// Whole rounds, a minute less and a minute more: few rounds, as many as the greatest budget allows, and as many as the longest
/// window has. Short rounds get every window up to three of them.
fn whole_rounds(pairs: &[Pair]) -> Vec<u64> {
    let round = minutes_of(pairs);
    let counts = [1, 2, 3, 10, MOST_RECORDS / records_of(pairs), LONGEST / round];
    let short = 1..=(if round <= 20 { 3 * round } else { 2 });
    windows(counts.into_iter().flat_map(|n| and_neighbours(n * round)).chain(short).chain([LONGEST]))
}

/// So many pairs of changing gaps and sizes. The last gap, over the join, makes up the round, and the reports on both sides of
/// the join are the largest.
fn joined(count: usize, round: u64) -> Vec<Pair> {
    let changing = |i: usize| Pair { gap: (1 + (i * 7 + i / 5) % 5) as u16, size: (1 + i * 3 % 4) as u16 };
    let mut pairs: Vec<Pair> = (0..count).map(changing).collect();
    pairs[0].size = 9;
    pairs[count - 1].size = 8;
    pairs[count - 1].gap = (round - minutes_of(&pairs[..count - 1])) as u16;
    pairs
}

fn divisors() -> Vec<Input> {
    let few: [&[(u16, u16)]; 14] = [
        &[(1, 1)],
        &[(7, 3)],
        &[(60, 10)],
        &[(1_440, 250)],
        &[(20_160, 1_000)],
        &[(5, 3), (2, 7)],
        &[(1, 1), (6, 4)],
        &[(20_159, 1), (1, 1_000)],
        &[(2, 3), (2, 3), (9, 3)],
        &[(9, 1), (9, 2), (2, 6)],
        &[(5, 7), (5, 1), (5, 1), (5, 7)],
        &[(5, 1), (5, 7), (5, 7), (5, 1)],
        &[(1, 1), (2, 5), (3, 2), (4, 9), (10, 4)],
        &[(10, 2), (1, 1), (1, 1), (1, 1), (1, 1), (1, 1), (1, 1), (4, 2)],
    ];
    // Of these rounds 60, 360, 1,440, 2,880, 10,080 and 20,160 divide 20,160.
    let many = [(2, 60), (3, 61), (12, 59), (12, 360), (100, 1_440), (512, 2_880), (512, 10_080), (512, 20_159), (512, 20_160)];
    let every_minute = (0..512).map(|i| Pair { gap: 1, size: 1 + i % 2 }).collect();
    // The records of 67 such reports, and of 66, would be few in 16 bits.
    let large = [67, 512].map(|count| vec![Pair { gap: 1, size: 1_000 }; count]);
    let cycles = few.map(pairs_of).into_iter().chain(many.map(|(count, round)| joined(count, round)));
    let cycles = cycles.chain([every_minute]).chain(large);
    cycles.map(|pairs| (pairs.clone(), whole_rounds(&pairs))).collect()
}

/// The shortest windows, the longest, and those about as long as the gaps on both sides of the first report.
fn parts_of_a_round(pairs: &[Pair]) -> Vec<u64> {
    assert!(minutes_of(pairs) > LONGEST, "a round that is longer than every window");
    let (before, after) = (u64::from(pairs[pairs.len() - 1].gap), u64::from(pairs[0].gap));
    let gaps = [before, after, before + after].into_iter().flat_map(and_neighbours);
    windows(gaps.chain([1, 2, 100, 1_000, LONGEST - 1, LONGEST]))
}

fn long_rounds() -> Vec<Input> {
    let longest = |i: usize| Pair { gap: 20_160, size: (1 + i * 7 % 1_000) as u16 };
    let wide = |i: usize| Pair { gap: (1 + i * 611 % 1_999) as u16, size: (1 + i * 37 % 100) as u16 };
    let cycles = [
        (0..2).map(longest).collect(),
        (0..512).map(longest).collect(),
        (0..40).map(wide).collect(),
        (0..512).map(wide).collect(),
        joined(2, 20_161),
        joined(100, 20_161),
        joined(512, 21_600),
        pairs_of(&[(20_160, 1), (1, 1_000)]),
        pairs_of(&[(10_000, 5), (10_000, 7), (161, 9)]),
        // Rounds of 65,536 minutes, and of one more: they would be of 0 and of 1 in 16 bits.
        pairs_of(&[(20_160, 5), (20_160, 7), (20_160, 9), (5_056, 3)]),
        pairs_of(&[(20_160, 5), (20_160, 7), (20_160, 9), (5_057, 3)]),
    ];
    cycles.into_iter().map(|pairs: Vec<Pair>| (pairs.clone(), parts_of_a_round(&pairs))).collect()
}
