//! The margins of a cycle, against the reference, which tries every start of some rounds: the most that R minutes hold and the least that P
//! minutes do, each with the lowest report at which, or just after which, they begin. The library's answers are also held against each other:
//! for a cycle against the check of it, and against those for the same one turned or written out several times.

use crate::calls::hex;
use crate::checks::{both_rates, demand_only, supply_only, HELD, HELD_BILL};
use crate::exhaustive::SmallCycles;
use crate::generate::{self, Scale, FULL, MID, SMALL, TINY};
use crate::group::{same, Counts, Met, Runner, Verdict, RUNS};
use crate::library::{self, Library, Margins};
use crate::normal::{start_and_times, turned, AGAIN};
use crate::plans::word;
use crate::random::Random;
use reference::cycle::Cycle;
use reference::leeway::{self, Margin};
use reference::schedule::{Reports, Schedule};
use reference::{spec, Pair, Refusal, Spec};

pub fn all(runner: &mut Runner) {
    runner.random("reference: margins by sums, and by a table", RUNS / 20, &[0, 13, 14, 116, 201, 202, 301, 302], two_ways_case);
    every_small_cycle(runner);
    let refused = [1, 2, 3, 4, 12, 13, 14, 24];
    runner.random("margins of a cycle", RUNS, &[&refused[..], &MARKS].concat(), any_case);
    runner.random("margins of 100 to 512 pairs", RUNS / 20, &[&[13, 14], &MARKS[..]].concat(), many_case);
    let name = "margins of a cycle turned or written out several times";
    runner.random(name, RUNS / 2, &[0, 12, 13, 14, 201, 202, 301, 302], elsewhere_case);
}

/// What margins count as beside their answer: those of which rates are told.
const NO_RATE: u32 = 100;
const SUPPLY_ALONE: u32 = 101;
const DEMAND_ALONE: u32 = 102;
/// The check gives 15, or 16; or some P minutes are empty.
const ABOVE: u32 = 115;
const BELOW: u32 = 116;
const EMPTY: u32 = 117;
/// Not report 0 begins the fullest minutes; some report after the first of the round that does holds as many, but not report 0. And so of the
/// thinnest, one more.
const LATER: u32 = 201;
const EQUAL: u32 = 301;
/// The minutes are whole rounds, or more than one and a part, or reach over the join with less than a round.
const WHOLE_ROUNDS: u32 = 401;
const LONGER: u32 = 501;
const OVER_THE_JOIN: u32 = 601;

const MARKS: [u32; 17] = [
    0,
    NO_RATE,
    SUPPLY_ALONE,
    DEMAND_ALONE,
    ABOVE,
    BELOW,
    EMPTY,
    LATER,
    LATER + 1,
    EQUAL,
    EQUAL + 1,
    WHOLE_ROUNDS,
    WHOLE_ROUNDS + 1,
    LONGER,
    LONGER + 1,
    OVER_THE_JOIN,
    OVER_THE_JOIN + 1,
];

/// What the places hold before a call.
pub const HELD_MARGINS: [library::Margin; 2] = [(HELD_BILL[0], HELD), (HELD_BILL[1], !HELD)];

/// What the call answers, and what its places hold afterwards, as the reference has it.
pub fn given(made: Result<leeway::Margins, Refusal>, [most, least]: [library::Margin; 2]) -> Margins {
    let place = |told: Option<Margin>, held| told.map_or(held, |margin| (margin.records, word(margin.report)));
    match made {
        Ok(margins) => Margins { answer: 0, most: place(margins.most, most), least: place(margins.least, least) },
        Err(answer) => Margins { answer, most, least },
    }
}

/// The same of a specification's file.
fn given_for(file: &[u8], pairs: &[Pair], before: [library::Margin; 2]) -> Margins {
    given(spec::read(file).and_then(|spec| leeway::margins(&spec, pairs)), before)
}

/// "15 exactly when the most is above B, and without it 16 exactly when the least is below L"; before them, one number.
fn number_by(spec: &Spec, got: &Margins) -> Refusal {
    match got.answer {
        0 if spec.supply.is_some_and(|(b, _)| got.most.0 > b) => 15,
        0 if spec.demand.is_some_and(|(l, _)| got.least.0 < l) => 16,
        answer => answer,
    }
}

/// The library's margins are the reference's, and say what the check of the cycle does.
pub fn compare(file: &[u8], pairs: &[Pair], before: [library::Margin; 2], library: &mut Library) -> Result<Margins, String> {
    let wanted = given_for(file, pairs, before);
    let got = library.margins(file, pairs, before);
    let input = || format!("spec {} pairs {pairs:?}", hex(file));
    same(wanted.answer, got, wanted, input)?;
    if let Ok(spec) = spec::read(file) {
        same(wanted.answer, number_by(&spec, &got), library.check_cycle(file, pairs), || format!("{}, checked", input()))?;
    }
    Ok(got)
}

/// Which of the two are told: none where the answer is a refusal.
fn told(file: &[u8], answer: u32) -> [bool; 2] {
    match spec::read(file) {
        Ok(spec) if answer == 0 => [spec.supply.is_some(), spec.demand.is_some()],
        _ => [false; 2],
    }
}

/// Asked again, where what is not told lies where nothing can be written.
fn again(file: &[u8], pairs: &[Pair], answer: u32, library: &mut Library) -> Verdict {
    let got = library.margins_told(file, pairs, told(file, answer));
    same(answer, got, answer, || format!("spec {} pairs {pairs:?}, again", hex(file)))
}

/// The same of what is told rightly.
pub fn compare_and_again(file: &[u8], pairs: &[Pair], library: &mut Library) -> Result<Margins, String> {
    let got = compare(file, pairs, HELD_MARGINS, library)?;
    again(file, pairs, got.answer, library)?;
    Ok(got)
}

/// What an answer counts as beside itself.
fn marks(spec: &Spec, pairs: &[Pair], got: &Margins) -> Vec<u32> {
    let number = number_by(spec, got);
    let marks = match (spec.supply, spec.demand) {
        (None, None) => vec![NO_RATE],
        (Some(_), None) => vec![SUPPLY_ALONE],
        (None, Some(_)) => vec![DEMAND_ALONE],
        _ => vec![],
    };
    let most = spec.supply.map(|(_, r)| marks_of(pairs, r, 0, got.most));
    let least = spec.demand.map(|(_, p)| marks_of(pairs, p, 1, got.least));
    let empty = spec.demand.filter(|_| got.least.0 == 0).map(|_| EMPTY);
    let checked = (number > 14).then_some(100 + number);
    [marks, most.unwrap_or_default(), least.unwrap_or_default(), Vec::from_iter(empty), Vec::from_iter(checked)].concat()
}

/// Those of one margin, of so many minutes that begin `after` minutes after a report.
fn marks_of(pairs: &[Pair], minutes: u64, after: u64, (records, report): library::Margin) -> Vec<u32> {
    let round = Cycle(pairs).minutes_in_round();
    let reports = Reports::lay_out(&Cycle(pairs), round + minutes + after);
    let begins = report_minutes(pairs);
    let holds = |i: usize| reports.stretch(begins[i] + after, minutes) == records;
    let report = report as usize;
    let marks = [
        (report > 0, LATER),
        (report > 0 && (report + 1..pairs.len()).any(holds), EQUAL),
        (minutes % round == 0, WHOLE_ROUNDS),
        (minutes > round && minutes % round > 0, LONGER),
        (minutes < round && begins[report] + after + minutes > round, OVER_THE_JOIN),
    ];
    marks.into_iter().filter(|(holds, _)| *holds).map(|(_, mark)| mark + after as u32).collect()
}

/// The minutes of the reports of the first round.
pub fn report_minutes(pairs: &[Pair]) -> Vec<u64> {
    let before = |minute: &mut u64, pair: &Pair| Some(std::mem::replace(minute, *minute + u64::from(pair.gap)));
    pairs.iter().scan(0, before).collect()
}

fn counted(file: &[u8], pairs: &[Pair], got: &Margins) -> Counts {
    let mut counts = Counts::new();
    got.answer.add_to(&mut counts);
    if let (Ok(spec), 0) = (spec::read(file), got.answer) {
        marks(&spec, pairs, got).into_iter().for_each(|mark| mark.add_to(&mut counts));
    }
    counts
}

/// The same of a specification with small numbers.
pub fn compare_small(spec: &Spec, pairs: &[Pair], library: &mut Library) -> Result<Counts, String> {
    let file = spec::write(spec);
    let got = compare(&file, pairs, HELD_MARGINS, library)?;
    Ok(counted(&file, pairs, &got))
}

const CYCLES: SmallCycles = SmallCycles { pairs: 4, gaps: 3, sizes: 2 };
const FLAT_CYCLES: SmallCycles = SmallCycles { pairs: 8, gaps: 2, sizes: 1 };
const EVEN_CYCLES: SmallCycles = SmallCycles { pairs: 6, gaps: 1, sizes: 3 };

/// R and P are 1 to this many minutes.
const WINDOWS: u64 = 17;

fn every_small_cycle(runner: &mut Runner) {
    let cycles = [("three gaps and two sizes", CYCLES), ("two gaps", FLAT_CYCLES), ("three sizes", EVEN_CYCLES)];
    for (name, cycles) in cycles {
        let name =
            format!("every cycle of up to {} pairs, {name}: the margins for R and P of 1 to {WINDOWS} minutes", cycles.pairs);
        let answers = [12, 0, 101, 102, 115, 116, 201, 202, 301, 302, 401, 402, 501, 502, 601, 602];
        runner.every(&name, cycles.count(), &answers, |number, library| every_window(&cycles.cycle(number), library));
    }
}

/// Each rate alone, and each with one of as many minutes and of as many less as there may be.
fn every_window(pairs: &[Pair], library: &mut Library) -> Result<Counts, String> {
    let mut counts = Counts::new();
    let range = (1, 3);
    for n in 1..=WINDOWS {
        let specs = [
            supply_only(range, range, (6, n)),
            demand_only(range, range, (6, n)),
            both_rates(range, range, (6, n), (6, n)),
            both_rates(range, range, (6, n), (6, WINDOWS + 1 - n)),
        ];
        for spec in specs {
            compare_small(&spec, pairs, library)?.add_to(&mut counts);
        }
    }
    Ok(counts)
}

/// The minutes of some reports in a row, whole rounds or nearly, any number, or those that the rate has.
fn some_window(random: &mut Random, pairs: &[Pair], minutes: u64) -> u64 {
    let (run, count) = (Cycle(pairs), pairs.len() as u64);
    let round = run.minutes_in_round();
    let near = match random.below(5) {
        0 => minutes,
        1 => 1 + random.of_any_length(14),
        2 => round * random.between(1, 3.max(20_160 / round)),
        _ => {
            let (first, reports) = (random.below(count), random.below(2 * count.min(20)));
            (first..first + reports).map(|i| run.gap(i)).sum()
        }
    };
    random.near(near, 1, 20_160)
}

/// A list, mostly; or one that is repeated and then has a pair changed, so that many stretches hold nearly the same.
fn some_pairs(random: &mut Random, spec: &Spec, count: usize) -> Vec<Pair> {
    if random.once_in(2) {
        return generate::cycle_in_range(random, spec, count);
    }
    let length = random.between(1, count.min(6) as u64) as usize;
    let list = generate::cycle_in_range(random, spec, length);
    let mut pairs: Vec<Pair> = list.into_iter().cycle().take(count).collect();
    if random.once_in(2) {
        let at = random.below(count as u64) as usize;
        pairs[at] = generate::cycle_in_range(random, spec, 1)[0];
    }
    pairs
}

/// A specification and a cycle of so many pairs, whose rates have minutes that its reports lie in.
fn some_input(random: &mut Random, scale: Scale, count: usize) -> (Spec, Vec<Pair>) {
    let mut spec = generate::near_spec(random, scale);
    let mut pairs = some_pairs(random, &spec, count);
    for (_, minutes) in [&mut spec.supply, &mut spec.demand].into_iter().flatten() {
        *minutes = some_window(random, &pairs, *minutes);
    }
    if random.once_in(12) {
        generate::spoil(random, &spec, &mut pairs);
    }
    (spec, pairs)
}

/// Any numbers, so that a call that writes there is seen.
fn some_places(random: &mut Random) -> [library::Margin; 2] {
    [0; 2].map(|_| (random.next(), random.next() as u32))
}

/// Rounds of few minutes and windows of few: each sum is made anew.
fn two_ways_case(random: &mut Random, _: &mut Library) -> Result<Counts, String> {
    let (spec, pairs) = loop {
        let (scale, count) = (random.pick(&[TINY, TINY, SMALL]), random.between(1, 8) as usize);
        let (spec, pairs) = some_input(random, scale, count);
        let minutes = pairs.iter().map(|pair| u64::from(pair.gap)).sum::<u64>();
        let windows = [spec.supply, spec.demand].into_iter().flatten().map(|(_, minutes)| minutes);
        if minutes <= 100 && windows.max().unwrap_or(0) <= 300 {
            break (spec, pairs);
        }
    };
    let by_sums = given(leeway::margins_by_sums(&spec, &pairs), HELD_MARGINS);
    let by_table = given(leeway::margins(&spec, &pairs), HELD_MARGINS);
    same(by_sums.answer, by_table, by_sums, || format!("{spec:?} {pairs:?}"))?;
    Ok(counted(&spec::write(&spec), &pairs, &by_sums))
}

fn any_case(random: &mut Random, library: &mut Library) -> Result<Counts, String> {
    let (scale, count) = (generate::scale(random), generate::count(random));
    let (spec, pairs) = if random.once_in(3) { generate::spec_and_cycle(random) } else { some_input(random, scale, count) };
    let file = if random.once_in(40) { generate::spec_file(random) } else { spec::write(&spec) };
    let got = compare(&file, &pairs, some_places(random), library)?;
    if told(&file, got.answer) != [true; 2] && random.once_in(AGAIN) {
        again(&file, &pairs, got.answer, library)?;
    }
    Ok(counted(&file, &pairs, &got))
}

/// Rounds of some hundred minutes up to some million.
fn many_case(random: &mut Random, library: &mut Library) -> Result<Counts, String> {
    let count = if random.once_in(4) { 512 } else { random.between(100, 512) as usize };
    let scale = random.pick(&[TINY, TINY, SMALL, MID, FULL]);
    let (spec, pairs) = some_input(random, scale, count);
    let file = spec::write(&spec);
    let got = compare(&file, &pairs, some_places(random), library)?;
    Ok(counted(&file, &pairs, &got))
}

/// Where one is told, the minutes that it names hold what it says, report by report.
fn holds(spec: &Spec, pairs: &[Pair], got: &Margins) -> bool {
    let begins = report_minutes(pairs);
    let held = |(records, report): library::Margin, minutes: u64, after: u64| {
        let minute = begins.get(report as usize);
        minute.is_some_and(|minute| leeway::held(pairs, minute + after, minutes) == records)
    };
    spec.supply.map_or(got.most == HELD_MARGINS[0], |(_, r)| held(got.most, r, 0))
        && spec.demand.map_or(got.least == HELD_MARGINS[1], |(_, p)| held(got.least, p, 1))
}

/// Begun at its report or before it, a margin has the same one; begun after it, the next that holds as much, or the same a round later.
fn is_elsewhere(one: library::Margin, other: library::Margin, start: u32, count: u32) -> bool {
    let (report, moved) = (one.1, other.1);
    let place = if start <= report { moved == report - start } else { moved < count && (moved + start) % count >= report };
    one.0 == other.0 && place
}

/// To begin a cycle at another pair moves the reports, to write it out several times does not; neither changes what is held.
fn elsewhere_case(random: &mut Random, library: &mut Library) -> Result<Counts, String> {
    let (scale, count) = (generate::scale(random), generate::count(random));
    let (spec, pairs) = some_input(random, scale, count);
    let (start, times) = start_and_times(random, pairs.len());
    let other_pairs = turned(&pairs, start).repeat(times);
    let file = spec::write(&spec);
    let [got, other] = [&pairs, &other_pairs].map(|pairs| library.margins(&file, pairs, HELD_MARGINS));
    let agree = if got.answer == 0 {
        let moved = |rate: bool, one, other| !rate || is_elsewhere(one, other, word(start as u64), word(pairs.len() as u64));
        moved(spec.supply.is_some(), got.most, other.most)
            && moved(spec.demand.is_some(), got.least, other.least)
            && holds(&spec, &pairs, &got)
            && holds(&spec, &other_pairs, &other)
    } else {
        got == other
    };
    if got.answer != other.answer || !agree {
        return Err(format!("{got:?}, {times} times from pair {start} on {other:?}, input {spec:?} {pairs:?}"));
    }
    Ok(counted(&file, &pairs, &got))
}
