//! The normal form of a cycle against the reference, which tries every length and every turn; and whether two cycles are one run, for which
//! it tries every start. The library's answers are also held against each other: for a cycle, for the same one turned or written out
//! several times, and for its normal form, also those of the checks.

use crate::calls::{hex, listed, some_pair};
use crate::checks::{no_rates, HELD, HELD_BILL, HELD_PAIR};
use crate::exhaustive::SmallCycles;
use crate::generate;
use crate::group::{same, Counts, Met, Runner, Verdict, RUNS};
use crate::late;
use crate::library::{Library, Outcome};
use crate::plans::{word, LAST};
use crate::random::Random;
use reference::{file, normal, spec, Pair, Refusal};

pub fn all(runner: &mut Runner) {
    runner.random("reference: two runs over whole rounds, and over a few reports", RUNS / 20, &[0, 1], two_ways_case);
    every_small_cycle(runner);
    every_two_small_cycles(runner);
    runner.random("normal form of a cycle", RUNS, &[0, 12, 20, 100, 200], form_case);
    runner.random("normal form of 480 to 512 pairs that repeat by each divisor", RUNS / 10, &[0, 1], divisor_case);
    runner.random("normal form of a cycle turned or written out several times", RUNS, &[1, 10, 11], elsewhere_case);
    runner.random("normal form of a normal form", RUNS, &[0, 1], twice_case);
    runner.random("one normal form where one run is the other", RUNS, &[0, 1], nearly_case);
    let numbers = [0, 1, 2, 3, 4, 12, 13, 14, 15, 16, 24];
    let late = [100, 101, 102, 103, 104, 112, 113, 114, 115, 116, 124, 126];
    let name = "a cycle and its normal form get the same number of every check";
    runner.random(name, RUNS / 2, &[&numbers[..], &late].concat(), numbers_case);
}

fn every_small_cycle(runner: &mut Runner) {
    let answers = [0, 12, 20, 100];
    for (name, cycles) in by_alphabet([13, 12, 8, 7]) {
        let name = format!("every cycle of up to {} pairs, {name}: its normal form in every number of places", cycles.pairs);
        runner.every(&name, cycles.count(), &answers, |number, library| every_number_of_places(&cycles.cycle(number), library));
    }
    let name = "every cycle of up to 2 pairs, numbers at their ends: its normal form in every number of places";
    runner.every(name, OF_ENDS.count(), &answers, |number, library| {
        every_number_of_places(&at_ends(&OF_ENDS.cycle(number)), library)
    });
}

fn every_two_small_cycles(runner: &mut Runner) {
    for (name, cycles) in by_alphabet([8, 8, 5, 4]) {
        let name =
            format!("every two cycles of up to {} pairs, {name}: one normal form where one run is the other", cycles.pairs);
        let count = cycles.count() - 1;
        runner.every(&name, count * count, &[0, 1], |number, library| {
            two_cycles(&cycles.cycle(1 + number / count), &cycles.cycle(1 + number % count), library)
        });
    }
}

/// Small cycles of two pairs that differ by gap, of two that differ by size, of three, and of four: up to so many pairs each.
fn by_alphabet([by_gap, by_size, three, four]: [u32; 4]) -> [(&'static str, SmallCycles); 4] {
    [
        ("two gaps", SmallCycles { pairs: by_gap, gaps: 2, sizes: 1 }),
        ("two sizes", SmallCycles { pairs: by_size, gaps: 1, sizes: 2 }),
        ("three gaps", SmallCycles { pairs: three, gaps: 3, sizes: 1 }),
        ("two gaps and two sizes", SmallCycles { pairs: four, gaps: 2, sizes: 2 }),
    ]
}

/// The ends of what one byte and two can hold, and where a sign would change. Cycles of two pairs compare each two.
const ENDS: [u16; 10] = [0, 1, 2, 254, 255, 256, 32_767, 32_768, 65_534, 65_535];
const OF_ENDS: SmallCycles = SmallCycles { pairs: 2, gaps: ENDS.len() as u64, sizes: ENDS.len() as u64 };

/// The same cycle with each gap and size as the number of one of these.
fn at_ends(pairs: &[Pair]) -> Vec<Pair> {
    let end = |number: u16| ENDS[usize::from(number) - 1];
    pairs.iter().map(|pair| Pair { gap: end(pair.gap), size: end(pair.size) }).collect()
}

/// The normal form, in the places that hold `before`, is the reference's.
fn compare(pairs: &[Pair], before: &[Pair], count: u32, library: &mut Library) -> Verdict {
    let wanted = listed(normal::form(pairs, before.len()), before, count);
    let got = library.normal_form(pairs, before, count);
    same(wanted.0.answer, got, wanted, || format!("{pairs:?} in {} places", before.len()))
}

/// What got a refusal gets it again where nothing can be written.
pub fn refused_again(pairs: &[Pair], before: &[Pair], answer: u32, library: &mut Library) -> Verdict {
    let got = library.refused_normal_form(pairs, before);
    same(answer, got, answer, || format!("{pairs:?} in {} places, again", before.len()))
}

/// The normal form by the library, in as many places as are always enough; or the refusal.
pub fn form_of(pairs: &[Pair], library: &mut Library) -> Result<Vec<Pair>, Refusal> {
    let (Outcome { answer, places: [count] }, mut form) = library.normal_form(pairs, &[HELD_PAIR; 512], HELD);
    form.truncate(count as usize);
    if answer == 0 {
        Ok(form)
    } else {
        Err(answer)
    }
}

/// Whether the library gives two cycles, none of which it refuses, one normal form.
pub fn have_one_form(one: &[Pair], other: &[Pair], library: &mut Library) -> bool {
    let [one, other] = [one, other].map(|pairs| form_of(pairs, library));
    one.is_ok() && one == other
}

/// Up to so many pairs the reference compares runs over whole rounds as well.
const FEW_PAIRS: usize = 40;

/// Whether two cycles are one run, by a few reports and, where the rounds are short, by whole ones; both must agree.
pub fn are_one_run(one: &[Pair], other: &[Pair]) -> bool {
    let are = normal::are_one_run(one, other);
    if one.len() + other.len() <= FEW_PAIRS {
        assert_eq!(are, normal::are_one_run_by_rounds(one, other), "two ways of the reference");
    }
    are
}

/// Of two runs it does not matter which of them is begun at another report.
fn two_ways_case(random: &mut Random, _: &mut Library) -> Verdict {
    let (one, other) = two_near(random);
    let by_rounds = normal::are_one_run_by_rounds(&one, &other);
    let others = [normal::are_one_run(&one, &other), normal::are_one_run(&other, &one)];
    same(u32::from(by_rounds), others, [by_rounds; 2], || format!("{one:?} and {other:?}"))
}

/// From none to one more than the cycle has pairs. It counts as 100 where the form fits into fewer places than the cycle has pairs. What is
/// refused for no place, and for one too few, is asked again.
fn every_number_of_places(pairs: &[Pair], library: &mut Library) -> Result<Counts, String> {
    let length = normal::form(pairs, 512).map_or(0, |form| form.len());
    let mut counts = Counts::new();
    for places in 0..=pairs.len() + 1 {
        let before = vec![HELD_PAIR; places];
        let answer = compare(pairs, &before, HELD, library)?;
        if answer != 0 && (places == 0 || places + 1 == length) {
            refused_again(pairs, &before, answer, library)?;
        }
        let met = if answer == 0 && places < pairs.len() { 100 } else { answer };
        met.add_to(&mut counts);
    }
    Ok(counts)
}

/// It counts as 1 where one run is the other.
fn two_cycles(one: &[Pair], other: &[Pair], library: &mut Library) -> Verdict {
    let are = are_one_run(one, other);
    same(u32::from(are), have_one_form(one, other, library), are, || format!("{one:?} and {other:?}"))
}

/// The same round, begun at another of its pairs.
pub fn turned<T: Clone>(pairs: &[T], start: usize) -> Vec<T> {
    [&pairs[start..], &pairs[..start]].concat()
}

/// So many pairs: of few gaps or of any, or of one gap; and so of sizes.
fn some_list(random: &mut Random, count: usize) -> Vec<Pair> {
    let numbers = [(7, 7), (0, 1), (0, 1), (3, 5), (254, 258), (0, 65_535)];
    let (size, gap) = (random.pick(&numbers), random.pick(&numbers));
    generate::cycle_in_range(random, &no_rates(size, gap), count)
}

/// The pair at which a cycle of so many is begun, and how often it is written out then: once, mostly, or as it has room.
pub fn start_and_times(random: &mut Random, count: usize) -> (usize, usize) {
    if !(1..=512).contains(&count) {
        return (0, 1);
    }
    let start = if random.once_in(4) { 0 } else { random.below(count as u64) };
    let most = 512 / count as u64;
    let any = random.between(1, most);
    (start as usize, random.pick(&[1, 1, 2, 3, any, most]).min(most) as usize)
}

/// The same cycle, begun at another pair and written out several times, mostly.
fn elsewhere(random: &mut Random, pairs: &[Pair]) -> Vec<Pair> {
    let (start, times) = start_and_times(random, pairs.len());
    turned(pairs, start).repeat(times)
}

/// Changes a little: a number by one, two pairs that follow each other, which change places or their sizes alone, or a pair, which becomes
/// the next one.
fn changed(random: &mut Random, mut pairs: Vec<Pair>) -> Vec<Pair> {
    let count = pairs.len();
    let at = if random.once_in(2) { count - 1 } else { random.below(count as u64) as usize };
    let next = (at + 1) % count;
    match random.below(6) {
        0 => pairs[at].gap = pairs[at].gap.wrapping_add(1),
        1 => pairs[at].size = pairs[at].size.wrapping_add(1),
        2 => pairs[at].size = pairs[at].size.wrapping_sub(1),
        3 => pairs.swap(at, next),
        4 => (pairs[at].size, pairs[next].size) = (pairs[next].size, pairs[at].size),
        _ => pairs[at] = pairs[next],
    }
    pairs
}

/// A cycle that repeats, mostly; some have a pair changed after that, are cut off in a repetition, or have none or too many pairs.
fn some_cycle(random: &mut Random) -> Vec<Pair> {
    if random.once_in(20) {
        return generate::any_pairs(random);
    }
    let count = if random.once_in(10) { random.between(500, 512) as usize } else { generate::count(random) };
    let list = some_list(random, count);
    let mut pairs = elsewhere(random, &list);
    if random.once_in(4) {
        pairs = changed(random, pairs);
    }
    if random.once_in(4) {
        pairs.truncate(random.between(1, pairs.len() as u64) as usize);
    }
    pairs
}

/// Two cycles that are one run, or nearly.
fn two_near(random: &mut Random) -> (Vec<Pair>, Vec<Pair>) {
    let one = loop {
        let pairs = some_cycle(random);
        if (1..=512).contains(&pairs.len()) {
            break pairs;
        }
    };
    let other = elsewhere(random, &one);
    let other = if random.once_in(2) { changed(random, other) } else { other };
    (one, other)
}

/// Of so many refusals one is asked for again: to shut memory and open it takes longer than the call.
pub const AGAIN: u64 = 30;

/// It counts as 100 where the form is shorter than the cycle, and as 200 where the places are also fewer than the cycle has pairs.
fn form_case(random: &mut Random, library: &mut Library) -> Verdict {
    let pairs = some_cycle(random);
    let length = form_of(&pairs, library).map_or(0, |form| form.len() as u64);
    let places = match random.below(6) {
        0 => random.below(length + 1),
        1 => length.saturating_sub(1),
        2 => length,
        3 => length + random.below(3),
        4 => pairs.len() as u64 + random.below(3),
        _ => 512 + random.below(4),
    };
    let before: Vec<Pair> = (0..places).map(|_| some_pair(random)).collect();
    let [count] = random.places();
    let answer = compare(&pairs, &before, count, library)?;
    if answer != 0 && random.once_in(AGAIN) {
        refused_again(&pairs, &before, answer, library)?;
    }
    let count = pairs.len() as u64;
    let shorter = u32::from(length < count) + u32::from(places < count);
    Ok(if answer == 0 { 100 * shorter } else { answer })
}

/// 480 has 24 divisors, 512 has 10, 511 is 7 × 73, and 509 is a prime.
pub const COUNTS: [usize; 4] = [480, 509, 511, 512];

pub fn divisors(count: usize) -> Vec<usize> {
    (1..=count).filter(|length| count % length == 0).collect()
}

/// It counts as 1 where the list that is written out repeats itself.
fn divisor_case(random: &mut Random, library: &mut Library) -> Verdict {
    let all = COUNTS.map(|count| divisors(count).into_iter().map(|length| (count, length)).collect::<Vec<_>>()).concat();
    let (count, length) = all[random.case as usize % all.len()];
    let list = some_list(random, length);
    let start = random.below(length as u64) as usize;
    let pairs = turned(&list, start).repeat(count / length);
    let form = normal::form(&pairs, length).map_err(|answer| format!("reference {answer}, {pairs:?} in {length} places"))?;
    let before: Vec<Pair> = (0..form.len() + 1).map(|_| some_pair(random)).collect();
    for places in [form.len() - 1, form.len(), form.len() + 1] {
        compare(&pairs, &before[..places], HELD, library)?;
    }
    Ok(u32::from(form.len() < length))
}

/// It counts as 1 where the cycle is begun at another pair, and as 10 more where it is written out several times.
fn elsewhere_case(random: &mut Random, library: &mut Library) -> Verdict {
    let pairs = some_cycle(random);
    let (start, times) = start_and_times(random, pairs.len());
    let other = turned(&pairs, start).repeat(times);
    let before = vec![some_pair(random); 513];
    let [count] = random.places();
    let got = library.normal_form(&other, &before, count);
    let met = u32::from(start > 0) + 10 * u32::from(times > 1);
    same(met, got, library.normal_form(&pairs, &before, count), || format!("{other:?} and {pairs:?}"))
}

/// It counts as 1 where the cycle is not its own normal form.
fn twice_case(random: &mut Random, library: &mut Library) -> Verdict {
    let pairs = some_cycle(random);
    let form = match form_of(&pairs, library) {
        Ok(form) => form,
        Err(refusal) => return Ok(refusal),
    };
    let before = vec![some_pair(random); form.len() + random.below(2) as usize];
    let wanted = listed(Ok(form.clone()), &before, HELD);
    same(u32::from(form != pairs), library.normal_form(&form, &before, HELD), wanted, || format!("{pairs:?}"))
}

fn nearly_case(random: &mut Random, library: &mut Library) -> Verdict {
    let (one, other) = two_near(random);
    two_cycles(&one, &other, library)
}

/// What the checks answer: of a cycle whose reports are not late, of its file and of a bill, and for each lateness, which counts as 100
/// more. A cycle of which there is no file has one of no pairs.
fn numbers(file: &[u8], pairs: &[Pair], latenesses: &[u64], library: &mut Library) -> Vec<u32> {
    let written = file::write(pairs, 2_562).unwrap_or(vec![0, 0]);
    let billed = library.cycle_cost(file, pairs, 1_000, HELD_BILL).answer;
    let mut numbers = vec![library.check_cycle(file, pairs), library.verdict(file, &written), billed];
    numbers.extend(latenesses.iter().map(|&lateness| 100 + library.check_late(file, pairs, word(lateness))));
    numbers
}

/// A cycle that has no normal form gets what an empty one does. What is its own normal form counts as 200.
fn numbers_case(random: &mut Random, library: &mut Library) -> Result<Counts, String> {
    let scale = generate::scale(random);
    let (spec, pairs, lateness) = late::some_input(random, scale);
    let file = if random.once_in(40) { generate::spec_file(random) } else { spec::write(&spec) };
    let pairs = elsewhere(random, &pairs);
    let latenesses = [0, lateness, lateness / 2, (lateness + 1).min(LAST), random.pick(&[1, 2, 10, 1_440, 1_441])];
    let form = form_of(&pairs, library).unwrap_or_default();
    let (of_cycle, of_form) = (numbers(&file, &pairs, &latenesses, library), numbers(&file, &form, &latenesses, library));
    let input = || format!("spec {} pairs {pairs:?}, late by {latenesses:?}", hex(&file));
    same(0, &of_cycle, &of_form, input)?;
    let mut counts = Counts::new();
    let met = if form == pairs { vec![200] } else { of_cycle };
    met.into_iter().for_each(|number| number.add_to(&mut counts));
    Ok(counts)
}
