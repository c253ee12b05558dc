//! The box plan, against the reference: on every small specification every cycle of a few pairs is tried, on others every gap and each
//! number of pairs that a box can load. Each plan that the library gives is written out, read back and checked. The library's answers are
//! also held against each other: for one lateness against those for others, and for reports on time against the even plan.

use crate::calls::{self, expected, hex};
use crate::checks::HELD;
use crate::generate;
use crate::group::{same, Counts, Met, Runner, Verdict, RUNS};
use crate::late::make_room;
use crate::library::{Library, Outcome};
use crate::normal::AGAIN;
use crate::plans::{word, LAST};
use crate::random::Random;
use reference::{box_plan, cycle, even, file, late, spec, Kind, Pair, Plan, Refusal, Spec};

pub fn all(runner: &mut Runner) {
    let name = "reference: box plans by cycles and by counts";
    runner.random(name, RUNS / 20, &[0, 1, 2, 30], by_cycles_case);
    let name = "reference: box plans by every count, and where some mean fits";
    runner.random(name, RUNS / 400, &[0, LATE, SEVERAL, 30], by_counts_case);
    let numbers = [0, 1, 2, 3, 4, 24, 26, 30, LATE, FIRST_OF_TWO, SECOND, BOTH, AT_THE_LOWER_END, AT_THE_UPPER_END];
    runner.random("box plan", RUNS / 2, &numbers, any_case);
    let name = "box plan, rates that one mean just keeps";
    let tight = [0, 30, SEVERAL, AT_DMAX, AT_BUDGET, MOST, WANT_OF_PAIRS, 30 + WANT_OF_PAIRS, 30 + LATE];
    runner.random(name, RUNS / 4, &[&tight[..], &numbers[8..]].concat(), tight_case);
    runner.random("box plan, written out and checked by the reference", RUNS / 10, &[0, LATE, SEVERAL], checked_case);
    runner.random("box plan beside the even plan", RUNS / 8, &[0, 1, 2, 10, 30], beside_even_case);
    runner.random("box plan for more and more lateness", RUNS / 20, &[0, 1, 2, 30], growing_case);
}

/// What a box plan counts as, beside its answer: reports may be late.
pub const LATE: u32 = 100;
/// It has several pairs, or as many as a cycle can.
pub const SEVERAL: u32 = 200;
const MOST: u32 = 300;
/// A longer gap, or with 30 any, is left out only for want of pairs.
const WANT_OF_PAIRS: u32 = 400;
/// All its sizes are dmax; its fullest R minutes can hold B by its mean.
const AT_DMAX: u32 = 500;
const AT_BUDGET: u32 = 600;
/// Of two ranges its gap and all that delays make of it lie in the first, in the second, or in both.
pub const FIRST_OF_TWO: u32 = 700;
pub const SECOND: u32 = 800;
pub const BOTH: u32 = 900;
/// Delays reach just to an end of its range.
pub const AT_THE_LOWER_END: u32 = 1_000;
pub const AT_THE_UPPER_END: u32 = 1_100;

/// Up to so many steps the reference tries every gap, each that delays make of it, and each number of pairs.
const FEW_STEPS: u64 = 20_000;

/// Up to so many steps the reference checks each box plan that the library gives.
const FEW_CHECK_STEPS: u64 = 2_000_000;

/// The reference's box plan.
pub fn made(spec: &Spec, lateness: u64) -> Result<Plan, Refusal> {
    let made = box_plan::box_plan(spec, lateness);
    if spec.gaps().count() as u64 * (512 + 2 * lateness.min(1_441)) <= FEW_STEPS {
        assert_eq!(made, box_plan::box_plan_by_counts(spec, lateness), "two ways of the reference");
    }
    made
}

/// What the call answers, and what its places hold afterwards, as the reference has it.
pub fn given_for(file: &[u8], lateness: u64, before: [u32; 3]) -> Outcome<3> {
    given(spec::read(file).and_then(|spec| made(&spec, lateness)), before)
}

fn given(made: Result<Plan, Refusal>, before: [u32; 3]) -> Outcome<3> {
    expected(made.map(|plan| [plan.k, plan.period, plan.total]), before)
}

pub fn plan_of(outcome: &Outcome<3>) -> Option<Plan> {
    let [k, period, total] = outcome.places.map(u64::from);
    (outcome.answer == 0).then_some(Plan { kind: Kind::Even, k, period, total })
}

/// The box plan is written out as the reference does it, read back, and checked by the library. What the cycle is comes back.
pub fn loads(spec: &Spec, lateness: u64, plan: [u32; 3], library: &mut Library) -> Result<Vec<Pair>, String> {
    let [k, period, total] = plan.map(u64::from);
    let wanted = Plan { kind: Kind::Even, k, period, total }.write(usize::MAX).map_err(|refusal| format!("refused {refusal}"))?;
    let (outcome, bytes) = library.write_plan(1, plan, &vec![0xA5; wanted.len()], HELD);
    let pairs = file::read(&wanted, 512).map_err(|refusal| format!("not read: {refusal}"))?;
    let (read, places) = library.read_cycle(&bytes, &vec![Pair { gap: 0, size: 0 }; pairs.len()], HELD);
    let spec_file = spec::write(spec);
    let answers = [
        outcome.answer,
        read.answer,
        library.check_late(&spec_file, &pairs, word(lateness)),
        library.check_cycle(&spec_file, &pairs),
        library.verdict(&spec_file, &bytes),
    ];
    let is_written = outcome.places == [wanted.len() as u32] && bytes == wanted && places == pairs;
    if answers != [0; 5] || !is_written || pairs.len() as u64 != k {
        return Err(format!("plan {plan:?}: answers {answers:?}, file {}", hex(&bytes)));
    }
    Ok(pairs)
}

/// Of what is refused some is asked for again where nothing can be written.
fn seldom_again(random: &mut Random, file: &[u8], lateness: u64, answer: u32, library: &mut Library) -> Result<(), String> {
    if answer != 0 && random.once_in(AGAIN) {
        let got = library.refused_box_plan(file, word(lateness));
        same(answer, got, answer, || format!("spec {}, {lateness} minutes late, again", hex(file)))?;
    }
    Ok(())
}

/// The library gives what the reference does, and a plan can be loaded.
fn compare(random: &mut Random, file: &[u8], lateness: u64, library: &mut Library) -> Result<Counts, String> {
    let before = random.places();
    let wanted = given_for(file, lateness, before);
    let got = library.box_plan(file, word(lateness), before);
    let input = || format!("spec {}, {lateness} minutes late", hex(file));
    same(wanted.answer, got, wanted, input)?;
    seldom_again(random, file, lateness, wanted.answer, library)?;
    let mut counts = Counts::new();
    wanted.answer.add_to(&mut counts);
    if let Ok(spec) = spec::read(file) {
        if let Some(plan) = plan_of(&got) {
            let pairs = loads(&spec, lateness, got.places, library).map_err(|text| format!("{text}, {}", input()))?;
            passed(&spec, lateness, &plan, &pairs, FEW_CHECK_STEPS)?;
        }
        marks(&spec, lateness, &wanted).into_iter().for_each(|mark| mark.add_to(&mut counts));
    }
    Ok(counts)
}

/// Where the reports in R minutes, by the mean, are just as many records as the budget.
fn is_at_budget(spec: &Spec, lateness: u64, plan: &Plan) -> bool {
    let gap = plan.period / plan.k;
    spec.supply.is_some_and(|(b, r)| (r + lateness).div_ceil(gap) * plan.total == b * plan.k)
}

/// What an answer counts as beside itself.
pub fn marks(spec: &Spec, lateness: u64, outcome: &Outcome<3>) -> Vec<u32> {
    let Some(plan) = plan_of(outcome) else { return marks_of_none(spec, lateness, outcome.answer) };
    let gap = plan.period / plan.k;
    let (least, most) = (gap - lateness, gap + lateness);
    let range = spec.second.filter(|second| least >= second.0).unwrap_or(spec.gap);
    let marks = [
        (lateness > 0, LATE),
        (plan.k > 1, SEVERAL),
        (plan.k == 512, MOST),
        (wants_pairs(spec, lateness, gap), WANT_OF_PAIRS),
        (plan.total == plan.k * spec.size.1, AT_DMAX),
        (is_at_budget(spec, lateness, &plan), AT_BUDGET),
        (spec.second.is_some() && most <= spec.gap.1, FIRST_OF_TWO),
        (spec.second.is_some_and(|second| least >= second.0), SECOND),
        (most > spec.gap.1 && least <= spec.gap.1, BOTH),
        (lateness > 0 && least == range.0, AT_THE_LOWER_END),
        (lateness > 0 && (most == spec.gap.1 || spec.second.is_some_and(|second| most == second.1)), AT_THE_UPPER_END),
    ];
    marks.into_iter().filter(|(holds, _)| *holds).map(|(_, mark)| mark).collect()
}

/// Some mean fits at a longer gap. Of such a gap 513 reports lie in 20,160 minutes: it is at most 39.
fn wants_pairs(spec: &Spec, lateness: u64, gap: u64) -> bool {
    (gap + 1..=39).any(|longer| box_plan::some_mean_fits(spec, lateness, longer))
}

/// A 30 for want of pairs, and one where reports on time would have a plan.
fn marks_of_none(spec: &Spec, lateness: u64, answer: Refusal) -> Vec<u32> {
    let mut marks = vec![];
    if answer == 30 && wants_pairs(spec, lateness, 0) {
        marks.push(30 + WANT_OF_PAIRS);
    }
    if answer == 30 && lateness > 0 && box_plan::box_plan(spec, 0).is_ok() {
        marks.push(30 + LATE);
    }
    marks
}

/// None, a few minutes, as many as a range has room for, or one more; about the greatest that is taken, or any number.
fn some_lateness(random: &mut Random, spec: &Spec) -> u64 {
    let (lower, upper) = spec.second.filter(|_| random.once_in(2)).unwrap_or(spec.gap);
    match random.below(12) {
        0..=2 => 0,
        3..=5 => random.below(4),
        6 => random.pick(&[1_439, 1_440, 1_441, 65_536, LAST]),
        7 => random.of_any_length(32),
        8 => random.below((upper - lower) / 2 + 2).min(1_440),
        _ => random.near((upper - lower) / 2, 1, 1_440),
    }
}

/// A pair whose gap is of some range.
fn some_pair_of(random: &mut Random, spec: &Spec) -> Pair {
    let (lower, upper) = spec.second.filter(|_| random.once_in(2)).unwrap_or(spec.gap);
    Pair { gap: random.between(lower, upper) as u16, size: spec.size.0 as u16 }
}

/// Windows of an hour, a shift, a day, a week and so on, gaps of minutes to hours, and a modem's delay.
fn everyday_input(random: &mut Random) -> (Spec, u64) {
    const WINDOWS: [u64; 8] = [60, 240, 480, 720, 1_440, 2_880, 10_080, 20_160];
    let least = random.pick(&[1, 5, 10, 15, 30, 60]);
    let gap = (least, least * random.pick(&[1, 2, 3, 12, 48]));
    let second = random.once_in(3).then(|| (gap.1 + random.pick(&[1, 1, 15, 60]), gap.1 + random.pick(&[60, 90, 480, 1_440])));
    let dmin = random.pick(&[1, 1, 5, 10]);
    let mean = random.between(dmin, dmin + 30);
    let typical = random.between(gap.0, second.map_or(gap.1, |(_, upper)| upper));
    let rate = |random: &mut Random, slack: u64| {
        let minutes = random.pick(&WINDOWS);
        let records = (minutes.div_ceil(typical) * mean * slack / 100).clamp(1, 20_000);
        (records, minutes)
    };
    let supply = (!random.once_in(12)).then(|| {
        let slack = random.between(95, 140);
        rate(random, slack)
    });
    let demand = (!random.once_in(12)).then(|| {
        let slack = random.between(50, 105);
        rate(random, slack)
    });
    let spec = Spec { size: (dmin, dmin + 30), gap, supply, demand, duration: None, second };
    (spec, random.pick(&[0, 1, 2, 5, 10, 15, 30, 60, 240, 1_440]))
}

/// A specification and a lateness, with room for delays at some gap or with none.
pub fn some_input(random: &mut Random) -> (Spec, u64) {
    if random.once_in(3) {
        return everyday_input(random);
    }
    let scale = generate::scale(random);
    let mut spec = generate::near_spec(random, scale);
    let lateness = some_lateness(random, &spec);
    if lateness <= 1_440 && random.once_in(2) {
        let pair = some_pair_of(random, &spec);
        make_room(random, &mut spec, &[pair], lateness);
    }
    (spec, lateness)
}

fn any_case(random: &mut Random, library: &mut Library) -> Result<Counts, String> {
    let (spec, lateness) = some_input(random);
    let file = if random.once_in(20) { generate::spec_file(random) } else { spec::write(&spec) };
    compare(random, &file, lateness, library)
}

/// So many records in so many pairs are all that a gap takes: B and L are what it holds by that mean, or one off.
struct Mean {
    gap: u64,
    lateness: u64,
    pairs: u64,
    records: u64,
}

fn some_mean(random: &mut Random, (dmin, dmax): (u64, u64)) -> Mean {
    let gap = match random.below(4) {
        0 => random.between(1, 4),
        1 => random.between(1, 39),
        2 => 1 + random.of_any_length(11),
        _ => 1 + random.of_any_length(14),
    };
    let lateness = match random.below(4) {
        0 | 1 => 0,
        2 => random.below(gap.min(4)),
        _ => random.below(gap.min(1_441)),
    };
    let pairs = match random.below(3) {
        0 => random.pick(&[510, 511, 512, 512, 512, 513, 513, 514, 1_024]),
        _ => 1 + random.of_any_length(9),
    };
    let records = match random.below(4) {
        0 => pairs * dmin + random.below(2),
        1 => (pairs * dmax - random.below(2)).max(1),
        _ => random.between(pairs * dmin, pairs * dmax),
    };
    Mean { gap, lateness, pairs, records }
}

impl Mean {
    /// How many reports a window has: some whole times the pairs, where there is room, or any number.
    fn reports(&self, random: &mut Random) -> u64 {
        let most = ((20_160 - self.lateness) / self.gap).min(20_000 * self.pairs / self.records).max(1);
        match most / self.pairs {
            0 => random.between(1, most),
            times if random.once_in(4) => {
                let near = self.pairs * random.between(1, times);
                random.near(near, 1, most)
            }
            times => self.pairs * random.between(1, times),
        }
    }

    /// B and R: ⌈(R + J)/s⌉ reports.
    fn supply(&self, random: &mut Random) -> (u64, u64) {
        let reports = self.reports(random);
        let most = (reports * self.gap).saturating_sub(self.lateness);
        let shorter = random.below(self.gap);
        let minutes = random.pick(&[most, most.saturating_sub(self.gap - 1), most.saturating_sub(shorter)]);
        let less = random.pick(&[0, 0, 0, 1]);
        (((reports * self.records).div_ceil(self.pairs) - less).clamp(1, 20_000), minutes.clamp(1, 20_160))
    }

    /// L and P: ⌊(P − J)/s⌋ reports.
    fn demand(&self, random: &mut Random) -> (u64, u64) {
        let reports = self.reports(random);
        let least = reports * self.gap + self.lateness;
        let longer = random.below(self.gap);
        let minutes = random.pick(&[least, least, least + self.gap - 1, least + longer]);
        let more = random.pick(&[0, 0, 0, 1]);
        ((reports * self.records / self.pairs + more).clamp(1, 20_000), minutes.clamp(1, 20_160))
    }

    /// Bounds with just as much room as delays take, a minute less or more, or much more.
    fn range(&self, random: &mut Random) -> (u64, u64) {
        let room = |random: &mut Random| random.pick(&[0, 0, 0, 1, 2, 30]);
        let lower = (self.gap - self.lateness).saturating_sub(room(random)) + u64::from(random.once_in(12));
        let upper = self.gap + self.lateness + room(random) - u64::from(random.once_in(12));
        let lower = lower.clamp(1, 20_160);
        (lower, upper.clamp(lower, 20_160))
    }
}

/// The range alone, cut in two that touch or leave out a gap, or with another below or above it.
fn one_or_two(random: &mut Random, (lower, upper): (u64, u64)) -> ((u64, u64), Option<(u64, u64)>) {
    match random.below(5) {
        0 if lower + 2 <= upper => {
            let cut = random.between(lower, upper - 2);
            ((lower, cut), Some((cut + random.pick(&[1, 1, 1, 2]), upper)))
        }
        1 if lower > 1 => {
            let below = random.between(1, lower - 1);
            ((random.between(1, below), below), Some((lower, upper)))
        }
        2 if upper < 20_160 => {
            let above = random.between(upper + 1, 20_160);
            ((lower, upper), Some((above, random.between(above, 20_160))))
        }
        _ => ((lower, upper), None),
    }
}

/// Now and then with one rate, or none; and with a minute less of lateness than the ranges and the rates are made for.
pub fn tight_input(random: &mut Random) -> (Spec, u64) {
    let longest = random.pick(&[0, 2, 2, 9]);
    let dmin = 1 + random.of_any_length(longest);
    let size = (dmin, (dmin + random.pick(&[0, 1, 1, 3, 40])).min(1_000));
    let mean = some_mean(random, size);
    let range = mean.range(random);
    let (gap, second) = one_or_two(random, range);
    let supply = (!random.once_in(8)).then(|| mean.supply(random));
    let demand = (!random.once_in(8)).then(|| mean.demand(random));
    let less = u64::from(mean.lateness > 0 && random.once_in(10));
    (Spec { size, gap, supply, demand, duration: None, second }, mean.lateness - less)
}

fn tight_case(random: &mut Random, library: &mut Library) -> Result<Counts, String> {
    let (spec, lateness) = tight_input(random);
    compare(random, &spec::write(&spec), lateness, library)
}

/// Of up to so many pairs the reference tries every cycle.
const FEW_PAIRS: u64 = 5;

/// A specification small enough that every list of sizes can be tried too, and a small lateness.
fn input_for_cycles(random: &mut Random) -> (Spec, u64) {
    loop {
        let mut spec = calls::spec_for_search(random);
        let lateness = random.pick(&[0, 0, 1, 1, 2, 3]);
        if lateness > 0 && !random.once_in(3) {
            let pair = some_pair_of(random, &spec);
            make_room(random, &mut spec, &[pair], lateness);
        }
        let longest = spec.supply.map_or(0, |(_, r)| r + lateness).max(spec.demand.map_or(0, |(_, p)| p));
        if longest / spec.gap.0 <= 7 {
            return (spec, lateness);
        }
    }
}

/// The gap of a plan; 0 where there is none.
fn gap_of(made: &Result<Plan, Refusal>) -> u64 {
    made.as_ref().map_or(0, |plan| plan.period / plan.k)
}

/// The same, drawn some times if its box plan has one pair or there is none.
fn input_of_several_pairs(random: &mut Random) -> (Spec, u64) {
    let mut input = input_for_cycles(random);
    for _ in 0..random.below(30) {
        if box_plan::box_plan(&input.0, input.1).is_ok_and(|plan| plan.k > 1) {
            break;
        }
        input = input_for_cycles(random);
    }
    input
}

/// Every cycle of a few pairs. Where the plan has more pairs no such cycle may be passed at its gap or a longer one. And at no longer gap may
/// there be any endless list of sizes that obeys. It counts as 1 where the plan has several pairs, 2 where it has more than those few.
fn by_cycles_case(random: &mut Random, _: &mut Library) -> Verdict {
    let (spec, lateness) = input_of_several_pairs(random);
    let by_counts = box_plan::box_plan_by_counts(&spec, lateness);
    let by_cycles = box_plan::box_plan_by_cycles(&spec, lateness, FEW_PAIRS);
    let few = by_counts.as_ref().map_or(true, |plan| plan.k <= FEW_PAIRS);
    let agree = if few { by_counts == by_cycles } else { gap_of(&by_cycles) < gap_of(&by_counts) };
    let longer = spec.gaps().find(|&gap| gap > gap_of(&by_counts) && lists_exist(&spec, lateness, gap));
    if !agree || longer.is_some() {
        return Err(format!("by counts {by_counts:?}, by cycles {by_cycles:?}, lists at {longer:?}: {spec:?}, {lateness} late"));
    }
    Ok(match by_counts {
        Ok(_) if !few => 2,
        Ok(plan) => u32::from(plan.k > 1),
        Err(refusal) => refusal,
    })
}

/// Whether the search finds an endless list of sizes at a gap, where delays keep it in the ranges. Some delays bring the reports of R + J
/// minutes into R, and some leave of those of P minutes only the ones of P − J.
fn lists_exist(spec: &Spec, lateness: u64, gap: u64) -> bool {
    let kept = gap > lateness && (gap - lateness..=gap + lateness).all(|gap| spec.allows_gap(gap));
    let demand = spec.demand.map(|(l, p)| (l, p.saturating_sub(lateness)));
    let supply = spec.supply.map(|(b, r)| (b, r + lateness));
    let none_needed = demand.map_or(true, |(_, p)| p > 0);
    kept && none_needed && even::list_exists(&Spec { supply, demand, ..spec.clone() }, gap)
}

/// Where few pairs would not do, too: the longer the gaps, the more of them the first way tries in vain.
fn by_counts_case(random: &mut Random, _: &mut Library) -> Result<Counts, String> {
    let (spec, lateness) = if random.once_in(2) { tight_input(random) } else { some_input(random) };
    let by_counts = box_plan::box_plan_by_counts(&spec, lateness);
    same(0, box_plan::box_plan(&spec, lateness), by_counts, || format!("{spec:?}, {lateness} minutes late"))?;
    let wanted = given(by_counts, [HELD; 3]);
    let mut counts = Counts::new();
    wanted.answer.add_to(&mut counts);
    marks(&spec, lateness, &wanted).into_iter().for_each(|mark| mark.add_to(&mut counts));
    Ok(counts)
}

/// About how many steps the reference's check of late reports takes: each report of a round, four starts, each report near them, and each of
/// its delays, for both rates.
pub fn steps_of_check(spec: &Spec, lateness: u64, reports: u64, minutes: u64) -> u64 {
    let windows = spec.supply.map_or(0, |(_, r)| r + lateness) + spec.demand.map_or(0, |(_, p)| p + lateness);
    let near = windows * reports / minutes + 2;
    reports * 4 * near * (lateness + 1)
}

/// The reference passes the cycle too, with that lateness and without, where that takes no more than so many steps.
fn passed(spec: &Spec, lateness: u64, plan: &Plan, pairs: &[Pair], most: u64) -> Result<(), String> {
    let takes_few = |minutes| steps_of_check(spec, minutes, plan.k, plan.period) <= most;
    let on_time = if takes_few(0) { cycle::check(spec, pairs) } else { 0 };
    let late = if takes_few(lateness) { late::check(spec, pairs, lateness) } else { 0 };
    if [on_time, late] != [0; 2] {
        return Err(format!(
            "the reference's checks give {on_time}, and {late} of {lateness} minutes late, of {plan:?}: {spec:?}"
        ));
    }
    Ok(())
}

/// The reference's checks of plans with which they take long. The longer one takes, the fewer such plans are drawn.
fn checked_case(random: &mut Random, library: &mut Library) -> Result<Counts, String> {
    let most = if random.once_in(400) { 50_000_000 } else { 500_000 };
    loop {
        let (spec, lateness) = if random.once_in(2) { tight_input(random) } else { some_input(random) };
        let lateness = lateness.min(1_440);
        let got = library.box_plan(&spec::write(&spec), word(lateness), [HELD; 3]);
        let Some(plan) = plan_of(&got).filter(|plan| steps_of_check(&spec, lateness, plan.k, plan.period) <= most) else {
            continue;
        };
        let pairs = loads(&spec, lateness, got.places, library)?;
        passed(&spec, lateness, &plan, &pairs, most)?;
        let mut counts = Counts::new();
        0.add_to(&mut counts);
        marks(&spec, lateness, &got).into_iter().for_each(|mark| mark.add_to(&mut counts));
        return Ok(counts);
    }
}

/// Where there is no even plan there is no box plan, however late reports are: it counts as 10. Else the box plan's gap is that of the even
/// plan, if a cycle can have as many pairs; then it has no more pairs, and holds at least as many records a pair. It counts as 0 where the two
/// are one, 1 where one gap has two plans, 2 where the box plan has a shorter gap, and 30 where there is none.
fn beside_even_case(random: &mut Random, library: &mut Library) -> Verdict {
    let (spec, _) = if random.once_in(2) { tight_input(random) } else { some_input(random) };
    let file = spec::write(&spec);
    let even = library.even_plan(&file, [HELD; 3]);
    let Some(even_plan) = plan_of(&even) else {
        let more = random.below(1_441);
        let answers = [0, 1, 2, 1_440, more, 1_441].map(|lateness| library.box_plan(&file, word(lateness), [HELD; 3]).answer);
        return same(10, (even.answer, answers), (10, [30, 30, 30, 30, 30, 26]), || hex(&file));
    };
    let got = library.box_plan(&file, 0, [HELD; 3]);
    let gap = |plan: &Plan| plan.period / plan.k;
    let fits = even_plan.k <= 512;
    let (met, holds) = match plan_of(&got) {
        None => (30, !fits && got.answer == 30),
        Some(plan) if gap(&plan) < gap(&even_plan) => (2, !fits),
        Some(plan) => {
            let fewer = plan.k <= even_plan.k && plan.total * even_plan.k >= even_plan.total * plan.k;
            (u32::from(plan != even_plan), gap(&plan) == gap(&even_plan) && fewer)
        }
    };
    if !holds {
        return Err(format!("even plan {even_plan:?}, box plan {got:?}: {spec:?}"));
    }
    Ok(met)
}

/// The gap, and what is wanted of the least at that gap, from the best on: a plan for more lateness comes no earlier.
fn worth(plan: &Plan) -> [u64; 3] {
    [20_160 - plan.period / plan.k, plan.k, plan.total]
}

/// The more lateness, the shorter the gap; at one gap, the more pairs; with as many, the more records. It counts as how the last plan before
/// a refusal is beside that without lateness: 0 the same, 1 at the same gap, 2 at another; 30 where there is none.
fn growing_case(random: &mut Random, library: &mut Library) -> Verdict {
    let (spec, lateness) = if random.once_in(2) { tight_input(random) } else { some_input(random) };
    let file = spec::write(&spec);
    let step = if lateness <= 40 { 1 } else { lateness.min(1_440) / 20 };
    let latenesses: Vec<u64> = (0..=40).map(|i| i * step).take_while(|&lateness| lateness <= 1_440).collect();
    let plans: Vec<Option<Plan>> =
        latenesses.iter().map(|&lateness| plan_of(&library.box_plan(&file, word(lateness), [HELD; 3]))).collect();
    let grows = plans.windows(2).all(|two| match (&two[0], &two[1]) {
        (_, None) => true,
        (None, Some(_)) => false,
        (Some(one), Some(other)) => worth(one) <= worth(other),
    });
    if !grows {
        return Err(format!("lateness {latenesses:?}: {plans:?}, {spec:?}"));
    }
    let last = plans.iter().rev().flatten().next();
    Ok(match (&plans[0], last) {
        (Some(first), Some(last)) if first == last => 0,
        (Some(first), Some(last)) => 1 + u32::from(worth(first)[0] != worth(last)[0]),
        _ => 30,
    })
}
