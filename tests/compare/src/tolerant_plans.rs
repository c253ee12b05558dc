//! The most tolerant plan, against the reference, which looks for a box plan for every lateness where gaps are few, and for that of the plan
//! and a minute more where they are many. The library's answers are also held against each other: against the box plan for every lateness,
//! against the tolerance of the plan's own cycle, and against that of other cycles with one gap.

use crate::box_plans::{loads, made, marks, plan_of, some_input, tight_input};
use crate::box_plans::{AT_THE_LOWER_END, AT_THE_UPPER_END, BOTH, FIRST_OF_TWO, LATE, SECOND, SEVERAL};
use crate::calls::{expected, hex};
use crate::checks::HELD;
use crate::generate;
use crate::group::{same, Counts, Met, Runner, Verdict, RUNS};
use crate::library::{Library, Outcome};
use crate::normal::AGAIN;
use crate::plans::word;
use crate::random::Random;
use reference::leeway::{self, LATEST};
use reference::{box_plan, spec, Pair, Plan, Refusal, Spec};

pub fn all(runner: &mut Runner) {
    let name = "reference: a box plan for every lateness up to that of the most tolerant plan";
    runner.random(name, RUNS / 400, &[0, 30, NONE, BY_RATES, BY_ROOM], every_lateness_case);
    let met = [0, 30, NONE, BY_RATES, BY_ROOM, OTHER_GAP];
    let of_box_plans = [LATE, SEVERAL, FIRST_OF_TWO, SECOND, BOTH, AT_THE_LOWER_END, AT_THE_UPPER_END];
    runner.random("most tolerant plan", RUNS / 8, &[&[1, 2, 3, 4, 24, MOST, EVERY], &met[..], &of_box_plans].concat(), any_case);
    runner.random("most tolerant plan, every lateness tried", RUNS / 2_000, &[0, 30, EVERY], every_case);
    runner.random("most tolerant plan beside the box plan for every lateness", RUNS / 200, &met, beside_box_plans_case);
    let name = "no cycle of one gap is more tolerant than the plan, or passed where there is none";
    let none = [NO_PLAN + 13, NO_PLAN + 15, NO_PLAN + 16];
    runner.random(name, RUNS / 4, &[&[0, 13, 15, 16, LESS, AS_MUCH], &none[..]].concat(), other_cycles_case);
}

/// What a most tolerant plan counts as beside its answer and what its box plan does: no report may be late, or as late as can be.
const NONE: u32 = 2_000;
const MOST: u32 = 2_001;
/// For a minute more the rates take none of the gaps that are kept, or none is kept.
const BY_RATES: u32 = 2_002;
const BY_ROOM: u32 = 2_003;
/// The box plan for reports on time has another gap.
const OTHER_GAP: u32 = 2_004;
/// The reference has looked for every box plan.
const EVERY: u32 = 2_005;
/// What another cycle counts as that is passed: less tolerant, or as much.
const LESS: u32 = 101;
const AS_MUCH: u32 = 102;
/// And beside its answer where there is no plan.
const NO_PLAN: u32 = 200;

/// Up to so many minutes the reference looks for a box plan for every lateness.
const SHORT_GAPS: u64 = 60;

/// What the call answers, and what its places hold afterwards, as the reference has it.
pub fn given(made: Result<(u64, Plan), Refusal>, before: [u32; 4]) -> Outcome<4> {
    expected(made.map(|(lateness, plan)| [lateness, plan.k, plan.period, plan.total]), before)
}

/// The same of a specification's file; none where some gap is longer than this.
fn given_for(file: &[u8], longest: u64, before: [u32; 4]) -> Option<Outcome<4>> {
    match spec::read(file) {
        Ok(spec) if spec.gaps().any(|gap| gap > longest) => None,
        read => Some(given(read.and_then(|spec| leeway::tolerant_plan(&spec)), before)),
    }
}

/// The lateness of a plan, and its numbers.
fn split(got: &Outcome<4>) -> (u64, Outcome<3>) {
    let [lateness, k, period, total] = got.places;
    (lateness.into(), Outcome { answer: got.answer, places: [k, period, total] })
}

/// It is the box plan for its lateness, and there is none for a minute more: so says the library, and so does the reference.
fn is_latest(spec: &Spec, got: &Outcome<4>, library: &mut Library) -> Result<(), String> {
    let (file, (lateness, plan)) = (spec::write(spec), split(got));
    if lateness > LATEST {
        return Err(format!("{got:?}, which is later than can be asked for, {spec:?}"));
    }
    let places = [HELD; 3];
    let asked = [lateness, lateness + 1].map(|lateness| library.box_plan(&file, word(lateness), places));
    let none = if lateness == LATEST { 26 } else { 30 };
    same(0, asked, [plan, expected(Err(none), places)], || format!("box plan for {lateness} and one more, {spec:?}"))?;
    let wanted = [lateness, lateness + 1].map(|lateness| made(spec, lateness));
    same(0, [Ok(plan_of(&plan)), Err(none)], wanted.map(|made| made.map(Some)), || format!("{lateness} and one more, {spec:?}"))?;
    Ok(())
}

/// Of the plan's cycle, written out and read back, the tolerance is this lateness.
fn is_its_tolerance(spec: &Spec, got: &Outcome<4>, library: &mut Library) -> Result<(), String> {
    let (lateness, plan) = split(got);
    let pairs = loads(spec, lateness, plan.places, library)?;
    let tolerance = library.tolerance(&spec::write(spec), &pairs, [HELD]);
    same(0, tolerance, Outcome { answer: 0, places: [word(lateness)] }, || format!("tolerance of {plan:?}, {spec:?}"))?;
    Ok(())
}

/// Whether some gap is kept by so much lateness.
fn has_room(spec: &Spec, lateness: u64) -> bool {
    let around = |gap: u64| (gap - lateness..=gap + lateness).all(|gap| spec.allows_gap(gap));
    spec.gaps().any(|gap| gap > lateness && spec.allows_gap(gap + lateness) && around(gap))
}

fn counted(spec: &Spec, got: &Outcome<4>) -> Counts {
    let (lateness, plan) = split(got);
    let mut counts = Counts::new();
    got.answer.add_to(&mut counts);
    let Some(found) = plan_of(&plan) else { return counts };
    marks(spec, lateness, &plan).into_iter().for_each(|mark| mark.add_to(&mut counts));
    let gap = |plan: &Plan| plan.period / plan.k;
    let own = [
        (lateness == 0, NONE),
        (lateness == LATEST, MOST),
        (lateness < LATEST && has_room(spec, lateness + 1), BY_RATES),
        (lateness < LATEST && !has_room(spec, lateness + 1), BY_ROOM),
        (box_plan::box_plan(spec, 0).is_ok_and(|on_time| gap(&on_time) != gap(&found)), OTHER_GAP),
    ];
    own.into_iter().filter(|(holds, _)| *holds).for_each(|(_, mark)| mark.add_to(&mut counts));
    counts
}

/// The library's plan is the reference's where no gap is longer than this, and all that it says of it is so.
fn compare(file: &[u8], longest: u64, before: [u32; 4], library: &mut Library) -> Result<Counts, String> {
    let got = library.tolerant_plan(file, before);
    let wanted = given_for(file, longest, before);
    same(got.answer, got, wanted.unwrap_or(got), || format!("spec {}", hex(file)))?;
    let Ok(spec) = spec::read(file) else { return Ok(Counts::from([(got.answer, 1)])) };
    if got.answer == 0 {
        is_latest(&spec, &got, library)?;
        is_its_tolerance(&spec, &got, library)?;
    } else {
        let on_time = (made(&spec, 0).map(|_| ()), got.places);
        same(30, (Err(got.answer), before), on_time, || format!("a box plan for reports on time, {spec:?}"))?;
    }
    let mut counts = counted(&spec, &got);
    if wanted.is_some() {
        EVERY.add_to(&mut counts);
    }
    Ok(counts)
}

/// The same where few steps are taken. What is refused is refused again where nothing can be written.
pub fn compare_and_again(file: &[u8], library: &mut Library) -> Result<Outcome<4>, String> {
    compare(file, SHORT_GAPS, [HELD; 4], library)?;
    let got = library.tolerant_plan(file, [HELD; 4]);
    if got.answer != 0 {
        again(file, got.answer, library)?;
    }
    Ok(got)
}

fn again(file: &[u8], answer: u32, library: &mut Library) -> Verdict {
    let got = library.refused_tolerant_plan(file);
    same(answer, got, answer, || format!("spec {}, again", hex(file)))
}

/// A specification whose box plan for some lateness is just the only one, or any.
fn some_spec(random: &mut Random) -> Spec {
    if random.once_in(2) {
        tight_input(random).0
    } else {
        some_input(random).0
    }
}

/// Up to the greatest lateness that has a box plan every one has, of both ways to find it.
fn every_lateness_case(random: &mut Random, _: &mut Library) -> Result<Counts, String> {
    let spec = loop {
        let spec = some_spec(random);
        if spec.gaps().all(|gap| gap <= 10 * SHORT_GAPS) {
            break spec;
        }
    };
    let plans = leeway::box_plans(&spec, box_plan::box_plan);
    let latenesses: Vec<u64> = plans.iter().map(|(lateness, _)| *lateness).collect();
    same(0, &latenesses, &(0..plans.len() as u64).collect(), || format!("latenesses with box plans, {spec:?}"))?;
    if spec.gaps().count() as u64 <= SHORT_GAPS {
        same(0, &leeway::box_plans(&spec, box_plan::box_plan_by_counts), &plans, || format!("by counts, {spec:?}"))?;
    }
    let last = plans.last().copied().ok_or(30);
    same(0, leeway::tolerant_plan(&spec), last, || format!("{spec:?}"))?;
    Ok(counted(&spec, &given(last, [HELD; 4])))
}

fn any_case(random: &mut Random, library: &mut Library) -> Result<Counts, String> {
    let spec = some_spec(random);
    let file = if random.once_in(8) { generate::spec_file(random) } else { spec::write(&spec) };
    let counts = compare(&file, SHORT_GAPS, random.places(), library)?;
    if let Some((&answer, _)) = counts.iter().find(|(answer, _)| (1..=30).contains(*answer)) {
        if random.once_in(AGAIN) {
            again(&file, answer, library)?;
        }
    }
    Ok(counts)
}

/// Specifications with long gaps too.
fn every_case(random: &mut Random, library: &mut Library) -> Result<Counts, String> {
    let file = spec::write(&some_spec(random));
    compare(&file, u64::MAX, random.places(), library)
}

/// There is a box plan for every lateness up to the plan's, and for no other up to the greatest.
fn beside_box_plans_case(random: &mut Random, library: &mut Library) -> Result<Counts, String> {
    let spec = some_spec(random);
    let file = spec::write(&spec);
    let got = library.tolerant_plan(&file, [HELD; 4]);
    let with_plan: Vec<u64> =
        (0..=LATEST).filter(|&lateness| library.box_plan(&file, word(lateness), [HELD; 3]).answer == 0).collect();
    let wanted: Vec<u64> = if got.answer == 0 { (0..=got.places[0].into()).collect() } else { vec![] };
    same(0, &with_plan, &wanted, || format!("latenesses with box plans, {spec:?}"))?;
    Ok(counted(&spec, &got))
}

/// The box plan for no more lateness than the most tolerant one's; where that is refused, the one without this rate or that, if there is one.
fn nearby_plan(random: &mut Random, spec: &Spec, got: &Outcome<4>, library: &mut Library) -> Option<Plan> {
    let (spec, lateness) = match got.answer {
        0 => (spec.clone(), random.below(u64::from(got.places[0]) + 1)),
        _ if random.once_in(2) => (Spec { supply: None, ..spec.clone() }, 0),
        _ => (Spec { demand: None, ..spec.clone() }, 0),
    };
    plan_of(&library.box_plan(&spec::write(&spec), word(lateness), [HELD; 3]))
}

/// A cycle with one gap: that of a plan or a nearby one, with nearly its sizes, or any gap and sizes.
fn some_cycle(random: &mut Random, spec: &Spec, plan: Option<Plan>) -> Vec<Pair> {
    let count = generate::count(random);
    let mut pairs = match plan {
        Some(plan) if !random.once_in(4) => plan.pairs(),
        _ => generate::cycle_in_range(random, spec, count),
    };
    let gap = random.near(pairs[0].gap.into(), 1, 20_160) as u16;
    pairs.iter_mut().for_each(|pair| pair.gap = gap);
    if random.once_in(2) {
        let at = random.below(pairs.len() as u64) as usize;
        pairs[at].size = random.near(pairs[at].size.into(), 1, 1_000) as u16;
    }
    pairs
}

/// What another cycle counts as beside the plan or its refusal; none where it is too tolerant.
fn beside_plan(got: &Outcome<4>, Outcome { answer, places: [tolerance] }: Outcome<1>) -> Option<Vec<u32>> {
    match (got.answer, answer) {
        (0, 0) if tolerance > got.places[0] => None,
        (0, 0) if tolerance == got.places[0] => Some(vec![0, AS_MUCH]),
        (0, 0) => Some(vec![0, LESS]),
        (0, _) => Some(vec![answer]),
        (_, 0) => None,
        _ => Some(vec![NO_PLAN + answer]),
    }
}

/// "No cycle of 1 to 512 pairs with one gap throughout passes for a greater lateness (up to 1,440)", nor where there is no plan at all.
fn other_cycles_case(random: &mut Random, library: &mut Library) -> Result<Counts, String> {
    let spec = some_spec(random);
    let file = spec::write(&spec);
    let got = library.tolerant_plan(&file, [HELD; 4]);
    let mut counts = Counts::new();
    for _ in 0..4 {
        let plan = nearby_plan(random, &spec, &got, library);
        let pairs = some_cycle(random, &spec, plan);
        let tolerance = library.tolerance(&file, &pairs, [HELD]);
        let marks = beside_plan(&got, tolerance).ok_or_else(|| format!("{got:?}, {tolerance:?} of {pairs:?}, {spec:?}"))?;
        marks.into_iter().for_each(|mark| mark.add_to(&mut counts));
    }
    Ok(counts)
}
