//! The margins of a cycle, its tolerance, and the most tolerant plan. The literal way to the margins tries every start, and that to the
//! others every lateness from the greatest down. In the last lines the margins are measured against the check of the same cycle, and the
//! tolerance against one check with reports that are so late.

use crate::boxplan::{self, van};
use crate::calls::{Calls, LIBRARY, PLAIN_C};
use crate::windows::{heading, line_against};
use crate::{both_rates, changing, line};
use reference::leeway::{self, Margin, Margins};
use reference::{cycle, late, spec, Pair, Refusal, Spec};
use std::hint::black_box;

/// A specification that allows every gap, and a cycle of so many pairs whose gaps are in a range.
fn input(count: u64, gap: (u64, u64), supply: (u64, u64), demand: (u64, u64)) -> (Spec, Vec<Pair>) {
    let spec = both_rates((1, 9), (1, 20_160), supply, demand);
    let pairs = changing(&Spec { gap, ..spec.clone() }, count);
    (spec, pairs)
}

/// By windows of 20,160 minutes. Each is passed, so that its check looks at every stretch too.
fn margin_inputs() -> [(&'static str, Spec, Vec<Pair>); 11] {
    let two = |name, count, gap| {
        let (spec, pairs) = input(count, gap, (20_000, 20_160), (1, 20_160));
        (name, spec, pairs)
    };
    let supply = |name, count, gap| {
        let (name, spec, pairs) = two(name, count, gap);
        (name, Spec { demand: None, ..spec }, pairs)
    };
    let demand = |name, count, gap| {
        let (name, spec, pairs) = two(name, count, gap);
        (name, Spec { supply: None, ..spec }, pairs)
    };
    let (short, middle, long) = ((4, 8), (30, 90), (15_000, 20_160));
    [
        two("512 pairs, gaps 4 to 8", 512, short),
        two("512 pairs, gaps 30 to 90", 512, middle),
        supply("512 pairs, gaps 30 to 90, no demand rate", 512, middle),
        demand("512 pairs, gaps 30 to 90, no supply rate", 512, middle),
        two("512 pairs, gaps 15,000 to 20,160", 512, long),
        two("64 pairs, gaps 30 to 90", 64, middle),
        supply("64 pairs, gaps 30 to 90, no demand rate", 64, middle),
        two("64 pairs, gaps 15,000 to 20,160", 64, long),
        two("1 pair, gap 31", 1, (31, 31)),
        supply("1 pair, gap 31, no demand rate", 1, (31, 31)),
        two("1 pair, gap 20,160", 1, (20_160, 20_160)),
    ]
}

/// The answer, and each margin with its report.
fn literal_margins(spec: &Spec, pairs: &[Pair]) -> (Refusal, [(u64, u32); 2]) {
    let numbers = |margin: Option<Margin>| margin.map_or((0, 0), |margin| (margin.records, margin.report as u32));
    leeway::margins(spec, pairs)
        .map_or_else(|number| (number, [(0, 0); 2]), |Margins { most, least }| (0, [most, least].map(numbers)))
}

fn margins(name: &str, spec: &Spec, pairs: &[Pair]) {
    let spec_file = spec::write(spec);
    let found = literal_margins(spec, pairs);
    assert_eq!([&LIBRARY, &PLAIN_C].map(|calls| calls.margins(&spec_file, pairs)), [found; 2], "{name}");
    assert_eq!(cycle::check(spec, pairs), 0, "{name}");
    let call = |calls: &Calls| black_box(calls.margins(&spec_file, black_box(pairs))).0;
    let literal = || black_box(literal_margins(&spec::read(&spec_file).unwrap(), black_box(pairs))).0;
    line(&format!("margins, {name}"), call, literal);
}

/// A cycle, the check's answer, and its tolerance where that is 0.
struct Tolerant {
    name: &'static str,
    spec: Spec,
    pairs: Vec<Pair>,
    answer: (Refusal, u32),
}

fn tolerant(name: &'static str, answer: (Refusal, u32), (spec, pairs): (Spec, Vec<Pair>)) -> Tolerant {
    Tolerant { name, spec, pairs, answer }
}

/// No rate of `far` is near.
fn tolerance_inputs() -> [Tolerant; 9] {
    let many = |supply| input(512, (30, 90), supply, (1, 20_160));
    let single = |supply, records| input(1, (31, 31), supply, (records, 20_160));
    let far = |count| input(count, (1_500, 2_500), (20_000, 20_160), (1, 20_160));
    [
        tolerant("512 pairs, refused 15, which ends the check", (15, 0), many((1_355, 20_136))),
        tolerant("512 pairs, late 0", (0, 0), many((1_356, 20_136))),
        tolerant("512 pairs, late 15", (0, 15), many((1_356, 20_121))),
        // What limits it is the shortest gap.
        tolerant("512 pairs, late 29", (0, 29), many((20_000, 20_160))),
        tolerant("512 pairs, late 1,440", (0, 1_440), far(512)),
        tolerant("1 pair, refused 16, which ends the check", (16, 0), single((20_000, 20_160), 651)),
        tolerant("1 pair, late 0", (0, 0), single((650, 20_150), 1)),
        tolerant("1 pair, late 10", (0, 10), single((20_000, 20_160), 650)),
        tolerant("1 pair, late 1,440", (0, 1_440), far(1)),
    ]
}

fn literal_tolerance(spec: &Spec, pairs: &[Pair]) -> (Refusal, u32) {
    let latest = (0..=1_440).rev().find(|&lateness| late::check(spec, pairs, lateness) == 0);
    latest.map_or_else(|| (cycle::check(spec, pairs), 0), |lateness| (0, lateness as u32))
}

fn tolerance(input: &Tolerant) {
    let Tolerant { name, spec, pairs, answer } = input;
    let spec_file = spec::write(spec);
    assert_eq!(literal_tolerance(spec, pairs), *answer, "{name}");
    assert_eq!([&LIBRARY, &PLAIN_C].map(|calls| calls.tolerance(&spec_file, pairs)), [*answer; 2], "{name}");
    let call = |calls: &Calls| black_box(calls.tolerance(&spec_file, black_box(pairs))).0;
    let literal = || black_box(literal_tolerance(&spec::read(&spec_file).unwrap(), black_box(pairs))).0;
    line(&format!("tolerance, {name}"), call, literal);
}

/// A specification, and where there is a box plan how late reports may be.
fn plan_inputs() -> [(&'static str, Spec, Option<u32>); 6] {
    let roomy = both_rates((1, 1_000), (1, 20_160), (1_000, 20_160), (1, 20_160));
    [
        ("a van by day, late 26", Spec { second: None, ..van((136, 1_440)) }, Some(26)),
        ("a van by day and by night, late 60", van((200, 1_440)), Some(60)),
        ("none, a van by day and by night", van((129, 1_440)), None),
        ("none, 39 gaps, even plan of 560 pairs", both_rates((1, 1_000), (1, 39), (19_993, 20_160), (19_993, 20_160)), None),
        ("1 to 20,160, late 1,440", roomy.clone(), Some(1_440)),
        ("1 to 141 or 143 to 20,160, late 1,440", Spec { gap: (1, 141), second: Some((143, 20_160)), ..roomy }, Some(1_440)),
    ]
}

/// The answer, the lateness, and the plan.
fn literal_plan(spec: &Spec) -> (Refusal, u32, [u32; 3]) {
    let at = |lateness| Some((lateness, boxplan::literal(spec, lateness))).filter(|(_, (answer, _))| *answer == 0);
    (0..=1_440).rev().find_map(at).map_or((30, 0, [0; 3]), |(lateness, (_, plan))| (0, lateness, plan))
}

fn tolerant_plan(name: &str, spec: &Spec, lateness: Option<u32>) {
    let spec_file = spec::write(spec);
    let found = literal_plan(spec);
    assert_eq!((found.0, found.1), lateness.map_or((30, 0), |lateness| (0, lateness)), "{name}");
    assert_eq!([&LIBRARY, &PLAIN_C].map(|calls| calls.tolerant_plan(&spec_file)), [found; 2], "{name}");
    line(
        &format!("most tolerant plan, {name}"),
        |calls| black_box(calls.tolerant_plan(black_box(&spec_file))).0,
        || black_box(literal_plan(&spec::read(black_box(&spec_file)).unwrap())).0,
    );
}

pub fn all() {
    for (name, spec, pairs) in margin_inputs() {
        margins(name, &spec, &pairs);
    }
    for input in tolerance_inputs() {
        tolerance(&input);
    }
    for (name, spec, lateness) in plan_inputs() {
        tolerant_plan(name, &spec, lateness);
    }
}

pub fn against_check() {
    heading("one call; ratios to the check of the same cycle");
    for (name, spec, pairs) in margin_inputs() {
        let spec_file = spec::write(&spec);
        let literal = || spec::read(&spec_file).unwrap();
        line_against(&format!("margins, {name}"), |side, way| match (side, way) {
            (0, 0) => LIBRARY.check_cycle(&spec_file, &pairs),
            (0, _) => LIBRARY.margins(&spec_file, &pairs).0,
            (1, 0) => PLAIN_C.check_cycle(&spec_file, &pairs),
            (1, _) => PLAIN_C.margins(&spec_file, &pairs).0,
            (_, 0) => cycle::check(&literal(), &pairs),
            _ => black_box(literal_margins(&literal(), &pairs)).0,
        });
    }
}

pub fn against_late() {
    heading("one call; ratios to one check with reports so late");
    for Tolerant { name, spec, pairs, answer: (_, lateness) } in tolerance_inputs() {
        let spec_file = spec::write(&spec);
        let literal = || spec::read(&spec_file).unwrap();
        line_against(&format!("tolerance, {name}"), |side, way| match (side, way) {
            (0, 0) => LIBRARY.check_late(&spec_file, &pairs, black_box(lateness)),
            (0, _) => LIBRARY.tolerance(&spec_file, &pairs).0,
            (1, 0) => PLAIN_C.check_late(&spec_file, &pairs, black_box(lateness)),
            (1, _) => PLAIN_C.tolerance(&spec_file, &pairs).0,
            (_, 0) => late::check(&literal(), &pairs, black_box(lateness).into()),
            _ => black_box(literal_tolerance(&literal(), &pairs)).0,
        });
    }
}
