//! The box plan, and plans written out as cycle files. The literal way tries every gap, and at each every count of pairs.

use crate::calls::{Calls, LIBRARY, PLAIN_C};
use crate::moments::handed;
use crate::{both_rates, line};
use reference::schedule::Schedule;
use reference::{file, late, spec, Kind, Pair, Plan, Refusal, Spec};
use std::cell::RefCell;
use std::hint::black_box;

/// A specification and a lateness, the answer, and how many pairs the plan has.
struct Input {
    name: &'static str,
    spec: Spec,
    lateness: u32,
    answer: (Refusal, u32),
}

fn found(name: &'static str, pairs: u32, lateness: u32, spec: Spec) -> Input {
    Input { name, spec, lateness, answer: (0, pairs) }
}

fn none(name: &'static str, lateness: u32, spec: Spec) -> Input {
    Input { name, spec, lateness, answer: (30, 0) }
}

/// A van by day and by night.
pub fn van(supply: (u64, u64)) -> Spec {
    Spec { second: Some((120, 240)), ..both_rates((1, 50), (30, 90), supply, (130, 1_440)) }
}

fn inputs() -> [Input; 8] {
    let (size, longest) = ((1, 1_000), 20_160);
    let low = |gap, second| Spec { second: Some(second), ..both_rates(size, gap, (1_000, longest), (20_000, longest)) };
    // As many records at most as at least, so that the pairs must hold exactly their share: the fewest that can are as many as the reports
    // of P minutes.
    let alike = |gap, rate| both_rates(size, gap, rate, rate);
    [
        found("1 pair at the first gap", 1, 0, van((200, 1_440))),
        found("3 pairs at the first gap", 3, 0, van((130, 1_440))),
        found("3 pairs at the first gap, late 30", 3, 30, van((152, 1_440))),
        found("512 pairs at the first gap", 512, 0, alike((1, 39), (9_001, 512 * 39))),
        none("none, 39 gaps, even plan of 560 pairs", 0, alike((1, 39), (19_993, longest))),
        none("none, 1 to 141 or 143 to 20,160, 281 gaps", 0, low((1, 141), (143, longest))),
        // Both ranges are tried from the end of the second on, since the first reaches to it.
        none("none, 1 or 2 to 20,160 touch, 282 gaps", 0, low((1, 1), (2, longest))),
        none("none, 1 or 2 to 20,160 touch, late 1,440, 24 gaps", 1_440, low((1, 1), (2, longest))),
    ]
}

/// The gaps of which every one that is up to `late` shorter or longer is allowed, and none is 0; the largest first.
fn planned_gaps(spec: &Spec, late: u64) -> impl Iterator<Item = u64> + '_ {
    spec.gaps().filter(move |&gap| gap > late && (gap - late..=gap + late).all(|gap| spec.allows_gap(gap)))
}

/// The fewest records of k reports in a round, at one gap and evenly spread, where any do. By counting: so many reports lie in R minutes at
/// most, and so many in P minutes at least.
fn least_total(spec: &Spec, late: u64, gap: u64, k: u64) -> Option<u64> {
    let needed = match spec.demand {
        None => 0,
        Some((l, p)) => (k * l).div_ceil(Some(p.saturating_sub(late) / gap).filter(|&reports| reports > 0)?),
    };
    let total = needed.max(k * spec.size.0);
    let fits = spec.supply.map_or(true, |(b, r)| (r + late).div_ceil(gap) * total <= k * b);
    (fits && total <= k * spec.size.1).then_some(total)
}

/// The answer, and the plan.
pub fn literal(spec: &Spec, lateness: u32) -> (Refusal, [u32; 3]) {
    let late = lateness.into();
    let plan = planned_gaps(spec, late)
        .find_map(|gap| (1..=512).find_map(|k| least_total(spec, late, gap, k).map(|total| [k, k * gap, total])));
    plan.map_or((30, [0; 3]), |plan| (0, plan.map(|n| n as u32)))
}

/// One period of a plan.
fn pairs(plan: &Plan) -> Vec<Pair> {
    (0..plan.k).map(|i| Pair { gap: plan.gap(i) as u16, size: plan.size(i) as u16 }).collect()
}

/// What is measured tells the answer. That the plan is the right one, and obeys, is looked at here.
fn assert_agreed(input: &Input, spec_file: &[u8]) {
    let (answer, numbers) = literal(&input.spec, input.lateness);
    assert_eq!((answer, numbers[0]), input.answer, "{}", input.name);
    for calls in [&LIBRARY, &PLAIN_C] {
        assert_eq!(calls.box_plan(spec_file, input.lateness), (answer, numbers), "{}", input.name);
    }
    if answer == 0 {
        let [k, period, total] = numbers.map(u64::from);
        let cycle = pairs(&Plan { kind: Kind::Even, k, period, total });
        assert_eq!(late::check(&input.spec, &cycle, input.lateness.into()), 0, "{}", input.name);
    }
}

fn box_plan(input: &Input) {
    let Input { name, spec, lateness, .. } = input;
    let spec_file = spec::write(spec);
    assert_agreed(input, &spec_file);
    line(
        &format!("box plan, {name}"),
        |calls| black_box(calls.box_plan(&spec_file, black_box(*lateness))).0,
        || black_box(literal(&spec::read(&spec_file).unwrap(), black_box(*lateness))).0,
    );
}

/// Whose gaps and sizes change, as far as their kind lets them, and the shortest.
fn plans() -> [(&'static str, Plan); 4] {
    [
        ("well-formed, 512 pairs", Plan { kind: Kind::WellFormed, k: 512, period: 20_000, total: 9_001 }),
        ("even, 512 pairs", Plan { kind: Kind::Even, k: 512, period: 512 * 39, total: 9_001 }),
        ("well-formed, 1 pair", Plan { kind: Kind::WellFormed, k: 1, period: 39, total: 18 }),
        ("even, 1 pair", Plan { kind: Kind::Even, k: 1, period: 39, total: 18 }),
    ]
}

fn write_plan(name: &str, plan: &Plan) {
    let (kind, numbers) = handed(plan);
    let written = || file::write(&pairs(black_box(plan)), usize::MAX).unwrap();
    for calls in [&LIBRARY, &PLAIN_C] {
        let mut bytes = vec![0; written().len()];
        calls.write_plan(kind, numbers, &mut bytes);
        assert_eq!(bytes, written(), "{name}");
    }
    let bytes = RefCell::new(written());
    let call = |calls: &Calls| calls.write_plan(kind, black_box(numbers), &mut bytes.borrow_mut());
    line(&format!("write plan, {name}"), call, || written().len() as u32);
}

pub fn all() {
    for input in inputs() {
        box_plan(&input);
    }
    for (name, plan) in plans() {
        write_plan(name, &plan);
    }
}
