//! The shortest stretch that shows a refusal. A cycle is checked first, and searched where it is refused. The literal way tries every
//! number of reports, from every report of two rounds on. In the last lines the call is measured against its check alone.

use crate::calls::{Calls, LIBRARY, PLAIN_C};
use crate::windows::{heading, line_against};
use crate::{both_rates, changing, coin, in_turn, line};
use reference::{cycle, shortest, spec, Pair, Refusal, Spec};
use std::hint::black_box;

/// Cycles that all get the same answer, asked about in turn.
struct Input {
    name: &'static str,
    cycles: Vec<Vec<Pair>>,
    answer: Refusal,
    spec: Spec,
}

/// The rate of a refusal has this limit, which the cycles must break. They keep every other rule.
fn input(name: &'static str, cycles: Vec<Vec<Pair>>, answer: Refusal, limit: (u64, u64)) -> Input {
    let rate = |refusal, kept| if answer == refusal { limit } else { kept };
    let (supply, demand) = (rate(15, (20_000, 20_000)), rate(16, (1, 20_160)));
    Input { name, cycles, answer, spec: both_rates((1, 1_000), (1, 20_160), supply, demand) }
}

fn one(count: u64, gap: (u64, u64), size: (u64, u64)) -> Vec<Vec<Pair>> {
    let spec = Spec { size, gap, supply: None, demand: None, duration: None, second: None };
    vec![changing(&spec, count)]
}

/// Two gaps and two sizes in no order. There are many such cycles: of a single one the processor learns each branch by heart.
fn mixed() -> Vec<Vec<Pair>> {
    let mut coin = coin();
    let mut pair = || Pair { gap: if coin() { 90 } else { 30 }, size: if coin() { 9 } else { 1 } };
    (0..64).map(|_| (0..512).map(|_| pair()).collect()).collect()
}

/// By each answer a window of two thirds of a round, and one of several rounds.
fn inputs() -> [Input; 6] {
    let many = || one(512, (30, 90), (1, 10));
    let single = || one(1, (5, 5), (3, 3));
    [
        input("512 pairs, gaps 30 to 90", many(), 15, (1_860, 20_160)),
        input("512 pairs, gaps 30 to 90", many(), 16, (1_840, 20_160)),
        input("512 pairs, gaps 30 to 90", many(), 0, (0, 0)),
        input("1 pair, gap 5", single(), 15, (15, 26)),
        input("1 pair, gap 5", single(), 16, (15, 24)),
        input("1 pair, gap 5", single(), 0, (0, 0)),
    ]
}

fn further_inputs() -> [Input; 9] {
    let far = || one(512, (15_000, 20_160), (1, 1_000));
    let ones = |count| one(count, (1, 1), (1, 1));
    [
        input("512 pairs in no order, 64 cycles", mixed(), 15, (1_600, 20_160)),
        input("512 pairs in no order, 64 cycles", mixed(), 16, (1_850, 20_160)),
        input("512 pairs, gaps 15,000 to 20,160", far(), 15, (1_500, 20_160)),
        input("512 pairs, gaps 15,000 to 20,160", far(), 16, (500, 20_160)),
        input("512 pairs, gap 1, 20,001 reports", ones(512), 15, (20_000, 20_160)),
        input("512 pairs, gap 1, 19,999 reports", ones(512), 16, (20_000, 19_999)),
        input("1 pair, gap 1, 20,001 reports", ones(1), 15, (20_000, 20_160)),
        input("1 pair, gap 1, 19,999 reports", ones(1), 16, (20_000, 19_999)),
        input("1 pair, gap 20,160, no report between", one(1, (20_160, 20_160), (9, 9)), 16, (1, 20_159)),
    ]
}

/// The answer, and the first report and how many there are.
fn literal(spec: &Spec, pairs: &[Pair]) -> (Refusal, [u32; 2]) {
    let (answer, found) = shortest::shortest(spec, black_box(pairs));
    (answer, found.map_or([0, 0], |stretch| [stretch.first as u32, stretch.reports as u32]))
}

/// The call, its answer, and the cycles.
fn name(input: &Input) -> String {
    match input.answer {
        0 => format!("stretch, passed, {}", input.name),
        refusal => format!("stretch, refused {refusal}, {}", input.name),
    }
}

/// What is measured tells the answer. That the stretch is the right one is looked at here.
fn assert_agreed(input: &Input) {
    let spec_file = spec::write(&input.spec);
    for pairs in &input.cycles {
        let found = literal(&input.spec, pairs);
        assert_eq!(found.0, input.answer, "{}", name(input));
        assert_eq!([&LIBRARY, &PLAIN_C].map(|calls| calls.shortest_stretch(&spec_file, pairs)), [found; 2], "{}", name(input));
    }
}

pub fn all() {
    for input in inputs().iter().chain(&further_inputs()) {
        assert_agreed(input);
        let spec_file = spec::write(&input.spec);
        let next = in_turn(&input.cycles);
        let call = |calls: &Calls| black_box(calls.shortest_stretch(&spec_file, next())).0;
        line(&name(input), call, || black_box(literal(&spec::read(&spec_file).unwrap(), next())).0);
    }
}

fn against_its_check(input: &Input) {
    let (spec_file, pairs) = (spec::write(&input.spec), &input.cycles[0]);
    line_against(&name(input), |side, way| match (side, way) {
        (0, 0) => LIBRARY.check_cycle(&spec_file, pairs),
        (0, _) => LIBRARY.shortest_stretch(&spec_file, pairs).0,
        (1, 0) => PLAIN_C.check_cycle(&spec_file, pairs),
        (1, _) => PLAIN_C.shortest_stretch(&spec_file, pairs).0,
        (_, 0) => cycle::check(&spec::read(&spec_file).unwrap(), pairs),
        _ => black_box(literal(&spec::read(&spec_file).unwrap(), pairs)).0,
    });
}

pub fn against_check() {
    heading("one call; ratios to the check of the same cycle");
    for input in inputs() {
        against_its_check(&input);
    }
}
