//! The same inputs through the library, the plain C version and the literal reference: times and ratios. Never a test.
//! With the word leeway, a seed and a number of specifications: tables of the plans that the library finds (survey.rs).

mod boxplan;
mod calls;
mod costs;
mod dated;
mod duty;
mod late;
mod margins;
mod meters;
mod moments;
mod normal;
// Only some of its numbers are drawn here.
#[allow(dead_code)]
#[path = "../../tests/compare/src/random.rs"]
mod random;
mod shortest;
mod survey;
mod windows;

use calls::{Calls, LIBRARY, PLAIN_C};
use reference::schedule::LAID_OUT;
use reference::{even, feasibility, file, spec, Kind, Pair, Plan, Spec};
use std::cell::{Cell, RefCell};
use std::hint::black_box;
use std::time::{Duration, Instant};

/// How long `calls` calls take.
fn batch(calls: u32, call: &dyn Fn() -> u32) -> Duration {
    let started = Instant::now();
    for _ in 0..calls {
        black_box(call());
    }
    started.elapsed()
}

/// So many calls that a batch is long enough to measure.
fn calls_in_batch(call: &dyn Fn() -> u32) -> u32 {
    let mut calls = 1;
    while batch(calls, call) < Duration::from_millis(2) {
        calls *= 2;
    }
    calls
}

/// Nanoseconds of each call: the best of many batches. The batches take turns, so that a machine that is busy for a while
/// slows all sides alike.
fn times<const N: usize>(calls: [&dyn Fn() -> u32; N]) -> [f64; N] {
    let counts = calls.map(calls_in_batch);
    let mut best = [Duration::MAX; N];
    let started = Instant::now();
    for round in 0..60 {
        for side in 0..N {
            best[side] = best[side].min(batch(counts[side], calls[side]));
        }
        if round >= 2 && started.elapsed() > Duration::from_secs(2) {
            break;
        }
    }
    std::array::from_fn(|side| best[side].as_nanos() as f64 / f64::from(counts[side]))
}

fn shown(nanoseconds: f64) -> String {
    match nanoseconds {
        n if n < 1e4 => format!("{n:.0} ns"),
        n if n < 1e7 => format!("{:.1} us", n / 1e3),
        n => format!("{:.1} ms", n / 1e6),
    }
}

/// One line: the call on both sides, and on the reference.
fn line(name: &str, call: impl Fn(&Calls) -> u32, literal: impl Fn() -> u32) {
    line_of(name, [&|| call(&LIBRARY), &|| call(&PLAIN_C), &literal]);
}

/// One line: the library, the plain C version and the reference. Their answers must agree, or the times say nothing.
fn line_of(name: &str, calls: [&dyn Fn() -> u32; 3]) {
    let answers = calls.map(|call| call());
    assert_eq!(answers, [answers[2]; 3], "{name}");
    let [library, plain, reference] = times(calls);
    println!(
        "{name:<60} {:>10} {:>10} {:>10} {:>10.2} {:>12.1}",
        shown(library),
        shown(plain),
        shown(reference),
        library / plain,
        reference / library
    );
}

fn both_rates(size: (u64, u64), gap: (u64, u64), supply: (u64, u64), demand: (u64, u64)) -> Spec {
    Spec { size, gap, supply: Some(supply), demand: Some(demand), duration: None, second: None }
}

/// So many pairs whose gaps and sizes change from pair to pair, within the specification's ranges.
fn changing(spec: &Spec, count: u64) -> Vec<Pair> {
    let within = |range: (u64, u64), i: u64| (range.0 + i % (range.1 - range.0 + 1)) as u16;
    (0..count).map(|i| Pair { gap: within(spec.gap, i * 7 + i / 5), size: within(spec.size, i * 3) }).collect()
}

/// True or false in no order.
fn coin() -> impl FnMut() -> bool {
    let mut state: u64 = 1;
    move || {
        state = state.wrapping_mul(6_364_136_223_846_793_005).wrapping_add(1);
        state >> 63 == 1
    }
}

/// Each of the inputs in turn, over and over.
fn in_turn<'a, T>(inputs: &'a [T]) -> impl Fn() -> &'a T {
    let at = Cell::new(0);
    move || {
        let i = at.get();
        at.set(if i + 1 == inputs.len() { 0 } else { i + 1 });
        &inputs[i]
    }
}

fn cycles() {
    let wide = (1, 20_160);
    let inputs = [
        (512, "512 pairs, gaps 1 to 5, R = P = 20,160", both_rates((1, 3), (1, 5), (20_000, 20_160), wide)),
        (512, "512 pairs, gaps 1 to 5, R = P = 100", both_rates((1, 3), (1, 5), (1_000, 100), (1, 100))),
        (512, "512 pairs, gaps 30 to 90, R = P = 20,160", both_rates((1, 9), (30, 90), (20_000, 20_160), wide)),
        (
            512,
            "512 pairs, gaps 15,000 to 20,160, R = P = 20,160",
            both_rates((1, 1_000), (15_000, 20_160), (20_000, 20_160), wide),
        ),
        (512, "512 pairs, gaps 1 and sizes 1, R = 20,000, P = 1", both_rates((1, 1), (1, 1), (20_000, 20_000), (1, 1))),
        (1, "1 pair, gaps 30 to 90, R = P = 20,160", both_rates((1, 9), (30, 90), (20_000, 20_160), wide)),
        (1, "1 pair, gap 1, R = 20,000, P = 20,160", both_rates((1, 1), (1, 1), (20_000, 20_000), (20_000, 20_160))),
    ];
    for (count, name, spec) in inputs {
        let pairs = changing(&spec, count);
        let (spec_file, cycle_file) = (spec::write(&spec), file::write(&pairs, usize::MAX).unwrap());
        let places = RefCell::new(vec![Pair { gap: 0, size: 0 }; 512]);
        let bytes = RefCell::new(vec![0; cycle_file.len()]);
        line(
            &format!("verdict, {name}"),
            |calls| calls.verdict(&spec_file, &cycle_file),
            || reference::verdict(&spec_file, &cycle_file),
        );
        line(
            "    check of the pairs alone",
            |calls| calls.check_cycle(&spec_file, &pairs),
            || reference::cycle::check(&spec::read(&spec_file).unwrap(), &pairs),
        );
        line(
            &format!("    read, {} bytes", cycle_file.len()),
            |calls| calls.read_cycle(&cycle_file, &mut places.borrow_mut()),
            || file::read(&cycle_file, 512).err().unwrap_or(0),
        );
        line(
            "    write",
            |calls| calls.write_cycle(&pairs, &mut bytes.borrow_mut()),
            || file::write(&pairs, usize::MAX).err().unwrap_or(0),
        );
    }
}

fn literal_test(spec_file: &[u8]) -> u32 {
    match feasibility::test(&spec::read(spec_file).unwrap(), LAID_OUT) {
        Ok(_) => 0,
        Err(feasibility::Failure::Inconsistent(_)) => 7,
        Err(feasibility::Failure::Refused(answer)) => answer,
    }
}

fn plans() {
    let inputs = [
        ("test, P = R = 20,160, every k to 20,160", both_rates((1, 1_000), (1, 20_160), (20_000, 20_160), (20_000, 20_160))),
        ("test, P = R = 20,160, every k to 672", both_rates((1, 100), (30, 60), (4_000, 20_160), (3_000, 20_160))),
        ("test, R = 1,000, P = 2,000, every k to 500", both_rates((1, 100), (2, 50), (500, 1_000), (800, 2_000))),
    ];
    for (name, spec) in inputs {
        let spec_file = spec::write(&spec);
        line(name, |calls| calls.test(&spec_file).0, || literal_test(&spec_file));
    }
    let none = both_rates((2, 1_000), (1, 20_160), (1, 20_160), (20_000, 20_160));
    let even_inputs = [
        ("even plan, found at gap 20,160", both_rates((1, 1_000), (1, 20_160), (1_000, 20_160), (1, 20_160))),
        ("even plan, found at gap 1", both_rates((1, 1_000), (1, 20_160), (20_000, 20_000), (1_000, 1_000))),
        ("even plan, none at gaps 1 to 20,160", none.clone()),
        // Of the gaps that are tried one by one about half are in each range.
        ("even plan, none at 1 to 141 or 142 to 20,160", Spec { gap: (1, 141), second: Some((142, 20_160)), ..none }),
    ];
    for (name, spec) in even_inputs {
        let spec_file = spec::write(&spec);
        let literal = || even::even_plan(&spec::read(&spec_file).unwrap(), even::counts_fit).err().unwrap_or(0);
        line(name, |calls| calls.even_plan(&spec_file).0, literal);
    }
    let searched = both_rates((2, 3), (5, 5), (15, 26), (10, 20));
    let spec_file = spec::write(&searched);
    let literal = || even::even_plan(&spec::read(&spec_file).unwrap(), even::list_exists).err().unwrap_or(0);
    line("even plan, sample B with 15, size lists searched", |calls| calls.even_plan(&spec_file).0, literal);
}

fn reports() {
    for (name, number, kind, k, period, total) in [
        ("report 4,294,967,295, well-formed, k = 20,160", 0, Kind::WellFormed, 20_160, 400_000, 300_000),
        ("report 4,294,967,295, even, k = 20,160", 1, Kind::Even, 20_160, 403_200, 300_000),
        ("report 4,294,967,295, well-formed, k = 3", 0, Kind::WellFormed, 3, 158, 17),
    ] {
        let numbers = [k as u32, period as u32, total as u32];
        let plan = Plan { kind, k, period, total };
        let literal = || black_box(plan).report(u32::MAX.into()).err().unwrap_or(0);
        line(name, |calls| calls.report(number, black_box(numbers), u32::MAX), literal);
    }
}

fn measure() {
    println!(
        "{:<60} {:>10} {:>10} {:>10} {:>10} {:>12}",
        "one call", "library", "plain C", "literal", "library/C", "literal/lib."
    );
    cycles();
    plans();
    boxplan::all();
    reports();
    moments::all();
    costs::all();
    late::all();
    shortest::all();
    margins::all();
    normal::all();
    dated::all();
    meters::all();
    duty::all();
    windows::all();
    late::against_check();
    shortest::against_check();
    margins::against_check();
    margins::against_late();
    duty::against_near();
    normal::against_64();
}

fn main() {
    let mut arguments = std::env::args().skip(1);
    match arguments.next().as_deref() {
        Some("leeway") => {
            let mut number = |default| arguments.next().map_or(default, |number| number.parse().expect("a number"));
            survey::all(number(1), number(100_000) as usize);
        }
        _ => measure(),
    }
}
