//! What the first reports of a plan cost, and those of a cycle, which is checked first. The literal way prices one round report by
//! report; in the last lines it prices all of the reports, and its time grows with their number.

use crate::moments::{added, handed, LAST, PLANS};
use crate::{both_rates, changing, line};
use reference::cost::{self, Cost};
use reference::{spec, Pair, Plan, Refusal, Spec};
use std::hint::black_box;

/// Tenths and cents in one number, so that both must agree.
fn in_one(cost: Result<Cost, Refusal>) -> u32 {
    let Cost { tenths, cents } = cost.unwrap();
    added((tenths, cents))
}

fn plan_cost(name: &str, plan: Plan, reports: u32, literal: impl Fn(&Plan, u64) -> Result<Cost, Refusal>) {
    let (kind, numbers) = handed(&plan);
    line(
        name,
        |calls| added(calls.plan_cost(kind, black_box(numbers), black_box(reports))),
        || in_one(literal(&black_box(plan), black_box(reports).into())),
    );
}

fn cycle_cost(
    name: &str,
    (spec, count): (&Spec, u64),
    reports: u32,
    literal: impl Fn(&Spec, &[Pair], u64) -> Result<Cost, Refusal>,
) {
    let (spec_file, pairs) = (spec::write(spec), changing(spec, count));
    line(
        name,
        |calls| added(calls.cycle_cost(&spec_file, &pairs, black_box(reports))),
        || in_one(literal(&spec::read(&spec_file).unwrap(), &pairs, black_box(reports).into())),
    );
}

pub fn all() {
    for (name, plan) in PLANS {
        plan_cost(&format!("cost of 4,294,967,295 reports, {name}"), plan, LAST, Plan::cost);
    }
    let wide = (1, 20_160);
    let b15 = both_rates((2, 3), (5, 5), (15, 26), (10, 20));
    for (name, count, spec) in [
        ("512 pairs, sizes 1 to 1,000", 512, both_rates((1, 1_000), (15_000, 20_160), (20_000, 20_160), wide)),
        ("512 pairs, sizes 1 to 3", 512, both_rates((1, 3), (1, 5), (20_000, 20_160), wide)),
        ("2 pairs", 2, b15.clone()),
    ] {
        cycle_cost(&format!("cost of 4,294,967,295 reports, {name}"), (&spec, count), LAST, cost::of_cycle);
    }
    let (_, plan) = PLANS[2];
    for (number, reports) in [("1,000", 1_000), ("100,000", 100_000), ("10,000,000", 10_000_000)] {
        plan_cost(&format!("cost of {number} reports, all of them priced, k = 3"), plan, reports, Plan::cost_by_walk);
        cycle_cost("    2 pairs", (&b15, 2), reports, cost::of_cycle_by_walk);
    }
}
