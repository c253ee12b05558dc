//! From a minute back to the report, and what lies between two minutes. The literal way walks the reports of the minute's period;
//! in the last lines it walks all of them from report 0 on, and its time grows with the minute.

use crate::line;
use reference::{Kind, Plan};
use std::hint::black_box;

pub const LAST: u32 = u32::MAX;

/// Plans of both kinds, of many reports and of few.
pub const PLANS: [(&str, Plan); 4] = [
    ("well-formed, k = 20,160", Plan { kind: Kind::WellFormed, k: 20_160, period: 400_000, total: 300_000 }),
    ("even, k = 20,160", Plan { kind: Kind::Even, k: 20_160, period: 403_200, total: 300_000 }),
    ("well-formed, k = 3", Plan { kind: Kind::WellFormed, k: 3, period: 158, total: 17 }),
    ("even, k = 3", Plan { kind: Kind::Even, k: 3, period: 156, total: 17 }),
];

/// A plan as a call takes it: its kind by number, and k, period and total.
pub fn handed(plan: &Plan) -> (u32, [u32; 3]) {
    (u32::from(plan.kind == Kind::Even), [plan.k, plan.period, plan.total].map(|n| n as u32))
}

/// Two numbers in one, so that both must agree.
pub fn added((one, other): (u64, u64)) -> u32 {
    (one + other) as u32
}

fn last_report(name: &str, plan: Plan, minute: u32, literal: impl Fn(&Plan, u64) -> u64) {
    let (kind, numbers) = handed(&plan);
    line(
        name,
        |calls| calls.last_report(kind, black_box(numbers), black_box(minute)),
        || literal(&black_box(plan), black_box(minute).into()) as u32,
    );
}

fn nearest_report(name: &str, plan: Plan, minute: u32) {
    let (kind, numbers) = handed(&plan);
    line(
        name,
        |calls| calls.nearest_report(kind, black_box(numbers), black_box(minute)),
        || black_box(plan).nearest_report(black_box(minute).into()).unwrap() as u32,
    );
}

fn between(name: &str, plan: Plan, minutes: [u32; 2]) {
    let (kind, numbers) = handed(&plan);
    line(
        name,
        |calls| {
            let (reports, records) = calls.between(kind, black_box(numbers), black_box(minutes));
            added((reports.into(), records))
        },
        || {
            let [a, b] = black_box(minutes).map(u64::from);
            added(black_box(plan).between(a, b).unwrap())
        },
    );
}

pub fn all() {
    for (name, plan) in PLANS {
        last_report(&format!("last report at minute 4,294,967,295, {name}"), plan, LAST, |plan, minute| {
            plan.last_report(minute).unwrap()
        });
        nearest_report("    nearest report to it", plan, LAST);
        between("    reports and records from minute 1,000,000 to it", plan, [1_000_000, LAST]);
    }
    let (_, plan) = PLANS[2];
    for (name, minute) in [("1,000", 1_000), ("100,000", 100_000), ("10,000,000", 10_000_000)] {
        last_report(&format!("last report at minute {name}, all reports walked, k = 3"), plan, minute, |plan, minute| {
            plan.last_report_by_walk(minute).unwrap()
        });
    }
}
