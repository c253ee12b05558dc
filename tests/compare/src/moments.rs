//! From a minute back to the report, and what lies between two minutes. The reference walks the reports, so most plans here have few
//! of them in a period. On plans of any size the calls are held against each other, and against the minutes and sizes that
//! maxeltu_report gives.

use crate::calls::expected;
use crate::checks::HELD;
use crate::group::{same, Counts, Met, Runner, Verdict, RUNS};
use crate::library::Library;
use crate::plans::{handed_to_walk, proper_plan, word, Handed, SmallPlans, LAST};
use crate::random::Random;
use reference::schedule::Schedule;
use reference::{Plan, Refusal};

pub fn all(runner: &mut Runner) {
    runner.random("reference: minutes by walk and by whole periods", RUNS / 800, &[0, 23], two_ways_case);
    runner.every("every small plan: every minute and every two", SMALL.plans(), &[0, 1, 2, 3, 11, 23], small_case);
    runner.random("last and nearest report", RUNS, &[0, 1, 2, 3, 11], minute_case);
    runner.random("reports and records between two minutes", RUNS, &[0, 11, 23], between_case);
    runner.random("from a report to its minute and back", RUNS, &[0, 1], back_case);
    runner.random("last and nearest report, by the minutes of reports", RUNS, &[0, 1], neighbours_case);
    runner.random("reports and records between two minutes, summed", RUNS / 2, &[0, 1], summed_case);
    runner.random("reports and records between minutes add up", RUNS, &[0], add_up_case);
}

// Of a proper plan, by the library.
impl Handed {
    fn last(self, minute: u64, library: &mut Library) -> u64 {
        let got = library.last_report(self.kind, self.numbers(), word(minute), [0]);
        assert_eq!(got.answer, 0, "{self:?}");
        got.places[0].into()
    }

    fn nearest(self, minute: u64, library: &mut Library) -> u64 {
        let got = library.nearest_report(self.kind, self.numbers(), word(minute), [0]);
        assert_eq!(got.answer, 0, "{self:?}");
        got.places[0].into()
    }

    /// Reports and records from minute a up to but not including b, b not before a.
    fn between(self, a: u64, b: u64, library: &mut Library) -> (u64, u64) {
        let got = library.between(self.kind, self.numbers(), [a, b].map(word), [0; 3]);
        assert_eq!(got.answer, 0, "{self:?}");
        let [reports, high, low] = got.places.map(u64::from);
        (reports, high << 32 | low)
    }
}

/// A minute at a report, half way from it to the next, or beside one of these; at an end; or any.
fn some_minute(random: &mut Random, handed: Handed, library: &mut Library) -> u64 {
    let any = random.of_any_length(32);
    match handed.plan() {
        Ok(plan) if plan.proper() && !random.once_in(5) => {
            let within = random.below(plan.k);
            let i = any / plan.period * plan.k + random.pick(&[0, within, within, plan.k - 1]);
            let ((at, _), gap) = (handed.report(i, library), plan.gap(i));
            let from = random.pick(&[at, at + gap / 2, at + gap.div_ceil(2), at + gap]);
            (from + random.below(3)).saturating_sub(1).min(LAST)
        }
        _ => random.pick(&[any, any, any, 0, 1, LAST - 1, LAST]),
    }
}

/// Two minutes: the same, a few minutes or whole periods apart, or any two. Some are in the wrong order.
fn two_minutes(random: &mut Random, handed: Handed, library: &mut Library) -> (u64, u64) {
    let a = some_minute(random, handed, library);
    let b = match random.below(8) {
        0 => a,
        1 => a + random.below(20),
        2 => (a + handed.period * random.of_any_length(8) + random.below(3)).saturating_sub(1),
        3 => a.saturating_sub(1),
        _ => some_minute(random, handed, library),
    };
    let b = b.min(LAST);
    if random.once_in(4) {
        (a, b)
    } else {
        (a.min(b), a.max(b))
    }
}

/// Whether the reports up to a minute are so few that they are walked from report 0 on in every case. The plan is proper.
fn near(plan: &Plan, minute: u64) -> bool {
    minute / plan.period * plan.k + plan.k < 1_000
}

/// The last report and the nearest, by whole periods and, where the minute is near, by walk; both must agree.
fn last_and_nearest(plan: &Plan, minute: u64) -> Result<[u64; 2], Refusal> {
    let made = [plan.last_report(minute)?, plan.nearest_report(minute)?];
    if near(plan, minute) {
        let walked = [plan.last_report_by_walk(minute)?, plan.nearest_report_by_walk(minute)?];
        assert_eq!(made, walked, "two ways of the reference");
    }
    Ok(made)
}

/// Reports and records between two minutes, in the same ways.
fn between(plan: &Plan, a: u64, b: u64) -> Result<(u64, u64), Refusal> {
    let made = plan.between(a, b);
    if plan.proper() && near(plan, b) {
        assert_eq!(made, plan.between_by_walk(a, b), "two ways of the reference");
    }
    made
}

/// The last and the nearest report are the reference's. It counts as 0 where the minute is a report's, 1 where the last report is
/// nearer than the next, 2 where the next is, 3 where both are equally near.
fn compare_minute(handed: Handed, minute: u64, before: [u32; 2], library: &mut Library) -> Verdict {
    let plan = handed.plan();
    let made = plan.and_then(|plan| last_and_nearest(&plan, minute));
    let wanted = [0, 1].map(|call| expected(made.map(|numbers| [numbers[call]]), [before[call]]));
    let got = [
        library.last_report(handed.kind, handed.numbers(), word(minute), [before[0]]),
        library.nearest_report(handed.kind, handed.numbers(), word(minute), [before[1]]),
    ];
    let met = match (plan, made) {
        (Ok(plan), Ok([last, _])) => where_it_lies(&plan, minute, last),
        _ => wanted[0].answer,
    };
    same(met, got, wanted, || format!("{handed:?} minute {minute}"))
}

fn where_it_lies(plan: &Plan, minute: u64, last: u64) -> u32 {
    let (at, _) = plan.report(last).expect("a proper plan");
    let since = minute - at;
    match since.cmp(&(plan.gap(last) - since)) {
        _ if since == 0 => 0,
        std::cmp::Ordering::Less => 1,
        std::cmp::Ordering::Greater => 2,
        std::cmp::Ordering::Equal => 3,
    }
}

/// Reports and records between two minutes are the reference's.
fn compare_between(handed: Handed, (a, b): (u64, u64), before: [u32; 3], library: &mut Library) -> Verdict {
    let made = handed.plan().and_then(|plan| between(&plan, a, b));
    let wanted = expected(made.map(|(reports, records)| [reports, records >> 32, records & 0xFFFF_FFFF]), before);
    let got = library.between(handed.kind, handed.numbers(), [a, b].map(word), before);
    same(wanted.answer, got, wanted, || format!("{handed:?} from {a} to {b}"))
}

/// Up to 200,000 reports are walked: with the longest gaps up to the last minute.
fn two_ways_case(random: &mut Random, library: &mut Library) -> Verdict {
    let (handed, plan) = proper_plan(random);
    let end = (200_000 * (plan.period / plan.k)).min(LAST);
    let (a, b) = two_minutes(random, handed, library);
    let (a, b) = (a.min(end), if random.once_in(3) { end } else { b.min(end) });
    let whole = (plan.last_report(b), plan.nearest_report(b), plan.between(a, b));
    let walked = (plan.last_report_by_walk(b), plan.nearest_report_by_walk(b), plan.between_by_walk(a, b));
    let met = walked.2.err().unwrap_or(0);
    if whole != walked {
        return Err(format!("by whole periods {whole:?}, by walk {walked:?}, input {plan:?} from {a} to {b}"));
    }
    Ok(met)
}

const SMALL: SmallPlans = SmallPlans { counts: 7, periods: 31, totals: 15 };

/// Three periods of a proper plan, and a minute more.
fn small_case(number: u64, library: &mut Library) -> Result<Counts, String> {
    let handed = SMALL.plan(number);
    let end = if handed.is_proper() { 3 * handed.period + 1 } else { 2 };
    let mut counts = Counts::new();
    for a in 0..=end {
        compare_minute(handed, a, [HELD; 2], library)?.add_to(&mut counts);
        for b in 0..=end {
            compare_between(handed, (a, b), [HELD; 3], library)?.add_to(&mut counts);
        }
    }
    refused_again(handed, library)?;
    Ok(counts)
}

/// What is refused is refused again where nothing can be written.
fn refused_again(handed: Handed, library: &mut Library) -> Result<(), String> {
    let answer = if handed.is_proper() { 23 } else { 11 };
    same(answer, library.refused_between(handed.kind, handed.numbers(), [1, 0]), answer, || format!("{handed:?}"))?;
    if !handed.is_proper() {
        same(answer, library.refused_minute(handed.kind, handed.numbers(), 1), [answer; 2], || format!("{handed:?}"))?;
    }
    Ok(())
}

fn minute_case(random: &mut Random, library: &mut Library) -> Verdict {
    let handed = handed_to_walk(random);
    let minute = some_minute(random, handed, library);
    compare_minute(handed, minute, random.places(), library)
}

fn between_case(random: &mut Random, library: &mut Library) -> Verdict {
    let handed = handed_to_walk(random);
    let minutes = two_minutes(random, handed, library);
    compare_between(handed, minutes, random.places(), library)
}

/// "Going from report i to its minute and back gives i, where that minute is below 2³²." A minute earlier the last report is the one
/// before it. It counts as 1 where the minute is not below 2³²: there report i is past every minute that can be asked for.
fn back_case(random: &mut Random, library: &mut Library) -> Verdict {
    let (handed, plan) = proper_plan(random);
    let below = random.of_any_length(32) * plan.k / plan.period;
    let i = if random.once_in(5) { random.of_any_length(32) } else { below };
    let at_join = (i / plan.k * plan.k + random.below(3)).saturating_sub(1).min(LAST);
    let i = if random.once_in(3) { at_join } else { i };
    let (minute, _) = handed.report(i, library);
    let input = || format!("{handed:?} report {i} at minute {minute}");
    if minute > LAST {
        return same(1, handed.last(LAST, library) < i, true, input);
    }
    if i > 0 {
        same(0, handed.last(minute - 1, library), i - 1, input)?;
    }
    same(0, [handed.last(minute, library), handed.nearest(minute, library)], [i, i], input)
}

/// The last report lies at or before the minute, and the next after it; the one before the nearest report is farther than it, and the
/// next no nearer. It counts as 1 where the nearest report lies after the minute.
fn neighbours_case(random: &mut Random, library: &mut Library) -> Verdict {
    let (handed, _) = proper_plan(random);
    let minute = some_minute(random, handed, library);
    let (last, nearest) = (handed.last(minute, library), handed.nearest(minute, library));
    let mut at = |i: u64| handed.report(i, library).0;
    let is_last = at(last) <= minute && (last == LAST || minute < at(last + 1));
    let mut away = |i: u64| at(i).abs_diff(minute);
    let is_nearest = (nearest == 0 || away(nearest - 1) > away(nearest))
        && (nearest == LAST || away(nearest) <= away(nearest + 1))
        && nearest <= minute;
    let met = u32::from(at(nearest) > minute);
    same(met, (is_last, is_nearest), (true, true), || format!("{handed:?} minute {minute}: last {last}, nearest {nearest}"))
}

/// Some forty reports, one by one. It counts as 1 where they do not all have the same size.
fn summed_case(random: &mut Random, library: &mut Library) -> Verdict {
    let (handed, plan) = proper_plan(random);
    let a = some_minute(random, handed, library);
    let b = (a + random.below(40 * (plan.period / plan.k + 1))).min(LAST);
    let first = if a == 0 { 0 } else { handed.last(a - 1, library) + 1 };
    let reports: Vec<(u64, u64)> = (first..).map(|i| handed.report(i, library)).take_while(|&(minute, _)| minute < b).collect();
    let wanted = (reports.len() as u64, reports.iter().map(|&(_, size)| size).sum());
    let met = u32::from(reports.iter().any(|&(_, size)| size != reports[0].1));
    same(met, handed.between(a, b, library), wanted, || format!("{handed:?} from {a} to {b}, from report {first} on"))
}

/// From a to b and from b to c make from a to c. The reports from 0 to b are those up to the last one before b.
fn add_up_case(random: &mut Random, library: &mut Library) -> Verdict {
    let (handed, _) = proper_plan(random);
    let mut minutes: [u64; 3] = std::array::from_fn(|_| some_minute(random, handed, library));
    minutes.sort_unstable();
    let [a, b, c] = minutes;
    let (one, other) = (handed.between(a, b, library), handed.between(b, c, library));
    let input = || format!("{handed:?} from {a} to {b} to {c}");
    same(0, (one.0 + other.0, one.1 + other.1), handed.between(a, c, library), input)?;
    let up_to_b = if b == 0 { 0 } else { handed.last(b - 1, library) + 1 };
    same(0, handed.between(0, b, library).0, up_to_b, input)
}
