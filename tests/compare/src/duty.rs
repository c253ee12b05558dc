//! Duty hours: week tables, and the way from a duty minute to the calendar and back, against the reference, which looks at each
//! minute of a week. The library's answers are also held against each other: no table is marked for that.

use crate::calls::expected;
use crate::checks::{HELD, HELD_MINUTE};
use crate::group::{same, Counts, Met, Runner, Verdict, RUNS};
use crate::library::Library;
use crate::plans::{word, LAST};
use crate::random::Random;
use crate::tables::{
    but_one, calendar_minute, duty_minute, every_day, good_table, handed_table, open_in_week, some_calendar, some_duty, Day,
    NO_WINDOW, OFFICE, WHOLE_DAY,
};
use reference::duty::{Week, WEEK};
use reference::Refusal;
use std::ops::Range;

pub fn all(runner: &mut Runner) {
    runner.random("reference: duty minutes by walk and by whole weeks", RUNS / 400, &[0, 28], two_ways_case);
    runner.every("every day of two windows, of nine numbers each", DAYS, &[0, 27, 28], day_case);
    let tables = tables_by_hand();
    let name = "every minute of the first two weeks and of the last, of some tables";
    runner.every(name, tables.len() as u64, &[0, 28], |number, library| two_weeks(&tables[number as usize], 0, library));
    runner.random("every minute of two weeks and of the last, of any table", RUNS / 200, &[0, 28], two_weeks_case);
    runner.random("duty minutes and calendar minutes", RUNS / 4, &[0, 27, 28], minutes_case);
    runner.random("from a duty minute to the calendar and back", RUNS, &[0, 1], back_case);
    runner.random("duty minute of a calendar minute, by halving", RUNS, &[0, 28], halving_case);
    runner.random("duty minutes one after the other, closed minutes between", RUNS, &[0, 1, 2, 3], next_case);
    runner.random("a later duty minute is later by as much", RUNS, &[0, 1], later_case);
    runner.random("duty minutes a whole number of weeks later", RUNS, &[0, 1], weeks_case);
}

/// Up to so many minutes the reference walks as well.
const WALKED: u64 = 2 * WEEK;

/// The reference's calendar minute, by whole weeks and, where it is near, by walk; both must agree.
pub fn calendar_of(week: &Week, duty: u64) -> u64 {
    let calendar = week.calendar_minute(duty);
    if calendar < WALKED {
        assert_eq!(calendar, week.calendar_minute_by_walk(duty), "two ways of the reference");
    }
    calendar
}

/// The reference's duty minute, in the same ways.
pub fn duty_of(week: &Week, calendar: u64) -> Result<u64, Refusal> {
    let duty = week.duty_minute(calendar);
    if calendar < WALKED {
        assert_eq!(duty, week.duty_minute_by_walk(calendar), "two ways of the reference");
    }
    duty
}

/// What a table got: the week that it tells of, or the refusal.
type Made = Result<Week, Refusal>;

/// The calendar minute is the reference's.
fn compare_calendar(table: &[u16], made: &Made, duty: u64, before: u64, library: &mut Library) -> Verdict {
    let wanted = expected(made.as_ref().map(|week| [calendar_of(week, duty)]).map_err(|refusal| *refusal), [before]);
    let input = || format!("{table:?} duty minute {duty}");
    same(wanted.answer, library.calendar_minute(table, word(duty), [before]), wanted, input)
}

/// The duty minute is the reference's.
fn compare_duty(table: &[u16], made: &Made, calendar: u64, before: u32, library: &mut Library) -> Verdict {
    let duty = made.as_ref().map_err(|refusal| *refusal).and_then(|week| duty_of(week, calendar));
    let wanted = expected(duty.map(|duty| [duty]), [before]);
    let input = || format!("{table:?} calendar minute {calendar}");
    same(wanted.answer, library.duty_minute(table, word(calendar), [before]), wanted, input)
}

fn compare_table(table: &[u16], made: &Made, library: &mut Library) -> Verdict {
    let answer = made.as_ref().err().copied().unwrap_or(0);
    same(answer, library.week_table(table), answer, || format!("{table:?}"))
}

/// What got a refusal gets it again where nothing can be written: a table in both calls, a closed minute in one.
fn refused_again(table: &[u16], minute: u64, answer: u32, library: &mut Library) -> Verdict {
    let input = || format!("{table:?} minute {minute}, again");
    if answer == 27 {
        same(answer, library.refused_calendar_minute(table, word(minute)), answer, input)?;
    }
    same(answer, library.refused_duty_minute(table, word(minute)), answer, input)
}

/// Up to some twenty weeks are walked.
fn two_ways_case(random: &mut Random, _: &mut Library) -> Verdict {
    let table = good_table(random);
    let week = Week::read(&table).expect("a good table");
    let calendar = some_calendar(random, &table) % (20 * WEEK);
    let duty = week.open_before(calendar);
    let by_weeks = (week.duty_minute(calendar), week.calendar_minute(duty));
    let by_walk = (week.duty_minute_by_walk(calendar), week.calendar_minute_by_walk(duty));
    if by_weeks != by_walk {
        return Err(format!("by whole weeks {by_weeks:?}, by walk {by_walk:?}, input {table:?} calendar minute {calendar}"));
    }
    Ok(by_walk.0.err().unwrap_or(0))
}

/// Each of a day's four numbers is in turn one of these.
const NUMBERS: [u16; 9] = [0, 1, 2, 719, 720, 1_439, 1_440, 1_441, 65_535];
const DAYS: u64 = 9 * 9 * 9 * 9;

/// The day is each day of the week, among others without a window and among others with two.
fn day_case(number: u64, library: &mut Library) -> Result<Counts, String> {
    let day: Day = std::array::from_fn(|place| NUMBERS[(number / 9u64.pow(place as u32) % 9) as usize]);
    let mut counts = Counts::new();
    for others in [NO_WINDOW, OFFICE] {
        for place in 0..7 {
            let table = but_one(others, place, day);
            let made = Week::read(&table);
            compare_table(&table, &made, library)?.add_to(&mut counts);
            for calendar in minutes_about(place as u64, made.is_ok()) {
                compare_duty(&table, &made, calendar, HELD, library)?.add_to(&mut counts);
                let duty = made.as_ref().map_or(calendar, |week| week.open_before(calendar));
                compare_calendar(&table, &made, duty, HELD_MINUTE, library)?.add_to(&mut counts);
            }
        }
    }
    if counts.keys().eq(&[27]) {
        refused_again(&but_one(OFFICE, number as usize % 7, day), 0, 27, library)?;
    }
    Ok(counts)
}

/// Calendar minutes of this day in the first two weeks and in the last whole one: each that its windows may begin or end with, and those
/// beside it. Where the table is not good, one alone.
fn minutes_about(day: u64, is_good: bool) -> Vec<u64> {
    let edges = if is_good { &NUMBERS[..7] } else { &NUMBERS[3..4] };
    let beside = |&edge: &u16| [edge.saturating_sub(1), edge, edge + 1].map(|minute| day * 1_440 + u64::from(minute));
    let minutes = edges.iter().flat_map(beside);
    minutes.flat_map(|minute| [0, 1, LAST / WEEK - 1].map(|week| week * WEEK + minute)).collect()
}

/// Tables of every sort.
fn tables_by_hand() -> Vec<Vec<u16>> {
    let (first, second) = ([0, 720, 0, 0], [0, 0, 720, 1_440]);
    let mut tables = [
        WHOLE_DAY,
        [0, 0, 0, 1_440],
        [0, 720, 720, 1_440],
        [0, 1, 1, 1_440],
        [0, 1_439, 1_439, 1_440],
        OFFICE,
        first,
        second,
        [0, 1, 0, 0],
        [0, 0, 1_439, 1_440],
        [0, 1, 1_439, 1_440],
        [1, 720, 721, 1_439],
    ]
    .map(every_day)
    .to_vec();
    for place in 0..7 {
        let alone = [[0, 1, 0, 0], [1_439, 1_440, 0, 0], [0, 0, 0, 1], [0, 0, 1_439, 1_440], OFFICE, WHOLE_DAY];
        tables.extend(alone.map(|day| but_one(NO_WINDOW, place, day)));
        tables.extend([NO_WINDOW, [0, 1, 1_439, 1_440]].map(|day| but_one(OFFICE, place, day)));
    }
    tables.push([second, first, NO_WINDOW, WHOLE_DAY, OFFICE, [600, 660, 660, 720], second].concat());
    tables
}

/// Every calendar minute of two weeks that follow each other, and of the last two whole weeks, by the marks of the reference; and every
/// duty minute of theirs.
fn two_weeks(table: &[u16], from: u64, library: &mut Library) -> Result<Counts, String> {
    let week = Week::read(table).expect("a good table");
    let mut counts = Counts::new();
    for first in [from, LAST / WEEK - 2] {
        let mut duty = first * week.open_in_week();
        for calendar in first * WEEK..(first + 2) * WEEK {
            let is_open = week.is_open(calendar);
            let wanted = expected(if is_open { Ok([duty]) } else { Err(28) }, [HELD]);
            let got = library.duty_minute(table, word(calendar), [HELD]);
            same(wanted.answer, got, wanted, || format!("{table:?} calendar minute {calendar}"))?.add_to(&mut counts);
            if is_open {
                let got = library.calendar_minute(table, word(duty), [HELD_MINUTE]);
                same(0, got, expected(Ok([calendar]), [HELD_MINUTE]), || format!("{table:?} duty minute {duty}"))?;
                duty += 1;
            }
        }
    }
    Ok(counts)
}

fn two_weeks_case(random: &mut Random, library: &mut Library) -> Result<Counts, String> {
    let from = random.pick(&[0, 1, 6, 7, 1_000, 60_000, 300_000]);
    two_weeks(&good_table(random), from, library)
}

/// Minutes that are asked of one table: to look at each minute of a week takes longer.
const ASKED: usize = 8;

/// Of so many refusals one is asked for again: to shut memory and open it takes longer than the call.
const AGAIN: u64 = 30;

fn minutes_case(random: &mut Random, library: &mut Library) -> Result<Counts, String> {
    let table = handed_table(random);
    let made = Week::read(&table);
    let mut counts = Counts::new();
    compare_table(&table, &made, library)?.add_to(&mut counts);
    for _ in 0..ASKED {
        let (calendar, duty) = (some_calendar(random, &table), some_duty(random, &table));
        let answer = compare_duty(&table, &made, calendar, random.next() as u32, library)?;
        answer.add_to(&mut counts);
        compare_calendar(&table, &made, duty, random.next(), library)?.add_to(&mut counts);
        if answer != 0 && random.once_in(AGAIN) {
            refused_again(&table, calendar, answer, library)?;
        }
    }
    Ok(counts)
}

/// "One undoes the other where both minutes are below 2³²." It counts as 1 where the calendar minute is not.
fn back_case(random: &mut Random, library: &mut Library) -> Verdict {
    let table = good_table(random);
    let duty = some_duty(random, &table);
    let calendar = calendar_minute(&table, duty, library);
    let input = || format!("{table:?} duty minute {duty} at {calendar}");
    if calendar > LAST {
        return same(1, true, duty_minute(&table, LAST, library).map_or(true, |last| last < duty), input);
    }
    same(0, duty_minute(&table, calendar, library), Some(duty), input)
}

/// Of the duty minutes 0, 1, 2 and so on, whose calendar minutes grow, the first that is at the minute or after it: a minute is open where
/// it is that one's.
fn halving_case(random: &mut Random, library: &mut Library) -> Verdict {
    let table = good_table(random);
    let calendar = some_calendar(random, &table);
    let (mut first, mut end) = (0, calendar);
    while first < end {
        let half = first + (end - first) / 2;
        if calendar_minute(&table, half, library) < calendar {
            first = half + 1;
        } else {
            end = half;
        }
    }
    let at = calendar_minute(&table, first, library);
    let wanted = (at == calendar).then_some(first);
    let input = || format!("{table:?} calendar minute {calendar}, and duty minute {first} at {at}");
    same(if at == calendar { 0 } else { 28 }, duty_minute(&table, calendar, library), wanted, input)
}

/// Between two duty minutes that follow each other all minutes are closed, and before the first. It counts as 0 where there are none, 1
/// where there are few and all are asked, 2 where some are, and 3 where the next is not below 2³².
fn next_case(random: &mut Random, library: &mut Library) -> Verdict {
    let table = good_table(random);
    let duty = some_duty(random, &table).min(LAST - 1);
    let (this, next) = (calendar_minute(&table, duty, library), calendar_minute(&table, duty + 1, library));
    let input = || format!("{table:?} duty minute {duty} at {this}, the next at {next}");
    if next <= this || next > LAST {
        return same(3, next > this, true, input);
    }
    let rest = if random.once_in(8) { 0..calendar_minute(&table, 0, library) } else { this + 1..next };
    let minutes = some_of(random, &rest);
    if let Some(minute) = minutes.iter().find(|&&minute| duty_minute(&table, minute, library).is_some()) {
        return Err(format!("{}, but {minute} is open", input()));
    }
    let met = u32::from(!rest.is_empty()) + u32::from(rest.end - rest.start > FEW);
    let numbers = [this, next].map(|minute| duty_minute(&table, minute, library));
    same(met, numbers, [Some(duty), Some(duty + 1)], input)
}

/// Up to so many minutes all are asked.
const FEW: u64 = 40;

/// All minutes of a rest where they are few; else the first, the last and some others.
fn some_of(random: &mut Random, rest: &Range<u64>) -> Vec<u64> {
    let minutes = rest.end - rest.start;
    if minutes <= FEW {
        return rest.clone().collect();
    }
    (2..FEW).map(|_| rest.start + random.below(minutes)).chain([rest.start, rest.end - 1]).collect()
}

/// As many calendar minutes later at least, and no fewer than the minute's own number from the start. It counts as 1 where a rest lies
/// between.
fn later_case(random: &mut Random, library: &mut Library) -> Verdict {
    let table = good_table(random);
    let (one, other) = (some_duty(random, &table), some_duty(random, &table));
    let near = (one + random.below(20)).min(LAST);
    let (a, b) = if random.once_in(2) { (one, near) } else { (one.min(other), one.max(other)) };
    let (from, to) = (calendar_minute(&table, a, library), calendar_minute(&table, b, library));
    let holds = from >= a && to >= b && to >= from && to - from >= b - a;
    same(u32::from(to - from > b - a), holds, true, || format!("{table:?} duty minutes {a} at {from} and {b} at {to}"))
}

/// The table repeats: so many weeks later the number is greater by as many times the open minutes of a week. It counts as 1 where the
/// calendar minute is then not below 2³².
fn weeks_case(random: &mut Random, library: &mut Library) -> Verdict {
    let table = good_table(random);
    let (open, duty) = (open_in_week(&table), some_duty(random, &table));
    let weeks = random.of_any_length(32) % ((LAST - duty) / open + 1);
    let later = duty + weeks * open;
    let (from, to) = (calendar_minute(&table, duty, library), calendar_minute(&table, later, library));
    let input = || format!("{table:?} duty minutes {duty} at {from} and {later} at {to}, {weeks} weeks later");
    same(0, to, from + weeks * WEEK, input)?;
    if to > LAST {
        return Ok(1);
    }
    same(0, duty_minute(&table, to, library), Some(later), input)
}
