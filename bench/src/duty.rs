//! Duty hours: from a duty minute to the calendar and back. The literal way looks at each minute of a week first; in the last lines it
//! then counts all open ones from calendar minute 0 on, and its time grows with the minute.

use crate::calls::{LIBRARY, PLAIN_C};
use crate::line;
use crate::moments::LAST;
use crate::windows::{heading, lines};
use reference::duty::Week;
use std::hint::black_box;

/// Both are open on Monday at 4:15. That is calendar minute 255, the one a hundred weeks later, and the last that can be asked for.
fn tables() -> [(&'static str, Vec<u16>); 2] {
    let mut one_minute = [[0; 4]; 7];
    one_minute[0] = [255, 256, 0, 0];
    [("two windows a day", [[240, 720, 780, 1_020]; 7].concat()), ("one minute a week", one_minute.concat())]
}

const CALENDAR: [(&str, u32); 3] = [("255", 255), ("1,008,255", 1_008_255), ("4,294,967,295", LAST)];
const DUTY: [(&str, u32); 3] = [("1,000", 1_000), ("1,000,000", 1_000_000), ("4,294,967,295", LAST)];

fn read(table: &[u16]) -> Week {
    Week::read(black_box(table)).expect("a good table")
}

fn calendar_minute(name: &str, table: &[u16], duty: u32, literal: impl Fn(&Week, u64) -> u64) {
    line(
        name,
        |calls| calls.calendar_minute(black_box(table), black_box(duty)) as u32,
        || literal(&read(table), black_box(duty).into()) as u32,
    );
}

fn duty_minute(name: &str, table: &[u16], calendar: u32) {
    line(
        name,
        |calls| calls.duty_minute(black_box(table), black_box(calendar)),
        || read(table).duty_minute(black_box(calendar).into()).unwrap() as u32,
    );
}

/// Near minutes and far ones in the three programs.
pub fn all() {
    for (name, table) in tables() {
        let literal = || Week::read(black_box(&table)).err().unwrap_or(0);
        line(&format!("week table, {name}"), |calls| calls.week_table(black_box(&table)), literal);
        for (number, duty) in DUTY {
            calendar_minute(&format!("    calendar minute of duty minute {number}"), &table, duty, Week::calendar_minute);
        }
        for (number, calendar) in CALENDAR {
            duty_minute(&format!("    duty minute of calendar minute {number}"), &table, calendar);
        }
    }
    let [(_, table), _] = tables();
    for (number, duty) in [("1,000", 1_000), ("100,000", 100_000), ("10,000,000", 10_000_000)] {
        let name = format!("calendar minute of duty minute {number}, all counted");
        calendar_minute(&name, &table, duty, Week::calendar_minute_by_walk);
    }
}

/// The line's calls answer 0: what else they hand back is looked at in the lines above.
fn answered<T>(minute: T) -> u32 {
    black_box(minute);
    0
}

/// Each minute against the nearest in the same program.
pub fn against_near() {
    heading("one call; ratios to the same with a near minute");
    for (name, table) in tables() {
        lines(DUTY.map(|(number, _)| format!("duty minute {number}, {name}")), |side, way| {
            let duty = black_box(DUTY[way].1);
            answered(match side {
                0 => LIBRARY.calendar_minute(&table, duty),
                1 => PLAIN_C.calendar_minute(&table, duty),
                _ => read(&table).calendar_minute(duty.into()),
            })
        });
        lines(CALENDAR.map(|(number, _)| format!("calendar minute {number}, {name}")), |side, way| {
            let calendar = black_box(CALENDAR[way].1);
            answered(match side {
                0 => LIBRARY.duty_minute(&table, calendar),
                1 => PLAIN_C.duty_minute(&table, calendar),
                _ => read(&table).duty_minute(calendar.into()).unwrap() as u32,
            })
        });
    }
}
