//! Week tables as they are handed in, most of them good or nearly so, and minutes near what their windows begin and end with.

use crate::library::Library;
use crate::plans::{word, LAST};
use crate::random::Random;
use reference::duty::WEEK;

/// The four numbers of a day: its first window and its second.
pub type Day = [u16; 4];

pub const NO_WINDOW: Day = [0; 4];
pub const WHOLE_DAY: Day = [0, 1_440, 0, 0];
/// From 8 to 12 and from 13 to 17 o'clock.
pub const OFFICE: Day = [480, 720, 780, 1_020];

pub fn every_day(day: Day) -> Vec<u16> {
    [day; 7].concat()
}

/// Every day is like the others, but for this one; Monday has number 0.
pub fn but_one(others: Day, number: usize, day: Day) -> Vec<u16> {
    let mut days = [others; 7];
    days[number] = day;
    days.concat()
}

/// The open minutes of a week of a good table: those from each opening to its closing.
pub fn open_in_week(table: &[u16]) -> u64 {
    table.chunks(2).map(|window| u64::from(window[1] - window[0])).sum()
}

/// Four minutes of a day in order, no two the same: beside the ends of the day and its middle, or any.
fn minutes_of_day(random: &mut Random) -> [u16; 4] {
    loop {
        let edges = [0, 1, 2, 719, 720, 721, 1_438, 1_439, 1_440];
        let mut minutes = [0; 4].map(|_| if random.once_in(3) { random.pick(&edges) } else { random.below(1_441) as u16 });
        minutes.sort_unstable();
        if minutes.windows(2).all(|two| two[0] < two[1]) {
            return minutes;
        }
    }
}

/// A day with a window or two; some windows are as short as can be, or touch, or leave out nothing.
fn day_of_windows(random: &mut Random) -> Day {
    let [a, b, c, d] = minutes_of_day(random);
    let cut = random.between(1, 1_439) as u16;
    match random.below(10) {
        0 => [a, b, 0, 0],
        1 => [0, 0, a, b],
        2 => [a, b, b, c],
        3 => [a, a + 1, 0, 0],
        4 => [a, a + 1, b, b + 1],
        5 => open_all_day(random),
        6 => random.pick(&[[0, cut, 0, 0], [0, 0, 0, cut], [cut, 1_440, 0, 0], [0, 0, cut, 1_440]]),
        _ => [a, b, c, d],
    }
}

/// In one window, first or second, or in two that touch.
fn open_all_day(random: &mut Random) -> Day {
    let cut = random.between(1, 1_439) as u16;
    random.pick(&[WHOLE_DAY, [0, cut, cut, 1_440], [0, 0, 0, 1_440]])
}

/// A good table, of which all days may have windows, some, or one; or which is always open.
pub fn good_table(random: &mut Random) -> Vec<u16> {
    let closed_of_four = random.pick(&[0, 0, 1, 2, 3, 4]);
    let mut days = [NO_WINDOW; 7];
    for day in &mut days {
        if random.below(4) >= closed_of_four {
            *day = day_of_windows(random);
        }
    }
    if days == [NO_WINDOW; 7] {
        days[random.below(7) as usize] = day_of_windows(random);
    }
    if random.once_in(20) {
        days = days.map(|_| open_all_day(random));
    }
    days.concat()
}

/// A table with something wrong in it, mostly.
fn damaged(random: &mut Random, mut table: Vec<u16>) -> Vec<u16> {
    let (at, day) = (random.below(28) as usize, 4 * random.below(7) as usize);
    match random.below(9) {
        0 => table[at] = random.pick(&[0, 1, 720, 1_439, 1_440, 1_441, 65_535]),
        1 => table[at] = table[at].wrapping_add(1),
        2 => table[at] = table[at].wrapping_sub(1),
        3 => table[at] = random.next() as u16,
        4 => table.swap(at, at ^ 1),
        5 => table[day..day + 4].rotate_left(2),
        6 => table[day + 2] = table[day + 1].wrapping_sub(1),
        7 => table = vec![0; 28],
        _ => table.resize(random.pick(&[0, 1, 4, 24, 26, 27, 29, 30, 32, 56]), 0),
    }
    table
}

/// One in five has something done to it.
pub fn handed_table(random: &mut Random) -> Vec<u16> {
    let table = good_table(random);
    if random.once_in(5) {
        damaged(random, table)
    } else {
        table
    }
}

/// A number of weeks: none, few, as many as come before the last of `most` minutes, or any of those.
fn some_weeks(random: &mut Random, most: u64) -> u64 {
    let any = random.of_any_length(32);
    random.pick(&[0, 1, 2, most, most.saturating_sub(1), any]).min(most)
}

/// A calendar minute: at an opening or a closing, or beside it, in any week; about the last; or any.
pub fn some_calendar(random: &mut Random, table: &[u16]) -> u64 {
    match random.below(8) {
        0 => random.pick(&[0, 1, WEEK - 1, WEEK, LAST - 1, LAST]),
        1 => random.of_any_length(32),
        2 => LAST - random.below(2 * WEEK),
        _ => {
            let at = random.below(28) as usize;
            let edge = (at / 4) as u64 * 1_440 + u64::from(table.get(at).copied().unwrap_or(0));
            (some_weeks(random, LAST / WEEK) * WEEK + edge + random.below(3)).saturating_sub(1).min(LAST)
        }
    }
}

/// A duty minute: the first or the last of a window, or beside it, in any week; about the last; or any. The table need not be good.
pub fn some_duty(random: &mut Random, table: &[u16]) -> u64 {
    let windows: Vec<u64> = table.chunks(2).map(|window| window[window.len() - 1].saturating_sub(window[0]).into()).collect();
    match random.below(8) {
        0 => random.pick(&[0, 1, LAST - 1, LAST]),
        1 => random.of_any_length(32),
        2 => LAST - random.below(2 * WEEK),
        _ => {
            let open = windows.iter().sum::<u64>().max(1);
            let before: u64 = windows.iter().take(random.below(15) as usize).sum();
            (some_weeks(random, LAST / open) * open + before + random.below(3)).saturating_sub(1).min(LAST)
        }
    }
}

// Of a good table, by the library.

pub fn calendar_minute(table: &[u16], duty: u64, library: &mut Library) -> u64 {
    let got = library.calendar_minute(table, word(duty), [0]);
    assert_eq!(got.answer, 0, "{table:?} duty minute {duty}");
    got.places[0]
}

/// None where the minute is closed.
pub fn duty_minute(table: &[u16], calendar: u64, library: &mut Library) -> Option<u64> {
    let got = library.duty_minute(table, word(calendar), [0]);
    assert!([0, 28].contains(&got.answer), "{table:?} calendar minute {calendar}: {}", got.answer);
    (got.answer == 0).then(|| got.places[0].into())
}
