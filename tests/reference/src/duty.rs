//! Document 02, Req 11: duty hours. Each minute of a week is looked at, whether a window of its day has it, and the open ones are
//! counted, from calendar minute 0 on.
//!
//! Before a far minute there are too many of them. The second way, of the same names without `_by_walk`, counts one week minute by
//! minute, takes it as often as it lies whole before the minute, and counts on from there.

use crate::schedule::Schedule;
use crate::Refusal;

const DAY: u64 = 1_440;
pub const WEEK: u64 = 7 * DAY;

/// "seven days from Monday, each with two windows, opening and closing minute"
const NUMBERS: usize = 7 * 2 * 2;

#[derive(Clone, Copy)]
struct Window {
    opening: u64,
    closing: u64,
}

impl Window {
    /// "Both 0 means no window"
    fn is_absent(self) -> bool {
        self.opening == 0 && self.closing == 0
    }

    /// "0 to 1,440", and "otherwise opening is before closing".
    fn keeps_the_rules(self) -> bool {
        let in_a_day = self.opening <= DAY && self.closing <= DAY;
        in_a_day && (self.is_absent() || self.opening < self.closing)
    }

    /// "Opening is included, closing is not."
    fn has(self, minute: u64) -> bool {
        self.opening <= minute && minute < self.closing
    }
}

/// The two windows of a day.
type Day = [Window; 2];

fn day_of(numbers: &[u16]) -> Day {
    let window = |at: usize| Window { opening: numbers[at].into(), closing: numbers[at + 1].into() };
    [window(0), window(2)]
}

/// "A second window, where there is one, opens no earlier than the first pair's closing minute."
fn keeps_the_rules([first, second]: Day) -> bool {
    let in_order = second.is_absent() || second.opening >= first.closing;
    first.keeps_the_rules() && second.keeps_the_rules() && in_order
}

/// A week table, as the week that it tells of, minute by minute from Monday's start.
pub struct Week {
    open: Vec<bool>,
    /// For each minute, how many open ones come before it.
    before: Vec<u64>,
    /// The open ones, in order.
    minutes: Vec<u64>,
}

impl Week {
    /// "27 for a table that breaks these rules or opens no minute"; from C, also for one of another length.
    pub fn read(table: &[u16]) -> Result<Week, Refusal> {
        if table.len() != NUMBERS {
            return Err(27);
        }
        let days: Vec<Day> = table.chunks(4).map(day_of).collect();
        if !days.iter().all(|&day| keeps_the_rules(day)) {
            return Err(27);
        }
        let is_open = |minute: u64| days[(minute / DAY) as usize].iter().any(|window| window.has(minute % DAY));
        let week = Week::counted((0..WEEK).map(is_open).collect());
        if week.minutes.is_empty() {
            return Err(27);
        }
        Ok(week)
    }

    fn counted(open: Vec<bool>) -> Week {
        let (mut before, mut minutes) = (vec![], vec![]);
        for (minute, &is_open) in (0..).zip(&open) {
            before.push(minutes.len() as u64);
            if is_open {
                minutes.push(minute);
            }
        }
        Week { open, before, minutes }
    }

    /// "Calendar minute 0 is Monday's start, and the table repeats every week."
    pub fn is_open(&self, calendar: u64) -> bool {
        self.open[(calendar % WEEK) as usize]
    }

    pub fn open_in_week(&self) -> u64 {
        self.minutes.len() as u64
    }

    /// "Duty minutes number the open minutes in order; duty minute 0 is the first open minute from calendar minute 0 on."
    pub fn calendar_minute_by_walk(&self, duty: u64) -> u64 {
        let mut open = (0..).filter(|&minute| self.is_open(minute));
        open.nth(duty as usize).expect("an open minute in every week")
    }

    /// "28 for a closed calendar minute"
    pub fn duty_minute_by_walk(&self, calendar: u64) -> Result<u64, Refusal> {
        if !self.is_open(calendar) {
            return Err(28);
        }
        Ok((0..calendar).filter(|&minute| self.is_open(minute)).count() as u64)
    }

    pub fn calendar_minute(&self, duty: u64) -> u64 {
        let weeks = duty / self.open_in_week();
        weeks * WEEK + self.minutes[(duty % self.open_in_week()) as usize]
    }

    pub fn duty_minute(&self, calendar: u64) -> Result<u64, Refusal> {
        if !self.is_open(calendar) {
            return Err(28);
        }
        Ok(self.open_before(calendar))
    }

    /// The open minutes before this one, which may be closed.
    pub fn open_before(&self, calendar: u64) -> u64 {
        calendar / WEEK * self.open_in_week() + self.before[(calendar % WEEK) as usize]
    }

    /// A schedule "run on duty minutes", its reports before calendar minute `end`: the open minutes are counted, and each report is at
    /// that of its own number.
    pub fn run(&self, schedule: &impl Schedule, end: u64) -> Vec<Report> {
        let (mut i, mut due, mut duty, mut reports) = (0, 0, 0, vec![]);
        for calendar in (0..end).filter(|&minute| self.is_open(minute)) {
            if duty == due {
                reports.push((calendar, schedule.size(i)));
                due += schedule.gap(i);
                i += 1;
            }
            duty += 1;
        }
        reports
    }
}

/// A calendar minute, and the size of the report at it.
pub type Report = (u64, u64);

/// The least calendar minutes from one of these reports to the next. They are in order.
pub fn shortest_gap(reports: &[Report]) -> Option<u64> {
    reports.windows(2).map(|two| two[1].0 - two[0].0).min()
}

/// The most that any `n` calendar minutes hold of these reports: every start from the first report to the last is tried.
pub fn most_by_walk(reports: &[Report], n: u64) -> u64 {
    let (Some(&(first, _)), Some(&(last, _))) = (reports.first(), reports.last()) else { return 0 };
    let mut held = vec![0; (last - first + n) as usize];
    reports.iter().for_each(|&(minute, size)| held[(minute - first) as usize] += size);
    let mut below = vec![0];
    for records in held {
        below.push(below[below.len() - 1] + records);
    }
    (0..=(last - first) as usize).map(|a| below[a + n as usize] - below[a]).max().expect("a start")
}

/// The same with fewer starts: minutes that start elsewhere hold no more than those from their first report on.
pub fn most(reports: &[Report], n: u64) -> u64 {
    let held = |from: usize| -> u64 {
        let end = reports[from].0 + n;
        reports[from..].iter().take_while(|&&(minute, _)| minute < end).map(|&(_, size)| size).sum()
    };
    (0..reports.len()).map(held).max().unwrap_or(0)
}
