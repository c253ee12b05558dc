//! Document 02, Req 14: the fewest reports that show a 15 or a 16. Every number of them is tried, the fewest first, and of each every
//! report of two rounds as the start, the lowest first; whether they show it are two sums over the endless run.
//!
//! Where reports are many the second way, of the same name without `_by_sums`, looks both sums up in a table.

use crate::cycle::{self, Cycle};
use crate::schedule::Schedule;
use crate::{Pair, Refusal, Spec};

/// "Give the first report's number (for 16, that of the report just before them) and how many there are."
#[derive(Clone, Copy, Debug, PartialEq, Eq)]
pub struct Stretch {
    pub first: u64,
    pub reports: u64,
}

/// The sums over an endless run that its reports are judged by.
trait Sums {
    /// The records of so many reports, from this one on.
    fn records(&mut self, first: u64, reports: u64) -> u64;
    /// The minutes from one report to another, that one or a later one.
    fn minutes(&mut self, from: u64, to: u64) -> u64;
}

/// Report by report.
impl Sums for Cycle<'_> {
    fn records(&mut self, first: u64, reports: u64) -> u64 {
        (first..first + reports).map(|i| self.size(i)).sum()
    }

    fn minutes(&mut self, from: u64, to: u64) -> u64 {
        (from..to).map(|i| self.gap(i)).sum()
    }
}

/// The minute of each report, and the records of those before it; as far as they have been asked for.
struct Table<'a> {
    run: Cycle<'a>,
    minute: Vec<u64>,
    before: Vec<u64>,
}

impl<'a> Table<'a> {
    fn new(run: Cycle<'a>) -> Table<'a> {
        Table { run, minute: vec![0], before: vec![0] }
    }

    fn reach(&mut self, report: u64) {
        for i in self.minute.len() - 1..report as usize {
            self.minute.push(self.minute[i] + self.run.gap(i as u64));
            self.before.push(self.before[i] + self.run.size(i as u64));
        }
    }
}

impl Sums for Table<'_> {
    fn records(&mut self, first: u64, reports: u64) -> u64 {
        self.reach(first + reports);
        self.before[(first + reports) as usize] - self.before[first as usize]
    }

    fn minutes(&mut self, from: u64, to: u64) -> u64 {
        self.reach(to);
        self.minute[to as usize] - self.minute[from as usize]
    }
}

/// "reports in a row of the endless run whose first and last are less than R minutes apart and which hold more than B". Where there is no
/// report there is no first one.
fn too_full(run: &mut impl Sums, (b, r): (u64, u64), Stretch { first, reports }: Stretch) -> bool {
    reports > 0 && run.minutes(first, first + reports - 1) < r && run.records(first, reports) > b
}

/// "reports lying between two reports more than P minutes apart and holding less than L; there may be none between". The former of the
/// two is the first.
fn too_thin(run: &mut impl Sums, (l, p): (u64, u64), Stretch { first, reports }: Stretch) -> bool {
    run.minutes(first, first + reports + 1) > p && run.records(first + 1, reports) < l
}

/// Whether these reports show the number, which is 15 or 16.
fn show(run: &mut impl Sums, spec: &Spec, number: Refusal, stretch: Stretch) -> bool {
    match number {
        15 => spec.supply.is_some_and(|supply| too_full(run, supply, stretch)),
        _ => spec.demand.is_some_and(|demand| too_thin(run, demand, stretch)),
    }
}

/// No gap is 0: of more reports than this the first and the last are as far apart as the longest R, or farther, and two with more than this
/// between them are still farther apart than the longest P with one fewer.
const MOST: u64 = 20_160;

/// The number that the check gives, and for 15 and 16 what shows it: "of equals take the lowest number".
fn shortest_with(spec: &Spec, pairs: &[Pair], run: &mut impl Sums) -> (Refusal, Option<Stretch>) {
    let number = cycle::check(spec, pairs);
    if number != 15 && number != 16 {
        return (number, None);
    }
    let starts = 0..2 * pairs.len() as u64;
    let mut stretches = (0..=MOST).flat_map(|reports| starts.clone().map(move |first| Stretch { first, reports }));
    let found = stretches.find(|&stretch| show(run, spec, number, stretch));
    (number, Some(found.expect("reports that show what the check says")))
}

pub fn shortest_by_sums(spec: &Spec, pairs: &[Pair]) -> (Refusal, Option<Stretch>) {
    shortest_with(spec, pairs, &mut Cycle(pairs))
}

/// The same with the sums of a table.
pub fn shortest(spec: &Spec, pairs: &[Pair]) -> (Refusal, Option<Stretch>) {
    shortest_with(spec, pairs, &mut Table::new(Cycle(pairs)))
}

/// Whether these reports show the number, 15 or 16, report by report.
pub fn shows(spec: &Spec, pairs: &[Pair], number: Refusal, stretch: Stretch) -> bool {
    show(&mut Cycle(pairs), spec, number, stretch)
}
