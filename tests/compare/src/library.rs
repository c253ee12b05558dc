//! The twenty-nine calls of include/maxeltu.h, each wrapped so that its answer can be compared whole: every place that it was lent
//! is handed back with what it holds afterwards, and what it should only have read is looked at again.

use crate::fence::{first_in_reach, out_of_reach, Fence};
use crate::ring::Meter;
use reference::Pair;

#[rustfmt::skip]
extern "C" {
    fn maxeltu_verdict(spec: *const u8, spec_len: usize, cycle: *const u8, cycle_len: usize) -> u32;
    fn maxeltu_consistency(spec: *const u8, spec_len: usize, condition: *mut u32) -> u32;
    fn maxeltu_min_demand(spec: *const u8, spec_len: usize, k: u32, period: *mut u32, total: *mut u32, required: *mut u32) -> u32;
    fn maxeltu_max_supply(spec: *const u8, spec_len: usize, k: u32, period: *mut u32, total: *mut u32, available: *mut u32) -> u32;
    fn maxeltu_test(spec: *const u8, spec_len: usize, condition: *mut u32, k: *mut u32, period: *mut u32, total: *mut u32, supply: *mut u32) -> u32;
    fn maxeltu_even_plan(spec: *const u8, spec_len: usize, k: *mut u32, period: *mut u32, total: *mut u32) -> u32;
    fn maxeltu_box_plan(spec: *const u8, spec_len: usize, lateness: u32, k: *mut u32, period: *mut u32, total: *mut u32) -> u32;
    fn maxeltu_tolerant_plan(spec: *const u8, spec_len: usize, lateness: *mut u32, k: *mut u32, period: *mut u32, total: *mut u32) -> u32;
    fn maxeltu_report(kind: u32, k: u32, period: u32, total: u32, i: u32, minute: *mut u64, size: *mut u32) -> u32;
    fn maxeltu_last_report(kind: u32, k: u32, period: u32, total: u32, minute: u32, number: *mut u32) -> u32;
    fn maxeltu_nearest_report(kind: u32, k: u32, period: u32, total: u32, minute: u32, number: *mut u32) -> u32;
    fn maxeltu_between(kind: u32, k: u32, period: u32, total: u32, a: u32, b: u32, reports: *mut u32, records: *mut u64) -> u32;
    fn maxeltu_plan_cost(kind: u32, k: u32, period: u32, total: u32, reports: u32, tenths: *mut u64, cents: *mut u64) -> u32;
    fn maxeltu_check_cycle(spec: *const u8, spec_len: usize, pairs: *const Pair, count: usize) -> u32;
    fn maxeltu_check_late(spec: *const u8, spec_len: usize, pairs: *const Pair, count: usize, lateness: u32) -> u32;
    fn maxeltu_shortest_stretch(spec: *const u8, spec_len: usize, pairs: *const Pair, count: usize, first: *mut u32, reports: *mut u32) -> u32;
    fn maxeltu_margins(spec: *const u8, spec_len: usize, pairs: *const Pair, count: usize, most: *mut u64, most_from: *mut u32, least: *mut u64, least_after: *mut u32) -> u32;
    fn maxeltu_tolerance(spec: *const u8, spec_len: usize, pairs: *const Pair, count: usize, lateness: *mut u32) -> u32;
    fn maxeltu_cycle_cost(spec: *const u8, spec_len: usize, pairs: *const Pair, count: usize, reports: u32, tenths: *mut u64, cents: *mut u64) -> u32;
    fn maxeltu_normal_form(pairs: *const Pair, count: usize, normal: *mut Pair, places: usize, normal_count: *mut u32) -> u32;
    fn maxeltu_read_cycle(file: *const u8, file_len: usize, pairs: *mut Pair, places: usize, count: *mut u32) -> u32;
    fn maxeltu_write_cycle(pairs: *const Pair, count: usize, file: *mut u8, room: usize, written: *mut u32) -> u32;
    fn maxeltu_write_plan(kind: u32, k: u32, period: u32, total: u32, file: *mut u8, room: usize, written: *mut u32) -> u32;
    fn maxeltu_in_force(first: *const u8, first_len: usize, second: *const u8, second_len: usize, which: *mut u32) -> u32;
    fn maxeltu_make_meter(spec: *const u8, spec_len: usize, meter: *mut Meter) -> u32;
    fn maxeltu_offer(meter: *mut Meter, minute: u32, size: u32, left: *mut u32) -> u32;
    fn maxeltu_week_table(table: *const u16, numbers: usize) -> u32;
    fn maxeltu_calendar_minute(table: *const u16, numbers: usize, duty: u32, calendar: *mut u64) -> u32;
    fn maxeltu_duty_minute(table: *const u16, numbers: usize, calendar: u32, duty: *mut u32) -> u32;
}

/// What a call answered, and what its places for numbers hold afterwards.
#[derive(Clone, Copy, Debug, PartialEq, Eq)]
pub struct Outcome<const N: usize, P = u32> {
    pub answer: u32,
    pub places: [P; N],
}

/// What a call for a cost answered; the places are the tenths and the cents.
pub type Billed = Outcome<2, u64>;

/// Records, and a report's number: what the places of a margin hold.
pub type Margin = (u64, u32);

/// What a call for margins answered, and what the places of the most and of the least hold afterwards.
#[derive(Clone, Copy, Debug, PartialEq, Eq)]
pub struct Margins {
    pub answer: u32,
    pub most: Margin,
    pub least: Margin,
}

/// The memory that one thread lends to the library.
pub struct Library {
    spec: Fence<u8>,
    file: Fence<u8>,
    second: Fence<u8>,
    pairs: Fence<Pair>,
    normal: Fence<Pair>,
    number: Fence<u32>,
    stretch: Two<u32>,
    round: Two<u32>,
    records: Fence<u64>,
    bill: Two<u64>,
    most: Lent,
    least: Lent,
    meter: Fence<Meter>,
    left: Fence<u32>,
    table: Fence<u16>,
    calendar: Fence<u64>,
}

/// Two places for numbers of one kind.
struct Two<T> {
    first: Fence<T>,
    second: Fence<T>,
}

impl<T: Copy + PartialEq + Default> Two<T> {
    fn new() -> Two<T> {
        Two { first: Fence::new(1), second: Fence::new(1) }
    }

    fn lend(&mut self, [first, second]: [T; 2]) -> (*mut T, *mut T) {
        (self.first.lend(&[first]), self.second.lend(&[second]))
    }

    fn held(&self) -> [T; 2] {
        [self.first.held(1)[0], self.second.held(1)[0]]
    }

    fn sealed(&mut self, call: impl FnOnce(*mut T, *mut T) -> u32) -> u32 {
        let Two { first, second } = self;
        let held = [T::default()];
        first.sealed(&held, |first| second.sealed(&held, |second| call(first, second)))
    }
}

/// The two places of a margin.
struct Lent {
    records: Fence<u64>,
    report: Fence<u32>,
}

impl Lent {
    fn new() -> Lent {
        Lent { records: Fence::new(1), report: Fence::new(1) }
    }

    fn lend(&mut self, (records, report): Margin) -> (*mut u64, *mut u32) {
        (self.records.lend(&[records]), self.report.lend(&[report]))
    }

    fn held(&self) -> Margin {
        (self.records.held(1)[0], self.report.held(1)[0])
    }

    /// Where the margin is told it can be written, and where it is not it can't.
    fn sealed_unless(&mut self, is_told: bool, call: impl FnOnce(*mut u64, *mut u32) -> u32) -> u32 {
        let Lent { records, report } = self;
        if is_told {
            return call(records.lend(&[0]), report.lend(&[0]));
        }
        records.sealed(&[0], |records| report.sealed(&[0], |report| call(records, report)))
    }
}

/// Lends a specification, and sees that the call left it as it was.
fn lend_spec(file: &mut Fence<u8>, spec: &[u8], call: impl FnOnce(*const u8, usize) -> u32) -> u32 {
    let answer = call(file.lend(spec), spec.len());
    assert_eq!(file.held(spec.len()), spec, "a specification that was only to be read");
    answer
}

/// The same of two dated files.
fn lend_dated(lent: [&mut Fence<u8>; 2], files: [&[u8]; 2], call: impl FnOnce(*const u8, *const u8) -> u32) -> u32 {
    let [first, second] = lent;
    let answer = call(first.lend(files[0]), second.lend(files[1]));
    assert_eq!([first.held(files[0].len()), second.held(files[1].len())], files, "dated files that were only to be read");
    answer
}

/// The same of a cycle. More pairs than one can have lie where nothing can be read.
fn lend_cycle(list: &mut Fence<Pair>, pairs: &[Pair], call: impl FnOnce(*const Pair) -> u32) -> u32 {
    let answer = if pairs.len() > 512 { list.hidden(pairs, |at| call(at)) } else { call(list.lend(pairs)) };
    assert_eq!(list.held(pairs.len()), pairs, "a cycle that was only to be read");
    answer
}

/// The same of a week table. Numbers that cannot be one, more than 28 or fewer, lie where nothing can be read.
fn lend_table(list: &mut Fence<u16>, table: &[u16], call: impl FnOnce(*const u16, usize) -> u32) -> u32 {
    let count = table.len();
    let answer = if count == 28 { call(list.lend(table), count) } else { list.hidden(table, |at| call(at, count)) };
    assert_eq!(list.held(count), table, "a week table that was only to be read");
    answer
}

/// Room for the longest slices that the tests lend, in pages.
const PAGES: usize = 20;

// SAFETY, for every call below: each pointer leads to as many items as the length beside it says, or to one number; none is
// null, and no two overlap, but for the two files of in_force_of_one, which are only read.
impl Library {
    pub fn new() -> Library {
        Library {
            spec: Fence::new(PAGES),
            file: Fence::new(PAGES),
            second: Fence::new(PAGES),
            pairs: Fence::new(PAGES),
            normal: Fence::new(PAGES),
            number: Fence::new(1),
            stretch: Two::new(),
            round: Two::new(),
            records: Fence::new(1),
            bill: Two::new(),
            most: Lent::new(),
            least: Lent::new(),
            meter: Fence::new(2),
            left: Fence::new(1),
            table: Fence::new(1),
            calendar: Fence::new(1),
        }
    }

    fn with_spec(&mut self, spec: &[u8], call: impl FnOnce(*const u8, usize) -> u32) -> u32 {
        lend_spec(&mut self.spec, spec, call)
    }

    fn with_cycle(&mut self, spec: &[u8], pairs: &[Pair], call: impl FnOnce(*const u8, usize, *const Pair) -> u32) -> u32 {
        let Library { spec: file, pairs: list, .. } = self;
        lend_cycle(list, pairs, |list| lend_spec(file, spec, |at, len| call(at, len, list)))
    }

    pub fn verdict(&mut self, spec: &[u8], cycle: &[u8]) -> u32 {
        let file = self.file.lend(cycle);
        let answer = self.with_spec(spec, |at, len| unsafe { maxeltu_verdict(at, len, file, cycle.len()) });
        assert_eq!(self.file.held(cycle.len()), cycle, "a cycle file that was only to be read");
        answer
    }

    pub fn consistency(&mut self, spec: &[u8], before: [u32; 1]) -> Outcome<1> {
        let [mut condition] = before;
        let answer = self.with_spec(spec, |at, len| unsafe { maxeltu_consistency(at, len, &mut condition) });
        Outcome { answer, places: [condition] }
    }

    pub fn min_demand(&mut self, spec: &[u8], k: u32, before: [u32; 3]) -> Outcome<3> {
        let [mut period, mut total, mut required] = before;
        let answer =
            self.with_spec(spec, |at, len| unsafe { maxeltu_min_demand(at, len, k, &mut period, &mut total, &mut required) });
        Outcome { answer, places: [period, total, required] }
    }

    pub fn max_supply(&mut self, spec: &[u8], k: u32, before: [u32; 3]) -> Outcome<3> {
        let [mut period, mut total, mut available] = before;
        let answer =
            self.with_spec(spec, |at, len| unsafe { maxeltu_max_supply(at, len, k, &mut period, &mut total, &mut available) });
        Outcome { answer, places: [period, total, available] }
    }

    pub fn test(&mut self, spec: &[u8], before: [u32; 5]) -> Outcome<5> {
        let [mut condition, mut k, mut period, mut total, mut supply] = before;
        let answer = self.with_spec(spec, |at, len| unsafe {
            maxeltu_test(at, len, &mut condition, &mut k, &mut period, &mut total, &mut supply)
        });
        Outcome { answer, places: [condition, k, period, total, supply] }
    }

    pub fn even_plan(&mut self, spec: &[u8], before: [u32; 3]) -> Outcome<3> {
        let [mut k, mut period, mut total] = before;
        let answer = self.with_spec(spec, |at, len| unsafe { maxeltu_even_plan(at, len, &mut k, &mut period, &mut total) });
        Outcome { answer, places: [k, period, total] }
    }

    /// The places are k, the period and the total.
    pub fn box_plan(&mut self, spec: &[u8], lateness: u32, before: [u32; 3]) -> Outcome<3> {
        let Library { spec: file, number, round, .. } = self;
        let (k, (period, total)) = (number.lend(&before[..1]), round.lend([before[1], before[2]]));
        let answer = lend_spec(file, spec, |at, len| unsafe { maxeltu_box_plan(at, len, lateness, k, period, total) });
        let ([period, total], k) = (round.held(), number.held(1)[0]);
        Outcome { answer, places: [k, period, total] }
    }

    /// A box plan that is refused: all three numbers have places where nothing can be written.
    pub fn refused_box_plan(&mut self, spec: &[u8], lateness: u32) -> u32 {
        let Library { spec: file, number, round, .. } = self;
        lend_spec(file, spec, |at, len| {
            number
                .sealed(&[0], |k| round.sealed(|period, total| unsafe { maxeltu_box_plan(at, len, lateness, k, period, total) }))
        })
    }

    /// The places are the lateness, k, the period and the total.
    pub fn tolerant_plan(&mut self, spec: &[u8], before: [u32; 4]) -> Outcome<4> {
        let Library { spec: file, stretch, round, .. } = self;
        let ((lateness, k), (period, total)) = (stretch.lend([before[0], before[1]]), round.lend([before[2], before[3]]));
        let answer = lend_spec(file, spec, |at, len| unsafe { maxeltu_tolerant_plan(at, len, lateness, k, period, total) });
        let ([lateness, k], [period, total]) = (stretch.held(), round.held());
        Outcome { answer, places: [lateness, k, period, total] }
    }

    /// A most tolerant plan that is refused: all four numbers have places where nothing can be written.
    pub fn refused_tolerant_plan(&mut self, spec: &[u8]) -> u32 {
        let Library { spec: file, stretch, round, .. } = self;
        lend_spec(file, spec, |at, len| {
            stretch.sealed(|lateness, k| {
                round.sealed(|period, total| unsafe { maxeltu_tolerant_plan(at, len, lateness, k, period, total) })
            })
        })
    }

    /// The places are the high and the low half of the minute, and the size.
    pub fn report(&mut self, kind: u32, [k, period, total]: [u32; 3], i: u32, before: [u32; 3]) -> Outcome<3> {
        let mut minute = u64::from(before[0]) << 32 | u64::from(before[1]);
        let mut size = before[2];
        let answer = unsafe { maxeltu_report(kind, k, period, total, i, &mut minute, &mut size) };
        Outcome { answer, places: [(minute >> 32) as u32, minute as u32, size] }
    }

    /// The place is the report's number.
    pub fn last_report(&mut self, kind: u32, [k, period, total]: [u32; 3], minute: u32, before: [u32; 1]) -> Outcome<1> {
        let number = self.number.lend(&before);
        let answer = unsafe { maxeltu_last_report(kind, k, period, total, minute, number) };
        Outcome { answer, places: [self.number.held(1)[0]] }
    }

    /// The place is the report's number.
    pub fn nearest_report(&mut self, kind: u32, [k, period, total]: [u32; 3], minute: u32, before: [u32; 1]) -> Outcome<1> {
        let number = self.number.lend(&before);
        let answer = unsafe { maxeltu_nearest_report(kind, k, period, total, minute, number) };
        Outcome { answer, places: [self.number.held(1)[0]] }
    }

    /// The places are the reports, and the high and the low half of the records.
    pub fn between(&mut self, kind: u32, [k, period, total]: [u32; 3], [a, b]: [u32; 2], before: [u32; 3]) -> Outcome<3> {
        let reports = self.number.lend(&before[..1]);
        let records = self.records.lend(&[u64::from(before[1]) << 32 | u64::from(before[2])]);
        let answer = unsafe { maxeltu_between(kind, k, period, total, a, b, reports, records) };
        let (reports, records) = (self.number.held(1)[0], self.records.held(1)[0]);
        Outcome { answer, places: [reports, (records >> 32) as u32, records as u32] }
    }

    /// What is asked of a plan's minute is refused: the last report and the nearest, whose number has a place where nothing can be
    /// written.
    pub fn refused_minute(&mut self, kind: u32, [k, period, total]: [u32; 3], minute: u32) -> [u32; 2] {
        self.number.sealed(&[0], |number| unsafe {
            [
                maxeltu_last_report(kind, k, period, total, minute, number),
                maxeltu_nearest_report(kind, k, period, total, minute, number),
            ]
        })
    }

    /// The same of two minutes.
    pub fn refused_between(&mut self, kind: u32, [k, period, total]: [u32; 3], [a, b]: [u32; 2]) -> u32 {
        let Library { number, records, .. } = self;
        number.sealed(&[0], |reports| {
            records.sealed(&[0], |records| unsafe { maxeltu_between(kind, k, period, total, a, b, reports, records) })
        })
    }

    pub fn check_cycle(&mut self, spec: &[u8], pairs: &[Pair]) -> u32 {
        self.with_cycle(spec, pairs, |at, len, list| unsafe { maxeltu_check_cycle(at, len, list, pairs.len()) })
    }

    pub fn check_late(&mut self, spec: &[u8], pairs: &[Pair], lateness: u32) -> u32 {
        self.with_cycle(spec, pairs, |at, len, list| unsafe { maxeltu_check_late(at, len, list, pairs.len(), lateness) })
    }

    /// The places are the first report's number, and how many there are.
    pub fn shortest_stretch(&mut self, spec: &[u8], pairs: &[Pair], before: [u32; 2]) -> Outcome<2> {
        let (first, reports) = self.stretch.lend(before);
        let answer = self.with_cycle(spec, pairs, |at, len, list| unsafe {
            maxeltu_shortest_stretch(at, len, list, pairs.len(), first, reports)
        });
        Outcome { answer, places: self.stretch.held() }
    }

    /// A cycle that gets no stretch, as it is passed or gets another number: both places lie where nothing can be written.
    pub fn no_stretch(&mut self, spec: &[u8], pairs: &[Pair]) -> u32 {
        let (at, count) = (self.spec.lend(spec), pairs.len());
        let Library { pairs: list, stretch, .. } = self;
        lend_cycle(list, pairs, |list| {
            stretch.sealed(|first, reports| unsafe { maxeltu_shortest_stretch(at, spec.len(), list, count, first, reports) })
        })
    }

    /// The same of so many pairs, of which none can be read.
    pub fn no_stretch_out_of_reach(&mut self, spec: &[u8], count: usize) -> u32 {
        let at = self.spec.lend(spec);
        out_of_reach(count, |list| {
            self.stretch.sealed(|first, reports| unsafe { maxeltu_shortest_stretch(at, spec.len(), list, count, first, reports) })
        })
    }

    pub fn margins(&mut self, spec: &[u8], pairs: &[Pair], before: [Margin; 2]) -> Margins {
        let ((most, from), (least, after)) = (self.most.lend(before[0]), self.least.lend(before[1]));
        let answer = self.with_cycle(spec, pairs, |at, len, list| unsafe {
            maxeltu_margins(at, len, list, pairs.len(), most, from, least, after)
        });
        Margins { answer, most: self.most.held(), least: self.least.held() }
    }

    /// The same, where the places of the most, or of the least, lie where nothing can be written unless they are told.
    pub fn margins_told(&mut self, spec: &[u8], pairs: &[Pair], told: [bool; 2]) -> u32 {
        let (at, count) = (self.spec.lend(spec), pairs.len());
        let Library { pairs: list, most, least, .. } = self;
        lend_cycle(list, pairs, |list| {
            most.sealed_unless(told[0], |most, from| {
                least.sealed_unless(told[1], |least, after| unsafe {
                    maxeltu_margins(at, spec.len(), list, count, most, from, least, after)
                })
            })
        })
    }

    /// The place is the lateness.
    pub fn tolerance(&mut self, spec: &[u8], pairs: &[Pair], before: [u32; 1]) -> Outcome<1> {
        let lateness = self.number.lend(&before);
        let answer =
            self.with_cycle(spec, pairs, |at, len, list| unsafe { maxeltu_tolerance(at, len, list, pairs.len(), lateness) });
        Outcome { answer, places: [self.number.held(1)[0]] }
    }

    /// A cycle that is not passed: the lateness has a place where nothing can be written.
    pub fn refused_tolerance(&mut self, spec: &[u8], pairs: &[Pair]) -> u32 {
        let (at, count) = (self.spec.lend(spec), pairs.len());
        let Library { pairs: list, number, .. } = self;
        lend_cycle(list, pairs, |list| {
            number.sealed(&[0], |lateness| unsafe { maxeltu_tolerance(at, spec.len(), list, count, lateness) })
        })
    }

    /// The answers for so many pairs, of which none can be read: margins and tolerance, whose places lie where nothing can be written.
    pub fn leeway_out_of_reach(&mut self, spec: &[u8], count: usize) -> [u32; 2] {
        let at = self.spec.lend(spec);
        let Library { most, least, number, .. } = self;
        out_of_reach(count, |list| {
            let margins = most.sealed_unless(false, |most, from| {
                least.sealed_unless(false, |least, after| unsafe {
                    maxeltu_margins(at, spec.len(), list, count, most, from, least, after)
                })
            });
            [margins, number.sealed(&[0], |lateness| unsafe { maxeltu_tolerance(at, spec.len(), list, count, lateness) })]
        })
    }

    pub fn plan_cost(&mut self, kind: u32, [k, period, total]: [u32; 3], reports: u32, before: [u64; 2]) -> Billed {
        let (tenths, cents) = self.bill.lend(before);
        let answer = unsafe { maxeltu_plan_cost(kind, k, period, total, reports, tenths, cents) };
        Outcome { answer, places: self.bill.held() }
    }

    pub fn cycle_cost(&mut self, spec: &[u8], pairs: &[Pair], reports: u32, before: [u64; 2]) -> Billed {
        let (tenths, cents) = self.bill.lend(before);
        let answer = self.with_cycle(spec, pairs, |at, len, list| unsafe {
            maxeltu_cycle_cost(at, len, list, pairs.len(), reports, tenths, cents)
        });
        Outcome { answer, places: self.bill.held() }
    }

    /// A cost that is refused: tenths and cents have places where nothing can be written.
    pub fn refused_plan_cost(&mut self, kind: u32, [k, period, total]: [u32; 3], reports: u32) -> u32 {
        self.bill.sealed(|tenths, cents| unsafe { maxeltu_plan_cost(kind, k, period, total, reports, tenths, cents) })
    }

    /// The same of a cycle.
    pub fn refused_cycle_cost(&mut self, spec: &[u8], pairs: &[Pair], reports: u32) -> u32 {
        let (at, count) = (self.spec.lend(spec), pairs.len());
        let Library { pairs: list, bill, .. } = self;
        lend_cycle(list, pairs, |list| {
            bill.sealed(|tenths, cents| unsafe { maxeltu_cycle_cost(at, spec.len(), list, count, reports, tenths, cents) })
        })
    }

    /// The places hold `before`; they come back as the call leaves them, beside the count.
    pub fn normal_form(&mut self, pairs: &[Pair], before: &[Pair], count: u32) -> (Outcome<1>, Vec<Pair>) {
        let (form, number) = (self.normal.lend(before), self.number.lend(&[count]));
        let answer = lend_cycle(&mut self.pairs, pairs, |list| unsafe {
            maxeltu_normal_form(list, pairs.len(), form, before.len(), number)
        });
        (Outcome { answer, places: [self.number.held(1)[0]] }, self.normal.held(before.len()).to_vec())
    }

    /// A normal form that is refused: so many places, and that of the count, lie where nothing can be written.
    pub fn refused_normal_form(&mut self, pairs: &[Pair], before: &[Pair]) -> u32 {
        let Library { pairs: list, normal, number, .. } = self;
        lend_cycle(list, pairs, |list| {
            normal.sealed(before, |form| {
                number.sealed(&[0], |number| unsafe { maxeltu_normal_form(list, pairs.len(), form, before.len(), number) })
            })
        })
    }

    /// The answer for a cycle of so many pairs, of which none can be read.
    pub fn normal_form_out_of_reach(&mut self, count: usize, before: &[Pair]) -> u32 {
        let Library { normal, number, .. } = self;
        out_of_reach(count, |list| {
            normal.sealed(before, |form| {
                number.sealed(&[0], |number| unsafe { maxeltu_normal_form(list, count, form, before.len(), number) })
            })
        })
    }

    /// The same as `normal_form`, with so many places that only the first of them, which hold `before`, can be touched.
    pub fn normal_form_in_many_places(
        &mut self,
        pairs: &[Pair],
        before: &[Pair],
        places: usize,
        count: u32,
    ) -> (Outcome<1>, Vec<Pair>) {
        let number = self.number.lend(&[count]);
        let (answer, held) = first_in_reach(before, places, |form| {
            lend_cycle(&mut self.pairs, pairs, |list| unsafe { maxeltu_normal_form(list, pairs.len(), form, places, number) })
        });
        (Outcome { answer, places: [self.number.held(1)[0]] }, held)
    }

    /// The places hold `before`; they come back as the call leaves them, beside the count.
    pub fn read_cycle(&mut self, file: &[u8], before: &[Pair], count: u32) -> (Outcome<1>, Vec<Pair>) {
        let list = self.pairs.lend(before);
        let mut count = count;
        let lent = self.file.lend(file);
        let answer = unsafe { maxeltu_read_cycle(lent, file.len(), list, before.len(), &mut count) };
        assert_eq!(self.file.held(file.len()), file, "a cycle file that was only to be read");
        (Outcome { answer, places: [count] }, self.pairs.held(before.len()).to_vec())
    }

    /// The bytes hold `before`; they come back as the call leaves them, beside the number written.
    pub fn write_cycle(&mut self, pairs: &[Pair], before: &[u8], written: u32) -> (Outcome<1>, Vec<u8>) {
        let mut written = written;
        let lent = self.file.lend(before);
        let answer = lend_cycle(&mut self.pairs, pairs, |list| unsafe {
            maxeltu_write_cycle(list, pairs.len(), lent, before.len(), &mut written)
        });
        (Outcome { answer, places: [written] }, self.file.held(before.len()).to_vec())
    }

    /// The bytes hold `before`; they come back as the call leaves them, beside the number written.
    pub fn write_plan(&mut self, kind: u32, [k, period, total]: [u32; 3], before: &[u8], written: u32) -> (Outcome<1>, Vec<u8>) {
        let (lent, number) = (self.file.lend(before), self.number.lend(&[written]));
        let answer = unsafe { maxeltu_write_plan(kind, k, period, total, lent, before.len(), number) };
        (Outcome { answer, places: [self.number.held(1)[0]] }, self.file.held(before.len()).to_vec())
    }

    /// A plan that is not written out: so many bytes, and the place of the number written, lie where nothing can be written.
    pub fn refused_write_plan(&mut self, kind: u32, [k, period, total]: [u32; 3], room: usize) -> u32 {
        let Library { file, number, .. } = self;
        file.sealed(&vec![0; room], |lent| {
            number.sealed(&[0], |number| unsafe { maxeltu_write_plan(kind, k, period, total, lent, room, number) })
        })
    }

    /// The same as `write_plan`, with so much room that only the first bytes, which hold `before`, can be touched.
    pub fn write_plan_in_much_room(
        &mut self,
        kind: u32,
        [k, period, total]: [u32; 3],
        before: &[u8],
        room: usize,
        written: u32,
    ) -> (Outcome<1>, Vec<u8>) {
        let number = self.number.lend(&[written]);
        let (answer, held) =
            first_in_reach(before, room, |lent| unsafe { maxeltu_write_plan(kind, k, period, total, lent, room, number) });
        (Outcome { answer, places: [self.number.held(1)[0]] }, held)
    }

    /// The place is the file in force, 1 or 2.
    pub fn in_force(&mut self, first: &[u8], second: &[u8], before: [u32; 1]) -> Outcome<1> {
        let Library { file, second: other, number, .. } = self;
        let which = number.lend(&before);
        let answer = lend_dated([file, other], [first, second], |one, other| unsafe {
            maxeltu_in_force(one, first.len(), other, second.len(), which)
        });
        Outcome { answer, places: [self.number.held(1)[0]] }
    }

    /// The same of one file, lent as both.
    pub fn in_force_of_one(&mut self, file: &[u8], before: [u32; 1]) -> Outcome<1> {
        let (lent, which) = (self.file.lend(file), self.number.lend(&before));
        let answer = unsafe { maxeltu_in_force(lent, file.len(), lent, file.len(), which) };
        assert_eq!(self.file.held(file.len()), file, "a dated file that was only to be read");
        Outcome { answer, places: [self.number.held(1)[0]] }
    }

    /// Two files of which none is in force: the file that is has a place where nothing can be written.
    pub fn refused_in_force(&mut self, first: &[u8], second: &[u8]) -> u32 {
        let Library { file, second: other, number, .. } = self;
        lend_dated([file, other], [first, second], |one, other| {
            number.sealed(&[0], |which| unsafe { maxeltu_in_force(one, first.len(), other, second.len(), which) })
        })
    }

    /// The same as `in_force` beside a file of so many bytes that only the first of them, which are these, can be touched: that one second,
    /// and first.
    pub fn in_force_beside_many(&mut self, file: &[u8], bytes: &[u8], length: usize, before: [u32; 1]) -> [Outcome<1>; 2] {
        let (lent, number) = (self.file.lend(file), &mut self.number);
        let mut ask = |first, first_len, second, second_len| {
            let answer = unsafe { maxeltu_in_force(first, first_len, second, second_len, number.lend(&before)) };
            Outcome { answer, places: [number.held(1)[0]] }
        };
        let (got, held) =
            first_in_reach(bytes, length, |many| [ask(lent, file.len(), many, length), ask(many, length, lent, file.len())]);
        assert_eq!(held, bytes, "a dated file that was only to be read");
        assert_eq!(self.file.held(file.len()), file, "a dated file that was only to be read");
        got
    }

    /// The meter comes back as the call leaves it.
    pub fn make_meter(&mut self, spec: &[u8], meter: &mut Meter) -> u32 {
        let lent = self.meter.lend(std::slice::from_ref(meter));
        let answer = self.with_spec(spec, |at, len| unsafe { maxeltu_make_meter(at, len, lent) });
        *meter = self.meter.held(1)[0];
        answer
    }

    /// A refusal, which writes nothing: the meter lies where nothing can be written.
    pub fn make_no_meter(&mut self, spec: &[u8], former: &Meter) -> u32 {
        let lent = self.spec.lend(spec);
        self.meter.sealed(std::slice::from_ref(former), |meter| unsafe { maxeltu_make_meter(lent, spec.len(), meter) })
    }

    /// An offer that is refused, to a meter that lies where nothing can be written. Where the budget left is not told, its place
    /// lies there too.
    pub fn refused_offer(&mut self, meter: &Meter, minute: u32, size: u32) -> u32 {
        let Library { meter: lent, left, .. } = self;
        lent.sealed(std::slice::from_ref(meter), |lent| match meter.window {
            0 => left.sealed(&[0], |left| unsafe { maxeltu_offer(lent, minute, size, left) }),
            _ => unsafe { maxeltu_offer(lent, minute, size, left.lend(&[0])) },
        })
    }

    /// The meter comes back as the call leaves it, beside the budget left.
    pub fn offer(&mut self, meter: &mut Meter, minute: u32, size: u32, left: u32) -> Outcome<1> {
        let lent = self.meter.lend(std::slice::from_ref(meter));
        let answer = unsafe { maxeltu_offer(lent, minute, size, self.left.lend(&[left])) };
        *meter = self.meter.held(1)[0];
        Outcome { answer, places: [self.left.held(1)[0]] }
    }

    pub fn week_table(&mut self, table: &[u16]) -> u32 {
        lend_table(&mut self.table, table, |at, count| unsafe { maxeltu_week_table(at, count) })
    }

    /// The place is the calendar minute.
    pub fn calendar_minute(&mut self, table: &[u16], duty: u32, before: [u64; 1]) -> Outcome<1, u64> {
        let calendar = self.calendar.lend(&before);
        let answer =
            lend_table(&mut self.table, table, |at, count| unsafe { maxeltu_calendar_minute(at, count, duty, calendar) });
        Outcome { answer, places: [self.calendar.held(1)[0]] }
    }

    /// The place is the duty minute.
    pub fn duty_minute(&mut self, table: &[u16], calendar: u32, before: [u32; 1]) -> Outcome<1> {
        let duty = self.number.lend(&before);
        let answer = lend_table(&mut self.table, table, |at, count| unsafe { maxeltu_duty_minute(at, count, calendar, duty) });
        Outcome { answer, places: [self.number.held(1)[0]] }
    }

    /// A table that is refused: its calendar minute has a place where nothing can be written.
    pub fn refused_calendar_minute(&mut self, table: &[u16], duty: u32) -> u32 {
        let Library { table: list, calendar, .. } = self;
        lend_table(list, table, |at, count| {
            calendar.sealed(&[0], |calendar| unsafe { maxeltu_calendar_minute(at, count, duty, calendar) })
        })
    }

    /// The same of a table that is refused, or of a minute.
    pub fn refused_duty_minute(&mut self, table: &[u16], calendar: u32) -> u32 {
        let Library { table: list, number, .. } = self;
        lend_table(list, table, |at, count| number.sealed(&[0], |duty| unsafe { maxeltu_duty_minute(at, count, calendar, duty) }))
    }

    /// What the three calls answer of a table of so many numbers, of which none can be read.
    pub fn table_out_of_reach(&mut self, count: usize, minute: u32) -> [u32; 3] {
        let (calendar, duty) = (self.calendar.lend(&[0]), self.number.lend(&[0]));
        out_of_reach(count, |at| unsafe {
            [
                maxeltu_week_table(at, count),
                maxeltu_calendar_minute(at, count, minute, calendar),
                maxeltu_duty_minute(at, count, minute, duty),
            ]
        })
    }
}
