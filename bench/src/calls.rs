//! The calls that are measured, of the library and of the plain C version, behind one table of functions.

use reference::Pair;

type TwoFiles = unsafe extern "C" fn(*const u8, usize, *const u8, usize) -> u32;
type Consistency = unsafe extern "C" fn(*const u8, usize, *mut u32) -> u32;
type Test = unsafe extern "C" fn(*const u8, usize, *mut u32, *mut u32, *mut u32, *mut u32, *mut u32) -> u32;
type EvenPlan = unsafe extern "C" fn(*const u8, usize, *mut u32, *mut u32, *mut u32) -> u32;
type BoxPlan = unsafe extern "C" fn(*const u8, usize, u32, *mut u32, *mut u32, *mut u32) -> u32;
type TolerantPlan = unsafe extern "C" fn(*const u8, usize, *mut u32, *mut u32, *mut u32, *mut u32) -> u32;
type Report = unsafe extern "C" fn(u32, u32, u32, u32, u32, *mut u64, *mut u32) -> u32;
type ReportAt = unsafe extern "C" fn(u32, u32, u32, u32, u32, *mut u32) -> u32;
type Between = unsafe extern "C" fn(u32, u32, u32, u32, u32, u32, *mut u32, *mut u64) -> u32;
type PlanCost = unsafe extern "C" fn(u32, u32, u32, u32, u32, *mut u64, *mut u64) -> u32;
type CheckCycle = unsafe extern "C" fn(*const u8, usize, *const Pair, usize) -> u32;
type CheckLate = unsafe extern "C" fn(*const u8, usize, *const Pair, usize, u32) -> u32;
type ShortestStretch = unsafe extern "C" fn(*const u8, usize, *const Pair, usize, *mut u32, *mut u32) -> u32;
type Margins = unsafe extern "C" fn(*const u8, usize, *const Pair, usize, *mut u64, *mut u32, *mut u64, *mut u32) -> u32;
type Tolerance = unsafe extern "C" fn(*const u8, usize, *const Pair, usize, *mut u32) -> u32;
type CycleCost = unsafe extern "C" fn(*const u8, usize, *const Pair, usize, u32, *mut u64, *mut u64) -> u32;
type NormalForm = unsafe extern "C" fn(*const Pair, usize, *mut Pair, usize, *mut u32) -> u32;
type ReadCycle = unsafe extern "C" fn(*const u8, usize, *mut Pair, usize, *mut u32) -> u32;
type WriteCycle = unsafe extern "C" fn(*const Pair, usize, *mut u8, usize, *mut u32) -> u32;
type WritePlan = unsafe extern "C" fn(u32, u32, u32, u32, *mut u8, usize, *mut u32) -> u32;
type InForce = unsafe extern "C" fn(*const u8, usize, *const u8, usize, *mut u32) -> u32;
type MakeMeter = unsafe extern "C" fn(*const u8, usize, *mut Meter) -> u32;
type Offer = unsafe extern "C" fn(*mut Meter, u32, u32, *mut u32) -> u32;
type WeekTable = unsafe extern "C" fn(*const u16, usize) -> u32;
type CalendarMinute = unsafe extern "C" fn(*const u16, usize, u32, *mut u64) -> u32;
type DutyMinute = unsafe extern "C" fn(*const u16, usize, u32, *mut u32) -> u32;

/// As many bytes as struct maxeltu_meter has, and as aligned. What they say is the library's matter.
#[repr(C)]
pub struct Meter([u32; 1541]);

impl Meter {
    pub const NOT_MADE: Meter = Meter([0; 1541]);
}

#[rustfmt::skip]
macro_rules! declare {
    (
        $verdict:ident $consistency:ident $test:ident $even_plan:ident $box_plan:ident $tolerant_plan:ident $report:ident
        $last_report:ident $nearest_report:ident $between:ident $plan_cost:ident $check_cycle:ident $check_late:ident
        $shortest_stretch:ident $margins:ident $tolerance:ident $cycle_cost:ident $normal_form:ident $read_cycle:ident
        $write_cycle:ident $write_plan:ident $in_force:ident $make_meter:ident $offer:ident $week_table:ident
        $calendar_minute:ident $duty_minute:ident
    ) => {
        extern "C" {
            fn $verdict(spec: *const u8, spec_len: usize, cycle: *const u8, cycle_len: usize) -> u32;
            fn $consistency(spec: *const u8, spec_len: usize, condition: *mut u32) -> u32;
            fn $test(spec: *const u8, spec_len: usize, condition: *mut u32, k: *mut u32, period: *mut u32, total: *mut u32, supply: *mut u32) -> u32;
            fn $even_plan(spec: *const u8, spec_len: usize, k: *mut u32, period: *mut u32, total: *mut u32) -> u32;
            fn $box_plan(spec: *const u8, spec_len: usize, lateness: u32, k: *mut u32, period: *mut u32, total: *mut u32) -> u32;
            fn $tolerant_plan(spec: *const u8, spec_len: usize, lateness: *mut u32, k: *mut u32, period: *mut u32, total: *mut u32) -> u32;
            fn $report(kind: u32, k: u32, period: u32, total: u32, i: u32, minute: *mut u64, size: *mut u32) -> u32;
            fn $last_report(kind: u32, k: u32, period: u32, total: u32, minute: u32, number: *mut u32) -> u32;
            fn $nearest_report(kind: u32, k: u32, period: u32, total: u32, minute: u32, number: *mut u32) -> u32;
            fn $between(kind: u32, k: u32, period: u32, total: u32, a: u32, b: u32, reports: *mut u32, records: *mut u64) -> u32;
            fn $plan_cost(kind: u32, k: u32, period: u32, total: u32, reports: u32, tenths: *mut u64, cents: *mut u64) -> u32;
            fn $check_cycle(spec: *const u8, spec_len: usize, pairs: *const Pair, count: usize) -> u32;
            fn $check_late(spec: *const u8, spec_len: usize, pairs: *const Pair, count: usize, lateness: u32) -> u32;
            fn $shortest_stretch(spec: *const u8, spec_len: usize, pairs: *const Pair, count: usize, first: *mut u32, reports: *mut u32) -> u32;
            fn $margins(spec: *const u8, spec_len: usize, pairs: *const Pair, count: usize, most: *mut u64, most_from: *mut u32, least: *mut u64, least_after: *mut u32) -> u32;
            fn $tolerance(spec: *const u8, spec_len: usize, pairs: *const Pair, count: usize, lateness: *mut u32) -> u32;
            fn $cycle_cost(spec: *const u8, spec_len: usize, pairs: *const Pair, count: usize, reports: u32, tenths: *mut u64, cents: *mut u64) -> u32;
            fn $normal_form(pairs: *const Pair, count: usize, normal: *mut Pair, places: usize, normal_count: *mut u32) -> u32;
            fn $read_cycle(file: *const u8, file_len: usize, pairs: *mut Pair, places: usize, count: *mut u32) -> u32;
            fn $write_cycle(pairs: *const Pair, count: usize, file: *mut u8, room: usize, written: *mut u32) -> u32;
            fn $write_plan(kind: u32, k: u32, period: u32, total: u32, file: *mut u8, room: usize, written: *mut u32) -> u32;
            fn $in_force(first: *const u8, first_len: usize, second: *const u8, second_len: usize, which: *mut u32) -> u32;
            fn $make_meter(spec: *const u8, spec_len: usize, meter: *mut Meter) -> u32;
            fn $offer(meter: *mut Meter, minute: u32, size: u32, left: *mut u32) -> u32;
            fn $week_table(table: *const u16, numbers: usize) -> u32;
            fn $calendar_minute(table: *const u16, numbers: usize, duty: u32, calendar: *mut u64) -> u32;
            fn $duty_minute(table: *const u16, numbers: usize, calendar: u32, duty: *mut u32) -> u32;
        }
    };
}

declare!(
    maxeltu_verdict maxeltu_consistency maxeltu_test maxeltu_even_plan maxeltu_box_plan maxeltu_tolerant_plan maxeltu_report
    maxeltu_last_report maxeltu_nearest_report maxeltu_between maxeltu_plan_cost maxeltu_check_cycle maxeltu_check_late
    maxeltu_shortest_stretch maxeltu_margins maxeltu_tolerance maxeltu_cycle_cost maxeltu_normal_form maxeltu_read_cycle
    maxeltu_write_cycle maxeltu_write_plan maxeltu_in_force maxeltu_make_meter maxeltu_offer maxeltu_week_table
    maxeltu_calendar_minute maxeltu_duty_minute
);
declare!(
    plain_verdict plain_consistency plain_test plain_even_plan plain_box_plan plain_tolerant_plan plain_report
    plain_last_report plain_nearest_report plain_between plain_plan_cost plain_check_cycle plain_check_late
    plain_shortest_stretch plain_margins plain_tolerance plain_cycle_cost plain_normal_form plain_read_cycle plain_write_cycle
    plain_write_plan plain_in_force plain_make_meter plain_offer plain_week_table plain_calendar_minute plain_duty_minute
);

pub struct Calls {
    verdict: TwoFiles,
    consistency: Consistency,
    test: Test,
    even_plan: EvenPlan,
    box_plan: BoxPlan,
    tolerant_plan: TolerantPlan,
    report: Report,
    last_report: ReportAt,
    nearest_report: ReportAt,
    between: Between,
    plan_cost: PlanCost,
    check_cycle: CheckCycle,
    check_late: CheckLate,
    shortest_stretch: ShortestStretch,
    margins: Margins,
    tolerance: Tolerance,
    cycle_cost: CycleCost,
    normal_form: NormalForm,
    read_cycle: ReadCycle,
    write_cycle: WriteCycle,
    write_plan: WritePlan,
    in_force: InForce,
    make_meter: MakeMeter,
    offer: Offer,
    week_table: WeekTable,
    calendar_minute: CalendarMinute,
    duty_minute: DutyMinute,
}

pub const LIBRARY: Calls = Calls {
    verdict: maxeltu_verdict,
    consistency: maxeltu_consistency,
    test: maxeltu_test,
    even_plan: maxeltu_even_plan,
    box_plan: maxeltu_box_plan,
    tolerant_plan: maxeltu_tolerant_plan,
    report: maxeltu_report,
    last_report: maxeltu_last_report,
    nearest_report: maxeltu_nearest_report,
    between: maxeltu_between,
    plan_cost: maxeltu_plan_cost,
    check_cycle: maxeltu_check_cycle,
    check_late: maxeltu_check_late,
    shortest_stretch: maxeltu_shortest_stretch,
    margins: maxeltu_margins,
    tolerance: maxeltu_tolerance,
    cycle_cost: maxeltu_cycle_cost,
    normal_form: maxeltu_normal_form,
    read_cycle: maxeltu_read_cycle,
    write_cycle: maxeltu_write_cycle,
    write_plan: maxeltu_write_plan,
    in_force: maxeltu_in_force,
    make_meter: maxeltu_make_meter,
    offer: maxeltu_offer,
    week_table: maxeltu_week_table,
    calendar_minute: maxeltu_calendar_minute,
    duty_minute: maxeltu_duty_minute,
};

pub const PLAIN_C: Calls = Calls {
    verdict: plain_verdict,
    consistency: plain_consistency,
    test: plain_test,
    even_plan: plain_even_plan,
    box_plan: plain_box_plan,
    tolerant_plan: plain_tolerant_plan,
    report: plain_report,
    last_report: plain_last_report,
    nearest_report: plain_nearest_report,
    between: plain_between,
    plan_cost: plain_plan_cost,
    check_cycle: plain_check_cycle,
    check_late: plain_check_late,
    shortest_stretch: plain_shortest_stretch,
    margins: plain_margins,
    tolerance: plain_tolerance,
    cycle_cost: plain_cycle_cost,
    normal_form: plain_normal_form,
    read_cycle: plain_read_cycle,
    write_cycle: plain_write_cycle,
    write_plan: plain_write_plan,
    in_force: plain_in_force,
    make_meter: plain_make_meter,
    offer: plain_offer,
    week_table: plain_week_table,
    calendar_minute: plain_calendar_minute,
    duty_minute: plain_duty_minute,
};

// SAFETY, for every call: each pointer leads to as many items as the length beside it says, or to one number; none overlap.
impl Calls {
    pub fn verdict(&self, spec: &[u8], cycle: &[u8]) -> u32 {
        unsafe { (self.verdict)(spec.as_ptr(), spec.len(), cycle.as_ptr(), cycle.len()) }
    }

    pub fn consistency(&self, spec: &[u8]) -> u32 {
        let mut condition = 0;
        unsafe { (self.consistency)(spec.as_ptr(), spec.len(), &mut condition) }
    }

    /// The answer, and where it is 0 k, period and total, else 0 thrice; so too of the other plans.
    pub fn test(&self, spec: &[u8]) -> (u32, [u32; 3]) {
        let [mut condition, mut k, mut period, mut total, mut supply] = [0; 5];
        let (at, len) = (spec.as_ptr(), spec.len());
        let answer = unsafe { (self.test)(at, len, &mut condition, &mut k, &mut period, &mut total, &mut supply) };
        (answer, [k, period, total])
    }

    pub fn even_plan(&self, spec: &[u8]) -> (u32, [u32; 3]) {
        let [mut k, mut period, mut total] = [0; 3];
        let answer = unsafe { (self.even_plan)(spec.as_ptr(), spec.len(), &mut k, &mut period, &mut total) };
        (answer, [k, period, total])
    }

    pub fn box_plan(&self, spec: &[u8], lateness: u32) -> (u32, [u32; 3]) {
        let [mut k, mut period, mut total] = [0; 3];
        let answer = unsafe { (self.box_plan)(spec.as_ptr(), spec.len(), lateness, &mut k, &mut period, &mut total) };
        (answer, [k, period, total])
    }

    /// Its lateness stands before the plan.
    pub fn tolerant_plan(&self, spec: &[u8]) -> (u32, u32, [u32; 3]) {
        let [mut lateness, mut k, mut period, mut total] = [0; 4];
        let (at, len) = (spec.as_ptr(), spec.len());
        let answer = unsafe { (self.tolerant_plan)(at, len, &mut lateness, &mut k, &mut period, &mut total) };
        (answer, lateness, [k, period, total])
    }

    pub fn report(&self, kind: u32, [k, period, total]: [u32; 3], i: u32) -> u32 {
        let (mut minute, mut size) = (0, 0);
        unsafe { (self.report)(kind, k, period, total, i, &mut minute, &mut size) }
    }

    /// The number, of a proper plan.
    pub fn last_report(&self, kind: u32, [k, period, total]: [u32; 3], minute: u32) -> u32 {
        let mut number = 0;
        assert_eq!(unsafe { (self.last_report)(kind, k, period, total, minute, &mut number) }, 0);
        number
    }

    /// The number, of a proper plan.
    pub fn nearest_report(&self, kind: u32, [k, period, total]: [u32; 3], minute: u32) -> u32 {
        let mut number = 0;
        assert_eq!(unsafe { (self.nearest_report)(kind, k, period, total, minute, &mut number) }, 0);
        number
    }

    /// Reports and records, of a proper plan and minutes in their order.
    pub fn between(&self, kind: u32, [k, period, total]: [u32; 3], [a, b]: [u32; 2]) -> (u32, u64) {
        let (mut reports, mut records) = (0, 0);
        assert_eq!(unsafe { (self.between)(kind, k, period, total, a, b, &mut reports, &mut records) }, 0);
        (reports, records)
    }

    /// Tenths and cents, of a proper plan.
    pub fn plan_cost(&self, kind: u32, [k, period, total]: [u32; 3], reports: u32) -> (u64, u64) {
        let (mut tenths, mut cents) = (0, 0);
        assert_eq!(unsafe { (self.plan_cost)(kind, k, period, total, reports, &mut tenths, &mut cents) }, 0);
        (tenths, cents)
    }

    pub fn check_cycle(&self, spec: &[u8], pairs: &[Pair]) -> u32 {
        unsafe { (self.check_cycle)(spec.as_ptr(), spec.len(), pairs.as_ptr(), pairs.len()) }
    }

    pub fn check_late(&self, spec: &[u8], pairs: &[Pair], lateness: u32) -> u32 {
        unsafe { (self.check_late)(spec.as_ptr(), spec.len(), pairs.as_ptr(), pairs.len(), lateness) }
    }

    /// The answer, and where it is 15 or 16 the first report and how many there are, else 0 and 0.
    pub fn shortest_stretch(&self, spec: &[u8], pairs: &[Pair]) -> (u32, [u32; 2]) {
        let (mut first, mut reports) = (0, 0);
        let (at, list) = (spec.as_ptr(), pairs.as_ptr());
        let answer = unsafe { (self.shortest_stretch)(at, spec.len(), list, pairs.len(), &mut first, &mut reports) };
        (answer, [first, reports])
    }

    /// The answer, and where it is 0 the most and the least, each with its report, else 0 and 0; so too of a rate that is absent.
    pub fn margins(&self, spec: &[u8], pairs: &[Pair]) -> (u32, [(u64, u32); 2]) {
        let (mut most, mut from, mut least, mut after) = (0, 0, 0, 0);
        let (at, list, len) = (spec.as_ptr(), pairs.as_ptr(), pairs.len());
        let answer = unsafe { (self.margins)(at, spec.len(), list, len, &mut most, &mut from, &mut least, &mut after) };
        (answer, [(most, from), (least, after)])
    }

    /// The answer, and where it is 0 the lateness, else 0.
    pub fn tolerance(&self, spec: &[u8], pairs: &[Pair]) -> (u32, u32) {
        let mut lateness = 0;
        let answer = unsafe { (self.tolerance)(spec.as_ptr(), spec.len(), pairs.as_ptr(), pairs.len(), &mut lateness) };
        (answer, lateness)
    }

    /// Tenths and cents, of a cycle that is passed.
    pub fn cycle_cost(&self, spec: &[u8], pairs: &[Pair], reports: u32) -> (u64, u64) {
        let (mut tenths, mut cents) = (0, 0);
        let (at, list) = (spec.as_ptr(), pairs.as_ptr());
        assert_eq!(unsafe { (self.cycle_cost)(at, spec.len(), list, pairs.len(), reports, &mut tenths, &mut cents) }, 0);
        (tenths, cents)
    }

    /// How many pairs the normal form has, which is stored in front; of 1 to 512 pairs, and as many places as it takes.
    pub fn normal_form(&self, pairs: &[Pair], normal: &mut [Pair]) -> u32 {
        let (mut count, to) = (0, normal.as_mut_ptr());
        assert_eq!(unsafe { (self.normal_form)(pairs.as_ptr(), pairs.len(), to, normal.len(), &mut count) }, 0);
        count
    }

    pub fn read_cycle(&self, file: &[u8], places: &mut [Pair]) -> u32 {
        let mut count = 0;
        unsafe { (self.read_cycle)(file.as_ptr(), file.len(), places.as_mut_ptr(), places.len(), &mut count) }
    }

    pub fn write_cycle(&self, pairs: &[Pair], file: &mut [u8]) -> u32 {
        let mut written = 0;
        unsafe { (self.write_cycle)(pairs.as_ptr(), pairs.len(), file.as_mut_ptr(), file.len(), &mut written) }
    }

    /// How many bytes the file has, of a proper plan of at most 512 reports in a period, and room enough.
    pub fn write_plan(&self, kind: u32, [k, period, total]: [u32; 3], file: &mut [u8]) -> u32 {
        let (mut written, to) = (0, file.as_mut_ptr());
        assert_eq!(unsafe { (self.write_plan)(kind, k, period, total, to, file.len(), &mut written) }, 0);
        written
    }

    /// The file in force, 1 or 2, or a refusal, whose number is never so small.
    pub fn in_force(&self, first: &[u8], second: &[u8]) -> u32 {
        let mut which = 0;
        match unsafe { (self.in_force)(first.as_ptr(), first.len(), second.as_ptr(), second.len(), &mut which) } {
            0 => which,
            refusal => refusal,
        }
    }

    pub fn make_meter(&self, spec: &[u8], meter: &mut Meter) -> u32 {
        unsafe { (self.make_meter)(spec.as_ptr(), spec.len(), meter) }
    }

    pub fn offer(&self, meter: &mut Meter, minute: u32, size: u32) -> u32 {
        let mut left = 0;
        unsafe { (self.offer)(meter, minute, size, &mut left) }
    }

    pub fn week_table(&self, table: &[u16]) -> u32 {
        unsafe { (self.week_table)(table.as_ptr(), table.len()) }
    }

    /// The calendar minute, of a good table.
    pub fn calendar_minute(&self, table: &[u16], duty: u32) -> u64 {
        let mut calendar = 0;
        assert_eq!(unsafe { (self.calendar_minute)(table.as_ptr(), table.len(), duty, &mut calendar) }, 0);
        calendar
    }

    /// The duty minute, of a good table and an open minute.
    pub fn duty_minute(&self, table: &[u16], calendar: u32) -> u32 {
        let mut duty = 0;
        assert_eq!(unsafe { (self.duty_minute)(table.as_ptr(), table.len(), calendar, &mut duty) }, 0);
        duty
    }
}
