//! Checks whose answers are written out. Each is made twice: of the library, and of the reference.

use crate::box_plans;
use crate::calls::{consistency_outcome, expected, listed, put_before};
use crate::costs::billed;
use crate::dated::{part_of, told};
use crate::duty;
use crate::group::Runner;
use crate::late;
use crate::library::{Billed, Library, Outcome};
use crate::margins::{self, HELD_MARGINS};
use crate::normal::{are_one_run, have_one_form};
use crate::plans::Handed;
use crate::ring::{Meter, BYTES};
use crate::shortest::{given, given_for};
use crate::tolerances;
use crate::tolerant_plans;
use reference::cost::{self, Cost};
use reference::duty::Week;
use reference::feasibility::{self, Failure};
use reference::leeway::{Margin, Margins};
use reference::meter::{Machine, Report};
use reference::shortest::Stretch;
use reference::{cycle, dated, even, file, normal, spec, verdict, Kind, Pair, Plan, Spec};
use std::fmt::Debug;
use std::path::{Path, PathBuf};

type Numbers = (u64, u64);

pub fn no_rates(size: Numbers, gap: Numbers) -> Spec {
    Spec { size, gap, supply: None, demand: None, duration: None, second: None }
}

pub fn supply_only(size: Numbers, gap: Numbers, supply: Numbers) -> Spec {
    Spec { supply: Some(supply), ..no_rates(size, gap) }
}

pub fn demand_only(size: Numbers, gap: Numbers, demand: Numbers) -> Spec {
    Spec { demand: Some(demand), ..no_rates(size, gap) }
}

pub fn both_rates(size: Numbers, gap: Numbers, supply: Numbers, demand: Numbers) -> Spec {
    Spec { supply: Some(supply), demand: Some(demand), ..no_rates(size, gap) }
}

/// Cycles that get a number before any rate is asked, where sizes of 3 to 7 and gaps of 5 to 30 are allowed.
pub const BEFORE_RATES: [(&str, &[(u16, u16)], u32); 5] = [
    ("no pair", &[], 12),
    ("513 pairs", &[(10, 3); 513], 12),
    ("513 pairs of gap 0", &[(0, 3); 513], 12),
    ("a gap and a size", &[(10, 2), (31, 3)], 13),
    ("a size, and both rates", &[(10, 3), (12, 8)], 14),
];

/// The same specification with this second range of gaps.
pub fn with_second(spec: &Spec, second: Numbers) -> Spec {
    Spec { second: Some(second), ..spec.clone() }
}

/// What lent places hold before each call.
pub const HELD: u32 = 0xA5A5_A5A5;
pub const HELD_BILL: [u64; 2] = [0xA5A5_A5A5_5A5A_5A5A, 0x5A5A_5A5A_A5A5_A5A5];
pub const HELD_MINUTE: u64 = 0xA5A5_A5A5_A5A5_A5A5;
pub const HELD_PAIR: Pair = Pair { gap: 0xA5A5, size: 0xA5A5 };
const HELD_BYTE: u8 = 0xA5;

/// An offer to a meter, its number, and the budget left after it, where there is a supply rate: minute, size, number, left.
pub type Offer = (u64, u64, u32, Option<u64>);

pub struct Checks {
    library: Library,
    made: Vec<(String, bool)>,
}

/// A group of checks that `make` makes.
pub fn group(runner: &mut Runner, name: &str, make: impl FnOnce(&mut Checks)) {
    let mut checks = Checks { library: Library::new(), made: vec![] };
    make(&mut checks);
    runner.fixed(name, &checks.made);
}

impl Checks {
    pub fn holds(&mut self, text: impl Into<String>, holds: bool) {
        self.made.push((text.into(), holds));
    }

    fn both<T: PartialEq + Debug>(&mut self, text: &str, library: T, reference: T, wanted: T) {
        self.holds(format!("library, {text}: {library:?}, not {wanted:?}"), library == wanted);
        self.holds(format!("reference, {text}: {reference:?}, not {wanted:?}"), reference == wanted);
    }

    /// A call's outcome is this refusal, with its places untouched, or these numbers.
    fn outcome<const N: usize>(
        &mut self,
        text: &str,
        library: Outcome<N>,
        reference: Result<[u64; N], u32>,
        wanted: Result<[u64; N], u32>,
    ) {
        self.both(text, library, expected(reference, [HELD; N]), expected(wanted, [HELD; N]));
    }

    /// Every call that takes a specification refuses this file so, and writes nothing.
    pub fn refused(&mut self, name: &str, file: &[u8], wanted: u32) {
        let library = &mut self.library;
        let got = (
            library.verdict(file, &[0, 1, 3, 0, 5, 0, 2]),
            library.check_cycle(file, &[Pair { gap: 5, size: 2 }]),
            [0, 1, 1_440, 1_441, u32::MAX].map(|lateness| library.check_late(file, &[Pair { gap: 5, size: 2 }], lateness)),
            library.shortest_stretch(file, &[Pair { gap: 5, size: 2 }], [HELD; 2]),
            [0, 4].map(|reports| library.cycle_cost(file, &[Pair { gap: 5, size: 2 }], reports, HELD_BILL)),
            library.consistency(file, [HELD]),
            library.min_demand(file, 1, [HELD; 3]),
            library.max_supply(file, 1, [HELD; 3]),
            library.test(file, [HELD; 5]),
            library.even_plan(file, [HELD; 3]),
            [0, 1, 1_440, 1_441, u32::MAX].map(|lateness| library.box_plan(file, lateness, [HELD; 3])),
            remade(library, file),
        );
        let (one, three, five) =
            (expected(Err(wanted), [HELD]), expected(Err(wanted), [HELD; 3]), expected(Err(wanted), [HELD; 5]));
        let two = expected(Err(wanted), [HELD; 2]);
        let bills = [billed(Err(wanted), HELD_BILL); 2];
        let kept = (wanted, true);
        let all = (wanted, wanted, [wanted; 5], two, bills, one, three, three, five, three, [three; 5], kept);
        self.holds(format!("library, {name}: {got:?}, not {wanted}"), got == all);
        self.refused_leeway(name, file, wanted);
        let read = spec::read(file);
        self.holds(format!("reference, {name}: {read:?}, not {wanted}"), read == Err(wanted));
    }

    /// A file that is refused keeps its number, whatever else a call is handed.
    pub fn refused_files(&mut self) {
        let rated = both_rates((3, 7), (5, 30), (6, 20), (100, 20));
        let file = spec::write(&rated);
        self.refused("no byte", &[], 1);
        self.refused("a byte less", &file[..file.len() - 1], 2);
        self.refused("dmax 1,001", &spec::write(&Spec { size: (3, 1_001), ..rated.clone() }), 3);
        self.refused("gaps 31 to 30", &spec::write(&Spec { gap: (31, 30), ..rated.clone() }), 4);
        self.refused("a second range from smax", &spec::write(&with_second(&rated, (30, 40))), 24);
    }

    /// The same of the calls for leeway.
    fn refused_leeway(&mut self, name: &str, file: &[u8], wanted: u32) {
        for pairs in [&[Pair { gap: 5, size: 2 }][..], &[], &[Pair { gap: 0, size: 0 }; 513]] {
            self.leeway(name, file, pairs, wanted);
        }
        let got = tolerant_plans::compare_and_again(file, &mut self.library);
        self.holds(format!("{name}, most tolerant plan: {got:?}, not {wanted}"), got == Ok(expected(Err(wanted), [HELD; 4])));
    }

    /// Period, total and required supply; or the refusal.
    pub fn min_demand(&mut self, name: &str, spec: &Spec, k: u32, wanted: Result<[u64; 3], u32>) {
        let file = spec::write(spec);
        let got = self.library.min_demand(&file, k, [HELD; 3]);
        let made = spec::read(&file).and_then(|spec| feasibility::min_demand(&spec, k.into()));
        let reference = made.map(|(plan, required)| [plan.period, plan.total, required]);
        self.outcome(&format!("{name}, minimum demand, k {k}"), got, reference, wanted);
    }

    /// Period, total and available supply; or the refusal.
    pub fn max_supply(&mut self, name: &str, spec: &Spec, k: u32, wanted: Result<[u64; 3], u32>) {
        let file = spec::write(spec);
        let got = self.library.max_supply(&file, k, [HELD; 3]);
        let made = spec::read(&file).and_then(|spec| feasibility::max_supply(&spec, k.into(), u64::MAX));
        let reference = made.map(|(plan, available)| [plan.period, plan.total, available]);
        self.outcome(&format!("{name}, maximum supply, k {k}"), got, reference, wanted);
    }

    /// k, period, total and supply; or why not.
    pub fn test(&mut self, name: &str, spec: &Spec, wanted: Result<[u64; 4], Failure>) {
        let file = spec::write(spec);
        let got = self.library.test(&file, [HELD; 5]);
        let made = spec::read(&file).map_err(Failure::Refused).and_then(|spec| feasibility::test(&spec, u64::MAX));
        let reference = made.map(|(plan, supply)| [plan.k, plan.period, plan.total, supply]);
        let outcome = |answer: Result<[u64; 4], Failure>| match answer {
            Ok([k, period, total, supply]) => expected(Ok([HELD.into(), k, period, total, supply]), [HELD; 5]),
            Err(Failure::Inconsistent(condition)) => Outcome { answer: 7, places: [condition, HELD, HELD, HELD, HELD] },
            Err(Failure::Refused(answer)) => expected(Err(answer), [HELD; 5]),
        };
        self.both(&format!("{name}, test"), got, outcome(reference), outcome(wanted));
    }

    /// The condition that fails first, or none.
    pub fn consistency(&mut self, name: &str, spec: &Spec, wanted: Option<u32>) {
        let file = spec::write(spec);
        let got = self.library.consistency(&file, [HELD]);
        let outcome = |failing: Option<u32>| match failing {
            Some(condition) => Outcome { answer: 7, places: [condition] },
            None => Outcome { answer: 0, places: [HELD] },
        };
        self.both(&format!("{name}, consistency"), got, consistency_outcome(&file, [HELD]), outcome(wanted));
    }

    /// A specification with a second range of gaps: consistency, the schedules for any k and the test give 25, and write nothing.
    pub fn two_ranges(&mut self, name: &str, spec: &Spec) {
        let file = spec::write(spec);
        let (one, three, five) = (expected(Err(25), [HELD]), expected(Err(25), [HELD; 3]), expected(Err(25), [HELD; 5]));
        let got = (self.library.consistency(&file, [HELD]), self.library.test(&file, [HELD; 5]));
        self.holds(format!("library, {name}, consistency and test: {got:?}, not 25"), got == (one, five));
        let reference = (feasibility::consistency(spec), feasibility::test(spec, u64::MAX));
        let refused = Failure::Refused(25);
        self.holds(format!("reference, {name}: {reference:?}, not 25"), reference == (Err(refused), Err(refused)));
        for k in [0, 1, 4, 20_160, u32::MAX] {
            let got = [self.library.min_demand(&file, k, [HELD; 3]), self.library.max_supply(&file, k, [HELD; 3])];
            self.holds(format!("library, {name}, schedules for {k}: {got:?}, not 25"), got == [three; 2]);
            let reference = [feasibility::min_demand(spec, k.into()), feasibility::max_supply(spec, k.into(), u64::MAX)];
            self.holds(format!("reference, {name}, schedules for {k}: {reference:?}, not 25"), reference == [Err(25); 2]);
        }
    }

    /// Gap, k and total; or the refusal.
    pub fn even(&mut self, name: &str, spec: &Spec, wanted: Result<[u64; 3], u32>) {
        let file = spec::write(spec);
        let got = self.library.even_plan(&file, [HELD; 3]);
        let made = spec::read(&file).and_then(|spec| even::even_plan(&spec, even::counts_fit));
        let reference = made.map(|plan| [plan.k, plan.period, plan.total]);
        self.outcome(&format!("{name}, even plan"), got, reference, wanted.map(|[gap, k, total]| [k, k * gap, total]));
    }

    /// Gap, k and total of the box plan for reports that are up to so many minutes late; or the refusal. A plan is written out and checked,
    /// and what is refused rightly is refused again where nothing can be written.
    pub fn box_plan(&mut self, name: &str, spec: &Spec, lateness: u32, wanted: Result<[u64; 3], u32>) {
        let (text, file) = (format!("{name}, box plan, {lateness} minutes late"), spec::write(spec));
        let got = self.library.box_plan(&file, lateness, [HELD; 3]);
        let reference = box_plans::given_for(&file, lateness.into(), [HELD; 3]);
        let wanted = expected(wanted.map(|[gap, k, total]| [k, k * gap, total]), [HELD; 3]);
        self.both(&text, got, reference, wanted);
        if wanted.answer == 0 && got == wanted {
            let loaded = box_plans::loads(spec, lateness.into(), got.places, &mut self.library);
            self.holds(format!("{text}: {loaded:?}"), loaded.is_ok());
        }
        if wanted.answer != 0 && got == wanted {
            let again = self.library.refused_box_plan(&file, lateness);
            self.holds(format!("library, {text}, again: {again}"), again == wanted.answer);
        }
    }

    /// The most tolerant plan: lateness, gap, k and total; or the refusal.
    pub fn tolerant_plan(&mut self, name: &str, spec: &Spec, wanted: Result<[u64; 4], u32>) {
        let wanted = expected(wanted.map(|[lateness, gap, k, total]| [lateness, k, k * gap, total]), [HELD; 4]);
        let got = tolerant_plans::compare_and_again(&spec::write(spec), &mut self.library);
        self.holds(format!("{name}, most tolerant plan: {got:?}, not {wanted:?}"), got == Ok(wanted));
    }

    /// The file of a plan that is written out into so many bytes; or the refusal. Other bytes stay as they are, and what is refused rightly
    /// is refused again where nothing can be written.
    pub fn write_plan(&mut self, name: &str, handed: Handed, room: usize, wanted: Result<&[u8], u32>) {
        let (text, before) = (format!("{name}, {handed:?} written out into {room} bytes"), vec![HELD_BYTE; room]);
        let got = self.library.write_plan(handed.kind, handed.numbers(), &before, HELD);
        let reference = put_before(handed.plan().and_then(|plan| plan.write(room)), &before, HELD);
        let is_refused = wanted.is_err();
        let wanted = put_before(wanted.map(<[u8]>::to_vec), &before, HELD);
        self.both(&text, &got, &reference, &wanted);
        if is_refused && got == wanted {
            let again = self.library.refused_write_plan(handed.kind, handed.numbers(), room);
            self.holds(format!("library, {text}, again: {again}"), again == wanted.0.answer);
        }
    }

    /// The same of a plan that is written out, with so much room that most of it cannot be touched.
    pub fn write_plan_in_much_room(&mut self, name: &str, handed: Handed, room: usize, wanted: &[u8]) {
        let before = [HELD_BYTE; 4_096];
        let got = self.library.write_plan_in_much_room(handed.kind, handed.numbers(), &before, room, HELD);
        let wanted = put_before(Ok(wanted.to_vec()), &before, HELD);
        self.holds(format!("library, {name}, {handed:?} written out into {room} bytes"), got == wanted);
    }

    /// Minute and size of a report; or the refusal.
    pub fn report(&mut self, name: &str, plan: Plan, i: u32, wanted: Result<(u64, u64), u32>) {
        let (kind, numbers) = handed(&plan);
        let got = self.library.report(kind, numbers, i, [HELD; 3]);
        let reference = if i < 4_096 { plan.report_by_walk(i.into()) } else { plan.report(i.into()) };
        let halves = |(minute, size): (u64, u64)| [minute >> 32, minute & 0xFFFF_FFFF, size];
        self.outcome(&format!("{name}, report {i}"), got, reference.map(halves), wanted.map(halves));
    }

    /// The last report at or before a minute, and the nearest one.
    pub fn minute(&mut self, name: &str, plan: Plan, minute: u32, wanted: (u64, u64)) {
        let (kind, numbers) = handed(&plan);
        let text = format!("{name}, minute {minute}");
        let last = self.library.last_report(kind, numbers, minute, [HELD]);
        let nearest = self.library.nearest_report(kind, numbers, minute, [HELD]);
        let reference = if minute < 4_096 {
            (plan.last_report_by_walk(minute.into()), plan.nearest_report_by_walk(minute.into()))
        } else {
            (plan.last_report(minute.into()), plan.nearest_report(minute.into()))
        };
        self.outcome(&format!("{text}, last report"), last, reference.0.map(|i| [i]), Ok([wanted.0]));
        self.outcome(&format!("{text}, nearest report"), nearest, reference.1.map(|i| [i]), Ok([wanted.1]));
    }

    /// Reports and records from minute a up to but not including b; or the refusal.
    pub fn between(&mut self, name: &str, plan: Plan, (a, b): (u32, u32), wanted: Result<(u64, u64), u32>) {
        let (kind, numbers) = handed(&plan);
        let got = self.library.between(kind, numbers, [a, b], [HELD; 3]);
        let reference = if b < 4_096 { plan.between_by_walk(a.into(), b.into()) } else { plan.between(a.into(), b.into()) };
        let halves = |(reports, records): (u64, u64)| [reports, records >> 32, records & 0xFFFF_FFFF];
        let wanted = wanted.map(halves);
        self.outcome(&format!("{name}, from {a} to {b}"), got, reference.map(halves), wanted);
        if wanted.is_err() && got == expected(wanted, [HELD; 3]) {
            let again = self.library.refused_between(kind, numbers, [a, b]);
            self.holds(format!("library, {name}, from {a} to {b} again: {again}"), again == got.answer);
        }
    }

    /// What the first so many reports of a plan cost, tenths and cents.
    pub fn plan_cost(&mut self, name: &str, plan: Plan, reports: u32, wanted: (u64, u64)) {
        let (kind, numbers) = handed(&plan);
        let got = self.library.plan_cost(kind, numbers, reports, HELD_BILL);
        let reference = if reports < 4_096 { plan.cost_by_walk(reports.into()) } else { plan.cost(reports.into()) };
        self.cost(&format!("{name}, cost of {reports} reports"), got, reference, wanted);
    }

    /// The same of a cycle that obeys the specification.
    pub fn cycle_cost(&mut self, name: &str, spec: &Spec, pairs: &[(u16, u16)], reports: u32, wanted: (u64, u64)) {
        let pairs = pairs_of(pairs);
        let got = self.library.cycle_cost(&spec::write(spec), &pairs, reports, HELD_BILL);
        let priced = if reports < 4_096 { cost::of_cycle_by_walk } else { cost::of_cycle };
        let reference = priced(spec, &pairs, reports.into());
        self.cost(&format!("{name}, cost of {reports} reports of the cycle"), got, reference, wanted);
    }

    fn cost(&mut self, text: &str, library: Billed, reference: Result<Cost, u32>, (tenths, cents): (u64, u64)) {
        self.both(text, library, billed(reference, HELD_BILL), billed(Ok(Cost { tenths, cents }), HELD_BILL));
    }

    /// A plan that is not proper: every call that takes one gives 11, whatever else it is asked, and writes nothing.
    pub fn improper(&mut self, name: &str, plan: Plan) {
        let (kind, numbers) = handed(&plan);
        self.improper_numbers(name, kind, numbers);
        let reference = [
            plan.report(0).err(),
            plan.last_report(0).err(),
            plan.nearest_report(0).err(),
            plan.between(1, 0).err(),
            plan.cost(0).err(),
        ];
        self.holds(format!("reference, {name}: {reference:?}, not 11"), reference == [Some(11); 5]);
    }

    /// A kind that is neither of the two, which the reference does not have.
    pub fn unknown_kind(&mut self, kind: u32, numbers: [u32; 3]) {
        self.improper_numbers(&format!("kind {kind}"), kind, numbers);
    }

    /// What is refused rightly is refused again where nothing can be written.
    fn improper_numbers(&mut self, name: &str, kind: u32, numbers: [u32; 3]) {
        let (one, three, bill) = (expected(Err(11), [HELD]), expected(Err(11), [HELD; 3]), billed(Err(11), HELD_BILL));
        for minute in [0, 1, 20_160, u32::MAX] {
            let got = (
                self.library.report(kind, numbers, minute, [HELD; 3]),
                self.library.last_report(kind, numbers, minute, [HELD]),
                self.library.nearest_report(kind, numbers, minute, [HELD]),
            );
            let refused = got == (three, one, one) && self.library.refused_minute(kind, numbers, minute) == [11; 2];
            self.holds(format!("library, {name}, report or minute {minute}: {got:?}, not 11"), refused);
        }
        // Backwards too: 11 comes before 23.
        for minutes in [[0, 0], [0, 1], [0, u32::MAX], [1, 0], [u32::MAX, 0]] {
            let got = self.library.between(kind, numbers, minutes, [HELD; 3]);
            let refused = got == three && self.library.refused_between(kind, numbers, minutes) == 11;
            self.holds(format!("library, {name}, between {minutes:?}: {got:?}, not 11"), refused);
        }
        for reports in [0, 1, 20_160, u32::MAX] {
            let got = self.library.plan_cost(kind, numbers, reports, HELD_BILL);
            let refused = got == bill && self.library.refused_plan_cost(kind, numbers, reports) == 11;
            self.holds(format!("library, {name}, cost of {reports} reports: {got:?}, not 11"), refused);
        }
    }

    /// The check of a cycle, on its pairs and, where they have a file, through the loader's call. With lateness 0, with the shortest stretch,
    /// with the tolerance, and of what its reports cost, the number is the same; the margins say it too.
    pub fn cycle(&mut self, name: &str, spec: &Spec, pairs: &[(u16, u16)], wanted: u32) {
        self.late(name, spec, pairs, 0, wanted);
        let pairs = pairs_of(pairs);
        let spec_file = spec::write(spec);
        let got = self.library.check_cycle(&spec_file, &pairs);
        let reference = spec::read(&spec_file).map_or_else(|refusal| refusal, |spec| cycle::check(&spec, &pairs));
        self.both(&format!("{name}, check"), got, reference, wanted);
        self.shortest_stretch(name, &spec_file, &pairs, given_for(&spec_file, &pairs, [HELD; 2]), wanted);
        self.leeway(name, &spec_file, &pairs, wanted);
        for reports in [0, 1, u32::MAX] {
            self.priced_as_checked(&format!("{name}, cost of {reports} reports"), &spec_file, &pairs, reports, wanted);
        }
        if let Ok(cycle_file) = file::write(&pairs, usize::MAX) {
            self.verdict(name, spec, &cycle_file, wanted);
        }
    }

    /// The check of a cycle whose reports may arrive so many minutes late.
    pub fn late(&mut self, name: &str, spec: &Spec, pairs: &[(u16, u16)], lateness: u32, wanted: u32) {
        let (file, pairs) = (spec::write(spec), pairs_of(pairs));
        let got = self.library.check_late(&file, &pairs, lateness);
        let reference = late::number(&file, &pairs, lateness.into());
        self.both(&format!("{name}, {lateness} minutes late"), got, reference, wanted);
    }

    /// A cycle that gets 15 or 16, and the shortest stretch that shows it: its first report's number, and how many there are.
    pub fn shortest(&mut self, name: &str, spec: &Spec, pairs: &[(u16, u16)], number: u32, [first, reports]: [u64; 2]) {
        let stretch = Some(Stretch { first, reports });
        self.shortest_stretch(name, &spec::write(spec), &pairs_of(pairs), given((number, stretch), [HELD; 2]), number);
    }

    /// A cycle that is passed, or gets another number, has none.
    pub fn no_shortest(&mut self, name: &str, spec: &Spec, pairs: &[(u16, u16)], number: u32) {
        self.shortest_stretch(name, &spec::write(spec), &pairs_of(pairs), given((number, None), [HELD; 2]), number);
    }

    /// What gets none gets its number again where nothing can be written.
    fn shortest_stretch(&mut self, name: &str, spec_file: &[u8], pairs: &[Pair], wanted: Outcome<2>, number: u32) {
        let text = format!("{name}, shortest stretch");
        let got = self.library.shortest_stretch(spec_file, pairs, [HELD; 2]);
        self.both(&text, got, given_for(spec_file, pairs, [HELD; 2]), wanted);
        self.holds(format!("reference, {text}: {wanted:?}, not {number}"), wanted.answer == number);
        if wanted.places == [HELD; 2] && got == wanted {
            let again = self.library.no_stretch(spec_file, pairs);
            self.holds(format!("library, {text} again: {again}"), again == number);
        }
    }

    /// The margins and the tolerance of a cycle that gets this number.
    fn leeway(&mut self, name: &str, spec_file: &[u8], pairs: &[Pair], number: u32) {
        let margins = margins::compare_and_again(spec_file, pairs, &mut self.library);
        let of_margins = if number == 15 || number == 16 { 0 } else { number };
        self.holds(format!("{name}, margins: {margins:?}"), margins.is_ok_and(|got| got.answer == of_margins));
        let tolerance = tolerances::compare_and_again(spec_file, pairs, &mut self.library);
        self.holds(format!("{name}, tolerance: {tolerance:?}"), tolerance.is_ok_and(|got| got.answer == number));
    }

    /// The margins of a cycle: the most and its report, the least and its report, where there is the rate; or the refusal.
    pub fn margins(&mut self, name: &str, spec: &Spec, pairs: &[(u16, u16)], wanted: Result<[Option<Numbers>; 2], u32>) {
        let margin = |told: Option<Numbers>| told.map(|(records, report)| Margin { records, report });
        let wanted = wanted.map(|[most, least]| Margins { most: margin(most), least: margin(least) });
        let wanted = margins::given(wanted, HELD_MARGINS);
        let got = margins::compare_and_again(&spec::write(spec), &pairs_of(pairs), &mut self.library);
        self.holds(format!("{name}, margins: {got:?}, not {wanted:?}"), got == Ok(wanted));
    }

    /// The tolerance of a cycle; or the number that the check of it gives.
    pub fn tolerance(&mut self, name: &str, spec: &Spec, pairs: &[(u16, u16)], wanted: Result<u64, u32>) {
        let wanted = expected(wanted.map(|lateness| [lateness]), [HELD]);
        let got = tolerances::compare_and_again(&spec::write(spec), &pairs_of(pairs), &mut self.library);
        self.holds(format!("{name}, tolerance: {got:?}, not {wanted:?}"), got == Ok(wanted));
    }

    /// So many pairs, of which none can be read, have no leeway.
    pub fn leeway_out_of_reach(&mut self, spec: &Spec, count: usize) {
        let got = self.library.leeway_out_of_reach(&spec::write(spec), count);
        self.holds(format!("library, {count} pairs, margins and tolerance: {got:?}, not 12"), got == [12; 2]);
    }

    /// So many pairs, of which none can be read, are refused.
    pub fn shortest_out_of_reach(&mut self, spec: &Spec, count: usize) {
        let got = self.library.no_stretch_out_of_reach(&spec::write(spec), count);
        self.holds(format!("library, {count} pairs, shortest stretch: {got}, not 12"), got == 12);
    }

    /// What is refused is refused again where nothing can be written.
    fn priced_as_checked(&mut self, text: &str, spec_file: &[u8], pairs: &[Pair], reports: u32, wanted: u32) {
        let got = self.library.cycle_cost(spec_file, pairs, reports, HELD_BILL);
        let reference = billed(spec::read(spec_file).and_then(|spec| cost::of_cycle(&spec, pairs, reports.into())), HELD_BILL);
        self.holds(format!("library, {text}: {got:?}, not {reference:?}"), got == reference);
        self.holds(format!("reference, {text}: {reference:?}, not {wanted}"), reference.answer == wanted);
        if wanted != 0 && got == reference {
            let again = self.library.refused_cycle_cost(spec_file, pairs, reports);
            self.holds(format!("library, {text} again: {again}"), again == wanted);
        }
    }

    /// The loader's call.
    pub fn verdict(&mut self, name: &str, spec: &Spec, cycle_file: &[u8], wanted: u32) {
        let spec_file = spec::write(spec);
        let got = self.library.verdict(&spec_file, cycle_file);
        self.both(&format!("{name}, verdict"), got, verdict(&spec_file, cycle_file), wanted);
    }

    /// The pairs that a cycle file holds, read into so many places; or the refusal. Other places stay as they are.
    pub fn read(&mut self, name: &str, file: &[u8], places: usize, wanted: Result<&[(u16, u16)], u32>) {
        let before = vec![HELD_PAIR; places];
        let got = self.library.read_cycle(file, &before, HELD);
        let reference = listed(file::read(file, places), &before, HELD);
        let wanted = listed(wanted.map(pairs_of), &before, HELD);
        self.both(&format!("{name}, read into {places} places"), got, reference, wanted);
    }

    /// The normal form of a cycle, in so many places; or the refusal. Other places stay as they are, and what is refused rightly is refused
    /// again where nothing can be written.
    pub fn normal(&mut self, name: &str, pairs: &[(u16, u16)], places: usize, wanted: Result<&[(u16, u16)], u32>) {
        let (pairs, before) = (pairs_of(pairs), vec![HELD_PAIR; places]);
        let text = format!("{name}, normal form in {places} places");
        let got = self.library.normal_form(&pairs, &before, HELD);
        let reference = listed(normal::form(&pairs, places), &before, HELD);
        let is_refused = wanted.is_err();
        let wanted = listed(wanted.map(pairs_of), &before, HELD);
        self.both(&text, &got, &reference, &wanted);
        if is_refused && got == wanted {
            let again = self.library.refused_normal_form(&pairs, &before);
            self.holds(format!("library, {text}, again: {again}"), again == wanted.0.answer);
        }
    }

    /// A cycle of so many pairs, of which none can be read, is refused.
    pub fn normal_out_of_reach(&mut self, count: usize) {
        for places in [0, 1, 512] {
            let got = self.library.normal_form_out_of_reach(count, &vec![HELD_PAIR; places]);
            self.holds(format!("library, {count} pairs, normal form in {places} places: {got}, not 12"), got == 12);
        }
    }

    /// The normal form of a cycle, in so many places that most of them cannot be touched.
    pub fn normal_in_many_places(&mut self, name: &str, pairs: &[(u16, u16)], places: usize, wanted: &[(u16, u16)]) {
        let before = [HELD_PAIR; 1_024];
        let got = self.library.normal_form_in_many_places(&pairs_of(pairs), &before, places, HELD);
        let wanted = listed(Ok(pairs_of(wanted)), &before, HELD);
        self.holds(format!("library, {name}, normal form in {places} places"), got == wanted);
    }

    /// Whether two cycles are one run: where they are, and only there, they have one normal form.
    pub fn one_run(&mut self, name: &str, one: &[(u16, u16)], other: &[(u16, u16)], wanted: bool) {
        let (one, other) = (pairs_of(one), pairs_of(other));
        let got = have_one_form(&one, &other, &mut self.library);
        self.both(&format!("{name}, one run"), got, are_one_run(&one, &other), wanted);
    }

    /// Which of two dated files is in force, 1 or 2, and its cycle part; or the refusal. What is refused rightly is refused again where
    /// nothing can be written, and a file beside itself gets the same answer where both are one.
    pub fn in_force(&mut self, name: &str, first: &[u8], second: &[u8], wanted: Result<u32, u32>) {
        let text = format!("{name}, file in force");
        let got = self.library.in_force(first, second, [HELD]);
        let (reference, wanted) = (told(dated::in_force(first, second), HELD), told(wanted, HELD));
        self.both(&text, got, reference, wanted);
        self.both(&text, part_of(got, first, second), dated::part(first, second), part_of(wanted, first, second));
        if first == second {
            let of_one = self.library.in_force_of_one(first, [HELD]);
            self.holds(format!("library, {text}, of one file: {of_one:?}"), of_one == wanted);
        }
        if wanted.answer != 0 && got == wanted {
            let again = self.library.refused_in_force(first, second);
            self.holds(format!("library, {text}, again: {again}"), again == wanted.answer);
        }
    }

    /// The same of a file, first and second, beside one of so many bytes that most of them cannot be touched.
    pub fn in_force_beside_many(&mut self, name: &str, file: &[u8], bytes: &[u8], length: usize, wanted: [Result<u32, u32>; 2]) {
        let got = self.library.in_force_beside_many(file, bytes, length, [HELD]);
        let wanted = wanted.map(|made| told(made, HELD));
        self.holds(format!("library, {name}, beside {length} bytes: {got:?}, not {wanted:?}"), got == wanted);
    }

    /// The file of a cycle, written into so many bytes; or the refusal. Other bytes stay as they are.
    pub fn write(&mut self, name: &str, pairs: &[(u16, u16)], room: usize, wanted: Result<&[u8], u32>) {
        let pairs = pairs_of(pairs);
        let before = vec![HELD_BYTE; room];
        let got = self.library.write_cycle(&pairs, &before, HELD);
        let reference = put_before(file::write(&pairs, room), &before, HELD);
        let wanted = put_before(wanted.map(<[u8]>::to_vec), &before, HELD);
        self.both(&format!("{name}, written into {room} bytes"), got, reference, wanted);
    }

    /// A meter of this specification has these numbers, dmin, dmax, smin, B and R, and is 0 otherwise.
    pub fn meter(&mut self, name: &str, spec: &Spec, wanted: [u16; 5]) {
        let mut meter = Meter::of_bytes([HELD_BYTE; BYTES]);
        let answer = self.library.make_meter(&spec::write(spec), &mut meter);
        let mut bytes = wanted.map(u16::to_ne_bytes).concat();
        bytes.resize(BYTES, 0);
        self.holds(format!("library, {name}, meter: {answer}, not 0"), answer == 0);
        self.holds(format!("library, {name}, bytes of the meter"), meter.bytes() == bytes[..]);
        self.holds(format!("ring, {name}, bytes of the meter"), Meter::fresh(spec).bytes() == bytes[..]);
    }

    /// A meter made from this file, or the refusal, which leaves every byte of the former one, and writes none.
    pub fn made(&mut self, name: &str, file: &[u8], wanted: u32) {
        let (got, kept) = remade(&mut self.library, file);
        self.both(&format!("{name}, meter"), got, spec::read(file).err().unwrap_or(0), wanted);
        self.holds(format!("library, {name}, bytes of the meter"), kept == (wanted != 0));
        if wanted != 0 && got == wanted {
            let again = self.library.make_no_meter(file, &Meter::of_bytes([HELD_BYTE; BYTES]));
            self.holds(format!("library, {name}, meter again: {again}"), again == wanted);
        }
    }

    /// Offers to a meter that is made for them, one after the other. One that is refused is refused again, and writes nothing.
    pub fn offers(&mut self, name: &str, spec: &Spec, offers: &[Offer]) {
        let mut meter = Meter::of_bytes([HELD_BYTE; BYTES]);
        self.library.make_meter(&spec::write(spec), &mut meter);
        let mut machine = Machine::new(spec);
        for (i, &(minute, size, number, left)) in offers.iter().enumerate() {
            let outcome = |(answer, left): (u32, Option<u64>)| Outcome { answer, places: [left.map_or(HELD, |n| n as u32)] };
            let got = self.library.offer(&mut meter, minute as u32, size as u32, HELD);
            let reference = outcome(machine.offer(Report { minute, size }));
            self.both(&format!("{name}, offer {i} ({minute}, {size})"), got, reference, outcome((number, left)));
            if number != 0 {
                let again = self.library.refused_offer(&meter, minute as u32, size as u32);
                self.holds(format!("library, {name}, offer {i} again: {again}"), again == number);
            }
        }
    }

    /// A week table: what it opens, by duty minute and calendar minute, and calendar minutes that it does not.
    pub fn week(&mut self, name: &str, table: &[u16], open: &[(u32, u64)], closed: &[u32]) {
        let Ok(week) = Week::read(table) else { return self.holds(format!("reference, {name}: no week table"), false) };
        let got = self.library.week_table(table);
        self.holds(format!("library, {name}: {got}, not 0"), got == 0);
        for &(duty, calendar) in open {
            let got = self.library.calendar_minute(table, duty, [HELD_MINUTE]);
            let minute = |calendar: u64| expected(Ok([calendar]), [HELD_MINUTE]);
            let reference = minute(duty::calendar_of(&week, duty.into()));
            self.both(&format!("{name}, duty minute {duty}"), got, reference, minute(calendar));
            if let Ok(calendar) = u32::try_from(calendar) {
                self.duty_minute(name, table, &week, calendar, Ok(duty));
            }
        }
        for &calendar in closed {
            self.duty_minute(name, table, &week, calendar, Err(28));
        }
    }

    /// What is refused rightly is refused again where nothing can be written.
    fn duty_minute(&mut self, name: &str, table: &[u16], week: &Week, calendar: u32, wanted: Result<u32, u32>) {
        let text = format!("{name}, calendar minute {calendar}");
        let got = self.library.duty_minute(table, calendar, [HELD]);
        let reference = duty::duty_of(week, calendar.into()).map(|duty| [duty]);
        let wanted = wanted.map(|duty| [duty.into()]);
        self.outcome(&text, got, reference, wanted);
        if wanted.is_err() && got == expected(wanted, [HELD]) {
            let again = self.library.refused_duty_minute(table, calendar);
            self.holds(format!("library, {text} again: {again}"), again == 28);
        }
    }

    /// Numbers that are no week table: every call that takes one gives 27, whatever minute it is asked for, and writes nothing.
    pub fn no_table(&mut self, name: &str, numbers: &[u16]) {
        let got = self.library.week_table(numbers);
        self.both(name, got, Week::read(numbers).err().unwrap_or(0), 27);
        let (calendar, duty) = (expected(Err(27), [HELD_MINUTE]), expected(Err(27), [HELD]));
        for minute in [0, 1, 720, 1_439, 10_079, 10_080, u32::MAX] {
            let library = &mut self.library;
            let got = (library.calendar_minute(numbers, minute, [HELD_MINUTE]), library.duty_minute(numbers, minute, [HELD]));
            let refused = got == (calendar, duty)
                && library.refused_calendar_minute(numbers, minute) == 27
                && library.refused_duty_minute(numbers, minute) == 27;
            self.holds(format!("library, {name}, minute {minute}: {got:?}, not 27"), refused);
        }
    }

    /// So many numbers, of which none can be read, are no week table.
    pub fn table_out_of_reach(&mut self, count: usize) {
        let got = self.library.table_out_of_reach(count, 0);
        self.holds(format!("library, {count} numbers: {got:?}, not 27"), got == [27; 3]);
    }

    /// A file in samples/ is that of these numbers.
    pub fn file(&mut self, name: &str, wanted: &[u8]) {
        self.holds(format!("samples/{name}"), std::fs::read(sample(name)).is_ok_and(|bytes| bytes == wanted));
    }
}

/// The path of a file in samples/.
pub fn sample(name: &str) -> PathBuf {
    Path::new(env!("CARGO_MANIFEST_DIR")).join("../../samples").join(name)
}

/// A plan of the well-formed kind.
pub fn well(k: u64, period: u64, total: u64) -> Plan {
    Plan { kind: Kind::WellFormed, k, period, total }
}

/// A plan of the even kind.
pub fn even(k: u64, period: u64, total: u64) -> Plan {
    Plan { kind: Kind::Even, k, period, total }
}

/// A plan as a call takes it: its kind by number, and k, period and total.
fn handed(plan: &Plan) -> (u32, [u32; 3]) {
    (u32::from(plan.kind == Kind::Even), [plan.k, plan.period, plan.total].map(|n| n as u32))
}

/// What making a meter anew answers, and whether it leaves every byte of the former one.
fn remade(library: &mut Library, file: &[u8]) -> (u32, bool) {
    let mut meter = Meter::of_bytes([HELD_BYTE; BYTES]);
    (library.make_meter(file, &mut meter), meter.bytes() == [HELD_BYTE; BYTES])
}

/// A cycle from its gaps and sizes.
pub fn pairs_of(pairs: &[(u16, u16)]) -> Vec<Pair> {
    pairs.iter().map(|&(gap, size)| Pair { gap, size }).collect()
}
