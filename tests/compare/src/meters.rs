//! Meters: making them, lists of offers against the plain machine and the ring, and offers to meters of any contents.

use crate::calls::hex;
use crate::checks::supply_only;
use crate::generate;
use crate::group::{same, Counts, Met, Runner, Verdict, RUNS};
use crate::library::{Library, Outcome};
use crate::offers::{self, Course, LAST};
use crate::random::Random;
use crate::ring::{Meter, BYTES};
use reference::meter::{fullest, Machine, Report};
use reference::{spec, Spec};

pub fn all(runner: &mut Runner) {
    runner.random("making a meter", RUNS, &[0, 1, 2, 3, 4, 24], making_case);
    runner.random("lists of offers", RUNS / 5, &[0, 13, 14, 15], near_case);
    runner.random("lists of offers, no supply rate", RUNS / 20, &[0, 13, 14], no_supply_case);
    runner.random("lists of offers, up to minute 2^32 − 1", RUNS / 20, &[0, 13, 14, 15], last_minutes_case);
    runner.random("lists of offers, 1,024 reports in R minutes", RUNS / 500, &[0, 13, 14, 15, 22], crowded_case);
    runner.random("offers to a meter of any bytes", RUNS / 4, &[0, 13, 14, 15, 22], any_bytes_case);
}

/// The bytes are the same; else the first that is not, and where.
fn same_bytes(library: &Meter, wanted: &Meter) -> Result<(), String> {
    if library == wanted {
        return Ok(());
    }
    let (library, wanted) = (library.bytes(), wanted.bytes());
    let at = (0..BYTES).find(|&at| library[at] != wanted[at]).expect("bytes that differ");
    Err(format!("byte {at} of the meter: library {}, wanted {}", library[at], wanted[at]))
}

/// A meter of the library, beside what it should be: the plain machine for its answers, the ring for its bytes.
#[derive(Clone)]
pub struct Trial<'a> {
    machine: Machine<'a>,
    meter: Meter,
    /// The offers that the library has accepted.
    pub taken: Vec<Report>,
}

impl<'a> Trial<'a> {
    /// The library makes the meter over these contents.
    pub fn make(spec: &'a Spec, former: Meter, library: &mut Library) -> Result<Trial<'a>, String> {
        let mut meter = former;
        same(0, library.make_meter(&spec::write(spec), &mut meter), 0, || format!("{spec:?}"))?;
        same_bytes(&meter, &Meter::fresh(spec))?;
        Ok(Trial { machine: Machine::new(spec), meter, taken: vec![] })
    }

    pub fn spec(&self) -> &'a Spec {
        self.machine.spec
    }

    /// One offer: number and budget left are the plain machine's, and the bytes the ring's, which a refusal leaves as they were.
    /// `held` is what the place for the budget left holds before, and without a supply rate afterwards.
    pub fn offer(&mut self, offered: Report, held: u32, library: &mut Library) -> Verdict {
        let (minute, size) = (offered.minute as u32, offered.size as u32);
        let (number, left) = self.machine.offer(offered);
        let mut ring = self.meter;
        assert_eq!(ring.offer(minute, size), (number, left), "the ring and the plain machine");
        let got = library.offer(&mut self.meter, minute, size, held);
        if got.answer == 0 {
            self.taken.push(offered);
        }
        let wanted = Outcome { answer: number, places: [left.map_or(held, |left| left as u32)] };
        let input = || format!("{:?}, {offered:?} after {:?}", self.machine.spec, &self.taken);
        same(number, got, wanted, input)?;
        same_bytes(&self.meter, &ring).map_err(|text| format!("{text}, input {}", input()))?;
        Ok(number)
    }
}

/// So many offers to a meter, each after what has been accepted before it. At the end no R minutes hold more than B accepted records.
fn list(random: &mut Random, library: &mut Library, spec: &Spec, offers: u64, course: Course) -> Result<Counts, String> {
    let mut trial = Trial::make(spec, offers::any_meter(random), library)?;
    let mut counts = Counts::new();
    for _ in 0..offers {
        let offered = offers::next(random, &trial.machine, course);
        trial.offer(offered, random.next() as u32, library)?.add_to(&mut counts);
    }
    match spec.supply {
        Some((b, r)) if fullest(&trial.taken, r) > b => {
            Err(format!("{r} minutes hold more than {b} records of {:?}", trial.taken))
        }
        _ => Ok(counts),
    }
}

/// A specification and a course for its offers: one after the other as early as can be, or up to a few windows apart.
fn near_list(random: &mut Random) -> (Spec, u64, Course) {
    let scale = generate::scale(random);
    let spec = generate::near_spec(random, scale);
    let r = offers::window(&spec);
    let stride = random.pick(&[1, 1, 2, spec.gap.0, r.div_ceil(4), 2 * r]);
    // Now and then so many that the ring goes round more than once.
    let offers = if random.once_in(1_000) { 3_000 } else { random.pick(&[5, 20, 60, 150]) };
    let start = random.of_any_length(31);
    let strays = random.pick(&[2, 3, 3, 8]);
    (spec, offers, Course { start, stride, strays, together: 0 })
}

fn near_case(random: &mut Random, library: &mut Library) -> Result<Counts, String> {
    let (spec, offers, course) = near_list(random);
    list(random, library, &spec, offers, course)
}

fn no_supply_case(random: &mut Random, library: &mut Library) -> Result<Counts, String> {
    let (spec, offers, course) = near_list(random);
    list(random, library, &Spec { supply: None, ..spec }, offers, course)
}

/// The list reaches the last minute, or comes near to it.
fn last_minutes_case(random: &mut Random, library: &mut Library) -> Result<Counts, String> {
    let (spec, offers, course) = near_list(random);
    let start = LAST - random.below(offers * (spec.gap.0 + course.stride) / 2 + 2);
    list(random, library, &spec, offers, Course { start, ..course })
}

/// Small reports as close as can be, in a long window: the places run out, at some budgets just before the records do, at some
/// just after them.
fn crowded_case(random: &mut Random, library: &mut Library) -> Result<Counts, String> {
    let (dmax, b) =
        random.pick(&[(1, 20_000), (1, 1_025), (1, 1_024), (1, 1_023), (2, 20_000), (2, 1_540), (19, 20_000), (39, 20_000)]);
    let any_window = random.between(1_024, 20_160);
    let r = random.pick(&[20_160, any_window, 1_024, 1_025, 1_026]);
    let spec = supply_only((1, dmax), (1, 20_160), (b, r));
    let start = random.pick(&[0, 1_000_000, LAST - 2_500]);
    let course = Course { start, stride: 1, strays: 20, together: random.pick(&[1_024, 1_024, 0]) };
    list(random, library, &spec, 2_400, course)
}

/// Any bytes at all, or a specification file that is sound, at the limits or damaged; over a meter of any bytes.
fn making_case(random: &mut Random, library: &mut Library) -> Verdict {
    let file = match random.below(8) {
        0 => (0..random.below(28)).map(|_| random.next() as u8).collect(),
        _ => generate::spec_file(random),
    };
    let former = offers::any_meter(random);
    let mut meter = former;
    let got = library.make_meter(&file, &mut meter);
    let (answer, wanted) = match spec::read(&file) {
        Ok(spec) => (0, Meter::fresh(&spec)),
        Err(answer) => (answer, former),
    };
    same(answer, got, answer, || hex(&file))?;
    same_bytes(&meter, &wanted).map_err(|text| format!("{text}, input {}", hex(&file)))?;
    Ok(answer)
}

/// A few offers to a meter that its keeper has overwritten: the plain machine knows none such, and the ring says what it makes of them.
fn any_bytes_case(random: &mut Random, library: &mut Library) -> Result<Counts, String> {
    let mut meter = offers::any_meter(random);
    let mut counts = Counts::new();
    for _ in 0..4 {
        let (minute, size) = offers::to_any_meter(random, &meter);
        let before = meter;
        let mut ring = meter;
        let held = random.next() as u32;
        let (answer, left) = ring.offer(minute, size);
        let wanted = Outcome { answer, places: [left.map_or(held, |left| left as u32)] };
        let input = || format!("minute {minute} size {size} to {}", hex(&before.bytes()));
        same(answer, library.offer(&mut meter, minute, size, held), wanted, input)?.add_to(&mut counts);
        same_bytes(&meter, &ring).map_err(|text| format!("{text}, input {}", input()))?;
    }
    Ok(counts)
}
