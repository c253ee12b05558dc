//! Making a meter, and offers to it. A meter changes with each offer that it accepts, so each side has its own, and the next offer to it
//! comes later.

use crate::calls::{Calls, Meter, LIBRARY, PLAIN_C};
use crate::{line, line_of};
use reference::meter::{Machine, Report};
use reference::{spec, Spec};
use std::cell::{Cell, RefCell};

/// Offers that all get the same answer.
struct Offers {
    name: &'static str,
    spec: Spec,
    /// So many reports of one record are accepted first, at minutes 1, 2, 3 and so on.
    accepted: u32,
    /// Minutes from the last accepted report to an offer.
    step: u32,
    size: u32,
    answer: u32,
}

/// One side of a line: a meter, and the last minute that it has accepted.
struct Side<'a> {
    calls: &'a Calls,
    meter: RefCell<Meter>,
    last: Cell<u32>,
}

impl Side<'_> {
    fn new<'a>(calls: &'a Calls, offers: &Offers) -> Side<'a> {
        let mut meter = Meter::NOT_MADE;
        assert_eq!(calls.make_meter(&spec::write(&offers.spec), &mut meter), 0);
        for minute in 1..=offers.accepted {
            assert_eq!(calls.offer(&mut meter, minute, 1), 0, "report {minute} of {}", offers.name);
        }
        Side { calls, meter: RefCell::new(meter), last: Cell::new(offers.accepted) }
    }

    /// The next offer. Its answer is looked at each time: one that changes on the way would be measured as something else.
    fn next(&self, offers: &Offers) -> u32 {
        let minute = self.last.get() + offers.step;
        let answer = self.calls.offer(&mut self.meter.borrow_mut(), minute, offers.size);
        assert_eq!(answer, offers.answer, "{} at minute {minute}", offers.name);
        if answer == 0 {
            self.last.set(minute);
        }
        answer
    }
}

/// The plain machine with the same reports. What it accepts is taken from its list again, which would only grow.
fn literal(offers: &Offers) -> impl Fn() -> u32 + '_ {
    let mut machine = Machine::new(&offers.spec);
    for minute in 1..=offers.accepted.into() {
        machine.offer(Report { minute, size: 1 });
    }
    let offered = Report { minute: (offers.accepted + offers.step).into(), size: offers.size.into() };
    let machine = RefCell::new(machine);
    move || {
        let mut machine = machine.borrow_mut();
        let (answer, _) = machine.offer(offered);
        machine.accepted.truncate(offers.accepted as usize);
        answer
    }
}

fn of_rate(supply: Option<(u64, u64)>) -> Spec {
    Spec { size: (1, 1_000), gap: (1, 20_160), supply, demand: None, duration: None, second: None }
}

fn making() {
    let file = spec::write(&of_rate(Some((20_000, 20_160))));
    let meter = RefCell::new(Meter::NOT_MADE);
    let literal = || spec::read(&file).err().unwrap_or(0);
    line("make a meter", |calls| calls.make_meter(&file, &mut meter.borrow_mut()), literal);
}

pub fn all() {
    making();
    for (name, supply, accepted, (step, size), answer) in [
        ("offer, no supply rate", None, 1, (1, 1), 0),
        ("offer, each ages the one before", Some((20_000, 10)), 1, (10, 1), 0),
        ("offer, 1,024 held, each ages one", Some((20_000, 1_024)), 1_024, (1, 1), 0),
        ("offer, 1,024 held, refused 13", Some((20_000, 1_024)), 1_024, (0, 1), 13),
        ("offer, 1,024 held, refused 15", Some((1_024, 20_160)), 1_024, (1, 1), 15),
        // The longest way: what is refused lets none of them go, so that the next offer looks at all of them again.
        ("offer, 1,024 held, all aged, refused 14", Some((20_000, 1_024)), 1_024, (1_024, 0), 14),
    ] {
        let offers = Offers { name, spec: of_rate(supply), accepted, step, size, answer };
        let sides = [&LIBRARY, &PLAIN_C].map(|calls| Side::new(calls, &offers));
        line_of(name, [&|| sides[0].next(&offers), &|| sides[1].next(&offers), &literal(&offers)]);
    }
}
