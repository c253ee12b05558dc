//! Random offers to meters, most of them near the place where an answer changes; and meters of any contents.

use crate::random::Random;
use crate::ring::{Meter, BYTES, PLACES};
use reference::meter::{Machine, Report};
use reference::Spec;

/// The last minute that can be offered.
pub const LAST: u64 = u32::MAX as u64;

/// How a list of offers goes.
#[derive(Clone, Copy)]
pub struct Course {
    /// The minute of the first offers.
    pub start: u64,
    /// An offer lies less than so many minutes after the first minute that is not too early.
    pub stride: u64,
    /// Once in so many offers the minute is another one, and once in so many the size.
    pub strays: u64,
    /// Before so many have been accepted, what goes ahead is refused for its size, so that the window fills.
    pub together: usize,
}

/// R, or a few minutes where there is no supply rate.
pub fn window(spec: &Spec) -> u64 {
    spec.supply.map_or(10, |(_, r)| r)
}

/// The next offer of a list, after what has been accepted of it.
pub fn next(random: &mut Random, machine: &Machine, course: Course) -> Report {
    let earliest = machine.accepted.last().map_or(course.start, |last| last.minute + machine.spec.gap.0);
    // Ahead, and refused: it must not make the meter forget what it holds.
    if random.once_in(3 * course.strays) {
        let minute = minute_ahead(random, machine, earliest).min(LAST);
        return Report { minute, size: size_outside(random, machine.spec.size) };
    }
    let minute = if !random.once_in(course.strays) {
        earliest + random.below(course.stride)
    } else if machine.accepted.len() >= course.together && random.once_in(2) {
        minute_ahead(random, machine, earliest)
    } else {
        minute_before(random, machine, earliest)
    };
    let minute = minute.min(LAST);
    let size = if random.once_in(course.strays) {
        stray_size(random, machine, minute)
    } else {
        random.between(machine.spec.size.0, machine.spec.size.1)
    };
    Report { minute, size }
}

/// Too early, by one minute or as a clock that was set back gives it.
fn minute_before(random: &mut Random, machine: &Machine, earliest: u64) -> u64 {
    match random.below(4) {
        0 => random.below(earliest + 1),
        1 => earliest.saturating_sub(random.below(window(machine.spec) + 1)),
        _ => earliest.saturating_sub(1),
    }
}

/// Where one of the oldest reports just leaves the window, or anywhere ahead.
fn minute_ahead(random: &mut Random, machine: &Machine, earliest: u64) -> u64 {
    let r = window(machine.spec);
    let in_window = &machine.accepted[machine.accepted.partition_point(|report| report.minute + r <= earliest)..];
    let oldest = in_window.get(random.of_any_length(3) as usize);
    match (random.below(6), oldest) {
        (0, _) => earliest + random.below(3 * r),
        (1, _) => earliest + random.of_any_length(20),
        (_, Some(oldest)) => oldest.minute + r + random.below(3) - 1,
        (_, None) => earliest,
    }
}

/// A size out of range; some of them would be in range with 16 bits of it.
fn size_outside(random: &mut Random, (dmin, dmax): (u64, u64)) -> u64 {
    random.pick(&[dmin - 1, dmax + 1, dmax + 1, 0, 65_536, 65_536 + dmin, 65_536 + dmax, 131_072 + dmin, LAST])
}

/// As much as the budget leaves at this minute, or one more; an end of the range; or out of range.
fn stray_size(random: &mut Random, machine: &Machine, minute: u64) -> u64 {
    match random.below(8) {
        0 | 1 => size_outside(random, machine.spec.size),
        2..=4 => machine.left(minute).unwrap_or(machine.spec.size.1) + random.below(2),
        5 | 6 => machine.spec.size.1,
        _ => machine.spec.size.0,
    }
}

/// A number of 16 bits: any, or one of these or beside it.
fn near_or_any(random: &mut Random, near: &[u16]) -> u16 {
    if random.once_in(4) {
        random.next() as u16
    } else {
        random.pick(near).wrapping_add(random.below(3) as u16).wrapping_sub(1)
    }
}

fn any_bytes(random: &mut Random) -> [u8; BYTES] {
    let mut bytes = [0; BYTES];
    for part in bytes.chunks_mut(8) {
        part.copy_from_slice(&random.next().to_le_bytes()[..part.len()]);
    }
    bytes
}

/// A meter of any bytes, of which most numbers are moved to where they matter: the ring about full or past it, minutes that age one
/// after the other, a range that some sizes are in.
pub fn any_meter(random: &mut Random) -> Meter {
    let mut meter = Meter::of_bytes(any_bytes(random));
    if random.once_in(8) {
        return meter;
    }
    meter.dmin = near_or_any(random, &[1, 1, 2, 500]);
    meter.dmax = near_or_any(random, &[2, 1_000, 65_534]);
    meter.smin = near_or_any(random, &[1, 5, 20_160]);
    meter.budget = near_or_any(random, &[1, 20_000, 65_534]);
    meter.window = near_or_any(random, &[1, 26, 1_024, 20_160]);
    meter.records = near_or_any(random, &[0, 1, 500, 20_000]);
    meter.first = near_or_any(random, &[0, 1, 1_023, 1_024, 65_535]);
    meter.count = near_or_any(random, &[0, 1, 2, 1_023, 1_024, 1_025, 2_048, 65_535]);
    let start = random.pick(&[0, 1_000_000, u32::MAX - 2_000, u32::MAX - 100]);
    let step = random.pick(&[0, 1, 1, 2, 7]);
    let largest = random.pick(&[1, 3, 1_000, 65_535]);
    for i in 0..PLACES {
        let place = meter.place(i);
        meter.minutes[place] = start.wrapping_add(step * i as u32);
        meter.sizes[place] = random.between(0, largest) as u16;
    }
    meter.last = meter.minutes[meter.place(random.below(PLACES as u64) as usize)];
    meter
}

/// An offer to such a meter: minute and size.
pub fn to_any_meter(random: &mut Random, meter: &Meter) -> (u32, u32) {
    let some_place = meter.place(random.below(PLACES as u64) as usize);
    let minute = match random.below(8) {
        0 => random.next() as u32,
        1 => meter.last,
        2..=4 => meter.last.wrapping_add(meter.smin.into()).wrapping_add(random.below(4) as u32).wrapping_sub(1),
        _ => meter.minutes[some_place].wrapping_add(meter.window.into()).wrapping_add(random.below(3) as u32).wrapping_sub(1),
    };
    let size = match random.below(8) {
        0 => random.next() as u32,
        1 => u32::from(meter.dmin) + 65_536,
        2 => u32::from(meter.budget.wrapping_sub(meter.records)) + random.below(2) as u32,
        3 => meter.dmax.into(),
        _ => meter.dmin.into(),
    };
    (minute, size)
}
