//! Random inputs: specifications, cycles and files of every size, most of them near the place where an answer changes.

use crate::checks::no_rates;
use crate::random::Random;
use reference::cycle::Cycle;
use reference::schedule::least_and_most_by_report;
use reference::{file, spec, Pair, Spec};

/// How large the numbers of an input may get.
#[derive(Clone, Copy)]
pub struct Scale {
    pub size: u64,
    pub gap: u64,
    pub records: u64,
    pub window: u64,
    pub duration: u64,
}

pub const TINY: Scale = Scale { size: 4, gap: 6, records: 25, window: 30, duration: 60 };
pub const SMALL: Scale = Scale { size: 12, gap: 20, records: 150, window: 120, duration: 300 };
pub const MID: Scale = Scale { size: 100, gap: 300, records: 2_000, window: 2_000, duration: 4_000 };
pub const FULL: Scale = Scale { size: 1_000, gap: 20_160, records: 20_000, window: 20_160, duration: 60_000 };

pub fn scale(random: &mut Random) -> Scale {
    random.pick(&[TINY, TINY, SMALL, SMALL, SMALL, MID, MID, FULL])
}

/// A range within 1 to `most`: any, narrow, or of one value.
fn range(random: &mut Random, most: u64) -> (u64, u64) {
    let lower = if random.once_in(3) { random.between(1, most) } else { 1 + random.of_any_length(16) % most };
    let upper = match random.below(4) {
        0 => lower,
        1 => random.near(lower + 1, 1, most).max(lower),
        _ => random.between(lower, most),
    };
    (lower, upper)
}

/// A specification within all limits, whose rates lie near what one size at one gap gives. One in three has a second range of gaps.
pub fn near_spec(random: &mut Random, scale: Scale) -> Spec {
    if random.once_in(3) {
        near_spec_of_two_ranges(random, scale)
    } else {
        near_spec_of_one_range(random, scale)
    }
}

pub fn near_spec_of_one_range(random: &mut Random, scale: Scale) -> Spec {
    let gap = range(random, scale.gap);
    let typical_gap = random.between(gap.0, gap.1);
    near_spec_at(random, scale, gap, typical_gap)
}

/// The gap that the rates are near to is in either range, or between them.
pub fn near_spec_of_two_ranges(random: &mut Random, scale: Scale) -> Spec {
    let gap = range(random, scale.gap - 1);
    let (lower, upper) = range(random, scale.gap - gap.1);
    let second = (gap.1 + lower, gap.1 + upper);
    let (least, most) = random.pick(&[gap, second, (gap.1, second.0)]);
    let typical_gap = random.between(least, most);
    Spec { second: Some(second), ..near_spec_at(random, scale, gap, typical_gap) }
}

fn near_spec_at(random: &mut Random, scale: Scale, gap: (u64, u64), typical_gap: u64) -> Spec {
    let size = range(random, scale.size);
    let typical_size = random.between(size.0, size.1);
    let rate = |random: &mut Random| {
        let window = match random.below(3) {
            // Where a whole number of reports just fits, or just does not.
            0 => {
                let gaps = random.between(1, 1 + scale.window / typical_gap);
                random.near(typical_gap * gaps, 1, scale.window)
            }
            1 => random.between(gap.1.min(scale.window), scale.window),
            _ => random.between(1, scale.window),
        };
        let reports = window.div_ceil(typical_gap) + random.below(2);
        let slack = if random.once_in(3) { typical_size + 3 } else { 2 };
        (random.near(typical_size * reports, slack, scale.records), window)
    };
    let supply = (!random.once_in(12)).then(|| rate(random));
    let demand = (!random.once_in(12)).then(|| rate(random));
    let supply = supply.map(|(b, r)| (if random.once_in(4) { b } else { b.max(size.1) }, r));
    let demand = demand.map(|(l, p)| (l, if random.once_in(4) { p } else { p.max(gap.1) }));
    let duration = random.once_in(3).then(|| {
        let around = demand.map_or(scale.duration, |(_, p)| p);
        let tmin = if random.once_in(2) { random.near(around, 1, 60_000) } else { random.between(1, scale.duration) };
        (tmin, random.between(tmin, 60_000))
    });
    Spec { size, gap, supply, demand, duration, second: None }
}

/// Like `near_spec_of_one_range`, with both rates.
pub fn near_spec_with_rates(random: &mut Random, scale: Scale) -> Spec {
    loop {
        let spec = near_spec_of_one_range(random, scale);
        if spec.supply.is_some() && spec.demand.is_some() {
            return spec;
        }
    }
}

/// A specification whose numbers lie at the limits, one past them, or anywhere; often refused.
fn edge_spec(random: &mut Random) -> Spec {
    let mut number = |limit: u64| match random.below(16) {
        0 => random.pick(&[0, limit + 1, 65_535]),
        1..=3 => random.between(1, 2),
        4..=6 => random.between(limit - 1, limit),
        _ => random.between(1, limit),
    };
    let (a, b, c, d) = (number(1_000), number(1_000), number(20_160), number(20_160));
    let supply = (number(20_000), number(20_160));
    let demand = (number(20_000), number(20_160));
    let (e, f) = (number(60_000), number(60_000));
    let mut ordered = |a: u64, b: u64| if random.once_in(16) { (a, b) } else { (a.min(b), a.max(b)) };
    let (size, gap, duration) = (ordered(a, b), ordered(c, d), ordered(e, f));
    Spec {
        size,
        gap,
        supply: (!random.once_in(8)).then_some(supply),
        demand: (!random.once_in(8)).then_some(demand),
        duration: random.once_in(2).then_some(duration),
        second: random.once_in(2).then(|| stray_second(random, gap.1)),
    }
}

/// A second range of gaps that touches the first, lies anywhere above it, reaches into it or lies below it; seldom with its bounds the
/// wrong way round, or out of their limits.
pub fn stray_second(random: &mut Random, smax: u64) -> (u64, u64) {
    let lower = match random.below(8) {
        0 | 1 => smax + 1,
        2 => smax,
        3 => random.between(1, 20_160),
        4 => random.pick(&[0, 1, 20_160, 20_161]),
        _ => random.between(smax.min(20_160), 20_160),
    };
    let upper = match random.below(8) {
        0 => lower,
        1 => lower.saturating_sub(1),
        2 => random.pick(&[0, 20_160, 20_161, 65_535]),
        _ => random.between(lower.min(20_160), 20_160),
    };
    (lower.min(65_535), upper.min(65_535))
}

/// The file of a specification, seldom damaged.
pub fn spec_file(random: &mut Random) -> Vec<u8> {
    let spec = if random.once_in(5) {
        edge_spec(random)
    } else {
        let scale = scale(random);
        near_spec(random, scale)
    };
    seldom_damaged(random, spec::write(&spec))
}

pub fn seldom_damaged(random: &mut Random, file: Vec<u8>) -> Vec<u8> {
    if random.once_in(12) {
        damaged(random, file)
    } else {
        file
    }
}

/// A file with something wrong in it, mostly.
pub fn damaged(random: &mut Random, mut file: Vec<u8>) -> Vec<u8> {
    let at = random.below(file.len().max(1) as u64) as usize;
    match random.below(7) {
        0 => file.truncate(at),
        1 => file.truncate(file.len().saturating_sub(1)),
        2 => (0..random.between(1, 4)).for_each(|_| file.push(random.next() as u8)),
        3 if !file.is_empty() => file[0] ^= 1 << random.below(8),
        4 if !file.is_empty() => file[at] = random.next() as u8,
        5 if !file.is_empty() => drop(file.remove(at)),
        _ if !file.is_empty() => file[at] ^= 1 << random.below(8),
        _ => (),
    }
    file
}

/// How many pairs: few, mostly; up to the limit, now and then.
pub fn count(random: &mut Random) -> usize {
    let most = random.pick(&[1, 2, 3, 4, 8, 8, 20, 20, 60, 512]);
    if random.once_in(400) {
        512
    } else {
        random.between(1, most) as usize
    }
}

/// A range of gaps of the specification.
fn range_of_gaps(random: &mut Random, spec: &Spec) -> (u64, u64) {
    spec.second.filter(|_| random.once_in(2)).unwrap_or(spec.gap)
}

/// A cycle within the ranges, in runs of equal fields so that its file leaves some out.
pub fn cycle_in_range(random: &mut Random, spec: &Spec, count: usize) -> Vec<Pair> {
    let change = random.pick(&[1, 2, 5]);
    let mut pair = Pair { gap: spec.gap.0 as u16, size: spec.size.0 as u16 };
    (0..count)
        .map(|i| {
            if i == 0 || random.once_in(change) {
                let (least, most) = range_of_gaps(random, spec);
                pair.gap = random.between(least, most) as u16;
            }
            if i == 0 || random.once_in(change) {
                pair.size = random.between(spec.size.0, spec.size.1) as u16;
            }
            pair
        })
        .collect()
}

/// A specification and a cycle whose rates lie at what the cycle holds, or one off.
pub fn spec_and_cycle(random: &mut Random) -> (Spec, Vec<Pair>) {
    let scale = scale(random);
    let mut spec = near_spec(random, scale);
    let mut pairs = if random.once_in(100) {
        vec![most_reports(random, &mut spec)]
    } else {
        let count = count(random);
        cycle_in_range(random, &spec, count)
    };
    if !random.once_in(4) {
        fit_rates(random, &mut spec, |n| least_and_most_by_report(&Cycle(&pairs), n));
    }
    if random.once_in(8) {
        spoil(random, &spec, &mut pairs);
    }
    (spec, pairs)
}

/// The most reports that a window can hold: one pair, gap 1, and windows about as long as they can be.
fn most_reports(random: &mut Random, spec: &mut Spec) -> Pair {
    let window = |random: &mut Random| random.pick(&[20_160, 20_001, 20_000, 19_999]);
    spec.gap.0 = 1;
    spec.size.0 = if random.once_in(4) { spec.size.0 } else { 1 };
    spec.supply = (!random.once_in(4)).then(|| (20_000, window(random)));
    spec.demand = (!random.once_in(4)).then(|| (20_000, window(random)));
    Pair { gap: 1, size: spec.size.0 as u16 }
}

/// Moves B and L to the most and the least that their minutes hold, or one off.
pub fn fit_rates(random: &mut Random, spec: &mut Spec, least_and_most: impl Fn(u64) -> (u64, u64)) {
    let off = |random: &mut Random, held: u64| {
        let by = random.pick(&[0, 0, 1]);
        random.near(held, by, 20_000)
    };
    if let Some((b, r)) = &mut spec.supply {
        *b = off(random, least_and_most(*r).1);
    }
    if let Some((l, p)) = &mut spec.demand {
        *l = off(random, least_and_most(*p).0);
    }
}

/// Puts one number of a cycle out of range, or changes its count to none or too many.
pub fn spoil(random: &mut Random, spec: &Spec, pairs: &mut Vec<Pair>) {
    let outside = |random: &mut Random, range: (u64, u64)| random.pick(&[range.0 - 1, range.1 + 1, 0, 65_535]) as u16;
    let at = random.below(pairs.len() as u64) as usize;
    match random.below(6) {
        0 => pairs.clear(),
        1 => {
            let over = random.pick(&[513, 514, 600, 1_024]);
            *pairs = pairs.iter().copied().cycle().take(over).collect();
        }
        2 | 3 => {
            let range = range_of_gaps(random, spec);
            pairs[at].gap = outside(random, range);
        }
        _ => pairs[at].size = outside(random, spec.size),
    }
}

/// Any pairs at all, in any number up to one past the limit and a little more, for the files.
pub fn any_pairs(random: &mut Random) -> Vec<Pair> {
    let count = match random.below(40) {
        0 => 0,
        1 => 512,
        2 => 513,
        3 => random.between(514, 700) as usize,
        _ => count(random),
    };
    let range = random.pick(&[(0, 1), (0, 3), (254, 258), (0, 65_535)]);
    cycle_in_range(random, &no_rates(range, range), count)
}

/// A file of any pairs. A list that has no file gets one whose count stands for too many.
pub fn cycle_file(random: &mut Random) -> Vec<u8> {
    let pairs = any_pairs(random);
    match file::write(&pairs, usize::MAX) {
        Ok(file) => file,
        Err(_) => {
            let mut file = (pairs.len() as u16).to_be_bytes().to_vec();
            for pair in &pairs {
                file.push(3);
                file.extend(pair.gap.to_be_bytes());
                file.extend(pair.size.to_be_bytes());
            }
            file
        }
    }
}
