//! The box plan of every small specification, found by trying every cycle: every gap, every number of pairs, every list of sizes, by every
//! choice of delays. What the stretches of a cycle hold is found once, and asked for by every specification.

use crate::calls::expected;
use crate::checks::HELD;
use crate::exhaustive::{one_range, two_ranges};
use crate::group::{same, Counts, Met, Runner};
use crate::library::Library;
use crate::plans::word;
use reference::late::Late;
use reference::{box_plan, spec, Pair, Spec};
use std::collections::BTreeSet;

pub fn all(runner: &mut Runner) {
    let (tried, specs) = (Tried::every_cycle(), specifications());
    let name = "every small specification: its box plan, every cycle tried, up to 5 minutes late";
    let answers = [30, 101, 102, 103, 104, 105, 106, 201, 202, 203];
    runner.every(name, specs.len() as u64 * LATENESSES, &answers, |number, library| {
        let (spec, lateness) = (&specs[(number / LATENESSES) as usize], number % LATENESSES);
        every_rate(spec, lateness, &tried, library)
    });
    let name = "every small specification: its most tolerant plan, every cycle tried";
    runner.every(name, specs.len() as u64, &[30, 100, 101, 102, 103], |number, library| {
        every_rate_most_tolerant(&specs[number as usize], &tried, library)
    });
}

type Range = (u64, u64);

/// A lateness is 0 to 5, a gap 1 to 7, B and L are 1 to 7, R and P 1 to 6. In so few minutes lie no more than 6 reports, or 3 if the gap is not 1:
/// with more pairs than that a cycle need not be tried. (Were it else, the library would give a plan that none of these is.)
const LATENESSES: u64 = 6;
const GAPS: u64 = 7;
const WINDOWS: u64 = 6;
const RECORDS: u64 = 7;

fn most_pairs(gap: u64) -> u64 {
    match gap {
        1 => 6,
        _ => 4,
    }
}

const SIZES: [Range; 3] = [(1, 1), (1, 3), (2, 3)];

/// The small ranges, and some with room for several minutes of delays: one, two that touch, and two with a gap left out.
fn specifications() -> Vec<Spec> {
    let wide: [(Range, Option<Range>); 10] = [
        ((1, 7), None),
        ((2, 6), None),
        ((2, 7), None),
        ((3, 7), None),
        ((1, 3), Some((4, 7))),
        ((1, 1), Some((2, 7))),
        ((2, 6), Some((7, 7))),
        ((3, 4), Some((5, 7))),
        ((1, 5), Some((7, 7))),
        ((1, 2), Some((4, 7))),
    ];
    let gaps: Vec<(Range, Option<Range>)> = one_range(5).chain(two_ranges(4)).chain(wide).collect();
    let of_size = |size| gaps.iter().map(move |&(gap, second)| (size, gap, second));
    let bare = |(size, gap, second)| Spec { size, gap, supply: None, demand: None, duration: None, second };
    SIZES.into_iter().flat_map(of_size).map(bare).collect()
}

/// What a cycle is in number: pairs, records, the most that R minutes hold and the least that P do, in this order.
type Numbers = [u64; 4];

/// The numbers of every cycle with one gap throughout, by its gap, the lateness, the range that its sizes are in, R and P; 0 stands for an
/// absent rate. The fewest pairs come first, and of these the fewest records.
struct Tried(Vec<Vec<Numbers>>);

fn place(gap: u64, lateness: u64, size: Range, r: u64, p: u64) -> usize {
    let size = SIZES.iter().position(|&other| other == size).expect("one of the ranges");
    ((((gap - 1) * LATENESSES + lateness) * 3 + size as u64) * (WINDOWS + 1) + r) as usize * (WINDOWS + 1) as usize + p as usize
}

impl Tried {
    fn every_cycle() -> Tried {
        let places = place(GAPS, LATENESSES - 1, SIZES[2], WINDOWS, WINDOWS) + 1;
        let mut tried = vec![BTreeSet::new(); places];
        for gap in 1..=GAPS {
            for pairs in (1..=most_pairs(gap)).flat_map(|pairs| box_plan::cycles_at((1, 3), gap, pairs)) {
                // Where a report can arrive with the one before it no cycle is passed.
                (0..LATENESSES.min(gap)).for_each(|lateness| put(&mut tried, &pairs, gap, lateness));
            }
        }
        Tried(tried.into_iter().map(|numbers| numbers.into_iter().collect()).collect())
    }

    /// The fewest pairs, and of these the fewest records, of the cycles at this gap that keep the rates.
    fn best_at(&self, spec: &Spec, gap: u64, lateness: u64) -> Option<[u64; 2]> {
        let ((b, r), (l, p)) = (spec.supply.unwrap_or((0, 0)), spec.demand.unwrap_or((0, 0)));
        let cycles = &self.0[place(gap, lateness, spec.size, r, p)];
        let kept = |&&[_, _, most, least]: &&Numbers| (r == 0 || most <= b) && (p == 0 || least >= l);
        cycles.iter().find(kept).map(|&[pairs, records, ..]| [pairs, records])
    }

    /// k, period and total of the box plan, or 30.
    fn box_plan(&self, spec: &Spec, lateness: u64) -> Result<[u64; 3], u32> {
        let kept = |gap: &u64| *gap > lateness && (gap - lateness..=gap + lateness).all(|gap| spec.allows_gap(gap));
        let best = |gap: u64| self.best_at(spec, gap, lateness).map(|[pairs, records]| [pairs, pairs * gap, records]);
        spec.gaps().filter(kept).find_map(best).ok_or(30)
    }

    /// The greatest lateness that has a box plan, and k, period and total; or 30. No gap is 4 minutes from both ends of 1 to 7.
    fn tolerant_plan(&self, spec: &Spec) -> Result<[u64; 4], u32> {
        let plan = |lateness: u64| self.box_plan(spec, lateness).map(|[k, period, total]| [lateness, k, period, total]);
        (0..LATENESSES).rev().find_map(|lateness| plan(lateness).ok()).ok_or(30)
    }
}

fn put(tried: &mut [BTreeSet<Numbers>], pairs: &[Pair], gap: u64, lateness: u64) {
    let late = Late::new(pairs, lateness);
    let held: Vec<(u64, u64)> = (1..=WINDOWS).map(|n| late.least_and_most_by_choices(n)).collect();
    let sizes = || pairs.iter().map(|pair| u64::from(pair.size));
    let held_in = |minutes: u64| if minutes == 0 { (0, 0) } else { held[minutes as usize - 1] };
    for size in SIZES.into_iter().filter(|&(dmin, dmax)| sizes().all(|size| dmin <= size && size <= dmax)) {
        for (r, p) in (0..=WINDOWS).flat_map(|r| (0..=WINDOWS).map(move |p| (r, p))) {
            tried[place(gap, lateness, size, r, p)].insert([pairs.len() as u64, sizes().sum(), held_in(r).1, held_in(p).0]);
        }
    }
}

/// Every two rates, each small or none.
fn every_two_rates() -> impl Iterator<Item = (Option<Range>, Option<Range>)> {
    let small = || (1..=RECORDS).flat_map(|records| (1..=WINDOWS).map(move |minutes| (records, minutes)));
    let rates = move || [None].into_iter().chain(small().map(Some));
    rates().flat_map(move |supply| rates().map(move |demand| (supply, demand)))
}

/// A plan counts as 100 more than its pairs where reports are on time, and as 200 more than its lateness where they are not.
fn every_rate(bare: &Spec, lateness: u64, tried: &Tried, library: &mut Library) -> Result<Counts, String> {
    let mut counts = Counts::new();
    for (supply, demand) in every_two_rates() {
        let spec = Spec { supply, demand, ..bare.clone() };
        let made = tried.box_plan(&spec, lateness);
        let got = library.box_plan(&spec::write(&spec), word(lateness), [HELD; 3]);
        let met = match made {
            Ok([pairs, ..]) if lateness == 0 => 100 + word(pairs),
            Ok(_) => 200 + word(lateness),
            Err(refusal) => refusal,
        };
        same(met, got, expected(made, [HELD; 3]), || format!("{spec:?}, {lateness} minutes late"))?.add_to(&mut counts);
    }
    Ok(counts)
}

/// A plan counts as 100 more than its lateness.
fn every_rate_most_tolerant(bare: &Spec, tried: &Tried, library: &mut Library) -> Result<Counts, String> {
    let mut counts = Counts::new();
    for (supply, demand) in every_two_rates() {
        let spec = Spec { supply, demand, ..bare.clone() };
        let made = tried.tolerant_plan(&spec);
        let got = library.tolerant_plan(&spec::write(&spec), [HELD; 4]);
        let met = made.map_or_else(|refusal| refusal, |[lateness, ..]| 100 + word(lateness));
        same(met, got, expected(made, [HELD; 4]), || format!("{spec:?}"))?.add_to(&mut counts);
    }
    Ok(counts)
}
