//! The box plan: "the largest gap s of its ranges at which some cycle of 1 to 512 pairs with that one gap throughout passes the check
//! with lateness J; at that gap the fewest pairs q; of those the fewest records p. It is a plan of the even kind with k = q, period =
//! q × s, total = p."
//!
//! Every cycle of up to so many pairs is tried. For cycles of up to 512 pairs there is a second way, of the same name with `_by_counts`:
//! it goes by what the request says of q pairs at a gap, and tries every gap and each q. The third, with neither, looks only at gaps at
//! which some mean fits.

use crate::{late, Kind, Pair, Plan, Refusal, Spec};

/// The most pairs of a cycle.
const MOST_PAIRS: u64 = 512;

/// "26 when J is above 1,440, after 24; 30 where there is none."
fn numbered(lateness: u64, found: impl FnOnce() -> Option<Plan>) -> Result<Plan, Refusal> {
    if lateness > 1_440 {
        return Err(26);
    }
    found().ok_or(30)
}

fn plan(gap: u64, q: u64, p: u64) -> Plan {
    Plan { kind: Kind::Even, k: q, period: q * gap, total: p }
}

/// Every cycle of so many pairs with this gap throughout, whose sizes are in the range.
pub fn cycles_at((dmin, dmax): (u64, u64), gap: u64, pairs: u64) -> impl Iterator<Item = Vec<Pair>> {
    let sizes = dmax - dmin + 1;
    (0..sizes.pow(pairs as u32)).map(move |mut number| {
        let mut size = || {
            let size = dmin + number % sizes;
            number /= sizes;
            size as u16
        };
        (0..pairs).map(|_| Pair { gap: gap as u16, size: size() }).collect()
    })
}

fn records(pairs: &[Pair]) -> u64 {
    pairs.iter().map(|pair| u64::from(pair.size)).sum()
}

/// Of cycles of up to so many pairs, each tried. Whether longer ones have a longer gap, it cannot say.
pub fn box_plan_by_cycles(spec: &Spec, lateness: u64, most_pairs: u64) -> Result<Plan, Refusal> {
    let fewest_records = |gap: u64, q: u64| {
        let passed = cycles_at(spec.size, gap, q).filter(|pairs| late::check(spec, pairs, lateness) == 0);
        passed.map(|pairs| records(&pairs)).min().map(|p| plan(gap, q, p))
    };
    let at = |gap: u64| (1..=most_pairs).find_map(|q| fewest_records(gap, q));
    numbered(lateness, || spec.gaps().find_map(at))
}

/// What a specification asks of one gap, with so much lateness.
struct Gap<'a> {
    spec: &'a Spec,
    gap: u64,
    lateness: u64,
}

impl Gap<'_> {
    /// "Where every gap s − J .. s + J is allowed"; none of them may be 0.
    fn is_kept(&self) -> bool {
        let Gap { spec, gap, lateness } = *self;
        gap > lateness && (gap - lateness..=gap + lateness).all(|gap| spec.allows_gap(gap))
    }

    /// B, and n = ⌈(R + J)/s⌉.
    fn supply(&self) -> Option<(u64, u64)> {
        self.spec.supply.map(|(b, r)| (b, (r + self.lateness).div_ceil(self.gap)))
    }

    /// L, and m = ⌊(P − J)/s⌋, which is 0 where P ≤ J.
    fn demand(&self) -> Option<(u64, u64)> {
        self.spec.demand.map(|(l, p)| (l, p.saturating_sub(self.lateness) / self.gap))
    }

    /// "q pairs will do exactly when p = max(q × dmin, ⌈q × L/m⌉) has p ≤ q × dmax and n × p ≤ q × B; an absent rate drops its part; with
    /// a demand rate P ≤ J or m = 0 never does." This p is the fewest records.
    fn fewest_records(&self, q: u64) -> Option<u64> {
        let (dmin, dmax) = self.spec.size;
        let p = match self.demand() {
            Some((_, 0)) => return None,
            Some((l, m)) => (q * dmin).max((q * l).div_ceil(m)),
            None => q * dmin,
        };
        (p <= q * dmax && self.supply().map_or(true, |(b, n)| n * p <= q * b)).then_some(p)
    }

    /// Whether any number of records a pair will do, a whole one or not: at least dmin and L/m, at most dmax and B/n.
    fn some_mean_fits(&self) -> bool {
        let (dmin, dmax) = self.spec.size;
        let demand = self.demand().map_or(true, |(l, m)| l <= m * dmax);
        let supply = self.supply().map_or(true, |(b, n)| n * dmin <= b);
        let both = self.demand().zip(self.supply()).map_or(true, |((l, m), (b, n))| n * l <= m * b);
        demand && supply && both
    }

    fn fewest_pairs(&self) -> Option<Plan> {
        (1..=MOST_PAIRS).find_map(|q| self.fewest_records(q).map(|p| plan(self.gap, q, p)))
    }
}

pub fn box_plan_by_counts(spec: &Spec, lateness: u64) -> Result<Plan, Refusal> {
    let gaps = spec.gaps().map(|gap| Gap { spec, gap, lateness });
    numbered(lateness, || gaps.filter(Gap::is_kept).find_map(|gap| gap.fewest_pairs()))
}

/// The same, where a gap is looked at only if some mean fits. Of the gaps around one the allowed are counted.
pub fn box_plan(spec: &Spec, lateness: u64) -> Result<Plan, Refusal> {
    let largest = spec.gaps().next().unwrap_or(0);
    let mut allowed_below = vec![0];
    (0..=largest).for_each(|gap| allowed_below.push(allowed_below[gap as usize] + u64::from(spec.allows_gap(gap))));
    let is_kept = |gap: u64| {
        let around = gap > lateness && gap + lateness <= largest;
        around && allowed_below[(gap + lateness + 1) as usize] - allowed_below[(gap - lateness) as usize] == 2 * lateness + 1
    };
    let gaps = spec.gaps().filter(|&gap| is_kept(gap)).map(|gap| Gap { spec, gap, lateness });
    numbered(lateness, || gaps.filter(Gap::some_mean_fits).find_map(|gap| gap.fewest_pairs()))
}

/// Whether some number of records a pair, a whole one or not, would do at a gap that is kept: then it is only for want of pairs that the
/// box plan is at a shorter one.
pub fn some_mean_fits(spec: &Spec, lateness: u64, gap: u64) -> bool {
    let gap = Gap { spec, gap, lateness };
    gap.is_kept() && gap.some_mean_fits()
}
