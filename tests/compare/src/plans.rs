//! Plans as they are handed in, most of them proper or nearly so.

use crate::library::Library;
use crate::random::Random;
use reference::{Kind, Plan, Refusal};

/// The last minute that can be asked for, the last report, and the most reports.
pub const LAST: u64 = u32::MAX as u64;

/// A plan that is proper, or nearly, with its kind by number.
pub fn some_plan(random: &mut Random) -> (u32, [u64; 3]) {
    let kind = random.pick(&[0, 0, 0, 1, 1, 1, 1, 1, 1, 1, 1, 2]);
    let kind = if kind == 2 { random.pick(&[2, 3, 256, u32::MAX]) } else { kind };
    let most_k = random.pick(&[1, 4, 12, 100, 20_160]);
    let k = random.between(1, most_k);
    let period = match random.below(4) {
        0 => random.near(k, 1, u64::MAX >> 1),
        1 => random.near(20_160 * k, 1, u64::MAX >> 1),
        2 => random.between(k, 12 * k),
        _ => random.between(k, 20_160 * k),
    };
    let period = if kind == 1 && !random.once_in(6) { period - period % k } else { period };
    let total = match random.below(4) {
        0 => random.near(k, 1, u64::MAX >> 1),
        1 => random.near(1_000 * k, 1, u64::MAX >> 1),
        _ => random.between(k, 1_000 * k),
    };
    let k = if random.once_in(20) { random.pick(&[0, 20_161, u64::from(u32::MAX)]) } else { k };
    if random.once_in(40) {
        return (kind, std::array::from_fn(|_| random.of_any_length(32)));
    }
    (kind, [k, period, total])
}

/// The plan of these numbers, where its kind is one of the two: a plan of any other is not proper.
pub fn plan_of(kind: u32, [k, period, total]: [u64; 3]) -> Result<Plan, Refusal> {
    let kind = match kind {
        0 => Kind::WellFormed,
        1 => Kind::Even,
        _ => return Err(11),
    };
    Ok(Plan { kind, k, period, total })
}

/// A plan as it is handed in, with its kind by number.
#[derive(Clone, Copy, Debug)]
pub struct Handed {
    pub kind: u32,
    pub k: u64,
    pub period: u64,
    pub total: u64,
}

impl Handed {
    pub fn plan(self) -> Result<Plan, Refusal> {
        plan_of(self.kind, [self.k, self.period, self.total])
    }

    pub fn is_proper(self) -> bool {
        self.plan().is_ok_and(|plan| plan.proper())
    }

    pub fn numbers(self) -> [u32; 3] {
        [self.k, self.period, self.total].map(word)
    }

    /// Minute and size of report i of a proper plan, by the library.
    pub fn report(self, i: u64, library: &mut Library) -> (u64, u64) {
        let got = library.report(self.kind, self.numbers(), word(i), [0; 3]);
        assert_eq!(got.answer, 0, "{self:?}");
        let [high, low, size] = got.places.map(u64::from);
        (high << 32 | low, size)
    }
}

pub fn word(number: u64) -> u32 {
    u32::try_from(number).expect("a 32-bit number")
}

/// Gaps that differ need more care than sizes that do: of the even plans, half become well-formed ones with some longer gaps.
fn some_handed(random: &mut Random) -> Handed {
    let (kind, [k, period, total]) = some_plan(random);
    if kind == 1 && random.once_in(2) {
        let period = (period + random.below(k.max(1))).min(LAST);
        return Handed { kind: 0, k, period, total };
    }
    Handed { kind, k, period, total }
}

/// The reference walks a period several times for each answer, so a large k is drawn seldom; so is a plan that is not proper.
pub fn handed_to_walk(random: &mut Random) -> Handed {
    let most = if random.once_in(30) { 20_160 } else { 200 };
    loop {
        let handed = some_handed(random);
        let taken = if handed.is_proper() { handed.k <= most } else { random.once_in(4) };
        if taken {
            return handed;
        }
    }
}

pub fn proper_plan(random: &mut Random) -> (Handed, Plan) {
    loop {
        let handed = some_handed(random);
        if let Some(plan) = handed.plan().ok().filter(Plan::proper) {
            return (handed, plan);
        }
    }
}

/// Plans of kind 0 to 2, with k, period and total from 0 on, so many of each: most are not proper.
pub struct SmallPlans {
    pub counts: u64,
    pub periods: u64,
    pub totals: u64,
}

impl SmallPlans {
    pub fn plans(&self) -> u64 {
        3 * self.counts * self.periods * self.totals
    }

    /// The plan of a number.
    pub fn plan(&self, mut number: u64) -> Handed {
        let mut digit = |base: u64| {
            let digit = number % base;
            number /= base;
            digit
        };
        Handed { kind: digit(3) as u32, k: digit(self.counts), period: digit(self.periods), total: digit(self.totals) }
    }
}
