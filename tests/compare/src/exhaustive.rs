//! Every specification with small numbers, of one range of gaps and of two, for each of them every short cycle, also one whose
//! reports may arrive late, the shortest stretch and the margins of every short cycle, and every list of sizes at the gap of its
//! even plan and at longer ones; every short list of offers to every small meter; and every small even plan: nothing here is left
//! to chance.

use crate::calls::{consistency_outcome, expected, with_condition};
use crate::checks::HELD;
use crate::group::{same, Counts, Met, Runner, Verdict};
use crate::late;
use crate::least::least_case;
use crate::library::{Library, Outcome};
use crate::margins;
use crate::meters::Trial;
use crate::ring::{Meter, BYTES};
use crate::shortest;
use reference::feasibility::{self, Failure};
use reference::meter::{stretch, Report};
use reference::schedule::LAID_OUT;
use reference::{cycle, even, spec, Pair, Spec};

type Range = (u64, u64);

/// Specifications of small numbers: which ranges of sizes they have, and which of gaps, the second of which may be absent. The records of
/// a rate are 1 to `records`, its minutes 1 to `minutes`. And the cycles that are asked of each.
struct Small {
    sizes: Vec<Range>,
    gaps: Vec<(Range, Option<Range>)>,
    records: u64,
    minutes: u64,
    cycles: SmallCycles,
}

/// Cycles of up to so many pairs, whose gaps and sizes are 1 to these. The first of them has no pair.
pub struct SmallCycles {
    pub pairs: u32,
    pub gaps: u64,
    pub sizes: u64,
}

impl SmallCycles {
    pub fn count(&self) -> u64 {
        (0..=self.pairs).map(|pairs| (self.gaps * self.sizes).pow(pairs)).sum()
    }

    /// The cycle of a number.
    pub fn cycle(&self, mut number: u64) -> Vec<Pair> {
        let mut pairs = vec![];
        while number > 0 {
            let pair = (number - 1) % (self.gaps * self.sizes);
            pairs.push(Pair { gap: (pair / self.sizes + 1) as u16, size: (pair % self.sizes + 1) as u16 });
            number = (number - 1) / (self.gaps * self.sizes);
        }
        pairs
    }
}

/// The ranges within 1 to `most`.
fn ranges(most: u64) -> impl Iterator<Item = Range> {
    (1..=most).flat_map(move |lower| (lower..=most).map(move |upper| (lower, upper)))
}

fn of_one_range() -> Small {
    let cycles = SmallCycles { pairs: 2, gaps: 3, sizes: 3 };
    Small { sizes: ranges(3).collect(), gaps: one_range(3).collect(), records: RATE, minutes: RATE, cycles }
}

/// The ranges touch, or leave one or two gaps out.
fn of_two_ranges() -> Small {
    let cycles = SmallCycles { pairs: 2, gaps: 4, sizes: 2 };
    Small { sizes: ranges(2).collect(), gaps: two_ranges(4).collect(), records: RATE, minutes: RATE, cycles }
}

/// With gaps of 1 to 5 reports may be two minutes late.
fn for_late_reports() -> Small {
    let cycles = SmallCycles { pairs: 2, gaps: 5, sizes: 2 };
    Small { sizes: vec![(1, 2)], gaps: one_range(5).chain(two_ranges(5)).collect(), records: 3, minutes: 6, cycles }
}

/// The second gap is in no range of some, and the first size in none of some.
fn for_stretches() -> Small {
    let cycles = SmallCycles { pairs: 3, gaps: 3, sizes: 2 };
    let gaps = vec![((1, 3), None), ((1, 1), Some((3, 3)))];
    Small { sizes: vec![(1, 2), (2, 2)], gaps, records: 6, minutes: 6, cycles }
}

/// With rates of up to 6 minutes no stretch holds more than 6 reports, so that all lists of sizes can be looked at. No cycle is asked.
fn for_lists_of_sizes() -> Small {
    let cycles = SmallCycles { pairs: 0, gaps: 1, sizes: 1 };
    Small { sizes: ranges(3).collect(), gaps: one_range(4).chain(two_ranges(4)).collect(), records: 6, minutes: 6, cycles }
}

/// Every first range within 1 to `most`, and no second.
pub fn one_range(most: u64) -> impl Iterator<Item = (Range, Option<Range>)> {
    ranges(most).map(|gap| (gap, None))
}

/// Every two ranges within 1 to `most`, of which the second starts above the first.
pub fn two_ranges(most: u64) -> impl Iterator<Item = (Range, Option<Range>)> {
    let pairs = ranges(most).flat_map(move |gap| ranges(most).map(move |second| (gap, second)));
    pairs.filter(|(gap, second)| second.0 > gap.1).map(|(gap, second)| (gap, Some(second)))
}

/// The rates of specifications for every call, and their windows, are 1 to this.
const RATE: u64 = 8;

impl Small {
    fn rates(&self) -> u64 {
        self.records * self.minutes + 1
    }

    /// A rate from its number: 0 is the absent one.
    fn rate(&self, number: u64) -> Option<(u64, u64)> {
        (number > 0).then(|| ((number - 1) / self.minutes + 1, (number - 1) % self.minutes + 1))
    }

    fn specifications(&self) -> u64 {
        (self.sizes.len() * self.gaps.len()) as u64 * self.rates() * self.rates()
    }

    fn specification(&self, mut number: u64) -> Spec {
        let mut digit = |base: u64| {
            let digit = number % base;
            number /= base;
            digit
        };
        let size = self.sizes[digit(self.sizes.len() as u64) as usize];
        let (gap, second) = self.gaps[digit(self.gaps.len() as u64) as usize];
        let [supply, demand] = [digit(self.rates()), digit(self.rates())].map(|number| self.rate(number));
        Spec { size, gap, supply, demand, duration: None, second }
    }

    /// How many cases a specification and a cycle make.
    fn cases(&self) -> u64 {
        self.specifications() * self.cycles.count()
    }

    fn case(&self, number: u64) -> (Spec, Vec<Pair>) {
        (self.specification(number / self.cycles.count()), self.cycles.cycle(number % self.cycles.count()))
    }
}

pub fn all(runner: &mut Runner) {
    let met = MustMeet { consistency: &[0, 73, 74, 75, 76], schedules: &[0, 5, 6], test: &[0, 5, 73, 74, 75, 76, 9] };
    every_small(runner, "every small specification", &of_one_range(), met);
    let met = MustMeet { consistency: &[25], schedules: &[25], test: &[25] };
    every_small(runner, "every small specification of two ranges", &of_two_ranges(), met);
    let small = for_late_reports();
    let name = "every small specification: every cycle of up to 2 pairs, up to 2 minutes late, and its tolerance";
    runner.every(name, small.cases(), &[0, 12, 13, 15, 16], |number, library| {
        let (spec, pairs) = small.case(number);
        late::every_lateness(&spec, &pairs, 2, library)
    });
    let small = for_stretches();
    let name = "every small specification: every cycle of up to 3 pairs, its shortest stretch";
    runner.every(name, small.cases(), &[0, 12, 13, 14, 15, 16, 115, 116, 216, 316], |number, library| {
        let (spec, pairs) = small.case(number);
        shortest::compare_small(&spec, &pairs, library)
    });
    let name = "every small specification: every cycle of up to 3 pairs, its margins";
    let answers = [0, 12, 13, 14, 100, 101, 102, 115, 116, 117, 201, 202, 301, 401, 402, 501, 502, 601, 602];
    runner.every(name, small.cases(), &answers, |number, library| {
        let (spec, pairs) = small.case(number);
        margins::compare_small(&spec, &pairs, library)
    });
    let small = for_lists_of_sizes();
    let name = "every small specification: no list of sizes sends less than the even plan";
    runner
        .every(name, small.specifications(), &[0, 1, 2, 10], |number, library| least_case(&small.specification(number), library));
    runner.every("every small even plan: rows of reports", COUNTS * TOTALS, &[0, 1], row_case);
    runner.every("every small meter: every list of 4 offers", METERS * OFFERS, &[0, 13, 14, 15], offers_case);
}

/// The answers that the calls which take one range alone must meet.
struct MustMeet {
    consistency: &'static [u32],
    schedules: &'static [u32],
    test: &'static [u32],
}

fn every_small(runner: &mut Runner, name: &str, small: &Small, met: MustMeet) {
    let specifications = small.specifications();
    runner.every(&format!("{name}: consistency"), specifications, met.consistency, |number, library| {
        consistency_case(&small.specification(number), library)
    });
    runner.every(&format!("{name}: schedules for each small k"), specifications * KS, met.schedules, |number, library| {
        schedules_case(&small.specification(number / KS), number % KS, library)
    });
    runner.every(&format!("{name}: test"), specifications, met.test, |number, library| {
        test_case(&small.specification(number), library)
    });
    runner.every(&format!("{name}: even plan, size lists searched"), specifications, &[0, 10], |number, library| {
        even_case(&small.specification(number), library)
    });
    let name = format!("{name}: every cycle of up to 2 pairs");
    runner.every(&name, small.cases(), &[0, 12, 13, 14, 15, 16], |number, library| {
        let (spec, pairs) = small.case(number);
        cycle_case(&spec, &pairs, library)
    });
}

fn consistency_case(spec: &Spec, library: &mut Library) -> Verdict {
    let file = spec::write(spec);
    let wanted = consistency_outcome(&file, [HELD]);
    same(with_condition(wanted), library.consistency(&file, [HELD]), wanted, || format!("{spec:?}"))
}

/// How many k are asked for, from 0 on: one more than any of these specifications has a schedule with.
const KS: u64 = RATE + 2;

/// Both schedules; both answers are counted.
fn schedules_case(spec: &Spec, k: u64, library: &mut Library) -> Result<Counts, String> {
    let demand = feasibility::min_demand(spec, k);
    let supply = feasibility::max_supply(spec, k, LAID_OUT);
    let wanted = [demand, supply].map(|made| expected(made.map(|(plan, figure)| [plan.period, plan.total, figure]), [HELD; 3]));
    let (file, k) = (spec::write(spec), k as u32);
    let got = [library.min_demand(&file, k, [HELD; 3]), library.max_supply(&file, k, [HELD; 3])];
    same(0, got, wanted, || format!("{spec:?} k {k}"))?;
    let mut counts = Counts::new();
    for outcome in wanted {
        outcome.answer.add_to(&mut counts);
    }
    Ok(counts)
}

fn test_case(spec: &Spec, library: &mut Library) -> Verdict {
    let got = library.test(&spec::write(spec), [HELD; 5]);
    let wanted = match feasibility::test(spec, LAID_OUT) {
        Ok((plan, supply)) => expected(Ok([HELD.into(), plan.k, plan.period, plan.total, supply]), [HELD; 5]),
        Err(Failure::Inconsistent(condition)) => Outcome { answer: 7, places: [condition, HELD, HELD, HELD, HELD] },
        Err(Failure::Refused(answer)) => expected(Err(answer), [HELD; 5]),
    };
    same(with_condition(wanted), got, wanted, || format!("{spec:?}"))
}

fn even_case(spec: &Spec, library: &mut Library) -> Verdict {
    let got = library.even_plan(&spec::write(spec), [HELD; 3]);
    let made = even::even_plan(spec, even::list_exists);
    let wanted = expected(made.map(|plan| [plan.k, plan.period, plan.total]), [HELD; 3]);
    same(wanted.answer, got, wanted, || format!("{spec:?}"))
}

/// No cycle obeys a specification that condition 4 turns away (document 02, Req 07).
fn cycle_case(spec: &Spec, pairs: &[Pair], library: &mut Library) -> Verdict {
    let answer = cycle::check(spec, pairs);
    if answer == 0 && feasibility::consistency(spec) == Err(Failure::Inconsistent(4)) {
        return Err(format!("{pairs:?} obeys {spec:?}, which condition 4 turns away"));
    }
    same(answer, library.check_cycle(&spec::write(spec), pairs), answer, || format!("{spec:?} {pairs:?}"))
}

/// Even plans of 1 to this many reports, with so many totals each, from k on.
const COUNTS: u64 = 12;
const TOTALS: u64 = 36;

/// What the sizes of document 02, Req 02, are for: n reports in a row hold n × δ/k records, rounded down or up, and the first n hold it
/// rounded up. It counts as 0 where all sizes are the same, 1 where the first report is fuller than some.
fn row_case(number: u64, library: &mut Library) -> Verdict {
    let k = number / TOTALS + 1;
    let total = k + number % TOTALS;
    let plan = [k, k, total].map(|n| n as u32);
    let sizes: Vec<u64> = (0..4 * k as u32).map(|i| library.report(1, plan, i, [0; 3]).places[2].into()).collect();
    for n in 0..=2 * k {
        let row = |i: u64| sizes[i as usize..][..n as usize].iter().sum::<u64>();
        let (least, most) = (n * total / k, (n * total).div_ceil(k));
        let wrong = (0..2 * k).find(|&i| !(least..=most).contains(&row(i)) || i == 0 && row(i) < most);
        if let Some(i) = wrong {
            return Err(format!("k {k} total {total}: {n} reports from report {i} on hold {}", row(i)));
        }
    }
    Ok(u32::from(total % k > 0))
}

/// Meters have sizes of 1 to 2, least gaps of 1 to 2, B and R of 1 to this or no supply rate.
const METER_RATE: u64 = 4;
const METERS: u64 = 3 * 2 * (METER_RATE * METER_RATE + 1);

/// The meter of a number. Its greatest gap is its least one: it is not applied.
fn meter_specification(number: u64) -> Spec {
    let size = [(1, 1), (1, 2), (2, 2)][number as usize % 3];
    let smin = number / 3 % 2 + 1;
    let rate = number / 6;
    let supply = (rate > 0).then(|| ((rate - 1) / METER_RATE + 1, (rate - 1) % METER_RATE + 1));
    Spec { size, gap: (smin, smin), supply, demand: None, duration: None, second: None }
}

/// Offers are at minutes 0 to `MINUTES` − 1, of sizes 1 to 3: the last is out of every range, and so is the first of some.
const MINUTES: u64 = 6;
const OFFERS: u64 = MINUTES * 3;

fn offers_case(number: u64, library: &mut Library) -> Result<Counts, String> {
    let spec = meter_specification(number / OFFERS);
    let trial = Trial::make(&spec, Meter::of_bytes([0xA5; BYTES]), library)?;
    let mut counts = Counts::new();
    and_all_after(trial, number % OFFERS, 3, &mut counts, library)?;
    Ok(counts)
}

/// One offer, and after it every list of so many more: no R minutes, from whatever minute on, hold more than B accepted records.
fn and_all_after(mut trial: Trial, offer: u64, more: u64, counts: &mut Counts, library: &mut Library) -> Result<(), String> {
    let offered = Report { minute: offer / 3, size: offer % 3 + 1 };
    trial.offer(offered, HELD, library)?.add_to(counts);
    if let Some((b, r)) = trial.spec().supply {
        if let Some(a) = (0..MINUTES).find(|&a| stretch(&trial.taken, a, r) > b) {
            return Err(format!("{r} minutes from {a} on hold more than {b} records of {:?}", trial.taken));
        }
    }
    if more == 0 {
        return Ok(());
    }
    (0..OFFERS).try_for_each(|next| and_all_after(trial.clone(), next, more - 1, counts, library))
}
