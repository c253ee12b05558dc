//! What the first reports of a plan cost, and those of a cycle. The reference prices a whole round report by report, so most plans
//! here have few in a period. On plans of any size, and on cycles, the calls are held against each other, and against the sizes
//! that maxeltu_report gives.

use crate::calls::{expected, hex};
use crate::checks::{demand_only, no_rates, supply_only, with_second, HELD_BILL};
use crate::exhaustive::SmallCycles;
use crate::generate;
use crate::group::{same, Counts, Met, Runner, Verdict, RUNS};
use crate::library::{Billed, Library};
use crate::plans::{handed_to_walk, proper_plan, word, Handed, SmallPlans, LAST};
use crate::random::Random;
use reference::cost::{self, Cost, BANDS};
use reference::cycle::Cycle;
use reference::schedule::Schedule;
use reference::{spec, Pair, Plan, Refusal, Spec};

pub fn all(runner: &mut Runner) {
    runner.random("reference: costs by walk and by whole rounds", RUNS / 400, &[0, 1], two_ways_case);
    runner.every("every size: what a few reports cost", SIZES, &[0], size_case);
    runner.every("every small plan: what every number of reports costs", SMALL.plans(), &[0, 11], small_plan_case);
    runner.every("every plan of few reports at a band's end: what every number costs", AT_BANDS, &[0, 11], at_band_case);
    let checked = [0, 12, 13, 14, 15, 16];
    runner.every("every small cycle: what every number of reports costs", SMALL_CYCLES.count(), &checked, small_cycle_case);
    runner.random("cost of a plan", RUNS, &[0, 11], plan_case);
    runner.random("cost of a cycle", RUNS, &[0, 1, 2, 3, 4, 12, 13, 14, 15, 16, 24], cycle_case);
    runner.random("costs of whole rounds are a product", RUNS, &[0, 1, 10, 11], rounds_case);
    runner.random("costs of one report more, by its size", RUNS, &[0, 1, 10, 11], one_more_case);
    runner.random("a plan costs what the cycle of its reports does", RUNS / 4, &[0, 1], same_reports_case);
}

/// What a call for a cost answers, and what its places hold afterwards, as the reference has it.
pub fn billed(made: Result<Cost, Refusal>, before: [u64; 2]) -> Billed {
    expected(made.map(|cost| [cost.tenths, cost.cents]), before)
}

/// Up to so many reports are priced one by one as well as by whole rounds.
const WALKED: u64 = 300;

/// The cost by whole rounds; that by walk must agree.
fn walked(run: &impl Schedule, reports: u64, whole: Cost) -> Cost {
    if reports <= WALKED {
        assert_eq!(whole, cost::of_first_by_walk(run, reports), "two ways of the reference");
    }
    whole
}

fn plan_cost(plan: &Plan, reports: u64) -> Result<Cost, Refusal> {
    plan.cost(reports).map(|whole| walked(plan, reports, whole))
}

fn cycle_cost(spec: &Spec, pairs: &[Pair], reports: u64) -> Result<Cost, Refusal> {
    cost::of_cycle(spec, pairs, reports).map(|whole| walked(&Cycle(pairs), reports, whole))
}

/// What a plan's reports cost is the reference's.
fn compare_plan(handed: Handed, reports: u64, before: [u64; 2], library: &mut Library) -> Verdict {
    let wanted = billed(handed.plan().and_then(|plan| plan_cost(&plan, reports)), before);
    let got = library.plan_cost(handed.kind, handed.numbers(), word(reports), before);
    same(wanted.answer, got, wanted, || format!("{handed:?}, {reports} reports"))
}

/// What a cycle's reports cost is the reference's.
fn compare_cycle(file: &[u8], pairs: &[Pair], reports: u64, before: [u64; 2], library: &mut Library) -> Verdict {
    let wanted = billed(spec::read(file).and_then(|spec| cycle_cost(&spec, pairs, reports)), before);
    let got = library.cycle_cost(file, pairs, word(reports), before);
    same(wanted.answer, got, wanted, || format!("spec {} pairs {pairs:?}, {reports} reports", hex(file)))
}

/// What got a refusal gets it again where nothing can be written.
fn plan_refused_again(handed: Handed, reports: u64, answer: u32, library: &mut Library) -> Verdict {
    let got = library.refused_plan_cost(handed.kind, handed.numbers(), word(reports));
    same(answer, got, answer, || format!("{handed:?}, {reports} reports, again"))
}

fn cycle_refused_again(file: &[u8], pairs: &[Pair], reports: u64, answer: u32, library: &mut Library) -> Verdict {
    let got = library.refused_cycle_cost(file, pairs, word(reports));
    same(answer, got, answer, || format!("spec {} pairs {pairs:?}, {reports} reports, again", hex(file)))
}

/// Two of three plans get sizes at the end of a band, one below it or one above. The others mostly have sizes above 500, of one price.
fn at_a_band(random: &mut Random, handed: Handed) -> Handed {
    if random.once_in(3) {
        return handed;
    }
    let (k, end) = (handed.k, random.pick(&BANDS));
    let total = random.between(k * (end - 1), k * (end + 1)).clamp(k, 1_000 * k);
    Handed { total: total.min(LAST), ..handed }
}

/// A number of reports: none, few, about a whole number of rounds, or any.
fn some_number(random: &mut Random, round: u64) -> u64 {
    let any = random.of_any_length(32);
    let number = match random.below(6) {
        0 => random.pick(&[0, 1, LAST - 1, LAST]),
        1 | 2 => (any - any % round.max(1) + random.below(3)).saturating_sub(1),
        3 => random.below(3 * round + 2),
        _ => any,
    };
    number.min(LAST)
}

/// Any pairs whose sizes have a price, a few or many.
fn some_pairs(random: &mut Random) -> Vec<Pair> {
    let count = generate::count(random);
    let most = random.pick(&[3, 20, 150, 1_000]);
    generate::cycle_in_range(random, &no_rates((1, most), (1, 20_160)), count)
}

/// Up to 100,000 reports are walked. It counts as 1 for a cycle.
fn two_ways_case(random: &mut Random, _: &mut Library) -> Verdict {
    if random.once_in(2) {
        let pairs = some_pairs(random);
        return two_ways(random, &Cycle(&pairs), || format!("{pairs:?}")).map(|()| 1);
    }
    let (handed, _) = proper_plan(random);
    let plan = at_a_band(random, handed).plan().expect("a plan of one of the kinds");
    two_ways(random, &plan, || format!("{plan:?}")).map(|()| 0)
}

fn two_ways(random: &mut Random, run: &impl Schedule, input: impl FnOnce() -> String) -> Result<(), String> {
    let reports = some_number(random, run.reports_in_round()) % 100_000;
    let (whole, walked) = (cost::of_first(run, reports), cost::of_first_by_walk(run, reports));
    if whole != walked {
        return Err(format!("by whole rounds {whole:?}, by walk {walked:?}, {reports} reports of {}", input()));
    }
    Ok(())
}

/// Every size that a report can have.
const SIZES: u64 = 1_000;

/// A plan of one report and one of two, of either kind, and a cycle of one pair.
fn size_case(number: u64, library: &mut Library) -> Verdict {
    let size = number + 1;
    let file = spec::write(&no_rates((size, size), (5, 5)));
    let pair = Pair { gap: 5, size: size as u16 };
    for reports in 0..=12 {
        for (kind, k) in [(0, 1), (1, 1), (0, 2), (1, 2)] {
            compare_plan(Handed { kind, k, period: 2 * k, total: size * k }, reports, HELD_BILL, library)?;
        }
        compare_cycle(&file, &[pair], reports, HELD_BILL, library)?;
    }
    Ok(0)
}

/// Three periods of a proper plan, and a report more; of one that is not, none and one.
fn every_number(handed: Handed, counts: &mut Counts, library: &mut Library) -> Result<(), String> {
    let most = if handed.is_proper() { 3 * handed.k + 1 } else { 1 };
    for reports in 0..=most {
        compare_plan(handed, reports, HELD_BILL, library)?.add_to(counts);
    }
    if !handed.is_proper() {
        plan_refused_again(handed, most, 11, library)?;
    }
    Ok(())
}

const SMALL: SmallPlans = SmallPlans { counts: 9, periods: 18, totals: 60 };

fn small_plan_case(number: u64, library: &mut Library) -> Result<Counts, String> {
    let mut counts = Counts::new();
    every_number(SMALL.plan(number), &mut counts, library)?;
    Ok(counts)
}

/// Plans of 1 to this many reports, of either kind, at each band's end.
const MOST_AT_BANDS: u64 = 12;
const AT_BANDS: u64 = MOST_AT_BANDS * BANDS.len() as u64 * 2;

/// Every total from all sizes one below the end of a band to all one above it. None has a report of no record, or of 1,001.
fn at_band_case(number: u64, library: &mut Library) -> Result<Counts, String> {
    let (kind, number) = ((number % 2) as u32, number / 2);
    let (k, end) = (number % MOST_AT_BANDS + 1, BANDS[(number / MOST_AT_BANDS) as usize]);
    let mut counts = Counts::new();
    for total in k * (end - 1)..=k * (end + 1) {
        every_number(Handed { kind, k, period: k, total }, &mut counts, library)?;
    }
    Ok(counts)
}

const SMALL_CYCLES: SmallCycles = SmallCycles { pairs: 3, gaps: 2, sizes: 5 };

/// Three rounds, and a report more, against specifications that pass all of these cycles, some or none.
fn small_cycle_case(number: u64, library: &mut Library) -> Result<Counts, String> {
    let pairs = SMALL_CYCLES.cycle(number);
    let mut counts = Counts::new();
    for spec in [
        no_rates((1, 5), (1, 2)),
        no_rates((1, 4), (1, 2)),
        no_rates((2, 5), (1, 2)),
        no_rates((1, 5), (1, 1)),
        no_rates((1, 5), (2, 3)),
        with_second(&no_rates((1, 5), (1, 1)), (2, 2)),
        supply_only((1, 5), (1, 2), (7, 3)),
        demand_only((1, 5), (1, 2), (5, 3)),
    ] {
        let file = spec::write(&spec);
        let mut answer = 0;
        for reports in 0..=3 * pairs.len() as u64 + 1 {
            answer = compare_cycle(&file, &pairs, reports, HELD_BILL, library)?;
            answer.add_to(&mut counts);
        }
        if answer != 0 {
            cycle_refused_again(&file, &pairs, 0, answer, library)?;
        }
    }
    Ok(counts)
}

fn some_bill(random: &mut Random) -> [u64; 2] {
    [random.next(), random.next()]
}

/// Of so many refusals one is asked for again: to shut memory and open it takes longer than the call.
const AGAIN: u64 = 30;

fn plan_case(random: &mut Random, library: &mut Library) -> Verdict {
    let handed = handed_to_walk(random);
    let handed = at_a_band(random, handed);
    let reports = some_number(random, handed.k);
    let answer = compare_plan(handed, reports, some_bill(random), library)?;
    if answer != 0 && random.once_in(AGAIN) {
        plan_refused_again(handed, reports, answer, library)?;
    }
    Ok(answer)
}

fn cycle_case(random: &mut Random, library: &mut Library) -> Verdict {
    let (spec, pairs) = generate::spec_and_cycle(random);
    let file = if random.once_in(40) { generate::spec_file(random) } else { spec::write(&spec) };
    let reports = some_number(random, pairs.len() as u64);
    let answer = compare_cycle(&file, &pairs, reports, some_bill(random), library)?;
    if answer != 0 && random.once_in(AGAIN) {
        cycle_refused_again(&file, &pairs, reports, answer, library)?;
    }
    Ok(answer)
}

/// What has a price by the library: a proper plan, or a cycle that is passed.
#[derive(Debug)]
enum Priced {
    Plan(Handed),
    Cycle(Vec<Pair>),
}

impl Priced {
    fn some(random: &mut Random) -> Priced {
        if random.once_in(2) {
            return Priced::Cycle(some_pairs(random));
        }
        let (handed, _) = proper_plan(random);
        Priced::Plan(at_a_band(random, handed))
    }

    /// So that the cases of plans and those of cycles are counted apart.
    fn tens(&self) -> u32 {
        match self {
            Priced::Plan(_) => 0,
            Priced::Cycle(_) => 10,
        }
    }

    fn reports_in_round(&self) -> u64 {
        match self {
            Priced::Plan(handed) => handed.k,
            Priced::Cycle(pairs) => pairs.len() as u64,
        }
    }

    fn size(&self, i: u64, library: &mut Library) -> u64 {
        match self {
            Priced::Plan(handed) => handed.report(i, library).1,
            Priced::Cycle(pairs) => pairs[(i % pairs.len() as u64) as usize].size.into(),
        }
    }

    /// What the first so many reports cost, in tenths. The cents must be theirs: at most 5 tenths above them, and at most 4 below.
    fn tenths(&self, reports: u64, library: &mut Library) -> u64 {
        let got = match self {
            Priced::Plan(handed) => library.plan_cost(handed.kind, handed.numbers(), word(reports), HELD_BILL),
            Priced::Cycle(pairs) => {
                let file = spec::write(&no_rates((1, 1_000), (1, 20_160)));
                library.cycle_cost(&file, pairs, word(reports), HELD_BILL)
            }
        };
        assert_eq!(got.answer, 0, "{self:?}, {reports} reports");
        let [tenths, cents] = got.places;
        assert!((10 * cents..10 * cents + 10).contains(&(tenths + 5)), "{tenths} tenths are not {cents} cents");
        tenths
    }
}

/// "the sum over whole rounds is a product"; what is left of a round is added to it. It counts as 1 where something is.
fn rounds_case(random: &mut Random, library: &mut Library) -> Verdict {
    let priced = Priced::some(random);
    let round = priced.reports_in_round();
    let reports = some_number(random, round);
    let (rounds, rest) = (reports / round, reports % round);
    let wanted = rounds * priced.tenths(round, library) + priced.tenths(rest, library);
    let met = priced.tens() + u32::from(rest > 0);
    same(met, priced.tenths(reports, library), wanted, || format!("{priced:?}, {reports} reports"))
}

/// One report more costs what the only report of a plan of its size does. It counts as 1 where that is not what report 0 costs.
fn one_more_case(random: &mut Random, library: &mut Library) -> Verdict {
    let priced = Priced::some(random);
    let reports = some_number(random, priced.reports_in_round()).min(LAST - 1);
    let alone = Handed { kind: random.pick(&[0, 1]), k: 1, period: 1, total: priced.size(reports, library) };
    let price = Priced::Plan(alone).tenths(1, library);
    let met = priced.tens() + u32::from(price != priced.tenths(1, library));
    let wanted = priced.tenths(reports, library) + price;
    same(met, priced.tenths(reports + 1, library), wanted, || format!("{priced:?}, one more than {reports} reports"))
}

/// It counts as 1 where some report does not cost what report 0 does.
fn same_reports_case(random: &mut Random, library: &mut Library) -> Verdict {
    let handed = loop {
        let (handed, plan) = proper_plan(random);
        if plan.k <= 512 {
            break at_a_band(random, handed);
        }
    };
    let reports: Vec<(u64, u64)> = (0..=handed.k).map(|i| handed.report(i, library)).collect();
    let gaps = reports.windows(2).map(|two| two[1].0 - two[0].0);
    let pairs = gaps.zip(&reports).map(|(gap, report)| Pair { gap: gap as u16, size: report.1 as u16 }).collect();
    let (plan, cycle) = (Priced::Plan(handed), Priced::Cycle(pairs));
    let number = some_number(random, handed.k);
    let met = u32::from(plan.tenths(handed.k, library) != handed.k * plan.tenths(1, library));
    same(met, plan.tenths(number, library), cycle.tenths(number, library), || format!("{handed:?}, {number} reports"))
}
