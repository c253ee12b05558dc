//! The tables of docs/LEEWAY.md: how often each way finds a plan for random consistent specifications, and how late the reports of its
//! cycle may be.

use crate::both_rates;
use crate::calls::LIBRARY;
use crate::random::Random;
use reference::{spec, Pair};

/// What the numbers of a specification are drawn from, each by itself and all equally likely.
struct Draw {
    name: &'static str,
    sizes: (u64, u64),
    gaps: (u64, u64),
    records: (u64, u64),
    windows: (u64, u64),
}

const DRAWS: [Draw; 2] = [
    Draw { name: "After document 000", sizes: (1, 50), gaps: (1, 20_160), records: (1, 50), windows: (1, 20_160) },
    Draw { name: "As a van's may be", sizes: (1, 50), gaps: (1, 240), records: (1, 2_000), windows: (60, 10_080) },
];

impl Draw {
    /// A specification's file.
    fn any(&self, random: &mut Random) -> Vec<u8> {
        let mut two = |first: (u64, u64), second: (u64, u64)| {
            let number = random.between(first.0, first.1);
            (number, random.between(second.0, second.1))
        };
        let (size, gap) = (two(self.sizes, self.sizes), two(self.gaps, self.gaps));
        let (supply, demand) = (two(self.records, self.windows), two(self.records, self.windows));
        spec::write(&both_rates(size, gap, supply, demand))
    }

    /// One that is consistent, and how many with their bounds in order were drawn for it.
    fn consistent(&self, random: &mut Random) -> (Vec<u8>, u64) {
        let mut in_order = 0;
        loop {
            let file = self.any(random);
            let answer = LIBRARY.consistency(&file);
            in_order += u64::from(answer != 4);
            if answer == 0 {
                return (file, in_order);
            }
        }
    }
}

const WAYS: [&str; 4] = ["the test", "the even plan", "the box plan", "the most tolerant plan"];

/// A plan as a call takes it: its kind by number, and k, period and total.
type Plan = (u32, [u32; 3]);

/// What each way finds.
fn plans(file: &[u8]) -> [Option<Plan>; 4] {
    let (answer, _, plan) = LIBRARY.tolerant_plan(file);
    let found = [LIBRARY.test(file), LIBRARY.even_plan(file), LIBRARY.box_plan(file, 0), (answer, plan)];
    let kinds = [0, 1, 1, 1];
    std::array::from_fn(|way| (found[way].0 == 0).then_some((kinds[way], found[way].1)))
}

/// How late the reports of a plan's cycle may be, where it is one that a box can load.
fn tolerance(file: &[u8], (kind, numbers): Plan) -> Option<u32> {
    let mut pairs = [Pair { gap: 0, size: 0 }; 512];
    let mut bytes = [0; 2_562];
    let cycle = pairs.get_mut(..numbers[0] as usize)?;
    let written = LIBRARY.write_plan(kind, numbers, &mut bytes) as usize;
    assert_eq!(LIBRARY.read_cycle(&bytes[..written], cycle), 0);
    let (answer, lateness) = LIBRARY.tolerance(file, cycle);
    assert_eq!(answer, 0);
    Some(lateness)
}

/// What one way found.
#[derive(Default)]
struct Tally {
    plans: usize,
    /// Of the cycles that a box can load.
    tolerances: Vec<u32>,
    /// Each in parts of the most tolerant plan's, where that is not 0.
    shares: Vec<f64>,
}

impl Tally {
    fn add(&mut self, found: bool, tolerance: Option<u32>, greatest: Option<u32>) {
        self.plans += usize::from(found);
        let Some(lateness) = tolerance else { return };
        self.tolerances.push(lateness);
        if let Some(greatest) = greatest.filter(|&greatest| greatest > 0) {
            self.shares.push(f64::from(lateness) / f64::from(greatest));
        }
    }

    /// A row of the table, of so many specifications.
    fn print(&mut self, name: &str, specifications: usize) {
        self.tolerances.sort_unstable();
        let loaded = self.tolerances.len();
        let late_by = |lateness| loaded - self.tolerances.partition_point(|&tolerance| tolerance < lateness);
        let columns = [
            percent(self.plans, specifications),
            percent(loaded, specifications),
            percent(late_by(1), loaded),
            percent(late_by(1_440), loaded),
            self.tolerances.get(loaded / 2).map_or_else(String::new, |&median| thousands(median as usize)),
            format!("{:.1} %", 100.0 * self.shares.iter().sum::<f64>() / self.shares.len() as f64),
        ];
        println!("| {name} | {} |", columns.join(" | "));
    }
}

fn percent(part: usize, whole: usize) -> String {
    format!("{:.1} %", 100.0 * part as f64 / whole as f64)
}

fn thousands(number: usize) -> String {
    match number {
        0..=999 => number.to_string(),
        _ => format!("{},{:03}", thousands(number / 1_000), number % 1_000),
    }
}

/// What all of them found.
#[derive(Default)]
struct Survey {
    /// Specifications with their bounds in order, of which the consistent ones were asked about.
    drawn: u64,
    consistent: usize,
    tallies: [Tally; 4],
    /// For which only the plan of the test can be loaded.
    alone: usize,
    /// For which it may be later than the most tolerant plan.
    later: usize,
}

impl Survey {
    fn add(&mut self, file: &[u8], in_order: u64) {
        let found = plans(file);
        let tolerances = found.map(|plan| tolerance(file, plan?));
        let [test, _, _, greatest] = tolerances;
        self.drawn += in_order;
        self.consistent += 1;
        self.alone += usize::from(test.is_some() && greatest.is_none());
        self.later += usize::from(greatest.is_some() && test > greatest);
        for (way, tally) in self.tallies.iter_mut().enumerate() {
            tally.add(found[way].is_some(), tolerances[way], greatest);
        }
    }

    fn print(&mut self, name: &str) {
        println!(
            "| {name} ({} consistent) | finds a plan | a box can load it | reports may be late | by 1,440 minutes | \
             median tolerance | mean share |",
            percent(self.consistent, self.drawn as usize)
        );
        println!("|---|---|---|---|---|---|---|");
        for (tally, way) in self.tallies.iter_mut().zip(WAYS) {
            tally.print(way, self.consistent);
        }
        let [specifications, alone, later] = [self.consistent, self.alone, self.later].map(thousands);
        println!(
            "\nFor {alone} of {specifications} specifications a box can load the plan of the test and none with one gap; \
             for {later} of the others that of the test may be later than the most tolerant one.\n"
        );
    }
}

/// A table of so many consistent specifications for each of the draws.
pub fn all(seed: u64, specifications: usize) {
    for draw in DRAWS {
        let mut random = Random::of_case(seed, draw.name, 0);
        let mut survey = Survey::default();
        for _ in 0..specifications {
            let (file, in_order) = draw.consistent(&mut random);
            survey.add(&file, in_order);
        }
        survey.print(draw.name);
    }
}
