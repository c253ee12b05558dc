//! Groups of cases, run over all processors; one line a group.

use crate::library::Library;
use crate::random::Random;
use std::collections::BTreeMap;
use std::panic::{catch_unwind, AssertUnwindSafe};
use std::sync::atomic::{AtomicU64, Ordering};
use std::sync::Mutex;
use std::time::Instant;

pub struct Runner {
    pub seed: u64,
    /// How many random cases are asked for, `RUNS` being as many as each group names.
    pub runs: u64,
    pub passed: u64,
    pub failed: u64,
}

/// The runs that are asked for where the environment does not say otherwise.
pub const RUNS: u64 = 200_000;

/// What a case says: the answer it met, or how the two sides differ.
pub type Verdict = Result<u32, String>;

/// How often each answer was met.
pub type Counts = BTreeMap<u32, u64>;

/// What a case meets: one answer, or those to a list of offers.
pub trait Met {
    fn add_to(self, counts: &mut Counts);
}

impl Met for u32 {
    fn add_to(self, counts: &mut Counts) {
        *counts.entry(self).or_default() += 1;
    }
}

impl Met for Counts {
    fn add_to(self, counts: &mut Counts) {
        for (answer, times) in self {
            *counts.entry(answer).or_default() += times;
        }
    }
}

/// Deep recursion of the search for size lists needs more than a thread's usual stack.
const STACK: usize = 256 << 20;

#[derive(Default)]
struct Tally {
    answers: Counts,
    /// The failing case with the lowest number.
    failure: Option<(u64, String)>,
}

impl Tally {
    fn add(&mut self, other: Tally) {
        other.answers.add_to(&mut self.answers);
        let number = |failure: &Option<(u64, String)>| failure.as_ref().map_or(u64::MAX, |(number, _)| *number);
        if number(&other.failure) < number(&self.failure) {
            self.failure = other.failure;
        }
    }

    /// How many cases, how long, and how often each answer was met.
    fn text(&self, cases: u64, started: Instant) -> String {
        let met: Vec<String> = self.answers.iter().map(|(answer, times)| format!("{answer}:{times}")).collect();
        format!("{cases} cases, {:.1} s, answers {}", started.elapsed().as_secs_f32(), met.join(" "))
    }
}

impl Runner {
    /// Runs random cases. `cases` is how many meet every one of the answers, whatever the seed; where the environment asks for
    /// fewer runs, fewer are made and the answers are not asked for, which the group's line says.
    pub fn random<M: Met>(
        &mut self,
        name: &str,
        cases: u64,
        answers: &[u32],
        case: impl Fn(&mut Random, &mut Library) -> Result<M, String> + Sync,
    ) {
        let seed = self.seed;
        let made = (cases * self.runs / RUNS).max(1);
        let case = |number, library: &mut Library| case(&mut Random::of_case(seed, name, number), library);
        self.group(name, made, answers, cases, case);
    }

    /// Runs cases that are numbered from 0, each of them once.
    pub fn every<M: Met>(
        &mut self,
        name: &str,
        cases: u64,
        answers: &[u32],
        case: impl Fn(u64, &mut Library) -> Result<M, String> + Sync,
    ) {
        self.group(name, cases, answers, cases, case);
    }

    /// The group fails if a case does, or if, of `enough` cases, none met one of the answers: then the inputs are too tame.
    fn group<M: Met>(
        &mut self,
        name: &str,
        cases: u64,
        answers: &[u32],
        enough: u64,
        case: impl Fn(u64, &mut Library) -> Result<M, String> + Sync,
    ) {
        assert!(!answers.is_empty(), "{name}: a group says which answers it must meet");
        let started = Instant::now();
        let tally = run(cases, case);
        let missing: Vec<&u32> = answers.iter().filter(|a| !tally.answers.contains_key(a)).collect();
        let text = tally.text(cases, started);
        match &tally.failure {
            Some((case, text)) => self.report(false, name, &format!("case {case} of seed {}: {text}", self.seed)),
            None if cases < enough => self.report(true, name, &format!("{text}; answers not asked for below {enough} cases")),
            None if !missing.is_empty() => self.report(false, name, &format!("answers never met: {missing:?}; {text}")),
            None => self.report(true, name, &text),
        }
    }

    /// A group of fixed checks: each has a name and says whether it holds.
    pub fn fixed(&mut self, name: &str, checks: &[(String, bool)]) {
        match checks.iter().find(|(_, holds)| !holds) {
            _ if checks.is_empty() => self.report(false, name, "no check was made"),
            Some((check, _)) => self.report(false, name, check),
            None => self.report(true, name, &format!("{} checks", checks.len())),
        }
    }

    fn report(&mut self, passed: bool, name: &str, text: &str) {
        println!("{} {name}: {text}", if passed { "ok    " } else { "FAILED" });
        *(if passed { &mut self.passed } else { &mut self.failed }) += 1;
    }
}

/// Hands the cases out to one thread a processor.
fn run<M: Met>(cases: u64, case: impl Fn(u64, &mut Library) -> Result<M, String> + Sync) -> Tally {
    let next = AtomicU64::new(0);
    let tally = Mutex::new(Tally::default());
    let work = || {
        let mut library = Library::new();
        let mut own = Tally::default();
        loop {
            let number = next.fetch_add(1, Ordering::Relaxed);
            if number >= cases {
                break;
            }
            match catch_unwind(AssertUnwindSafe(|| case(number, &mut library))).unwrap_or_else(panicked) {
                Ok(met) => met.add_to(&mut own.answers),
                Err(text) => {
                    own.failure = Some((number, text));
                    next.store(cases, Ordering::Relaxed);
                    break;
                }
            }
        }
        tally.lock().unwrap().add(own);
    };
    let threads = std::thread::available_parallelism().map_or(2, |n| n.get());
    std::thread::scope(|scope| {
        for _ in 0..threads {
            std::thread::Builder::new().stack_size(STACK).spawn_scoped(scope, work).expect("a thread");
        }
    });
    tally.into_inner().unwrap()
}

fn panicked<M>(cause: Box<dyn std::any::Any + Send>) -> Result<M, String> {
    let text = cause.downcast_ref::<String>().map(String::as_str);
    Err(format!("panic: {}", text.or(cause.downcast_ref::<&str>().copied()).unwrap_or("?")))
}

/// The answer where both sides agree; else both sides and the input.
pub fn same<T: PartialEq + std::fmt::Debug>(answer: u32, library: T, reference: T, input: impl FnOnce() -> String) -> Verdict {
    if library == reference {
        Ok(answer)
    } else {
        Err(format!("library {library:x?}, reference {reference:x?}, input {}", input()))
    }
}
