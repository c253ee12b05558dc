//! Compares the static library with the reference, call by call. One line a group; the last says how many passed.
//!
//! MAXELTU_SEED and MAXELTU_RUNS in the environment change the seed (1) and the cases of each call (200,000). With fewer cases
//! the groups do not ask for the answers that they must meet otherwise, and say so.
//! `compare` alone runs all groups of the library; `compare evenplan PROGRAM` those of the program.

// A case that no group runs is a mistake.
#![deny(dead_code)]

mod box_plan_edges;
mod box_plans;
mod calls;
mod checks;
mod costs;
mod dated;
mod dated_edges;
mod duty;
mod duty_edges;
mod duty_plans;
mod edges;
mod exhaustive;
mod fence;
mod generate;
mod group;
mod late;
mod late_edges;
mod least;
mod leeway_edges;
mod library;
mod limits;
mod margins;
mod meters;
mod moments;
mod normal;
mod normal_edges;
mod offers;
mod plans;
mod program;
mod random;
mod ranges;
mod ring;
mod rounds;
mod samples;
mod shortest;
mod shortest_edges;
mod small_box_plans;
mod tables;
mod tolerances;
mod tolerant_plans;
mod written_plans;

use group::{Runner, RUNS};

fn number_from_environment(name: &str, default: u64) -> u64 {
    match std::env::var(name) {
        Ok(text) => text.parse().unwrap_or_else(|_| panic!("{name} is not a number: {text}")),
        Err(_) => default,
    }
}

fn main() {
    let seed = number_from_environment("MAXELTU_SEED", 1);
    let runs = number_from_environment("MAXELTU_RUNS", RUNS);
    let mut runner = Runner { seed, runs, passed: 0, failed: 0 };
    let arguments: Vec<String> = std::env::args().skip(1).collect();
    match arguments.iter().map(String::as_str).collect::<Vec<_>>()[..] {
        [] => {
            samples::all(&mut runner);
            limits::all(&mut runner);
            edges::all(&mut runner);
            ranges::all(&mut runner);
            rounds::all(&mut runner);
            late_edges::all(&mut runner);
            duty_edges::all(&mut runner);
            normal_edges::all(&mut runner);
            dated_edges::all(&mut runner);
            shortest_edges::all(&mut runner);
            box_plan_edges::all(&mut runner);
            leeway_edges::all(&mut runner);
            calls::reference_itself(&mut runner);
            exhaustive::all(&mut runner);
            calls::all(&mut runner);
            least::all(&mut runner);
            moments::all(&mut runner);
            costs::all(&mut runner);
            late::all(&mut runner);
            duty::all(&mut runner);
            duty_plans::all(&mut runner);
            normal::all(&mut runner);
            dated::all(&mut runner);
            shortest::all(&mut runner);
            small_box_plans::all(&mut runner);
            box_plans::all(&mut runner);
            written_plans::all(&mut runner);
            margins::all(&mut runner);
            tolerances::all(&mut runner);
            tolerant_plans::all(&mut runner);
            meters::all(&mut runner);
        }
        ["evenplan", program] => program::all(&mut runner, program.as_ref()),
        _ => panic!("usage: compare [evenplan PROGRAM]"),
    }
    println!("{} passed, {} failed", runner.passed, runner.failed);
    std::process::exit(i32::from(runner.failed > 0));
}
