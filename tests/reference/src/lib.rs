//! An independent reference for Maxeltu, written from documents 01 and 02 alone and by brute force: every stretch is a sum, every
//! starting minute of a round is tried, every k, every gap. It shares no code and no shortcut with the library.
//!
//! Where a number is too large for the literal way there is a second, still plain way (`Reports` for `Minutes`, whole periods
//! or weeks for a walk, counting for the search of size lists, the delays of each report for the choices of all, a few reports for whole
//! rounds of two runs, a table for sums, counts of pairs and records for cycles). The tests compare the two ways on numbers that both can do.

pub mod box_plan;
pub mod cost;
pub mod cycle;
pub mod dated;
pub mod duty;
pub mod even;
pub mod feasibility;
pub mod file;
pub mod late;
pub mod leeway;
pub mod meter;
pub mod moments;
pub mod normal;
pub mod plan;
pub mod schedule;
pub mod shortest;
pub mod spec;

/// A refusal number of documents 01 and 02.
pub type Refusal = u32;

pub use cycle::Pair;
pub use plan::{Kind, Plan};
pub use spec::Spec;

/// The loader's call: "reads both, with 512 places, then checks; 0 or the first number met, the specification's first".
pub fn verdict(spec_file: &[u8], cycle_file: &[u8]) -> Refusal {
    let spec = match spec::read(spec_file) {
        Ok(spec) => spec,
        Err(refusal) => return refusal,
    };
    match file::read(cycle_file, 512) {
        Ok(pairs) => cycle::check(&spec, &pairs),
        Err(refusal) => refusal,
    }
}
