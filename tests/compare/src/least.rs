//! The even plan sends least (document 02, Req 10): against every endless list of sizes that obeys the rules at its gap.

use crate::calls::spec_for_search;
use crate::checks::{both_rates, demand_only, no_rates, supply_only, HELD};
use crate::group::{Runner, Verdict, RUNS};
use crate::library::Library;
use crate::samples;
use reference::even::Lists;
use reference::{spec, Spec};

pub fn all(runner: &mut Runner) {
    rows_by_hand(runner);
    runner.random("even plan, the least of any list of sizes", RUNS / 20, &[0, 1, 2, 10], |random, library| {
        least_case(&spec_for_search(random), library)
    });
}

/// What the thinnest row of some reports holds, in any list that obeys at the gap, where it may begin with report 0 and where it may not.
fn rows_by_hand(runner: &mut Runner) {
    let mut checks = vec![];
    let thin_start = samples::thin_start();
    let whole_gaps = both_rates((2, 3), (5, 5), (15, 26), (10, 20));
    for (name, spec, reports, with_0, without_0) in [
        // The first 7 minutes have two reports, so that report 0 need not hold 3 records; every later 7 may have one alone.
        ("P of a gap and a part", &thin_start, 1, 1, 3),
        ("P of a gap and a part, two reports", &thin_start, 2, 4, 6),
        ("P of a gap and a part, seven reports", &thin_start, 7, 19, 21),
        // Where P is a multiple of the gap, 20 minutes have four reports wherever they begin.
        ("sample B with 15, a round", &whole_gaps, 4, 10, 10),
        ("sample B with 15, three rounds", &whole_gaps, 12, 30, 30),
        ("sample B with 15, no round", &whole_gaps, 0, 0, 0),
        ("no rate: dmin each", &no_rates((2, 4), (5, 5)), 3, 6, 6),
        ("supply alone: dmin each", &supply_only((2, 4), (5, 5), (9, 20)), 3, 6, 6),
        ("m × dmin above L", &demand_only((2, 4), (5, 5), (3, 13)), 2, 4, 4),
        ("m × dmin below L", &demand_only((2, 4), (5, 5), (5, 13)), 2, 4, 5),
        ("three reports of which two hold L", &demand_only((2, 4), (5, 5), (5, 13)), 3, 7, 7),
        // Any six reports but the first hold 34, and five of them at most 29: so each holds 5, and report 0 may hold 3.
        ("sample A at gap 52", &both_rates((3, 10), (52, 52), (29, 220), (17, 158)), 3, 13, 17),
    ] {
        let lists = Lists::at(spec, spec.gap.0);
        let got = [0, 1].map(|from| lists.least_in_a_row(from, reports));
        checks.push((format!("{name}: {reports} reports hold {got:?}"), got == [Some(with_0), Some(without_0)]));
    }
    let none = Lists::at(&both_rates((2, 3), (5, 5), (14, 26), (10, 20)), 5);
    checks.push(("sample B with 14: no list".to_string(), !none.exist() && none.least_in_a_row(1, 0).is_none()));
    runner.fixed("reference: the least of any list of sizes", &checks);
}

/// Rounds that are looked at.
const ROUNDS: u64 = 3;

/// No list that obeys at the gap of the library's plan has j × k reports in a row, report 0 not among them, that hold fewer records than j × δ;
/// those of the plan hold just as many, wherever they begin; and at every longer gap no list obeys. It counts as 0 where k = 1, 1 where k is more, 2
/// where rows with report 0 may hold less, and 10 where there is no plan.
pub fn least_case(spec: &Spec, library: &mut Library) -> Verdict {
    let even = library.even_plan(&spec::write(spec), [0; 3]);
    let [k, period, total] = even.places.map(u64::from);
    let gap = if even.answer == 0 { period / k } else { 0 };
    if let Some(longer) = spec.gaps().take_while(|&longer| longer > gap).find(|&longer| Lists::at(spec, longer).exist()) {
        return Err(format!("the answer is {} with gap {gap}, and a list obeys at {longer}: {spec:?}", even.answer));
    }
    if even.answer != 0 {
        return Ok(even.answer);
    }
    let sizes: Vec<u64> =
        (0..(ROUNDS + 2) * k).map(|i| library.report(1, even.places, i as u32, [HELD; 3]).places[2].into()).collect();
    let lists = Lists::at(spec, gap);
    for j in 0..=ROUNDS {
        let least = lists.least_in_a_row(1, j * k);
        if least != Some(j * total) {
            return Err(format!("{j} rounds of k {k}, δ {total}, and a list that obeys has {least:?}: {spec:?}"));
        }
        let row = |i: u64| sizes[i as usize..][..(j * k) as usize].iter().sum::<u64>();
        if let Some(i) = (0..=2 * k).find(|&i| row(i) != j * total) {
            return Err(format!("{j} rounds of k {k}, δ {total}, from report {i} on hold {}: {spec:?}", row(i)));
        }
    }
    let with_report_0 = lists.least_in_a_row(0, k);
    Ok(match (with_report_0 < Some(total), k) {
        (true, _) => 2,
        (false, 1) => 0,
        (false, _) => 1,
    })
}
