//! The edges of document 01's conditions and rules, of document 02's way from a minute back to the report, of its prices and of
//! its meter: what is just kept, and what breaks by one. Every answer is worked out by hand from the documents, and asked of the
//! library and of the reference.

use crate::checks::{self, both_rates, demand_only, even, no_rates, supply_only, well, Checks, Offer};
use crate::group::Runner;
use reference::feasibility::Failure::{Inconsistent, Refused};
use reference::{Plan, Spec};

pub fn all(runner: &mut Runner) {
    checks::group(runner, "edges of each condition of consistency", consistency);
    checks::group(runner, "edges of k reports", k_reports);
    checks::group(runner, "edges of the test", test);
    checks::group(runner, "edges of the even plan", even_plan);
    checks::group(runner, "edges of a cycle's ranges", ranges);
    checks::group(runner, "stretches just full and just thin", stretches);
    checks::group(runner, "cycle files cut off and too long", cut_or_over);
    checks::group(runner, "minutes at, before, after and half way between reports", minutes);
    checks::group(runner, "reports just in and just out between two minutes", between);
    checks::group(runner, "sizes at a band's end, one below and one above", bands);
    checks::group(runner, "reports of two sizes at a band's end", two_sizes);
    checks::group(runner, "bills at half a cent, just below and just above", half_cents);
    checks::group(runner, "costs of whole rounds, a report less and a report more", whole_rounds);
    checks::group(runner, "offers too early, and of a size out of range", early_or_sized);
    checks::group(runner, "offers that just fit the budget", budgets);
    checks::group(runner, "offers up to the last minute", last_minutes);
    checks::group(runner, "offers where the places run out", places);
}

fn consistency(checks: &mut Checks) {
    let lasting = |tmin, spec| Spec { duration: Some((tmin, 60_000)), ..spec };
    let rows = [
        // 3: dmax ≤ B
        ("dmax = B", both_rates((2, 10), (5, 20), (10, 60), (5, 60)), None),
        ("dmax one above B", both_rates((2, 11), (5, 20), (10, 60), (5, 60)), Some(3)),
        ("B one below dmax", both_rates((2, 10), (5, 20), (9, 60), (5, 60)), Some(3)),
        ("dmax = B, no demand", supply_only((2, 10), (5, 20), (10, 60)), None),
        ("dmax one above B, no demand", supply_only((2, 11), (5, 20), (10, 60)), Some(3)),
        ("dmax 1,000, no supply", demand_only((2, 1_000), (5, 20), (5, 60)), None),
        // 3: smax ≤ P
        ("smax = P", both_rates((2, 10), (5, 60), (10, 60), (5, 60)), None),
        ("smax one above P", both_rates((2, 10), (5, 61), (10, 60), (5, 60)), Some(3)),
        ("P one below smax", both_rates((2, 10), (5, 60), (10, 60), (5, 59)), Some(3)),
        ("smax = P, no supply", demand_only((2, 10), (5, 60), (5, 60)), None),
        ("smax one above P, no supply", demand_only((2, 10), (5, 61), (5, 60)), Some(3)),
        ("smax 20,160, no demand", supply_only((2, 10), (5, 20_160), (10, 60)), None),
        // 3: P ≤ Tmin
        ("P = Tmin", lasting(60, both_rates((2, 10), (5, 20), (10, 60), (5, 60))), None),
        ("P one above Tmin", lasting(60, both_rates((2, 10), (5, 20), (10, 60), (5, 61))), Some(3)),
        ("Tmin one below P", lasting(59, both_rates((2, 10), (5, 20), (10, 60), (5, 60))), Some(3)),
        ("P = Tmin, no supply", lasting(60, demand_only((2, 10), (5, 20), (5, 60))), None),
        ("P one above Tmin, no supply", lasting(60, demand_only((2, 10), (5, 20), (5, 61))), Some(3)),
        ("Tmin one below P, no supply", lasting(59, demand_only((2, 10), (5, 20), (5, 60))), Some(3)),
        ("Tmin 1, no demand", lasting(1, supply_only((2, 10), (5, 20), (10, 60))), None),
        ("Tmin 1, no rate", lasting(1, no_rates((2, 10), (5, 20))), None),
        // 4: dmin × ⌈R/smax⌉ ≤ B
        ("2 × 3 reports = B", both_rates((2, 6), (5, 20), (6, 60), (4, 60)), None),
        ("2 × 3 reports, B one less", both_rates((2, 5), (5, 20), (5, 60), (4, 60)), Some(4)),
        ("3 × 3 reports", both_rates((3, 6), (5, 20), (6, 60), (4, 60)), Some(4)),
        ("2 × 4 reports, R one above 3 gaps", both_rates((2, 6), (5, 20), (6, 61), (4, 60)), Some(4)),
        ("2 × 4 reports, R one below 4 gaps", both_rates((2, 6), (5, 20), (6, 79), (4, 60)), Some(4)),
        ("2 × 4 reports, R of 4 gaps", both_rates((2, 6), (5, 20), (6, 80), (4, 60)), Some(4)),
        ("2 × 4 reports = B, R one above 3 gaps", both_rates((2, 8), (5, 20), (8, 61), (4, 60)), None),
        ("2 × 4 reports = B, R of 4 gaps", both_rates((2, 8), (5, 20), (8, 80), (4, 60)), None),
        ("2 × 5 reports, R one above 4 gaps", both_rates((2, 8), (5, 20), (8, 81), (4, 60)), Some(4)),
        ("2 × 4 reports, smax one less", both_rates((2, 6), (5, 19), (6, 60), (4, 60)), Some(4)),
        ("one report, R of one gap", both_rates((6, 6), (5, 20), (6, 20), (4, 60)), None),
        ("two reports, R one above one gap", both_rates((6, 6), (5, 20), (6, 21), (4, 60)), Some(4)),
        ("1 × 20,000 reports = B", both_rates((1, 1), (1, 1), (20_000, 20_000), (1, 1)), None),
        ("1 × 20,001 reports", both_rates((1, 1), (1, 1), (20_000, 20_001), (1, 1)), Some(4)),
        ("1,000 × 20,160 reports", both_rates((1_000, 1_000), (1, 1), (20_000, 20_160), (1, 1)), Some(4)),
        ("2 × 3 reports = B, no demand", supply_only((2, 6), (5, 20), (6, 60)), None),
        ("2 × 3 reports, B one less, no demand", supply_only((2, 5), (5, 20), (5, 60)), Some(4)),
        ("2 × 4 reports, R one above 3 gaps, no demand", supply_only((2, 6), (5, 20), (6, 61)), Some(4)),
        ("1,000 records a minute, no supply", demand_only((1_000, 1_000), (1, 1), (20_000, 20_160)), None),
        // 5: ⌈L/dmax⌉ ≤ ⌊P/smin⌋
        ("12 of 12 reports", both_rates((2, 10), (5, 20), (100, 10), (120, 60)), None),
        ("13 of 12 reports, L one more", both_rates((2, 10), (5, 20), (100, 10), (121, 60)), Some(5)),
        ("12 of 11 reports, P one less", both_rates((2, 10), (5, 20), (100, 10), (120, 59)), Some(5)),
        ("11 of 11 reports", both_rates((2, 10), (5, 20), (100, 10), (110, 59)), None),
        ("12 of 10 reports, smin one more", both_rates((2, 10), (6, 20), (100, 10), (120, 60)), Some(5)),
        ("14 of 12 reports, dmax one less", both_rates((2, 9), (5, 20), (100, 10), (120, 60)), Some(5)),
        ("12 of 12 reports, no supply", demand_only((2, 10), (5, 20), (120, 60)), None),
        ("13 of 12 reports, no supply", demand_only((2, 10), (5, 20), (121, 60)), Some(5)),
        // 6: B × P ≥ L × R
        ("10 × 60 = 20 × 30", both_rates((2, 10), (5, 20), (10, 30), (20, 60)), None),
        ("L one more", both_rates((2, 10), (5, 20), (10, 30), (21, 60)), Some(6)),
        ("R one more", both_rates((2, 10), (5, 20), (10, 31), (20, 60)), Some(6)),
        ("B one less", both_rates((2, 9), (5, 20), (9, 30), (20, 60)), Some(6)),
        ("P one less", both_rates((2, 10), (5, 20), (10, 30), (20, 59)), Some(6)),
        ("256 × 256 one above 255 × 257", both_rates((2, 10), (5, 20), (256, 257), (255, 256)), None),
        ("255 × 257 one below 256 × 256", both_rates((2, 10), (5, 20), (255, 256), (256, 257)), Some(6)),
        ("all at the top", both_rates((1, 1_000), (1, 20_159), (20_000, 20_160), (20_000, 20_160)), None),
        ("all at the top, P one less", both_rates((1, 1_000), (1, 20_159), (20_000, 20_160), (20_000, 20_159)), Some(6)),
        ("all at the top, B one less", both_rates((1, 1_000), (1, 20_159), (19_999, 20_160), (20_000, 20_160)), Some(6)),
        // Where several fail, the first is named.
        ("3 and 4 fail", both_rates((6, 11), (5, 20), (10, 60), (5, 60)), Some(3)),
        ("3 and 5 fail", both_rates((2, 10), (5, 61), (100, 10), (121, 60)), Some(3)),
        ("3 and 6 fail", both_rates((2, 11), (5, 20), (10, 30), (21, 60)), Some(3)),
        ("3 to 6 fail", both_rates((6, 11), (5, 20), (10, 60), (133, 60)), Some(3)),
        ("4 and 6 fail", both_rates((2, 5), (5, 20), (5, 60), (6, 60)), Some(4)),
        ("4 to 6 fail", both_rates((2, 5), (5, 20), (5, 60), (61, 60)), Some(4)),
        ("5 and 6 fail", both_rates((2, 10), (5, 20), (10, 30), (121, 60)), Some(5)),
    ];
    for (name, spec, condition) in rows {
        checks.consistency(name, &spec, condition);
        // The test names the same condition, after an absent rate.
        if spec.supply.is_none() || spec.demand.is_none() {
            checks.test(name, &spec, Err(Refused(5)));
        } else if let Some(condition) = condition {
            checks.test(name, &spec, Err(Inconsistent(condition)));
        }
    }
}

fn k_reports(checks: &mut Checks) {
    // k × smin ≤ P leaves k up to 6, k × dmax ≥ L from 4.
    let demand = both_rates((2, 5), (4, 9), (100, 30), (20, 24));
    for (k, wanted) in [
        (0, Err(6)),
        (3, Err(6)),
        (4, Ok([24, 20, 25])),
        (5, Ok([24, 20, 28])),
        (6, Ok([24, 20, 28])),
        (7, Err(6)),
        // k × smin is 2^32.
        (1 << 30, Err(6)),
        (u32::MAX, Err(6)),
    ] {
        checks.min_demand("k from 4 to 6", &demand, k, wanted);
    }
    for (name, spec, k, wanted) in [
        ("P one less", both_rates((2, 5), (4, 9), (100, 30), (20, 23)), 6, Err(6)),
        ("L one more", both_rates((2, 5), (4, 9), (100, 30), (21, 24)), 4, Err(6)),
        // A report at minute 24 is in the first 25 minutes and not in the first 24.
        ("R up to the next period", both_rates((2, 5), (4, 9), (100, 24), (20, 24)), 4, Ok([24, 20, 20])),
        ("R one more", both_rates((2, 5), (4, 9), (100, 25), (20, 24)), 4, Ok([24, 20, 25])),
        ("k × smax below P", both_rates((2, 5), (4, 5), (100, 30), (20, 24)), 4, Ok([20, 20, 30])),
        ("k × dmin above L", both_rates((6, 9), (4, 9), (100, 30), (20, 24)), 4, Ok([24, 24, 30])),
        ("the largest k", both_rates((1, 1), (1, 1), (20_000, 20_160), (20_000, 20_160)), 20_160, Ok([20_160, 20_160, 20_160])),
        ("past the largest k", both_rates((1, 1), (1, 1), (20_000, 20_160), (20_000, 20_160)), 20_161, Err(6)),
        ("the most reports needed", both_rates((1, 1), (1, 1), (1, 1), (20_000, 20_160)), 20_000, Ok([20_000, 20_000, 1])),
        ("one too few", both_rates((1, 1), (1, 1), (1, 1), (20_000, 20_160)), 19_999, Err(6)),
        ("no supply", demand_only((2, 5), (4, 9), (20, 24)), 0, Err(5)),
        ("no demand", supply_only((2, 5), (4, 9), (100, 30)), 0, Err(5)),
    ] {
        checks.min_demand(name, &spec, k, wanted);
    }
    // k × smax ≥ R leaves k from 3, k × dmin ≤ B up to 6.
    let supply = both_rates((2, 5), (4, 9), (12, 27), (5, 20));
    for (k, wanted) in [
        (0, Err(6)),
        (2, Err(6)),
        (3, Ok([27, 12, 8])),
        (6, Ok([27, 12, 8])),
        (7, Err(6)),
        // k × dmin is 2^32.
        (1 << 31, Err(6)),
        (u32::MAX, Err(6)),
    ] {
        checks.max_supply("k from 3 to 6", &supply, k, wanted);
    }
    for (name, spec, k, wanted) in [
        ("R one more", both_rates((2, 5), (4, 9), (12, 28), (5, 20)), 3, Err(6)),
        ("B one less", both_rates((2, 5), (4, 9), (11, 27), (5, 20)), 6, Err(6)),
        // Reports 9 minutes apart: 18 minutes always hold two, 17 may hold one.
        ("P of two gaps", both_rates((2, 5), (4, 9), (12, 27), (5, 18)), 3, Ok([27, 12, 8])),
        ("P one less", both_rates((2, 5), (4, 9), (12, 27), (5, 17)), 3, Ok([27, 12, 4])),
        // Sizes 3, 3, 3, 3, 2, 2, 2, 2, of which 20 minutes hold five: at least 3 + 4 × 2.
        ("k × smin above R", both_rates((2, 5), (4, 9), (20, 27), (5, 20)), 8, Ok([32, 20, 11])),
        ("k × dmax below B", both_rates((2, 5), (4, 9), (20, 27), (5, 20)), 3, Ok([27, 15, 10])),
        ("the largest k", both_rates((1, 1), (1, 2), (20_000, 20_160), (1, 20_160)), 20_000, Ok([20_160, 20_000, 20_000])),
        ("past the largest k", both_rates((1, 1), (1, 2), (20_000, 20_160), (1, 20_160)), 20_001, Err(6)),
        ("the fewest reports", both_rates((1, 1), (1, 2), (20_000, 20_160), (1, 20_160)), 10_080, Ok([20_160, 10_080, 10_080])),
        ("one too few", both_rates((1, 1), (1, 2), (20_000, 20_160), (1, 20_160)), 10_079, Err(6)),
        ("no supply", demand_only((2, 5), (4, 9), (5, 20)), 0, Err(5)),
        ("no demand", supply_only((2, 5), (4, 9), (12, 27)), 0, Err(5)),
    ] {
        checks.max_supply(name, &spec, k, wanted);
    }
}

fn test(checks: &mut Checks) {
    for (name, spec, wanted) in [
        // With k 2, 3 and 4 a period is 8 minutes and 4 records.
        ("R = P, least required, smallest k", both_rates((1, 4), (2, 4), (6, 8), (4, 8)), Ok([2, 8, 4, 4])),
        ("R = P, required = B", both_rates((1, 4), (2, 4), (4, 8), (4, 8)), Ok([2, 8, 4, 4])),
        // With k 2, 3 and 4 any 8 minutes hold a period, of 6 records; with 5 and 6 they may hold 4.
        ("R one below P, greatest available, smallest k", both_rates((1, 4), (2, 4), (6, 7), (4, 8)), Ok([2, 7, 6, 6])),
        ("R one below P, available = L", both_rates((1, 4), (2, 4), (4, 7), (4, 8)), Ok([2, 7, 4, 4])),
        // The k with a schedule are from ⌈R/smax⌉ to ⌊B/dmin⌋, or from ⌈L/dmax⌉ to ⌊P/smin⌋: here 3 alone, with conditions 4 and 5 just kept.
        ("R below P, only k 3", both_rates((5, 5), (4, 4), (15, 10), (5, 20)), Ok([3, 12, 15, 25])),
        ("R = P, only k 3", both_rates((1, 5), (4, 4), (15, 12), (15, 12)), Ok([3, 12, 15, 15])),
        // Only k 2 has a schedule, of two reports of 5 in 90 minutes: three of them in any 159.
        ("sample C, available = L", both_rates((5, 6), (45, 46), (10, 79), (15, 159)), Ok([2, 90, 10, 15])),
        ("sample C, L one above available", both_rates((5, 6), (45, 46), (10, 79), (16, 159)), Err(Refused(9))),
    ] {
        checks.test(name, &spec, wanted);
    }
}

fn even_plan(checks: &mut Checks) {
    for (name, spec, wanted) in [
        // Demand absent: k 1, the period is the gap, the total dmin.
        ("no rate: the longest gap", no_rates((3, 10), (5, 20)), Ok([20, 1, 3])),
        ("supply alone: the longest gap", supply_only((3, 10), (5, 20), (9, 50)), Ok([20, 1, 3])),
        ("supply alone, 3 reports of 3 = B", supply_only((3, 10), (5, 17), (9, 50)), Ok([17, 1, 3])),
        ("supply alone, B one less", supply_only((3, 10), (5, 17), (8, 50)), Err(10)),
        ("supply alone, dmin one more", supply_only((4, 10), (5, 17), (9, 50)), Err(10)),
        ("supply alone, R of 3 gaps", supply_only((3, 10), (5, 17), (9, 51)), Ok([17, 1, 3])),
        ("supply alone, R one more", supply_only((3, 10), (5, 17), (9, 52)), Err(10)),
        ("supply alone, smax one less", supply_only((3, 10), (5, 16), (9, 50)), Err(10)),
        // Demand alone.
        ("4 reports of 10 = L", demand_only((3, 10), (5, 20), (40, 70)), Ok([17, 4, 40])),
        ("L one more", demand_only((3, 10), (5, 20), (41, 70)), Ok([14, 5, 41])),
        ("L one more, no gap so short", demand_only((3, 10), (15, 20), (41, 70)), Err(10)),
        ("P of 4 gaps", demand_only((3, 10), (5, 20), (40, 68)), Ok([17, 4, 40])),
        ("P one less", demand_only((3, 10), (5, 20), (40, 67)), Ok([16, 4, 40])),
        ("P of one gap", demand_only((3, 10), (20, 20), (1, 20)), Ok([20, 1, 3])),
        ("P below every gap", demand_only((3, 10), (20, 20), (1, 19)), Err(10)),
        ("m × dmin one above L", demand_only((3, 10), (5, 20), (8, 70)), Ok([20, 3, 9])),
        ("m × dmin = L", demand_only((3, 10), (5, 20), (9, 70)), Ok([20, 3, 9])),
        ("m × dmin one below L", demand_only((3, 10), (5, 20), (10, 70)), Ok([20, 3, 10])),
        // Both rates. At gap 20, 19 and 18 both windows hold 3 reports, at 17 the longer one 4 and the shorter 3.
        ("both, m × dmin above L", both_rates((3, 10), (5, 20), (9, 50), (8, 70)), Ok([20, 3, 9])),
        ("both, L above m × dmin", both_rates((3, 10), (5, 20), (10, 50), (10, 70)), Ok([20, 3, 10])),
        ("both, B one less: a shorter gap", both_rates((3, 10), (5, 20), (9, 50), (10, 70)), Ok([17, 4, 12])),
        ("both, B two less", both_rates((3, 10), (5, 20), (8, 50), (10, 70)), Err(10)),
    ] {
        checks.even(name, &spec, wanted);
    }
    // Consistency is no condition: dmax is above B in a specification that has its plan above.
    checks.consistency("both, m × dmin above L", &both_rates((3, 10), (5, 20), (9, 50), (8, 70)), Some(3));
}

fn ranges(checks: &mut Checks) {
    let spec = no_rates((3, 7), (5, 9));
    let rows: [(&str, &[(u16, u16)], u32); 16] = [
        ("gap smin, size dmin", &[(5, 3)], 0),
        ("gap smax, size dmax", &[(9, 7)], 0),
        ("gap one below smin", &[(4, 3)], 13),
        ("gap one above smax", &[(10, 3)], 13),
        ("gap 0", &[(0, 3)], 13),
        ("gap 65,535", &[(65_535, 3)], 13),
        ("size one below dmin", &[(5, 2)], 14),
        ("size one above dmax", &[(5, 8)], 14),
        ("size 0", &[(5, 0)], 14),
        ("size 65,535", &[(5, 65_535)], 14),
        ("last gap one below smin", &[(5, 3), (9, 7), (4, 3)], 13),
        ("last gap one above smax", &[(5, 3), (9, 7), (10, 3)], 13),
        ("last size one below dmin", &[(5, 3), (9, 7), (5, 2)], 14),
        ("last size one above dmax", &[(5, 3), (9, 7), (5, 8)], 14),
        ("a size, and a gap after it", &[(5, 2), (4, 3)], 13),
        ("both ends of both ranges", &[(5, 7), (9, 3), (9, 7), (5, 3)], 0),
    ];
    for (name, pairs, wanted) in rows {
        checks.cycle(name, &spec, pairs, wanted);
    }
    // Both rates are broken as well; the ranges come first.
    let rated = both_rates((3, 7), (5, 9), (1, 20), (100, 20));
    checks.cycle("gap before stretches", &rated, &[(0, 3)], 13);
    checks.cycle("size before stretches", &rated, &[(5, 2)], 14);
    checks.cycle("full before thin", &rated, &[(5, 3)], 15);
}

fn stretches(checks: &mut Checks) {
    let full = |b, r| supply_only((1, 9), (1, 20), (b, r));
    let thin = |l, p| demand_only((1, 9), (1, 20), (l, p));
    let one = [(5, 3)];
    let two = [(5, 3), (5, 4)];
    // The last and the first report of a round, side by side across the seam, are the largest or the smallest.
    let large_ends = [(5, 7), (5, 1), (5, 1), (5, 7)];
    let small_ends = [(5, 1), (5, 7), (5, 7), (5, 1)];
    // The gap across the seam is the shortest (minutes 0, 9, 18, 20) or the longest (0, 2, 4, 13).
    let short_seam = [(9, 3), (9, 3), (2, 3)];
    let long_seam = [(2, 3), (2, 3), (9, 3)];
    let mut longest = [(5, 1); 512];
    (longest[0].1, longest[511].1) = (7, 7);
    let rows: [(&str, Spec, &[(u16, u16)], u32); 33] = [
        ("2 reports of 3", full(6, 10), &one, 0),
        ("2 reports of 3, B one less", full(5, 10), &one, 15),
        ("3 reports of 3, R one more", full(6, 11), &one, 15),
        ("3 reports of 3", full(9, 11), &one, 0),
        ("3 reports of 3, B one less", full(8, 11), &one, 15),
        ("2 reports of 3", thin(6, 10), &one, 0),
        ("2 reports of 3, L one more", thin(7, 10), &one, 16),
        ("1 report of 3, P one less", thin(6, 9), &one, 16),
        ("1 report of 3", thin(3, 9), &one, 0),
        ("1 report of 3, L one more", thin(4, 9), &one, 16),
        ("7 + 7 across the seam", full(14, 6), &large_ends, 0),
        ("7 + 7 across the seam, B one less", full(13, 6), &large_ends, 15),
        ("1 + 1 across the seam", thin(2, 10), &small_ends, 0),
        ("1 + 1 across the seam, L one more", thin(3, 10), &small_ends, 16),
        ("3 + 3 across a short seam", full(6, 3), &short_seam, 0),
        ("3 + 3 across a short seam, B one less", full(5, 3), &short_seam, 15),
        ("R one less", full(5, 2), &short_seam, 0),
        ("3 across a long seam", thin(3, 9), &long_seam, 0),
        ("3 across a long seam, L one more", thin(4, 9), &long_seam, 16),
        ("none across a long seam, P one less", thin(1, 8), &long_seam, 16),
        ("7 + 7 across the seam of 512 pairs", full(14, 6), &longest, 0),
        ("7 + 7 across the seam of 512 pairs, B one less", full(13, 6), &longest, 15),
        // Stretches of two rounds and more.
        ("4 + 3 + 4 + 3 + 4", full(18, 25), &two, 0),
        ("4 + 3 + 4 + 3 + 4, B one less", full(17, 25), &two, 15),
        ("three rounds, R one more", full(21, 26), &two, 0),
        ("three rounds, B one less", full(20, 26), &two, 15),
        ("3 + 4 + 3 + 4 + 3", thin(17, 29), &two, 0),
        ("3 + 4 + 3 + 4 + 3, L one more", thin(18, 29), &two, 16),
        ("three rounds, P one more", thin(21, 30), &two, 0),
        ("three rounds, L one more", thin(22, 30), &two, 16),
        ("15 before 16", both_rates((1, 9), (1, 20), (5, 10), (7, 10)), &one, 15),
        ("16 where B is kept", both_rates((1, 9), (1, 20), (6, 10), (7, 10)), &one, 16),
        ("both just kept", both_rates((1, 9), (1, 20), (6, 10), (6, 10)), &one, 0),
    ];
    for (name, spec, pairs, wanted) in rows {
        checks.cycle(name, &spec, pairs, wanted);
    }
    // The longest gap with the longest window, and the shortest with the most records.
    let full = |b, r| supply_only((1, 1_000), (1, 20_160), (b, r));
    let thin = |l, p| demand_only((1, 1_000), (1, 20_160), (l, p));
    for (name, spec, pair, wanted) in [
        ("1,000 in 20,160 minutes", full(1_000, 20_160), (20_160, 1_000), 0),
        ("1,000 in 20,160 minutes, B one less", full(999, 20_160), (20_160, 1_000), 15),
        ("1,000 in 20,160 minutes", thin(1_000, 20_160), (20_160, 1_000), 0),
        ("1,000 in 20,160 minutes, L one more", thin(1_001, 20_160), (20_160, 1_000), 16),
        ("none in 20,159 minutes", thin(1, 20_159), (20_160, 1_000), 16),
        ("20,000 in 20,000 minutes", full(20_000, 20_000), (1, 1), 0),
        ("20,000 in 20,000 minutes, B one less", full(19_999, 20_000), (1, 1), 15),
        ("20,001 in 20,001 minutes", full(20_000, 20_001), (1, 1), 15),
        ("20,000 in 20,000 minutes", thin(20_000, 20_000), (1, 1), 0),
        ("19,999 in 19,999 minutes", thin(20_000, 19_999), (1, 1), 16),
    ] {
        checks.cycle(name, &spec, &[pair], wanted);
    }
}

fn cut_or_over(checks: &mut Checks) {
    let spec = no_rates((2, 3), (5, 6));
    let whole = [0, 2, 3, 0, 5, 0, 3, 3, 0, 6, 0, 2];
    let pairs = [(5, 3), (6, 2)];
    let longest = [vec![2, 0], [3, 0, 5, 0, 3, 3, 0, 6, 0, 2].repeat(256)].concat();
    for (name, file, pairs) in [("two pairs", &whole[..], &pairs[..]), ("512 pairs", &longest, &pairs.repeat(256))] {
        checks.verdict(name, &spec, file, 0);
        checks.read(name, file, pairs.len(), Ok(pairs));
        for length in 0..file.len() {
            checks.verdict(&format!("{name}, {length} bytes of them"), &spec, &file[..length], 18);
            checks.read(&format!("{name}, {length} bytes of them"), &file[..length], 512, Err(18));
        }
        // Bytes that could be a map, a pair, the file once more, and more than any file has.
        for over in [&[0][..], &[3], &[255], &[1, 0, 5], file, &[0; 5_000]] {
            let name = format!("{name} and {} bytes over", over.len());
            checks.verdict(&name, &spec, &[file, over].concat(), 21);
            checks.read(&name, &[file, over].concat(), 512, Err(21));
        }
    }
    // What comes before 21.
    let rows: [(&str, &[u8], usize, u32); 7] = [
        ("no pair", &[0, 0, 3], 512, 12),
        ("513 pairs", &[2, 1, 3], 512, 12),
        ("too few places", &[0, 2, 3, 0, 5, 0, 3, 3, 0, 6, 0, 2, 0], 1, 20),
        ("a first pair without its size", &[0, 1, 1, 0, 5, 0], 512, 17),
        ("a last map with bit 2", &[0, 2, 3, 0, 5, 0, 3, 7, 0, 6, 0, 2, 0], 512, 17),
        ("a last gap repeated", &[0, 2, 3, 0, 5, 0, 3, 3, 0, 5, 0, 2, 0], 512, 19),
        ("a last size repeated", &[0, 2, 3, 0, 5, 0, 3, 2, 0, 3, 0], 512, 19),
    ];
    for (name, file, places, wanted) in rows {
        checks.read(&format!("{name}, and bytes over"), file, places, Err(wanted));
    }
}

const LAST: u32 = u32::MAX;

fn minutes(checks: &mut Checks) {
    // Gaps 3, 4: minutes 0, 3, 7, 10, 14. Gaps 1, 2: minutes 0, 1, 3, 4, 6. The halves of the longer ones are minutes.
    let by_minute: [(Plan, &[(u64, u64)]); 5] = [
        (
            well(2, 7, 5),
            &[(0, 0), (0, 0), (0, 1), (1, 1), (1, 1), (1, 1), (1, 2), (2, 2), (2, 2), (2, 3), (3, 3), (3, 3), (3, 3)],
        ),
        (well(2, 3, 5), &[(0, 0), (1, 1), (1, 1), (2, 2), (3, 3), (3, 3), (4, 4)]),
        (even(2, 8, 5), &[(0, 0), (0, 0), (0, 0), (0, 1), (1, 1), (1, 1), (1, 1), (1, 2), (2, 2), (2, 2), (2, 2), (2, 3)]),
        (even(1, 2, 1), &[(0, 0), (0, 0), (1, 1), (1, 1), (2, 2)]),
        (even(3, 3, 3), &[(0, 0), (1, 1), (2, 2), (3, 3), (4, 4)]),
    ];
    for (plan, wanted) in by_minute {
        for (minute, &wanted) in (0..).zip(wanted) {
            checks.minute(&format!("{plan:?}"), plan, minute, wanted);
        }
    }
    // 2^32 − 1 is 20,160 × 213,044 + 255, 20,001 × 214,737 + 12,558, 158 × 27,183,337 + 49, 3 × 1,431,655,765, and odd.
    let last = u64::from(LAST);
    let far = [
        ("gap 1", well(1, 1, 1), LAST, (last, last)),
        ("gap 1", well(1, 1, 1), LAST - 1, (last - 1, last - 1)),
        ("gap 1, the largest k", well(20_160, 20_160, 20_160), LAST, (last, last)),
        ("even, gap 1", even(1, 1, 1_000), LAST, (last, last)),
        ("even, gap 1, the largest k", even(20_160, 20_160, 20_160_000), LAST, (last, last)),
        ("gap 2, half way to minute 2^32", well(1, 2, 1), LAST, (2_147_483_647, 2_147_483_647)),
        ("even, gap 2, half way to minute 2^32", even(5, 10, 5), LAST, (2_147_483_647, 2_147_483_647)),
        ("gap 3", well(1, 3, 1), LAST, (1_431_655_765, 1_431_655_765)),
        ("gap 3", well(1, 3, 1), LAST - 1, (1_431_655_764, 1_431_655_765)),
        ("gap 3", well(1, 3, 1), LAST - 2, (1_431_655_764, 1_431_655_764)),
        ("gaps 1, 2", well(2, 3, 2), LAST, (2_863_311_530, 2_863_311_530)),
        ("gaps 1, 2, half way", well(2, 3, 2), LAST - 1, (2_863_311_529, 2_863_311_529)),
        ("gaps 1, 2", well(2, 3, 2), LAST - 2, (2_863_311_529, 2_863_311_529)),
        // The next reports lie past 2^32, at 4,294,974,738 and 4,294,967,298.
        ("nearest past 2^32", well(1, 20_001, 1), LAST, (214_737, 214_738)),
        ("even, nearest past 2^32", even(1, 20_001, 1), LAST, (214_737, 214_738)),
        ("A, nearest past 2^32", well(3, 158, 17), LAST, (81_550_011, 81_550_012)),
        ("the longest gap", well(1, 20_160, 1_000), LAST, (213_044, 213_044)),
        ("the longest gap", well(1, 20_160, 1_000), LAST - 255, (213_044, 213_044)),
        ("the longest gap", well(1, 20_160, 1_000), LAST - 256, (213_043, 213_044)),
        ("the longest gap, half way", well(1, 20_160, 1_000), LAST - 255 - 10_080, (213_043, 213_043)),
        ("all at the top", well(20_160, 406_425_600, 20_160_000), LAST, (213_044, 213_044)),
        ("even, all at the top", even(20_160, 406_425_600, 20_160_000), LAST, (213_044, 213_044)),
        // One longer gap, the last of the period; all gaps longer but the first.
        ("the largest k, one longer gap", well(20_160, 20_161, 20_160), 20_160, (20_159, 20_159)),
        ("the largest k, one longer gap", well(20_160, 20_161, 20_160), 20_161, (20_160, 20_160)),
        ("the largest k, one shorter gap", well(20_160, 40_319, 20_160), 1, (1, 1)),
        ("the largest k, one shorter gap", well(20_160, 40_319, 20_160), 40_318, (20_159, 20_159)),
        ("the largest k, one shorter gap", well(20_160, 40_319, 20_160), 40_319, (20_160, 20_160)),
    ];
    for (name, plan, minute, wanted) in far {
        checks.minute(name, plan, minute, wanted);
    }
}

fn between(checks: &mut Checks) {
    // Gaps 3, 4 and sizes 3, 2.
    let plan = well(2, 7, 5);
    for (minutes, wanted) in [
        ((0, 0), (0, 0)),
        ((0, 1), (1, 3)),
        ((0, 3), (1, 3)),
        ((0, 4), (2, 5)),
        ((1, 3), (0, 0)),
        ((1, 4), (1, 2)),
        ((3, 3), (0, 0)),
        ((3, 7), (1, 2)),
        ((3, 8), (2, 5)),
        ((4, 7), (0, 0)),
        ((7, 14), (2, 5)),
        ((8, 15), (2, 5)),
        ((10, 15), (2, 5)),
        ((0, 700), (200, 500)),
        ((0, 701), (201, 503)),
        ((LAST, LAST), (0, 0)),
    ] {
        checks.between("gaps 3, 4", plan, minutes, Ok(wanted));
    }
    for minutes in [(1, 0), (4, 3), (LAST, 0), (LAST, LAST - 1)] {
        checks.between("backwards", plan, minutes, Err(23));
        checks.between("even, backwards", even(2, 8, 5), minutes, Err(23));
    }
    // Sizes 4, 3, 3; and 4, 4, 3.
    for (total, minutes, wanted) in [
        (10, (0, 1), (1, 4)),
        (10, (1, 3), (2, 6)),
        (10, (2, 4), (2, 7)),
        (11, (1, 3), (2, 7)),
        (11, (2, 4), (2, 7)),
        (11, (1, 4), (3, 11)),
    ] {
        checks.between("even, three sizes", even(3, 3, total), minutes, Ok(wanted));
        checks.between("three sizes", well(3, 3, total), minutes, Ok(wanted));
    }
    // 2^32 − 1 is 20,160 × 213,044 + 255, and 158 × 27,183,337 + 49.
    let far = [
        ("gap 1", well(1, 1, 1), (0, LAST), (4_294_967_295, 4_294_967_295)),
        ("gap 1, 1,000 records", well(1, 1, 1_000), (0, LAST), (4_294_967_295, 4_294_967_295_000)),
        ("even, gap 1, 1,000 records", even(1, 1, 1_000), (0, LAST), (4_294_967_295, 4_294_967_295_000)),
        ("even, the largest k and total", even(20_160, 20_160, 20_160_000), (0, LAST), (4_294_967_295, 4_294_967_295_000)),
        ("the largest k and total", well(20_160, 20_160, 20_160_000), (1, LAST), (4_294_967_294, 4_294_967_294_000)),
        // Of every period one report has a record less, or one more; or half of them have, the first half or every other.
        ("one record less", well(20_160, 20_160, 20_159_999), (0, LAST), (4_294_967_295, 4_294_967_081_956)),
        ("even, one record less", even(20_160, 20_160, 20_159_999), (0, LAST), (4_294_967_295, 4_294_967_081_956)),
        ("one record more", well(20_160, 20_160, 20_161), (0, LAST), (4_294_967_295, 4_295_180_340)),
        ("even, one record more", even(20_160, 20_160, 20_161), (0, LAST), (4_294_967_295, 4_295_180_340)),
        ("half of them more", well(20_160, 20_160, 30_240), (LAST - 255, LAST), (255, 510)),
        ("even, half of them more", even(20_160, 20_160, 30_240), (LAST - 255, LAST), (255, 383)),
        ("even, half of them more", even(20_160, 20_160, 30_240), (LAST - 254, LAST), (254, 381)),
        ("A", well(3, 158, 17), (0, LAST), (81_550_012, 462_116_735)),
        ("the longest gap", well(1, 20_160, 1_000), (0, LAST), (213_045, 213_045_000)),
        ("the longest gap", well(1, 20_160, 1_000), (0, LAST - 255), (213_044, 213_044_000)),
        ("the longest gap", well(1, 20_160, 1_000), (LAST - 255, LAST), (1, 1_000)),
        ("the longest gap", well(1, 20_160, 1_000), (LAST - 254, LAST), (0, 0)),
        ("all at the top", well(20_160, 406_425_600, 20_160_000), (0, LAST), (213_045, 213_045_000)),
        ("even, all at the top", even(20_160, 406_425_600, 20_160_000), (0, LAST), (213_045, 213_045_000)),
        ("a whole long period", well(20_160, 406_425_599, 20_159_999), (1, 406_425_600), (20_160, 20_159_999)),
    ];
    for (name, plan, minutes, wanted) in far {
        checks.between(name, plan, minutes, Ok(wanted));
    }
}

/// A specification that passes every cycle of sizes up to 1,000 and gaps of 5.
fn any_size() -> Spec {
    no_rates((1, 1_000), (5, 5))
}

/// What so many reports of one size cost, whatever they are part of.
fn of_size(checks: &mut Checks, size: u64, reports: u32, wanted: (u64, u64)) {
    let name = format!("size {size}");
    for plan in [well(1, 5, size), even(1, 5, size), well(4, 20, 4 * size), even(4, 20, 4 * size)] {
        checks.plan_cost(&name, plan, reports, wanted);
    }
    checks.cycle_cost(&name, &any_size(), &[(5, size as u16)], reports, wanted);
}

fn bands(checks: &mut Checks) {
    // Tenths and cents of one report, and sizes that it can have.
    let rows: [(u64, u64, &[u64]); 11] = [
        (3, 0, &[1]),
        (5, 1, &[2]),
        (8, 1, &[3, 4]),
        (14, 1, &[5, 7, 8]),
        (25, 3, &[9, 15, 16]),
        (46, 5, &[17, 31, 32]),
        (85, 9, &[33, 63, 64]),
        (150, 15, &[65, 124, 125]),
        (280, 28, &[126, 249, 250]),
        (530, 53, &[251, 499, 500]),
        (1_000, 100, &[501, 999, 1_000]),
    ];
    for (tenths, cents, sizes) in rows {
        for &size in sizes {
            of_size(checks, size, 1, (tenths, cents));
            // Ten reports cost as many cents as one costs tenths.
            of_size(checks, size, 10, (10 * tenths, tenths));
        }
    }
}

fn two_sizes(checks: &mut Checks) {
    // The end of a band, its price, and that of the next band.
    for (end, price, next) in [
        (1, 3, 5),
        (2, 5, 8),
        (4, 8, 14),
        (8, 14, 25),
        (16, 25, 46),
        (32, 46, 85),
        (64, 85, 150),
        (125, 150, 280),
        (250, 280, 530),
        (500, 530, 1_000),
    ] {
        let name = format!("sizes {end} and one more");
        let cost = |reports: u64, larger: u64| {
            let tenths = (reports - larger) * price + larger * next;
            (tenths, (tenths + 5) / 10)
        };
        // Of five reports two are larger: the first two, or the first and the third. How many of none, of the first, of the first
        // two and so on.
        let total = 5 * end + 2;
        for (plan, larger) in [
            (well(5, 25, total), [0, 1, 2, 2, 2, 2, 3, 4, 4, 4, 4, 5]),
            (even(5, 25, total), [0, 1, 1, 2, 2, 2, 3, 3, 4, 4, 4, 5]),
        ] {
            for (reports, larger) in (0..).zip(larger) {
                checks.plan_cost(&name, plan, reports as u32, cost(reports, larger));
            }
        }
        let pairs = [(5, end as u16), (5, end as u16 + 1), (5, end as u16)];
        for (reports, larger) in (0..).zip([0, 0, 1, 1, 1, 2, 2]) {
            checks.cycle_cost(&name, &any_size(), &pairs, reports as u32, cost(reports, larger));
        }
    }
}

fn half_cents(checks: &mut Checks) {
    // A size, and what no report of it costs, one, two and so on. Sums of 3 tenths have every last digit.
    let rows: [(u64, &[(u64, u64)]); 5] = [
        (1, &[(0, 0), (3, 0), (6, 1), (9, 1), (12, 1), (15, 2), (18, 2), (21, 2), (24, 2), (27, 3), (30, 3)]),
        (2, &[(0, 0), (5, 1), (10, 1), (15, 2), (20, 2)]),
        (5, &[(0, 0), (14, 1), (28, 3), (42, 4), (56, 6), (70, 7)]),
        (9, &[(0, 0), (25, 3), (50, 5), (75, 8)]),
        (17, &[(0, 0), (46, 5), (92, 9), (138, 14), (184, 18), (230, 23)]),
    ];
    for (size, wanted) in rows {
        for (reports, &wanted) in (0..).zip(wanted) {
            of_size(checks, size, reports, wanted);
        }
    }
}

fn whole_rounds(checks: &mut Checks) {
    three_reports(checks);
    five_reports(checks);
    a_size_of_each_band(checks);
}

/// Sizes 3, 2, 2, of 8, 5 and 5 tenths.
fn three_reports(checks: &mut Checks) {
    for (reports, wanted) in [
        (2, (13, 1)),
        (3, (18, 2)),
        (4, (26, 3)),
        (5, (31, 3)),
        (6, (36, 4)),
        (7, (44, 4)),
        (2_999_999, (17_999_995, 1_800_000)),
        (3_000_000, (18_000_000, 1_800_000)),
        (3_000_001, (18_000_008, 1_800_001)),
    ] {
        checks.plan_cost("three reports", well(3, 15, 7), reports, wanted);
        checks.plan_cost("even, three reports", even(3, 15, 7), reports, wanted);
        checks.cycle_cost("three reports", &any_size(), &[(5, 3), (5, 2), (5, 2)], reports, wanted);
    }
}

/// Sizes 3, 2, 3, 2, 2.
fn five_reports(checks: &mut Checks) {
    for (reports, wanted) in [
        (4, (26, 3)),
        (5, (31, 3)),
        (6, (39, 4)),
        (9, (57, 6)),
        (10, (62, 6)),
        (11, (70, 7)),
        (4_999_999, (30_999_995, 3_100_000)),
        (5_000_000, (31_000_000, 3_100_000)),
        (5_000_001, (31_000_008, 3_100_001)),
        (5_000_002, (31_000_013, 3_100_001)),
    ] {
        checks.plan_cost("even, five reports", even(5, 25, 12), reports, wanted);
    }
}

/// A round costs 2,146 tenths, of which the last report costs 1,000 and the first 3.
fn a_size_of_each_band(checks: &mut Checks) {
    let each_band = [1, 2, 3, 5, 9, 17, 33, 65, 126, 251, 501].map(|size| (5, size));
    for (reports, wanted) in [
        (0, (0, 0)),
        (1, (3, 0)),
        (10, (1_146, 115)),
        (11, (2_146, 215)),
        (12, (2_149, 215)),
        (21, (3_292, 329)),
        (22, (4_292, 429)),
        (23, (4_295, 430)),
        (10_999_999, (2_145_999_000, 214_599_900)),
        (11_000_000, (2_146_000_000, 214_600_000)),
        (11_000_001, (2_146_000_003, 214_600_000)),
        (LAST, (837_909_073_528, 83_790_907_353)),
    ] {
        checks.cycle_cost("a size of each band", &any_size(), &each_band, reports, wanted);
    }
}

/// Offers to a meter that has no budget left to tell: minute, size, number.
fn untold(offers: &[(u64, u64, u32)]) -> Vec<Offer> {
    offers.iter().map(|&(minute, size, number)| (minute, size, number, None)).collect()
}

/// An offer to a meter with a supply rate: minute, size, number, budget left.
type Told = (u64, u64, u32, u64);

fn told(offers: &[Told]) -> Vec<Offer> {
    offers.iter().map(|&(minute, size, number, left)| (minute, size, number, Some(left))).collect()
}

fn early_or_sized(checks: &mut Checks) {
    let spec = no_rates((3, 7), (5, 9));
    // smin is 5. The greatest gap, 9, is not applied.
    let gaps =
        [(10, 3, 0), (14, 3, 13), (15, 3, 0), (15, 3, 13), (0, 3, 13), (19, 3, 13), (20, 3, 0), (1_000, 3, 0), (1_004, 3, 13)];
    checks.offers("gaps", &spec, &untold(&gaps));
    // Only an accepted minute makes another one too early.
    checks.offers("before one that was refused", &spec, &untold(&[(1_000, 8, 14), (10, 2, 14), (3, 3, 0), (2, 3, 13)]));
    checks.offers("13 before 14", &spec, &untold(&[(0, 3, 0), (4, 8, 13), (5, 8, 14), (5, 2, 14), (5, 7, 0)]));
    // The last ones have 3 and 7 in their lower 16 bits.
    let out_of_range = [0, 2, 8, 65_535, 65_536, 65_536 + 3, 65_536 + 7, 131_072 + 3, 0xFFFF_0003, 0xFFFF_0007, 0xFFFF_FFFF];
    checks.offers("sizes", &spec, &untold(&out_of_range.map(|size| (5, size, 14))));
    checks.offers("both ends of the sizes", &spec, &untold(&[(0, 3, 0), (5, 7, 0)]));
    let wide = supply_only((3, 7), (5, 9), (20, 20));
    checks.offers("sizes, with a supply rate", &wide, &told(&out_of_range.map(|size| (5, size, 14, 20))));
}

fn budgets(checks: &mut Checks) {
    let spec = supply_only((1, 9), (1, 20), (10, 5));
    let rows: [(&str, &[Told]); 4] = [
        ("just full, and one too many", &[(0, 6, 0, 4), (1, 5, 15, 4), (1, 4, 0, 0), (2, 1, 15, 0)]),
        // The report of minute 0 counts up to minute 4, and that of minute 5 up to minute 9.
        ("until it is 5 minutes old", &[(0, 9, 0, 1), (4, 2, 15, 1), (5, 9, 0, 1), (6, 1, 0, 0), (9, 1, 15, 0), (10, 9, 0, 0)]),
        // The budget left is that of the later minute: the last accepted one, or the offered one, far ahead.
        ("after a refusal", &[(90, 6, 0, 4), (3, 1, 13, 4), (93, 10, 14, 4), (95, 10, 14, 10), (92, 4, 0, 0), (900, 0, 14, 10)]),
        ("13 and 14 before 15", &[(0, 9, 0, 1), (0, 10, 13, 1), (1, 10, 14, 1), (1, 9, 15, 1)]),
    ];
    for (name, offers) in rows {
        checks.offers(name, &spec, &told(offers));
    }
    let one_minute = supply_only((1, 9), (1, 20), (9, 1));
    checks.offers("R 1", &one_minute, &told(&[(0, 9, 0, 0), (0, 1, 13, 0), (1, 9, 0, 0), (2, 0, 14, 9), (2, 1, 0, 8)]));
    let never = supply_only((5, 9), (1, 20), (4, 5));
    checks.offers("B below dmin", &never, &told(&[(7, 5, 15, 4), (3, 5, 15, 4), (3, 4, 14, 4)]));
    // 20 reports of 1,000 records fill the largest budget, in the longest window.
    let largest = supply_only((1, 1_000), (1, 1), (20_000, 20_160));
    let mut offers: Vec<Told> = (0..20).map(|i| (i, 1_000, 0, 20_000 - 1_000 * (i + 1))).collect();
    offers.extend([(20, 1, 15, 0), (20_159, 1, 15, 0), (20_160, 1_000, 0, 0), (20_161, 999, 0, 1), (20_162, 1_000, 0, 1)]);
    checks.offers("all at the top", &largest, &told(&offers));
}

fn last_minutes(checks: &mut Checks) {
    const LAST: u64 = u32::MAX as u64;
    let of_gap = |smin| supply_only((1, 9), (smin, 20), (10, 26));
    let rows: [(&str, u64, &[Told]); 4] = [
        // The next minute would be 2^32 + 3.
        ("smin 5", 5, &[(LAST - 1, 9, 0, 1), (LAST, 1, 13, 1), (0, 1, 13, 1), (3, 1, 13, 1), (4, 1, 13, 1)]),
        ("smin 1", 1, &[(LAST - 1, 9, 0, 1), (LAST, 1, 0, 0), (LAST, 1, 13, 0), (0, 1, 13, 0)]),
        ("a report that leaves the window", 1, &[(LAST - 26, 9, 0, 1), (LAST - 1, 2, 15, 1), (LAST, 2, 0, 8)]),
        // It would leave the window at minute 2^32 + 15.
        (
            "a report that stays in the window",
            1,
            &[(LAST - 10, 9, 0, 1), (LAST - 5, 2, 15, 1), (LAST, 2, 15, 1), (LAST, 1, 0, 0)],
        ),
    ];
    for (name, smin, offers) in rows {
        checks.offers(name, &of_gap(smin), &told(offers));
    }
    let no_supply = no_rates((1, 9), (5, 20));
    checks.offers("no supply rate", &no_supply, &untold(&[(LAST - 5, 9, 0), (LAST - 1, 9, 13), (LAST, 9, 0), (4, 9, 13)]));
}

/// Reports of one record at minutes 0 to 1,023, and offers after them.
fn after_1024(b: u64, offers: &[Told]) -> Vec<Offer> {
    let filling: Vec<Told> = (0..1_024).map(|i| (i, 1, 0, b - i - 1)).collect();
    told(&[&filling, offers].concat())
}

fn places(checks: &mut Checks) {
    let of_rate = |b, r| supply_only((1, 2), (1, 20), (b, r));
    let rows: [(&str, u64, u64, &[Told]); 6] = [
        ("the 1,025th report", 20_000, 2_000, &[(1_024, 1, 22, 18_976), (1_024, 2, 22, 18_976), (1_999, 1, 22, 18_976)]),
        // Minute 0 is 2,000 minutes old, then minute 1; then all of them.
        (
            "a place again",
            20_000,
            2_000,
            &[(2_000, 2, 0, 18_975), (2_000, 1, 13, 18_975), (2_001, 1, 0, 18_975), (4_001, 1, 0, 19_999)],
        ),
        ("13 and 14 before 22", 20_000, 2_000, &[(1_023, 1, 13, 18_976), (1_024, 3, 14, 18_976), (1_024, 1, 22, 18_976)]),
        ("15 before 22", 1_024, 2_000, &[(1_024, 1, 15, 0), (2_000, 1, 0, 0)]),
        ("22 where one record is left, 15 for two", 1_025, 2_000, &[(1_024, 1, 22, 1), (1_024, 2, 15, 1)]),
        // Minutes 0 to 1,023 all lie in the 1,025 minutes that end with 1,024.
        (
            "R 1,025",
            20_000,
            1_025,
            &[(1_024, 1, 22, 18_976), (1_025, 1, 0, 18_976), (1_026, 1, 0, 18_976), (1_027, 1, 0, 18_976)],
        ),
    ];
    for (name, b, r, offers) in rows {
        checks.offers(name, &of_rate(b, r), &after_1024(b, offers));
    }
    // No 1,024 minutes have more than 1,024 reports, and with no supply rate there is no window: three rounds of the ring.
    let every_minute: Vec<Told> = (1_024..3_100).map(|minute| (minute, 1, 0, 18_976)).collect();
    checks.offers("R 1,024", &of_rate(20_000, 1_024), &after_1024(20_000, &every_minute));
    let no_supply: Vec<(u64, u64, u32)> = (0..3_100).map(|minute| (minute, 1, 0)).collect();
    checks.offers("no supply rate", &no_rates((1, 2), (1, 20)), &untold(&no_supply));
}
