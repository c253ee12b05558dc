//! The box plan on both sides of each comparison. Every answer is worked out by hand from what the request says of it, and asked of the
//! library and of the reference; each plan is written out and checked.

use crate::checks::{self, both_rates, demand_only, no_rates, supply_only, with_second, Checks};
use crate::group::Runner;
use reference::Spec;

pub fn all(runner: &mut Runner) {
    checks::group(runner, "box plans: gaps that delays keep in one range", gaps_of_one_range);
    checks::group(runner, "box plans: gaps that delays keep in either of two", gaps_of_two_ranges);
    checks::group(runner, "box plans: ranges that touch", gaps_of_ranges_that_touch);
    checks::group(runner, "box plans: a demand rate alone", demand_alone);
    checks::group(runner, "box plans: a supply rate alone", supply_alone);
    checks::group(runner, "box plans: the fewest pairs, and of those the fewest records", pairs_and_records);
    checks::group(runner, "box plans: 512 pairs, and 513 that no cycle has", most_pairs);
    checks::group(runner, "box plans: the largest gap that both rates take", largest_gaps);
    checks::group(runner, "box plans: numbers beyond 16 and 32 bits", large_numbers);
    checks::group(runner, "box plans: the order of the refusals", order);
}

/// The longest gap for each lateness, or none: sizes are 3 to 7, and one report of the smallest size is a plan.
fn gaps(checks: &mut Checks, name: &str, spec: &Spec, wanted: &[(u32, Option<u64>)]) {
    for &(lateness, gap) in wanted {
        checks.box_plan(name, spec, lateness, gap.map(|gap| [gap, 1, 3]).ok_or(30));
    }
}

fn gaps_of_one_range(checks: &mut Checks) {
    let rows: [(&str, (u64, u64), &[(u32, Option<u64>)]); 9] = [
        ("5 to 15", (5, 15), &[(0, Some(15)), (1, Some(14)), (4, Some(11)), (5, Some(10)), (6, None), (15, None), (1_440, None)]),
        ("5 to 14", (5, 14), &[(0, Some(14)), (4, Some(10)), (5, None)]),
        ("7", (7, 7), &[(0, Some(7)), (1, None), (7, None)]),
        // A gap is J minutes or more from both ends: 1 to 2 × J + 1 is the least range.
        ("1", (1, 1), &[(0, Some(1)), (1, None)]),
        ("1 to 2", (1, 2), &[(0, Some(2)), (1, None)]),
        ("1 to 3", (1, 3), &[(0, Some(3)), (1, Some(2)), (2, None)]),
        ("1 to 2,881", (1, 2_881), &[(1_439, Some(1_442)), (1_440, Some(1_441))]),
        ("1 to 2,880", (1, 2_880), &[(1_439, Some(1_441)), (1_440, None)]),
        ("every gap", (1, 20_160), &[(0, Some(20_160)), (1, Some(20_159)), (1_440, Some(18_720))]),
    ];
    for (name, gap, wanted) in rows {
        gaps(checks, name, &no_rates((3, 7), gap), wanted);
    }
    gaps(checks, "a range as long as the delays", &no_rates((3, 7), (1_000, 3_880)), &[(1_440, Some(2_440))]);
    gaps(checks, "a range one gap shorter", &no_rates((3, 7), (1_000, 3_879)), &[(1_440, None), (1_439, Some(2_440))]);
}

fn gaps_of_two_ranges(checks: &mut Checks) {
    let rows: [(&str, (u64, u64), (u64, u64), &[(u32, Option<u64>)]); 5] = [
        // The first range has room for 5 minutes, the second for 15: the delays empty the first, then both.
        ("two shifts", (5, 15), (60, 90), &[(0, Some(90)), (5, Some(85)), (6, Some(84)), (15, Some(75)), (16, None), (25, None)]),
        // Or the second first.
        ("a long first range", (5, 50), (60, 90), &[(15, Some(75)), (16, Some(34)), (22, Some(28)), (23, None)]),
        ("a second of one gap", (5, 15), (60, 60), &[(0, Some(60)), (1, Some(14)), (5, Some(10)), (6, None)]),
        ("one gap left out", (5, 15), (17, 90), &[(0, Some(90)), (10, Some(80)), (36, Some(54)), (37, None)]),
        ("one gap left out", (5, 90), (92, 93), &[(0, Some(93)), (1, Some(89)), (42, Some(48)), (43, None)]),
    ];
    for (name, gap, second, wanted) in rows {
        gaps(checks, name, &with_second(&no_rates((3, 7), gap), second), wanted);
    }
    // Within both together there is room for 6, but 16 is in neither.
    gaps(
        checks,
        "no room over a gap left out",
        &with_second(&no_rates((3, 7), (10, 15)), (17, 22)),
        &[(2, Some(20)), (3, None), (6, None)],
    );
    // The rates take no gap of the second range; then the first is tried from its end on.
    let thin = demand_only((3, 7), (5, 15), (7, 16));
    for (lateness, gap) in [(0, 15), (1, 14), (2, 13), (3, 12), (5, 10)] {
        checks.box_plan("the first in place of the second", &with_second(&thin, (60, 90)), lateness, Ok([gap, 1, 7]));
    }
    checks.box_plan("the first in place of the second", &with_second(&thin, (60, 90)), 6, Err(30));
    // Of the second it takes 70 at most.
    let wide = with_second(&demand_only((3, 7), (5, 15), (7, 70)), (60, 90));
    for (lateness, gap) in [(0, 70), (3, 67), (5, 65)] {
        checks.box_plan("a shorter one of the second", &wide, lateness, Ok([gap, 1, 7]));
    }
    checks.box_plan("a shorter one of the second", &wide, 6, Err(30));
    // Delays empty the second range, which the rate would take; the first has room.
    let first = with_second(&demand_only((3, 7), (5, 15), (7, 90)), (17, 18));
    checks.box_plan("the second emptied", &first, 0, Ok([18, 1, 3]));
    checks.box_plan("the second emptied", &first, 2, Ok([13, 1, 3]));
}

fn gaps_of_ranges_that_touch(checks: &mut Checks) {
    // Wherever 5 to 90 is cut, the gaps are those of the whole.
    let whole = [(0, Some(90)), (1, Some(89)), (10, Some(80)), (41, Some(49)), (42, Some(48)), (43, None)];
    for cut in 5..90 {
        gaps(checks, &format!("cut after {cut}"), &with_second(&no_rates((3, 7), (5, cut)), (cut + 1, 90)), &whole);
    }
    let every = with_second(&no_rates((3, 7), (1, 10_000)), (10_001, 20_160));
    gaps(checks, "every gap", &every, &[(0, Some(20_160)), (1_440, Some(18_720))]);
    let two_gaps = with_second(&no_rates((3, 7), (5, 5)), (6, 6));
    gaps(checks, "5 and 6", &two_gaps, &[(0, Some(6)), (1, None)]);
    gaps(checks, "5 to 7", &with_second(&no_rates((3, 7), (5, 5)), (6, 7)), &[(0, Some(7)), (1, Some(6)), (2, None)]);
    // A rate that takes gaps up to 15 alone: 8 minutes late 13 needs 5 to 21, on both sides of the cut; 9 late it is 14, of which 11 would do.
    let thin = with_second(&demand_only((3, 7), (5, 15), (7, 21)), (16, 90));
    for (lateness, gap) in [(0, 21), (1, 20), (2, 19), (5, 16), (6, 15), (8, 13)] {
        checks.box_plan("over the cut", &thin, lateness, Ok([gap, 1, 7]));
    }
    checks.box_plan("over the cut", &thin, 9, Err(30));
}

fn demand_alone(checks: &mut Checks) {
    // Sizes 1 to 9, gaps 6 to 20: with 5 minutes of lateness 11 to 15.
    let rows: [(u64, u64, u32, Result<[u64; 3], u32>); 22] = [
        (1, 5, 5, Err(30)),
        (1, 4, 5, Err(30)),
        (1, 6, 5, Err(30)),
        // P = J + s for the shortest gap and the longest, and a minute less.
        (1, 15, 5, Err(30)),
        (1, 16, 5, Ok([11, 1, 1])),
        (1, 19, 5, Ok([14, 1, 1])),
        (1, 20, 5, Ok([15, 1, 1])),
        (1, 21, 5, Ok([15, 1, 1])),
        (9, 20, 5, Ok([15, 1, 9])),
        // p = q × dmax, and one more: then two reports, or none.
        (10, 20, 5, Err(30)),
        (10, 27, 5, Ok([11, 1, 5])),
        (10, 26, 5, Err(30)),
        (18, 27, 5, Ok([11, 1, 9])),
        (19, 27, 5, Err(30)),
        (18, 35, 5, Ok([15, 1, 9])),
        (19, 38, 5, Ok([11, 1, 7])),
        // On time: 6 to 20.
        (9, 20, 0, Ok([20, 1, 9])),
        (10, 20, 0, Ok([10, 1, 5])),
        (27, 20, 0, Ok([6, 1, 9])),
        (28, 20, 0, Err(30)),
        (1, 6, 0, Ok([6, 1, 1])),
        (1, 5, 0, Err(30)),
    ];
    for (l, p, lateness, wanted) in rows {
        checks.box_plan(&format!("L {l}, P {p}"), &demand_only((1, 9), (6, 20), (l, p)), lateness, wanted);
    }
    for (size, wanted) in [((4, 9), [20, 1, 4]), ((3, 9), [20, 1, 4]), ((1, 4), [20, 1, 4]), ((5, 9), [20, 1, 5])] {
        checks.box_plan(&format!("sizes {size:?}"), &demand_only(size, (6, 20), (12, 60)), 0, Ok(wanted));
    }
    checks.box_plan("dmax one less", &demand_only((1, 3), (6, 20), (13, 60)), 0, Ok([12, 1, 3]));
    // P ≤ J, whatever else: a stretch can be empty.
    for p in [1, 1_439, 1_440] {
        checks.box_plan(&format!("P {p}"), &demand_only((1, 9), (1, 20_160), (1, p)), 1_440, Err(30));
    }
    checks.box_plan("P = 2 J", &demand_only((1, 9), (1, 20_160), (1, 2_880)), 1_440, Err(30));
    checks.box_plan("P = 2 J + 1", &demand_only((1, 9), (1, 20_160), (1, 2_881)), 1_440, Ok([1_441, 1, 1]));
}

fn supply_alone(checks: &mut Checks) {
    // Sizes 3 to 9, gaps 6 to 20: the longest gap does if any does, with one report of 3.
    let rows: [(u64, u64, u32, Result<[u64; 3], u32>); 12] = [
        (3, 20, 0, Ok([20, 1, 3])),
        (2, 20, 0, Err(30)),
        (5, 21, 0, Err(30)),
        (6, 21, 0, Ok([20, 1, 3])),
        (6, 40, 0, Ok([20, 1, 3])),
        (6, 41, 0, Err(30)),
        // R + J = n × s, and a minute more.
        (3, 10, 5, Ok([15, 1, 3])),
        (3, 11, 5, Err(30)),
        (6, 25, 5, Ok([15, 1, 3])),
        (6, 26, 5, Err(30)),
        (9, 26, 5, Ok([15, 1, 3])),
        (3, 1, 7, Ok([13, 1, 3])),
    ];
    for (b, r, lateness, wanted) in rows {
        checks.box_plan(&format!("B {b}, R {r}"), &supply_only((3, 9), (6, 20), (b, r)), lateness, wanted);
    }
    // R + J is above the greatest R: 21,600 minutes are 10 gaps of 2,160, and 15 of 1,500 with a minute or more to spare.
    for (gap, b, wanted) in [(2_160, 50, Ok(())), (2_160, 49, Err(30)), (1_500, 75, Ok(())), (1_500, 74, Err(30))] {
        let spec = supply_only((5, 9), (gap - 1_440, gap + 1_440), (b, 20_160));
        checks.box_plan(&format!("B {b}, R 20,160"), &spec, 1_440, wanted.map(|()| [gap, 1, 5]));
    }
    checks.box_plan("B 30 in R 20,160 on time", &supply_only((5, 9), (720, 3_600), (30, 20_160)), 0, Ok([3_600, 1, 5]));
    checks.box_plan("B 29 in R 20,160 on time", &supply_only((5, 9), (720, 3_600), (29, 20_160)), 0, Err(30));
}

fn pairs_and_records(checks: &mut Checks) {
    // Gap 10, sizes, B in R, L in P: the pairs and the records, or none.
    type Row = ((u64, u64), (u64, u64), (u64, u64), Option<[u64; 2]>);
    let rows: [Row; 17] = [
        // 5 records in two reports: n × p = q × B, one B less, one more.
        ((2, 9), (5, 20), (5, 20), Some([2, 5])),
        ((2, 9), (4, 20), (5, 20), None),
        ((2, 9), (6, 20), (5, 20), Some([1, 3])),
        ((2, 9), (6, 20), (6, 20), Some([1, 3])),
        // 7/3 to 5/2 records a report; 7/3 to 12/5.
        ((1, 9), (5, 20), (7, 30), Some([2, 5])),
        ((1, 9), (12, 50), (7, 30), Some([3, 7])),
        ((1, 9), (17, 70), (12, 50), Some([5, 12])),
        // 19/8 to 12/5, between which 31/13 has more pairs.
        ((1, 9), (12, 50), (19, 80), Some([5, 12])),
        ((1, 9), (31, 130), (19, 80), Some([8, 19])),
        // 5/3 to 2: the most pairs of these is 1, of more records.
        ((1, 9), (2, 10), (5, 30), Some([1, 2])),
        ((1, 9), (5, 30), (5, 30), Some([3, 5])),
        // All are dmax, or dmin, though fewer would do.
        ((1, 3), (3, 10), (9, 30), Some([1, 3])),
        ((1, 3), (3, 10), (10, 30), None),
        ((3, 9), (3, 10), (1, 30), Some([1, 3])),
        ((4, 9), (3, 10), (1, 30), None),
        // Of two means in reach of B the one of fewer records: 5 to 8 in one report.
        ((1, 9), (8, 10), (9, 20), Some([1, 5])),
        ((6, 9), (8, 10), (9, 20), Some([1, 6])),
    ];
    for (size, supply, demand, wanted) in rows {
        let name = format!("sizes {size:?}, supply {supply:?}, demand {demand:?}");
        let wanted = wanted.map(|[q, p]| [10, q, p]).ok_or(30);
        checks.box_plan(&name, &both_rates(size, (10, 10), supply, demand), 0, wanted);
        // 3 minutes late: a range with just that room, R shorter by as much and P longer.
        let late = both_rates(size, (7, 13), (supply.0, supply.1 - 3), (demand.0, demand.1 + 3));
        checks.box_plan(&name, &late, 3, wanted);
    }
}

fn most_pairs(checks: &mut Checks) {
    let at_one = |records: u64, minutes: u64| both_rates((1, 2), (1, 1), (records, minutes), (records, minutes));
    let rows: [(u64, u64, Option<[u64; 2]>); 9] = [
        (511, 512, None),
        (513, 512, Some([512, 513])),
        (512, 511, Some([511, 512])),
        (514, 513, None),
        (515, 514, None),
        (1_026, 1_024, Some([512, 513])),
        (1_028, 1_026, None),
        (1_030, 1_026, None),
        (1_029, 1_026, Some([342, 343])),
    ];
    for (records, minutes, wanted) in rows {
        let name = format!("{records} records in {minutes} minutes, no more and no fewer");
        checks.box_plan(&name, &at_one(records, minutes), 0, wanted.map(|[q, p]| [1, q, p]).ok_or(30));
    }
    // A minute late, at gap 3 alone.
    for (reports, records, wanted) in
        [(513, 1_540, Err(30)), (512, 1_537, Ok([3, 512, 1_537])), (511, 1_541, Ok([3, 511, 1_541]))]
    {
        let late = both_rates((1, 4), (2, 4), (records, 3 * reports - 1), (records, 3 * reports + 1));
        checks.box_plan(&format!("{reports} reports"), &late, 1, wanted);
    }
    // At gap 2 the mean would be 1,540 in 513 pairs; at gap 1 it is 3 in 2.
    let shorter = both_rates((1, 4), (1, 2), (1_540, 1_025), (1_540, 1_027));
    checks.box_plan("a shorter gap for want of pairs", &shorter, 0, Ok([1, 2, 3]));
    let apart = with_second(&both_rates((1, 4), (1, 1), (1_540, 1_025), (1_540, 1_027)), (2, 2));
    checks.box_plan("the first range for want of pairs", &apart, 0, Ok([1, 2, 3]));
    // One record more or less in so many reports: 1,540/513 to 1,541/513, and 1,539/513 on.
    checks.box_plan("B one more", &both_rates((1, 4), (2, 2), (1_541, 1_025), (1_540, 1_027)), 0, Ok([2, 257, 772]));
    checks.box_plan("L one less", &both_rates((1, 4), (2, 2), (1_540, 1_025), (1_539, 1_027)), 0, Ok([2, 1, 3]));
}

fn largest_gaps(checks: &mut Checks) {
    // Rates, gaps and lateness, and what the longest gap is that both take.
    type Row = ((u64, u64), (u64, u64), (u64, u64), u32, Result<[u64; 3], u32>);
    let rows: [Row; 13] = [
        // Sample A: of 55 to 53 two reports lie in P, of 52 three.
        ((45, 55), (29, 220), (17, 158), 0, Ok([52, 3, 17])),
        ((45, 55), (28, 220), (17, 158), 0, Err(30)),
        ((45, 52), (29, 220), (17, 158), 0, Ok([52, 3, 17])),
        ((45, 51), (29, 220), (17, 158), 0, Ok([51, 3, 17])),
        ((52, 55), (29, 220), (17, 158), 0, Ok([52, 3, 17])),
        ((53, 55), (29, 220), (17, 158), 0, Err(30)),
        // 1 to 6 minutes late.
        ((45, 55), (29, 220), (17, 158), 2, Ok([52, 3, 17])),
        ((45, 55), (29, 220), (17, 158), 3, Ok([51, 3, 17])),
        ((45, 55), (29, 220), (17, 158), 5, Ok([50, 3, 17])),
        ((45, 55), (29, 220), (17, 158), 6, Err(30)),
        // Of 51 three reports lie in P and five in R, of 38 four and six.
        ((20, 60), (29, 220), (17, 158), 3, Ok([51, 3, 17])),
        ((20, 60), (27, 220), (17, 158), 3, Ok([38, 2, 9])),
        ((20, 60), (25, 220), (17, 158), 3, Err(30)),
    ];
    for (gap, supply, demand, lateness, wanted) in rows {
        let name = format!("gaps {gap:?}, supply {supply:?}, demand {demand:?}");
        checks.box_plan(&name, &both_rates((3, 10), gap, supply, demand), lateness, wanted);
    }
}

fn large_numbers(checks: &mut Checks) {
    let all = (1_000, 1_000);
    // n × p passes 2^32 with many pairs, and modulo 2^32 some are below q × B.
    for dmin in 1..=1_000 {
        let spec = supply_only((dmin, 1_000), (1, 1), (20_000, 20_160));
        checks.box_plan(&format!("dmin {dmin}"), &spec, 0, Err(30));
    }
    checks.box_plan("20 reports of 1,000", &supply_only(all, (1_008, 1_008), (20_000, 20_160)), 0, Ok([1_008, 1, 1_000]));
    checks.box_plan("21 reports of 1,000", &supply_only(all, (1_007, 1_007), (20_000, 20_160)), 0, Err(30));
    checks.box_plan("B 19,999", &supply_only(all, (1_008, 1_008), (19_999, 20_160)), 0, Err(30));
    checks.box_plan("L 20,000 in 20", &demand_only((1, 1_000), (1, 1_008), (20_000, 20_160)), 0, Ok([1_008, 1, 1_000]));
    checks.box_plan("L 20,000 in 20,160", &demand_only((1, 1_000), (1, 1), (20_000, 20_160)), 0, Ok([1, 1, 1]));
    // 20,000/20,160 is 125/126; R takes as many.
    let full = both_rates((1, 1_000), (1, 1), (20_160 / 2, 10_080), (20_000, 20_160));
    checks.box_plan("one record a minute", &full, 0, Ok([1, 1, 1]));
    // 5,040 reports of 20,000/5,040 = 250/63.
    let tight = both_rates((1, 1_000), (4, 4), (20_000, 20_160), (20_000, 20_160));
    checks.box_plan("20,000 records in 20,160 minutes", &tight, 0, Ok([4, 63, 250]));
    // 18,720 minutes are 13 gaps of 1,440, and 21,600 are 15.
    let late = both_rates((1, 1_000), (2, 2_882), (15_000, 20_160), (12_000, 20_160));
    checks.box_plan("1,440 minutes late", &late, 1_440, Ok([1_442, 1, 1_000]));
}

/// More than 1,440; some are less in 8 or 16 bits.
const TOO_LATE: [u32; 8] = [1_441, 1_442, 20_160, 65_535, 65_536, 0x1_0000 + 1_440, 0x8000_0000, u32::MAX];

fn order(checks: &mut Checks) {
    let plain = no_rates((3, 7), (1, 20_160));
    for (name, spec) in [("a plan", &plain), ("no plan", &supply_only((3, 7), (5, 30), (2, 1)))] {
        for lateness in TOO_LATE {
            checks.box_plan(&format!("26 before {name}"), spec, lateness, Err(26));
        }
    }
    checks.box_plan("the greatest lateness", &plain, 1_440, Ok([18_720, 1, 3]));
    checks.refused_files();
    // The duration is not asked for, nor consistency.
    let lasting = Spec { duration: Some((1, 1)), ..both_rates((1, 9), (5, 30), (8, 60), (3, 60)) };
    checks.box_plan("a duration shorter than P", &lasting, 0, Ok([30, 1, 2]));
}
