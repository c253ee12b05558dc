//! Margins, tolerances and most tolerant plans on both sides of each comparison. Every answer is worked out by hand from what the request says
//! of it, and asked of the library and of the reference.

use crate::checks::{self, both_rates, demand_only, no_rates, supply_only, with_second, Checks, BEFORE_RATES};
use crate::group::Runner;
use crate::shortest_edges::TOO_MANY;
use reference::Spec;

pub fn all(runner: &mut Runner) {
    checks::group(runner, "margins: one pair", margins_of_one_pair);
    checks::group(runner, "margins: of equals the lowest report", lowest_reports);
    checks::group(runner, "margins: the most of parts of a round, whole rounds, and more", most_of_rounds);
    checks::group(runner, "margins: the least of parts of a round, whole rounds, and more", least_of_rounds);
    checks::group(runner, "margins: over the join", margins_over_the_join);
    checks::group(runner, "margins: 512 pairs, and sums of more than 16 bits", margins_of_many);
    checks::group(runner, "margins: a rate that is absent", absent_rates);
    checks::group(runner, "margins: 12 to 14, and neither 15 nor 16", margins_refused);
    checks::group(runner, "tolerances: gaps that delays keep in one range", gaps_of_one_range);
    checks::group(runner, "tolerances: gaps that delays keep in two", gaps_of_two_ranges);
    checks::group(runner, "tolerances: supply rates", supply_rates);
    checks::group(runner, "tolerances: demand rates", demand_rates);
    checks::group(runner, "tolerances: both rates", supply_and_demand);
    checks::group(runner, "tolerances: rates and the gaps of three pairs", rates_of_three_pairs);
    checks::group(runner, "tolerances: supply rates at their limits", supply_limits);
    checks::group(runner, "tolerances: demand rates at their limits", demand_limits);
    checks::group(runner, "tolerances: 512 pairs with rates over the join", rates_over_the_join);
    checks::group(runner, "tolerances: each from 0 to 1,440", each_tolerance);
    checks::group(runner, "tolerances: 12 to 16, as the check gives them", tolerances_refused);
    checks::group(runner, "most tolerant plans: one range", plans_of_one_range);
    checks::group(runner, "most tolerant plans: two ranges", plans_of_two_ranges);
    checks::group(runner, "most tolerant plans: supply rates", plans_by_supply);
    checks::group(runner, "most tolerant plans: demand rates", plans_by_demand);
    checks::group(runner, "most tolerant plans: both rates, and rates with two ranges", plans_by_rates_and_ranges);
    checks::group(runner, "most tolerant plans: several pairs", plans_of_several_pairs);
    checks::group(runner, "most tolerant plans: each lateness from 0 to 1,440", plans_of_each_lateness);
    checks::group(runner, "most tolerant plans: the refusals", plans_refused);
}

/// Every size and every gap that there can be.
const SIZES: (u64, u64) = (1, 1_000);
const GAPS: (u64, u64) = (1, 20_160);

/// A cycle, so many minutes, and what they hold with the report at which they begin, or just after which.
type Row<'a> = (&'a [(u16, u16)], u64, (u64, u64));

fn shown(pairs: &[(u16, u16)]) -> String {
    format!("{} pairs {:?}", pairs.len(), &pairs[..pairs.len().min(8)])
}

/// The most of R minutes alone; 15 is not given where it is above B.
fn most(checks: &mut Checks, rows: &[Row]) {
    for &(pairs, r, wanted) in rows {
        for b in [1, 20_000] {
            let spec = supply_only(SIZES, GAPS, (b, r));
            checks.margins(&format!("{}, R {r}", shown(pairs)), &spec, pairs, Ok([Some(wanted), None]));
        }
    }
}

/// The least of P minutes alone; 16 is not given where it is below L.
fn least(checks: &mut Checks, rows: &[Row]) {
    for &(pairs, p, wanted) in rows {
        for l in [1, 20_000] {
            let spec = demand_only(SIZES, GAPS, (l, p));
            checks.margins(&format!("{}, P {p}", shown(pairs)), &spec, pairs, Ok([None, Some(wanted)]));
        }
    }
}

const EVEN: [(u16, u16); 1] = [(10, 5)];
const SHORT: [(u16, u16); 1] = [(1, 1)];
const LARGE: [(u16, u16); 1] = [(1, 1_000)];
const LONG: [(u16, u16); 1] = [(20_160, 1_000)];
/// Reports at 0, 3 and 8 of 1, 2 and 4 records, in a round of 18 minutes.
const THREE: [(u16, u16); 3] = [(3, 1), (5, 2), (10, 4)];

fn margins_of_one_pair(checks: &mut Checks) {
    most(
        checks,
        &[
            (&EVEN, 1, (5, 0)),
            (&EVEN, 10, (5, 0)),
            (&EVEN, 11, (10, 0)),
            (&EVEN, 20, (10, 0)),
            (&EVEN, 21, (15, 0)),
            (&EVEN, 100, (50, 0)),
            (&EVEN, 101, (55, 0)),
            (&SHORT, 1, (1, 0)),
            (&SHORT, 20_160, (20_160, 0)),
            (&LARGE, 20_160, (20_160_000, 0)),
            (&LONG, 1, (1_000, 0)),
            (&LONG, 20_160, (1_000, 0)),
        ],
    );
    // From the minute after a report on the next is the 10th.
    least(
        checks,
        &[
            (&EVEN, 1, (0, 0)),
            (&EVEN, 9, (0, 0)),
            (&EVEN, 10, (5, 0)),
            (&EVEN, 19, (5, 0)),
            (&EVEN, 20, (10, 0)),
            (&EVEN, 100, (50, 0)),
            (&EVEN, 109, (50, 0)),
            (&SHORT, 1, (1, 0)),
            (&SHORT, 20_160, (20_160, 0)),
            (&LARGE, 20_160, (20_160_000, 0)),
            (&LONG, 20_159, (0, 0)),
            (&LONG, 20_160, (1_000, 0)),
        ],
    );
}

/// So many pairs, but for this one at two places.
fn but_for(count: usize, pair: (u16, u16), other: (u16, u16), places: [usize; 2]) -> Vec<(u16, u16)> {
    let mut pairs = vec![pair; count];
    places.into_iter().for_each(|at| pairs[at] = other);
    pairs
}

fn lowest_reports(checks: &mut Checks) {
    let by_turns = [(5, 2), (5, 3), (5, 2), (5, 3)];
    let (large, small) = (but_for(512, (5, 1), (5, 9), [300, 400]), but_for(512, (5, 9), (5, 1), [300, 400]));
    most(
        checks,
        &[
            (&[(5, 3), (5, 3), (5, 3)], 1, (3, 0)),
            (&[(5, 3), (5, 3), (5, 3)], 12, (9, 0)),
            (&by_turns, 5, (3, 1)),
            (&by_turns, 6, (5, 0)),
            (&by_turns, 11, (8, 1)),
            (&large, 1, (9, 300)),
            (&large, 6, (10, 299)),
            (&small, 1, (9, 0)),
        ],
    );
    least(
        checks,
        &[
            (&[(5, 3), (5, 3), (5, 3)], 5, (3, 0)),
            (&by_turns, 5, (2, 1)),
            (&by_turns, 9, (2, 1)),
            (&by_turns, 10, (5, 0)),
            (&by_turns, 15, (7, 1)),
            (&small, 5, (1, 299)),
            (&small, 10, (10, 298)),
            (&large, 5, (1, 0)),
            // Gaps of 5 and of 6: the longer ones hold none.
            (&[(5, 3), (6, 3), (5, 3), (6, 3)], 5, (0, 1)),
        ],
    );
}

fn most_of_rounds(checks: &mut Checks) {
    let rows = [
        (1, (4, 2)),
        (4, (4, 2)),
        (5, (4, 2)),
        (6, (6, 1)),
        (8, (6, 1)),
        (9, (7, 0)),
        (11, (7, 0)),
        (14, (7, 0)),
        (17, (7, 0)),
        (18, (7, 0)),
        (19, (11, 2)),
        (36, (14, 0)),
        (37, (18, 2)),
        // 1,120 rounds are 20,160 minutes.
        (20_159, (7_840, 0)),
        (20_160, (7_840, 0)),
        (20_143, (7_837, 2)),
    ];
    most(checks, &rows.map(|(r, wanted)| (&THREE[..], r, wanted)));
}

fn least_of_rounds(checks: &mut Checks) {
    let rows = [
        (1, (0, 0)),
        (2, (0, 0)),
        (3, (0, 1)),
        (4, (0, 1)),
        (5, (0, 2)),
        (9, (0, 2)),
        (10, (1, 2)),
        (12, (1, 2)),
        (13, (3, 2)),
        (17, (3, 2)),
        (18, (7, 0)),
        (19, (7, 0)),
        (20, (7, 0)),
        (21, (7, 1)),
        (23, (7, 2)),
        (36, (14, 0)),
        (54, (21, 0)),
        (20_159, (7_836, 2)),
        (20_160, (7_840, 0)),
        (20_143, (7_833, 0)),
    ];
    least(checks, &rows.map(|(p, wanted)| (&THREE[..], p, wanted)));
}

fn margins_over_the_join(checks: &mut Checks) {
    let full: [(u16, u16); 4] = [(5, 9), (5, 1), (5, 1), (5, 8)];
    most(checks, &[(&full, 5, (9, 0)), (&full, 6, (17, 3)), (&full, 11, (18, 2)), (&full, 16, (19, 0)), (&full, 21, (28, 0))]);
    let thin: [(u16, u16); 4] = [(5, 1), (5, 9), (5, 8), (5, 2)];
    least(checks, &[(&thin, 5, (1, 3)), (&thin, 10, (3, 2)), (&thin, 15, (11, 1)), (&thin, 20, (20, 0)), (&thin, 25, (21, 3))]);
    // The longest gap is the last.
    let late: [(u16, u16); 3] = [(5, 3), (6, 3), (40, 3)];
    least(checks, &[(&late, 39, (0, 2)), (&late, 40, (3, 1)), (&late, 45, (3, 1)), (&late, 46, (6, 0)), (&late, 51, (9, 0))]);
}

fn margins_of_many(checks: &mut Checks) {
    let same = [(1, 1_000); 512];
    let mut apart = same;
    apart[511].0 = 20_160;
    most(
        checks,
        &[
            (&same, 512, (512_000, 0)),
            (&same, 20_160, (20_160_000, 0)),
            (&apart, 511, (511_000, 0)),
            (&apart, 512, (512_000, 0)),
            (&apart, 20_160, (512_000, 0)),
        ],
    );
    // Minutes 511 to 20,670 hold report 511, and 512 to 20,671 the next one, of the next round.
    least(
        checks,
        &[(&same, 20_160, (20_160_000, 0)), (&apart, 1, (0, 511)), (&apart, 20_159, (0, 511)), (&apart, 20_160, (1_000, 510))],
    );
    // Rounds of 65,536 minutes: in 16 bits they would have none.
    let rounds = [(20_160, 5), (20_160, 7), (20_160, 9), (5_056, 3)];
    most(checks, &[(&rounds, 5_056, (9, 2)), (&rounds, 5_057, (9, 2)), (&rounds, 20_160, (9, 2))]);
    least(checks, &[(&rounds, 20_159, (0, 0)), (&rounds, 20_160, (3, 2)), (&rounds, 5_056, (0, 0))]);
}

fn absent_rates(checks: &mut Checks) {
    let (size, gap) = ((1, 9), (1, 20));
    let supply = supply_only(size, gap, (4, 5));
    let demand = demand_only(size, gap, (4, 10));
    checks.margins("no rate", &no_rates(size, gap), &THREE, Ok([None, None]));
    checks.margins("a supply rate", &supply, &THREE, Ok([Some((4, 2)), None]));
    checks.margins("a demand rate", &demand, &THREE, Ok([None, Some((1, 2))]));
    checks.margins("both", &both_rates(size, gap, (4, 5), (4, 10)), &THREE, Ok([Some((4, 2)), Some((1, 2))]));
    checks.margins("both, of as many minutes", &both_rates(size, gap, (1, 9), (9, 9)), &THREE, Ok([Some((7, 0)), Some((0, 2))]));
    // Neither a duration nor a second range is a rate.
    let lasting = Spec { duration: Some((1, 60)), ..with_second(&no_rates(size, (1, 5)), (10, 20)) };
    checks.margins("a duration and a second range", &lasting, &THREE, Ok([None, None]));
    checks.margins(
        "a second range, and R",
        &with_second(&supply_only(size, (1, 5), (4, 5)), (10, 20)),
        &THREE,
        Ok([Some((4, 2)), None]),
    );
}

fn margins_refused(checks: &mut Checks) {
    let rated = both_rates((3, 7), (5, 30), (6, 20), (100, 20));
    for (name, pairs, number) in BEFORE_RATES {
        checks.margins(name, &rated, pairs, Err(number));
        checks.margins(name, &no_rates((3, 7), (5, 30)), pairs, Err(number));
    }
    checks.margins("gap 0", &rated, &[(10, 3), (0, 3)], Err(13));
    checks.margins("size 0", &rated, &[(10, 3), (10, 0)], Err(14));
    checks.margins("a gap between the ranges", &with_second(&rated, (60, 90)), &[(30, 3), (31, 3)], Err(13));
    checks.margins("gaps of both ranges", &with_second(&rated, (60, 90)), &[(30, 3), (60, 4)], Ok([Some((4, 1)), Some((0, 0))]));
    checks.margins("15 and 16", &rated, &[(10, 3), (12, 7)], Ok([Some((10, 0)), Some((3, 1))]));
    for count in TOO_MANY {
        checks.leeway_out_of_reach(&rated, count);
    }
    checks.refused_files();
}

/// The tolerance of one pair of each gap, alone and beside one that has as much or more.
fn gaps(checks: &mut Checks, spec: &Spec, wanted: &[(u16, u64)]) {
    for &(gap, lateness) in wanted {
        let name = format!("gaps {:?} and {:?}, gap {gap}", spec.gap, spec.second);
        checks.tolerance(&name, spec, &[(gap, 3)], Ok(lateness));
        let others = wanted.iter().filter(|(_, other)| *other >= lateness);
        for &(other, _) in others {
            checks.tolerance(&name, spec, &[(other, 3), (gap, 7)], Ok(lateness));
            checks.tolerance(&name, spec, &[(gap, 7), (other, 3), (other, 3)], Ok(lateness));
        }
    }
}

fn gaps_of_one_range(checks: &mut Checks) {
    let spec = |gap| no_rates((3, 7), gap);
    gaps(checks, &spec((5, 15)), &[(5, 0), (6, 1), (9, 4), (10, 5), (11, 4), (14, 1), (15, 0)]);
    gaps(checks, &spec((7, 7)), &[(7, 0)]);
    // A gap of 0 is below every range.
    gaps(checks, &spec((1, 20_160)), &[(1, 0), (2, 1), (1_440, 1_439), (1_441, 1_440), (18_720, 1_440), (18_721, 1_439)]);
    gaps(checks, &spec((1, 20_160)), &[(20_159, 1), (20_160, 0)]);
    gaps(checks, &spec((1_000, 3_880)), &[(2_440, 1_440), (2_439, 1_439), (2_441, 1_439)]);
    gaps(checks, &spec((1_000, 3_879)), &[(2_440, 1_439), (2_439, 1_439)]);
    let mut many = vec![(1_500, 7); 512];
    checks.tolerance("512 pairs", &spec((1, 20_160)), &many, Ok(1_440));
    many[511].0 = 1_440;
    checks.tolerance("512 pairs, the last gap shorter", &spec((1, 20_160)), &many, Ok(1_439));
    many[511].0 = 20_159;
    checks.tolerance("512 pairs, the last gap longer", &spec((1, 20_160)), &many, Ok(1));
}

fn gaps_of_two_ranges(checks: &mut Checks) {
    let spec = |first, second| with_second(&no_rates((3, 7), first), second);
    // Of the first range alone 10 has 5, 12 has 3, and 15 none.
    gaps(
        checks,
        &spec((5, 15), (16, 90)),
        &[(5, 0), (10, 5), (12, 7), (15, 10), (16, 11), (47, 42), (48, 42), (49, 41), (90, 0)],
    );
    // 16 is in neither.
    gaps(checks, &spec((5, 15), (17, 90)), &[(10, 5), (12, 3), (15, 0), (17, 0), (18, 1), (53, 36), (54, 36), (60, 30)]);
    gaps(checks, &spec((5, 15), (60, 90)), &[(10, 5), (15, 0), (60, 0), (74, 14), (75, 15), (76, 14)]);
    // With 25 the ends are in either range again, but what lies between is not.
    gaps(checks, &spec((5, 50), (60, 90)), &[(40, 10), (28, 22), (27, 22), (50, 0), (75, 15)]);
    gaps(checks, &spec((1, 9_999), (10_001, 20_160)), &[(8_559, 1_440), (8_560, 1_439), (11_441, 1_440), (11_440, 1_439)]);
    gaps(checks, &spec((1, 10_000), (10_001, 20_160)), &[(9_999, 1_440), (10_000, 1_440), (10_001, 1_440), (18_721, 1_439)]);
    gaps(checks, &spec((5, 5), (6, 7)), &[(5, 0), (6, 1), (7, 0)]);
}

/// A cycle, a supply rate, a demand rate, and its tolerance; or the number that the check of it gives.
type Rated<'a> = (&'a [(u16, u16)], Option<(u64, u64)>, Option<(u64, u64)>, Result<u64, u32>);

fn rated(checks: &mut Checks, rows: &[Rated]) {
    for &(pairs, supply, demand, wanted) in rows {
        let name = format!("{}, B and R {supply:?}, L and P {demand:?}", shown(pairs));
        checks.tolerance(&name, &Spec { supply, demand, ..no_rates(SIZES, GAPS) }, pairs, wanted);
    }
}

/// One report in R + J minutes, or two; J is less than the gap.
fn supply_rates(checks: &mut Checks) {
    let rows = [
        ((5, 1), Ok(9)),
        ((5, 2), Ok(8)),
        ((5, 3), Ok(7)),
        ((5, 10), Ok(0)),
        ((5, 11), Err(15)),
        ((10, 11), Ok(9)),
        ((10, 15), Ok(5)),
        ((10, 20), Ok(0)),
        ((10, 21), Err(15)),
    ];
    rated(checks, &rows.map(|(supply, wanted)| (&EVEN[..], Some(supply), None, wanted)));
}

/// One report in P - J minutes, or two.
fn demand_rates(checks: &mut Checks) {
    let rows = [
        ((5, 9), Err(16)),
        ((5, 10), Ok(0)),
        ((5, 15), Ok(5)),
        ((5, 18), Ok(8)),
        ((5, 19), Ok(9)),
        ((5, 30), Ok(9)),
        ((10, 19), Err(16)),
        ((10, 20), Ok(0)),
        ((10, 26), Ok(6)),
    ];
    rated(checks, &rows.map(|(demand, wanted)| (&EVEN[..], None, Some(demand), wanted)));
}

fn supply_and_demand(checks: &mut Checks) {
    let rows = [((5, 3), (5, 15), 5), ((5, 6), (5, 15), 4), ((5, 5), (5, 15), 5), ((5, 1), (5, 19), 9)];
    rated(checks, &rows.map(|(supply, demand, lateness)| (&EVEN[..], Some(supply), Some(demand), Ok(lateness))));
}

/// The first gap has room for 2 minutes.
fn rates_of_three_pairs(checks: &mut Checks) {
    let rows = [
        (Some((6, 5)), None, Ok(2)),
        (Some((5, 5)), None, Ok(0)),
        (Some((4, 5)), None, Ok(0)),
        (Some((3, 5)), None, Err(15)),
        (None, Some((3, 18)), Ok(2)),
        (None, Some((4, 18)), Ok(0)),
        (None, Some((7, 18)), Ok(0)),
        (None, Some((7, 19)), Ok(1)),
        (None, Some((7, 20)), Ok(2)),
        (None, Some((8, 18)), Err(16)),
        (Some((6, 5)), Some((7, 19)), Ok(1)),
    ];
    rated(checks, &rows.map(|(supply, demand, wanted)| (&THREE[..], supply, demand, wanted)));
}

/// R + J is above the greatest R: with 1,440 it is 21,600.
fn supply_limits(checks: &mut Checks) {
    let rows = [
        ([(2_100, 1_000)], 10_000, Ok(840)),
        ([(2_100, 1_000)], 11_000, Ok(1_440)),
        ([(1_441, 1_000)], 14_000, Ok(14)),
        ([(1_441, 1_000)], 15_000, Ok(1_440)),
        ([(1_008, 1_000)], 20_000, Ok(0)),
        ([(1_008, 1_000)], 19_999, Err(15)),
        ([(1_000, 950)], 20_000, Ok(840)),
        ([(18_720, 1)], 2, Ok(1_440)),
    ];
    rated(checks, &rows.each_ref().map(|(pairs, b, wanted)| (&pairs[..], Some((*b, 20_160)), None, *wanted)));
}

/// In the last rows P is just above the lateness, or the lateness would be above it.
fn demand_limits(checks: &mut Checks) {
    let rows = [
        ([(1_872, 1_000)], (10_000, 20_160), Ok(1_440)),
        ([(1_873, 1_000)], (10_000, 20_160), Ok(1_430)),
        ([(1_008, 1_000)], (20_000, 20_160), Ok(0)),
        ([(1_009, 1_000)], (20_000, 20_160), Err(16)),
        ([(1_000, 1_000)], (20_000, 20_160), Ok(160)),
        ([(960, 1_000)], (20_000, 20_160), Ok(959)),
        ([(1_441, 1_000)], (1, 2_881), Ok(1_440)),
        ([(1_441, 1_000)], (1, 2_880), Ok(1_439)),
        ([(1_441, 1_000)], (1, 1_442), Ok(1)),
        ([(1_441, 1_000)], (1, 1_441), Ok(0)),
        ([(1_441, 1_000)], (1, 1_440), Err(16)),
    ];
    rated(checks, &rows.each_ref().map(|(pairs, demand, wanted)| (&pairs[..], None, Some(*demand), *wanted)));
}

/// The two largest lie at the join.
fn rates_over_the_join(checks: &mut Checks) {
    let mut pairs = [(1_500, 7); 512];
    (pairs[0].1, pairs[511].1) = (1_000, 990);
    let rows = [
        ((1_990, 61), (7, 2_940), Ok(1_440)),
        ((1_989, 61), (7, 2_940), Ok(1_439)),
        ((1_990, 61), (7, 2_939), Ok(1_439)),
        ((1_989, 61), (8, 2_940), Err(16)),
        ((999, 1), (7, 2_940), Err(15)),
    ];
    rated(checks, &rows.map(|(supply, demand, wanted)| (&pairs[..], Some(supply), Some(demand), wanted)));
}

/// By the end of a range, by R, and by P.
fn each_tolerance(checks: &mut Checks) {
    for lateness in 0..=1_440 {
        let (gaps, minutes) = (no_rates(SIZES, GAPS), lateness as u16);
        checks.tolerance("the lower end", &gaps, &[(minutes + 1, 3)], Ok(lateness));
        checks.tolerance("the upper end", &gaps, &[(20_160 - minutes, 3)], Ok(lateness));
        let (supply, demand) = ((10, 2_000 - lateness), (10, 2_000 + lateness));
        checks.tolerance("R", &supply_only(SIZES, GAPS, supply), &[(2_000, 10)], Ok(lateness));
        checks.tolerance("P", &demand_only(SIZES, GAPS, demand), &[(2_000, 10)], Ok(lateness));
    }
    // One more than can be.
    checks.tolerance("the lower end", &no_rates(SIZES, GAPS), &[(1_442, 3)], Ok(1_440));
    checks.tolerance("the upper end", &no_rates(SIZES, GAPS), &[(18_719, 3)], Ok(1_440));
    checks.tolerance("R", &supply_only(SIZES, GAPS, (10, 559)), &[(2_000, 10)], Ok(1_440));
    checks.tolerance("P", &demand_only(SIZES, GAPS, (10, 3_441)), &[(2_000, 10)], Ok(1_440));
    checks.tolerance("both", &both_rates(SIZES, GAPS, (10, 561), (10, 3_441)), &[(2_000, 10)], Ok(1_439));
}

fn tolerances_refused(checks: &mut Checks) {
    let rated = both_rates((3, 7), (5, 30), (6, 20), (100, 20));
    for (name, pairs, number) in BEFORE_RATES {
        checks.tolerance(name, &rated, pairs, Err(number));
    }
    checks.tolerance("both rates broken", &rated, &[(10, 7), (12, 3)], Err(15));
    checks.tolerance("the demand rate broken", &rated, &[(10, 3), (12, 3)], Err(16));
    checks.tolerance("a gap between the ranges", &with_second(&rated, (60, 90)), &[(30, 3), (31, 3)], Err(13));
    // A minute late the gap would be refused, before the size.
    checks.tolerance("14 of reports on time", &rated, &[(5, 2), (30, 3)], Err(14));
}

/// Sizes 3 to 7: one report of the smallest size is a plan.
fn plans_of_one_range(checks: &mut Checks) {
    let rows: [((u64, u64), u64, u64); 9] = [
        ((5, 15), 5, 10),
        ((5, 14), 4, 10),
        ((7, 7), 0, 7),
        ((1, 2), 0, 2),
        ((1, 3), 1, 2),
        ((1, 2_881), 1_440, 1_441),
        ((1, 2_880), 1_439, 1_441),
        ((1_000, 3_879), 1_439, 2_440),
        // Of many gaps that are as tolerant the longest.
        ((1, 20_160), 1_440, 18_720),
    ];
    for (gap, lateness, s) in rows {
        checks.tolerant_plan(&format!("gaps {gap:?}"), &no_rates((3, 7), gap), Ok([lateness, s, 1, 3]));
    }
}

/// The same size.
fn plans_of_two_ranges(checks: &mut Checks) {
    let rows: [((u64, u64), (u64, u64), u64, u64); 8] = [
        // Ranges that touch are one.
        ((5, 15), (16, 90), 42, 48),
        ((5, 5), (6, 7), 1, 6),
        ((5, 15), (17, 90), 36, 54),
        ((5, 15), (60, 90), 15, 75),
        // The first has more room, though the second has the longer gaps.
        ((5, 50), (60, 90), 22, 28),
        ((10, 15), (17, 22), 2, 20),
        ((10, 16), (18, 22), 3, 13),
        ((1, 9_999), (10_001, 20_160), 1_440, 18_720),
    ];
    for (first, second, lateness, s) in rows {
        let spec = with_second(&no_rates((3, 7), first), second);
        checks.tolerant_plan(&format!("gaps {first:?} and {second:?}"), &spec, Ok([lateness, s, 1, 3]));
    }
}

/// B in R.
fn plans_by_supply(checks: &mut Checks) {
    for (rate, wanted) in [
        ((3, 10), Ok([5, 15, 1, 3])),
        ((2, 20), Err(30)),
        ((6, 40), Ok([0, 20, 1, 3])),
        ((6, 41), Err(30)),
        ((6, 21), Ok([6, 14, 1, 3])),
    ] {
        checks.tolerant_plan(&format!("supply {rate:?}"), &supply_only((3, 9), (6, 20), rate), wanted);
    }
}

/// L in P.
fn plans_by_demand(checks: &mut Checks) {
    for (rate, wanted) in [
        ((9, 20), Ok([7, 13, 1, 9])),
        ((1, 15), Ok([4, 11, 1, 1])),
        ((1, 6), Ok([0, 6, 1, 1])),
        ((1, 5), Err(30)),
        ((10, 20), Ok([2, 9, 1, 5])),
        ((28, 20), Err(30)),
    ] {
        checks.tolerant_plan(&format!("demand {rate:?}"), &demand_only((1, 9), (6, 20), rate), wanted);
    }
}

fn plans_by_rates_and_ranges(checks: &mut Checks) {
    // Sample A, and with a wider range.
    let a = |gap, b| both_rates((3, 10), gap, (b, 220), (17, 158));
    checks.tolerant_plan("A", &a((45, 55), 29), Ok([5, 50, 3, 17]));
    checks.tolerant_plan("A with 28", &a((45, 55), 28), Err(30));
    // Two ranges: the rates take no gap of the second, or only shorter ones of it, or those on both sides of the cut.
    let thin = |rate, second| with_second(&demand_only((3, 7), (5, 15), rate), second);
    checks.tolerant_plan("the first in place of the second", &thin((7, 16), (60, 90)), Ok([5, 10, 1, 7]));
    checks.tolerant_plan("a shorter one of the second", &thin((7, 70), (60, 90)), Ok([5, 65, 1, 7]));
    checks.tolerant_plan("the second emptied", &thin((7, 90), (17, 18)), Ok([5, 10, 1, 3]));
    checks.tolerant_plan("over the cut", &thin((7, 21), (16, 90)), Ok([8, 13, 1, 7]));
}

fn plans_of_several_pairs(checks: &mut Checks) {
    // 5 records in two reports, on time and 3 minutes late.
    checks.tolerant_plan("5 in two", &both_rates((2, 9), (10, 10), (5, 20), (5, 20)), Ok([0, 10, 2, 5]));
    checks.tolerant_plan("5 in two, late", &both_rates((2, 9), (7, 13), (5, 17), (5, 23)), Ok([3, 10, 2, 5]));
    checks.tolerant_plan("5 in two, a minute more", &both_rates((2, 9), (7, 13), (5, 18), (5, 23)), Ok([2, 10, 2, 5]));
    let at_one = |records, minutes| both_rates((1, 2), (1, 1), (records, minutes), (records, minutes));
    checks.tolerant_plan("512 pairs", &at_one(513, 512), Ok([0, 1, 512, 513]));
    checks.tolerant_plan("513 pairs", &at_one(514, 513), Err(30));
    // A minute late, at gap 3 alone; 513 pairs would be too many, and on time 4 will do.
    let late = |reports: u64, records: u64| both_rates((1, 4), (2, 4), (records, 3 * reports - 1), (records, 3 * reports + 1));
    checks.tolerant_plan("512 pairs, late", &late(512, 1_537), Ok([1, 3, 512, 1_537]));
    checks.tolerant_plan("513 pairs, late", &late(513, 1_540), Ok([0, 4, 1, 4]));
    let large = both_rates((1, 1_000), (2, 2_882), (15_000, 20_160), (12_000, 20_160));
    checks.tolerant_plan("1,440 minutes late", &large, Ok([1_440, 1_442, 1, 1_000]));
    // Twenty reports of 1,000, in 20,160 - 959 minutes or more, or in at most 20,160 + 1,440.
    let most = (20_000, 20_160);
    checks.tolerant_plan("the greatest L and P", &demand_only((1, 1_000), (1, 20_160), most), Ok([959, 960, 1, 1_000]));
    checks.tolerant_plan(
        "the greatest B and R",
        &supply_only((1_000, 1_000), (1, 1_440 + 2_700), most),
        Ok([1_440, 2_700, 1, 1_000]),
    );
    checks.tolerant_plan("both", &both_rates((1, 1_000), (1, 20_160), most, most), Ok([0, 1_008, 1, 1_000]));
}

/// By a range, by P, and by R.
fn plans_of_each_lateness(checks: &mut Checks) {
    for lateness in 0..=1_440 {
        let range = no_rates((3, 7), (3, 3 + 2 * lateness));
        checks.tolerant_plan("a range", &range, Ok([lateness, 3 + lateness, 1, 3]));
        let demand = |p| demand_only((1, 9), (1, 20_160), (9, p));
        checks.tolerant_plan("P", &demand(2 * lateness + 1), Ok([lateness, lateness + 1, 1, 9]));
        checks.tolerant_plan("P", &demand(2 * lateness + 2), Ok([lateness, lateness + 2, 1, 9]));
        let supply = supply_only((3, 3), (1, 4_000), (3, 4_000 - 2 * lateness));
        checks.tolerant_plan("R", &supply, Ok([lateness, 4_000 - lateness, 1, 3]));
    }
    checks.tolerant_plan("P", &demand_only((1, 9), (1, 20_160), (9, 2_883)), Ok([1_440, 1_443, 1, 9]));
    checks.tolerant_plan("R", &supply_only((3, 3), (1, 4_000), (3, 1_119)), Ok([1_440, 2_560, 1, 3]));
}

fn plans_refused(checks: &mut Checks) {
    checks.tolerant_plan("one size above B", &supply_only((3, 7), (5, 30), (2, 1)), Err(30));
    checks.tolerant_plan("L above what P can hold", &demand_only((3, 7), (5, 30), (43, 30)), Err(30));
    checks.tolerant_plan("L as much as P can hold", &demand_only((3, 7), (5, 30), (42, 30)), Ok([0, 5, 1, 7]));
    // The duration is not asked for, nor consistency.
    let lasting = Spec { duration: Some((1, 1)), ..both_rates((1, 9), (30, 30), (8, 60), (3, 60)) };
    checks.tolerant_plan("a duration shorter than P", &lasting, Ok([0, 30, 1, 2]));
}
