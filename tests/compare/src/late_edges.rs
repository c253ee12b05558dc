//! Document 02, Req 09: reports that arrive late. Every answer is worked out by hand from the documents, and asked of the library and
//! of the reference.

use crate::checks::{self, both_rates, demand_only, no_rates, supply_only, with_second, Checks, BEFORE_RATES};
use crate::group::Runner;
use reference::Spec;

pub fn all(runner: &mut Runner) {
    checks::group(runner, "late reports: gaps that delays just keep in one range", gaps_of_one_range);
    checks::group(runner, "late reports: gaps that delays just keep in either of two", gaps_of_two_ranges);
    checks::group(runner, "late reports: ranges that touch", gaps_of_ranges_that_touch);
    checks::group(runner, "late reports: the order of the refusals", order);
    checks::group(runner, "late reports: stretches just full", full);
    checks::group(runner, "late reports: stretches just thin", thin);
    checks::group(runner, "late reports: stretches over the join of 512 pairs", joins);
}

/// Gaps that are allowed with so much lateness, and gaps that are not: alone, and first, in the middle and last of a round with some that
/// are.
fn gaps(checks: &mut Checks, name: &str, spec: &Spec, lateness: u32, allowed: &[u16], others: &[u16]) {
    for (gap, answer) in allowed.iter().map(|&gap| (gap, 0)).chain(others.iter().map(|&gap| (gap, 13))) {
        let name = format!("{name}, gap {gap}");
        checks.late(&name, spec, &[(gap, 3)], lateness, answer);
        if let (Some(&first), Some(&last)) = (allowed.first(), allowed.last()) {
            checks.late(&name, spec, &[(gap, 3), (first, 7), (last, 3)], lateness, answer);
            checks.late(&name, spec, &[(first, 3), (gap, 7), (last, 3)], lateness, answer);
            checks.late(&name, spec, &[(last, 3), (first, 7), (gap, 3)], lateness, answer);
        }
    }
}

fn gaps_of_one_range(checks: &mut Checks) {
    let rows: [(&str, (u64, u64), u32, &[u16], &[u16]); 14] = [
        ("5 to 15", (5, 15), 0, &[5, 15], &[4, 16]),
        ("5 to 15", (5, 15), 1, &[6, 14], &[5, 15, 16]),
        ("5 to 15", (5, 15), 5, &[10], &[9, 11, 5, 15]),
        ("5 to 15", (5, 15), 6, &[], &[9, 10, 11]),
        // Where a report can arrive with the one before it, or before that.
        ("1 to 90", (1, 90), 1, &[2, 89], &[0, 1, 90]),
        ("1 to 90", (1, 90), 10, &[11, 80], &[0, 1, 9, 10, 81]),
        ("1 to 90", (1, 90), 44, &[45, 46], &[44, 47]),
        ("1 to 90", (1, 90), 45, &[], &[44, 45, 46, 47]),
        ("every gap", (1, 20_160), 1, &[2, 20_159], &[0, 1, 20_160, 20_161, 65_535]),
        ("every gap", (1, 20_160), 1_439, &[1_440, 18_721], &[1_439, 18_722]),
        // 64,096 + 1,440 and 65,535 + 1,440 are above 16 bits.
        ("every gap", (1, 20_160), 1_440, &[1_441, 10_000, 18_720], &[0, 1, 1_440, 18_721, 20_160, 64_096, 65_535]),
        ("a range as long as the delays", (1_000, 3_880), 1_440, &[2_440], &[2_439, 2_441]),
        ("a range one gap shorter", (1_000, 3_879), 1_440, &[], &[2_439, 2_440]),
        ("a range below the lateness", (1, 1_439), 1_440, &[], &[1, 720, 1_439, 1_440, 1_441]),
    ];
    for (name, gap, lateness, allowed, others) in rows {
        gaps(checks, name, &no_rates((3, 7), gap), lateness, allowed, others);
    }
}

fn gaps_of_two_ranges(checks: &mut Checks) {
    let rows: [(&str, (u64, u64), (u64, u64), u32, &[u16], &[u16]); 12] = [
        ("two shifts", (5, 15), (60, 90), 0, &[5, 15, 60, 90], &[4, 16, 59, 91]),
        ("two shifts", (5, 15), (60, 90), 1, &[6, 14, 61, 89], &[5, 15, 16, 59, 60, 90]),
        ("two shifts", (5, 15), (60, 90), 5, &[10, 65, 85], &[9, 11, 15, 64, 86]),
        ("two shifts, the first too short", (5, 15), (60, 90), 6, &[66, 84], &[9, 10, 11, 65, 85]),
        ("two shifts, the first too short", (5, 15), (60, 90), 15, &[75], &[10, 74, 76]),
        ("two shifts, both too short", (5, 15), (60, 90), 16, &[], &[10, 74, 75, 76]),
        // 40 becomes 15 and 65, and all between; so does a 40 that is in the first range.
        ("the ends in either range", (5, 15), (60, 90), 25, &[], &[37, 40, 75]),
        ("the ends in either range, and the gap", (5, 50), (60, 90), 25, &[], &[30, 35, 40, 75]),
        ("a long first range", (5, 50), (60, 90), 10, &[15, 40, 70, 80], &[14, 41, 50, 55, 60, 69, 81]),
        ("the second too short", (5, 50), (60, 90), 22, &[27, 28], &[26, 29, 40, 75]),
        ("one gap left out", (5, 15), (17, 90), 1, &[6, 14, 18, 89], &[5, 15, 16, 17, 90]),
        ("one gap left out", (5, 15), (17, 90), 10, &[27, 80], &[14, 15, 16, 17, 18, 26, 81]),
    ];
    for (name, gap, second, lateness, allowed, others) in rows {
        gaps(checks, name, &with_second(&no_rates((3, 7), gap), second), lateness, allowed, others);
    }
    let but_one = with_second(&no_rates((3, 7), (1, 9_999)), (10_001, 20_160));
    let (allowed, others) = ([1_441, 8_559, 11_441, 18_720], [1_440, 8_560, 9_999, 10_000, 10_001, 11_440, 18_721]);
    gaps(checks, "every gap but one", &but_one, 1_440, &allowed, &others);
}

fn gaps_of_ranges_that_touch(checks: &mut Checks) {
    // Wherever 5 to 90 is cut, the gaps are those of the whole.
    for cut in 5..90 {
        let spec = with_second(&no_rates((3, 7), (5, cut)), (cut + 1, 90));
        for (lateness, least, most) in [(0, 5, 90), (1, 6, 89), (10, 15, 80), (41, 46, 49), (42, 47, 48)] {
            gaps(checks, &format!("cut after {cut}"), &spec, lateness, &[least, most], &[least - 1, most + 1]);
        }
        gaps(checks, &format!("cut after {cut}"), &spec, 43, &[], &[46, 47, 48, 49]);
    }
    let touching = with_second(&no_rates((3, 7), (5, 15)), (16, 90));
    gaps(checks, "on both sides of the cut", &touching, 10, &[15, 16, 17, 25, 26], &[5, 14]);
    let every = with_second(&no_rates((3, 7), (1, 10_000)), (10_001, 20_160));
    gaps(checks, "every gap", &every, 1_440, &[1_441, 9_999, 10_000, 10_001, 18_720], &[1_440, 18_721]);
    let two_gaps = with_second(&no_rates((3, 7), (5, 5)), (6, 6));
    gaps(checks, "5 and 6", &two_gaps, 0, &[5, 6], &[4, 7]);
    gaps(checks, "5 and 6", &two_gaps, 1, &[], &[4, 5, 6, 7]);
    gaps(checks, "5 to 7", &with_second(&no_rates((3, 7), (5, 5)), (6, 7)), 1, &[6], &[5, 7]);
}

/// More than 1,440; some are less in 8 or 16 bits.
const TOO_LATE: [u32; 9] = [1_441, 1_442, 20_160, 65_535, 65_536, 65_541, 0x1_0000 + 1_440, 0x8000_0000, u32::MAX];

fn order(checks: &mut Checks) {
    let rated = both_rates((3, 7), (5, 30), (6, 20), (100, 20));
    let of_rates: [(&str, &[(u16, u16)], u32); 2] =
        [("both rates", &[(10, 7), (12, 3)], 15), ("the demand rate", &[(10, 3), (12, 3)], 16)];
    for (name, pairs, answer) in BEFORE_RATES.into_iter().chain(of_rates) {
        checks.late(name, &rated, pairs, 0, answer);
        for lateness in TOO_LATE {
            checks.late(&format!("26 before {answer}"), &rated, pairs, lateness, 26);
        }
    }
    for (name, pairs, _) in &BEFORE_RATES[..3] {
        checks.late(&format!("12 before all else, {name}"), &rated, pairs, 1_440, 12);
    }
    checks.late("passed", &no_rates((3, 7), (1, 20_160)), &[(1_441, 3)], 1_440, 0);
    for lateness in TOO_LATE {
        checks.late("else passed", &no_rates((3, 7), (1, 20_160)), &[(10_000, 3)], lateness, 26);
    }
    // What only some delays break, and what is broken without any.
    checks.late("13 by delays before 14", &rated, &[(6, 2), (12, 3)], 1, 14);
    checks.late("13 by delays before 14", &rated, &[(6, 2), (12, 3)], 2, 13);
    checks.late("14 before 15 by delays", &rated, &[(10, 2), (10, 3)], 1, 14);
    checks.late("15 by delays before 16", &rated, &[(10, 3)], 0, 16);
    checks.late("15 by delays before 16", &rated, &[(10, 3)], 1, 15);
    checks.refused_files();
}

/// Rounds of one report, of which a stretch holds many.
const EVEN: [(u16, u16); 1] = [(10, 5)];
const SHORT: [(u16, u16); 1] = [(2, 3)];
/// Reports at 0, 3 and 8 of 1, 2 and 4 records, in a round of 18 minutes.
const THREE: [(u16, u16); 3] = [(3, 1), (5, 2), (10, 4)];

fn full(checks: &mut Checks) {
    // R, the lateness, and the most that R minutes can hold.
    let rows: [(&[(u16, u16)], u64, u32, u64); 27] = [
        (&EVEN, 1, 0, 5),
        (&EVEN, 1, 9, 5),
        (&EVEN, 2, 9, 10),
        (&EVEN, 10, 0, 5),
        (&EVEN, 10, 1, 10),
        (&EVEN, 20, 0, 10),
        (&EVEN, 20, 1, 15),
        (&EVEN, 20, 9, 15),
        (&EVEN, 22, 9, 20),
        (&SHORT, 1_000, 0, 1_500),
        (&SHORT, 1_000, 1, 1_503),
        (&SHORT, 1_001, 1, 1_503),
        (&THREE, 5, 0, 4),
        (&THREE, 5, 1, 6),
        (&THREE, 6, 2, 6),
        (&THREE, 7, 2, 7),
        (&THREE, 18, 0, 7),
        (&THREE, 18, 1, 11),
        (&THREE, 18, 2, 11),
        (&THREE, 36, 2, 18),
        // R + 1,440 is above the greatest R: 21,600 minutes.
        (&[(2_100, 1_000)], 20_160, 0, 10_000),
        (&[(2_100, 1_000)], 20_160, 1_440, 11_000),
        (&[(1_441, 1_000)], 20_160, 1_440, 15_000),
        (&[(1_542, 1_000)], 20_160, 1_440, 15_000),
        (&[(1_543, 1_000)], 20_160, 1_440, 14_000),
        (&[(2, 1)], 20_160, 1, 10_081),
        (&[(18_720, 7), (18_720, 9)], 20_160, 1_440, 16),
    ];
    for (pairs, r, lateness, most) in rows {
        for (b, answer) in [(most, 0), (most - 1, 15), (most + 1, 0)] {
            let spec = supply_only((1, 1_000), (1, 20_160), (b, r));
            checks.late(&format!("{pairs:?}, B {b}, R {r}"), &spec, pairs, lateness, answer);
        }
        let no_rate = no_rates((1, 1_000), (1, 20_160));
        checks.late(&format!("{pairs:?}, no rate"), &no_rate, pairs, lateness, 0);
    }
}

fn thin(checks: &mut Checks) {
    // P, the lateness, and the least that P minutes can hold.
    let rows: [(&[(u16, u16)], u64, u32, u64); 29] = [
        (&EVEN, 10, 0, 5),
        (&EVEN, 10, 1, 0),
        (&EVEN, 11, 1, 5),
        (&EVEN, 20, 0, 10),
        (&EVEN, 20, 1, 5),
        (&EVEN, 19, 9, 5),
        (&EVEN, 18, 9, 0),
        (&EVEN, 28, 9, 5),
        (&EVEN, 29, 9, 10),
        // P about the lateness: a stretch can be empty.
        (&EVEN, 1, 9, 0),
        (&EVEN, 5, 9, 0),
        (&EVEN, 8, 9, 0),
        (&EVEN, 9, 9, 0),
        (&EVEN, 10, 9, 0),
        (&[(1_441, 1_000)], 1_439, 1_440, 0),
        (&[(1_441, 1_000)], 1_440, 1_440, 0),
        (&[(1_441, 1_000)], 1_441, 1_440, 0),
        (&[(1_441, 1_000)], 2_880, 1_440, 0),
        (&[(1_441, 1_000)], 2_881, 1_440, 1_000),
        (&SHORT, 1_000, 0, 1_500),
        (&SHORT, 1_000, 1, 1_497),
        (&SHORT, 1_001, 1, 1_500),
        (&THREE, 18, 0, 7),
        (&THREE, 18, 1, 3),
        (&THREE, 36, 2, 10),
        (&THREE, 12, 2, 1),
        (&THREE, 11, 2, 0),
        (&[(1_872, 1_000)], 20_160, 1_440, 10_000),
        (&[(1_873, 1_000)], 20_160, 1_440, 9_000),
    ];
    for (pairs, p, lateness, least) in rows {
        for (l, answer) in [(least, 0), (least + 1, 16), (least.saturating_sub(1), 0)].into_iter().filter(|&(l, _)| l > 0) {
            let spec = demand_only((1, 1_000), (1, 20_160), (l, p));
            checks.late(&format!("{pairs:?}, L {l}, P {p}"), &spec, pairs, lateness, answer);
        }
    }
}

/// 511 reports of 7 records, but for the first, and one of 990 at the end, each 1,500 minutes before the next.
fn joins(checks: &mut Checks) {
    let mut pairs = vec![(1_500, 7); 512];
    (pairs[0].1, pairs[511].1) = (1_000, 990);
    let spec = |supply, demand| Spec { supply, demand, ..no_rates((7, 1_000), (1, 20_160)) };
    for (name, supply, demand, lateness, answer) in [
        ("1,500 minutes, one report", Some((1_000, 60)), None, 1_440, 0),
        ("1,501 minutes, the two at the join", Some((1_990, 61)), None, 1_440, 0),
        ("1,501 minutes, B one less", Some((1_989, 61)), None, 1_440, 15),
        ("the same, a minute less late", Some((1_989, 61)), None, 1_439, 0),
        ("21,600 minutes, 15 reports", Some((2_081, 20_160)), None, 1_440, 0),
        ("21,600 minutes, B one less", Some((2_080, 20_160)), None, 1_440, 15),
        ("1,500 minutes, one report", None, Some((7, 2_940)), 1_440, 0),
        ("1,500 minutes, L one more", None, Some((8, 2_940)), 1_440, 16),
        ("1,499 minutes", None, Some((1, 2_939)), 1_440, 16),
        ("the same, a minute less late", None, Some((7, 2_939)), 1_439, 0),
        ("18,720 minutes, 12 reports", None, Some((84, 20_160)), 1_440, 0),
        ("18,720 minutes, L one more", None, Some((85, 20_160)), 1_440, 16),
        ("both rates", Some((1_990, 61)), Some((7, 2_940)), 1_440, 0),
        ("both rates, B one less", Some((1_989, 61)), Some((7, 2_940)), 1_440, 15),
        ("both rates, L one more", Some((1_990, 61)), Some((8, 2_940)), 1_440, 16),
        ("both rates broken", Some((1_989, 61)), Some((8, 2_940)), 1_440, 15),
    ] {
        checks.late(name, &spec(supply, demand), &pairs, lateness, answer);
    }
    // The last gap, over the join, is the only one that is too short for the delays.
    pairs[511].0 = 1_440;
    checks.late("the gap over the join", &spec(None, None), &pairs, 1_440, 13);
    checks.late("the gap over the join", &spec(None, None), &pairs, 1_439, 0);
}
