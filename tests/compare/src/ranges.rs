//! Document 02, Req 06: a second range of gaps. Every answer is worked out by hand from the documents, or by a rule that stands here,
//! and asked of the library and of the reference.

use crate::checks::{self, both_rates, demand_only, no_rates, supply_only, with_second, Checks};
use crate::group::Runner;
use reference::feasibility::Failure::{self, Inconsistent, Refused};
use reference::{spec, Spec};

pub fn all(runner: &mut Runner) {
    checks::group(runner, "two ranges: every four bounds of a few", every_four_bounds);
    checks::group(runner, "two ranges: what comes before 24", before_24);
    checks::group(runner, "two ranges: what 25 comes before", after_25);
    checks::group(runner, "two ranges: the pair stands after the duration", last_pair);
    checks::group(runner, "two ranges: gaps at, beside and between the bounds", gaps);
    checks::group(runner, "two ranges: stretches just full and just thin", stretches);
    checks::group(runner, "two ranges: edges of the even plan", even_plan);
    checks::group(runner, "two ranges: meters", meters);
}

/// What a specification with these bounds gets, those of the first range before those of the second.
fn answer_of(bounds: [u64; 4]) -> u32 {
    let [smin, smax, lower, upper] = bounds;
    if bounds.iter().any(|&bound| bound == 0 || bound > 20_160) {
        3
    } else if smin > smax || lower > upper {
        4
    } else if lower <= smax {
        24
    } else {
        0
    }
}

/// At the limits, one past them and near to them; small ones that touch, overlap and leave one gap between.
const BOUNDS: [u64; 9] = [0, 1, 2, 3, 4, 20_159, 20_160, 20_161, 65_535];

fn every_four_bounds(checks: &mut Checks) {
    let mut met = [0; 25];
    for number in 0..BOUNDS.len().pow(4) {
        let bounds = [0, 1, 2, 3].map(|digit| BOUNDS[number / BOUNDS.len().pow(digit) % BOUNDS.len()]);
        let [smin, smax, lower, upper] = bounds;
        let spec = with_second(&no_rates((2, 2), (smin, smax)), (lower, upper));
        let name = format!("gaps {smin} to {smax} and {lower} to {upper}");
        let answer = answer_of(bounds);
        met[answer as usize] += 1;
        if answer != 0 {
            checks.refused(&name, &spec::write(&spec), answer);
            continue;
        }
        checks.two_ranges(&name, &spec);
        checks.made(&name, &spec::write(&spec), 0);
        checks.even(&name, &spec, Ok([upper, 1, 2]));
        for gap in [0, 1, 2, 3, 4, 5, 20_158, 20_159, 20_160, 20_161, 65_535] {
            let allowed = (smin..=smax).contains(&gap) || (lower..=upper).contains(&gap);
            checks.cycle(&format!("{name}, gap {gap}"), &spec, &[(gap as u16, 2)], if allowed { 0 } else { 13 });
        }
    }
    // Six of the bounds are within the limits. They make 21 ranges, and 70 times two ranges of which the second starts above the first.
    checks.holds("accepted", met[0] == 70);
    checks.holds("3, 4 and 24", [met[3], met[4], met[24]] == [9u32.pow(4) - 6u32.pow(4), 6u32.pow(4) - 21 * 21, 21 * 21 - 70]);
}

fn before_24(checks: &mut Checks) {
    let van = no_rates((1, 10), (5, 15));
    let rated = both_rates((1, 10), (5, 15), (22, 60), (8, 90));
    let lasting = |tmin, tmax| Spec { duration: Some((tmin, tmax)), ..rated.clone() };
    for (name, spec, second, wanted) in [
        ("from smax", &van, (15, 90), 24),
        ("smax alone", &van, (15, 15), 24),
        ("from one below smax", &van, (14, 90), 24),
        ("within the first", &van, (6, 14), 24),
        ("the first once more", &van, (5, 15), 24),
        ("around the first", &van, (1, 20_160), 24),
        ("up to the first", &van, (1, 5), 24),
        ("below the first", &van, (1, 4), 24),
        ("with rates, from smax", &rated, (15, 90), 24),
        ("with all pairs, from smax", &lasting(90, 60_000), (15, 90), 24),
        // 4 comes before it,
        ("first range 15 to 5", &no_rates((1, 10), (15, 5)), (5, 90), 4),
        ("size 10 to 9", &no_rates((10, 9), (5, 15)), (15, 90), 4),
        ("duration 90 to 89", &lasting(90, 89), (15, 90), 4),
        ("second range 15 to 14", &van, (15, 14), 4),
        ("second range 4 to 1", &van, (4, 1), 4),
        ("both ranges the wrong way round", &no_rates((1, 10), (15, 5)), (6, 5), 4),
        // and 3 comes before both.
        ("second range from 0", &van, (0, 90), 3),
        ("second range 0 to 0", &van, (0, 0), 3),
        ("second range from 15 to 20,161", &van, (15, 20_161), 3),
        ("second range from 15 to 0", &van, (15, 0), 3),
        ("second range from 20,161 to 20,160", &van, (20_161, 20_160), 3),
        ("first range from 0", &no_rates((1, 10), (0, 15)), (15, 90), 3),
        ("B 0", &both_rates((1, 10), (5, 15), (0, 60), (8, 90)), (15, 90), 3),
        ("P 20,161", &both_rates((1, 10), (5, 15), (22, 60), (8, 20_161)), (15, 90), 3),
        ("Tmax 60,001", &lasting(90, 60_001), (15, 90), 3),
    ] {
        checks.refused(name, &spec::write(&with_second(spec, second)), wanted);
    }
    let mut file = spec::write(&with_second(&rated, (15, 90)));
    let of_length = |length: usize| [&file[..], &[0; 5_000]].concat()[..length].to_vec();
    for length in [1, 17, 20, 22, 25, 26, 5_000] {
        checks.refused(&format!("from smax, {length} bytes"), &of_length(length), 2);
    }
    for map in [0x6F, 0xAF, 0x2E, 0x2D] {
        file[0] = map;
        checks.refused(&format!("from smax, map {map:#04x}"), &file, 1);
    }
}

fn after_25(checks: &mut Checks) {
    let van = |supply, demand| Spec { supply, demand, ..no_rates((1, 10), (5, 15)) };
    let a = |b| both_rates((3, 10), (45, 55), (b, 220), (17, 158));
    // What the test gives without the second range; with it, 25 comes first.
    let rows: [(&str, Spec, Result<[u64; 4], Failure>); 12] = [
        ("no rate", van(None, None), Err(Refused(5))),
        ("no demand", van(Some((22, 60)), None), Err(Refused(5))),
        ("no supply", van(None, Some((8, 90))), Err(Refused(5))),
        ("no supply, smax above P", van(None, Some((8, 14))), Err(Refused(5))),
        ("dmax above B", van(Some((9, 60)), Some((8, 90))), Err(Inconsistent(3))),
        ("smax above P", van(Some((22, 10)), Some((8, 14))), Err(Inconsistent(3))),
        ("4 × 3 records above B", both_rates((3, 10), (5, 15), (11, 60), (8, 90)), Err(Inconsistent(4))),
        ("19 of 18 reports", van(Some((22, 1)), Some((181, 90))), Err(Inconsistent(5))),
        ("22 × 90 below 34 × 60", van(Some((22, 60)), Some((34, 90))), Err(Inconsistent(6))),
        ("sample F", both_rates((5, 5), (4, 4), (10, 10), (5, 20)), Err(Inconsistent(4))),
        ("sample A with 28", a(28), Err(Refused(9))),
        ("sample A", a(29), Ok([3, 158, 17, 29])),
    ];
    for (name, spec, wanted) in rows {
        checks.test(name, &spec, wanted);
        for second in [(spec.gap.1 + 1, spec.gap.1 + 1), (60, 90), (20_160, 20_160)] {
            checks.two_ranges(&format!("{name}, second range {second:?}"), &with_second(&spec, second));
        }
        // 24 comes before it.
        let too_low = with_second(&spec, (spec.gap.1, 90));
        checks.refused(&format!("{name}, second range from smax"), &spec::write(&too_low), 24);
    }
    checks.min_demand("sample A", &a(29), 0, Err(6));
    checks.max_supply("sample A", &a(29), 0, Err(6));
}

fn last_pair(checks: &mut Checks) {
    // Sizes 1 to 10, gaps 5 to 15, Tmin and Tmax, the second range. A reader that took the last two pairs for each other would plan
    // with another gap, or refuse it.
    for (name, last, even) in [
        ("either could be the second range", [60, 90, 16, 30], 30),
        ("the other way round", [16, 30, 60, 90], 90),
        ("a duration too long for a gap", [20_161, 60_000, 16, 30], 30),
        ("a duration that starts at smax", [15, 90, 16, 30], 30),
    ] {
        let spec = Spec { duration: Some((last[0], last[1])), ..with_second(&no_rates((1, 10), (5, 15)), (last[2], last[3])) };
        let numbers = [[1, 10, 5, 15], last].concat().into_iter().flat_map(|number| (number as u16).to_be_bytes());
        let file: Vec<u8> = [0x33].into_iter().chain(numbers).collect();
        checks.holds(format!("reference, the file, {name}"), spec::write(&spec) == file);
        checks.even(name, &spec, Ok([even, 1, 1]));
        for gap in [16, 30, 60, 90] {
            let answer = if (last[2]..=last[3]).contains(&gap) { 0 } else { 13 };
            checks.cycle(&format!("{name}, gap {gap}"), &spec, &[(gap as u16, 1)], answer);
        }
        checks.two_ranges(name, &spec);
    }
    // Accepted, if the pairs were taken for each other.
    for (name, last, wanted) in
        [("a second range from smax", [16, 30, 15, 90], 24), ("a second range too long for a gap", [16, 30, 20_161, 60_000], 3)]
    {
        let duration = Some((last[0], last[1]));
        let spec = Spec { duration, ..with_second(&no_rates((1, 10), (5, 15)), (last[2], last[3])) };
        checks.refused(name, &spec::write(&spec), wanted);
    }
    // Past the longest file.
    let longest =
        Spec { duration: Some((90, 60_000)), ..with_second(&both_rates((1, 10), (5, 15), (22, 60), (8, 90)), (60, 90)) };
    let file = spec::write(&longest);
    checks.even("the longest file", &longest, Ok([90, 1, 8]));
    for over in [1, 2, 4, 21, 25, 5_000] {
        let name = format!("the longest file, and {over} bytes");
        checks.refused(&name, &[&file[..], &vec![0; over]].concat(), 2);
    }
    checks.refused("all but the last byte of the longest file", &file[..24], 2);
    checks.refused("the longest file without its last pair", &file[..21], 2);
}

fn gaps(checks: &mut Checks) {
    let apart = with_second(&no_rates((3, 7), (5, 9)), (12, 14));
    let touching = with_second(&no_rates((3, 7), (5, 9)), (10, 14));
    let one_between = with_second(&no_rates((3, 7), (5, 5)), (7, 7));
    let at_the_ends = with_second(&no_rates((3, 7), (1, 1)), (20_160, 20_160));
    let but_one = with_second(&no_rates((3, 7), (1, 20_158)), (20_160, 20_160));
    let rows: [(&str, &Spec, &[u16], &[u16]); 5] = [
        ("apart", &apart, &[5, 6, 8, 9, 12, 13, 14], &[0, 4, 10, 11, 15, 65_535]),
        ("touching", &touching, &[5, 9, 10, 14], &[0, 4, 15, 65_535]),
        ("one gap between", &one_between, &[5, 7], &[0, 4, 6, 8]),
        ("at the ends of the limits", &at_the_ends, &[1, 20_160], &[0, 2, 10_080, 20_159, 20_161]),
        ("all gaps but one", &but_one, &[1, 20_158, 20_160], &[0, 20_159, 20_161, 65_535]),
    ];
    for (name, spec, allowed, others) in rows {
        let (first, second) = (allowed[0], allowed[allowed.len() - 1]);
        for (gap, answer) in allowed.iter().map(|&gap| (gap, 0)).chain(others.iter().map(|&gap| (gap, 13))) {
            let name = format!("{name}, gap {gap}");
            checks.cycle(&name, spec, &[(gap, 3)], answer);
            // First, in the middle and last of a round with gaps of both ranges.
            checks.cycle(&name, spec, &[(gap, 3), (first, 7), (second, 3)], answer);
            checks.cycle(&name, spec, &[(first, 3), (gap, 7), (second, 3)], answer);
            checks.cycle(&name, spec, &[(second, 3), (first, 7), (gap, 3)], answer);
        }
    }
    // Where there is only one of them.
    checks.cycle("no second range", &no_rates((3, 7), (5, 9)), &[(5, 3), (12, 3)], 13);
    checks.cycle("the second range alone", &no_rates((3, 7), (12, 14)), &[(5, 3), (12, 3)], 13);
    // A gap between the ranges comes before a size, and before both rates.
    let rated = with_second(&both_rates((3, 7), (5, 9), (1, 20), (100, 20)), (12, 14));
    checks.cycle("13 before 14", &rated, &[(5, 2), (11, 3)], 13);
    checks.cycle("13 before 15 and 16", &rated, &[(5, 3), (11, 3)], 13);
    checks.cycle("14 before 15 and 16", &rated, &[(5, 3), (12, 2)], 14);
    checks.cycle("15 before 16", &rated, &[(5, 3), (12, 3)], 15);
    checks.cycle("12 before 13", &rated, &[], 12);
    checks.cycle("12 before 13, 513 pairs", &rated, &[(11, 3); 513], 12);
}

/// Gaps of both ranges in one round of 185 minutes: reports at 0, 15, 30, 35 and 125, of 5, 5, 4, 8 and 8 records.
const SHIFTS: [(u16, u16); 5] = [(15, 5), (15, 5), (5, 4), (90, 8), (60, 8)];

fn stretches(checks: &mut Checks) {
    let van = no_rates((1, 10), (5, 15));
    for (name, supply, demand, wanted) in [
        ("minutes 0 to 35", Some((22, 36)), None, 0),
        ("minutes 0 to 35, B one less", Some((21, 36)), None, 15),
        ("minutes 1 to 35", Some((17, 35)), None, 0),
        ("minutes 1 to 35, B one less", Some((16, 35)), None, 15),
        ("two rounds", Some((60, 370)), None, 0),
        ("two rounds, B one less", Some((59, 370)), None, 15),
        ("two rounds and a minute", Some((68, 371)), None, 0),
        ("two rounds and a minute, B one less", Some((67, 371)), None, 15),
        ("minutes 36 to 125", None, Some((8, 90)), 0),
        ("minutes 36 to 125, L one more", None, Some((9, 90)), 16),
        ("minutes 36 to 124", None, Some((1, 89)), 16),
        ("two rounds", None, Some((60, 370)), 0),
        ("two rounds, L one more", None, Some((61, 370)), 16),
        ("a minute less than two rounds", None, Some((52, 369)), 0),
        ("a minute less than two rounds, L one more", None, Some((53, 369)), 16),
        ("both rates just kept", Some((22, 60)), Some((8, 90)), 0),
        ("too full alone", Some((21, 60)), Some((8, 90)), 15),
        ("too thin alone", Some((22, 60)), Some((9, 90)), 16),
        ("too full and too thin", Some((21, 60)), Some((9, 90)), 15),
    ] {
        let rated = Spec { supply, demand, ..van.clone() };
        checks.cycle(name, &with_second(&rated, (60, 90)), &SHIFTS, wanted);
        checks.cycle(&format!("{name}, ranges that touch"), &with_second(&rated, (16, 90)), &SHIFTS, wanted);
        checks.cycle(&format!("{name}, a second range up to 89"), &with_second(&rated, (60, 89)), &SHIFTS, 13);
        checks.cycle(&format!("{name}, a second range from 61"), &with_second(&rated, (61, 90)), &SHIFTS, 13);
        checks.cycle(&format!("{name}, no second range"), &rated, &SHIFTS, 13);
    }
}

fn even_plan(checks: &mut Checks) {
    let second = |second, spec| with_second(&spec, second);
    // 4 reports of 10 in 70 minutes are enough: at gap 17, and at none that is longer.
    let demand = |gap| demand_only((3, 10), gap, (40, 70));
    // Of all gaps only 17 will do: four reports in any 70 minutes, three in any 50.
    let narrow = |gap| both_rates((3, 10), gap, (9, 50), (10, 70));
    for (name, spec, wanted) in [
        ("no rate: the end of the second range", second((60, 90), no_rates((3, 10), (5, 15))), Ok([90, 1, 3])),
        ("no rate, a second range of one gap", second((16, 16), no_rates((3, 10), (5, 15))), Ok([16, 1, 3])),
        ("no rate, at the limits", second((20_160, 20_160), no_rates((3, 10), (1, 1))), Ok([20_160, 1, 3])),
        // Demand absent: two reports of 3 in 180 minutes. What does not fit at the longest gap fits at no other.
        ("supply alone, 2 × 3 = B", second((60, 90), supply_only((3, 10), (5, 15), (6, 180))), Ok([90, 1, 3])),
        ("supply alone, B one less", second((60, 90), supply_only((3, 10), (5, 15), (5, 180))), Err(10)),
        ("supply alone, R one more", second((60, 90), supply_only((3, 10), (5, 15), (6, 181))), Err(10)),
        ("supply alone, one minute longer", second((60, 91), supply_only((3, 10), (5, 15), (6, 181))), Ok([91, 1, 3])),
        // Demand alone. The largest gap that will do is in the second range, at either end or within,
        ("one range", demand((5, 90)), Ok([17, 4, 40])),
        ("at the upper end of the second", second((16, 17), demand((5, 15))), Ok([17, 4, 40])),
        ("at the lower end of the second", second((17, 90), demand((5, 15))), Ok([17, 4, 40])),
        ("within the second", second((16, 90), demand((5, 15))), Ok([17, 4, 40])),
        ("the second, of one gap", second((17, 17), demand((5, 10))), Ok([17, 4, 40])),
        ("the second, and the first would do too", second((12, 16), demand((5, 10))), Ok([16, 4, 40])),
        // or between the ranges, and the plan has the longest of the first range.
        ("between them, one past the first", second((18, 90), demand((5, 16))), Ok([16, 4, 40])),
        ("between them", second((18, 90), demand((5, 15))), Ok([15, 4, 40])),
        ("between them, fewer minutes", second((18, 90), demand((5, 14))), Ok([14, 5, 40])),
        ("between them, far below the second", second((90, 20_160), demand((5, 10))), Ok([10, 7, 40])),
        ("at the upper end of the first", second((18, 90), demand((5, 17))), Ok([17, 4, 40])),
        ("within the first", second((20, 90), demand((5, 18))), Ok([17, 4, 40])),
        ("at the lower end of the first", second((20, 90), demand((17, 18))), Ok([17, 4, 40])),
        ("every gap of the second above P", second((71, 90), demand((5, 15))), Ok([15, 4, 40])),
        // Neither range has one.
        ("below both", second((20, 90), demand((18, 19))), Err(10)),
        ("P below every gap", second((90, 100), demand((71, 80))), Err(10)),
        // 11 reports of 10 for 101 records: gap 6 at most.
        ("L 101, smin 7", second((20, 90), demand_only((3, 10), (7, 15), (101, 70))), Err(10)),
        ("L 101, smin 6", second((20, 90), demand_only((3, 10), (6, 15), (101, 70))), Ok([6, 11, 101])),
        // Both rates.
        ("17 alone, one range", narrow((1, 20_160)), Ok([17, 4, 12])),
        ("17 alone, in the second", second((17, 20_160), narrow((1, 16))), Ok([17, 4, 12])),
        ("17 alone, the end of the second", second((12, 17), narrow((1, 10))), Ok([17, 4, 12])),
        ("17 alone, in the first", second((18, 20_160), narrow((1, 17))), Ok([17, 4, 12])),
        ("17 alone, between them", second((18, 20_160), narrow((1, 16))), Err(10)),
        ("17 alone, below both", second((30, 90), narrow((18, 20))), Err(10)),
        ("17 alone, above both", second((10, 16), narrow((1, 5))), Err(10)),
        // A gap of 90 has one report in any 90 minutes, and one in any 60.
        ("two shifts", second((60, 90), both_rates((1, 10), (5, 15), (22, 60), (8, 90))), Ok([90, 1, 8])),
        ("two shifts, L 11", second((60, 90), both_rates((1, 10), (5, 15), (22, 60), (11, 90))), Ok([15, 6, 11])),
        ("two shifts, L 11, R 180, B 22", second((60, 90), both_rates((1, 10), (5, 15), (22, 180), (11, 90))), Ok([15, 6, 11])),
        ("two shifts, L 11, R 180, B 21", second((60, 90), both_rates((1, 10), (5, 15), (21, 180), (11, 90))), Err(10)),
        // The shortest gap and the longest, with the most reports and the fewest.
        ("the longest gap", second((20_160, 20_160), demand_only((1, 1), (1, 1), (1, 20_160))), Ok([20_160, 1, 1])),
        ("the shortest gap", second((20_160, 20_160), demand_only((1, 1), (1, 1), (2, 20_160))), Ok([1, 20_160, 20_160])),
    ] {
        checks.even(name, &spec, wanted);
    }
    // Ranges that touch are one: wherever it is cut, the plan is that of the whole.
    for cut in 5..90 {
        for (spec, plan) in [(demand((5, cut)), [17, 4, 40]), (narrow((5, cut)), [17, 4, 12])] {
            checks.even(&format!("cut after {cut}"), &second((cut + 1, 90), spec), Ok(plan));
        }
    }
}

fn meters(checks: &mut Checks) {
    let van = supply_only((1, 9), (5, 15), (20, 60));
    for (name, spec) in [("one range", van.clone()), ("two ranges", with_second(&van, (60, 90)))] {
        checks.meter(name, &spec, [1, 9, 5, 20, 60]);
        checks.meter(&format!("{name}, no supply rate"), &Spec { supply: None, ..spec.clone() }, [1, 9, 5, 20_000, 0]);
        // Only smin counts: gaps of 4, 5, 15, 16, 30, 59, 60, 90, 91 and 1,000.
        let offers = [
            (0, 1, 0, 19),
            (4, 1, 13, 19),
            (5, 1, 0, 18),
            (20, 1, 0, 17),
            (36, 1, 0, 16),
            (66, 1, 0, 17),
            (125, 1, 0, 18),
            (185, 1, 0, 19),
            (275, 1, 0, 19),
            (366, 1, 0, 19),
            (1_366, 1, 0, 19),
            (1_370, 1, 13, 19),
        ];
        checks.offers(name, &spec, &offers.map(|(minute, size, number, left)| (minute, size, number, Some(left))));
    }
    for (name, second, wanted) in [
        ("touching", (16, 90), 0),
        ("apart", (60, 90), 0),
        ("from smax", (15, 90), 24),
        ("below the first", (1, 4), 24),
        ("15 to 14", (15, 14), 4),
        ("0 to 90", (0, 90), 3),
    ] {
        checks.made(name, &spec::write(&with_second(&van, second)), wanted);
    }
}
