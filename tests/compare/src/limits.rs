//! The limits of document 01, and of the second range of document 02, Req 06, each reached and each passed by one; and the costs of
//! its Req 08 at the limits. Every answer is worked out by hand from the documents, and asked of the library and of the reference.

use crate::checks::{self, both_rates, demand_only, even, no_rates, supply_only, well, with_second, Checks};
use crate::group::Runner;
use reference::{spec, Spec};

pub fn all(runner: &mut Runner) {
    checks::group(runner, "limits of each number of a specification", numbers);
    checks::group(runner, "lower bounds at and above their upper bounds", order);
    checks::group(runner, "every bit map and every length of a specification", maps);
    checks::group(runner, "limits of a proper plan", plans);
    checks::group(runner, "limits of a cycle's count", counts);
    checks::group(runner, "the largest costs, of 2^32 − 1 reports", costs);
}

fn lasting(spec: Spec, tmin: u64, tmax: u64) -> Spec {
    Spec { duration: Some((tmin, tmax)), ..spec }
}

/// The file with this bit map and these numbers.
fn file(map: u8, numbers: &[u16]) -> Vec<u8> {
    let mut file = vec![map];
    file.extend(numbers.iter().flat_map(|number| number.to_be_bytes()));
    file
}

/// Twelve numbers that are accepted: dmin dmax, smin smax, B R, L P, Tmin Tmax, and the bounds of the second range of gaps.
const ALL_TWELVE: [u16; 12] = [1, 1_000, 1, 20_158, 20_000, 20_160, 20_000, 20_160, 20_160, 60_000, 20_159, 20_160];

/// The map of the twelve numbers, and how many of them it calls for; and of those without the second range.
const ALL_OR_TEN: [(u8, usize); 2] = [(0x3F, 12), (0x1F, 10)];

const TOPS: [(&str, u16); 12] = [
    ("dmin", 1_000),
    ("dmax", 1_000),
    ("smin", 20_160),
    ("smax", 20_160),
    ("B", 20_000),
    ("R", 20_160),
    ("L", 20_000),
    ("P", 20_160),
    ("Tmin", 60_000),
    ("Tmax", 60_000),
    ("lower bound of the second range", 20_160),
    ("upper bound of the second range", 20_160),
];

/// The specification is consistent or has two ranges, has this even plan (gap, k, total), and passes a cycle of this pair (gap, size).
fn accepted(checks: &mut Checks, name: &str, spec: &Spec, even: [u64; 3], pair: (u16, u16)) {
    match spec.second {
        Some(_) => checks.two_ranges(name, spec),
        None => checks.consistency(name, spec, None),
    }
    checks.even(name, spec, Ok(even));
    checks.cycle(name, spec, &[pair], 0);
}

fn numbers(checks: &mut Checks) {
    let rows = [
        ("dmin 1", no_rates((1, 1_000), (1, 20_160)), [20_160, 1, 1], (20_160, 1)),
        ("dmin 1,000", no_rates((1_000, 1_000), (1, 20_160)), [20_160, 1, 1_000], (1, 1_000)),
        ("dmax 1", no_rates((1, 1), (1, 20_160)), [20_160, 1, 1], (1, 1)),
        ("dmax 1,000", no_rates((1, 1_000), (1, 20_160)), [20_160, 1, 1], (20_160, 1_000)),
        ("smin 1", no_rates((1, 1_000), (1, 20_160)), [20_160, 1, 1], (1, 1_000)),
        ("smin 20,160", no_rates((1, 1_000), (20_160, 20_160)), [20_160, 1, 1], (20_160, 1)),
        ("smax 1", no_rates((1, 1_000), (1, 1)), [1, 1, 1], (1, 1)),
        ("smax 20,160", no_rates((1, 1_000), (1, 20_160)), [20_160, 1, 1], (20_160, 1)),
        // The cycle just keeps the rate.
        ("B 1", supply_only((1, 1), (1, 10), (1, 5)), [10, 1, 1], (5, 1)),
        ("B 20,000", supply_only((1_000, 1_000), (1, 1), (20_000, 20)), [1, 1, 1_000], (1, 1_000)),
        ("R 1", supply_only((1, 1), (1, 1), (1, 1)), [1, 1, 1], (1, 1)),
        ("R 20,160", supply_only((1, 1), (2, 2), (10_080, 20_160)), [2, 1, 1], (2, 1)),
        ("L 1", demand_only((1, 1), (5, 5), (1, 5)), [5, 1, 1], (5, 1)),
        ("L 20,000", demand_only((1_000, 1_000), (1, 1), (20_000, 20)), [1, 20, 20_000], (1, 1_000)),
        ("P 1", demand_only((1, 1), (1, 1), (1, 1)), [1, 1, 1], (1, 1)),
        ("P 20,160", demand_only((1, 1), (2, 2), (10_080, 20_160)), [2, 10_080, 10_080], (2, 1)),
        ("Tmin 1", lasting(demand_only((1, 1), (1, 1), (1, 1)), 1, 60_000), [1, 1, 1], (1, 1)),
        ("Tmin 60,000", lasting(demand_only((1, 1), (1, 1), (1, 1)), 60_000, 60_000), [1, 1, 1], (1, 1)),
        ("Tmax 1", lasting(demand_only((1, 1), (1, 1), (1, 1)), 1, 1), [1, 1, 1], (1, 1)),
        ("Tmax 60,000", lasting(no_rates((1, 1), (1, 1)), 1, 60_000), [1, 1, 1], (1, 1)),
        // No second range starts at 1: it starts above smax.
        ("second range from 2", with_second(&no_rates((1, 1), (1, 1)), (2, 20_160)), [20_160, 1, 1], (2, 1)),
        ("second range from 20,160", with_second(&no_rates((1, 1), (1, 1)), (20_160, 20_160)), [20_160, 1, 1], (20_160, 1)),
        ("second range to 2", with_second(&no_rates((1, 1), (1, 1)), (2, 2)), [2, 1, 1], (2, 1)),
        ("second range to 20,160", with_second(&no_rates((1, 1), (1, 20_159)), (20_160, 20_160)), [20_160, 1, 1], (20_159, 1)),
    ];
    for (name, spec, even, pair) in rows {
        accepted(checks, name, &spec, even, pair);
    }
    // 20 reports of 1,000 records, 1,008 minutes apart, are just enough and just not too many.
    let ten = lasting(both_rates((1, 1_000), (1, 20_158), (20_000, 20_160), (20_000, 20_160)), 20_160, 60_000);
    let all_twelve = with_second(&ten, (20_159, 20_160));
    for (spec, (map, count)) in [&all_twelve, &ten].into_iter().zip(ALL_OR_TEN) {
        checks.holds(format!("reference, the file of {count} numbers"), spec::write(spec) == file(map, &ALL_TWELVE[..count]));
        accepted(checks, &format!("{count} numbers"), spec, [1_008, 20, 20_000], (1_008, 1_000));
    }
    // A lower bound past its top is above its upper bound too, and an upper bound of 0 below its lower one: 3 comes before 4.
    for (at, (name, top)) in TOPS.into_iter().enumerate() {
        for value in [0, top + 1, 65_535] {
            refused_with(checks, &format!("{name} {value}"), &[(at, value)], 3);
        }
    }
}

/// The twelve numbers with these changes are refused; the ten without the second range too, where all of the changes are theirs.
fn refused_with(checks: &mut Checks, name: &str, changes: &[(usize, u16)], wanted: u32) {
    let mut numbers = ALL_TWELVE;
    for &(at, value) in changes {
        numbers[at] = value;
    }
    for (map, count) in ALL_OR_TEN.into_iter().filter(|&(_, count)| changes.iter().all(|&(at, _)| at < count)) {
        checks.refused(&format!("{name}, {count} numbers"), &file(map, &numbers[..count]), wanted);
    }
}

fn order(checks: &mut Checks) {
    let equal = [
        ("size 500 to 500", no_rates((500, 500), (1, 20_160)), [20_160, 1, 500], (1, 500)),
        ("gap 5 to 5", no_rates((1, 1_000), (5, 5)), [5, 1, 1], (5, 1_000)),
        ("duration 30,000 to 30,000", lasting(no_rates((1, 1_000), (1, 5)), 30_000, 30_000), [5, 1, 1], (1, 1)),
        ("second range 9 to 9", with_second(&no_rates((1, 1_000), (1, 5)), (9, 9)), [9, 1, 1], (9, 1)),
        // The numbers of a rate have no order.
        ("B above R, L above P", both_rates((10, 10), (1, 1), (10, 1), (10, 1)), [1, 1, 10], (1, 10)),
        ("B below R, L below P", both_rates((1, 1), (5, 5), (1, 5), (1, 5)), [5, 1, 1], (5, 1)),
    ];
    for (name, spec, even, pair) in equal {
        accepted(checks, name, &spec, even, pair);
    }
    // Which numbers of `ALL_TWELVE` are changed to what, and the answer.
    let rows: [(&str, &[(usize, u16)], u32); 19] = [
        ("size 2 to 1", &[(0, 2), (1, 1)], 4),
        ("size 501 to 500", &[(0, 501), (1, 500)], 4),
        ("size 1,000 to 999", &[(0, 1_000), (1, 999)], 4),
        ("gap 2 to 1", &[(2, 2), (3, 1)], 4),
        ("gap 6 to 5", &[(2, 6), (3, 5)], 4),
        ("gap 20,160 to 20,159", &[(2, 20_160), (3, 20_159)], 4),
        ("duration 2 to 1", &[(8, 2), (9, 1)], 4),
        ("duration 30,001 to 30,000", &[(8, 30_001), (9, 30_000)], 4),
        ("duration 60,000 to 59,999", &[(8, 60_000), (9, 59_999)], 4),
        ("second range 20,160 to 20,159", &[(10, 20_160), (11, 20_159)], 4),
        ("second range 10 to 9, above smax", &[(3, 5), (10, 10), (11, 9)], 4),
        ("second range 20,159 to 1", &[(11, 1)], 4),
        ("size, gap and duration", &[(0, 501), (1, 500), (2, 6), (3, 5), (8, 30_001), (9, 30_000)], 4),
        ("size 501 to 500, Tmax above its top", &[(0, 501), (1, 500), (9, 60_001)], 3),
        ("gap 6 to 5, L above its top", &[(2, 6), (3, 5), (6, 20_001)], 3),
        ("duration 30,001 to 30,000, dmin 0", &[(0, 0), (8, 30_001), (9, 30_000)], 3),
        ("size 501 to 500, upper bound of the second range above its top", &[(0, 501), (1, 500), (11, 20_161)], 3),
        ("second range 20,160 to 20,159, dmin 0", &[(0, 0), (10, 20_160), (11, 20_159)], 3),
        ("second range 20,160 to 20,159, Tmax above its top", &[(9, 60_001), (10, 20_160), (11, 20_159)], 3),
    ];
    for (name, changes, wanted) in rows {
        refused_with(checks, name, changes, wanted);
    }
}

/// The longest length that is tried with every map: two bytes more than any file has.
const LONGEST: usize = 27;

fn maps(checks: &mut Checks) {
    let (size, gap, supply, demand, duration, second) = ((2, 3), (5, 5), (15, 26), (10, 20), (19, 60_000), (7, 8));
    // The bit map, the length that it calls for, and what tells the pairs apart: gap, k and total of the even plan; what consistency
    // answers, 7 where P is above Tmin, or 25; what six reports of 3 get, four reports of 2, and reports of 3 at gap 8.
    let rows = [
        (0x03, 9, [5, 1, 2], 0, 0, 0, 13),
        (0x07, 13, [5, 1, 2], 0, 15, 0, 13),
        (0x0B, 13, [5, 4, 10], 0, 0, 16, 13),
        (0x0F, 17, [5, 4, 10], 0, 15, 16, 13),
        (0x13, 13, [5, 1, 2], 0, 0, 0, 13),
        (0x17, 17, [5, 1, 2], 0, 15, 0, 13),
        (0x1B, 17, [5, 4, 10], 7, 0, 16, 13),
        (0x1F, 21, [5, 4, 10], 7, 15, 16, 13),
        (0x23, 13, [8, 1, 2], 25, 0, 0, 0),
        (0x27, 17, [8, 1, 2], 25, 15, 0, 0),
        (0x2B, 17, [5, 4, 10], 25, 0, 16, 16),
        (0x2F, 21, [5, 4, 10], 25, 15, 16, 16),
        (0x33, 17, [8, 1, 2], 25, 0, 0, 0),
        (0x37, 21, [8, 1, 2], 25, 15, 0, 0),
        (0x3B, 21, [5, 4, 10], 25, 0, 16, 16),
        (0x3F, 25, [5, 4, 10], 25, 15, 16, 16),
    ];
    for (map, length, even, consistency, of_3, of_2, at_8) in rows {
        let name = format!("map {map:#04x}");
        let stands = |bit: u8, pair: (u64, u64)| (map >> bit & 1 == 1).then_some(pair);
        let (supply, demand) = (stands(2, supply), stands(3, demand));
        let spec = Spec { size, gap, supply, demand, duration: stands(4, duration), second: stands(5, second) };
        let numbers: Vec<u16> = [Some(size), Some(gap), supply, demand, spec.duration, spec.second]
            .into_iter()
            .flatten()
            .flat_map(|(first, second)| [first as u16, second as u16])
            .collect();
        let bytes = file(map, &numbers);
        checks.holds(format!("reference, the file of {name}"), spec::write(&spec) == bytes && bytes.len() == length);
        checks.even(&name, &spec, Ok(even));
        match consistency {
            25 => checks.two_ranges(&name, &spec),
            7 => checks.consistency(&name, &spec, Some(3)),
            _ => checks.consistency(&name, &spec, None),
        }
        checks.cycle(&format!("{name}, size 3"), &spec, &[(5, 3)], of_3);
        checks.cycle(&format!("{name}, size 2"), &spec, &[(5, 2)], of_2);
        checks.cycle(&format!("{name}, gap 8"), &spec, &[(8, 3)], at_8);
        let longest = [&bytes[..], &[0; LONGEST]].concat();
        for other in (1..=LONGEST).filter(|&other| other != length) {
            checks.refused(&format!("{name} with {other} bytes"), &longest[..other], 2);
        }
    }
    checks.refused("no byte", &[], 1);
    // Bit 6 or 7 stands, or bit 0 or 1 does not.
    let mut wrong_maps = 0;
    for map in (0..=255).filter(|map| rows.iter().all(|row| row.0 != *map)) {
        wrong_maps += 1;
        let bytes = [file(map, &ALL_TWELVE), vec![0; 2]].concat();
        for length in 1..=LONGEST {
            checks.refused(&format!("map {map:#04x} with {length} bytes"), &bytes[..length], 1);
        }
    }
    checks.holds("240 wrong maps", wrong_maps == 240);
}

fn plans(checks: &mut Checks) {
    const LAST: u32 = u32::MAX;
    let rows = [
        ("k 0", well(0, 0, 0), 0, Err(11)),
        ("even, k 0", even(0, 0, 0), 0, Err(11)),
        ("k 1", well(1, 1, 1), 1, Ok((1, 1))),
        ("even, k 1", even(1, 1, 1), 1, Ok((1, 1))),
        ("k 20,160", well(20_160, 20_160, 20_160), 20_160, Ok((20_160, 1))),
        ("even, k 20,160", even(20_160, 20_160, 20_160), 20_160, Ok((20_160, 1))),
        ("k 20,161", well(20_161, 20_161, 20_161), 0, Err(11)),
        ("even, k 20,161", even(20_161, 20_161, 20_161), 0, Err(11)),
        ("all 2^32 − 1", well(LAST.into(), LAST.into(), LAST.into()), 0, Err(11)),
        ("even, all 2^32 − 1", even(LAST.into(), LAST.into(), LAST.into()), 0, Err(11)),
        ("period k − 1", well(4, 3, 10), 0, Err(11)),
        ("even, period 0", even(4, 0, 10), 0, Err(11)),
        ("period k", well(4, 4, 10), 3, Ok((3, 2))),
        ("even, period k", even(4, 4, 10), 3, Ok((3, 2))),
        ("period 20,160 k", well(4, 80_640, 10), 3, Ok((60_480, 2))),
        ("even, period 20,160 k", even(4, 80_640, 10), 3, Ok((60_480, 2))),
        ("period 20,160 k + 1", well(4, 80_641, 10), 0, Err(11)),
        ("even, period 20,161 k", even(4, 80_644, 10), 0, Err(11)),
        ("total k − 1", well(4, 20, 3), 0, Err(11)),
        ("even, total k − 1", even(4, 20, 3), 0, Err(11)),
        ("total k", well(4, 20, 4), 3, Ok((15, 1))),
        ("even, total k", even(4, 20, 4), 3, Ok((15, 1))),
        ("total 1,000 k", well(4, 20, 4_000), 3, Ok((15, 1_000))),
        ("even, total 1,000 k", even(4, 20, 4_000), 3, Ok((15, 1_000))),
        ("total 1,000 k + 1", well(4, 20, 4_001), 0, Err(11)),
        ("even, total 1,000 k + 1", even(4, 20, 4_001), 0, Err(11)),
        ("the largest k, period 20,160 k + 1", well(20_160, 406_425_601, 20_160), 0, Err(11)),
        ("the largest k, total 1,000 k + 1", well(20_160, 20_160, 20_160_001), 0, Err(11)),
        ("even, the largest k, total 1,000 k + 1", even(20_160, 20_160, 20_160_001), 0, Err(11)),
        ("period 2^32 − 1", well(4, LAST.into(), 10), 0, Err(11)),
        ("total 2^32 − 1", well(4, 20, LAST.into()), 0, Err(11)),
        ("even, total 2^32 − 1", even(4, 20, LAST.into()), 0, Err(11)),
        // Gaps 5, 5, 5, 6 and sizes 3, 3, 2, 2. The even kind has one gap, so k must divide the period.
        ("period no multiple of k", well(4, 21, 10), 3, Ok((15, 2))),
        ("period no multiple of k", well(4, 21, 10), 4, Ok((21, 3))),
        ("even, period one above a multiple of k", even(4, 21, 10), 0, Err(11)),
        ("even, period one below a multiple of k", even(4, 23, 10), 0, Err(11)),
        ("even, the next multiple of k", even(4, 24, 10), 3, Ok((18, 2))),
        // 2^32 − 1 is 4 × 1,073,741,823 + 3, and 20,160 × 213,044 + 255.
        ("last report", well(4, 21, 10), LAST, Ok((22_548_578_298, 2))),
        ("even, last report", even(4, 20, 10), LAST, Ok((21_474_836_475, 2))),
        ("last report of the longest period", well(1, 20_160, 1_000), LAST, Ok((86_586_540_667_200, 1_000))),
        ("even, last report of the longest period", even(1, 20_160, 1_000), LAST, Ok((86_586_540_667_200, 1_000))),
        ("last report of the largest k", well(20_160, 20_161, 20_161), LAST, Ok((4_295_180_339, 1))),
        ("even, all at the top", even(20_160, 406_425_600, 20_160_000), LAST, Ok((86_586_540_667_200, 1_000))),
        // One record less leaves the last report of a period with 999; one record more than k gives its first report 2.
        ("even, one record less", even(20_160, 406_425_600, 20_159_999), LAST, Ok((86_586_540_667_200, 1_000))),
        ("even, one record less", even(20_160, 20_160, 20_159_999), LAST - 256, Ok((4_294_967_039, 999))),
        ("even, one record more than k", even(20_160, 20_160, 20_161), LAST - 255, Ok((4_294_967_040, 2))),
        ("even, one record more than k", even(20_160, 20_160, 20_161), LAST, Ok((4_294_967_295, 1))),
    ];
    for (name, plan, i, wanted) in rows {
        checks.report(name, plan, i, wanted);
        if wanted.is_err() {
            checks.improper(name, plan);
        }
    }
    for kind in [2, 3, 256, LAST] {
        checks.unknown_kind(kind, [4, 20, 10]);
    }
}

fn counts(checks: &mut Checks) {
    let spec = no_rates((3, 3), (5, 5));
    let pairs = |count: usize| vec![(5, 3); count];
    // The count, the first pair, and a map without a field for each pair after it.
    let file = |count: u16| {
        let mut file = vec![(count / 256) as u8, (count % 256) as u8, 3, 0, 5, 0, 3];
        file.resize(7 + usize::from(count.max(1)) - 1, 0);
        file
    };
    for (count, length) in [(1, 7), (512, 518)] {
        let name = format!("count {count}");
        let (pairs, file) = (pairs(count), file(count as u16));
        checks.cycle(&name, &spec, &pairs, 0);
        checks.verdict(&name, &spec, &file, 0);
        for places in [count, count + 1] {
            checks.read(&name, &file, places, Ok(&pairs));
        }
        checks.read(&name, &file, count - 1, Err(20));
        for room in [length, length + 1] {
            checks.write(&name, &pairs, room, Ok(&file));
        }
        checks.write(&name, &pairs, length - 1, Err(20));
    }
    for count in [0, 513] {
        let name = format!("count {count}");
        checks.cycle(&name, &spec, &pairs(count), 12);
        // The count comes before what is wrong with the pairs.
        checks.cycle(&name, &spec, &vec![(0, 0); count], 12);
        for file in [file(count as u16), vec![(count / 256) as u8, (count % 256) as u8]] {
            checks.verdict(&name, &spec, &file, 12);
            checks.read(&name, &file, 0, Err(12));
            checks.read(&name, &file, 600, Err(12));
        }
        checks.write(&name, &pairs(count), 0, Err(12));
        checks.write(&name, &pairs(count), 4_000, Err(12));
    }
    checks.read("count 65,535", &[0xFF, 0xFF], 600, Err(12));
    // The longest file: both fields of every pair differ from the pair before.
    let pairs: Vec<(u16, u16)> = (0..512).map(|i| (5 + i % 2, 3 + i % 2)).collect();
    let file = [vec![2, 0], [3, 0, 5, 0, 3, 3, 0, 6, 0, 4].repeat(256)].concat();
    checks.write("the longest file", &pairs, 2_562, Ok(&file));
    checks.write("the longest file", &pairs, 2_561, Err(20));
    checks.read("the longest file", &file, 512, Ok(&pairs));
}

fn costs(checks: &mut Checks) {
    const LAST: u32 = u32::MAX;
    let (least, most) = ((12_884_901_885, 1_288_490_189), (4_294_967_295_000, 429_496_729_500));
    // 2^32 − 1 is 20,160 × 213,044 + 255. Of 20,160 reports one is larger, all but one are, or half of them: the first half, or
    // every other.
    let one_of_2 = (12_885_327_975, 1_288_532_798);
    let one_of_501 = (2_276_432_797_500, 227_643_279_750);
    let all_but_one_of_501 = (4_294_867_164_320, 429_486_716_432);
    for (name, plan, wanted) in [
        ("size 1", well(1, 1, 1), least),
        ("even, size 1", even(1, 20_160, 1), least),
        ("size 1, the largest k", well(20_160, 406_425_600, 20_160), least),
        ("even, size 1, the largest k", even(20_160, 20_160, 20_160), least),
        ("size 1,000", well(1, 20_160, 1_000), most),
        ("even, size 1,000", even(1, 1, 1_000), most),
        ("size 1,000, the largest k", well(20_160, 20_160, 20_160_000), most),
        ("even, all at the top", even(20_160, 406_425_600, 20_160_000), most),
        ("sizes 1,000 and 999", well(20_160, 20_160, 20_159_999), most),
        ("even, sizes 1,000 and 999", even(20_160, 20_160, 20_159_999), most),
        ("one report of 2", well(20_160, 20_160, 20_161), one_of_2),
        ("even, one report of 2", even(20_160, 20_160, 20_161), one_of_2),
        ("one report of 501", well(20_160, 20_161, 10_080_001), one_of_501),
        ("even, one report of 501", even(20_160, 20_160, 10_080_001), one_of_501),
        ("all but one of 501", well(20_160, 20_161, 10_100_159), all_but_one_of_501),
        ("even, all but one of 501", even(20_160, 20_160, 10_100_159), all_but_one_of_501),
        ("half of them of 501", well(20_160, 20_161, 10_090_080), (3_285_650_040_600, 328_565_004_060)),
        ("even, half of them of 501", even(20_160, 20_160, 10_090_080), (3_285_649_980_910, 328_564_998_091)),
    ] {
        checks.plan_cost(name, plan, 0, (0, 0));
        checks.plan_cost(name, plan, LAST, wanted);
    }
    // A report less, of 3 tenths: the bill is no longer at half a cent.
    checks.plan_cost("size 1", well(1, 1, 1), LAST - 1, (12_884_901_882, 1_288_490_188));
    let spec = no_rates((1, 1_000), (1, 20_160));
    let cycle = |first: u16, between: u16, last: u16| {
        let mut pairs = vec![(20_160, between); 512];
        (pairs[0].1, pairs[511].1) = (first, last);
        pairs
    };
    // 2^32 − 1 is 512 × 8,388,607 + 511.
    for (name, pairs, wanted) in [
        ("1 pair of size 1", vec![(1, 1)], least),
        ("1 pair of size 1,000", vec![(1, 1_000)], most),
        ("512 pairs of size 1", cycle(1, 1, 1), least),
        ("512 pairs of size 1,000", cycle(1_000, 1_000, 1_000), most),
        ("512 pairs, the first of size 1", cycle(1, 1_000, 1_000), (4_286_603_852_824, 428_660_385_282)),
        ("512 pairs, the last of size 1", cycle(1_000, 1_000, 1), (4_286_603_853_821, 428_660_385_382)),
    ] {
        checks.cycle_cost(name, &spec, &pairs, 0, (0, 0));
        checks.cycle_cost(name, &spec, &pairs, LAST, wanted);
    }
    for (reports, wanted) in [(511, (511_000, 51_100)), (512, (511_003, 51_100)), (513, (512_003, 51_200))] {
        checks.cycle_cost("512 pairs, the last of size 1", &spec, &cycle(1_000, 1_000, 1), reports, wanted);
    }
    // One pair more than a cycle can have, and none: any number of reports is refused.
    checks.cycle("513 pairs of size 1,000", &spec, &[(1, 1_000); 513], 12);
    checks.cycle("no pair", &spec, &[], 12);
}
