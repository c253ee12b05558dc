//! Document 02, Req 13: days one apart and far apart, files that differ in one byte, and each way in which one of two files or both cannot be
//! read. Every answer is worked out by hand from the document, and asked of the library and of the reference.

use crate::checks::{self, Checks};
use crate::dated::{dated, longest_part};
use crate::group::Runner;

pub fn all(runner: &mut Runner) {
    checks::group(runner, "dated files: the later day, high byte first", days);
    checks::group(runner, "dated files: equal files, and others of the same day", same_day);
    checks::group(runner, "dated files: one that cannot be read, and one that can", one_unreadable);
    checks::group(runner, "dated files: two that cannot be read", two_unreadable);
    checks::group(runner, "dated files: no byte, one, and a day alone", short);
    checks::group(runner, "dated files: 512 pairs and 513", most_pairs);
    checks::group(runner, "dated files: lengths that 16 or 32 bits take for that of one that can be read", long);
}

/// The pair (5, 2), and the pairs (5, 3) and (5, 2).
const ONE: &[u8] = &[0, 1, 3, 0, 5, 0, 2];
const TWO: &[u8] = &[0, 2, 3, 0, 5, 0, 3, 2, 0, 2];

/// A file of each number.
const OF_EACH_NUMBER: [(u32, &[u8]); 5] = [
    (12, &[2, 1, 3, 0, 5, 0, 2]),
    (17, &[0, 1, 7, 0, 5, 0, 2]),
    (18, &[0, 1, 3, 0, 5, 0]),
    (19, &[0, 2, 3, 0, 5, 0, 2, 2, 0, 2]),
    (21, &[0, 1, 3, 0, 5, 0, 2, 0]),
];

/// The first of two files that are not equal is in force, wherever it stands.
fn former(checks: &mut Checks, name: &str, file: &[u8], other: &[u8]) {
    checks.in_force(name, file, other, Ok(1));
    checks.in_force(&format!("{name}, the other way round"), other, file, Ok(2));
}

fn days(checks: &mut Checks) {
    let rows: [(u16, u16); 14] = [
        (1, 0),
        (65_535, 0),
        (65_535, 65_534),
        (2, 1),
        (256, 255),
        (257, 256),
        (512, 511),
        // Low byte first these are 1 and 512, 257 and 65,280, 258 and 513.
        (0x0100, 0x0002),
        (0x0101, 0x00FF),
        (0x0201, 0x0102),
        // As signed numbers of 16 bits these change places.
        (32_768, 32_767),
        (32_768, 0),
        (40_000, 1),
        (65_535, 32_767),
    ];
    for (later, earlier) in rows {
        let name = format!("days {later} and {earlier}");
        for (part, other) in [(ONE, ONE), (ONE, TWO), (TWO, ONE)] {
            former(checks, &name, &dated(later, part), &dated(earlier, other));
        }
    }
}

fn same_day(checks: &mut Checks) {
    let longest = longest_part();
    for day in [0, 1, 255, 256, 32_768, 65_535] {
        for part in [ONE, TWO, &longest] {
            let file = dated(day, part);
            checks.in_force("equal files", &file, &file, Ok(1));
        }
    }
    let (mut first, mut last) = (longest.clone(), longest.clone());
    first[4] = 7;
    *last.last_mut().expect("a last byte") = 4;
    let rows: [(&str, &[u8], &[u8]); 10] = [
        ("gap, high byte", ONE, &[0, 1, 3, 1, 5, 0, 2]),
        ("gap, low byte", ONE, &[0, 1, 3, 0, 6, 0, 2]),
        ("size, high byte", ONE, &[0, 1, 3, 0, 5, 1, 2]),
        ("size, low byte", ONE, &[0, 1, 3, 0, 5, 0, 3]),
        ("one pair and two", ONE, TWO),
        ("one of them longer, the first bytes the same", TWO, &[0, 2, 3, 0, 5, 0, 3, 3, 0, 2, 0, 2]),
        // The same run of reports, in other bytes.
        ("written out twice", ONE, &[0, 2, 3, 0, 5, 0, 2, 0]),
        ("begun elsewhere", TWO, &[0, 2, 3, 0, 5, 0, 2, 2, 0, 3]),
        ("512 pairs, the last byte", &longest, &last),
        ("512 pairs, the first gap", &longest, &first),
    ];
    for (name, part, other) in rows {
        for day in [0, 256, 65_535] {
            let (file, other) = (dated(day, part), dated(day, other));
            checks.in_force(name, &file, &other, Err(29));
            checks.in_force(&format!("{name}, the other way round"), &other, &file, Err(29));
        }
    }
}

/// Whatever the days are.
fn one_unreadable(checks: &mut Checks) {
    for (number, part) in OF_EACH_NUMBER {
        for (day, others) in [(0, 65_535), (255, 256), (256, 255), (7, 7), (65_535, 0)] {
            let name = format!("day {day}, and {number} on day {others}");
            former(checks, &name, &dated(day, ONE), &dated(others, part));
        }
        former(checks, &format!("{number} in many bytes"), &dated(7, ONE), &dated(7, &[part, &[0; 70_000]].concat()));
    }
}

fn two_unreadable(checks: &mut Checks) {
    for (number, part) in OF_EACH_NUMBER {
        for (other, others_part) in OF_EACH_NUMBER {
            for (day, others) in [(7, 7), (7, 8), (8, 7)] {
                let name = format!("{number} on day {day} and {other} on day {others}");
                checks.in_force(&name, &dated(day, part), &dated(others, others_part), Err(number));
            }
        }
    }
}

fn short(checks: &mut Checks) {
    let readable = dated(0, ONE);
    let files: [&[u8]; 8] = [&[], &[0], &[1], &[255], &[0, 0], &[0, 1], &[255, 255], &[1, 0, 0]];
    for file in files {
        let name = format!("{file:?}");
        former(checks, &name, &readable, file);
        for other in files {
            checks.in_force(&format!("{name} and {other:?}"), file, other, Err(18));
        }
        for (number, part) in OF_EACH_NUMBER {
            checks.in_force(&format!("{name} and {number}"), file, &dated(0, part), Err(18));
            checks.in_force(&format!("{number} and {name}"), &dated(0, part), file, Err(number));
        }
    }
    // A day and a whole count, of no pair: no longer too short.
    checks.in_force("no pair", &[0, 0, 0, 0], &[], Err(12));
}

fn most_pairs(checks: &mut Checks) {
    let longest = longest_part();
    let pair = [3, 0, 5, 0, 3];
    let more = [&[2, 1], &longest[2..], &pair].concat();
    let most = dated(255, &longest);
    former(checks, "512 pairs, and 513 on a later day", &most, &dated(256, &more));
    former(checks, "512 pairs, and one on an earlier day", &most, &dated(254, ONE));
    former(checks, "one pair, and 512 on an earlier day", &dated(256, ONE), &most);
    checks.in_force("512 pairs, and one", &most, &dated(255, ONE), Err(29));
    checks.in_force("513 pairs, twice", &dated(0, &more), &dated(0, &more), Err(12));
    // Equal pairs have the shortest file of 512.
    let equal = [&[2, 0], &pair[..], &[0; 511]].concat();
    former(checks, "512 pairs, and 512 equal ones on an earlier day", &most, &dated(254, &equal));
    former(checks, "512 equal pairs, and none that can be read", &dated(0, &equal), &dated(1, &equal[..equal.len() - 1]));
    checks.in_force("512 equal pairs, and 512", &dated(255, &equal), &most, Err(29));
}

fn long(checks: &mut Checks) {
    let file = dated(7, ONE);
    let refused = dated(8, &[0, 0]);
    let mut bytes = dated(9, ONE);
    let length = bytes.len();
    bytes.resize(4_096, 0);
    for length in [0x1_0000 + length, 0x1_0000_0000 + length] {
        checks.in_force_beside_many("one pair", &file, &bytes, length, [Ok(1), Ok(2)]);
        checks.in_force_beside_many("no pair", &refused, &bytes, length, [Err(12), Err(21)]);
    }
    // Its own first bytes are those of the other.
    let over = dated(7, &[ONE, &[0; 0x1_0000]].concat());
    former(checks, "65,536 bytes over", &file, &over);
    checks.in_force("65,536 bytes over, twice", &over, &over, Err(21));
}
