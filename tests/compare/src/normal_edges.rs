//! Document 02, Req 12: cycles that repeat by a divisor of their count, or just do not; turns that a gap, a size or a late pair decides;
//! and places that are just enough, or one too few. Every answer is worked out by hand from the document, and asked of the library and of
//! the reference.

use crate::calls::listed;
use crate::checks::{self, pairs_of, Checks, HELD, HELD_PAIR};
use crate::group::{same, Runner, Verdict};
use crate::library::Library;
use crate::normal::{divisors, refused_again, turned, COUNTS};
use reference::{normal, Pair};

pub fn all(runner: &mut Runner) {
    checks::group(runner, "normal forms: the shortest list", shortest);
    checks::group(runner, "normal forms: lists that nearly repeat", nearly_repeated);
    checks::group(runner, "normal forms: the turn that comes first", turns);
    checks::group(runner, "normal forms: places, and the order of the refusals", places);
    checks::group(runner, "normal forms: a cycle begun elsewhere, and backwards", begun_elsewhere);
    checks::group(runner, "normal forms: cycles that are one run, and cycles that are not", runs);
    runner.every("normal forms: one pair repeated up to each count", 512, &[0], equal_case);
    let whole = IN_ORDER.map(|two| cases(two, divisors)).concat();
    let name = "normal forms: a list written out, but the last pair another";
    runner.every(name, whole.len() as u64, &[0], |number, library| last_case(whole[number as usize], library));
    let both_ways = IN_ORDER.into_iter().flat_map(|[one, other]| [[one, other], [other, one]]);
    let cut_off: Vec<Case> = both_ways.flat_map(|two| cases(two, |count| (1..=count).collect())).collect();
    let name = "normal forms: a list of each length, repeated up to a count";
    runner.every(name, cut_off.len() as u64, &[0, 1], |number, library| length_case(cut_off[number as usize], library));
}

/// A list of pairs, gap and size.
type List = Vec<(u16, u16)>;

/// Pairs in their order, the first and the second of which differ by gap, the others by size.
const FIRST: (u16, u16) = (6, 9);
const A: (u16, u16) = (7, 3);
const B: (u16, u16) = (7, 4);
const C: (u16, u16) = (7, 5);

/// So many pairs, each larger than the one before.
fn growing(count: u16) -> List {
    (1..=count).map(|size| (5, size)).collect()
}

/// The normal form in just as many places as it has pairs, and in one more; in one fewer it is refused.
fn form(checks: &mut Checks, name: &str, pairs: &[(u16, u16)], wanted: &[(u16, u16)]) {
    let length = wanted.len();
    checks.normal(name, pairs, length - 1, Err(20));
    checks.normal(name, pairs, length, Ok(wanted));
    checks.normal(name, pairs, length + 1, Ok(wanted));
}

fn shortest(checks: &mut Checks) {
    let rows: [(&str, List, List); 13] = [
        ("one pair", vec![A], vec![A]),
        ("512 equal pairs", vec![A; 512], vec![A]),
        ("511 equal pairs, which repeat by 7 and by 73", vec![A; 511], vec![A]),
        ("509 equal pairs", vec![A; 509], vec![A]),
        ("two in turn, 512 pairs", [A, B].repeat(256), vec![A, B]),
        ("two in turn, the larger first, 512 pairs", [B, A].repeat(256), vec![A, B]),
        ("511 pairs that repeat by 7", growing(7).repeat(73), growing(7)),
        ("511 pairs that repeat by 73", growing(73).repeat(7), growing(73)),
        ("511 pairs that do not repeat", growing(511), growing(511)),
        ("509 pairs that do not repeat", growing(509), growing(509)),
        ("halves that are the same", growing(256).repeat(2), growing(256)),
        ("six that are nearly two in turn", [A, B, A, B, A, C].repeat(85), vec![A, B, A, B, A, C]),
        ("four that are two of each", [A, A, B, B].repeat(128), vec![A, A, B, B]),
    ];
    for (name, pairs, wanted) in rows {
        form(checks, name, &pairs, &wanted);
    }
}

/// Repeated, but for the last pair; or cut off in a repetition, so that the cycle goes on with its first pair too early.
fn nearly_repeated(checks: &mut Checks) {
    let in_turn = |ends: [(u16, u16); 2]| [[A, B].repeat(255), ends.to_vec()].concat();
    let halves = [growing(256), growing(255), vec![C]].concat();
    let rows: [(&str, List, List); 12] = [
        ("511 equal pairs and a larger", [vec![A; 511], vec![B]].concat(), [vec![A; 511], vec![B]].concat()),
        ("511 equal pairs and a smaller", [vec![B; 511], vec![A]].concat(), [vec![A], vec![B; 511]].concat()),
        ("two in turn, the last the largest", in_turn([A, C]), in_turn([A, C])),
        ("two in turn, the last the smallest", in_turn([A, FIRST]), [vec![FIRST], [A, B].repeat(255), vec![A]].concat()),
        ("two in turn, the last as the first", in_turn([A, A]), [vec![A, A], [A, B].repeat(255)].concat()),
        ("halves, the last pair another", halves.clone(), halves),
        ("two in turn, 3 pairs", vec![A, B, A], vec![A, A, B]),
        ("two in turn, 509 pairs", [[A, B].repeat(254), vec![A]].concat(), [vec![A], [A, B].repeat(254)].concat()),
        ("three in turn, 5 pairs", vec![A, A, B, A, A], vec![A, A, A, A, B]),
        ("three in turn, the larger first, 5 pairs", vec![B, A, B, B, A], vec![A, B, A, B, B]),
        ("three in turn, 8 pairs", vec![A, B, C, A, B, C, A, B], vec![A, B, A, B, C, A, B, C]),
        ("three in turn, 512 pairs", [[A, B, C].repeat(170), vec![A, B]].concat(), [vec![A, B], [A, B, C].repeat(170)].concat()),
    ];
    for (name, pairs, wanted) in rows {
        form(checks, name, &pairs, &wanted);
    }
}

/// What decides, and a list that begins where it should.
const TURNS: [(&str, &[(u16, u16)]); 29] = [
    ("a gap", &[(1, 9), (2, 1)]),
    ("a size where the gaps are equal", &[(5, 2), (5, 3)]),
    ("a gap against two sizes", &[(1, 9), (2, 1), (2, 2)]),
    // Gap 0 with the largest size comes before gap 1 with size 0.
    ("gap 0 and size 65,535", &[(0, 65_535), (1, 0)]),
    ("gap 0 and size 65,535, twice", &[(0, 65_535), (0, 65_535), (1, 0)]),
    ("gap 0 and size 65,535, against two", &[(0, 65_535), (1, 0), (1, 0)]),
    ("gap 65,534 and size 65,535", &[(65_534, 65_535), (65_535, 0)]),
    ("gaps 0 and 65,535", &[(0, 5), (65_535, 5)]),
    ("sizes 0 and 65,535", &[(5, 0), (5, 65_535)]),
    ("gaps and sizes 0 and 65,535", &[(0, 0), (0, 65_535), (65_535, 0), (65_535, 65_535)]),
    ("gaps on both sides of 2^15", &[(32_767, 5), (32_768, 5)]),
    ("sizes on both sides of 2^15", &[(5, 32_767), (5, 32_768)]),
    ("gaps on both sides of 2^8", &[(255, 5), (256, 5), (511, 4), (512, 4)]),
    ("sizes on both sides of 2^8", &[(5, 255), (5, 256), (5, 511), (5, 512)]),
    // Numbers so far apart that their difference has another sign in 16 bits.
    ("gaps that are far apart", &[(0, 1), (40_000, 1), (20_000, 1)]),
    ("sizes that are far apart", &[(1, 0), (1, 40_000), (1, 20_000)]),
    // The first pairs are equal: a later one decides.
    ("the second pair, by gap", &[(1, 1), (2, 9), (1, 1), (3, 1)]),
    ("the second pair, by size", &[(1, 1), (2, 1), (1, 1), (2, 2)]),
    ("the third pair", &[A, A, A, B, A, A, B]),
    ("the fourth pair", &[A, A, A, B, A, A, A, C]),
    ("the sixth pair", &[A, B, A, B, A, B, A, C]),
    // Pair by pair: the size of the first comes before the gap of the second.
    ("the first size before the second gap", &[(1, 1), (2, 1), (1, 2)]),
    ("the first size before the second gap, 4 pairs", &[(1, 1), (3, 1), (1, 2), (2, 1)]),
    ("runs of three, two and one", &[A, A, A, B, A, A, B, A, B]),
    ("runs of three, one and two", &[A, A, A, B, A, B, A, A, B]),
    ("runs of the larger, of one, two and three", &[A, B, A, B, B, A, B, B, B]),
    ("two pairs that are spread over 12", &[A, A, B, A, B, A, A, B, A, B, A, B]),
    ("two pairs that are spread over 13", &[A, A, B, A, A, B, A, B, A, A, B, A, B]),
    ("growing and falling", &[(1, 1), (2, 1), (3, 1), (4, 1), (3, 1), (2, 1)]),
];

/// Each of these lists in every turn, written out once, twice, and as often as it has room.
fn turns(checks: &mut Checks) {
    for (name, wanted) in TURNS {
        for start in 0..wanted.len() {
            for times in [1, 2, 512 / wanted.len()] {
                let pairs = turned(wanted, start).repeat(times);
                form(checks, &format!("{name}, begun at {start}, {times} times"), &pairs, wanted);
            }
        }
    }
    let falling: List = growing(512).into_iter().rev().collect();
    form(checks, "512 falling pairs", &falling, &turned(&falling, 511));
}

fn places(checks: &mut Checks) {
    let rows: [(&str, List, List); 5] = [
        ("512 equal pairs", vec![A; 512], vec![A]),
        ("two in turn, 512 pairs", [B, A].repeat(256), vec![A, B]),
        ("511 pairs that repeat by 7", growing(7).repeat(73), growing(7)),
        ("511 pairs that repeat by 73", growing(73).repeat(7), growing(73)),
        ("512 growing pairs", growing(512), growing(512)),
    ];
    for (name, pairs, wanted) in &rows {
        for places in [0, 1, 2, 6, 7, 8, 72, 73, 74, 510, 511, 512, 513, 600] {
            let fits = places >= wanted.len();
            checks.normal(name, pairs, places, if fits { Ok(wanted) } else { Err(20) });
        }
        // As many as none in 16 bits, and in 32.
        for places in [0x1_0000, 0x1_0000_0000] {
            checks.normal_in_many_places(name, pairs, places, wanted);
        }
    }
    // The count comes before the places, also where one place would do.
    for count in [0, 513, 514, 600, 1_024, 5_000] {
        for places in [0, 1, 512, 513, 600, 5_000] {
            checks.normal(&format!("{count} equal pairs"), &vec![A; count], places, Err(12));
        }
        checks.normal(&format!("{count} growing pairs"), &growing(count as u16), 0, Err(12));
    }
    // As many as 0, 1 and 512 in 16 bits, and in 32.
    for count in [0x1_0000, 0x1_0001, 0x1_0200, 0x1_0000_0000, 0x1_0000_0001, 0x1_0000_0200] {
        checks.normal_out_of_reach(count);
    }
}

fn begun_elsewhere(checks: &mut Checks) {
    let five = [(15, 5), (15, 5), (5, 4), (90, 8), (60, 8)];
    let backwards = [(60, 8), (90, 8), (5, 4), (15, 5), (15, 5)];
    for start in 0..5 {
        for times in [1, 2, 3, 102] {
            let (name, other) = (format!("begun at {start}, {times} times"), turned(&five, start).repeat(times));
            checks.one_run(&name, &five, &other, true);
            checks.one_run(&format!("{name}, and twice"), &five.repeat(2), &other, true);
            checks.one_run(&format!("{name}, and backwards"), &backwards, &other, false);
        }
    }
}

fn runs(checks: &mut Checks) {
    let rows: [(&str, List, List, bool); 22] = [
        ("one pair", vec![A], vec![A], true),
        ("one pair, and 512", vec![A], vec![A; 512], true),
        ("2 and 3 equal pairs", vec![A; 2], vec![A; 3], true),
        ("another gap", vec![(7, 3)], vec![(8, 3)], false),
        ("another size", vec![(7, 3)], vec![(7, 4)], false),
        ("gap and size in each other's place", vec![(7, 3)], vec![(3, 7)], false),
        ("two backwards", vec![A, B], vec![B, A], true),
        ("three backwards", vec![A, B, C], vec![C, B, A], false),
        ("one more", vec![A, B], vec![A, B, B], false),
        ("cut off", vec![A, B], vec![A, B, A], false),
        ("a pair less and a pair more", vec![A, A, B], vec![A, B, B], false),
        ("four pairs in another order", vec![A, A, B, B], vec![A, B, A, B], false),
        ("sizes in each other's place", vec![(1, 1), (2, 2)], vec![(1, 2), (2, 1)], false),
        ("sizes one place on", vec![(1, 1), (1, 2), (2, 1)], vec![(1, 1), (1, 1), (2, 2)], false),
        ("the same first pairs", vec![A, A, A, B], vec![A, A, A, C], false),
        ("the same first pairs of 512", growing(512), [growing(511), vec![(9, 9)]].concat(), false),
        ("the same but for the first of 512", growing(512), [vec![(5, 600)], growing(512)[1..].to_vec()].concat(), false),
        ("the same smallest pair", vec![A, B, B, C], vec![A, B, C, C], false),
        ("the same pairs, six", vec![A, B, C, A, C, B], vec![A, B, C, A, B, C], false),
        ("six, begun elsewhere", vec![A, B, C, A, C, B], vec![A, C, B, A, B, C], true),
        ("6 and 4 pairs of two", [A, B].repeat(3), [B, A].repeat(2), true),
        ("480 and 512 pairs of eight", growing(8).repeat(60), growing(8).repeat(64), true),
    ];
    for (name, one, other, wanted) in rows {
        checks.one_run(name, &one, &other, wanted);
        checks.one_run(&format!("{name}, the other way round"), &other, &one, wanted);
    }
}

/// The form that is made here is the reference's, and the library's in as many places as it has pairs and as the cycle has; in one fewer
/// it is refused, and refused again where nothing can be written.
fn compare(pairs: &[Pair], form: &[Pair], library: &mut Library) -> Result<(), String> {
    let input = || format!("{pairs:?}");
    let made = normal::form(pairs, form.len());
    if made.as_deref() != Ok(form) {
        return Err(format!("reference {made:?}, form of this test {form:?}, input {}", input()));
    }
    for places in [form.len() - 1, form.len(), pairs.len() + 1] {
        let before = vec![HELD_PAIR; places];
        let made = if places < form.len() { Err(20) } else { Ok(form.to_vec()) };
        same(0, library.normal_form(pairs, &before, HELD), listed(made, &before, HELD), input)?;
    }
    refused_again(pairs, &vec![HELD_PAIR; form.len() - 1], 20, library).map(|_| ())
}

fn equal_case(number: u64, library: &mut Library) -> Verdict {
    let count = number as usize + 1;
    for pair in pairs_of(&[(0, 0), (0, 65_535), (65_535, 0), (65_535, 65_535), A]) {
        compare(&vec![pair; count], &[pair], library)?;
    }
    Ok(0)
}

/// So many pairs, in which a list of `length` comes again and again: equal pairs, and a last one.
#[derive(Clone, Copy)]
struct Case {
    count: usize,
    length: usize,
    equal: Pair,
    last: Pair,
}

/// Pairs of which the second comes after the first.
const IN_ORDER: [[Pair; 2]; 2] = [[pair(5, 9), pair(6, 0)], [pair(5, 2), pair(5, 3)]];

/// Pairs that come before all of these, and after them.
const BEFORE_ALL: Pair = pair(5, 1);
const AFTER_ALL: Pair = pair(6, 1);

const fn pair(gap: u16, size: u16) -> Pair {
    Pair { gap, size }
}

/// The cases of two pairs, for each count with these lengths.
fn cases(two: [Pair; 2], lengths: impl Fn(usize) -> Vec<usize>) -> Vec<Case> {
    let [equal, last] = two;
    let of_count = |count| lengths(count).into_iter().map(move |length| Case { count, length, equal, last });
    COUNTS.into_iter().flat_map(of_count).collect()
}

/// The list comes a whole number of times, but its last pair of all is another, so that the cycle does not repeat. Where that pair comes
/// before all others the form begins with it. Where it comes after them the form ends with it: every other turn has it, or the list's last
/// pair, earlier.
fn last_case(case: Case, library: &mut Library) -> Verdict {
    let Case { count, length, equal, last } = case;
    let list = [vec![equal; length - 1], vec![last]].concat();
    let others = &list.repeat(count / length)[..count - 1];
    let first = [&[BEFORE_ALL], others].concat();
    compare(&[others, &[BEFORE_ALL]].concat(), &first, library)?;
    compare(&turned(&first, 5 * length % count), &first, library)?;
    let form = [others, &[AFTER_ALL]].concat();
    compare(&form, &form, library)?;
    compare(&turned(&form, 5 * length % count), &form, library)?;
    Ok(0)
}

/// The list comes again and again, and is cut off at the end: then one run of equal pairs, over the join, is longer than the others, and
/// the cycle does not repeat. The form begins with that run where the equal pair is the smaller, and ends with it where it is the larger. It
/// counts as 0 where nothing is cut off.
fn length_case(case: Case, library: &mut Library) -> Verdict {
    let Case { count, length, equal, last } = case;
    let list = [vec![equal; length - 1], vec![last]].concat();
    let pairs: Vec<Pair> = list.iter().copied().cycle().take(count).collect();
    let rest = count % length;
    let others = if rest > 0 { count / length - 1 } else { 0 };
    let longest = vec![equal; length - 1 + rest];
    let form = if (equal.gap, equal.size) < (last.gap, last.size) {
        [longest, vec![last], list.repeat(others)].concat()
    } else {
        [turned(&list, length - 1).repeat(others), vec![last], longest].concat()
    };
    compare(&turned(&pairs, 5 * length % count), &form, library)?;
    Ok(u32::from(rest > 0))
}
