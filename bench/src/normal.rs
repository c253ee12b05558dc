//! The normal form of a cycle: its shortest list, turned so that it comes first. The literal way tries every length of that list
//! and builds all of its turns. In the last lines the hardest cycle grows, and what one of its pairs takes should not.

use crate::calls::{Calls, LIBRARY, PLAIN_C};
use crate::windows::{heading, row};
use crate::{coin, in_turn, line, times};
use reference::Pair;
use std::cell::RefCell;
use std::hint::black_box;

/// Two pairs that their sizes tell apart, A before B.
const A: Pair = Pair { gap: 30, size: 5 };
const B: Pair = Pair { gap: 30, size: 6 };

/// One B among so many pairs, with so many A behind it.
fn one_differs(count: usize, behind: usize) -> Vec<Pair> {
    let mut pairs = vec![A; count];
    pairs[count - 1 - behind] = B;
    pairs
}

/// The search for the turn takes 3 * count - 6 steps, more than with any other list of two kinds of pairs (all of up to 17 pairs
/// were tried). At each divisor the list looks like a repetition almost up to its end.
fn hardest(count: usize) -> Vec<Pair> {
    one_differs(count, 2)
}

/// Pairs of two kinds in no order. There are many such lists: of a single one the processor learns each branch by heart.
fn mixed() -> Vec<Vec<Pair>> {
    let mut coin = coin();
    (0..64).map(|_| (0..512).map(|_| if coin() { B } else { A }).collect()).collect()
}

/// Cycles whose normal forms are equally long, asked for in turn.
fn inputs() -> [(&'static str, Vec<Vec<Pair>>); 6] {
    // 127 is odd, so no gap comes twice.
    let different = (0..512).map(|i| Pair { gap: i * 127 % 512, size: 1 }).collect();
    [
        ("512 pairs, all different", vec![different]),
        ("512 pairs, all equal", vec![vec![A; 512]]),
        ("512 pairs, two kinds by turns", vec![[A, B].repeat(256)]),
        ("512 pairs, two kinds in no order, 64 cycles", mixed()),
        ("512 pairs, the most steps of the search", vec![hardest(512)]),
        ("480 pairs, equal but the last, 24 divisors", vec![one_differs(480, 0)]),
    ]
}

/// "the shortest list whose repetition it is": each report is the same as the one so many reports later.
fn shortest(pairs: &[Pair]) -> &[Pair] {
    let report = |i: usize| pairs[i % pairs.len()];
    let repeats = |n: &usize| (0..pairs.len()).all(|i| report(i + n) == report(i));
    let n = (1..).find(repeats).expect("the count, at the latest");
    &pairs[..n]
}

/// "by gap, then size, pair by pair": what is compared of a list.
fn numbers(list: &[Pair]) -> impl Iterator<Item = (u16, u16)> + '_ {
    list.iter().map(|pair| (pair.gap, pair.size))
}

/// "turned so that it comes first": of all turns.
fn literal(pairs: &[Pair]) -> Vec<Pair> {
    let list = shortest(black_box(pairs));
    let turns = (0..list.len()).map(|i| [&list[i..], &list[..i]].concat());
    turns.min_by(|one, other| numbers(one).cmp(numbers(other))).expect("a list of one pair or more")
}

/// What is measured tells how many pairs there are. That they are the right ones is looked at here.
fn assert_agreed(name: &str, pairs: &[Pair]) {
    for calls in [&LIBRARY, &PLAIN_C] {
        let mut normal = pairs.to_vec();
        let count = calls.normal_form(pairs, &mut normal);
        assert_eq!(normal[..count as usize], literal(pairs), "{name}");
    }
}

/// One line, of cycles in turn.
fn normal_form(name: &str, cycles: &[Vec<Pair>]) {
    for pairs in cycles {
        assert_agreed(name, pairs);
    }
    let next = in_turn(cycles);
    let normal = RefCell::new(cycles[0].clone());
    let call = |calls: &Calls| calls.normal_form(next(), &mut normal.borrow_mut());
    line(&format!("normal form, {name}"), call, || literal(next()).len() as u32);
}

pub fn all() {
    for (name, cycles) in inputs() {
        normal_form(name, &cycles);
    }
}

const COUNTS: [usize; 4] = [64, 128, 256, 512];

/// The hardest cycles: what one of their pairs takes, against one of the shortest cycle in the same program. Each count has one
/// divisor more than the count before it, for which the list is looked at once more.
pub fn against_64() {
    heading("one call; ratios of the time per pair to that with 64 pairs");
    let cycles = COUNTS.map(hardest);
    for pairs in &cycles {
        assert_agreed("the hardest cycles", pairs);
    }
    let normal = RefCell::new(hardest(512));
    let call = |side: usize, pairs: &[Pair]| match side {
        0 => LIBRARY.normal_form(pairs, &mut normal.borrow_mut()),
        1 => PLAIN_C.normal_form(pairs, &mut normal.borrow_mut()),
        _ => literal(pairs).len() as u32,
    };
    let (call, cycles) = (&call, &cycles);
    let calls: [_; 12] = std::array::from_fn(|i| move || call(i / 4, &cycles[i % 4]));
    let times = times(calls.each_ref().map(|call| call as &dyn Fn() -> u32));
    for (way, count) in COUNTS.iter().enumerate() {
        let per_pair = |i: usize| times[i] / COUNTS[i % 4] as f64;
        let sides = [0, 4, 8].map(|side| (times[side + way], per_pair(side + way) / per_pair(side)));
        row(&format!("normal form, {count} pairs, the most steps of the search"), sides);
    }
}
