//! Which of two dated cycle files is in force. Both are judged, and their bytes compared where the days are equal. The literal way
//! reads both into lists.

use crate::calls::{Calls, LIBRARY, PLAIN_C};
use crate::{coin, in_turn, line};
use reference::{dated, file, Pair};
use std::hint::black_box;

/// Files that are handed in together.
type Two = [Vec<u8>; 2];

/// No number comes twice, so each pair takes 5 bytes.
fn different(count: u16) -> Vec<Pair> {
    (0..count).map(|i| Pair { gap: 30 + i, size: 1 + i }).collect()
}

/// Each pair but the first takes 3 bytes.
fn gaps_equal() -> Vec<Pair> {
    (0..512).map(|i| Pair { gap: 30, size: 1 + i }).collect()
}

fn dated_file(day: u16, pairs: &[Pair]) -> Vec<u8> {
    [day.to_be_bytes().to_vec(), file::write(pairs, usize::MAX).unwrap()].concat()
}

/// The same pairs, issued one day and the next.
fn one_day_later(pairs: &[Pair]) -> Vec<Two> {
    vec![[255, 256].map(|day| dated_file(day, pairs))]
}

/// What `change` makes of a file of 512 pairs, and beside it the file as it was.
fn changed(change: impl Fn(&mut Vec<u8>)) -> Vec<Two> {
    let file = dated_file(256, &different(512));
    let mut changed = file.clone();
    change(&mut changed);
    vec![[changed, file]]
}

/// Two gaps and two sizes in no order, so that any pair but the first may have both fields, either or none. There are many such
/// files: of a single one the processor learns each branch by heart.
fn mixed() -> Vec<Two> {
    let mut coin = coin();
    let mut pair = || Pair { gap: 30 + u16::from(coin()), size: 5 + u16::from(coin()) };
    let mut pairs = || (0..512).map(|_| pair()).collect::<Vec<_>>();
    (0..64).map(|_| [255, 256].map(|day| dated_file(day, &pairs()))).collect()
}

/// Files that are asked about in turn.
fn inputs() -> [(&'static str, Vec<Two>); 8] {
    [
        ("in force, 512 pairs, all different, of different days", one_day_later(&different(512))),
        ("    equal files", changed(|_| ())),
        ("    of the same day, the last byte differs", changed(|file| *file.last_mut().unwrap() ^= 1)),
        ("    one cut after 8 bytes", changed(|file| file.truncate(8))),
        ("in force, 512 pairs, gaps equal, of different days", one_day_later(&gaps_equal())),
        ("in force, 512 pairs, all equal, of different days", one_day_later(&[Pair { gap: 30, size: 5 }; 512])),
        ("in force, 512 pairs, fields in no order, 64 times two files", mixed()),
        ("in force, 1 pair, of different days", one_day_later(&different(1))),
    ]
}

/// The file in force, or the refusal.
fn literal([first, second]: &Two) -> u32 {
    dated::in_force(black_box(first), second).unwrap_or_else(|refusal| refusal)
}

fn call(calls: &Calls, [first, second]: &Two) -> u32 {
    calls.in_force(first, second)
}

pub fn all() {
    for (name, inputs) in inputs() {
        for two in &inputs {
            assert_eq!([&LIBRARY, &PLAIN_C].map(|calls| call(calls, two)), [literal(two); 2], "{name}");
        }
        let next = in_turn(&inputs);
        line(name, |calls| call(calls, next()), || literal(next()));
    }
}
