//! Document 02, Req 12: "the shortest list whose repetition it is, turned so that it comes first in the order by gap, then size, pair by
//! pair". Every length is tried, the shortest first, and every turn.
//!
//! Whether "one endless run, begun at some report, is the other" does not go by normal forms: every report is tried as the start.
//! Endless runs are compared over whole rounds of both; where these are long the second way, of the same name without `_by_rounds`,
//! compares fewer reports.

use crate::{Pair, Refusal};
use std::cmp::Ordering;

/// The normal form of a cycle, for a list of `places` places. "Only 12 and 20 can occur, 20 when the lent list has fewer places than the
/// normal form".
pub fn form(pairs: &[Pair], places: usize) -> Result<Vec<Pair>, Refusal> {
    if pairs.is_empty() || pairs.len() > 512 {
        return Err(12);
    }
    let form = first_turn(shortest(pairs));
    if places < form.len() {
        return Err(20);
    }
    Ok(form)
}

/// "the shortest list whose repetition it is". The repetition begins with the list.
fn shortest(pairs: &[Pair]) -> &[Pair] {
    let mut lists = (1..=pairs.len()).map(|length| &pairs[..length]);
    lists.find(|list| is_run(pairs, 0, list)).expect("the cycle's own list")
}

/// "turned so that it comes first"
fn first_turn(list: &[Pair]) -> Vec<Pair> {
    let turns = (0..list.len()).map(|start| [&list[start..], &list[..start]].concat());
    turns.min_by(|one, other| order(one, other)).expect("a turn")
}

/// "the order by gap, then size, pair by pair": the first pair that is not the same decides.
fn order(one: &[Pair], other: &[Pair]) -> Ordering {
    let numbers = |pair: &Pair| (pair.gap, pair.size);
    one.iter().map(numbers).cmp(other.iter().map(numbers))
}

/// The reports of a cycle's endless repetition, from this one on.
fn run(pairs: &[Pair], start: usize) -> impl Iterator<Item = &Pair> {
    pairs.iter().cycle().skip(start)
}

/// Whether so many reports of a cycle's run, begun at report `start`, are the other's first.
fn agree(pairs: &[Pair], start: usize, other: &[Pair], reports: usize) -> bool {
    run(pairs, start).zip(run(other, 0)).take(reports).all(|(one, other)| one == other)
}

/// Whether a cycle's run, begun at report `start`, is the other's. A whole number of rounds of both is compared: after it each is where it
/// began.
fn is_run_by_rounds(pairs: &[Pair], start: usize, other: &[Pair]) -> bool {
    agree(pairs, start, other, pairs.len() * other.len())
}

/// The same with fewer reports: as many as the pairs of both, c and d, together.
///
/// That is enough. Of runs x and y that agree before report n, and n is not less than c + d, report n agrees too:
/// x(n) = x(n − c) = y(n − c) = y(n − c − d) = x(n − c − d) = x(n − d) = y(n − d) = y(n).
fn is_run(pairs: &[Pair], start: usize, other: &[Pair]) -> bool {
    agree(pairs, start, other, pairs.len() + other.len())
}

/// Whether "one endless run, begun at some report, is the other". A run that begins at a report of a later round is one that begins in
/// the first.
pub fn are_one_run_by_rounds(one: &[Pair], other: &[Pair]) -> bool {
    (0..one.len()).any(|start| is_run_by_rounds(one, start, other))
}

pub fn are_one_run(one: &[Pair], other: &[Pair]) -> bool {
    (0..one.len()).any(|start| is_run(one, start, other))
}
