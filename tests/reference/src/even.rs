//! Document 01, "The even plan": "the largest s in the range at which an endless list of sizes obeys the rules"; document 02, Req 06:
//! it "looks through both, largest gap first"; Req 10: what endless lists of sizes at one gap hold in a row.

use crate::{Kind, Plan, Refusal, Spec};
use std::collections::HashMap;

/// The even plan, given the judgement whether an endless list of sizes exists at a gap. Every gap of either range is tried.
pub fn even_plan(spec: &Spec, works: impl Fn(&Spec, u64) -> bool) -> Result<Plan, Refusal> {
    let gap = spec.gaps().find(|&gap| works(spec, gap)).ok_or(10u32)?;
    Ok(match spec.demand {
        Some((l, p)) => {
            let m = p / gap;
            Plan { kind: Kind::Even, k: m, period: m * gap, total: (m * spec.size.0).max(l) }
        }
        None => Plan { kind: Kind::Even, k: 1, period: gap, total: spec.size.0 },
    })
}

/// Whether an endless list exists, by counting: n blocks of m reports hold at least n × δ, and as m blocks of n at most m × B;
/// the sizes of the even kind reach that. `list_exists` says the same by search.
pub fn counts_fit(spec: &Spec, gap: u64) -> bool {
    let (dmin, dmax) = spec.size;
    let reports_at_most = |r: u64| r.div_ceil(gap);
    match (spec.supply, spec.demand) {
        (None, None) => true,
        (Some((b, r)), None) => reports_at_most(r) * dmin <= b,
        (None, Some((l, p))) => l <= (p / gap) * dmax,
        (Some((b, r)), Some((l, p))) => {
            let m = p / gap;
            l <= m * dmax && reports_at_most(r) * (m * dmin).max(l) <= m * b
        }
    }
}

/// Whether an endless list of sizes obeys the rules at this gap, by search, from the rules alone.
///
/// The list is built report by report. Report i is at minute i × gap. Once it is there, every stretch that ends at or before
/// minute (i + 1) × gap is settled and must obey. What the future can see of the past is the last few sizes, so the search
/// walks a finite graph whose nodes are such windows: an endless list exists exactly if a walk from the start can come back
/// to a node that it has passed.
pub fn list_exists(spec: &Spec, gap: u64) -> bool {
    Search::at(spec, gap).goes_on(Node::default(), &mut HashMap::new())
}

/// Every endless list of sizes that obeys the rules at one gap: the nodes of the search's graph from which a walk can go on for ever, each
/// with its steps to others of them.
pub struct Lists {
    nodes: Vec<Node>,
    steps: Vec<Vec<Step>>,
}

/// One more report, of this size, and the node that it leads to.
struct Step {
    size: u64,
    to: usize,
}

impl Lists {
    pub fn at(spec: &Spec, gap: u64) -> Lists {
        let search = Search::at(spec, gap);
        let mut nodes = vec![Node::default()];
        let mut places = HashMap::from([(Node::default(), 0)]);
        let mut steps: Vec<Vec<Step>> = vec![];
        while steps.len() < nodes.len() {
            let node = nodes[steps.len()].clone();
            let mut onward = vec![];
            for size in spec.size.0..=spec.size.1 {
                if let Some(next) = search.add(&node, size) {
                    let to = *places.entry(next).or_insert_with_key(|next| {
                        nodes.push(next.clone());
                        nodes.len() - 1
                    });
                    onward.push(Step { size, to });
                }
            }
            steps.push(onward);
        }
        let mut lists = Lists { nodes, steps };
        lists.leave_dead_ends();
        lists
    }

    /// Takes out the steps that lead to a node with no step, until there are none.
    fn leave_dead_ends(&mut self) {
        loop {
            let ends: Vec<bool> = self.steps.iter().map(Vec::is_empty).collect();
            let before: usize = self.steps.iter().map(Vec::len).sum();
            self.steps.iter_mut().for_each(|onward| onward.retain(|step| !ends[step.to]));
            if before == self.steps.iter().map(Vec::len).sum() {
                return;
            }
        }
    }

    /// Whether there is any.
    pub fn exist(&self) -> bool {
        !self.steps[0].is_empty()
    }

    /// The least that so many reports in a row hold in any of them, the first of which is report `from`, 0 or 1, or a later one. None where
    /// there is no list.
    pub fn least_in_a_row(&self, from: u64, reports: u64) -> Option<u64> {
        let starts = |at: usize| (self.nodes[at].reports >= from && !self.steps[at].is_empty()).then_some(0);
        let mut least: Vec<Option<u64>> = (0..self.nodes.len()).map(starts).collect();
        for _ in 0..reports {
            let mut next = vec![None; least.len()];
            for (onward, held) in self.steps.iter().zip(&least) {
                let Some(held) = held else { continue };
                for step in onward {
                    let sum = held + step.size;
                    next[step.to] = Some(next[step.to].map_or(sum, |other: u64| other.min(sum)));
                }
            }
            least = next;
        }
        least.into_iter().flatten().min()
    }
}

/// How far a list has come; by default it has no report.
#[derive(Clone, Default, PartialEq, Eq, Hash)]
struct Node {
    /// How many reports there are. From `settled` on the number itself no longer matters.
    reports: u64,
    /// The sizes of the last of them.
    last: Vec<u64>,
}

#[derive(Clone, Copy, PartialEq)]
enum Mark {
    OnTheWay,
    DeadEnd,
}

struct Search<'a> {
    spec: &'a Spec,
    gap: u64,
    /// How many sizes a node keeps: as many as any stretch can hold.
    window: usize,
}

impl Search<'_> {
    fn at(spec: &Spec, gap: u64) -> Search<'_> {
        let longest = spec.supply.map_or(0, |s| s.1).max(spec.demand.map_or(0, |d| d.1));
        Search { spec, gap, window: longest.div_ceil(gap) as usize + 1 }
    }

    /// Whether a walk from this node comes back to a node that is on the way to it.
    fn goes_on(&self, node: Node, marks: &mut HashMap<Node, Mark>) -> bool {
        match marks.get(&node) {
            Some(Mark::OnTheWay) => return true,
            Some(Mark::DeadEnd) => return false,
            None => (),
        }
        marks.insert(node.clone(), Mark::OnTheWay);
        for size in self.spec.size.0..=self.spec.size.1 {
            if let Some(next) = self.add(&node, size) {
                if self.goes_on(next, marks) {
                    return true;
                }
            }
        }
        marks.insert(node, Mark::DeadEnd);
        false
    }

    /// The node after one more report of this size, if all stretches that it settles obey.
    fn add(&self, node: &Node, size: u64) -> Option<Node> {
        let mut last = node.last.clone();
        last.push(size);
        let obey = self.settled_stretches(node.reports, &last);
        if last.len() > self.window {
            last.remove(0);
        }
        // Later than this, no stretch that is still to be settled reaches minute 0, and all nodes look alike.
        let alike = self.window as u64 + 1;
        obey.then(|| Node { reports: (node.reports + 1).min(alike), last })
    }

    /// Whether the stretches obey that end after minute i × gap and at or before minute (i + 1) × gap.
    fn settled_stretches(&self, i: u64, last: &[u64]) -> bool {
        let first_kept = i + 1 - last.len() as u64;
        let held = |a: u64, n: u64| -> u64 {
            (first_kept..=i).filter(|j| (a..a + n).contains(&(j * self.gap))).map(|j| last[(j - first_kept) as usize]).sum()
        };
        let ends = i * self.gap + 1..=(i + 1) * self.gap;
        let starts = |n: u64| ends.clone().filter(move |&end| end >= n).map(move |end| end - n);
        self.spec.supply.map_or(true, |(b, r)| starts(r).all(|a| held(a, r) <= b))
            && self.spec.demand.map_or(true, |(l, p)| starts(p).all(|a| held(a, p) >= l))
    }
}
