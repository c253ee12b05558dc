//! Document 01, "Schedules from document 000", and document 02, Req 02: plans, their kinds and their endless runs.

use crate::schedule::Schedule;
use crate::{file, Pair, Refusal};

#[derive(Clone, Copy, Debug, PartialEq, Eq)]
pub enum Kind {
    WellFormed,
    Even,
}

#[derive(Clone, Copy, Debug, PartialEq, Eq)]
pub struct Plan {
    pub kind: Kind,
    pub k: u64,
    /// π
    pub period: u64,
    /// δ
    pub total: u64,
}

impl Plan {
    pub fn proper(&self) -> bool {
        (1..=20_160).contains(&self.k)
            && self.k <= self.period
            && self.period <= 20_160 * self.k
            && self.k <= self.total
            && self.total <= 1_000 * self.k
            && (self.kind == Kind::WellFormed || self.period % self.k == 0)
    }

    /// Minute and size of report i: the sum of the first i gaps, one by one.
    pub fn report_by_walk(&self, i: u64) -> Result<(u64, u64), Refusal> {
        if !self.proper() {
            return Err(11);
        }
        Ok(((0..i).map(|j| self.gap(j)).sum(), self.size(i)))
    }

    /// The same, where the gaps of a whole period are added up once.
    pub fn report(&self, i: u64) -> Result<(u64, u64), Refusal> {
        if !self.proper() {
            return Err(11);
        }
        let rest: u64 = (0..i % self.k).map(|j| self.gap(j)).sum();
        Ok(((i / self.k) * self.minutes_in_round() + rest, self.size(i)))
    }

    /// The reports of a period "as pairs (gap to the next, size)".
    pub fn pairs(&self) -> Vec<Pair> {
        let word = |number: u64| u16::try_from(number).expect("a 2-byte number");
        (0..self.k).map(|i| Pair { gap: word(self.gap(i)), size: word(self.size(i)) }).collect()
    }

    /// "A plan written out as a cycle", for `room` lent bytes: "11, then 12 where k is above 512, then 20".
    pub fn write(&self, room: usize) -> Result<Vec<u8>, Refusal> {
        if !self.proper() {
            return Err(11);
        }
        file::write(&self.pairs(), room)
    }
}

impl Schedule for Plan {
    fn gap(&self, i: u64) -> u64 {
        match self.kind {
            // "The last π mod k gaps are ⌊π/k⌋ + 1, those before ⌊π/k⌋."
            Kind::WellFormed => self.period / self.k + u64::from(i % self.k >= self.k - self.period % self.k),
            Kind::Even => self.period / self.k,
        }
    }

    fn size(&self, i: u64) -> u64 {
        match self.kind {
            // "The first δ mod k sizes in a period are ⌊δ/k⌋ + 1, the rest ⌊δ/k⌋."
            Kind::WellFormed => self.total / self.k + u64::from(i % self.k < self.total % self.k),
            // "In even plans the size of report i becomes ⌈(i + 1) × δ/k⌉ − ⌈i × δ/k⌉."
            Kind::Even => ((i + 1) * self.total).div_ceil(self.k) - (i * self.total).div_ceil(self.k),
        }
    }

    fn reports_in_round(&self) -> u64 {
        self.k
    }
}
