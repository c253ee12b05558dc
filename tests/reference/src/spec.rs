//! Document 01, "The specification" and "Specification file"; document 02, Req 06: a second range of gaps.

use crate::Refusal;

#[derive(Clone, Debug, PartialEq, Eq)]
pub struct Spec {
    /// dmin, dmax
    pub size: (u64, u64),
    /// smin, smax
    pub gap: (u64, u64),
    /// B, R
    pub supply: Option<(u64, u64)>,
    /// L, P
    pub demand: Option<(u64, u64)>,
    /// Tmin, Tmax
    pub duration: Option<(u64, u64)>,
    /// The bounds of the second range of gaps
    pub second: Option<(u64, u64)>,
}

impl Spec {
    /// "A gap is allowed when it is in either."
    pub fn allows_gap(&self, gap: u64) -> bool {
        let holds = |(lower, upper): (u64, u64)| lower <= gap && gap <= upper;
        holds(self.gap) || self.second.is_some_and(holds)
    }

    /// Every gap that is allowed, the largest first.
    pub fn gaps(&self) -> impl Iterator<Item = u64> + '_ {
        let largest = self.second.map_or(self.gap.1, |(_, upper)| upper);
        (self.gap.0..=largest).rev().filter(|&gap| self.allows_gap(gap))
    }
}

/// The limits of the two numbers of each pair, in the file's order. Each is at least 1.
const LIMITS: [(u64, u64); 6] =
    [(1_000, 1_000), (20_160, 20_160), (20_000, 20_160), (20_000, 20_160), (60_000, 60_000), (20_160, 20_160)];

/// The pairs of which the first number is a lower bound and the second its upper: size, gap, duration, second range.
const RANGES: [usize; 4] = [0, 1, 4, 5];

/// "Reading a specification": refusals 1 to 4 and 24 in order, each judged over the whole file before the next.
pub fn read(file: &[u8]) -> Result<Spec, Refusal> {
    let Some(&map) = file.first() else { return Err(1) };
    let stands = |bit: usize| (map >> bit) & 1 == 1;
    if stands(6) || stands(7) || !stands(0) || !stands(1) {
        return Err(1);
    }
    let present: Vec<usize> = (0..6).filter(|&bit| stands(bit)).collect();
    if file.len() != 1 + 4 * present.len() {
        return Err(2);
    }
    let number = |at: usize| u64::from(file[at]) * 256 + u64::from(file[at + 1]);
    let mut pairs: [Option<(u64, u64)>; 6] = [None; 6];
    for (place, &bit) in present.iter().enumerate() {
        pairs[bit] = Some((number(1 + 4 * place), number(3 + 4 * place)));
    }
    for (pair, limit) in pairs.iter().zip(LIMITS) {
        if let Some((first, second)) = *pair {
            if first < 1 || first > limit.0 || second < 1 || second > limit.1 {
                return Err(3);
            }
        }
    }
    for bit in RANGES {
        if let Some((lower, upper)) = pairs[bit] {
            if lower > upper {
                return Err(4);
            }
        }
    }
    let [Some(size), Some(gap), supply, demand, duration, second] = pairs else { unreachable!("bits 0 and 1 stand") };
    // "24 when the second range doesn't start above smax, after 4"
    if second.is_some_and(|(lower, _)| lower <= gap.1) {
        return Err(24);
    }
    Ok(Spec { size, gap, supply, demand, duration, second })
}

/// The file of a specification. Numbers above 65,535 have no file.
pub fn write(spec: &Spec) -> Vec<u8> {
    let pairs = [Some(spec.size), Some(spec.gap), spec.supply, spec.demand, spec.duration, spec.second];
    let mut file = vec![0u8];
    for (bit, pair) in pairs.iter().enumerate() {
        if let Some((first, second)) = pair {
            file[0] |= 1 << bit;
            for number in [first, second] {
                file.extend(u16::try_from(*number).expect("a 2-byte number").to_be_bytes());
            }
        }
    }
    file
}
