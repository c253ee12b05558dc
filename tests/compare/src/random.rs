//! Random numbers from a seed (SplitMix64), the same on every machine.

pub struct Random {
    state: u64,
    /// The case's number, for a group that takes its kinds of input in turn.
    pub case: u64,
}

impl Random {
    /// The numbers of one case: they depend on the run's seed, the group's name and the case's number alone.
    pub fn of_case(seed: u64, group: &str, case: u64) -> Random {
        let mut random = Random { state: seed, case };
        for word in group.bytes().map(u64::from).chain([case]) {
            random.state = random.next() ^ word;
        }
        random
    }

    pub fn next(&mut self) -> u64 {
        self.state = self.state.wrapping_add(0x9E37_79B9_7F4A_7C15);
        let mut z = self.state;
        z = (z ^ (z >> 30)).wrapping_mul(0xBF58_476D_1CE4_E5B9);
        z = (z ^ (z >> 27)).wrapping_mul(0x94D0_49BB_1331_11EB);
        z ^ (z >> 31)
    }

    pub fn below(&mut self, end: u64) -> u64 {
        self.next() % end
    }

    pub fn between(&mut self, least: u64, most: u64) -> u64 {
        least + self.below(most - least + 1)
    }

    /// True once in `n` times.
    pub fn once_in(&mut self, n: u64) -> bool {
        self.below(n) == 0
    }

    pub fn pick<T: Copy>(&mut self, from: &[T]) -> T {
        from[self.below(from.len() as u64) as usize]
    }

    /// Small numbers as often as large ones: 0 to 2^bits − 1, by length first.
    pub fn of_any_length(&mut self, bits: u64) -> u64 {
        let length = self.between(0, bits);
        self.next() & ((1 << length) - 1)
    }

    /// A value moved by at most `by`, kept between 1 and `most`.
    pub fn near(&mut self, value: u64, by: u64, most: u64) -> u64 {
        (value + self.between(0, 2 * by)).saturating_sub(by).clamp(1, most)
    }

    /// What lent places hold before a call: random, so that a call that writes there is seen.
    pub fn places<const N: usize>(&mut self) -> [u32; N] {
        std::array::from_fn(|_| self.next() as u32)
    }
}
