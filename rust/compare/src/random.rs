//! Random numbers by splitmix64, and random parameters and words.

use second::Params;

pub struct Random(u64);

impl Random {
    pub fn new(seed: u64) -> Random {
        Random(seed)
    }

    pub fn word(&mut self) -> u64 {
        self.0 = self.0.wrapping_add(0x9e37_79b9_7f4a_7c15);
        let mut z = self.0;
        z = (z ^ z >> 30).wrapping_mul(0xbf58_476d_1ce4_e5b9);
        z = (z ^ z >> 27).wrapping_mul(0x94d0_49bb_1331_11eb);
        z ^ z >> 31
    }

    /// A number below `bound`, which is small.
    pub fn below(&mut self, bound: usize) -> usize {
        (self.word() % bound as u64) as usize
    }

    /// A number from a to b.
    pub fn from_to(&mut self, a: usize, b: usize) -> usize {
        a + self.below(b - a + 1)
    }

    pub fn one_in(&mut self, n: usize) -> bool {
        self.below(n) == 0
    }

    pub fn pick<T: Copy>(&mut self, items: &[T]) -> T {
        items[self.below(items.len())]
    }

    /// Parameters in their ranges: the limits of k and t often.
    pub fn params(&mut self) -> Params {
        let k = if self.one_in(2) { self.pick(&[1, 2, 63, 64]) } else { self.from_to(1, 64) as u64 };
        let d = self.from_to(2, 6);
        let most = (1 << d) - 1;
        let n = if self.one_in(3) { most } else { self.from_to(1, most) };
        let t = match self.below(5) {
            0 => 0,
            1 => n - 1,
            2 => self.below(n),
            _ => self.below(n / 3 + 1),
        };
        Params { k, d, n, t }
    }

    /// The same with one number out of its range.
    pub fn bad_params(&mut self) -> Params {
        let mut p = self.params();
        match self.below(4) {
            0 => p.k = self.pick(&[0, 65, 128, u64::MAX]),
            1 => p.d = self.pick(&[0, 1, 7, 64, usize::MAX]),
            2 => p.n = self.pick(&[0, 1 << p.d, 64, usize::MAX]),
            _ => p.t = self.pick(&[p.n, p.n + 1, 64, usize::MAX]),
        }
        p
    }

    /// Random words of k bits; sometimes they are at the ends of the range.
    pub fn words(&mut self, k: u64, count: usize) -> Vec<u64> {
        let ends = self.one_in(8);
        (0..count).map(|_| if ends { self.pick(&[0, 1, u64::MAX]) } else { self.word() } & mask(k)).collect()
    }

    /// Some different numbers below m, in any order.
    pub fn some(&mut self, count: usize, m: usize) -> Vec<usize> {
        let mut numbers: Vec<usize> = (0..m).collect();
        for i in 0..count.min(m) {
            let other = self.from_to(i, m - 1);
            numbers.swap(i, other);
        }
        numbers.truncate(count);
        numbers
    }

    /// How many of m shares to make wide: as many as there is room for in the allowance or fewer, one more, or any number.
    pub fn wide_shares(&mut self, k: u64, room: usize, m: usize) -> usize {
        match self.below(8) {
            _ if k == 64 => 0,
            0..=2 => self.from_to(0, room),
            3 | 4 => room,
            5 | 6 => room + 1,
            _ => self.from_to(0, m),
        }
    }

    /// Bits above the width for the d words of a share, in one of them or in several.
    pub fn wide_bits(&mut self, k: u64, d: usize) -> Vec<u64> {
        let mut bits = vec![0; d];
        let count = if self.one_in(2) { 1 } else { self.from_to(1, d) };
        for j in self.some(count, d) {
            bits[j] = self.pick(&[1, 1 << (63 - k), u64::MAX >> k]) << k;
        }
        bits
    }

    /// A list of words, one of them made wide if words can be.
    pub fn widen(&mut self, k: u64, words: &mut [u64]) {
        if k < 64 && !words.is_empty() {
            let i = self.below(words.len());
            words[i] |= 1 << self.from_to(k as usize, 63);
        }
    }

    /// A length near the right one.
    pub fn wrong_length(&mut self, right: usize) -> usize {
        self.pick(&[right.saturating_sub(1), right + 1, 0, 2 * right])
    }
}

pub fn mask(k: u64) -> u64 {
    u64::MAX >> (64 - k)
}

#[cfg(test)]
mod tests {
    use super::*;

    #[test]
    fn splitmix64_of_seed_0() {
        let mut random = Random::new(0);
        assert_eq!([random.word(), random.word()], [0xe220_a839_7b1d_cdaf, 0x6e78_9e6a_a1b9_65f4]);
    }

    #[test]
    fn wide_bits_are_above_the_width() {
        let mut random = Random::new(1);
        for k in 1..64 {
            for _ in 0..100 {
                let (bits, count) = (random.wide_bits(k, 6), random.wide_shares(k, 5, 20));
                assert!(count <= 20 && bits.iter().any(|w| *w != 0) && bits.iter().all(|w| *w & mask(k) == 0));
            }
        }
        assert_eq!(random.wide_shares(64, 5, 20), 0);
    }

    #[test]
    fn params_are_in_range_or_not() {
        let mut random = Random::new(1);
        for _ in 0..10_000 {
            assert_eq!(random.params().check(), Ok(()));
            assert_ne!(random.bad_params().check(), Ok(()));
        }
    }
}
