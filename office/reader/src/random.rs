//! Random numbers for the tests. The seed alone decides what comes out.

/// SplitMix64: small, and the same everywhere.
pub struct Random(u64);

impl Random {
    pub fn new(seed: u64) -> Random {
        Random(seed)
    }

    /// Numbers apart: what is drawn of them does not move those that follow here.
    pub fn apart(&self) -> Random {
        Random(self.0 ^ 0x746f_726e_6669_6c6d)
    }

    pub fn bits(&mut self) -> u64 {
        self.0 = self.0.wrapping_add(0x9e37_79b9_7f4a_7c15);
        let mut z = self.0;
        z = (z ^ (z >> 30)).wrapping_mul(0xbf58_476d_1ce4_e5b9);
        z = (z ^ (z >> 27)).wrapping_mul(0x94d0_49bb_1331_11eb);
        z ^ (z >> 31)
    }

    /// From 0 to n - 1.
    pub fn below(&mut self, n: usize) -> usize {
        (self.bits() % n as u64) as usize
    }

    pub fn between(&mut self, low: i64, high: i64) -> i64 {
        low + self.below((high - low + 1) as usize) as i64
    }

    /// True once in n.
    pub fn once_in(&mut self, n: usize) -> bool {
        self.below(n) == 0
    }

    /// From 0 to 1.
    pub fn unit(&mut self) -> f64 {
        (self.bits() >> 11) as f64 / (1u64 << 53) as f64
    }

    /// From -3 to 3, with all bits in use.
    pub fn real(&mut self) -> f64 {
        6.0 * self.unit() - 3.0
    }

    /// A small whole number or half: many exact ties and cancellations.
    pub fn small(&mut self) -> f64 {
        self.between(-4, 4) as f64 / if self.once_in(3) { 2.0 } else { 1.0 }
    }

    pub fn positive(&mut self) -> f64 {
        0.05 + 4.0 * self.unit()
    }

    pub fn pick<T: Copy>(&mut self, list: &[T]) -> T {
        list[self.below(list.len())]
    }

    pub fn shuffle<T>(&mut self, list: &mut [T]) {
        for i in (1..list.len()).rev() {
            list.swap(i, self.below(i + 1));
        }
    }
}
