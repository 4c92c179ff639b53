//! A small generator of numbers, the same on every machine.

pub struct Random(u64);

impl Random {
    pub fn new(seed: u64) -> Self {
        Self(seed)
    }
    /// splitmix64.
    pub fn word(&mut self) -> u64 {
        self.0 = self.0.wrapping_add(0x9e37_79b9_7f4a_7c15);
        let mut z = self.0;
        z = (z ^ (z >> 30)).wrapping_mul(0xbf58_476d_1ce4_e5b9);
        z = (z ^ (z >> 27)).wrapping_mul(0x94d0_49bb_1331_11eb);
        z ^ (z >> 31)
    }
    pub fn below(&mut self, n: u64) -> u64 {
        self.word() % n
    }
    pub fn chance(&mut self, in_thousand: u64) -> bool {
        self.below(1000) < in_thousand
    }
    pub fn of<T: Copy>(&mut self, choices: &[T]) -> T {
        choices[self.below(choices.len() as u64) as usize]
    }
    /// A word of a random width, so that small numbers come as often as large ones.
    pub fn sized(&mut self) -> u64 {
        let width = self.below(65) as u32;
        if width == 0 {
            0
        } else {
            self.word() >> (64 - width)
        }
    }
    /// A number at or beside a power of two.
    pub fn edge(&mut self) -> u64 {
        let power = self.below(65) as u32;
        let at = if power == 64 { 0 } else { 1u64 << power };
        at.wrapping_add(self.below(5)).wrapping_sub(2)
    }
}
