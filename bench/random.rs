//! Random numbers for the comparison: xorshift64*, so that a seed gives the same run on every machine.

pub struct Random(u64);

impl Random {
    pub fn new(seed: u64) -> Random {
        Random(seed.wrapping_mul(0x9E37_79B9_7F4A_7C15) | 1)
    }

    pub fn word(&mut self) -> u16 {
        self.0 ^= self.0 >> 12;
        self.0 ^= self.0 << 25;
        self.0 ^= self.0 >> 27;
        (self.0.wrapping_mul(0x2545_F491_4F6C_DD1D) >> 48) as u16
    }

    /// A number below n.
    pub fn below(&mut self, n: u16) -> u16 {
        self.word() % n
    }

    /// True once in n times.
    pub fn once_in(&mut self, n: u16) -> bool {
        self.below(n) == 0
    }

    pub fn flag(&mut self) -> u16 {
        self.below(2)
    }

    pub fn one_of<T: Copy>(&mut self, choices: &[T]) -> T {
        choices[self.below(choices.len() as u16) as usize]
    }
}
