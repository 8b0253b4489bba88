//! Random numbers by seed (xorshift64*), so that a run can be repeated.
#![allow(dead_code)] // each test that includes this file uses its own part of it

pub struct Chance(u64);

impl Chance {
    /// A seed of the test's own, or that of the environment's SAIHDELU_SEED.
    pub fn new(seed: u64) -> Chance {
        let seed = std::env::var("SAIHDELU_SEED").ok().map_or(seed, |s| s.parse().expect("SAIHDELU_SEED is a number"));
        println!("seed {}", seed);
        Chance(seed.wrapping_mul(0x9e37_79b9_7f4a_7c15) | 1)
    }

    fn next(&mut self) -> u64 {
        self.0 ^= self.0 >> 12;
        self.0 ^= self.0 << 25;
        self.0 ^= self.0 >> 27;
        self.0.wrapping_mul(0x2545_f491_4f6c_dd1d) >> 16
    }

    /// A number below `n`.
    pub fn below(&mut self, n: usize) -> usize {
        (self.next() % n as u64) as usize
    }

    pub fn octet(&mut self) -> u8 {
        self.below(256) as u8
    }

    /// One time in `n`.
    pub fn once_in(&mut self, n: usize) -> bool {
        self.below(n) == 0
    }

    pub fn pick<T: Clone>(&mut self, from: &[T]) -> T {
        from[self.below(from.len())].clone()
    }

    pub fn octets(&mut self, n: usize) -> Vec<u8> {
        (0..n).map(|_| self.octet()).collect()
    }

    pub fn key(&mut self) -> [u8; 16] {
        let mut key = [0; 16];
        key.copy_from_slice(&self.octets(16));
        key
    }

    /// What the radio does to octets: mostly nothing, else a flipped bit, a cut end, octets more.
    pub fn damaged(&mut self, mut octets: Vec<u8>) -> Vec<u8> {
        match self.below(12) {
            0 if !octets.is_empty() => {
                let i = self.below(octets.len());
                octets[i] ^= 1 << self.below(8);
            }
            1 => octets.truncate(self.below(octets.len() + 1)),
            2 if self.once_in(4) => {
                let n = 1 + self.below(3);
                octets.extend(self.octets(n));
            }
            _ => (),
        }
        octets
    }
}
