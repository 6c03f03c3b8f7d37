//! A small generator with a fixed seed, so that every run compares the same
//! calls: splitmix64, a counter stepped by an odd constant and then mixed.

pub struct Random {
    counter: u64,
}

impl Random {
    pub fn new(seed: u64) -> Random {
        Random { counter: seed }
    }

    pub fn number(&mut self) -> u64 {
        self.counter = self.counter.wrapping_add(0x9e37_79b9_7f4a_7c15);
        let mut mixed = self.counter;
        mixed = (mixed ^ (mixed >> 30)).wrapping_mul(0xbf58_476d_1ce4_e5b9);
        mixed = (mixed ^ (mixed >> 27)).wrapping_mul(0x94d0_49bb_1331_11eb);
        mixed ^ (mixed >> 31)
    }

    pub fn block(&mut self) -> [u8; 16] {
        let mut block = [0; 16];
        block[..8].copy_from_slice(&self.number().to_be_bytes());
        block[8..].copy_from_slice(&self.number().to_be_bytes());
        block
    }

    /// A number below `limit`. That some come a little more often than others
    /// does not matter here.
    pub fn below(&mut self, limit: usize) -> usize {
        (self.number() % limit as u64) as usize
    }

    pub fn bytes(&mut self, length: usize) -> Vec<u8> {
        (0..length).map(|_| self.number() as u8).collect()
    }
}
