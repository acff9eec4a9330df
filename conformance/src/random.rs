//! A pseudo-random source: xoshiro256++, seeded by splitmix64. The same seed gives the same list everywhere.

pub struct Random([u64; 4]);

impl Random {
    pub fn new(mut seed: u64) -> Random {
        Random([(); 4].map(|()| {
            seed = seed.wrapping_add(0x9e37_79b9_7f4a_7c15);
            let mix = (seed ^ seed >> 30).wrapping_mul(0xbf58_476d_1ce4_e5b9);
            let mix = (mix ^ mix >> 27).wrapping_mul(0x94d0_49bb_1331_11eb);
            mix ^ mix >> 31
        }))
    }

    pub fn number64(&mut self) -> u64 {
        let s = &mut self.0;
        let result = s[0].wrapping_add(s[3]).rotate_left(23).wrapping_add(s[0]);
        let shifted = s[1] << 17;
        s[2] ^= s[0];
        s[3] ^= s[1];
        s[1] ^= s[2];
        s[0] ^= s[3];
        s[2] ^= shifted;
        s[3] = s[3].rotate_left(45);
        result
    }

    /// Below `bound`, which is not 0.
    pub fn below(&mut self, bound: usize) -> usize {
        ((u128::from(self.number64()) * bound as u128) >> 64) as usize
    }

    /// From `low` to `high`, both included.
    pub fn within(&mut self, low: usize, high: usize) -> usize {
        low + self.below(high - low + 1)
    }

    /// Yes in `of` out of a hundred cases.
    pub fn percent(&mut self, of: usize) -> bool {
        self.below(100) < of
    }

    /// Yes in `of` out of a thousand cases.
    pub fn permille(&mut self, of: usize) -> bool {
        self.below(1000) < of
    }

    pub fn pick<'a, T>(&mut self, from: &'a [T]) -> &'a T {
        &from[self.below(from.len())]
    }

    pub fn octet(&mut self) -> u8 {
        self.number64() as u8
    }

    pub fn number16(&mut self) -> u16 {
        self.number64() as u16
    }

    pub fn number32(&mut self) -> u32 {
        self.number64() as u32
    }

    pub fn fill(&mut self, octets: &mut [u8]) {
        for part in octets.chunks_mut(8) {
            part.copy_from_slice(&self.number64().to_le_bytes()[..part.len()]);
        }
    }

    pub fn octets(&mut self, length: usize) -> Vec<u8> {
        let mut octets = vec![0; length];
        self.fill(&mut octets);
        octets
    }

    pub fn array<const N: usize>(&mut self) -> [u8; N] {
        let mut octets = [0; N];
        self.fill(&mut octets);
        octets
    }
}
