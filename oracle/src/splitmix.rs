//! The generator behind the seeded lists: splitmix64. It is written out here so
//! that a list depends on its seed alone and not on any library's choice.

pub struct SplitMix(u64);

impl SplitMix {
    pub fn new(seed: u64) -> Self {
        Self(seed)
    }

    pub fn next_u64(&mut self) -> u64 {
        self.0 = self.0.wrapping_add(0x9e37_79b9_7f4a_7c15);
        let mut z = self.0;
        z = (z ^ (z >> 30)).wrapping_mul(0xbf58_476d_1ce4_e5b9);
        z = (z ^ (z >> 27)).wrapping_mul(0x94d0_49bb_1331_11eb);
        z ^ (z >> 31)
    }

    /// Any u32, each as likely as another.
    pub fn uniform(&mut self) -> u32 {
        (self.next_u64() >> 32) as u32
    }

    /// A number below `limit`. No two differ in likelihood by more than 1 in 2^32.
    pub fn below(&mut self, limit: u32) -> u32 {
        ((u64::from(self.uniform()) * u64::from(limit)) >> 32) as u32
    }

    /// A u32 whose bit length, 0 to 32, is drawn first: small numbers come as
    /// often as great ones.
    pub fn log_uniform(&mut self) -> u32 {
        match self.below(u32::BITS + 1) {
            0 => 0,
            length => {
                let highest = 1 << (length - 1);
                highest | self.uniform() & (highest - 1)
            }
        }
    }
}

#[cfg(test)]
mod tests {
    use super::*;

    /// The first numbers the reference splitmix64 gives for this seed.
    #[test]
    fn agrees_with_the_reference() {
        let mut random = SplitMix::new(1_234_567);
        let drawn = [(); 3].map(|()| random.next_u64());
        assert_eq!(
            drawn,
            [
                6_457_827_717_110_365_317,
                3_203_168_211_198_807_973,
                9_817_491_932_198_370_423,
            ]
        );
    }
}
