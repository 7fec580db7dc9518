//! A small generator of numbers. The same seed, part and run give the same run, so each run can be repeated alone.

pub struct Draw {
    state: u64,
}

impl Draw {
    pub fn new(seed: u64, part: u64, run: u64) -> Draw {
        let mut draw = Draw { state: seed };
        for more in [part, run] {
            draw.state = draw.next() ^ more.wrapping_mul(0x9E37_79B9_7F4A_7C15);
        }
        draw
    }

    pub fn next(&mut self) -> u64 {
        self.state = self.state.wrapping_add(0x9E37_79B9_7F4A_7C15);
        let mut z = self.state;
        z = (z ^ (z >> 30)).wrapping_mul(0xBF58_476D_1CE4_E5B9);
        z = (z ^ (z >> 27)).wrapping_mul(0x94D0_49BB_1331_11EB);
        z ^ (z >> 31)
    }

    pub fn word(&mut self) -> u32 {
        (self.next() >> 32) as u32
    }

    /// A number below `n`; 0 where n is 0.
    pub fn below(&mut self, n: u64) -> u64 {
        if n == 0 { 0 } else { self.next() % n }
    }

    pub fn small(&mut self, n: u32) -> u32 {
        self.below(n as u64) as u32
    }

    pub fn one_in(&mut self, n: u64) -> bool {
        self.below(n) == 0
    }

    pub fn pick<T: Copy>(&mut self, of: &[T]) -> T {
        of[self.below(of.len() as u64) as usize]
    }

    /// A number whose number of bits is drawn first, so that small and great ones are as likely.
    pub fn any_width(&mut self) -> u32 {
        let bits = self.below(33);
        (self.next() & ((1u64 << bits) - 1)) as u32
    }
}
