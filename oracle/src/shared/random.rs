// The generator of pseudo-random numbers: splitmix64 (Steele, Lea, Flood 2014).

pub struct Random(u64);

impl Random {
    pub fn new(seed: u64) -> Random {
        Random(seed)
    }

    pub fn bits(&mut self) -> u64 {
        self.0 = self.0.wrapping_add(0x9e37_79b9_7f4a_7c15);
        let mut z = self.0;
        z = (z ^ (z >> 30)).wrapping_mul(0xbf58_476d_1ce4_e5b9);
        z = (z ^ (z >> 27)).wrapping_mul(0x94d0_49bb_1331_11eb);
        z ^ (z >> 31)
    }

    // A number below n. The small bias of the remainder does not matter here.
    pub fn below(&mut self, n: u64) -> u64 {
        self.bits() % n
    }

    // A number from low to high, both among them.
    pub fn between(&mut self, low: u64, high: u64) -> u64 {
        low + self.below(high - low + 1)
    }

    pub fn pick<T: Copy>(&mut self, choices: &[T]) -> T {
        choices[self.below(choices.len() as u64) as usize]
    }

    // One of the choices, and each of the others with a chance of one in three, in their order.
    pub fn some<T: Copy>(&mut self, choices: &[T]) -> Vec<T> {
        let one = self.below(choices.len() as u64) as usize;
        let chosen = choices.iter().enumerate().filter(|&(i, _)| i == one || self.below(3) == 0);
        chosen.map(|(_, &choice)| choice).collect()
    }

    // A float of either sign, evenly from -1 to 1, with 53 bits.
    pub fn unit(&mut self) -> f64 {
        let size = (self.bits() >> 11) as f64 / (1u64 << 53) as f64;
        if self.below(2) == 0 { size } else { -size }
    }

    // A float whose exponent is from low to high, with random digits and sign. Exponent -1023 gives subnormal ones.
    pub fn float(&mut self, low: i64, high: i64) -> f64 {
        let exponent = (low + self.below((high - low + 1) as u64) as i64 + 1023) as u64;
        let digits = self.bits() & 0x800f_ffff_ffff_ffff;
        f64::from_bits(digits | exponent << 52)
    }
}
