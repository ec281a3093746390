//! A small seeded generator of numbers: splitmix64.

pub struct Random {
    state: u64,
}

impl Random {
    pub fn new(seed: u64) -> Random {
        Random { state: seed }
    }

    /// 64 bits.
    pub fn bits(&mut self) -> u64 {
        self.state = self.state.wrapping_add(0x9E37_79B9_7F4A_7C15);
        let mut mixed = self.state;
        mixed = (mixed ^ (mixed >> 30)).wrapping_mul(0xBF58_476D_1CE4_E5B9);
        mixed = (mixed ^ (mixed >> 27)).wrapping_mul(0x94D0_49BB_1331_11EB);
        mixed ^ (mixed >> 31)
    }

    /// 0..count − 1; count is at least 1.
    pub fn below(&mut self, count: u64) -> u64 {
        ((u128::from(self.bits()) * u128::from(count)) >> 64) as u64
    }

    /// least..largest, both included.
    pub fn between(&mut self, least: u64, largest: u64) -> u64 {
        match (largest - least).checked_add(1) {
            Some(count) => least + self.below(count),
            None => self.bits(),
        }
    }

    /// least..largest, both included, for signed numbers of up to 63 bits.
    pub fn signed(&mut self, least: i128, largest: i128) -> i128 {
        assert!(least <= largest, "an empty range");
        let span = u64::try_from(largest - least).expect("a range of 64 bits");
        least + i128::from(self.between(0, span))
    }

    /// 0..largest, small numbers as likely as large ones.
    pub fn magnitude(&mut self, largest: i128) -> i128 {
        if largest <= 0 {
            return 0;
        }
        let bits = 128 - largest.leading_zeros();
        let shift = self.below(u64::from(bits));
        self.signed(0, largest >> shift)
    }

    pub fn chance(&mut self, part: u64, whole: u64) -> bool {
        self.below(whole) < part
    }

    pub fn pick<'l, T>(&mut self, list: &'l [T]) -> &'l T {
        &list[self.below(list.len() as u64) as usize]
    }

    /// Room above a limit that is met exactly: often none, at times one unit,
    /// at times more.
    pub fn slack(&mut self, largest: i128) -> i128 {
        match self.below(4) {
            0 | 1 => 0,
            2 => 1.min(largest),
            _ => self.magnitude(largest),
        }
    }
}
