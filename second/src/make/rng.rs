//! A small seeded generator (splitmix64), so that a seed always gives the
//! same day.

pub struct Rng(u64);

impl Rng {
    /// The stream keeps kinds of days with one seed apart.
    pub fn new(seed: u64, stream: u64) -> Rng {
        let mut start = Rng(stream.wrapping_mul(0xD134_2543_DE82_EF95));
        Rng(seed ^ start.next())
    }

    pub fn next(&mut self) -> u64 {
        self.0 = self.0.wrapping_add(0x9E37_79B9_7F4A_7C15);
        let mut mixed = self.0;
        mixed = (mixed ^ (mixed >> 30)).wrapping_mul(0xBF58_476D_1CE4_E5B9);
        mixed = (mixed ^ (mixed >> 27)).wrapping_mul(0x94D0_49BB_1331_11EB);
        mixed ^ (mixed >> 31)
    }

    /// 0 up to, not including, the bound; 0 for a bound of 0.
    pub fn below(&mut self, bound: u64) -> u64 {
        self.next() % bound.max(1)
    }

    pub fn between(&mut self, least: u64, most: u64) -> u64 {
        least + self.below(most - least + 1)
    }

    pub fn one_in(&mut self, many: u64) -> bool {
        self.below(many) == 0
    }

    pub fn pick<T: Copy>(&mut self, list: &[T]) -> T {
        list[self.below(list.len() as u64) as usize]
    }

    /// None of an empty list.
    pub fn any<T: Copy>(&mut self, list: &[T]) -> Option<T> {
        list.first().map(|_| self.pick(list))
    }

    pub fn byte(&mut self) -> u8 {
        self.next() as u8
    }

    /// One less, the bound itself or one more.
    pub fn beside(&mut self, bound: u64) -> u64 {
        bound.saturating_add(self.below(3)).saturating_sub(1)
    }

    /// The bound itself, one less, one more, or anything up to it.
    pub fn near(&mut self, bound: u64) -> u64 {
        match self.below(7) {
            0 => bound.saturating_sub(1),
            1 | 2 => bound,
            3 | 4 => bound.saturating_add(1),
            _ => self.below(bound.saturating_add(1)),
        }
    }
}
