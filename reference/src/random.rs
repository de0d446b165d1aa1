//! A small deterministic source of random numbers (splitmix64): the same seed
//! gives the same numbers on every machine.

/// The source; its state is all there is.
#[derive(Clone, Debug, PartialEq, Eq)]
pub struct Random {
    state: u64,
}

impl Random {
    /// A source that starts from the seed.
    pub fn new(seed: u64) -> Random {
        Random { state: seed }
    }

    /// The next 64 bits.
    pub fn bits(&mut self) -> u64 {
        self.state = self.state.wrapping_add(0x9e37_79b9_7f4a_7c15);
        let mut mixed = self.state;
        mixed = (mixed ^ (mixed >> 30)).wrapping_mul(0xbf58_476d_1ce4_e5b9);
        mixed = (mixed ^ (mixed >> 27)).wrapping_mul(0x94d0_49bb_1331_11eb);
        mixed ^ (mixed >> 31)
    }

    /// A number below `end`; 0 if `end` is 0.
    pub fn below(&mut self, end: u64) -> u64 {
        match end {
            0 => 0,
            _ => self.bits() % end,
        }
    }

    /// A number from `first` to `last`, both included; `first` if none is.
    pub fn between(&mut self, first: u64, last: u64) -> u64 {
        first.saturating_add(self.below(last.saturating_sub(first).saturating_add(1)))
    }

    /// True in `part` of `whole` cases.
    pub fn chance(&mut self, part: u64, whole: u64) -> bool {
        self.below(whole) < part
    }

    /// One of the items, which must not be none.
    pub fn pick<T: Copy>(&mut self, items: &[T]) -> T {
        items[self.below(items.len() as u64) as usize]
    }

    /// The place of one of the bits of the mask; none if it is 0.
    pub fn bit(&mut self, mask: u64) -> Option<u64> {
        let skip = self.below(u64::from(mask.count_ones()));
        let mut places = (0..64).filter(|place| mask >> place & 1 == 1);
        places.nth(skip as usize)
    }

    /// Some of the bits of the mask: none, all, few or about half.
    pub fn subset(&mut self, mask: u64) -> u64 {
        match self.below(8) {
            0 => 0,
            1 | 2 => mask,
            3 => mask & self.bits() & self.bits() & self.bits(),
            _ => mask & self.bits(),
        }
    }
}
