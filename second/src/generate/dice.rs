//! Chance that is the same for the same seed.

/// A small pseudo random source (SplitMix64).
pub struct Dice {
    state: u64,
    /// How many of a hundred choices are to be wrong on purpose.
    wild: usize,
}

impl Dice {
    /// The source for a seed.
    pub fn new(seed: u64) -> Self {
        Dice { state: seed.wrapping_mul(0x9e37_79b9_7f4a_7c15) ^ 0x5851_f42d_4c95_7f2d, wild: 0 }
    }

    fn next(&mut self) -> u64 {
        self.state = self.state.wrapping_add(0x9e37_79b9_7f4a_7c15);
        let z = (self.state ^ (self.state >> 30)).wrapping_mul(0xbf58_476d_1ce4_e5b9);
        let z = (z ^ (z >> 27)).wrapping_mul(0x94d0_49bb_1331_11eb);
        z ^ (z >> 31)
    }

    /// A number below `bound`; 0 for the bound 0.
    pub fn below(&mut self, bound: usize) -> usize {
        (self.next() % (bound.max(1) as u64)) as usize
    }

    /// A number from `least` to `most`.
    pub fn from_to(&mut self, least: usize, most: usize) -> usize {
        least + self.below(most + 1 - least)
    }

    /// True so many times in a hundred.
    pub fn chance(&mut self, percent: usize) -> bool {
        self.below(100) < percent
    }

    /// One of a list that is not empty.
    pub fn pick<'a, T>(&mut self, list: &'a [T]) -> &'a T {
        &list[self.below(list.len())]
    }

    /// A list in another order.
    pub fn shuffle<T>(&mut self, list: &mut [T]) {
        for last in (1..list.len()).rev() {
            list.swap(last, self.below(last + 1));
        }
    }

    /// True if a choice is to be wrong.
    pub fn wild(&mut self) -> bool {
        let wild = self.wild;
        self.chance(wild)
    }

    /// Makes something with so many choices of a hundred wrong.
    pub fn wildly<T>(&mut self, percent: usize, make: impl FnOnce(&mut Dice) -> T) -> T {
        self.wild = percent;
        let made = make(self);
        self.wild = 0;
        made
    }
}
