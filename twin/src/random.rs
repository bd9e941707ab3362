//! A small seeded generator (splitmix64): the same seed gives the same files on every machine.

pub struct Random(u64);

impl Random {
    /// The generator of one file: the file's index is mixed in, so that files do not depend on
    /// the order in which they are made.
    pub fn new(seed: u64, index: u64) -> Random {
        let mut by_index = Random(index);
        Random(seed ^ by_index.draw())
    }

    pub fn draw(&mut self) -> u64 {
        self.0 = self.0.wrapping_add(0x9E37_79B9_7F4A_7C15);
        let mut z = self.0;
        z = (z ^ (z >> 30)).wrapping_mul(0xBF58_476D_1CE4_E5B9);
        z = (z ^ (z >> 27)).wrapping_mul(0x94D0_49BB_1331_11EB);
        z ^ (z >> 31)
    }

    /// A number from least to most, both included.
    pub fn between(&mut self, least: usize, most: usize) -> usize {
        // The remainder favours low numbers by less than one in 2^40, which does not matter here.
        least + (self.draw() % (most - least + 1) as u64) as usize
    }

    /// True once in so many times.
    pub fn once_in(&mut self, times: usize) -> bool {
        self.between(1, times) == 1
    }

    pub fn byte(&mut self, least: u8, most: u8) -> u8 {
        self.between(least.into(), most.into()) as u8
    }

    /// One of the things given, or none if there are none.
    pub fn pick<T: Copy>(&mut self, things: &[T]) -> Option<T> {
        match things.len() {
            0 => None,
            count => Some(things[self.between(0, count - 1)]),
        }
    }

    pub fn shuffle<T>(&mut self, things: &mut [T]) {
        for i in 1..things.len() {
            things.swap(i, self.between(0, i));
        }
    }
}
