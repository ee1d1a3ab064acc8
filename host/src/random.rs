//! Pseudo-random houses and sheets, damage to them, and changes on site, the same in every run.

pub mod damage;
pub mod dates;
pub mod house;
pub mod site;

/// A splitmix64 generator: what it draws follows from its seed alone.
#[derive(Debug, Clone)]
pub struct Random(u64);

impl Random {
    pub const fn new(seed: u64) -> Self {
        Self(seed)
    }

    pub fn draw(&mut self) -> u64 {
        self.0 = self.0.wrapping_add(0x9e37_79b9_7f4a_7c15);
        let mixed = (self.0 ^ (self.0 >> 30)).wrapping_mul(0xbf58_476d_1ce4_e5b9);
        let mixed = (mixed ^ (mixed >> 27)).wrapping_mul(0x94d0_49bb_1331_11eb);
        mixed ^ (mixed >> 31)
    }

    /// A number under a bound, which isn't 0. The bounds here are so small that the remainder's bias is nothing.
    pub fn below(&mut self, bound: usize) -> usize {
        (self.draw() % bound as u64) as usize
    }

    pub fn between(&mut self, least: u32, most: u32) -> u32 {
        least + (self.draw() % (u64::from(most - least) + 1)) as u32
    }

    /// True this often in a hundred.
    pub fn chance(&mut self, percent: u32) -> bool {
        self.between(1, 100) <= percent
    }

    pub fn pick<T: Copy>(&mut self, choices: &[T]) -> T {
        choices[self.below(choices.len())]
    }

    /// A number between two, the small ones far more often than an even draw has them.
    pub fn mostly_small(&mut self, least: u32, most: u32) -> u32 {
        let narrowed = (most - least) >> self.between(0, 7);
        self.between(least, least + narrowed)
    }

    /// A number between two, often one at the ends of the range.
    pub fn often_extreme(&mut self, least: u32, most: u32) -> u32 {
        match self.below(6) {
            0 => least,
            1 => (least + 1).min(most),
            2 => (most - 1).max(least),
            3 => most,
            _ => self.between(least, most),
        }
    }

    pub fn bytes(&mut self, count: usize) -> Vec<u8> {
        (0..count).map(|_| self.draw() as u8).collect()
    }

    pub fn numbers(&mut self, count: usize) -> Vec<u32> {
        (0..count).map(|_| self.draw() as u32).collect()
    }
}
