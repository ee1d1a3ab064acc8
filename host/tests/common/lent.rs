//! Storage that is lent to a call.

use std::ops::Range;

use girderbasil_tests::random::Random;

/// Storage to be lent, inside a larger buffer. Bytes start anywhere in it, aligned or not.
#[derive(Debug, Clone)]
pub struct Lent<T> {
    pub buffer: Vec<T>,
    pub range: Range<usize>,
}

impl<T: Copy> Lent<T> {
    /// Storage of random contents. It may stand at either end of the buffer; where nothing is lent, the buffer may be
    /// empty too.
    pub fn new(
        random: &mut Random,
        length: usize,
        contents: fn(&mut Random, usize) -> Vec<T>,
    ) -> Self {
        let alone = length == 0 && random.chance(50);
        let most = if alone { 0 } else { 16 };
        let start = random.between(0, most) as usize;
        let after = random.between(0, most) as usize;
        Self {
            buffer: contents(random, start + length + after),
            range: start..start + length,
        }
    }

    /// Storage that holds a copy of something.
    pub fn copy_of(
        random: &mut Random,
        held: &[T],
        contents: fn(&mut Random, usize) -> Vec<T>,
    ) -> Self {
        let mut lent = Self::new(random, held.len(), contents);
        lent.slice_mut().copy_from_slice(held);
        lent
    }

    pub fn slice(&self) -> &[T] {
        &self.buffer[self.range.clone()]
    }

    pub fn slice_mut(&mut self) -> &mut [T] {
        &mut self.buffer[self.range.clone()]
    }

    /// What the whole buffer must hold once something was written at the front of what was lent.
    pub fn after_writing(&self, written: &[T]) -> Vec<T> {
        let mut after = self.buffer.clone();
        after[self.range.start..][..written.len()].copy_from_slice(written);
        after
    }
}

/// How much is lent where so much is needed: all sorts of too little, just enough, and more.
pub fn lent_length(random: &mut Random, needed: usize, most: usize) -> usize {
    match random.below(10) {
        0 => 0,
        1 | 2 => needed.saturating_sub(1),
        3 => random.below(needed + 1),
        4..=6 => needed,
        7 => needed + random.between(1, 100) as usize,
        _ => most.max(needed),
    }
}
