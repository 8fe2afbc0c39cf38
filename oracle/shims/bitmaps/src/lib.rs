//! A set of numbers below `SIZE` (at most 32).

#[derive(Clone, Copy, Default)]
pub struct Bitmap<const SIZE: usize>(u32);

impl<const SIZE: usize> Bitmap<SIZE> {
    pub fn new() -> Self {
        Self(0)
    }

    pub fn get(&self, index: usize) -> bool {
        assert!(index < SIZE);
        self.0 >> index & 1 != 0
    }

    /// Answers the bit's former value.
    pub fn set(&mut self, index: usize, value: bool) -> bool {
        let before = self.get(index);
        self.0 = self.0 & !(1 << index) | (value as u32) << index;
        before
    }
}
