//! Key sets: key k is bit k % 64 of word k / 64.

#[derive(Clone, Copy)]
#[repr(C, align(32))]
pub struct Keys([u64; 4]);

impl Keys {
    /// Key 0 alone, which every set holds but that of a held monitor, which is empty.
    pub const FIRST: Keys = Keys([1, 0, 0, 0]);
    pub const EMPTY: Keys = Keys([0; 4]);

    #[inline(always)]
    pub fn is_empty(&self) -> bool {
        self.0[0] & 1 == 0
    }

    #[inline(always)]
    pub fn holds(&self, key: u8) -> bool {
        self.0[usize::from(key >> 6)] >> (key & 63) & 1 == 1
    }

    #[inline(always)]
    pub fn learn(&mut self, key: u8) {
        self.0[usize::from(key >> 6)] |= 1 << (key & 63);
    }

    #[inline(always)]
    pub fn join(&mut self, other: &Keys) {
        (0..4).for_each(|i| self.0[i] |= other.0[i]);
    }

    /// How many of the other's keys are new.
    #[inline(always)]
    pub fn new_in(&self, other: &Keys) -> u8 {
        (0..4).map(|i| (other.0[i] & !self.0[i]).count_ones()).sum::<u32>() as u8
    }
}
