//! Stand-in for the crate `bit_vec`: a row of bits that grows.

use std::ops::Index;

pub struct BitVec {
    bits: Vec<bool>,
}

impl BitVec {
    pub fn with_capacity(bits: usize) -> Self {
        BitVec { bits: Vec::with_capacity(bits) }
    }

    /// Clears every bit. The length stays.
    pub fn clear(&mut self) {
        for bit in &mut self.bits {
            *bit = false;
        }
    }

    pub fn grow(&mut self, more: usize, value: bool) {
        let length = self.bits.len() + more;
        self.bits.resize(length, value);
    }

    pub fn get(&self, at: usize) -> Option<bool> {
        self.bits.get(at).cloned()
    }

    pub fn set(&mut self, at: usize, value: bool) {
        self.bits[at] = value;
    }
}

impl Index<usize> for BitVec {
    type Output = bool;

    fn index(&self, at: usize) -> &bool {
        &self.bits[at]
    }
}
