//! The part of the crate `bitvec` that the file system uses: a growing vector of bits over bytes,
//! lowest bit first. An index out of range panics, as it does there; the text is this file's own.

pub mod prelude {
    pub use crate::{BitVec, Lsb0};
}

use std::iter::FromIterator;
use std::marker::PhantomData;
use std::ops::Index;

/// Bit order: bit i is bit i mod 8, lowest first, of byte i / 8.
pub struct Lsb0;

pub struct BitVec<O, T> {
    bytes: Vec<T>,
    bits: usize,
    order: PhantomData<O>,
}

// A mark only: no value of the order is ever held.
unsafe impl<O, T: Send> Send for BitVec<O, T> {}
unsafe impl<O, T: Sync> Sync for BitVec<O, T> {}

impl BitVec<Lsb0, u8> {
    pub fn with_capacity(bits: usize) -> Self {
        BitVec {
            bytes: Vec::with_capacity((bits + 7) / 8),
            bits: 0,
            order: PhantomData,
        }
    }

    #[inline]
    pub fn len(&self) -> usize {
        self.bits
    }

    #[inline]
    pub fn is_empty(&self) -> bool {
        self.bits == 0
    }

    #[inline]
    pub fn set(&mut self, i: usize, value: bool) {
        self.within(i);
        let mask = 1u8 << (i % 8);
        if value {
            self.bytes[i / 8] |= mask;
        } else {
            self.bytes[i / 8] &= !mask;
        }
    }

    #[inline]
    fn within(&self, i: usize) {
        assert!(i < self.bits, "bit {} of a map of {}", i, self.bits);
    }
}

impl Index<usize> for BitVec<Lsb0, u8> {
    type Output = bool;

    #[inline]
    fn index(&self, i: usize) -> &bool {
        self.within(i);
        if self.bytes[i / 8] >> (i % 8) & 1 == 1 {
            &true
        } else {
            &false
        }
    }
}

impl Extend<bool> for BitVec<Lsb0, u8> {
    fn extend<I: IntoIterator<Item = bool>>(&mut self, values: I) {
        for value in values {
            if self.bits % 8 == 0 {
                self.bytes.push(0);
            }
            self.bits += 1;
            self.set(self.bits - 1, value);
        }
    }
}

impl FromIterator<bool> for BitVec<Lsb0, u8> {
    fn from_iter<I: IntoIterator<Item = bool>>(values: I) -> Self {
        let mut map = BitVec::with_capacity(0);
        map.extend(values);
        map
    }
}

impl<'a> From<&'a [u8]> for BitVec<Lsb0, u8> {
    fn from(bytes: &'a [u8]) -> Self {
        BitVec {
            bytes: bytes.to_vec(),
            bits: bytes.len() * 8,
            order: PhantomData,
        }
    }
}

impl AsRef<[u8]> for BitVec<Lsb0, u8> {
    fn as_ref(&self) -> &[u8] {
        &self.bytes
    }
}

impl AsMut<[u8]> for BitVec<Lsb0, u8> {
    fn as_mut(&mut self) -> &mut [u8] {
        &mut self.bytes
    }
}
