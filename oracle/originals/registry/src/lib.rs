//! Written here. Stands in for the registry crates that the originals import: modular_bitfield,
//! derive_more, indexmap, fxhash, dashu, num_order and ordered_float, each as far as it is used.
//! The crate `originals` knows this one crate under all of those names.

pub use macros::{Deref, DerefMut, Specifier, bitfield};

use std::collections::HashSet;
use std::hash::{BuildHasher, Hasher};

/// modular_bitfield: a type that a bit field may have.
pub trait Specifier {
    const BITS: u32;
    type InOut;
    fn to_bits(value: Self::InOut) -> u64;
    fn from_bits(bits: u64) -> Result<Self::InOut, InvalidBits>;
}

/// modular_bitfield: the bits of a field stand for no value of its type.
#[derive(Debug)]
pub struct InvalidBits;

/// The word whose `count` lowest bits are set.
pub fn low_bits(count: u32) -> u64 {
    u64::MAX >> (64 - count)
}

impl Specifier for bool {
    const BITS: u32 = 1;
    type InOut = bool;
    fn to_bits(value: bool) -> u64 {
        value as u64
    }
    fn from_bits(bits: u64) -> Result<bool, InvalidBits> {
        Ok(bits != 0)
    }
}

/// modular_bitfield: numbers of so many bits.
pub mod specifiers {
    use super::{InvalidBits, Specifier};

    macro_rules! number {
        ($name:ident, $bits:expr) => {
            pub enum $name {}
            impl Specifier for $name {
                const BITS: u32 = $bits;
                type InOut = u64;
                fn to_bits(value: u64) -> u64 {
                    value
                }
                fn from_bits(bits: u64) -> Result<u64, InvalidBits> {
                    Ok(bits)
                }
            }
        };
    }

    number!(B2, 2);
    number!(B6, 6);
    number!(B8, 8);
    number!(B48, 48);
    number!(B56, 56);
    number!(B61, 61);
}

pub mod prelude {
    pub use super::specifiers::*;
    pub use super::{Specifier, bitfield};
}

/// indexmap: the originals never depend on the order of a set.
pub type IndexSet<T, S> = HashSet<T, S>;

/// fxhash: any fast hash will do.
#[derive(Clone, Copy, Debug, Default)]
pub struct FxBuildHasher;

impl FxBuildHasher {
    pub fn new() -> Self {
        FxBuildHasher
    }
}

impl BuildHasher for FxBuildHasher {
    type Hasher = WordHasher;
    fn build_hasher(&self) -> WordHasher {
        WordHasher(0)
    }
}

pub struct WordHasher(u64);

impl Hasher for WordHasher {
    fn write(&mut self, bytes: &[u8]) {
        bytes.iter().for_each(|b| self.write_u64(u64::from(*b)));
    }
    fn write_u64(&mut self, word: u64) {
        let mixed = (self.0.rotate_left(5) ^ word).wrapping_mul(0x9E37_79B9_7F4A_7C15);
        self.0 = mixed ^ mixed >> 32;
    }
    fn finish(&self) -> u64 {
        self.0
    }
}

/// dashu: big integers are left out of the engine, so no value of this type exists.
#[derive(Clone, Copy, Debug, PartialEq, Eq, PartialOrd, Ord)]
pub enum Integer {}

/// dashu: rationals are left out of the engine, so no value of this type exists.
#[derive(Clone, Copy, Debug, PartialEq, Eq, PartialOrd, Ord)]
pub enum Rational {}

impl From<i64> for Integer {
    fn from(_: i64) -> Self {
        unreachable!("big integers are left out")
    }
}

/// num_order: comparing numbers of different types. Only types without values use it here.
pub trait NumOrd<T> {
    fn num_eq(&self, other: &T) -> bool;
}

impl NumOrd<i64> for Integer {
    fn num_eq(&self, _: &i64) -> bool {
        match *self {}
    }
}

impl NumOrd<Integer> for Integer {
    fn num_eq(&self, _: &Integer) -> bool {
        match *self {}
    }
}

impl NumOrd<Integer> for Rational {
    fn num_eq(&self, _: &Integer) -> bool {
        match *self {}
    }
}

/// ordered_float: floats are left out of the engine; the type alone is named.
#[derive(Clone, Copy, Debug, PartialEq, PartialOrd)]
pub struct OrderedFloat<T>(pub T);

impl Eq for OrderedFloat<f64> {}

// Written by hand since `f64` has no total order to derive from.
#[allow(clippy::derive_ord_xor_partial_ord)]
impl Ord for OrderedFloat<f64> {
    fn cmp(&self, other: &Self) -> std::cmp::Ordering {
        self.0.total_cmp(&other.0)
    }
}
