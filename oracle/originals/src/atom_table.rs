//! Written here. Stands in for src/atom_table.rs and the `Fixnum` of src/parser/ast.rs.
//! An atom is its number in the word, so the table is the numbering itself.

pub use registry::prelude::*;

use crate::types::HeapCellValueTag;

#[derive(Copy, Clone, Debug, PartialEq, Eq, Hash, PartialOrd, Ord)]
pub struct Atom {
    pub index: u64,
}

impl Atom {
    pub const DOT: Atom = Atom { index: '.' as u64 };
    pub const NIL: Atom = Atom { index: 1_114_112 };

    pub fn as_char(self) -> Option<char> {
        char::from_u32(self.index as u32)
    }

    pub fn as_str(&self) -> String {
        format!("atom {}", self.index)
    }
}

/// An atom or a functor as a cell, with the value parts and bits where types.rs has them.
#[bitfield]
#[derive(Copy, Clone, Debug)]
pub struct AtomCell {
    name: B48,
    arity: B8,
    f: bool,
    m: bool,
    tag: HeapCellValueTag,
}

impl AtomCell {
    pub fn build(name: Atom, arity: usize) -> Self {
        AtomCell::new()
            .with_name(name.index)
            .with_arity(arity as u64)
            .with_tag(HeapCellValueTag::Atom)
    }

    pub fn get_name(self) -> Atom {
        Atom { index: self.name() }
    }

    pub fn get_arity(self) -> usize {
        self.arity() as usize
    }

    pub fn get_name_and_arity(self) -> (Atom, usize) {
        (self.get_name(), self.get_arity())
    }
}

/// A small number: two's complement on 56 bits.
#[bitfield]
#[derive(Copy, Clone, Debug, PartialEq, Eq)]
pub struct Fixnum {
    num: B56,
    f: bool,
    m: bool,
    tag: HeapCellValueTag,
}

impl Fixnum {
    pub fn get_num(self) -> i64 {
        (self.num() << 8) as i64 >> 8
    }
}
