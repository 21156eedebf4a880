//! Written here. Stands in for what the engine leaves out: arena pointers (src/arena.rs), floats
//! and code indexes (src/offset_table.rs), big numbers (src/forms.rs), literals
//! (src/parser/ast.rs), streams, and packed strings and their comparison (src/machine/heap.rs).
//! The originals name these types; no case makes a value of one, and `absent` says so if run.

#![allow(dead_code)] // much is named by the originals and never made

use crate::atom_table::{Atom, Fixnum};
use crate::machine::heap::Heap;
use crate::types::{HeapCellValue, HeapCellValueTag, UntypedArenaPtr};
use dashu::{Integer, Rational};
use ordered_float::OrderedFloat;
use std::cmp::Ordering;
use std::marker::PhantomData;

/// Reached only if a cell of a kind that the engine leaves out appears.
pub fn absent<T>() -> T {
    panic!("a kind of cell that is left out")
}

#[derive(Copy, Clone, Debug)]
pub struct ArenaHeader(u64);

impl ArenaHeader {
    pub fn get_tag(self) -> ArenaHeaderTag {
        absent()
    }
}

#[derive(Copy, Clone, Debug, PartialEq)]
pub enum ArenaHeaderTag {
    Integer,
    Rational,
    Stream,
    Other,
}

/// The types that `match_untyped_arena_ptr!` names by tag.
pub mod pointer {
    pub type Integer = super::TypedArenaPtr<dashu::Integer>;
    pub type Rational = super::TypedArenaPtr<dashu::Rational>;
    pub type Stream = super::Stream;
}

pub struct Stream;

impl Stream {
    pub fn options(&self) -> StreamOptions {
        absent()
    }
}

pub struct StreamOptions;

impl StreamOptions {
    pub fn get_alias(&self) -> Option<Atom> {
        absent()
    }
}

pub trait ArenaAllocated {
    type Payload: ?Sized;

    /// # Safety
    /// None is needed: no arena value exists.
    unsafe fn typed_ptr(_: UntypedArenaPtr) -> TypedArenaPtr<Self>
    where
        Self::Payload: Sized,
    {
        absent()
    }
}

impl ArenaAllocated for Integer {
    type Payload = Integer;
}

impl ArenaAllocated for Rational {
    type Payload = Rational;
}

pub struct TypedArenaPtr<T: ?Sized>(PhantomData<T>);

impl<T: ?Sized> Copy for TypedArenaPtr<T> {}

impl<T: ?Sized> Clone for TypedArenaPtr<T> {
    fn clone(&self) -> Self {
        *self
    }
}

impl<T: ?Sized> PartialEq for TypedArenaPtr<T> {
    fn eq(&self, _: &Self) -> bool {
        absent()
    }
}

impl<T: ?Sized> std::ops::Deref for TypedArenaPtr<T> {
    type Target = T;
    fn deref(&self) -> &T {
        absent()
    }
}

impl<T: ?Sized> TypedArenaPtr<T> {
    pub fn header_ptr(&self) -> *const ArenaHeader {
        absent()
    }
}

pub struct Arena {
    pub f64_tbl: F64Table,
}

pub struct F64Table;

impl F64Table {
    pub fn get_entry(&self, _: F64Offset) -> OrderedFloat<f64> {
        absent()
    }
    pub fn build_with(&mut self, _: f64) -> F64Offset {
        absent()
    }
}

macro_rules! offset {
    ($name:ident) => {
        #[derive(Copy, Clone)]
        pub struct $name(u64);

        impl $name {
            pub fn from_cell(cell: HeapCellValue) -> Self {
                $name(cell.get_value())
            }
            pub fn to_u64(self) -> u64 {
                self.0
            }
        }
    };
}

offset!(F64Offset);
offset!(CodeIndexOffset);

pub enum GInteger {
    Integer(TypedArenaPtr<Integer>),
    Fixnum(Fixnum),
}

pub enum Literal {
    Atom(Atom),
    CodeIndexOffset(CodeIndexOffset),
    Fixnum(Fixnum),
    Integer(TypedArenaPtr<Integer>),
    Rational(TypedArenaPtr<Rational>),
    F64(F64Offset, OrderedFloat<f64>),
}

pub enum Number {
    Float(OrderedFloat<f64>),
    Integer(TypedArenaPtr<Integer>),
    Rational(TypedArenaPtr<Rational>),
    Fixnum(Fixnum),
}

/// The one part of this file that is run: a cell is a number when it is a Fixnum.
impl TryFrom<(HeapCellValue, &F64Table)> for Number {
    type Error = ();

    fn try_from((cell, _): (HeapCellValue, &F64Table)) -> Result<Self, ()> {
        match cell.get_tag() {
            HeapCellValueTag::Fixnum => Ok(Number::Fixnum(Fixnum::from_bytes(cell.into_bytes()))),
            _ => Err(()),
        }
    }
}

impl PartialEq for Number {
    fn eq(&self, _: &Self) -> bool {
        absent()
    }
}

impl Eq for Number {}

impl PartialOrd for Number {
    fn partial_cmp(&self, other: &Self) -> Option<Ordering> {
        Some(self.cmp(other))
    }
}

impl Ord for Number {
    fn cmp(&self, _: &Self) -> Ordering {
        absent()
    }
}

/// A packed string found in the heap.
pub struct HeapStringScan {
    pub tail_idx: usize,
}

pub enum PStrSegmentCmpResult {
    Less,
    Greater,
    Continue(PStrPlace, PStrPlace),
}

pub struct PStrPlace;

impl PStrPlace {
    pub fn offset_by(&self, _: usize) -> HeapCellValue {
        absent()
    }
}

impl Heap {
    pub fn last_str_char_and_tail(&self, _: usize) -> (char, HeapCellValue) {
        absent()
    }
    pub fn compare_pstr_segments(&self, _: usize, _: usize) -> PStrSegmentCmpResult {
        absent()
    }
    pub fn heap_cell_alignment() -> usize {
        8
    }
}
