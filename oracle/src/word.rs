//! The words of a store: five kinds of cell, taken apart and built.

/// '.' as the name of a pair.
pub const DOT: u32 = '.' as u32;
/// The name of `[]`.
pub const NIL: u32 = 1_114_112;

const TAG: u32 = 58;
const VALUE: u64 = (1 << 56) - 1;
const BITS: u64 = 3 << 56;

/// A cell as one case of a kind.
#[derive(Clone, Copy, Debug, PartialEq, Eq)]
pub enum Kind {
    Var(usize),
    Str(usize),
    Lis(usize),
    Atom { name: u32, arity: usize },
    Fixnum(i64),
}

/// The kind of a word; none if it keeps to no row of the table or has a bit set.
pub fn kind_of(word: u64) -> Option<Kind> {
    let value = word & VALUE;
    if word & BITS != 0 {
        return None;
    }
    match word >> TAG {
        1 => Some(Kind::Var(value as usize)),
        2 => Some(Kind::Str(value as usize)),
        3 => Some(Kind::Lis(value as usize)),
        4 if value >> 40 == 0 => Some(Kind::Atom {
            name: value as u32,
            arity: (value >> 32) as usize,
        }),
        5 => Some(Kind::Fixnum((value << 8) as i64 >> 8)),
        _ => None,
    }
}

pub const fn var(cell: usize) -> u64 {
    1 << TAG | cell as u64
}

pub const fn str(functor: usize) -> u64 {
    2 << TAG | functor as u64
}

pub const fn lis(first: usize) -> u64 {
    3 << TAG | first as u64
}

pub const fn functor(name: u32, arity: usize) -> u64 {
    4 << TAG | (arity as u64) << 32 | name as u64
}

pub const fn atom(name: u32) -> u64 {
    functor(name, 0)
}

pub const fn fixnum(number: i64) -> u64 {
    5 << TAG | (number as u64 & VALUE)
}
