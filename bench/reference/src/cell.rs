//! One cell: a 64-bit word with a tag in its top six bits, a mark and a forwarding bit below,
//! and a value in bits 0 to 55. Here words are split into kinds and numbers and built again.

use crate::refusal;
use crate::require;

// A value of 56 bits must pass through `usize` unharmed.
const _: () = assert!(usize::BITS == 64);

const VALUE_BITS: u32 = 56;
const VALUE: u64 = (1 << VALUE_BITS) - 1;
const TAG_SHIFT: u32 = 58;
const ARITY_SHIFT: u32 = 32;
const ATOM_SPARE: u64 = VALUE & !((1 << 40) - 1);

const VAR: u64 = 1;
const STR: u64 = 2;
const LIS: u64 = 3;
const ATOM: u64 = 4;
const FIXNUM: u64 = 5;

const VAR_BYTE: u64 = VAR << 2;
const STR_BYTE: u64 = STR << 2;
const LIS_BYTE: u64 = LIS << 2;
const ATOM_BYTE: u64 = ATOM << 2;
const FIXNUM_BYTE: u64 = FIXNUM << 2;

/// The functor that a `Lis` stands for.
pub const DOT_2: u64 = atom(46, 2);

/// The kinds of cell, each with its numbers.
#[derive(Clone, Copy, Debug, PartialEq, Eq)]
pub enum Kind {
    /// The cell it names; its own number means unbound.
    Var(usize),
    /// The functor cell.
    Str(usize),
    /// The first of two cells.
    Lis(usize),
    Atom {
        name: u32,
        arity: usize,
    },
    Fixnum(i64),
}

/// The kind of a word that keeps to a row of the table, whatever it names.
#[inline]
pub const fn read(word: u64) -> Option<Kind> {
    let value = (word & VALUE) as usize;
    // The top byte is the tag followed by the mark and forwarding bits, which must be clear.
    match word >> VALUE_BITS {
        VAR_BYTE => Some(Kind::Var(value)),
        STR_BYTE => Some(Kind::Str(value)),
        LIS_BYTE => Some(Kind::Lis(value)),
        ATOM_BYTE if word & ATOM_SPARE == 0 => {
            Some(Kind::Atom { name: word as u32, arity: arity(word) })
        }
        FIXNUM_BYTE => Some(Kind::Fixnum(fixnum_value(word))),
        _ => None,
    }
}

/// The kind of a word that is known to keep to the table: the tag alone tells.
#[inline]
pub const fn kind(word: u64) -> Kind {
    let value = (word & VALUE) as usize;
    match word >> TAG_SHIFT {
        VAR => Kind::Var(value),
        STR => Kind::Str(value),
        LIS => Kind::Lis(value),
        ATOM => Kind::Atom { name: word as u32, arity: arity(word) },
        _ => Kind::Fixnum(fixnum_value(word)),
    }
}

#[inline]
pub const fn is_atom(word: u64) -> bool {
    word >> TAG_SHIFT == ATOM
}

/// A header is an Atom of arity above 0: the arguments stand behind it.
#[inline]
pub const fn is_header(word: u64) -> bool {
    atom(0, 1) <= word && word <= atom(u32::MAX, u8::MAX)
}

/// The arity of an Atom word.
#[inline]
pub const fn arity(word: u64) -> usize {
    (word >> ARITY_SHIFT) as u8 as usize
}

pub const fn var(at: usize) -> u64 {
    VAR << TAG_SHIFT | at as u64
}

pub const fn str(functor: usize) -> u64 {
    STR << TAG_SHIFT | functor as u64
}

pub const fn lis(first: usize) -> u64 {
    LIS << TAG_SHIFT | first as u64
}

pub const fn atom(name: u32, arity: u8) -> u64 {
    ATOM << TAG_SHIFT | (arity as u64) << ARITY_SHIFT | name as u64
}

/// A number cell from -2^55 to 2^55 - 1; any other number is refused.
pub fn number(n: i64) -> Result<u64, u64> {
    let word = FIXNUM << TAG_SHIFT | n as u64 & VALUE;
    require(fixnum_value(word) == n, refusal::NUMBER)?;
    Ok(word)
}

/// Two's complement on 56 bits: shifting up and down again spreads the sign.
const fn fixnum_value(word: u64) -> i64 {
    const ABOVE: u32 = u64::BITS - VALUE_BITS;
    (word << ABOVE) as i64 >> ABOVE
}

#[cfg(test)]
mod tests {
    use super::*;

    #[test]
    fn the_three_words_written_in_the_layout() {
        assert_eq!(var(3), 0x0400000000000003);
        assert_eq!(atom('f' as u32, 2), 0x1000000200000066);
        assert_eq!(number(-1), Ok(0x14FFFFFFFFFFFFFF));
    }

    #[test]
    fn words_split_and_build_again() {
        assert_eq!(kind(var(4095)), Kind::Var(4095));
        assert_eq!(kind(str(7)), Kind::Str(7));
        assert_eq!(kind(lis(9)), Kind::Lis(9));
        let (name, arity) = (u32::MAX, 255);
        assert_eq!(kind(atom(name, 255)), Kind::Atom { name, arity });
        for n in [0, 1, -1, (1 << 55) - 1, -(1 << 55)] {
            assert_eq!(kind(number(n).unwrap()), Kind::Fixnum(n));
        }
    }

    #[test]
    fn numbers_are_exact_at_both_ends() {
        for n in [1 << 55, -(1 << 55) - 1, i64::MAX, i64::MIN] {
            assert_eq!(number(n), Err(refusal::NUMBER));
        }
    }

    #[test]
    fn the_table_leaves_no_other_word() {
        for tag in 0..64u64 {
            let word = tag << TAG_SHIFT;
            assert_eq!(read(word).is_some(), (1..=5).contains(&tag));
            assert!(read(word | 1 << 56).is_none());
            assert!(read(word | 1 << 57).is_none());
        }
        for bit in 40..56 {
            assert!(read(atom(97, 0) | 1 << bit).is_none());
            assert!(read(var(0) | 1 << bit).is_some());
        }
    }
}
