//! Written here. The boundary between this engine's words and the cells of types.rs: other
//! tags, arity in other bits, and the mark and forwarding bits swapped.

use crate::atom_table::{Atom, AtomCell};
use crate::types::{HeapCellValue, HeapCellValueTag};

const VALUE: u64 = (1 << 56) - 1;
const MARK: u32 = 56;
const FORWARDING: u32 = 57;
const TAG: u32 = 58;

/// The tag of a word that has no counterpart here. No well-formed store holds it.
const FOREIGN: u64 = 63;

const KINDS: [(u64, HeapCellValueTag); 5] = [
    (1, HeapCellValueTag::Var),
    (2, HeapCellValueTag::Str),
    (3, HeapCellValueTag::Lis),
    (4, HeapCellValueTag::Atom),
    (5, HeapCellValueTag::Fixnum),
];

/// The cell for a word of a well-formed store. The word 0 of cell 0 stays a zero cell.
pub fn cell_of_word(word: u64) -> HeapCellValue {
    let Some((_, tag)) = KINDS.into_iter().find(|(t, _)| *t == word >> TAG) else {
        return HeapCellValue::new();
    };
    if tag == HeapCellValueTag::Atom {
        let index = word & 0xFFFF_FFFF;
        return atom_as_cell!(Atom { index }, (word >> 32 & 0xFF) as usize);
    }
    HeapCellValue::build_with(tag, word & VALUE)
}

/// The word for a cell, bits included, so that a mark left behind stays visible.
pub fn word_of_cell(cell: HeapCellValue) -> u64 {
    if cell == HeapCellValue::new() {
        return 0;
    }
    let found = KINDS.into_iter().find(|(_, t)| *t == cell.get_tag());
    let tag = found.map_or(FOREIGN, |(t, _)| t);
    let value = match cell.get_tag() {
        HeapCellValueTag::Atom => {
            let (name, arity) = AtomCell::from_bytes(cell.into_bytes()).get_name_and_arity();
            name.index | (arity as u64) << 32
        }
        _ => cell.get_value(),
    };
    let mark = u64::from(cell.get_mark_bit()) << MARK;
    let forwarding = u64::from(cell.get_forwarding_bit()) << FORWARDING;
    tag << TAG | forwarding | mark | value
}
