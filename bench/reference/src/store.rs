//! The cells of a store: what makes them well formed, following Vars, and appending.
//!
//! The store check reads every lent word once; Var rings are found in linear time too.

use crate::cell::{is_atom, is_header, kind, read, Kind};
use crate::{refusal, require, trail};

/// The most cells that a store may use.
pub const LIMIT: usize = 4096;

/// Local tables hold cell numbers as `u16`.
const _: () = assert!(LIMIT < 1 << 16);

/// How many of the lent cells may be used.
pub(crate) fn capacity(cells: &[u64]) -> usize {
    cells.len().min(LIMIT)
}

/// Answers where cells, trail and marks keep their rules.
pub fn check(
    cells: &[u64],
    top: usize,
    trail: &[u64],
    trail_count: usize,
    marks: &[u64],
    mark_count: usize,
) -> Result<(), u64> {
    require(formed(cells, top), refusal::CELLS)?;
    let rest = trail::trail_formed(&cells[..top], trail, trail_count)
        && trail::marks_formed(marks, mark_count, top, trail_count);
    require(rest, refusal::TRAIL_OR_MARKS)
}

/// The word at the end of the Vars that begin at cell `at`.
pub fn follow(cells: &[u64], top: usize, at: usize) -> Result<u64, u64> {
    require(formed(cells, top), refusal::CELLS)?;
    require(is_root(&cells[..top], at), refusal::ROOT)?;
    let mut end = at;
    while let Some(next) = bound_to(cells[end], end) {
        end = next;
    }
    Ok(cells[end])
}

/// Adds words at `top` and answers the old `top`.
pub fn append(
    cells: &mut [u64],
    top: &mut usize,
    trail: &[u64],
    trail_count: usize,
    marks: &[u64],
    mark_count: usize,
    words: &[u64],
) -> Result<usize, u64> {
    check(cells, *top, trail, trail_count, marks, mark_count)?;
    let old_top = *top;
    require(words.len() <= capacity(cells) - old_top, refusal::ROOM)?;
    // The free cells are 0, so a store that turns out ill formed can be put back exactly.
    // Nothing below the old top names a cell from it on: only the new cells can be wrong.
    let new_top = old_top + words.len();
    cells[old_top..new_top].copy_from_slice(words);
    if !used_cells_formed(&cells[..new_top], old_top) {
        cells[old_top..new_top].fill(0);
        return Err(refusal::APPENDED);
    }
    *top = new_top;
    Ok(old_top)
}

/// Whether the cells are well formed, all lent words taken into account.
pub(crate) fn formed(cells: &[u64], top: usize) -> bool {
    1 <= top
        && top <= capacity(cells)
        && cells[0] == 0
        && all_zero(&cells[top..])
        && used_cells_formed(&cells[..top], 1)
}

/// Whether a cell may be a root: used, not cell 0, not a header.
pub(crate) fn is_root(used: &[u64], at: usize) -> bool {
    at != 0 && at < used.len() && !is_header(used[at])
}

/// All words or-ed together: unlike a search for the first word that isn't 0, it needs no
/// branch for each word.
pub(crate) fn all_zero(words: &[u64]) -> bool {
    words.iter().fold(0, |seen, word| seen | word) == 0
}

/// The cell that a bound Var at `at` names.
#[inline]
pub(crate) fn bound_to(word: u64, at: usize) -> Option<usize> {
    match kind(word) {
        Kind::Var(to) if to != at => Some(to),
        _ => None,
    }
}

/// Whether the cells from `from` on are well formed, those before being known to be.
fn used_cells_formed(used: &[u64], from: usize) -> bool {
    match survey(|at| used[at], from, used.len()) {
        None => false,
        Some(Survey { var_rises }) => !var_rises || chains_end(used, from),
    }
}

/// What is seen on a pass over cells that are well formed each by itself.
pub(crate) struct Survey {
    /// Some Var names a higher cell. Without one there is no ring.
    var_rises: bool,
}

/// Whether each cell from `from` on keeps to the table and names only what it may.
///
/// The words come from a function, so that a store can be judged before it is made.
pub(crate) fn survey(word_at: impl Fn(usize) -> u64, from: usize, top: usize) -> Option<Survey> {
    let used = |at: usize| 1 <= at && at < top;
    let argument = |at: usize| used(at) && !is_header(word_at(at));
    let mut var_rises = false;
    // Headers must not stand in each other's runs, so only the latest run matters.
    let mut run_end = 0;
    for at in from..top {
        let formed = match read(word_at(at))? {
            Kind::Var(to) => {
                var_rises |= to > at;
                argument(to)
            }
            Kind::Str(f) => used(f) && is_atom(word_at(f)),
            Kind::Lis(l) => argument(l) && argument(l + 1),
            Kind::Atom { arity: 0, .. } | Kind::Fixnum(_) => true,
            Kind::Atom { arity, .. } => {
                let apart = at > run_end;
                run_end = at + arity;
                apart && run_end < top
            }
        };
        if !formed {
            return None;
        }
    }
    Some(Survey { var_rises })
}

/// Whether following Vars ends from every cell from `from` on, as it does from those before.
/// A ring holds a Var that names a higher cell, so only those are followed.
fn chains_end(used: &[u64], from: usize) -> bool {
    let rises = |&at: &usize| bound_to(used[at], at).is_some_and(|to| to > at);
    let mut met_by = [0; LIMIT];
    (from..used.len()).filter(rises).all(|start| chain_ends(used, from, start, &mut met_by))
}

/// Follows one chain. Each cell remembers the walk that met it first, by the walk's first cell:
/// a walk that meets itself is in a ring, one that meets an earlier walk ends as that did.
fn chain_ends(used: &[u64], from: usize, start: usize, met_by: &mut [u16; LIMIT]) -> bool {
    let mut at = start;
    while at >= from {
        if met_by[at] != 0 {
            return met_by[at] != start as u16;
        }
        met_by[at] = start as u16;
        match bound_to(used[at], at) {
            Some(next) => at = next,
            None => return true,
        }
    }
    true
}

/// Following Vars many times over one store, near linear in all.
///
/// The cells must stay as they are, so path halving goes on in a table beside them. Binding an
/// unbound Var in between does no harm: a table entry only ever skips bound ones.
pub(crate) struct Chains {
    /// For a bound Var, a cell further on along its chain; 0 where none is known.
    beyond: [u16; LIMIT],
}

impl Chains {
    pub(crate) fn new() -> Chains {
        Chains { beyond: [0; LIMIT] }
    }

    /// The word where following ends: an unbound Var or another kind.
    #[inline]
    pub(crate) fn follow(&mut self, cells: &[u64], mut at: usize) -> u64 {
        loop {
            let Some(next) = self.next(cells[at], at) else {
                return cells[at];
            };
            let Some(after) = self.next(cells[next], next) else {
                return cells[next];
            };
            self.beyond[at] = after as u16;
            at = after;
        }
    }

    #[inline]
    fn next(&self, word: u64, at: usize) -> Option<usize> {
        let to = bound_to(word, at)?;
        match self.beyond[at] {
            0 => Some(to),
            known => Some(known as usize),
        }
    }
}

/// A set of cell numbers, one bit each.
pub(crate) struct CellSet([u64; LIMIT / 64]);

impl CellSet {
    pub(crate) fn new() -> CellSet {
        CellSet([0; LIMIT / 64])
    }

    pub(crate) fn contains(&self, at: usize) -> bool {
        self.0[at / 64] >> (at % 64) & 1 != 0
    }

    /// Puts a cell number in and says whether it is new.
    pub(crate) fn insert(&mut self, at: usize) -> bool {
        let new = !self.contains(at);
        self.0[at / 64] |= 1 << (at % 64);
        new
    }
}
