//! Copying a term into the free part of its own store.
//!
//! The new cells are scanned upwards once; each structure and each pair is copied once, when
//! first met, so sharing and cycles are kept. Tables are local: the work buffer must stay as it
//! is until the copy is known to fit.

use crate::cell::{arity, kind, lis, str, var, Kind};
use crate::store::{capacity, formed, is_root, Chains, LIMIT};
use crate::{refusal, require, WORK_PER_CELL};

/// Copies the term at the root to new cells from `top` on and answers the old `top`.
pub fn copy(
    cells: &mut [u64],
    top: &mut usize,
    work: &mut [u64],
    root: usize,
) -> Result<usize, u64> {
    require(formed(cells, *top), refusal::CELLS)?;
    require(is_root(&cells[..*top], root), refusal::ROOT)?;
    require(work.len() >= WORK_PER_CELL * *top, refusal::WORK)?;
    let room = capacity(cells);
    let (old, free) = cells[..room].split_at_mut(*top);
    let mut copier = Copier::new(old, free);
    let made = copier.copy_term(root);
    let used = copier.used;
    if made.is_none() {
        free[..used].fill(0);
        return Err(refusal::ROOM);
    }
    let old_top = *top;
    work[..WORK_PER_CELL * old_top].fill(0);
    *top += used;
    Ok(old_top)
}

struct Copier<'a> {
    old: &'a [u64],
    /// The free part of the store, of which the first `used` cells are taken.
    new: &'a mut [u64],
    used: usize,
    chains: Chains,
    /// The copy of an old functor cell's structure, or the new home of an old unbound Var;
    /// 0 where there is none yet. An old cell is only ever one of the two.
    moved: [u16; LIMIT],
    /// The copy of the pair at an old first cell; apart, as an arity-0 functor may be one too.
    moved_pair: [u16; LIMIT],
}

impl<'a> Copier<'a> {
    fn new(old: &'a [u64], new: &'a mut [u64]) -> Copier<'a> {
        Copier {
            old,
            new,
            used: 0,
            chains: Chains::new(),
            moved: [0; LIMIT],
            moved_pair: [0; LIMIT],
        }
    }

    /// `None` where the free part is too small.
    fn copy_term(&mut self, root: usize) -> Option<()> {
        self.add_run(root, 1)?;
        let mut scanned = 0;
        while scanned < self.used {
            self.new[scanned] = self.new_word(self.new[scanned], scanned)?;
            scanned += 1;
        }
        Some(())
    }

    /// What an old word becomes in the new cell that stands at `place`.
    fn new_word(&mut self, mut word: u64, place: usize) -> Option<u64> {
        if let Kind::Var(v) = kind(word) {
            word = self.chains.follow(self.old, v);
        }
        match kind(word) {
            Kind::Var(v) => Some(var(self.home(v, place))),
            Kind::Str(f) => self.copy_structure(f).map(str),
            Kind::Lis(l) => self.copy_list(l).map(lis),
            Kind::Atom { .. } | Kind::Fixnum(_) => Some(word),
        }
    }

    /// The new home of an old unbound Var: the place where it is first met.
    fn home(&mut self, v: usize, place: usize) -> usize {
        if self.moved[v] == 0 {
            self.moved[v] = (self.old.len() + place) as u16;
        }
        self.moved[v] as usize
    }

    fn copy_structure(&mut self, f: usize) -> Option<usize> {
        if self.moved[f] == 0 {
            self.moved[f] = self.add_run(f, 1 + arity(self.old[f]))? as u16;
        }
        Some(self.moved[f] as usize)
    }

    fn copy_list(&mut self, l: usize) -> Option<usize> {
        if self.moved_pair[l] == 0 {
            self.moved_pair[l] = self.add_run(l, 2)? as u16;
        }
        Some(self.moved_pair[l] as usize)
    }

    /// Adds old cells as they are, to be scanned later, and answers the first new cell's number.
    fn add_run(&mut self, from: usize, len: usize) -> Option<usize> {
        let place = self.new.get_mut(self.used..self.used + len)?;
        place.copy_from_slice(&self.old[from..from + len]);
        let at = self.old.len() + self.used;
        self.used += len;
        Some(at)
    }
}
