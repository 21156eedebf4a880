//! A store with all that is lent, and the public calls as data: what tests and benchmarks need
//! to hold a call, repeat it and compare two engines.

use crate::{append, check, copy, cut, cyclic, follow, mark, number, rollback};
use crate::{unify, unify_checked, WORK_PER_CELL};

/// All that calls are lent.
#[derive(Clone, Debug, PartialEq, Eq)]
pub struct Store {
    pub cells: Vec<u64>,
    pub top: usize,
    pub trail: Vec<u64>,
    pub trail_count: usize,
    pub marks: Vec<u64>,
    pub mark_count: usize,
    pub work: Vec<u64>,
}

impl Store {
    /// A fresh store that may grow to `len` cells, with trail and work enough for all of them.
    pub fn fresh(len: usize, mark_words: usize) -> Store {
        Store {
            cells: vec![0; len],
            top: 1,
            trail: vec![0; len],
            trail_count: 0,
            marks: vec![0; mark_words],
            mark_count: 0,
            work: vec![0; WORK_PER_CELL * len],
        }
    }

    /// A store with these words as its used cells, cell 0 among them, in `len` lent cells.
    pub fn holding(words: &[u64], len: usize) -> Store {
        let mut store = Store::fresh(len, 16);
        store.cells[..words.len()].copy_from_slice(words);
        store.top = words.len();
        store
    }
}

/// One public call with its own arguments.
#[derive(Clone, Debug, PartialEq, Eq)]
pub enum Call {
    Check,
    Number(i64),
    Follow(usize),
    Append(Vec<u64>),
    Mark,
    Rollback(usize),
    Cut(usize),
    Unify(usize, usize),
    UnifyChecked(usize, usize),
    Copy(usize),
    Cyclic(usize),
}

/// Makes a call. "Done" and "no" are answered as 0, "yes" as 1.
pub fn perform(store: &mut Store, call: &Call) -> Result<u64, u64> {
    let s = store;
    let (cells, top, trail, count) = (&mut s.cells, &mut s.top, &mut s.trail, &mut s.trail_count);
    let (marks, mark_count, work) = (&mut s.marks, &mut s.mark_count, &mut s.work);
    let done = |()| 0;
    let place = |at| at as u64;
    let verdict = |yes| yes as u64;
    match *call {
        Call::Check => check(cells, *top, trail, *count, marks, *mark_count).map(done),
        Call::Number(n) => number(n),
        Call::Follow(at) => follow(cells, *top, at),
        Call::Append(ref words) => {
            append(cells, top, trail, *count, marks, *mark_count, words).map(place)
        }
        Call::Mark => mark(cells, *top, trail, *count, marks, mark_count).map(place),
        Call::Rollback(k) => rollback(cells, top, trail, count, marks, mark_count, k).map(done),
        Call::Cut(k) => cut(cells, *top, trail, *count, marks, mark_count, k).map(done),
        Call::Unify(a, b) => {
            unify(cells, *top, trail, count, marks, *mark_count, work, a, b).map(verdict)
        }
        Call::UnifyChecked(a, b) => {
            unify_checked(cells, *top, trail, count, marks, *mark_count, work, a, b).map(verdict)
        }
        Call::Copy(root) => copy(cells, top, work, root).map(place),
        Call::Cyclic(root) => cyclic(cells, *top, root).map(verdict),
    }
}
