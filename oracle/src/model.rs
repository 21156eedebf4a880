//! The rules of unification, copying and the cycle verdict, as short as they can
//! be written. Slow on purpose: every question about reach is asked of the whole store again.

use crate::case::{Answer, Call, Case, Engine, Outcome};
use crate::store::{compound, edges, follow, reached};
use crate::word::{self, Kind, kind_of};
use std::collections::HashMap;

pub struct Model;

impl Engine for Model {
    fn name(&self) -> &'static str {
        "model"
    }

    fn run(&self, case: Case) -> Outcome {
        let answer = match case.call {
            Call::Plain(a, b) => unify(case.cells, false, a, b),
            Call::Checked(a, b) => {
                if cyclic(case.cells, a) || cyclic(case.cells, b) {
                    return Outcome::Refused(6);
                }
                unify(case.cells, true, a, b)
            }
            Call::Copy(root) => copy(case.cells, root),
            Call::Cyclic(root) => Answer {
                value: cyclic(case.cells, root) as usize,
                cells: Ok(case.cells.to_vec()),
                trail: vec![],
            },
        };
        Outcome::Answered(answer)
    }
}

/// Some cell reachable from the root reaches itself by one edge or more.
pub fn cyclic(cells: &[u64], root: usize) -> bool {
    let from_root = reached(cells, &[root]);
    (0..cells.len()).any(|c| from_root[c] && reached(cells, &edges(cells, c))[c])
}

fn unify(cells: &[u64], checked: bool, a: usize, b: usize) -> Answer {
    let mut work = Unification {
        cells: cells.to_vec(),
        trail: vec![],
        class: (0..cells.len()).collect(),
        pairs: vec![(a, b)],
        checked,
    };
    while let Some((x, y)) = work.pairs.pop() {
        if !work.agree(x, y) {
            return Answer {
                value: 0,
                cells: Ok(cells.to_vec()),
                trail: vec![],
            };
        }
    }
    Answer {
        value: 1,
        cells: Ok(work.cells),
        trail: work.trail,
    }
}

struct Unification {
    cells: Vec<u64>,
    trail: Vec<usize>,
    /// The class of each node, a node being a functor cell or a pair's first cell.
    class: Vec<usize>,
    pairs: Vec<(usize, usize)>,
    checked: bool,
}

impl Unification {
    /// One pair: false if there is no unifier.
    fn agree(&mut self, x: usize, y: usize) -> bool {
        let (x, y) = (follow(&self.cells, x), follow(&self.cells, y));
        let (wx, wy) = (self.cells[x], self.cells[y]);
        if wx == wy {
            return true;
        }
        match (wx == word::var(x), wy == word::var(y)) {
            (true, true) => self.write(x.max(y), word::var(x.min(y))),
            (true, false) => self.bind(x, wy),
            (false, true) => self.bind(y, wx),
            (false, false) => self.compare(wx, wy),
        }
    }

    fn bind(&mut self, variable: usize, value: u64) -> bool {
        if self.checked
            && let Some((_, arity, first)) = compound(&self.cells, value)
        {
            let below: Vec<usize> = (first..first + arity).collect();
            if reached(&self.cells, &below)[variable] {
                return false;
            }
        }
        self.write(variable, value)
    }

    fn write(&mut self, cell: usize, value: u64) -> bool {
        self.cells[cell] = value;
        self.trail.push(cell);
        true
    }

    /// Two different words, neither an unbound Var.
    fn compare(&mut self, wx: u64, wy: u64) -> bool {
        match (compound(&self.cells, wx), compound(&self.cells, wy)) {
            (None, None) => atomic(&self.cells, wx) == atomic(&self.cells, wy),
            (Some((nx, ax, fx)), Some((ny, ay, fy))) => {
                if (nx, ax) != (ny, ay) {
                    return false;
                }
                if self.join(node(wx), node(wy)) {
                    self.pairs.extend((0..ax).rev().map(|i| (fx + i, fy + i)));
                }
                true
            }
            _ => false,
        }
    }

    /// Joins the classes of two nodes; false if they were one already.
    fn join(&mut self, m: usize, n: usize) -> bool {
        let (from, to) = (self.class[m], self.class[n]);
        for class in &mut self.class {
            if *class == from {
                *class = to;
            }
        }
        from != to
    }
}

/// The node of a compound word: its functor cell or its pair's first cell.
fn node(word: u64) -> usize {
    match kind_of(word) {
        Some(Kind::Str(at) | Kind::Lis(at)) => at,
        _ => unreachable!("only compounds have nodes"),
    }
}

/// The atom or number that a word means, an arity-0 Str being its atom.
fn atomic(cells: &[u64], word: u64) -> Option<Kind> {
    match kind_of(word)? {
        Kind::Str(f) => kind_of(cells[f]),
        other => Some(other),
    }
}

fn copy(cells: &[u64], root: usize) -> Answer {
    let top = cells.len();
    let mut all = cells.to_vec();
    let mut runs = HashMap::new();
    let mut pairs = HashMap::new();
    let mut homes = HashMap::new();
    all.push(cells[root]);
    let mut scan = top;
    while scan < all.len() {
        match kind_of(all[scan]) {
            Some(Kind::Str(f)) => {
                let arity = compound(cells, all[scan]).map_or(0, |(_, arity, _)| arity);
                all[scan] = word::str(copied(&mut runs, &mut all, f, 1 + arity));
            }
            Some(Kind::Lis(l)) => all[scan] = word::lis(copied(&mut pairs, &mut all, l, 2)),
            Some(Kind::Var(at)) => {
                let end = follow(cells, at);
                if cells[end] != word::var(end) {
                    all[scan] = cells[end];
                    continue; // the word that replaced the Var is scanned again
                }
                all[scan] = word::var(*homes.entry(end).or_insert(scan));
            }
            _ => {}
        }
        scan += 1;
    }
    Answer {
        value: top,
        cells: Ok(all),
        trail: vec![],
    }
}

/// Where the run of `length` cells from `at` is copied to; added at the end the first time.
fn copied(
    known: &mut HashMap<usize, usize>,
    all: &mut Vec<u64>,
    at: usize,
    length: usize,
) -> usize {
    *known.entry(at).or_insert_with(|| {
        let new = all.len();
        all.extend_from_within(at..at + length);
        new
    })
}
