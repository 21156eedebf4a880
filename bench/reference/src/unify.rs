//! Unification, plain and checked.
//!
//! Pairs of cells wait on a stack in the work buffer. Compounds once joined are kept in classes
//! there, so that shared and cyclic terms are walked once. Checked unification looks for a cycle
//! once, at the end: bindings only add edges, and the edge that closes a cycle is one for which
//! the occurs check at that binding would have fired.

use crate::cell::{arity, kind, var, Kind, DOT_2};
use crate::cycle::Walk;
use crate::store::{check, is_root, Chains};
use crate::{refusal, require, WORK_PER_CELL};

/// Unifies the roots; a yes holds for terms that may be endless.
pub fn unify(
    cells: &mut [u64],
    top: usize,
    trail: &mut [u64],
    trail_count: &mut usize,
    marks: &[u64],
    mark_count: usize,
    work: &mut [u64],
    a: usize,
    b: usize,
) -> Result<bool, u64> {
    check(cells, top, trail, *trail_count, marks, mark_count)?;
    let cells = &mut cells[..top];
    require_ready(cells, trail.len() - *trail_count, work.len(), a, b)?;
    Ok(solve(cells, trail, trail_count, work, |unifier| unifier.unify_roots(a, b)))
}

/// Unifies the roots as finite terms.
pub fn unify_checked(
    cells: &mut [u64],
    top: usize,
    trail: &mut [u64],
    trail_count: &mut usize,
    marks: &[u64],
    mark_count: usize,
    work: &mut [u64],
    a: usize,
    b: usize,
) -> Result<bool, u64> {
    check(cells, top, trail, *trail_count, marks, mark_count)?;
    let cells = &mut cells[..top];
    require_ready(cells, trail.len() - *trail_count, work.len(), a, b)?;
    let mut walk = Walk::new();
    let cyclic = walk.finds_cycle(cells, a) || walk.finds_cycle(cells, b);
    require(!cyclic, refusal::CYCLIC_ROOT)?;
    Ok(solve(cells, trail, trail_count, work, |unifier| {
        unifier.unify_roots(a, b) && !unifier.closed_cycle()
    }))
}

/// The refusals that plain and checked unification share after the store check.
fn require_ready(
    used: &[u64],
    free_trail: usize,
    work_len: usize,
    a: usize,
    b: usize,
) -> Result<(), u64> {
    require(is_root(used, a) && is_root(used, b), refusal::ROOT)?;
    require(work_len >= WORK_PER_CELL * used.len(), refusal::WORK)?;
    let unbound = used.iter().enumerate();
    let unbound = unbound.filter(|&(at, &word)| word == var(at)).count();
    require(free_trail >= unbound, refusal::TRAIL_ROOM)
}

/// Runs a unifier over the store, keeps the bindings after a yes and undoes them after a no.
fn solve(
    cells: &mut [u64],
    trail: &mut [u64],
    trail_count: &mut usize,
    work: &mut [u64],
    says_yes: impl Fn(&mut Unifier) -> bool,
) -> bool {
    let work = &mut work[..WORK_PER_CELL * cells.len()];
    let mut unifier = Unifier::new(cells, &mut trail[*trail_count..], work);
    let yes = says_yes(&mut unifier);
    if yes {
        *trail_count += unifier.bindings;
    } else {
        unifier.undo();
    }
    work.fill(0);
    yes
}

struct Unifier<'a> {
    cells: &'a mut [u64],
    /// The free trail entries, of which the first `bindings` are taken.
    trail: &'a mut [u64],
    bindings: usize,
    chains: Chains,
    classes: Classes<'a>,
    pairs: Pairs<'a>,
}

/// A followed word that is no variable.
struct Value {
    /// What two values must have in common: a constant's own word, or name and arity.
    functor: u64,
    /// The functor cell, or a pair's first cell.
    node: usize,
    first_argument: usize,
    arity: usize,
}

impl<'a> Unifier<'a> {
    fn new(cells: &'a mut [u64], trail: &'a mut [u64], work: &'a mut [u64]) -> Unifier<'a> {
        let (classes, pairs) = work.split_at_mut(cells.len());
        Unifier {
            cells,
            trail,
            bindings: 0,
            chains: Chains::new(),
            classes: Classes::alone(classes),
            pairs: Pairs::none(pairs),
        }
    }

    fn unify_roots(&mut self, a: usize, b: usize) -> bool {
        self.pairs.push_run(a, b, 1);
        while let Some((a, b)) = self.pairs.pop() {
            if !self.unify_cells(a, b) {
                return false;
            }
        }
        true
    }

    fn unify_cells(&mut self, a: usize, b: usize) -> bool {
        let a = self.chains.follow(self.cells, a);
        let b = self.chains.follow(self.cells, b);
        if a == b {
            return true;
        }
        match (kind(a), kind(b)) {
            (Kind::Var(x), Kind::Var(y)) => self.bind(x.max(y), var(x.min(y))),
            (Kind::Var(x), _) => self.bind(x, b),
            (_, Kind::Var(y)) => self.bind(y, a),
            _ => return self.unify_values(self.value(a), self.value(b)),
        }
        true
    }

    fn unify_values(&mut self, a: Value, b: Value) -> bool {
        if a.functor != b.functor {
            return false;
        }
        if a.arity > 0 && self.classes.join(a.node, b.node) {
            self.pairs.push_run(a.first_argument, b.first_argument, a.arity);
        }
        true
    }

    fn value(&self, word: u64) -> Value {
        let (functor, node, first_argument, arity) = match kind(word) {
            Kind::Str(f) => (self.cells[f], f, f + 1, arity(self.cells[f])),
            Kind::Lis(l) => (DOT_2, l, l, 2),
            _ => (word, 0, 0, 0),
        };
        Value { functor, node, first_argument, arity }
    }

    fn bind(&mut self, at: usize, word: u64) {
        self.cells[at] = word;
        self.trail[self.bindings] = at as u64;
        self.bindings += 1;
    }

    /// Whether the bindings closed a cycle. It would run through a variable that was given a
    /// compound, so the walk starts from those.
    fn closed_cycle(&self) -> bool {
        let bound = self.trail[..self.bindings].iter().map(|&at| at as usize);
        let is_compound = |&at: &usize| self.value(self.cells[at]).arity > 0;
        let mut starts = bound.filter(is_compound).peekable();
        if starts.peek().is_none() {
            return false;
        }
        let mut walk = Walk::new();
        starts.any(|at| walk.finds_cycle(self.cells, at))
    }

    fn undo(&mut self) {
        for entry in &mut self.trail[..self.bindings] {
            self.cells[*entry as usize] = var(*entry as usize);
            *entry = 0;
        }
    }
}

/// Classes of compounds by node: union by size with path halving.
///
/// A word above 0 is the parent; 0 or below stands at a representative and is one less than the
/// class's size, negated, so that all words 0 mean every node alone.
struct Classes<'a> {
    links: &'a mut [u64],
}

impl<'a> Classes<'a> {
    fn alone(links: &'a mut [u64]) -> Classes<'a> {
        links.fill(0);
        Classes { links }
    }

    fn parent(&self, node: usize) -> Option<usize> {
        let link = self.links[node] as i64;
        (link > 0).then_some(link as usize)
    }

    fn representative(&mut self, mut node: usize) -> usize {
        while let Some(parent) = self.parent(node) {
            match self.parent(parent) {
                None => return parent,
                Some(grandparent) => {
                    self.links[node] = grandparent as u64;
                    node = grandparent;
                }
            }
        }
        node
    }

    /// Joins the classes of two nodes and says whether they were apart.
    fn join(&mut self, a: usize, b: usize) -> bool {
        let (a, b) = (self.representative(a), self.representative(b));
        if a == b {
            return false;
        }
        let (small, large) = if self.size(a) < self.size(b) { (a, b) } else { (b, a) };
        let size = self.size(small) + self.size(large);
        self.links[large] = (1 - size) as u64;
        self.links[small] = large as u64;
        true
    }

    fn size(&self, representative: usize) -> i64 {
        1 - self.links[representative] as i64
    }
}

/// The pairs still to unify, last in first out. The arguments of two compounds wait as a run in
/// one word: how many there are, and the next cell on either side. Two nodes are joined for each
/// run, so fewer runs ever stand than there are cells.
struct Pairs<'a> {
    runs: &'a mut [u64],
    count: usize,
}

const LEFT_SHIFT: u32 = 32;
const SIDE_SHIFT: u32 = 16;
const SIDE: u64 = (1 << SIDE_SHIFT) - 1;
/// Added to a run, it moves both sides on and leaves one pair less.
const ONE_PAIR_ON: u64 = (1u64 << SIDE_SHIFT | 1).wrapping_sub(1 << LEFT_SHIFT);

impl<'a> Pairs<'a> {
    fn none(runs: &'a mut [u64]) -> Pairs<'a> {
        Pairs { runs, count: 0 }
    }

    fn push_run(&mut self, a: usize, b: usize, len: usize) {
        let run = (len as u64) << LEFT_SHIFT | (a as u64) << SIDE_SHIFT | b as u64;
        self.runs[self.count] = run;
        self.count += 1;
    }

    /// Takes the first pair of the last run.
    fn pop(&mut self) -> Option<(usize, usize)> {
        let last = self.count.checked_sub(1)?;
        let run = self.runs[last];
        if run >> LEFT_SHIFT == 1 {
            self.count = last;
        } else {
            self.runs[last] = run.wrapping_add(ONE_PAIR_ON);
        }
        let (a, b) = (run >> SIDE_SHIFT & SIDE, run & SIDE);
        Some((a as usize, b as usize))
    }
}
