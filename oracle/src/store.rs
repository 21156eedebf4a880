//! A store as a slice of its used cells: the rules for well-formed cells,
//! following, edges and reach.

use crate::word::{Kind, kind_of};

/// An Atom of arity above 0.
pub fn is_header(word: u64) -> bool {
    matches!(kind_of(word), Some(Kind::Atom { arity: 1.., .. }))
}

/// The cells that a root may be: used, not cell 0, no header.
pub fn root_cells(cells: &[u64]) -> Vec<usize> {
    (1..cells.len()).filter(|&c| !is_header(cells[c])).collect()
}

/// The cell where following stops: an unbound Var or another kind. The store is well formed.
pub fn follow(cells: &[u64], mut at: usize) -> usize {
    while let Some(Kind::Var(next)) = kind_of(cells[at]) {
        if next == at {
            break;
        }
        at = next;
    }
    at
}

/// The arguments that a word of a well-formed store leads to: name, arity and first cell.
pub fn compound(cells: &[u64], word: u64) -> Option<(u32, usize, usize)> {
    match kind_of(word)? {
        Kind::Lis(first) => Some((crate::word::DOT, 2, first)),
        Kind::Str(f) => match kind_of(cells[f])? {
            Kind::Atom {
                name,
                arity: a @ 1..,
            } => Some((name, a, f + 1)),
            _ => None,
        },
        _ => None,
    }
}

/// The edges of a cell: a bound Var to its target, Str to each argument, Lis to both cells.
pub fn edges(cells: &[u64], at: usize) -> Vec<usize> {
    match kind_of(cells[at]) {
        Some(Kind::Var(to)) if to != at => vec![to],
        _ => match compound(cells, cells[at]) {
            Some((_, arity, first)) => (first..first + arity).collect(),
            None => vec![],
        },
    }
}

/// Which cells are reached from the given ones, these included.
pub fn reached(cells: &[u64], from: &[usize]) -> Vec<bool> {
    let mut seen = vec![false; cells.len()];
    let mut open = from.to_vec();
    while let Some(at) = open.pop() {
        if !seen[at] {
            seen[at] = true;
            open.extend(edges(cells, at));
        }
    }
    seen
}

/// Whether the used cells keep to the rules.
pub fn well_formed(cells: &[u64]) -> bool {
    let top = cells.len();
    (1..=4096).contains(&top)
        && cells[0] == 0
        && (1..top).all(|c| kind_of(cells[c]).is_some_and(|k| cell_fits(cells, c, k)))
        && (1..top).all(|c| chain_ends(cells, c))
}

/// Whether one cell's references and, for a header, its run are in order.
fn cell_fits(cells: &[u64], at: usize, kind: Kind) -> bool {
    let plain = |c: usize| 1 <= c && c < cells.len() && !is_header(cells[c]);
    match kind {
        Kind::Var(to) => plain(to),
        Kind::Lis(first) => plain(first) && plain(first + 1),
        Kind::Str(f) => {
            1 <= f && f < cells.len() && matches!(kind_of(cells[f]), Some(Kind::Atom { .. }))
        }
        Kind::Atom { arity, .. } => (at + 1..=at + arity).all(plain),
        Kind::Fixnum(_) => true,
    }
}

/// Whether following Vars from a cell ends: no ring but a self-reference.
fn chain_ends(cells: &[u64], mut at: usize) -> bool {
    for _ in 0..cells.len() {
        match kind_of(cells[at]) {
            Some(Kind::Var(to)) if to != at => at = to,
            _ => return true,
        }
    }
    false
}
