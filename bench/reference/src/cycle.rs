//! The cycle verdict: whether a root reaches a cell that reaches itself.
//!
//! A depth-first walk without recursion and without a work buffer. Each cell is walked once,
//! a header too: many Str cells that name one wide structure cost its arity once.

use crate::cell::{kind, Kind};
use crate::store::{formed, is_root, LIMIT};
use crate::{refusal, require};

/// Whether some cell reachable from the root reaches itself by one edge or more.
pub fn cyclic(cells: &[u64], top: usize, root: usize) -> Result<bool, u64> {
    require(formed(cells, top), refusal::CELLS)?;
    require(is_root(&cells[..top], root), refusal::ROOT)?;
    Ok(Walk::new().finds_cycle(cells, root))
}

#[derive(Clone, Copy)]
enum State {
    NotMet,
    OnPath,
    Finished,
}

/// The children of a cell on the path, always neighbours, that are still to be walked.
#[derive(Clone, Copy)]
struct Children {
    next: u16,
    end: u16,
}

/// A walk over a well-formed store; several roots may be walked one after the other.
pub(crate) struct Walk {
    states: [State; LIMIT],
    /// The children left at each cell on the path but the last.
    path: [Children; LIMIT],
}

impl Walk {
    pub(crate) fn new() -> Walk {
        Walk { states: [State::NotMet; LIMIT], path: [Children { next: 0, end: 0 }; LIMIT] }
    }

    /// Walks all that the root reaches, up to the first edge back into the path.
    /// After a yes the walk must not be used again.
    pub(crate) fn finds_cycle(&mut self, cells: &[u64], root: usize) -> bool {
        if let State::Finished = self.states[root] {
            return false;
        }
        self.states[root] = State::OnPath;
        let mut left = Children::of(cells, root);
        let mut depth = 0;
        loop {
            if left.none() && depth == 0 {
                self.states[root] = State::Finished;
                return false;
            }
            if left.none() {
                depth -= 1;
                left = self.path[depth];
                // The child that is done with is the one taken last.
                self.states[left.next as usize - 1] = State::Finished;
                continue;
            }
            let child = left.next as usize;
            left.next += 1;
            match self.states[child] {
                State::Finished => {}
                State::OnPath => return true,
                State::NotMet => {
                    self.states[child] = State::OnPath;
                    self.path[depth] = left;
                    depth += 1;
                    left = Children::of(cells, child);
                }
            }
        }
    }
}

impl Children {
    /// A Str leads to its functor cell and a functor cell to the arguments; nothing but a Str
    /// names a header, so no other path arises.
    #[inline]
    fn of(cells: &[u64], at: usize) -> Children {
        let (next, count) = match kind(cells[at]) {
            Kind::Var(to) => (to, (to != at) as usize),
            Kind::Str(f) => (f, 1),
            Kind::Lis(l) => (l, 2),
            Kind::Atom { arity, .. } => (at + 1, arity),
            Kind::Fixnum(_) => (at, 0),
        };
        Children { next: next as u16, end: (next + count) as u16 }
    }

    #[inline]
    fn none(self) -> bool {
        self.next == self.end
    }
}
