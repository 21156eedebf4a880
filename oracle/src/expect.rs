//! Where the originals are expected to part from the rules, told from the input alone: a case
//! is exempt by what its roots reach, never by what an engine answered.

use crate::case::{Call, Case};
use crate::model::cyclic;
use crate::store::{compound, edges, follow, reached};
use crate::word::{self, DOT, Kind, kind_of};

/// A fault of the originals that a case can meet.
#[derive(Clone, Copy, Debug, PartialEq, Eq, PartialOrd, Ord)]
pub enum Cause {
    /// unify.rs reads a pair one cell too far when a Str of '.'/2 stands on its left.
    DotAndLis,
    /// Two reached Lis name l and l+1. copier.rs notes a pair's copy in one of its cells and
    /// takes the other pair for copied; cycle_detection.rs leaves a shared cell changed.
    OverlappingPairs,
    /// A reached pair shares a cell with the arguments of a reached structure: the note in the
    /// pair is copied as an argument, or the shared cell is left changed.
    PairInArguments,
    /// The atom cell of a reached arity-0 Str is itself reached as a cell, where the copier's
    /// note in it is read as a term.
    AtomCellReached,
    /// A pair that two places name holds two unbound variables. The copier leaves no note in it
    /// and copies it again: the same term, but two cells more.
    PairCopiedTwice,
}

/// What the roots of a case reach.
struct Reach<'a> {
    cells: &'a [u64],
    roots: Vec<usize>,
    seen: Vec<bool>,
    /// The first cells of reached pairs.
    pairs: Vec<usize>,
    /// The functor cells of reached structures.
    structures: Vec<usize>,
}

/// The faults that a case can meet. A case without any must agree.
pub fn causes(case: Case) -> Vec<Cause> {
    let reach = Reach::of(case);
    let mut causes = vec![];
    let mut note = |cause, holds| {
        if holds {
            causes.push(cause);
        }
    };
    match case.call {
        Call::Plain(..) | Call::Checked(..) => {
            note(Cause::DotAndLis, reach.dot() && !reach.pairs.is_empty());
        }
        Call::Copy(_) => {
            note(Cause::OverlappingPairs, reach.pairs_overlap());
            note(Cause::PairInArguments, reach.pair_in_arguments());
            note(Cause::AtomCellReached, reach.atom_cell_reached());
            note(Cause::PairCopiedTwice, reach.pair_copied_twice());
        }
        // The marks are taken back in full unless the search was cut short by a cycle.
        Call::Cyclic(root) => {
            let found = cyclic(case.cells, root);
            note(Cause::OverlappingPairs, found && reach.pairs_overlap());
            note(Cause::PairInArguments, found && reach.pair_in_arguments());
        }
    }
    causes
}

/// Whether a cell is reached along two ways. Only then can the occurs check of the originals,
/// which walks each way anew, take more than a few steps for each cell.
pub fn shared(case: Case) -> bool {
    let reach = Reach::of(case);
    let met: usize = (0..case.cells.len())
        .filter(|&c| reach.seen[c])
        .map(|c| edges(case.cells, c).len())
        .sum();
    let different = reach.seen.iter().filter(|s| **s).count();
    reach.roots.len() + met > different
}

impl<'a> Reach<'a> {
    fn of(case: Case<'a>) -> Self {
        let (cells, roots) = (case.cells, case.call.roots());
        let seen = reached(cells, &roots);
        let mut reach = Reach {
            cells,
            roots,
            seen,
            pairs: vec![],
            structures: vec![],
        };
        for cell in (0..cells.len()).filter(|&c| reach.seen[c]) {
            match kind_of(cells[cell]) {
                Some(Kind::Lis(first)) => reach.pairs.push(first),
                Some(Kind::Str(functor)) => reach.structures.push(functor),
                _ => {}
            }
        }
        for list in [&mut reach.pairs, &mut reach.structures] {
            list.sort_unstable();
            list.dedup();
        }
        reach
    }

    fn dot(&self) -> bool {
        self.structures
            .iter()
            .any(|&f| self.cells[f] == word::functor(DOT, 2))
    }

    fn pairs_overlap(&self) -> bool {
        self.pairs.windows(2).any(|two| two[0] + 1 == two[1])
    }

    fn pair_in_arguments(&self) -> bool {
        self.structures.iter().any(|&f| {
            let arguments = self.arguments(f);
            self.pairs
                .iter()
                .any(|l| arguments.contains(l) || arguments.contains(&(l + 1)))
        })
    }

    fn atom_cell_reached(&self) -> bool {
        // A header is never reached as a cell, so only arity-0 atoms count here.
        self.structures.iter().any(|&f| self.seen[f])
    }

    /// The copier arrives once at the root and once at each cell of each run that it copies.
    fn pair_copied_twice(&self) -> bool {
        let mut arrivals = self.roots.clone();
        arrivals.extend(self.structures.iter().flat_map(|&f| self.arguments(f)));
        arrivals.extend(self.pairs.iter().flat_map(|&l| [l, l + 1]));
        let ends = arrivals.iter().map(|&c| self.cells[follow(self.cells, c)]);
        let mut met = vec![0; self.cells.len()];
        for word in ends {
            if let Some(Kind::Lis(first)) = kind_of(word) {
                met[first] += 1;
            }
        }
        self.pairs
            .iter()
            .any(|&l| met[l] > 1 && self.unbound(l) && self.unbound(l + 1))
    }

    fn unbound(&self, cell: usize) -> bool {
        let end = follow(self.cells, cell);
        self.cells[end] == word::var(end)
    }

    fn arguments(&self, functor: usize) -> std::ops::Range<usize> {
        match compound(self.cells, word::str(functor)) {
            Some((_, arity, first)) => first..first + arity,
            None => 0..0,
        }
    }
}
