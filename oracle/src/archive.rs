//! The proved engine as an engine here: the C functions of `trisculap.h`, linked from libengine.a
//! (feature `archive`). It also checks the lent words that an outcome does not show.

use trisculap::{WORK_PER_CELL, c};

use crate::case::{Answer, Call, Case, Engine, Outcome};

/// Stands in the work buffer before a call and in answers that a refusal must leave alone.
const UNTOUCHED: u64 = 0x5A5A_5A5A;

/// What is lent to one call: a case's cells with room for any copy, empty trail and marks, and a
/// work buffer somewhat longer than needed.
struct Lent<'a> {
    entry: &'a [u64],
    cells: Vec<u64>,
    top: usize,
    trail: Vec<u64>,
    trail_count: usize,
    marks: Vec<u64>,
    work: Vec<u64>,
}

impl<'a> Lent<'a> {
    fn new(entry: &'a [u64]) -> Self {
        let top = entry.len();
        let mut cells = entry.to_vec();
        // A copy adds one cell, the runs, which are disjoint, and two cells for each pair.
        cells.resize(4 * top + 1, 0);
        Lent {
            entry,
            cells,
            top,
            trail: vec![0; top],
            trail_count: 0,
            marks: vec![0; 2],
            work: vec![UNTOUCHED; WORK_PER_CELL * top + 5],
        }
    }

    /// The outcome, once the words that no outcome shows are found in order. `work_after` is what
    /// the needed work words hold after an answer.
    fn outcome(self, refusal: u64, value: u64, work_after: u64) -> Outcome {
        let broken = match refusal {
            0 => self.broken_by_answer(work_after),
            _ => self.broken_by_refusal(value),
        };
        match broken {
            Some(promise) => Outcome::Broken(promise),
            None if refusal != 0 => Outcome::Refused(refusal),
            None => Outcome::Answered(Answer {
                value: value as usize,
                cells: Ok(self.cells[..self.top].to_vec()),
                trail: (self.trail[..self.trail_count].iter())
                    .map(|w| *w as usize)
                    .collect(),
            }),
        }
    }

    fn broken_by_answer(&self, work_after: u64) -> Option<&'static str> {
        let (needed, spare) = self.work.split_at(WORK_PER_CELL * self.entry.len());
        let holds = |words: Option<&[u64]>, value| words.is_some_and(|w| all(w, value));
        first_broken(&[
            (all(needed, work_after), "the needed work words"),
            (all(spare, UNTOUCHED), "the spare work words"),
            (all(&self.marks, 0), "the marks"),
            (holds(self.cells.get(self.top..), 0), "the cells past top"),
            (
                holds(self.trail.get(self.trail_count..), 0),
                "the unused trail",
            ),
        ])
    }

    fn broken_by_refusal(&self, value: u64) -> Option<&'static str> {
        let (kept, free) = self.cells.split_at(self.entry.len());
        let counts = (self.top, self.trail_count) == (self.entry.len(), 0);
        first_broken(&[
            (
                kept == self.entry && all(free, 0),
                "cells of a refused call",
            ),
            (all(&self.trail, 0), "trail of a refused call"),
            (all(&self.marks, 0), "marks of a refused call"),
            (all(&self.work, UNTOUCHED), "work words of a refused call"),
            (counts && value == UNTOUCHED, "counts of a refused call"),
        ])
    }
}

fn all(words: &[u64], value: u64) -> bool {
    words.iter().all(|w| *w == value)
}

fn first_broken(promises: &[(bool, &'static str)]) -> Option<&'static str> {
    (promises.iter()).find_map(|(kept, name)| (!kept).then_some(*name))
}

pub struct Archive;

impl Engine for Archive {
    fn name(&self) -> &'static str {
        "archive"
    }

    fn run(&self, case: Case) -> Outcome {
        match case.call {
            Call::Plain(a, b) => unify(case.cells, c::trisculap_unify, a, b),
            Call::Checked(a, b) => unify(case.cells, c::trisculap_unify_checked, a, b),
            Call::Copy(root) => copy(case.cells, root),
            Call::Cyclic(root) => cyclic(case.cells, root),
        }
    }
}

fn unify(cells: &[u64], call: c::Unify, a: usize, b: usize) -> Outcome {
    let mut lent = Lent::new(cells);
    let mut yes = UNTOUCHED;
    // Safety: each pointer is to a vector of the length given with it, and none overlap.
    let refusal = unsafe {
        call(
            lent.cells.as_mut_ptr(),
            lent.cells.len(),
            lent.top,
            lent.trail.as_mut_ptr(),
            lent.trail.len(),
            &mut lent.trail_count,
            lent.marks.as_ptr(),
            lent.marks.len(),
            0,
            lent.work.as_mut_ptr(),
            lent.work.len(),
            a,
            b,
            &mut yes,
        )
    };
    lent.outcome(refusal, yes, 0)
}

fn copy(cells: &[u64], root: usize) -> Outcome {
    let mut lent = Lent::new(cells);
    let mut at = UNTOUCHED as usize;
    // Safety: as above.
    let refusal = unsafe {
        c::trisculap_copy(
            lent.cells.as_mut_ptr(),
            lent.cells.len(),
            &mut lent.top,
            lent.work.as_mut_ptr(),
            lent.work.len(),
            root,
            &mut at,
        )
    };
    lent.outcome(refusal, at as u64, 0)
}

fn cyclic(cells: &[u64], root: usize) -> Outcome {
    let lent = Lent::new(cells);
    let mut yes = UNTOUCHED;
    // Safety: as above; this call is lent cells only.
    let refusal = unsafe {
        c::trisculap_cyclic(
            lent.cells.as_ptr(),
            lent.cells.len(),
            lent.top,
            root,
            &mut yes,
        )
    };
    lent.outcome(refusal, yes, UNTOUCHED)
}
