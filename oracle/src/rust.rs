//! The originals as an engine.

use crate::case::{Answer, Call, Case, Engine, Outcome};

/// The originals, each run with a budget of heap accesses. The occurs check walks a shared term
/// once per path and some copies never end, so a run needs one.
pub struct Originals {
    pub budget: u64,
}

impl Engine for Originals {
    fn name(&self) -> &'static str {
        "originals"
    }

    fn run(&self, case: Case) -> Outcome {
        let (cells, budget) = (case.cells, self.budget);
        let unified = |checked, roots| {
            originals::unify(cells, checked, roots, budget).map(|(yes, c)| (yes as usize, Ok(c)))
        };
        let ran = match case.call {
            Call::Plain(a, b) => unified(false, (a, b)),
            Call::Checked(a, b) => unified(true, (a, b)),
            Call::Copy(root) => {
                originals::copy(cells, root, budget).map(|(_, c)| (cells.len(), Ok(c)))
            }
            Call::Cyclic(root) => {
                originals::cyclic(cells, root, budget).map(|c| (c.yes as usize, c.cells))
            }
        };
        match ran {
            Err(stop) => Outcome::Stopped(stop),
            Ok((value, cells)) => Outcome::Answered(Answer {
                value,
                cells,
                trail: vec![],
            }),
        }
    }
}
