//! How an engine's outcome is held against the originals' and against the model's. Of the
//! originals only verdicts and resolved terms count; the model decides every word.

use crate::canon;
use crate::case::{Answer, Call, Case, Outcome, Stop};
use crate::expect::{self, Cause};
use crate::model::cyclic;
use crate::notation::show_cells;
use crate::store::root_cells;

/// What came of holding an engine against the originals on one case.
#[derive(Debug, PartialEq, Eq)]
pub enum Finding {
    Agreed,
    /// Rightly refused; the originals have no refusals.
    Refused,
    /// The occurs check of the originals ran out of its budget on a shared term.
    NoAnswer,
    /// Different, and the input says why.
    Differed,
    Unexpected,
}

/// Holds a subject's outcome against the originals', given the causes that the input shows.
pub fn judge(case: Case, causes: &[Cause], subject: &Outcome, originals: &Outcome) -> Finding {
    let refused = matches!(subject, Outcome::Refused(_));
    if refused || must_refuse(case) {
        let right = *subject == Outcome::Refused(6) && must_refuse(case);
        return if right {
            Finding::Refused
        } else {
            Finding::Unexpected
        };
    }
    let spent = *originals == Outcome::Stopped(Stop::BudgetSpent);
    if spent && matches!(case.call, Call::Checked(..)) && expect::shared(case) {
        return Finding::NoAnswer;
    }
    let same_meaning = meaning(case, subject) == meaning(case, originals);
    if same_meaning && cells_added(case, subject) == cells_added(case, originals) {
        return Finding::Agreed;
    }
    // A pair copied twice lengthens a copy and no more. No cause excuses a wrong cycle verdict.
    let excused = (causes.iter()).any(|c| same_meaning || *c != Cause::PairCopiedTwice);
    let cyclic = matches!(case.call, Call::Cyclic(_));
    if excused && !(cyclic && value(subject) != value(originals)) {
        Finding::Differed
    } else {
        Finding::Unexpected
    }
}

fn value(outcome: &Outcome) -> Option<usize> {
    match outcome {
        Outcome::Answered(answer) => Some(answer.value),
        _ => None,
    }
}

/// Refusal 6 is the only one that a well-formed store with roots and room can meet.
pub fn must_refuse(case: Case) -> bool {
    match case.call {
        Call::Checked(a, b) => cyclic(case.cells, a) || cyclic(case.cells, b),
        _ => false,
    }
}

/// The outcome of a case as one text. Equal texts mean equal verdicts and resolved terms.
pub fn meaning(case: Case, outcome: &Outcome) -> String {
    match outcome {
        Outcome::Refused(number) => format!("refused {number}"),
        Outcome::Stopped(stop) => stop_text(stop),
        Outcome::Broken(words) => format!("wrong words left: {words}"),
        Outcome::Answered(answer) => match case.call {
            Call::Plain(..) | Call::Checked(..) => unified(case, answer),
            Call::Copy(root) => copied(case, root, answer),
            Call::Cyclic(_) => format!("{}, {}", yes_no(answer), restored(case, answer)),
        },
    }
}

/// The words of an answer, where a meaning says too little.
pub fn words(outcome: &Outcome) -> String {
    match outcome {
        Outcome::Answered(Answer {
            value,
            cells: Ok(cells),
            trail,
        }) => format!(
            "answer {value}, cells {}, trail {trail:?}",
            show_cells(cells)
        ),
        _ => "no words".into(),
    }
}

/// After a yes, the terms of all cells that may be roots, variables numbered across them.
fn unified(case: Case, answer: &Answer) -> String {
    match &answer.cells {
        Ok(cells) if answer.value != 0 => {
            let roots = root_cells(case.cells);
            format!("yes, {}", canon::form(cells, cells.len(), &roots))
        }
        _ => yes_no(answer).into(),
    }
}

/// The old root and the copy together, so that a variable shared by both is seen.
fn copied(case: Case, root: usize, answer: &Answer) -> String {
    match &answer.cells {
        Err(stop) => stop_text(stop),
        Ok(cells) => {
            let terms = canon::form(cells, cells.len(), &[root, answer.value]);
            format!("{terms}, {}", restored(case, answer))
        }
    }
}

fn yes_no(answer: &Answer) -> &'static str {
    if answer.value != 0 { "yes" } else { "no" }
}

/// Whether the cells that the case came with are as they were.
fn restored(case: Case, answer: &Answer) -> String {
    match &answer.cells {
        Err(stop) => format!("cells not put back: {}", stop_text(stop)),
        Ok(cells) if cells.starts_with(case.cells) => "cells as before".into(),
        Ok(_) => "cells changed".into(),
    }
}

/// How many cells a call added.
pub fn cells_added(case: Case, outcome: &Outcome) -> Option<usize> {
    match outcome {
        Outcome::Answered(Answer { cells: Ok(c), .. }) => Some(c.len() - case.cells.len()),
        _ => None,
    }
}

pub fn stop_text(stop: &Stop) -> String {
    match stop {
        Stop::BudgetSpent => "budget spent".into(),
        Stop::OutOfRange(at) => format!("index {at} out of range"),
        Stop::Panicked(message) => format!("panicked: {message}"),
    }
}
