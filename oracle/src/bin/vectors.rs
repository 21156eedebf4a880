//! Prints a sample of cases on which the originals agree with the rules, with what each comes to:
//! the list that a proved program replays without the originals. The sample is the same each time.
//!
//! A line is one case, in hexadecimal numbers:
//!
//!   CALL A B ANSWER TOP cells.. NEW-TOP cells.. ENTRIES trail..
//!
//! CALL is 1 plain, 2 checked, 3 copy, 4 cyclic; copy and cyclic have B 0. ANSWER is 1 for yes and 0
//! for no, and for a copy the cell where it stands. Cell 0 is left out of the cells. The words after
//! the call are the model's; their terms are those that the originals resolved. The last line is 0.

use oracle::case::{Answer, Call, Case, Engine, Outcome};
use oracle::compare::{Finding, judge};
use oracle::expect::causes;
use oracle::heaps::{self, Random};
use oracle::model::Model;
use oracle::rust::Originals;
use std::collections::HashMap;

/// How many cases of each kind.
const OF_EACH: usize = 20;
const KINDS: usize = 16;
const MOST_CELLS: usize = 30;

fn main() {
    let mut sample = Sample::default();
    let mut random = Random::new(2026);
    while !sample.full() {
        let cells = heaps::random_store(&mut random, MOST_CELLS);
        let calls = heaps::random_calls(&mut random, &cells);
        if let Some(call) = random.pick(&calls) {
            sample.offer(&cells, call);
        }
        let twins = heaps::random_twins(&mut random, MOST_CELLS);
        if let Some((cells, a, b)) = twins {
            let call = random.pick(&heaps::pair_calls(a, b));
            sample.offer(&cells, call.expect("six calls"));
        }
    }
    println!("0");
}

#[derive(Default)]
struct Sample {
    counts: HashMap<(u8, Kind), usize>,
}

/// Kinds of answers, so that rare ones are in the sample too.
#[derive(PartialEq, Eq, Hash)]
enum Kind {
    No,
    /// With so many bindings, 3 for more.
    Yes(usize),
    /// With so many times four new cells, 3 for more.
    Copied(usize),
}

fn kind_of(case: Case, answer: &Answer) -> Kind {
    match (case.call, &answer.cells) {
        (Call::Copy(_), Ok(cells)) => Kind::Copied(((cells.len() - case.cells.len()) / 4).min(3)),
        _ if answer.value == 0 => Kind::No,
        _ => Kind::Yes(answer.trail.len().min(3)),
    }
}

impl Sample {
    fn full(&self) -> bool {
        self.counts.len() == KINDS && self.counts.values().all(|count| *count == OF_EACH)
    }

    /// Prints the case if its kind is still wanted, both roots differ, and the originals agree.
    fn offer(&mut self, cells: &[u64], call: Call) {
        let case = Case { cells, call };
        let (number, a, b) = numbered(call);
        let subject = Model.run(case);
        let Outcome::Answered(answer) = &subject else {
            return;
        };
        let kind = (number, kind_of(case, answer));
        let count = self.counts.entry(kind).or_default();
        if *count == OF_EACH || a == b {
            return;
        }
        let originals = Originals { budget: 1_000_000 }.run(case);
        if judge(case, &causes(case), &subject, &originals) == Finding::Agreed {
            *count += 1;
            print_case(cells, (number, a, b), answer);
        }
    }
}

fn numbered(call: Call) -> (u8, usize, usize) {
    match call {
        Call::Plain(a, b) => (1, a, b),
        Call::Checked(a, b) => (2, a, b),
        Call::Copy(root) => (3, root, 0),
        Call::Cyclic(root) => (4, root, 0),
    }
}

fn print_case(cells: &[u64], (number, a, b): (u8, usize, usize), answer: &Answer) {
    let after = answer.cells.as_ref().expect("the model leaves cells");
    print!("{number:x} {a:x} {b:x} {:x}", answer.value);
    for cells in [cells, after] {
        print!(" {:x}", cells.len());
        cells[1..].iter().for_each(|word| print!(" {word:x}"));
    }
    print!(" {:x}", answer.trail.len());
    answer.trail.iter().for_each(|cell| print!(" {cell:x}"));
    println!();
}
