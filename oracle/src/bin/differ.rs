//! Compares an engine with the originals, and with the model where it is not the model itself.
//!
//! differ                              every store up to 5 cells, the large ones, and random ones
//! differ every TOP                    every store of TOP cells over the small alphabet, all roots
//! differ made                         a few large stores of one shape
//! differ random COUNT SEED [MOST]     COUNT times two random stores of up to MOST cells (20)
//!
//! Exit status 1 if a difference is found that `expect` does not tell from the input.

use oracle::case::{Call, Case, Engine, Outcome};
use oracle::compare::{Finding, judge, meaning, words};
use oracle::expect::{Cause, causes};
use oracle::heaps::{self, Random};
use oracle::model::Model;
use oracle::notation::{show_call, show_cells};
use oracle::rust::Originals;
use std::collections::BTreeMap;
use std::process::ExitCode;

#[cfg(feature = "archive")]
const SUBJECT: oracle::archive::Archive = oracle::archive::Archive;
#[cfg(not(feature = "archive"))]
const SUBJECT: Model = Model;

/// Enough accesses for every answer of the originals that does not take exponential time: the
/// occurs check may walk the whole store for each binding.
fn originals_for(case: Case) -> Originals {
    let top = case.cells.len() as u64;
    Originals {
        budget: 200_000 + 100 * top * top,
    }
}

fn main() -> ExitCode {
    let arguments: Vec<String> = std::env::args().skip(1).collect();
    let numbers: Vec<usize> = (arguments.iter().skip(1)).flat_map(|a| a.parse()).collect();
    let mut tally = Tally::default();
    match (arguments.first().map(String::as_str), numbers.as_slice()) {
        (None, _) => {
            (1..=5).for_each(|top| every(&mut tally, top));
            made(&mut tally);
            random(&mut tally, 100_000, 1, 20);
        }
        (Some("every"), &[top]) if top > 0 => every(&mut tally, top),
        (Some("made"), []) => made(&mut tally),
        (Some("random"), &[count, seed]) => random(&mut tally, count, seed, 20),
        (Some("random"), &[count, seed, most]) if most > 1 => random(&mut tally, count, seed, most),
        _ => {
            eprintln!("differ [every TOP | made | random COUNT SEED [MOST]]");
            return ExitCode::from(2);
        }
    }
    tally.print();
    ExitCode::from((tally.wrong > 0) as u8)
}

fn every(tally: &mut Tally, top: usize) {
    heaps::every(top, |cells| tally.store(cells, &heaps::every_call(cells)));
}

fn made(tally: &mut Tally) {
    for (cells, a, b) in heaps::made() {
        tally.store(&cells, &heaps::pair_calls(a, b));
    }
}

fn random(tally: &mut Tally, count: usize, seed: usize, most: usize) {
    let mut random = Random::new(seed as u64);
    for _ in 0..count {
        let cells = heaps::random_store(&mut random, most);
        tally.store(&cells, &heaps::random_calls(&mut random, &cells));
        if let Some((cells, a, b)) = heaps::random_twins(&mut random, most) {
            tally.store(&cells, &heaps::pair_calls(a, b));
        }
    }
}

/// How many cases of each call came to which finding, by the causes that the input shows.
#[derive(Default)]
struct Tally {
    stores: usize,
    cases: usize,
    wrong: usize,
    counts: BTreeMap<(&'static str, Vec<Cause>), [usize; 5]>,
}

impl Tally {
    fn store(&mut self, cells: &[u64], calls: &[Call]) {
        self.stores += 1;
        for &call in calls {
            self.case(Case { cells, call });
        }
    }

    fn case(&mut self, case: Case) {
        self.cases += 1;
        let subject = SUBJECT.run(case);
        if SUBJECT.name() != Model.name() {
            let model = Model.run(case);
            if subject != model {
                self.report(case, &subject, &model, Model.name());
            }
        }
        let causes = causes(case);
        let finding = self.against_originals(case, &causes, &subject);
        let row = self
            .counts
            .entry((call_name(case.call), causes))
            .or_default();
        row[finding as usize] += 1;
    }

    fn against_originals(&mut self, case: Case, causes: &[Cause], subject: &Outcome) -> Finding {
        let originals = match subject {
            // Nothing to compare with: the originals have no refusals.
            Outcome::Refused(_) => subject.clone(),
            _ => originals_for(case).run(case),
        };
        let finding = judge(case, causes, subject, &originals);
        if finding == Finding::Unexpected {
            self.report(case, subject, &originals, "originals");
        }
        finding
    }

    /// Prints a difference that nothing explains; of many, the first few.
    fn report(&mut self, case: Case, subject: &Outcome, other: &Outcome, name: &str) {
        self.wrong += 1;
        if self.wrong <= 20 {
            println!(
                "DIFFERENCE {} | {}",
                show_cells(case.cells),
                show_call(case.call)
            );
            for (name, outcome) in [(SUBJECT.name(), subject), (name, other)] {
                println!("  {name}: {}", meaning(case, outcome));
                println!("    {}", words(outcome));
            }
        }
    }

    fn print(&self) {
        let (stores, cases, wrong) = (self.stores, self.cases, self.wrong);
        let judges = match SUBJECT.name() {
            "model" => "the originals",
            _ => "the originals and, word for word, the model",
        };
        println!("{} against {judges}", SUBJECT.name());
        println!("{stores} stores, {cases} cases, {wrong} unexplained differences");
        println!(
            "call       agreed  refused  no answer  differed  unexplained  causes in the input"
        );
        for ((call, causes), [agreed, refused, no_answer, differed, wrong]) in &self.counts {
            let names: Vec<String> = causes.iter().map(|c| format!("{c:?}")).collect();
            let counts = format!("{agreed:8} {refused:8} {no_answer:10} {differed:9} {wrong:12}");
            println!("{call:8} {counts}  {}", names.join(" + "));
        }
    }
}

fn call_name(call: Call) -> &'static str {
    match call {
        Call::Plain(..) => "plain",
        Call::Checked(..) => "checked",
        Call::Copy(_) => "copy",
        Call::Cyclic(_) => "cyclic",
    }
}
