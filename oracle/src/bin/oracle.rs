//! Runs cases through the originals and the model and prints what each makes of them.
//!
//! oracle [--budget N] CELLS CALL ROOT..    one case
//! oracle [--budget N]                      a case a line from standard input: CELLS | CALL ROOT..
//!
//! CELLS as in `0, Str 2, g/1, Var 3`; CALL is plain, checked, copy or cyclic.

use oracle::case::{Case, Engine};
use oracle::model::Model;
use oracle::rust::Originals;
use oracle::{compare, expect, notation, store};
use std::process::ExitCode;

fn main() -> ExitCode {
    let mut arguments: Vec<String> = std::env::args().skip(1).collect();
    let mut budget = 1_000_000;
    if arguments.len() > 1 && arguments[0] == "--budget" {
        budget = arguments[1].parse().unwrap_or(budget);
        arguments.drain(..2);
    }
    let ran = match arguments.split_first() {
        Some((cells, call)) => run_case(cells, &call.join(" "), budget),
        None => run_lines(budget),
    };
    match ran {
        Ok(()) => ExitCode::SUCCESS,
        Err(problem) => {
            eprintln!("{problem}");
            ExitCode::from(2)
        }
    }
}

fn run_lines(budget: u64) -> Result<(), String> {
    for line in std::io::stdin().lines() {
        let line = line.map_err(|e| e.to_string())?;
        let (cells, call) = line
            .split_once('|')
            .ok_or("a line wants CELLS | CALL ROOT..")?;
        println!("{}", line.trim());
        run_case(cells, call, budget)?;
    }
    Ok(())
}

fn run_case(cells: &str, call: &str, budget: u64) -> Result<(), String> {
    let cells = notation::parse_cells(cells)?;
    let words: Vec<&str> = call.split_whitespace().collect();
    let call = notation::parse_call(&words).ok_or(format!("not a call: {call}"))?;
    if !store::well_formed(&cells) {
        return Err("cells not well formed".into());
    }
    let usable = store::root_cells(&cells);
    if call.roots().iter().any(|r| !usable.contains(r)) {
        return Err("a root is 0, at or past the end, or a header".into());
    }
    let case = Case {
        cells: &cells,
        call,
    };
    show(case, &Originals { budget });
    show(case, &Model);
    println!("  expected causes: {:?}", expect::causes(case));
    Ok(())
}

fn show(case: Case, engine: &dyn Engine) {
    let outcome = engine.run(case);
    println!("  {}: {}", engine.name(), compare::meaning(case, &outcome));
    println!("    {}", compare::words(&outcome));
}
