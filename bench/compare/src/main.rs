//! Prints how long the proved engine and the same engine in ordinary Rust take for the same work,
//! and how the time grows with the store. An argument picks the lines whose name contains it.
//!
//! Speed is printed, never judged; but the engines must answer alike and leave the same words, or
//! the run fails.

#[cfg(all(test, feature = "archive"))]
mod agree;
#[cfg(feature = "archive")]
mod archive;
mod measure;
mod shapes;
mod workloads;

use std::slice;

use measure::{compare, Engine, Timing, Workload};
use trisculap_reference::calls;

#[cfg(feature = "archive")]
const OTHER: (&str, Engine) = ("archive", archive::perform);
#[cfg(not(feature = "archive"))]
const OTHER: (&str, Engine) = ("reference again", calls::perform);

const ENGINES: [Engine; 2] = [calls::perform, OTHER.1];

fn main() {
    let pick = std::env::args().nth(1).unwrap_or_default();
    let picked = |workload: &Workload| workload.name.contains(&pick);
    if let Err(difference) = print_times(picked).and_then(|()| print_growth(picked)) {
        eprintln!("{difference}");
        std::process::exit(1);
    }
}

fn print_times(picked: impl Fn(&Workload) -> bool) -> Result<(), String> {
    println!("Nanoseconds a pass: median (least .. nine tenths), rounds interleaved.\n");
    println!("{:<44} {:>5}  {:<30} {:<30} {:>5}", "work", "cells", "reference", OTHER.0, "ratio");
    for workload in workloads::all().iter().filter(|workload| picked(workload)) {
        let [ours, theirs] = &compare(slice::from_ref(workload), ENGINES)?[0];
        let (name, cells) = (&workload.name, workload.store.top);
        let ratio = theirs.median / ours.median;
        println!("{name:<44} {cells:>5}  {:<30} {:<30} {ratio:>5.2}", show(ours), show(theirs));
    }
    Ok(())
}

fn show(t: &Timing) -> String {
    let digits = if t.median < 100.0 { 1 } else { 0 };
    format!("{:.digits$} ({:.digits$} .. {:.digits$})", t.median, t.min, t.p90)
}

fn print_growth(picked: impl Fn(&Workload) -> bool) -> Result<(), String> {
    println!("\nGrowth: median nanoseconds, and the exponent since half the size (1 is linear).\n");
    println!(
        "{:<40} {:>5}  {:>10} {:>5}  {:>15} {:>5}  {:>5}",
        "work", "cells", "reference", "exp", OTHER.0, "exp", "ratio"
    );
    for sizes in workloads::growing() {
        if !picked(&sizes[0]) {
            continue;
        }
        let mut half = None;
        for (workload, timings) in sizes.iter().zip(compare(&sizes, ENGINES)?) {
            let medians = timings.map(|timing| timing.median);
            print_size(workload, medians, half);
            half = Some(medians);
        }
    }
    Ok(())
}

fn print_size(workload: &Workload, [ours, theirs]: [f64; 2], half: Option<[f64; 2]>) {
    let exponents = match half {
        Some(half) => [ours / half[0], theirs / half[1]].map(|by| format!("{:.2}", by.log2())),
        None => ["".to_string(), "".to_string()],
    };
    let (name, cells) = (&workload.name, workload.store.cells.len());
    println!(
        "{name:<40} {cells:>5}  {ours:>10.0} {:>5}  {theirs:>15.0} {:>5}  {:>5.2}",
        exponents[0],
        exponents[1],
        theirs / ours
    );
}
