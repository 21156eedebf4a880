//! Calls the proved engine with hostile input: random words, flipped bits, wrong counts, lengths
//! and roots, in buffers between guard pages. A refusal must change nothing, an answer must leave
//! a store that the check accepts, both must be what the engine in ordinary Rust gives, and
//! histories must replay.
//!
//!   trisculap-hostile [ROUNDS [SEED]]

mod guard;
mod history;
mod lent;
#[path = "../../bench/reference/tests/property/random.rs"]
mod random;

use std::ffi::c_uint;

use guard::Side;
use lent::Lender;
use random::Random;
use trisculap_reference::calls::Store;

/// So many stores meet an answer and each refusal.
const ENOUGH: u64 = 10_000;

extern "C" {
    fn alarm(seconds: c_uint) -> c_uint;
}

fn main() {
    let mut arguments = std::env::args().skip(1).map(|word| word.parse().expect("a number"));
    let rounds = arguments.next().unwrap_or(2 * ENOUGH);
    let seed = arguments.next().unwrap_or(1);
    // Every call ends. Should one not, a signal ends the program, and that is a failure too.
    // Safety: it takes a number and touches no memory.
    unsafe { alarm(60 + (rounds / 100) as c_uint) };
    let mut r = Random::seeded(seed);
    let mut lender = Lender::new();
    let mut tally = [0u64; 12];
    for round in 0..rounds {
        let broken = on_one_store(&mut r, &mut lender, &mut tally)
            .and_then(|()| history::replays(&mut r, &mut lender));
        if let Err(what) = broken {
            println!("round {round} of seed {seed}: {what}");
            std::process::exit(1);
        }
    }
    if let Some(number) = tally.iter().position(|times| *times == 0).filter(|_| rounds >= ENOUGH) {
        println!("seed {seed}: {rounds} stores, and never {number}");
        std::process::exit(1);
    }
    println!("seed {seed}: {rounds} stores and {rounds} histories");
    println!("answers {}, refusals 1 to 11: {:?}", tally[0], &tally[1..]);
}

/// Every kind of call on one store.
fn on_one_store(r: &mut Random, lender: &mut Lender, tally: &mut [u64; 12]) -> Result<(), String> {
    let store = hostile_store(r);
    let side = if r.one_in(2) { Side::Low } else { Side::High };
    for call in random::calls(r, &store) {
        let after = lender
            .judged(&store, &call, side)
            .map_err(|what| format!("{what}: {call:x?} on {store:x?}"))?;
        tally[after.returned as usize] += 1;
    }
    Ok(())
}

/// A store whole or damaged, now and then a large one or one of chains, or words without any sense.
fn hostile_store(r: &mut Random) -> Store {
    if r.one_in(10) {
        return rubbish(r);
    }
    let most = if r.one_in(20) { 300 } else { 14 };
    let whole = if r.one_in(8) { random::chains(r, most) } else { random::store(r, most) };
    random::perhaps_damaged(r, whole)
}

fn rubbish(r: &mut Random) -> Store {
    let words = |r: &mut Random| -> Vec<u64> {
        let len = r.below(20);
        let shift = r.below(64);
        (0..len).map(|_| r.word() >> shift).collect()
    };
    let (cells, trail, marks, work) = (words(r), words(r), words(r), words(r));
    let count = |r: &mut Random| r.word() as usize >> r.below(64);
    Store { cells, top: count(r), trail, trail_count: count(r), marks, mark_count: count(r), work }
}
