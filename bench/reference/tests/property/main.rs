//! The engine against the naive definitions: the same answer and the same words afterwards, on
//! random stores, on damaged ones and on every small heap over a small alphabet.

mod naive;
mod random;
mod replay;

use std::collections::BTreeMap;

use random::Random;
use trisculap_reference::calls::{perform, Call, Store};
use trisculap_reference::cell::{atom, lis, number, str, var};
use trisculap_reference::check;

/// Makes a call both ways; a refusal or a difference shows every word.
fn agree(before: &Store, call: &Call) -> Result<u64, u64> {
    let (expected, expected_store) = naive::perform(before, call);
    let mut store = before.clone();
    let answer = perform(&mut store, call);
    assert_eq!(answer, expected, "{call:?} on {before:x?}");
    assert_eq!(store, expected_store, "{call:?} on {before:x?}");
    if answer.is_err() {
        assert_eq!(&store, before, "{call:?} refused");
    }
    answer
}

/// How often each call gave each outcome, so that no case goes untried.
#[derive(Default)]
struct Tally(BTreeMap<(&'static str, String), usize>);

impl Tally {
    fn count(&mut self, call: &Call, answer: Result<u64, u64>) {
        let outcome = match (call, answer) {
            (_, Err(refusal)) => refusal.to_string(),
            (Call::Unify(..) | Call::UnifyChecked(..) | Call::Cyclic(_), Ok(0)) => "no".into(),
            (_, Ok(_)) => "yes".into(),
        };
        *self.0.entry((name(call), outcome)).or_default() += 1;
    }

    /// Exactly these outcomes came up, each often.
    fn expect(&self, call: &str, outcomes: &[&str]) {
        let seen = self.0.iter().filter(|((name, _), _)| *name == call);
        let often: Vec<&str> =
            seen.clone().filter(|(_, &n)| n > 100).map(|((_, o), _)| &**o).collect();
        let all: Vec<&str> = seen.map(|((_, outcome), _)| &**outcome).collect();
        assert_eq!(all, outcomes, "{call}");
        assert_eq!(often, outcomes, "{call}, often: {:?}", self.0);
    }
}

fn name(call: &Call) -> &'static str {
    match call {
        Call::Check => "check",
        Call::Number(_) => "number",
        Call::Follow(_) => "follow",
        Call::Append(_) => "append",
        Call::Mark => "mark",
        Call::Rollback(_) => "rollback",
        Call::Cut(_) => "cut",
        Call::Unify(..) => "unify",
        Call::UnifyChecked(..) => "unify_checked",
        Call::Copy(_) => "copy",
        Call::Cyclic(_) => "cyclic",
    }
}

/// Tries every call on random stores of up to `most` cells.
fn try_random_stores(rounds: usize, most: usize, tally: &mut Tally) {
    let mut r = Random::seeded(most as u64);
    for _ in 0..rounds {
        let whole = random::store(&mut r, most);
        assert_eq!(agree(&whole, &Call::Check), Ok(0), "well formed by construction");
        let store = random::perhaps_damaged(&mut r, whole);
        for call in random::calls(&mut r, &store) {
            tally.count(&call, agree(&store, &call));
        }
    }
}

#[test]
fn random_stores_give_the_naive_outcomes() {
    let mut tally = Tally::default();
    try_random_stores(300_000, 14, &mut tally);
    try_random_stores(5_000, 40, &mut tally);
    tally.expect("check", &["1", "2", "yes"]);
    tally.expect("number", &["11", "yes"]);
    tally.expect("follow", &["1", "3", "yes"]);
    tally.expect("append", &["1", "2", "7", "9", "yes"]);
    tally.expect("mark", &["1", "2", "7", "yes"]);
    tally.expect("rollback", &["1", "10", "2", "8", "yes"]);
    tally.expect("cut", &["1", "2", "8", "yes"]);
    tally.expect("unify", &["1", "2", "3", "4", "5", "no", "yes"]);
    tally.expect("unify_checked", &["1", "2", "3", "4", "5", "6", "no", "yes"]);
    tally.expect("copy", &["1", "3", "4", "7", "yes"]);
    tally.expect("cyclic", &["1", "3", "no", "yes"]);
}

#[test]
fn chains_and_rings_give_the_naive_outcomes() {
    let mut r = Random::seeded(5);
    let mut tally = Tally::default();
    for round in 0..20_000 {
        let store = random::chains(&mut r, if round % 10 == 0 { 300 } else { 12 });
        for call in random::calls(&mut r, &store) {
            tally.count(&call, agree(&store, &call));
        }
    }
    tally.expect("check", &["1", "yes"]);
    tally.expect("append", &["1", "7", "9", "yes"]);
}

/// Words with which a cell of a small heap may be filled.
fn alphabet(top: usize) -> Vec<u64> {
    let cells = 1..top;
    let mut words = vec![atom(97, 0), atom(103, 1), atom(46, 2), number(7).unwrap()];
    words.extend(cells.clone().map(var));
    words.extend(cells.clone().map(str));
    words.extend(cells.map(lis));
    words
}

fn agree_at_every_root(store: &Store) {
    for a in 1..store.top {
        agree(store, &Call::Follow(a)).ok();
        agree(store, &Call::Copy(a)).ok();
        agree(store, &Call::Cyclic(a)).ok();
        for b in 1..store.top {
            agree(store, &Call::Unify(a, b)).ok();
            agree(store, &Call::UnifyChecked(a, b)).ok();
        }
    }
}

#[test]
fn every_small_heap_gives_the_naive_outcomes() {
    let top = 5;
    let words = alphabet(top);
    let mut well_formed = 0;
    for heap in 0..words.len().pow(top as u32 - 1) {
        let mut used = vec![0];
        let mut digits = heap;
        for _ in 1..top {
            used.push(words[digits % words.len()]);
            digits /= words.len();
        }
        let store = Store::holding(&used, 20);
        let s = &store;
        if check(&s.cells, s.top, &s.trail, 0, &s.marks, 0).is_ok() {
            agree_at_every_root(s);
            well_formed += 1;
        } else {
            assert_eq!(agree(s, &Call::Check), Err(1));
        }
    }
    assert!(well_formed > 5_000, "{well_formed} heaps were well formed");
}
