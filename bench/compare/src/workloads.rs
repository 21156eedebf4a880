//! What is measured: workloads on nearly full and on small stores, and the shapes that are
//! measured at every size.

use trisculap_reference::calls::{Call, Store};
use trisculap_reference::cell::var;
use trisculap_reference::LIMIT;

use crate::measure::Workload;
use crate::shapes::*;

pub type Shape = fn(usize) -> Vec<u64>;

const PLAIN: Call = Call::Unify(ROOT, OTHER_ROOT);
const CHECKED: Call = Call::UnifyChecked(ROOT, OTHER_ROOT);
const COPY: Call = Call::Copy(ROOT);
const CYCLIC: Call = Call::Cyclic(ROOT);
const CHECK: Call = Call::Check;
const FOLLOW: Call = Call::Follow(ROOT);

/// Two lists of 1,000 elements take this many cells, one such list about half as many.
const TWO_LISTS: usize = 4003;
const ONE_LIST: usize = 2003;

/// A workload on a shape of up to `cells` cells.
fn workload(name: &str, shape: Shape, cells: usize, lent: usize, calls: &[Call]) -> Workload {
    let store = Store::holding(&shape(cells), lent);
    Workload { name: name.to_string(), store, calls: calls.to_vec() }
}

pub fn all() -> Vec<Workload> {
    let groups = [unifications(), copies_and_cycles(), store_calls(), small_stores()];
    groups.into_iter().flatten().collect()
}

fn unifications() -> Vec<Workload> {
    let lists = |name, shape: Shape, call| workload(name, shape, TWO_LISTS, LIMIT, &[call]);
    let full = |name, shape: Shape, call| workload(name, shape, LIMIT, LIMIT, &[call]);
    let undone = [Call::Mark, CHECKED, Call::Rollback(1), Call::Cut(0)];
    let undone_name = "mark, checked as the first, rollback, cut";
    vec![
        lists("checked: 1,000 variables, 1,000 constants", variables_and_constants, CHECKED),
        lists("checked: the same, with a clash at the end", clash_at_the_end, CHECKED),
        lists("checked: 1,000 constants, the same again", ground_and_ground, CHECKED),
        lists("checked: 400 times f(X,b), 400 times f(a,Y)", lists_of_structures, CHECKED),
        lists("plain: 1,000 variables, 1,000 constants", variables_and_constants, PLAIN),
        full("plain: rings of 1,022 and 1,023 elements", coprime_rings, PLAIN),
        full("checked: doubling terms, 682 levels", two_doubling_terms, CHECKED),
        full("checked: doubling by binding, 584 levels", doubling_by_binding, CHECKED),
        full("plain: ring of 4,094 overlapping pairs", overlapping_pairs, PLAIN),
        full("checked: two chains of 2,046 variables", two_chains, CHECKED),
        full("checked: 682 pairs over a chain of 1,364", pairs_over_one_chain, CHECKED),
        workload(undone_name, variables_and_constants, TWO_LISTS, LIMIT, &undone),
    ]
}

fn copies_and_cycles() -> Vec<Workload> {
    let half = |name, shape: Shape| workload(name, shape, ONE_LIST, LIMIT, &[COPY]);
    // There is room for one of the two terms and not for both.
    let crowded = |name, shape: Shape| workload(name, shape, 2 * LIMIT / 3, LIMIT, &[COPY]);
    let full = |name, shape: Shape| workload(name, shape, LIMIT, LIMIT, &[CYCLIC]);
    vec![
        half("copy: list of 1,000 elements", list),
        half("copy: deep shared term, 666 levels", deep_and_shared),
        half("copy: wide shared term, 255 arguments", wide_and_shared),
        crowded("copy: one of two lists, little room left", variables_and_constants),
        full("cyclic: list of 2,046 elements", list),
        full("cyclic: deep shared term, 1,364 levels", deep_and_shared),
        full("cyclic: wide shared term, 255 arguments", wide_and_shared),
    ]
}

fn store_calls() -> Vec<Workload> {
    let full = |name, shape: Shape, call| workload(name, shape, LIMIT, LIMIT, &[call]);
    let append = |name, len: usize| {
        let store = list(3 * LIMIT / 4);
        let words = words_to_append(store.len(), len);
        workload(name, list, 3 * LIMIT / 4, LIMIT, &[Call::Append(words)])
    };
    vec![
        full("check: no chains", list, CHECK),
        full("check: one falling chain", falling_chain, CHECK),
        full("check: one rising chain", rising_chain, CHECK),
        full("check: two chains, one up, one down", chain_up_and_chain_down, CHECK),
        full("check: one chain, up and down in turns", swinging_chain, CHECK),
        full("check: one chain in random order", shuffled_chain, CHECK),
        full("check: a comb of chains", comb_of_chains, CHECK),
        full("check: links of one step, up and down", links_both_ways, CHECK),
        full("follow: no chains", list, FOLLOW),
        full("follow: one chain, up and down in turns", swinging_chain, FOLLOW),
        rollback_over("rollback: a comb of chains", comb_of_chains, LIMIT),
        append("append: 1 word", 1),
        append("append: 1,000 words", 1000),
        append_behind("append: 1,024 links behind a comb of chains", comb_of_chains, LIMIT),
    ]
}

/// A rollback that unbinds every bound Var of a store.
fn rollback_over(name: &str, shape: Shape, lent: usize) -> Workload {
    let mut workload = workload(name, shape, lent, lent, &[Call::Rollback(1)]);
    let store = &mut workload.store;
    for at in (1..store.top).filter(|&at| store.cells[at] != var(at)) {
        store.trail[store.trail_count] = at as u64;
        store.trail_count += 1;
    }
    store.marks[0] = store.top as u64;
    store.mark_count = 1;
    workload
}

/// An append of Vars to a store that takes three quarters of the lent cells.
fn append_behind(name: &str, shape: Shape, lent: usize) -> Workload {
    let used = lent - lent / 4;
    let words = links_to_append(used, lent / 4);
    workload(name, shape, used, lent, &[Call::Append(words)])
}

/// Here the cost of a call itself shows, and that of lending more than is used.
fn small_stores() -> Vec<Workload> {
    let small = |name, call| workload(name, two_structures, 9, 16, &[call]);
    vec![
        small("checked: f(X,a), f(7,Y)", CHECKED),
        workload("checked: the same in 4,096 lent cells", two_structures, 9, LIMIT, &[CHECKED]),
        small("plain: f(X,a), f(7,Y)", PLAIN),
        small("copy: f(X,a)", COPY),
        small("cyclic: f(X,a)", CYCLIC),
        small("check: f(X,a), f(7,Y)", CHECK),
        workload("check: 8 Vars, up and down in turns", swinging_chain, 9, 16, &[CHECK]),
        small("follow: f(X,a)", FOLLOW),
        small("number", Call::Number(-1)),
    ]
}

/// A workload at every size of the lent cells, as powers of two up to the limit.
fn at_every_size(make: impl Fn(usize) -> Workload) -> Vec<Workload> {
    (6..=12).map(|power| make(1 << power)).collect()
}

/// Shapes at every size. A copy gets half of the lent cells for the term.
pub fn growing() -> Vec<Vec<Workload>> {
    let sizes = |name, shape: Shape, call: Call| {
        let share = if call == COPY { 2 } else { 1 };
        let calls = [call];
        at_every_size(|lent| workload(name, shape, lent / share, lent, &calls))
    };
    vec![
        sizes("checked: lists, variables and constants", variables_and_constants, CHECKED),
        sizes("checked: lists of structures", lists_of_structures, CHECKED),
        sizes("plain: rings of coprime periods", coprime_rings, PLAIN),
        sizes("checked: doubling terms", two_doubling_terms, CHECKED),
        sizes("checked: doubling by binding", doubling_by_binding, CHECKED),
        sizes("plain: ring of overlapping pairs", overlapping_pairs, PLAIN),
        sizes("checked: two chains of variables", two_chains, CHECKED),
        sizes("checked: pairs over one chain", pairs_over_one_chain, CHECKED),
        sizes("copy: list", list, COPY),
        sizes("copy: deep shared term", deep_and_shared, COPY),
        sizes("cyclic: list", list, CYCLIC),
        sizes("cyclic: deep shared term", deep_and_shared, CYCLIC),
        sizes("cyclic: wide shared term", wide_and_shared, CYCLIC),
        sizes("check: no chains", list, CHECK),
        sizes("check: one falling chain", falling_chain, CHECK),
        sizes("check: one rising chain", rising_chain, CHECK),
        sizes("check: two chains, one up, one down", chain_up_and_chain_down, CHECK),
        sizes("check: one chain, up and down in turns", swinging_chain, CHECK),
        sizes("check: a comb of chains", comb_of_chains, CHECK),
        sizes("check: links of one step, up and down", links_both_ways, CHECK),
        at_every_size(|lent| rollback_over("rollback: a comb of chains", comb_of_chains, lent)),
        at_every_size(|lent| append_behind("append: links behind a comb", comb_of_chains, lent)),
    ]
}
