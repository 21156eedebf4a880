//! Cases that the rules decide only when read closely, one test each.

use trisculap_reference::calls::{perform, Call, Store};
use trisculap_reference::cell::{atom, lis, number, str, var};

const A: u64 = atom('a' as u32, 0);
const B: u64 = atom('b' as u32, 0);
const NIL: u64 = atom(1_114_112, 0);
const F2: u64 = atom('f' as u32, 2);

/// f(X, a), then a free variable.
fn small() -> Store {
    Store::holding(&[0, str(2), F2, var(3), A, var(5)], 32)
}

fn refused(store: Store, call: Call, number: u64) {
    let mut after = store.clone();
    assert_eq!(perform(&mut after, &call), Err(number), "{call:?}");
    assert_eq!(after, store, "{call:?} changed a word");
}

fn accepted(mut store: Store, call: Call) -> (u64, Store) {
    let answer = perform(&mut store, &call).unwrap_or_else(|n| panic!("{call:?} refused as {n}"));
    (answer, store)
}

#[test]
fn top_out_of_range_is_1() {
    for top in [0, 33, 4097, usize::MAX] {
        refused(Store { top, ..small() }, Call::Check, 1);
    }
    let mut cells = vec![A; 4097];
    cells[0] = 0;
    refused(Store { top: 4097, cells, ..Store::fresh(8, 0) }, Call::Check, 1);
    refused(Store { cells: vec![], top: 0, ..small() }, Call::Check, 1);
}

#[test]
fn counts_that_do_not_fit_are_2() {
    for count in [33, usize::MAX] {
        refused(Store { trail_count: count, ..small() }, Call::Check, 2);
    }
    // Twice the last two counts wraps around to 0 and 2.
    for count in [9, usize::MAX, usize::MAX / 2 + 1, usize::MAX / 2 + 2] {
        refused(Store { mark_count: count, ..small() }, Call::Check, 2);
        refused(Store { mark_count: count, ..small() }, Call::Mark, 2);
    }
}

#[test]
fn a_spare_odd_mark_word_is_0_and_no_room() {
    let one_mark = |spare| Store { marks: vec![1, 0, spare], mark_count: 1, ..small() };
    accepted(one_mark(0), Call::Check);
    refused(one_mark(1), Call::Check, 2);
    refused(one_mark(0), Call::Mark, 7);
}

#[test]
fn lent_cells_past_the_limit_must_be_0_and_stay_unused() {
    let mut store = Store::holding(&vec![A; 4096], 4200);
    store.cells[0] = 0;
    accepted(store.clone(), Call::Check);
    refused(store.clone(), Call::Append(vec![A]), 7);
    refused(store.clone(), Call::Copy(1), 7);
    store.cells[4199] = 1;
    refused(store, Call::Check, 1);
}

#[test]
fn the_lowest_refusal_is_given() {
    let bad_cells = |s: Store| Store { top: 0, ..s };
    let bad_trail = |s: Store| Store { trail_count: 99, ..s };
    let no_work = |s: Store| Store { work: vec![7; 71], ..s };
    let no_trail = |s: Store| Store { trail: vec![0; 1], ..s };
    let call = || Call::UnifyChecked(9, 9);
    refused(bad_cells(bad_trail(small())), call(), 1);
    refused(bad_trail(no_work(small())), call(), 2);
    refused(no_work(no_trail(small())), call(), 3);
    refused(no_work(no_trail(small())), Call::UnifyChecked(1, 5), 4);
    refused(no_trail(small()), Call::UnifyChecked(1, 5), 5);
    let cyclic = || Store::holding(&[0, lis(1), lis(1)], 3);
    refused(Store { trail: vec![], ..cyclic() }, Call::UnifyChecked(1, 2), 6);
    refused(Store { work: vec![], ..cyclic() }, Call::Copy(1), 4);
    refused(bad_trail(small()), Call::Append(vec![0; 99]), 2);
    refused(small(), Call::Append(vec![0; 99]), 7);
    refused(small(), Call::Append(vec![0; 9]), 9);
}

#[test]
fn refusal_7_of_a_copy_leaves_cells_and_work_alone() {
    let store = Store { cells: small().cells[..9].to_vec(), work: vec![7; 72], ..small() };
    refused(store.clone(), Call::Copy(1), 7);
    // f(X, a) wants 1 + 3 cells; a tenth lent cell makes the room.
    let cells = small().cells[..10].to_vec();
    let (at, after) = accepted(Store { cells, ..store }, Call::Copy(1));
    assert_eq!((at, after.top), (6, 10));
}

#[test]
fn an_empty_append_is_accepted_even_when_full() {
    let full = Store { cells: small().cells[..6].to_vec(), ..small() };
    assert_eq!(accepted(full.clone(), Call::Append(vec![])), (6, full.clone()));
    refused(full, Call::Append(vec![A]), 7);
}

#[test]
fn copy_follow_and_cycle_are_lent_no_trail_and_no_marks() {
    let store = Store { trail_count: 99, mark_count: 99, ..small() };
    accepted(store.clone(), Call::Copy(1));
    accepted(store.clone(), Call::Follow(1));
    accepted(store.clone(), Call::Cyclic(1));
    refused(store, Call::Check, 2);
}

#[test]
fn trail_room_counts_every_unbound_var_reached_or_not() {
    // Cell 5 is not reached from 3 and 4, yet both it and 3 need an entry.
    let with_trail = |len| Store { trail: vec![0; len], ..small() };
    refused(with_trail(1), Call::Unify(3, 4), 5);
    accepted(with_trail(2), Call::Unify(3, 4));
    let mut taken = with_trail(2);
    (taken.trail[0], taken.trail_count) = (4, 1);
    refused(taken, Call::Unify(3, 4), 5);
}

#[test]
fn a_trailed_header_breaks_only_the_rollback() {
    let mut store = small();
    (store.trail[0], store.trail_count) = (2, 1);
    (store.marks[0], store.mark_count) = (6, 1);
    accepted(store.clone(), Call::Check);
    refused(store.clone(), Call::Rollback(1), 10);
    // Nothing names a trailed atom of arity 0: it may become a variable.
    store.trail[0] = 4;
    let (_, after) = accepted(store.clone(), Call::Rollback(1));
    assert_eq!(after.cells[..6], [0, str(2), F2, var(3), var(4), var(5)]);
    // A header that nothing names may, too; its arguments stay as cells.
    (store.trail[0], store.cells[1]) = (2, A);
    let (_, after) = accepted(store, Call::Rollback(1));
    assert_eq!(after.cells[..6], [0, A, var(2), var(3), A, var(5)]);
}

#[test]
fn a_mark_at_0_or_inside_a_run_breaks_only_the_rollback() {
    for top in [0, 2, 3, 4] {
        let mut store = small();
        (store.marks[0], store.mark_count) = (top, 1);
        accepted(store.clone(), Call::Check);
        refused(store, Call::Rollback(1), 10);
    }
}

#[test]
fn a_rollback_that_would_keep_a_trail_entry_past_top_is_10() {
    let mut store = small();
    (store.trail[0], store.trail_count) = (4, 1);
    (store.marks[0], store.marks[1], store.mark_count) = (1, 1, 1);
    refused(store.clone(), Call::Rollback(1), 10);
    store.marks[1] = 0;
    let (_, after) = accepted(store, Call::Rollback(1));
    assert_eq!((after.top, after.trail_count), (1, 0));
    assert!(after.cells.iter().chain(&after.trail).all(|&word| word == 0));
}

#[test]
fn rollback_and_cut_take_only_marks_that_are_there() {
    let marked = || accepted(small(), Call::Mark).1;
    refused(marked(), Call::Rollback(0), 8);
    refused(marked(), Call::Rollback(2), 8);
    refused(marked(), Call::Cut(2), 8);
    assert_eq!(accepted(marked(), Call::Cut(1)), (0, marked()));
    assert_eq!(accepted(marked(), Call::Cut(0)), (0, small()));
}

#[test]
fn arguments_atoms_and_bound_vars_are_roots_and_headers_are_not() {
    let store = Store::holding(&[0, str(2), F2, var(4), A], 32);
    for root in [1, 3, 4] {
        accepted(store.clone(), Call::Cyclic(root));
    }
    for root in [0, 2, 5, usize::MAX] {
        refused(store.clone(), Call::Cyclic(root), 3);
        refused(store.clone(), Call::Follow(root), 3);
        refused(store.clone(), Call::Unify(1, root), 3);
        refused(store.clone(), Call::Copy(root), 3);
    }
}

#[test]
fn pairs_are_followed_when_taken_from_the_list() {
    // f(X, X) against f(a, b): the second pair sees the first binding.
    let words = [0, str(2), F2, var(3), var(3), str(6), F2, A, B];
    let (answer, after) = accepted(Store::holding(&words, 16), Call::Unify(1, 5));
    assert_eq!((answer, &after), (0, &Store::holding(&words, 16)));
}

#[test]
fn a_variable_gets_the_word_of_an_arity_0_structure() {
    let (answer, after) = accepted(Store::holding(&[0, str(2), A, var(3)], 8), Call::Unify(1, 3));
    assert_eq!((answer, after.cells[3]), (1, str(2)));
}

#[test]
fn names_above_nil_are_ordinary_atoms() {
    let high = atom(u32::MAX, 0);
    let store = Store::holding(&[0, high, str(3), high, NIL], 8);
    assert_eq!(accepted(store.clone(), Call::Unify(1, 2)).0, 1);
    assert_eq!(accepted(store, Call::Unify(1, 4)).0, 0);
}

#[test]
fn an_atom_cell_may_be_copied_as_a_structure_and_in_a_pair() {
    let words = [0, lis(2), lis(4), str(4), A, NIL];
    let (at, after) = accepted(Store::holding(&words, 16), Call::Copy(1));
    assert_eq!((at, after.top), (6, 12));
    assert_eq!(after.cells[6..12], [lis(7), lis(9), str(11), A, NIL, A]);
}

#[test]
fn numbers_and_atoms_do_not_mix() {
    let seven = number(7).unwrap();
    let store = Store::holding(&[0, seven, atom(7, 0), seven, number(8).unwrap()], 8);
    assert_eq!(accepted(store.clone(), Call::Unify(1, 2)).0, 0);
    assert_eq!(accepted(store.clone(), Call::Unify(1, 3)).0, 1);
    assert_eq!(accepted(store, Call::Unify(1, 4)).0, 0);
}

#[test]
fn work_words_past_twelve_a_cell_are_not_touched() {
    let dirty = || Store { work: vec![7; 80], ..small() };
    let calls = [Call::Unify(3, 4), Call::UnifyChecked(1, 4), Call::Copy(1)];
    for (call, answer) in calls.into_iter().zip([1, 0, 6]) {
        let (given, after) = accepted(dirty(), call);
        assert_eq!(given, answer);
        assert_eq!(after.work[..72], [0; 72]);
        assert_eq!(after.work[72..], [7; 8]);
    }
}

/// Copies the root of a store with these words and answers the new cells.
fn copied(words: &[u64], root: usize) -> Vec<u64> {
    let (at, after) = accepted(Store::holding(words, 32), Call::Copy(root));
    assert_eq!(at as usize, words.len());
    assert_eq!(after.cells[..words.len()], *words);
    after.cells[words.len()..after.top].to_vec()
}

#[test]
fn overlapping_pairs_are_each_a_pair() {
    let new = copied(&[0, lis(2), lis(3), A, B], 1);
    assert_eq!(new, [lis(6), lis(8), A, A, B]);
}

#[test]
fn a_pair_may_lie_among_the_arguments_of_a_structure() {
    let new = copied(&[0, lis(2), lis(5), str(4), F2, A, var(6)], 1);
    assert_eq!(new, [lis(8), lis(10), str(12), A, var(11), F2, A, var(11)]);
}

#[test]
fn an_atom_cell_is_copied_as_a_structure_and_as_a_cell() {
    let new = copied(&[0, str(2), F2, str(5), var(5), A], 1);
    assert_eq!(new, [str(7), F2, str(10), A, A]);
    assert_eq!(copied(&[0, lis(2), str(3), A], 1), [lis(5), str(7), A, A]);
    let new = copied(&[0, str(4), lis(3), A, A, lis(1)], 5);
    assert_eq!(new, [lis(7), str(9), lis(10), A, A, A]);
}

#[test]
fn a_dot_structure_and_a_pair_are_compared_argument_by_argument() {
    let words = [0, str(2), atom(46, 2), A, B, lis(6), NIL, A, B];
    for (a, b) in [(1, 5), (5, 1)] {
        assert_eq!(accepted(Store::holding(&words, 16), Call::Unify(a, b)).0, 0);
    }
}

#[test]
fn a_store_may_be_lent_no_trail_no_marks_and_no_free_cells() {
    let bare = |cells: Vec<u64>| {
        let top = cells.len();
        Store { cells, top, ..Store::fresh(0, 0) }
    };
    accepted(bare(vec![0, str(2), atom('g' as u32, 1), var(3)]), Call::Check);
    refused(bare(vec![]), Call::Check, 1);
}

#[test]
fn a_pair_is_not_finished_before_its_first_cell_is_walked() {
    let store = Store::holding(&[0, lis(2), lis(4), A, lis(2), A], 16);
    assert_eq!(accepted(store, Call::Cyclic(1)).0, 1);
}
