//! The bench heaps that every engine with these rules must answer, P1 to P10 and the others.

use trisculap_reference::calls::{perform, Call, Store};
use trisculap_reference::cell::{atom, lis, number, str, var};

const A: u64 = atom('a' as u32, 0);
const NIL: u64 = atom(1_114_112, 0);

fn f(arity: u8) -> u64 {
    atom('f' as u32, arity)
}

fn fixnum(n: i64) -> u64 {
    number(n).unwrap()
}

/// Heap B: g(X) beside its own variable.
fn heap_b() -> Store {
    Store::holding(&[0, str(2), atom('g' as u32, 1), var(3)], 16)
}

fn trail(store: &Store) -> &[u64] {
    &store.trail[..store.trail_count]
}

#[test]
fn p1_to_p3_plain_closes_a_cycle_that_the_later_calls_see() {
    let mut store = heap_b();
    assert_eq!(perform(&mut store, &Call::Unify(1, 3)), Ok(1));
    assert_eq!(store.cells[3], str(2));
    assert_eq!(trail(&store), [3]);
    assert_eq!(perform(&mut store, &Call::Cyclic(1)), Ok(1));
    assert_eq!(perform(&mut store, &Call::UnifyChecked(1, 3)), Err(6));
}

#[test]
fn p4_checked_finds_no_unifier() {
    let mut store = heap_b();
    assert_eq!(perform(&mut store, &Call::UnifyChecked(1, 3)), Ok(0));
    assert_eq!(store, heap_b());
}

#[test]
fn p5_a_copy_has_a_variable_of_its_own() {
    let mut store = heap_b();
    assert_eq!(perform(&mut store, &Call::Copy(1)), Ok(4));
    assert_eq!(store.top, 7);
    assert_eq!(store.cells[4..7], [str(5), atom('g' as u32, 1), var(6)]);
    assert_eq!(store.cells[..4], heap_b().cells[..4]);
}

#[test]
fn p6_the_higher_variable_names_the_lower() {
    for (a, b) in [(1, 2), (2, 1)] {
        let mut store = Store::holding(&[0, var(1), var(2)], 8);
        assert_eq!(perform(&mut store, &Call::Unify(a, b)), Ok(1));
        assert_eq!(store.cells[1..3], [var(1), var(1)]);
        assert_eq!(trail(&store), [2]);
    }
}

#[test]
fn p7_arguments_bind_from_the_first_on() {
    let words = [0, str(2), f(2), var(3), A, str(6), f(2), fixnum(7), var(8)];
    let mut store = Store::holding(&words, 16);
    assert_eq!(perform(&mut store, &Call::UnifyChecked(1, 5)), Ok(1));
    assert_eq!((store.cells[3], store.cells[8]), (fixnum(7), A));
    assert_eq!(trail(&store), [3, 8]);
}

#[test]
fn p8_a_dot_structure_is_a_list() {
    let words = [0, str(2), atom(46, 2), A, NIL, lis(6), A, NIL];
    for (a, b) in [(1, 5), (5, 1)] {
        let mut store = Store::holding(&words, 16);
        assert_eq!(perform(&mut store, &Call::Unify(a, b)), Ok(1));
        assert_eq!(store, Store::holding(&words, 16));
    }
}

#[test]
fn p9_a_structure_of_arity_0_is_its_atom() {
    let words = [0, str(2), A, A];
    for (a, b) in [(1, 3), (3, 1), (1, 2)] {
        let mut store = Store::holding(&words, 8);
        assert_eq!(perform(&mut store, &Call::UnifyChecked(a, b)), Ok(1));
        assert_eq!(store, Store::holding(&words, 8));
    }
}

#[test]
fn p10_a_shared_pair_is_copied_once() {
    let words = [0, str(2), atom('h' as u32, 2), lis(5), lis(5), A, NIL];
    let mut store = Store::holding(&words, 16);
    assert_eq!(perform(&mut store, &Call::Copy(1)), Ok(7));
    assert_eq!(store.top, 13);
    let new = [str(8), atom('h' as u32, 2), lis(11), lis(11), A, NIL];
    assert_eq!(store.cells[7..13], new);
}

#[test]
fn a_ring_of_two_vars_is_refused() {
    let mut store = Store::holding(&[0, var(2), var(1)], 8);
    assert_eq!(perform(&mut store, &Call::Check), Err(1));
}

#[test]
fn a_header_needs_all_its_arguments() {
    let mut short = Store::holding(&[0, str(2), f(2), A], 8);
    assert_eq!(perform(&mut short, &Call::Check), Err(1));
    let mut whole = Store::holding(&[0, str(2), f(2), A, A], 8);
    assert_eq!(perform(&mut whole, &Call::Check), Ok(0));
}

#[test]
fn cell_0_is_no_root() {
    let calls = [
        Call::Follow(0),
        Call::Unify(0, 1),
        Call::UnifyChecked(1, 0),
        Call::Copy(0),
        Call::Cyclic(0),
    ];
    for call in calls {
        assert_eq!(perform(&mut heap_b(), &call), Err(3), "{call:?}");
    }
}

#[test]
fn one_root_twice_binds_nothing() {
    for root in [1, 3] {
        let mut store = heap_b();
        assert_eq!(perform(&mut store, &Call::Unify(root, root)), Ok(1));
        assert_eq!(store, heap_b());
    }
}

#[test]
fn a_store_grows_to_4096_cells_and_no_further() {
    for lent in [4096, 5000] {
        let mut store = Store::fresh(lent, 0);
        assert_eq!(perform(&mut store, &Call::Append(vec![A; 4096])), Err(7));
        assert_eq!(perform(&mut store, &Call::Append(vec![A; 4095])), Ok(1));
        assert_eq!(store.top, 4096);
        assert_eq!(perform(&mut store, &Call::Append(vec![A])), Err(7));
        assert_eq!(perform(&mut store, &Call::Check), Ok(0));
    }
}

#[test]
fn numbers_end_before_2_to_the_55() {
    assert_eq!(number((1 << 55) - 1), Ok(0x147F_FFFF_FFFF_FFFF));
    assert_eq!(number(-(1 << 55)), Ok(0x1480_0000_0000_0000));
    assert_eq!(number(1 << 55), Err(11));
    assert_eq!(number(-(1 << 55) - 1), Err(11));
}
