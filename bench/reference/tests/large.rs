//! Stores at the limit that are endless or quadratic work for a careless engine. Each call must
//! give the right answer; that it gives it at once is for whoever waits.

use trisculap_reference::calls::{perform, Call, Store};
use trisculap_reference::cell::{atom, lis, str, var};

const A: u64 = atom('a' as u32, 0);
const F2: u64 = atom('f' as u32, 2);
const LIMIT: usize = 4096;

fn answer(words: &[u64], call: Call) -> (Result<u64, u64>, Store) {
    let mut store = Store::holding(words, LIMIT);
    (perform(&mut store, &call), store)
}

/// f(T1, T1) where T1 is f(T2, T2) and so on, from cell `at` on; the innermost argument is `end`.
fn doubling(words: &mut Vec<u64>, levels: usize, end: u64) -> u64 {
    let first = words.len();
    for level in 1..=levels {
        let next = if level < levels { str(words.len() + 3) } else { end };
        words.extend([F2, next, next]);
    }
    str(first)
}

#[test]
fn a_shared_term_is_walked_and_copied_once() {
    let mut words = vec![0, A];
    words[1] = doubling(&mut words, 600, A);
    assert_eq!(answer(&words, Call::Cyclic(1)).0, Ok(0));
    let (copied, store) = answer(&words, Call::Copy(1));
    assert_eq!((copied, store.top), (Ok(1802), 1802 + 1801));
}

#[test]
fn two_shared_terms_are_unified_once() {
    let mut words = vec![0, A, A, var(3)];
    words[1] = doubling(&mut words, 600, var(3));
    words[2] = doubling(&mut words, 600, A);
    for call in [Call::Unify(1, 2), Call::UnifyChecked(1, 2)] {
        let (yes, store) = answer(&words, call);
        assert_eq!((yes, store.trail_count, store.cells[3]), (Ok(1), 1, A));
    }
    // An atom where the other term goes deeper.
    words[2] = doubling(&mut words, 100, A);
    assert_eq!(answer(&words, Call::UnifyChecked(1, 2)).0, Ok(0));
}

#[test]
fn endless_lists_of_coprime_periods_unify() {
    let mut words = vec![0, A, A];
    for (root, period) in [(1, 1021), (2, 1022)] {
        let first = words.len();
        words[root] = lis(first);
        words.extend((0..period).flat_map(|i| [A, lis(first + 2 * ((i + 1) % period))]));
    }
    assert_eq!(answer(&words, Call::Unify(1, 2)).0, Ok(1));
    assert_eq!(answer(&words, Call::UnifyChecked(1, 2)).0, Err(6));
    words[2043] = atom('b' as u32, 0);
    assert_eq!(answer(&words, Call::Unify(1, 2)).0, Ok(0));
}

#[test]
fn a_ring_of_overlapping_pairs_unifies() {
    let mut words: Vec<u64> = (0..LIMIT).map(|at| lis(at + 1)).collect();
    words[0] = 0;
    words[LIMIT - 2..].fill(lis(1));
    assert_eq!(answer(&words, Call::Unify(1, 2)).0, Ok(1));
    assert_eq!(answer(&words, Call::Cyclic(1)).0, Ok(1));
}

#[test]
fn many_arguments_over_one_long_chain_unify_and_copy() {
    let chain = 3 + 2 * 256;
    let mut words = vec![0, str(3), str(3 + 256)];
    words.extend([atom('w' as u32, 255)].into_iter().chain([var(chain); 255]));
    words.extend([atom('w' as u32, 255)].into_iter().chain([A; 255]));
    words.extend((chain..2000).map(|at| var((at + 1).min(1999))));
    let (yes, store) = answer(&words, Call::UnifyChecked(1, 2));
    assert_eq!((yes, store.trail[0], store.trail_count), (Ok(1), 1999, 1));
    let (copied, store) = answer(&words, Call::Copy(1));
    assert_eq!((copied, store.top), (Ok(2000), 2000 + 1 + 256));
    assert_eq!(store.cells[2002..2257], [var(2002); 255]);
}

#[test]
fn a_header_may_have_255_arguments() {
    let mut words = vec![0, str(2), atom('w' as u32, 255)];
    words.extend([A; 254]);
    assert_eq!(answer(&words, Call::Check).0, Err(1));
    words.push(A);
    assert_eq!(answer(&words, Call::Check).0, Ok(0));
    assert_eq!(answer(&words, Call::Cyclic(2)).0, Err(3));
    words[5] = atom('g' as u32, 0);
    words[6] = atom('g' as u32, 255);
    assert_eq!(answer(&words, Call::Check).0, Err(1));
}
