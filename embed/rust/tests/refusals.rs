//! A refusal of each number, on a store as small as can be; the words stay as they were.

use trisculap::{number, Refusal, Store, LIMIT, WORK_PER_CELL};

const VAR_1: u64 = 1 << 58 | 1;
const LIS_1: u64 = 3 << 58 | 1;
const ATOM_A: u64 = 4 << 58 | 'a' as u64;

/// Lends these words, makes a call, and finds every word and count as it was.
fn refused<T>(
    (cells, top): (&[u64], usize),
    (trail_words, trailed): (usize, usize),
    (mark_words, marked): (usize, usize),
    work_words: usize,
    call: impl FnOnce(&mut Store) -> Result<T, Refusal>,
) -> Option<Refusal> {
    let mut lent = cells.to_vec();
    let mut trail = vec![0; trail_words];
    let mut marks = vec![0; mark_words];
    let mut work = vec![7; work_words];
    let mut store = Store {
        cells: &mut lent,
        top,
        trail: &mut trail,
        trailed,
        marks: &mut marks,
        marked,
        work: &mut work,
    };
    let answer = call(&mut store);
    assert_eq!((store.top, store.trailed, store.marked), (top, trailed, marked));
    assert_eq!(lent, cells);
    assert!(trail.iter().chain(&marks).all(|word| *word == 0));
    assert!(work.iter().all(|word| *word == 7));
    answer.err()
}

/// As many cells as a store may use are appended, and not one more, though more are lent.
#[test]
fn the_limit() {
    let mut cells = vec![0; LIMIT + 1];
    let mut work = vec![7; WORK_PER_CELL * LIMIT];
    let mut store = Store {
        cells: &mut cells,
        top: 1,
        trail: &mut [],
        trailed: 0,
        marks: &mut [],
        marked: 0,
        work: &mut work,
    };
    assert_eq!(store.append(&vec![ATOM_A; LIMIT - 1]), Ok(1));
    assert_eq!(store.append(&[ATOM_A]), Err(Refusal::Room));
    assert_eq!(store.unify(1, 2), Ok(true));
    store.work = &mut store.work[1..];
    assert_eq!(store.unify(1, 2), Err(Refusal::Work));
}

#[test]
fn each_number() {
    let none = (0, 0);
    let fresh: (&[u64], usize) = (&[0], 1);
    let var: (&[u64], usize) = (&[0, VAR_1], 2);
    let ring: (&[u64], usize) = (&[0, LIS_1, ATOM_A], 3);
    let cases = [
        (1, refused((&[], 0), none, none, 0, |s| s.check())),
        (2, refused(fresh, (0, 1), none, 0, |s| s.check())),
        (3, refused(fresh, none, none, 0, |s| s.follow(0))),
        (4, refused(var, (1, 0), none, 23, |s| s.unify(1, 1))),
        (5, refused(var, none, none, 24, |s| s.unify(1, 1))),
        (6, refused(ring, none, none, 36, |s| s.unify_checked(1, 1))),
        (7, refused(fresh, none, (1, 0), 0, |s| s.mark())),
        (8, refused(fresh, none, none, 0, |s| s.rollback(1))),
        (9, refused((&[0, 0], 1), none, none, 0, |s| s.append(&[0]))),
        (10, refused(fresh, none, (2, 1), 0, |s| s.rollback(1))),
        (11, number(1 << 55).err()),
    ];
    for (wanted, refusal) in cases {
        assert_eq!(refusal.map(|refusal| refusal as u64), Some(wanted));
    }
}
