//! Heap B: one term, g(X), at cell 1; its variable X is cell 3.

use trisculap::{number, Refusal, Store, WORK_PER_CELL};

const fn cell(tag: u64, value: u64) -> u64 {
    tag << 58 | value
}

const fn var(to: u64) -> u64 {
    cell(1, to)
}

const fn str(to: u64) -> u64 {
    cell(2, to)
}

const fn atom(name: char, arity: u64) -> u64 {
    cell(4, arity << 32 | name as u64)
}

struct Buffers {
    cells: [u64; 16],
    trail: [u64; 16],
    marks: [u64; 2],
    work: [u64; WORK_PER_CELL * 16],
}

fn heap_b() -> Buffers {
    let mut cells = [0; 16];
    cells[1..4].copy_from_slice(&[str(2), atom('g', 1), var(3)]);
    Buffers { cells, trail: [0; 16], marks: [0; 2], work: [7; WORK_PER_CELL * 16] }
}

impl Buffers {
    fn lent(&mut self) -> Store<'_> {
        Store {
            cells: &mut self.cells,
            top: 4,
            trail: &mut self.trail,
            trailed: 0,
            marks: &mut self.marks,
            marked: 0,
            work: &mut self.work,
        }
    }
}

#[test]
fn a_unification_is_made_and_taken_back() {
    let mut buffers = heap_b();
    let mut store = buffers.lent();
    assert_eq!(store.check(), Ok(()));
    assert_eq!(store.mark(), Ok(1));
    assert_eq!(store.unify(1, 3), Ok(true));
    assert_eq!((store.cells[3], store.trail[0], store.trailed), (str(2), 3, 1));
    assert!(store.work[..WORK_PER_CELL * 4].iter().all(|word| *word == 0));
    assert!(store.work[WORK_PER_CELL * 4..].iter().all(|word| *word == 7));
    assert_eq!(store.cyclic(1), Ok(true));
    assert_eq!(store.unify_checked(1, 3), Err(Refusal::Cycle));
    assert_eq!(store.rollback(1), Ok(()));
    assert_eq!((store.cells[3], store.trail[0], store.trailed), (var(3), 0, 0));
    assert_eq!(store.unify_checked(1, 3), Ok(false));
    assert_eq!(store.cyclic(1), Ok(false));
}

#[test]
fn terms_are_copied_and_words_appended() {
    let mut buffers = heap_b();
    let mut store = buffers.lent();
    assert_eq!(store.copy(1), Ok(4));
    assert_eq!(store.cells[4..store.top], [str(5), atom('g', 1), var(6)]);
    assert_eq!(store.append(&[atom('a', 0)]), Ok(7));
    assert_eq!(store.unify_checked(6, 7), Ok(true));
    assert_eq!(store.follow(6), Ok(atom('a', 0)));
    assert_eq!(store.mark(), Ok(1));
    assert_eq!(store.cut(0), Ok(()));
    assert_eq!(store.marked, 0);
    assert_eq!(number(-1), Ok(0x14FF_FFFF_FFFF_FFFF));
}
