//! One call on words between guard pages, and what must be so after it.

use trisculap::c;
use trisculap_reference::calls::{perform, Call, Store};
use trisculap_reference::{LIMIT, WORK_PER_CELL};

use crate::guard::{Guarded, Side};

/// Stands where an answer goes, so that one that a refusal wrote is seen.
const UNTOUCHED: u64 = 0x5A5A_5A5A;

/// What a call came to: the number returned, the answer's place, and all that was lent.
pub struct After {
    pub returned: u64,
    pub answer: u64,
    pub store: Store,
}

/// Guarded words for each buffer that calls are lent.
pub struct Lender {
    cells: Guarded,
    trail: Guarded,
    marks: Guarded,
    work: Guarded,
    words: Guarded,
}

impl Lender {
    pub fn new() -> Lender {
        let room = Guarded::with_room_for;
        Lender {
            cells: room(2 * LIMIT),
            trail: room(2 * LIMIT),
            marks: room(2 * LIMIT),
            work: room(WORK_PER_CELL * LIMIT + 64),
            words: room(2 * LIMIT),
        }
    }

    /// Makes a call. An error says which word changed that was not lent.
    pub fn make(&mut self, store: &Store, call: &Call, side: Side) -> Result<After, &'static str> {
        let mut s = store.clone();
        let (cells, cells_len) = self.cells.lend(&s.cells, side);
        let (trail, trail_len) = self.trail.lend(&s.trail, side);
        let (marks, marks_len) = self.marks.lend(&s.marks, side);
        let (work, work_len) = self.work.lend(&s.work, side);
        let appended: &[u64] = if let Call::Append(words) = call { words } else { &[] };
        let (words, words_len) = self.words.lend(appended, side);
        let (top, count, marked) = (&mut s.top, &mut s.trail_count, &mut s.mark_count);
        let mut answer = UNTOUCHED;
        let mut place = UNTOUCHED as usize;
        // Safety: each pointer is to its own guarded words of the length given with it, or to its
        // own local variable.
        let returned = unsafe {
            match *call {
                Call::Check => c::trisculap_check(
                    cells, cells_len, *top, trail, trail_len, *count, marks, marks_len, *marked,
                ),
                Call::Number(n) => c::trisculap_number(n, &mut answer),
                Call::Follow(at) => c::trisculap_follow(cells, cells_len, *top, at, &mut answer),
                Call::Append(_) => c::trisculap_append(
                    cells, cells_len, top, trail, trail_len, *count, marks, marks_len, *marked,
                    words, words_len, &mut place,
                ),
                Call::Mark => c::trisculap_mark(
                    cells, cells_len, *top, trail, trail_len, *count, marks, marks_len, marked,
                    &mut place,
                ),
                Call::Rollback(k) => c::trisculap_rollback(
                    cells, cells_len, top, trail, trail_len, count, marks, marks_len, marked, k,
                ),
                Call::Cut(k) => c::trisculap_cut(
                    cells, cells_len, *top, trail, trail_len, *count, marks, marks_len, marked, k,
                ),
                Call::Unify(a, b) | Call::UnifyChecked(a, b) => {
                    let checked = matches!(call, Call::UnifyChecked(..));
                    let unify: c::Unify =
                        if checked { c::trisculap_unify_checked } else { c::trisculap_unify };
                    unify(
                        cells,
                        cells_len,
                        *top,
                        trail,
                        trail_len,
                        count,
                        marks,
                        marks_len,
                        *marked,
                        work,
                        work_len,
                        a,
                        b,
                        &mut answer,
                    )
                }
                Call::Copy(root) => {
                    c::trisculap_copy(cells, cells_len, top, work, work_len, root, &mut place)
                }
                Call::Cyclic(root) => {
                    c::trisculap_cyclic(cells, cells_len, *top, root, &mut answer)
                }
            }
        };
        s.cells = self.cells.take_back().ok_or("a word beside the cells")?;
        s.trail = self.trail.take_back().ok_or("a word beside the trail")?;
        s.marks = self.marks.take_back().ok_or("a word beside the marks")?;
        s.work = self.work.take_back().ok_or("a word beside the work buffer")?;
        if self.words.take_back().as_deref() != Some(appended) {
            return Err("the words to append");
        }
        if place as u64 != UNTOUCHED {
            answer = place as u64;
        }
        Ok(After { returned, answer, store: s })
    }

    /// Makes a call and judges it. An error says what was not so.
    pub fn judged(
        &mut self,
        store: &Store,
        call: &Call,
        side: Side,
    ) -> Result<After, &'static str> {
        let after = self.make(store, call, side)?;
        as_ordinary(store, call, &after)?;
        if after.returned != 0 {
            refused(store, &after)?;
        } else {
            self.answered(store, call, &after)?;
        }
        Ok(after)
    }

    /// An answer leaves a store that the check accepts, and touches only what the call is for.
    fn answered(&mut self, before: &Store, call: &Call, after: &After) -> Result<(), &'static str> {
        let (a, b) = (&after.store, before);
        let lengths = |s: &Store| [s.cells.len(), s.trail.len(), s.marks.len(), s.work.len()];
        require(lengths(a) == lengths(b), "lengths")?;
        let mut kept = a.clone();
        match call {
            Call::Check | Call::Number(_) | Call::Follow(_) | Call::Cyclic(_) => {
                return require(a == b, "a call that only reads wrote");
            }
            Call::Append(_) => (kept.cells, kept.top) = (b.cells.clone(), b.top),
            Call::Mark | Call::Cut(_) => {
                (kept.marks, kept.mark_count) = (b.marks.clone(), b.mark_count)
            }
            Call::Rollback(_) => {
                kept = b.clone();
                kept.work = a.work.clone();
            }
            Call::Unify(..) | Call::UnifyChecked(..) => {
                (kept.cells, kept.work) = (b.cells.clone(), b.work.clone());
                (kept.trail, kept.trail_count) = (b.trail.clone(), b.trail_count);
                require(work_cleared(b, a), "work words")?;
                require(after.answer <= 1, "neither yes nor no")?;
            }
            Call::Copy(_) => {
                (kept.cells, kept.top, kept.work) = (b.cells.clone(), b.top, b.work.clone());
                require(work_cleared(b, a), "work words")?;
                require(a.cells[..b.top] == b.cells[..b.top], "an old cell")?;
            }
        }
        require(kept == *b, "a word that the call is not for")?;
        // A copy is lent neither trail nor marks, so it does not judge them.
        let mut left = a.clone();
        if let Call::Copy(_) = call {
            (left.trail_count, left.mark_count) = (0, 0);
            (left.trail, left.marks) = (vec![], vec![]);
        }
        let check = self.make(&left, &Call::Check, Side::High)?;
        require(check.returned == 0, "the store that was left is refused")
    }
}

fn require(holds: bool, what: &'static str) -> Result<(), &'static str> {
    holds.then_some(()).ok_or(what)
}

/// The engine in ordinary Rust gives the same number, answer and words.
fn as_ordinary(before: &Store, call: &Call, after: &After) -> Result<(), &'static str> {
    let mut store = before.clone();
    let (returned, answer) = match (perform(&mut store, call), call) {
        (Err(number), _) => (number, UNTOUCHED),
        (Ok(_), Call::Check | Call::Rollback(_) | Call::Cut(_)) => (0, UNTOUCHED),
        (Ok(answer), _) => (0, answer),
    };
    require(after.returned == returned, "another number")?;
    require(after.answer == answer, "another answer")?;
    require(after.store == store, "other words")
}

fn refused(before: &Store, after: &After) -> Result<(), &'static str> {
    require(after.returned <= 11, "no number of a refusal")?;
    require(after.answer == UNTOUCHED, "a refusal wrote an answer")?;
    require(after.store == *before, "a refusal changed a word or a count")
}

/// The work words that a call may use are 0, the others as they were.
fn work_cleared(before: &Store, after: &Store) -> bool {
    let needed = WORK_PER_CELL * before.top;
    after.work[..needed].iter().all(|word| *word == 0)
        && after.work[needed..] == before.work[needed..]
}
