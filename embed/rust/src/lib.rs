//! Trisculap from Rust: the calls of `include/trisculap.h`, safe and without `std`.
//!
//! A call takes any words and any counts. It answers, or refuses and leaves all as it was.

#![no_std]

pub mod c;

/// The most cells that a store may use.
pub const LIMIT: usize = 4096;
/// How many words of work buffer a call wants for each used cell.
pub const WORK_PER_CELL: usize = 12;

/// Why a call refused, by its number.
#[derive(Clone, Copy, Debug, PartialEq, Eq)]
pub enum Refusal {
    /// The cells are not well formed.
    Cells = 1,
    /// The trail or the marks break their rules.
    Trail = 2,
    /// A root stands for no term.
    Root = 3,
    /// The work buffer is too short.
    Work = 4,
    /// The trail is too short for the unbound Vars.
    TrailRoom = 5,
    /// A root reaches a cycle.
    Cycle = 6,
    /// There is no room for new cells or for a mark.
    Room = 7,
    /// There is no such mark.
    Mark = 8,
    /// The appended words would not be well formed.
    Words = 9,
    /// Rolling back would leave a store that is not well formed.
    Left = 10,
    /// The number is out of a Fixnum's range.
    Number = 11,
}

const REFUSALS: [Refusal; 11] = [
    Refusal::Cells,
    Refusal::Trail,
    Refusal::Root,
    Refusal::Work,
    Refusal::TrailRoom,
    Refusal::Cycle,
    Refusal::Room,
    Refusal::Mark,
    Refusal::Words,
    Refusal::Left,
    Refusal::Number,
];

#[inline]
fn answered<T>(returned: u64, answer: T) -> Result<T, Refusal> {
    match returned {
        0 => Ok(answer),
        number => Err(REFUSALS[number as usize - 1]),
    }
}

/// All that calls are lent. The fields may hold anything: a call checks what it is given.
pub struct Store<'a> {
    pub cells: &'a mut [u64],
    /// How many cells are used.
    pub top: usize,
    pub trail: &'a mut [u64],
    /// How many trail entries are used.
    pub trailed: usize,
    pub marks: &'a mut [u64],
    /// How many marks stand; each takes two words.
    pub marked: usize,
    /// Scratch words: any before a call; after unify and copy the words that they need are 0.
    pub work: &'a mut [u64],
}

/// The cell of a number.
#[inline]
pub fn number(n: i64) -> Result<u64, Refusal> {
    let mut word = 0;
    // Safety: `word` is one word.
    let returned = unsafe { c::trisculap_number(n, &mut word) };
    answered(returned, word)
}

// Safety of every call below: a pointer and its length come from one slice, each slice that a call
// may write is borrowed mutably and so overlaps nothing, and each single word is a field or a local
// variable.
impl Store<'_> {
    /// Whether cells, trail and marks keep every rule.
    #[inline]
    pub fn check(&self) -> Result<(), Refusal> {
        let returned = unsafe {
            c::trisculap_check(
                self.cells.as_ptr(),
                self.cells.len(),
                self.top,
                self.trail.as_ptr(),
                self.trail.len(),
                self.trailed,
                self.marks.as_ptr(),
                self.marks.len(),
                self.marked,
            )
        };
        answered(returned, ())
    }

    /// The word where following the cell `at` along Vars ends.
    #[inline]
    pub fn follow(&self, at: usize) -> Result<u64, Refusal> {
        let mut word = 0;
        let returned = unsafe {
            c::trisculap_follow(self.cells.as_ptr(), self.cells.len(), self.top, at, &mut word)
        };
        answered(returned, word)
    }

    /// Adds words behind the used cells; the cell where they stand.
    #[inline]
    pub fn append(&mut self, words: &[u64]) -> Result<usize, Refusal> {
        let mut at = 0;
        let returned = unsafe {
            c::trisculap_append(
                self.cells.as_mut_ptr(),
                self.cells.len(),
                &mut self.top,
                self.trail.as_ptr(),
                self.trail.len(),
                self.trailed,
                self.marks.as_ptr(),
                self.marks.len(),
                self.marked,
                words.as_ptr(),
                words.len(),
                &mut at,
            )
        };
        answered(returned, at)
    }

    /// Sets a mark; its number.
    #[inline]
    pub fn mark(&mut self) -> Result<usize, Refusal> {
        let mut number = 0;
        let returned = unsafe {
            c::trisculap_mark(
                self.cells.as_ptr(),
                self.cells.len(),
                self.top,
                self.trail.as_ptr(),
                self.trail.len(),
                self.trailed,
                self.marks.as_mut_ptr(),
                self.marks.len(),
                &mut self.marked,
                &mut number,
            )
        };
        answered(returned, number)
    }

    /// Goes back to how the store was when mark `k` was set; the mark stays.
    #[inline]
    pub fn rollback(&mut self, k: usize) -> Result<(), Refusal> {
        let returned = unsafe {
            c::trisculap_rollback(
                self.cells.as_mut_ptr(),
                self.cells.len(),
                &mut self.top,
                self.trail.as_mut_ptr(),
                self.trail.len(),
                &mut self.trailed,
                self.marks.as_mut_ptr(),
                self.marks.len(),
                &mut self.marked,
                k,
            )
        };
        answered(returned, ())
    }

    /// Drops the marks above `k`.
    #[inline]
    pub fn cut(&mut self, k: usize) -> Result<(), Refusal> {
        let returned = unsafe {
            c::trisculap_cut(
                self.cells.as_ptr(),
                self.cells.len(),
                self.top,
                self.trail.as_ptr(),
                self.trail.len(),
                self.trailed,
                self.marks.as_mut_ptr(),
                self.marks.len(),
                &mut self.marked,
                k,
            )
        };
        answered(returned, ())
    }

    /// Unifies two cells plainly; whether they unify.
    #[inline]
    pub fn unify(&mut self, a: usize, b: usize) -> Result<bool, Refusal> {
        self.unify_by(c::trisculap_unify, a, b)
    }

    /// Unifies two cells with the occurs check; whether they unify.
    #[inline]
    pub fn unify_checked(&mut self, a: usize, b: usize) -> Result<bool, Refusal> {
        self.unify_by(c::trisculap_unify_checked, a, b)
    }

    #[inline]
    fn unify_by(&mut self, call: c::Unify, a: usize, b: usize) -> Result<bool, Refusal> {
        let mut yes = 0;
        let returned = unsafe {
            call(
                self.cells.as_mut_ptr(),
                self.cells.len(),
                self.top,
                self.trail.as_mut_ptr(),
                self.trail.len(),
                &mut self.trailed,
                self.marks.as_ptr(),
                self.marks.len(),
                self.marked,
                self.work.as_mut_ptr(),
                self.work.len(),
                a,
                b,
                &mut yes,
            )
        };
        answered(returned, yes == 1)
    }

    /// Copies the term at `root` behind the used cells; the cell where the copy stands.
    #[inline]
    pub fn copy(&mut self, root: usize) -> Result<usize, Refusal> {
        let mut at = 0;
        let returned = unsafe {
            c::trisculap_copy(
                self.cells.as_mut_ptr(),
                self.cells.len(),
                &mut self.top,
                self.work.as_mut_ptr(),
                self.work.len(),
                root,
                &mut at,
            )
        };
        answered(returned, at)
    }

    /// Whether the term at `root` reaches a cycle.
    #[inline]
    pub fn cyclic(&self, root: usize) -> Result<bool, Refusal> {
        let mut yes = 0;
        let returned = unsafe {
            c::trisculap_cyclic(self.cells.as_ptr(), self.cells.len(), self.top, root, &mut yes)
        };
        answered(returned, yes == 1)
    }
}
