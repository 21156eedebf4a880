//! Words between guard pages: the first access outside ends the program with a fault.

use std::ffi::{c_int, c_void};
use std::{ptr, slice};

extern "C" {
    fn mmap(
        at: *mut c_void,
        len: usize,
        prot: c_int,
        flags: c_int,
        fd: c_int,
        off: i64,
    ) -> *mut c_void;
    fn mprotect(at: *mut c_void, len: usize, prot: c_int) -> c_int;
}

const PAGE: usize = 4096;
const PROT_NONE: c_int = 0;
const PROT_READ_WRITE: c_int = 3;
const MAP_PRIVATE_ANONYMOUS: c_int = 0x22;

/// What stands in the words that are not lent.
const SLACK: u64 = 0xA5A5_A5A5_A5A5_A5A5;

/// Which guard page the lent words touch.
#[derive(Clone, Copy)]
pub enum Side {
    /// A word before the first faults.
    Low,
    /// A word behind the last faults.
    High,
}

/// Whole pages with a guard page on either side.
pub struct Guarded {
    first: *mut u64,
    words: usize,
    lent: (usize, usize),
}

impl Guarded {
    pub fn with_room_for(words: usize) -> Guarded {
        let len = (words * 8).div_ceil(PAGE).max(1) * PAGE;
        // Safety: fresh pages at an address of the system's choice; the middle ones are opened.
        let first = unsafe {
            let base =
                mmap(ptr::null_mut(), len + 2 * PAGE, PROT_NONE, MAP_PRIVATE_ANONYMOUS, -1, 0);
            assert!(base as isize != -1, "no memory for guarded words");
            let first = base.add(PAGE);
            assert_eq!(mprotect(first, len, PROT_READ_WRITE), 0, "guard pages");
            first as *mut u64
        };
        let mut guarded = Guarded { first, words: len / 8, lent: (0, 0) };
        guarded.all().fill(SLACK);
        guarded
    }

    fn all(&mut self) -> &mut [u64] {
        // Safety: `words` words from `first` on are mapped, and borrowed through `self` alone.
        unsafe { slice::from_raw_parts_mut(self.first, self.words) }
    }

    /// Lends these words, against the guard page on one side.
    pub fn lend(&mut self, words: &[u64], side: Side) -> (*mut u64, usize) {
        let from = match side {
            Side::Low => 0,
            Side::High => self.words - words.len(),
        };
        self.lent = (from, from + words.len());
        self.all()[from..from + words.len()].copy_from_slice(words);
        // Safety: `from` is within the mapped words, or just behind them where none are lent.
        (unsafe { self.first.add(from) }, words.len())
    }

    /// Takes the lent words back. `None` where a word beside them has changed.
    pub fn take_back(&mut self) -> Option<Vec<u64>> {
        let (from, to) = self.lent;
        let words = self.all()[from..to].to_vec();
        self.all()[from..to].fill(SLACK);
        let near = from.saturating_sub(64)..(to + 64).min(self.words);
        self.all()[near].iter().all(|word| *word == SLACK).then_some(words)
    }
}
