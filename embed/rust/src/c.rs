//! The functions of `include/trisculap.h`, as they are.
//!
//! # Safety
//!
//! Each pointer points to as many words as the length behind it says, a pointer without a length to
//! one word, and nothing that a call may write overlaps anything else that it is given. Words,
//! counts and roots may be any.

#![allow(clippy::missing_safety_doc, clippy::too_many_arguments)]

extern "C" {
    pub fn trisculap_check(
        cells: *const u64,
        cells_len: usize,
        top: usize,
        trail: *const u64,
        trail_len: usize,
        trail_count: usize,
        marks: *const u64,
        marks_len: usize,
        mark_count: usize,
    ) -> u64;

    pub fn trisculap_number(n: i64, word: *mut u64) -> u64;

    pub fn trisculap_follow(
        cells: *const u64,
        cells_len: usize,
        top: usize,
        at: usize,
        word: *mut u64,
    ) -> u64;

    pub fn trisculap_append(
        cells: *mut u64,
        cells_len: usize,
        top: *mut usize,
        trail: *const u64,
        trail_len: usize,
        trail_count: usize,
        marks: *const u64,
        marks_len: usize,
        mark_count: usize,
        words: *const u64,
        words_len: usize,
        at: *mut usize,
    ) -> u64;

    pub fn trisculap_mark(
        cells: *const u64,
        cells_len: usize,
        top: usize,
        trail: *const u64,
        trail_len: usize,
        trail_count: usize,
        marks: *mut u64,
        marks_len: usize,
        mark_count: *mut usize,
        number: *mut usize,
    ) -> u64;

    pub fn trisculap_rollback(
        cells: *mut u64,
        cells_len: usize,
        top: *mut usize,
        trail: *mut u64,
        trail_len: usize,
        trail_count: *mut usize,
        marks: *mut u64,
        marks_len: usize,
        mark_count: *mut usize,
        k: usize,
    ) -> u64;

    pub fn trisculap_cut(
        cells: *const u64,
        cells_len: usize,
        top: usize,
        trail: *const u64,
        trail_len: usize,
        trail_count: usize,
        marks: *mut u64,
        marks_len: usize,
        mark_count: *mut usize,
        k: usize,
    ) -> u64;

    pub fn trisculap_unify(
        cells: *mut u64,
        cells_len: usize,
        top: usize,
        trail: *mut u64,
        trail_len: usize,
        trail_count: *mut usize,
        marks: *const u64,
        marks_len: usize,
        mark_count: usize,
        work: *mut u64,
        work_len: usize,
        a: usize,
        b: usize,
        yes: *mut u64,
    ) -> u64;

    pub fn trisculap_unify_checked(
        cells: *mut u64,
        cells_len: usize,
        top: usize,
        trail: *mut u64,
        trail_len: usize,
        trail_count: *mut usize,
        marks: *const u64,
        marks_len: usize,
        mark_count: usize,
        work: *mut u64,
        work_len: usize,
        a: usize,
        b: usize,
        yes: *mut u64,
    ) -> u64;

    pub fn trisculap_copy(
        cells: *mut u64,
        cells_len: usize,
        top: *mut usize,
        work: *mut u64,
        work_len: usize,
        root: usize,
        at: *mut usize,
    ) -> u64;

    pub fn trisculap_cyclic(
        cells: *const u64,
        cells_len: usize,
        top: usize,
        root: usize,
        yes: *mut u64,
    ) -> u64;
}

/// The type that both unifications share.
pub type Unify = unsafe extern "C" fn(
    cells: *mut u64,
    cells_len: usize,
    top: usize,
    trail: *mut u64,
    trail_len: usize,
    trail_count: *mut usize,
    marks: *const u64,
    marks_len: usize,
    mark_count: usize,
    work: *mut u64,
    work_len: usize,
    a: usize,
    b: usize,
    yes: *mut u64,
) -> u64;
