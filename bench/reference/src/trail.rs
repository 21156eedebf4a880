//! Trail and marks: the rules they keep, and the calls mark, rollback and cut.
//!
//! The trail lists the cells that were bound, in order. A mark is two words, the `top` and the
//! trail count to go back to.

use crate::cell::var;
use crate::store::{all_zero, check, survey, CellSet};
use crate::{refusal, require};

/// Records `top` and trail count in a new mark and answers its number, from 1.
pub fn mark(
    cells: &[u64],
    top: usize,
    trail: &[u64],
    trail_count: usize,
    marks: &mut [u64],
    mark_count: &mut usize,
) -> Result<usize, u64> {
    check(cells, top, trail, trail_count, marks, *mark_count)?;
    require(*mark_count < marks.len() / 2, refusal::ROOM)?;
    marks[2 * *mark_count] = top as u64;
    marks[2 * *mark_count + 1] = trail_count as u64;
    *mark_count += 1;
    Ok(*mark_count)
}

/// Goes back to mark `k`: undoes bindings, drops cells, trail entries and later marks.
pub fn rollback(
    cells: &mut [u64],
    top: &mut usize,
    trail: &mut [u64],
    trail_count: &mut usize,
    marks: &mut [u64],
    mark_count: &mut usize,
    k: usize,
) -> Result<(), u64> {
    check(cells, *top, trail, *trail_count, marks, *mark_count)?;
    require(1 <= k && k <= *mark_count, refusal::NO_SUCH_MARK)?;
    // Rule 2 keeps both words of a mark at or below the present counts.
    let (left_top, left_count) = (marks[2 * k - 2] as usize, marks[2 * k - 1] as usize);
    let (kept, undone) = trail[..*trail_count].split_at(left_count);
    require(leaves_formed(cells, left_top, kept, undone), refusal::LEFT_BEHIND)?;
    for &at in undone {
        cells[at as usize] = var(at as usize);
    }
    cells[left_top..*top].fill(0);
    trail[left_count..*trail_count].fill(0);
    marks[2 * k..2 * *mark_count].fill(0);
    (*top, *trail_count, *mark_count) = (left_top, left_count, k);
    Ok(())
}

/// Drops the marks above `k` and undoes nothing.
pub fn cut(
    cells: &[u64],
    top: usize,
    trail: &[u64],
    trail_count: usize,
    marks: &mut [u64],
    mark_count: &mut usize,
    k: usize,
) -> Result<(), u64> {
    check(cells, top, trail, trail_count, marks, *mark_count)?;
    require(k <= *mark_count, refusal::NO_SUCH_MARK)?;
    marks[2 * k..2 * *mark_count].fill(0);
    *mark_count = k;
    Ok(())
}

/// Whether the trail keeps its rules over well-formed used cells.
pub(crate) fn trail_formed(used: &[u64], trail: &[u64], count: usize) -> bool {
    if count > trail.len() || !all_zero(&trail[count..]) {
        return false;
    }
    let mut seen = CellSet::new();
    trail[..count].iter().all(|&entry| {
        1 <= entry
            && entry < used.len() as u64
            && used[entry as usize] != var(entry as usize)
            && seen.insert(entry as usize)
    })
}

/// Whether the marks keep their rules: pairs that never fall and stay within the counts.
pub(crate) fn marks_formed(marks: &[u64], count: usize, top: usize, trail_count: usize) -> bool {
    if count > marks.len() / 2 || !all_zero(&marks[2 * count..]) {
        return false;
    }
    let (mut last_top, mut last_count) = (0, 0);
    for mark in marks[..2 * count].chunks_exact(2) {
        if mark[0] < last_top || mark[1] < last_count {
            return false;
        }
        (last_top, last_count) = (mark[0], mark[1]);
    }
    last_top <= top as u64 && last_count <= trail_count as u64
}

/// Whether a rollback leaves a store that keeps the rules, decided on the cells as they are.
///
/// Undoing only shortens chains of Vars, so no ring can arise; entries that stay are still
/// different and still not unbound, so they need only lie below the `top` that is left.
fn leaves_formed(cells: &[u64], left_top: usize, kept: &[u64], undone: &[u64]) -> bool {
    if left_top == 0 || kept.iter().any(|&entry| entry >= left_top as u64) {
        return false;
    }
    let mut unbound = CellSet::new();
    for &at in undone {
        unbound.insert(at as usize);
    }
    let word_left = |at: usize| {
        if unbound.contains(at) {
            var(at)
        } else {
            cells[at]
        }
    };
    survey(word_left, 1, left_top).is_some()
}
