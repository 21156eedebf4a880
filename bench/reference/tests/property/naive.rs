//! The rules of the engine said as plainly as they can be, at any cost in time: quantifiers as
//! loops, reachability as a transitive closure, every outcome built as a new store.
//!
//! Nothing here is shared with the engine but the store that holds the words. It assumes small
//! stores.

use std::collections::{BTreeMap, BTreeSet};

use trisculap_reference::calls::{Call, Store};

const LIMIT: u64 = 4096;

#[derive(Clone, Copy, PartialEq, Eq, Debug)]
enum Row {
    Var(u64),
    Str(u64),
    Lis(u64),
    Atom { name: u64, arity: u64 },
    Fixnum,
}

/// The table's row that a word keeps to, by division and remainder.
fn row(word: u64) -> Option<Row> {
    let two = |n: u32| 2u64.pow(n);
    let (tag, bits_56_57, value) = (word / two(58), word / two(56) % 4, word % two(56));
    let (name, arity, above) = (value % two(32), value / two(32) % 256, value / two(40));
    match (tag, bits_56_57) {
        (1, 0) => Some(Row::Var(value)),
        (2, 0) => Some(Row::Str(value)),
        (3, 0) => Some(Row::Lis(value)),
        (4, 0) if above == 0 => Some(Row::Atom { name, arity }),
        (5, 0) => Some(Row::Fixnum),
        _ => None,
    }
}

fn word_with_tag(tag: u64, value: u64) -> u64 {
    tag * 2u64.pow(58) + value
}

fn var(at: u64) -> u64 {
    word_with_tag(1, at)
}

/// The rows of the used cells; `None` where one keeps to no row. Cell 0 has a row of no use.
fn rows(cells: &[u64], top: usize) -> Option<Vec<Row>> {
    let cell_0 = std::iter::once(Some(Row::Fixnum));
    cell_0.chain(cells[1..top].iter().map(|&w| row(w))).collect()
}

fn is_header(row: Row) -> bool {
    matches!(row, Row::Atom { arity, .. } if arity > 0)
}

/// Well-formed cells, sentence by sentence.
fn cells_well_formed(cells: &[u64], top: usize) -> bool {
    if top < 1 || top > LIMIT as usize || top > cells.len() {
        return false;
    }
    if cells[0] != 0 || cells[top..].iter().any(|&word| word != 0) {
        return false;
    }
    let Some(rows) = rows(cells, top) else {
        return false;
    };
    let used = 1..top as u64;
    let header_at = |at: u64| is_header(rows[at as usize]);
    let each = |keeps: &dyn Fn(u64, Row) -> bool| (1..top).all(|at| keeps(at as u64, rows[at]));
    each(&|f, row| match row {
        Row::Atom { arity, .. } if arity > 0 => {
            f + arity < top as u64 && (f + 1..=f + arity).all(|i| !header_at(i))
        }
        Row::Var(v) => used.contains(&v) && !header_at(v),
        Row::Str(s) => used.contains(&s) && matches!(rows[s as usize], Row::Atom { .. }),
        Row::Lis(l) => {
            1 <= l && l < top as u64 - 1 && l + 1 < top as u64 && !header_at(l) && !header_at(l + 1)
        }
        _ => true,
    }) && each(&|at, _| following_ends(&rows, at))
}

/// A chain that has not ended after as many steps as there are cells never ends.
fn following_ends(rows: &[Row], start: u64) -> bool {
    let mut at = start;
    for _ in 0..rows.len() {
        match rows[at as usize] {
            Row::Var(v) if v != at => at = v,
            _ => return true,
        }
    }
    false
}

fn trail_well_formed(s: &Store) -> bool {
    if s.trail_count > s.trail.len() {
        return false;
    }
    let (entries, rest) = s.trail.split_at(s.trail_count);
    let entry_keeps = |i: usize| {
        let entry = entries[i];
        let different = (0..i).all(|j| entries[j] != entry);
        let used = 1 <= entry && entry < s.top as u64;
        different && used && s.cells[entry as usize] != var(entry)
    };
    (0..entries.len()).all(entry_keeps) && rest.iter().all(|&word| word == 0)
}

fn marks_well_formed(s: &Store) -> bool {
    let count = s.mark_count as u128;
    if 2 * count > s.marks.len() as u128 {
        return false;
    }
    let mark = |k: usize| (s.marks[2 * k], s.marks[2 * k + 1]);
    let not_above = |low: (u64, u64), high: (u64, u64)| low.0 <= high.0 && low.1 <= high.1;
    let present = (s.top as u64, s.trail_count as u64);
    (1..s.mark_count).all(|k| not_above(mark(k - 1), mark(k)))
        && (0..s.mark_count).all(|k| not_above(mark(k), present))
        && s.marks[2 * s.mark_count..].iter().all(|&word| word == 0)
}

/// The used cells of a well-formed store, read as rows.
struct Cells {
    rows: Vec<Row>,
    words: Vec<u64>,
}

impl Cells {
    fn of(words: &[u64], top: usize) -> Cells {
        let rows = rows(words, top).expect("the cells are well formed");
        let words = words[..top].to_vec();
        Cells { rows, words }
    }

    fn is_root(&self, at: usize) -> bool {
        at != 0 && at < self.rows.len() && !is_header(self.rows[at])
    }

    fn arity(&self, functor: u64) -> u64 {
        match self.rows[functor as usize] {
            Row::Atom { arity, .. } => arity,
            _ => panic!("no functor cell"),
        }
    }

    /// The edges of a word at a cell: to a Var's target, a Str's arguments, a Lis's cells.
    fn edges(&self, at: u64, row: Row) -> Vec<u64> {
        match row {
            Row::Var(v) if v != at => vec![v],
            Row::Str(f) => (f + 1..=f + self.arity(f)).collect(),
            Row::Lis(l) => vec![l, l + 1],
            _ => vec![],
        }
    }

    /// reach[a][b]: b is reached from a by one edge or more.
    fn reach(&self) -> Vec<Vec<bool>> {
        let n = self.rows.len();
        let mut reach = vec![vec![false; n]; n];
        for (at, from) in reach.iter_mut().enumerate().skip(1) {
            for to in self.edges(at as u64, self.rows[at]) {
                from[to as usize] = true;
            }
        }
        for through in 0..n {
            let onwards = reach[through].clone();
            for from in reach.iter_mut().filter(|from| from[through]) {
                for (to, onward) in from.iter_mut().zip(&onwards) {
                    *to |= onward;
                }
            }
        }
        reach
    }

    /// The root and all that it reaches.
    fn reached(&self, root: usize) -> Vec<usize> {
        let reach = self.reach();
        let all = 1..self.rows.len();
        all.filter(|&at| at == root || reach[root][at]).collect()
    }

    fn cyclic(&self, root: usize) -> bool {
        let reach = self.reach();
        self.reached(root).iter().any(|&at| reach[at][at])
    }

    fn unbound(&self) -> usize {
        let unbound = |at: &usize| self.rows[*at] == Row::Var(*at as u64);
        (1..self.rows.len()).filter(unbound).count()
    }

    fn follow(&self, mut at: u64) -> (u64, Row) {
        while let Row::Var(v) = self.rows[at as usize] {
            if v == at {
                break;
            }
            at = v;
        }
        (self.words[at as usize], self.rows[at as usize])
    }

    fn write(&mut self, at: u64, word: u64) {
        self.words[at as usize] = word;
        self.rows[at as usize] = row(word).expect("a word of the table");
    }

    /// 1, and 1 + arity for each structure reached, and 2 for each pair.
    fn copy_room(&self, root: usize) -> u64 {
        let (mut structures, mut pairs) = (BTreeSet::new(), BTreeSet::new());
        for at in self.reached(root) {
            match self.rows[at] {
                Row::Str(f) => drop(structures.insert(f)),
                Row::Lis(l) => drop(pairs.insert(l)),
                _ => {}
            }
        }
        let structures: u64 = structures.iter().map(|&f| 1 + self.arity(f)).sum();
        1 + structures + 2 * pairs.len() as u64
    }
}

/// What a compound or constant has that must agree, with node and arguments if it has any.
fn value(cells: &Cells, row: Row, word: u64) -> ((u64, u64, u64), u64, Vec<u64>) {
    match row {
        Row::Atom { name, .. } => ((0, name, 0), 0, vec![]),
        Row::Str(f) => match cells.rows[f as usize] {
            Row::Atom { name, arity } => ((0, name, arity), f, (f + 1..=f + arity).collect()),
            _ => panic!("no functor cell"),
        },
        Row::Lis(l) => ((0, 46, 2), l, vec![l, l + 1]),
        Row::Fixnum => ((1, word, 0), 0, vec![]),
        Row::Var(_) => panic!("a variable has no value"),
    }
}

/// Whether a word that is compound reaches a variable, before it is written there.
fn occurs(cells: &Cells, variable: u64, row: Row) -> bool {
    let reach = cells.reach();
    let arguments = match row {
        Row::Str(_) | Row::Lis(_) => cells.edges(0, row),
        _ => vec![],
    };
    let meets = |&at: &u64| at == variable || reach[at as usize][variable as usize];
    arguments.iter().any(meets)
}

/// The rules of unification in their order; the cells written, in order, where the answer is yes.
fn unify(cells: &mut Cells, a: u64, b: u64, checked: bool) -> Option<Vec<u64>> {
    let mut class: Vec<u64> = (0..cells.rows.len() as u64).collect();
    let mut pairs = vec![(a, b)];
    let mut written = vec![];
    while let Some((a, b)) = pairs.pop() {
        let ((a_word, a_row), (b_word, b_row)) = (cells.follow(a), cells.follow(b));
        if a_word == b_word {
            continue;
        }
        let (at, word) = match (a_row, b_row) {
            (Row::Var(x), Row::Var(y)) if x > y => (x, b_word),
            (Row::Var(_), Row::Var(y)) => (y, a_word),
            (Row::Var(x), _) => (x, b_word),
            (_, Row::Var(y)) => (y, a_word),
            _ => {
                let (a_common, a_node, a_arguments) = value(cells, a_row, a_word);
                let (b_common, b_node, b_arguments) = value(cells, b_row, b_word);
                if a_common != b_common {
                    return None;
                }
                let (keep, merge) = (class[a_node as usize], class[b_node as usize]);
                if keep != merge {
                    let members = class.iter_mut().filter(|c| **c == merge);
                    members.for_each(|c| *c = keep);
                    pairs.extend(a_arguments.into_iter().zip(b_arguments).rev());
                }
                continue;
            }
        };
        if checked && occurs(cells, at, row(word).expect("a word of the table")) {
            return None;
        }
        cells.write(at, word);
        written.push(at);
    }
    Some(written)
}

/// The rules of the copy: the new cells.
fn copy(cells: &Cells, root: usize) -> Vec<u64> {
    let place = |index: usize| (cells.rows.len() + index) as u64;
    let run = |from: u64, len: u64| &cells.words[from as usize..(from + len) as usize];
    let (mut structures, mut pairs) = (BTreeMap::new(), BTreeMap::new());
    let mut homes = BTreeMap::new();
    let mut new = vec![cells.words[root]];
    let mut scan = 0;
    while scan < new.len() {
        let end = place(new.len());
        match row(new[scan]).expect("a word of the table") {
            Row::Str(f) => {
                let copy = *structures.entry(f).or_insert_with(|| {
                    new.extend_from_slice(run(f, 1 + cells.arity(f)));
                    end
                });
                new[scan] = word_with_tag(2, copy);
            }
            Row::Lis(l) => {
                let copy = *pairs.entry(l).or_insert_with(|| {
                    new.extend_from_slice(run(l, 2));
                    end
                });
                new[scan] = word_with_tag(3, copy);
            }
            Row::Var(v) => match cells.follow(v) {
                (_, Row::Var(u)) => new[scan] = var(*homes.entry(u).or_insert(place(scan))),
                (word, _) => {
                    new[scan] = word;
                    continue;
                }
            },
            Row::Atom { .. } | Row::Fixnum => {}
        }
        scan += 1;
    }
    new
}

/// The answer and the store afterwards.
pub fn perform(before: &Store, call: &Call) -> (Result<u64, u64>, Store) {
    let mut after = before.clone();
    match outcome(before, call, &mut after) {
        Ok(answer) => (Ok(answer), after),
        refused => (refused, before.clone()),
    }
}

fn outcome(s: &Store, call: &Call, after: &mut Store) -> Result<u64, u64> {
    if let Call::Number(n) = *call {
        return number(n);
    }
    refuse_if(1, !cells_well_formed(&s.cells, s.top))?;
    let cells = Cells::of(&s.cells, s.top);
    match call {
        Call::Follow(_) | Call::Copy(_) | Call::Cyclic(_) => {}
        _ => refuse_if(2, !trail_well_formed(s) || !marks_well_formed(s))?,
    }
    match *call {
        Call::Check => Ok(0),
        Call::Number(_) => unreachable!(),
        Call::Follow(at) => {
            refuse_if(3, !cells.is_root(at))?;
            Ok(cells.follow(at as u64).0)
        }
        Call::Append(ref words) => appended(s, words, after),
        Call::Mark => marked(s, after),
        Call::Rollback(k) => rolled_back(s, k, after),
        Call::Cut(k) => {
            refuse_if(8, k > s.mark_count)?;
            after.marks = [&s.marks[..2 * k], &vec![0; s.marks.len() - 2 * k]].concat();
            after.mark_count = k;
            Ok(0)
        }
        Call::Unify(a, b) => unified(s, cells, (a, b), false, after),
        Call::UnifyChecked(a, b) => unified(s, cells, (a, b), true, after),
        Call::Copy(root) => copied(s, &cells, root, after),
        Call::Cyclic(root) => {
            refuse_if(3, !cells.is_root(root))?;
            Ok(cells.cyclic(root) as u64)
        }
    }
}

fn refuse_if(number: u64, holds: bool) -> Result<(), u64> {
    match holds {
        true => Err(number),
        false => Ok(()),
    }
}

fn number(n: i64) -> Result<u64, u64> {
    let range = -36_028_797_018_963_968..=36_028_797_018_963_967;
    refuse_if(11, !range.contains(&n))?;
    let value = (n as i128).rem_euclid(2i128.pow(56)) as u64;
    Ok(word_with_tag(5, value))
}

fn capacity(s: &Store) -> u64 {
    LIMIT.min(s.cells.len() as u64)
}

fn appended(s: &Store, words: &[u64], after: &mut Store) -> Result<u64, u64> {
    let (end, len) = (s.top + words.len(), s.cells.len());
    refuse_if(7, end as u64 > capacity(s))?;
    after.cells = [&s.cells[..s.top], words, &vec![0; len - end]].concat();
    after.top = end;
    refuse_if(9, !cells_well_formed(&after.cells, after.top))?;
    Ok(s.top as u64)
}

fn marked(s: &Store, after: &mut Store) -> Result<u64, u64> {
    refuse_if(7, s.marks.len() - 2 * s.mark_count < 2)?;
    after.marks[2 * s.mark_count] = s.top as u64;
    after.marks[2 * s.mark_count + 1] = s.trail_count as u64;
    after.mark_count += 1;
    Ok(after.mark_count as u64)
}

fn rolled_back(s: &Store, k: usize, after: &mut Store) -> Result<u64, u64> {
    refuse_if(8, k < 1 || k > s.mark_count)?;
    let (top, count) = (s.marks[2 * k - 2] as usize, s.marks[2 * k - 1] as usize);
    for &entry in &s.trail[count..s.trail_count] {
        after.cells[entry as usize] = var(entry);
    }
    after.cells[top..].fill(0);
    after.trail[count..].fill(0);
    after.marks[2 * k..].fill(0);
    (after.top, after.trail_count, after.mark_count) = (top, count, k);
    let kept = cells_well_formed(&after.cells, top)
        && trail_well_formed(after)
        && marks_well_formed(after);
    refuse_if(10, !kept)?;
    Ok(0)
}

fn unified(
    s: &Store,
    mut cells: Cells,
    (a, b): (usize, usize),
    checked: bool,
    after: &mut Store,
) -> Result<u64, u64> {
    refuse_if(3, !cells.is_root(a) || !cells.is_root(b))?;
    refuse_if(4, s.work.len() < 12 * s.top)?;
    refuse_if(5, s.trail.len() - s.trail_count < cells.unbound())?;
    refuse_if(6, checked && (cells.cyclic(a) || cells.cyclic(b)))?;
    after.work[..12 * s.top].fill(0);
    let Some(written) = unify(&mut cells, a as u64, b as u64, checked) else {
        return Ok(0);
    };
    after.cells[..s.top].copy_from_slice(&cells.words);
    for at in written {
        after.trail[after.trail_count] = at;
        after.trail_count += 1;
    }
    Ok(1)
}

fn copied(s: &Store, cells: &Cells, root: usize, after: &mut Store) -> Result<u64, u64> {
    refuse_if(3, !cells.is_root(root))?;
    refuse_if(4, s.work.len() < 12 * s.top)?;
    let room = cells.copy_room(root);
    refuse_if(7, s.top as u64 + room > capacity(s))?;
    let new = copy(cells, root);
    assert_eq!(new.len() as u64, room, "the room sum is exact");
    after.work[..12 * s.top].fill(0);
    after.cells[s.top..s.top + new.len()].copy_from_slice(&new);
    after.top += new.len();
    Ok(s.top as u64)
}
