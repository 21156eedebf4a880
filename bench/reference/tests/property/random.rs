//! Random stores and calls: stores well formed by construction, and ways to damage them.

use trisculap_reference::calls::{Call, Store};
use trisculap_reference::cell::{atom, is_atom, is_header, lis, number, str, var};
use trisculap_reference::WORK_PER_CELL;

/// A xorshift generator: small, fast, the same on every machine.
pub struct Random(u64);

impl Random {
    pub fn seeded(seed: u64) -> Random {
        Random(seed.wrapping_mul(0x9E37_79B9_7F4A_7C15) | 1)
    }

    pub fn word(&mut self) -> u64 {
        self.0 ^= self.0 << 13;
        self.0 ^= self.0 >> 7;
        self.0 ^= self.0 << 17;
        self.0
    }

    /// A number from 0 to `n` - 1.
    pub fn below(&mut self, n: usize) -> usize {
        (self.word() >> 11) as usize % n
    }

    /// True once in `n` times.
    pub fn one_in(&mut self, n: usize) -> bool {
        self.below(n) == 0
    }

    fn pick<T: Copy>(&mut self, from: &[T]) -> T {
        from[self.below(from.len())]
    }
}

/// Few names, so that terms often agree: a, '.', [].
const NAMES: [u32; 3] = [97, 46, 1_114_112];

/// Gives each cell from `from` on a word that keeps the store well formed.
fn fill(r: &mut Random, cells: &mut [u64], from: usize) {
    let open = place_headers(r, cells, from);
    for &at in &open {
        cells[at] = match r.one_in(4) {
            true => atom(r.pick(&NAMES), 0),
            false => var(at),
        };
    }
    let others: Vec<usize> = (1..cells.len()).filter(|&i| !is_header(cells[i])).collect();
    let atoms: Vec<usize> = (1..cells.len()).filter(|&i| is_atom(cells[i])).collect();
    let pairs: Vec<usize> = others.iter().copied().filter(|l| others.contains(&(l + 1))).collect();
    // Vars lead to lower ranks only, so that following ends; old cells rank lowest.
    let ranks: Vec<u64> =
        (0..cells.len()).map(|i| if i < from { 0 } else { 1 | r.word() }).collect();
    for &at in open.iter().filter(|at| !atoms.contains(at)) {
        let target = r.pick(&others);
        cells[at] = match r.below(6) {
            0 if ranks[target] < ranks[at] => var(target),
            1 | 2 if !atoms.is_empty() => str(r.pick(&atoms)),
            3 | 4 if !pairs.is_empty() => lis(r.pick(&pairs)),
            5 if r.one_in(2) => number(r.below(2) as i64 - 1).unwrap(),
            _ => var(at),
        };
    }
}

/// Places headers with room behind them; answers the cells that are still to be given a word.
fn place_headers(r: &mut Random, cells: &mut [u64], from: usize) -> Vec<usize> {
    let mut open = vec![];
    let mut at = from;
    while at < cells.len() {
        let arity = 1 + r.below(3);
        if r.one_in(3) && at + arity < cells.len() {
            cells[at] = atom(r.pick(&NAMES), arity as u8);
            open.extend(at + 1..=at + arity);
            at += arity + 1;
        } else {
            open.push(at);
            at += 1;
        }
    }
    open
}

/// A well-formed store of up to `most` cells.
pub fn store(r: &mut Random, most: usize) -> Store {
    let mut used = vec![0; 1 + r.below(most)];
    fill(r, &mut used, 1);
    lent(r, used)
}

/// A store of up to `most` cells, nearly all of them Vars, in chains that lead up and down. In half
/// of them one more Var is made to name any cell, which may close a ring.
pub fn chains(r: &mut Random, most: usize) -> Store {
    let mut used = vec![0; 3 + r.below(most - 2)];
    let mut order: Vec<usize> = (1..used.len()).collect();
    let mixed = r.below(2 * used.len());
    for _ in 0..mixed {
        let (a, b) = (r.below(order.len()), r.below(order.len()));
        order.swap(a, b);
    }
    // A Var names one of the few before it in this order, so that following ends.
    let near = 1 + r.below(8);
    for (i, &at) in order.iter().enumerate() {
        used[at] = match r.below(20) {
            0 => atom(r.pick(&NAMES), 0),
            1..=17 if i > 0 => var(order[i - 1 - r.below(near.min(i))]),
            _ => var(at),
        };
    }
    if r.one_in(2) {
        used[r.pick(&order)] = var(r.pick(&order));
    }
    lent(r, used)
}

/// These cells, with trail, marks and a work buffer full of rubbish.
fn lent(r: &mut Random, mut used: Vec<u64>) -> Store {
    let top = used.len();
    let unbound = (1..top).filter(|&at| used[at] == var(at)).count();
    let mut trail: Vec<u64> =
        (1..top as u64).filter(|&at| used[at as usize] != var(at as usize)).collect();
    trail.retain(|_| r.one_in(3));
    let trail_count = trail.len();
    trail.resize(trail_count + unbound + r.below(3), 0);
    let (marks, mark_count) = marks(r, top, trail_count);
    let spare = r.below(3);
    let work = (0..WORK_PER_CELL * top + spare).map(|_| r.word()).collect();
    used.resize(top + r.below(30), 0);
    Store { cells: used, top, trail, trail_count, marks, mark_count, work }
}

/// Marks that never fall, most of them at the present counts.
fn marks(r: &mut Random, top: usize, trail_count: usize) -> (Vec<u64>, usize) {
    let count = r.below(4);
    let mut at_or_below = |present: usize| -> Vec<u64> {
        let mut values: Vec<u64> = (0..count)
            .map(|_| if r.one_in(2) { present } else { r.below(present + 1) } as u64)
            .collect();
        values.sort();
        values
    };
    let (tops, counts) = (at_or_below(top), at_or_below(trail_count));
    let mut words: Vec<u64> = tops.into_iter().zip(counts).flat_map(|(t, c)| [t, c]).collect();
    words.resize(words.len() + r.below(4), 0);
    (words, count)
}

/// Leaves two stores in three whole and damages the others once or twice.
pub fn perhaps_damaged(r: &mut Random, mut store: Store) -> Store {
    if r.one_in(3) {
        for _ in 0..1 + r.below(2) {
            damage(r, &mut store);
        }
    }
    store
}

/// Breaks something, or nearly: a word, a count or a length.
fn damage(r: &mut Random, s: &mut Store) {
    let odd = odd_number(r);
    match r.below(12) {
        0..=3 => overwrite(r, &mut s.cells, odd_word),
        4 | 5 => overwrite(r, &mut s.cells, |r, _| 1 << r.below(64)),
        6 => overwrite(r, &mut s.trail, |_, _| odd as u64),
        7 => overwrite(r, &mut s.marks, |_, _| odd as u64),
        8 => s.top = odd,
        9 => s.trail_count = odd,
        10 => s.mark_count = odd,
        _ => shorten(r, s),
    }
}

/// Mixes a word into one of `words`: replaces it, or flips its bits where it is there already.
fn overwrite(r: &mut Random, words: &mut [u64], make: impl Fn(&mut Random, usize) -> u64) {
    if words.is_empty() {
        return;
    }
    let at = r.below(words.len());
    let word = make(r, words.len());
    words[at] = if r.one_in(2) { word } else { words[at] ^ word };
}

fn shorten(r: &mut Random, s: &mut Store) {
    let words = match r.below(4) {
        0 => &mut s.cells,
        1 => &mut s.trail,
        2 => &mut s.marks,
        _ => &mut s.work,
    };
    let len = words.len().saturating_sub(1 + r.below(2));
    words.truncate(len);
}

fn odd_word(r: &mut Random, len: usize) -> u64 {
    let at = r.below(len + 2);
    match r.below(8) {
        0 | 1 => var(at),
        2 => str(at),
        3 => lis(at),
        4 => atom(r.pick(&NAMES), r.below(4) as u8),
        5 => 0,
        6 => number(-1).unwrap(),
        _ => r.word(),
    }
}

/// A small number, or one that wraps when doubled or added to.
fn odd_number(r: &mut Random) -> usize {
    match r.below(8) {
        0 => usize::MAX - r.below(3),
        1 => usize::MAX / 2 + r.below(3),
        2 => 4095 + r.below(3),
        _ => r.below(20),
    }
}

/// One call of each kind, most of them with arguments that can be accepted.
pub fn calls(r: &mut Random, s: &Store) -> Vec<Call> {
    let words = words_to_append(r, s);
    let roots: Vec<usize> = (0..4).map(|_| root(r, s)).collect();
    let small = |r: &mut Random| {
        if r.one_in(8) {
            odd_number(r)
        } else {
            r.below(5)
        }
    };
    vec![
        Call::Check,
        Call::Number(r.word() as i64 >> r.below(64)),
        Call::Follow(roots[0]),
        Call::Append(words),
        Call::Mark,
        Call::Rollback(small(r)),
        Call::Cut(small(r)),
        Call::Unify(roots[0], roots[1]),
        Call::UnifyChecked(roots[0], roots[1]),
        Call::UnifyChecked(roots[2], roots[3]),
        Call::Copy(roots[2]),
        Call::Cyclic(roots[3]),
    ]
}

fn root(r: &mut Random, s: &Store) -> usize {
    match r.one_in(16) {
        true => odd_number(r),
        false => 1 + r.below(s.top.clamp(2, 64) - 1),
    }
}

fn words_to_append(r: &mut Random, s: &Store) -> Vec<u64> {
    let len = r.below(8);
    if s.top == 0 || s.top > s.cells.len() {
        return (0..len).map(|_| odd_word(r, len)).collect();
    }
    let mut cells = s.cells[..s.top].to_vec();
    cells.resize(s.top + len, 0);
    fill(r, &mut cells, s.top);
    let mut words = cells.split_off(s.top);
    if r.one_in(4) {
        overwrite(r, &mut words, |r, len| odd_word(r, s.top + len));
    }
    words
}
