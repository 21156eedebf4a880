//! Well-formed stores to compare on: every small one over a small alphabet, a few large ones of
//! one shape, and random ones.

use crate::case::{Call, Case, Engine, Outcome};
use crate::model::Model;
use crate::store::{is_header, root_cells, well_formed};
use crate::word::{self, DOT, Kind, NIL, kind_of};

const A: u64 = word::atom('a' as u32);
const B: u64 = word::atom('b' as u32);
const EMPTY: u64 = word::atom(NIL);
const PAIR: u64 = word::functor(DOT, 2);
const F1: u64 = word::functor('f' as u32, 1);
const F2: u64 = word::functor('f' as u32, 2);
const G3: u64 = word::functor('g' as u32, 3);

/// Constants at the ends of their ranges, and one that differs from another only in kind.
const EDGES: [u64; 6] = [
    word::fixnum(-1),
    word::fixnum(-(1 << 55)),
    word::fixnum((1 << 55) - 1),
    word::fixnum('a' as i64),
    word::atom(0),
    word::atom(u32::MAX),
];

/// Every word that a cell of a store of `top` cells may hold, over the small alphabet.
fn alphabet(top: usize) -> Vec<u64> {
    let mut words = vec![A, EMPTY, PAIR, F1, F2, word::fixnum(7)];
    words.extend((1..top).map(word::var));
    words.extend((1..top).map(word::str));
    words.extend((2..top).map(|c| word::lis(c - 1)));
    words
}

/// Visits every well-formed store of `top` cells over the small alphabet.
pub fn every(top: usize, mut visit: impl FnMut(&[u64])) {
    let words = alphabet(top);
    for mut index in 0..words.len().pow(top as u32 - 1) {
        let mut cells = vec![0];
        for _ in 1..top {
            cells.push(words[index % words.len()]);
            index /= words.len();
        }
        if well_formed(&cells) {
            visit(&cells);
        }
    }
}

/// Every call on every root of a store.
pub fn every_call(cells: &[u64]) -> Vec<Call> {
    let roots = root_cells(cells);
    let mut calls = vec![];
    for &a in &roots {
        calls.push(Call::Copy(a));
        calls.push(Call::Cyclic(a));
        for &b in &roots {
            calls.push(Call::Plain(a, b));
            calls.push(Call::Checked(a, b));
        }
    }
    calls
}

/// Large stores of one shape, each with its two roots.
pub fn made() -> Vec<(Vec<u64>, usize, usize)> {
    vec![lists(500), wide(255), chains(500), doubled(10), doubled(24)]
}

/// A list of atoms, and a list of as many variables with an open end.
fn lists(length: usize) -> (Vec<u64>, usize, usize) {
    let mut cells = vec![0];
    for (open, end) in [(false, Some(EMPTY)), (true, None)] {
        cells.push(word::lis(cells.len() + 1));
        for _ in 0..length {
            let at = cells.len();
            cells.extend([if open { word::var(at) } else { A }, word::lis(at + 2)]);
        }
        let last = cells.len() - 1;
        cells[last] = end.unwrap_or(word::var(last));
    }
    (cells, 1, 2 * length + 2)
}

/// A structure of atoms, and one whose arguments are all one variable.
fn wide(arity: usize) -> (Vec<u64>, usize, usize) {
    let mut cells = vec![0, word::str(3), word::str(4 + arity)];
    for argument in [A, word::var(5 + arity)] {
        cells.push(word::functor('f' as u32, arity));
        cells.extend(vec![argument; arity]);
    }
    (cells, 1, 2)
}

/// Two chains of Vars, each from its highest cell down to an unbound one.
fn chains(length: usize) -> (Vec<u64>, usize, usize) {
    let mut cells = vec![0, word::var(1), word::var(2)];
    cells.extend((1..=2 * length).map(word::var));
    (cells, 2 * length + 1, 2 * length + 2)
}

/// A variable, and pairs whose two cells both name the next pair: 2^levels ways to the end.
fn doubled(levels: usize) -> (Vec<u64>, usize, usize) {
    let mut cells = vec![0, word::var(1), word::lis(3)];
    for level in 1..levels {
        cells.extend([word::lis(2 * level + 3); 2]);
    }
    cells.extend([A, A]);
    (cells, 1, 2)
}

/// Every call on two roots and their first.
pub fn pair_calls(a: usize, b: usize) -> [Call; 6] {
    [
        Call::Plain(a, b),
        Call::Plain(b, a),
        Call::Checked(a, b),
        Call::Checked(b, a),
        Call::Copy(a),
        Call::Cyclic(b),
    ]
}

/// Random numbers from a seed (SplitMix64).
pub struct Random(u64);

impl Random {
    pub fn new(seed: u64) -> Self {
        Random(seed)
    }

    fn next(&mut self) -> u64 {
        self.0 = self.0.wrapping_add(0x9E37_79B9_7F4A_7C15);
        let mut z = self.0;
        z = (z ^ z >> 30).wrapping_mul(0xBF58_476D_1CE4_E5B9);
        z = (z ^ z >> 27).wrapping_mul(0x94D0_49BB_1331_11EB);
        z ^ z >> 31
    }

    fn below(&mut self, bound: usize) -> usize {
        (self.next() % bound as u64) as usize
    }

    /// True in `percent` of a hundred calls.
    fn chance(&mut self, percent: usize) -> bool {
        self.below(100) < percent
    }

    pub fn pick<T: Copy>(&mut self, from: &[T]) -> Option<T> {
        (!from.is_empty()).then(|| from[self.below(from.len())])
    }
}

/// What a random store may contain. Stores without the things that upset the originals are needed
/// too, or hardly any case of a larger store would be compared.
struct Habit {
    /// References only go upwards, so nothing is cyclic.
    upwards: bool,
    /// A Lis may name any two cells, not only cells laid out as a pair.
    overlaps: bool,
    /// Structures '.'/2.
    dots: bool,
    /// A Str may name an atom cell that other cells name too.
    shared_atoms: bool,
    /// Percentage of plain cells that are Vars.
    variables: usize,
}

impl Habit {
    fn random(random: &mut Random) -> Self {
        Habit {
            upwards: random.chance(50),
            overlaps: random.chance(25),
            dots: random.chance(40),
            shared_atoms: random.chance(25),
            variables: 15 + random.below(50),
        }
    }
}

/// Where things stand in a store being made.
#[derive(Default)]
struct Layout {
    /// Cells still to be filled.
    plain: Vec<usize>,
    headers: Vec<usize>,
    /// First cells of pairs.
    pairs: Vec<usize>,
    /// Atom cells that only a Str names.
    atoms: Vec<usize>,
}

/// A random well-formed store of 2 to `most` cells.
pub fn random_store(random: &mut Random, most: usize) -> Vec<u64> {
    let top = 2 + random.below(most - 1);
    let habit = Habit::random(random);
    let mut cells = vec![0; top];
    let mut layout = lay_out(random, &habit, &mut cells);
    if habit.overlaps {
        layout.pairs = (1..top.saturating_sub(1))
            .filter(|&c| !is_header(cells[c]) && !is_header(cells[c + 1]))
            .collect();
    }
    for &at in &layout.plain {
        cells[at] = random_word(random, &habit, &layout, at);
    }
    if habit.shared_atoms {
        share_atoms(random, &habit, &layout, &mut cells);
    }
    break_rings(&mut cells);
    cells
}

/// Puts headers, pairs, single cells and lone atoms one after another.
fn lay_out(random: &mut Random, habit: &Habit, cells: &mut [u64]) -> Layout {
    let functors = if habit.dots {
        [F1, F2, G3, PAIR]
    } else {
        [F1, F2, G3, F2]
    };
    let mut layout = Layout::default();
    let mut at = 1;
    while at < cells.len() {
        let room = cells.len() - at - 1;
        let functor = functors[random.below(4)];
        let arity = (functor >> 32 & 0xFF) as usize;
        let length = match random.below(8) {
            0..=3 if arity <= room => {
                cells[at] = functor;
                layout.headers.push(at);
                layout.plain.extend(at + 1..=at + arity);
                1 + arity
            }
            4..=5 if room > 0 => {
                layout.pairs.push(at);
                layout.plain.extend([at, at + 1]);
                2
            }
            6 => {
                cells[at] = random.pick(&[A, B, EMPTY]).expect("three atoms");
                layout.atoms.push(at);
                1
            }
            _ => {
                layout.plain.push(at);
                1
            }
        };
        at += length;
    }
    layout
}

/// A word for the plain cell `at`.
fn random_word(random: &mut Random, habit: &Habit, layout: &Layout, at: usize) -> u64 {
    if random.chance(habit.variables) {
        let to = target(random, habit, &layout.plain, at).filter(|_| random.chance(70));
        return word::var(to.unwrap_or(at));
    }
    let reference = match random.below(8) {
        0..=2 => target(random, habit, &layout.headers, at).map(word::str),
        3..=4 => target(random, habit, &layout.pairs, at).map(word::lis),
        5 => target(random, habit, &layout.atoms, at).map(word::str),
        _ => None,
    };
    reference.unwrap_or_else(|| match random.below(4) {
        0..=2 => [A, B, EMPTY, word::fixnum(7)][random.below(4)],
        _ => EDGES[random.below(EDGES.len())],
    })
}

fn target(random: &mut Random, habit: &Habit, among: &[usize], at: usize) -> Option<usize> {
    random.pick(among).filter(|&t| t > at || !habit.upwards)
}

/// Makes a few Str cells name atoms that stand in other plain cells.
fn share_atoms(random: &mut Random, habit: &Habit, layout: &Layout, cells: &mut [u64]) {
    let constant = |w: u64| matches!(kind_of(w), Some(Kind::Atom { arity: 0, .. }));
    for _ in 0..1 + cells.len() / 6 {
        let (Some(from), Some(to)) = (random.pick(&layout.plain), random.pick(&layout.plain))
        else {
            return;
        };
        if from != to && constant(cells[to]) && (to > from || !habit.upwards) {
            // A Str that already names `from` needs it to stay an atom.
            if !cells.contains(&word::str(from)) {
                cells[from] = word::str(to);
            }
        }
    }
}

/// Makes each Var on a ring of Vars unbound.
fn break_rings(cells: &mut [u64]) {
    for start in 1..cells.len() {
        let mut at = start;
        for _ in 0..=cells.len() {
            match kind_of(cells[at]) {
                Some(Kind::Var(to)) if to != at => at = to,
                _ => break,
            }
        }
        if let Some(Kind::Var(_)) = kind_of(cells[at]) {
            cells[at] = word::var(at);
        }
    }
}

/// A store with a term and a slightly changed copy of it, and their roots: what a deep
/// unification wants.
pub fn random_twins(random: &mut Random, most: usize) -> Option<(Vec<u64>, usize, usize)> {
    let cells = random_store(random, most);
    let root = random.pick(&root_cells(&cells))?;
    let call = Call::Copy(root);
    let cells = &cells;
    let Outcome::Answered(answer) = Model.run(Case { cells, call }) else {
        return None;
    };
    let mut both = answer.cells.ok()?;
    for _ in 0..random.below(4) {
        let at = random.pick(&root_cells(&both))?;
        // An atom that a Str names must stay one.
        if !both.contains(&word::str(at)) {
            both[at] = if random.chance(60) { word::var(at) } else { A };
        }
    }
    Some((both, root, cells.len()))
}

/// A few calls on random roots of a store.
pub fn random_calls(random: &mut Random, cells: &[u64]) -> Vec<Call> {
    let roots = root_cells(cells);
    let mut calls = vec![];
    for _ in 0..4 {
        if let (Some(a), Some(b)) = (random.pick(&roots), random.pick(&roots)) {
            calls.extend([Call::Plain(a, b), Call::Checked(a, b)]);
            calls.extend([Call::Copy(a), Call::Cyclic(b)]);
        }
    }
    calls
}
