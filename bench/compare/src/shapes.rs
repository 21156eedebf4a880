//! The stores that are measured, each built for a given number of cells. The first two cells
//! after cell 0 are the roots.

use trisculap_reference::cell::{atom, lis, number, str, var};

pub const ROOT: usize = 1;
pub const OTHER_ROOT: usize = 2;

const A: u64 = atom('a' as u32, 0);
const B: u64 = atom('b' as u32, 0);
const NIL: u64 = atom(1_114_112, 0);
const F2: u64 = atom('f' as u32, 2);

/// The used cells of a store in the making.
struct Heap(Vec<u64>);

impl Heap {
    /// Cell 0, and two roots that are not set yet.
    fn new() -> Heap {
        Heap(vec![0, A, A])
    }

    fn top(&self) -> usize {
        self.0.len()
    }

    fn add(&mut self, words: &[u64]) -> usize {
        let at = self.top();
        self.0.extend_from_slice(words);
        at
    }

    /// A list, from the first element on; `None` is a variable at home in its own cell.
    fn list(&mut self, elements: impl IntoIterator<Item = Option<u64>>) -> u64 {
        let first = self.top();
        for element in elements {
            let at = self.top();
            self.add(&[element.unwrap_or(var(at)), lis(at + 2)]);
        }
        let last = self.top() - 1;
        self.0[last] = NIL;
        lis(first)
    }

    /// As a list, but its end leads back to its beginning.
    fn ring(&mut self, elements: impl IntoIterator<Item = Option<u64>>) -> u64 {
        let list = self.list(elements);
        let last = self.top() - 1;
        self.0[last] = list;
        list
    }

    /// f(T1, T1) where T1 is f(T2, T2) and so on, each shared; the innermost argument is `end`
    /// or a variable.
    fn doubling(&mut self, levels: usize, end: Option<u64>) -> u64 {
        let first = self.top();
        for _ in 1..levels {
            let next = str(self.top() + 3);
            self.add(&[F2, next, next]);
        }
        let end = end.unwrap_or(var(self.top() + 1));
        self.add(&[F2, end, end]);
        str(first)
    }

    /// A chain of Vars, each naming the cell before it, down to an unbound one.
    fn falling_chain(&mut self, len: usize) -> u64 {
        let first = self.top();
        self.0.push(var(first));
        self.0.extend((first..first + len - 1).map(var));
        var(self.top() - 1)
    }

    fn with_roots(mut self, root: u64, other: u64) -> Vec<u64> {
        (self.0[ROOT], self.0[OTHER_ROOT]) = (root, other);
        self.0
    }
}

/// The element of a ground list: numbers and atoms in turn.
fn constant(i: usize) -> Option<u64> {
    match i % 2 {
        0 => number(i as i64).ok(),
        _ => Some(atom('a' as u32 + i as u32 % 26, 0)),
    }
}

/// f(X, a) and f(7, Y), in nine cells.
pub fn two_structures(_cells: usize) -> Vec<u64> {
    let mut heap = Heap::new();
    let one = heap.add(&[F2, var(4), A]);
    let other = heap.add(&[F2, number(7).unwrap_or(A), var(8)]);
    heap.with_roots(str(one), str(other))
}

/// Two lists, one of variables, one of constants.
pub fn variables_and_constants(cells: usize) -> Vec<u64> {
    let len = (cells - 3) / 4;
    let mut heap = Heap::new();
    let variables = heap.list((0..len).map(|_| None));
    let constants = heap.list((0..len).map(constant));
    heap.with_roots(variables, constants)
}

/// As before, but the lists end in two constants that differ: every binding is undone.
pub fn clash_at_the_end(cells: usize) -> Vec<u64> {
    let len = (cells - 3) / 4;
    let mut heap = Heap::new();
    let variables = heap.list((0..len).map(|i| (i + 1 == len).then_some(NIL)));
    let constants = heap.list((0..len).map(constant));
    heap.with_roots(variables, constants)
}

/// Two lists of the same constants.
pub fn ground_and_ground(cells: usize) -> Vec<u64> {
    let len = (cells - 3) / 4;
    let mut heap = Heap::new();
    let one = heap.list((0..len).map(constant));
    let other = heap.list((0..len).map(constant));
    heap.with_roots(one, other)
}

/// A list of f(X, b) against a list of f(a, Y), each with variables of its own.
pub fn lists_of_structures(cells: usize) -> Vec<u64> {
    let len = (cells - 3) / 10;
    let mut heap = Heap::new();
    let mut structures = |make: &dyn Fn(usize) -> [u64; 3]| -> Vec<Option<u64>> {
        (0..len).map(|_| Some(str(heap.add(&make(heap.top()))))).collect()
    };
    let ones = structures(&|at| [F2, var(at + 1), B]);
    let others = structures(&|at| [F2, A, var(at + 2)]);
    let one = heap.list(ones);
    let other = heap.list(others);
    heap.with_roots(one, other)
}

/// Two endless lists whose periods have no common divisor: pair by pair, the walk would be as
/// long as the product of the periods.
pub fn coprime_rings(cells: usize) -> Vec<u64> {
    let period = (cells - 5) / 4;
    let mut heap = Heap::new();
    let one = heap.ring((0..period).map(|_| Some(A)));
    let other = heap.ring((0..=period).map(|_| Some(A)));
    heap.with_roots(one, other)
}

/// Two terms with 2 to the power of their depth as many paths.
pub fn two_doubling_terms(cells: usize) -> Vec<u64> {
    let levels = (cells - 3) / 6;
    let mut heap = Heap::new();
    let one = heap.doubling(levels, None);
    let other = heap.doubling(levels, Some(A));
    heap.with_roots(one, other)
}

/// [X1, X2, ...] against [f(X0, X0), f(X1, X1), ...]: each binding doubles the term.
pub fn doubling_by_binding(cells: usize) -> Vec<u64> {
    let levels = (cells - 4) / 7;
    let mut heap = Heap::new();
    let x_0 = heap.top();
    heap.add(&[var(x_0)]);
    let variables_at = heap.top();
    let variables = heap.list((0..levels).map(|_| None));
    let mut structures = vec![];
    for i in 0..levels {
        let x = if i == 0 { x_0 } else { variables_at + 2 * (i - 1) };
        structures.push(Some(str(heap.add(&[F2, var(x), var(x)]))));
    }
    let structures = heap.list(structures);
    heap.with_roots(variables, structures)
}

/// A ring of pairs each of which shares a cell with the next: joined one after the other, the
/// classes grow as long as they can.
pub fn overlapping_pairs(cells: usize) -> Vec<u64> {
    let mut words: Vec<u64> = (0..cells).map(|at| lis(at + 1)).collect();
    words[0] = 0;
    words[cells - 2..].fill(lis(1));
    words
}

/// Two long chains of Vars, each down to an unbound one.
pub fn two_chains(cells: usize) -> Vec<u64> {
    let len = (cells - 3) / 2;
    let mut heap = Heap::new();
    let one = heap.falling_chain(len);
    let other = heap.falling_chain(len);
    heap.with_roots(one, other)
}

/// A list whose elements all name the far end of one long chain, against a list of one atom.
pub fn pairs_over_one_chain(cells: usize) -> Vec<u64> {
    let len = (cells - 3) / 6;
    let mut heap = Heap::new();
    let far = heap.falling_chain(2 * len);
    let one = heap.list((0..len).map(|_| Some(far)));
    let other = heap.list((0..len).map(|_| Some(A)));
    heap.with_roots(one, other)
}

/// One list of variables and constants in turn.
pub fn list(cells: usize) -> Vec<u64> {
    let len = (cells - 3) / 2;
    let mut heap = Heap::new();
    let list = heap.list((0..len).map(|i| if i % 3 == 0 { None } else { constant(i) }));
    heap.with_roots(list, A)
}

/// One deep term, each level of which is named twice.
pub fn deep_and_shared(cells: usize) -> Vec<u64> {
    let mut heap = Heap::new();
    let term = heap.doubling((cells - 3) / 3, None);
    heap.with_roots(term, A)
}

/// A few wide structures, each argument of which names the next structure.
pub fn wide_and_shared(cells: usize) -> Vec<u64> {
    let width = ((cells - 3) / 4 - 1).min(255);
    let mut heap = Heap::new();
    let first = heap.top();
    while heap.top() + 2 * (1 + width) <= cells {
        let next = str(heap.top() + 1 + width);
        heap.add(&[atom('w' as u32, width as u8)]);
        heap.0.extend(vec![next; width]);
    }
    heap.add(&[atom('w' as u32, width as u8)]);
    heap.0.extend(vec![A; width]);
    heap.with_roots(str(first), A)
}

/// One long chain of Vars that each name the next cell up, to an unbound one.
pub fn rising_chain(cells: usize) -> Vec<u64> {
    let mut words: Vec<u64> = (0..cells).map(|at| var(at + 1)).collect();
    words[0] = 0;
    words[cells - 1] = var(cells - 1);
    words
}

/// One long chain of Vars that each name the next cell down, to an unbound one.
pub fn falling_chain(cells: usize) -> Vec<u64> {
    let mut words: Vec<u64> = (0..cells).map(|at| var(at.max(2) - 1)).collect();
    words[0] = 0;
    words
}

/// Two chains of Vars, the first up to an unbound one, the second down to one.
pub fn chain_up_and_chain_down(cells: usize) -> Vec<u64> {
    let mut words = rising_chain(cells / 2);
    words.extend((cells / 2..cells).map(|at| var(at.max(cells / 2 + 1) - 1)));
    words[cells / 2] = var(cells / 2);
    words
}

/// One chain of Vars that swings between both ends of the store, to an unbound one in the middle.
pub fn swinging_chain(cells: usize) -> Vec<u64> {
    let last = cells - 1;
    let mut words: Vec<u64> = (0..cells)
        .map(|at| if 2 * at <= last { var(last + 1 - at) } else { var(last + 2 - at) })
        .collect();
    words[0] = 0;
    words[last / 2 + 1] = var(last / 2 + 1);
    words
}

/// One chain of Vars through all cells in random order, to an unbound one.
pub fn shuffled_chain(cells: usize) -> Vec<u64> {
    let mut order: Vec<usize> = (1..cells).collect();
    let mut random: u64 = 1;
    for i in (1..order.len()).rev() {
        random = random.wrapping_mul(0x5851_F42D_4C95_7F2D).wrapping_add(1);
        order.swap(i, (random >> 33) as usize % (i + 1));
    }
    let mut words = vec![0; cells];
    for (i, &at) in order.iter().enumerate() {
        words[at] = var(order[i.max(1) - 1]);
    }
    words
}

/// Many chains into one: teeth of eight Vars lead up into a chain that leads down.
pub fn comb_of_chains(cells: usize) -> Vec<u64> {
    let low = cells / 2;
    let mut words: Vec<u64> = (0..cells).map(|at| var(at.max(low + 1) - 1)).collect();
    for (at, word) in words.iter_mut().enumerate().take(low) {
        *word = if at % 8 == 7 { var(low + at) } else { var(at + 1) };
    }
    words[0] = 0;
    words
}

/// Links of one step, up and down in turns: each third cell is a constant that both its
/// neighbours name.
pub fn links_both_ways(cells: usize) -> Vec<u64> {
    let link = |at: usize| match at % 3 {
        1 if at + 1 < cells => var(at + 1),
        2 => A,
        0 if at > 0 => var(at - 1),
        _ => NIL,
    };
    let mut words: Vec<u64> = (0..cells).map(link).collect();
    words[0] = 0;
    words
}

/// Words to append at a `top`: Vars that name the next one up, in turn with those that name an old
/// one. There is an even number of them.
pub fn links_to_append(top: usize, len: usize) -> Vec<u64> {
    (0..len).map(|i| if i % 2 == 0 { var(top + i + 1) } else { var(ROOT) }).collect()
}

/// Words to append at a `top`: a list of constants.
pub fn words_to_append(top: usize, len: usize) -> Vec<u64> {
    let pairs = (0..len.div_ceil(2)).flat_map(|i| [A, lis(top + 2 * i + 2)]);
    let mut words: Vec<u64> = pairs.take(len).collect();
    words[len - 1] = NIL;
    words
}
