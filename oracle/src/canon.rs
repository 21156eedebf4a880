//! One text for what cells mean, whatever words carry it. Works on any words in this engine's
//! layout, also on cells that are not well formed.
//!
//! The cells reached from the roots are a graph of terms. Cells that mean the same rational tree
//! are merged by refining a partition. The merged nodes are then written out in order of first
//! visit, variables numbered by first occurrence. So two stores give the same text exactly when
//! their roots mean the same terms, up to the naming of variables. Lis is '.'/2, and a Str of
//! arity 0 is its atom.

use crate::word::{DOT, Kind, NIL, kind_of};
use std::collections::HashMap;
use std::fmt::Write;

/// What a node is, apart from its arguments.
#[derive(Clone, Copy, PartialEq, Eq, Hash)]
enum Label {
    Variable(usize),
    Atom(u32),
    Number(i64),
    Compound(u32, usize),
    /// A word that no well-formed term holds here.
    Bad(u64),
    /// A reference past the used cells, or a ring of Vars.
    Nowhere,
}

struct Node {
    label: Label,
    arguments: Vec<usize>,
}

/// The canonical text of the terms at `roots`, taken together.
pub fn form(cells: &[u64], top: usize, roots: &[usize]) -> String {
    let cells = &cells[..top];
    let (nodes, root_nodes) = graph(cells, roots);
    let classes = merge(&nodes);
    let mut writer = Writer {
        nodes: &nodes,
        classes: &classes,
        places: vec![None; nodes.len()],
        variables: 0,
        compounds: 0,
        text: String::new(),
    };
    for (root, node) in roots.iter().zip(root_nodes) {
        write!(writer.text, "{root}:").expect("text");
        writer.term(node);
        writer.text.push(' ');
    }
    writer.text.pop();
    writer.text
}

/// The nodes reached from the roots, and the node of each root.
fn graph(cells: &[u64], roots: &[usize]) -> (Vec<Node>, Vec<usize>) {
    let mut number = vec![None; cells.len() + 1];
    let mut order = vec![];
    let mut node_at = |cell: usize, order: &mut Vec<usize>| {
        let end = end_of_chain(cells, cell);
        *number[end].get_or_insert_with(|| {
            order.push(end);
            order.len() - 1
        })
    };
    let root_nodes = roots.iter().map(|&r| node_at(r, &mut order)).collect();
    let mut nodes = vec![];
    while nodes.len() < order.len() {
        let (label, first) = label_at(cells, order[nodes.len()]);
        let arity = match label {
            Label::Compound(_, arity) => arity,
            _ => 0,
        };
        let arguments = (first..first + arity).map(|c| node_at(c, &mut order));
        let arguments = arguments.collect();
        nodes.push(Node { label, arguments });
    }
    (nodes, root_nodes)
}

/// Where following Vars ends; one past the last cell if it leaves the store or never ends.
fn end_of_chain(cells: &[u64], mut at: usize) -> usize {
    for _ in 0..=cells.len() {
        match cells.get(at).map(|&w| kind_of(w)) {
            None => return cells.len(),
            Some(Some(Kind::Var(to))) if to != at => at = to,
            Some(_) => return at,
        }
    }
    cells.len()
}

/// The label of the node at a cell, and the cell of its first argument.
fn label_at(cells: &[u64], at: usize) -> (Label, usize) {
    let Some(&word) = cells.get(at) else {
        return (Label::Nowhere, 0);
    };
    let bad = (Label::Bad(word), 0);
    match kind_of(word) {
        None => bad,
        Some(Kind::Var(_)) => (Label::Variable(at), 0),
        Some(Kind::Fixnum(n)) => (Label::Number(n), 0),
        Some(Kind::Lis(first)) => (Label::Compound(DOT, 2), first),
        Some(Kind::Atom { name, arity: 0 }) => (Label::Atom(name), 0),
        Some(Kind::Atom { .. }) => bad,
        Some(Kind::Str(f)) => match cells.get(f).and_then(|&w| kind_of(w)) {
            Some(Kind::Atom { name, arity: 0 }) => (Label::Atom(name), 0),
            Some(Kind::Atom { name, arity }) => (Label::Compound(name, arity), f + 1),
            _ => bad,
        },
    }
}

/// A class number for each node: equal exactly for nodes that mean the same rational tree. Starts
/// from the labels and splits until the arguments of a class lie in the same classes.
fn merge(nodes: &[Node]) -> Vec<usize> {
    let mut labels = HashMap::new();
    let mut classes: Vec<usize> = (nodes.iter())
        .map(|n| number(&mut labels, n.label))
        .collect();
    let mut count = labels.len();
    loop {
        let mut shapes = HashMap::new();
        let finer: Vec<usize> = (nodes.iter().zip(&classes))
            .map(|(n, &class)| {
                let below: Vec<usize> = n.arguments.iter().map(|&a| classes[a]).collect();
                number(&mut shapes, (class, below))
            })
            .collect();
        if shapes.len() == count {
            return classes;
        }
        count = shapes.len();
        classes = finer;
    }
}

/// The number of a key, the next free one if it is new.
fn number<K: std::hash::Hash + Eq>(known: &mut HashMap<K, usize>, key: K) -> usize {
    let next = known.len();
    *known.entry(key).or_insert(next)
}

/// Writes each class in full once and by its number afterwards.
struct Writer<'a> {
    nodes: &'a [Node],
    classes: &'a [usize],
    places: Vec<Option<usize>>,
    variables: usize,
    compounds: usize,
    text: String,
}

enum Step {
    Node(usize),
    Text(char),
}

impl Writer<'_> {
    /// A list of steps in place of recursion, since a term may be as deep as the store is long.
    fn term(&mut self, node: usize) {
        let mut steps = vec![Step::Node(node)];
        while let Some(step) = steps.pop() {
            match step {
                Step::Text(c) => self.text.push(c),
                Step::Node(n) => self.node(n, &mut steps),
            }
        }
    }

    fn node(&mut self, node: usize, steps: &mut Vec<Step>) {
        let nodes = self.nodes;
        let place = &mut self.places[self.classes[node]];
        let text = &mut self.text;
        let done = match nodes[node].label {
            Label::Variable(_) => {
                let number = *place.get_or_insert_with(|| {
                    self.variables += 1;
                    self.variables
                });
                write!(text, "_{number}")
            }
            Label::Atom(name) => write!(text, "{}", name_text(name)),
            Label::Number(n) => write!(text, "{n}"),
            Label::Bad(word) => write!(text, "bad{word:#x}"),
            Label::Nowhere => write!(text, "nowhere"),
            Label::Compound(name, _) => match place {
                Some(number) => write!(text, "#{number}"),
                None => {
                    self.compounds += 1;
                    *place = Some(self.compounds);
                    push_arguments(&nodes[node].arguments, steps);
                    write!(text, "{}(", name_text(name))
                }
            },
        };
        done.expect("text");
    }
}

/// The steps that write arguments and the closing bracket, last first.
fn push_arguments(arguments: &[usize], steps: &mut Vec<Step>) {
    steps.push(Step::Text(')'));
    for (i, &argument) in arguments.iter().enumerate().rev() {
        steps.push(Step::Node(argument));
        if i > 0 {
            steps.push(Step::Text(','));
        }
    }
}

/// An atom's name: the character in quotes where it is plain, else its number.
pub fn name_text(name: u32) -> String {
    match name {
        NIL => "[]".into(),
        33..=126 => format!("'{}'", name as u8 as char),
        _ => format!("c{name}"),
    }
}
