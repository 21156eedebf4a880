//! A case: a store, a call and its roots. An engine answers cases; the originals, the model and
//! the proved engine are engines.

pub use originals::Stop;

/// A public call that the originals have too.
#[derive(Clone, Copy, Debug, PartialEq, Eq)]
pub enum Call {
    Plain(usize, usize),
    Checked(usize, usize),
    Copy(usize),
    Cyclic(usize),
}

impl Call {
    pub fn roots(self) -> Vec<usize> {
        match self {
            Call::Plain(a, b) | Call::Checked(a, b) => vec![a, b],
            Call::Copy(root) | Call::Cyclic(root) => vec![root],
        }
    }
}

/// The used cells of a well-formed store (`top` is their number) and a call on it.
#[derive(Clone, Copy, Debug)]
pub struct Case<'a> {
    pub cells: &'a [u64],
    pub call: Call,
}

/// What an engine makes of a case.
#[derive(Clone, Debug, PartialEq, Eq)]
pub enum Outcome {
    Answered(Answer),
    Refused(u64),
    /// Only the originals stop without an answer.
    Stopped(Stop),
    /// Lent words beside the answer are not as the rules say: which.
    Broken(&'static str),
}

#[derive(Clone, Debug, PartialEq, Eq)]
pub struct Answer {
    /// 1 or 0 for a verdict; for a copy the cell where it starts.
    pub value: usize,
    /// The used cells afterwards, or why an original broke off while putting them back.
    pub cells: Result<Vec<u64>, Stop>,
    /// The cells written by a unification, in order. The originals keep no such list.
    pub trail: Vec<usize>,
}

pub trait Engine {
    fn name(&self) -> &'static str;
    fn run(&self, case: Case) -> Outcome;
}
