//! Written here. Runs the originals on a store in this engine's layout. Each run has a budget of heap accesses
//! and is guarded: it answers, or says how it was stopped.

use crate::layout::{cell_of_word, word_of_cell};
use crate::machine::copier::{AttrVarPolicy, copy_term};
use crate::machine::cycle_detection::CycleDetectingIter;
use crate::machine::heap::{Heap, HeapStop};
use crate::machine::machine_state::{CopyTarget, MachineState};
use crate::machine::unify::{CompositeUnifierForOccursCheck, DefaultUnifier, Unifier};
use std::any::Any;
use std::cell::Cell;
use std::mem::ManuallyDrop;
use std::panic::{AssertUnwindSafe, catch_unwind};
use std::sync::Once;

/// Why a run gave no answer.
#[derive(Clone, Debug, PartialEq, Eq)]
pub enum Stop {
    BudgetSpent,
    OutOfRange(usize),
    Panicked(String),
}

/// The verdict on cycles, and the cells once the iterator is gone.
pub struct Cyclic {
    pub yes: bool,
    pub cells: Result<Vec<u64>, Stop>,
}

/// Unifies the cells `a` and `b`: the verdict, and all cells afterwards.
pub fn unify(
    words: &[u64],
    checked: bool,
    (a, b): (usize, usize),
    budget: u64,
) -> Result<(bool, Vec<u64>), Stop> {
    let mut state = MachineState::with_heap(heap_of(words, budget));
    guarded(|| {
        state.pdl.push((heap_loc_as_cell!(a), heap_loc_as_cell!(b)));
        let plain = DefaultUnifier::from(&mut state);
        if checked {
            CompositeUnifierForOccursCheck::from(plain).unify_internal();
        } else {
            { plain }.unify_internal();
        }
    })?;
    Ok((!state.fail, words_of(&state.heap)))
}

/// Copies the term at `root`: the length that the original answers, and all cells afterwards.
pub fn copy(words: &[u64], root: usize, budget: u64) -> Result<(usize, Vec<u64>), Stop> {
    let mut state = MachineState::with_heap(heap_of(words, budget));
    let length = guarded(|| {
        let word = state.heap[root];
        let target = CopyTarget(&mut state);
        copy_term(target, word, AttrVarPolicy::DeepCopy).expect("room for a copy")
    })?;
    Ok((length, words_of(&state.heap)))
}

/// Looks for a cycle from `root`. The verdict is read before the iterator is dropped, because the
/// drop clears it. The drop is a run of its own: it can fail when the search did not.
pub fn cyclic(words: &[u64], root: usize, budget: u64) -> Result<Cyclic, Stop> {
    let mut heap = heap_of(words, budget);
    let mut search =
        guarded(|| ManuallyDrop::new(CycleDetectingIter::<true>::new(&mut heap, root)))?;
    let yes = guarded(|| {
        while search.next().is_some() {}
        search.cycle_found()
    })?;
    let restored = guarded(|| drop(ManuallyDrop::into_inner(search)));
    Ok(Cyclic {
        yes,
        cells: restored.map(|()| words_of(&heap)),
    })
}

fn heap_of(words: &[u64], budget: u64) -> Heap {
    Heap::with_cells(words.iter().copied().map(cell_of_word).collect(), budget)
}

fn words_of(heap: &Heap) -> Vec<u64> {
    heap.cells().iter().copied().map(word_of_cell).collect()
}

/// Runs a part of an original and turns every way of stopping into a value.
fn guarded<T>(run: impl FnOnce() -> T) -> Result<T, Stop> {
    QUIET_HOOK.call_once(install_quiet_hook);
    QUIET.set(true);
    let result = catch_unwind(AssertUnwindSafe(run));
    QUIET.set(false);
    result.map_err(stop_of)
}

static QUIET_HOOK: Once = Once::new();

thread_local! {
    static QUIET: Cell<bool> = const { Cell::new(false) };
}

/// A panic of an original is a result here, so nothing is printed for it.
fn install_quiet_hook() {
    let loud = std::panic::take_hook();
    std::panic::set_hook(Box::new(move |info| {
        if !QUIET.get() {
            loud(info);
        }
    }));
}

fn stop_of(payload: Box<dyn Any + Send>) -> Stop {
    match payload.downcast::<HeapStop>() {
        Ok(why) => match *why {
            HeapStop::BudgetSpent => Stop::BudgetSpent,
            HeapStop::OutOfRange(at) => Stop::OutOfRange(at),
        },
        Err(other) => Stop::Panicked(message_of(other)),
    }
}

fn message_of(payload: Box<dyn Any + Send>) -> String {
    match payload.downcast::<String>() {
        Ok(text) => *text,
        Err(other) => match other.downcast::<&'static str>() {
            Ok(text) => text.to_string(),
            Err(_) => "a panic without a message".into(),
        },
    }
}
