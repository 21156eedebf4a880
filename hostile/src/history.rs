//! Histories from a fresh store: what is not struck gives the same words again.

use trisculap_reference::calls::{Call, Store};

use crate::guard::Side;
use crate::lent::Lender;
use crate::random::{self, Random};

/// A call that was made, and whether it is struck.
struct Line {
    call: Call,
    /// The number of the mark that it set.
    sets: Option<usize>,
    struck: bool,
}

/// Makes calls on a fresh store, strikes, makes the rest again and compares every word.
pub fn replays(r: &mut Random, lender: &mut Lender) -> Result<(), String> {
    let mut fresh = Store::fresh(1 + r.below(60), r.below(10));
    fresh.trail.truncate(r.below(61));
    let mut store = fresh.clone();
    let mut book: Vec<Line> = vec![];
    for _ in 0..r.below(60) {
        let mut calls = random::calls(r, &store);
        let call = calls.swap_remove(r.below(calls.len()));
        let standing = store.mark_count;
        let after = lender.judged(&store, &call, Side::High)?;
        store = after.store;
        write(&mut book, call, after.returned, after.answer, standing)?;
    }
    let mut again = fresh;
    for line in book.iter().filter(|line| !line.struck) {
        again = lender.judged(&again, &line.call, Side::Low)?.store;
    }
    again.work.clone_from(&store.work);
    if again == store {
        return Ok(());
    }
    let calls: Vec<&Call> = book.iter().map(|line| &line.call).collect();
    Err(format!("what is not struck gives other words: {calls:x?}"))
}

/// One line more. A refused or failed call is struck; a rollback done is struck with what came
/// between the mark it went back to and it.
fn write(
    book: &mut Vec<Line>,
    call: Call,
    returned: u64,
    answer: u64,
    standing: usize,
) -> Result<(), String> {
    let failed = matches!(call, Call::Unify(..) | Call::UnifyChecked(..)) && answer == 0;
    let done = returned == 0 && !failed;
    let sets = (matches!(call, Call::Mark) && done).then_some(answer as usize);
    let mut struck = !done;
    if let Call::Rollback(k) = call {
        if !done && 1 <= k && k <= standing {
            return Err(format!("a rollback to the standing mark {k} was refused: {returned}"));
        }
        if done {
            struck = true;
            let later = book.iter_mut().rev().take_while(|line| line.sets != Some(k));
            later.for_each(|line| line.struck = true);
        }
    }
    book.push(Line { call, sets, struck });
    Ok(())
}
