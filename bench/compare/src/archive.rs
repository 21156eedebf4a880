//! The proved engine, through the safe calls of `embed/rust`.

use trisculap::Refusal;
use trisculap_reference::calls::{Call, Store};

/// Makes a call, answering as the reference's `perform` does.
pub fn perform(store: &mut Store, call: &Call) -> Result<u64, u64> {
    let answer = match *call {
        Call::Number(n) => trisculap::number(n),
        _ => on_lent_words(store, call),
    };
    answer.map_err(|refusal| refusal as u64)
}

fn on_lent_words(store: &mut Store, call: &Call) -> Result<u64, Refusal> {
    let mut lent = trisculap::Store {
        cells: &mut store.cells,
        top: store.top,
        trail: &mut store.trail,
        trailed: store.trail_count,
        marks: &mut store.marks,
        marked: store.mark_count,
        work: &mut store.work,
    };
    let done = |()| 0;
    let place = |at| at as u64;
    let verdict = |yes| yes as u64;
    let answer = match *call {
        Call::Check => lent.check().map(done),
        Call::Number(_) => unreachable!("it is lent nothing"),
        Call::Follow(at) => lent.follow(at),
        Call::Append(ref words) => lent.append(words).map(place),
        Call::Mark => lent.mark().map(place),
        Call::Rollback(k) => lent.rollback(k).map(done),
        Call::Cut(k) => lent.cut(k).map(done),
        Call::Unify(a, b) => lent.unify(a, b).map(verdict),
        Call::UnifyChecked(a, b) => lent.unify_checked(a, b).map(verdict),
        Call::Copy(root) => lent.copy(root).map(place),
        Call::Cyclic(root) => lent.cyclic(root).map(verdict),
    };
    let (top, trail_count, mark_count) = (lent.top, lent.trailed, lent.marked);
    (store.top, store.trail_count, store.mark_count) = (top, trail_count, mark_count);
    answer
}
