//! A run of calls from a fresh store, with what was undone struck out, can be replayed: the rest
//! gives the same cells, trail, marks and counts, and no rollback to a standing mark is refused.

use crate::random::{self, Random};
use trisculap_reference::calls::{perform, Call, Store};

/// The calls that still count, and for each standing mark how many there were when it was set.
#[derive(Default)]
struct History {
    lines: Vec<Call>,
    standing: Vec<usize>,
}

impl History {
    fn record(&mut self, call: Call, answer: Result<u64, u64>) {
        match (&call, answer) {
            (Call::Rollback(k), answer) if (1..=self.standing.len()).contains(k) => {
                assert_eq!(answer, Ok(0), "a rollback to a standing mark is never refused");
                self.lines.truncate(self.standing[k - 1]);
                self.standing.truncate(*k);
            }
            (_, Err(_)) | (Call::Unify(..) | Call::UnifyChecked(..), Ok(0)) => {}
            _ => self.keep(call),
        }
    }

    fn keep(&mut self, call: Call) {
        if let Call::Cut(k) = call {
            self.standing.truncate(k);
        }
        let sets_mark = call == Call::Mark;
        self.lines.push(call);
        if sets_mark {
            self.standing.push(self.lines.len());
        }
    }
}

/// A call that changes something, with small numbers.
fn next_call(r: &mut Random, store: &Store) -> Call {
    loop {
        let calls = random::calls(r, store);
        let call = calls[r.below(calls.len())].clone();
        match call {
            Call::Check | Call::Number(_) | Call::Follow(_) | Call::Cyclic(_) => {}
            Call::Rollback(_) if r.one_in(2) => {}
            Call::Cut(_) if r.one_in(2) => {}
            _ => return call,
        }
    }
}

#[test]
fn what_was_not_struck_replays_word_for_word() {
    let mut r = Random::seeded(2);
    for _ in 0..20_000 {
        let fresh = Store::fresh(8 + r.below(60), r.below(12));
        let (mut store, mut history) = (fresh.clone(), History::default());
        for _ in 0..r.below(40) {
            let call = next_call(&mut r, &store);
            let answer = perform(&mut store, &call);
            history.record(call, answer);
        }
        let mut replayed = fresh;
        for call in &history.lines {
            perform(&mut replayed, call).expect("a call that counted is not refused");
        }
        replayed.work.clone_from(&store.work);
        assert_eq!(replayed, store);
    }
}
