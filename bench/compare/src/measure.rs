//! Timing two engines on the same work: interleaved rounds in one process, medians and spreads.
//!
//! Inputs are put back between rounds, outside the timed part, so both engines find the same
//! words, warm in the cache. A timed part is a batch of passes that dwarfs the clock's own cost.

use std::hint::black_box;
use std::ops::RangeInclusive;
use std::time::{Duration, Instant};

use trisculap_reference::calls::{Call, Store};

/// An engine is whatever makes calls on a store.
pub type Engine = fn(&mut Store, &Call) -> Result<u64, u64>;

/// Calls made one after the other on a store that is the same each time.
pub struct Workload {
    pub name: String,
    pub store: Store,
    pub calls: Vec<Call>,
}

/// Nanoseconds for one pass over a workload's calls.
pub struct Timing {
    pub median: f64,
    pub min: f64,
    pub p90: f64,
}

const SHORTEST_BATCH: Duration = Duration::from_micros(20);
const TIME_FOR_A_WORKLOAD: Duration = Duration::from_millis(500);
const MOST_COPIES: usize = 64;
const ROUNDS: RangeInclusive<usize> = 31..=4001;

/// Checks that both engines answer alike, refuse nothing and leave the same words, then times
/// them. All the workloads take turns, so that a slow spell of the machine falls on each of them.
pub fn compare(workloads: &[Workload], engines: [Engine; 2]) -> Result<Vec<[Timing; 2]>, String> {
    let mut batches = Vec::new();
    for workload in workloads {
        batches.push(Batch::of_one_mind(workload, engines)?);
    }
    let time_for_all = TIME_FOR_A_WORKLOAD * workloads.len() as u32;
    let round: Duration = batches.iter_mut().map(|batch| batch.round(engines, 0)).sum();
    let rounds = (time_for_all.as_nanos() / round.as_nanos().max(1)) as usize;
    let rounds = rounds.clamp(*ROUNDS.start(), *ROUNDS.end());
    for batch in &mut batches {
        batch.samples = [vec![], vec![]];
    }
    for turn in 0..rounds {
        for batch in &mut batches {
            batch.round(engines, turn);
        }
    }
    Ok(batches.into_iter().map(Batch::timings).collect())
}

/// What is timed at once: some passes over each of some copies of the store.
struct Batch<'a> {
    workload: &'a Workload,
    copies: Vec<Store>,
    /// A pass leaves the store as it was: nothing needs to be put back.
    steady: bool,
    /// Passes over each copy: above 1 only where a pass is steady.
    repeats: usize,
    /// Nanoseconds of each round, for each engine.
    samples: [Vec<f64>; 2],
}

impl<'a> Batch<'a> {
    fn of_one_mind(workload: &'a Workload, engines: [Engine; 2]) -> Result<Batch<'a>, String> {
        let [(answers, after), (others, other_after)] =
            engines.map(|engine| workload.outcome(engine));
        let name = &workload.name;
        if answers != others {
            return Err(format!("{name}: answers differ, {answers:x?} and {others:x?}"));
        }
        if after != other_after {
            return Err(format!("{name}: the words left differ"));
        }
        if answers.iter().any(Result::is_err) {
            return Err(format!("{name}: refused, {answers:?}"));
        }
        let mut batch = Batch {
            workload,
            copies: vec![workload.store.clone()],
            steady: after == workload.store,
            repeats: 1,
            samples: [vec![], vec![]],
        };
        for engine in engines {
            batch.grow(engine);
        }
        Ok(batch)
    }

    /// Grows the batch until it lasts long enough to be timed.
    fn grow(&mut self, engine: Engine) {
        while self.time(engine) < SHORTEST_BATCH {
            if self.steady {
                self.repeats *= 2;
            } else if self.copies.len() < MOST_COPIES {
                self.copies.extend(self.copies.clone());
            } else {
                return;
            }
        }
    }

    /// Times each engine once; neither is always the first.
    fn round(&mut self, engines: [Engine; 2], turn: usize) -> Duration {
        let start = Instant::now();
        for i in [turn % 2, 1 - turn % 2] {
            let time = self.time(engines[i]);
            self.samples[i].push(time.as_nanos() as f64);
        }
        start.elapsed()
    }

    fn time(&mut self, engine: Engine) -> Duration {
        if !self.steady {
            self.put_back();
        }
        let start = Instant::now();
        for store in &mut self.copies {
            for _ in 0..self.repeats {
                for call in &self.workload.calls {
                    black_box(engine(black_box(store), black_box(call))).ok();
                }
            }
        }
        start.elapsed()
    }

    /// Puts back all words but the work buffer's, which no call reads before it has set them.
    fn put_back(&mut self) {
        let s = &self.workload.store;
        for copy in &mut self.copies {
            copy.cells.copy_from_slice(&s.cells);
            copy.trail.copy_from_slice(&s.trail);
            copy.marks.copy_from_slice(&s.marks);
            (copy.top, copy.trail_count, copy.mark_count) = (s.top, s.trail_count, s.mark_count);
        }
    }

    fn timings(self) -> [Timing; 2] {
        let passes = (self.copies.len() * self.repeats) as f64;
        self.samples.map(|mut times| {
            times.sort_by(f64::total_cmp);
            let at = |share: f64| times[((times.len() - 1) as f64 * share) as usize] / passes;
            Timing { median: at(0.5), min: at(0.0), p90: at(0.9) }
        })
    }
}

impl Workload {
    /// The answers and the store afterwards.
    fn outcome(&self, engine: Engine) -> (Vec<Result<u64, u64>>, Store) {
        let mut store = self.store.clone();
        let answers = self.calls.iter().map(|call| engine(&mut store, call)).collect();
        (answers, store)
    }
}
