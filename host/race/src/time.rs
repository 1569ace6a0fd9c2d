//! Nanoseconds of a call: ours and the rival's in turn, in batches, and the quickest batch of each counts.

use crate::make::make;
use crate::rival::RIVAL;
use crate::rows::Row;
use crate::table::Pair;
use face::call::Call;
use face::raw::{Functions, OURS};
use std::time::{Duration, Instant};

/// A batch lasts at least so long, so that reading the clock does not show.
const BATCH: Duration = Duration::from_micros(20);
/// Each row is timed so often, at other times of the run, and each time for so long.
const PASSES: usize = 6;
const ROUND: Duration = Duration::from_millis(70);

struct Timed {
    call: Call,
    /// How many calls are in a batch.
    calls: u64,
    best: [Duration; 2],
}

impl Timed {
    fn new(row: &Row) -> Timed {
        let mut timed = Timed {
            call: row.call.clone(),
            calls: 1,
            best: [Duration::MAX; 2],
        };
        while timed.batch(&OURS).min(timed.batch(&RIVAL)) < BATCH {
            timed.calls *= 2;
        }
        timed
    }

    fn batch(&mut self, functions: &Functions) -> Duration {
        let start = Instant::now();
        make(functions, &mut self.call, self.calls);
        start.elapsed()
    }

    fn round(&mut self) {
        let start = Instant::now();
        while start.elapsed() < ROUND {
            for (side, functions) in [&OURS, &RIVAL].into_iter().enumerate() {
                self.best[side] = self.best[side].min(self.batch(functions));
            }
        }
    }

    fn pair(&self) -> Pair {
        self.best
            .map(|best| best.as_nanos() as f64 / self.calls as f64)
    }
}

pub fn nanoseconds(rows: &[Row]) -> Vec<Pair> {
    let mut timed: Vec<Timed> = rows.iter().map(Timed::new).collect();
    for _ in 0..PASSES {
        timed.iter_mut().for_each(Timed::round);
    }
    timed.iter().map(Timed::pair).collect()
}
