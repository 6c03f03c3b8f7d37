//! The three sides, and how batches of calls are timed.

use std::time::{Duration, Instant};

/// How often all kinds of calls are gone through. A machine may do something
/// else for a second or two; then some kinds lose a pass, and none loses all.
const PASSES: usize = 5;

/// Batches of each side at most, of one kind of call in one pass.
const MOST_BATCHES: usize = 100;

/// No kind of call is timed for longer in one pass, however many batches are
/// left.
const ENOUGH: Duration = Duration::from_millis(200);

/// The library, the rival in C (tests/rival) and the second program.
#[derive(Clone, Copy, PartialEq, Debug)]
pub enum Side {
    Ours,
    Rival,
    Second,
}

impl Side {
    pub const ALL: [Side; 3] = [Side::Ours, Side::Rival, Side::Second];

    pub fn word(self) -> &'static str {
        match self {
            Side::Ours => "ours",
            Side::Rival => "rival",
            Side::Second => "second",
        }
    }

    pub fn find(word: &str) -> Option<Side> {
        Side::ALL.into_iter().find(|side| side.word() == word)
    }
}

/// What a call takes on each side, in nanoseconds or in instructions.
#[derive(Clone, Copy)]
pub struct Costs([f64; 3]);

impl Costs {
    /// In the order of all sides.
    pub fn new(costs: [f64; 3]) -> Costs {
        Costs(costs)
    }

    pub fn of(&self, side: Side) -> f64 {
        self.0[side as usize]
    }

    /// Above 1 where ours takes less.
    pub fn ratio(&self, side: Side) -> f64 {
        self.of(side) / self.of(Side::Ours)
    }

    fn lower(&mut self, side: Side, found: f64) {
        let least = &mut self.0[side as usize];
        *least = least.min(found);
    }
}

/// Nanoseconds per call in the quickest batch of each side, and how many
/// batches of each side there were.
#[derive(Clone, Copy)]
pub struct Times {
    pub quickest: Costs,
    pub batches: usize,
}

impl Times {
    /// With what another pass found.
    fn and(mut self, other: &Times) -> Times {
        for side in Side::ALL {
            self.quickest.lower(side, other.quickest.of(side));
        }
        self.batches += other.batches;
        self
    }
}

/// Nanoseconds per call in one batch; `run` gives the sum of the answers'
/// numbers.
fn time(calls: u32, run: impl FnOnce() -> u32) -> f64 {
    let start = Instant::now();
    let refused = run();
    let spent = start.elapsed().as_nanos() as f64;
    assert_eq!(refused, 0, "a call of the benchmark was refused");
    spent / f64::from(calls)
}

/// Times batches of so many calls, the sides taking turns.
pub fn quickest(calls: u32, mut run: impl FnMut(Side) -> u32) -> Times {
    let mut times = Times {
        quickest: Costs::new([f64::MAX; 3]),
        batches: 0,
    };
    let start = Instant::now();
    while times.batches < MOST_BATCHES && start.elapsed() < ENOUGH {
        for side in Side::ALL {
            times.quickest.lower(side, time(calls, || run(side)));
        }
        times.batches += 1;
    }
    times
}

/// The times of each kind, over all passes.
pub fn over_passes<K: Copy>(kinds: &[K], measure: impl Fn(K) -> Times) -> Vec<Times> {
    let pass = || -> Vec<Times> { kinds.iter().map(|kind| measure(*kind)).collect() };
    let first = pass();
    (1..PASSES).fold(first, |found, _| {
        let times = pass();
        found
            .into_iter()
            .zip(&times)
            .map(|(one, other)| one.and(other))
            .collect()
    })
}
