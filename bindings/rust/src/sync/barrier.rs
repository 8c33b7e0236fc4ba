//! A point that threads pass together.

use super::{Condvar, Mutex};

/// A point that threads pass together, as `std::sync::Barrier`.
///
/// ```
/// use pukzarn::sync::{Arc, Barrier};
///
/// pukzarn::model(|sim| {
///     let barrier = Arc::new(Barrier::new(2));
///     for name in ["first", "second"] {
///         let barrier = Arc::clone(&barrier);
///         sim.tracer(name, move || drop(barrier.wait()));
///     }
///     assert!(sim.run().waiting.is_empty());
/// });
/// ```
#[derive(Debug)]
pub struct Barrier {
    threads: usize,
    state: Mutex<Round>,
    passed: Condvar,
}

/// How many threads wait, and how often all have passed.
#[derive(Debug)]
struct Round {
    waiting: usize,
    number: u64,
}

/// Whether a thread was the last to come to a barrier.
///
/// ```
/// use pukzarn::sync::{Barrier, BarrierWaitResult};
///
/// let result: BarrierWaitResult = Barrier::new(1).wait();
/// assert!(result.is_leader());
/// ```
#[derive(Debug)]
pub struct BarrierWaitResult(bool);

impl BarrierWaitResult {
    /// Whether the thread was the last one.
    ///
    /// ```
    /// assert!(pukzarn::sync::Barrier::new(1).wait().is_leader());
    /// ```
    pub fn is_leader(&self) -> bool {
        self.0
    }
}

impl Barrier {
    /// A barrier of this many threads.
    ///
    /// ```
    /// static TOGETHER: pukzarn::sync::Barrier = pukzarn::sync::Barrier::new(1);
    /// assert!(TOGETHER.wait().is_leader());
    /// ```
    pub const fn new(threads: usize) -> Barrier {
        Barrier { threads, state: Mutex::new(Round { waiting: 0, number: 0 }), passed: Condvar::new() }
    }

    /// Waits until all threads have come.
    ///
    /// ```
    /// assert!(pukzarn::sync::Barrier::new(0).wait().is_leader());
    /// ```
    pub fn wait(&self) -> BarrierWaitResult {
        let mut round = self.state.lock().unwrap_or_else(super::PoisonError::into_inner);
        round.waiting += 1;
        if round.waiting < self.threads {
            let number = round.number;
            let passed = self.passed.wait_while(round, |round| round.number == number);
            drop(passed);
            return BarrierWaitResult(false);
        }
        round.waiting = 0;
        round.number += 1;
        drop(round);
        self.passed.notify_all();
        BarrierWaitResult(true)
    }
}
