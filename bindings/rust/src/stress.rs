//! The same `Sim` on threads that really run, over the cells that they share.
//!
//! A model tries interleavings one after another, each call in one step; here the system's scheduler decides, and calls
//! overlap. What locks, channels and atomics of std do is in it too. It finds less, says less, and cannot run a failing
//! round again: it is for what a model does not have, and for more rounds than a model can try.

mod round;
mod thread;

use crate::context;
use crate::sim::Sim;
use round::Round;
use std::panic::{AssertUnwindSafe, catch_unwind};
use std::sync::{Arc, Mutex};
use std::time::Duration;

/// Runs a `Sim` many times on threads, and panics at the first round that fails.
///
/// ```
/// use pukzarn::sys::{ptrace, wait::waitpid};
/// use pukzarn::{Row, Stop};
///
/// pukzarn::stress(20, |sim| {
///     sim.tracee(Row::root(100), |tracee| tracee.stop(Stop::Start).map(drop));
///     sim.tracer("main", || {
///         let status = waitpid(None, None).unwrap();
///         ptrace::cont(status.pid().unwrap(), None).unwrap();
///         waitpid(None, None).unwrap();
///     });
///     sim.run().assert_all_reaped();
/// });
/// ```
#[track_caller]
pub fn stress(rounds: u64, test: impl Fn(&Sim)) {
    Stress { rounds, ..Stress::new() }.check(test);
}

/// How rounds on threads are run.
///
/// ```
/// use pukzarn::Stress;
/// use pukzarn::sys::wait::waitpid;
///
/// // The tracer waits once, and the tracee exits.
/// Stress { rounds: 5, yields: 2, ..Stress::new() }.check(|sim| {
///     sim.tracee(pukzarn::Row::root(100), |_| Ok(()));
///     sim.tracer("main", || drop(waitpid(None, None).unwrap()));
///     sim.run().assert_all_reaped();
/// });
/// ```
#[derive(Clone, Debug)]
pub struct Stress {
    /// How many rounds are run.
    pub rounds: u64,
    /// One call in so many gives the processor away first; with 0 none does.
    pub yields: u32,
    /// A round in which no call has changed anything for so long, while a thread of the tracer lives, fails.
    pub patience: Duration,
    /// Of the random numbers that say which call yields, and which tracee is asked first.
    pub seed: u64,
}

impl Stress {
    /// 1,000 rounds, in which one call in 4 yields, with a patience of 20 seconds.
    ///
    /// ```
    /// assert_eq!(pukzarn::Stress::new().rounds, 1_000);
    /// ```
    pub fn new() -> Stress {
        Stress { rounds: 1_000, yields: 4, patience: Duration::from_secs(20), seed: 1 }
    }

    /// Runs the rounds, and panics at the first that fails.
    ///
    /// ```should_panic
    /// pukzarn::Stress::new().check(|sim| {
    ///     sim.tracee(pukzarn::Row::root(100), |_| Ok(()));
    ///     sim.tracer("main", || panic!("a fault"));
    ///     sim.run();
    /// });
    /// ```
    #[track_caller]
    pub fn check(&self, test: impl Fn(&Sim)) {
        if let Err(fault) = self.explore(test) {
            panic!("pukzarn: {fault}");
        }
    }

    /// Runs the rounds; the error says which is the first that fails, and why.
    ///
    /// ```
    /// let fault = pukzarn::Stress::new().explore(|sim| {
    ///     sim.tracee(pukzarn::Row::root(100), |_| Ok(()));
    ///     sim.run().assert_all_reaped();
    /// });
    /// assert!(fault.unwrap_err().starts_with("round 1 of 1000"));
    /// ```
    pub fn explore(&self, test: impl Fn(&Sim)) -> Result<(), String> {
        for round in 1..=self.rounds {
            let fault = Arc::new(Mutex::new(None));
            let sim = Sim::new(Box::new(Round::new(self, round, fault.clone())));
            let ended = catch_unwind(AssertUnwindSafe(|| test(&sim)));
            let of_test = ended.err().and_then(context::message).map(|message| format!("the test panicked: {message}"));
            let of_round = round::lock(&fault).take();
            if let Some(cause) = of_round.or(of_test).or_else(|| sim.not_run()) {
                return Err(format!("round {round} of {} on threads: {cause}", self.rounds));
            }
        }
        Ok(())
    }
}

impl Default for Stress {
    fn default() -> Stress {
        Stress::new()
    }
}
