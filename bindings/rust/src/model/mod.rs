//! Every interleaving of the calls of a simulation's threads.
//!
//! - Each thread is a thread of the system, and one of them runs at a time: it runs up to its next call, announces it,
//!   and decides whose call is made next (`threads`, `calls`). Scripted tracees have no thread (`scripts`).
//! - A search over the decisions, depth first, runs the simulation again for each schedule (`decisions`), and leaves a
//!   schedule where it comes to a situation that was there before (`situations`).
//! - A failing schedule is printed (`words`), with the text that runs it again (`schedule`).

mod actors;
mod builder;
mod caller;
mod calls;
mod decisions;
mod hash;
mod objects;
mod pins;
mod preferences;
mod report;
mod run;
mod schedule;
mod scripts;
mod search;
mod situations;
mod state;
#[cfg(test)]
mod tests;
mod threads;
mod tracees;
mod watched;
mod words;

pub use builder::{Builder, Deadlocks, Effort, Shares, Threads};
pub use report::{Coverage, Failure, Report};

use crate::context;
use crate::sim::Sim;
use std::hash::{DefaultHasher, Hash, Hasher};

/// Runs a simulation under every interleaving of its calls, and panics at the first that fails, with its steps and the
/// line that runs it again. Answers how far it came.
///
/// ```
/// use pukzarn::sys::{ptrace, wait};
///
/// let report = pukzarn::model(|sim| {
///     sim.case("tracee 100 100 100 0\ncall getpid = 100\nexit 0\nend\n").unwrap();
///     sim.tracer("main", || {
///         while let Ok(status) = wait::wait() {
///             let _ = ptrace::syscall(status.pid().unwrap(), None);
///         }
///     });
///     sim.run().assert_all_reaped();
/// });
/// assert_eq!(report.coverage, pukzarn::Coverage::All);
/// ```
#[track_caller]
pub fn model(test: impl Fn(&Sim)) -> Report {
    Builder::new().check(test)
}

/// For the head of a loop: what the calling thread does next depends on this value alone, and not on what it was
/// answered before. A model then goes on once from each value. The tracees, their options and what was written to them
/// count by themselves, and so does each access of what is in `sync`. The report says that it holds as far as this
/// does. Outside of a model it does nothing. Where a thread comes by several such heads, the value has to say also
/// which one it is, as `&("main loop", &known)` does.
///
/// ```
/// use pukzarn::sys::{ptrace, wait};
///
/// pukzarn::model(|sim| {
///     sim.case("tracee 100 100 100 0\ncall getpid = 100\nexit 0\nend\n").unwrap();
///     sim.tracer("main", || loop {
///         pukzarn::forget(&());
///         match wait::wait() {
///             Ok(status) => drop(ptrace::syscall(status.pid().unwrap(), None)),
///             Err(_) => return,
///         }
///     });
///     sim.run().assert_all_reaped();
/// });
/// ```
pub fn forget(all_that_counts: &impl Hash) {
    if let Some(calls) = context::get() {
        let mut hash = DefaultHasher::new();
        all_that_counts.hash(&mut hash);
        calls.forget(hash.finish());
    }
}
