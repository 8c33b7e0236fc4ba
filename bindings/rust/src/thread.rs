//! Threads, as `std::thread` has them. In a simulation they are threads of it, and no time passes in a model.
//!
//! A thread of a simulation that panics ends the test, so what it is joined with is never an error there. What
//! `std::thread` itself starts is in no simulation, and a call of nix's names there ends the test.

mod handle;
mod parker;
mod scoped;

pub use handle::{Builder, JoinHandle, spawn};
pub use parker::{Thread, ThreadId, current, park, park_timeout};
pub use scoped::{Scope, ScopedJoinHandle, scope};
pub use std::thread::{AccessError, LocalKey, Result, available_parallelism, panicking};

use crate::context;
use std::thread;
use std::time::Duration;

/// Lets others go first, for some time. In a model no time passes: a loop that sleeps again and again goes on once
/// another thread has changed something.
///
/// ```
/// use pukzarn::sync::atomic::{AtomicBool, Ordering};
/// use pukzarn::sync::Arc;
/// use std::time::Duration;
///
/// pukzarn::model(|sim| {
///     let ready = Arc::new(AtomicBool::new(false));
///     let other = Arc::clone(&ready);
///     sim.tracer("polls", move || {
///         while !ready.load(Ordering::SeqCst) {
///             pukzarn::thread::sleep(Duration::from_millis(10));
///         }
///     });
///     sim.tracer("sets", move || other.store(true, Ordering::SeqCst));
///     assert!(sim.run().waiting.is_empty());
/// });
/// ```
pub fn sleep(time: Duration) {
    match context::get() {
        Some(calls) => calls.pause(),
        None => thread::sleep(time),
    }
}

/// Lets others go first; in a model as `sleep`.
///
/// ```
/// pukzarn::thread::yield_now();
/// ```
pub fn yield_now() {
    match context::get() {
        Some(calls) => calls.pause(),
        None => thread::yield_now(),
    }
}
