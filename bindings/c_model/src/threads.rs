//! The threads of a simulation in C, by their numbers.

use crate::place::{self, Place, fail};
use pukzarn::thread::{JoinHandle, spawn};
use std::cell::RefCell;
use std::ffi::c_int;
use std::sync::{Arc, Mutex, PoisonError};

/// The threads that one schedule's threads have started, each until it is joined. They are forgotten with the schedule,
/// however it ends.
#[derive(Default)]
pub(crate) struct Threads {
    started: Mutex<Vec<Option<JoinHandle<()>>>>,
}

thread_local! {
    /// Those of the schedule that this thread is in.
    static THREADS: RefCell<Option<Arc<Threads>>> = const { RefCell::new(None) };
}

/// A body as a thread of a simulation.
pub(crate) fn simulated(threads: Arc<Threads>, body: impl FnOnce() + Send + 'static) -> impl FnOnce() + Send + 'static {
    struct Forget;
    impl Drop for Forget {
        fn drop(&mut self) {
            THREADS.set(None);
        }
    }
    move || {
        THREADS.set(Some(threads));
        let _forget = Forget;
        place::at(Place::Simulation, body);
    }
}

fn of_schedule() -> Arc<Threads> {
    let threads = THREADS.with_borrow(Clone::clone);
    threads.unwrap_or_else(|| fail("this thread is in no simulation".to_string()))
}

/// Starts a thread, and answers its number.
pub(crate) fn start(body: impl FnOnce() + Send + 'static) -> c_int {
    let threads = of_schedule();
    let handle = spawn(simulated(threads.clone(), body));
    let mut started = threads.started.lock().unwrap_or_else(PoisonError::into_inner);
    started.push(Some(handle));
    (started.len() - 1) as c_int
}

/// Waits for the end of a thread.
pub(crate) fn join(number: c_int) {
    let threads = of_schedule();
    let mut started = threads.started.lock().unwrap_or_else(PoisonError::into_inner);
    let handle = usize::try_from(number).ok().and_then(|number| started.get_mut(number)?.take());
    drop(started);
    match handle {
        // A thread that fails ends the schedule, and so this thread too.
        Some(handle) => drop(handle.join()),
        None => fail(format!("pukzarn_thread_join of {number}, which was joined, or never started")),
    }
}
