//! Where a thread is: in a simulation, in the test that adds one, or outside.

use std::cell::Cell;
use std::panic::resume_unwind;

/// What a thread runs.
#[derive(Clone, Copy, Debug, PartialEq, Eq)]
pub(crate) enum Place {
    /// The program's own code.
    Outside,
    /// A test, which adds tracees and threads to a simulation.
    Test,
    /// A thread of a simulation.
    Simulation,
}

/// Who answers a call.
#[derive(Clone, Copy, Debug, PartialEq, Eq)]
pub(crate) enum Answerer {
    Kernel,
    Simulation,
}

thread_local! {
    static PLACE: Cell<Place> = const { Cell::new(Place::Outside) };
}

pub(crate) fn place() -> Place {
    PLACE.get()
}

/// Runs a body at a place, however it ends.
pub(crate) fn at<T>(place: Place, body: impl FnOnce() -> T) -> T {
    struct Back(Place);
    impl Drop for Back {
        fn drop(&mut self) {
            PLACE.set(self.0);
        }
    }
    let _back = Back(PLACE.replace(place));
    body()
}

/// Who answers this call of the calling thread. In a test nobody does: a real wait would find no child there, and the
/// test would pass having tested nothing.
pub(crate) fn answerer(call: &str) -> Answerer {
    match place() {
        Place::Outside => Answerer::Kernel,
        Place::Simulation => Answerer::Simulation,
        Place::Test => fail(format!("{call} is called by the test itself: call it in a thread of pukzarn_sim_tracer")),
    }
}

/// Fails the schedule at a call that would end the program, and so the search.
pub(crate) fn expect_outside(what: impl FnOnce() -> String) {
    if place() != Place::Outside {
        fail(what());
    }
}

/// Fails the schedule that the calling thread is in. No panic is printed: the model prints the message.
pub(crate) fn fail(message: String) -> ! {
    if place() == Place::Outside {
        eprintln!("pukzarn: failed outside of a model: {message}");
        std::process::abort();
    }
    resume_unwind(Box::new(message))
}

/// Fails the schedule at a call that is not simulated: an error would send the tracer down a path that Linux does not
/// take.
pub(crate) fn not_simulated(call: &str, reason: &str) -> ! {
    fail(format!("{call} is not simulated: {reason}"))
}
