//! Two threads of a tracer that share a table.

use crate::{passes_all_interleavings, restart, short_process, stopped, wait_for_any};
use nix::sync::Mutex;
use nix::{Sim, model};
use std::sync::Arc;

pub type Stops = Arc<Mutex<u32>>;

/// The fault: what it looked at may have changed when it locks again.
pub fn counts_under_two_locks(stops: &Stops) {
    let before = *stops.lock().unwrap();
    *stops.lock().unwrap() = before + 1;
}

pub fn counts_under_one_lock(stops: &Stops) {
    *stops.lock().unwrap() += 1;
}

/// Each thread serves one stop.
pub fn two_threads(sim: &Sim, count: fn(&Stops)) {
    let stops = Stops::default();
    short_process(sim, 100);
    short_process(sim, 200);
    for name in ["one", "two"] {
        let stops = stops.clone();
        sim.tracer(name, move || {
            let pid = std::iter::from_fn(wait_for_any).find_map(stopped).expect("there is a stop for each thread");
            count(&stops);
            restart(pid);
        });
    }
    sim.run();
    assert_eq!(*stops.lock().unwrap(), 2, "a stop was counted and lost");
}

#[test]
#[should_panic(expected = "a stop was counted and lost")]
fn look_and_change_are_under_two_locks() {
    model(|sim| two_threads(sim, counts_under_two_locks));
}

#[test]
fn look_and_change_are_under_one_lock() {
    passes_all_interleavings(|sim| two_threads(sim, counts_under_one_lock));
}
