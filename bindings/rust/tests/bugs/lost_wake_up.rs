//! A tracer whose window waits until the tracee has ended.

use crate::{passes_all_interleavings, restart, short_process, stopped, wait_for_any};
use nix::sync::{Condvar, Mutex};
use nix::{Sim, model};
use std::sync::Arc;

#[derive(Default)]
pub struct Ended {
    flag: Mutex<bool>,
    changed: Condvar,
}

/// The fault: who sets the flag after it was looked at, and before the wait, wakes nobody.
pub fn waits_for_a_wake_up(ended: &Ended) {
    let has_ended = *ended.flag.lock().unwrap();
    if !has_ended {
        let flag = ended.flag.lock().unwrap();
        drop(ended.changed.wait(flag).unwrap());
    }
}

pub fn waits_for_the_flag(ended: &Ended) {
    let mut flag = ended.flag.lock().unwrap();
    while !*flag {
        flag = ended.changed.wait(flag).unwrap();
    }
}

pub fn with_a_window(sim: &Sim, window: fn(&Ended)) {
    let ended = Arc::new(Ended::default());
    short_process(sim, 100);
    let told = ended.clone();
    sim.tracer("main", move || {
        while let Some(status) = wait_for_any() {
            stopped(status).into_iter().for_each(restart);
        }
        *told.flag.lock().unwrap() = true;
        told.changed.notify_one();
    });
    sim.tracer("window", move || window(&ended));
    sim.run().assert_all_reaped();
}

#[test]
#[should_panic(expected = "deadlock")]
fn a_wake_up_is_lost() {
    model(|sim| with_a_window(sim, waits_for_a_wake_up));
}

#[test]
fn the_flag_is_looked_at_under_the_lock_of_the_wait() {
    passes_all_interleavings(|sim| with_a_window(sim, waits_for_the_flag));
}
