//! A tracer whose waits signals interrupt.

use crate::{passes_all_interleavings, restart, short_process, stopped};
use nix::errno::Errno;
use nix::sys::wait::waitpid;
use nix::{Sim, model};

/// The fault: an error is not always the end.
pub fn ends_at_any_error() {
    while let Ok(status) = waitpid(None, None) {
        stopped(status).into_iter().for_each(restart);
    }
}

pub fn waits_again() {
    loop {
        match waitpid(None, None) {
            Ok(status) => stopped(status).into_iter().for_each(restart),
            Err(Errno::EINTR) => {}
            Err(Errno::ECHILD) => return,
            Err(errno) => panic!("the wait failed: {errno}"),
        }
    }
}

pub fn with_a_signal(sim: &Sim, tracer: fn()) {
    sim.eintrs(1);
    short_process(sim, 100);
    sim.tracer("main", tracer);
    sim.run().assert_all_reaped();
}

#[test]
#[should_panic(expected = "tracee 100")]
fn an_interrupted_wait_is_taken_for_the_end() {
    model(|sim| with_a_signal(sim, ends_at_any_error));
}

#[test]
fn an_interrupted_wait_is_made_again() {
    passes_all_interleavings(|sim| with_a_signal(sim, waits_again));
}
