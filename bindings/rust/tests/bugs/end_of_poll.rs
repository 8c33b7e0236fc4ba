//! A tracer that polls (WNOHANG).

use crate::{passes_all_interleavings, restart, short_process, stopped};
use nix::errno::Errno;
use nix::sys::wait::{WaitPidFlag, WaitStatus, waitpid};
use nix::{Sim, model, thread};

/// The fault: an answer of 0 says that there is nothing yet, not that there is nobody.
pub fn ends_at_nothing() {
    while let Ok(status) = waitpid(None, Some(WaitPidFlag::WNOHANG)) {
        match status {
            WaitStatus::StillAlive => break,
            status => stopped(status).into_iter().for_each(restart),
        }
    }
}

pub fn ends_at_no_child() {
    loop {
        match waitpid(None, Some(WaitPidFlag::WNOHANG)) {
            Ok(WaitStatus::StillAlive) => thread::yield_now(),
            Ok(status) => stopped(status).into_iter().for_each(restart),
            Err(Errno::ECHILD) => break,
            Err(errno) => panic!("the wait failed: {errno}"),
        }
    }
}

pub fn one_process(sim: &Sim, tracer: fn()) {
    short_process(sim, 100);
    sim.tracer("main", tracer);
    sim.run().assert_all_reaped();
}

#[test]
#[should_panic(expected = "tracee 100")]
fn nothing_is_taken_for_the_end() {
    model(|sim| one_process(sim, ends_at_nothing));
}

#[test]
fn only_no_child_is_the_end() {
    passes_all_interleavings(|sim| one_process(sim, ends_at_no_child));
}
