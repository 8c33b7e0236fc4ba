//! A tracer whose main loop and whose stop button both wait for the same death.

use crate::{passes_all_interleavings, restart, short_process, stopped, wait_for_any};
use nix::errno::Errno;
use nix::sys::wait::{WaitStatus, waitpid};
use nix::unistd::Pid;
use nix::{Sim, model};

fn main_loop() {
    while let Some(status) = wait_for_any() {
        stopped(status).into_iter().for_each(restart);
    }
}

/// Waits until the process has ended, and answers its exit code, None where somebody else was told.
fn end_of(pid: Pid) -> Result<Option<i32>, Errno> {
    loop {
        match waitpid(pid, None) {
            Ok(WaitStatus::Exited(_, code)) => return Ok(Some(code)),
            Ok(status) => stopped(status).into_iter().for_each(restart),
            Err(Errno::ECHILD) => return Ok(None),
            Err(errno) => return Err(errno),
        }
    }
}

/// The fault: the main loop may have been told of the death.
pub fn expects_the_exit_code() {
    let code = end_of(Pid::from_raw(100)).expect("the wait is answered");
    assert_eq!(code.expect("the process has an exit code"), 0);
}

pub fn expects_another_reaper() {
    let code = end_of(Pid::from_raw(100)).expect("the wait is answered");
    assert!(matches!(code, None | Some(0)));
}

pub fn with_a_stop_button(sim: &Sim, stop_button: fn()) {
    short_process(sim, 100);
    sim.tracer("main", main_loop);
    sim.tracer("stop button", stop_button);
    sim.run().assert_all_reaped();
}

#[test]
#[should_panic(expected = "the process has an exit code")]
fn two_threads_reap_one_death() {
    model(|sim| with_a_stop_button(sim, expects_the_exit_code));
}

#[test]
fn whoever_reaps_the_other_is_told_that_there_is_no_child() {
    passes_all_interleavings(|sim| with_a_stop_button(sim, expects_another_reaper));
}
