//! A tracer with a time limit, at which it kills the tracee.

use crate::{passes_all_interleavings, short_process, stopped, wait_for_any};
use nix::errno::Errno;
use nix::sys::ptrace;
use nix::sys::signal::{Signal, kill};
use nix::unistd::Pid;
use nix::{Sim, model};

/// The fault: a stop that was answered may be gone, since the tracee was killed since.
fn expects_the_stop_to_last() {
    while let Some(status) = wait_for_any() {
        if let Some(pid) = stopped(status) {
            ptrace::cont(pid, None).expect("it is stopped");
        }
    }
}

fn expects_a_death_at_any_time() {
    while let Some(status) = wait_for_any() {
        let Some(pid) = stopped(status) else { continue };
        match ptrace::cont(pid, None) {
            // Its death is reported next.
            Ok(()) | Err(Errno::ESRCH) => {}
            Err(errno) => panic!("the restart failed: {errno}"),
        }
    }
}

fn with_a_time_limit(sim: &Sim, tracer: fn()) {
    sim.kills();
    short_process(sim, 100);
    sim.tracer("main", tracer);
    sim.tracer("time limit", || match kill(Pid::from_raw(100), Signal::SIGKILL) {
        Ok(()) | Err(Errno::ESRCH) => {}
        Err(errno) => panic!("the kill failed: {errno}"),
    });
    sim.run().assert_all_reaped();
}

#[test]
#[should_panic(expected = "it is stopped: ESRCH")]
fn a_tracee_is_killed_between_a_wait_and_its_restart() {
    model(|sim| with_a_time_limit(sim, expects_the_stop_to_last));
}

#[test]
fn a_restart_that_fails_is_followed_by_a_death() {
    passes_all_interleavings(|sim| with_a_time_limit(sim, expects_a_death_at_any_time));
}
