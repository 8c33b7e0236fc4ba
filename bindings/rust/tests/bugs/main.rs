//! Well-known faults of tracers, each as a tracer's author would write it, found by a model; and the loop without the
//! fault, which passes under all interleavings.

// A tracer's modules are written against nix; here, as under `#[cfg(test)]` in a crate of theirs, nix is the
// simulation.
extern crate pukzarn as nix;

mod early_child;
mod end_of_poll;
mod interrupted;
mod killed;
mod late_event;
mod looked_at;
mod lost_wake_up;
mod on_threads;
mod replays;
mod two_locks;
mod two_reapers;
mod wrong_thread;

use nix::errno::Errno;
use nix::sys::ptrace;
use nix::sys::wait::{WaitPidFlag, WaitStatus, waitpid};
use nix::unistd::Pid;
use nix::{Builder, Row, Sim, Stop};

/// Fails unless every interleaving was tried, and passed.
#[track_caller]
fn passes_all_interleavings(test: impl Fn(&Sim)) {
    Builder::new().exhaustive().check(test);
}

/// A process that stops once, and exits.
fn short_process(sim: &Sim, tid: u32) {
    sim.tracee(Row::root(tid), |tracee| tracee.stop(Stop::Start).map(drop));
}

/// A wait for any tracee, None where there is none any more.
fn wait_for_any() -> Option<WaitStatus> {
    match waitpid(None, Some(WaitPidFlag::__WALL)) {
        Ok(status) => Some(status),
        Err(Errno::ECHILD) => None,
        Err(errno) => panic!("the wait failed: {errno}"),
    }
}

/// The tracee of a stop, None of a death.
fn stopped(status: WaitStatus) -> Option<Pid> {
    match status {
        WaitStatus::Exited(..) | WaitStatus::Signaled(..) | WaitStatus::StillAlive => None,
        stop => stop.pid(),
    }
}

/// Restarts a tracee, whose stop this thread was answered.
#[track_caller]
fn restart(pid: Pid) {
    ptrace::cont(pid, None).expect("its stop was claimed");
}
