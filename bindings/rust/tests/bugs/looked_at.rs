//! A tracer that looks at what waits (WNOWAIT), and then claims it.

use crate::{passes_all_interleavings, restart, short_process, stopped};
use nix::errno::Errno;
use nix::sys::wait::{Id, WaitPidFlag, WaitStatus, waitid, waitpid};
use nix::{Sim, model};

fn look() -> Option<WaitStatus> {
    match waitid(Id::All, WaitPidFlag::WEXITED | WaitPidFlag::WSTOPPED | WaitPidFlag::WNOWAIT) {
        Ok(status) => Some(status),
        Err(Errno::ECHILD) => None,
        Err(errno) => panic!("the look failed: {errno}"),
    }
}

/// The fault: the claim may be of another tracee than the look.
pub fn serves_what_it_saw() {
    while let Some(seen) = look() {
        waitpid(None, None).expect("something waits");
        if let Some(pid) = stopped(seen) {
            restart(pid);
        }
    }
}

pub fn claims_what_it_saw() {
    while let Some(seen) = look() {
        let claimed = waitpid(seen.pid(), None).expect("nobody else waits");
        if let Some(pid) = stopped(claimed) {
            restart(pid);
        }
    }
}

pub fn two_processes(sim: &Sim, tracer: fn()) {
    short_process(sim, 100);
    short_process(sim, 200);
    sim.tracer("main", tracer);
    sim.run().assert_all_reaped();
}

#[test]
#[should_panic(expected = "nobody restarts it")]
fn the_stop_that_was_seen_is_served_and_not_the_one_that_was_claimed() {
    model(|sim| two_processes(sim, serves_what_it_saw));
}

#[test]
fn the_claim_of_what_was_seen_is_served() {
    passes_all_interleavings(|sim| two_processes(sim, claims_what_it_saw));
}
