//! A tracer that keeps a table of its tracees.

use crate::{passes_all_interleavings, restart, stopped, wait_for_any};
use nix::sys::ptrace::{self, Event};
use nix::sys::wait::WaitStatus;
use nix::unistd::Pid;
use nix::{Row, Sim, Stop, model};
use std::collections::{BTreeMap, BTreeSet};

/// The child that a stop announces.
pub fn announced(status: WaitStatus) -> Option<Pid> {
    match status {
        WaitStatus::PtraceEvent(pid, _, event) if event == Event::PTRACE_EVENT_FORK as i32 => {
            Some(Pid::from_raw(ptrace::getevent(pid).expect("the stop is claimed") as i32))
        }
        _ => None,
    }
}

/// The fault: the child's first stop may be answered before its parent's event.
pub fn expects_the_event_first() {
    let mut parents = BTreeMap::from([(Pid::from_raw(100), None)]);
    while let Some(status) = wait_for_any() {
        let Some(pid) = stopped(status) else { continue };
        assert!(parents.contains_key(&pid), "a stop of {pid}, which nobody has announced");
        if let Some(child) = announced(status) {
            parents.insert(child, Some(pid));
        }
        restart(pid);
    }
}

/// Keeps an early child at its first stop until its parent's event has come.
pub fn keeps_an_early_child() {
    let mut parents = BTreeMap::from([(Pid::from_raw(100), None)]);
    let mut early = BTreeSet::new();
    while let Some(status) = wait_for_any() {
        let Some(pid) = stopped(status) else { continue };
        if !parents.contains_key(&pid) {
            early.insert(pid);
            continue;
        }
        if let Some(child) = announced(status) {
            parents.insert(child, Some(pid));
            if early.remove(&child) {
                restart(child);
            }
        }
        restart(pid);
    }
}

pub fn a_fork(sim: &Sim, tracer: fn()) {
    sim.tracee(Row::root(100), |tracee| {
        tracee.stop(Stop::Start)?;
        tracee.stop(Stop::Fork(101)).map(drop)
    });
    sim.tracee(Row::child(101, 100), |tracee| tracee.stop(Stop::Start).map(drop));
    sim.tracer("main", tracer);
    sim.run().assert_all_reaped();
}

#[test]
#[should_panic(expected = "a stop of 101, which nobody has announced")]
fn a_child_stops_before_the_event_of_its_parent() {
    model(|sim| a_fork(sim, expects_the_event_first));
}

#[test]
fn a_child_that_stops_early_is_kept() {
    passes_all_interleavings(|sim| a_fork(sim, keeps_an_early_child));
}
