//! A tracer whose table has who is alive: a child may live and die before its parent's event is answered.

use crate::early_child::announced;
use crate::{passes_all_interleavings, restart, stopped, wait_for_any};
use nix::{Builder, Row, Sim, Stop};
use std::collections::BTreeSet;

/// The fault: the event enters a child that was reaped already.
fn enters_the_dead() {
    let mut alive = BTreeSet::from([100]);
    while let Some(status) = wait_for_any() {
        let Some(pid) = stopped(status) else {
            alive.remove(&status.pid().expect("a death is of a tracee").as_raw());
            continue;
        };
        alive.insert(pid.as_raw());
        if let Some(child) = announced(status) {
            alive.insert(child.as_raw());
        }
        restart(pid);
    }
    assert!(alive.is_empty(), "{alive:?} are alive at the end");
}

fn keeps_the_dead_apart() {
    let (mut alive, mut dead) = (BTreeSet::from([100]), BTreeSet::new());
    while let Some(status) = wait_for_any() {
        let Some(pid) = stopped(status) else {
            let pid = status.pid().expect("a death is of a tracee").as_raw();
            alive.remove(&pid);
            dead.insert(pid);
            continue;
        };
        alive.insert(pid.as_raw());
        if let Some(child) = announced(status).filter(|child| !dead.contains(&child.as_raw())) {
            alive.insert(child.as_raw());
        }
        restart(pid);
    }
    assert!(alive.is_empty(), "{alive:?} are alive at the end");
}

/// A parent, and a child of several stops.
fn family(sim: &Sim, tracer: fn()) {
    sim.tracee(Row::root(100), |tracee| {
        tracee.stop(Stop::Start)?;
        tracee.stop(Stop::Fork(101)).map(drop)
    });
    sim.tracee(Row::child(101, 100), |tracee| {
        tracee.stop(Stop::Start)?;
        for _ in 0..4 {
            tracee.stop(Stop::Enter)?;
        }
        Ok(())
    });
    sim.tracer("main", tracer);
    sim.run().assert_all_reaped();
}

#[test]
fn a_whole_life_before_an_event_takes_few_deviations() {
    let failure = Builder::new().explore(|sim| family(sim, enters_the_dead)).expect_err("it has a fault");
    assert!(failure.cause.contains("{101} are alive at the end"), "{failure}");
    assert!(failure.deviations <= 3, "{failure}");
    assert!(failure.report.schedules < 200, "{failure}");
}

#[test]
fn who_is_dead_is_entered_no_more() {
    passes_all_interleavings(|sim| family(sim, keeps_the_dead_apart));
}
