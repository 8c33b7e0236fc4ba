//! A tracer whose worker decides how a tracee goes on. On Linux only the thread that traces may restart it.

use crate::{passes_all_interleavings, restart, short_process, stopped, wait_for_any};
use nix::sync::mpsc;
use nix::unistd::Pid;
use nix::{Sim, model, thread};

/// The fault: the worker restarts.
pub fn hands_restarts_to_a_worker() {
    let (to_worker, pids) = mpsc::channel::<Pid>();
    let worker = thread::spawn(move || pids.into_iter().for_each(restart));
    while let Some(status) = wait_for_any() {
        if let Some(pid) = stopped(status) {
            to_worker.send(pid).expect("the worker lives");
        }
    }
    drop(to_worker);
    worker.join().expect("the worker ends");
}

/// The worker only answers what is to be done.
pub fn asks_a_worker() {
    let (to_worker, pids) = mpsc::channel::<Pid>();
    let (to_main, orders) = mpsc::channel::<Pid>();
    let worker = thread::spawn(move || {
        for pid in pids {
            to_main.send(pid).expect("the tracer lives");
        }
    });
    while let Some(status) = wait_for_any() {
        if let Some(pid) = stopped(status) {
            to_worker.send(pid).expect("the worker lives");
            restart(orders.recv().expect("the worker answers"));
        }
    }
    drop(to_worker);
    worker.join().expect("the worker ends");
}

pub fn as_on_linux(sim: &Sim, tracer: fn()) {
    sim.only_tracer("main");
    short_process(sim, 100);
    sim.tracer("main", tracer);
    sim.run().assert_all_reaped();
}

#[test]
#[should_panic(expected = "its stop was claimed: ESRCH")]
fn a_thread_that_does_not_trace_restarts() {
    model(|sim| as_on_linux(sim, hands_restarts_to_a_worker));
}

#[test]
fn the_thread_that_traces_restarts() {
    passes_all_interleavings(|sim| as_on_linux(sim, asks_a_worker));
}
