//! The same tracers on threads: the faults that threads have are found there too, and the loops without them pass.

use crate::{early_child, end_of_poll, interrupted, looked_at, lost_wake_up, two_locks, two_reapers, wrong_thread};
use nix::{Sim, Stress};
use std::time::Duration;

/// More rounds than any of the faults has needed, by far.
const ROUNDS: u64 = 50_000;

/// A machine that is busy with other things may let a round wait for long.
const PATIENCE: Duration = Duration::from_secs(20);

#[track_caller]
fn is_found(test: impl Fn(&Sim), words: &[&str]) {
    is_found_within(PATIENCE, test, words);
}

#[track_caller]
fn is_found_within(patience: Duration, test: impl Fn(&Sim), words: &[&str]) {
    let fault = Stress { rounds: ROUNDS, patience, ..Stress::new() }.explore(test).expect_err("the fault is found");
    assert!(words.iter().any(|words| fault.contains(words)), "{fault}");
    println!("{fault}");
}

#[track_caller]
fn passes(test: impl Fn(&Sim)) {
    Stress { rounds: 300, patience: PATIENCE, ..Stress::new() }.check(test);
}

#[test]
fn a_look_and_a_claim_of_another() {
    // What was claimed and not seen may be a stop too, which nobody restarts then.
    let words = ["its stop was claimed: ESRCH", "nothing has happened"];
    let patience = Duration::from_secs(1);
    is_found_within(patience, |sim| looked_at::two_processes(sim, looked_at::serves_what_it_saw), &words);
    passes(|sim| looked_at::two_processes(sim, looked_at::claims_what_it_saw));
}

#[test]
fn the_end_of_a_poll() {
    is_found(|sim| end_of_poll::one_process(sim, end_of_poll::ends_at_nothing), &["tracee 100 is left"]);
    passes(|sim| end_of_poll::one_process(sim, end_of_poll::ends_at_no_child));
}

#[test]
fn an_early_child() {
    is_found(|sim| early_child::a_fork(sim, early_child::expects_the_event_first), &["which nobody has announced"]);
    passes(|sim| early_child::a_fork(sim, early_child::keeps_an_early_child));
}

#[test]
fn an_interrupted_wait() {
    is_found(|sim| interrupted::with_a_signal(sim, interrupted::ends_at_any_error), &["tracee 100 is left"]);
    passes(|sim| interrupted::with_a_signal(sim, interrupted::waits_again));
}

#[test]
fn two_locks_and_one() {
    is_found(|sim| two_locks::two_threads(sim, two_locks::counts_under_two_locks), &["counted and lost"]);
    passes(|sim| two_locks::two_threads(sim, two_locks::counts_under_one_lock));
}

#[test]
fn two_waits_for_one_death() {
    is_found(|sim| two_reapers::with_a_stop_button(sim, two_reapers::expects_the_exit_code), &["has an exit code"]);
    passes(|sim| two_reapers::with_a_stop_button(sim, two_reapers::expects_another_reaper));
}

#[test]
fn a_restart_by_another_thread() {
    is_found(|sim| wrong_thread::as_on_linux(sim, wrong_thread::hands_restarts_to_a_worker), &["ESRCH"]);
    passes(|sim| wrong_thread::as_on_linux(sim, wrong_thread::asks_a_worker));
}

#[test]
fn a_lost_wake_up() {
    let patience = Duration::from_secs(1);
    let waits = |sim: &Sim| lost_wake_up::with_a_window(sim, lost_wake_up::waits_for_a_wake_up);
    is_found_within(patience, waits, &["nothing has happened"]);
    passes(|sim| lost_wake_up::with_a_window(sim, lost_wake_up::waits_for_the_flag));
}
