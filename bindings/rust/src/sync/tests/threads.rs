//! Atomics, what happens once, and threads.

use super::{cause, outcomes};
use crate::sync::atomic::{AtomicBool, AtomicUsize, Ordering::SeqCst};
use crate::sync::mpsc::channel;
use crate::sync::{Arc, Barrier, OnceLock};
use crate::thread;
use std::collections::BTreeSet;

#[test]
fn one_of_two_exchanges_wins() {
    let winners = outcomes(|sim, outcome| {
        let owner = Arc::new(AtomicUsize::new(0));
        let wins = Arc::new(AtomicUsize::new(0));
        for (number, name) in [(1, "first"), (2, "second")] {
            let (owner, wins, outcome) = (Arc::clone(&owner), Arc::clone(&wins), outcome.clone());
            sim.tracer(name, move || {
                if owner.compare_exchange(0, number, SeqCst, SeqCst).is_ok() {
                    assert_eq!(wins.fetch_add(1, SeqCst), 0);
                    outcome.put(name);
                }
            });
        }
    });
    assert_eq!(winners, BTreeSet::from(["first", "second"]));
}

#[test]
fn a_load_and_a_store_are_two_steps() {
    let sums = |add: fn(&AtomicUsize)| {
        outcomes(move |sim, outcome| {
            let sum = Arc::new(AtomicUsize::new(0));
            let outcome = outcome.clone();
            sim.tracer("main", move || {
                thread::scope(|scope| {
                    scope.spawn(|| add(&sum));
                    scope.spawn(|| add(&sum));
                });
                outcome.put(sum.load(SeqCst));
            });
        })
    };
    assert_eq!(sums(|sum| sum.store(sum.load(SeqCst) + 1, SeqCst)), BTreeSet::from([1, 2]));
    let add = |sum: &AtomicUsize| {
        sum.fetch_add(1, SeqCst);
    };
    assert_eq!(sums(add), BTreeSet::from([2]));
}

#[test]
fn a_value_is_made_once() {
    let made = outcomes(|sim, outcome| {
        let (value, makers) = (Arc::new(OnceLock::new()), Arc::new(AtomicUsize::new(0)));
        for number in [1, 2] {
            let (value, makers, outcome) = (Arc::clone(&value), Arc::clone(&makers), outcome.clone());
            sim.tracer(["first", "second"][number - 1], move || {
                let made = *value.get_or_init(|| {
                    // Others come while it is made, and wait.
                    assert_eq!(makers.fetch_add(1, SeqCst), 0);
                    number
                });
                outcome.put(made);
                assert_eq!(value.get(), Some(&made));
            });
        }
    });
    assert_eq!(made, BTreeSet::from([1, 2]));
}

#[test]
fn a_barrier_has_one_leader() {
    let leaders = outcomes(|sim, outcome| {
        let barrier = Arc::new(Barrier::new(2));
        for name in ["first", "second"] {
            let (barrier, outcome) = (Arc::clone(&barrier), outcome.clone());
            sim.tracer(name, move || {
                if barrier.wait().is_leader() {
                    outcome.put(name);
                }
            });
        }
    });
    assert_eq!(leaders, BTreeSet::from(["first", "second"]));
}

#[test]
fn a_word_is_not_lost_before_its_park() {
    let woken = outcomes(|sim, outcome| {
        let outcome = outcome.clone();
        sim.tracer("main", move || {
            let ready = Arc::new(AtomicBool::new(false));
            let other = Arc::clone(&ready);
            let parked = thread::spawn(move || {
                while !other.load(SeqCst) {
                    thread::park();
                }
            });
            ready.store(true, SeqCst);
            parked.thread().unpark();
            outcome.put(parked.join().is_ok());
        });
    });
    assert_eq!(woken, BTreeSet::from([true]));
}

#[test]
fn a_thread_that_hands_itself_out_is_woken() {
    let woken = outcomes(|sim, outcome| {
        let outcome = outcome.clone();
        sim.tracer("main", move || {
            let this = thread::current();
            let other = thread::spawn(move || this.unpark());
            thread::park();
            outcome.put(other.join().is_ok());
        });
    });
    assert_eq!(woken, BTreeSet::from([true]));
}

#[test]
fn a_thread_may_be_found_running_or_ended() {
    let ended = outcomes(|sim, outcome| {
        let outcome = outcome.clone();
        sim.tracer("main", move || {
            let body = || {
                thread::yield_now();
                AtomicBool::new(false).store(true, SeqCst);
                thread::current().id()
            };
            let worker = thread::Builder::new().name("worker".into()).spawn(body).unwrap();
            outcome.put(worker.is_finished());
            let id = worker.thread().id();
            assert_eq!(worker.thread().name(), Some("worker"));
            assert_eq!(worker.join().unwrap(), id);
        });
    });
    assert_eq!(ended, BTreeSet::from([false, true]));
}

#[test]
fn a_scope_waits_for_threads_that_nobody_joins() {
    let served = outcomes(|sim, outcome| {
        let outcome = outcome.clone();
        sim.tracer("main", move || {
            let mut both = [0, 0];
            let (first, second) = both.split_at_mut(1);
            let third = thread::scope(|scope| {
                scope.spawn(|| first[0] = 1);
                scope.spawn(|| second[0] = 2);
                scope.spawn(|| 3).join().unwrap()
            });
            outcome.put((both, third));
        });
    });
    assert_eq!(served, BTreeSet::from([([1, 2], 3)]));
}

#[test]
fn a_panic_in_a_scope_is_the_cause_though_others_wait() {
    let cause = cause(|sim| {
        sim.tracer("main", || {
            let (sender, receiver) = channel::<u32>();
            thread::scope(|scope| {
                // It waits for more as long as the sender lives, which is longer than the scope.
                scope.spawn(move || receiver.iter().count());
                sender.send(1).unwrap();
                panic!("on purpose");
            });
        });
        sim.run();
    });
    assert!(cause.ends_with("panicked: on purpose"), "{cause}");
}
