//! Locks and conditions.

use super::{cause, outcomes};
use crate::sync::atomic::{AtomicUsize, Ordering::SeqCst};
use crate::sync::{Arc, Condvar, Mutex, RwLock, RwLockWriteGuard};
use crate::thread;
use std::collections::BTreeSet;
use std::time::Duration;

#[test]
fn a_lost_wakeup_is_found() {
    let cause = cause(|sim| {
        let shared = Arc::new((Mutex::new(false), Condvar::new()));
        let other = Arc::clone(&shared);
        sim.tracer("waits", move || {
            let (ready, changed) = &*shared;
            // The look and the wait are under two locks.
            if !*ready.lock().unwrap() {
                drop(changed.wait(ready.lock().unwrap()));
            }
        });
        sim.tracer("notifies", move || {
            *other.0.lock().unwrap() = true;
            other.1.notify_one();
        });
        sim.run();
    });
    assert!(cause.contains("deadlock") && cause.contains("waits"), "{cause}");
}

#[test]
fn a_wait_in_a_loop_under_one_lock_loses_nothing() {
    let served = outcomes(|sim, outcome| {
        let shared = Arc::new((Mutex::new(0), Condvar::new()));
        let (other, outcome) = (Arc::clone(&shared), outcome.clone());
        sim.tracer("waits", move || {
            let guard = shared.1.wait_while(shared.0.lock().unwrap(), |left| *left < 2).unwrap();
            outcome.put(*guard);
        });
        sim.tracer("notifies", move || {
            for _ in 0..2 {
                *other.0.lock().unwrap() += 1;
                other.1.notify_one();
            }
        });
    });
    assert_eq!(served, BTreeSet::from([2]));
}

#[test]
fn a_notification_may_wake_either_thread() {
    let woken = outcomes(|sim, outcome| {
        let shared = Arc::new((Mutex::new((0, false)), Condvar::new()));
        for name in ["first", "second"] {
            let (shared, outcome) = (Arc::clone(&shared), outcome.clone());
            sim.tracer(name, move || {
                let mut guard = shared.0.lock().unwrap();
                guard.0 += 1;
                guard = shared.1.wait(guard).unwrap();
                if !guard.1 {
                    guard.1 = true;
                    outcome.put(name);
                    drop(guard);
                    shared.1.notify_one();
                }
            });
        }
        sim.tracer("notifies", move || {
            while shared.0.lock().unwrap().0 < 2 {
                thread::yield_now();
            }
            shared.1.notify_one();
        });
    });
    assert_eq!(woken, BTreeSet::from(["first", "second"]));
}

#[test]
fn a_notification_of_all_wakes_each_thread() {
    let woken = outcomes(|sim, outcome| {
        let shared = Arc::new((Mutex::new(0), Condvar::new()));
        for name in ["first", "second"] {
            let (shared, outcome) = (Arc::clone(&shared), outcome.clone());
            sim.tracer(name, move || {
                let mut guard = shared.0.lock().unwrap();
                *guard += 1;
                drop(shared.1.wait(guard).unwrap());
                outcome.put(name);
            });
        }
        sim.tracer("notifies", move || {
            while *shared.0.lock().unwrap() < 2 {
                thread::yield_now();
            }
            shared.1.notify_all();
        });
    });
    assert_eq!(woken, BTreeSet::from(["first", "second"]));
}

#[test]
fn a_wait_with_a_limit_ends_both_ways() {
    let ended = outcomes(|sim, outcome| {
        let shared = Arc::new((Mutex::new(()), Condvar::new()));
        let (other, outcome) = (Arc::clone(&shared), outcome.clone());
        sim.tracer("waits", move || {
            let (_guard, ended) = shared.1.wait_timeout(shared.0.lock().unwrap(), Duration::from_secs(1)).unwrap();
            outcome.put(ended.timed_out());
        });
        sim.tracer("notifies", move || other.1.notify_one());
    });
    assert_eq!(ended, BTreeSet::from([false, true]));
}

#[test]
fn a_wait_with_a_limit_that_finds_its_condition_at_last_has_not_timed_out() {
    let ended = outcomes(|sim, outcome| {
        let shared = Arc::new((Mutex::new(false), Condvar::new()));
        let (other, outcome) = (Arc::clone(&shared), outcome.clone());
        sim.tracer("waits", move || {
            let limit = Duration::from_secs(1);
            let waited = shared.1.wait_timeout_while(shared.0.lock().unwrap(), limit, |ready| !*ready);
            let (ready, ended) = waited.unwrap();
            outcome.put((*ready, ended.timed_out()));
        });
        sim.tracer("tells nobody", move || *other.0.lock().unwrap() = true);
    });
    assert_eq!(ended, BTreeSet::from([(false, true), (true, false)]));
}

#[test]
fn two_locks_in_opposite_orders_are_a_deadlock() {
    let cause = cause(|sim| {
        let locks = Arc::new((Mutex::new(0), Mutex::new(0)));
        let other = Arc::clone(&locks);
        sim.tracer("first", move || drop((locks.0.lock().unwrap(), locks.1.lock().unwrap())));
        sim.tracer("second", move || drop((other.1.lock().unwrap(), other.0.lock().unwrap())));
        sim.run();
    });
    for words in ["deadlock", "first", "second"] {
        assert!(cause.contains(words), "{cause}");
    }
}

#[test]
fn a_change_under_one_lock_is_never_lost() {
    let sums = outcomes(|sim, outcome| {
        let sum = Arc::new(Mutex::new(0));
        for name in ["first", "second", "third"] {
            let (sum, outcome) = (Arc::clone(&sum), outcome.clone());
            sim.tracer(name, move || {
                let mut guard = sum.lock().unwrap();
                *guard += 1;
                if *guard == 3 {
                    outcome.put(*guard);
                }
            });
        }
    });
    assert_eq!(sums, BTreeSet::from([3]));
}

#[test]
fn a_lock_that_is_tried_may_be_held() {
    let taken = outcomes(|sim, outcome| {
        let (lock, steps) = (Arc::new(Mutex::new(())), Arc::new(AtomicUsize::new(0)));
        let (tried, outcome) = (Arc::clone(&lock), outcome.clone());
        sim.tracer("holds", move || {
            let _guard = lock.lock().unwrap();
            steps.store(1, SeqCst);
        });
        sim.tracer("tries", move || outcome.put(tried.try_lock().is_ok()));
    });
    assert_eq!(taken, BTreeSet::from([false, true]));
}

#[test]
fn readers_go_together_and_a_writer_alone() {
    let together = outcomes(|sim, outcome| {
        let (lock, readers) = (Arc::new(RwLock::new(0)), Arc::new(AtomicUsize::new(0)));
        for name in ["first", "second"] {
            let (lock, readers, outcome) = (Arc::clone(&lock), Arc::clone(&readers), outcome.clone());
            sim.tracer(name, move || {
                let guard = lock.read().unwrap();
                readers.fetch_add(1, SeqCst);
                outcome.put((*guard, readers.load(SeqCst)));
                readers.fetch_sub(1, SeqCst);
            });
        }
        sim.tracer("writer", move || {
            let mut guard = lock.write().unwrap();
            *guard = 1;
            assert_eq!(readers.load(SeqCst), 0);
            *guard = 2;
        });
    });
    assert_eq!(together, BTreeSet::from([(0, 1), (0, 2), (2, 1), (2, 2)]));
}

#[test]
fn a_writer_that_reads_on_lets_readers_in_and_no_writer() {
    let seen = outcomes(|sim, outcome| {
        let (lock, reads_on) = (Arc::new(RwLock::new(0)), Arc::new(AtomicUsize::new(0)));
        let (read, other, reads) = (Arc::clone(&lock), Arc::clone(&lock), Arc::clone(&reads_on));
        let outcome = outcome.clone();
        sim.tracer("reads on", move || {
            let mut guard = lock.write().unwrap();
            *guard = 1;
            let guard = RwLockWriteGuard::downgrade(guard);
            reads_on.store(1, SeqCst);
            assert_eq!(*guard, 1);
            reads_on.store(0, SeqCst);
        });
        sim.tracer("reads", move || {
            let guard = read.read().unwrap();
            outcome.put((*guard, reads.load(SeqCst)));
        });
        sim.tracer("writes", move || *other.write().unwrap() *= 3);
    });
    assert_eq!(seen, BTreeSet::from([(0, 0), (1, 0), (1, 1), (3, 0)]));
}
