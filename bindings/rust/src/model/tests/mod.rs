//! Models of small tracers, and what is reported of them.

mod above;
mod births;
mod first_stops;
mod forgetting;

use super::{Builder, Coverage, Deadlocks, Shares, Threads};
use crate::sync::Mutex;
use crate::sys::ptrace;
use crate::sys::wait::{WaitPidFlag, WaitStatus, wait, waitpid};
use crate::unistd::Pid;
use crate::{Phase, Row, Sim, Stop};
use std::collections::BTreeSet;
use std::sync::Arc;
use std::sync::atomic::{AtomicU32, Ordering};
use std::time::Duration;

/// A builder that the environment does not change.
fn builder() -> Builder {
    Builder { schedule: None, deviations: None, max_schedules: 20_000, ..Builder::new() }
}

const ONE_CALL: &str = "tracee 100 100 100 0\ncall getpid = 100\nexit 0\nend\n";

fn main_loop() {
    while let Ok(status) = wait() {
        if !matches!(status, WaitStatus::Exited(..)) {
            ptrace::syscall(status.pid().unwrap(), None).unwrap();
        }
    }
}

/// Two processes of one call each, and so many tracers.
fn two_processes(sim: &Sim, tracers: usize) {
    sim.case(ONE_CALL).unwrap();
    sim.case(&ONE_CALL.replace("100", "200")).unwrap();
    for number in 0..tracers {
        sim.tracer(&number.to_string(), main_loop);
    }
    sim.run().assert_all_reaped();
}

/// Two tracers wait for the one stop of a tracee.
fn race(sim: &Sim) -> [Phase; 1] {
    sim.tracee(Row::root(100), |tracee| tracee.stop(Stop::Start).map(drop));
    for name in ["one", "two"] {
        sim.tracer(name, || {
            let _ = waitpid(Pid::from_raw(100), None);
        });
    }
    [sim.run().tracees[0].1]
}

#[test]
fn a_race_has_the_two_outcomes_that_explore_prints() {
    for shares in [Shares::Everything, Shares::Memory, Shares::Sync] {
        let outcomes = std::cell::RefCell::new(BTreeSet::new());
        let builder = Builder { deadlocks: Deadlocks::End, shares, ..builder() };
        let report = builder
            .explore(|sim| {
                outcomes.borrow_mut().insert(race(sim));
            })
            .unwrap();
        assert_eq!(report.coverage, Coverage::All);
        let all: Vec<[Phase; 1]> = outcomes.into_inner().into_iter().collect();
        assert_eq!(all, [[Phase::Claimed { tracer: 0 }], [Phase::Claimed { tracer: 1 }]]);
    }
}

#[test]
fn two_runs_report_the_same() {
    for threads in [Threads::New, Threads::Reused] {
        let once = || {
            let builder = Builder { threads, max_schedules: 2_000, ..builder() };
            let mut report = builder.explore(|sim| two_processes(sim, 2)).unwrap();
            report.time = Duration::ZERO;
            report
        };
        assert_eq!(once(), once());
    }
}

#[test]
fn one_tracer_and_two_processes_have_all_interleavings() {
    let report = builder().exhaustive().check(|sim| two_processes(sim, 1));
    assert_eq!(report.coverage, Coverage::All);
    assert_eq!(report.longest, 29);
}

#[test]
fn a_search_that_comes_not_so_far_says_so() {
    let bounded = Builder { max_schedules: 10, ..builder() };
    let report = bounded.explore(|sim| two_processes(sim, 2)).unwrap();
    assert_eq!((report.coverage, report.schedules), (Coverage::Deviations(0), 10));
    let failure = bounded.exhaustive().explore(|sim| two_processes(sim, 2)).unwrap_err();
    assert!(failure.cause.starts_with("not all interleavings were tried"), "{}", failure.cause);
    assert_eq!(failure.to_string(), failure.cause);
}

#[test]
fn a_deadlock_says_who_waits_for_what() {
    let failure = builder()
        .explore(|sim| {
            race(sim);
        })
        .unwrap_err();
    let lines: Vec<&str> = failure.cause.lines().collect();
    assert_eq!(
        lines,
        [
            "deadlock: no thread can go on",
            "  two waits: wait 100 1",
            "  tracee 100 claimed 1 by one: nobody restarts it"
        ]
    );
    assert_eq!(
        failure.steps,
        ["tracee 100 publish 100 start: published 1", "one        wait 100 0: 100 stop 1 0x80057f (start)"]
    );
    assert_eq!(failure.deviations, 0);
}

#[test]
fn a_deadlock_that_ends_the_run_says_who_waits() {
    Builder { deadlocks: Deadlocks::End, ..builder() }.check(|sim| {
        sim.case(ONE_CALL).unwrap();
        sim.tracer("ends", || {
            let _ = waitpid(None, Some(WaitPidFlag::WNOHANG));
        });
        sim.tracer("waits", || while wait().is_ok() {});
        let end = sim.run();
        assert_eq!(end.waiting, ["waits"]);
        assert!(matches!(end.phase(100), Some(Phase::Claimed { .. })));
    });
}

#[test]
fn two_locks_in_two_orders_are_a_deadlock() {
    let failure = builder()
        .explore(|sim| {
            let locks = Arc::new((Mutex::new(()), Mutex::new(())));
            for (name, swapped) in [("one", false), ("two", true)] {
                let locks = locks.clone();
                sim.tracer(name, move || {
                    let (first, second) = if swapped { (&locks.1, &locks.0) } else { (&locks.0, &locks.1) };
                    let _first = first.lock().unwrap();
                    let _second = second.lock().unwrap();
                });
            }
            sim.run();
        })
        .unwrap_err();
    let expected = "deadlock: no thread can go on\n  one waits: lock mutex 2, which two holds\n  \
                    two waits: lock mutex 1, which one holds";
    assert_eq!(failure.cause, expected);
    assert_eq!(failure.deviations, 1);
}

/// A tracer that takes a stop of a tracee that was not announced for a fault.
fn early_child(sim: &Sim) {
    sim.tracee(Row::root(100), |tracee| tracee.stop(Stop::Fork(101)).map(drop));
    sim.tracee(Row::child(101, 100), |tracee| tracee.stop(Stop::Start).map(drop));
    sim.tracer("main", || {
        let mut known = vec![Pid::from_raw(100)];
        while let Ok(status) = wait() {
            let pid = status.pid().unwrap();
            assert!(known.contains(&pid), "a stop of {pid}, which nobody has announced");
            if let WaitStatus::PtraceEvent(_, _, 1) = status {
                known.push(Pid::from_raw(ptrace::getevent(pid).unwrap() as i32));
            }
            let _ = ptrace::cont(pid, None);
        }
    });
    sim.run().assert_all_reaped();
}

#[test]
fn a_failing_schedule_is_run_again_by_its_text() {
    let failure = builder().explore(early_child).unwrap_err();
    assert_eq!(failure.cause, "thread `main` panicked: a stop of 101, which nobody has announced");
    assert_eq!(failure.deviations, 1);
    let test = std::thread::current().name().unwrap().to_string();
    let (place, decisions) = failure.schedule.rsplit_once(':').unwrap();
    assert_eq!(place, format!("{test}#1"));
    assert!(
        failure
            .to_string()
            .ends_with(&format!("\n  PUKZARN_SCHEDULE='{}' cargo test {test} -- --exact", failure.schedule))
    );

    // The second model of this test.
    let again = Builder { schedule: Some(format!("{test}#2:{decisions}")), ..builder() };
    let replayed = again.explore(early_child).unwrap_err();
    assert_eq!((replayed.report.schedules, &replayed.cause, &replayed.steps), (1, &failure.cause, &failure.steps));

    // The third ignores it.
    let other = again.explore(early_child).unwrap_err();
    assert_eq!(other.report.schedules, failure.report.schedules);

    // The fourth has no such decisions.
    let other = Builder { schedule: Some(format!("{test}#4:7.3")), ..builder() };
    let failure = other.explore(early_child).unwrap_err();
    assert!(failure.cause.contains("is of another test or program"), "{}", failure.cause);
}

#[test]
fn decisions_that_are_left_over_are_told() {
    let test = std::thread::current().name().unwrap().to_string();
    let shown = builder().explore(|sim| {
        two_processes(sim, 1);
        panic!("so that the schedule is shown");
    });
    let schedule = shown.unwrap_err().schedule;
    let decisions = schedule.strip_prefix(&format!("{test}#1:")).unwrap();

    let asked_for = |text: String| Builder { schedule: Some(text), ..builder() }.explore(|sim| two_processes(sim, 1));
    assert_eq!(asked_for(format!("{test}#2:{decisions}")).unwrap().schedules, 1);
    let failure = asked_for(format!("{test}#3:{decisions},1,0x70")).unwrap_err();
    let expected = "this schedule (PUKZARN_SCHEDULE) is of another test or program: 71 of its decisions are left over";
    assert_eq!(failure.cause, expected);
    assert_eq!(failure.schedule, format!("{test}#3:{decisions}"));
    assert_eq!(failure.steps.len(), 29);
}

#[test]
fn a_test_that_does_not_run_what_it_declares_is_told() {
    let never = |sim: &Sim| sim.tracer("main", main_loop);
    let too_late = |sim: &Sim| {
        two_processes(sim, 1);
        sim.tracer("main", main_loop);
    };
    let expected = "the test declares tracees or threads that it does not run: `Sim::run` has to come after them";
    assert_eq!(builder().explore(never).unwrap_err().cause, expected);
    assert_eq!(builder().explore(too_late).unwrap_err().cause, expected);
    let of_round = crate::Stress::new().explore(never).unwrap_err();
    assert_eq!(of_round, format!("round 1 of 1000 on threads: {expected}"));

    let runs = AtomicU32::new(0);
    let runs_no_more = builder().explore(|sim| {
        if runs.fetch_add(1, Ordering::SeqCst) < 2 {
            two_processes(sim, 1);
        }
    });
    let failure = runs_no_more.unwrap_err();
    let expected = "the test is not deterministic: it does not call `Sim::run` in schedule 3 of the search";
    assert!(failure.cause.starts_with(expected), "{failure}");
    assert_eq!((failure.to_string(), failure.report.schedules), (failure.cause, 3));
}

#[test]
fn calls_that_differ_after_the_same_answers_are_reported() {
    let runs = Arc::new(AtomicU32::new(0));
    let failure = Builder { deadlocks: Deadlocks::End, ..builder() }
        .explore(|sim| {
            let runs = runs.clone();
            sim.case(ONE_CALL).unwrap();
            sim.tracer("main", move || {
                let blocks = runs.fetch_add(1, Ordering::SeqCst).is_multiple_of(2);
                let _ = waitpid(None, if blocks { None } else { Some(WaitPidFlag::WNOHANG) });
            });
            sim.tracer("other", || {
                let _ = wait();
            });
            sim.run();
        })
        .unwrap_err();
    assert!(failure.cause.starts_with("the test is not deterministic"), "{}", failure.cause);
}

#[test]
fn a_thread_that_ends_later_than_before_is_told() {
    let begun = AtomicU32::new(0);
    let failure = builder()
        .explore(|sim| {
            let schedule = begun.fetch_add(1, Ordering::SeqCst);
            sim.case(ONE_CALL).unwrap();
            sim.tracer("main", move || {
                let other = crate::thread::spawn(move || {
                    if schedule >= 2 {
                        crate::thread::yield_now();
                    }
                });
                other.join().unwrap();
                while let Ok(status) = wait() {
                    let _ = ptrace::cont(status.pid().unwrap(), None);
                }
            });
            sim.run();
        })
        .unwrap_err();
    assert!(failure.cause.starts_with("the test is not deterministic"), "{}", failure.cause);
}

/// A tracer that gives a lock back before its loop, or after it, and nobody else wants the lock.
fn gives_back(sim: &Sim, before_the_loop: bool) {
    let lock = Arc::new(Mutex::new(()));
    sim.case(ONE_CALL).unwrap();
    sim.case(&ONE_CALL.replace("100", "200")).unwrap();
    sim.tracer("main", move || {
        let held = Some(lock.lock().unwrap()).filter(|_| !before_the_loop);
        main_loop();
        drop(held);
    });
    sim.run();
}

#[test]
fn a_lock_that_is_given_back_at_another_call_than_before_is_told() {
    // The second schedule is the first of another pass, with the same decisions.
    for (first_other, early) in [(1, false), (1, true), (2, false), (2, true)] {
        let begun = AtomicU32::new(0);
        let is_other = || begun.fetch_add(1, Ordering::SeqCst) >= first_other;
        let test = |sim: &Sim| gives_back(sim, if is_other() { early } else { !early });
        let failure = builder().explore(test).unwrap_err();
        assert!(failure.cause.starts_with("the test is not deterministic"), "{}", failure.cause);
        assert_eq!(failure.report.schedules, u64::from(first_other) + 1);
    }
    builder().exhaustive().check(|sim| gives_back(sim, false));
}

#[test]
fn a_lock_of_std_that_is_held_over_a_call_is_reported() {
    let builder = Builder { patience: Duration::from_millis(300), ..builder() };
    let failure = builder
        .explore(|sim| {
            sim.case(ONE_CALL).unwrap();
            let lock = Arc::new(std::sync::Mutex::new(()));
            for name in ["one", "two"] {
                let lock = lock.clone();
                sim.tracer(name, move || {
                    let _held = lock.lock();
                    let _ = waitpid(None, Some(WaitPidFlag::WNOHANG));
                    let _ = waitpid(None, Some(WaitPidFlag::WNOHANG));
                });
            }
            sim.run();
        })
        .unwrap_err();
    let first = failure.cause.lines().next().unwrap();
    assert!(first.starts_with("`two` makes no call: it waits for a lock of std"), "{first}");
    assert!(failure.cause.contains("\n  one is about to: claim any 0"), "{}", failure.cause);
}

#[test]
fn a_loop_that_never_waits_is_reported() {
    let failure = builder()
        .explore(|sim| {
            sim.case(ONE_CALL).unwrap();
            sim.tracer("main", || {
                let turn = crate::sync::atomic::AtomicU32::new(0);
                while turn.load(Ordering::SeqCst) == 0 {}
            });
            sim.run();
        })
        .unwrap_err();
    assert!(failure.cause.starts_with("more than 10000 steps, the last of them by `main`"), "{}", failure.cause);
}

#[test]
fn a_poll_waits_until_something_changes() {
    let report = builder().exhaustive().check(|sim| {
        sim.case(ONE_CALL).unwrap();
        sim.tracer("main", || {
            loop {
                match waitpid(None, Some(WaitPidFlag::WNOHANG)) {
                    Ok(WaitStatus::StillAlive) => crate::thread::yield_now(),
                    Ok(WaitStatus::Exited(..)) => {}
                    Ok(status) => ptrace::syscall(status.pid().unwrap(), None).unwrap(),
                    Err(_) => return,
                }
            }
        });
        sim.run().assert_all_reaped();
    });
    assert!(report.longest < 100, "{report:?}");
}

#[test]
fn situations_take_at_most_32_bytes_each() {
    let builder = Builder { max_schedules: 3_000, threads: Threads::Reused, ..builder() };
    let report = builder.explore(|sim| two_processes(sim, 2)).unwrap();
    assert!(report.situations > 1_000, "{report:?}");
    assert!(report.situation_bytes <= 32 * report.situations, "{report:?}");
}

/// A main loop that says what counts at its head.
fn forgetful_loop() {
    loop {
        crate::forget(&());
        match wait() {
            Ok(WaitStatus::Exited(..)) => {}
            Ok(status) => ptrace::syscall(status.pid().unwrap(), None).unwrap(),
            Err(_) => return,
        }
    }
}

#[test]
fn what_is_forgotten_is_searched_once() {
    let search = |body: fn()| {
        let sim = |sim: &Sim| {
            sim.case(ONE_CALL).unwrap();
            sim.case(&ONE_CALL.replace("100", "200")).unwrap();
            sim.tracer("main", body);
            sim.run().assert_all_reaped();
        };
        builder().exhaustive().check(sim)
    };
    let (all, forgetful) = (search(main_loop), search(forgetful_loop));
    assert!(forgetful.schedules < all.schedules, "{forgetful:?} {all:?}");
    assert!(forgetful.to_string().starts_with("all interleavings, as far as `forget` holds: "), "{forgetful}");
}

#[test]
fn what_a_closure_owns_is_given_back_after_the_run() {
    builder().exhaustive().check(|sim| {
        let owned = Arc::new(());
        let (of_tracee, of_tracer) = (owned.clone(), owned.clone());
        sim.tracee(Row::root(100), |_| Ok(()));
        // Nobody creates this one.
        sim.tracee(Row::child(101, 100), move |_| {
            drop(of_tracee);
            Ok(())
        });
        sim.tracer("main", move || {
            let _ = (wait(), of_tracer);
        });
        sim.run();
        assert_eq!(Arc::strong_count(&owned), 1);
    });
}
