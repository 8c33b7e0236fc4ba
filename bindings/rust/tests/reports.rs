//! What a model says of a test that it cannot run to its end, and of how far it came.

use pukzarn::sync::Mutex;
use pukzarn::sync::atomic::{AtomicU32, Ordering};
use pukzarn::sys::ptrace;
use pukzarn::sys::wait::{WaitPidFlag, WaitStatus, waitpid};
use pukzarn::unistd::Pid;
use pukzarn::{Builder, Coverage, Failure, Report, Row, Shares, Sim, Stop};
use std::process::Command;
use std::sync::Arc;
use std::time::Duration;

fn short_process(sim: &Sim, tid: u32) {
    sim.tracee(Row::root(tid), |tracee| tracee.stop(Stop::Start).map(drop));
}

/// Restarts whatever stops, until there is no child.
fn main_loop() {
    while let Ok(status) = waitpid(None, None) {
        if !matches!(status, WaitStatus::Exited(..)) {
            ptrace::cont(status.pid().expect("a stop is of a tracee"), None).expect("it was claimed");
        }
    }
}

fn two_processes(sim: &Sim) {
    short_process(sim, 100);
    short_process(sim, 200);
    sim.tracer("main", main_loop);
    sim.run().assert_all_reaped();
}

#[track_caller]
fn failure_of(test: impl Fn(&Sim)) -> Failure {
    Builder::new().explore(test).expect_err("the test has a fault")
}

#[track_caller]
fn assert_says(failure: &Failure, words: &[&str]) {
    let text = failure.to_string();
    for word in words {
        assert!(text.contains(word), "no {word:?} in:\n{text}");
    }
}

#[test]
fn a_deadlock_says_who_waits_for_what() {
    let failure = failure_of(|sim| {
        short_process(sim, 100);
        // Nobody restarts the tracee after the first wait.
        sim.tracer("main", || {
            waitpid(Pid::from_raw(100), None).expect("it stops");
            waitpid(Pid::from_raw(100), None).expect("it is never answered");
        });
        sim.run();
    });
    assert_says(&failure, &["deadlock", "main", "wait 100", "tracee 100"]);
}

#[test]
fn two_locks_in_turn_are_a_deadlock() {
    let failure = failure_of(|sim| {
        let locks = Arc::new((Mutex::new(()), Mutex::new(())));
        let other = locks.clone();
        sim.tracer("one", move || {
            let _first = locks.0.lock().unwrap();
            let _second = locks.1.lock().unwrap();
        });
        sim.tracer("two", move || {
            let _second = other.1.lock().unwrap();
            let _first = other.0.lock().unwrap();
        });
        sim.run();
    });
    assert_says(&failure, &["deadlock", "one", "two", "lock"]);
}

#[test]
fn a_test_whose_calls_differ_is_not_deterministic() {
    let round = std::sync::atomic::AtomicU32::new(0);
    let failure = failure_of(|sim| {
        let odd = round.fetch_add(1, Ordering::SeqCst) % 2 == 1;
        short_process(sim, 100);
        short_process(sim, 200);
        sim.tracer("main", move || {
            if odd {
                waitpid(Pid::from_raw(999), None).expect_err("there is no such tracee");
            }
            main_loop();
        });
        sim.run();
    });
    assert_says(&failure, &["not deterministic"]);
}

#[test]
fn a_lock_of_std_that_is_held_over_a_call_is_reported() {
    let builder = Builder { patience: Duration::from_millis(500), ..Builder::new() };
    let held = |sim: &Sim| {
        let lock = Arc::new(std::sync::Mutex::new(()));
        short_process(sim, 100);
        short_process(sim, 200);
        for name in ["one", "two"] {
            let lock = lock.clone();
            sim.tracer(name, move || {
                let _held = lock.lock().unwrap_or_else(|poisoned| poisoned.into_inner());
                main_loop();
            });
        }
        sim.run();
    };
    let failure = builder.explore(held).expect_err("the test has a fault");
    assert_says(&failure, &["makes no call", "a lock of std", "`two`"]);
}

#[test]
fn a_loop_that_never_waits_is_reported() {
    let failure = failure_of(|sim| {
        short_process(sim, 100);
        let turns = AtomicU32::new(0);
        sim.tracer("main", move || while turns.fetch_add(1, Ordering::SeqCst) < u32::MAX {});
        sim.run();
    });
    assert_says(&failure, &["10000 steps", "main"]);
}

#[test]
fn a_call_that_is_not_simulated_says_why() {
    let failure = failure_of(|sim| {
        short_process(sim, 100);
        sim.tracer("main", || {
            let status = waitpid(None, None).expect("it stops");
            ptrace::detach(status.pid().expect("a stop is of a tracee"), None).expect("never");
        });
        sim.run();
    });
    assert_says(&failure, &["detach", "not simulated"]);
}

#[test]
fn a_ptrace_call_that_is_a_step_has_the_name_of_its_request() {
    let failure = failure_of(|sim| {
        sim.kills();
        short_process(sim, 100);
        sim.tracer("main", || {
            let pid = waitpid(None, None).expect("it stops").pid().expect("a stop is of a tracee");
            ptrace::setoptions(pid, ptrace::Options::empty()).expect("it was claimed");
            ptrace::getevent(pid).expect("it was claimed");
            ptrace::setregs(pid, ptrace::getregs(pid).expect("it was claimed")).expect("it was claimed");
            panic!("enough");
        });
        sim.run();
    });
    let calls: Vec<&str> = failure.steps.iter().filter_map(|step| step.strip_prefix("main       ")).collect();
    let requests = ["setoptions 100 0: done", "geteventmsg 100 0: done", "getregs 100 0: done", "setregs 100 0: done"];
    assert_eq!(calls[1..], requests, "{failure}");
}

#[test]
fn two_runs_of_a_model_report_the_same() {
    let report = || Builder::new().explore(two_processes).expect("the tracer has no fault");
    let (one, other) = (report(), report());
    let untimed = |report: Report| Report { time: Duration::ZERO, ..report };
    assert_eq!(untimed(one), untimed(other));

    let failure = || {
        failure_of(|sim| {
            short_process(sim, 100);
            sim.tracer("main", || assert!(waitpid(None, Some(WaitPidFlag::WNOHANG)).is_ok()));
            sim.run().assert_all_reaped();
        })
    };
    let (one, other) = (failure(), failure());
    assert_eq!((&one.cause, &one.steps), (&other.cause, &other.steps));
    // They are two models of this test.
    let decisions = |failure: &Failure| failure.schedule.rsplit_once(':').map(|(_, decisions)| decisions.to_string());
    assert_eq!(decisions(&one), decisions(&other));
    assert_ne!(one.schedule, other.schedule);
}

#[test]
fn exhaustive_fails_where_schedules_are_left() {
    let builder = Builder { max_schedules: 3, ..Builder::new() };
    let report = builder.explore(two_processes).expect("there is no fault in three schedules");
    assert_ne!(report.coverage, Coverage::All);
    builder.exhaustive().explore(two_processes).expect_err("not all were tried");
    let report = Builder::new().exhaustive().explore(two_processes).expect("all were tried");
    assert_eq!(report.coverage, Coverage::All);
}

#[test]
fn a_long_text_ends_with_its_cause() {
    let of_steps = |most: u32| {
        failure_of(move |sim| {
            short_process(sim, 100);
            let turns = AtomicU32::new(0);
            sim.tracer("main", move || {
                while turns.fetch_add(1, Ordering::SeqCst) < most {}
                panic!("it is lost");
            });
            sim.run();
        })
    };
    let long = of_steps(30).to_string();
    assert!(long.starts_with("thread `main` panicked: it is lost\n"), "{long}");
    assert!(long.ends_with(" -- --exact\nthe cause, as above: thread `main` panicked: it is lost"), "{long}");
    assert_eq!(of_steps(3).to_string().matches("it is lost").count(), 1);
}

#[test]
fn three_schedules_of_many() {
    Builder { max_schedules: 3, deviations: None, schedule: None, ..Builder::new() }.check(two_processes);
}

#[test]
fn at_most_one_deviation() {
    Builder { deviations: Some(1), schedule: None, ..Builder::new() }.check(two_processes);
}

#[test]
fn all_of_them() {
    Builder { deviations: None, schedule: None, ..Builder::new() }.check(two_processes);
}

#[test]
fn one_that_may_be_asked_for() {
    Builder { deviations: None, ..Builder::new() }.check(two_processes);
}

/// What a test of this program prints on standard error where it passes and its output is not asked for.
fn passes_and_prints(test: &str) -> String {
    let mut command = Command::new(std::env::current_exe().expect("this program has a name"));
    command.args([test, "--exact"]).env_remove("RUST_TEST_NOCAPTURE");
    command.env("PUKZARN_SCHEDULE", "one_that_may_be_asked_for#1:1");
    let output = command.output().expect("this program runs again");
    assert!(output.status.success(), "{test} passes");
    String::from_utf8(output.stderr).expect("text")
}

#[test]
fn a_test_that_passes_says_so_where_not_all_was_tried() {
    let bounded = passes_and_prints("three_schedules_of_many");
    assert!(bounded.starts_with("pukzarn: three_schedules_of_many#1: "), "{bounded}");
    for word in ["3 schedules", "Shares::Sync", "smaller", "pukzarn::forget", "PUKZARN_SCHEDULES"] {
        assert!(bounded.contains(word), "no {word:?} in:\n{bounded}");
    }
    let shallow = passes_and_prints("at_most_one_deviation");
    assert!(shallow.contains("all with at most 1 deviation: "), "{shallow}");
    assert!(shallow.contains("PUKZARN_DEVIATIONS"), "{shallow}");
    assert_eq!(passes_and_prints("all_of_them"), "");
}

#[test]
fn a_schedule_that_is_asked_for_and_passes_is_printed() {
    let printed = passes_and_prints("one_that_may_be_asked_for");
    let lines: Vec<&str> = printed.lines().collect();
    assert_eq!(lines[0], "pukzarn: one_that_may_be_asked_for#1: this schedule passes:", "{printed}");
    assert_eq!(lines[1], "  tracee 200 publish 200 start: published 1 <- before tracee 100", "{printed}");
    assert!(lines[lines.len() - 2].contains("wait any 0: no child"), "{printed}");
    assert!(lines[lines.len() - 1].contains("PUKZARN_SCHEDULE asks for this schedule alone"), "{printed}");
}

#[test]
fn nobody_is_advised_what_is_done_already_or_has_no_effect() {
    let advice = |shares: Shares, test: fn(&Sim)| {
        let builder = Builder { max_schedules: 3, shares, ..Builder::new() };
        let failure = builder.clone().exhaustive().explore(test).expect_err("not all were tried");
        let advice = builder.advice(&failure.report).expect("not all were tried");
        assert!(failure.cause.ends_with(&advice), "{failure}");
        ["Shares::Sync", "pukzarn::forget"].map(|way| advice.contains(way))
    };
    assert_eq!(advice(Shares::Memory, two_processes), [true, true]);
    assert_eq!(advice(Shares::Sync, two_processes), [false, true]);
    let forgets = |sim: &Sim| {
        sim.case("tracee 100 100 100 0\nexit 0\nend\ntracee 200 200 200 0\nexit 0\nend\n").expect("a case");
        sim.tracer("main", || {
            pukzarn::forget(&());
            main_loop();
        });
        sim.run().assert_all_reaped();
    };
    // One thread, over scripts: the order of its calls is its own.
    assert_eq!(advice(Shares::Memory, forgets), [false, false]);
}

#[test]
fn what_the_test_promises_is_named_in_the_report() {
    let builder = Builder { shares: Shares::Sync, ..Builder::new() };
    let report = builder.explore(|sim| {
        short_process(sim, 100);
        sim.tracer("main", || {
            loop {
                pukzarn::forget(&());
                match waitpid(None, None) {
                    Ok(WaitStatus::Exited(..)) => {}
                    Ok(status) => ptrace::cont(status.pid().expect("a stop"), None).expect("it was claimed"),
                    Err(_) => return,
                }
            }
        });
        sim.run().assert_all_reaped();
    });
    let text = report.expect("the tracer has no fault").to_string();
    assert!(text.contains("as far as `forget` holds"), "{text}");
    assert!(text.contains("pukzarn::sync"), "{text}");
}
