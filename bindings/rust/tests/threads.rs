//! Rounds on threads: tracees by scripts and by closures, what they hand to a tracer and back, and how a round ends.

use pukzarn::sys::ptrace::{self, Event};
use pukzarn::sys::signal::Signal;
use pukzarn::sys::wait::{WaitStatus, wait, waitpid};
use pukzarn::unistd::Pid;
use pukzarn::{Errno, Phase, Row, Sim, Stop, Stress, stress, thread};
use std::sync::atomic::{AtomicU32, Ordering::SeqCst};
use std::sync::{Arc, Condvar, Mutex};
use std::time::Duration;

const ROUNDS: u64 = 200;

/// Restarts whatever stops, until there is no child.
fn main_loop() {
    while let Ok(status) = wait() {
        if !matches!(status, WaitStatus::Exited(..) | WaitStatus::Signaled(..)) {
            ptrace::syscall(status.pid().expect("a stop is of a tracee"), None).expect("it was claimed");
        }
    }
}

fn fault_of(patience: Duration, test: impl Fn(&Sim)) -> String {
    Stress { rounds: 20, patience, ..Stress::new() }.explore(test).expect_err("a round fails")
}

/// A process with a thread, and a child of its own.
const FAMILY: &str = "\
tracee 100 100 100 0
call getpid = 100
fork 101
thread 102
exit 0
end
tracee 101 101 100 100
signal 10
exit 1
end
tracee 102 100 100 100
call getpid = 100
exit 0
end
";

#[test]
fn scripted_tracees_are_traced_by_two_threads() {
    stress(ROUNDS, |sim| {
        sim.case(FAMILY).expect("the case is right");
        sim.tracer("one", main_loop);
        sim.tracer("two", main_loop);
        sim.run().assert_all_reaped();
    });
}

#[test]
fn registers_and_memory_go_to_the_tracer_and_back() {
    stress(ROUNDS, |sim| {
        sim.tracee(Row::root(100), |tracee| {
            tracee.map_memory(0x10000, 8)?;
            tracee.write_memory(0x10000, &7u64.to_le_bytes())?;
            tracee.call(1, [5, 0x10000, 0, 0, 0, 0], 3)?;
            tracee.stop(Stop::Enter)?;
            assert_eq!(tracee.registers().rdi, 6);
            Ok(())
        });
        sim.tracer("main", || {
            let pid = wait().expect("it stops").pid().expect("a stop is of a tracee");
            let mut registers = ptrace::getregs(pid).expect("it is stopped");
            assert_eq!((registers.orig_rax, registers.rdi), (1, 5));
            let word = ptrace::read(pid, registers.rsi as ptrace::AddressType).expect("the page is mapped");
            assert_eq!(word, 7);
            registers.rdi += 1;
            ptrace::setregs(pid, registers).expect("it is stopped");
            main_loop_after(pid);
        });
        sim.run().assert_all_reaped();
    });
}

fn main_loop_after(pid: Pid) {
    ptrace::cont(pid, None).expect("it was claimed");
    main_loop();
}

/// Restarts whatever stops, and counts the stops that an interrupt makes.
fn main_loop_that_counts(interrupted: &AtomicU32) {
    while let Ok(status) = wait() {
        match status {
            WaitStatus::Exited(..) => continue,
            WaitStatus::PtraceEvent(_, _, event) if event == Event::PTRACE_EVENT_STOP as i32 => {
                interrupted.fetch_add(1, SeqCst);
            }
            _ => {}
        }
        ptrace::cont(status.pid().expect("a stop is of a tracee"), None).expect("it was claimed");
    }
}

#[test]
fn an_interrupt_stops_a_tracee_before_its_next_stop_or_comes_too_late() {
    let interrupted = Arc::new(AtomicU32::new(0));
    let count = interrupted.clone();
    stress(2_000, move |sim| {
        let count = count.clone();
        sim.tracee(Row::root(100), |tracee| tracee.stop(Stop::Signal(Signal::SIGUSR1)).map(drop));
        sim.tracer("main", move || {
            match ptrace::interrupt(Pid::from_raw(100)) {
                Ok(()) | Err(Errno::ESRCH) => {}
                Err(errno) => panic!("the interrupt failed: {errno}"),
            }
            main_loop_that_counts(&count);
        });
        sim.run().assert_all_reaped();
    });
    assert!((1..2_000).contains(&interrupted.load(SeqCst)), "{interrupted:?} of 2,000 came early enough");
}

#[test]
fn a_wait_is_interrupted_so_often_as_is_said_at_most() {
    let most = Arc::new(AtomicU32::new(0));
    let count = most.clone();
    stress(ROUNDS, move |sim| {
        let count = count.clone();
        sim.eintrs(2);
        sim.tracee(Row::root(100), |tracee| tracee.stop(Stop::Start).map(drop));
        sim.tracer("main", move || {
            let mut interrupted = 0;
            loop {
                match wait() {
                    Ok(WaitStatus::Exited(..)) => {}
                    Ok(status) => ptrace::cont(status.pid().expect("a stop"), None).expect("it was claimed"),
                    Err(Errno::EINTR) => interrupted += 1,
                    Err(_) => break,
                }
            }
            count.fetch_max(interrupted, SeqCst);
        });
        sim.run().assert_all_reaped();
    });
    assert_eq!(most.load(SeqCst), 2);
}

#[test]
fn the_only_tracer_restarts_a_stop_that_another_thread_was_answered() {
    stress(ROUNDS, |sim| {
        sim.only_tracer("main");
        sim.tracee(Row::root(100), |tracee| tracee.stop(Stop::Start).map(drop));
        let (to_main, stops) = std::sync::mpsc::channel();
        sim.tracer("waiter", move || {
            let pid = Pid::from_raw(100);
            assert!(matches!(waitpid(pid, None), Ok(WaitStatus::PtraceEvent(..))));
            assert_eq!(ptrace::getregs(pid), Err(Errno::ESRCH));
            assert_eq!(ptrace::cont(pid, None), Err(Errno::ESRCH));
            to_main.send(pid).expect("the other lives");
            assert_eq!(waitpid(pid, None), Ok(WaitStatus::Exited(pid, 0)));
        });
        sim.tracer("main", move || ptrace::cont(stops.recv().expect("the other lives"), None).expect("it is stopped"));
        sim.run().assert_all_reaped();
    });
}

#[test]
fn the_only_tracer_restarts_a_stop_that_nobody_was_answered() {
    stress(ROUNDS, |sim| {
        sim.only_tracer("main");
        sim.tracee(Row::root(100), |tracee| tracee.stop(Stop::Start).map(drop));
        sim.tracer("main", || {
            let pid = Pid::from_raw(100);
            while ptrace::cont(pid, None) == Err(Errno::ESRCH) {
                thread::yield_now();
            }
            assert_eq!(wait(), Ok(WaitStatus::Exited(pid, 0)));
        });
        sim.run().assert_all_reaped();
    });
}

#[test]
fn the_only_tracer_looks_at_a_stop_that_nobody_was_answered() {
    stress(ROUNDS, |sim| {
        sim.only_tracer("main");
        sim.tracee(Row::root(100), |tracee| tracee.stop(Stop::Start).map(drop));
        sim.tracer("main", || {
            let pid = Pid::from_raw(100);
            while ptrace::getevent(pid) == Err(Errno::ESRCH) {
                thread::yield_now();
            }
            ptrace::cont(pid, None).expect("it is stopped");
            assert_eq!(wait(), Ok(WaitStatus::Exited(pid, 0)));
        });
        sim.run().assert_all_reaped();
    });
}

#[test]
fn threads_that_the_tracer_starts_are_tracers_too() {
    stress(ROUNDS, |sim| {
        sim.case(FAMILY).expect("the case is right");
        sim.tracer("main", || {
            let spawned = thread::spawn(main_loop);
            thread::scope(|scope| {
                scope.spawn(main_loop);
                main_loop();
            });
            spawned.join().expect("it ends");
        });
        sim.run().assert_all_reaped();
    });
}

#[test]
fn a_round_ends_where_nobody_restarts_what_is_stopped() {
    stress(ROUNDS, |sim| {
        // The leader waits for the end of its thread, which is stopped for good.
        sim.tracee(Row::root(100), |tracee| tracee.stop(Stop::Clone(101)).map(drop));
        sim.tracee(Row::thread(101, 100, 100), |tracee| tracee.stop(Stop::Start).map(drop));
        sim.tracer("main", || {
            let pid = Pid::from_raw(100);
            waitpid(pid, None).expect("it stops");
            ptrace::cont(pid, None).expect("it was claimed");
            waitpid(Pid::from_raw(101), None).expect("it stops");
        });
        let end = sim.run();
        assert_eq!(end.tracees, [(100, Phase::Running), (101, Phase::Claimed { tracer: 0 })]);
    });
}

#[test]
fn a_round_in_which_nothing_happens_fails() {
    let fault = fault_of(Duration::from_millis(200), |sim| {
        let never = Arc::new((Mutex::new(()), Condvar::new()));
        sim.tracer("main", move || drop(never.1.wait(never.0.lock().unwrap())));
        sim.run();
    });
    assert_eq!(
        fault,
        "round 1 of 20 on threads: nothing has happened for 200ms, and 1 threads of the tracer have not ended"
    );
}

#[test]
fn what_threads_do_not_have_is_named() {
    let fault = fault_of(Duration::from_secs(20), |sim| {
        sim.kills();
        sim.tracee(Row::root(100), |tracee| tracee.stop(Stop::Start).map(drop));
        sim.tracer("main", || ptrace::kill(Pid::from_raw(100)).expect("it never answers"));
        sim.run();
    });
    assert!(fault.contains("kill on threads is not simulated"), "{fault}");
    let fault = fault_of(Duration::from_secs(20), |sim| {
        sim.tracee(Row::root(100), |tracee| {
            tracee.stop(Stop::Clone(101))?;
            tracee.exit_group(0);
            Ok(())
        });
        sim.tracee(Row::thread(101, 100, 100), |_| Ok(()));
        sim.tracer("main", main_loop);
        sim.run();
    });
    assert!(fault.contains("exit_group of several threads, on threads is not simulated"), "{fault}");
}
