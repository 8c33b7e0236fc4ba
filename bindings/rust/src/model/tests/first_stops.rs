//! Tracees whose first stop is SIGSTOP, as those of a tracer by PTRACE_TRACEME or PTRACE_ATTACH.

use super::builder;
use crate::errno::Errno;
use crate::sys::ptrace::{self, Event};
use crate::sys::signal::Signal;
use crate::sys::wait::{WaitStatus, wait};
use crate::unistd::Pid;
use crate::{FirstStop, Restart, Row, Sim, Stop, Stress};

const FORKS: &str = "tracee 100 100 100 0\nfork 101\nexit 0\nend\ntracee 101 101 100 100\nexit 0\nend\n";

/// Each tracee's first stop is SIGSTOP, and no stop after it is; then that of an event is no first stop.
fn expects_sigstop_first() {
    let mut seen = Vec::new();
    while let Ok(status) = wait() {
        let pid = status.pid().unwrap();
        let is_first = !seen.contains(&pid);
        match status {
            WaitStatus::Stopped(_, Signal::SIGSTOP) => assert!(is_first, "a second SIGSTOP of {pid}"),
            WaitStatus::Exited(..) => continue,
            WaitStatus::PtraceEvent(_, _, event) => {
                assert!(!is_first, "the first stop of {pid} is an event");
                assert_eq!(event, Event::PTRACE_EVENT_FORK as i32);
            }
            status => panic!("a stop that is not expected: {status:?}"),
        }
        if is_first {
            assert_eq!(ptrace::getsiginfo(pid).unwrap().si_signo, Signal::SIGSTOP as i32);
            seen.push(pid);
        }
        ptrace::cont(pid, None).unwrap();
    }
}

fn scripts(sim: &Sim) {
    sim.first_stops(FirstStop::Sigstop);
    sim.case(FORKS).unwrap();
    sim.tracer("main", expects_sigstop_first);
    sim.run().assert_all_reaped();
}

fn closures(sim: &Sim) {
    sim.first_stops(FirstStop::Sigstop);
    sim.tracee(Row::root(100), |tracee| {
        assert_eq!(tracee.stop(Stop::Start)?, Restart::Cont(None));
        tracee.stop(Stop::Fork(101)).map(drop)
    });
    sim.tracee(Row::child(101, 100), |tracee| tracee.stop(Stop::Start).map(drop));
    sim.tracer("main", expects_sigstop_first);
    sim.run().assert_all_reaped();
}

#[test]
fn the_first_stop_is_sigstop_in_a_model() {
    builder().exhaustive().check(scripts);
    builder().exhaustive().check(closures);
}

#[test]
fn the_first_stop_is_sigstop_on_threads() {
    let rounds = Stress { rounds: 50, ..Stress::new() };
    rounds.check(scripts);
    rounds.check(closures);
}

#[test]
fn a_schedule_names_the_signal_of_the_first_stop() {
    let failure = builder().explore(|sim| {
        sim.first_stops(FirstStop::Sigstop);
        sim.case(FORKS).unwrap();
        sim.tracer("main", || panic!("{:?}", wait()));
        sim.run();
    });
    let steps = failure.unwrap_err().steps;
    assert_eq!(steps[0], "tracee 100 publish 100 signal 19: published 1");
    assert_eq!(steps[1], "main       wait any 0: 100 stop 1 0x00137f (signal 19)");
}

/// Hands on the signal of each stop.
fn hands_signals_on(sim: &Sim) {
    sim.first_stops(FirstStop::Sigstop);
    sim.case(FORKS).unwrap();
    sim.tracer("main", || {
        while let Ok(status) = wait() {
            match status {
                WaitStatus::Stopped(pid, signal) => ptrace::cont(pid, signal).unwrap(),
                status => ptrace::cont(status.pid().unwrap(), None).unwrap(),
            }
        }
    });
    sim.run();
}

#[test]
fn a_script_whose_sigstop_is_handed_on_says_that_its_group_would_stop() {
    let failure = builder().explore(hands_signals_on).unwrap_err();
    assert!(failure.cause.contains("tracee 100 hands on the SIGSTOP of its first stop"), "{failure}");
    let fault = Stress { rounds: 1, ..Stress::new() }.explore(hands_signals_on).unwrap_err();
    assert!(fault.contains("tracee 100 hands on the SIGSTOP of its first stop"), "{fault}");
}

/// A tracee that was not seized takes no interrupt.
fn interrupts(sim: &Sim) {
    sim.first_stops(FirstStop::Sigstop);
    sim.tracee(Row::root(100), |tracee| tracee.stop(Stop::Start).map(drop));
    sim.tracer("main", || {
        let pid = wait().unwrap().pid().unwrap();
        assert_eq!(ptrace::interrupt(pid), Err(Errno::EIO));
        assert_eq!(ptrace::interrupt(Pid::from_raw(999)), Err(Errno::ESRCH));
        ptrace::cont(pid, None).unwrap();
        wait().unwrap();
    });
    sim.run().assert_all_reaped();
}

#[test]
fn an_interrupt_is_eio() {
    builder().exhaustive().check(interrupts);
    Stress { rounds: 5, ..Stress::new() }.check(interrupts);
}

#[test]
fn without_traceexec_an_exec_has_no_event() {
    use crate::sys::ptrace::Options;
    builder().exhaustive().check(|sim| {
        sim.options(Options::PTRACE_O_TRACESYSGOOD);
        sim.case("tracee 100 100 100 0\nexec 0\nexit 0\nend\n").unwrap();
        sim.tracer("main", || {
            ptrace::cont(wait().unwrap().pid().unwrap(), None).unwrap();
            assert!(matches!(wait(), Ok(WaitStatus::Exited(..))));
        });
        sim.run().assert_all_reaped();
    });
}

#[test]
fn a_tracee_without_options_stops_by_sigtrap_at_calls() {
    builder().exhaustive().check(|sim| {
        sim.first_stops(FirstStop::Sigstop);
        sim.options(ptrace::Options::empty());
        sim.tracee(Row::root(100), |tracee| {
            tracee.stop(Stop::Start)?;
            tracee.call(39, [0; 6], 100)
        });
        sim.tracer("main", || {
            let mut signals = Vec::new();
            while let Ok(WaitStatus::Stopped(pid, signal)) = wait() {
                signals.push(signal);
                ptrace::syscall(pid, None).unwrap();
            }
            assert_eq!(signals, [Signal::SIGSTOP, Signal::SIGTRAP, Signal::SIGTRAP]);
        });
        sim.run().assert_all_reaped();
    });
}
