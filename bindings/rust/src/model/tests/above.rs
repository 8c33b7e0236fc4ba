//! What is above the board: kills, interrupts, EINTR, and the one thread that traces.

use super::{ONE_CALL, builder};
use crate::sys::ptrace::{self, Event, Options};
use crate::sys::signal::{SIGTRAP, SIGUSR1};
use crate::sys::wait::{WaitStatus, wait, waitpid};
use crate::unistd::Pid;
use crate::{Builder, Deadlocks, Death, Row, Sim, Stop};
use std::sync::Arc;
use std::sync::atomic::{AtomicU64, Ordering};

#[test]
fn a_kill_between_a_wait_and_the_restart_is_esrch() {
    let killed = AtomicU64::new(0);
    let refused = Arc::new(AtomicU64::new(0));
    builder().exhaustive().check(|sim| {
        sim.kills();
        sim.case(ONE_CALL).unwrap();
        sim.tracer("killer", || {
            let _ = ptrace::kill(Pid::from_raw(100));
        });
        let of_tracer = refused.clone();
        sim.tracer("main", move || {
            while let Ok(status) = wait() {
                let stopped = !matches!(status, WaitStatus::Exited(..) | WaitStatus::Signaled(..));
                if stopped && ptrace::cont(status.pid().unwrap(), None).is_err() {
                    of_tracer.fetch_add(1, Ordering::SeqCst);
                }
            }
        });
        sim.run().assert_all_reaped();
        killed.fetch_add(1, Ordering::SeqCst);
    });
    assert!(refused.load(Ordering::SeqCst) > 0);
    assert!(killed.load(Ordering::SeqCst) > 0);
}

#[test]
fn a_group_that_exits_takes_its_stopped_threads_along() {
    builder().exhaustive().check(|sim| {
        sim.kills();
        sim.tracee(Row::root(100), |tracee| {
            tracee.stop(Stop::Clone(101))?;
            tracee.exit_group(3);
            Ok(())
        });
        sim.tracee(Row::thread(101, 100, 100), |tracee| {
            tracee.stop(Stop::Start)?;
            tracee.exit(Death::Exited(0));
            Ok(())
        });
        sim.tracer("main", || {
            while let Ok(status) = wait() {
                let _ = ptrace::cont(status.pid().unwrap(), None);
            }
        });
        sim.run().assert_all_reaped();
    });
}

/// A process that creates a thread, and then calls exit_group(3); the thread makes one stop.
fn group_that_exits(sim: &Sim) {
    sim.kills();
    sim.tracee(Row::root(100), |tracee| {
        tracee.stop(Stop::Clone(101))?;
        tracee.exit_group(3);
        Ok(())
    });
    sim.tracee(Row::thread(101, 100, 100), |tracee| tracee.stop(Stop::Start).map(drop));
}

#[test]
fn who_dies_with_its_group_dies_so_though_it_is_killed_then() {
    builder().exhaustive().check(|sim| {
        group_that_exits(sim);
        sim.tracer("main", || {
            let (leader, thread) = (Pid::from_raw(100), Pid::from_raw(101));
            waitpid(leader, None).unwrap();
            ptrace::cont(leader, None).unwrap();
            // Its stop goes where its group exits.
            let Ok(WaitStatus::PtraceEvent(..)) = waitpid(thread, None) else { return };
            while ptrace::getregs(thread).is_ok() {
                crate::thread::yield_now();
            }
            ptrace::kill(thread).unwrap();
            assert_eq!(waitpid(thread, None), Ok(WaitStatus::Exited(thread, 3)));
        });
        sim.run();
    });
}

#[test]
fn a_group_that_has_exited_keeps_its_code_though_its_leader_is_killed_then() {
    builder().exhaustive().check(|sim| {
        group_that_exits(sim);
        sim.tracer("main", || {
            let (leader, thread) = (Pid::from_raw(100), Pid::from_raw(101));
            waitpid(leader, None).unwrap();
            ptrace::cont(leader, None).unwrap();
            let code = loop {
                match waitpid(thread, None) {
                    Ok(WaitStatus::Exited(_, code)) => break code,
                    _ => drop(ptrace::cont(thread, None)),
                }
            };
            if code == 0 {
                // It has ended by itself. Else it has ended with its group, so the leader has called exit_group.
                return;
            }
            ptrace::kill(leader).unwrap();
            assert_eq!(waitpid(leader, None), Ok(WaitStatus::Exited(leader, 3)));
        });
        sim.run();
    });
}

/// After these calls for a tracee that goes on, the next thing that is heard of it is its death.
fn dies_of(calls: fn(Pid)) {
    builder().exhaustive().check(|sim| {
        sim.kills();
        sim.tracee(Row::root(100), |tracee| tracee.stop(Stop::Start).map(drop));
        sim.tracer("main", move || {
            let pid = wait().unwrap().pid().unwrap();
            ptrace::cont(pid, None).unwrap();
            calls(pid);
            let status = wait().unwrap();
            assert!(matches!(status, WaitStatus::Exited(..) | WaitStatus::Signaled(..)), "{status:?}");
        });
        sim.run().assert_all_reaped();
    });
}

#[test]
fn who_is_killed_makes_no_stop_any_more() {
    dies_of(|pid| {
        ptrace::interrupt(pid).unwrap();
        ptrace::kill(pid).unwrap();
    });
}

#[test]
fn who_is_killed_is_not_interrupted_any_more() {
    dies_of(|pid| {
        ptrace::kill(pid).unwrap();
        let _ = ptrace::interrupt(pid);
    });
}

#[test]
fn a_child_has_the_options_of_its_parent() {
    builder().exhaustive().check(|sim| {
        sim.tracee(Row::root(100), |tracee| {
            tracee.stop(Stop::Start)?;
            tracee.stop(Stop::Fork(101)).map(drop)
        });
        sim.tracee(Row::child(101, 100), |tracee| tracee.stop(Stop::Start).map(drop));
        sim.tracer("main", || {
            let (parent, child) = (Pid::from_raw(100), Pid::from_raw(101));
            waitpid(parent, None).unwrap();
            ptrace::setoptions(parent, Options::PTRACE_O_TRACEFORK | Options::PTRACE_O_TRACEEXIT).unwrap();
            ptrace::cont(parent, None).unwrap();
            waitpid(parent, None).unwrap();
            waitpid(child, None).unwrap();
            ptrace::cont(child, None).unwrap();
            let ends = Event::PTRACE_EVENT_EXIT as i32;
            assert_eq!(waitpid(child, None), Ok(WaitStatus::PtraceEvent(child, SIGTRAP, ends)));
        });
        sim.run();
    });
}

#[test]
fn each_of_two_interrupts_stops_a_tracee_before_its_next_stop() {
    let most = Arc::new(AtomicU64::new(0));
    builder().exhaustive().check(|sim| {
        sim.tracee(Row::root(100), |tracee| tracee.stop(Stop::Signal(SIGUSR1)).map(drop));
        let of_tracer = most.clone();
        sim.tracer("main", move || {
            let pid = Pid::from_raw(100);
            let (mut interrupts, mut signals) = (0, 0);
            ptrace::interrupt(pid).unwrap();
            loop {
                match wait().unwrap() {
                    WaitStatus::Exited(..) => break,
                    WaitStatus::Stopped(..) => signals += 1,
                    _ => interrupts += 1,
                }
                ptrace::cont(pid, None).unwrap();
                if signals == 0 && interrupts == 1 {
                    ptrace::interrupt(pid).unwrap();
                }
            }
            assert_eq!(signals, 1);
            of_tracer.fetch_max(interrupts, Ordering::SeqCst);
        });
        sim.run().assert_all_reaped();
    });
    assert_eq!(most.load(Ordering::SeqCst), 2);
}

#[test]
fn an_interrupt_stops_a_tracee_whose_thread_has_ended() {
    builder().exhaustive().check(|sim| {
        sim.tracee(Row::root(100), |tracee| tracee.stop(Stop::Start).map(drop));
        sim.tracer("main", || {
            let pid = wait().unwrap().pid().unwrap();
            ptrace::cont(pid, None).unwrap();
            ptrace::interrupt(pid).unwrap();
            while let Ok(status) = wait() {
                if !matches!(status, WaitStatus::Exited(..)) {
                    ptrace::cont(pid, None).unwrap();
                }
            }
        });
        sim.run().assert_all_reaped();
    });
}

#[test]
fn an_interrupt_takes_no_stop_of_a_script_away() {
    let interrupted = Arc::new(AtomicU64::new(0));
    builder().exhaustive().check(|sim| {
        sim.case(ONE_CALL).unwrap();
        let of_tracer = interrupted.clone();
        sim.tracer("main", move || {
            let pid = wait().unwrap().pid().unwrap();
            ptrace::syscall(pid, None).unwrap();
            ptrace::interrupt(pid).unwrap();
            let mut calls = 0;
            while let Ok(status) = wait() {
                match status {
                    WaitStatus::Exited(..) => continue,
                    WaitStatus::PtraceSyscall(_) => calls += 1,
                    _ => {
                        of_tracer.fetch_add(1, Ordering::SeqCst);
                    }
                }
                ptrace::syscall(pid, None).unwrap();
            }
            // The entry and the exit of one, and the entry of exit.
            assert_eq!(calls, 3);
        });
        sim.run().assert_all_reaped();
    });
    assert!(interrupted.load(Ordering::SeqCst) > 0);
}

#[test]
fn a_wait_is_interrupted_so_often_as_is_said() {
    let interrupted = Arc::new(AtomicU64::new(0));
    let of_tracer = interrupted.clone();
    builder().exhaustive().check(|sim| {
        sim.eintrs(2);
        sim.case(ONE_CALL).unwrap();
        let of_tracer = of_tracer.clone();
        sim.tracer("main", move || {
            let mut times = 0;
            loop {
                match wait() {
                    Ok(WaitStatus::Exited(..)) => {}
                    Ok(status) => ptrace::cont(status.pid().unwrap(), None).unwrap(),
                    Err(crate::Errno::EINTR) => times += 1,
                    Err(_) => break,
                }
            }
            of_tracer.fetch_max(times, Ordering::SeqCst);
        });
        sim.run().assert_all_reaped();
    });
    assert_eq!(interrupted.load(Ordering::SeqCst), 2);
}

#[test]
fn a_script_takes_options_that_change_nothing() {
    builder().exhaustive().check(|sim| {
        sim.case(ONE_CALL).unwrap();
        sim.tracer("main", || {
            let pid = wait().unwrap().pid().unwrap();
            let without_effect = Options::PTRACE_O_EXITKILL | Options::PTRACE_O_TRACEVFORK;
            let options = Options::PTRACE_O_TRACESYSGOOD | Options::PTRACE_O_TRACEVFORKDONE | without_effect;
            ptrace::setoptions(pid, options).unwrap();
            ptrace::syscall(pid, None).unwrap();
            assert_eq!(wait(), Ok(WaitStatus::PtraceSyscall(pid)));
        });
        sim.run();
    });
}

#[test]
fn only_the_thread_that_traces_restarts() {
    let builder = Builder { deadlocks: Deadlocks::End, ..builder() };
    builder.check(|sim| {
        sim.only_tracer("main");
        sim.tracee(Row::root(100), |tracee| tracee.stop(Stop::Start).map(drop));
        sim.tracer("main", || {
            // Also a stop that another thread was answered.
            while ptrace::cont(Pid::from_raw(100), None).is_err() {
                crate::thread::yield_now();
            }
        });
        sim.tracer("other", || {
            if let Ok(WaitStatus::PtraceEvent(pid, ..)) = wait() {
                assert_eq!(ptrace::cont(pid, None), Err(crate::Errno::ESRCH));
            }
        });
        sim.run();
    });
}

#[test]
fn only_the_thread_that_traces_interrupts_and_sets_options() {
    builder().exhaustive().check(|sim| {
        sim.only_tracer("main");
        sim.tracee(Row::root(100), |tracee| tracee.stop(Stop::Start).map(drop));
        sim.tracer("main", || {
            let pid = wait().unwrap().pid().unwrap();
            ptrace::interrupt(pid).unwrap();
            let other =
                crate::thread::spawn(move || (ptrace::interrupt(pid), ptrace::seize(pid, Options::PTRACE_O_TRACEEXIT)));
            assert_eq!(other.join().unwrap(), (Err(crate::Errno::ESRCH), Err(crate::Errno::EPERM)));
            ptrace::cont(pid, None).unwrap();
            wait().unwrap();
        });
        sim.run().assert_all_reaped();
    });
}

#[test]
fn a_group_that_exits_keeps_its_code_though_its_leader_is_killed_at_the_exit_event() {
    builder().exhaustive().check(|sim| {
        sim.kills();
        sim.options(Options::PTRACE_O_TRACESYSGOOD | Options::PTRACE_O_TRACEEXIT);
        sim.tracee(Row::root(100), |tracee| {
            tracee.exit_group(3);
            Ok(())
        });
        sim.tracer("main", || {
            let leader = Pid::from_raw(100);
            assert!(matches!(waitpid(leader, None), Ok(WaitStatus::PtraceEvent(..))));
            ptrace::kill(leader).unwrap();
            assert_eq!(waitpid(leader, None), Ok(WaitStatus::Exited(leader, 3)));
        });
        sim.run().assert_all_reaped();
    });
}

#[test]
fn a_tracee_that_was_reaped_is_seized_by_nobody() {
    builder().exhaustive().check(|sim| {
        sim.only_tracer("main");
        sim.tracee(Row::root(100), |_| Ok(()));
        sim.tracer("main", || {
            wait().unwrap();
            let other = crate::thread::spawn(|| ptrace::seize(Pid::from_raw(100), Options::empty()));
            assert_eq!(other.join().unwrap(), Err(crate::Errno::ESRCH));
        });
        sim.run().assert_all_reaped();
    });
}
