//! What a thread has done counts also where it forgets it.

use super::builder;
use crate::sync::Mutex;
use crate::sys::ptrace;
use crate::sys::wait::{WaitStatus, wait};
use crate::unistd::Pid;
use crate::{Builder, Failure, Row, Shares, Sim, Stop};
use std::sync::Arc;

const LAST: i32 = 200;
const TEXT: u64 = 0x1_0000;

/// Two processes of two stops. The tracer does something where the second process stops first, and forgets it.
fn second_first(sim: &Sim, does: impl Fn(Pid) + Send + 'static) {
    sim.tracee(Row::root(100), |tracee| {
        tracee.stop(Stop::Start)?;
        tracee.stop(Stop::Signal(crate::sys::signal::Signal::SIGUSR1)).map(drop)
    });
    sim.tracee(Row::root(LAST as u32), |tracee| {
        tracee.stop(Stop::Start)?;
        tracee.stop(Stop::Signal(crate::sys::signal::Signal::SIGUSR1)).map(drop)
    });
    sim.tracer("main", move || {
        let mut waits = 0;
        loop {
            crate::forget(&waits);
            let Ok(status) = wait() else { return };
            waits += 1;
            let pid = status.pid().unwrap();
            if !matches!(status, WaitStatus::Exited(..)) {
                if waits == 1 && pid.as_raw() == LAST {
                    does(pid);
                }
                ptrace::cont(pid, None).unwrap();
            }
        }
    });
    sim.run();
}

fn fault(builder: Builder, test: impl Fn(&Sim)) -> Failure {
    builder.explore(test).expect_err("a schedule fails")
}

/// Two processes of one stop. The tracer is answered both stops, does something where the second process was first, and
/// forgets which it was: from there on only what it has done tells.
fn second_answered_first(sim: &Sim, does: fn(Pid)) {
    sim.tracee(Row::root(100), |tracee| tracee.stop(Stop::Start).map(drop));
    sim.tracee(Row::root(LAST as u32), |tracee| {
        tracee.map_memory(TEXT, 8)?;
        tracee.stop(Stop::Start)?;
        let mut text = [0];
        tracee.read_memory(TEXT, &mut text);
        assert!(text != [7] && tracee.registers().rax != 7, "the second process was first");
        Ok(())
    });
    sim.tracer("main", move || {
        let first = wait().unwrap().pid().unwrap();
        wait().unwrap();
        if first.as_raw() == LAST {
            does(first);
        }
        crate::forget(&());
        for pid in [100, LAST] {
            ptrace::cont(Pid::from_raw(pid), None).unwrap();
        }
        while wait().is_ok() {}
    });
    sim.run();
}

#[test]
fn registers_that_were_set_count() {
    for shares in [Shares::Memory, Shares::Sync] {
        let failure = fault(Builder { shares, ..builder() }, |sim| {
            second_answered_first(sim, |pid| {
                let mut registers = ptrace::getregs(pid).unwrap();
                registers.rax = 7;
                ptrace::setregs(pid, registers).unwrap();
            });
        });
        assert!(failure.cause.contains("the second process was first"), "{failure}");
    }
}

#[test]
fn memory_that_was_written_counts() {
    for shares in [Shares::Memory, Shares::Sync] {
        let failure = fault(Builder { shares, ..builder() }, |sim| {
            second_answered_first(sim, |pid| {
                ptrace::write_word(pid, std::ptr::without_provenance_mut(TEXT as usize), 7).unwrap();
            });
        });
        assert!(failure.cause.contains("the second process was first"), "{failure}");
    }
}

#[test]
fn what_a_lock_holds_counts() {
    for shares in [Shares::Memory, Shares::Sync] {
        let failure = fault(Builder { shares, ..builder() }, |sim| {
            let first = Arc::new(Mutex::new(0));
            let of_tracer = first.clone();
            sim.tracer("watcher", move || {
                while let Ok(status) = wait() {
                    let _ = ptrace::cont(status.pid().unwrap(), None);
                }
                assert_ne!(*first.lock().unwrap(), LAST, "the second process was first");
            });
            second_first(sim, move |pid| *of_tracer.lock().unwrap() = pid.as_raw());
        });
        assert!(failure.cause.contains("the second process was first"), "{failure}");
    }
}
