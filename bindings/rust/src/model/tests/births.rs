//! The calls by which a closure's tracee creates another.

use super::builder;
use crate::sys::ptrace::{self, Event, Options};
use crate::sys::signal::Signal;
use crate::sys::wait::{WaitStatus, wait, waitpid};
use crate::unistd::Pid;
use crate::{Errno, Phase, Row, Sim, Stop, Stress, Tracee};

const ROOT: Pid = Pid::from_raw(100);
const CHILD: Pid = Pid::from_raw(101);

/// The number and the first argument of a call, the option that asks for its event, and the event.
#[derive(Clone, Copy)]
struct Birth {
    create: fn(&mut Tracee, u32) -> crate::Result<()>,
    row: fn(u32) -> Row,
    call: (u64, u64),
    option: Options,
    event: Event,
}

const FORK: Birth = Birth {
    create: Tracee::fork,
    row: |tid| Row::child(tid, 100),
    call: (57, 0),
    option: Options::PTRACE_O_TRACEFORK,
    event: Event::PTRACE_EVENT_FORK,
};

const THREAD: Birth = Birth {
    create: Tracee::clone_thread,
    row: |tid| Row::thread(tid, 100, 100),
    call: (56, 0x1_0900),
    option: Options::PTRACE_O_TRACECLONE,
    event: Event::PTRACE_EVENT_CLONE,
};

#[derive(Clone, Copy, PartialEq)]
enum Child {
    Traced,
    Untraced,
}

fn trace(birth: Birth, child: Child) {
    let registers_at_call = || {
        assert_eq!(waitpid(ROOT, None), Ok(WaitStatus::PtraceSyscall(ROOT)));
        let registers = ptrace::getregs(ROOT).unwrap();
        ptrace::syscall(ROOT, None).unwrap();
        registers
    };
    waitpid(ROOT, None).unwrap();
    ptrace::syscall(ROOT, None).unwrap();
    let entered = registers_at_call();
    assert_eq!((entered.orig_rax, entered.rdi, entered.rax), (birth.call.0, birth.call.1, -38i64 as u64));
    if child == Child::Traced {
        let status = waitpid(ROOT, None);
        assert!(
            matches!(status, Ok(WaitStatus::PtraceEvent(_, _, event)) if event == birth.event as i32),
            "{status:?}"
        );
        assert_eq!(ptrace::getevent(ROOT), Ok(101));
        ptrace::syscall(ROOT, None).unwrap();
    }
    assert_eq!(registers_at_call().rax, 101);
    if child == Child::Traced {
        waitpid(CHILD, None).unwrap();
        ptrace::cont(CHILD, None).unwrap();
        assert_eq!(waitpid(CHILD, None), Ok(WaitStatus::Exited(CHILD, 0)));
    }
    assert_eq!(waitpid(ROOT, None), Ok(WaitStatus::Exited(ROOT, 0)));
    assert_eq!(wait(), Err(Errno::ECHILD));
}

fn run(sim: &Sim, birth: Birth, child: Child) {
    let option = if child == Child::Traced { birth.option } else { Options::empty() };
    sim.options(Options::PTRACE_O_TRACESYSGOOD | option);
    sim.tracee(Row::root(100), move |tracee| {
        tracee.stop(Stop::Start)?;
        (birth.create)(tracee, 101)
    });
    sim.tracee((birth.row)(101), |tracee| tracee.stop(Stop::Start).map(drop));
    sim.tracer("main", move || trace(birth, child));
    let end = sim.run();
    assert_eq!(end.phase(101), Some(if child == Child::Traced { Phase::Reaped } else { Phase::Unborn }));
    end.assert_all_reaped();
}

#[test]
fn a_child_is_born_by_the_event_that_its_option_asks_for() {
    for birth in [FORK, THREAD] {
        builder().exhaustive().check(|sim| run(sim, birth, Child::Traced));
        Stress { rounds: 10, ..Stress::new() }.check(|sim| run(sim, birth, Child::Traced));
    }
}

#[test]
fn nobody_sees_a_child_that_no_option_asks_for() {
    for birth in [FORK, THREAD] {
        builder().exhaustive().check(|sim| run(sim, birth, Child::Untraced));
        Stress { rounds: 10, ..Stress::new() }.check(|sim| run(sim, birth, Child::Untraced));
    }
}

/// The root creates two children, and asks by a signal for the option in between.
fn second_child_is_traced(sim: &Sim, birth: Birth) {
    sim.options(Options::empty());
    sim.tracee(Row::root(100), move |tracee| {
        tracee.stop(Stop::Start)?;
        (birth.create)(tracee, 101)?;
        tracee.stop(Stop::Signal(Signal::SIGUSR1))?;
        (birth.create)(tracee, 102)
    });
    sim.tracee((birth.row)(101), |_| panic!("nobody traces it"));
    sim.tracee((birth.row)(102), |tracee| tracee.stop(Stop::Start).map(drop));
    sim.tracer("main", move || {
        let mut events = Vec::new();
        while let Ok(status) = wait() {
            let pid = status.pid().unwrap();
            assert_ne!(pid, CHILD);
            match status {
                WaitStatus::Stopped(_, Signal::SIGUSR1) => ptrace::setoptions(pid, birth.option).unwrap(),
                WaitStatus::PtraceEvent(ROOT, _, event) => events.push((event, ptrace::getevent(pid).unwrap())),
                _ => {}
            }
            let _ = ptrace::cont(pid, None);
        }
        let started = (Event::PTRACE_EVENT_STOP as i32, 0);
        assert_eq!(events, [started, (birth.event as i32, 102)]);
    });
    let end = sim.run();
    assert_eq!(end.tracees, [(100, Phase::Reaped), (101, Phase::Unborn), (102, Phase::Reaped)]);
}

#[test]
fn a_child_is_born_after_one_that_nobody_traces() {
    for birth in [FORK, THREAD] {
        builder().exhaustive().check(|sim| second_child_is_traced(sim, birth));
        // The cells have children born in their order.
        let refused = Stress { rounds: 1, ..Stress::new() }.explore(|sim| second_child_is_traced(sim, birth));
        assert!(refused.unwrap_err().contains("of 102 is refused"));
    }
}

#[test]
fn a_child_that_nobody_traces_need_not_be_declared() {
    builder().exhaustive().check(|sim| {
        sim.options(Options::empty());
        sim.tracee(Row::root(100), |tracee| {
            tracee.fork(999)?;
            tracee.clone_thread(998)
        });
        sim.tracer("main", || while wait().is_ok() {});
        sim.run().assert_all_reaped();
    });
}

#[test]
fn a_call_that_is_not_traced_makes_the_event_alone() {
    builder().exhaustive().check(|sim| {
        sim.tracee(Row::root(100), |tracee| {
            tracee.stop(Stop::Start)?;
            tracee.fork(101)
        });
        sim.tracee(Row::child(101, 100), |tracee| tracee.stop(Stop::Start).map(drop));
        sim.tracer("main", || {
            let mut events = 0;
            while let Ok(status) = wait() {
                assert!(!matches!(status, WaitStatus::PtraceSyscall(_)), "{status:?}");
                events += u32::from(status.pid() == Some(ROOT) && matches!(status, WaitStatus::PtraceEvent(_, _, 1)));
                let _ = ptrace::cont(status.pid().unwrap(), None);
            }
            assert_eq!(events, 1);
        });
        sim.run().assert_all_reaped();
    });
}

#[test]
fn a_birth_that_is_refused_says_what_is_to_be_declared() {
    let refusal_of = |body: fn(&mut Tracee) -> crate::Result<()>| {
        let failure = builder().explore(move |sim| {
            sim.tracee(Row::root(100), body);
            sim.tracee(Row::child(101, 100), |_| Ok(()));
            sim.tracee(Row::thread(102, 100, 100), |_| Ok(()));
            sim.run();
        });
        failure.expect_err("the birth is refused").cause
    };
    let hint =
        |birth: &str| format!("error: EINVAL: Invalid argument. Its {birth} is refused: the child that it creates");
    assert!(refusal_of(|tracee| tracee.fork(999)).contains(&hint("fork of 999")));
    assert!(refusal_of(|tracee| tracee.clone_thread(102)).contains(&hint("clone of 102")));
    assert!(refusal_of(|tracee| tracee.stop(Stop::Fork(100)).map(drop)).contains(&hint("fork of 100")));
    // Another EINVAL has no such hint.
    assert!(refusal_of(|_| Err(Errno::EINVAL)).ends_with("error: EINVAL: Invalid argument"));
}
