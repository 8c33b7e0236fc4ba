//! What a tracer asks of simulated tracees.

use super::ptrace::{self, AddressType, Options, regset::NT_PRSTATUS};
use super::signal::{SIGKILL, SIGTRAP, SIGUSR1, kill};
use super::wait::{Id, WaitPidFlag, WaitStatus, wait, waitid, waitpid};
use crate::errno::Errno;
use crate::libc;
use crate::unistd::Pid;
use crate::{Death, Row, Sim, Stop, Tracee};

const ROOT: Pid = Pid::from_raw(100);
const CHILD: Pid = Pid::from_raw(101);
const TEXT: u64 = 0x1_0000;

fn at(address: u64) -> AddressType {
    std::ptr::without_provenance_mut(address as usize)
}

/// Runs a tracer over one tracee, which ends once the tracer restarts it as it asks for.
fn traced(
    tracee: impl Fn(&mut Tracee) -> crate::Result<()> + Copy + Send + 'static,
    tracer: impl Fn() + Copy + Send + 'static,
) {
    let report = crate::Builder::new().exhaustive().check(|sim: &Sim| {
        sim.options(Options::PTRACE_O_TRACESYSGOOD);
        sim.tracee(Row::root(100), tracee);
        sim.tracer("main", tracer);
        sim.run().assert_all_reaped();
    });
    assert_eq!(report.coverage, crate::Coverage::All);
}

#[test]
fn memory_is_read_and_written_by_words() {
    let tracee = |tracee: &mut Tracee| {
        tracee.map_memory(TEXT, 4096)?;
        tracee.write_memory(TEXT, b"a word, and more")?;
        tracee.stop(Stop::Start)?;
        let mut text = [0; 16];
        assert_eq!((tracee.read_memory(TEXT, &mut text), &text), (16, b"a note, and more"));
        Ok(())
    };
    traced(tracee, || {
        wait().unwrap();
        assert_eq!(ptrace::read(ROOT, at(TEXT)), Ok(i64::from_ne_bytes(*b"a word, ")));
        assert_eq!(ptrace::read(ROOT, at(TEXT + 8)), Ok(i64::from_ne_bytes(*b"and more")));
        for not_mapped in [0, TEXT - 1, TEXT + 4096 - 7, u64::MAX] {
            assert_eq!(ptrace::read(ROOT, at(not_mapped)), Err(Errno::EIO));
            assert_eq!(ptrace::write_word(ROOT, at(not_mapped), 0), Err(Errno::EIO));
        }
        ptrace::write_word(ROOT, at(TEXT), i64::from_ne_bytes(*b"a note, ")).unwrap();
        ptrace::cont(ROOT, None).unwrap();
        assert_eq!(wait(), Ok(WaitStatus::Exited(ROOT, 0)));
    });
}

#[test]
fn registers_are_those_of_each_request() {
    let tracee = |tracee: &mut Tracee| {
        tracee.set_registers(&libc::user_regs_struct { r15: 15, orig_rax: 1, gs: 27, ..Default::default() });
        tracee.stop(Stop::Start)?;
        let registers = tracee.registers();
        assert_eq!((registers.r15, registers.orig_rax, registers.rip, registers.gs), (15, 39, 7, 26));
        Ok(())
    };
    traced(tracee, || {
        wait().unwrap();
        let registers = ptrace::getregs(ROOT).unwrap();
        assert_eq!(ptrace::getregset::<NT_PRSTATUS>(ROOT), Ok(registers));
        let read = [0, 120, 208].map(|offset| ptrace::read_user(ROOT, at(offset)));
        assert_eq!((read, registers.gs), ([Ok(15), Ok(1), Ok(27)], 27));
        ptrace::setregs(ROOT, libc::user_regs_struct { orig_rax: 39, ..registers }).unwrap();
        let registers = ptrace::getregset::<NT_PRSTATUS>(ROOT).unwrap();
        ptrace::setregset::<NT_PRSTATUS>(ROOT, libc::user_regs_struct { rip: 7, ..registers }).unwrap();
        ptrace::write_register(ROOT, at(208), 26).unwrap();
        assert_eq!(ptrace::write_register(ROOT, at(216), 26), Err(Errno::EIO));
        ptrace::cont(ROOT, None).unwrap();
        wait().unwrap();
    });
}

#[test]
fn each_stop_is_reported_as_what_it_is() {
    let tracee = |tracee: &mut Tracee| {
        tracee.stop(Stop::Start)?;
        tracee.call(39, [0; 6], 100)?;
        tracee.stop(Stop::Exec(100))?;
        assert_eq!(tracee.stop(Stop::Signal(SIGUSR1))?.signal(), Some(SIGKILL));
        tracee.exit(Death::Exited(7));
        Ok(())
    };
    traced(tracee, || {
        let next = |status: WaitStatus, op: u8, message: libc::c_long, info: [i32; 2]| {
            assert_eq!(wait(), Ok(status));
            assert_eq!(ptrace::getevent(ROOT), Ok(message));
            assert_eq!(ptrace::syscall_info(ROOT).map(|info| (info.op, info.arch)), Ok((op, 0xc000_003e)));
            let signal = ptrace::getsiginfo(ROOT).unwrap();
            assert_eq!([signal.si_signo, signal.si_code], info);
        };
        next(WaitStatus::PtraceEvent(ROOT, SIGTRAP, 128), 0, 0, [5, 0x8005]);
        ptrace::syscall(ROOT, None).unwrap();
        next(WaitStatus::PtraceSyscall(ROOT), 1, 0, [5, 0x85]);
        ptrace::syscall(ROOT, None).unwrap();
        next(WaitStatus::PtraceSyscall(ROOT), 2, 0, [5, 0x85]);
        ptrace::setoptions(ROOT, Options::PTRACE_O_TRACESYSGOOD | Options::PTRACE_O_TRACEEXIT).unwrap();
        ptrace::cont(ROOT, None).unwrap();
        next(WaitStatus::PtraceEvent(ROOT, SIGTRAP, 4), 0, 100, [5, 0x0405]);
        ptrace::cont(ROOT, None).unwrap();
        next(WaitStatus::Stopped(ROOT, SIGUSR1), 0, 0, [10, 0]);
        ptrace::cont(ROOT, SIGKILL).unwrap();
        next(WaitStatus::PtraceEvent(ROOT, SIGTRAP, 6), 0, 0x700, [5, 0x0605]);
        ptrace::cont(ROOT, None).unwrap();
        assert_eq!(wait(), Ok(WaitStatus::Exited(ROOT, 7)));
        assert_eq!(wait(), Err(Errno::ECHILD));
    });
}

#[test]
fn a_look_leaves_the_stop_to_a_later_wait() {
    let tracee = |tracee: &mut Tracee| tracee.stop(Stop::Signal(SIGUSR1)).map(drop);
    traced(tracee, || {
        let looks = WaitPidFlag::WEXITED | WaitPidFlag::WSTOPPED | WaitPidFlag::WNOWAIT | WaitPidFlag::__WALL;
        let stopped = WaitStatus::PtraceEvent(ROOT, SIGUSR1, 0);
        assert_eq!(waitid(Id::Pid(ROOT), looks), Ok(stopped));
        assert_eq!(ptrace::cont(ROOT, None), Err(Errno::ESRCH));
        assert_eq!(waitid(Id::All, looks | WaitPidFlag::WNOHANG), Ok(stopped));
        assert_eq!(waitid(Id::PGid(ROOT), WaitPidFlag::WSTOPPED), Ok(stopped));
        assert_eq!(waitpid(ROOT, Some(WaitPidFlag::WNOHANG | WaitPidFlag::__WALL)), Ok(WaitStatus::StillAlive));
        assert_eq!(waitid(Id::Pid(CHILD), looks), Err(Errno::ECHILD));
        for refused in [waitid(Id::Pid(Pid::from_raw(0)), looks), waitid(Id::All, WaitPidFlag::WNOHANG)] {
            assert_eq!(refused, Err(Errno::EINVAL));
        }
        ptrace::cont(ROOT, None).unwrap();
        assert_eq!(waitpid(Pid::from_raw(-100), None), Ok(WaitStatus::Exited(ROOT, 0)));
        assert_eq!(waitpid(ROOT, None), Err(Errno::ECHILD));
    });
}

#[test]
fn a_wait_for_stops_is_answered_no_death() {
    traced(
        |_| Ok(()),
        || {
            let exited = Ok(WaitStatus::Exited(ROOT, 0));
            assert_eq!(waitid(Id::Pid(ROOT), WaitPidFlag::WEXITED | WaitPidFlag::WNOWAIT), exited);
            // Nothing happens between these two.
            assert_eq!(waitid(Id::All, WaitPidFlag::WSTOPPED), Err(Errno::ECHILD));
            assert_eq!(waitid(Id::All, WaitPidFlag::WEXITED), exited);
        },
    );
}

#[test]
fn a_poll_is_answered_any_tracee_that_is_stopped() {
    let answered = std::sync::Mutex::new(std::collections::BTreeSet::new());
    crate::Builder::new().exhaustive().check(|sim| {
        for pid in [ROOT, CHILD] {
            sim.tracee(Row::root(pid.as_raw() as u32), |tracee| tracee.stop(Stop::Start).map(drop));
        }
        let (put, got) = std::sync::mpsc::channel();
        sim.tracer("main", move || {
            for pid in [ROOT, CHILD] {
                waitid(Id::Pid(pid), WaitPidFlag::WSTOPPED | WaitPidFlag::WNOWAIT).unwrap();
            }
            put.send(waitpid(None, Some(WaitPidFlag::WNOHANG)).unwrap().pid()).unwrap();
        });
        sim.run();
        answered.lock().unwrap().extend(got.try_iter());
    });
    assert_eq!(answered.into_inner().unwrap(), std::collections::BTreeSet::from([Some(ROOT), Some(CHILD)]));
}

#[test]
fn nothing_is_answered_of_who_was_not_waited_for() {
    let tracee = |tracee: &mut Tracee| tracee.stop(Stop::Start).map(drop);
    traced(tracee, || {
        for pid in [ROOT, CHILD, Pid::from_raw(-1)] {
            assert_eq!(ptrace::getregs(pid), Err(Errno::ESRCH));
            assert_eq!(ptrace::read(pid, at(0)), Err(Errno::ESRCH));
            assert_eq!(ptrace::getevent(pid), Err(Errno::ESRCH));
            assert_eq!(ptrace::setoptions(pid, Options::empty()), Err(Errno::ESRCH));
            assert_eq!(ptrace::syscall(pid, None), Err(Errno::ESRCH));
            assert_eq!(ptrace::syscall_info(pid).map(|info| info.op), Err(Errno::ESRCH));
        }
        assert_eq!(ptrace::interrupt(CHILD), Err(Errno::ESRCH));
        assert_eq!(ptrace::seize(CHILD, Options::empty()), Err(Errno::ESRCH));
        wait().unwrap();
        ptrace::cont(ROOT, None).unwrap();
        wait().unwrap();
    });
}

#[test]
fn a_tracee_may_be_seized_interrupted_and_killed() {
    let ends = std::sync::Mutex::new(std::collections::BTreeSet::new());
    crate::Builder::new().exhaustive().check(|sim| {
        sim.kills();
        sim.tracee(Row::root(100), |tracee| {
            tracee.stop(Stop::Start)?;
            tracee.call(39, [0; 6], 100)
        });
        let (put, got) = std::sync::mpsc::channel();
        sim.tracer("main", move || {
            wait().unwrap();
            ptrace::seize(ROOT, Options::PTRACE_O_TRACESYSGOOD).unwrap();
            ptrace::cont(ROOT, None).unwrap();
            ptrace::interrupt(ROOT).unwrap();
            let first = wait().unwrap();
            if first == WaitStatus::PtraceEvent(ROOT, SIGTRAP, 128) {
                kill(ROOT, SIGKILL).unwrap();
                assert_eq!(ptrace::getregs(ROOT), Err(Errno::ESRCH));
                put.send((true, wait() == Ok(WaitStatus::Signaled(ROOT, SIGKILL, false)))).unwrap();
            } else {
                put.send((false, first == WaitStatus::Exited(ROOT, 0))).unwrap();
            }
            assert_eq!(kill(ROOT, SIGKILL), Err(Errno::ESRCH));
        });
        sim.run().assert_all_reaped();
        ends.lock().unwrap().extend(got.try_iter());
    });
    assert_eq!(ends.into_inner().unwrap(), std::collections::BTreeSet::from([(false, true), (true, true)]));
}
