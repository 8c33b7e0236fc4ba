//! nix's `sys::wait`: waits, and what they report.

use crate::bits::flag_set;
use crate::context::{self, Request};
use crate::errno::Errno;
use crate::libc;
use crate::library::Waited;
use crate::sys::not_simulated;
use crate::sys::signal::Signal;
use crate::unistd::Pid;

flag_set! {
    /// What a wait is for, and how.
    pub struct WaitPidFlag {
        /// Answer `StillAlive` where there is nothing to report yet.
        WNOHANG = libc::WNOHANG;
        /// Report stops.
        WUNTRACED = libc::WUNTRACED;
        /// Report deaths.
        WEXITED = libc::WEXITED;
        /// Report who was continued after a group-stop, which a simulated tracee never is.
        WCONTINUED = libc::WCONTINUED;
        /// Report stops.
        WSTOPPED = libc::WSTOPPED;
        /// Leave what is reported for a later wait.
        WNOWAIT = libc::WNOWAIT;
        /// Wait for the tracees of the calling thread alone.
        __WNOTHREAD = libc::__WNOTHREAD;
        /// Wait for threads and processes, as every simulated wait does.
        __WALL = libc::__WALL;
        /// Wait for threads alone.
        __WCLONE = libc::__WCLONE;
    }
}

/// What a wait reports.
#[derive(Clone, Copy, Debug, Eq, Hash, PartialEq)]
pub enum WaitStatus {
    /// It has exited with this code: `WIFEXITED`, `WEXITSTATUS`.
    Exited(Pid, i32),
    /// This signal has killed it, with or without a core dump: `WIFSIGNALED`, `WTERMSIG`, `WCOREDUMP`.
    Signaled(Pid, Signal, bool),
    /// It has stopped with this signal: `WIFSTOPPED`, `WSTOPSIG`.
    Stopped(Pid, Signal),
    /// It has stopped with this signal at a `PTRACE_EVENT_*`.
    PtraceEvent(Pid, Signal, i32),
    /// It is at a syscall-stop, and `PTRACE_O_TRACESYSGOOD` is set.
    PtraceSyscall(Pid),
    /// It goes on after a group-stop, which a simulated tracee never does: `WIFCONTINUED`.
    Continued(Pid),
    /// There is nothing to report yet; an answer to `WNOHANG` alone.
    StillAlive,
}

impl WaitStatus {
    /// Whom it is about, `None` of `StillAlive`.
    pub fn pid(&self) -> Option<Pid> {
        match *self {
            WaitStatus::Exited(pid, _) | WaitStatus::Signaled(pid, ..) | WaitStatus::Stopped(pid, _) => Some(pid),
            WaitStatus::PtraceEvent(pid, ..) | WaitStatus::PtraceSyscall(pid) | WaitStatus::Continued(pid) => Some(pid),
            WaitStatus::StillAlive => None,
        }
    }

    /// What a raw wait status says; `EINVAL` where its signal has no name.
    pub fn from_raw(pid: Pid, status: i32) -> Result<WaitStatus, Errno> {
        if libc::WIFEXITED(status) {
            return Ok(WaitStatus::Exited(pid, libc::WEXITSTATUS(status)));
        }
        if libc::WIFSIGNALED(status) {
            let signal = Signal::try_from(libc::WTERMSIG(status))?;
            return Ok(WaitStatus::Signaled(pid, signal, libc::WCOREDUMP(status)));
        }
        if libc::WIFSTOPPED(status) {
            return WaitStatus::from_stop(pid, libc::WSTOPSIG(status), status >> 16);
        }
        assert!(libc::WIFCONTINUED(status), "the raw wait status {status:#x} is that of no event");
        Ok(WaitStatus::Continued(pid))
    }

    fn from_stop(pid: Pid, signal: i32, event: i32) -> Result<WaitStatus, Errno> {
        Ok(match event {
            _ if signal == libc::SIGTRAP | 0x80 => WaitStatus::PtraceSyscall(pid),
            0 => WaitStatus::Stopped(pid, Signal::try_from(signal)?),
            event => WaitStatus::PtraceEvent(pid, Signal::try_from(signal)?, event),
        })
    }

    /// What waitid(2) says of it. Every stop of a tracee has `CLD_TRAPPED`, of which nix makes an event, 0 where there
    /// is none.
    fn from_waited(waited: Waited) -> Result<WaitStatus, Errno> {
        Ok(match status_of(waited)? {
            WaitStatus::Stopped(pid, signal) => WaitStatus::PtraceEvent(pid, signal, 0),
            status => status,
        })
    }
}

fn status_of(waited: Waited) -> Result<WaitStatus, Errno> {
    WaitStatus::from_raw(Pid::from_raw(waited.tid.cast_signed()), waited.status.cast_signed())
}

/// The kinds of ids of waitid(2).
#[cfg(not(feature = "nix-0-26"))]
#[derive(Debug, Clone, Copy)]
pub enum Id<'fd> {
    /// Any tracee.
    All,
    /// The tracee with this id.
    Pid(Pid),
    /// The tracees of this process group.
    PGid(Pid),
    /// Ends the test: there are no file descriptors of tracees.
    PIDFd(std::os::fd::BorrowedFd<'fd>),
}

/// The kinds of ids of waitid(2).
#[cfg(feature = "nix-0-26")]
#[derive(Debug, Clone, Copy, PartialEq, Eq, PartialOrd, Ord, Hash)]
pub enum Id {
    /// Any tracee.
    All,
    /// The tracee with this id.
    Pid(Pid),
    /// The tracees of this process group.
    PGid(Pid),
    /// Ends the test: there are no file descriptors of tracees.
    PIDFd(std::os::fd::RawFd),
}

/// Waits for a tracee (above 0), any (-1, `None`) or a process group (below -1).
pub fn waitpid<P: Into<Option<Pid>>>(pid: P, options: Option<WaitPidFlag>) -> Result<WaitStatus, Errno> {
    let options = options.unwrap_or(WaitPidFlag::empty());
    refuse_of_threads("waitpid", options);
    if options.contains(WaitPidFlag::WCONTINUED) {
        not_simulated("waitpid with WCONTINUED", NO_GROUP_STOPS);
    }
    if !(WaitPidFlag::WNOHANG | WaitPidFlag::WUNTRACED | WaitPidFlag::__WALL).contains(options) {
        return Err(Errno::EINVAL);
    }
    let (idtype, id) = match pid.into().map_or(-1, Pid::as_raw) {
        -1 => (libc::P_ALL, 0),
        0 => not_simulated("waitpid of 0", NO_GROUP),
        i32::MIN => return Err(Errno::ESRCH),
        pid if pid > 0 => (libc::P_PID, pid),
        group => (libc::P_PGID, -group),
    };
    let asked = (options - WaitPidFlag::WUNTRACED) | WaitPidFlag::WSTOPPED | WaitPidFlag::WEXITED;
    wait_for(idtype, id, asked)?.map_or(Ok(WaitStatus::StillAlive), status_of)
}

/// Waits for any tracee, as `waitpid(None, None)`.
pub fn wait() -> Result<WaitStatus, Errno> {
    waitpid(None, None)
}

/// Waits with waitid(2)'s options, of which `WNOWAIT` only looks.
pub fn waitid(id: Id, flags: WaitPidFlag) -> Result<WaitStatus, Errno> {
    refuse_of_threads("waitid", flags);
    if flags.contains(WaitPidFlag::WCONTINUED) {
        not_simulated("waitid with WCONTINUED", NO_GROUP_STOPS);
    }
    let (idtype, id) = match id {
        Id::All => (libc::P_ALL, 0),
        Id::Pid(pid) => (libc::P_PID, pid.as_raw()),
        Id::PGid(pgid) if pgid.as_raw() == 0 => not_simulated("waitid of process group 0", NO_GROUP),
        Id::PGid(pgid) => (libc::P_PGID, pgid.as_raw()),
        Id::PIDFd(_) => not_simulated("waitid of P_PIDFD", "there are no file descriptors of tracees"),
    };
    wait_for(idtype, id, flags)?.map_or(Ok(WaitStatus::StillAlive), WaitStatus::from_waited)
}

const NO_GROUP_STOPS: &str = "there is no group-stop to continue from";
const NO_GROUP: &str = "a tracer has no process group of its own";

#[track_caller]
fn refuse_of_threads(call: &str, options: WaitPidFlag) {
    if options.intersects(WaitPidFlag::__WNOTHREAD | WaitPidFlag::__WCLONE) {
        not_simulated(
            &format!("{call} with __WNOTHREAD or __WCLONE"),
            "each thread of the tracer may wait for each tracee",
        );
    }
}

fn wait_for(idtype: libc::idtype_t, id: i32, options: WaitPidFlag) -> Result<Option<Waited>, Errno> {
    let blocks = !options.contains(WaitPidFlag::WNOHANG);
    // Every simulated wait is for threads and processes.
    let options = options - WaitPidFlag::WNOHANG - WaitPidFlag::__WALL;
    context::calls().wait(Request { idtype, id, options: options.bits().cast_unsigned(), blocks })
}

#[cfg(test)]
mod tests {
    use super::*;
    use crate::sys::ptrace::Event;
    use crate::sys::signal::{SIGSEGV, SIGSTOP, SIGTRAP, SIGUSR1};

    /// Raw wait statuses by wait(2) and ptrace(2), what waitpid reports of each, and what waitid does.
    fn rows(pid: Pid) -> Vec<(i32, WaitStatus, WaitStatus)> {
        let event = |event: Event| WaitStatus::PtraceEvent(pid, SIGTRAP, event as i32);
        let same = |raw: i32, status: WaitStatus| (raw, status, status);
        vec![
            same(0x0000, WaitStatus::Exited(pid, 0)),
            same(0xff00, WaitStatus::Exited(pid, 255)),
            same(0x000a, WaitStatus::Signaled(pid, SIGUSR1, false)),
            same(0x008b, WaitStatus::Signaled(pid, SIGSEGV, true)),
            (0x0a7f, WaitStatus::Stopped(pid, SIGUSR1), WaitStatus::PtraceEvent(pid, SIGUSR1, 0)),
            (0x057f, WaitStatus::Stopped(pid, SIGTRAP), WaitStatus::PtraceEvent(pid, SIGTRAP, 0)),
            same(0x857f, WaitStatus::PtraceSyscall(pid)),
            same(0x0001_057f, event(Event::PTRACE_EVENT_FORK)),
            same(0x0003_057f, event(Event::PTRACE_EVENT_CLONE)),
            same(0x0006_057f, event(Event::PTRACE_EVENT_EXIT)),
            same(0x0080_057f, event(Event::PTRACE_EVENT_STOP)),
            same(0x0080_137f, WaitStatus::PtraceEvent(pid, SIGSTOP, 128)),
            same(0xffff, WaitStatus::Continued(pid)),
        ]
    }

    #[test]
    fn a_raw_status_is_read_as_each_wait_does() {
        let pid = Pid::from_raw(100);
        for (raw, of_waitpid, of_waitid) in rows(pid) {
            let waited = Waited { tid: 100, status: raw as u32, ..Waited::default() };
            assert_eq!(WaitStatus::from_raw(pid, raw), Ok(of_waitpid), "{raw:#x}");
            assert_eq!(WaitStatus::from_waited(waited), Ok(of_waitid), "{raw:#x}");
            assert_eq!(of_waitpid.pid(), Some(pid));
        }
        assert_eq!(WaitStatus::StillAlive.pid(), None);
    }

    #[test]
    fn a_signal_without_a_name_is_an_error() {
        for raw in [0x0020, 0x227f, 0x0001_227f] {
            assert_eq!(WaitStatus::from_raw(Pid::from_raw(100), raw), Err(Errno::EINVAL), "{raw:#x}");
        }
    }

    #[test]
    fn an_option_that_waitpid_has_not_is_refused_before_the_wait() {
        for options in [WaitPidFlag::WEXITED, WaitPidFlag::WNOWAIT, WaitPidFlag::from_bits_retain(0x10)] {
            assert_eq!(waitpid(None, Some(options)), Err(Errno::EINVAL));
        }
        assert_eq!(waitpid(Pid::from_raw(i32::MIN), None), Err(Errno::ESRCH));
    }

    #[test]
    #[should_panic(expected = "waitpid of 0 is not simulated: a tracer has no process group of its own")]
    fn a_tracer_has_no_process_group() {
        let _ = waitpid(Pid::from_raw(0), None);
    }
}
