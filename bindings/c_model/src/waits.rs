//! Waits in the forms of C: raw wait statuses, and waitid(2)'s siginfo.

use crate::place::not_simulated;
use pukzarn::errno::Errno;
use pukzarn::sys::wait::{Id, WaitPidFlag, WaitStatus, waitid, waitpid};
use pukzarn::unistd::Pid;
use std::ffi::{c_int, c_uint};

/// Whom a wait reports, and the raw wait status.
#[derive(Clone, Copy, Debug, PartialEq, Eq)]
pub(crate) struct Reported {
    pub(crate) pid: i32,
    pub(crate) status: c_int,
}

/// waitpid(2). `None` where there is nothing to report yet.
pub(crate) fn by_pid(pid: i32, options: c_int) -> Result<Option<Reported>, Errno> {
    let flags = WaitPidFlag::from_bits(options).ok_or(Errno::EINVAL)?;
    let reported = waitpid(Pid::from_raw(pid), Some(flags))?;
    Ok(reported.pid().map(|pid| Reported { pid: pid.as_raw(), status: raw_status(reported) }))
}

const SIGTRAP: c_int = 5;
const STOPPED: c_int = 0x7f;
const CORE_DUMPED: c_int = 0x80;
const SYSCALL_STOP: c_int = SIGTRAP | 0x80;

/// The raw wait status, by wait(2) and ptrace(2).
fn raw_status(reported: WaitStatus) -> c_int {
    match reported {
        WaitStatus::Exited(_, code) => code << 8,
        WaitStatus::Signaled(_, signal, dumped) => signal as c_int | if dumped { CORE_DUMPED } else { 0 },
        WaitStatus::Stopped(_, signal) => (signal as c_int) << 8 | STOPPED,
        WaitStatus::PtraceEvent(_, signal, event) => event << 16 | (signal as c_int) << 8 | STOPPED,
        WaitStatus::PtraceSyscall(_) => SYSCALL_STOP << 8 | STOPPED,
        WaitStatus::Continued(_) => 0xffff,
        WaitStatus::StillAlive => 0,
    }
}

/// siginfo_t as waitid(2) fills it. A simulated tracee is of user 0.
#[repr(C)]
#[derive(Clone, Copy, Debug, PartialEq, Eq)]
pub(crate) struct SignalInfo {
    signal: c_int,
    errno: c_int,
    code: c_int,
    alignment: c_int,
    pid: c_int,
    user: c_uint,
    status: c_int,
    rest: [c_int; 25],
}

const SIGCHLD: c_int = 17;
const CLD_EXITED: c_int = 1;
const CLD_KILLED: c_int = 2;
const CLD_DUMPED: c_int = 3;
const CLD_TRAPPED: c_int = 4;

impl SignalInfo {
    /// Zeros are what waitid(2) writes where there is nothing to report yet.
    const NOTHING: SignalInfo =
        SignalInfo { signal: 0, errno: 0, code: 0, alignment: 0, pid: 0, user: 0, status: 0, rest: [0; 25] };

    fn new(reported: WaitStatus) -> SignalInfo {
        let (code, status) = match reported {
            WaitStatus::StillAlive => return SignalInfo::NOTHING,
            WaitStatus::Exited(_, code) => (CLD_EXITED, code),
            WaitStatus::Signaled(_, signal, dumped) => (if dumped { CLD_DUMPED } else { CLD_KILLED }, signal as c_int),
            stop => (CLD_TRAPPED, raw_status(stop) >> 8),
        };
        let pid = reported.pid().map_or(0, Pid::as_raw);
        SignalInfo { signal: SIGCHLD, code, pid, status, ..SignalInfo::NOTHING }
    }
}

const P_ALL: c_uint = 0;
const P_PID: c_uint = 1;
const P_PGID: c_uint = 2;
const P_PIDFD: c_uint = 3;

/// waitid(2).
pub(crate) fn by_id(idtype: c_uint, id: c_uint, options: c_int) -> Result<SignalInfo, Errno> {
    let flags = WaitPidFlag::from_bits(options).ok_or(Errno::EINVAL)?;
    let pid = Pid::from_raw(id.cast_signed());
    let id = match idtype {
        P_ALL => Id::All,
        P_PID => Id::Pid(pid),
        P_PGID => Id::PGid(pid),
        P_PIDFD => not_simulated("waitid of P_PIDFD", "there are no file descriptors of tracees"),
        _ => return Err(Errno::EINVAL),
    };
    Ok(SignalInfo::new(waitid(id, flags)?))
}
