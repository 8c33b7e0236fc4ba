//! The loop without the race: it ends where no child is left, and counts nothing.

use nix::errno::Errno;
use nix::sys::ptrace;
use nix::sys::wait::{WaitStatus, wait};

/// Runs a process and all that it forks to their ends, and answers how many of them failed.
pub fn supervise() -> nix::Result<usize> {
    let mut failed = 0;
    loop {
        match wait() {
            Ok(WaitStatus::Exited(_, code)) => failed += usize::from(code != 0),
            Ok(WaitStatus::Signaled(..)) => failed += 1,
            Ok(WaitStatus::PtraceEvent(pid, ..)) => ptrace::cont(pid, None)?,
            Ok(WaitStatus::Stopped(pid, signal)) => ptrace::cont(pid, signal)?,
            Ok(_) => {}
            Err(Errno::ECHILD) => return Ok(failed),
            Err(errno) => return Err(errno),
        }
    }
}
