//! The loop of a supervisor, which ends too early in one order of its tracees.

use nix::sys::ptrace::{self, Event};
use nix::sys::wait::{WaitStatus, wait};

/// Runs a process and all that it forks to their ends, and answers how many of them failed.
pub fn supervise() -> nix::Result<usize> {
    let (mut running, mut failed) = (1, 0);
    while running > 0 {
        match wait()? {
            WaitStatus::Exited(_, code) => {
                running -= 1;
                failed += usize::from(code != 0);
            }
            WaitStatus::Signaled(..) => {
                running -= 1;
                failed += 1;
            }
            WaitStatus::PtraceEvent(pid, _, event) => {
                if event == Event::PTRACE_EVENT_FORK as i32 {
                    running += 1;
                }
                ptrace::cont(pid, None)?;
            }
            WaitStatus::Stopped(pid, signal) => ptrace::cont(pid, signal)?,
            _ => {}
        }
    }
    Ok(failed)
}
