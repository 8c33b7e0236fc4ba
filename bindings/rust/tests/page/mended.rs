//! The tracer of the page without its fault: an early child is kept at its first stop.

use nix::sys::ptrace::{self, Event};
use nix::sys::wait::{WaitStatus, wait};
use nix::unistd::Pid;
use std::collections::HashSet;

pub fn trace(root: Pid) {
    let mut known = HashSet::from([root]);
    let mut early = HashSet::new();
    while let Ok(status) = wait() {
        let pid = status.pid().unwrap();
        if !known.contains(&pid) {
            early.insert(pid);
            continue;
        }
        match status {
            WaitStatus::Exited(..) | WaitStatus::Signaled(..) => continue,
            WaitStatus::PtraceEvent(_, _, event) if event == Event::PTRACE_EVENT_FORK as i32 => {
                let child = Pid::from_raw(ptrace::getevent(pid).unwrap() as i32);
                known.insert(child);
                if early.remove(&child) {
                    ptrace::syscall(child, None).unwrap();
                }
            }
            _ => {}
        }
        ptrace::syscall(pid, None).unwrap();
    }
}
