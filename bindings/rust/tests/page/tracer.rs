//! The tracer of the page.

use nix::sys::ptrace::{self, Event};
use nix::sys::wait::{WaitStatus, wait};
use nix::unistd::Pid;
use std::collections::HashSet;

pub fn trace(root: Pid) {
    let mut known = HashSet::from([root]);
    while let Ok(status) = wait() {
        let pid = status.pid().unwrap();
        assert!(known.contains(&pid), "a stop of {pid}, which nobody has announced");
        match status {
            WaitStatus::Exited(..) | WaitStatus::Signaled(..) => continue,
            WaitStatus::PtraceEvent(_, _, event) if event == Event::PTRACE_EVENT_FORK as i32 => {
                known.insert(Pid::from_raw(ptrace::getevent(pid).unwrap() as i32));
            }
            _ => {}
        }
        ptrace::syscall(pid, None).unwrap();
    }
}
