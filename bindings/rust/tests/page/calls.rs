// The loop of the page that says what counts: its tracees are in a table.

use nix::sys::ptrace;
use nix::sys::wait::{WaitStatus, wait};
use nix::unistd::Pid;
use std::collections::{BTreeMap, HashMap};

/// Counts system calls.
pub fn count(root: Pid) -> u64 {
    let mut calls = 0;
    let mut is_within_call = HashMap::from([(root, false)]);
    loop {
        #[cfg(test)]
        pukzarn::forget(&(calls, is_within_call.iter().collect::<BTreeMap<_, _>>()));
        let Ok(status) = wait() else { return calls };
        let pid = status.pid().unwrap();
        match status {
            WaitStatus::Exited(..) | WaitStatus::Signaled(..) => {
                is_within_call.remove(&pid);
                continue;
            }
            WaitStatus::PtraceSyscall(_) => {
                let within = is_within_call.entry(pid).or_insert(false);
                *within = !*within;
                calls += u64::from(*within);
            }
            _ => {}
        }
        ptrace::syscall(pid, None).unwrap();
    }
}
