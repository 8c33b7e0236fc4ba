//! Counts the system calls of the processes that it traces, and of all that these create, as `strace -c -f` does.

// In tests, every `nix::` below is the simulation.
#[cfg(test)]
extern crate pukzarn as nix;

#[cfg(test)]
mod tests;

use nix::errno::Errno;
use nix::sys::ptrace::{self, Event};
use nix::sys::signal::Signal;
use nix::sys::wait::{WaitPidFlag, WaitStatus, waitpid};
use nix::unistd::Pid;
use std::collections::{BTreeMap, HashSet};
use std::fmt;

/// The names of the calls that small programs make most, by their numbers on x86-64.
const NAMES: [(u64, &str); 12] = [
    (0, "read"),
    (1, "write"),
    (3, "close"),
    (9, "mmap"),
    (12, "brk"),
    (39, "getpid"),
    (56, "clone"),
    (57, "fork"),
    (59, "execve"),
    (60, "exit"),
    (231, "exit_group"),
    (257, "openat"),
];

/// What a trace has counted.
#[derive(Clone, Debug, Default, PartialEq, Eq)]
pub struct Counts {
    /// How often each call was made, by its number.
    pub calls: BTreeMap<u64, u64>,
    /// Who has created whom, by the events of fork, vfork and clone.
    pub parents: BTreeMap<i32, i32>,
    /// How many tracees have ended.
    pub ended: u64,
}

impl fmt::Display for Counts {
    fn fmt(&self, f: &mut fmt::Formatter<'_>) -> fmt::Result {
        for (number, count) in &self.calls {
            match NAMES.iter().find(|row| row.0 == *number) {
                Some((_, name)) => writeln!(f, "{count:8}  {name}")?,
                None => writeln!(f, "{count:8}  call {number}")?,
            }
        }
        write!(f, "{:8}  tracees ended", self.ended)
    }
}

/// Serves every stop until no tracee is left.
pub fn count() -> Result<Counts, Errno> {
    let mut counter = Counter::default();
    loop {
        match waitpid(None, Some(WaitPidFlag::__WALL)) {
            Ok(status) => counter.serve(status)?,
            Err(Errno::EINTR) => {}
            Err(Errno::ECHILD) => return Ok(counter.counts),
            Err(errno) => return Err(errno),
        }
    }
}

#[derive(Default)]
struct Counter {
    counts: Counts,
    /// The tracees that have stopped before.
    known: HashSet<Pid>,
    /// Those between the entry of a call and its exit.
    in_call: HashSet<Pid>,
}

impl Counter {
    fn serve(&mut self, status: WaitStatus) -> Result<(), Errno> {
        match status {
            WaitStatus::Exited(pid, _) | WaitStatus::Signaled(pid, ..) => {
                // Another process may have this number later.
                self.known.remove(&pid);
                self.in_call.remove(&pid);
                self.counts.ended += 1;
                Ok(())
            }
            WaitStatus::PtraceSyscall(pid) => {
                self.restart(pid, None, |counter| counter.syscall_stop(pid))
            }
            WaitStatus::PtraceEvent(pid, _, event) => {
                self.restart(pid, None, |counter| counter.event(pid, event))
            }
            // The SIGSTOP that a new tracee begins with is no signal that somebody has sent.
            WaitStatus::Stopped(pid, Signal::SIGSTOP) if !self.known.contains(&pid) => {
                self.restart(pid, None, |_| Ok(()))
            }
            WaitStatus::Stopped(pid, signal) => self.restart(pid, Some(signal), |_| Ok(())),
            WaitStatus::Continued(_) | WaitStatus::StillAlive => Ok(()),
        }
    }

    /// Looks at a stop, and restarts its tracee. One that was killed meanwhile has no stop any more: ESRCH is no error,
    /// and its death will be reported.
    fn restart(
        &mut self,
        pid: Pid,
        signal: Option<Signal>,
        look: impl FnOnce(&mut Self) -> Result<(), Errno>,
    ) -> Result<(), Errno> {
        self.known.insert(pid);
        match look(self).and_then(|()| ptrace::syscall(pid, signal)) {
            Err(Errno::ESRCH) => Ok(()),
            answer => answer,
        }
    }

    /// Stops at the entry and at the exit of a call look the same, and come in turn.
    fn syscall_stop(&mut self, pid: Pid) -> Result<(), Errno> {
        if self.in_call.remove(&pid) {
            return Ok(());
        }
        let number = ptrace::getregs(pid)?.orig_rax;
        *self.counts.calls.entry(number).or_default() += 1;
        self.in_call.insert(pid);
        Ok(())
    }

    fn event(&mut self, pid: Pid, event: i32) -> Result<(), Errno> {
        let births = [
            Event::PTRACE_EVENT_FORK,
            Event::PTRACE_EVENT_VFORK,
            Event::PTRACE_EVENT_CLONE,
        ];
        if births.iter().any(|birth| *birth as i32 == event) {
            let child = ptrace::getevent(pid)? as i32;
            self.counts.parents.insert(child, pid.as_raw());
        }
        Ok(())
    }
}
