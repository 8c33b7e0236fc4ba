//! nix's `unistd`: process ids, and what a tracer starts its tracee by.

use crate::errno::Errno;
use crate::libc::pid_t;
use crate::sys::not_simulated;
use std::convert::Infallible;
use std::ffi::CStr;
use std::{fmt, fs, os, process};

pub use crate::library::fork;

/// The id of a process or a thread.
#[derive(Debug, Copy, Clone, Eq, PartialEq, Ord, PartialOrd, Hash)]
pub struct Pid(pid_t);

impl Pid {
    /// The id of this number.
    pub const fn from_raw(pid: pid_t) -> Pid {
        Pid(pid)
    }

    /// The test's own process.
    pub fn this() -> Pid {
        getpid()
    }

    /// The parent of the test's own process.
    pub fn parent() -> Pid {
        getppid()
    }

    /// The number.
    pub const fn as_raw(self) -> pid_t {
        self.0
    }
}

impl From<Pid> for pid_t {
    fn from(pid: Pid) -> pid_t {
        pid.0
    }
}

impl fmt::Display for Pid {
    fn fmt(&self, formatter: &mut fmt::Formatter<'_>) -> fmt::Result {
        self.0.fmt(formatter)
    }
}

/// The test's own process.
pub fn getpid() -> Pid {
    Pid(process::id().cast_signed())
}

/// The parent of the test's own process.
pub fn getppid() -> Pid {
    Pid(os::unix::process::parent_id().cast_signed())
}

/// The calling thread of the test's own process.
pub fn gettid() -> Pid {
    let path = fs::read_link("/proc/thread-self").expect("proc(5) is mounted");
    let id = path.file_name().and_then(|name| name.to_str()).and_then(|name| name.parse().ok());
    Pid(id.expect("a thread has its number there"))
}

/// Which side of a fork a process is.
#[derive(Clone, Copy, Debug)]
pub enum ForkResult {
    /// The parent.
    Parent {
        /// The child's id.
        child: Pid,
    },
    /// The child.
    Child,
}

impl ForkResult {
    /// Whether it is the child.
    pub fn is_child(self) -> bool {
        matches!(self, ForkResult::Child)
    }

    /// Whether it is the parent.
    pub fn is_parent(self) -> bool {
        !self.is_child()
    }
}

/// Why what starts a tracee ends the test.
pub(crate) const BEGINS_AT_THE_LOOP: &str = "the tracees are those of the Sim, so a test begins at the tracer's loop";

/// Ends the test: the tracees are those of the Sim.
pub fn execv<S: AsRef<CStr>>(_path: &CStr, _argv: &[S]) -> Result<Infallible, Errno> {
    not_simulated("execv", BEGINS_AT_THE_LOOP)
}

/// Ends the test: the tracees are those of the Sim.
pub fn execve<SA: AsRef<CStr>, SE: AsRef<CStr>>(_path: &CStr, _args: &[SA], _env: &[SE]) -> Result<Infallible, Errno> {
    not_simulated("execve", BEGINS_AT_THE_LOOP)
}

/// Ends the test: the tracees are those of the Sim.
pub fn execvp<S: AsRef<CStr>>(_filename: &CStr, _args: &[S]) -> Result<Infallible, Errno> {
    not_simulated("execvp", BEGINS_AT_THE_LOOP)
}

/// Ends the test: the tracees are those of the Sim.
pub fn execvpe<SA: AsRef<CStr>, SE: AsRef<CStr>>(
    _filename: &CStr,
    _args: &[SA],
    _env: &[SE],
) -> Result<Infallible, Errno> {
    not_simulated("execvpe", BEGINS_AT_THE_LOOP)
}

/// Ends the test: a tracer has no process group of its own.
pub fn setpgid(_pid: Pid, _pgid: Pid) -> Result<(), Errno> {
    not_simulated("setpgid", "a tracee's process group is that of its row")
}

/// Ends the test: a tracer has no session of its own.
pub fn setsid() -> Result<Pid, Errno> {
    not_simulated("setsid", BEGINS_AT_THE_LOOP)
}

/// Ends the test: the tracer gets no signals.
pub fn pause() {
    not_simulated("pause", "a simulated tracer gets no signals; wait for a tracee")
}

#[cfg(test)]
mod tests {
    use super::*;

    #[test]
    fn a_pid_is_its_number() {
        let pid = Pid::from_raw(100);
        assert_eq!((pid.as_raw(), pid_t::from(pid), pid.to_string()), (100, 100, "100".to_string()));
        assert_eq!(Pid::this().as_raw().cast_unsigned(), process::id());
        assert_ne!(Pid::parent(), Pid::this());
    }

    #[test]
    fn each_thread_has_an_id_of_its_own() {
        let other = std::thread::spawn(gettid).join().expect("the thread answers");
        assert_ne!(gettid(), other);
        assert_eq!(gettid(), gettid());
    }

    #[test]
    #[should_panic(expected = "execv is not simulated: the tracees are those of the Sim")]
    fn nothing_is_started() {
        let _ = execv::<&CStr>(c"/bin/true", &[]);
    }
}
