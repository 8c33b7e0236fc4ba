//! nix's `sys::signal`: signals by name, sets of them, and kill(2).
//!
//! A tracee's signals are in what it plays, and its tracer gets none. What sends a signal, or changes what one does,
//! ends the test, except for a SIGKILL.

mod actions;
mod sets;

pub use actions::*;
pub use sets::*;

pub use Signal::*;

use crate::context;
use crate::errno::Errno;
use crate::sys::not_simulated;
use crate::unistd::Pid;
use std::fmt;
use std::str::FromStr;

macro_rules! signal_table {
    ($($number:literal $name:ident $text:literal;)*) => {
        /// A signal, by signal(7).
        #[derive(Clone, Copy, Debug, Eq, Hash, Ord, PartialEq, PartialOrd)]
        #[repr(i32)]
        #[non_exhaustive]
        pub enum Signal {
            $(#[doc = $text] $name = $number,)*
        }

        /// All signals, in the order of their numbers.
        const SIGNALS: &[Signal] = &[$(Signal::$name),*];

        impl Signal {
            /// The signal's name.
            pub const fn as_str(self) -> &'static str {
                match self {
                    $(Signal::$name => stringify!($name),)*
                }
            }
        }
    };
}

signal_table! {
    1 SIGHUP "Hangup";
    2 SIGINT "Interrupt";
    3 SIGQUIT "Quit";
    4 SIGILL "Illegal instruction";
    5 SIGTRAP "Trace trap";
    6 SIGABRT "Abort";
    7 SIGBUS "Bus error";
    8 SIGFPE "Floating-point exception";
    9 SIGKILL "Kill";
    10 SIGUSR1 "First signal of the user";
    11 SIGSEGV "Segmentation violation";
    12 SIGUSR2 "Second signal of the user";
    13 SIGPIPE "Write to a pipe that nobody reads";
    14 SIGALRM "Alarm clock";
    15 SIGTERM "Termination";
    16 SIGSTKFLT "Stack fault";
    17 SIGCHLD "A child has ended, stopped or continued";
    18 SIGCONT "Continue";
    19 SIGSTOP "Stop";
    20 SIGTSTP "Stop from the terminal";
    21 SIGTTIN "Read from the terminal in the background";
    22 SIGTTOU "Write to the terminal in the background";
    23 SIGURG "Urgent data at a socket";
    24 SIGXCPU "The limit of processor time is passed";
    25 SIGXFSZ "The limit of a file's size is passed";
    26 SIGVTALRM "Virtual alarm clock";
    27 SIGPROF "Profiling alarm clock";
    28 SIGWINCH "The terminal's size has changed";
    29 SIGIO "Input or output is possible";
    30 SIGPWR "Power failure";
    31 SIGSYS "Bad system call";
}

/// The other name of `SIGABRT`.
pub const SIGIOT: Signal = SIGABRT;
/// The other name of `SIGIO`.
pub const SIGPOLL: Signal = SIGIO;
/// The other name of `SIGSYS`.
pub const SIGUNUSED: Signal = SIGSYS;

impl Signal {
    /// All signals, in the order of their numbers.
    pub const fn iterator() -> SignalIterator {
        SignalIterator { next: 0 }
    }
}

impl TryFrom<i32> for Signal {
    type Error = Errno;

    fn try_from(number: i32) -> Result<Signal, Errno> {
        SIGNALS.iter().find(|signal| **signal as i32 == number).copied().ok_or(Errno::EINVAL)
    }
}

impl FromStr for Signal {
    type Err = Errno;

    fn from_str(name: &str) -> Result<Signal, Errno> {
        SIGNALS.iter().find(|signal| signal.as_str() == name).copied().ok_or(Errno::EINVAL)
    }
}

impl AsRef<str> for Signal {
    fn as_ref(&self) -> &str {
        self.as_str()
    }
}

impl fmt::Display for Signal {
    fn fmt(&self, formatter: &mut fmt::Formatter<'_>) -> fmt::Result {
        formatter.write_str(self.as_str())
    }
}

/// The signals that `Signal::iterator` has still to answer.
#[derive(Clone, Copy, Debug, Eq, Hash, PartialEq)]
pub struct SignalIterator {
    next: usize,
}

impl Iterator for SignalIterator {
    type Item = Signal;

    fn next(&mut self) -> Option<Signal> {
        let signal = SIGNALS.get(self.next).copied()?;
        self.next += 1;
        Some(signal)
    }
}

/// Kills a tracee, stopped or not, with `SIGKILL`; another signal ends the test. Needs `Sim::kills`.
pub fn kill<T: Into<Option<Signal>>>(pid: Pid, signal: T) -> Result<(), Errno> {
    match signal.into() {
        Some(SIGKILL) if pid.as_raw() > 0 => context::calls().kill(pid.as_raw()),
        Some(SIGKILL) => not_simulated("kill of a process group", "kill each tracee by its id"),
        _ => not_simulated("kill with another signal than SIGKILL", "what arrives is in what the tracee plays"),
    }
}

/// Ends the test: there is no kill of a group.
pub fn killpg<T: Into<Option<Signal>>>(_pgrp: Pid, _signal: T) -> Result<(), Errno> {
    not_simulated("killpg", "kill each tracee by its id")
}

/// Ends the test: the tracer gets no signals.
pub fn raise(_signal: Signal) -> Result<(), Errno> {
    not_simulated("raise", NO_SIGNALS)
}

/// Why what handles or blocks the tracer's own signals ends the test.
pub(crate) const NO_SIGNALS: &str = "a simulated tracer gets no signals; Sim::eintrs lets its waits be interrupted";

#[cfg(test)]
mod tests {
    use super::*;

    #[test]
    fn a_signal_has_its_number_and_name() {
        for (number, signal, name) in [(1, SIGHUP, "SIGHUP"), (9, SIGKILL, "SIGKILL"), (31, SIGUNUSED, "SIGSYS")] {
            assert_eq!(Signal::try_from(number), Ok(signal));
            assert_eq!(name.parse(), Ok(signal));
            assert_eq!((signal as i32, signal.to_string(), signal.as_ref()), (number, name.to_string(), name));
        }
        for no_signal in [-1, 0, 32, 64] {
            assert_eq!(Signal::try_from(no_signal), Err(Errno::EINVAL));
        }
        assert_eq!("KILL".parse::<Signal>(), Err(Errno::EINVAL));
        assert_eq!(Signal::iterator().map(|signal| signal as i32).collect::<Vec<_>>(), (1..=31).collect::<Vec<_>>());
    }

    #[test]
    #[should_panic(expected = "kill with another signal than SIGKILL is not simulated")]
    fn only_a_sigkill_is_simulated() {
        let _ = kill(Pid::from_raw(100), SIGTERM);
    }
}
