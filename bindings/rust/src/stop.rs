//! Stops, deaths and restarts, as a tracee's closure names them.

use crate::library::{self, RestartNumbers, StopNumbers, kind};
use crate::sys::signal::Signal;

/// A stop of a tracee.
///
/// ```
/// use pukzarn::sys::signal::Signal;
/// use pukzarn::{Death, Stop};
///
/// assert_ne!(Stop::Signal(Signal::SIGUSR1), Stop::Ending(Death::Exited(0)));
/// ```
#[derive(Clone, Copy, Debug, PartialEq, Eq)]
pub enum Stop {
    /// The first stop of a tracee: PTRACE_EVENT_STOP, or what `Sim::first_stops` has it be.
    Start,
    /// Syscall-enter-stop.
    Enter,
    /// Syscall-exit-stop.
    Exit,
    /// PTRACE_EVENT_SECCOMP, with the filter's data.
    Seccomp(u16),
    /// PTRACE_EVENT_FORK, with the child's tid: the child is created.
    Fork(u32),
    /// PTRACE_EVENT_CLONE, with the child's tid: the child is created.
    Clone(u32),
    /// PTRACE_EVENT_EXEC, with the former tid.
    Exec(u32),
    /// Signal-delivery-stop.
    Signal(Signal),
    /// PTRACE_EVENT_EXIT, with the death that comes.
    Ending(Death),
}

impl Stop {
    pub(crate) fn numbers(self) -> StopNumbers {
        let (kind, value) = match self {
            Stop::Start => (kind::START, 0),
            Stop::Enter => (kind::ENTER, 0),
            Stop::Exit => (kind::EXIT, 0),
            Stop::Seccomp(data) => (kind::SECCOMP, u32::from(data)),
            Stop::Fork(child) => (kind::FORK, child),
            Stop::Clone(child) => (kind::CLONE, child),
            Stop::Exec(former) => (kind::EXEC, former),
            Stop::Signal(signal) => (kind::SIGNAL, signal as u32),
            Stop::Ending(death) => (kind::ENDING, death.status()),
        };
        StopNumbers { kind, value }
    }
}

/// What the first stop of a tracee is.
///
/// ```
/// pukzarn::model(|sim| {
///     sim.first_stops(pukzarn::FirstStop::Sigstop);
///     sim.run();
/// });
/// ```
#[derive(Clone, Copy, Debug, PartialEq, Eq)]
pub enum FirstStop {
    /// PTRACE_EVENT_STOP, of a tracee by PTRACE_SEIZE, and of the children that its options attach.
    Event,
    /// Signal-delivery-stop of SIGSTOP, of a tracee by PTRACE_TRACEME (with a raise(3) of it) or PTRACE_ATTACH, and of
    /// the children that its options attach.
    Sigstop,
}

impl FirstStop {
    /// A stop that a tracee makes, where it may be the first.
    pub(crate) fn made_of(self, stop: StopNumbers) -> StopNumbers {
        match (self, stop.kind) {
            (FirstStop::Sigstop, kind::START) => StopNumbers { kind: kind::SIGNAL, value: Signal::SIGSTOP as u32 },
            _ => stop,
        }
    }
}

/// How a tracee ends.
///
/// ```
/// use pukzarn::Death;
/// use pukzarn::sys::signal::Signal;
///
/// assert_ne!(Death::Exited(1), Death::Signaled(Signal::SIGHUP, false));
/// ```
#[derive(Clone, Copy, Debug, PartialEq, Eq)]
pub enum Death {
    /// By exit(2), with the lower byte of the code.
    Exited(u8),
    /// By a signal, and whether it leaves a core dump, as in nix's `WaitStatus::Signaled`.
    Signaled(Signal, bool),
}

impl Death {
    /// The raw wait status.
    pub(crate) fn status(self) -> u32 {
        match self {
            Death::Exited(code) => u32::from(code) << 8,
            Death::Signaled(signal, core) => signal as u32 | if core { 0x80 } else { 0 },
        }
    }
}

/// How a tracer restarts a tracee, and the signal that it is handed.
///
/// ```
/// use pukzarn::Restart;
///
/// assert!(Restart::Syscall(None).stops_at_calls());
/// assert_eq!(Restart::Cont(None).signal(), None);
/// ```
#[derive(Clone, Copy, Debug, PartialEq, Eq)]
pub enum Restart {
    /// PTRACE_CONT.
    Cont(Option<Signal>),
    /// PTRACE_SYSCALL: the tracee stops at the next entry or exit of a call.
    Syscall(Option<Signal>),
}

impl Restart {
    /// Whether the tracee stops at the next entry or exit of a call.
    ///
    /// ```
    /// assert!(!pukzarn::Restart::Cont(None).stops_at_calls());
    /// ```
    pub fn stops_at_calls(self) -> bool {
        matches!(self, Restart::Syscall(_))
    }

    /// The signal that the tracee is handed.
    ///
    /// ```
    /// use pukzarn::sys::signal::Signal;
    ///
    /// let how = pukzarn::Restart::Cont(Some(Signal::SIGUSR1));
    /// assert_eq!(how.signal(), Some(Signal::SIGUSR1));
    /// ```
    pub fn signal(self) -> Option<Signal> {
        match self {
            Restart::Cont(signal) | Restart::Syscall(signal) => signal,
        }
    }

    pub(crate) fn from_numbers(numbers: RestartNumbers) -> Restart {
        let signal = i32::try_from(numbers.signal).ok().and_then(|number| Signal::try_from(number).ok());
        if numbers.kind == library::restart::SYSCALL { Restart::Syscall(signal) } else { Restart::Cont(signal) }
    }
}
