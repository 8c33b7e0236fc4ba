//! What a signal does to the tracer itself. The types are there; what would use them ends the test.

use super::{NO_SIGNALS, SigSet};
use crate::bits::flag_set;
use crate::errno::Errno;
use crate::libc::{c_int, c_void, siginfo_t};
use crate::sys::not_simulated;

pub use crate::library::{sigaction, signal};

flag_set! {
    /// How a signal is handled.
    pub struct SaFlags {
        /// `SIGCHLD` comes when a child ends, not when it stops.
        SA_NOCLDSTOP = 0x1;
        /// Children that end leave no zombie.
        SA_NOCLDWAIT = 0x2;
        /// The signal is not blocked while it is handled.
        SA_NODEFER = 0x4000_0000;
        /// The handler runs on the other stack.
        SA_ONSTACK = 0x0800_0000;
        /// The handler serves once.
        SA_RESETHAND = 0x8000_0000_u32 as i32;
        /// Interrupted calls are made again.
        SA_RESTART = 0x1000_0000;
        /// The handler gets a `siginfo_t`.
        SA_SIGINFO = 0x4;
    }
}

/// How a mask of signals is changed.
#[derive(Clone, Copy, Debug, Eq, Hash, Ord, PartialEq, PartialOrd)]
#[repr(i32)]
#[non_exhaustive]
#[allow(non_camel_case_types, reason = "the names are those of C")]
pub enum SigmaskHow {
    /// The signals are added.
    SIG_BLOCK = 0,
    /// The signals are taken away.
    SIG_UNBLOCK = 1,
    /// The signals are the mask.
    SIG_SETMASK = 2,
}

/// What is done when a signal arrives.
#[derive(Clone, Copy, Debug, Eq, Hash, PartialEq)]
#[allow(unpredictable_function_pointer_comparisons, reason = "as in nix, functions are compared by their addresses")]
pub enum SigHandler {
    /// What the signal does by default.
    SigDfl,
    /// Nothing.
    SigIgn,
    /// A function that gets the signal.
    Handler(extern "C" fn(c_int)),
    /// A function that gets the signal, and more about it.
    SigAction(extern "C" fn(c_int, *mut siginfo_t, *mut c_void)),
}

/// A handler, its flags, and the signals that are blocked while it runs.
#[derive(Clone, Copy, Debug, Eq, Hash, PartialEq)]
pub struct SigAction {
    handler: SigHandler,
    flags: SaFlags,
    mask: SigSet,
}

impl SigAction {
    /// An action; `SA_SIGINFO` is set by its handler.
    pub fn new(handler: SigHandler, flags: SaFlags, mask: SigSet) -> SigAction {
        let takes_info = matches!(handler, SigHandler::SigAction(_));
        let flags = if takes_info { flags | SaFlags::SA_SIGINFO } else { flags - SaFlags::SA_SIGINFO };
        SigAction { handler, flags, mask }
    }

    /// Its flags.
    pub fn flags(&self) -> SaFlags {
        self.flags
    }

    /// The signals that are blocked while its handler runs.
    pub fn mask(&self) -> SigSet {
        self.mask
    }

    /// Its handler.
    pub fn handler(&self) -> SigHandler {
        self.handler
    }
}

/// Ends the test: the tracer gets no signals.
pub fn pthread_sigmask(_how: SigmaskHow, _set: Option<&SigSet>, _oldset: Option<&mut SigSet>) -> Result<(), Errno> {
    not_simulated("pthread_sigmask", NO_SIGNALS)
}

/// Ends the test: the tracer gets no signals.
pub fn sigprocmask(_how: SigmaskHow, _set: Option<&SigSet>, _oldset: Option<&mut SigSet>) -> Result<(), Errno> {
    not_simulated("sigprocmask", NO_SIGNALS)
}

#[cfg(test)]
mod tests {
    use super::*;

    extern "C" fn handler(_signal: c_int) {}

    #[test]
    fn an_action_keeps_its_parts() {
        let flags = SaFlags::SA_RESTART | SaFlags::SA_SIGINFO;
        let action = SigAction::new(SigHandler::Handler(handler), flags, SigSet::empty());
        assert_eq!((action.flags(), action.mask()), (SaFlags::SA_RESTART, SigSet::empty()));
        assert!(matches!(action.handler(), SigHandler::Handler(_)));
    }

    #[test]
    #[should_panic(expected = "sigprocmask is not simulated: a simulated tracer gets no signals")]
    fn masks_are_not_simulated() {
        let _ = sigprocmask(SigmaskHow::SIG_BLOCK, None, None);
    }
}
