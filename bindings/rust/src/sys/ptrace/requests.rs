//! The numbers of ptrace: requests, options and events.

use crate::bits::flag_set;
use crate::libc;

flag_set! {
    /// Which stops a tracee makes.
    pub struct Options {
        /// A syscall-stop is told from a `SIGTRAP`.
        PTRACE_O_TRACESYSGOOD = libc::PTRACE_O_TRACESYSGOOD;
        /// Stop at a fork, and trace the child.
        PTRACE_O_TRACEFORK = libc::PTRACE_O_TRACEFORK;
        /// Stop at a vfork, and trace the child; no simulated tracee makes one.
        PTRACE_O_TRACEVFORK = libc::PTRACE_O_TRACEVFORK;
        /// Stop at a clone, and trace the child.
        PTRACE_O_TRACECLONE = libc::PTRACE_O_TRACECLONE;
        /// Stop at an execve.
        PTRACE_O_TRACEEXEC = libc::PTRACE_O_TRACEEXEC;
        /// Stop at the end of a vfork; no simulated tracee makes one.
        PTRACE_O_TRACEVFORKDONE = libc::PTRACE_O_TRACEVFORKDONE;
        /// Stop before the death.
        PTRACE_O_TRACEEXIT = libc::PTRACE_O_TRACEEXIT;
        /// Stop where a filter of seccomp(2) says so.
        PTRACE_O_TRACESECCOMP = libc::PTRACE_O_TRACESECCOMP;
        /// Kill the tracees where the tracer ends; without effect.
        PTRACE_O_EXITKILL = libc::PTRACE_O_EXITKILL;
    }
}

macro_rules! number_table {
    ($(#[$of:meta])* $table:ident: $repr:ident { $($number:expr, $name:ident $text:literal;)* }) => {
        $(#[$of])*
        #[derive(Clone, Copy, Debug, Eq, Hash, Ord, PartialEq, PartialOrd)]
        #[repr($repr)]
        #[non_exhaustive]
        #[allow(non_camel_case_types, reason = "the names are those of C")]
        pub enum $table {
            $(#[doc = $text] $name = $number,)*
        }
    };
}

pub(super) use number_table;

number_table! {
    /// What a stop with a `PTRACE_EVENT_*` is for.
    Event: i32 {
        libc::PTRACE_EVENT_FORK, PTRACE_EVENT_FORK "A fork.";
        libc::PTRACE_EVENT_VFORK, PTRACE_EVENT_VFORK "A vfork.";
        libc::PTRACE_EVENT_CLONE, PTRACE_EVENT_CLONE "A clone.";
        libc::PTRACE_EVENT_EXEC, PTRACE_EVENT_EXEC "An execve.";
        libc::PTRACE_EVENT_VFORK_DONE, PTRACE_EVENT_VFORK_DONE "The end of a vfork.";
        libc::PTRACE_EVENT_EXIT, PTRACE_EVENT_EXIT "A death that comes.";
        libc::PTRACE_EVENT_SECCOMP, PTRACE_EVENT_SECCOMP "A filter of seccomp(2).";
        libc::PTRACE_EVENT_STOP, PTRACE_EVENT_STOP "The first stop, or an interrupt.";
    }
}

number_table! {
    /// The requests of ptrace(2).
    Request: u32 {
        0, PTRACE_TRACEME "Be traced by the parent.";
        1, PTRACE_PEEKTEXT "Read a word.";
        2, PTRACE_PEEKDATA "Read a word.";
        3, PTRACE_PEEKUSER "Read a word of struct user.";
        4, PTRACE_POKETEXT "Write a word.";
        5, PTRACE_POKEDATA "Write a word.";
        6, PTRACE_POKEUSER "Write a word of struct user.";
        7, PTRACE_CONT "Restart.";
        8, PTRACE_KILL "Kill.";
        9, PTRACE_SINGLESTEP "Restart for one instruction.";
        12, PTRACE_GETREGS "Read the registers.";
        13, PTRACE_SETREGS "Write the registers.";
        14, PTRACE_GETFPREGS "Read the floating-point registers.";
        15, PTRACE_SETFPREGS "Write the floating-point registers.";
        16, PTRACE_ATTACH "Trace, with a SIGSTOP.";
        17, PTRACE_DETACH "Trace no more.";
        18, PTRACE_GETFPXREGS "Read the extended floating-point registers.";
        19, PTRACE_SETFPXREGS "Write the extended floating-point registers.";
        24, PTRACE_SYSCALL "Restart up to a syscall-stop.";
        31, PTRACE_SYSEMU "Restart up to a call, which is not made.";
        32, PTRACE_SYSEMU_SINGLESTEP "Restart for one instruction, or up to a call, which is not made.";
        0x4200, PTRACE_SETOPTIONS "Set the options.";
        0x4201, PTRACE_GETEVENTMSG "Read the event message.";
        0x4202, PTRACE_GETSIGINFO "Read the signal.";
        0x4203, PTRACE_SETSIGINFO "Write the signal.";
        0x4204, PTRACE_GETREGSET "Read a set of registers.";
        0x4205, PTRACE_SETREGSET "Write a set of registers.";
        0x4206, PTRACE_SEIZE "Trace, without a stop.";
        0x4207, PTRACE_INTERRUPT "Stop.";
        0x4208, PTRACE_LISTEN "Wait for the end of a group-stop.";
        0x4209, PTRACE_PEEKSIGINFO "Read the signals that wait.";
        0x420e, PTRACE_GET_SYSCALL_INFO "Read what a syscall-stop is about.";
    }
}
