//! The numbers of waits, ptrace and signals, and the macros that take a wait status apart.

use super::{c_int, idtype_t};

macro_rules! numbers {
    ($of:ty: $($name:ident = $number:expr, $text:literal;)*) => {
        $(#[doc = $text] pub const $name: $of = $number;)*
    };
}

numbers! { c_int:
    WNOHANG = 0x1, "A wait answers 0 where there is nothing to report yet.";
    WUNTRACED = 0x2, "A wait reports stops.";
    WSTOPPED = 0x2, "A wait reports stops.";
    WEXITED = 0x4, "A wait reports deaths.";
    WCONTINUED = 0x8, "A wait reports who was continued.";
    WNOWAIT = 0x0100_0000, "A wait leaves what it reports.";
    __WNOTHREAD = 0x2000_0000, "A wait is for the tracees of its thread alone.";
    __WALL = 0x4000_0000, "A wait is for threads and processes.";
    __WCLONE = 0x8000_0000_u32 as c_int, "A wait is for threads alone.";
}

numbers! { idtype_t:
    P_ALL = 0, "Any tracee.";
    P_PID = 1, "The tracee of an id.";
    P_PGID = 2, "The tracees of a process group.";
    P_PIDFD = 3, "The tracee of a file descriptor.";
}

numbers! { c_int:
    PTRACE_O_TRACESYSGOOD = 0x1, "Syscall-stops are told from a SIGTRAP.";
    PTRACE_O_TRACEFORK = 0x2, "A fork stops its parent, and its child is traced.";
    PTRACE_O_TRACEVFORK = 0x4, "A vfork stops its parent, and its child is traced.";
    PTRACE_O_TRACECLONE = 0x8, "A clone stops its parent, and its child is traced.";
    PTRACE_O_TRACEEXEC = 0x10, "An execve stops once it has succeeded.";
    PTRACE_O_TRACEVFORKDONE = 0x20, "A vfork stops its parent when its child lets it go on.";
    PTRACE_O_TRACEEXIT = 0x40, "A tracee stops before its death.";
    PTRACE_O_TRACESECCOMP = 0x80, "A filter's SECCOMP_RET_TRACE stops.";
    PTRACE_O_EXITKILL = 0x0010_0000, "The tracees die with their tracer.";
    PTRACE_EVENT_FORK = 1, "The stop of PTRACE_O_TRACEFORK.";
    PTRACE_EVENT_VFORK = 2, "The stop of PTRACE_O_TRACEVFORK.";
    PTRACE_EVENT_CLONE = 3, "The stop of PTRACE_O_TRACECLONE.";
    PTRACE_EVENT_EXEC = 4, "The stop of PTRACE_O_TRACEEXEC.";
    PTRACE_EVENT_VFORK_DONE = 5, "The stop of PTRACE_O_TRACEVFORKDONE.";
    PTRACE_EVENT_EXIT = 6, "The stop of PTRACE_O_TRACEEXIT.";
    PTRACE_EVENT_SECCOMP = 7, "The stop of PTRACE_O_TRACESECCOMP.";
    PTRACE_EVENT_STOP = 128, "The first stop of a tracee, or an interrupt.";
    NT_PRSTATUS = 1, "The general registers.";
    NT_PRFPREG = 2, "The floating-point registers.";
    NT_PRPSINFO = 3, "What ps(1) shows.";
    NT_TASKSTRUCT = 4, "The kernel's task.";
    NT_AUXV = 6, "The auxiliary vector.";
}

numbers! { u8:
    PTRACE_SYSCALL_INFO_NONE = 0, "No syscall-stop.";
    PTRACE_SYSCALL_INFO_ENTRY = 1, "A syscall-enter-stop.";
    PTRACE_SYSCALL_INFO_EXIT = 2, "A syscall-exit-stop.";
    PTRACE_SYSCALL_INFO_SECCOMP = 3, "A PTRACE_EVENT_SECCOMP.";
}

numbers! { c_int:
    SI_USER = 0, "Sent by kill(2).";
    SI_KERNEL = 0x80, "Sent by the kernel.";
    CLD_EXITED = 1, "It has exited.";
    CLD_KILLED = 2, "A signal has killed it.";
    CLD_DUMPED = 3, "A signal has killed it, and it dumped its core.";
    CLD_TRAPPED = 4, "It is at a stop of ptrace.";
    CLD_STOPPED = 5, "It is at a group-stop.";
    CLD_CONTINUED = 6, "It was continued.";
}

macro_rules! signal_numbers {
    ($($name:ident)*) => {
        $(
            #[doc = concat!("The number of `Signal::", stringify!($name), "`.")]
            pub const $name: c_int = crate::sys::signal::Signal::$name as c_int;
        )*
    };
}

signal_numbers! {
    SIGHUP SIGINT SIGQUIT SIGILL SIGTRAP SIGABRT SIGBUS SIGFPE SIGKILL SIGUSR1 SIGSEGV SIGUSR2 SIGPIPE SIGALRM SIGTERM
    SIGSTKFLT SIGCHLD SIGCONT SIGSTOP SIGTSTP SIGTTIN SIGTTOU SIGURG SIGXCPU SIGXFSZ SIGVTALRM SIGPROF SIGWINCH SIGIO
    SIGPWR SIGSYS
}

/// Whether it has exited.
pub const fn WIFEXITED(status: c_int) -> bool {
    status & 0x7f == 0
}

/// The exit code.
pub const fn WEXITSTATUS(status: c_int) -> c_int {
    (status >> 8) & 0xff
}

/// Whether a signal has killed it.
pub const fn WIFSIGNALED(status: c_int) -> bool {
    !WIFEXITED(status) && status & 0x7f != 0x7f
}

/// The signal that has killed it.
pub const fn WTERMSIG(status: c_int) -> c_int {
    status & 0x7f
}

/// Whether it dumped its core.
pub const fn WCOREDUMP(status: c_int) -> bool {
    status & 0x80 != 0
}

/// Whether it has stopped.
pub const fn WIFSTOPPED(status: c_int) -> bool {
    status & 0xff == 0x7f
}

/// The signal of its stop.
pub const fn WSTOPSIG(status: c_int) -> c_int {
    (status >> 8) & 0xff
}

/// Whether it was continued.
pub const fn WIFCONTINUED(status: c_int) -> bool {
    status == 0xffff
}
