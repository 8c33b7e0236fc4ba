//! What nix shows of the crate libc, as `nix::libc`: types and numbers of Linux on x86-64, laid out as there.
#![allow(non_camel_case_types, non_snake_case, reason = "the names are those of C")]

mod calls;
mod numbers;

pub use crate::library::user_regs_struct;
pub use calls::*;
pub use numbers::*;
pub use std::ffi::{
    c_char, c_double, c_float, c_int, c_long, c_longlong, c_schar, c_short, c_uchar, c_uint, c_ulong, c_ulonglong,
    c_ushort, c_void,
};
use std::fmt;

/// A process id.
pub type pid_t = i32;
/// An id of any kind.
pub type id_t = u32;
/// The kind of an id.
pub type idtype_t = c_uint;
/// A user's id.
pub type uid_t = u32;
/// A size in bytes.
pub type size_t = usize;
/// A size in bytes, or -1.
pub type ssize_t = isize;
/// A handler of a signal, as a number.
pub type sighandler_t = size_t;

/// The floating-point registers of `PTRACE_GETFPREGS`, which no simulated tracee has.
#[repr(C)]
#[derive(Clone, Copy, Debug, Eq, Hash, PartialEq)]
#[allow(missing_docs, reason = "each field is the register of its name")]
pub struct user_fpregs_struct {
    pub cwd: c_ushort,
    pub swd: c_ushort,
    pub ftw: c_ushort,
    pub fop: c_ushort,
    pub rip: c_ulonglong,
    pub rdp: c_ulonglong,
    pub mxcsr: c_uint,
    pub mxcr_mask: c_uint,
    pub st_space: [c_uint; 32],
    pub xmm_space: [c_uint; 64],
    padding: [c_uint; 24],
}

/// What `PTRACE_GETSIGINFO` reports. A simulated signal is a number alone, so the rest is 0.
#[repr(C)]
#[derive(Clone, Copy, Eq, Hash, PartialEq)]
pub struct siginfo_t {
    /// The signal.
    pub si_signo: c_int,
    /// Always 0.
    pub si_errno: c_int,
    /// Why it was sent.
    pub si_code: c_int,
    padding: [c_int; 29],
    align: [u64; 0],
}

impl siginfo_t {
    pub(crate) fn new(si_signo: c_int, si_code: c_int) -> siginfo_t {
        siginfo_t { si_signo, si_errno: 0, si_code, padding: [0; 29], align: [] }
    }

    /// Who sent the signal: 0.
    pub fn si_pid(&self) -> pid_t {
        self.padding[1]
    }

    /// Whose process sent the signal: 0.
    pub fn si_uid(&self) -> uid_t {
        self.padding[2].cast_unsigned()
    }

    /// Where the fault was: a null pointer.
    pub fn si_addr(&self) -> *mut c_void {
        std::ptr::null_mut()
    }
}

impl fmt::Debug for siginfo_t {
    fn fmt(&self, formatter: &mut fmt::Formatter<'_>) -> fmt::Result {
        let siginfo_t { si_signo, si_errno, si_code, .. } = self;
        let mut shown = formatter.debug_struct("siginfo_t");
        shown.field("si_signo", si_signo).field("si_errno", si_errno).field("si_code", si_code).finish_non_exhaustive()
    }
}

/// What `PTRACE_GET_SYSCALL_INFO` reports.
#[repr(C)]
#[derive(Clone, Copy)]
pub struct ptrace_syscall_info {
    /// One of `PTRACE_SYSCALL_INFO_*`, which says what of `u` there is.
    pub op: u8,
    /// Zeros.
    pub pad: [u8; 3],
    /// The architecture, as an `AUDIT_ARCH_*`.
    pub arch: u32,
    /// The instruction pointer.
    pub instruction_pointer: u64,
    /// The stack pointer.
    pub stack_pointer: u64,
    /// What the kind of stop has.
    pub u: __c_anonymous_ptrace_syscall_info_data,
}

/// What `op` says of a syscall-stop.
#[repr(C)]
#[derive(Clone, Copy)]
pub union __c_anonymous_ptrace_syscall_info_data {
    /// At a syscall-enter-stop.
    pub entry: __c_anonymous_ptrace_syscall_info_entry,
    /// At a syscall-exit-stop.
    pub exit: __c_anonymous_ptrace_syscall_info_exit,
    /// At a `PTRACE_EVENT_SECCOMP`.
    pub seccomp: __c_anonymous_ptrace_syscall_info_seccomp,
}

/// A call's number and arguments.
#[repr(C)]
#[derive(Clone, Copy, Debug, Eq, Hash, PartialEq)]
pub struct __c_anonymous_ptrace_syscall_info_entry {
    /// The call's number.
    pub nr: u64,
    /// The call's arguments.
    pub args: [u64; 6],
}

/// A call's result.
#[repr(C)]
#[derive(Clone, Copy, Debug, Eq, Hash, PartialEq)]
pub struct __c_anonymous_ptrace_syscall_info_exit {
    /// The result, or the negative number of an errno.
    pub sval: i64,
    /// 1 where it is an errno.
    pub is_error: u8,
}

/// A call that a filter stops at.
#[repr(C)]
#[derive(Clone, Copy, Debug, Eq, Hash, PartialEq)]
pub struct __c_anonymous_ptrace_syscall_info_seccomp {
    /// The call's number.
    pub nr: u64,
    /// The call's arguments.
    pub args: [u64; 6],
    /// The filter's data.
    pub ret_data: u32,
}

impl fmt::Debug for ptrace_syscall_info {
    fn fmt(&self, formatter: &mut fmt::Formatter<'_>) -> fmt::Result {
        let mut shown = formatter.debug_struct("ptrace_syscall_info");
        shown.field("op", &self.op).field("arch", &self.arch).finish_non_exhaustive()
    }
}
