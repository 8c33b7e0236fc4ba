//! Sets of registers, and what a syscall-stop is about.

use super::{Request, of_claimed, requests::number_table};
use crate::errno::Errno;
use crate::libc::{
    self, __c_anonymous_ptrace_syscall_info_data as Data, __c_anonymous_ptrace_syscall_info_exit as Exit,
    __c_anonymous_ptrace_syscall_info_seccomp as Seccomp, ptrace_syscall_info, user_regs_struct,
};
use crate::unistd::Pid;

number_table! {
    /// A set of registers, by its number.
    RegisterSetValue: i32 {
        libc::NT_PRSTATUS, NT_PRSTATUS "The general registers.";
        libc::NT_PRFPREG, NT_PRFPREG "The floating-point registers.";
        libc::NT_PRPSINFO, NT_PRPSINFO "What ps(1) shows.";
        libc::NT_TASKSTRUCT, NT_TASKSTRUCT "The kernel's task.";
        libc::NT_AUXV, NT_AUXV "The auxiliary vector.";
    }
}

/// A set of registers, by its type: one of those in `regset`. Nothing here is unsafe, as it is in nix.
pub trait RegisterSet: Sealed {
    /// The number of the set.
    const VALUE: RegisterSetValue;

    /// What the set has.
    type Regs;

    #[doc(hidden)]
    fn from_registers(regs: user_regs_struct) -> Self::Regs;

    #[doc(hidden)]
    fn to_registers(regs: Self::Regs) -> user_regs_struct;
}

mod sealed {
    pub trait Sealed {}
}

use sealed::Sealed;

/// The sets of registers that `getregset` and `setregset` take.
#[allow(non_camel_case_types, reason = "the names are those of C")]
pub mod regset {
    use super::{NO_FLOATS, RegisterSet, RegisterSetValue, Sealed};
    use crate::libc::{user_fpregs_struct, user_regs_struct};
    use crate::sys::not_simulated;

    /// The general registers.
    #[derive(Debug, Clone, Copy)]
    pub enum NT_PRSTATUS {}

    impl Sealed for NT_PRSTATUS {}

    impl RegisterSet for NT_PRSTATUS {
        const VALUE: RegisterSetValue = RegisterSetValue::NT_PRSTATUS;

        type Regs = user_regs_struct;

        fn from_registers(regs: user_regs_struct) -> user_regs_struct {
            regs
        }

        fn to_registers(regs: user_regs_struct) -> user_regs_struct {
            regs
        }
    }

    /// The floating-point registers, which no simulated tracee has.
    #[derive(Debug, Clone, Copy)]
    pub enum NT_PRFPREG {}

    impl Sealed for NT_PRFPREG {}

    impl RegisterSet for NT_PRFPREG {
        const VALUE: RegisterSetValue = RegisterSetValue::NT_PRFPREG;

        type Regs = user_fpregs_struct;

        fn from_registers(_regs: user_regs_struct) -> user_fpregs_struct {
            not_simulated("ptrace::getregset of NT_PRFPREG", NO_FLOATS)
        }

        fn to_registers(_regs: user_fpregs_struct) -> user_regs_struct {
            not_simulated("ptrace::setregset of NT_PRFPREG", NO_FLOATS)
        }
    }
}

const NO_FLOATS: &str = "a tracee has no floating-point registers";

/// A set of registers of a tracee, as with `PTRACE_GETREGSET`; `NT_PRFPREG` ends the test.
pub fn getregset<S: RegisterSet>(pid: Pid) -> Result<S::Regs, Errno> {
    of_claimed(pid, Request::PTRACE_GETREGSET, |record| record.getregs()).map(S::from_registers)
}

/// Sets a set of registers of a tracee, as with `PTRACE_SETREGSET`; `NT_PRFPREG` ends the test.
pub fn setregset<S: RegisterSet>(pid: Pid, regs: S::Regs) -> Result<(), Errno> {
    let regs = S::to_registers(regs);
    of_claimed(pid, Request::PTRACE_SETREGSET, |record| record.setregs(&regs))
}

/// What a syscall-stop is about, as with `PTRACE_GET_SYSCALL_INFO`.
pub fn syscall_info(pid: Pid) -> Result<ptrace_syscall_info, Errno> {
    of_claimed(pid, Request::PTRACE_GET_SYSCALL_INFO, |record| {
        let mut bytes = [0; size_of::<ptrace_syscall_info>()];
        record.syscall_info(&mut bytes)?;
        Ok(info_of(&bytes))
    })
}

/// The fields of the kernel's struct, which are those of the crate libc. What the kind of stop has not is 0.
fn info_of(bytes: &[u8; size_of::<ptrace_syscall_info>()]) -> ptrace_syscall_info {
    let word = |at: usize| bytes[at..at + 8].iter().rev().fold(0, |word, byte| word << 8 | u64::from(*byte));
    let half = |at: usize| (word(at) & u64::from(u32::MAX)) as u32;
    let args = [32, 40, 48, 56, 64, 72].map(word);
    let mut u = Data { seccomp: Seccomp { nr: word(24), args, ret_data: half(80) } };
    // The layout of an entry is that of a seccomp without its end, so what is written above is an entry too.
    if bytes[0] == libc::PTRACE_SYSCALL_INFO_EXIT {
        u.exit = Exit { sval: word(24).cast_signed(), is_error: bytes[32] };
    }
    let pad = [bytes[1], bytes[2], bytes[3]];
    ptrace_syscall_info { op: bytes[0], pad, arch: half(4), instruction_pointer: word(8), stack_pointer: word(16), u }
}

#[cfg(test)]
mod tests {
    use super::*;

    #[test]
    fn the_bytes_of_a_stop_are_its_fields() {
        let mut bytes = [0; size_of::<ptrace_syscall_info>()];
        assert_eq!(bytes.len(), 88);
        bytes[0] = libc::PTRACE_SYSCALL_INFO_EXIT;
        bytes[4..8].copy_from_slice(&0xc000_003e_u32.to_le_bytes());
        bytes[8..16].copy_from_slice(&0x40_1000_u64.to_le_bytes());
        bytes[24..32].copy_from_slice(&(-38_i64).to_le_bytes());
        bytes[32] = 1;
        let info = info_of(&bytes);
        assert_eq!((info.op, info.arch, info.instruction_pointer, info.stack_pointer), (2, 0xc000_003e, 0x40_1000, 0));
        assert_eq!(format!("{info:?}"), "ptrace_syscall_info { op: 2, arch: 3221225534, .. }");
    }
}
