//! The requests of ptrace(2) that neither read nor write the caller's memory, and the names of those that are not
//! simulated.

use crate::place::not_simulated;
use pukzarn::errno::Errno;
use pukzarn::libc::user_regs_struct;
use pukzarn::sys::ptrace::{self, Options};
use pukzarn::sys::signal::Signal;
use pukzarn::unistd::Pid;
use std::ffi::{c_int, c_uint};

pub(crate) const TRACEME: c_uint = 0;
pub(crate) const PEEKTEXT: c_uint = 1;
pub(crate) const PEEKDATA: c_uint = 2;
pub(crate) const PEEKUSER: c_uint = 3;
pub(crate) const POKETEXT: c_uint = 4;
pub(crate) const POKEDATA: c_uint = 5;
pub(crate) const POKEUSER: c_uint = 6;
pub(crate) const CONT: c_uint = 7;
pub(crate) const KILL: c_uint = 8;
pub(crate) const GETREGS: c_uint = 12;
pub(crate) const SETREGS: c_uint = 13;
pub(crate) const SYSCALL: c_uint = 24;
pub(crate) const SETOPTIONS: c_uint = 0x4200;
pub(crate) const GETEVENTMSG: c_uint = 0x4201;
pub(crate) const GETSIGINFO: c_uint = 0x4202;
pub(crate) const GETREGSET: c_uint = 0x4204;
pub(crate) const SETREGSET: c_uint = 0x4205;
pub(crate) const SEIZE: c_uint = 0x4206;
pub(crate) const INTERRUPT: c_uint = 0x4207;
pub(crate) const GET_SYSCALL_INFO: c_uint = 0x420e;

/// What <sys/ptrace.h> has and the simulation has not, with the reason.
const NOT_SIMULATED: &[(c_uint, &str, &str)] = &[
    (TRACEME, "PTRACE_TRACEME", A_TRACEE_IS_TRACED),
    (9, "PTRACE_SINGLESTEP", A_RESTART),
    (14, "PTRACE_GETFPREGS", NO_OTHER_REGISTERS),
    (15, "PTRACE_SETFPREGS", NO_OTHER_REGISTERS),
    (16, "PTRACE_ATTACH", A_TRACEE_IS_TRACED),
    (17, "PTRACE_DETACH", A_TRACEE_IS_TRACED),
    (18, "PTRACE_GETFPXREGS", NO_OTHER_REGISTERS),
    (19, "PTRACE_SETFPXREGS", NO_OTHER_REGISTERS),
    (25, "PTRACE_GET_THREAD_AREA", NO_OTHER_REGISTERS),
    (26, "PTRACE_SET_THREAD_AREA", NO_OTHER_REGISTERS),
    (30, "PTRACE_ARCH_PRCTL", NO_OTHER_REGISTERS),
    (31, "PTRACE_SYSEMU", A_RESTART),
    (32, "PTRACE_SYSEMU_SINGLESTEP", A_RESTART),
    (33, "PTRACE_SINGLEBLOCK", A_RESTART),
    (0x4203, "PTRACE_SETSIGINFO", "a signal is a number alone"),
    (0x4208, "PTRACE_LISTEN", "there is no group-stop"),
    (0x4209, "PTRACE_PEEKSIGINFO", NO_SIGNALS),
    (0x420a, "PTRACE_GETSIGMASK", NO_SIGNALS),
    (0x420b, "PTRACE_SETSIGMASK", NO_SIGNALS),
    (0x420c, "PTRACE_SECCOMP_GET_FILTER", NO_FILTER),
    (0x420d, "PTRACE_SECCOMP_GET_METADATA", NO_FILTER),
];
const A_TRACEE_IS_TRACED: &str = "a tracee is traced from its first stop until it is reaped";
const A_RESTART: &str = "a restart is PTRACE_CONT or PTRACE_SYSCALL";
const NO_OTHER_REGISTERS: &str = "the registers are those of struct user_regs_struct";
const NO_SIGNALS: &str = "no signal is pending or blocked";
const NO_FILTER: &str = "the filter of a tracee cannot be read";

/// A request that has only numbers. `data` is read as the kernel does: signals and options are 32 bits.
pub(crate) fn answer(request: c_uint, pid: Pid, addr: usize, data: usize) -> Result<(), Errno> {
    match request {
        CONT => ptrace::cont(pid, restarted_with(pid, data)?),
        SYSCALL => ptrace::syscall(pid, restarted_with(pid, data)?),
        KILL => ptrace::kill(pid),
        SETOPTIONS => match options(data) {
            Some(options) => ptrace::setoptions(pid, options),
            None => refused(pid, Errno::EINVAL),
        },
        SEIZE if addr != 0 => Err(Errno::EIO),
        SEIZE => ptrace::seize(pid, options(data).ok_or(Errno::EINVAL)?),
        INTERRUPT => ptrace::interrupt(pid),
        _ => match NOT_SIMULATED.iter().find(|row| row.0 == request) {
            Some((_, name, reason)) => not_simulated(name, reason),
            None => not_simulated(&format!("ptrace request {request:#x}"), "it is no request of x86-64 that is known"),
        },
    }
}

const LAST_SIGNAL: c_uint = 64;

/// The signal of a restart.
fn restarted_with(pid: Pid, data: usize) -> Result<Option<Signal>, Errno> {
    let number = data as c_uint;
    if number == 0 {
        return Ok(None);
    }
    if number > LAST_SIGNAL {
        return refused(pid, Errno::EIO);
    }
    match Signal::try_from(number.cast_signed()) {
        Ok(signal) => Ok(Some(signal)),
        Err(_) => not_simulated("a restart with a real-time signal", "no script has one"),
    }
}

fn options(data: usize) -> Option<Options> {
    Options::from_bits(data as c_int)
}

/// Refuses an argument. As on Linux, a tracee that is not stopped for the calling thread is refused before that.
fn refused<T>(pid: Pid, errno: Errno) -> Result<T, Errno> {
    ptrace::getevent(pid).and(Err(errno))
}

/// Fails the schedule where an offset in `struct user` is beyond its registers: there Linux has debug registers, and
/// more.
pub(crate) fn expect_register(offset: usize) {
    let known = size_of::<user_regs_struct>()..SIZE_OF_USER;
    if known.contains(&offset) && offset.is_multiple_of(size_of::<u64>()) {
        not_simulated(&format!("offset {offset} of struct user"), NO_OTHER_REGISTERS);
    }
}

const SIZE_OF_USER: usize = 912;

/// The full length of what PTRACE_GET_SYSCALL_INFO reports, by its `op`.
pub(crate) fn length_of(op: u8) -> usize {
    const ENTRY: u8 = 1;
    const EXIT: u8 = 2;
    const SECCOMP: u8 = 3;
    match op {
        ENTRY => 80,
        EXIT => 33,
        SECCOMP => 84,
        _ => 24,
    }
}
