//! nix's `sys::ptrace`: what a tracer asks of a tracee whose stop it was answered.
//!
//! Of a tracee whose stop the calling thread was not answered each is `ESRCH`. What is not simulated ends the test.

mod register_sets;
mod requests;

pub use register_sets::*;
pub use requests::*;

use crate::context;
use crate::errno::Errno;
use crate::libc::{self, c_long, c_void, siginfo_t, user_regs_struct};
use crate::library::{RecordCalls, RestartNumbers, StopNumbers, kind, restart};
use crate::sys::not_simulated;
use crate::sys::signal::{Signal, kill as send_signal};
use crate::unistd::Pid;

/// An address in a tracee's memory.
pub type AddressType = *mut c_void;

/// The registers of a tracee, as with `PTRACE_GETREGS`.
pub fn getregs(pid: Pid) -> Result<user_regs_struct, Errno> {
    of_claimed(pid, Request::PTRACE_GETREGS, |record| record.getregs())
}

/// Sets the registers of a tracee, as with `PTRACE_SETREGS`.
pub fn setregs(pid: Pid, regs: user_regs_struct) -> Result<(), Errno> {
    of_claimed(pid, Request::PTRACE_SETREGS, |record| record.setregs(&regs))
}

/// Sets which stops a tracee makes from now on, as with `PTRACE_SETOPTIONS`.
pub fn setoptions(pid: Pid, options: Options) -> Result<(), Errno> {
    context::calls().set_options(pid.as_raw(), options.bits().cast_unsigned())
}

/// The event message of a stop, as with `PTRACE_GETEVENTMSG`.
pub fn getevent(pid: Pid) -> Result<c_long, Errno> {
    of_claimed(pid, Request::PTRACE_GETEVENTMSG, |record| record.message().map(u64::cast_signed))
}

/// The signal of a stop and why it came, as with `PTRACE_GETSIGINFO`.
pub fn getsiginfo(pid: Pid) -> Result<siginfo_t, Errno> {
    of_claimed(pid, Request::PTRACE_GETSIGINFO, |record| record.stop().map(|(_, stop)| siginfo_of(stop)))
}

/// A signal was sent by kill(2); a syscall-stop and an event have what ptrace(2) says under `PTRACE_GETSIGINFO`.
fn siginfo_of(stop: StopNumbers) -> siginfo_t {
    let event = |number: i32| siginfo_t::new(libc::SIGTRAP, number << 8 | libc::SIGTRAP);
    match stop.kind {
        kind::START => event(libc::PTRACE_EVENT_STOP),
        kind::SECCOMP => event(libc::PTRACE_EVENT_SECCOMP),
        kind::FORK => event(libc::PTRACE_EVENT_FORK),
        kind::CLONE => event(libc::PTRACE_EVENT_CLONE),
        kind::EXEC => event(libc::PTRACE_EVENT_EXEC),
        kind::ENDING => event(libc::PTRACE_EVENT_EXIT),
        kind::SIGNAL => siginfo_t::new(stop.value.cast_signed(), libc::SI_USER),
        _ => siginfo_t::new(libc::SIGTRAP, libc::SIGTRAP | 0x80),
    }
}

/// Ends the test: a signal is a number alone.
pub fn setsiginfo(_pid: Pid, _sig: &siginfo_t) -> Result<(), Errno> {
    not_simulated("ptrace::setsiginfo", "a signal is a number alone; hand another one to the restart")
}

/// Ends the test: a tracee is traced from its first stop on.
pub fn traceme() -> Result<(), Errno> {
    not_simulated("ptrace::traceme", "a tracee is traced from its first stop on")
}

/// Restarts a tracee up to its next syscall-stop, as with `PTRACE_SYSCALL`.
pub fn syscall<T: Into<Option<Signal>>>(pid: Pid, sig: T) -> Result<(), Errno> {
    resume(pid, restart::SYSCALL, sig.into())
}

/// Restarts a tracee, as with `PTRACE_CONT`.
pub fn cont<T: Into<Option<Signal>>>(pid: Pid, sig: T) -> Result<(), Errno> {
    resume(pid, restart::CONT, sig.into())
}

fn resume(pid: Pid, kind: u32, signal: Option<Signal>) -> Result<(), Errno> {
    let signal = signal.map_or(0, |signal| signal as u32);
    context::calls().restart(pid.as_raw(), RestartNumbers { kind, signal })
}

/// Ends the test: a restart is `syscall` or `cont`.
pub fn sysemu<T: Into<Option<Signal>>>(_pid: Pid, _sig: T) -> Result<(), Errno> {
    not_simulated("ptrace::sysemu", OTHER_RESTART)
}

/// Ends the test: a restart is `syscall` or `cont`.
pub fn step<T: Into<Option<Signal>>>(_pid: Pid, _sig: T) -> Result<(), Errno> {
    not_simulated("ptrace::step", OTHER_RESTART)
}

/// Ends the test: a restart is `syscall` or `cont`.
pub fn sysemu_step<T: Into<Option<Signal>>>(_pid: Pid, _sig: T) -> Result<(), Errno> {
    not_simulated("ptrace::sysemu_step", OTHER_RESTART)
}

const OTHER_RESTART: &str = "a restart is syscall or cont";

/// Ends the test: a tracee is traced from its first stop on.
pub fn attach(_pid: Pid) -> Result<(), Errno> {
    not_simulated("ptrace::attach", "a tracee is traced from its first stop on, and there is no group-stop")
}

/// Ends the test: a tracee is traced until it is reaped.
pub fn detach<T: Into<Option<Signal>>>(_pid: Pid, _sig: T) -> Result<(), Errno> {
    not_simulated("ptrace::detach", "a tracee is traced until it is reaped")
}

/// Sets the options of a tracee, as with `PTRACE_SEIZE`; it is traced already.
pub fn seize(pid: Pid, options: Options) -> Result<(), Errno> {
    context::calls().seize(pid.as_raw(), options.bits().cast_unsigned())
}

/// Stops a tracee that runs, as with `PTRACE_INTERRUPT`, before what it does next.
pub fn interrupt(pid: Pid) -> Result<(), Errno> {
    context::calls().interrupt(pid.as_raw())
}

/// Kills a tracee, as kill(2) with `SIGKILL` does. Needs `Sim::kills`.
pub fn kill(pid: Pid) -> Result<(), Errno> {
    send_signal(pid, Signal::SIGKILL)
}

/// The word at an address, as with `PTRACE_PEEKDATA`; `EIO` where it is not mapped.
pub fn read(pid: Pid, addr: AddressType) -> Result<c_long, Errno> {
    of_claimed(pid, Request::PTRACE_PEEKDATA, |record| {
        let mut word = [0; 8];
        let mapped = record.read(addr.addr() as u64, &mut word)?;
        if mapped == word.len() { Ok(c_long::from_ne_bytes(word)) } else { Err(Errno::EIO) }
    })
}

/// Writes the word at an address, as with `PTRACE_POKEDATA`; `EIO` where it is not mapped.
#[cfg(not(feature = "nix-0-26"))]
pub fn write(pid: Pid, addr: AddressType, data: c_long) -> Result<(), Errno> {
    write_word(pid, addr, data)
}

/// The word of `struct user` at an offset, as with `PTRACE_PEEKUSER`: a register, or `EIO`.
pub fn read_user(pid: Pid, offset: AddressType) -> Result<c_long, Errno> {
    of_claimed(pid, Request::PTRACE_PEEKUSER, |record| {
        let words = record.getregs()?.to_words();
        Ok(words[register_at(offset)?].cast_signed())
    })
}

/// Writes the word of `struct user` at an offset, as with `PTRACE_POKEUSER`: a register, or `EIO`.
#[cfg(not(feature = "nix-0-26"))]
pub fn write_user(pid: Pid, offset: AddressType, data: c_long) -> Result<(), Errno> {
    write_register(pid, offset, data)
}

#[cfg(feature = "nix-0-26")]
pub use crate::library::{write, write_user};

pub(crate) fn write_word(pid: Pid, addr: AddressType, data: c_long) -> Result<(), Errno> {
    of_claimed(pid, Request::PTRACE_POKEDATA, |record| record.write(addr.addr() as u64, &data.to_ne_bytes()))
}

pub(crate) fn write_register(pid: Pid, offset: AddressType, data: c_long) -> Result<(), Errno> {
    of_claimed(pid, Request::PTRACE_POKEUSER, |record| {
        let mut words = record.getregs()?.to_words();
        words[register_at(offset)?] = data.cast_unsigned();
        record.setregs(&user_regs_struct::from_words(words))
    })
}

/// Which register is at an offset of `struct user`.
fn register_at(offset: AddressType) -> Result<usize, Errno> {
    let registers = size_of::<user_regs_struct>();
    let offset = offset.addr();
    if offset.is_multiple_of(8) && offset < registers { Ok(offset / 8) } else { Err(Errno::EIO) }
}

/// Calls with the record of a stop that the calling thread was answered.
fn of_claimed<T>(
    pid: Pid,
    request: Request,
    call: impl FnOnce(&mut dyn RecordCalls) -> Result<T, Errno>,
) -> Result<T, Errno> {
    let (mut call, mut answer) = (Some(call), None);
    context::calls().with_claimed(pid.as_raw(), request, &mut |record| {
        if let Some(call) = call.take() {
            answer = Some(call(record));
        }
    })?;
    answer.expect("a stop that was claimed is asked once")
}

#[cfg(test)]
mod tests {
    use super::*;

    #[test]
    fn a_stop_has_the_siginfo_of_its_kind() {
        for (kind, value, signal, code) in [
            (kind::START, 0, 5, 0x8005),
            (kind::ENTER, 0, 5, 0x85),
            (kind::EXIT, 0, 5, 0x85),
            (kind::SECCOMP, 7, 5, 0x0705),
            (kind::FORK, 101, 5, 0x0105),
            (kind::CLONE, 101, 5, 0x0305),
            (kind::EXEC, 100, 5, 0x0405),
            (kind::SIGNAL, 10, 10, 0),
            (kind::ENDING, 0, 5, 0x0605),
        ] {
            let info = siginfo_of(StopNumbers { kind, value });
            assert_eq!((info.si_signo, info.si_errno, info.si_code), (signal, 0, code));
        }
    }

    #[test]
    fn only_the_registers_of_struct_user_are_there() {
        for (offset, register) in
            [(0, Ok(0)), (120, Ok(15)), (208, Ok(26)), (4, Err(Errno::EIO)), (216, Err(Errno::EIO))]
        {
            assert_eq!(register_at(std::ptr::without_provenance_mut(offset)), register);
        }
    }

    #[test]
    #[should_panic(expected = "ptrace::detach is not simulated: a tracee is traced until it is reaped")]
    fn what_is_not_simulated_ends_the_test() {
        let _ = detach(Pid::from_raw(100), None);
    }

    #[test]
    #[should_panic(expected = "this thread is in no simulation")]
    fn a_call_outside_of_a_simulation_ends_the_test() {
        let _ = getregs(Pid::from_raw(100));
    }
}
