//! `libpukzarn.a`: its C ABI, as `include/pukzarn.h` has it, and safe types over it.
//!
//! All `unsafe` code of the crate is here and in the module below, which asks the system itself. Each type of a handle
//! closes it when it is dropped. A call takes `&mut self` where the header says that a handle serves one call at a
//! time, which is everywhere.
#![allow(unsafe_code)]

pub(crate) mod processors;

use crate::errno::Errno;
use crate::sys::not_simulated;
#[cfg(feature = "nix-0-26")]
use crate::sys::ptrace::{self, AddressType};
use crate::sys::signal::{NO_SIGNALS, SigAction, SigHandler, Signal};
#[cfg(feature = "nix-0-26")]
use crate::unistd::Pid;
use crate::unistd::{BEGINS_AT_THE_LOOP, ForkResult};
use std::ffi::{c_char, c_int, c_long, c_void};

// ---- What crosses in numbers ----

macro_rules! plain {
    ($($(#[$doc:meta])* $name:ident { $($field:ident),* })*) => {$(
        $(#[$doc])*
        #[repr(C)]
        #[derive(Clone, Copy, Debug, Default, PartialEq, Eq, Hash)]
        pub(crate) struct $name {
            $(pub(crate) $field: u32),*
        }
    )*};
}

plain! {
    /// `struct pukzarn_row`: the ids of a tracee.
    RowNumbers { tid, tgid, pgid, parent }
    /// `struct pukzarn_stop`.
    StopNumbers { kind, value }
    /// `struct pukzarn_restart`.
    RestartNumbers { kind, signal }
    /// `struct pukzarn_state`.
    State { phase, number, tracer, status }
    /// `struct pukzarn_waited`.
    Waited { row, tid, number, status, death }
    /// `struct pukzarn_got`.
    Got { number, status, death }
}

/// The kinds of stops.
pub(crate) mod kind {
    pub(crate) const START: u32 = 0;
    pub(crate) const ENTER: u32 = 1;
    pub(crate) const EXIT: u32 = 2;
    pub(crate) const SECCOMP: u32 = 3;
    pub(crate) const FORK: u32 = 4;
    pub(crate) const CLONE: u32 = 5;
    pub(crate) const EXEC: u32 = 6;
    pub(crate) const SIGNAL: u32 = 7;
    pub(crate) const ENDING: u32 = 8;
}

/// The kinds of restarts.
pub(crate) mod restart {
    pub(crate) const CONT: u32 = 0;
    pub(crate) const SYSCALL: u32 = 1;
}

/// What a row is doing.
pub(crate) mod phase {
    pub(crate) const UNBORN: u32 = 1;
    pub(crate) const RUNNING: u32 = 2;
    pub(crate) const STOPPED: u32 = 3;
    pub(crate) const CLAIMED: u32 = 4;
    pub(crate) const DEAD: u32 = 5;
}

/// The options of waitid(2), and its kinds of ids.
pub(crate) mod wait {
    pub(crate) const WSTOPPED: u32 = 2;
    pub(crate) const WNOWAIT: u32 = 0x0100_0000;
    pub(crate) const P_ALL: u32 = 0;
    pub(crate) const P_PGID: u32 = 2;
}

/// At most this many rows in a simulation.
pub(crate) const MOST_ROWS: usize = 256;

/// At most this many tracers.
pub(crate) const MOST_TRACERS: usize = 16;

/// The general registers of a tracee, as `struct user_regs_struct` of `<sys/user.h>` on x86-64.
#[allow(non_camel_case_types, missing_docs)]
#[repr(C)]
#[derive(Clone, Copy, Debug, Default, PartialEq, Eq, Hash)]
pub struct user_regs_struct {
    pub r15: u64,
    pub r14: u64,
    pub r13: u64,
    pub r12: u64,
    pub rbp: u64,
    pub rbx: u64,
    pub r11: u64,
    pub r10: u64,
    pub r9: u64,
    pub r8: u64,
    pub rax: u64,
    pub rcx: u64,
    pub rdx: u64,
    pub rsi: u64,
    pub rdi: u64,
    pub orig_rax: u64,
    pub rip: u64,
    pub cs: u64,
    pub eflags: u64,
    pub rsp: u64,
    pub ss: u64,
    pub fs_base: u64,
    pub gs_base: u64,
    pub ds: u64,
    pub es: u64,
    pub fs: u64,
    pub gs: u64,
}

pub(crate) type Regs = user_regs_struct;

/// How many words the registers are.
pub(crate) const REGISTERS: usize = size_of::<Regs>() / 8;

impl user_regs_struct {
    /// The registers as words, in the order of the struct (PTRACE_PEEKUSER).
    pub(crate) fn to_words(self) -> [u64; REGISTERS] {
        // SAFETY: repr(C) with 27 fields of u64, so both have one size and no padding, and any words are valid.
        unsafe { std::mem::transmute::<Regs, [u64; REGISTERS]>(self) }
    }

    /// The registers of these words.
    pub(crate) fn from_words(words: [u64; REGISTERS]) -> Regs {
        // SAFETY: as in to_words.
        unsafe { std::mem::transmute::<[u64; REGISTERS], Regs>(words) }
    }
}

// ---- The functions ----

/// A handle of any type: closed where `live` is 0.
#[repr(C)]
struct Handle {
    live: u64,
    at: *mut c_void,
}

const CLOSED: Handle = Handle { live: 0, at: std::ptr::null_mut() };

unsafe extern "C" {
    fn pukzarn_record_open(record: *mut Handle, tid: u32) -> c_int;
    fn pukzarn_record_close(record: *mut Handle) -> c_int;
    fn pukzarn_record_set_stop(record: *mut Handle, number: u32, stop: *const StopNumbers) -> c_int;
    fn pukzarn_record_stop(record: *mut Handle, number: *mut u32, stop: *mut StopNumbers) -> c_int;
    fn pukzarn_record_message(record: *mut Handle, message: *mut u64) -> c_int;
    fn pukzarn_record_getregs(record: *mut Handle, regs: *mut Regs) -> c_int;
    fn pukzarn_record_setregs(record: *mut Handle, regs: *const Regs) -> c_int;
    fn pukzarn_record_map(record: *mut Handle, addr: u64) -> c_int;
    fn pukzarn_record_read(record: *mut Handle, addr: u64, to: *mut c_void, len: usize) -> c_long;
    fn pukzarn_record_write(record: *mut Handle, addr: u64, from: *const c_void, len: usize) -> c_int;
    fn pukzarn_record_syscall_info(record: *mut Handle, to: *mut c_void, len: usize) -> c_long;

    fn pukzarn_board_open(board: *mut Handle, rows: *const RowNumbers, row_count: usize, faulty: *mut u32) -> c_int;
    fn pukzarn_board_close(board: *mut Handle) -> c_int;
    fn pukzarn_board_state(board: *mut Handle, row: u32, state: *mut State) -> c_int;
    fn pukzarn_board_publish(board: *mut Handle, row: u32, stop: *const StopNumbers, number: *mut u32) -> c_int;
    fn pukzarn_board_claim(board: *mut Handle, row: u32, tracer: u32, got: *mut Got) -> c_int;
    fn pukzarn_board_resume(board: *mut Handle, row: u32, tracer: u32, restart: *const RestartNumbers) -> c_int;
    fn pukzarn_board_exit(board: *mut Handle, row: u32, status: u32) -> c_int;
    fn pukzarn_board_waitable(
        board: *mut Handle,
        idtype: u32,
        id: i32,
        options: u32,
        rows: *mut u32,
        room: usize,
    ) -> c_int;

    fn pukzarn_open(
        rows: *const RowNumbers,
        row_count: usize,
        tracees: *mut Handle,
        tracee_count: usize,
        tracers: *mut Handle,
        tracer_count: usize,
        faulty: *mut u32,
    ) -> c_int;
    fn pukzarn_tracee_take_up(tracee: *mut Handle, restart: *mut RestartNumbers) -> c_int;
    fn pukzarn_tracee_getregs(tracee: *mut Handle, regs: *mut Regs) -> c_int;
    fn pukzarn_tracee_setregs(tracee: *mut Handle, regs: *const Regs) -> c_int;
    fn pukzarn_tracee_map(tracee: *mut Handle, addr: u64) -> c_int;
    fn pukzarn_tracee_read(tracee: *mut Handle, addr: u64, to: *mut c_void, len: usize) -> c_long;
    fn pukzarn_tracee_write(tracee: *mut Handle, addr: u64, from: *const c_void, len: usize) -> c_int;
    fn pukzarn_tracee_next(tracee: *mut Handle, machine: *mut Handle, stop: *mut StopNumbers) -> c_int;
    fn pukzarn_tracee_publish(tracee: *mut Handle, stop: *const StopNumbers, number: *mut u32) -> c_int;
    fn pukzarn_tracee_exit(tracee: *mut Handle, status: u32) -> c_int;
    fn pukzarn_tracee_close(tracee: *mut Handle) -> c_int;
    fn pukzarn_tracer_look(tracer: *mut Handle, row: u32, state: *mut State) -> c_int;
    fn pukzarn_tracer_waitid(tracer: *mut Handle, idtype: u32, id: i32, options: u32, waited: *mut Waited) -> c_int;
    fn pukzarn_tracer_wait_row(tracer: *mut Handle, row: u32, options: u32, waited: *mut Waited) -> c_int;
    fn pukzarn_tracer_stop(tracer: *mut Handle, pid: i32, number: *mut u32, stop: *mut StopNumbers) -> c_int;
    fn pukzarn_tracer_message(tracer: *mut Handle, pid: i32, message: *mut u64) -> c_int;
    fn pukzarn_tracer_getregs(tracer: *mut Handle, pid: i32, regs: *mut Regs) -> c_int;
    fn pukzarn_tracer_setregs(tracer: *mut Handle, pid: i32, regs: *const Regs) -> c_int;
    fn pukzarn_tracer_read(tracer: *mut Handle, pid: i32, addr: u64, to: *mut c_void, len: usize) -> c_long;
    fn pukzarn_tracer_write(tracer: *mut Handle, pid: i32, addr: u64, from: *const c_void, len: usize) -> c_int;
    fn pukzarn_tracer_syscall_info(tracer: *mut Handle, pid: i32, to: *mut c_void, len: usize) -> c_long;
    fn pukzarn_tracer_resume(tracer: *mut Handle, pid: i32, restart: *const RestartNumbers) -> c_int;
    fn pukzarn_tracer_close(tracer: *mut Handle) -> c_int;

    fn pukzarn_case_open(
        script: *mut Handle,
        text: *const c_char,
        len: usize,
        line: *mut u32,
        cause: *mut c_char,
        room: usize,
    ) -> c_int;
    fn pukzarn_case_rows(script: *mut Handle, rows: *mut RowNumbers, room: usize) -> c_int;
    fn pukzarn_case_close(script: *mut Handle) -> c_int;
    fn pukzarn_machine_open(machine: *mut Handle, script: *mut Handle, row: u32) -> c_int;
    fn pukzarn_machine_options(machine: *mut Handle, options: u32) -> c_int;
    fn pukzarn_machine_next(
        machine: *mut Handle,
        restart: *const RestartNumbers,
        record: *mut Handle,
        stop: *mut StopNumbers,
    ) -> c_int;
    fn pukzarn_machine_close(machine: *mut Handle) -> c_int;
}

/// The answer 0 or a count, or the error.
fn count(answer: impl Into<i64>) -> Result<usize, Errno> {
    let answer = answer.into();
    usize::try_from(answer).map_err(|_| Errno::from_raw(i32::try_from(-answer).unwrap_or(0)))
}

/// The answer 0, or the error.
fn done(answer: c_int) -> Result<(), Errno> {
    count(answer).map(drop)
}

macro_rules! handles {
    ($($(#[$doc:meta])* $name:ident closed by $close:ident;)*) => {$(
        $(#[$doc])*
        pub(crate) struct $name(Handle);

        // SAFETY: a handle may be used by another thread once that is ordered, which moving it to the thread does; no
        // call takes a shared reference, so two threads never use it at once.
        unsafe impl Send for $name {}

        impl Drop for $name {
            fn drop(&mut self) {
                // SAFETY: the handle is open, or was never opened, which the call then refuses.
                unsafe { $close(&mut self.0) };
            }
        }
    )*};
}

handles! {
    /// The registers and the memory of a stop.
    Record closed by pukzarn_record_close;
    /// The stops of many tracees, for one thread at a time.
    Board closed by pukzarn_board_close;
    /// A row of the cells, for its tracee's thread.
    TraceeHandle closed by pukzarn_tracee_close;
    /// A tracer of the cells.
    TracerHandle closed by pukzarn_tracer_close;
    /// The scripts of a case file.
    Case closed by pukzarn_case_close;
    /// A tracee that follows a script.
    Machine closed by pukzarn_machine_close;
}

// ---- Records ----

/// What a tracer may ask of a stop that it has claimed.
pub(crate) trait RecordCalls {
    /// The number of the stop, and the stop.
    fn stop(&mut self) -> Result<(u32, StopNumbers), Errno>;
    /// PTRACE_GETEVENTMSG.
    fn message(&mut self) -> Result<u64, Errno>;
    /// PTRACE_GETREGS.
    fn getregs(&mut self) -> Result<Regs, Errno>;
    /// PTRACE_SETREGS.
    fn setregs(&mut self, regs: &Regs) -> Result<(), Errno>;
    /// Copies the bytes from an address on, and answers how many are mapped.
    fn read(&mut self, addr: u64, to: &mut [u8]) -> Result<usize, Errno>;
    /// Writes all of the bytes, or none.
    fn write(&mut self, addr: u64, from: &[u8]) -> Result<(), Errno>;
    /// PTRACE_GET_SYSCALL_INFO, cut to the room; answers the full length.
    fn syscall_info(&mut self, to: &mut [u8]) -> Result<usize, Errno>;
}

/// What a tracee's own thread may do to its registers and memory.
pub(crate) trait TraceeRecord {
    /// The registers.
    fn getregs(&mut self) -> Result<Regs, Errno>;
    /// Sets the registers.
    fn setregs(&mut self, regs: &Regs) -> Result<(), Errno>;
    /// Maps the page of zeros at an address.
    fn map(&mut self, addr: u64) -> Result<(), Errno>;
    /// Copies the bytes from an address on, and answers how many are mapped.
    fn read(&mut self, addr: u64, to: &mut [u8]) -> Result<usize, Errno>;
    /// Writes all of the bytes, or none.
    fn write(&mut self, addr: u64, from: &[u8]) -> Result<(), Errno>;
}

impl Record {
    pub(crate) fn open(tid: u32) -> Result<Record, Errno> {
        let mut record = Record(CLOSED);
        // SAFETY: the handle is closed.
        done(unsafe { pukzarn_record_open(&mut record.0, tid) })?;
        Ok(record)
    }

    pub(crate) fn set_stop(&mut self, number: u32, stop: StopNumbers) -> Result<(), Errno> {
        // SAFETY: both pointers are of live values, which do not overlap.
        done(unsafe { pukzarn_record_set_stop(&mut self.0, number, &stop) })
    }
}

impl RecordCalls for Record {
    fn stop(&mut self) -> Result<(u32, StopNumbers), Errno> {
        let (mut number, mut stop) = (0, StopNumbers::default());
        // SAFETY: the pointers are of live values, which do not overlap.
        done(unsafe { pukzarn_record_stop(&mut self.0, &mut number, &mut stop) })?;
        Ok((number, stop))
    }

    fn message(&mut self) -> Result<u64, Errno> {
        let mut message = 0;
        // SAFETY: both pointers are of live values, which do not overlap.
        done(unsafe { pukzarn_record_message(&mut self.0, &mut message) })?;
        Ok(message)
    }

    fn getregs(&mut self) -> Result<Regs, Errno> {
        TraceeRecord::getregs(self)
    }

    fn setregs(&mut self, regs: &Regs) -> Result<(), Errno> {
        TraceeRecord::setregs(self, regs)
    }

    fn read(&mut self, addr: u64, to: &mut [u8]) -> Result<usize, Errno> {
        TraceeRecord::read(self, addr, to)
    }

    fn write(&mut self, addr: u64, from: &[u8]) -> Result<(), Errno> {
        TraceeRecord::write(self, addr, from)
    }

    fn syscall_info(&mut self, to: &mut [u8]) -> Result<usize, Errno> {
        // SAFETY: the slice has the length that is said; its pointer is not null.
        count(unsafe { pukzarn_record_syscall_info(&mut self.0, to.as_mut_ptr().cast(), to.len()) })
    }
}

impl TraceeRecord for Record {
    fn getregs(&mut self) -> Result<Regs, Errno> {
        let mut regs = Regs::default();
        // SAFETY: both pointers are of live values, which do not overlap; Regs has the layout of pukzarn_regs.
        done(unsafe { pukzarn_record_getregs(&mut self.0, &mut regs) })?;
        Ok(regs)
    }

    fn setregs(&mut self, regs: &Regs) -> Result<(), Errno> {
        // SAFETY: as in getregs.
        done(unsafe { pukzarn_record_setregs(&mut self.0, regs) })
    }

    fn map(&mut self, addr: u64) -> Result<(), Errno> {
        // SAFETY: the pointer is of a live value.
        done(unsafe { pukzarn_record_map(&mut self.0, addr) })
    }

    fn read(&mut self, addr: u64, to: &mut [u8]) -> Result<usize, Errno> {
        // SAFETY: the slice has the length that is said; its pointer is not null.
        count(unsafe { pukzarn_record_read(&mut self.0, addr, to.as_mut_ptr().cast(), to.len()) })
    }

    fn write(&mut self, addr: u64, from: &[u8]) -> Result<(), Errno> {
        // SAFETY: the slice has the length that is said; its pointer is not null.
        done(unsafe { pukzarn_record_write(&mut self.0, addr, from.as_ptr().cast(), from.len()) })
    }
}

// ---- The board ----

/// Why rows are refused.
#[derive(Clone, Copy, Debug, PartialEq, Eq)]
pub(crate) enum RowsRefused {
    /// The row at this place is faulty.
    Faulty(usize),
    /// There are more than 256 rows, or no memory.
    Other(Errno),
}

const NOT_FAULTY: u32 = u32::MAX;

fn opened(answer: c_int, faulty: u32) -> Result<(), RowsRefused> {
    match done(answer) {
        Ok(()) => Ok(()),
        Err(Errno::EINVAL) if faulty != NOT_FAULTY => Err(RowsRefused::Faulty(faulty as usize)),
        Err(errno) => Err(RowsRefused::Other(errno)),
    }
}

impl Board {
    /// One that is not open, and refuses each call.
    pub(crate) fn closed() -> Board {
        Board(CLOSED)
    }

    pub(crate) fn open(rows: &[RowNumbers]) -> Result<Board, RowsRefused> {
        let (mut board, mut faulty) = (Board(CLOSED), NOT_FAULTY);
        // SAFETY: the handle is closed, and the slice has the length that is said; a slice's pointer is not null.
        let answer = unsafe { pukzarn_board_open(&mut board.0, rows.as_ptr(), rows.len(), &mut faulty) };
        opened(answer, faulty)?;
        Ok(board)
    }

    pub(crate) fn state(&mut self, row: usize) -> State {
        let mut state = State::default();
        // SAFETY: both pointers are of live values, which do not overlap.
        unsafe { pukzarn_board_state(&mut self.0, row as u32, &mut state) };
        state
    }

    /// Answers the stop's number.
    pub(crate) fn publish(&mut self, row: usize, stop: StopNumbers) -> Result<u32, Errno> {
        let mut number = 0;
        // SAFETY: the pointers are of live values, which do not overlap.
        done(unsafe { pukzarn_board_publish(&mut self.0, row as u32, &stop, &mut number) })?;
        Ok(number)
    }

    pub(crate) fn claim(&mut self, row: usize, tracer: u32) -> Result<Got, Errno> {
        let mut got = Got::default();
        // SAFETY: both pointers are of live values, which do not overlap.
        done(unsafe { pukzarn_board_claim(&mut self.0, row as u32, tracer, &mut got) })?;
        Ok(got)
    }

    pub(crate) fn resume(&mut self, row: usize, tracer: u32, restart: RestartNumbers) -> Result<(), Errno> {
        // SAFETY: both pointers are of live values, which do not overlap.
        done(unsafe { pukzarn_board_resume(&mut self.0, row as u32, tracer, &restart) })
    }

    pub(crate) fn exit(&mut self, row: usize, status: u32) -> Result<(), Errno> {
        // SAFETY: the pointer is of a live value.
        done(unsafe { pukzarn_board_exit(&mut self.0, row as u32, status) })
    }

    /// Writes the rows that a wait may be answered, as many as there is room for, and answers how many they are.
    pub(crate) fn waitable(&mut self, idtype: u32, id: i32, options: u32, rows: &mut [u32]) -> Result<usize, Errno> {
        let (to, room) = (rows.as_mut_ptr(), rows.len());
        // SAFETY: the slice has the room that is said; its pointer is not null.
        count(unsafe { pukzarn_board_waitable(&mut self.0, idtype, id, options, to, room) })
    }
}

// ---- The cells ----

/// Opens cells over rows, and all handles of them.
pub(crate) fn open_cells(
    rows: &[RowNumbers],
    tracers: usize,
) -> Result<(Vec<TraceeHandle>, Vec<TracerHandle>), RowsRefused> {
    let mut of_tracees: Vec<Handle> = rows.iter().map(|_| CLOSED).collect();
    let mut of_tracers: Vec<Handle> = (0..tracers).map(|_| CLOSED).collect();
    let mut faulty = NOT_FAULTY;
    // SAFETY: the handles are closed, the slices have the lengths that are said, and their pointers are not null.
    let answer = unsafe {
        pukzarn_open(
            rows.as_ptr(),
            rows.len(),
            of_tracees.as_mut_ptr(),
            of_tracees.len(),
            of_tracers.as_mut_ptr(),
            of_tracers.len(),
            &mut faulty,
        )
    };
    opened(answer, faulty)?;
    Ok((of_tracees.into_iter().map(TraceeHandle).collect(), of_tracers.into_iter().map(TracerHandle).collect()))
}

impl TraceeHandle {
    pub(crate) fn take_up(&mut self) -> Result<RestartNumbers, Errno> {
        let mut restart = RestartNumbers::default();
        // SAFETY: both pointers are of live values, which do not overlap.
        done(unsafe { pukzarn_tracee_take_up(&mut self.0, &mut restart) })?;
        Ok(restart)
    }

    pub(crate) fn publish(&mut self, stop: StopNumbers) -> Result<u32, Errno> {
        let mut number = 0;
        // SAFETY: the pointers are of live values, which do not overlap.
        done(unsafe { pukzarn_tracee_publish(&mut self.0, &stop, &mut number) })?;
        Ok(number)
    }

    pub(crate) fn exit(&mut self, status: u32) -> Result<(), Errno> {
        // SAFETY: the pointer is of a live value.
        done(unsafe { pukzarn_tracee_exit(&mut self.0, status) })
    }

    /// Lets a machine run to its next stop, or to its death.
    pub(crate) fn next(&mut self, machine: &mut Machine) -> Result<Next, Errno> {
        let mut stop = StopNumbers::default();
        // SAFETY: the pointers are of live values, which do not overlap.
        next_of(unsafe { pukzarn_tracee_next(&mut self.0, &mut machine.0, &mut stop) }, stop)
    }
}

impl TraceeRecord for TraceeHandle {
    fn getregs(&mut self) -> Result<Regs, Errno> {
        let mut regs = Regs::default();
        // SAFETY: both pointers are of live values, which do not overlap; Regs has the layout of pukzarn_regs.
        done(unsafe { pukzarn_tracee_getregs(&mut self.0, &mut regs) })?;
        Ok(regs)
    }

    fn setregs(&mut self, regs: &Regs) -> Result<(), Errno> {
        // SAFETY: as in getregs.
        done(unsafe { pukzarn_tracee_setregs(&mut self.0, regs) })
    }

    fn map(&mut self, addr: u64) -> Result<(), Errno> {
        // SAFETY: the pointer is of a live value.
        done(unsafe { pukzarn_tracee_map(&mut self.0, addr) })
    }

    fn read(&mut self, addr: u64, to: &mut [u8]) -> Result<usize, Errno> {
        // SAFETY: the slice has the length that is said; its pointer is not null.
        count(unsafe { pukzarn_tracee_read(&mut self.0, addr, to.as_mut_ptr().cast(), to.len()) })
    }

    fn write(&mut self, addr: u64, from: &[u8]) -> Result<(), Errno> {
        // SAFETY: the slice has the length that is said; its pointer is not null.
        done(unsafe { pukzarn_tracee_write(&mut self.0, addr, from.as_ptr().cast(), from.len()) })
    }
}

impl TracerHandle {
    pub(crate) fn look(&mut self, row: usize) -> State {
        let mut state = State::default();
        // SAFETY: both pointers are of live values, which do not overlap.
        unsafe { pukzarn_tracer_look(&mut self.0, row as u32, &mut state) };
        state
    }

    /// None where there is nothing to report yet.
    pub(crate) fn waitid(&mut self, idtype: u32, id: i32, options: u32) -> Result<Option<Waited>, Errno> {
        let mut waited = Waited::default();
        // SAFETY: both pointers are of live values, which do not overlap.
        let answer = count(unsafe { pukzarn_tracer_waitid(&mut self.0, idtype, id, options, &mut waited) })?;
        Ok((answer == 1).then_some(waited))
    }

    /// The same for the tracee of one row.
    pub(crate) fn wait_row(&mut self, row: usize, options: u32) -> Result<Option<Waited>, Errno> {
        let mut waited = Waited::default();
        // SAFETY: both pointers are of live values, which do not overlap.
        let answer = count(unsafe { pukzarn_tracer_wait_row(&mut self.0, row as u32, options, &mut waited) })?;
        Ok((answer == 1).then_some(waited))
    }

    pub(crate) fn resume(&mut self, pid: i32, restart: RestartNumbers) -> Result<(), Errno> {
        // SAFETY: both pointers are of live values, which do not overlap.
        done(unsafe { pukzarn_tracer_resume(&mut self.0, pid, &restart) })
    }

    /// The record of a stop that this tracer has claimed; each of its calls is ESRCH where it has not.
    pub(crate) fn record(&mut self, pid: i32) -> TracerRecord<'_> {
        TracerRecord { tracer: self, pid }
    }
}

/// The record of a tracee's stop, as a tracer of the cells asks for it.
pub(crate) struct TracerRecord<'a> {
    tracer: &'a mut TracerHandle,
    pid: i32,
}

impl RecordCalls for TracerRecord<'_> {
    fn stop(&mut self) -> Result<(u32, StopNumbers), Errno> {
        let (mut number, mut stop) = (0, StopNumbers::default());
        // SAFETY: the pointers are of live values, which do not overlap.
        done(unsafe { pukzarn_tracer_stop(&mut self.tracer.0, self.pid, &mut number, &mut stop) })?;
        Ok((number, stop))
    }

    fn message(&mut self) -> Result<u64, Errno> {
        let mut message = 0;
        // SAFETY: both pointers are of live values, which do not overlap.
        done(unsafe { pukzarn_tracer_message(&mut self.tracer.0, self.pid, &mut message) })?;
        Ok(message)
    }

    fn getregs(&mut self) -> Result<Regs, Errno> {
        let mut regs = Regs::default();
        // SAFETY: both pointers are of live values, which do not overlap; Regs has the layout of pukzarn_regs.
        done(unsafe { pukzarn_tracer_getregs(&mut self.tracer.0, self.pid, &mut regs) })?;
        Ok(regs)
    }

    fn setregs(&mut self, regs: &Regs) -> Result<(), Errno> {
        // SAFETY: as in getregs.
        done(unsafe { pukzarn_tracer_setregs(&mut self.tracer.0, self.pid, regs) })
    }

    fn read(&mut self, addr: u64, to: &mut [u8]) -> Result<usize, Errno> {
        let (buffer, room) = (to.as_mut_ptr().cast(), to.len());
        // SAFETY: the slice has the length that is said; its pointer is not null.
        count(unsafe { pukzarn_tracer_read(&mut self.tracer.0, self.pid, addr, buffer, room) })
    }

    fn write(&mut self, addr: u64, from: &[u8]) -> Result<(), Errno> {
        let (buffer, length) = (from.as_ptr().cast(), from.len());
        // SAFETY: the slice has the length that is said; its pointer is not null.
        done(unsafe { pukzarn_tracer_write(&mut self.tracer.0, self.pid, addr, buffer, length) })
    }

    fn syscall_info(&mut self, to: &mut [u8]) -> Result<usize, Errno> {
        let (buffer, room) = (to.as_mut_ptr().cast(), to.len());
        // SAFETY: the slice has the length that is said; its pointer is not null.
        count(unsafe { pukzarn_tracer_syscall_info(&mut self.tracer.0, self.pid, buffer, room) })
    }
}

// ---- Scripts ----

/// What a script does next.
#[derive(Clone, Copy, Debug, PartialEq, Eq)]
pub(crate) enum Next {
    /// It stops.
    Stop(StopNumbers),
    /// It ends, with this raw wait status.
    Death(u32),
}

fn next_of(answer: c_int, stop: StopNumbers) -> Result<Next, Errno> {
    Ok(if count(answer)? == 0 { Next::Stop(stop) } else { Next::Death(stop.value) })
}

/// Why a case file is refused.
#[derive(Clone, Debug, PartialEq, Eq)]
pub(crate) enum CaseRefused {
    /// Its first faulty line, from 1, and the cause.
    Faulty(u32, String),
    /// There is no memory.
    Other(Errno),
}

impl Case {
    pub(crate) fn open(text: &[u8]) -> Result<Case, CaseRefused> {
        let (mut case, mut line, mut cause) = (Case(CLOSED), 0, [0u8; 64]);
        let room = cause.len();
        // SAFETY: the handle is closed, the text and the buffer have the lengths that are said, and nothing overlaps.
        let answer = unsafe {
            pukzarn_case_open(&mut case.0, text.as_ptr().cast(), text.len(), &mut line, cause.as_mut_ptr().cast(), room)
        };
        match done(answer) {
            Ok(()) => Ok(case),
            Err(Errno::EINVAL) => {
                let length = cause.iter().position(|byte| *byte == 0).unwrap_or(room);
                Err(CaseRefused::Faulty(line, String::from_utf8_lossy(&cause[..length]).into_owned()))
            }
            Err(errno) => Err(CaseRefused::Other(errno)),
        }
    }

    pub(crate) fn rows(&mut self) -> Vec<RowNumbers> {
        let mut rows = vec![RowNumbers::default(); MOST_ROWS];
        // SAFETY: the buffer has the room that is said.
        let many = unsafe { pukzarn_case_rows(&mut self.0, rows.as_mut_ptr(), rows.len()) };
        rows.truncate(usize::try_from(many).unwrap_or(0));
        rows
    }

    /// The machine of a row.
    pub(crate) fn machine(&mut self, row: usize) -> Result<Machine, Errno> {
        let mut machine = Machine(CLOSED);
        // SAFETY: the machine's handle is closed, and the two do not overlap.
        done(unsafe { pukzarn_machine_open(&mut machine.0, &mut self.0, row as u32) })?;
        Ok(machine)
    }
}

impl Machine {
    pub(crate) fn options(&mut self, options: u32) -> Result<(), Errno> {
        // SAFETY: the pointer is of a live value.
        done(unsafe { pukzarn_machine_options(&mut self.0, options) })
    }

    /// Runs from a restart to the next stop, which the record then has, or to the death.
    pub(crate) fn next(&mut self, restart: RestartNumbers, record: &mut Record) -> Result<Next, Errno> {
        let mut stop = StopNumbers::default();
        // SAFETY: the pointers are of live values, which do not overlap.
        next_of(unsafe { pukzarn_machine_next(&mut self.0, &restart, &mut record.0, &mut stop) }, stop)
    }
}

// ---- What is unsafe in nix ----

/// Writes the word that the pointer is: nix 0.26's form of `PTRACE_POKEDATA`.
///
/// # Safety
/// Nothing is asked for: the pointer is a number here.
#[cfg(feature = "nix-0-26")]
pub unsafe fn write(pid: Pid, addr: AddressType, data: *mut c_void) -> Result<(), Errno> {
    ptrace::write_word(pid, addr, data.addr().cast_signed() as c_long)
}

/// Writes the word that the pointer is: nix 0.26's form of `PTRACE_POKEUSER`.
///
/// # Safety
/// Nothing is asked for: the pointer is a number here.
#[cfg(feature = "nix-0-26")]
pub unsafe fn write_user(pid: Pid, offset: AddressType, data: *mut c_void) -> Result<(), Errno> {
    ptrace::write_register(pid, offset, data.addr().cast_signed() as c_long)
}

/// Ends the test: the tracer gets no signals.
///
/// # Safety
/// Nothing is asked for: no handler is set.
pub unsafe fn sigaction(_signal: Signal, _sigaction: &SigAction) -> Result<SigAction, Errno> {
    not_simulated("sigaction", NO_SIGNALS)
}

/// Ends the test: the tracer gets no signals.
///
/// # Safety
/// Nothing is asked for: no handler is set.
pub unsafe fn signal(_signal: Signal, _handler: SigHandler) -> Result<SigHandler, Errno> {
    not_simulated("signal", NO_SIGNALS)
}

/// Ends the test: the tracees are those of the Sim.
///
/// # Safety
/// Nothing is asked for: no process is made.
pub unsafe fn fork() -> Result<ForkResult, Errno> {
    not_simulated("fork", BEGINS_AT_THE_LOOP)
}

// ---- A scope of threads ----

/// A scope, which ends once its threads have.
///
/// ```
/// use pukzarn::thread::{Scope, scope};
///
/// fn start<'scope>(scope: &'scope Scope<'scope, '_>) {
///     scope.spawn(|| ());
/// }
/// scope(|s| start(s));
/// ```
#[derive(Debug)]
#[repr(transparent)]
pub struct Scope<'scope, 'env: 'scope> {
    inner: std::thread::Scope<'scope, 'env>,
}

impl<'scope, 'env> Scope<'scope, 'env> {
    /// The scope of std, with the methods of this crate.
    pub(crate) fn of(inner: &'scope std::thread::Scope<'scope, 'env>) -> &'scope Scope<'scope, 'env> {
        // SAFETY: the type is transparent over what the reference is to, which lives for the same time.
        unsafe { &*std::ptr::from_ref(inner).cast() }
    }

    pub(crate) fn inner(&'scope self) -> &'scope std::thread::Scope<'scope, 'env> {
        &self.inner
    }
}
