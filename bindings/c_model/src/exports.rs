//! What C calls: the functions of `include/pukzarn_model.h`, and those that `--wrap` puts in the place of waitpid(2),
//! ptrace(2) and the others. The only file with `unsafe`: pointers of C are read and written here, and nothing else is
//! done.
//!
//! Each function may be left by unwinding, where a schedule ends within it: so each is `extern "C-unwind"`.
#![allow(unsafe_code, reason = "pointers of C are read and written here")]
#![allow(missing_docs, reason = "the header has the texts of what is exported")]

use crate::models::{self, Bounds, Simulation};
use crate::place::{self, Answerer, Place, answerer, fail, not_simulated};
use crate::requests::{self, PEEKDATA, PEEKTEXT, PEEKUSER};
use crate::threads;
use crate::waits::{self, Reported, SignalInfo};
use pukzarn::errno::Errno;
use pukzarn::libc::{ptrace_syscall_info, siginfo_t, user_regs_struct};
use pukzarn::sys::ptrace;
use pukzarn::sys::signal::{Signal, kill};
use pukzarn::unistd::Pid;
use std::ffi::{CStr, c_char, c_int, c_long, c_uint, c_ulong, c_void};

/// What a thread of C runs.
type ThreadBody = extern "C-unwind" fn(*mut c_void);
type Test = extern "C-unwind" fn(*const Simulation<'_>, *mut c_void);
/// An array of struct iovec.
type Vectors = *const c_void;
/// What pthread_create(3) starts.
type Routine = extern "C" fn(*mut c_void) -> *mut c_void;

// What `--wrap` calls the real functions.
// SAFETY: these are their types in <sys/wait.h>, <sys/ptrace.h>, <signal.h> and <pthread.h>, a pointer to void standing
// for any pointer.
unsafe extern "C" {
    fn __real_waitpid(pid: c_int, status: *mut c_int, options: c_int) -> c_int;
    fn __real_wait(status: *mut c_int) -> c_int;
    fn __real_wait4(pid: c_int, status: *mut c_int, options: c_int, usage: *mut c_void) -> c_int;
    fn __real_waitid(idtype: c_uint, id: c_uint, info: *mut c_void, options: c_int) -> c_int;
    fn __real_ptrace(request: c_uint, ...) -> c_long;
    fn __real_kill(pid: c_int, signal: c_int) -> c_int;
    fn __real_tgkill(tgid: c_int, tid: c_int, signal: c_int) -> c_int;
    fn __real_pthread_create(thread: *mut c_void, attr: *const c_void, start: Routine, arg: *mut c_void) -> c_int;
    fn __real_wait3(status: *mut c_int, options: c_int, usage: *mut c_void) -> c_int;
    fn __real_process_vm_readv(
        pid: c_int,
        to: Vectors,
        tos: c_ulong,
        from: Vectors,
        froms: c_ulong,
        flags: c_ulong,
    ) -> isize;
    fn __real_process_vm_writev(
        pid: c_int,
        from: Vectors,
        froms: c_ulong,
        to: Vectors,
        tos: c_ulong,
        flags: c_ulong,
    ) -> isize;
    fn __real_fork() -> c_int;
    fn __real_sched_yield() -> c_int;
    fn __real_sleep(seconds: c_uint) -> c_uint;
    fn __real_usleep(microseconds: c_uint) -> c_int;
    fn __real_nanosleep(time: *const c_void, left: *mut c_void) -> c_int;
    fn __real_clock_nanosleep(clock: c_int, flags: c_int, time: *const c_void, left: *mut c_void) -> c_int;
    fn __real_syscall(number: c_long, ...) -> c_long;
    fn __real_exit(status: c_int) -> !;
    fn __real__exit(status: c_int) -> !;
    fn __real_abort() -> !;
    fn __real___assert_fail(what: *const c_char, file: *const c_char, line: c_uint, function: *const c_char) -> !;
    fn __errno_location() -> *mut c_int;
    fn atexit(call: extern "C" fn()) -> c_int;
}

fn set_errno(number: c_int) {
    // SAFETY: the C library answers where the calling thread's errno is, for as long as the thread lives.
    unsafe { *__errno_location() = number }
}

/// The answer of a call that answers -1 for an error.
fn answered<T: From<i8>>(answer: Result<T, Errno>) -> T {
    answer.unwrap_or_else(|errno| {
        set_errno(errno as c_int);
        T::from(-1)
    })
}

/// A text of C. What is not UTF-8 is replaced.
unsafe fn text(of: *const c_char) -> String {
    // SAFETY: the caller has a text that is ended by a zero byte.
    unsafe { CStr::from_ptr(of) }.to_string_lossy().into_owned()
}

// ---- Waits ----

/// Writes the status where the caller wants it, and answers the pid; 0 where there is nothing to report yet.
unsafe fn report(reported: Option<Reported>, status: *mut c_int) -> c_int {
    let Some(reported) = reported else {
        return 0;
    };
    if !status.is_null() {
        // SAFETY: a status that is not NULL is the caller's int.
        unsafe { *status = reported.status }
    }
    reported.pid
}

unsafe fn waited(pid: c_int, status: *mut c_int, options: c_int) -> c_int {
    // SAFETY: the status is the caller's.
    answered(waits::by_pid(pid, options).map(|reported| unsafe { report(reported, status) }))
}

#[unsafe(no_mangle)]
pub unsafe extern "C-unwind" fn __wrap_waitpid(pid: c_int, status: *mut c_int, options: c_int) -> c_int {
    match answerer("waitpid") {
        // SAFETY: the call is passed on as it is.
        Answerer::Kernel => unsafe { __real_waitpid(pid, status, options) },
        // SAFETY: the status is the caller's.
        Answerer::Simulation => unsafe { waited(pid, status, options) },
    }
}

#[unsafe(no_mangle)]
pub unsafe extern "C-unwind" fn __wrap_wait(status: *mut c_int) -> c_int {
    match answerer("wait") {
        // SAFETY: the call is passed on as it is.
        Answerer::Kernel => unsafe { __real_wait(status) },
        // SAFETY: the status is the caller's.
        Answerer::Simulation => unsafe { waited(-1, status, 0) },
    }
}

#[unsafe(no_mangle)]
pub unsafe extern "C-unwind" fn __wrap_wait4(
    pid: c_int,
    status: *mut c_int,
    options: c_int,
    usage: *mut c_void,
) -> c_int {
    match answerer("wait4") {
        // SAFETY: the call is passed on as it is.
        Answerer::Kernel => unsafe { __real_wait4(pid, status, options, usage) },
        Answerer::Simulation if !usage.is_null() => {
            not_simulated("wait4 with a rusage", "a simulated tracee takes no time and no memory")
        }
        // SAFETY: the status is the caller's.
        Answerer::Simulation => unsafe { waited(pid, status, options) },
    }
}

#[unsafe(no_mangle)]
pub unsafe extern "C-unwind" fn __wrap_wait3(status: *mut c_int, options: c_int, usage: *mut c_void) -> c_int {
    match answerer("wait3") {
        // SAFETY: the call is passed on as it is.
        Answerer::Kernel => unsafe { __real_wait3(status, options, usage) },
        // SAFETY: the status is the caller's.
        Answerer::Simulation => unsafe { __wrap_wait4(-1, status, options, usage) },
    }
}

#[unsafe(no_mangle)]
pub unsafe extern "C-unwind" fn __wrap_waitid(idtype: c_uint, id: c_uint, info: *mut c_void, options: c_int) -> c_int {
    match answerer("waitid") {
        // SAFETY: the call is passed on as it is.
        Answerer::Kernel => unsafe { __real_waitid(idtype, id, info, options) },
        // SAFETY: the information is the caller's siginfo_t.
        Answerer::Simulation => answered(waits::by_id(idtype, id, options).map(|found| unsafe { inform(info, found) })),
    }
}

/// Writes a siginfo_t, unless the caller wants none.
unsafe fn inform(info: *mut c_void, found: SignalInfo) -> c_int {
    if !info.is_null() {
        // SAFETY: what is not NULL is the caller's siginfo_t, of 128 bytes.
        unsafe { info.cast::<SignalInfo>().write_unaligned(found) }
    }
    0
}

// ---- Signals and threads ----

#[unsafe(no_mangle)]
pub unsafe extern "C-unwind" fn __wrap_kill(pid: c_int, signal: c_int) -> c_int {
    match answerer("kill") {
        // SAFETY: the call is passed on as it is.
        Answerer::Kernel => unsafe { __real_kill(pid, signal) },
        Answerer::Simulation => answered(kill(Pid::from_raw(pid), Signal::try_from(signal).ok()).map(|()| 0)),
    }
}

#[unsafe(no_mangle)]
pub unsafe extern "C-unwind" fn __wrap_tgkill(tgid: c_int, tid: c_int, signal: c_int) -> c_int {
    match answerer("tgkill") {
        // SAFETY: the call is passed on as it is.
        Answerer::Kernel => unsafe { __real_tgkill(tgid, tid, signal) },
        Answerer::Simulation if tgid <= 0 || tid <= 0 => answered(Err(Errno::EINVAL)),
        Answerer::Simulation => answered(kill(Pid::from_raw(tid), Signal::try_from(signal).ok()).map(|()| 0)),
    }
}

#[unsafe(no_mangle)]
pub unsafe extern "C-unwind" fn __wrap_pthread_create(
    thread: *mut c_void,
    attributes: *const c_void,
    start: Routine,
    arg: *mut c_void,
) -> c_int {
    match answerer("pthread_create") {
        // SAFETY: the call is passed on as it is.
        Answerer::Kernel => unsafe { __real_pthread_create(thread, attributes, start, arg) },
        Answerer::Simulation => {
            not_simulated("pthread_create", "the model starts the tracer's threads: call pukzarn_thread_start")
        }
    }
}

#[unsafe(no_mangle)]
pub unsafe extern "C-unwind" fn __wrap_fork() -> c_int {
    match answerer("fork") {
        // SAFETY: the call is passed on as it is.
        Answerer::Kernel => unsafe { __real_fork() },
        Answerer::Simulation => not_simulated("fork", "a test begins at the tracer's loop, with tracees of a case"),
    }
}

// ---- Time, of which none passes in a model: others go first ----

/// Whether a thread of a simulation has let others go first, in place of a sleep.
fn has_yielded() -> bool {
    let is_simulated = place::place() == Place::Simulation;
    if is_simulated {
        pukzarn::thread::yield_now();
    }
    is_simulated
}

#[unsafe(no_mangle)]
pub unsafe extern "C-unwind" fn __wrap_sched_yield() -> c_int {
    // SAFETY: the call is passed on as it is.
    if has_yielded() { 0 } else { unsafe { __real_sched_yield() } }
}

#[unsafe(no_mangle)]
pub unsafe extern "C-unwind" fn __wrap_sleep(seconds: c_uint) -> c_uint {
    // SAFETY: the call is passed on as it is.
    if has_yielded() { 0 } else { unsafe { __real_sleep(seconds) } }
}

#[unsafe(no_mangle)]
pub unsafe extern "C-unwind" fn __wrap_usleep(microseconds: c_uint) -> c_int {
    // SAFETY: the call is passed on as it is.
    if has_yielded() { 0 } else { unsafe { __real_usleep(microseconds) } }
}

#[unsafe(no_mangle)]
pub unsafe extern "C-unwind" fn __wrap_nanosleep(time: *const c_void, left: *mut c_void) -> c_int {
    // SAFETY: the call is passed on as it is.
    if has_yielded() { 0 } else { unsafe { __real_nanosleep(time, left) } }
}

#[unsafe(no_mangle)]
pub unsafe extern "C-unwind" fn __wrap_clock_nanosleep(
    clock: c_int,
    flags: c_int,
    time: *const c_void,
    left: *mut c_void,
) -> c_int {
    // SAFETY: the call is passed on as it is.
    if has_yielded() { 0 } else { unsafe { __real_clock_nanosleep(clock, flags, time, left) } }
}

// ---- What ends the program ----

// In a simulation that would end the search, and an exit with 0 would be taken for a success.

#[unsafe(no_mangle)]
pub unsafe extern "C-unwind" fn __wrap_exit(status: c_int) -> ! {
    place::expect_outside(|| format!("exit({status}) is called"));
    // SAFETY: the call is passed on as it is.
    unsafe { __real_exit(status) }
}

#[unsafe(no_mangle)]
pub unsafe extern "C-unwind" fn __wrap__exit(status: c_int) -> ! {
    place::expect_outside(|| format!("_exit({status}) is called"));
    // SAFETY: the call is passed on as it is.
    unsafe { __real__exit(status) }
}

#[unsafe(no_mangle)]
pub unsafe extern "C-unwind" fn __wrap_abort() -> ! {
    place::expect_outside(|| "abort is called".to_string());
    // SAFETY: the call is passed on as it is.
    unsafe { __real_abort() }
}

/// What assert(3) calls.
#[unsafe(no_mangle)]
pub unsafe extern "C-unwind" fn __wrap___assert_fail(
    what: *const c_char,
    file: *const c_char,
    line: c_uint,
    function: *const c_char,
) -> ! {
    // SAFETY: assert(3) hands texts that are ended by a zero byte.
    place::expect_outside(|| unsafe { format!("{}:{line}: assertion `{}` failed", text(file), text(what)) });
    // SAFETY: the call is passed on as it is.
    unsafe { __real___assert_fail(what, file, line, function) }
}

/// Called where the program exits by another way than those above, as err(3) does within the C library.
extern "C" fn at_exit() {
    if place::place() != Place::Outside {
        eprintln!("pukzarn: FAILED: the program is ended within a schedule, as by err(3)");
        // SAFETY: it ends the program, and needs nothing.
        unsafe { __real__exit(1) }
    }
}

/// From here on, an exit within a schedule is no success.
pub(crate) fn watch_exits() {
    // SAFETY: the function takes nothing and does not unwind.
    unsafe { atexit(at_exit) };
}

// ---- syscall(2) and process_vm_readv(2) ----

const SYS_KILL: c_long = 62;
const SYS_WAIT4: c_long = 61;
const SYS_PTRACE: c_long = 101;
const SYS_TKILL: c_long = 200;
const SYS_TGKILL: c_long = 234;
const SYS_WAITID: c_long = 247;

/// A call by its number: the same as by its name, where it has one here.
#[unsafe(no_mangle)]
pub unsafe extern "C-unwind" fn __wrap_syscall(
    number: c_long,
    a: c_long,
    b: c_long,
    c: c_long,
    d: c_long,
    e: c_long,
    f: c_long,
) -> c_long {
    let is_known = matches!(number, SYS_KILL | SYS_WAIT4 | SYS_PTRACE | SYS_TKILL | SYS_TGKILL | SYS_WAITID);
    if !is_known || answerer("syscall") == Answerer::Kernel {
        // SAFETY: the call is passed on as it is: no call has more arguments, and one that has fewer reads no others.
        return unsafe { __real_syscall(number, a, b, c, d, e, f) };
    }
    // SAFETY: the arguments are those of the call of this number.
    let answer = match number {
        SYS_KILL => unsafe { __wrap_kill(a as c_int, b as c_int) },
        SYS_TKILL => unsafe { __wrap_tgkill(a as c_int, a as c_int, b as c_int) },
        SYS_TGKILL => unsafe { __wrap_tgkill(a as c_int, b as c_int, c as c_int) },
        SYS_WAIT4 => unsafe { __wrap_wait4(a as c_int, b as *mut c_int, c as c_int, d as *mut c_void) },
        SYS_WAITID => unsafe { __wrap_waitid(a as c_uint, b as c_uint, c as *mut c_void, d as c_int) },
        _ => not_simulated("syscall of SYS_ptrace", "call ptrace(2)"),
    };
    c_long::from(answer)
}

#[unsafe(no_mangle)]
pub unsafe extern "C-unwind" fn __wrap_process_vm_readv(
    pid: c_int,
    to: Vectors,
    tos: c_ulong,
    from: Vectors,
    froms: c_ulong,
    flags: c_ulong,
) -> isize {
    match answerer("process_vm_readv") {
        // SAFETY: the call is passed on as it is.
        Answerer::Kernel => unsafe { __real_process_vm_readv(pid, to, tos, from, froms, flags) },
        Answerer::Simulation => not_simulated("process_vm_readv", "read words by PTRACE_PEEKDATA"),
    }
}

#[unsafe(no_mangle)]
pub unsafe extern "C-unwind" fn __wrap_process_vm_writev(
    pid: c_int,
    from: Vectors,
    froms: c_ulong,
    to: Vectors,
    tos: c_ulong,
    flags: c_ulong,
) -> isize {
    match answerer("process_vm_writev") {
        // SAFETY: the call is passed on as it is.
        Answerer::Kernel => unsafe { __real_process_vm_writev(pid, from, froms, to, tos, flags) },
        Answerer::Simulation => not_simulated("process_vm_writev", "write words by PTRACE_POKEDATA"),
    }
}

// ---- ptrace ----

#[unsafe(no_mangle)]
pub unsafe extern "C-unwind" fn __wrap_ptrace(
    request: c_uint,
    pid: c_int,
    addr: *mut c_void,
    data: *mut c_void,
) -> c_long {
    match answerer("ptrace") {
        // SAFETY: the call is passed on as it is: ptrace(2) has these four arguments, or reads fewer of them.
        Answerer::Kernel => unsafe { __real_ptrace(request, pid, addr, data) },
        // SAFETY: what the request reads and writes is the caller's.
        Answerer::Simulation => answered(unsafe { simulated_ptrace(request, Pid::from_raw(pid), addr, data) }),
    }
}

unsafe fn simulated_ptrace(request: c_uint, pid: Pid, addr: *mut c_void, data: *mut c_void) -> Result<c_long, Errno> {
    // SAFETY: of each: `data` is, by ptrace(2), a pointer to what this request reads or writes, or NULL.
    match request {
        PEEKTEXT | PEEKDATA => ptrace::read(pid, addr).inspect(|_| set_errno(0)),
        PEEKUSER => {
            requests::expect_register(addr as usize);
            ptrace::read_user(pid, addr).inspect(|_| set_errno(0))
        }
        requests::POKETEXT | requests::POKEDATA => ptrace::write(pid, addr, data as c_long).map(|()| 0),
        requests::POKEUSER => {
            requests::expect_register(addr as usize);
            ptrace::write_user(pid, addr, data as c_long).map(|()| 0)
        }
        requests::GETREGS => ptrace::getregs(pid).and_then(|regs| unsafe { store(data, regs) }),
        requests::SETREGS => unsafe { load(pid, data) }.and_then(|regs| ptrace::setregs(pid, regs)).map(|()| 0),
        requests::GETEVENTMSG => ptrace::getevent(pid).and_then(|message| unsafe { store(data, message) }),
        requests::GETSIGINFO => ptrace::getsiginfo(pid).and_then(|info: siginfo_t| unsafe { store(data, info) }),
        requests::GETREGSET => unsafe { get_register_set(pid, addr as usize, data) },
        requests::SETREGSET => unsafe { set_register_set(pid, addr as usize, data) },
        requests::GET_SYSCALL_INFO => ptrace::syscall_info(pid).map(|info| unsafe { cut(info, addr as usize, data) }),
        _ => requests::answer(request, pid, addr as usize, data as usize).map(|()| 0),
    }
}

/// Writes a value where the caller wants it.
unsafe fn store<T>(to: *mut c_void, value: T) -> Result<c_long, Errno> {
    if to.is_null() {
        return Err(Errno::EFAULT);
    }
    // SAFETY: the caller says that there is room for such a value.
    unsafe { to.cast::<T>().write_unaligned(value) };
    Ok(0)
}

/// Registers that the caller has. As on Linux, a tracee that is not stopped is refused first.
unsafe fn load(pid: Pid, from: *mut c_void) -> Result<user_regs_struct, Errno> {
    if from.is_null() {
        return ptrace::getregs(pid).and(Err(Errno::EFAULT));
    }
    // SAFETY: the caller says that its registers are there.
    Ok(unsafe { from.cast::<user_regs_struct>().read_unaligned() })
}

/// struct iovec of <sys/uio.h>.
#[repr(C)]
struct Iovec {
    base: *mut c_void,
    len: usize,
}

const NT_PRSTATUS: usize = 1;
const REGISTER: usize = size_of::<u64>();

/// The caller's vector of the registers, and how many bytes of them it is about.
unsafe fn register_set<'a>(pid: Pid, kind: usize, vector: *mut c_void) -> Result<(&'a mut Iovec, usize), Errno> {
    if kind != NT_PRSTATUS {
        not_simulated(&format!("ptrace of register set {kind:#x}"), "the registers are those of NT_PRSTATUS");
    }
    // SAFETY: what is not NULL is the caller's vector, which nobody else uses during the call.
    match unsafe { vector.cast::<Iovec>().as_mut() } {
        None => ptrace::getregs(pid).and(Err(Errno::EFAULT)),
        Some(vector) if !vector.len.is_multiple_of(REGISTER) => ptrace::getregs(pid).and(Err(Errno::EINVAL)),
        Some(vector) => {
            let len = vector.len.min(size_of::<user_regs_struct>());
            Ok((vector, len))
        }
    }
}

unsafe fn get_register_set(pid: Pid, kind: usize, vector: *mut c_void) -> Result<c_long, Errno> {
    // SAFETY: the vector is the caller's.
    let (vector, len) = unsafe { register_set(pid, kind, vector) }?;
    let regs = ptrace::getregs(pid)?;
    // SAFETY: the caller's vector says that there is room for so many bytes, and the registers have as many.
    unsafe { (&raw const regs).cast::<u8>().copy_to(vector.base.cast(), len) };
    vector.len = len;
    Ok(0)
}

/// The registers that the vector does not have stay.
unsafe fn set_register_set(pid: Pid, kind: usize, vector: *mut c_void) -> Result<c_long, Errno> {
    // SAFETY: the vector is the caller's.
    let (vector, len) = unsafe { register_set(pid, kind, vector) }?;
    let mut regs = ptrace::getregs(pid)?;
    // SAFETY: the caller's vector says that it has so many bytes; the registers are numbers, which take any.
    unsafe { (&raw mut regs).cast::<u8>().copy_from(vector.base.cast(), len) };
    vector.len = len;
    ptrace::setregs(pid, regs).map(|()| 0)
}

/// Writes as much of PTRACE_GET_SYSCALL_INFO as there is room for, and answers its full length.
unsafe fn cut(info: ptrace_syscall_info, room: usize, to: *mut c_void) -> c_long {
    let len = requests::length_of(info.op);
    // SAFETY: the caller says how much room there is, and the length is within the struct.
    unsafe { (&raw const info).cast::<u8>().copy_to(to.cast(), len.min(room)) };
    len as c_long
}

// ---- Models ----

/// A pointer that C hands a test or a thread.
#[derive(Clone, Copy)]
struct Arg(*mut c_void);

// SAFETY: the header says that what the pointer leads to is the test's, whose threads a model runs one at a time.
unsafe impl Send for Arg {}

impl Arg {
    fn pointer(self) -> *mut c_void {
        self.0
    }
}

/// A call of a function of C.
fn called(body: ThreadBody, arg: Arg) -> impl FnOnce() + Send + 'static {
    move || body(arg.pointer())
}

#[unsafe(no_mangle)]
pub unsafe extern "C-unwind" fn pukzarn_model(name: *const c_char, test: Test, arg: *mut c_void) -> c_int {
    // SAFETY: the name is the caller's.
    unsafe { pukzarn_model_within(&Bounds::FIRST, name, test, arg) }
}

#[unsafe(no_mangle)]
pub unsafe extern "C-unwind" fn pukzarn_model_within(
    bounds: *const Bounds,
    name: *const c_char,
    test: Test,
    arg: *mut c_void,
) -> c_int {
    // SAFETY: the bounds and the name are the caller's.
    let (bounds, name) = unsafe { (*bounds, text(name)) };
    let arg = Arg(arg);
    models::run(bounds, &name, move |simulation| test(simulation, arg.pointer()))
}

#[unsafe(no_mangle)]
pub unsafe extern "C-unwind" fn pukzarn_model_printed(to: *mut c_char, room: usize) -> c_long {
    let printed = models::printed();
    if room > 0 {
        let len = printed.len().min(room - 1);
        // SAFETY: the caller says how much room there is.
        unsafe {
            printed.as_ptr().copy_to(to.cast(), len);
            *to.add(len) = 0;
        }
    }
    printed.len() as c_long
}

/// The simulation that C was handed.
unsafe fn of<'a>(sim: *const Simulation<'a>) -> &'a Simulation<'a> {
    // SAFETY: a test is called with it, and uses it no longer than it runs.
    unsafe { &*sim }
}

#[unsafe(no_mangle)]
pub unsafe extern "C-unwind" fn pukzarn_sim_case(sim: *const Simulation<'_>, case: *const c_char) {
    // SAFETY: the simulation and the text are the caller's.
    let (simulation, case) = unsafe { (of(sim), text(case)) };
    if let Err(fault) = simulation.sim.case(&case) {
        fail(format!("a faulty case, {fault}"));
    }
}

#[unsafe(no_mangle)]
pub unsafe extern "C-unwind" fn pukzarn_sim_tracer(
    sim: *const Simulation<'_>,
    name: *const c_char,
    body: ThreadBody,
    arg: *mut c_void,
) {
    // SAFETY: the simulation and the name are the caller's.
    let (simulation, name) = unsafe { (of(sim), text(name)) };
    simulation.sim.tracer(&name, threads::simulated(simulation.threads.clone(), called(body, Arg(arg))));
}

#[unsafe(no_mangle)]
pub unsafe extern "C-unwind" fn pukzarn_sim_options(sim: *const Simulation<'_>, options: c_uint) {
    // SAFETY: the simulation is the caller's.
    unsafe { of(sim) }.options(options);
}

#[unsafe(no_mangle)]
pub unsafe extern "C-unwind" fn pukzarn_sim_first_stops(sim: *const Simulation<'_>, first_stop: c_uint) {
    // SAFETY: the simulation is the caller's.
    unsafe { of(sim) }.first_stops(first_stop);
}

#[unsafe(no_mangle)]
pub unsafe extern "C-unwind" fn pukzarn_sim_kills(sim: *const Simulation<'_>) {
    // SAFETY: the simulation is the caller's.
    unsafe { of(sim) }.sim.kills();
}

#[unsafe(no_mangle)]
pub unsafe extern "C-unwind" fn pukzarn_sim_eintrs(sim: *const Simulation<'_>, most: c_uint) {
    // SAFETY: the simulation is the caller's.
    unsafe { of(sim) }.sim.eintrs(most);
}

#[unsafe(no_mangle)]
pub unsafe extern "C-unwind" fn pukzarn_sim_only_tracer(sim: *const Simulation<'_>, name: *const c_char) {
    // SAFETY: the simulation and the name are the caller's.
    let (simulation, name) = unsafe { (of(sim), text(name)) };
    simulation.sim.only_tracer(&name);
}

#[unsafe(no_mangle)]
pub unsafe extern "C-unwind" fn pukzarn_sim_run(sim: *const Simulation<'_>) -> c_int {
    // SAFETY: the simulation is the caller's.
    unsafe { of(sim) }.run()
}

#[unsafe(no_mangle)]
pub unsafe extern "C-unwind" fn pukzarn_sim_phase(sim: *const Simulation<'_>, tid: i32) -> u32 {
    // SAFETY: the simulation is the caller's.
    unsafe { of(sim) }.phase(tid)
}

#[unsafe(no_mangle)]
pub unsafe extern "C-unwind" fn pukzarn_fail(message: *const c_char) -> ! {
    // SAFETY: the message is the caller's.
    fail(unsafe { text(message) })
}

#[unsafe(no_mangle)]
pub unsafe extern "C-unwind" fn pukzarn_thread_start(body: ThreadBody, arg: *mut c_void) -> c_int {
    models::in_simulation("pukzarn_thread_start");
    threads::start(called(body, Arg(arg)))
}

#[unsafe(no_mangle)]
pub unsafe extern "C-unwind" fn pukzarn_thread_join(thread: c_int) {
    models::in_simulation("pukzarn_thread_join");
    threads::join(thread);
}

#[unsafe(no_mangle)]
pub unsafe extern "C-unwind" fn pukzarn_forget(all_that_counts: *const c_void, len: usize) {
    models::in_simulation("pukzarn_forget");
    // SAFETY: the caller has so many bytes there.
    pukzarn::forget(&unsafe { std::slice::from_raw_parts(all_that_counts.cast::<u8>(), len) });
}
