//! Which simulation a thread is in, and what it may ask for there.
//!
//! nix's functions are free functions that ask the kernel. Here they ask `Calls`, which a thread of a model and a
//! thread of stress have each in its own way. What only a model has (locks and channels as steps) is `ModelCalls`: on
//! the threads of stress the primitives of std block by themselves.

use crate::end::End;
use crate::errno::Errno;
use crate::library::{RecordCalls, RestartNumbers, StopNumbers, TraceeRecord, Waited};
use crate::sim::Sim;
use crate::stop::FirstStop;
use crate::sys::ptrace;
use std::any::Any;
use std::cell::RefCell;
use std::rc::Rc;
use std::sync::atomic::{AtomicU64, Ordering};

/// A way to run what a `Sim` declares.
pub(crate) trait World {
    fn run(&self, sim: &Sim) -> End;
}

/// What a thread runs.
pub(crate) type Body = Box<dyn FnOnce() + Send>;

/// What a wait asks for: idtype and id as of waitid(2), `options` of WEXITED, WSTOPPED and WNOWAIT (never WNOHANG).
#[derive(Clone, Copy, Debug, PartialEq, Eq, Hash)]
pub(crate) struct Request {
    pub(crate) idtype: u32,
    pub(crate) id: i32,
    pub(crate) options: u32,
    /// Without WNOHANG.
    pub(crate) blocks: bool,
}

impl Request {
    /// Whether both are answered by the same rows.
    pub(crate) fn asks_as(self, other: Request) -> bool {
        (self.idtype, self.id, self.options) == (other.idtype, other.id, other.options)
    }
}

/// Which stop a tracee has made.
#[derive(Clone, Copy, Debug, PartialEq, Eq, Hash)]
pub(crate) enum Published {
    /// The one that it wanted to.
    Wanted,
    /// PTRACE_EVENT_STOP, since it was interrupted before; the other is still to be made, after the restart.
    Interrupted,
}

/// What a thread of a simulation can ask for. A pid is the number of a tracee; a row is the place of a tracee.
pub(crate) trait Calls {
    // Of a tracer's thread.

    /// None where nothing is to be reported and the request does not block.
    fn wait(&self, request: Request) -> Result<Option<Waited>, Errno>;
    /// Calls for a request with the record of a stop that this thread has claimed, once. ESRCH where it has not.
    fn with_claimed(
        &self,
        pid: i32,
        request: ptrace::Request,
        call: &mut dyn FnMut(&mut dyn RecordCalls),
    ) -> Result<(), Errno>;
    fn restart(&self, pid: i32, how: RestartNumbers) -> Result<(), Errno>;
    /// Sets the options of a tracee whose stop this thread has claimed. ESRCH where it has not.
    fn set_options(&self, pid: i32, options: u32) -> Result<(), Errno>;
    /// Sets the options of any tracee, as PTRACE_SEIZE does.
    fn seize(&self, pid: i32, options: u32) -> Result<(), Errno>;
    fn interrupt(&self, pid: i32) -> Result<(), Errno>;
    /// SIGKILL, to the thread group.
    fn kill(&self, pid: i32) -> Result<(), Errno>;

    // Of a tracee's thread.

    fn options(&self, row: usize) -> u32;
    fn first_stop(&self) -> FirstStop;
    fn publish(&self, row: usize, stop: StopNumbers) -> Result<Published, Errno>;
    /// Waits for the restart. At a tracee's birth it is called by the simulation, before the tracee's closure.
    fn take_up(&self, row: usize) -> RestartNumbers;
    /// The row has created a child that no option traces, and nobody sees; in a model the row's later children can be
    /// created all the same.
    fn create_untraced(&self, _row: usize, _birth: StopNumbers) {}
    /// Ends the row; a leader's once its threads have ended.
    fn exit(&self, row: usize, status: u32);
    /// The same as the last act of the tracee's thread, which need not wait for it.
    fn exit_at_last(&self, row: usize, status: u32) {
        self.exit(row, status);
    }
    /// Ends the other rows of its thread group; `exit` comes after it.
    fn exit_group(&self, row: usize, status: u32);
    /// Calls with the tracee's own record, once.
    fn with_record(&self, row: usize, call: &mut dyn FnMut(&mut dyn TraceeRecord));

    // Of any thread of the tracer.

    /// Starts a further thread, and answers its number.
    fn spawn(&self, name: Option<String>, body: Body) -> usize;
    /// As `spawn`, for a thread that the caller starts itself, where the body borrows: that thread has to call
    /// `Enrolled::run`, and the caller has to `join` it before what is borrowed ends.
    fn enroll(&self, name: Option<String>) -> (usize, Box<dyn Enrolled + Send>);
    /// Waits until a thread has ended.
    fn join(&self, thread: usize);
    /// Whether a thread has ended; one step.
    fn is_finished(&self, thread: usize) -> bool;
    /// Before each access of what threads share: one thread of stress in some yields here. In a model, nothing.
    fn jitter(&self);
    /// For sleep, yield_now and spin_loop: in a model, others may go first, and a loop that pauses again and again
    /// waits until somebody has changed something.
    fn pause(&self);
    fn forget(&self, all_that_counts: u64);
    /// None on threads of stress, where std's own primitives block.
    fn model(&self) -> Option<&dyn ModelCalls>;
}

/// The place of a thread that its starter runs itself.
pub(crate) trait Enrolled {
    /// Runs the body as that thread of the simulation, once it is its turn.
    fn run(self: Box<Self>, body: Box<dyn FnOnce() + '_>);
}

/// Whom a notification wakes.
#[derive(Clone, Copy, Debug, PartialEq, Eq, Hash)]
pub(crate) enum Notify {
    One,
    All,
}

/// Why a thread that waited on a condition variable goes on.
#[derive(Clone, Copy, Debug, PartialEq, Eq, Hash)]
pub(crate) enum Wakeup {
    Notified,
    TimedOut,
}

/// A wait on a condition variable.
#[derive(Clone, Copy, Debug, PartialEq, Eq, Hash)]
pub(crate) enum Patience {
    /// It waits until it is notified.
    Unlimited,
    /// It may also time out at any moment; which of both happens is a choice.
    Limited,
}

/// What a call is about, in the words of a report.
#[derive(Clone, Copy, Debug, PartialEq, Eq, Hash)]
pub(crate) enum Noun {
    Mutex,
    Reader,
    Writer,
    Channel,
    Atomic,
    Once,
}

/// Permits that are asked for: `take` of an object that has `all` where it is first used in a schedule. A mutex has
/// one; a reader takes one of a lock's many and a writer all; a channel's permits are the values in it.
#[derive(Clone, Copy, Debug, PartialEq, Eq, Hash)]
pub(crate) struct Permits {
    pub(crate) all: u32,
    pub(crate) take: u32,
}

/// The permits of a channel that is closed, where every receive is answered: `release` so many.
pub(crate) const UNLIMITED: u32 = u32::MAX / 2;

/// What a model makes of locks, channels and atomics.
pub(crate) trait ModelCalls {
    /// Blocks until the permits are free, and takes them; one step.
    fn acquire(&self, object: &Identity, noun: Noun, permits: Permits);
    /// Takes them if they are free; one step.
    fn try_acquire(&self, object: &Identity, noun: Noun, permits: Permits) -> bool;
    /// Gives permits back, or more of them; no step of its own. `permits.take` is how many are given.
    fn release(&self, object: &Identity, permits: Permits);
    /// An access of an atomic, or a send: one step, after which the caller makes the access.
    fn step(&self, object: &Identity, noun: Noun);
    /// The access has changed what others may look at (a store of another value, a value that is sent): what pauses may
    /// look again. No step of its own.
    fn changed(&self);
    /// Gives the mutex back, waits for a notification, and takes the mutex again. Beginning to wait is no step of its
    /// own, going on is one.
    fn wait_notified(&self, condvar: &Identity, mutex: &Identity, patience: Patience) -> Wakeup;
    /// Wakes who waits, one step. Which one is woken is a choice.
    fn notify(&self, condvar: &Identity, whom: Notify);
}

/// What an object of `sync` is known by in a schedule: the number of its first use there. So names in reports, and the
/// situations that are remembered, do not depend on addresses, and a value may move.
#[derive(Debug, Default)]
pub(crate) struct Identity {
    /// The schedule, in the upper 40 bits, and the number there, in the lower 24; 0 at first.
    word: AtomicU64,
}

const NUMBER_BITS: u32 = 24;

impl Identity {
    pub(crate) const fn new() -> Identity {
        Identity { word: AtomicU64::new(0) }
    }

    /// The number in a schedule (1, 2, ..), which `next` gives at the first use there.
    pub(crate) fn number(&self, schedule: u64, next: impl FnOnce() -> u32) -> u32 {
        let word = self.word.load(Ordering::Relaxed);
        if word >> NUMBER_BITS == schedule {
            return (word & ((1 << NUMBER_BITS) - 1)) as u32;
        }
        let number = next();
        self.word.store(schedule << NUMBER_BITS | u64::from(number), Ordering::Relaxed);
        number
    }
}

thread_local! {
    static CONTEXT: RefCell<Option<Rc<dyn Calls>>> = const { RefCell::new(None) };
}

/// Runs a body as a thread of a simulation.
pub(crate) fn enter<T>(calls: Rc<dyn Calls>, body: impl FnOnce() -> T) -> T {
    struct Leave;
    impl Drop for Leave {
        fn drop(&mut self) {
            CONTEXT.set(None);
        }
    }
    CONTEXT.set(Some(calls));
    let _leave = Leave;
    body()
}

/// The simulation that this thread is in.
pub(crate) fn get() -> Option<Rc<dyn Calls>> {
    CONTEXT.try_with(|context| context.borrow().clone()).ok().flatten()
}

/// The simulation that this thread is in. Panics where it is in none.
#[track_caller]
pub(crate) fn calls() -> Rc<dyn Calls> {
    match get() {
        Some(calls) => calls,
        None => panic!(
            "pukzarn: this thread is in no simulation: start it with Sim::tracer, pukzarn::thread::spawn or \
             pukzarn::thread::scope"
        ),
    }
}

/// What unwinds a thread whose schedule is over.
struct Over;

/// Unwinds the calling thread, whose schedule is over. No panic is reported.
pub(crate) fn leave() -> ! {
    std::panic::resume_unwind(Box::new(Over))
}

/// The message of a panic, None where a thread was unwound by `leave`.
pub(crate) fn message(payload: Box<dyn Any + Send>) -> Option<String> {
    if payload.is::<Over>() {
        return None;
    }
    let text = payload.downcast_ref::<&str>().map(ToString::to_string);
    Some(text.or_else(|| payload.downcast_ref::<String>().cloned()).unwrap_or_else(|| "a panic without a text".into()))
}
