//! The tracee that a test's closure plays.

mod memory;

use crate::context::{self, Published};
use crate::library::{StopNumbers, kind};
use crate::stop::{Death, Restart, Stop};
use crate::sys::signal::Signal;
use crate::{Errno, Result};

const TRACESYSGOOD: u32 = 0x1;
const TRACEFORK: u32 = 0x2;
const TRACECLONE: u32 = 0x8;
const TRACEEXIT: u32 = 0x40;
/// clone(2), as x86-64 numbers it, and the other two.
const CLONE: u64 = 56;
const FORK: u64 = 57;
const EXIT: u64 = 60;
/// CLONE_VM, CLONE_SIGHAND and CLONE_THREAD.
const THREAD: u64 = 0x1_0900;
/// What rax has at a syscall-enter-stop: -ENOSYS.
const NO_RESULT: u64 = -38i64 as u64;

/// The tracee that a test's closure plays: its next stops, calls and death, as its restarts and options ask for them.
///
/// ```
/// use pukzarn::sys::{ptrace, wait};
/// use pukzarn::{Death, Row, Stop};
///
/// pukzarn::model(|sim| {
///     sim.tracee(Row::root(100), |tracee| {
///         tracee.stop(Stop::Start)?;
///         tracee.exit(Death::Exited(3));
///         Ok(())
///     });
///     sim.tracer("main", || {
///         let status = wait::wait().unwrap();
///         ptrace::cont(status.pid().unwrap(), None).unwrap();
///         assert!(matches!(wait::wait(), Ok(wait::WaitStatus::Exited(_, 3))));
///     });
///     sim.run().assert_all_reaped();
/// });
/// ```
pub struct Tracee {
    row: usize,
    restart: Restart,
    life: Life,
    /// The stop that was refused last.
    refused: Option<Stop>,
}

#[derive(Clone, Copy, PartialEq)]
enum Life {
    Alive,
    Ended,
}

/// What plays a tracee.
pub(crate) type Play = Box<dyn FnOnce(&mut Tracee) -> Result<()> + Send>;

/// Plays a tracee on its thread, once it is born.
pub(crate) fn play(row: usize, body: Play) {
    let mut tracee = Tracee { row, restart: Restart::Cont(None), life: Life::Alive, refused: None };
    if let Err(errno) = body(&mut tracee) {
        let hint = tracee.refused.filter(|_| errno == Errno::EINVAL).map_or(String::new(), birth_refused);
        panic!("the tracee's closure ends with an error: {errno}{hint}");
    }
    if tracee.life == Life::Alive {
        let death = Death::Exited(0);
        tracee.announce(death);
        context::calls().exit_at_last(row, death.status());
    }
}

/// Why a stop was refused: all but those that create a child are taken.
fn birth_refused(stop: Stop) -> String {
    let (call, child) = match stop {
        Stop::Fork(child) => ("fork", child),
        Stop::Clone(child) => ("clone", child),
        _ => return String::new(),
    };
    format!(
        ". Its {call} of {child} is refused: the child that it creates next is another, or is not declared. Children \
         are declared in the order of their creation"
    )
}

impl Tracee {
    /// Stops, and waits for the restart. It stops as PTRACE_EVENT_STOP first where it was interrupted.
    ///
    /// # Errors
    /// EINVAL: a fork or clone that does not name the tracee's next child, in the order of the rows.
    ///
    /// ```
    /// use pukzarn::sys::{ptrace, signal::Signal, wait};
    /// use pukzarn::{Restart, Row, Stop};
    ///
    /// pukzarn::model(|sim| {
    ///     sim.tracee(Row::root(100), |tracee| {
    ///         let how = tracee.stop(Stop::Signal(Signal::SIGUSR1))?;
    ///         assert_eq!(how, Restart::Syscall(None));
    ///         Ok(())
    ///     });
    ///     sim.tracer("main", || {
    ///         let status = wait::wait().unwrap();
    ///         ptrace::syscall(status.pid().unwrap(), None).unwrap();
    ///         wait::wait().unwrap();
    ///     });
    ///     sim.run().assert_all_reaped();
    /// });
    /// ```
    pub fn stop(&mut self, stop: Stop) -> Result<Restart> {
        let calls = context::calls();
        let mut numbers = calls.first_stop().made_of(stop.numbers());
        let of_call = matches!(stop, Stop::Enter | Stop::Exit);
        if of_call && calls.options(self.row) & TRACESYSGOOD == 0 {
            numbers = StopNumbers { kind: kind::SIGNAL, value: Signal::SIGTRAP as u32 };
        }
        self.refused = Some(stop);
        while calls.publish(self.row, numbers)? == Published::Interrupted {
            calls.take_up(self.row);
        }
        self.refused = None;
        self.restart = Restart::from_numbers(calls.take_up(self.row));
        Ok(self.restart)
    }

    /// How the last restart lets it run on.
    ///
    /// ```
    /// use pukzarn::{Restart, Row};
    ///
    /// pukzarn::model(|sim| {
    ///     sim.tracee(Row::root(100), |tracee| {
    ///         assert_eq!(tracee.restart(), Restart::Cont(None));
    ///         Ok(())
    ///     });
    ///     sim.run();
    /// });
    /// ```
    pub fn restart(&self) -> Restart {
        self.restart
    }

    /// A system call: it stops at its entry and its exit as the restarts ask for.
    ///
    /// ```
    /// use pukzarn::sys::{ptrace, wait};
    /// use pukzarn::{Row, Stop};
    ///
    /// pukzarn::model(|sim| {
    ///     sim.tracee(Row::root(100), |tracee| {
    ///         tracee.stop(Stop::Start)?;
    ///         tracee.call(39, [0; 6], 100)
    ///     });
    ///     sim.tracer("main", || {
    ///         for _ in 0..3 {
    ///             let pid = wait::wait().unwrap().pid().unwrap();
    ///             ptrace::syscall(pid, None).unwrap();
    ///         }
    ///         wait::wait().unwrap();
    ///     });
    ///     sim.run().assert_all_reaped();
    /// });
    /// ```
    pub fn call(&mut self, number: u64, arguments: [u64; 6], result: i64) -> Result<()> {
        self.enter(number, arguments)?;
        self.leave(result)
    }

    /// A call of fork(2) that creates the process `tid`, which is its result: entry and exit stop as the restarts ask
    /// for, and PTRACE_EVENT_FORK comes where PTRACE_O_TRACEFORK is set.
    ///
    /// Where it is not, the child is not traced: no wait is ever answered it, and its closure does not run.
    ///
    /// # Errors
    /// EINVAL: it does not name the tracee's next child, in the order of the rows.
    ///
    /// ```
    /// use pukzarn::sys::{ptrace, wait};
    /// use pukzarn::{Row, Stop};
    ///
    /// pukzarn::model(|sim| {
    ///     sim.tracee(Row::root(100), |tracee| {
    ///         tracee.stop(Stop::Start)?;
    ///         tracee.fork(101)
    ///     });
    ///     sim.tracee(Row::child(101, 100), |tracee| tracee.stop(Stop::Start).map(drop));
    ///     sim.tracer("main", || {
    ///         while let Ok(status) = wait::wait() {
    ///             let _ = ptrace::syscall(status.pid().unwrap(), None);
    ///         }
    ///     });
    ///     sim.run().assert_all_reaped();
    /// });
    /// ```
    pub fn fork(&mut self, tid: u32) -> Result<()> {
        self.create(FORK, [0; 6], TRACEFORK, Stop::Fork(tid), tid)
    }

    /// A call of clone(2) that creates the thread `tid` of its own thread group, which is its result: entry and exit
    /// stop as the restarts ask for, and PTRACE_EVENT_CLONE comes where PTRACE_O_TRACECLONE is set.
    ///
    /// Where it is not, the thread is not traced: no wait is ever answered it, and its closure does not run.
    ///
    /// # Errors
    /// EINVAL: it does not name the tracee's next child, in the order of the rows.
    ///
    /// ```
    /// use pukzarn::sys::{ptrace, wait};
    /// use pukzarn::{Row, Stop};
    ///
    /// pukzarn::model(|sim| {
    ///     sim.tracee(Row::root(100), |tracee| {
    ///         tracee.stop(Stop::Start)?;
    ///         tracee.clone_thread(101)
    ///     });
    ///     sim.tracee(Row::thread(101, 100, 100), |tracee| tracee.stop(Stop::Start).map(drop));
    ///     sim.tracer("main", || {
    ///         while let Ok(status) = wait::wait() {
    ///             let _ = ptrace::cont(status.pid().unwrap(), None);
    ///         }
    ///     });
    ///     sim.run().assert_all_reaped();
    /// });
    /// ```
    pub fn clone_thread(&mut self, tid: u32) -> Result<()> {
        self.create(CLONE, [THREAD, 0, 0, 0, 0, 0], TRACECLONE, Stop::Clone(tid), tid)
    }

    /// A call of exit(2), which stops at its entry as the restart asks for, and then ends the tracee.
    ///
    /// ```
    /// use pukzarn::Row;
    /// use pukzarn::sys::wait::{WaitStatus, wait};
    ///
    /// pukzarn::model(|sim| {
    ///     sim.tracee(Row::root(100), |tracee| tracee.exit_call(7));
    ///     sim.tracer("main", || assert!(matches!(wait(), Ok(WaitStatus::Exited(_, 7)))));
    ///     sim.run().assert_all_reaped();
    /// });
    /// ```
    pub fn exit_call(&mut self, code: u8) -> Result<()> {
        self.enter(EXIT, [u64::from(code), 0, 0, 0, 0, 0])?;
        self.exit(Death::Exited(code));
        Ok(())
    }

    /// Ends it, after PTRACE_EVENT_EXIT where PTRACE_O_TRACEEXIT is set. A leader ends once its threads have.
    ///
    /// ```
    /// use pukzarn::sys::signal::Signal;
    /// use pukzarn::sys::wait::{WaitStatus, wait};
    /// use pukzarn::{Death, Row};
    ///
    /// pukzarn::model(|sim| {
    ///     sim.tracee(Row::root(100), |tracee| {
    ///         tracee.exit(Death::Signaled(Signal::SIGTERM, false));
    ///         Ok(())
    ///     });
    ///     sim.tracer("main", || assert!(matches!(wait(), Ok(WaitStatus::Signaled(..)))));
    ///     sim.run().assert_all_reaped();
    /// });
    /// ```
    pub fn exit(&mut self, death: Death) {
        self.announce(death);
        self.life = Life::Ended;
        context::calls().exit(self.row, death.status());
    }

    /// Ends its whole thread group (exit_group(2)): the others die where they are, stopped or not, so that their
    /// tracers' restarts are ESRCH. In a model alone, and where `Sim::kills` is set.
    ///
    /// ```
    /// use pukzarn::sys::wait::wait;
    /// use pukzarn::{Row, Stop};
    ///
    /// pukzarn::model(|sim| {
    ///     sim.kills();
    ///     sim.tracee(Row::root(100), |tracee| {
    ///         tracee.stop(Stop::Clone(101))?;
    ///         tracee.exit_group(2);
    ///         Ok(())
    ///     });
    ///     sim.tracee(Row::thread(101, 100, 100), |tracee| tracee.stop(Stop::Start).map(drop));
    ///     sim.tracer("main", || {
    ///         while let Ok(status) = wait() {
    ///             let _ = pukzarn::sys::ptrace::cont(status.pid().unwrap(), None);
    ///         }
    ///     });
    ///     sim.run().assert_all_reaped();
    /// });
    /// ```
    pub fn exit_group(&mut self, code: u8) {
        self.life = Life::Ended;
        let status = Death::Exited(code).status();
        context::calls().exit_group(self.row, status);
        // The code is settled, and the others die, before its own exit event.
        self.announce(Death::Exited(code));
        context::calls().exit(self.row, status);
    }

    /// Enters a system call.
    fn enter(&mut self, number: u64, arguments: [u64; 6]) -> Result<()> {
        self.change_registers(|at| {
            (at.orig_rax, at.rax) = (number, NO_RESULT);
            [at.rdi, at.rsi, at.rdx, at.r10, at.r8, at.r9] = arguments;
        });
        if self.restart.stops_at_calls() {
            self.stop(Stop::Enter)?;
        }
        Ok(())
    }

    /// Leaves a system call with its result.
    fn leave(&mut self, result: i64) -> Result<()> {
        self.change_registers(|registers| registers.rax = result as u64);
        if self.restart.stops_at_calls() {
            self.stop(Stop::Exit)?;
        }
        Ok(())
    }

    /// A call that creates a child, which is born by the event, where an option asks for that.
    fn create(&mut self, number: u64, arguments: [u64; 6], option: u32, event: Stop, child: u32) -> Result<()> {
        self.enter(number, arguments)?;
        let calls = context::calls();
        if calls.options(self.row) & option != 0 {
            self.stop(event)?;
        } else {
            calls.create_untraced(self.row, event.numbers());
        }
        self.leave(i64::from(child))
    }

    /// Stops at PTRACE_EVENT_EXIT where that is asked for.
    fn announce(&mut self, death: Death) {
        if context::calls().options(self.row) & TRACEEXIT != 0 {
            self.stop(Stop::Ending(death)).expect("an exit event is never refused");
        }
    }
}
