//! A thread of a round: of the tracer, or of a tracee.

use super::round::{Shared, lock};
use crate::context::{self, Body, Calls, Enrolled, ModelCalls, Published, Request};
use crate::errno::Errno;
use crate::library::{
    Machine, Next, RecordCalls, RestartNumbers, StopNumbers, TraceeHandle, TraceeRecord, TracerHandle, Waited, kind,
    phase, wait,
};
use crate::sim::{Follows, group_stop_refused, is_group_stop, machine_options, options_refused};
use crate::stop::FirstStop;
use crate::sys::ptrace;
use crate::tracee;
use std::cell::Cell;
use std::panic::{AssertUnwindSafe, catch_unwind};
use std::rc::Rc;
use std::sync::Arc;
use std::sync::atomic::{AtomicBool, Ordering::SeqCst};
use std::time::Duration;

/// SIGSEGV, of a script that stores to what is not mapped.
const FAULT: u32 = 11;
/// How often a call that waits tries again before it sleeps.
const TRIES: u32 = 64;
/// How long it sleeps then.
const SLEEP: Duration = Duration::from_micros(50);

/// Whose thread it is: of the tracer, with a number, or of a tracee.
#[derive(Clone, Copy, Debug)]
pub(super) enum Role {
    Tracer(usize),
    Tracee,
}

/// The place of a thread that is to run. It is left when the thread ends, or where it never runs.
pub(super) struct Place {
    pub(super) shared: Arc<Shared>,
    pub(super) role: Role,
    pub(super) name: String,
    /// Where its random numbers begin.
    pub(super) random: u64,
    pub(super) ended: Arc<AtomicBool>,
}

impl Place {
    /// Runs a body on a thread of its own.
    pub(super) fn start(self, body: Body) {
        let builder = std::thread::Builder::new().name(self.name.clone());
        builder.spawn(move || self.play(body)).expect("pukzarn: a thread can be started");
    }

    fn play(&self, body: impl FnOnce()) {
        let calls =
            Rc::new(StressThread { shared: self.shared.clone(), role: self.role, random: Cell::new(self.random) });
        let ended = catch_unwind(AssertUnwindSafe(|| context::enter(calls, body)));
        if let Some(message) = ended.err().and_then(context::message) {
            self.shared.fail(format!("thread `{}` panicked: {message}", self.name));
        }
    }
}

impl Drop for Place {
    fn drop(&mut self) {
        self.ended.store(true, SeqCst);
        self.shared.leave(self.role);
    }
}

impl Enrolled for Place {
    fn run(self: Box<Self>, body: Box<dyn FnOnce() + '_>) {
        self.play(body);
    }
}

/// What the thread of a tracee runs, from its birth on.
pub(super) fn tracee_body(shared: &Arc<Shared>, row: usize, follows: Follows) -> Body {
    match follows {
        Follows::Closure(body) => Box::new(move || {
            context::calls().take_up(row);
            tracee::play(row, body);
        }),
        Follows::Script(mut machine) => {
            let shared = shared.clone();
            Box::new(move || run_script(&shared, row, &mut machine))
        }
    }
}

fn run_script(shared: &Shared, row: usize, machine: &mut Machine) {
    let calls = context::calls();
    let mut last = StopNumbers::default();
    loop {
        let how = calls.take_up(row);
        assert!(!is_group_stop(last, how), "{}", group_stop_refused(shared.rows[row].tid));
        let options = calls.options(row);
        if let Err(errno) = machine.options(machine_options(options)) {
            panic!("{}", options_refused(options, errno));
        }
        let next = lock(&shared.tracees[row]).next(machine);
        match next {
            Ok(Next::Stop(stop)) => {
                last = calls.first_stop().made_of(stop);
                while calls.publish(row, last).expect("a script's stop is taken") == Published::Interrupted {
                    calls.take_up(row);
                }
            }
            Ok(Next::Death(status)) => return calls.exit(row, status),
            Err(Errno::EFAULT) => return calls.exit(row, FAULT),
            Err(errno) => panic!("pukzarn: the script of tracee {} is refused: {errno}", shared.rows[row].tid),
        }
    }
}

struct StressThread {
    shared: Arc<Shared>,
    role: Role,
    random: Cell<u64>,
}

impl StressThread {
    /// The next random number (xorshift).
    fn random(&self) -> u64 {
        let mut word = self.random.get();
        word ^= word << 13;
        word ^= word >> 7;
        word ^= word << 17;
        self.random.set(word);
        word >> 8
    }

    /// The number of the tracer that its calls are made as.
    fn tracer(&self) -> usize {
        match (self.shared.only, self.role) {
            (Some(only), Role::Tracer(_)) => only,
            (None, Role::Tracer(number)) => number,
            (_, Role::Tracee) => panic!("pukzarn: a tracee makes no call of a tracer"),
        }
    }

    /// Whether it may restart: each thread what it was answered, or one thread everything.
    fn traces(&self) -> Result<(), Errno> {
        match (self.shared.only, self.role) {
            (Some(only), Role::Tracer(number)) if only != number => Err(Errno::ESRCH),
            _ => Ok(()),
        }
    }

    fn with_tracer<T>(&self, call: impl FnOnce(&mut TracerHandle) -> T) -> T {
        let tracer = self.tracer();
        let handle = if self.shared.only.is_some() { 0 } else { tracer };
        call(&mut lock(&self.shared.tracers[handle]))
    }

    fn with_tracee<T>(&self, row: usize, call: impl FnOnce(&mut TraceeHandle) -> T) -> T {
        call(&mut lock(&self.shared.tracees[row]))
    }

    /// A call on a stop that this thread has claimed. Where one thread traces, a stop that nobody has waited for is
    /// claimed by the call, since ptrace(2) asks for a stop alone.
    fn on_stop<T>(&self, pid: i32, call: impl Fn(&mut TracerHandle) -> Result<T, Errno>) -> Result<T, Errno> {
        self.traces()?;
        self.with_tracer(|tracer| match call(tracer) {
            Err(Errno::ESRCH) if self.shared.only.is_some() => {
                let row = self.shared.row_of(pid).ok_or(Errno::ESRCH)?;
                let waited = tracer.wait_row(row, wait::WSTOPPED).ok().flatten().ok_or(Errno::ESRCH)?;
                self.note(&waited);
                call(tracer)
            }
            answer => answer,
        })
    }

    /// Keeps who has claimed a stop, for `Phase::Claimed`.
    fn note(&self, waited: &Waited) {
        self.shared.claimed_by[waited.row as usize].store(self.tracer(), SeqCst);
    }

    /// Tries until there is an answer, or the round is over. ESRCH where the thread is unwound already, and a
    /// destructor calls.
    fn until<T>(&self, mut attempt: impl FnMut() -> Option<T>) -> Result<T, Errno> {
        let mut tries = 0;
        loop {
            if let Some(answer) = attempt() {
                return Ok(answer);
            }
            match (self.shared.is_over(), std::thread::panicking()) {
                (true, true) => return Err(Errno::ESRCH),
                (true, false) => context::leave(),
                (false, _) if tries < TRIES => std::thread::yield_now(),
                (false, _) => std::thread::sleep(SLEEP),
            }
            tries += 1;
        }
    }

    /// waitid of several tracees takes the first in the order of the rows, and so never a child's stop before its
    /// parent's. So their rows are asked one by one first, from any of them on.
    fn attempt(&self, request: &Request) -> Result<Option<Waited>, Errno> {
        let rows = &self.shared.rows;
        let asked_for = |row: &usize| match request.idtype {
            wait::P_ALL => true,
            wait::P_PGID => i64::from(rows[*row].pgid) == i64::from(request.id),
            _ => false,
        };
        let first = self.random() as usize;
        for row in (0..rows.len()).map(|step| first.wrapping_add(step) % rows.len()).filter(asked_for) {
            if let Ok(Some(waited)) = self.with_tracer(|tracer| tracer.wait_row(row, request.options)) {
                return Ok(Some(waited));
            }
        }
        self.with_tracer(|tracer| tracer.waitid(request.idtype, request.id, request.options))
    }

    /// Whether a signal interrupts a wait that blocks: one in four, as long as there may be more of them.
    fn is_interrupted(&self) -> bool {
        let left = |left: u32| left.checked_sub(1);
        self.random().is_multiple_of(4) && self.shared.eintrs.fetch_update(SeqCst, SeqCst, left).is_ok()
    }
}

impl Calls for StressThread {
    fn wait(&self, request: Request) -> Result<Option<Waited>, Errno> {
        self.jitter();
        if request.blocks && self.is_interrupted() {
            return Err(Errno::EINTR);
        }
        let answer = self.until(|| match self.attempt(&request) {
            Ok(None) if request.blocks => None,
            answer => Some(answer),
        })??;
        if let Some(waited) = answer.as_ref().filter(|_| request.options & wait::WNOWAIT == 0) {
            self.note(waited);
            self.shared.has_changed();
        }
        Ok(answer)
    }

    fn with_claimed(
        &self,
        pid: i32,
        _request: ptrace::Request,
        call: &mut dyn FnMut(&mut dyn RecordCalls),
    ) -> Result<(), Errno> {
        self.jitter();
        self.on_stop(pid, |tracer| tracer.record(pid).stop())?;
        self.with_tracer(|tracer| call(&mut tracer.record(pid)));
        Ok(())
    }

    fn restart(&self, pid: i32, how: RestartNumbers) -> Result<(), Errno> {
        self.jitter();
        self.on_stop(pid, |tracer| tracer.resume(pid, how))?;
        self.shared.has_changed();
        Ok(())
    }

    fn set_options(&self, pid: i32, options: u32) -> Result<(), Errno> {
        self.on_stop(pid, |tracer| tracer.record(pid).stop())?;
        self.seize(pid, options)
    }

    fn seize(&self, pid: i32, options: u32) -> Result<(), Errno> {
        let row = self.shared.row_of(pid).ok_or(Errno::ESRCH)?;
        self.shared.options[row].store(options, SeqCst);
        Ok(())
    }

    fn interrupt(&self, pid: i32) -> Result<(), Errno> {
        self.jitter();
        let row = self.shared.row_of(pid).ok_or(Errno::ESRCH)?;
        match self.with_tracer(|tracer| tracer.look(row)).phase {
            phase::RUNNING | phase::STOPPED | phase::CLAIMED if self.first_stop() == FirstStop::Sigstop => {
                return Err(Errno::EIO);
            }
            phase::RUNNING => self.shared.interrupted[row].store(true, SeqCst),
            phase::STOPPED | phase::CLAIMED => {}
            _ => return Err(Errno::ESRCH),
        }
        Ok(())
    }

    fn kill(&self, _pid: i32) -> Result<(), Errno> {
        crate::sys::not_simulated("kill on threads", "the cells have no step from a stop to a death; a model has one")
    }

    fn options(&self, row: usize) -> u32 {
        self.shared.options[row].load(SeqCst)
    }

    fn first_stop(&self) -> FirstStop {
        self.shared.first_stop
    }

    fn publish(&self, row: usize, stop: StopNumbers) -> Result<Published, Errno> {
        self.jitter();
        let interrupted = self.shared.interrupted[row].swap(false, SeqCst);
        let stop = if interrupted { StopNumbers { kind: kind::START, value: 0 } } else { stop };
        if matches!(stop.kind, kind::FORK | kind::CLONE) {
            // A child has the options of its parent, from its birth on.
            if let Some(child) = self.shared.rows.iter().position(|numbers| numbers.tid == stop.value) {
                self.shared.options[child].store(self.options(row), SeqCst);
            }
        }
        self.with_tracee(row, |tracee| tracee.publish(stop))?;
        self.shared.has_changed();
        Ok(if interrupted { Published::Interrupted } else { Published::Wanted })
    }

    fn take_up(&self, row: usize) -> RestartNumbers {
        let how = self.until(|| match self.with_tracee(row, TraceeHandle::take_up) {
            Ok(how) => Some(how),
            Err(Errno::EAGAIN) => None,
            // Nobody creates it any more.
            Err(Errno::ECHILD) => context::leave(),
            Err(errno) => panic!("pukzarn: tracee {} cannot go on: {errno}", self.shared.rows[row].tid),
        });
        self.shared.has_changed();
        how.unwrap_or_default()
    }

    fn exit(&self, row: usize, status: u32) {
        self.jitter();
        let ended = self.until(|| match self.with_tracee(row, |tracee| tracee.exit(status)) {
            Err(Errno::EBUSY) => {
                self.shared.exiting[row].store(true, SeqCst);
                None
            }
            answer => Some(answer),
        });
        ended
            .flatten()
            .unwrap_or_else(|errno| panic!("pukzarn: tracee {} cannot end: {errno}", self.shared.rows[row].tid));
        self.shared.has_changed();
    }

    fn exit_group(&self, row: usize, _status: u32) {
        let rows = &self.shared.rows;
        if rows.iter().enumerate().any(|(other, numbers)| other != row && numbers.tgid == rows[row].tgid) {
            crate::sys::not_simulated(
                "exit_group of several threads, on threads",
                "the cells have no step from a stop to a death; a model has one",
            )
        }
    }

    fn with_record(&self, row: usize, call: &mut dyn FnMut(&mut dyn TraceeRecord)) {
        self.with_tracee(row, |tracee| call(tracee));
    }

    fn spawn(&self, name: Option<String>, body: Body) -> usize {
        let (number, place) = self.shared.enroll(name);
        place.start(body);
        number
    }

    fn enroll(&self, name: Option<String>) -> (usize, Box<dyn Enrolled + Send>) {
        let (number, place) = self.shared.enroll(name);
        (number, Box::new(place))
    }

    fn join(&self, thread: usize) {
        // Where it is unwound, nobody joins any more.
        let _ = self.until(|| self.shared.has_ended(thread).then_some(()));
    }

    fn is_finished(&self, thread: usize) -> bool {
        self.jitter();
        self.shared.has_ended(thread)
    }

    fn jitter(&self) {
        let yields = u64::from(self.shared.settings.yields);
        if yields > 0 && self.random().is_multiple_of(yields) {
            std::thread::yield_now();
        }
    }

    fn pause(&self) {
        if self.shared.is_over() && !std::thread::panicking() {
            context::leave();
        }
        std::thread::sleep(SLEEP);
    }

    fn forget(&self, _all_that_counts: u64) {}

    fn model(&self) -> Option<&dyn ModelCalls> {
        None
    }
}
