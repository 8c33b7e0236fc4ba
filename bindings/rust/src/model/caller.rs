//! What a thread of a model asks for: each call is announced, and made when it is its turn.

use super::actors::Kind;
use super::calls::{Op, Reply};
use super::objects::ObjectNumber;
use super::run::Model;
use super::state::{State, Turn};
use super::threads::{Baton, Part, Seat};
use super::watched::Watched;
use crate::context::{
    self, Body, Calls, Enrolled, Identity, ModelCalls, Notify, Noun, Patience, Permits, Published, Request, Wakeup,
};
use crate::errno::Errno;
use crate::library::{RecordCalls, RestartNumbers, StopNumbers, TraceeRecord, Waited};
use crate::stop::FirstStop;
use crate::sys::{not_simulated, ptrace};
use std::cell::Cell;
use std::sync::{Arc, MutexGuard};

/// A thread of a model, as its own calls see it.
pub(super) struct Caller {
    pub(super) model: Arc<Model>,
    pub(super) actor: usize,
    pub(super) baton: Arc<Baton>,
    /// A tracee's restart, which a stop waits for already.
    pub(super) restart: Cell<Option<RestartNumbers>>,
}

impl Caller {
    /// Makes the stop that comes before a tracee goes on by itself, and waits for the restart.
    fn stop_by(&self, op: Op) -> Option<Reply> {
        let reply = self.call(op);
        let is_killed = reply == Some(Reply::Ended) && !matches!(op, Op::Exit(..));
        if is_killed && !std::thread::panicking() {
            context::leave();
        }
        reply
    }

    /// Announces a call, lets others go first where the search says so, and answers what the call was answered. None
    /// where the schedule is over and the thread unwinds already.
    fn call(&self, op: Op) -> Option<Reply> {
        self.call_in(self.model.lock(), op)
    }

    fn call_in<'a>(&'a self, mut state: MutexGuard<'a, State>, op: Op) -> Option<Reply> {
        if !state.is_over() {
            state.announce(self.actor, op);
            let turn = state.advance();
            if turn != Turn::Actor(self.actor) {
                self.model.hand_over(Some(self.actor), state, turn);
                if turn != Turn::Over {
                    self.baton.wait();
                }
                state = self.model.lock();
            }
        }
        if state.is_over() {
            drop(state);
            // A second unwinding would end the process.
            return if std::thread::panicking() { None } else { context::leave() };
        }
        Some(state.actors[self.actor].reply)
    }

    fn answered(&self, reply: Option<Reply>) -> Result<(), Errno> {
        match reply {
            Some(Reply::Answered(answer)) => answer,
            Some(Reply::Done) => Ok(()),
            _ => Err(Errno::ESRCH),
        }
    }

    /// A call about a tracee, which answers its row. ESRCH where there is none of this pid.
    fn call_about(&self, pid: i32, op: impl FnOnce(usize) -> Op) -> Result<usize, Errno> {
        let state = self.model.lock();
        let row = state.tracees.row_of(pid).ok_or(Errno::ESRCH)?;
        let reply = self.call_in(state, op(row));
        self.answered(reply).map(|()| row)
    }

    /// The row of a stop that this thread has claimed. This is a step where somebody else may take the stop away.
    fn claimed(&self, pid: i32, request: ptrace::Request) -> Result<usize, Errno> {
        let state = self.model.lock();
        let row = state.tracees.row_of(pid).ok_or(Errno::ESRCH)?;
        if state.is_immediate() {
            return state.holds(self.actor, row).map(|()| row);
        }
        let reply = self.call_in(state, Op::Ptrace(row, request));
        self.answered(reply).map(|()| row)
    }

    fn change_options(&self, row: usize, options: u32) {
        let mut state = self.model.lock();
        let refused = match state.actors[row].kind {
            Kind::Script(_) => state.script(row).set_options(options).err(),
            _ => None,
        };
        state.tracees.set_options(row, options);
        drop(state);
        if let Some(refused) = refused {
            panic!("{refused}");
        }
    }

    /// The number of an object, which has these permits where it is first used.
    fn object(&self, state: &mut State, identity: &Identity, permits: u32) -> ObjectNumber {
        identity.number(state.now.schedule, || state.objects.add(permits))
    }
}

impl Calls for Caller {
    fn wait(&self, request: Request) -> Result<Option<Waited>, Errno> {
        let state = self.model.lock();
        match state.actors[self.actor].kind {
            Kind::Tracer(Some(_)) => {}
            Kind::Tracer(None) => {
                drop(state);
                not_simulated("a wait of a 17th thread", "at most 16 threads of a tracer wait");
            }
            _ => {
                drop(state);
                not_simulated("a wait of a tracee's closure", "tracees trace nobody");
            }
        }
        match self.call_in(state, Op::Wait(request)) {
            Some(Reply::Waited(answer)) => answer,
            _ => Err(Errno::ECHILD),
        }
    }

    fn with_claimed(
        &self,
        pid: i32,
        request: ptrace::Request,
        call: &mut dyn FnMut(&mut dyn RecordCalls),
    ) -> Result<(), Errno> {
        let row = self.claimed(pid, request)?;
        let mut state = self.model.lock();
        let mut watched = Watched::new(state.tracees.record(row));
        call(&mut watched);
        let written = watched.written();
        state.tracees.was_written(row, written);
        Ok(())
    }

    fn restart(&self, pid: i32, how: RestartNumbers) -> Result<(), Errno> {
        self.call_about(pid, |row| Op::Restart(row, how)).map(drop)
    }

    fn set_options(&self, pid: i32, options: u32) -> Result<(), Errno> {
        let row = self.claimed(pid, ptrace::Request::PTRACE_SETOPTIONS)?;
        self.change_options(row, options);
        Ok(())
    }

    fn seize(&self, pid: i32, options: u32) -> Result<(), Errno> {
        let row = self.call_about(pid, |row| Op::Seize(row, options))?;
        self.change_options(row, options);
        Ok(())
    }

    fn interrupt(&self, pid: i32) -> Result<(), Errno> {
        self.call_about(pid, Op::Interrupt).map(drop)
    }

    fn kill(&self, pid: i32) -> Result<(), Errno> {
        if self.model.lock().is_immediate() {
            not_simulated("SIGKILL without Sim::kills", "each ptrace call has to be a step of its own then");
        }
        self.call_about(pid, Op::Kill).map(drop)
    }

    fn options(&self, row: usize) -> u32 {
        self.model.lock().tracees.options(row)
    }

    fn first_stop(&self) -> FirstStop {
        self.model.lock().tracees.first_stop()
    }

    fn publish(&self, row: usize, stop: StopNumbers) -> Result<Published, Errno> {
        match self.stop_by(Op::Publish(row, stop)) {
            Some(Reply::TakenUp(how, published)) => {
                self.restart.set(Some(how));
                Ok(published)
            }
            Some(Reply::Published(Err(errno), _)) => Err(errno),
            _ => Err(Errno::ESRCH),
        }
    }

    fn take_up(&self, row: usize) -> RestartNumbers {
        if let Some(how) = self.restart.take() {
            return how;
        }
        match self.stop_by(Op::TakeUp(row)) {
            Some(Reply::TakenUp(how, _)) => how,
            _ => RestartNumbers::default(),
        }
    }

    fn create_untraced(&self, row: usize, birth: StopNumbers) {
        self.model.lock().tracees.create_untraced(row, birth);
    }

    fn exit(&self, row: usize, status: u32) {
        // Where it is interrupted, it stops before that.
        while let Some(Reply::TakenUp(..)) = self.stop_by(Op::Exit(row, status)) {}
    }

    fn exit_at_last(&self, row: usize, status: u32) {
        let mut state = self.model.lock();
        if !state.is_over() {
            state.leave_to_others(self.actor, Op::Exit(row, status));
        }
    }

    fn exit_group(&self, row: usize, status: u32) {
        if self.model.lock().is_immediate() {
            not_simulated("exit_group without Sim::kills", "each ptrace call has to be a step of its own then");
        }
        self.call(Op::ExitGroup(row, status));
    }

    fn with_record(&self, row: usize, call: &mut dyn FnMut(&mut dyn TraceeRecord)) {
        call(self.model.lock().tracees.record(row));
    }

    fn spawn(&self, name: Option<String>, body: Body) -> usize {
        self.model.lock().add_tracer(name, Seat::NotStarted(Part::Tracer(body)))
    }

    fn enroll(&self, name: Option<String>) -> (usize, Box<dyn Enrolled + Send>) {
        let baton = Arc::new(Baton::default());
        let mut state = self.model.lock();
        state.now.live += 1;
        let actor = state.add_tracer(name, Seat::Started(baton.clone()));
        (actor, Box::new(OwnThread { model: self.model.clone(), actor, baton }))
    }

    fn join(&self, thread: usize) {
        self.call(Op::Join(thread));
    }

    fn is_finished(&self, thread: usize) -> bool {
        matches!(self.call(Op::IsFinished(thread)), Some(Reply::Is(true)))
    }

    fn jitter(&self) {}

    fn pause(&self) {
        self.call(Op::Pause);
    }

    fn forget(&self, all_that_counts: u64) {
        self.model.lock().forget(self.actor, all_that_counts);
    }

    fn model(&self) -> Option<&dyn ModelCalls> {
        Some(self)
    }
}

impl ModelCalls for Caller {
    fn acquire(&self, object: &Identity, noun: Noun, permits: Permits) {
        let mut state = self.model.lock();
        let object = self.object(&mut state, object, permits.all);
        self.call_in(state, Op::Acquire(object, noun, permits.take));
    }

    fn try_acquire(&self, object: &Identity, noun: Noun, permits: Permits) -> bool {
        let mut state = self.model.lock();
        let object = self.object(&mut state, object, permits.all);
        matches!(self.call_in(state, Op::TryAcquire(object, noun, permits.take)), Some(Reply::Is(true)))
    }

    fn release(&self, object: &Identity, permits: Permits) {
        let mut state = self.model.lock();
        let object = self.object(&mut state, object, permits.all);
        state.objects.give(object, permits.take);
    }

    fn step(&self, object: &Identity, noun: Noun) {
        let mut state = self.model.lock();
        let object = self.object(&mut state, object, 0);
        self.call_in(state, Op::Access(object, noun));
    }

    fn changed(&self) {
        self.model.lock().now.shared_changes += 1;
    }

    fn wait_notified(&self, condvar: &Identity, mutex: &Identity, patience: Patience) -> Wakeup {
        let mut state = self.model.lock();
        let condvar = self.object(&mut state, condvar, 0);
        let mutex = self.object(&mut state, mutex, 0);
        self.call_in(state, Op::BeginWait { condvar, mutex });
        match self.call(Op::EndWait { condvar, mutex, patience }) {
            Some(Reply::Woken(wakeup)) => wakeup,
            _ => Wakeup::TimedOut,
        }
    }

    fn notify(&self, condvar: &Identity, whom: Notify) {
        let mut state = self.model.lock();
        let condvar = self.object(&mut state, condvar, 0);
        self.call_in(state, Op::Notify(condvar, whom));
    }
}

/// The place of a thread that its starter runs itself.
struct OwnThread {
    model: Arc<Model>,
    actor: usize,
    baton: Arc<Baton>,
}

impl Enrolled for OwnThread {
    fn run(self: Box<OwnThread>, body: Box<dyn FnOnce() + '_>) {
        self.baton.wait();
        self.model.run_thread(self.actor, &self.baton, body);
    }
}
