//! The calls of the actors: in how many ways each can be answered now, and what it then does. Each is one step.

use super::actors::{Idle, Kind};
use super::builder::Shares;
use super::hash::{hash_of, mix};
use super::objects::ObjectNumber;
use super::state::{CallsAre, State, Step};
use crate::context::{Notify, Noun, Patience, Published, Request, Wakeup};
use crate::errno::Errno;
use crate::library::{RestartNumbers, StopNumbers, Waited, kind, phase};
use crate::sys::ptrace;

/// A call that an actor is about to make. Rows and actors are their places.
#[derive(Clone, Copy, Debug, PartialEq, Eq, Hash)]
pub(super) enum Op {
    /// A thread begins.
    Start,
    /// A tracee is born, or restarted.
    TakeUp(usize),
    Publish(usize, StopNumbers),
    Exit(usize, u32),
    /// The others of the row's thread group are to die.
    ExitGroup(usize, u32),
    Wait(Request),
    Restart(usize, RestartNumbers),
    /// A ptrace call that needs a stop.
    Ptrace(usize, ptrace::Request),
    Seize(usize, u32),
    Interrupt(usize),
    /// SIGKILL to the row's thread group.
    Kill(usize),
    Acquire(ObjectNumber, Noun, u32),
    TryAcquire(ObjectNumber, Noun, u32),
    Access(ObjectNumber, Noun),
    /// Gives the mutex back, and begins to wait.
    BeginWait {
        condvar: ObjectNumber,
        mutex: ObjectNumber,
    },
    /// Takes the mutex again, notified or timed out.
    EndWait {
        condvar: ObjectNumber,
        mutex: ObjectNumber,
        patience: Patience,
    },
    Notify(ObjectNumber, Notify),
    Join(usize),
    IsFinished(usize),
    Pause,
}

/// What a call was answered.
#[derive(Clone, Copy, Debug, PartialEq, Eq, Hash)]
pub(super) enum Reply {
    Done,
    Published(Result<u32, Errno>, Published),
    /// With the stop that it was restarted from.
    TakenUp(RestartNumbers, Published),
    /// The row has ended, also where it was about to do something else and was killed.
    Ended,
    Waited(Result<Option<Waited>, Errno>),
    Answered(Result<(), Errno>),
    /// Of a question: yes or no.
    Is(bool),
    Woken(Wakeup),
}

/// In how many ways a call can be answered now.
#[derive(Clone, Copy, Default)]
pub(super) struct Ways {
    /// By what it asks for, or an error.
    pub(super) answers: usize,
    /// By an interruption, in one more way: EINTR, or a wait that times out.
    pub(super) interruptions: usize,
}

impl Ways {
    fn one_if(can: bool) -> Ways {
        Ways { answers: usize::from(can), interruptions: 0 }
    }
}

impl State {
    /// In how many ways an actor's call can be answered now. `most_idle` is how often something that found nothing may
    /// find nothing again before anything has changed.
    pub(super) fn ways(&mut self, actor: usize, most_idle: u32) -> Ways {
        let Some(op) = self.actors[actor].op else { return Ways::default() };
        match op {
            // It has not begun to run: that is no decision.
            Op::TakeUp(_) => Ways::default(),
            Op::Exit(row, _) => Ways::one_if(self.tracees.is_interrupted(row) || self.tracees.may_exit(row)),
            Op::Wait(request) => self.ways_of_wait(actor, request, most_idle),
            Op::Acquire(object, _, permits) => Ways::one_if(self.objects.has(object, permits)),
            Op::EndWait { condvar, mutex, patience } => self.ways_of_end(actor, condvar, mutex, patience, most_idle),
            Op::Notify(condvar, Notify::One) => {
                Ways { answers: self.objects.waiters(condvar).max(1), interruptions: 0 }
            }
            Op::Join(thread) => Ways::one_if(self.actors[thread].is_done()),
            Op::Pause => Ways::one_if(self.idle_times(actor, Idle::Pause) <= most_idle),
            _ => Ways::one_if(true),
        }
    }

    fn ways_of_wait(&mut self, actor: usize, request: Request, most_idle: u32) -> Ways {
        let rows = self.tracees.waitable(request);
        if request.blocks {
            let answers = rows.unwrap_or(1);
            return Ways { answers, interruptions: usize::from(self.now.eintrs > 0) };
        }
        match rows {
            Ok(0) => Ways::one_if(self.idle_times(actor, Idle::Poll(request)) <= most_idle),
            rows => Ways { answers: rows.unwrap_or(1), interruptions: 0 },
        }
    }

    fn ways_of_end(
        &mut self,
        actor: usize,
        condvar: ObjectNumber,
        mutex: ObjectNumber,
        patience: Patience,
        most_idle: u32,
    ) -> Ways {
        if !self.objects.has(mutex, 1) {
            return Ways::default();
        }
        if !self.objects.waits(condvar, actor) {
            return Ways::one_if(true);
        }
        let times_out = patience == Patience::Limited && self.idle_times(actor, Idle::Timeout) <= most_idle;
        Ways { answers: 0, interruptions: usize::from(times_out) }
    }

    /// Makes the call of an actor, in one step, and keeps the reply.
    pub(super) fn make(&mut self, actor: usize, which: usize) {
        let op = self.actors[actor].op.take().expect("a call is announced");
        self.now.moves += 1;
        self.now.is_due |= may_let_run(op);
        let reply = match op {
            Op::Start | Op::Access(..) | Op::Join(_) => Reply::Done,
            Op::TakeUp(row) => Reply::TakenUp(self.tracees.last_restart(row), self.actors[actor].published),
            Op::Publish(row, stop) => self.make_stop(row, stop),
            // The stop of an interrupt, which comes first.
            Op::Exit(row, _) if self.tracees.is_interrupted(row) => self.make_stop(row, StopNumbers::default()),
            Op::Exit(row, status) => self.make_exit(row, status),
            Op::ExitGroup(row, status) => {
                self.tracees.settle_death(row, status);
                self.make_kill(row, false, status)
            }
            Op::Kill(row) => self.make_kill(row, true, SIGKILL),
            Op::Wait(request) => Reply::Waited(self.make_wait(actor, request, which)),
            Op::Restart(row, how) => Reply::Answered(self.make_restart(actor, row, how)),
            Op::Ptrace(row, _) => Reply::Answered(self.holds(actor, row)),
            Op::Seize(row, _) => {
                Reply::Answered(self.tracees.find(row).and_then(|()| self.traces(actor, Errno::EPERM)))
            }
            Op::Interrupt(row) => {
                Reply::Answered(self.traces(actor, Errno::ESRCH).and_then(|()| self.tracees.interrupt(row)))
            }
            Op::IsFinished(thread) => Reply::Is(self.actors[thread].is_done()),
            Op::Pause => {
                self.was_idle(actor, Idle::Pause);
                Reply::Done
            }
            _ => self.make_of_object(actor, op, which),
        };
        self.answer(actor, op, reply);
    }

    fn make_of_object(&mut self, actor: usize, op: Op, which: usize) -> Reply {
        match op {
            Op::Acquire(object, noun, permits) => self.objects.take(object, permits, noun, actor),
            Op::TryAcquire(object, noun, permits) => {
                let free = self.objects.has(object, permits);
                if free {
                    self.objects.take(object, permits, noun, actor);
                }
                return Reply::Is(free);
            }
            Op::BeginWait { condvar, mutex } => {
                self.objects.give(mutex, 1);
                self.objects.begin_wait(condvar, actor);
            }
            Op::EndWait { condvar, mutex, .. } => return self.make_end_wait(actor, condvar, mutex),
            Op::Notify(condvar, whom) => {
                self.now.shared_changes += u64::from(self.objects.waiters(condvar) > 0);
                match whom {
                    Notify::One => self.objects.notify_one(condvar, which),
                    Notify::All => self.objects.notify_all(condvar),
                }
            }
            _ => unreachable!("a call of no object"),
        }
        Reply::Done
    }

    fn make_end_wait(&mut self, actor: usize, condvar: ObjectNumber, mutex: ObjectNumber) -> Reply {
        self.objects.take(mutex, 1, Noun::Mutex, actor);
        if !self.objects.waits(condvar, actor) {
            return Reply::Woken(Wakeup::Notified);
        }
        self.objects.end_wait(condvar, actor);
        self.was_idle(actor, Idle::Timeout);
        Reply::Woken(Wakeup::TimedOut)
    }

    fn make_stop(&mut self, row: usize, stop: StopNumbers) -> Reply {
        let (number, published) = self.tracees.publish(row, stop);
        Reply::Published(number, published)
    }

    fn make_exit(&mut self, row: usize, status: u32) -> Reply {
        let exited = self.tracees.exit(row, self.tracees.killed(row).unwrap_or(status));
        assert!(exited.is_ok(), "pukzarn: the board refuses the exit of a row that runs: {exited:?}");
        Reply::Ended
    }

    /// The rows of a group die: what they were about to do is their death.
    fn make_kill(&mut self, row: usize, with_itself: bool, status: u32) -> Reply {
        let found = self.tracees.find(row);
        for row in self.tracees.group(row, with_itself) {
            self.tracees.kill(row, status);
            if self.actors[row].op.is_some() {
                self.announce(row, Op::Exit(row, status));
            }
        }
        Reply::Answered(found)
    }

    fn make_wait(&mut self, actor: usize, request: Request, which: usize) -> Result<Option<Waited>, Errno> {
        let rows = self.tracees.waitable(request);
        if request.blocks && which == rows.unwrap_or(1) {
            self.now.eintrs -= 1;
            return Err(Errno::EINTR);
        }
        if rows? == 0 {
            self.was_idle(actor, Idle::Poll(request));
            return Ok(None);
        }
        let tracer = self.now.only_tracer.unwrap_or_else(|| self.tracer_of(actor));
        self.tracees.answer(request, which, tracer).map(Some)
    }

    /// Whether this actor may trace, where one thread alone traces all tracees: others are refused.
    fn traces(&self, actor: usize, refusal: Errno) -> Result<(), Errno> {
        let me = match self.actors[actor].kind {
            Kind::Tracer(number) => number,
            _ => None,
        };
        if self.now.only_tracer.is_none() || self.now.only_tracer == me { Ok(()) } else { Err(refusal) }
    }

    /// Whether a ptrace call of this actor has a stop of this row.
    pub(super) fn holds(&self, actor: usize, row: usize) -> Result<(), Errno> {
        let Kind::Tracer(Some(me)) = self.actors[actor].kind else { return Err(Errno::ESRCH) };
        let at = self.tracees.state(row);
        let holds = match self.now.only_tracer {
            // ptrace(2) asks for a stop alone, waited for or not, and for the thread that traces.
            Some(only) => only == me && matches!(at.phase, phase::STOPPED | phase::CLAIMED),
            None => at.phase == phase::CLAIMED && at.tracer == me,
        };
        if holds { Ok(()) } else { Err(Errno::ESRCH) }
    }

    fn make_restart(&mut self, actor: usize, row: usize, how: RestartNumbers) -> Result<(), Errno> {
        self.holds(actor, row)?;
        let tracer = self.tracer_of(actor);
        if self.tracees.state(row).phase == phase::STOPPED {
            self.tracees.claim(row, tracer);
        }
        self.tracees.resume(row, tracer, how)
    }

    /// Keeps the step and the reply, and what they add to the situation.
    fn answer(&mut self, actor: usize, op: Op, reply: Reply) {
        if self.builder.shares != Shares::Everything {
            self.link(actor, op, reply);
        }
        if !matches!(op, Op::Start | Op::TakeUp(_)) {
            let preferred = self.now.preferred.take();
            self.trace.push(Step { actor: actor as u16, op, reply, preferred });
        }
        self.actors[actor].reply = reply;
    }

    /// Adds a call to what its actor was answered.
    fn link(&mut self, actor: usize, op: Op, reply: Reply) {
        let accessed = match op {
            Op::Acquire(object, ..) | Op::TryAcquire(object, ..) | Op::Access(object, _) | Op::Notify(object, _) => {
                Some(self.objects.access(object, actor))
            }
            Op::BeginWait { condvar, .. } => Some(self.objects.access(condvar, actor)),
            Op::EndWait { condvar, mutex, .. } => {
                Some(mix(self.objects.access(mutex, actor), self.objects.access(condvar, actor)))
            }
            _ => None,
        };
        // What an access finds depends on who made those before it, not on what they were answered.
        let link = match accessed {
            Some(history) => mix(history, hash_of(&reply)),
            None => mix(mix(actor as u64, self.actors[actor].hash_of_call(&op)), hash_of(&reply)),
        };
        self.chain(actor, link);
    }

    /// A ptrace call that only this thread's own calls can change is no step.
    pub(super) fn is_immediate(&self) -> bool {
        self.now.calls_are == CallsAre::Immediate
    }
}

/// Whether a call may let a tracee run that did not.
fn may_let_run(op: Op) -> bool {
    match op {
        Op::Publish(_, stop) => matches!(stop.kind, kind::FORK | kind::CLONE),
        Op::Restart(..) | Op::Kill(_) | Op::ExitGroup(..) => true,
        _ => false,
    }
}

const SIGKILL: u32 = 9;
