//! The actors of a schedule: tracees and the tracer's threads, and the call that each is about to make.

use super::calls::{Op, Reply};
use super::hash::{hash_of, mix};
use super::scripts::Script;
use super::state::State;
use super::threads::Seat;
use crate::context::{Published, Request};
use crate::library::MOST_TRACERS;

/// What an actor is.
pub(super) enum Kind {
    /// A tracee that a closure plays on a thread.
    Tracee,
    /// A tracee that follows a script, which has no thread.
    Script(Box<Script>),
    /// A thread of the tracer, with the number that it claims stops by. There are 16 of them; further threads have
    /// none.
    Tracer(Option<u32>),
}

/// What may find nothing again and again, and is then to wait for a change.
#[derive(Clone, Copy, Debug, PartialEq, Eq, Hash)]
pub(super) enum Idle {
    /// A wait with WNOHANG.
    Poll(Request),
    /// sleep, yield_now, spin_loop.
    Pause,
    /// A wait on a condition variable that timed out.
    Timeout,
}

/// How often that was, since so many changes.
pub(super) struct Idled {
    pub(super) of: Idle,
    pub(super) changes: u64,
    pub(super) times: u32,
}

#[derive(Clone, Copy, PartialEq, Eq)]
pub(super) enum Life {
    Alive,
    Done,
}

pub(super) struct Actor {
    /// The name of a thread of the tracer.
    pub(super) name: String,
    pub(super) kind: Kind,
    /// The call that it is about to make; None while it runs.
    pub(super) op: Option<Op>,
    /// A hash of that call, or of the one that it made last, once it is asked for.
    pub(super) call_hash: Option<u64>,
    pub(super) reply: Reply,
    /// Which stop it has made last, where it is a tracee that a closure plays.
    pub(super) published: Published,
    /// The call that is left to be made where its thread has ended.
    pub(super) last_act: Option<Op>,
    pub(super) seat: Seat,
    pub(super) life: Life,
    pub(super) idled: Vec<Idled>,
    /// A hash of all that it was answered.
    pub(super) chain: u64,
}

impl Actor {
    /// A hash of a call that it is about to make, or makes.
    pub(super) fn hash_of_call(&mut self, op: &Op) -> u64 {
        *self.call_hash.get_or_insert_with(|| hash_of(op))
    }

    pub(super) fn is_done(&self) -> bool {
        self.life == Life::Done
    }

    /// Whether code of the test's author runs, and not a script.
    pub(super) fn is_thread(&self) -> bool {
        !matches!(self.kind, Kind::Script(_))
    }

    pub(super) fn is_tracer(&self) -> bool {
        matches!(self.kind, Kind::Tracer(_))
    }
}

impl State {
    /// A further actor, whose first call is announced.
    pub(super) fn add_actor(&mut self, name: String, kind: Kind, op: Op, seat: Seat) -> usize {
        let actor = self.actors.len();
        assert!(actor < usize::from(u16::MAX), "pukzarn: too many threads");
        let (reply, published, life, idled) = (Reply::Done, Published::Wanted, Life::Alive, Vec::new());
        self.now.tracers_left += usize::from(matches!(kind, Kind::Tracer(_)));
        self.actors.push(Actor {
            name,
            kind,
            op: None,
            call_hash: None,
            reply,
            published,
            last_act: None,
            seat,
            life,
            idled,
            chain: 0,
        });
        self.preferences.add_actor(actor);
        self.announce(actor, op);
        actor
    }

    /// A further thread of the tracer.
    pub(super) fn add_tracer(&mut self, name: Option<String>, seat: Seat) -> usize {
        let number = Some(self.now.tracers).filter(|number| *number < MOST_TRACERS as u32);
        let name = name.unwrap_or_else(|| format!("thread {}", self.now.tracers));
        self.now.tracers += 1;
        self.add_actor(name, Kind::Tracer(number), Op::Start, seat)
    }

    /// The number that an actor claims stops by.
    pub(super) fn tracer_of(&self, actor: usize) -> u32 {
        match self.actors[actor].kind {
            Kind::Tracer(Some(number)) => number,
            _ => unreachable!("a wait of a thread that is no tracer"),
        }
    }

    /// An actor is about to make a call.
    pub(super) fn announce(&mut self, actor: usize, op: Op) {
        self.now.is_due |= matches!(op, Op::Start | Op::TakeUp(_));
        let actor = &mut self.actors[actor];
        (actor.op, actor.call_hash) = (Some(op), None);
    }

    /// An actor has come to its end.
    pub(super) fn end_actor(&mut self, actor: usize) {
        let ended = &mut self.actors[actor];
        (ended.life, ended.op) = (Life::Done, None);
        ended.chain = mix(ended.chain, 1);
        self.now.tracers_left -= usize::from(ended.is_tracer());
        self.now.shared_changes += 1;
    }

    /// The thread of an actor ends with this call, which others make for it.
    pub(super) fn leave_to_others(&mut self, actor: usize, last_act: Op) {
        self.actors[actor].last_act = Some(last_act);
        self.announce(actor, last_act);
    }

    /// How many changes there were that something idle waits for.
    pub(super) fn changes(&self, of: Idle) -> u64 {
        match of {
            Idle::Poll(_) => self.tracees.version(),
            Idle::Pause | Idle::Timeout => self.tracees.version() + self.now.shared_changes,
        }
    }

    /// How often this was idle since the last change.
    pub(super) fn idle_times(&self, actor: usize, of: Idle) -> u32 {
        let changes = self.changes(of);
        let idled = self.actors[actor].idled.iter().find(|idled| idled.of == of && idled.changes == changes);
        idled.map_or(0, |idled| idled.times)
    }

    pub(super) fn was_idle(&mut self, actor: usize, of: Idle) {
        let changes = self.changes(of);
        let times = self.idle_times(actor, of) + 1;
        let idled = &mut self.actors[actor].idled;
        match idled.iter_mut().find(|idled| idled.of == of) {
            Some(idled) => (idled.changes, idled.times) = (changes, times),
            None => idled.push(Idled { of, changes, times }),
        }
    }
}
