//! One schedule: its threads, and the thread of the test that waits for their end.

use super::actors::Kind;
use super::builder::Builder;
use super::caller::Caller;
use super::calls::Op;
use super::decisions::Search;
use super::report::lines_of;
use super::scripts::Script;
use super::state::{CallsAre, Ending, State, Turn};
use super::threads::{Baton, Part, Seat, Start};
use crate::context;
use crate::end::End;
use crate::sim::{Declared, Follows, Kills};
use std::cell::Cell;
use std::panic::{AssertUnwindSafe, catch_unwind};
use std::rc::Rc;
use std::sync::{Arc, Mutex, MutexGuard, PoisonError};
use std::thread::Thread;
use std::time::{Duration, Instant};

/// The schedules of one search, one after another.
pub(super) struct Model {
    state: Mutex<State>,
    /// The thread of the test.
    tester: Thread,
}

/// How often the test's thread looks whether anything goes on.
const LOOK: Duration = Duration::from_millis(100);

impl Model {
    /// Before its first schedule. The calling thread is the test's.
    pub(super) fn new(builder: &Arc<Builder>) -> Arc<Model> {
        let state = Mutex::new(State::new(builder.clone()));
        Arc::new(Model { state, tester: std::thread::current() })
    }

    pub(super) fn lock(&self) -> MutexGuard<'_, State> {
        self.state.lock().unwrap_or_else(PoisonError::into_inner)
    }

    /// Begins a schedule of what is declared.
    pub(super) fn begin(&self, search: Search, declared: &mut Declared) {
        let mut state = self.lock();
        state.begin(search);
        declare(&mut state, declared);
    }

    /// Runs the schedule to its end. None where it did not finish.
    pub(super) fn run(self: &Arc<Model>) -> Option<End> {
        let mut state = self.lock();
        let turn = state.advance();
        self.hand_over(None, state, turn);
        self.watch();
        let mut state = self.lock();
        let is_finished = matches!(state.now.ending, Some(Ending::Finished));
        let end = is_finished
            .then(|| End { tracees: state.tracees.phases(), waiting: std::mem::take(&mut state.now.waiting) });
        // What was never started, as of a tracee that was not born, may own what the test looks at next.
        let left = state.actors.iter_mut().filter(|actor| matches!(actor.seat, Seat::NotStarted(_)));
        let left: Vec<Seat> = left.map(|actor| std::mem::take(&mut actor.seat)).collect();
        drop(state);
        drop(left);
        end
    }

    /// Hands the baton on: `from` does not run until it is handed on again. Where the schedule is over, all threads
    /// that wait are woken.
    pub(super) fn hand_over(self: &Arc<Model>, from: Option<usize>, mut state: MutexGuard<'_, State>, turn: Turn) {
        let Turn::Actor(actor) = turn else {
            self.end_all(from, state);
            return;
        };
        if let Some(baton) = state.actors[actor].seat.baton() {
            drop(state);
            baton.pass();
            return;
        }
        let threads = state.builder.threads;
        let reserved = state.crew.reserve(threads);
        let before = std::mem::replace(&mut state.actors[actor].seat, Seat::Started(reserved.baton().clone()));
        let Seat::NotStarted(part) = before else { unreachable!("the turn of an actor without a thread") };
        state.now.live += 1;
        let name = reserved.is_new().then(|| state.name_of(actor).into_owned());
        drop(state);
        reserved.start(name, Start { model: self.clone(), actor, part });
    }

    /// Wakes all threads that wait for the baton, but `from`, so that they end. This happens once in a schedule.
    fn end_all(&self, from: Option<usize>, state: MutexGuard<'_, State>) {
        let waits = |actor: usize| Some(actor) != from && state.actors[actor].op.is_some();
        let waiting = (0..state.actors.len()).filter(|actor| waits(*actor));
        let batons: Vec<Arc<Baton>> = waiting.filter_map(|actor| state.actors[actor].seat.baton()).collect();
        let live = state.now.live;
        drop(state);
        batons.iter().for_each(|baton| baton.pass());
        if live == 0 {
            self.tester.unpark();
        }
    }

    /// Runs the body of an actor, whose thread has the baton, and hands the baton on.
    pub(super) fn run_thread(self: &Arc<Model>, actor: usize, baton: &Arc<Baton>, body: impl FnOnce()) {
        let ended = if self.lock().is_over() {
            Ok(())
        } else {
            let (model, baton, restart) = (self.clone(), baton.clone(), Cell::new(None));
            let caller = Rc::new(Caller { model, actor, baton, restart });
            catch_unwind(AssertUnwindSafe(|| context::enter(caller, body)))
        };
        let mut state = self.lock();
        state.now.live -= 1;
        let was_over = state.is_over();
        if state.actors[actor].last_act.is_none() {
            state.end_actor(actor);
        } else {
            state.actors[actor].seat = Seat::None;
        }
        if let Some(message) = ended.err().and_then(context::message) {
            let cause = format!("thread `{}` panicked: {message}", state.name_of(actor));
            state.fail(cause);
        }
        if !was_over {
            let turn = state.advance();
            self.hand_over(Some(actor), state, turn);
        } else if state.now.live == 0 {
            drop(state);
            self.tester.unpark();
        }
    }

    /// Waits until all threads have ended.
    fn watch(self: &Arc<Model>) {
        let mut last = None;
        loop {
            std::thread::park_timeout(LOOK);
            if self.look(&mut last) {
                return;
            }
        }
    }

    /// Whether all threads have ended. `last` is how many calls were made when it looked last, and since when it is so
    /// many.
    fn look(&self, last: &mut Option<(u64, Instant)>) -> bool {
        let mut state = self.lock();
        if state.now.live == 0 {
            return true;
        }
        match *last {
            Some((moves, since)) if moves == state.now.moves => {
                if since.elapsed() > state.builder.patience {
                    *last = None;
                    self.end_stuck(&mut state);
                    self.end_all(None, state);
                }
            }
            _ => *last = Some((state.now.moves, Instant::now())),
        }
        false
    }

    /// Ends a schedule in which a thread makes no call: the others are unwound, so that what they hold is freed. Where
    /// it was over already, the process ends.
    fn end_stuck(&self, state: &mut State) {
        let words = state.stuck_words();
        if state.is_over() {
            let steps = lines_of(&state.words());
            eprint!("pukzarn: a thread does not end, and the test with it: {words}\n{steps}");
            std::process::abort();
        }
        state.fail(words);
    }
}

/// Makes the actors of all that a test has declared: the tracees, in the order of the rows, and the tracers.
fn declare(state: &mut State, declared: &mut Declared) {
    state.tracees.begin(declared);
    state.preferences.begin(state.tracees.rows.len());
    state.now.eintrs = declared.eintrs;
    if declared.kills == Kills::MayHappen || declared.only_tracer.is_some() {
        state.now.calls_are = CallsAre::Steps;
    }
    for (row, follows) in declared.tracees.drain(..).enumerate() {
        let (kind, seat) = match follows {
            Follows::Script(machine) => (Kind::Script(Box::new(Script::new(machine))), Seat::None),
            Follows::Closure(closure) => (Kind::Tracee, Seat::NotStarted(Part::Tracee(closure))),
        };
        state.add_actor(String::new(), kind, Op::TakeUp(row), seat);
    }
    let mut only = None;
    for (name, body) in declared.tracers.drain(..) {
        let is_only = declared.only_tracer.as_ref() == Some(&name);
        let actor = state.add_tracer(Some(name), Seat::NotStarted(Part::Tracer(body)));
        if is_only {
            only = Some(state.tracer_of(actor));
        }
    }
    if let Some(name) = &declared.only_tracer {
        assert!(only.is_some(), "pukzarn: no thread of the tracer has the name `{name}`, which only_tracer asks for");
    }
    state.now.only_tracer = only;
    declared.clear();
}
