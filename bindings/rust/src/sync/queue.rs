//! What the ends of a channel share.
//!
//! In a model, the values that may be received are the permits of one object, and the places for values those of
//! another one, without limit where the other end is gone. A sender that hands its value over has an object of its own:
//! a permit there says that its value was taken. Elsewhere a condition variable of std blocks.

use super::{changed, in_model, release};
use crate::context::{Identity, Noun, Permits, UNLIMITED};
use std::collections::VecDeque;
use std::mem;
use std::sync::mpsc::{SendError, TryRecvError, TrySendError};
use std::sync::{Arc, Condvar, Mutex, MutexGuard, PoisonError};
use std::time::{Duration, Instant};

pub(super) struct Queue<T> {
    values: Identity,
    places: Identity,
    /// How many values there are places for; None: for any number.
    bound: Option<usize>,
    state: Mutex<State<T>>,
    moved: Condvar,
}

struct State<T> {
    items: VecDeque<Item<T>>,
    /// How many values were sent.
    sent: u64,
    senders: usize,
    has_receiver: bool,
    /// Whether the receiver waits for a value, which may then be handed over without a wait.
    is_receiving: bool,
}

struct Item<T> {
    value: T,
    number: u64,
    /// The sender that waits until the value is taken.
    handed_over: Option<Arc<Identity>>,
}

impl<T> State<T> {
    fn values(&self) -> u32 {
        if self.senders == 0 { UNLIMITED } else { self.items.len() as u32 }
    }

    /// Of a channel with a bound.
    fn places(&self, bound: usize) -> u32 {
        let places = bound.saturating_sub(self.items.len());
        if self.has_receiver { u32::try_from(places).unwrap_or(UNLIMITED) } else { UNLIMITED }
    }

    fn place_of(&self, number: u64) -> Option<usize> {
        self.items.iter().position(|item| item.number == number)
    }
}

impl<T> Queue<T> {
    pub(super) fn new(bound: Option<usize>) -> Queue<T> {
        let state = State { items: VecDeque::new(), sent: 0, senders: 1, has_receiver: true, is_receiving: false };
        let (values, places) = (Identity::new(), Identity::new());
        Queue { values, places, bound, state: Mutex::new(state), moved: Condvar::new() }
    }

    fn lock(&self) -> MutexGuard<'_, State<T>> {
        self.state.lock().unwrap_or_else(PoisonError::into_inner)
    }

    /// Takes a permit, once there is one, and then the lock.
    fn acquire(&self, object: &Identity, permits: impl Fn(&State<T>) -> u32) -> MutexGuard<'_, State<T>> {
        let all = permits(&self.lock());
        let answer = in_model(|model| model.acquire(object, Noun::Channel, Permits { all, take: 1 }));
        let mut state = self.lock();
        while answer.is_none() && permits(&state) == 0 {
            state = self.moved.wait(state).unwrap_or_else(PoisonError::into_inner);
        }
        state
    }

    /// Takes a permit, if there is one, and then the lock.
    fn try_acquire(&self, object: &Identity, permits: impl Fn(&State<T>) -> u32) -> Option<MutexGuard<'_, State<T>>> {
        let all = permits(&self.lock());
        let answer = in_model(|model| model.try_acquire(object, Noun::Channel, Permits { all, take: 1 }));
        let state = self.lock();
        answer.unwrap_or_else(|| permits(&state) > 0).then_some(state)
    }

    fn step(&self) {
        // A step gives an object no permits where it is the first: there are those of the values sent before.
        let all = self.lock().values();
        release(&self.values, Permits { all, take: 0 });
        in_model(|model| model.step(&self.values, Noun::Channel));
    }

    fn push(&self, mut state: MutexGuard<'_, State<T>>, value: T, handed_over: Option<Arc<Identity>>) -> u64 {
        let all = state.values();
        state.sent += 1;
        let number = state.sent;
        state.items.push_back(Item { value, number, handed_over });
        drop(state);
        release(&self.values, Permits { all, take: 1 });
        self.tell();
        number
    }

    fn pop(&self, mut state: MutexGuard<'_, State<T>>) -> Option<T> {
        let all = self.bound.map(|bound| state.places(bound));
        let item = state.items.pop_front()?;
        drop(state);
        match (item.handed_over, all) {
            (Some(sender), _) => release(&sender, Permits { all: 0, take: 1 }),
            (None, Some(all)) => release(&self.places, Permits { all, take: 1 }),
            (None, None) => (),
        }
        self.tell();
        Some(item.value)
    }

    fn tell(&self) {
        changed();
        self.moved.notify_all();
    }

    pub(super) fn send(&self, value: T) -> Result<(), SendError<T>> {
        let state = match self.bound {
            Some(0) => return self.hand_over(value),
            Some(bound) => self.acquire(&self.places, |state| state.places(bound)),
            None => {
                self.step();
                self.lock()
            }
        };
        if !state.has_receiver {
            return Err(SendError(value));
        }
        self.push(state, value, None);
        Ok(())
    }

    /// Sends a value, and waits until it is taken.
    fn hand_over(&self, value: T) -> Result<(), SendError<T>> {
        self.step();
        let state = self.lock();
        if !state.has_receiver {
            return Err(SendError(value));
        }
        let taken = Arc::new(Identity::new());
        let number = self.push(state, value, Some(Arc::clone(&taken)));
        let is_over = |state: &State<T>| u32::from(!state.has_receiver || state.place_of(number).is_none());
        let mut state = self.acquire(&taken, is_over);
        match state.place_of(number).and_then(|place| state.items.remove(place)) {
            Some(left) => Err(SendError(left.value)),
            None => Ok(()),
        }
    }

    pub(super) fn try_send(&self, value: T) -> Result<(), TrySendError<T>> {
        let state = match self.bound {
            Some(bound) if bound > 0 => self.try_acquire(&self.places, |state| state.places(bound)),
            _ => {
                self.step();
                let state = self.lock();
                let is_awaited = state.is_receiving && state.items.is_empty();
                (is_awaited || !state.has_receiver).then_some(state)
            }
        };
        match state {
            None => Err(TrySendError::Full(value)),
            Some(state) if !state.has_receiver => Err(TrySendError::Disconnected(value)),
            Some(state) => {
                self.push(state, value, None);
                Ok(())
            }
        }
    }

    /// None: nobody is left to send.
    pub(super) fn receive(&self) -> Option<T> {
        self.lock().is_receiving = true;
        let mut state = self.acquire(&self.values, State::values);
        state.is_receiving = false;
        self.pop(state)
    }

    pub(super) fn try_receive(&self) -> Result<T, TryRecvError> {
        let state = self.try_acquire(&self.values, State::values).ok_or(TryRecvError::Empty)?;
        self.pop(state).ok_or(TryRecvError::Disconnected)
    }

    /// As `try_receive`, after a wait for a value; not in a model, where no time passes.
    pub(super) fn receive_until(&self, end: Option<Instant>) -> Result<T, TryRecvError> {
        let mut state = self.lock();
        state.is_receiving = true;
        while state.values() == 0 {
            let left = end.map_or(Duration::MAX, |end| end.saturating_duration_since(Instant::now()));
            if left.is_zero() {
                break;
            }
            state = self.moved.wait_timeout(state, left).unwrap_or_else(PoisonError::into_inner).0;
        }
        state.is_receiving = false;
        drop(state);
        self.try_receive()
    }

    pub(super) fn add_sender(&self) {
        self.lock().senders += 1;
    }

    pub(super) fn remove_sender(&self) {
        // Only that the last one goes is seen by the other end.
        if self.lock().senders == 1 && !std::thread::panicking() {
            self.step();
        }
        let mut state = self.lock();
        let all = state.values();
        state.senders -= 1;
        let is_last = state.senders == 0;
        drop(state);
        if is_last {
            release(&self.values, Permits { all, take: UNLIMITED });
            self.tell();
        }
    }

    pub(super) fn remove_receiver(&self) {
        if !std::thread::panicking() {
            self.step();
        }
        let mut state = self.lock();
        let all = self.bound.map(|bound| state.places(bound));
        state.has_receiver = false;
        // Values whose senders wait go back to them; all others are dropped, once the lock is given back.
        let items = mem::take(&mut state.items);
        let (handed_over, dropped): (Vec<_>, Vec<_>) = items.into_iter().partition(|item| item.handed_over.is_some());
        let waiting: Vec<_> = handed_over.iter().filter_map(|item| item.handed_over.clone()).collect();
        state.items.extend(handed_over);
        drop(state);
        drop(dropped);
        waiting.iter().for_each(|sender| release(sender, Permits { all: 0, take: 1 }));
        if let Some(all) = all {
            release(&self.places, Permits { all, take: UNLIMITED });
        }
        self.tell();
    }
}
