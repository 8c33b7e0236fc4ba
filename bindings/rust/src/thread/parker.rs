//! Which thread this is, and waits for another one's word.

use crate::context::{self, Calls};
use crate::sync::{Condvar, Mutex, PoisonError};
use std::cell::RefCell;
use std::rc::{Rc, Weak};
use std::sync::Arc;
use std::sync::atomic::{AtomicU64, Ordering};
use std::time::Duration;
use std::{fmt, thread};

/// A thread, as `std::thread::Thread`.
///
/// ```
/// use pukzarn::thread::{Thread, current};
///
/// let this: Thread = current();
/// assert_eq!(this.id(), current().id());
/// ```
#[derive(Clone)]
pub struct Thread(Which);

#[derive(Clone)]
enum Which {
    Real(thread::Thread),
    Simulated(Arc<Simulated>),
}

struct Simulated {
    name: Option<String>,
    number: u64,
    /// Whether it may pass its next park.
    token: Mutex<bool>,
    unparked: Condvar,
}

/// What tells a thread from all others.
///
/// ```
/// use pukzarn::thread::{ThreadId, current, spawn};
///
/// let this: ThreadId = current().id();
/// assert_ne!(spawn(|| current().id()).join().unwrap(), this);
/// ```
#[derive(Clone, Copy, Debug, Eq, Hash, PartialEq)]
pub struct ThreadId(IdOf);

#[derive(Clone, Copy, Debug, Eq, Hash, PartialEq)]
enum IdOf {
    Real(thread::ThreadId),
    Simulated(u64),
}

/// A thread of a simulation, with the place that it has there.
type Placed = (Weak<dyn Calls>, Arc<Simulated>);

thread_local! {
    /// What the calling thread is. A thread that is used again has another place, so what it was is then not this.
    static CURRENT: RefCell<Option<Placed>> = const { RefCell::new(None) };
}

/// The calling thread.
///
/// ```
/// let this = pukzarn::thread::current();
/// this.unpark();
/// pukzarn::thread::park();
/// ```
pub fn current() -> Thread {
    let Some(calls) = context::get() else { return Thread::real(&thread::current()) };
    let place = Rc::downgrade(&calls);
    let known = CURRENT.with_borrow(|current| match current {
        Some((its, thread)) if Weak::ptr_eq(its, &place) => Some(Arc::clone(thread)),
        _ => None,
    });
    known.map_or_else(
        || {
            let thread = Thread::simulated(None);
            thread.set_current();
            thread
        },
        |thread| Thread(Which::Simulated(thread)),
    )
}

impl Thread {
    pub(super) fn real(thread: &thread::Thread) -> Thread {
        Thread(Which::Real(thread.clone()))
    }

    pub(super) fn simulated(name: Option<String>) -> Thread {
        static NEXT: AtomicU64 = AtomicU64::new(1);
        let number = NEXT.fetch_add(1, Ordering::Relaxed);
        let (token, unparked) = (Mutex::new(false), Condvar::new());
        Thread(Which::Simulated(Arc::new(Simulated { name, number, token, unparked })))
    }

    /// Makes the calling thread of a simulation this one.
    pub(super) fn set_current(&self) {
        if let (Which::Simulated(thread), Some(calls)) = (&self.0, context::get()) {
            CURRENT.set(Some((Rc::downgrade(&calls), Arc::clone(thread))));
        }
    }

    /// What tells it from all others.
    ///
    /// ```
    /// use pukzarn::thread::current;
    /// assert_eq!(current().id(), current().id());
    /// ```
    pub fn id(&self) -> ThreadId {
        ThreadId(match &self.0 {
            Which::Real(thread) => IdOf::Real(thread.id()),
            Which::Simulated(thread) => IdOf::Simulated(thread.number),
        })
    }

    /// Its name, which `Builder::name` has given it.
    ///
    /// ```
    /// assert_eq!(pukzarn::thread::spawn(|| ()).thread().name(), None);
    /// ```
    pub fn name(&self) -> Option<&str> {
        match &self.0 {
            Which::Real(thread) => thread.name(),
            Which::Simulated(thread) => thread.name.as_deref(),
        }
    }

    /// Lets it pass its next park, or the one where it waits.
    ///
    /// ```
    /// let worker = pukzarn::thread::spawn(pukzarn::thread::park);
    /// worker.thread().unpark();
    /// worker.join().unwrap();
    /// ```
    pub fn unpark(&self) {
        match &self.0 {
            Which::Real(thread) => thread.unpark(),
            Which::Simulated(thread) => {
                *thread.token.lock().unwrap_or_else(PoisonError::into_inner) = true;
                thread.unparked.notify_one();
            }
        }
    }
}

impl fmt::Debug for Thread {
    fn fmt(&self, formatter: &mut fmt::Formatter<'_>) -> fmt::Result {
        let mut shown = formatter.debug_struct("Thread");
        shown.field("id", &self.id()).field("name", &self.name()).finish_non_exhaustive()
    }
}

/// Waits until another thread unparks this one.
///
/// ```
/// pukzarn::thread::current().unpark();
/// pukzarn::thread::park();
/// ```
pub fn park() {
    match current().0 {
        Which::Real(_) => thread::park(),
        Which::Simulated(thread) => {
            let token = thread.token.lock().unwrap_or_else(PoisonError::into_inner);
            let token = thread.unparked.wait_while(token, |token| !*token);
            *token.unwrap_or_else(PoisonError::into_inner) = false;
        }
    }
}

/// Waits until another thread unparks this one, or the time is up; in a model that may be at any moment.
///
/// ```
/// pukzarn::thread::park_timeout(std::time::Duration::from_millis(1));
/// ```
pub fn park_timeout(time: Duration) {
    match current().0 {
        Which::Real(_) => thread::park_timeout(time),
        Which::Simulated(thread) => {
            let token = thread.token.lock().unwrap_or_else(PoisonError::into_inner);
            let ended = thread.unparked.wait_timeout_while(token, time, |token| !*token);
            *ended.unwrap_or_else(PoisonError::into_inner).0 = false;
        }
    }
}
