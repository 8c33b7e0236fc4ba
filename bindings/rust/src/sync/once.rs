//! What happens once.
//!
//! Who comes while another one initialises waits until that is over. In a model that is the lock of the object, which
//! each call takes: one step.

use super::{changed, in_model, release};
use crate::context::{self, Identity, Noun, Permits};
use std::ops::Deref;
use std::{fmt, sync};

pub use std::sync::OnceState;

/// The calling thread's turn at an object, until it is dropped.
struct Turn<'a> {
    object: &'a Identity,
}

const ONE: Permits = Permits { all: 1, take: 1 };

impl Turn<'_> {
    fn take(object: &Identity) -> Turn<'_> {
        in_model(|model| model.acquire(object, Noun::Once, ONE));
        Turn { object }
    }
}

impl Drop for Turn<'_> {
    fn drop(&mut self) {
        release(self.object, ONE);
        changed();
    }
}

/// A closure's call that is made once, as `std::sync::Once`.
///
/// ```
/// use pukzarn::sync::Once;
///
/// static START: Once = Once::new();
/// let mut calls = 0;
/// START.call_once(|| calls += 1);
/// START.call_once(|| calls += 1);
/// assert_eq!(calls, 1);
/// ```
#[derive(Debug)]
pub struct Once {
    identity: Identity,
    inner: sync::Once,
}

impl Default for Once {
    fn default() -> Once {
        Once::new()
    }
}

impl Once {
    /// A call that is not made yet.
    ///
    /// ```
    /// assert!(!pukzarn::sync::Once::new().is_completed());
    /// ```
    pub const fn new() -> Once {
        Once { identity: Identity::new(), inner: sync::Once::new() }
    }

    /// Makes the call, or waits until it is over.
    ///
    /// ```
    /// let once = pukzarn::sync::Once::new();
    /// once.call_once(|| ());
    /// assert!(once.is_completed());
    /// ```
    pub fn call_once<F: FnOnce()>(&self, call: F) {
        let _turn = Turn::take(&self.identity);
        match context::get() {
            // A schedule may have ended in the middle of the call.
            Some(_) => self.inner.call_once_force(|_| call()),
            None => self.inner.call_once(call),
        }
    }

    /// As `call_once`, also where a call before has panicked.
    ///
    /// ```
    /// pukzarn::sync::Once::new().call_once_force(|state| assert!(!state.is_poisoned()));
    /// ```
    pub fn call_once_force<F: FnOnce(&OnceState)>(&self, call: F) {
        let _turn = Turn::take(&self.identity);
        self.inner.call_once_force(call);
    }

    /// Whether the call is over; one step.
    ///
    /// ```
    /// assert!(!pukzarn::sync::Once::new().is_completed());
    /// ```
    pub fn is_completed(&self) -> bool {
        in_model(|model| model.step(&self.identity, Noun::Once));
        self.inner.is_completed()
    }
}

/// A value that is written once, as `std::sync::OnceLock`.
///
/// ```
/// use pukzarn::sync::OnceLock;
///
/// static LEADER: OnceLock<u32> = OnceLock::new();
/// assert_eq!(LEADER.get(), None);
/// assert_eq!(LEADER.get_or_init(|| 100), &100);
/// assert_eq!(LEADER.set(101), Err(101));
/// ```
pub struct OnceLock<T> {
    identity: Identity,
    inner: sync::OnceLock<T>,
}

impl<T> OnceLock<T> {
    /// A value that is not written yet.
    ///
    /// ```
    /// assert_eq!(pukzarn::sync::OnceLock::<u32>::new().get(), None);
    /// ```
    pub const fn new() -> OnceLock<T> {
        OnceLock { identity: Identity::new(), inner: sync::OnceLock::new() }
    }

    /// The value, if it is written; one step.
    ///
    /// ```
    /// assert_eq!(pukzarn::sync::OnceLock::from(7).get(), Some(&7));
    /// ```
    pub fn get(&self) -> Option<&T> {
        in_model(|model| model.step(&self.identity, Noun::Once));
        self.inner.get()
    }

    /// The value, if it is written, which nobody else can reach; no step.
    ///
    /// ```
    /// assert_eq!(pukzarn::sync::OnceLock::from(7).get_mut(), Some(&mut 7));
    /// ```
    pub fn get_mut(&mut self) -> Option<&mut T> {
        self.inner.get_mut()
    }

    /// Writes the value. It is the error where one is written.
    ///
    /// ```
    /// let lock = pukzarn::sync::OnceLock::new();
    /// assert_eq!((lock.set(7), lock.set(8)), (Ok(()), Err(8)));
    /// ```
    pub fn set(&self, value: T) -> Result<(), T> {
        let _turn = Turn::take(&self.identity);
        self.inner.set(value)
    }

    /// The value, which is made now if it is not written, or waited for.
    ///
    /// ```
    /// assert_eq!(pukzarn::sync::OnceLock::new().get_or_init(|| 7), &7);
    /// ```
    pub fn get_or_init<F: FnOnce() -> T>(&self, make: F) -> &T {
        let _turn = Turn::take(&self.identity);
        self.inner.get_or_init(make)
    }

    /// The value, if it is written.
    ///
    /// ```
    /// assert_eq!(pukzarn::sync::OnceLock::from(7).into_inner(), Some(7));
    /// ```
    pub fn into_inner(self) -> Option<T> {
        self.inner.into_inner()
    }

    /// Takes the value out, so that it may be written again; no step.
    ///
    /// ```
    /// let mut lock = pukzarn::sync::OnceLock::from(7);
    /// assert_eq!((lock.take(), lock.take()), (Some(7), None));
    /// ```
    pub fn take(&mut self) -> Option<T> {
        self.inner.take()
    }
}

impl<T> Default for OnceLock<T> {
    fn default() -> OnceLock<T> {
        OnceLock::new()
    }
}

impl<T> From<T> for OnceLock<T> {
    fn from(value: T) -> OnceLock<T> {
        OnceLock { identity: Identity::new(), inner: sync::OnceLock::from(value) }
    }
}

impl<T: fmt::Debug> fmt::Debug for OnceLock<T> {
    fn fmt(&self, formatter: &mut fmt::Formatter<'_>) -> fmt::Result {
        self.inner.fmt(formatter)
    }
}

/// A value that is made at its first use, as `std::sync::LazyLock`.
///
/// ```
/// use pukzarn::sync::LazyLock;
///
/// static IDS: LazyLock<Vec<u32>> = LazyLock::new(|| vec![100, 101]);
/// assert_eq!(IDS.len(), 2);
/// ```
pub struct LazyLock<T, F = fn() -> T> {
    value: OnceLock<T>,
    /// None where the value is made, or could not be made.
    make: sync::Mutex<Option<F>>,
}

impl<T, F: FnOnce() -> T> LazyLock<T, F> {
    /// A value that is not made yet.
    ///
    /// ```
    /// assert_eq!(*pukzarn::sync::LazyLock::new(|| 7), 7);
    /// ```
    pub const fn new(make: F) -> LazyLock<T, F> {
        LazyLock { value: OnceLock::new(), make: sync::Mutex::new(Some(make)) }
    }

    /// The value, which is made now if it is not there, or waited for.
    ///
    /// ```
    /// use pukzarn::sync::LazyLock;
    /// assert_eq!(LazyLock::force(&LazyLock::new(|| 7)), &7);
    /// ```
    pub fn force(this: &LazyLock<T, F>) -> &T {
        this.value.get_or_init(|| {
            let make = this.make.lock().unwrap_or_else(sync::PoisonError::into_inner).take();
            make.expect("what makes the value of a LazyLock has panicked before")()
        })
    }
}

impl<T, F: FnOnce() -> T> Deref for LazyLock<T, F> {
    type Target = T;

    fn deref(&self) -> &T {
        LazyLock::force(self)
    }
}

impl<T: Default> Default for LazyLock<T> {
    fn default() -> LazyLock<T> {
        LazyLock::new(T::default)
    }
}

impl<T: fmt::Debug, F> fmt::Debug for LazyLock<T, F> {
    fn fmt(&self, formatter: &mut fmt::Formatter<'_>) -> fmt::Result {
        formatter.debug_tuple("LazyLock").field(&self.value.inner.get()).finish()
    }
}
