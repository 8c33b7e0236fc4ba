//! A lock of one holder.

use super::{LockResult, TryLockResult, in_model, is_unwound, read_as_the_value, release, try_take, unpoisoned};
use crate::context::{Identity, Noun, Permits};
use std::ops::{Deref, DerefMut};
use std::{fmt, mem, sync};

/// A lock of one holder, as `std::sync::Mutex`. To take it is one step of a model.
///
/// ```
/// use pukzarn::sync::{Arc, Mutex};
///
/// pukzarn::model(|sim| {
///     let served = Arc::new(Mutex::new(0));
///     for name in ["first", "second"] {
///         let served = Arc::clone(&served);
///         sim.tracer(name, move || *served.lock().unwrap() += 1);
///     }
///     sim.run();
///     assert_eq!(*served.lock().unwrap(), 2);
/// });
/// ```
#[derive(Default)]
pub struct Mutex<T: ?Sized> {
    pub(super) identity: Identity,
    inner: sync::Mutex<T>,
}

/// A lock that is held, until it is dropped.
///
/// ```
/// use pukzarn::sync::{Mutex, MutexGuard};
///
/// let lock = Mutex::new(1);
/// let mut guard: MutexGuard<'_, i32> = lock.lock().unwrap();
/// *guard += 1;
/// assert_eq!(*guard, 2);
/// ```
#[must_use = "a lock is given back where its guard is dropped"]
pub struct MutexGuard<'a, T: ?Sized> {
    lock: &'a Mutex<T>,
    /// None where it is dropped, and where a condition variable has it.
    inner: Option<sync::MutexGuard<'a, T>>,
}

const ONE: Permits = Permits { all: 1, take: 1 };

impl<T> Mutex<T> {
    /// A lock that is free.
    ///
    /// ```
    /// static SERVED: pukzarn::sync::Mutex<u32> = pukzarn::sync::Mutex::new(0);
    /// assert_eq!(*SERVED.lock().unwrap(), 0);
    /// ```
    pub const fn new(value: T) -> Mutex<T> {
        Mutex { identity: Identity::new(), inner: sync::Mutex::new(value) }
    }

    /// The value.
    ///
    /// ```
    /// assert_eq!(pukzarn::sync::Mutex::new(1).into_inner().unwrap(), 1);
    /// ```
    pub fn into_inner(self) -> LockResult<T> {
        self.inner.into_inner()
    }
}

impl<T: ?Sized> Mutex<T> {
    /// Takes the lock, once it is free.
    ///
    /// ```
    /// let lock = pukzarn::sync::Mutex::new(1);
    /// *lock.lock().unwrap() = 2;
    /// assert_eq!(*lock.lock().unwrap(), 2);
    /// ```
    pub fn lock(&self) -> LockResult<MutexGuard<'_, T>> {
        in_model(|model| model.acquire(&self.identity, Noun::Mutex, ONE));
        self.lock_again()
    }

    /// Takes the lock of std, which the model has given to the calling thread where it is in one.
    pub(super) fn lock_again(&self) -> LockResult<MutexGuard<'_, T>> {
        unpoisoned(self.inner.lock(), |inner| self.guard(inner))
    }

    /// Takes the lock if it is free.
    ///
    /// ```
    /// let lock = pukzarn::sync::Mutex::new(1);
    /// let guard = lock.try_lock().unwrap();
    /// assert!(lock.try_lock().is_err());
    /// drop(guard);
    /// assert!(lock.try_lock().is_ok());
    /// ```
    pub fn try_lock(&self) -> TryLockResult<MutexGuard<'_, T>> {
        try_take((&self.identity, Noun::Mutex, ONE), || self.inner.try_lock(), |inner| self.guard(inner))
    }

    pub(super) fn guard<'a>(&'a self, inner: sync::MutexGuard<'a, T>) -> MutexGuard<'a, T> {
        MutexGuard { lock: self, inner: Some(inner) }
    }

    /// Whether a thread has panicked while it held the lock; never in a simulation.
    ///
    /// ```
    /// assert!(!pukzarn::sync::Mutex::new(1).is_poisoned());
    /// ```
    pub fn is_poisoned(&self) -> bool {
        self.inner.is_poisoned()
    }

    /// Forgets that a thread has panicked while it held the lock.
    ///
    /// ```
    /// pukzarn::sync::Mutex::new(1).clear_poison();
    /// ```
    pub fn clear_poison(&self) {
        self.inner.clear_poison();
    }

    /// The value, which nobody else can reach; no step.
    ///
    /// ```
    /// let mut lock = pukzarn::sync::Mutex::new(1);
    /// *lock.get_mut().unwrap() = 2;
    /// assert_eq!(lock.into_inner().unwrap(), 2);
    /// ```
    pub fn get_mut(&mut self) -> LockResult<&mut T> {
        self.inner.get_mut()
    }
}

impl<T> From<T> for Mutex<T> {
    fn from(value: T) -> Mutex<T> {
        Mutex::new(value)
    }
}

impl<T: ?Sized + fmt::Debug> fmt::Debug for Mutex<T> {
    fn fmt(&self, formatter: &mut fmt::Formatter<'_>) -> fmt::Result {
        self.inner.fmt(formatter)
    }
}

impl<'a, T: ?Sized> MutexGuard<'a, T> {
    /// The lock and the guard of std. The model's lock stays taken.
    pub(super) fn apart(mut self) -> (&'a Mutex<T>, sync::MutexGuard<'a, T>) {
        let (lock, inner) = (self.lock, self.inner.take());
        mem::forget(self);
        (lock, inner.expect("a guard is taken apart once"))
    }
}

impl<T: ?Sized> Drop for MutexGuard<'_, T> {
    fn drop(&mut self) {
        self.inner = None;
        if is_unwound() {
            self.lock.inner.clear_poison();
        }
        release(&self.lock.identity, ONE);
    }
}

impl<T: ?Sized> DerefMut for MutexGuard<'_, T> {
    fn deref_mut(&mut self) -> &mut T {
        self.inner.as_deref_mut().expect("a guard holds its lock")
    }
}

read_as_the_value! { MutexGuard }
