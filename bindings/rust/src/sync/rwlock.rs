//! A lock of many readers or one writer.

use super::{LockResult, TryLockResult, in_model, is_unwound, read_as_the_value, release, try_take, unpoisoned};
use crate::context::{Identity, Noun, Permits};
use std::ops::{Deref, DerefMut};
use std::{fmt, mem, sync};

/// A lock of many readers or one writer, as `std::sync::RwLock`. To take it is one step of a model.
///
/// ```
/// use pukzarn::sync::{Arc, RwLock};
///
/// pukzarn::model(|sim| {
///     let served = Arc::new(RwLock::new(0));
///     let (written, read) = (Arc::clone(&served), Arc::clone(&served));
///     sim.tracer("writer", move || *written.write().unwrap() = 2);
///     sim.tracer("reader", move || assert!([0, 2].contains(&*read.read().unwrap())));
///     sim.run();
/// });
/// ```
#[derive(Default)]
pub struct RwLock<T: ?Sized> {
    identity: Identity,
    inner: sync::RwLock<T>,
}

/// A lock that is held for reading, until it is dropped.
///
/// ```
/// use pukzarn::sync::{RwLock, RwLockReadGuard};
///
/// let lock = RwLock::new(1);
/// let guard: RwLockReadGuard<'_, i32> = lock.read().unwrap();
/// assert_eq!(*guard, 1);
/// ```
#[must_use = "a lock is given back where its guard is dropped"]
pub struct RwLockReadGuard<'a, T: ?Sized> {
    lock: &'a RwLock<T>,
    /// None where it is dropped.
    inner: Option<sync::RwLockReadGuard<'a, T>>,
}

/// A lock that is held for writing, until it is dropped.
///
/// ```
/// use pukzarn::sync::{RwLock, RwLockWriteGuard};
///
/// let lock = RwLock::new(1);
/// let mut guard: RwLockWriteGuard<'_, i32> = lock.write().unwrap();
/// *guard = 2;
/// ```
#[must_use = "a lock is given back where its guard is dropped"]
pub struct RwLockWriteGuard<'a, T: ?Sized> {
    lock: &'a RwLock<T>,
    /// None where it is dropped.
    inner: Option<sync::RwLockWriteGuard<'a, T>>,
}

/// More readers than there are threads.
const READERS: u32 = 1 << 16;
const READ: Permits = Permits { all: READERS, take: 1 };
const WRITE: Permits = Permits { all: READERS, take: READERS };

impl<T> RwLock<T> {
    /// A lock that is free.
    ///
    /// ```
    /// static SERVED: pukzarn::sync::RwLock<u32> = pukzarn::sync::RwLock::new(0);
    /// assert_eq!(*SERVED.read().unwrap(), 0);
    /// ```
    pub const fn new(value: T) -> RwLock<T> {
        RwLock { identity: Identity::new(), inner: sync::RwLock::new(value) }
    }

    /// The value.
    ///
    /// ```
    /// assert_eq!(pukzarn::sync::RwLock::new(1).into_inner().unwrap(), 1);
    /// ```
    pub fn into_inner(self) -> LockResult<T> {
        self.inner.into_inner()
    }
}

impl<T: ?Sized> RwLock<T> {
    /// Takes the lock for reading, once nobody writes.
    ///
    /// ```
    /// let lock = pukzarn::sync::RwLock::new(1);
    /// let (one, other) = (lock.read().unwrap(), lock.read().unwrap());
    /// assert_eq!(*one, *other);
    /// ```
    pub fn read(&self) -> LockResult<RwLockReadGuard<'_, T>> {
        in_model(|model| model.acquire(&self.identity, Noun::Reader, READ));
        unpoisoned(self.inner.read(), |inner| RwLockReadGuard { lock: self, inner: Some(inner) })
    }

    /// Takes the lock for writing, once it is free.
    ///
    /// ```
    /// let lock = pukzarn::sync::RwLock::new(1);
    /// *lock.write().unwrap() = 2;
    /// assert_eq!(*lock.read().unwrap(), 2);
    /// ```
    pub fn write(&self) -> LockResult<RwLockWriteGuard<'_, T>> {
        in_model(|model| model.acquire(&self.identity, Noun::Writer, WRITE));
        unpoisoned(self.inner.write(), |inner| RwLockWriteGuard { lock: self, inner: Some(inner) })
    }

    /// Takes the lock for reading if nobody writes.
    ///
    /// ```
    /// let lock = pukzarn::sync::RwLock::new(1);
    /// let guard = lock.write().unwrap();
    /// assert!(lock.try_read().is_err());
    /// drop(guard);
    /// assert!(lock.try_read().is_ok());
    /// ```
    pub fn try_read(&self) -> TryLockResult<RwLockReadGuard<'_, T>> {
        let guard = |inner| RwLockReadGuard { lock: self, inner: Some(inner) };
        try_take((&self.identity, Noun::Reader, READ), || self.inner.try_read(), guard)
    }

    /// Takes the lock for writing if it is free.
    ///
    /// ```
    /// let lock = pukzarn::sync::RwLock::new(1);
    /// let guard = lock.read().unwrap();
    /// assert!(lock.try_write().is_err());
    /// drop(guard);
    /// assert!(lock.try_write().is_ok());
    /// ```
    pub fn try_write(&self) -> TryLockResult<RwLockWriteGuard<'_, T>> {
        let guard = |inner| RwLockWriteGuard { lock: self, inner: Some(inner) };
        try_take((&self.identity, Noun::Writer, WRITE), || self.inner.try_write(), guard)
    }

    /// Whether a thread has panicked while it wrote; never in a simulation.
    ///
    /// ```
    /// assert!(!pukzarn::sync::RwLock::new(1).is_poisoned());
    /// ```
    pub fn is_poisoned(&self) -> bool {
        self.inner.is_poisoned()
    }

    /// Forgets that a thread has panicked while it wrote.
    ///
    /// ```
    /// pukzarn::sync::RwLock::new(1).clear_poison();
    /// ```
    pub fn clear_poison(&self) {
        self.inner.clear_poison();
    }

    /// The value, which nobody else can reach; no step.
    ///
    /// ```
    /// let mut lock = pukzarn::sync::RwLock::new(1);
    /// *lock.get_mut().unwrap() = 2;
    /// assert_eq!(lock.into_inner().unwrap(), 2);
    /// ```
    pub fn get_mut(&mut self) -> LockResult<&mut T> {
        self.inner.get_mut()
    }
}

impl<'a, T: ?Sized> RwLockWriteGuard<'a, T> {
    /// Lets others read beside this thread, which reads from now on; no step.
    ///
    /// ```
    /// use pukzarn::sync::{RwLock, RwLockWriteGuard};
    ///
    /// let lock = RwLock::new(1);
    /// let guard = RwLockWriteGuard::downgrade(lock.write().unwrap());
    /// assert_eq!(*guard, *lock.read().unwrap());
    /// ```
    pub fn downgrade(mut guard: RwLockWriteGuard<'a, T>) -> RwLockReadGuard<'a, T> {
        let lock = guard.lock;
        let inner = guard.inner.take().map(sync::RwLockWriteGuard::downgrade);
        mem::forget(guard);
        release(&lock.identity, Permits { all: READERS, take: READERS - 1 });
        RwLockReadGuard { lock, inner }
    }
}

impl<T> From<T> for RwLock<T> {
    fn from(value: T) -> RwLock<T> {
        RwLock::new(value)
    }
}

impl<T: ?Sized + fmt::Debug> fmt::Debug for RwLock<T> {
    fn fmt(&self, formatter: &mut fmt::Formatter<'_>) -> fmt::Result {
        self.inner.fmt(formatter)
    }
}

impl<T: ?Sized> Drop for RwLockReadGuard<'_, T> {
    fn drop(&mut self) {
        self.inner = None;
        release(&self.lock.identity, READ);
    }
}

impl<T: ?Sized> Drop for RwLockWriteGuard<'_, T> {
    fn drop(&mut self) {
        self.inner = None;
        if is_unwound() {
            self.lock.inner.clear_poison();
        }
        release(&self.lock.identity, WRITE);
    }
}

impl<T: ?Sized> DerefMut for RwLockWriteGuard<'_, T> {
    fn deref_mut(&mut self) -> &mut T {
        self.inner.as_deref_mut().expect("a guard holds its lock")
    }
}

read_as_the_value! { RwLockReadGuard RwLockWriteGuard }
