//! A condition that threads wait for.

use super::{LockResult, MutexGuard, in_model, unpoisoned};
use crate::context::{self, Identity, Notify, Patience, Wakeup};
use std::sync;
use std::time::Duration;

/// A condition that threads wait for, as `std::sync::Condvar`.
///
/// In a model, which thread a notification wakes is a choice, and a wait with a time limit may end at any moment.
/// Nobody is woken without a notification.
///
/// ```
/// use pukzarn::sync::{Arc, Condvar, Mutex};
///
/// pukzarn::model(|sim| {
///     let shared = Arc::new((Mutex::new(false), Condvar::new()));
///     let other = Arc::clone(&shared);
///     sim.tracer("waits", move || {
///         let (ready, condvar) = &*shared;
///         let mut guard = ready.lock().unwrap();
///         while !*guard {
///             guard = condvar.wait(guard).unwrap();
///         }
///     });
///     sim.tracer("notifies", move || {
///         *other.0.lock().unwrap() = true;
///         other.1.notify_one();
///     });
///     assert!(sim.run().waiting.is_empty());
/// });
/// ```
#[derive(Debug, Default)]
pub struct Condvar {
    identity: Identity,
    inner: sync::Condvar,
}

/// How a wait with a time limit has ended.
///
/// ```
/// use pukzarn::sync::{Condvar, Mutex, WaitTimeoutResult};
/// use std::time::Duration;
///
/// let lock = Mutex::new(());
/// let (_guard, ended) = Condvar::new().wait_timeout(lock.lock().unwrap(), Duration::ZERO).unwrap();
/// let ended: WaitTimeoutResult = ended;
/// assert!(ended.timed_out());
/// ```
#[derive(Clone, Copy, Debug, Eq, PartialEq)]
pub struct WaitTimeoutResult(bool);

impl WaitTimeoutResult {
    /// Whether the time was up.
    ///
    /// ```
    /// # use pukzarn::sync::{Condvar, Mutex};
    /// let lock = Mutex::new(());
    /// let (_guard, ended) = Condvar::new().wait_timeout(lock.lock().unwrap(), std::time::Duration::ZERO).unwrap();
    /// assert!(ended.timed_out());
    /// ```
    pub fn timed_out(&self) -> bool {
        self.0
    }
}

impl Condvar {
    /// A condition that nobody waits for.
    ///
    /// ```
    /// static CHANGED: pukzarn::sync::Condvar = pukzarn::sync::Condvar::new();
    /// CHANGED.notify_all();
    /// ```
    pub const fn new() -> Condvar {
        Condvar { identity: Identity::new(), inner: sync::Condvar::new() }
    }

    /// Gives the lock back, waits for a notification, and takes the lock again.
    ///
    /// ```
    /// use pukzarn::sync::{Condvar, Mutex};
    /// use pukzarn::thread;
    ///
    /// let (ready, changed) = (Mutex::new(false), Condvar::new());
    /// thread::scope(|scope| {
    ///     scope.spawn(|| {
    ///         *ready.lock().unwrap() = true;
    ///         changed.notify_one();
    ///     });
    ///     let mut guard = ready.lock().unwrap();
    ///     while !*guard {
    ///         guard = changed.wait(guard).unwrap();
    ///     }
    /// });
    /// ```
    pub fn wait<'a, T>(&self, guard: MutexGuard<'a, T>) -> LockResult<MutexGuard<'a, T>> {
        match self.wait_in_model(guard, Patience::Unlimited) {
            Ok((guard, _)) => Ok(guard),
            Err(guard) => {
                let (lock, inner) = guard.apart();
                unpoisoned(self.inner.wait(inner), |inner| lock.guard(inner))
            }
        }
    }

    /// Waits while a condition holds, as `wait` in a loop.
    ///
    /// ```
    /// # use pukzarn::sync::{Condvar, Mutex};
    /// let lock = Mutex::new(1);
    /// let guard = Condvar::new().wait_while(lock.lock().unwrap(), |left| *left > 1).unwrap();
    /// assert_eq!(*guard, 1);
    /// ```
    pub fn wait_while<'a, T, F: FnMut(&mut T) -> bool>(
        &self,
        mut guard: MutexGuard<'a, T>,
        mut condition: F,
    ) -> LockResult<MutexGuard<'a, T>> {
        while condition(&mut guard) {
            guard = self.wait(guard)?;
        }
        Ok(guard)
    }

    /// Gives the lock back, waits for a notification or until the time is up, and takes the lock again.
    ///
    /// ```
    /// # use pukzarn::sync::{Condvar, Mutex};
    /// # use std::time::Duration;
    /// let lock = Mutex::new(());
    /// let (_guard, ended) = Condvar::new().wait_timeout(lock.lock().unwrap(), Duration::from_millis(1)).unwrap();
    /// assert!(ended.timed_out());
    /// ```
    pub fn wait_timeout<'a, T>(
        &self,
        guard: MutexGuard<'a, T>,
        time: Duration,
    ) -> LockResult<(MutexGuard<'a, T>, WaitTimeoutResult)> {
        match self.wait_in_model(guard, Patience::Limited) {
            Ok((guard, wakeup)) => Ok((guard, WaitTimeoutResult(wakeup == Wakeup::TimedOut))),
            Err(guard) => {
                let (lock, inner) = guard.apart();
                unpoisoned(self.inner.wait_timeout(inner, time), |(inner, ended)| {
                    (lock.guard(inner), WaitTimeoutResult(ended.timed_out()))
                })
            }
        }
    }

    /// Waits while a condition holds, or until the time is up.
    ///
    /// ```
    /// # use pukzarn::sync::{Condvar, Mutex};
    /// # use std::time::Duration;
    /// let lock = Mutex::new(1);
    /// let time = Duration::from_millis(1);
    /// let (_guard, ended) = Condvar::new().wait_timeout_while(lock.lock().unwrap(), time, |left| *left > 0).unwrap();
    /// assert!(ended.timed_out());
    /// ```
    pub fn wait_timeout_while<'a, T, F: FnMut(&mut T) -> bool>(
        &self,
        mut guard: MutexGuard<'a, T>,
        time: Duration,
        mut condition: F,
    ) -> LockResult<(MutexGuard<'a, T>, WaitTimeoutResult)> {
        let start = std::time::Instant::now();
        let mut timed_out = false;
        while condition(&mut guard) {
            if timed_out {
                return Ok((guard, WaitTimeoutResult(true)));
            }
            let left = time.saturating_sub(start.elapsed());
            let (again, ended) = self.wait_timeout(guard, left)?;
            (guard, timed_out) = (again, ended.timed_out());
        }
        Ok((guard, WaitTimeoutResult(false)))
    }

    /// Wakes one thread that waits, if there is one; one step of a model.
    ///
    /// ```
    /// pukzarn::sync::Condvar::new().notify_one();
    /// ```
    pub fn notify_one(&self) {
        if in_model(|model| model.notify(&self.identity, Notify::One)).is_none() {
            self.inner.notify_one();
        }
    }

    /// Wakes every thread that waits; one step of a model.
    ///
    /// ```
    /// pukzarn::sync::Condvar::new().notify_all();
    /// ```
    pub fn notify_all(&self) {
        if in_model(|model| model.notify(&self.identity, Notify::All)).is_none() {
            self.inner.notify_all();
        }
    }

    /// Waits as a step of the model that the calling thread is in. The guard is the error where it is in none.
    fn wait_in_model<'a, T>(
        &self,
        guard: MutexGuard<'a, T>,
        patience: Patience,
    ) -> Result<(MutexGuard<'a, T>, Wakeup), MutexGuard<'a, T>> {
        let Some(calls) = context::get() else { return Err(guard) };
        let Some(model) = calls.model() else {
            calls.jitter();
            return Err(guard);
        };
        let (lock, inner) = guard.apart();
        drop(inner);
        let wakeup = model.wait_notified(&self.identity, &lock.identity, patience);
        let guard = lock.lock_again().expect("no lock is poisoned in a simulation");
        Ok((guard, wakeup))
    }
}
