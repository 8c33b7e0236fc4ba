//! What threads share, as `std::sync` has it. In a model each call is a step, so that others may go before it.
//!
//! - Locks, channels and atomics of std are no steps: what threads share by them is tried in the order of their other
//!   calls alone. Those here are for what is to be interleaved. On the threads of `stress`, and where there is no
//!   simulation, they do what those of std do.
//! - Giving a lock back is no step, so a `try_lock` fails only where the holder makes a call under its lock.
//! - Memory is that of one processor: each access of an atomic is seen at once by all, whatever its ordering.
//! - In a simulation no lock is poisoned: a thread that panics ends the test.

pub mod atomic;
mod barrier;
mod condvar;
pub mod mpsc;
mod mutex;
mod once;
mod queue;
mod rwlock;
#[cfg(test)]
mod tests;

pub use barrier::{Barrier, BarrierWaitResult};
pub use condvar::{Condvar, WaitTimeoutResult};
pub use mutex::{Mutex, MutexGuard};
pub use once::{LazyLock, Once, OnceLock};
pub use rwlock::{RwLock, RwLockReadGuard, RwLockWriteGuard};
pub use std::sync::{Arc, LockResult, PoisonError, TryLockError, TryLockResult, Weak};

use crate::context::{self, Identity, ModelCalls, Noun, Permits};

/// Makes a call of the model that the calling thread is in. `None`: it is in none, and the caller does what std does.
fn in_model<T>(call: impl FnOnce(&dyn ModelCalls) -> T) -> Option<T> {
    let calls = context::get()?;
    let answer = calls.model().map(call);
    if answer.is_none() {
        calls.jitter();
    }
    answer
}

/// Gives permits to the model that the calling thread is in, if it is in one.
fn release(object: &Identity, permits: Permits) {
    if let Some(calls) = context::get()
        && let Some(model) = calls.model()
    {
        model.release(object, permits);
    }
}

/// Tells the model that the calling thread is in, if it is in one, that what others look at is another than before.
fn changed() {
    if let Some(calls) = context::get()
        && let Some(model) = calls.model()
    {
        model.changed();
    }
}

/// What a lock of std answered, and whether it is poisoned where that counts: not in a simulation.
fn unpoisoned<T, U>(answer: LockResult<T>, wrap: impl FnOnce(T) -> U) -> LockResult<U> {
    match answer {
        Ok(inner) => Ok(wrap(inner)),
        Err(poisoned) if context::get().is_some() => Ok(wrap(poisoned.into_inner())),
        Err(poisoned) => Err(PoisonError::new(wrap(poisoned.into_inner()))),
    }
}

/// Takes a lock if it is free: for these permits of the model that the calling thread is in, if it is in one, and then
/// as std's own answers.
fn try_take<T, U>(
    (object, noun, permits): (&Identity, Noun, Permits),
    of_std: impl FnOnce() -> TryLockResult<T>,
    wrap: impl FnOnce(T) -> U,
) -> TryLockResult<U> {
    if in_model(|model| model.try_acquire(object, noun, permits)) == Some(false) {
        return Err(TryLockError::WouldBlock);
    }
    match of_std() {
        Ok(inner) => Ok(wrap(inner)),
        Err(TryLockError::WouldBlock) => Err(TryLockError::WouldBlock),
        Err(TryLockError::Poisoned(poisoned)) => Ok(unpoisoned(Err(poisoned), wrap)?),
    }
}

/// Whether a lock that is given back now is poisoned although it is not to be: a schedule ends by unwinding its
/// threads.
fn is_unwound() -> bool {
    std::thread::panicking() && context::get().is_some()
}

/// A guard is read as the value that its lock has, and shown as it.
macro_rules! read_as_the_value {
    ($($guard:ident)*) => {
        $(
            impl<T: ?Sized> Deref for $guard<'_, T> {
                type Target = T;

                fn deref(&self) -> &T {
                    self.inner.as_deref().expect("a guard holds its lock")
                }
            }

            impl<T: ?Sized + fmt::Debug> fmt::Debug for $guard<'_, T> {
                fn fmt(&self, formatter: &mut fmt::Formatter<'_>) -> fmt::Result {
                    (**self).fmt(formatter)
                }
            }

            impl<T: ?Sized + fmt::Display> fmt::Display for $guard<'_, T> {
                fn fmt(&self, formatter: &mut fmt::Formatter<'_>) -> fmt::Result {
                    (**self).fmt(formatter)
                }
            }
        )*
    };
}

use read_as_the_value;
