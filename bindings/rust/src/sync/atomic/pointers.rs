//! Atomic pointers.

use super::{Ordering, access};
use crate::context::Identity;
use std::fmt;
use std::sync::atomic;

/// An atomic pointer, as std's. Each access is one step of a model.
///
/// ```
/// use pukzarn::sync::atomic::{AtomicPtr, Ordering};
///
/// let mut number = 5;
/// let pointer = AtomicPtr::new(&mut number);
/// assert!(!pointer.load(Ordering::SeqCst).is_null());
/// ```
pub struct AtomicPtr<T> {
    identity: Identity,
    inner: atomic::AtomicPtr<T>,
}

impl<T> AtomicPtr<T> {
    /// An atomic that holds a pointer.
    ///
    /// ```
    /// use pukzarn::sync::atomic::AtomicPtr;
    /// static NOTHING: AtomicPtr<u32> = AtomicPtr::new(std::ptr::null_mut());
    /// ```
    pub const fn new(pointer: *mut T) -> AtomicPtr<T> {
        AtomicPtr { identity: Identity::new(), inner: atomic::AtomicPtr::new(pointer) }
    }

    /// Reads the pointer; one step.
    ///
    /// ```
    /// use pukzarn::sync::atomic::{AtomicPtr, Ordering};
    /// assert!(AtomicPtr::<u32>::default().load(Ordering::SeqCst).is_null());
    /// ```
    pub fn load(&self, order: Ordering) -> *mut T {
        access(&self.identity, || (self.inner.load(order), false))
    }

    /// Writes a pointer; one step.
    ///
    /// ```
    /// use pukzarn::sync::atomic::{AtomicPtr, Ordering};
    /// let mut number = 5;
    /// AtomicPtr::default().store(&mut number, Ordering::SeqCst);
    /// ```
    pub fn store(&self, pointer: *mut T, order: Ordering) {
        access(&self.identity, || (self.inner.store(pointer, order), true));
    }

    /// Writes a pointer, and answers the one before; one step.
    ///
    /// ```
    /// use pukzarn::sync::atomic::{AtomicPtr, Ordering};
    /// let mut number = 5;
    /// assert!(AtomicPtr::default().swap(&mut number, Ordering::SeqCst).is_null());
    /// ```
    pub fn swap(&self, pointer: *mut T, order: Ordering) -> *mut T {
        access(&self.identity, || (self.inner.swap(pointer, order), true))
    }

    /// Writes a pointer if the one before is as given; one step. Answers the one before.
    ///
    /// ```
    /// use pukzarn::sync::atomic::{AtomicPtr, Ordering};
    /// let (mut number, none) = (5, std::ptr::null_mut());
    /// let pointer = AtomicPtr::default();
    /// assert_eq!(pointer.compare_exchange(none, &mut number, Ordering::SeqCst, Ordering::Relaxed), Ok(none));
    /// ```
    pub fn compare_exchange(
        &self,
        current: *mut T,
        new: *mut T,
        success: Ordering,
        failure: Ordering,
    ) -> Result<*mut T, *mut T> {
        access(&self.identity, || {
            let answer = self.inner.compare_exchange(current, new, success, failure);
            (answer, answer.is_ok())
        })
    }

    /// As `compare_exchange`: it does not fail without a reason.
    ///
    /// ```
    /// use pukzarn::sync::atomic::{AtomicPtr, Ordering};
    /// let (mut number, none) = (5, std::ptr::null_mut());
    /// let pointer = AtomicPtr::default();
    /// assert_eq!(pointer.compare_exchange_weak(none, &mut number, Ordering::SeqCst, Ordering::Relaxed), Ok(none));
    /// ```
    pub fn compare_exchange_weak(
        &self,
        current: *mut T,
        new: *mut T,
        success: Ordering,
        failure: Ordering,
    ) -> Result<*mut T, *mut T> {
        self.compare_exchange(current, new, success, failure)
    }

    /// Reads the pointer and writes another until nobody came between. Each access is one step.
    ///
    /// ```
    /// use pukzarn::sync::atomic::{AtomicPtr, Ordering};
    /// let pointer = AtomicPtr::<u32>::default();
    /// assert!(pointer.fetch_update(Ordering::SeqCst, Ordering::SeqCst, |_| None).is_err());
    /// ```
    pub fn fetch_update<F: FnMut(*mut T) -> Option<*mut T>>(
        &self,
        set_order: Ordering,
        fetch_order: Ordering,
        mut change: F,
    ) -> Result<*mut T, *mut T> {
        let mut old = self.load(fetch_order);
        while let Some(new) = change(old) {
            match self.compare_exchange(old, new, set_order, fetch_order) {
                Ok(old) => return Ok(old),
                Err(now) => old = now,
            }
        }
        Err(old)
    }

    /// The pointer, which nobody else can reach; no step.
    ///
    /// ```
    /// let mut pointer = pukzarn::sync::atomic::AtomicPtr::<u32>::default();
    /// assert!(pointer.get_mut().is_null());
    /// ```
    pub fn get_mut(&mut self) -> &mut *mut T {
        self.inner.get_mut()
    }

    /// The pointer; no step.
    ///
    /// ```
    /// assert!(pukzarn::sync::atomic::AtomicPtr::<u32>::default().into_inner().is_null());
    /// ```
    pub fn into_inner(self) -> *mut T {
        self.inner.into_inner()
    }
}

impl<T> Default for AtomicPtr<T> {
    fn default() -> AtomicPtr<T> {
        AtomicPtr::new(std::ptr::null_mut())
    }
}

impl<T> From<*mut T> for AtomicPtr<T> {
    fn from(pointer: *mut T) -> AtomicPtr<T> {
        AtomicPtr::new(pointer)
    }
}

impl<T> fmt::Debug for AtomicPtr<T> {
    fn fmt(&self, formatter: &mut fmt::Formatter<'_>) -> fmt::Result {
        self.inner.fmt(formatter)
    }
}
