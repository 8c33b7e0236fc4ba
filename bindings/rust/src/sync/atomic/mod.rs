//! Atomics whose accesses are steps of a model.
//!
//! An access is seen at once by every thread, whatever its ordering: memory that is weaker is not modelled.

mod numbers;
mod pointers;

pub use numbers::*;
pub use pointers::AtomicPtr;
pub use std::sync::atomic::{Ordering, compiler_fence, fence};

use super::{changed, in_model};
use crate::context::{Identity, Noun};

/// Makes one access of an atomic. Beside its answer the access says whether it has changed the value.
fn access<T>(object: &Identity, call: impl FnOnce() -> (T, bool)) -> T {
    in_model(|model| model.step(object, Noun::Atomic));
    let (answer, has_changed) = call();
    if has_changed {
        changed();
    }
    answer
}

/// The methods that every atomic has, with an example each: a type, what it holds, and two values of that.
macro_rules! common_methods {
    ($atomic:ident $value:ty, $old:literal $new:literal) => {
        $crate::sync::atomic::method! { $atomic, $old,
            "Reads the value; one step." concat!("assert_eq!(value.load(Ordering::SeqCst), ", $old, ");"),
            pub fn load(&self, order: Ordering) -> $value {
                access(&self.identity, || (self.inner.load(order), false))
            }
        }

        $crate::sync::atomic::method! { $atomic, $old,
            "Writes a value; one step."
            concat!("value.store(", $new, ", Ordering::SeqCst);\nassert_eq!(value.into_inner(), ", $new, ");"),
            pub fn store(&self, value: $value, order: Ordering) {
                // In a model nobody comes between the load and the store; elsewhere the load is not used.
                access(&self.identity, || {
                    let changed = self.inner.load(Ordering::Relaxed) != value;
                    (self.inner.store(value, order), changed)
                })
            }
        }

        $crate::sync::atomic::method! { $atomic, $old,
            "Writes a value, and answers the one before; one step."
            concat!("assert_eq!(value.swap(", $new, ", Ordering::SeqCst), ", $old, ");"),
            pub fn swap(&self, value: $value, order: Ordering) -> $value {
                access(&self.identity, || {
                    let old = self.inner.swap(value, order);
                    (old, old != value)
                })
            }
        }

        $crate::sync::atomic::method! { $atomic, $old,
            "Writes a value if the one before is as given; one step. Answers the one before."
            concat!(
                "let (yes, no) = (Ordering::SeqCst, Ordering::Relaxed);\n",
                "assert_eq!(value.compare_exchange(", $old, ", ", $new, ", yes, no), Ok(", $old, "));\n",
                "assert_eq!(value.compare_exchange(", $old, ", ", $new, ", yes, no), Err(", $new, "));"
            ),
            pub fn compare_exchange(
                &self,
                current: $value,
                new: $value,
                success: Ordering,
                failure: Ordering,
            ) -> Result<$value, $value> {
                access(&self.identity, || {
                    let answer = self.inner.compare_exchange(current, new, success, failure);
                    (answer, answer.is_ok() && current != new)
                })
            }
        }

        $crate::sync::atomic::method! { $atomic, $old,
            "As `compare_exchange`; in a simulation it does not fail without a reason."
            concat!(
                "let answer = value.compare_exchange_weak(",
                $old, ", ", $new, ", Ordering::SeqCst, Ordering::Relaxed);\n",
                "assert!(answer == Ok(", $old, ") || answer == Err(", $old, "));"
            ),
            pub fn compare_exchange_weak(
                &self,
                current: $value,
                new: $value,
                success: Ordering,
                failure: Ordering,
            ) -> Result<$value, $value> {
                if $crate::context::get().is_some() {
                    return self.compare_exchange(current, new, success, failure);
                }
                self.inner.compare_exchange_weak(current, new, success, failure)
            }
        }

        $crate::sync::atomic::method! { $atomic, $old,
            "Reads the value and writes another until nobody came between. Each access is one step."
            concat!(
                "let answer = value.fetch_update(Ordering::SeqCst, Ordering::SeqCst, |_| Some(", $new, "));\n",
                "assert_eq!(answer, Ok(", $old, "));"
            ),
            pub fn fetch_update<F: FnMut($value) -> Option<$value>>(
                &self,
                set_order: Ordering,
                fetch_order: Ordering,
                mut change: F,
            ) -> Result<$value, $value> {
                let mut old = self.load(fetch_order);
                while let Some(new) = change(old) {
                    match self.compare_exchange_weak(old, new, set_order, fetch_order) {
                        Ok(old) => return Ok(old),
                        Err(now) => old = now,
                    }
                }
                Err(old)
            }
        }

        $crate::sync::atomic::method! { $atomic, $old,
            "The value, which nobody else can reach; no step."
            concat!(
                "let mut value = value;\n",
                "*value.get_mut() = ", $new, ";\n",
                "assert_eq!(value.into_inner(), ", $new, ");"
            ),
            pub fn get_mut(&mut self) -> &mut $value {
                self.inner.get_mut()
            }
        }

        $crate::sync::atomic::method! { $atomic, $old,
            "The value; no step." concat!("assert_eq!(value.into_inner(), ", $old, ");"),
            pub fn into_inner(self) -> $value {
                self.inner.into_inner()
            }
        }
    };
}

/// A method with its example, in which `value` is an atomic that holds the old value.
macro_rules! method {
    ($atomic:ident, $old:literal, $text:literal $example:expr, $method:item) => {
        #[doc = $text]
        ///
        /// ```
        #[doc = concat!("use pukzarn::sync::atomic::{", stringify!($atomic), ", Ordering};")]
        /// # let _ = Ordering::SeqCst;
        #[doc = concat!("let value = ", stringify!($atomic), "::new(", $old, ");")]
        #[doc = $example]
        /// ```
        $method
    };
}

use {common_methods, method};
