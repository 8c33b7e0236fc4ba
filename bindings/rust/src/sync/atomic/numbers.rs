//! Atomic numbers and truth values.

use super::{Ordering, access, common_methods, method};
use crate::context::Identity;
use std::fmt;
use std::sync::atomic;

/// An atomic type: what it holds, two values for its examples, and its methods.
macro_rules! atomic_type {
    ($atomic:ident $value:ident, $old:literal $new:literal, { $($methods:tt)* }) => {
        #[doc = concat!("An atomic `", stringify!($value), "`, as std's. Each access is one step of a model.")]
        ///
        /// ```
        #[doc = concat!("use pukzarn::sync::atomic::{", stringify!($atomic), ", Ordering};")]
        ///
        #[doc = concat!("static SHARED: ", stringify!($atomic), " = ", stringify!($atomic), "::new(", $old, ");")]
        #[doc = concat!("assert_eq!(SHARED.load(Ordering::SeqCst), ", $old, ");")]
        /// ```
        #[derive(Default)]
        pub struct $atomic {
            identity: Identity,
            inner: atomic::$atomic,
        }

        impl $atomic {
            method! { $atomic, $old,
                "An atomic that holds a value." concat!("assert_eq!(value.into_inner(), ", $old, ");"),
                pub const fn new(value: $value) -> $atomic {
                    $atomic { identity: Identity::new(), inner: atomic::$atomic::new(value) }
                }
            }

            common_methods! { $atomic $value, $old $new }

            $($methods)*
        }

        impl From<$value> for $atomic {
            fn from(value: $value) -> $atomic {
                $atomic::new(value)
            }
        }

        impl fmt::Debug for $atomic {
            fn fmt(&self, formatter: &mut fmt::Formatter<'_>) -> fmt::Result {
                self.inner.fmt(formatter)
            }
        }
    };
}

/// A method that changes the value by another one, and answers the one before.
macro_rules! fetch {
    ($atomic:ident $value:ty, $old:literal, $($text:literal $name:ident $by:literal = $after:literal;)*) => {
        $(
            method! { $atomic, $old,
                $text
                concat!(
                    "assert_eq!(value.", stringify!($name), "(", $by, ", Ordering::SeqCst), ", $old, ");\n",
                    "assert_eq!(value.into_inner(), ", $after, ");"
                ),
                pub fn $name(&self, value: $value, order: Ordering) -> $value {
                    access(&self.identity, || {
                        let old = self.inner.$name(value, order);
                        (old, self.inner.load(Ordering::Relaxed) != old)
                    })
                }
            }
        )*
    };
}

macro_rules! atomic_numbers {
    ($($atomic:ident $value:ident;)*) => {
        $(
            atomic_type! { $atomic $value, 5 7, {
                fetch! { $atomic $value, 5,
                    "Adds a number, round the end, and answers the value before; one step." fetch_add 2 = 7;
                    "Subtracts a number, round the end, and answers the value before; one step." fetch_sub 2 = 3;
                    "Keeps the bits that a number has too, and answers the value before; one step." fetch_and 6 = 4;
                    "Inverts what `fetch_and` keeps, and answers the value before; one step." fetch_nand 6 = "!4";
                    "Adds the bits of a number, and answers the value before; one step." fetch_or 2 = 7;
                    "Inverts the bits that a number has, and answers the value before; one step." fetch_xor 1 = 4;
                    "Writes a number that is greater, and answers the value before; one step." fetch_max 7 = 7;
                    "Writes a number that is less, and answers the value before; one step." fetch_min 3 = 3;
                }
            } }
        )*
    };
}

atomic_numbers! {
    AtomicI8 i8;
    AtomicI16 i16;
    AtomicI32 i32;
    AtomicI64 i64;
    AtomicIsize isize;
    AtomicU8 u8;
    AtomicU16 u16;
    AtomicU32 u32;
    AtomicU64 u64;
    AtomicUsize usize;
}

atomic_type! { AtomicBool bool, true false, {
    fetch! { AtomicBool bool, true,
        "Whether both are true, and answers the value before; one step." fetch_and false = false;
        "Whether one of both is false, and answers the value before; one step." fetch_nand true = false;
        "Whether one of both is true, and answers the value before; one step." fetch_or false = true;
        "Whether both differ, and answers the value before; one step." fetch_xor true = false;
    }

    method! { AtomicBool, true,
        "Inverts the value, and answers the one before; one step." "assert!(value.fetch_not(Ordering::SeqCst));",
        pub fn fetch_not(&self, order: Ordering) -> bool {
            self.fetch_xor(true, order)
        }
    }
} }
