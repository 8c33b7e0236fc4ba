//! Simulated tracees for the tests of a tracer.
//!
//! A tracer's own code, written against nix, runs unchanged under every interleaving of its calls: no process is
//! traced, and nothing needs root.
#![deny(missing_docs)]
#![deny(unsafe_code)]

mod bits;
pub(crate) mod context;
mod end;
pub mod errno;
pub mod libc;
mod library;
mod model;
mod row;
mod sim;
mod stop;
mod stress;
pub mod sync;
pub mod sys;
pub mod thread;
mod tracee;
pub mod unistd;

pub use end::{End, Phase};
pub use errno::Errno;
pub use model::{Builder, Coverage, Deadlocks, Effort, Failure, Report, Shares, Threads, forget, model};
pub use row::Row;
pub use sim::{CaseFault, Sim};
pub use stop::{Death, FirstStop, Restart, Stop};
pub use stress::{Stress, stress};
pub use tracee::Tracee;

/// nix's Error.
pub type Error = Errno;

/// nix's Result: the error is an `Errno`.
pub type Result<T> = std::result::Result<T, Errno>;
