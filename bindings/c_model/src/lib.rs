//! The model for C: what `include/pukzarn_model.h` declares, over the crate `pukzarn`.
//!
//! A tracer in C is linked with `--wrap` of the calls that it makes (waitpid, ptrace ..), so that they come here. In a
//! thread of a simulation they are answered by nix's functions of the crate `pukzarn`; in any other they are the real
//! ones. A schedule ends by unwinding its threads, through the frames of C.
#![deny(missing_docs)]
#![deny(unsafe_code)]

mod exports;
mod models;
mod place;
mod requests;
mod threads;
mod waits;
mod words;
