//! Nothing, in nix's place.
//!
//! A tracer's crate that depends on nix cannot be built where cargo can fetch nothing. Its unit tests do not need nix:
//! they have `extern crate pukzarn as nix`. With this crate in nix's place cargo can build them.
//! docs/RUST.md, "Without a registry", has the command.
#![no_std]
