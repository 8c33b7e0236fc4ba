//! The loop of a supervisor, with a race and without it: docs/TUTORIAL.md tells how the race is found and mended.

// In tests, every `nix::` below is the simulation.
#[cfg(test)]
extern crate pukzarn as nix;

pub mod broken;
pub mod mended;
#[cfg(test)]
mod tests;
