//! nix's `sys`: waits, ptrace and signals.

pub mod ptrace;
pub mod signal;
#[cfg(test)]
mod tests;
pub mod wait;

/// Ends the test at a call that is not simulated: an error would send the tracer down a path that Linux does not take.
#[track_caller]
pub(crate) fn not_simulated(call: &str, reason: &str) -> ! {
    panic!("pukzarn: {call} is not simulated: {reason}")
}
