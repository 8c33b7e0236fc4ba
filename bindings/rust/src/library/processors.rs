//! The processors and the scheduling policy of a thread.

use std::ffi::c_int;

/// A set of processors.
#[derive(Clone, Copy, Debug, PartialEq, Eq)]
pub(crate) struct Processors([u64; 16]);

unsafe extern "C" {
    fn sched_getaffinity(pid: c_int, size: usize, mask: *mut u64) -> c_int;
    fn sched_setaffinity(pid: c_int, size: usize, mask: *const u64) -> c_int;
    fn sched_getscheduler(pid: c_int) -> c_int;
    fn sched_setscheduler(pid: c_int, policy: c_int, priority: *const c_int) -> c_int;
}

const SCHED_OTHER: c_int = 0;
const SCHED_BATCH: c_int = 3;

/// Lets the calling thread, and those that it starts, wait for their turns where another of them wakes them
/// (SCHED_BATCH): who wakes another is about to wait itself. False where the thread has another policy than the usual
/// one.
pub(crate) fn set_batch_policy() -> bool {
    // SAFETY: no memory is passed but the priority, struct sched_param, whose one field is an int.
    unsafe { sched_getscheduler(0) == SCHED_OTHER && sched_setscheduler(0, SCHED_BATCH, &0) == 0 }
}

/// The usual policy again.
pub(crate) fn set_usual_policy() {
    // SAFETY: as in set_batch_policy.
    unsafe { sched_setscheduler(0, SCHED_OTHER, &0) };
}

impl Processors {
    /// Those that the calling thread may run on; None where the system does not say.
    pub(crate) fn of_thread() -> Option<Processors> {
        let mut mask = [0u64; 16];
        // SAFETY: the mask has the size that is said.
        let answer = unsafe { sched_getaffinity(0, size_of_val(&mask), mask.as_mut_ptr()) };
        (answer >= 0).then_some(Processors(mask))
    }

    /// One processor.
    pub(crate) fn one(processor: usize) -> Processors {
        let mut mask = [0u64; 16];
        mask[processor / 64] = 1 << (processor % 64);
        Processors(mask)
    }

    /// The numbers of those that are in it.
    pub(crate) fn numbers(&self) -> impl Iterator<Item = usize> + '_ {
        (0..self.0.len() * 64).filter(|p| self.0[p / 64] >> (p % 64) & 1 == 1)
    }

    /// Lets the calling thread, and those that it starts, run on these alone. Nothing happens where that is refused.
    pub(crate) fn set_for_thread(&self) {
        // SAFETY: the mask has the size that is said.
        unsafe { sched_setaffinity(0, size_of_val(&self.0), self.0.as_ptr()) };
    }
}
