//! One processor for all threads of a model, since one of them runs at a time: handing over is cheaper so. Models that
//! run side by side each take another one, where there are enough.

use crate::library::processors::{Processors, set_batch_policy, set_usual_policy};
use std::sync::{Mutex, MutexGuard, PoisonError};

/// How many models each processor has.
static USED: Mutex<Vec<u32>> = Mutex::new(Vec::new());

fn used() -> MutexGuard<'static, Vec<u32>> {
    USED.lock().unwrap_or_else(PoisonError::into_inner)
}

/// A processor that the calling thread, and the threads that it starts, keep to while this lives.
pub(super) struct Pinned {
    before: Processors,
    processor: usize,
    /// Whether the thread had the usual policy of scheduling, which it has again in the end.
    was_usual: bool,
}

impl Pinned {
    /// Takes the least used processor of those that the thread may run on. None where the system does not say.
    pub(super) fn to_least_used() -> Option<Pinned> {
        let before = Processors::of_thread()?;
        let processor = take(&mut used(), before.numbers())?;
        Processors::one(processor).set_for_thread();
        Some(Pinned { before, processor, was_usual: set_batch_policy() })
    }
}

/// Takes the first of the least used processors.
fn take(used: &mut Vec<u32>, of: impl Iterator<Item = usize>) -> Option<usize> {
    let processor = of.min_by_key(|processor| used.get(*processor).copied().unwrap_or(0))?;
    if used.len() <= processor {
        used.resize(processor + 1, 0);
    }
    used[processor] += 1;
    Some(processor)
}

impl Drop for Pinned {
    fn drop(&mut self) {
        self.before.set_for_thread();
        if self.was_usual {
            set_usual_policy();
        }
        used()[self.processor] -= 1;
    }
}

#[cfg(test)]
mod tests {
    use super::{Pinned, take};
    use crate::library::processors::Processors;

    #[test]
    fn a_pinned_thread_keeps_to_one_processor_until_the_end() {
        let before = Processors::of_thread().unwrap();
        let pinned = Pinned::to_least_used().unwrap();
        assert_eq!(Processors::of_thread().unwrap().numbers().count(), 1);
        drop(pinned);
        assert_eq!(Processors::of_thread(), Some(before));
    }

    #[test]
    fn models_side_by_side_take_the_processors_in_turn() {
        let mut used = Vec::new();
        let taken: Vec<usize> = (0..5).filter_map(|_| take(&mut used, [1, 4].into_iter())).collect();
        assert_eq!(taken, [1, 4, 1, 4, 1]);
        assert_eq!(take(&mut used, std::iter::empty()), None);
    }
}
