//! Sets of signals.

use super::{NO_SIGNALS, Signal, SignalIterator};
use crate::errno::Errno;
use crate::sys::not_simulated;
use std::ops;

/// A set of signals.
#[derive(Clone, Copy, Debug, Eq, Hash, PartialEq)]
pub struct SigSet {
    /// The bit of signal n is n - 1, as in the kernel's set.
    bits: u64,
}

fn bit_of(signal: Signal) -> u64 {
    1 << (signal as i32 - 1)
}

impl SigSet {
    /// Every signal.
    pub fn all() -> SigSet {
        Signal::iterator().collect()
    }

    /// No signal.
    pub fn empty() -> SigSet {
        SigSet { bits: 0 }
    }

    /// Adds a signal.
    pub fn add(&mut self, signal: Signal) {
        self.bits |= bit_of(signal);
    }

    /// Takes all signals away.
    pub fn clear(&mut self) {
        self.bits = 0;
    }

    /// Takes a signal away.
    pub fn remove(&mut self, signal: Signal) {
        self.bits &= !bit_of(signal);
    }

    /// Whether a signal is in the set.
    pub fn contains(&self, signal: Signal) -> bool {
        self.bits & bit_of(signal) != 0
    }

    /// The signals, in the order of their numbers.
    pub fn iter(&self) -> SigSetIter<'_> {
        SigSetIter { set: self, signals: Signal::iterator() }
    }

    /// Ends the test: the tracer gets no signals.
    pub fn thread_get_mask() -> Result<SigSet, Errno> {
        not_simulated("SigSet::thread_get_mask", NO_SIGNALS)
    }

    /// Ends the test: the tracer gets no signals.
    pub fn thread_set_mask(&self) -> Result<(), Errno> {
        not_simulated("SigSet::thread_set_mask", NO_SIGNALS)
    }

    /// Ends the test: the tracer gets no signals.
    pub fn thread_block(&self) -> Result<(), Errno> {
        not_simulated("SigSet::thread_block", NO_SIGNALS)
    }

    /// Ends the test: the tracer gets no signals.
    pub fn thread_unblock(&self) -> Result<(), Errno> {
        not_simulated("SigSet::thread_unblock", NO_SIGNALS)
    }

    /// Ends the test: the tracer gets no signals.
    pub fn thread_swap_mask(&self, _how: super::SigmaskHow) -> Result<SigSet, Errno> {
        not_simulated("SigSet::thread_swap_mask", NO_SIGNALS)
    }

    /// Ends the test: the tracer gets no signals.
    pub fn suspend(&self) -> Result<(), Errno> {
        not_simulated("SigSet::suspend", NO_SIGNALS)
    }

    /// Ends the test: the tracer gets no signals.
    pub fn wait(&self) -> Result<Signal, Errno> {
        not_simulated("SigSet::wait", NO_SIGNALS)
    }
}

/// The signals of a set that have still to be answered.
#[derive(Clone, Debug)]
pub struct SigSetIter<'a> {
    set: &'a SigSet,
    signals: SignalIterator,
}

impl Iterator for SigSetIter<'_> {
    type Item = Signal;

    fn next(&mut self) -> Option<Signal> {
        self.signals.by_ref().find(|signal| self.set.contains(*signal))
    }
}

impl<'a> IntoIterator for &'a SigSet {
    type Item = Signal;
    type IntoIter = SigSetIter<'a>;

    fn into_iter(self) -> SigSetIter<'a> {
        self.iter()
    }
}

impl From<Signal> for SigSet {
    fn from(signal: Signal) -> SigSet {
        SigSet { bits: bit_of(signal) }
    }
}

impl Extend<Signal> for SigSet {
    fn extend<T: IntoIterator<Item = Signal>>(&mut self, signals: T) {
        signals.into_iter().for_each(|signal| self.add(signal));
    }
}

impl FromIterator<Signal> for SigSet {
    fn from_iter<T: IntoIterator<Item = Signal>>(signals: T) -> SigSet {
        let mut set = SigSet::empty();
        set.extend(signals);
        set
    }
}

impl ops::BitOr for SigSet {
    type Output = SigSet;

    fn bitor(self, other: SigSet) -> SigSet {
        SigSet { bits: self.bits | other.bits }
    }
}

impl ops::BitOr<Signal> for SigSet {
    type Output = SigSet;

    fn bitor(self, signal: Signal) -> SigSet {
        self | SigSet::from(signal)
    }
}

impl ops::BitOr for Signal {
    type Output = SigSet;

    fn bitor(self, other: Signal) -> SigSet {
        SigSet::from(self) | other
    }
}

impl ops::BitOr<SigSet> for Signal {
    type Output = SigSet;

    fn bitor(self, set: SigSet) -> SigSet {
        set | self
    }
}

#[cfg(test)]
mod tests {
    use super::*;
    use crate::sys::signal::{SIGHUP, SIGSYS, SIGUSR1};

    #[test]
    fn a_set_has_what_was_added() {
        let mut set = SIGUSR1 | SIGHUP;
        assert_eq!(set.iter().collect::<Vec<_>>(), [SIGHUP, SIGUSR1]);
        set.remove(SIGHUP);
        assert!(set.contains(SIGUSR1) && !set.contains(SIGHUP));
        set.add(SIGSYS);
        assert_eq!(set, SigSet::from(SIGSYS) | SIGUSR1);
        set.clear();
        assert_eq!((set, SigSet::all().iter().count()), (SigSet::empty(), 31));
    }
}
