//! How a run ended.

/// What a tracee is doing in the end.
///
/// ```
/// assert_ne!(pukzarn::Phase::Dead, pukzarn::Phase::Reaped);
/// ```
#[derive(Clone, Copy, Debug, PartialEq, Eq, Hash, PartialOrd, Ord)]
pub enum Phase {
    /// Its parent has not created it, or no option had it traced.
    Unborn,
    /// It runs.
    Running,
    /// It is at a stop that nobody has waited for.
    Stopped,
    /// It is at a stop that this tracer was answered, by the number of the thread, from 0.
    Claimed {
        /// The number of the thread.
        tracer: u32,
    },
    /// It has ended, and nobody has waited for it: a zombie.
    Dead,
    /// Its death was waited for.
    Reaped,
}

/// How a run ended.
///
/// ```
/// use pukzarn::{Phase, Row};
///
/// pukzarn::model(|sim| {
///     sim.tracee(Row::root(100), |_| Ok(()));
///     let end = sim.run();
///     assert_eq!(end.tracees, [(100, Phase::Dead)]);
///     assert!(end.waiting.is_empty());
/// });
/// ```
#[derive(Clone, Debug, PartialEq, Eq, Hash, PartialOrd, Ord)]
pub struct End {
    /// The tids in the order of the rows, and what each is doing.
    pub tracees: Vec<(u32, Phase)>,
    /// The tracer's threads that wait for ever, where `Builder::deadlocks` lets them.
    pub waiting: Vec<String>,
}

impl End {
    /// What a tracee is doing; None where there is none of this tid.
    ///
    /// ```
    /// pukzarn::model(|sim| assert_eq!(sim.run().phase(100), None));
    /// ```
    pub fn phase(&self, tid: u32) -> Option<Phase> {
        self.tracees.iter().find(|tracee| tracee.0 == tid).map(|tracee| tracee.1)
    }

    /// Panics unless each tracee that was created has been reaped.
    ///
    /// ```
    /// use pukzarn::sys::wait::wait;
    ///
    /// pukzarn::model(|sim| {
    ///     sim.tracee(pukzarn::Row::root(100), |_| Ok(()));
    ///     sim.tracer("main", || drop(wait()));
    ///     sim.run().assert_all_reaped();
    /// });
    /// ```
    #[track_caller]
    pub fn assert_all_reaped(&self) {
        for (tid, phase) in &self.tracees {
            assert!(matches!(phase, Phase::Unborn | Phase::Reaped), "tracee {tid} is left {phase:?}");
        }
    }
}
