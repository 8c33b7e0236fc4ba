//! What threads share, under every interleaving.

mod channels;
mod locks;
mod on_threads;
mod threads;

use crate::{Builder, Coverage, Shares, Sim};
use std::collections::BTreeSet;
use std::sync::{Arc, Mutex};

/// Runs every interleaving, and answers what they came to, which is the same whatever is taken to be shared.
fn outcomes<T: Ord + Send + 'static>(test: impl Fn(&Sim, &Outcome<T>)) -> BTreeSet<T> {
    let all = outcomes_of(Shares::Memory, &test);
    assert!(all == outcomes_of(Shares::Sync, &test), "situations that differ were taken for the same");
    assert!(all == outcomes_of(Shares::Everything, &test), "situations that differ were taken for the same");
    all
}

fn outcomes_of<T: Ord + Send + 'static>(shares: Shares, test: &impl Fn(&Sim, &Outcome<T>)) -> BTreeSet<T> {
    let all = Mutex::new(BTreeSet::new());
    let builder = Builder { shares, max_schedules: 1_000_000, ..Builder::new().exhaustive() };
    let report = builder.check(|sim| {
        let outcome = Outcome(Arc::new(Mutex::new(Vec::new())));
        test(sim, &outcome);
        let end = sim.run();
        assert!(end.waiting.is_empty());
        let came_to = std::mem::take(&mut *outcome.0.lock().unwrap());
        all.lock().unwrap().extend(came_to);
    });
    assert_eq!(report.coverage, Coverage::All);
    all.into_inner().unwrap()
}

/// Where the threads of one interleaving put what they came to.
struct Outcome<T>(Arc<Mutex<Vec<T>>>);

impl<T> Clone for Outcome<T> {
    fn clone(&self) -> Outcome<T> {
        Outcome(Arc::clone(&self.0))
    }
}

impl<T> Outcome<T> {
    fn put(&self, value: T) {
        self.0.lock().unwrap().push(value);
    }
}

fn cause(test: impl Fn(&Sim)) -> String {
    Builder::new().explore(test).expect_err("an interleaving fails").cause
}
