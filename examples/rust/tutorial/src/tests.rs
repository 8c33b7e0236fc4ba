//! Both loops under every interleaving. The race of the first is known, so its test expects the fault.

use crate::{broken, mended};
use pukzarn::{Builder, model};

/// A process that forks another and fails, and the other one, which exits.
const FORK: &str = "\
tracee 100 100 100 0
fork 101
exit 1
end
tracee 101 101 100 100
exit 0
end
";

#[should_panic(expected = "tracee 100 is left")]
#[test]
fn nobody_is_left() {
    model(|sim| {
        sim.case(FORK).unwrap();
        sim.tracer("main", || assert!(broken::supervise().is_ok()));
        sim.run().assert_all_reaped();
    });
}

#[test]
fn nobody_is_left_by_the_mended_loop() {
    Builder::new().exhaustive().check(|sim| {
        sim.case(FORK).unwrap();
        sim.tracer("main", || assert_eq!(mended::supervise(), Ok(1)));
        sim.run().assert_all_reaped();
    });
}
