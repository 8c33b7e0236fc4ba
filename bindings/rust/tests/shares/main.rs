//! What situations leave out changes no outcome: small random programs of two threads have the same outcomes where each
//! interleaving is run to its end, and where situations are taken for the same; and so with few deviations.

mod program;

use program::{Outcome, Program};
use pukzarn::{Builder, Coverage, Deadlocks, Shares, Threads};
use std::collections::BTreeSet;
use std::sync::Mutex;

const PROGRAMS: u64 = 60;
/// A program of more schedules is left out.
const MOST_SCHEDULES: u64 = 4_000;

/// All outcomes of a program, or those with so many deviations at most; None where they are too many.
fn outcomes(program: &Program, shares: Shares, deviations: Option<u32>) -> Option<BTreeSet<Outcome>> {
    let all = Mutex::new(BTreeSet::new());
    let builder = Builder {
        shares,
        deviations,
        deadlocks: Deadlocks::End,
        threads: Threads::Reused,
        max_schedules: MOST_SCHEDULES,
        ..Builder::new()
    };
    let report = builder.explore(|sim| {
        let outcome = program.run(sim);
        all.lock().unwrap().insert(outcome);
    });
    let report = report.unwrap_or_else(|failure| panic!("{program:?}: {failure}"));
    let whole = deviations.map_or(Coverage::All, Coverage::Deviations);
    [Coverage::All, whole].contains(&report.coverage).then(|| all.into_inner().unwrap())
}

#[test]
fn situations_that_are_taken_for_the_same_lose_no_outcome() {
    let (mut compared, mut several) = (0, 0);
    for seed in 1..=PROGRAMS {
        let program = Program::random(seed);
        let Some(all) = outcomes(&program, Shares::Everything, None) else { continue };
        compared += 1;
        several += u64::from(all.len() > 1);
        for shares in [Shares::Memory, Shares::Sync] {
            let found = outcomes(&program, shares, None);
            assert_eq!(found, Some(all.clone()), "program {seed}, {shares:?}: {program:?}");
        }
    }
    println!("{compared} programs compared, {several} of several outcomes");
    assert!(compared > PROGRAMS / 2 && several > PROGRAMS / 4, "{compared} compared, {several} of several outcomes");
}

#[test]
fn situations_lose_no_outcome_of_few_deviations() {
    let mut compared = 0;
    for seed in 1..=PROGRAMS {
        let program = Program::random(seed);
        for deviations in [Some(1), Some(2)] {
            let Some(all) = outcomes(&program, Shares::Everything, deviations) else { continue };
            compared += 1;
            for shares in [Shares::Memory, Shares::Sync] {
                let found = outcomes(&program, shares, deviations).expect("there are fewer schedules");
                assert!(found == all, "program {seed}, {shares:?}, {deviations:?}: {program:?}");
            }
        }
    }
    assert!(compared > PROGRAMS, "{compared} compared");
}
