//! The outcomes that a model has of a program are those that `tracer explore` lists of it: the programs of
//! `examples/explore` are run as tracers and tracees, and what the threads were answered, and how the tracees ended, is
//! compared with the lists beside them.

extern crate pukzarn as nix;

mod litmus;
mod running;

use litmus::Program;
use nix::{Builder, Deadlocks, Shares};
use std::collections::BTreeSet;
use std::sync::Mutex;

const EXPLORE: &str = concat!(env!("CARGO_MANIFEST_DIR"), "/../../examples/explore");

/// One errno stands for several refusals, so programs that tell these apart are not here.
const PROGRAMS: [&str; 10] = [
    "race",
    "two_looks",
    "three_waits",
    "two_pollers",
    "early_claim",
    "first_stops",
    "groups",
    "main_loop",
    "leader_exit",
    "peek",
];

fn text(file: &str) -> String {
    std::fs::read_to_string(format!("{EXPLORE}/{file}")).unwrap_or_else(|error| panic!("{file}: {error}"))
}

/// What `explore` printed of each outcome, without the order that leads to it.
fn listed(printed: &str) -> BTreeSet<String> {
    let outcomes = printed.split("\n\n").filter(|part| part.starts_with("outcome "));
    outcomes
        .map(|outcome| {
            let (_, rest) = outcome.split_once('\n').expect("lines follow");
            let (told, _) = rest.split_once("order\n").expect("an order follows");
            told.to_string()
        })
        .collect()
}

fn outcomes_of_a_model(program: &Program, shares: Shares) -> BTreeSet<String> {
    let all = Mutex::new(BTreeSet::new());
    let builder = Builder { shares, deadlocks: Deadlocks::End, idle_polls: 0, ..Builder::new() };
    builder.exhaustive().check(|sim| {
        let outcome = running::run(program, sim);
        all.lock().unwrap().insert(outcome);
    });
    all.into_inner().unwrap()
}

#[test]
fn the_outcomes_of_a_model_are_those_that_explore_lists() {
    for name in PROGRAMS {
        let program = Program::read(&text(&format!("{name}.litmus")));
        let listed = listed(&text(&format!("{name}.litmus.stdout")));
        assert!(listed.len() >= 2, "{name} has several outcomes");
        for shares in [Shares::Everything, Shares::Memory, Shares::Sync] {
            assert_eq!(outcomes_of_a_model(&program, shares), listed, "{name}, {shares:?}");
        }
    }
}
