//! The texts of the crate in the words of C.

/// What the crate says, and what it is called in C.
const WORDS: &[(&str, &str)] = &[
    (" panicked: pukzarn: ", " failed: "),
    (" panicked: ", " failed: "),
    ("`exhaustive`", "PUKZARN_ALL"),
    ("Sim::run", "pukzarn_sim_run"),
    ("max_schedules", "the number of schedules"),
    ("`forget`", "`pukzarn_forget`"),
    ("pukzarn::forget", "pukzarn_forget"),
    ("Sim::kills", "pukzarn_sim_kills"),
    ("only what is of pukzarn::sync", "nothing"),
    ("nothing but what is of pukzarn::sync", "nothing"),
    ("Shares::Sync", "PUKZARN_SHARE_NOTHING"),
    ("a lock of std", "a lock"),
    ("Locks of pukzarn::sync may be held over calls", "A lock may not be held over a simulated call"),
    ("pukzarn::thread::yield_now or sleep", "sched_yield or sleep"),
];

pub(crate) fn in_c(text: &str) -> String {
    WORDS.iter().fold(text.to_string(), |text, (of_rust, of_c)| text.replace(of_rust, of_c))
}
