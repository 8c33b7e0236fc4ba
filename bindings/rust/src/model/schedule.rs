//! The text of a schedule, `NAME#k:1,2.1`: the test, which of its models from 1, and the decisions.
//!
//! A decision is the number of an actor, and with a dot which of the answers that its call may have, where that is not
//! the first. `3x4` is four times 3, and `-` is none. A longer run than MOST_TIMES is several words.

use std::cell::Cell;
use std::fmt;

/// An actor, and which of the answers that its call may have.
#[derive(Clone, Copy, Debug, PartialEq, Eq, Hash)]
pub(super) struct Decision {
    pub(super) actor: u16,
    pub(super) answer: u16,
}

/// Which model of which test this is.
#[derive(Clone, Debug, PartialEq, Eq)]
pub(super) struct Place {
    /// The name of the test's thread.
    pub(super) test: String,
    /// From 1.
    pub(super) number: u32,
}

thread_local! {
    /// How many models this thread has begun.
    static MODELS: Cell<u32> = const { Cell::new(0) };
}

impl Place {
    /// The model that the calling thread begins next.
    pub(super) fn ahead() -> Place {
        let test = std::thread::current().name().unwrap_or("main").to_string();
        Place { test, number: MODELS.get() + 1 }
    }

    /// The same, which begins now.
    pub(super) fn next() -> Place {
        let place = Place::ahead();
        MODELS.set(place.number);
        place
    }
}

impl fmt::Display for Place {
    fn fmt(&self, f: &mut fmt::Formatter<'_>) -> fmt::Result {
        write!(f, "{}#{}", self.test, self.number)
    }
}

/// A word is at most so many equal decisions, so that a mistyped text cannot ask for endless memory.
const MOST_TIMES: usize = u16::MAX as usize;

/// The text of a schedule of a model.
pub(super) fn spell(place: &Place, decisions: &[Decision]) -> String {
    let mut words = Vec::new();
    for run in decisions.chunk_by(|one, next| one == next).flat_map(|run| run.chunks(MOST_TIMES)) {
        let Decision { actor, answer } = run[0];
        let answer = if answer > 0 { format!(".{answer}") } else { String::new() };
        let times = if run.len() > 1 { format!("x{}", run.len()) } else { String::new() };
        words.push(format!("{actor}{answer}{times}"));
    }
    let words = if words.is_empty() { "-".to_string() } else { words.join(",") };
    format!("{place}:{words}")
}

/// The model and the decisions of a text, None where it is none.
pub(super) fn parse(text: &str) -> Option<(Place, Vec<Decision>)> {
    let (test, rest) = text.rsplit_once('#')?;
    let (number, words) = rest.split_once(':')?;
    let mut decisions = Vec::new();
    for word in words.split(',').filter(|_| words != "-") {
        let (decision, times) = word.split_once('x').unwrap_or((word, "1"));
        let (actor, answer) = decision.split_once('.').unwrap_or((decision, "0"));
        let decision = Decision { actor: actor.parse().ok()?, answer: answer.parse().ok()? };
        decisions.extend(std::iter::repeat_n(decision, usize::from(times.parse::<u16>().ok()?)));
    }
    Some((Place { test: test.to_string(), number: number.parse().ok()? }, decisions))
}

#[cfg(test)]
mod tests {
    use super::{Decision, Place, parse, spell};

    fn decisions(pairs: &[(u16, u16)]) -> Vec<Decision> {
        pairs.iter().map(|&(actor, answer)| Decision { actor, answer }).collect()
    }

    #[test]
    fn a_schedule_is_read_as_it_was_written() {
        let place = Place { test: "loops::a_test".into(), number: 2 };
        let rows: [(&[(u16, u16)], &str); 5] = [
            (&[], "loops::a_test#2:-"),
            (&[(1, 0)], "loops::a_test#2:1"),
            (&[(1, 0), (2, 1)], "loops::a_test#2:1,2.1"),
            (&[(3, 0), (3, 0), (3, 0), (1, 0)], "loops::a_test#2:3x3,1"),
            (&[(3, 2), (3, 2), (3, 0)], "loops::a_test#2:3.2x2,3"),
        ];
        for (pairs, text) in rows {
            let decisions = decisions(pairs);
            assert_eq!(spell(&place, &decisions), text);
            assert_eq!(parse(text), Some((place.clone(), decisions)));
        }
    }

    #[test]
    fn a_run_of_any_length_is_read_as_it_was_written() {
        let place = Place { test: "a_test".into(), number: 1 };
        for (length, words) in [(65_535, "3x65535"), (65_536, "3x65535,3"), (150_000, "3x65535,3x65535,3x18930")] {
            let decisions = decisions(&vec![(3, 0); length]);
            let text = spell(&place, &decisions);
            assert_eq!(text, format!("a_test#1:{words}"));
            assert_eq!(parse(&text), Some((place.clone(), decisions)), "{length} decisions");
        }
    }

    #[test]
    fn the_name_of_a_test_may_have_the_signs_of_a_schedule() {
        for name in ["a#1", "a#b", "#", "case 1,2.1"] {
            let place = Place { test: name.into(), number: 3 };
            let text = spell(&place, &decisions(&[(1, 0)]));
            assert_eq!(parse(&text), Some((place, decisions(&[(1, 0)]))), "{text}");
        }
    }

    #[test]
    fn what_is_no_schedule_is_refused() {
        for text in
            ["", "1,2.1", "a#1", "a#x:1", "a#1:", "a#1:1,,2", "a#1:1.", "a#1:1x", "a#1:x2", "a#1:-1", "a#1:70000"]
        {
            assert_eq!(parse(text), None, "{text}");
        }
    }
}
