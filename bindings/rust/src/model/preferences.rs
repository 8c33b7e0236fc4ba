//! Whose call is made, and which tracee a wait is answered, where nothing else is decided.
//!
//! The tracees come first, in the order of the rows, then the tracer's threads in the order in which they began; and a
//! wait is answered the first row. To decide otherwise is a deviation, and it stays: who was taken in the place of
//! another is preferred to it from then on. So a child that lives its whole life before its parent is heard of takes
//! few deviations, not one for each of its calls.

/// Actors or rows, those that are preferred first.
#[derive(Default, Hash)]
struct Order(Vec<u16>);

impl Order {
    /// Moves one that was taken before the one in whose place it was taken.
    fn prefer(&mut self, taken: u16, to: u16) {
        let place = |wanted: u16| self.0.iter().position(|other| *other == wanted);
        if let (Some(from), Some(before)) = (place(taken), place(to))
            && before < from
        {
            self.0[before..=from].rotate_right(1);
        }
    }
}

/// What a deviation prefers from then on: what was taken, to what it was taken for.
#[derive(Clone, Copy, Debug, PartialEq, Eq)]
pub(super) struct Preferred {
    pub(super) actor: u16,
    pub(super) to_actor: u16,
    /// A row to another, where it is also another answer of a wait.
    pub(super) rows: Option<(u32, u32)>,
}

#[derive(Default, Hash)]
pub(super) struct Preferences {
    actors: Order,
    rows: Order,
    /// Whether another row than the first was ever preferred.
    rows_moved: bool,
}

impl Preferences {
    /// Begins with so many rows and no actors.
    pub(super) fn begin(&mut self, rows: usize) {
        self.actors.0.clear();
        self.rows.0.clear();
        self.rows.0.extend(0..rows as u16);
        self.rows_moved = false;
    }

    /// A further actor, which comes last.
    pub(super) fn add_actor(&mut self, actor: usize) {
        self.actors.0.push(actor as u16);
    }

    /// The actor of this place in the order.
    pub(super) fn actor(&self, place: usize) -> usize {
        usize::from(self.actors.0[place])
    }

    pub(super) fn prefer(&mut self, preferred: Preferred) {
        self.actors.prefer(preferred.actor, preferred.to_actor);
        if let Some((row, to)) = preferred.rows {
            self.rows.prefer(row as u16, to as u16);
            self.rows_moved = true;
        }
    }

    /// Whether rows are preferred in another order than their own.
    pub(super) fn has_moved_rows(&self) -> bool {
        self.rows_moved
    }

    /// The numbers of these rows in the list, those that are preferred first.
    pub(super) fn sorted(&self, rows: &[u32]) -> impl Iterator<Item = usize> + '_ {
        let mut numbers: Vec<usize> = (0..rows.len()).collect();
        let rank = |row: u32| self.rows.0.iter().position(|other| u32::from(*other) == row);
        numbers.sort_by_key(|number| rank(rows[*number]));
        numbers.into_iter()
    }
}

#[cfg(test)]
mod tests {
    use super::{Preferences, Preferred};

    fn preferences() -> Preferences {
        let mut preferences = Preferences::default();
        preferences.begin(3);
        (0..3).for_each(|actor| preferences.add_actor(actor));
        preferences
    }

    #[test]
    fn who_is_taken_stays_before_whom_it_was_taken_for() {
        let mut preferences = preferences();
        let prefer = |preferences: &mut Preferences, actor, to_actor| {
            preferences.prefer(Preferred { actor, to_actor, rows: None });
        };
        prefer(&mut preferences, 2, 1);
        assert_eq!([0, 1, 2].map(|place| preferences.actor(place)), [0, 2, 1]);
        prefer(&mut preferences, 2, 0);
        assert_eq!([0, 1, 2].map(|place| preferences.actor(place)), [2, 0, 1]);
        // It is before that one already.
        prefer(&mut preferences, 2, 1);
        assert_eq!([0, 1, 2].map(|place| preferences.actor(place)), [2, 0, 1]);
    }

    #[test]
    fn rows_are_answered_as_they_are_preferred() {
        let mut preferences = preferences();
        assert_eq!(preferences.sorted(&[0, 2]).collect::<Vec<_>>(), [0, 1]);
        preferences.prefer(Preferred { actor: 0, to_actor: 0, rows: Some((2, 0)) });
        assert_eq!(preferences.sorted(&[0, 2]).collect::<Vec<_>>(), [1, 0]);
        assert_eq!(preferences.sorted(&[0, 1, 2]).collect::<Vec<_>>(), [2, 0, 1]);
    }
}
