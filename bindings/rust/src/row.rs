//! The ids of a tracee.

use crate::library::{RowNumbers, RowsRefused};

/// The ids of a tracee.
///
/// ```
/// use pukzarn::Row;
///
/// let worker = Row { tid: 101, tgid: 100, pgid: 77, parent: Some(100) };
/// assert_eq!(worker.parent, Row::thread(101, 100, 100).parent);
/// assert_eq!(Row::root(100).tgid, 100);
/// ```
#[derive(Clone, Copy, Debug, PartialEq, Eq)]
pub struct Row {
    /// The thread's id, as a wait reports it.
    pub tid: u32,
    /// The thread group: the tid of its leader.
    pub tgid: u32,
    /// The process group.
    pub pgid: u32,
    /// The thread that creates it, None for a root.
    pub parent: Option<u32>,
}

impl Row {
    /// A process that no tracee creates, in a process group of its own.
    ///
    /// ```
    /// assert_eq!(pukzarn::Row::root(100).parent, None);
    /// ```
    pub const fn root(tid: u32) -> Row {
        Row { tid, tgid: tid, pgid: tid, parent: None }
    }

    /// A process that the root `parent` forks, in the process group that `parent` leads.
    ///
    /// ```
    /// assert_eq!(pukzarn::Row::child(101, 100).pgid, 100);
    /// ```
    pub const fn child(tid: u32, parent: u32) -> Row {
        Row { tid, tgid: tid, pgid: parent, parent: Some(parent) }
    }

    /// A thread of the group `tgid` that `parent` creates, in the process group that `tgid` leads.
    ///
    /// ```
    /// assert_eq!(pukzarn::Row::thread(101, 100, 100).tgid, 100);
    /// ```
    pub const fn thread(tid: u32, tgid: u32, parent: u32) -> Row {
        Row { tid, tgid, pgid: tgid, parent: Some(parent) }
    }

    pub(crate) fn numbers(self) -> RowNumbers {
        RowNumbers { tid: self.tid, tgid: self.tgid, pgid: self.pgid, parent: self.parent.unwrap_or(0) }
    }
}

/// The greatest id, as Linux has it.
const LAST_ID: u32 = 4_194_303;

/// What a test is told whose tracees are refused.
pub(crate) fn refusal_words(rows: &[RowNumbers], refused: RowsRefused) -> String {
    match refused {
        RowsRefused::Faulty(at) => {
            let RowNumbers { tid, tgid, pgid, parent } = rows[at];
            let parent = if parent == 0 { "no parent".into() } else { format!("parent {parent}") };
            let fault = fault_words(rows, at);
            format!("pukzarn: tracee {tid} (thread group {tgid}, process group {pgid}, {parent}) is refused: {fault}")
        }
        RowsRefused::Other(errno) => format!("pukzarn: {} tracees are refused: {errno}", rows.len()),
    }
}

/// Why a row is refused that is the first faulty one.
fn fault_words(rows: &[RowNumbers], at: usize) -> String {
    let RowNumbers { tid, tgid, pgid, parent } = rows[at];
    let is_id = |id: &u32| (1..=LAST_ID).contains(id);
    let (before, after) = (&rows[..at], &rows[at + 1..]);
    let has = |rows: &[RowNumbers], tid: u32| rows.iter().any(|row| row.tid == tid);
    if ![tid, tgid, pgid].iter().all(is_id) {
        return format!("ids are from 1 to {LAST_ID}");
    }
    if has(before, tid) {
        return "one that is declared before it has the same id".into();
    }
    match before.iter().find(|row| row.tid == parent) {
        None if parent == 0 => "a root leads its thread group, which has its own id".into(),
        None if has(after, parent) => "its parent is declared after it".into(),
        None => "its parent is not declared".into(),
        Some(of) if ![tid, of.tgid].contains(&tgid) => {
            format!("its thread group is neither its own, {tid}, nor its parent's, {}", of.tgid)
        }
        Some(of) => format!("its process group is not its parent's, {}", of.pgid),
    }
}

#[cfg(test)]
mod tests {
    use super::{Row, refusal_words};
    use crate::library::{Board, RowNumbers};

    #[test]
    fn a_row_is_refused_in_words() {
        let (root, other) = (Row::root(100), Row { tgid: 7, ..Row::root(100) });
        let cases: [(&[Row], &str); 7] = [
            (&[Row::root(0)], "ids are from 1 to 4194303"),
            (&[root, root], "one that is declared before it has the same id"),
            (&[other], "a root leads its thread group, which has its own id"),
            (&[Row::child(101, 100), root], "its parent is declared after it"),
            (&[root, Row::child(101, 102)], "its parent is not declared"),
            (&[root, Row { tgid: 99, ..Row::child(101, 100) }], "neither its own, 101, nor its parent's, 100"),
            (&[root, Row::child(101, 100), Row::child(102, 101)], "its process group is not its parent's, 100"),
        ];
        for (rows, words) in cases {
            let rows: Vec<RowNumbers> = rows.iter().map(|row| row.numbers()).collect();
            let refused = Board::open(&rows).err().unwrap_or_else(|| panic!("{rows:?} are taken"));
            let text = refusal_words(&rows, refused);
            assert!(text.ends_with(words), "{text}");
        }
    }

    #[test]
    fn a_refusal_has_all_ids() {
        let rows = [Row::child(101, 100).numbers()];
        let refused = Board::open(&rows).err().unwrap();
        assert_eq!(
            refusal_words(&rows, refused),
            "pukzarn: tracee 101 (thread group 101, process group 100, parent 100) is refused: its parent is not \
             declared"
        );
    }
}
