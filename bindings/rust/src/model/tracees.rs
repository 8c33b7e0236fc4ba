//! The tracees of a schedule: the board of their stops, and what is above it (options, restarts, kills, interrupts).
//!
//! Which rows a wait may be answered, and which call is refused, the board decides. Its states are kept here, so that a
//! decision asks it for nothing but the waits that a call since then may have changed.

use super::hash::mix;
use crate::context::{Published, Request};
use crate::end::Phase;
use crate::errno::Errno;
use crate::library::{Board, Record, RestartNumbers, RowNumbers, State, StopNumbers, Waited, kind, phase, wait};
use crate::row::refusal_words;
use crate::sim::Declared;
use crate::stop::FirstStop;

/// What is above the board, of one tracee.
struct Above {
    options: u32,
    restart: RestartNumbers,
    /// It stops as PTRACE_EVENT_STOP before its next stop.
    interrupted: bool,
    /// The death that it dies next.
    killed: Option<u32>,
    /// It was created where no option has its parent's children traced: nobody sees it.
    is_untraced: bool,
    /// A hash of all that tracers have written to its registers and memory.
    written: u64,
    /// Its registers and memory, once they are asked for.
    record: Option<Record>,
    /// The stop that the record is not told yet, with its number.
    due: Option<(u32, StopNumbers)>,
    /// A hash of the row, as it was last asked for.
    hash: u64,
    /// Whether the row was changed since.
    is_stale: bool,
}

impl Above {
    fn new(options: u32) -> Above {
        Above {
            options,
            restart: RestartNumbers::default(),
            interrupted: false,
            killed: None,
            is_untraced: false,
            written: 0,
            record: None,
            due: None,
            hash: 0,
            is_stale: false,
        }
    }

    /// A hash of a tracee's state on the board, and of what changes its next acts.
    fn hash_of(&self, state: State) -> u64 {
        let State { phase, number, tracer, status } = state;
        let killed = self.killed.map_or(0, |death| u64::from(death) << 1 | 1);
        let stop = u64::from(phase) << 32 | u64::from(number);
        let on_board = mix(stop, u64::from(tracer) << 32 | u64::from(status));
        let above = mix(killed << 1 | u64::from(self.interrupted), u64::from(self.options));
        mix(mix(on_board, above), self.written)
    }
}

/// The rows that a wait may be answered at a version of the board: how many, or the error.
struct Answered {
    request: Request,
    version: u64,
    many: Result<usize, Errno>,
    rows: Vec<u32>,
}

/// The tracer that claims in the place of one what none of the threads sees.
const STAND_IN: u32 = 0;

/// So many waits are kept from one schedule to the next.
const WAITS_KEPT: usize = 32;

pub(super) struct Tracees {
    pub(super) rows: Vec<RowNumbers>,
    first_stop: FirstStop,
    board: Board,
    states: Vec<State>,
    above: Vec<Above>,
    /// The sum of the rows' hashes, but for the changes of those that are stale.
    hash: u64,
    stale: Vec<usize>,
    version: u64,
    waits: Vec<Answered>,
}

impl Tracees {
    pub(super) fn none() -> Tracees {
        let (rows, states, above) = (Vec::new(), Vec::new(), Vec::new());
        let (stale, waits) = (Vec::new(), Vec::new());
        let first_stop = FirstStop::Event;
        Tracees { rows, first_stop, board: Board::closed(), states, above, hash: 0, stale, version: 0, waits }
    }

    /// Takes the rows of what is declared, all of them before their first stops. Panics where a row is refused.
    pub(super) fn begin(&mut self, declared: &mut Declared) {
        std::mem::swap(&mut self.rows, &mut declared.rows);
        self.first_stop = declared.first_stop;
        let rows = &self.rows;
        self.board = Board::open(rows).unwrap_or_else(|refused| panic!("{}", refusal_words(rows, refused)));
        self.states.clear();
        self.states.resize(rows.len(), State::default());
        self.above.clear();
        self.above.extend(rows.iter().map(|_| Above::new(declared.options)));
        self.stale.clear();
        self.hash = 0;
        // What is known of the waits of another schedule is so no more.
        self.version += 1;
        self.waits.truncate(WAITS_KEPT);
        (0..self.rows.len()).for_each(|row| self.refresh(row));
    }

    pub(super) fn row_of(&self, pid: i32) -> Option<usize> {
        let tid = u32::try_from(pid).ok()?;
        self.rows.iter().position(|row| row.tid == tid)
    }

    pub(super) fn state(&self, row: usize) -> State {
        self.states[row]
    }

    /// The record of a row's last stop.
    pub(super) fn record(&mut self, row: usize) -> &mut Record {
        let (tid, above) = (self.rows[row].tid, &mut self.above[row]);
        let record = above.record.get_or_insert_with(|| Record::open(tid).expect("a record can be opened"));
        if let Some((number, stop)) = above.due.take() {
            record.set_stop(number, stop).expect("the board has taken the stop");
        }
        record
    }

    pub(super) fn options(&self, row: usize) -> u32 {
        self.above[row].options
    }

    pub(super) fn first_stop(&self) -> FirstStop {
        self.first_stop
    }

    pub(super) fn set_options(&mut self, row: usize, options: u32) {
        self.above[row].options = options;
        self.was_changed(row);
    }

    /// A tracer has written to the record of a row's stop; the hash of what, which is 0 of nothing.
    pub(super) fn was_written(&mut self, row: usize, what: u64) {
        if what != 0 {
            let at = u64::from(self.states[row].number);
            self.above[row].written = mix(self.above[row].written, mix(at, what));
            self.was_changed(row);
        }
    }

    pub(super) fn last_restart(&self, row: usize) -> RestartNumbers {
        self.above[row].restart
    }

    pub(super) fn killed(&self, row: usize) -> Option<u32> {
        self.above[row].killed
    }

    /// Grows with each change of a row.
    pub(super) fn version(&self) -> u64 {
        self.version
    }

    /// A hash of all states, and of what is above them and changes what a tracee does next.
    pub(super) fn hash(&mut self) -> u64 {
        while let Some(row) = self.stale.pop() {
            let above = &mut self.above[row];
            let hash = mix(row as u64, above.hash_of(self.states[row]));
            self.hash = self.hash.wrapping_sub(above.hash).wrapping_add(hash);
            (above.hash, above.is_stale) = (hash, false);
        }
        self.hash
    }

    /// How many rows a wait may be answered now, or its error.
    pub(super) fn waitable(&mut self, request: Request) -> Result<usize, Errno> {
        self.answered(request).many
    }

    fn answered(&mut self, request: Request) -> &Answered {
        let known = self.waits.iter().position(|answered| answered.request.asks_as(request));
        let at = known.unwrap_or(self.waits.len());
        if known.is_none() {
            self.waits.push(Answered { request, version: 0, many: Ok(0), rows: Vec::new() });
        }
        let answered = &mut self.waits[at];
        if answered.version != self.version {
            answered.rows.resize(self.rows.len(), 0);
            answered.many = self.board.waitable(request.idtype, request.id, request.options, &mut answered.rows);
            answered.version = self.version;
        }
        answered
    }

    /// The first rows that a wait may be answered now, so many, in the order of the rows.
    pub(super) fn rows_of_wait(&mut self, request: Request, count: usize) -> &[u32] {
        &self.answered(request).rows[..count]
    }

    /// Answers a wait by one of the rows that it may be answered. Without WNOWAIT the tracer claims its stop or death.
    pub(super) fn answer(&mut self, request: Request, which: usize, tracer: u32) -> Result<Waited, Errno> {
        let answered = self.answered(request);
        answered.many?;
        let row = answered.rows[which] as usize;
        let state = self.states[row];
        if request.options & wait::WNOWAIT == 0 {
            self.claim(row, tracer);
        }
        let death = u32::from(state.phase == phase::DEAD);
        Ok(Waited { row: row as u32, tid: self.rows[row].tid, number: state.number, status: state.status, death })
    }

    pub(super) fn publish(&mut self, row: usize, stop: StopNumbers) -> (Result<u32, Errno>, Published) {
        let interrupted = std::mem::take(&mut self.above[row].interrupted);
        let stop = if interrupted { StopNumbers { kind: kind::START, value: 0 } } else { stop };
        let published = if interrupted { Published::Interrupted } else { Published::Wanted };
        let number = self.board.publish(row, stop);
        if let Ok(number) = number {
            self.above[row].due = Some((number, stop));
            self.refresh(row);
            if matches!(stop.kind, kind::FORK | kind::CLONE) {
                self.give_birth(row, stop.value);
            }
        }
        (number, published)
    }

    /// A child has its parent's options.
    fn give_birth(&mut self, parent: usize, child: u32) {
        if let Some(row) = self.rows.iter().position(|row| row.tid == child) {
            self.above[row].options = self.above[parent].options;
            self.refresh(row);
        }
    }

    /// A row has created a child that no option traces. On the board, which has children born in their order, its event
    /// is claimed and restarted from, and it dies and is reaped, all at once: nobody else acts in between, and no wait
    /// is answered either. Nothing where it is not the next child that the row has: it is not declared.
    pub(super) fn create_untraced(&mut self, row: usize, birth: StopNumbers) {
        if self.board.publish(row, birth).is_err() {
            return;
        }
        let child = self.rows.iter().position(|row| row.tid == birth.value).expect("the board knows the child");
        self.claim(row, STAND_IN);
        let resumed = self.resume(row, STAND_IN, self.last_restart(row));
        let exited = self.exit(child, 0);
        assert!(resumed.is_ok() && exited.is_ok(), "pukzarn: the board refuses an untraced child");
        self.claim(child, STAND_IN);
        self.above[child].is_untraced = true;
    }

    pub(super) fn resume(&mut self, row: usize, tracer: u32, how: RestartNumbers) -> Result<(), Errno> {
        self.board.resume(row, tracer, how)?;
        self.above[row].restart = how;
        self.refresh(row);
        Ok(())
    }

    /// Claims a stop or death that the board said may be claimed.
    pub(super) fn claim(&mut self, row: usize, tracer: u32) {
        let got = self.board.claim(row, tracer);
        assert!(got.is_ok(), "pukzarn: the board refuses a claim that it offered: {got:?}");
        self.refresh(row);
    }

    /// Whether a row's exit would not be refused: a leader ends after its threads.
    pub(super) fn may_exit(&self, row: usize) -> bool {
        let ids = self.rows[row];
        ids.tid != ids.tgid || !self.living_others(row).any(|_| true)
    }

    pub(super) fn exit(&mut self, row: usize, status: u32) -> Result<(), Errno> {
        self.board.exit(row, status)?;
        self.refresh(row);
        Ok(())
    }

    /// The other rows of a row's thread group that are alive.
    fn living_others(&self, row: usize) -> impl Iterator<Item = usize> + '_ {
        let tgid = self.rows[row].tgid;
        (0..self.rows.len())
            .filter(move |other| *other != row && self.rows[*other].tgid == tgid && self.is_alive(*other))
    }

    fn is_alive(&self, row: usize) -> bool {
        matches!(self.states[row].phase, phase::RUNNING | phase::STOPPED | phase::CLAIMED)
    }

    /// ESRCH where a tracee is not born, or was reaped.
    pub(super) fn find(&self, row: usize) -> Result<(), Errno> {
        let is_there = self.is_alive(row) || self.states[row].phase == phase::DEAD;
        if is_there { Ok(()) } else { Err(Errno::ESRCH) }
    }

    /// The rows of a row's thread group that are alive, with or without itself.
    pub(super) fn group(&self, row: usize, with_itself: bool) -> Vec<usize> {
        self.living_others(row).chain((with_itself && self.is_alive(row)).then_some(row)).collect()
    }

    /// A row that is alive is to die. One that is stopped or claimed is restarted in its tracer's place: on the board
    /// these are a claim and a restart as any others, but nobody else acts between them.
    pub(super) fn kill(&mut self, row: usize, status: u32) {
        self.settle_death(row, status);
        let state = self.states[row];
        if state.phase == phase::STOPPED {
            self.claim(row, state.tracer);
        }
        if state.phase != phase::RUNNING {
            let resumed = self.resume(row, state.tracer, RestartNumbers::default());
            assert!(resumed.is_ok(), "pukzarn: the board refuses a restart of who has claimed: {resumed:?}");
        }
        self.refresh(row);
    }

    /// A row dies by this next, whatever kills it until then.
    pub(super) fn settle_death(&mut self, row: usize, status: u32) {
        self.above[row].killed.get_or_insert(status);
        // Who is to die makes no stop of an interrupt any more.
        self.above[row].interrupted = false;
        self.was_changed(row);
    }

    /// Whether a tracee stops before its next act.
    pub(super) fn is_interrupted(&self, row: usize) -> bool {
        self.above[row].interrupted
    }

    /// A running tracee stops before its next act; one that is stopped does not. EIO where it was not seized.
    pub(super) fn interrupt(&mut self, row: usize) -> Result<(), Errno> {
        self.find(row)?;
        if self.first_stop == FirstStop::Sigstop {
            return Err(Errno::EIO);
        }
        let above = &mut self.above[row];
        above.interrupted |= self.states[row].phase == phase::RUNNING && above.killed.is_none();
        self.refresh(row);
        Ok(())
    }

    /// Takes over what the board says of a row.
    fn refresh(&mut self, row: usize) {
        self.states[row] = self.board.state(row);
        self.was_changed(row);
        self.version += 1;
    }

    fn was_changed(&mut self, row: usize) {
        if !std::mem::replace(&mut self.above[row].is_stale, true) {
            self.stale.push(row);
        }
    }

    /// The tids and what each is doing.
    pub(super) fn phases(&self) -> Vec<(u32, Phase)> {
        let phase_of = |(state, above): (&State, &Above)| match state.phase {
            _ if above.is_untraced => Phase::Unborn,
            phase::UNBORN => Phase::Unborn,
            phase::RUNNING => Phase::Running,
            phase::STOPPED => Phase::Stopped,
            phase::CLAIMED => Phase::Claimed { tracer: state.tracer },
            phase::DEAD => Phase::Dead,
            _ => Phase::Reaped,
        };
        let phases = self.states.iter().zip(&self.above).map(phase_of);
        self.rows.iter().map(|row| row.tid).zip(phases).collect()
    }
}
