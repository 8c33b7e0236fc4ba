//! The record of a stop, as a tracer's calls on it: what they write adds to the situation.

use super::hash::{hash_of, mix};
use crate::errno::Errno;
use crate::library::{Record, RecordCalls, Regs, StopNumbers};

pub(super) struct Watched<'a> {
    record: &'a mut Record,
    written: u64,
}

impl Watched<'_> {
    pub(super) fn new(record: &mut Record) -> Watched<'_> {
        Watched { record, written: 0 }
    }

    /// A hash of what was written, in its order; 0 where nothing was.
    pub(super) fn written(&self) -> u64 {
        self.written
    }
}

impl RecordCalls for Watched<'_> {
    fn stop(&mut self) -> Result<(u32, StopNumbers), Errno> {
        RecordCalls::stop(self.record)
    }

    fn message(&mut self) -> Result<u64, Errno> {
        RecordCalls::message(self.record)
    }

    fn getregs(&mut self) -> Result<Regs, Errno> {
        RecordCalls::getregs(self.record)
    }

    fn setregs(&mut self, regs: &Regs) -> Result<(), Errno> {
        self.written = mix(self.written, hash_of(regs));
        RecordCalls::setregs(self.record, regs)
    }

    fn read(&mut self, addr: u64, to: &mut [u8]) -> Result<usize, Errno> {
        RecordCalls::read(self.record, addr, to)
    }

    fn write(&mut self, addr: u64, from: &[u8]) -> Result<(), Errno> {
        self.written = mix(self.written, hash_of(&(addr, from)));
        RecordCalls::write(self.record, addr, from)
    }

    fn syscall_info(&mut self, to: &mut [u8]) -> Result<usize, Errno> {
        RecordCalls::syscall_info(self.record, to)
    }
}
