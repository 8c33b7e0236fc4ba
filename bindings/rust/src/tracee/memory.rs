//! The registers and the memory of a tracee that a closure plays.

use super::Tracee;
use crate::Result;
use crate::context;
use crate::library::{TraceeRecord, user_regs_struct};

const PAGE: u64 = 4096;

impl Tracee {
    /// The registers, as the tracer left them at the last stop.
    ///
    /// ```
    /// pukzarn::model(|sim| {
    ///     sim.tracee(pukzarn::Row::root(100), |tracee| {
    ///         assert_eq!(tracee.registers().rax, 0);
    ///         Ok(())
    ///     });
    ///     sim.run();
    /// });
    /// ```
    pub fn registers(&self) -> user_regs_struct {
        let mut registers = user_regs_struct::default();
        self.with_record(|record| record.getregs().map(|at| registers = at)).expect("registers can be read");
        registers
    }

    /// Sets the registers, which the tracer sees at the next stop.
    ///
    /// ```
    /// pukzarn::model(|sim| {
    ///     sim.tracee(pukzarn::Row::root(100), |tracee| {
    ///         let mut registers = tracee.registers();
    ///         registers.rip = 0x401000;
    ///         tracee.set_registers(&registers);
    ///         assert_eq!(tracee.registers().rip, 0x401000);
    ///         Ok(())
    ///     });
    ///     sim.run();
    /// });
    /// ```
    pub fn set_registers(&mut self, registers: &user_regs_struct) {
        self.with_record(|record| record.setregs(registers)).expect("registers take any values");
    }

    /// Maps the pages that these bytes lie in, where they are not mapped, as zeros.
    ///
    /// # Errors
    /// ENOSPC: 256 pages are mapped. ENOMEM.
    ///
    /// ```
    /// pukzarn::model(|sim| {
    ///     sim.tracee(pukzarn::Row::root(100), |tracee| {
    ///         tracee.map_memory(0x10ff8, 16)?;
    ///         let mut bytes = [1; 16];
    ///         assert_eq!(tracee.read_memory(0x10ff8, &mut bytes), 16);
    ///         assert_eq!(bytes, [0; 16]);
    ///         Ok(())
    ///     });
    ///     sim.run();
    /// });
    /// ```
    pub fn map_memory(&mut self, address: u64, length: u64) -> Result<()> {
        let first = address / PAGE;
        let last = address.saturating_add(length.max(1) - 1) / PAGE;
        for page in first..=last {
            match self.with_record(|record| record.map(page * PAGE)) {
                Ok(()) | Err(crate::Errno::EEXIST) => {}
                Err(errno) => return Err(errno),
            }
        }
        Ok(())
    }

    /// Writes bytes, which have to be mapped: all of them or none.
    ///
    /// # Errors
    /// EIO: some of them are not mapped.
    ///
    /// ```
    /// pukzarn::model(|sim| {
    ///     sim.tracee(pukzarn::Row::root(100), |tracee| {
    ///         tracee.map_memory(0x10000, 4)?;
    ///         tracee.write_memory(0x10000, b"/tmp")
    ///     });
    ///     sim.run();
    /// });
    /// ```
    pub fn write_memory(&mut self, address: u64, bytes: &[u8]) -> Result<()> {
        self.with_record(|record| record.write(address, bytes))
    }

    /// Copies bytes up to the first that is not mapped, and answers how many they are.
    ///
    /// ```
    /// pukzarn::model(|sim| {
    ///     sim.tracee(pukzarn::Row::root(100), |tracee| {
    ///         assert_eq!(tracee.read_memory(0x10000, &mut [0; 4]), 0);
    ///         Ok(())
    ///     });
    ///     sim.run();
    /// });
    /// ```
    pub fn read_memory(&self, address: u64, to: &mut [u8]) -> usize {
        let mut length = 0;
        self.with_record(|record| record.read(address, to).map(|many| length = many)).expect("memory can be read");
        length
    }

    pub(super) fn change_registers(&mut self, change: impl FnOnce(&mut user_regs_struct)) {
        let mut registers = self.registers();
        change(&mut registers);
        self.set_registers(&registers);
    }

    fn with_record<T>(&self, call: impl FnOnce(&mut dyn TraceeRecord) -> Result<T>) -> Result<T> {
        let (mut call, mut answer) = (Some(call), None);
        context::calls().with_record(self.row, &mut |record| {
            if let Some(call) = call.take() {
                answer = Some(call(record));
            }
        });
        answer.expect("a tracee's thread has its record")
    }
}
