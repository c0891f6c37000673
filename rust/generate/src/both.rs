//! Sequences about both engines at once.

use crate::constants::{ALL, CLEAR_XBUS, RAM_BITS, SET_XBUS};
use crate::generator::Generator;
use model::machine::{
    DP_CURRENT, DP_STATUS, REGISTERS, SP_RAMADDR, SP_RDLEN, SP_SPADDR, SP_STATUS, SP_WRLEN,
};
use model::recording::Record;

impl Generator {
    /// A list and a transfer at once. Mostly the SP writes where the list has yet to be fetched, so
    /// that the order of their turns decides.
    pub(crate) fn list_and_transfer(&mut self) {
        let xbus = self.random.pick(&[CLEAR_XBUS, SET_XBUS]);
        self.make_ready(xbus);
        let (start, _) = self.begin_list(14);
        if self.random.once_in(3) {
            self.begin_list(3);
        }
        self.run(ALL, 0);
        self.write_spaddr_and_ramaddr();
        if !self.random.once_in(3) {
            self.aim_at(start);
        }
        let words = 1 + self.random.below(24);
        let into_bank = self.machine.dp.xbus;
        let register = if into_bank { SP_RDLEN } else { SP_WRLEN };
        self.write(register, 8 * words - 1);
        let mut budgets = (8 + self.random.below(8), 4 + self.random.below(12));
        for _ in 0..3 {
            self.run(budgets.0, budgets.1);
            budgets = (self.budget(), self.budget());
            self.read_one_of(&[SP_RAMADDR, SP_RDLEN, SP_STATUS]);
            self.read_one_of(&[DP_CURRENT, DP_STATUS]);
        }
        self.run(ALL, ALL);
        self.read(DP_STATUS);
        self.check_touched(2);
    }

    /// Lets the next transfer write from a few words before the start of a list or after it on: the
    /// DP is ahead of the SP there, or behind it.
    pub(crate) fn aim_at(&mut self, start: u32) {
        let ahead = 8 * self.random.below(8);
        let address = (start + ahead).wrapping_sub(0x20) & RAM_BITS;
        if self.machine.dp.xbus {
            self.write(SP_SPADDR, address & 0xFF8);
        } else {
            self.write(SP_RAMADDR, address);
        }
    }

    /// Both engines by turns, with no plan.
    pub(crate) fn mixed(&mut self) {
        for _ in 0..16 {
            let register = self.random.pick(&REGISTERS);
            let budget = self.budget();
            match self.random.below(10) {
                0..=3 => {
                    let value = self.fitting_value(register);
                    self.write(register, value);
                }
                4 | 5 => self.read(register),
                6 => self.sp_run(budget),
                7 => self.dp_run(budget),
                8 => self.check_touched(1),
                _ => {
                    let other = [Record::Break, Record::Acknowledge];
                    let record = self.random.pick(&other);
                    self.put(record);
                }
            }
        }
        self.sp_run(ALL);
    }
}
