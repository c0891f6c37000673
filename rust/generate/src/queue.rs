//! Sequences in which words stay queued behind a run.

use crate::constants::{
    ALL, CLEAR_FLUSH, CLEAR_FREEZE, CLEAR_XBUS, DMEM, RAM_BITS, SET_FLUSH, SET_FREEZE, SET_XBUS,
};
use crate::generator::Generator;
use model::machine::{DP_CURRENT, DP_END, DP_STATUS, SP_RAMADDR, SP_RDLEN, SP_WRLEN};
use model::recording::RDRAM_BYTES;

impl Generator {
    /// A list over what stands in memory, and longer than a run's output: words stay queued behind
    /// the run, and mostly for other sequences, too. One of them is a SYNC_FULL.
    pub(crate) fn words_stay_queued(&mut self) {
        let xbus = self.random.pick(&[CLEAR_XBUS, SET_XBUS]);
        self.make_ready(xbus);
        let words = 258 + self.random.below(60);
        let start = self.random.below(RDRAM_BYTES as u32 - 8 * words) & RAM_BITS;
        let late = start + 8 * (256 + self.random.below(words - 256));
        let sync_full = self.command(0x29)[0];
        let place = if self.machine.dp.xbus {
            DMEM + late % 0x1000
        } else {
            late
        };
        self.store(place, sync_full);
        self.write_list((start, start + 8 * words));
        let few = 257 + self.random.below(34);
        let budget = self.random.pick(&[ALL, few, few]);
        self.dp_run(budget);
        self.read(DP_STATUS);
        for _ in 0..3 + self.random.below(5) {
            self.beside_queued_words();
        }
        if self.random.once_in(4) {
            self.dp_run(ALL);
            self.read(DP_STATUS);
        }
    }

    /// A step that words which are queued have a part in, or may lose by.
    pub(crate) fn beside_queued_words(&mut self) {
        match self.random.below(12) {
            0 | 1 => self.read_one_of(&[DP_STATUS, DP_CURRENT]),
            2 | 3 => self.tick_and_read(),
            4..=6 => {
                let budget = self.random.below(7);
                self.dp_run(budget);
                self.read(DP_STATUS);
            }
            7 => {
                self.write(DP_STATUS, SET_FREEZE);
                self.dp_run(ALL);
                self.read(DP_STATUS);
                self.write(DP_STATUS, CLEAR_FREEZE);
            }
            8 => {
                self.begin_list(2);
                self.read(DP_STATUS);
            }
            9 => {
                let end = self.machine.dp.current + 8 * self.random.below(40);
                self.write(DP_END, end);
            }
            10 => self.transfer_beside_queued_words(),
            _ => {
                let others = self.random.next_u32() & 0x3CF;
                self.write(DP_STATUS, SET_FLUSH | others);
                self.read(DP_STATUS);
                self.write(DP_STATUS, CLEAR_FLUSH | CLEAR_FREEZE);
            }
        }
    }

    /// A transfer that writes near CURRENT: fetches that a full queue holds back see more of it.
    pub(crate) fn transfer_beside_queued_words(&mut self) {
        self.run(ALL, 0);
        self.write_spaddr_and_ramaddr();
        let current = self.machine.dp.current;
        self.aim_at(current);
        let words = 1 + self.random.below(12);
        let into_bank = self.machine.dp.xbus;
        let register = if into_bank { SP_RDLEN } else { SP_WRLEN };
        self.write(register, 8 * words - 1);
        let budgets = (1 + self.random.below(8), 1 + self.random.below(8));
        self.run(budgets.0, budgets.1);
        self.read_one_of(&[DP_STATUS, DP_CURRENT, SP_RAMADDR]);
    }
}
