//! Sequences about the SP engine: transfers, its status, BREAK and the semaphore.

use crate::constants::{ALL, DMEM, RAM_BITS, SP_BITS};
use crate::generator::Generator;
use model::machine::{
    SP_DMA_BUSY, SP_DMA_FULL, SP_RAMADDR, SP_RDLEN, SP_SEMAPHORE, SP_SPADDR, SP_STATUS, SP_WRLEN,
};
use model::recording::Record;

/// Sequences.
impl Generator {
    pub(crate) fn transfer(&mut self) {
        for _ in 0..2 {
            self.write_spaddr_and_ramaddr();
            self.write_length();
            for _ in 0..self.random.below(3) {
                let budget = self.budget();
                self.sp_run(budget);
                self.read_sp_progress();
            }
            self.sp_run(ALL);
            self.read_sp_progress();
            self.check_touched(3);
        }
    }

    pub(crate) fn waiting_transfers(&mut self) {
        self.write_spaddr_and_ramaddr();
        self.write(SP_RDLEN, 0x0100_2017);
        let budget = self.random.below(5);
        self.sp_run(budget);
        self.write_spaddr_and_ramaddr();
        self.write_length();
        self.read(SP_DMA_FULL);
        self.read(SP_STATUS);
        if self.random.once_in(2) {
            self.write_spaddr_and_ramaddr();
        }
        if self.random.once_in(2) {
            self.write_length();
        }
        self.read_sp_progress();
        // Stop near the turn in which the waiting transfer starts.
        let budget = 5 + self.random.below(8);
        self.sp_run(budget);
        self.read(SP_SPADDR);
        self.read_sp_progress();
        self.sp_run(ALL);
        self.read(SP_DMA_BUSY);
        self.read_sp_progress();
        self.check_touched(4);
    }

    pub(crate) fn sp_status(&mut self) {
        for _ in 0..3 {
            let value = match self.random.below(4) {
                0 => self.random.next_u32(),
                1 => {
                    3 << self
                        .random
                        .pick(&[0, 3, 5, 7, 9, 11, 13, 15, 17, 19, 21, 23])
                }
                2 => 0x00AA_AAAA & self.random.next_u32() | 0x0000_0100,
                _ => 1 << self.random.below(25),
            };
            self.write(SP_STATUS, value);
            self.read(SP_STATUS);
        }
    }

    pub(crate) fn breaks(&mut self) {
        for intbreak in [0x100, 0x80] {
            let others = self.random.pick(&[0, 0x1, 0x4, 0xD, 0x8]);
            self.write(SP_STATUS, intbreak | others);
            self.put(Record::Break);
            self.read(SP_STATUS);
        }
    }

    pub(crate) fn semaphore(&mut self) {
        for _ in 0..2 + self.random.below(3) {
            self.read(SP_SEMAPHORE);
            if self.random.once_in(2) {
                let value = self.random.next_u32();
                self.write(SP_SEMAPHORE, value);
            }
        }
    }
}

/// Steps of transfers, which other sequences take, too.
impl Generator {
    pub(crate) fn write_spaddr_and_ramaddr(&mut self) {
        let bank = self.sp_address();
        let ram = self.ram_address();
        let bank_value = self.with_unused_bits(bank, SP_BITS);
        let ram_value = self.with_unused_bits(ram, RAM_BITS);
        self.write(SP_SPADDR, bank_value);
        self.write(SP_RAMADDR, ram_value);
        for ahead in [0, 8, 0x40] {
            self.touched.push((ram + ahead) % (1 << 24));
            self.touched
                .push(DMEM + (bank & 0x1000) + (bank + ahead) % 0x1000);
        }
    }

    pub(crate) fn write_length(&mut self) {
        let register = self.random.pick(&[SP_RDLEN, SP_WRLEN]);
        let word = self.length_word();
        self.write(register, word);
    }

    pub(crate) fn read_sp_progress(&mut self) {
        self.read_one_of(&[SP_SPADDR, SP_RAMADDR]);
        self.read_one_of(&[SP_RDLEN, SP_WRLEN]);
        self.read_one_of(&[SP_STATUS, SP_DMA_FULL, SP_DMA_BUSY]);
    }
}
