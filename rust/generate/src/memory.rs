//! The contents of the memories: filled at the start, stored and checked.

use crate::constants::{ALL, DMEM, IMEM, RAM_BITS};
use crate::generator::Generator;
use model::machine::{SP_RAMADDR, SP_RDLEN, SP_SPADDR, SP_WRLEN};
use model::recording::RDRAM_BYTES;

impl Generator {
    /// Puts data that does not repeat by any power of two in all memories.
    pub(crate) fn fill(&mut self) {
        let base = self.random.below(0x1000) & RAM_BITS;
        for i in 0..23 {
            let word = self.random.next_u64();
            self.store(base + 8 * i, word);
        }
        let mut bytes = 8 * 23;
        for _ in 0..5 {
            self.whole_transfer(SP_RDLEN, 0, base, bytes - 1);
            self.whole_transfer(SP_WRLEN, 0, base + bytes, bytes - 1);
            bytes *= 2;
        }
        self.whole_transfer(SP_RDLEN, 0, base, 0xFFF);
        // The SKIP moves each row against the bank by one more word.
        self.whole_transfer(SP_WRLEN, 0, 0, 8 << 20 | 7 << 12 | 0xFFF);
        self.whole_transfer(SP_RDLEN, 0x1000, 0x123 << 3, 0x10 << 20 | 1 << 12 | 0x7FF);
    }

    pub(crate) fn whole_transfer(&mut self, register: u32, bank: u32, ram: u32, word: u32) {
        self.write(SP_SPADDR, bank);
        self.write(SP_RAMADDR, ram);
        self.write(register, word);
        self.sp_run(ALL);
    }

    pub(crate) fn memory(&mut self) {
        for _ in 0..5 {
            let address = match self.random.below(6) {
                0 => self.random.below(RDRAM_BYTES as u32),
                1 => RDRAM_BYTES as u32 + self.random.below(0x100),
                2 => self.random.below(0x03F0_0000),
                3 => self.random.pick(&[0x0100_0000, 0x03EF_FFF8, 0x0080_0000]),
                4 => DMEM + self.random.below(0x1000),
                _ => IMEM + self.random.below(0x1000),
            };
            let address = address & !7;
            if self.random.once_in(2) {
                let word = self.random.next_u64();
                self.store(address, word);
            }
            self.check(address);
        }
        self.check_touched(2);
    }

    pub(crate) fn check_touched(&mut self, times: u32) {
        for _ in 0..times {
            let from = self.touched.len().saturating_sub(12);
            let address = match self.touched.get(from..) {
                Some(recent) if !recent.is_empty() => self.random.pick(recent),
                _ => self.random.pick(&[0, DMEM, IMEM]),
            };
            self.check(address);
        }
    }
}
