//! Values that are often near an edge: addresses, lengths, budgets and ticks.

use crate::constants::{ALL, RAM_BITS, SP_BITS};
use crate::generator::Generator;
use model::machine::{DP_END, DP_START, SP_RAMADDR, SP_RDLEN, SP_SPADDR, SP_WRLEN};
use model::recording::RDRAM_BYTES;

/// SP words after which only small transfers are made, to keep replays fast.
const MANY_SP_WORDS: u32 = 1_200_000;

impl Generator {
    /// A multiple of 8 in 24 bits: mostly in RDRAM, else about its end, past it, or just below
    /// 2^24.
    pub(crate) fn ram_address(&mut self) -> u32 {
        let random = &mut self.random;
        let address = match random.below(10) {
            0..=5 => random.below(RDRAM_BYTES as u32),
            6 => RDRAM_BYTES as u32 - 0x80 + random.below(0x100),
            7 => random.below(1 << 24),
            8 => 0x00FF_FFC0 + random.below(0x40),
            _ => RDRAM_BYTES as u32 + random.below(0x1000),
        };
        address & RAM_BITS
    }

    /// A bank (bit 12) and an offset, often so near the end that it wraps.
    pub(crate) fn sp_address(&mut self) -> u32 {
        let bank = self.random.pick(&[0, 0x1000]);
        let offset = match self.random.below(3) {
            0 => 0xF80 + self.random.below(0x80),
            1 => self.random.below(0x100),
            _ => self.random.below(0x1000),
        };
        (bank | offset) & SP_BITS
    }

    /// Half of the time, random bits where a register keeps none.
    pub(crate) fn with_unused_bits(&mut self, value: u32, kept: u32) -> u32 {
        if self.random.once_in(2) {
            value
        } else {
            value & kept | self.random.next_u32() & !kept
        }
    }

    pub(crate) fn length_word(&mut self) -> u32 {
        let random = &mut self.random;
        let (skip, count, len) = match random.below(16) {
            0 if self.sp_words < MANY_SP_WORDS => return random.next_u32(),
            1 | 2 => (random.below(0x1000), random.below(4), random.below(0x1000)),
            3 | 4 => (random.below(0x1000), random.below(256), random.below(8)),
            5 | 6 => (0, 0, random.below(0x80)),
            _ => (random.below(0x60), 1 + random.below(6), random.below(0x60)),
        };
        skip << 20 | count << 12 | len
    }

    pub(crate) fn budget(&mut self) -> u32 {
        match self.random.below(8) {
            0 => 0,
            1 | 2 => 1,
            3..=5 => 2 + self.random.below(12),
            6 => 20 + self.random.below(400),
            _ => self.random.pick(&[ALL, 0x8000_0000, 0x0010_0000]),
        }
    }

    pub(crate) fn ticks(&mut self) -> u32 {
        let to_wrap = (1 << 24)
            - self.random.pick(&[
                self.machine.dp.clock,
                self.machine.dp.pipe_busy_counter,
                self.machine.dp.cmd_busy_counter,
            ]);
        match self.random.below(6) {
            0 => self.random.next_u32(),
            1 => self.random.pick(&[0, 1, ALL, 1 << 24]),
            2 => to_wrap,
            3 => to_wrap - 1,
            _ => self.random.below(0x10000),
        }
    }

    /// A value that a register would sensibly be written with.
    pub(crate) fn fitting_value(&mut self, register: u32) -> u32 {
        match register {
            SP_SPADDR => {
                let address = self.sp_address();
                self.with_unused_bits(address, SP_BITS)
            }
            SP_RAMADDR | DP_START | DP_END => {
                let address = self.ram_address();
                self.with_unused_bits(address, RAM_BITS)
            }
            SP_RDLEN | SP_WRLEN => self.length_word(),
            _ => self.random.next_u32(),
        }
    }
}
