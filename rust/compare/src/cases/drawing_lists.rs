//! The sequences of traffic that draw: lists of commands, and a list beside a transfer.

use crate::cases::addresses::ram_address;
use crate::cases::traffic::Traffic;
use crate::cases::values::length_word;
use crate::data::memory::ADDRESS_BITS;
use model::machine::*;
use model::recording::Record;

impl Traffic<'_> {
    /// Drawing lists: their words stored, then named, then run; a second one may wait.
    pub(super) fn lists(&mut self) {
        let xbus = self.random.once_in(3);
        // FREEZE and FLUSH are mostly cleared: with them on, little happens.
        let clear = self.random.pick(&[0x14, 0x14, 0x10, 0x04, 0]);
        self.write(DP_STATUS, clear | if xbus { 2 } else { 1 });
        for _ in 0..1 + self.random.below(2) {
            let start = self.list_start(xbus);
            let end = self.commands(start, xbus);
            let end = self.list_end(start, end, 20);
            if !self.random.once_in(6) {
                self.write(DP_START, start);
            }
            self.write(DP_END, end);
            while self.random.once_in(2) {
                self.dp_run();
                self.change_list();
            }
        }
        self.dp_run();
    }

    /// A list and a transfer that writes into the same memory, often where the list has yet to be
    /// fetched; and runs of both.
    pub(super) fn both_engines(&mut self) {
        let xbus = self.random.once_in(3);
        let clear = self.random.pick(&[0x14, 0x14, 0x14, 0x10]);
        self.write(DP_STATUS, clear | if xbus { 2 } else { 1 });
        let start = self.list_start(xbus);
        let end = self.commands(start, xbus);
        self.write(DP_START, start);
        let end = self.list_end(start, end, 10);
        self.write(DP_END, end);
        self.sp_run();
        // The SP comes to the words of the list before the DP, or after it.
        let near = (start + 8 * self.random.below(8)).wrapping_sub(0x20) & ADDRESS_BITS;
        let place = if self.random.once_in(4) {
            ram_address(self.random, self.rdram())
        } else {
            near
        };
        self.write(SP_SPADDR, place & 0xFF8);
        self.write(SP_RAMADDR, place);
        let word = length_word(self.random);
        self.write(if xbus { SP_RDLEN } else { SP_WRLEN }, word);
        while self.random.once_in(2) {
            self.run();
            self.change_list();
        }
        self.run();
    }

    /// Where a list starts; with XBUS also near the end of DMEM, and above it.
    fn list_start(&mut self, xbus: bool) -> u32 {
        if xbus {
            let high = self.random.pick(&[0, 0x1000, 0x10_0000, 0xFF_F000]);
            let low = self.random.pick(&[0, 0x800, 0xF80, 0xFF8]);
            return high | low;
        }
        ram_address(self.random, self.rdram()).min(0xFF_FC00)
    }

    /// Where a list ends: after its commands, or once in so many times so far on that words stay
    /// queued when the output is full.
    fn list_end(&mut self, start: u32, end: u32, times: u32) -> u32 {
        if !self.random.once_in(times) {
            return end;
        }
        let words = 250 + self.random.below(60);
        start.saturating_add(8 * words).min(ADDRESS_BITS)
    }

    /// Stores whole commands from an address on, and gives the address after them.
    fn commands(&mut self, start: u32, xbus: bool) -> u32 {
        let mut address = start;
        for _ in 0..self.random.below(5) {
            // The length table speaks of opcodes that are rare among the first bytes.
            let first = match self.random.below(3) {
                0 => 0x08 + self.random.below(8) as u8 + (self.random.byte() & 0xC0),
                1 => self.random.pick(&[0x24, 0x25, 0x29, 0x69, 0xA9, 0xE9]),
                _ => self.random.byte(),
            };
            for i in 0..command_length(first % 64) {
                let other = self.random.byte();
                let later = self.random.pick(&[0x29, 0x69, 0xA9, 0xE9, other]);
                let byte = if i == 0 { first } else { later };
                self.store_command_word(address, byte, xbus);
                address = (address + 8) & ADDRESS_BITS;
            }
        }
        address
    }

    fn store_command_word(&mut self, address: u32, first: u8, xbus: bool) {
        let word = u64::from(first) << 56 | self.random.next_u64() >> 8;
        let address = if xbus {
            0x0400_0000 | address & 0xFFF
        } else {
            address
        };
        self.push(Record::Store { address, word });
    }

    /// Something that changes a list under way.
    fn change_list(&mut self) {
        match self.random.below(10) {
            0 => self.write(DP_STATUS, 0x08),
            1 => self.write(DP_STATUS, 0x04),
            2 => self.write(DP_STATUS, 0x20),
            3 => self.write(DP_STATUS, 0x10),
            4 => {
                let flip = self.random.pick(&[1, 2, 3]);
                self.write(DP_STATUS, flip);
            }
            5 => {
                let value = self.random.next_u32() & 0x3FF;
                self.write(DP_STATUS, value);
            }
            6 => {
                let start = ram_address(self.random, self.rdram());
                self.write(DP_START, start);
            }
            7 => {
                let near = self.random.below(6) * 8;
                let end = (self.replay.state.dp.current + near).wrapping_sub(16);
                self.write(DP_END, end);
            }
            _ => self.other_record(),
        }
    }
}
