//! Drawing commands, and the lists of them that are stored and begun.

use crate::constants::{CLEAR_FLUSH, CLEAR_FREEZE, DMEM, RAM_BITS, SET_FLUSH};
use crate::generator::Generator;
use model::machine::{command_length, DP_END, DP_START, DP_STATUS};
use model::recording::RDRAM_BYTES;

impl Generator {
    /// The words of one whole command. Words after the first often look like a SYNC_FULL, so that a
    /// slip in the framing shows.
    pub(crate) fn command(&mut self, opcode: u8) -> Vec<u64> {
        let mut words = Vec::new();
        for i in 0..command_length(opcode) {
            let top = (self.random.below(4) as u8) << 6;
            let first = match (i, self.random.below(3)) {
                (0, _) => top | opcode,
                (_, 0) => top | 0x29,
                _ => self.random.below(256) as u8,
            };
            words.push(self.random.next_u64() >> 8 | u64::from(first) << 56);
        }
        words
    }

    /// Whole commands, at least this many words of them.
    pub(crate) fn commands(&mut self, at_least: usize) -> Vec<u64> {
        let mut words = Vec::new();
        while words.len() < at_least {
            if self.opcodes.is_empty() {
                self.opcodes = (0..64).collect();
                self.random.shuffle(&mut self.opcodes);
            }
            let opcode = self.opcodes.pop().expect("just filled");
            words.extend(self.command(opcode));
        }
        words
    }

    /// Stores a list where the XBUS flag will look for it and gives the values for START and END.
    pub(crate) fn place_list(&mut self, words: &[u64]) -> (u32, u32) {
        let bytes = 8 * words.len() as u32;
        let xbus = self.machine.dp.xbus;
        let first = if xbus {
            // Only the low 12 bits count in DMEM, so any of them will do.
            self.random.below((1 << 24) - bytes) & RAM_BITS
        } else {
            self.random.below(RDRAM_BYTES as u32 - bytes) & RAM_BITS
        };
        for (i, word) in words.iter().enumerate() {
            let address = first + 8 * i as u32;
            let place = if xbus {
                DMEM + address % 0x1000
            } else {
                address
            };
            self.store(place, *word);
        }
        (first, first + bytes)
    }

    pub(crate) fn write_list(&mut self, list: (u32, u32)) {
        let start = self.with_unused_bits(list.0, RAM_BITS);
        let end = self.with_unused_bits(list.1, RAM_BITS);
        self.write(DP_START, start);
        self.write(DP_END, end);
    }

    /// Makes, stores and begins a list of whole commands.
    pub(crate) fn begin_list(&mut self, at_least: usize) -> (u32, u32) {
        let words = self.commands(at_least);
        let list = self.place_list(&words);
        self.write_list(list);
        list
    }

    /// Makes the DP engine ready for a list: neither frozen nor flushing. Words left of a command
    /// are mostly dropped, but not always.
    pub(crate) fn make_ready(&mut self, xbus: u32) {
        let dp = &self.machine.dp;
        let in_use = dp.runs() || dp.start_pending;
        if in_use || (dp.words_left > 0 && !self.random.once_in(5)) {
            self.write(DP_STATUS, SET_FLUSH);
        }
        let unused = self.random.next_u32() & !0x3FF;
        self.write(DP_STATUS, unused | xbus | CLEAR_FREEZE | CLEAR_FLUSH);
    }
}
