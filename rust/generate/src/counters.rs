//! Sequences about the status and the counters of the DP engine.

use crate::generator::Generator;
use model::machine::{DP_CLOCK, DP_CMD_BUSY, DP_PIPE_BUSY, DP_STATUS, DP_TMEM_BUSY};

impl Generator {
    pub(crate) fn dp_status(&mut self) {
        for _ in 0..3 {
            let value = match self.random.below(4) {
                0 => self.random.next_u32(),
                1 => 3 << self.random.pick(&[0, 2, 4]),
                2 => 1 << (6 + self.random.below(4)),
                _ => self.random.below(0x40),
            };
            self.write(DP_STATUS, value);
            self.read(DP_STATUS);
        }
        self.tick_and_read();
    }

    pub(crate) fn counters(&mut self) {
        for _ in 0..2 {
            self.tick_and_read();
        }
        if self.random.once_in(2) {
            let value = self.random.next_u32() & 0x3C0;
            self.write(DP_STATUS, value);
        }
        let n = self.ticks();
        self.tick(n);
        for register in [DP_CLOCK, DP_CMD_BUSY, DP_PIPE_BUSY, DP_TMEM_BUSY] {
            self.read(register);
        }
    }

    pub(crate) fn tick_and_read(&mut self) {
        let n = self.ticks();
        self.tick(n);
        self.read_one_of(&[DP_CLOCK, DP_CMD_BUSY, DP_PIPE_BUSY, DP_TMEM_BUSY]);
    }
}
