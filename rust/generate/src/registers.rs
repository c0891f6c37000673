//! Sequences that go through all registers, and reads of one among some.

use crate::constants::ALL;
use crate::generator::Generator;
use model::machine::{DP_STATUS, REGISTERS, SP_STATUS};

impl Generator {
    pub(crate) fn every_register_read(&mut self) {
        let mut registers = REGISTERS;
        self.random.shuffle(&mut registers);
        for register in registers {
            self.read(register);
        }
    }

    pub(crate) fn every_register_written(&mut self) {
        let mut registers = REGISTERS;
        self.random.shuffle(&mut registers);
        for register in registers {
            let value = self.fitting_value(register);
            self.write(register, value);
            if self.random.once_in(2) {
                self.read_one_of(&[register, SP_STATUS, DP_STATUS]);
            }
        }
        self.dp_run(3);
        self.sp_run(ALL);
    }

    pub(crate) fn read_one_of(&mut self, registers: &[u32]) {
        let register = self.random.pick(registers);
        self.read(register);
    }
}
