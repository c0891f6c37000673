//! The writer of records: each is done on the model as it is written, so that reads and checks can
//! carry what will be found.

use crate::constants::{DP_COPIES, DP_COPY_BYTES};
use crate::generator::Generator;
use model::machine::DP_START;
use model::recording::{apply, memory_word, Record};

impl Generator {
    pub(crate) fn put(&mut self, record: Record) {
        let bytes = record.encode();
        if self.bytes.len() + bytes.len() > self.limit {
            self.done = true;
        }
        if self.done {
            return;
        }
        self.bytes.extend(bytes);
        apply(&mut self.machine, record).expect("only good records are made");
        assert!(self.machine.is_sound());
    }

    /// An address of a register: its first one, but for about one in three of those of the DP a
    /// mirror's. The first mirror, the last one and those a power of two away are chosen more often
    /// than others.
    pub(crate) fn address_of(&mut self, register: u32) -> u32 {
        let random = &mut self.mirrors;
        if register < DP_START || !random.once_in(3) {
            return register;
        }
        let copy = match random.below(4) {
            0 => 1,
            1 => DP_COPIES - 1,
            2 => 1 << random.below(15),
            _ => 1 + random.below(DP_COPIES - 1),
        };
        register + copy * DP_COPY_BYTES
    }

    pub(crate) fn write(&mut self, register: u32, value: u32) {
        let address = self.address_of(register);
        self.put(Record::Write { address, value });
    }

    /// A read that expects what it will find, but for about one in eight.
    pub(crate) fn read(&mut self, register: u32) {
        let address = self.address_of(register);
        let mut expected = self.machine.clone().read(address).expect("a register");
        if self.random.once_in(8) {
            expected ^= 1 << self.random.below(32);
        }
        self.put(Record::Read { address, expected });
    }

    /// A check that expects what it will find, but for about one in eight.
    pub(crate) fn check(&mut self, address: u32) {
        let mut expected = memory_word(&mut self.machine, address).expect("an address");
        if self.random.once_in(8) {
            expected ^= 1 << self.random.below(64);
        }
        self.put(Record::Check { address, expected });
    }

    pub(crate) fn store(&mut self, address: u32, word: u64) {
        self.put(Record::Store { address, word });
    }

    pub(crate) fn tick(&mut self, n: u32) {
        self.put(Record::Tick { n });
    }

    pub(crate) fn sp_run(&mut self, budget: u32) {
        if self.merges() {
            let dp_budget = self.budget();
            return self.run(budget, dp_budget);
        }
        self.count_sp_words(budget);
        self.put(Record::SpRun { budget });
    }

    pub(crate) fn dp_run(&mut self, budget: u32) {
        if self.merges() {
            let sp_budget = self.budget();
            return self.run(sp_budget, budget);
        }
        self.put(Record::DpRun { budget });
    }

    /// Of the runs that one engine is meant for, some are for both.
    pub(crate) fn merges(&mut self) -> bool {
        self.merged && self.random.once_in(4)
    }

    pub(crate) fn run(&mut self, sp_budget: u32, dp_budget: u32) {
        self.count_sp_words(sp_budget);
        self.put(Record::Run {
            sp_budget,
            dp_budget,
        });
    }

    /// Runs on a copy, only to know how many words the SP moves.
    pub(crate) fn count_sp_words(&mut self, budget: u32) {
        self.sp_words += self.machine.clone().run(budget, 0, 0, &mut []).moved;
    }
}
