//! Recordings of sensible traffic. Each record is done on the model as it is made, so that the next
//! one can suit the state.

use crate::cases::addresses::{in_any_copy, memory_address, ram_address, register, sp_address};
use crate::cases::values::{budget, length_word, register_value, ticks, value_for};
use crate::coverage::counting_replay::CountingReplay;
use crate::data::memory::Lent;
use crate::data::state_fields::from_model;
use crate::data::words_left::{consumer_left, sp_left};
use model::calls;
use model::machine::*;
use model::recording::Record;
use random::Random;

/// One expectation in so many is wrong, where nothing else is asked for.
const WRONG: u32 = 4;

/// A recording of whole sequences from power-up, of at least as many bytes.
pub fn sequences(random: &mut Random, bytes: usize) -> Vec<u8> {
    let lent = Lent::new(4_096, 0);
    let mut traffic = Traffic::new(random, CountingReplay::new(calls::power_up(), lent.bytes()));
    while traffic.bytes.len() < bytes {
        traffic.sequence();
    }
    traffic.bytes
}

/// A recording under way.
pub struct Traffic<'a> {
    pub random: &'a mut Random,
    pub replay: CountingReplay,
    pub bytes: Vec<u8>,
    /// One expectation in so many is wrong, or none is.
    pub wrong: Option<u32>,
}

impl<'a> Traffic<'a> {
    pub fn new(random: &'a mut Random, replay: CountingReplay) -> Traffic<'a> {
        Traffic {
            random,
            replay,
            bytes: Vec::new(),
            wrong: Some(WRONG),
        }
    }

    pub fn push(&mut self, record: Record) {
        self.bytes.extend(record.encode());
        self.replay.record(record);
    }

    /// A write, at times through a mirror.
    pub fn write(&mut self, register: u32, value: u32) {
        let address = self.address_of(register);
        self.push(Record::Write { address, value });
    }

    /// A register's address, or at times a mirror of it.
    fn address_of(&mut self, register: u32) -> u32 {
        if self.random.once_in(3) {
            in_any_copy(self.random, register)
        } else {
            register
        }
    }

    pub(super) fn rdram(&self) -> usize {
        self.replay.rdram.len()
    }

    /// One sequence, chosen at random.
    pub fn sequence(&mut self) {
        match self.random.below(10) {
            0 | 1 => self.transfers(),
            2..=4 => self.lists(),
            5 => self.one_by_one(),
            6 | 7 => self.both_engines(),
            _ => {
                for _ in 0..self.random.below(4) {
                    self.other_record();
                }
            }
        }
    }

    /// Transfers that start, wait and take the place of waiting ones, with runs between.
    fn transfers(&mut self) {
        for _ in 0..1 + self.random.below(3) {
            if self.random.once_in(2) {
                let value = sp_address(self.random) | self.random.pick(&[0, 7, 0xFFFF_E000]);
                self.write(SP_SPADDR, value);
            }
            if !self.random.once_in(3) {
                let cut = self.random.pick(&[0, 0, 0xFF00_0007]);
                let value = ram_address(self.random, self.rdram()) | cut;
                self.write(SP_RAMADDR, value);
            }
            let register = self.random.pick(&[SP_RDLEN, SP_WRLEN]);
            let word = length_word(self.random);
            self.write(register, word);
            if self.random.once_in(2) {
                self.sp_run();
            }
            if self.random.once_in(3) {
                self.other_record();
            }
        }
        self.sp_run();
    }

    /// A run that is meant for the SP; at times the DP takes part.
    pub(super) fn sp_run(&mut self) {
        if self.random.once_in(6) {
            return self.run();
        }
        let left = sp_left(&from_model(&self.replay.state));
        let budget = budget(self.random, left);
        self.push(Record::SpRun { budget });
    }

    /// A run that is meant for the DP; at times the SP takes part.
    pub(super) fn dp_run(&mut self) {
        if self.random.once_in(6) {
            return self.run();
        }
        let left = consumer_left(&from_model(&self.replay.state));
        let budget = budget(self.random, left);
        self.push(Record::DpRun { budget });
    }

    pub(super) fn run(&mut self) {
        let state = from_model(&self.replay.state);
        let sp_budget = budget(self.random, sp_left(&state));
        let dp_budget = budget(self.random, consumer_left(&state));
        self.push(Record::Run {
            sp_budget,
            dp_budget,
        });
    }

    /// Runs of one word, with a look at the registers between.
    fn one_by_one(&mut self) {
        for _ in 0..self.random.below(6) {
            let record = match self.random.below(3) {
                0 => Record::SpRun { budget: 1 },
                1 => Record::DpRun { budget: 1 },
                _ => Record::Run {
                    sp_budget: 1,
                    dp_budget: 1,
                },
            };
            self.push(record);
            let address = self
                .random
                .pick(&[SP_RAMADDR, SP_RDLEN, DP_CURRENT, DP_STATUS]);
            self.read(address);
        }
    }

    /// Anything that may stand between other records.
    pub(super) fn other_record(&mut self) {
        match self.random.below(12) {
            0 => self.push(Record::Break),
            1 => self.push(Record::Acknowledge),
            2 | 3 => {
                let n = ticks(self.random);
                self.push(Record::Tick { n });
            }
            4 => {
                let value = register_value(self.random);
                self.write(SP_STATUS, value);
            }
            5 => {
                let address = register(self.random);
                let value = value_for(self.random, address, self.rdram());
                self.write(address, value);
            }
            6 => self.read(SP_SEMAPHORE),
            7 => {
                let address = memory_address(self.random, self.rdram());
                let word = self.random.next_u64();
                self.push(Record::Store { address, word });
            }
            8 | 9 => self.check(),
            _ => {
                let address = register(self.random);
                self.read(address);
            }
        }
    }

    /// A read, at times through a mirror, with a wrong expectation as often as asked for.
    fn read(&mut self, register: u32) {
        let address = self.address_of(register);
        let found = calls::read_register(&self.replay.state, address)
            .answer
            .value as u32;
        let other = self.random.next_u32();
        let wrong = self.random.pick(&[found ^ 1, other]);
        let expected = self.expectation(found.into(), wrong.into()) as u32;
        self.push(Record::Read { address, expected });
    }

    /// A memory check, with a wrong expectation as often.
    fn check(&mut self) {
        let address = memory_address(self.random, self.rdram());
        let found = self.replay.word(address);
        let other = self.random.next_u64();
        let wrong = self.random.pick(&[found ^ 1, !found, other]);
        let expected = self.expectation(found, wrong);
        self.push(Record::Check { address, expected });
    }

    fn expectation(&mut self, found: u64, wrong: u64) -> u64 {
        match self.wrong {
            Some(times) if self.random.once_in(times) => wrong,
            _ => found,
        }
    }
}
