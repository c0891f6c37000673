//! Whole replays. The cost of a record must not grow with the recording.

use super::{Words, CURRENT, DP_STATUS, END, RAMADDR, RDLEN, SPADDR, SP_STATUS, START, WRLEN};
use crate::buffers::{Buffers, SEED};
use crate::library::Library;
use crate::plain::replay::Lent;
use crate::plain::{Machine, Ran};
use crate::timing::Line;
use random::Random;

const RDRAM: usize = 32_768;

/// Groups of 24 records in 200 bytes, with a run of each engine; and the last of 23 records in 199
/// bytes, with runs of both.
pub const GROUPS: [(usize, Runs); 3] = [(7, Runs::OfEach), (70, Runs::OfEach), (70, Runs::OfBoth)];

/// Whether each engine has a run of its own.
#[derive(Clone, Copy, PartialEq)]
pub enum Runs {
    OfEach,
    OfBoth,
}

impl Runs {
    pub fn name(self) -> &'static str {
        match self {
            Runs::OfEach => "",
            Runs::OfBoth => ", runs of both",
        }
    }
}

/// The budget of every run.
const BUDGET: [u8; 4] = 100u32.to_be_bytes();

/// A recording in the making, and the machine that it leads to: reads and checks expect what is
/// there.
struct Recorder {
    bytes: Vec<u8>,
    records: usize,
    machine: Machine,
    buffers: Buffers,
    words: [u8; 2048],
}

impl Recorder {
    fn new() -> Recorder {
        Recorder {
            bytes: Vec::new(),
            records: 0,
            machine: Machine::default(),
            buffers: Buffers::new(RDRAM, ofersky::LISTING_BYTES),
            words: [0; 2048],
        }
    }

    /// Adds a record and does it.
    fn record(&mut self, kind: u8, fields: &[&[u8]]) {
        let at = self.bytes.len();
        self.bytes.push(kind);
        self.bytes.extend(fields.concat());
        self.records += 1;
        let lent = Lent {
            rdram: &mut self.buffers.rdram,
            dmem: &mut self.buffers.dmem,
            imem: &mut self.buffers.imem,
            words: &mut self.words,
        };
        self.machine
            .replay(&self.bytes[at..], lent, &mut self.buffers.out);
    }

    fn write(&mut self, address: u32, value: u32) {
        self.record(1, &[&address.to_be_bytes(), &value.to_be_bytes()]);
    }

    fn read(&mut self, address: u32) {
        // A copy is asked: reading may change the machine, and doing the record will.
        let found = { self.machine }.read(address);
        self.record(2, &[&address.to_be_bytes(), &found.to_be_bytes()]);
    }

    fn store(&mut self, address: u32, word: u64) {
        self.record(8, &[&address.to_be_bytes(), &word.to_be_bytes()]);
    }

    /// Checks a word of DMEM.
    fn check(&mut self, offset: usize) {
        let found: [u8; 8] = self.buffers.dmem[offset..][..8].try_into().unwrap();
        let address = 0x0400_0000 + offset as u32;
        self.record(9, &[&address.to_be_bytes(), &found]);
    }

    /// Stores six words, loads or stores eight by the SP, fetches the six by the DP, and looks at
    /// what it did.
    fn group(&mut self, random: &mut Random, runs: Runs) {
        let ram = 8 * random.below(RDRAM as u32 / 8 - 8);
        let offset = 8 * random.index(504);
        for i in 0..6 {
            self.store(ram + 8 * i, random.next_u64());
        }
        self.write(SPADDR, offset as u32);
        self.write(RAMADDR, ram);
        self.write(if random.below(4) == 0 { WRLEN } else { RDLEN }, 0x3F);
        if runs == Runs::OfEach {
            self.record(3, &[&BUDGET]);
        }
        self.read(SP_STATUS);
        self.read(SPADDR);
        self.check(offset);
        self.record(6, &[]);
        self.write(START, ram);
        self.write(END, ram + 48);
        match runs {
            Runs::OfEach => self.record(4, &[&BUDGET]),
            Runs::OfBoth => self.record(10, &[&BUDGET, &BUDGET]),
        }
        self.record(7, &[]);
        self.read(CURRENT);
        self.read(DP_STATUS);
        self.record(5, &[&random.below(1000).to_be_bytes()]);
        self.write(SP_STATUS, 1 << random.below(25));
        self.record(6, &[]);
        self.record(7, &[]);
    }
}

/// A recording of so many groups, and the number of its records.
pub fn recording(groups: usize, runs: Runs) -> (Vec<u8>, usize) {
    let mut recorder = Recorder::new();
    let mut random = Random::new(SEED);
    for _ in 0..groups {
        recorder.group(&mut random, runs);
    }
    (recorder.bytes, recorder.records)
}

/// A recording that is about to be replayed.
struct Replay {
    name: String,
    bytes: Vec<u8>,
    records: usize,
}

impl Words for Replay {
    type Given = ofersky::Replayed;

    fn name(&self) -> &str {
        &self.name
    }

    fn words(&self) -> usize {
        self.records
    }

    fn called(&self, library: &Library, b: &mut Buffers) -> ofersky::Replayed {
        library.replay(ofersky::power_up(), &self.bytes, b)
    }

    fn plain(&self, b: &mut Buffers) -> Ran {
        let lent = Lent {
            rdram: &mut b.rdram,
            dmem: &mut b.dmem,
            imem: &mut b.imem,
            words: &mut [0; 2048],
        };
        let mut machine = Machine::default();
        let count = machine.replay(&self.bytes, lent, &mut b.out);
        Ran::counted(machine, count)
    }

    fn copy(&self, b: &mut Buffers) {
        b.out[..self.bytes.len()].copy_from_slice(&self.bytes);
    }
}

fn each(mut time: impl FnMut(&mut Buffers, &Replay)) {
    for (groups, runs) in GROUPS {
        let (bytes, records) = recording(groups, runs);
        let replay = Replay {
            name: format!("replay of {} bytes{}", bytes.len(), runs.name()),
            bytes,
            records,
        };
        time(&mut Buffers::new(RDRAM, ofersky::LISTING_BYTES), &replay);
    }
}

pub fn all(show: &mut dyn FnMut(Line)) {
    each(|buffers, replay| show(replay.beside_plain(buffers)));
}

#[cfg(before)]
pub fn before_and_after(show: &mut dyn FnMut(Line)) {
    each(|buffers, replay| show(replay.beside_before(buffers)));
}
