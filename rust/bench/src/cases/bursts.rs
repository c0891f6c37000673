//! Register writes in a burst, beside as many calls of the same library for single writes.

use super::{Words, DP_STATUS, END, RAMADDR, RDLEN, SEMAPHORE, SPADDR, SP_STATUS, START, WRLEN};
use crate::buffers::{Buffers, Start};
use crate::library::{Library, OURS};
use crate::plain::Ran;
use crate::timing::{Aim, Column, Line, Way};
use ofersky::Outcome;
use std::hint::black_box;

/// What a driver writes for one task: two loads and a store, flags, SEMAPHORE, and two lists.
fn task(ram: u32) -> [(u32, u32); 16] {
    [
        (SPADDR, 0),
        (RAMADDR, ram),
        (RDLEN, 0x3FF),
        (SPADDR, 0x1000),
        (RAMADDR, ram + 0x400),
        (RDLEN, 0x0200_703F),
        (SPADDR, 0x800),
        (RAMADDR, ram + 0x2000),
        (WRLEN, 0x7F),
        (SP_STATUS, 0x1405),
        (SEMAPHORE, 0),
        (DP_STATUS, 0x3C1),
        (START, ram + 0x4000),
        (END, ram + 0x4400),
        (START, ram + 0x5000),
        (END, ram + 0x5040),
    ]
}

/// The tasks of a burst, which is as long as one may be.
const TASKS: u32 = 4;

struct Burst {
    start: Start,
    addresses: Vec<u32>,
    values: Vec<u32>,
}

impl Burst {
    fn new() -> Burst {
        let pairs = (0..TASKS).flat_map(|i| task(0x1_0000 * i));
        let (addresses, values) = pairs.unzip();
        Burst {
            start: Start::written(&[]),
            addresses,
            values,
        }
    }

    fn pairs(&self) -> impl Iterator<Item = (u32, u32)> + '_ {
        let values = self.values.iter().copied();
        self.addresses.iter().copied().zip(values)
    }

    /// A call for each pair; they are counted.
    fn singly(&self, library: &Library) -> Outcome {
        let mut done = Outcome {
            state: self.start.state,
            ..Outcome::default()
        };
        for (address, value) in self.pairs() {
            done = (library.write_register)(done.state, address, value);
            black_box(done.answer.number);
        }
        done.answer.count = self.words() as u32;
        done
    }

    fn beside_single_calls(&self, buffers: &mut Buffers) -> Line {
        let ways = vec![
            Way::compared(Column::Ours, |b| self.called(black_box(&OURS), b)),
            Way::compared(Column::Singly, |_| self.singly(black_box(&OURS))),
            Way::compared(Column::Plain, |b| self.plain(b)),
            Way::timed(Column::Copy, |b| self.copy(b)),
        ];
        self.line(buffers, ways)
    }
}

impl Words for Burst {
    type Given = Outcome;

    fn name(&self) -> &str {
        "burst of 64 writes"
    }

    fn words(&self) -> usize {
        self.addresses.len()
    }

    fn called(&self, library: &Library, _: &mut Buffers) -> Outcome {
        (library.write_registers)(black_box(self.start.state), &self.addresses, &self.values)
    }

    fn plain(&self, _: &mut Buffers) -> Ran {
        let mut machine = black_box(self.start.machine);
        for (address, value) in self.pairs() {
            machine.write(address, value);
        }
        Ran::counted(machine, self.words() as u32)
    }

    /// The state once in and once out.
    fn copy(&self, _: &mut Buffers) {
        let state = *black_box(&self.start.state);
        black_box(state);
    }

    fn aims(&self) -> Vec<Aim> {
        let aim = |of| Aim::new(self.name(), of, 0.2);
        vec![aim(Column::Singly), aim(Column::Before)]
    }
}

pub fn all(show: &mut dyn FnMut(Line)) {
    show(Burst::new().beside_single_calls(&mut Buffers::new(0, 0)));
}

#[cfg(before)]
pub fn before_and_after(show: &mut dyn FnMut(Line)) {
    show(Burst::new().beside_before(&mut Buffers::new(0, 0)));
}
