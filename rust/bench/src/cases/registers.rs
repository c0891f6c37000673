//! Register reads and writes, each a call of its own. Most of such a call is the state that goes in
//! and comes back.

use super::{Words, CURRENT, DP_STATUS, END, RAMADDR, RDLEN, SPADDR, SP_STATUS, START};
use crate::buffers::{Buffers, Start};
use crate::library::Library;
use crate::plain::{Machine, Ran};
use crate::timing::Line;
use ofersky::{Outcome, State};
use std::hint::black_box;

const CALLS: usize = 512;

/// A transfer and a list are set up again and again; the second ones wait.
const WRITES: [(u32, u32); 8] = [
    (SPADDR, 0x1000),
    (RAMADDR, 0x2000),
    (RDLEN, 0x3F),
    (SP_STATUS, 0x400),
    (DP_STATUS, 1),
    (START, 0x3000),
    (END, 0x3040),
    (SP_STATUS, 0x200),
];

const READS: [u32; 8] = [
    SP_STATUS, DP_STATUS, CURRENT, SPADDR, RAMADDR, DP_STATUS, RDLEN, SP_STATUS,
];

struct Registers {
    writing: bool,
    start: Start,
}

impl Registers {
    fn new(writing: bool) -> Registers {
        let start = Start::written(&WRITES);
        Registers { writing, start }
    }

    fn call(&self, library: &Library, i: usize, state: State) -> Outcome {
        let i = black_box(i) % 8;
        if self.writing {
            (library.write_register)(state, WRITES[i].0, WRITES[i].1)
        } else {
            (library.read_register)(state, READS[i])
        }
    }

    fn done(&self, i: usize, machine: &mut Machine) {
        let i = black_box(i) % 8;
        if self.writing {
            machine.write(WRITES[i].0, WRITES[i].1);
        } else {
            black_box(machine.read(READS[i]));
        }
    }
}

impl Words for Registers {
    type Given = Outcome;

    fn name(&self) -> &str {
        match self.writing {
            true => "register writes",
            false => "register reads",
        }
    }

    fn words(&self) -> usize {
        CALLS
    }

    fn called(&self, library: &Library, _: &mut Buffers) -> Outcome {
        let mut done = self.call(library, 0, self.start.state);
        for i in 1..CALLS {
            done = self.call(library, i, done.state);
            black_box(done.answer.value);
        }
        done
    }

    fn plain(&self, _: &mut Buffers) -> Ran {
        let mut machine = self.start.machine;
        for i in 0..CALLS {
            self.done(i, black_box(&mut machine));
        }
        Ran::counted(machine, 0)
    }

    /// The state once in and once out.
    fn copy(&self, _: &mut Buffers) {
        let mut state = self.start.state;
        for _ in 0..CALLS {
            state = *black_box(&state);
        }
        black_box(state);
    }
}

fn each(mut time: impl FnMut(&mut Buffers, &Registers)) {
    let mut buffers = Buffers::new(0, 0);
    for writing in [false, true] {
        time(&mut buffers, &Registers::new(writing));
    }
}

pub fn all(show: &mut dyn FnMut(Line)) {
    each(|buffers, registers| show(registers.beside_plain(buffers)));
}

#[cfg(before)]
pub fn before_and_after(show: &mut dyn FnMut(Line)) {
    each(|buffers, registers| show(registers.beside_before(buffers)));
}
