//! The SP alone over whole transfers: in one run, and in a call for each row.

use super::{run, Words, NO_SLOWER, RAMADDR, RDLEN, RDRAM, SPADDR, WRLEN};
use crate::buffers::{Buffers, Start};
use crate::library::{Library, OURS};
use crate::plain::sp::Sp;
use crate::plain::Ran;
use crate::timing::{Aim, Column, Line, Way};
use std::hint::black_box;

/// Where transfers begin in RDRAM.
const BASE: usize = 0x10_0000;

/// Rows of as many words, with as many bytes between them.
#[derive(Clone, Copy)]
pub struct Shape {
    rows: usize,
    words: usize,
    skip: usize,
}

impl Shape {
    /// The rows of so many words without gaps, each as long as a row may be.
    pub fn of_words(words: usize) -> Shape {
        shape(words.div_ceil(512), words.min(512), 0)
    }

    /// The register writes that start it.
    pub fn writes(self, storing: bool) -> [(u32, u32); 3] {
        let length = self.skip << 20 | (self.rows - 1) << 12 | (self.words * 8 - 1);
        [
            (SPADDR, 0),
            (RAMADDR, BASE as u32),
            (if storing { WRLEN } else { RDLEN }, length as u32),
        ]
    }

    /// The same bytes to the same place, a row at a time.
    pub fn copy(self, storing: bool, buffers: &mut Buffers) {
        let bytes = self.words * 8;
        for row in 0..self.rows {
            let ram = &mut buffers.rdram[BASE + row * (bytes + self.skip)..][..bytes];
            let bank = &mut buffers.dmem[row * bytes % 4096..][..bytes];
            if storing {
                ram.copy_from_slice(bank);
            } else {
                bank.copy_from_slice(ram);
            }
        }
    }
}

const fn shape(rows: usize, words: usize, skip: usize) -> Shape {
    Shape { rows, words, skip }
}

/// By which calls a transfer is moved.
#[derive(Clone, Copy)]
enum Calls {
    /// One run.
    Run,
    /// `sp_row`, once for each row.
    Rows,
}

impl Calls {
    fn name(self) -> &'static str {
        match self {
            Calls::Run => "SP",
            Calls::Rows => "sp_row",
        }
    }

    fn shapes(self) -> &'static [Shape] {
        match self {
            Calls::Run => &RUNS,
            Calls::Rows => &ROWS,
        }
    }
}

const RUNS: [Shape; 12] = [
    shape(1, 8, 0),
    shape(1, 64, 0),
    shape(1, 512, 0),
    shape(64, 8, 0x20),
    shape(8, 512, 0),
    shape(256, 1, 0),
    shape(256, 1, 8),
    shape(256, 8, 0),
    shape(256, 64, 0),
    shape(256, 64, 0x200),
    shape(256, 512, 0),
    shape(256, 512, 0xFF8),
];

const ROWS: [Shape; 6] = [
    shape(256, 8, 0),
    shape(256, 8, 0x20),
    shape(256, 64, 0),
    shape(256, 64, 0x200),
    shape(256, 512, 0),
    shape(256, 512, 0xFF8),
];

/// A transfer that is about to run.
struct Transfer {
    name: String,
    calls: Calls,
    shape: Shape,
    storing: bool,
    start: Start,
}

impl Transfer {
    fn new(calls: Calls, shape: Shape, storing: bool) -> Transfer {
        Transfer {
            name: name(calls, shape, storing),
            calls,
            shape,
            storing,
            start: Start::written(&shape.writes(storing)),
        }
    }

    /// A call for each row; their counts are added up.
    fn row_by_row(&self, library: &Library, b: &mut Buffers) -> ofersky::Ran {
        let mut done = ofersky::Ran::default();
        done.outcome.state = self.start.state;
        let mut count = 0;
        for _ in 0..self.shape.rows {
            (library.sp_row)(&mut done, b);
            count += done.outcome.answer.count;
        }
        done.outcome.answer.count = count;
        done
    }

    /// In plain Rust: the whole transfer, or row by row. A row finds the machine in memory, as a
    /// lone call would.
    fn done(
        &self,
        whole: impl Fn(&mut Sp, &mut Buffers) -> u32,
        row: impl Fn(&mut Sp, &mut Buffers) -> u32,
        b: &mut Buffers,
    ) -> Ran {
        let mut machine = black_box(self.start.machine);
        let count = match self.calls {
            Calls::Run => whole(&mut machine.sp, b),
            Calls::Rows => (0..self.shape.rows)
                .map(|_| row(&mut black_box(&mut machine).sp, b))
                .sum(),
        };
        Ran::counted(machine, count)
    }

    /// As an emulator's DMA moves it.
    fn dma(&self, b: &mut Buffers) -> Ran {
        self.done(
            |sp, b| sp.dma(&mut b.rdram, &mut b.dmem, &mut b.imem),
            |sp, b| sp.dma_row(&mut b.rdram, &mut b.dmem, &mut b.imem),
            b,
        )
    }

    fn beside_dma(&self, buffers: &mut Buffers) -> Line {
        let ways = vec![
            Way::compared(Column::Ours, |b| self.called(black_box(&OURS), b)),
            Way::compared(Column::Plain, |b| self.plain(b)),
            Way::compared(Column::Dma, |b| self.dma(b)),
            Way::timed(Column::Copy, |b| self.copy(b)),
        ];
        self.line(buffers, ways)
    }
}

fn name(calls: Calls, shape: Shape, storing: bool) -> String {
    let direction = if storing { "stores" } else { "loads" };
    let rows = if shape.rows == 1 { "row" } else { "rows" };
    let skip = if shape.skip > 0 { ", skipping" } else { "" };
    format!(
        "{} {direction}, {} {rows} of {}{skip}",
        calls.name(),
        shape.rows,
        shape.words
    )
}

impl Words for Transfer {
    type Given = ofersky::Ran;

    fn name(&self) -> &str {
        &self.name
    }

    fn words(&self) -> usize {
        self.shape.rows * self.shape.words
    }

    fn called(&self, library: &Library, b: &mut Buffers) -> ofersky::Ran {
        match self.calls {
            Calls::Run => run(library, self.start.state, [u32::MAX, 0, 0], b),
            Calls::Rows => self.row_by_row(library, b),
        }
    }

    fn plain(&self, b: &mut Buffers) -> Ran {
        self.done(
            |sp, b| {
                let budget = black_box(u32::MAX);
                sp.run(budget, &mut b.rdram, &mut b.dmem, &mut b.imem)
            },
            |sp, b| sp.row(&mut b.rdram, &mut b.dmem, &mut b.imem),
            b,
        )
    }

    fn copy(&self, b: &mut Buffers) {
        self.shape.copy(self.storing, b);
    }

    fn aims(&self) -> Vec<Aim> {
        let calls = match (self.calls, self.shape.rows) {
            (Calls::Run, 1) => "Run of one row",
            (Calls::Run, _) => "Run of many rows",
            (Calls::Rows, _) => "sp_row",
        };
        let words = self.shape.words;
        let aim = |of, most| Aim::new(format!("{calls}, {words} words a row"), of, most);
        match words {
            512 => vec![aim(Column::Copy, 2.0), aim(Column::Dma, 1.0)],
            64 => vec![aim(Column::Plain, 0.7)],
            8 => vec![aim(Column::Before, NO_SLOWER)],
            _ => Vec::new(),
        }
    }
}

/// Transfers of every shape in both directions.
fn each(mut time: impl FnMut(&mut Buffers, &Transfer)) {
    let mut buffers = Buffers::new(RDRAM, 0);
    for calls in [Calls::Run, Calls::Rows] {
        for storing in [false, true] {
            for shape in calls.shapes() {
                time(&mut buffers, &Transfer::new(calls, *shape, storing));
            }
        }
    }
}

pub fn all(show: &mut dyn FnMut(Line)) {
    each(|buffers, transfer| show(transfer.beside_dma(buffers)));
}

#[cfg(before)]
pub fn before_and_after(show: &mut dyn FnMut(Line)) {
    each(|buffers, transfer| show(transfer.beside_before(buffers)));
}
