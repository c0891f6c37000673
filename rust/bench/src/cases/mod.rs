//! What is timed.

mod all_three;
mod bursts;
mod dp;
mod registers;
mod replays;
mod sp;
mod turns;
mod writing;

#[cfg(before)]
use crate::before::BEFORE;
use crate::buffers::{Buffers, Left};
use crate::library::{Library, OURS};
use crate::plain::Ran;
use crate::timing::{measure, Aim, Column, Line, Way};
use ofersky::State;
use std::hint::black_box;

const RDRAM: usize = 1 << 24;

const SPADDR: u32 = 0x0404_0000;
const RAMADDR: u32 = 0x0404_0004;
const RDLEN: u32 = 0x0404_0008;
const WRLEN: u32 = 0x0404_000C;
const SP_STATUS: u32 = 0x0404_0010;
const SEMAPHORE: u32 = 0x0404_001C;
const START: u32 = 0x0410_0000;
const END: u32 = 0x0410_0004;
const CURRENT: u32 = 0x0410_0008;
const DP_STATUS: u32 = 0x0410_000C;

/// What ours may take of the time before where it is to be no slower. One library in both places
/// comes to 1.04, if nothing disturbs all rounds of a line.
const NO_SLOWER: f64 = 1.05;

/// The lines of the SP alone, as they are measured.
pub fn sp_alone(show: &mut dyn FnMut(Line)) {
    sp::all(show);
}

/// Those of bursts.
pub fn bursts(show: &mut dyn FnMut(Line)) {
    bursts::all(show);
}

/// All other lines.
pub fn others(show: &mut dyn FnMut(Line)) {
    dp::all(show);
    all_three::all(show);
    turns::all(show);
    registers::all(show);
    replays::all(show);
    writing::all(show);
}

/// The lines of all but writing, beside an earlier library.
#[cfg(before)]
pub fn before_and_after(show: &mut dyn FnMut(Line)) {
    sp::before_and_after(show);
    dp::before_and_after(show);
    all_three::before_and_after(show);
    turns::before_and_after(show);
    registers::before_and_after(show);
    bursts::before_and_after(show);
    replays::before_and_after(show);
}

/// Words that are moved, fetched or consumed, in every way that is timed.
trait Words {
    /// What a call of a library gives.
    type Given: Into<Left>;

    fn name(&self) -> &str;
    fn words(&self) -> usize;
    fn called(&self, library: &Library, buffers: &mut Buffers) -> Self::Given;
    fn plain(&self, buffers: &mut Buffers) -> Ran;
    fn copy(&self, buffers: &mut Buffers);

    /// What ours may take, where that is said.
    fn aims(&self) -> Vec<Aim> {
        Vec::new()
    }

    fn line(&self, buffers: &mut Buffers, ways: Vec<Way>) -> Line {
        Line {
            aims: self.aims(),
            ..measure(self.name(), self.words(), buffers, ways)
        }
    }

    fn beside_plain(&self, buffers: &mut Buffers) -> Line {
        let ways = vec![
            Way::compared(Column::Ours, |b| self.called(black_box(&OURS), b)),
            Way::compared(Column::Plain, |b| self.plain(b)),
            Way::timed(Column::Copy, |b| self.copy(b)),
        ];
        self.line(buffers, ways)
    }

    #[cfg(before)]
    fn beside_before(&self, buffers: &mut Buffers) -> Line {
        let ways = vec![
            Way::compared(Column::Ours, |b| self.called(black_box(&OURS), b)),
            Way::compared(Column::Before, |b| self.called(black_box(&BEFORE), b)),
            Way::compared(Column::Plain, |b| self.plain(b)),
        ];
        self.line(buffers, ways)
    }
}

/// The run of a library over these buffers, as the processor cannot foresee it.
fn run(library: &Library, state: State, budgets: [u32; 3], b: &mut Buffers) -> ofersky::Ran {
    let (state, budgets) = black_box((state, budgets));
    library.run(state, budgets, b)
}
