//! Runs in which the SP, the DP and the consumer take turns, each over as many words.

use super::dp::{fill_list, Commands};
use super::sp::Shape;
use super::{run, Words, END, NO_SLOWER, RDRAM, START};
use crate::buffers::{Buffers, Start};
use crate::library::Library;
use crate::plain::Ran;
use crate::timing::{Aim, Column, Line};
use std::hint::black_box;

/// Where lists stand in RDRAM, above the transfers.
const LIST: usize = 0x20_0000;

/// The words that are moved, and that are fetched and consumed.
const SIZES: [usize; 5] = [8, 64, 512, 4096, 131_072];

/// A transfer and a list that are about to run.
struct Both {
    name: String,
    each: usize,
    storing: bool,
    start: Start,
}

impl Both {
    fn new(each: usize, storing: bool, commands: Commands) -> Both {
        let list = [(START, LIST as u32), (END, (LIST + 8 * each) as u32)];
        let transfer = Shape::of_words(each).writes(storing);
        let call = if storing { "SP stores" } else { "SP loads" };
        Both {
            name: format!("{call} and list, {}", commands.name()),
            each,
            storing,
            start: Start::written(&[&transfer[..], &list].concat()),
        }
    }
}

impl Words for Both {
    type Given = ofersky::Ran;

    fn name(&self) -> &str {
        &self.name
    }

    fn words(&self) -> usize {
        2 * self.each
    }

    fn called(&self, library: &Library, b: &mut Buffers) -> ofersky::Ran {
        run(library, self.start.state, [u32::MAX; 3], b)
    }

    fn plain(&self, b: &mut Buffers) -> Ran {
        let (mut machine, budgets) = black_box((self.start.machine, [u32::MAX; 3]));
        let (dmem, imem) = (&mut b.dmem, &mut b.imem);
        let [count, words] = machine.run(budgets, &mut b.rdram, dmem, imem, &mut b.out);
        Ran {
            machine,
            count,
            words,
        }
    }

    fn copy(&self, b: &mut Buffers) {
        Shape::of_words(self.each).copy(self.storing, b);
        let bytes = 8 * self.each;
        b.out[..bytes].copy_from_slice(&b.rdram[LIST..][..bytes]);
    }

    fn aims(&self) -> Vec<Aim> {
        let aim = |of, most| Aim::new("All three", of, most);
        vec![aim(Column::Plain, 3.0), aim(Column::Before, NO_SLOWER)]
    }
}

/// Every size: loads beside one-word commands, and stores beside mixed ones.
fn each(mut time: impl FnMut(&mut Buffers, &Both)) {
    let mut buffers = Buffers::new(RDRAM, 8 * SIZES[4]);
    for (storing, commands) in [(false, Commands::OneWord), (true, Commands::Mixed)] {
        fill_list(&mut buffers.rdram[LIST..][..8 * SIZES[4]], commands);
        for each in SIZES {
            time(&mut buffers, &Both::new(each, storing, commands));
        }
    }
}

pub fn all(show: &mut dyn FnMut(Line)) {
    each(|buffers, both| show(both.beside_plain(buffers)));
}

#[cfg(before)]
pub fn before_and_after(show: &mut dyn FnMut(Line)) {
    each(|buffers, both| show(both.beside_before(buffers)));
}
