//! Runs that fetch and consume whole lists.

use super::{run, Words, DP_STATUS, END, NO_SLOWER, RDRAM, START};
use crate::buffers::{Buffers, Start, SEED};
use crate::library::Library;
use crate::plain::dp::{Rest, LENGTHS};
use crate::plain::Ran;
use crate::timing::{Aim, Column, Line};
use random::Random;
use std::hint::black_box;

/// Where lists stand in RDRAM.
const LIST: usize = 0x10_0000;

const SIZES: [usize; 5] = [8, 64, 512, 4096, 131_072];

/// Which commands a list has.
#[derive(Clone, Copy)]
pub enum Commands {
    OneWord,
    Mixed,
}

impl Commands {
    pub fn name(self) -> &'static str {
        match self {
            Commands::OneWord => "one-word commands",
            Commands::Mixed => "mixed commands",
        }
    }

    fn allows(self, op: u8) -> bool {
        match self {
            Commands::OneWord => LENGTHS[op as usize] == 1,
            Commands::Mixed => true,
        }
    }
}

/// Fills memory with commands whose opcodes come in no order; bits 7 and 6 of a first byte do not
/// count.
pub fn fill_list(bytes: &mut [u8], commands: Commands) {
    let mut random = Random::new(SEED);
    random.fill(bytes);
    let mut at = 0;
    while at < bytes.len() {
        let op = random.below(64) as u8;
        if commands.allows(op) {
            bytes[at] = bytes[at] & 0xC0 | op;
            at += 8 * LENGTHS[op as usize] as usize;
        }
    }
}

/// A list that is about to run.
struct List {
    at: usize,
    start: Start,
}

impl List {
    fn new(at: usize, words: usize, xbus: bool) -> List {
        let start = Start::written(&[
            (DP_STATUS, if xbus { 2 } else { 1 }),
            (START, at as u32),
            (END, (at + 8 * words) as u32),
        ]);
        List { at, start }
    }
}

/// Lists of as many words each, one run for each of them.
struct Lists {
    name: String,
    words: usize,
    lists: Vec<List>,
    xbus: bool,
}

impl Lists {
    fn one(words: usize, commands: Commands, xbus: bool) -> Lists {
        let memory = if xbus { "DMEM" } else { "RDRAM" };
        let at = if xbus { 0 } else { LIST };
        Lists {
            name: format!("list in {memory}, {}", commands.name()),
            words,
            lists: vec![List::new(at, words, xbus)],
            xbus,
        }
    }

    /// As many lists as there is room for, no two alike: what the processor has seen of one does
    /// not help it with the next.
    fn many(words: usize, commands: Commands) -> Lists {
        let starts = (0..SIZES[4]).step_by(words).map(|at| LIST + 8 * at);
        Lists {
            name: format!("lists of {words}, {}", commands.name()),
            words,
            lists: starts.map(|at| List::new(at, words, false)).collect(),
            xbus: false,
        }
    }
}

impl Words for Lists {
    type Given = ofersky::Ran;

    fn name(&self) -> &str {
        &self.name
    }

    fn words(&self) -> usize {
        self.words * self.lists.len()
    }

    fn called(&self, library: &Library, b: &mut Buffers) -> ofersky::Ran {
        let mut done = ofersky::Ran::default();
        let mut words = 0;
        for list in &self.lists {
            done = run(library, list.start.state, [0, u32::MAX, u32::MAX], b);
            words += done.words;
        }
        done.words = words;
        done
    }

    fn plain(&self, b: &mut Buffers) -> Ran {
        let mut ran = Ran::default();
        for list in &self.lists {
            let budgets;
            (ran.machine, budgets) = black_box((list.start.machine, [u32::MAX; 2]));
            let (machine, rest) = (&mut ran.machine, Rest::new(budgets, &mut b.out));
            ran.words += machine.dp.run(&mut machine.queue, rest, &b.rdram, &b.dmem);
        }
        ran
    }

    fn copy(&self, b: &mut Buffers) {
        let memory = if self.xbus { &b.dmem[..] } else { &b.rdram };
        for list in &self.lists {
            let words = &memory[list.at..][..8 * self.words];
            b.out[..words.len()].copy_from_slice(words);
        }
    }

    fn aims(&self) -> Vec<Aim> {
        let aim = |of, most| Aim::new("Fetch and consume", of, most);
        vec![aim(Column::Plain, 3.0), aim(Column::Before, NO_SLOWER)]
    }
}

/// Lists of every size with both kinds of commands.
fn each(mut time: impl FnMut(&mut Buffers, &Lists)) {
    let mut buffers = Buffers::new(RDRAM, 8 * SIZES[4]);
    for commands in [Commands::OneWord, Commands::Mixed] {
        fill_list(&mut buffers.rdram[LIST..][..8 * SIZES[4]], commands);
        fill_list(&mut buffers.dmem[..], commands);
        for words in SIZES {
            time(&mut buffers, &Lists::one(words, commands, false));
        }
        time(&mut buffers, &Lists::many(64, commands));
        time(&mut buffers, &Lists::one(512, commands, true));
    }
}

pub fn all(show: &mut dyn FnMut(Line)) {
    each(|buffers, lists| show(lists.beside_plain(buffers)));
}

#[cfg(before)]
pub fn before_and_after(show: &mut dyn FnMut(Line)) {
    each(|buffers, lists| show(lists.beside_before(buffers)));
}
