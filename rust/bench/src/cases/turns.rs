//! Single turns, each a call of its own. Their cost must not grow with RDRAM.

use super::dp::{fill_list, Commands};
use super::{Words, END, NO_SLOWER, RAMADDR, RDLEN, SPADDR, START};
use crate::buffers::{Buffers, Start};
use crate::library::Library;
use crate::plain::{Machine, Ran, SLOTS};
use crate::timing::{Aim, Column, Line};
use ofersky::{Outcome, State};
use std::hint::black_box;

const SIZES: [(usize, &str); 3] = [(1 << 12, "4 KiB"), (1 << 20, "1 MiB"), (1 << 24, "16 MiB")];

/// As many as the smallest RDRAM has words.
const TURNS: usize = 512;

/// Which turns.
#[derive(Clone, Copy, PartialEq)]
enum Kind {
    Sp,
    Fetch,
    Consume,
    /// A fetch and then a consumer turn.
    FetchAndConsume,
}

impl Kind {
    fn name(self) -> &'static str {
        match self {
            Kind::Sp => "SP turns",
            Kind::Fetch => "DP turns",
            Kind::Consume => "consumer turns",
            Kind::FetchAndConsume => "DP turn and consumer turn",
        }
    }
}

/// Turns over the first words of RDRAM: a load, or a list of mixed commands.
struct Turns {
    name: String,
    kind: Kind,
    /// Where fetches alone begin anew, because the queue is full; and consumer turns alone, because
    /// it is empty.
    starts: Vec<Start>,
}

impl Turns {
    fn new(kind: Kind, memory: &str, b: &Buffers) -> Turns {
        let list = |from: usize, words: usize| {
            let [from, to] = [from, from + words].map(|word| 8 * word as u32);
            Start::written(&[(START, from), (END, to)])
        };
        let blocks = (0..TURNS).step_by(SLOTS).map(|from| list(from, SLOTS));
        let starts = match kind {
            Kind::Sp => vec![Start::written(&[(SPADDR, 0), (RAMADDR, 0), (RDLEN, 0xFFF)])],
            Kind::Fetch => blocks.collect(),
            Kind::Consume => blocks.map(|start| start.fetched(SLOTS, b)).collect(),
            Kind::FetchAndConsume => vec![list(0, TURNS)],
        };
        let name = match kind {
            Kind::Consume => kind.name().to_string(),
            _ => format!("{}, RDRAM of {memory}", kind.name()),
        };
        Turns { name, kind, starts }
    }

    /// By the calls of a library; their counts are added up.
    fn taken(&self, turn: impl Fn(State, &mut Buffers) -> Outcome, b: &mut Buffers) -> Outcome {
        let mut done = Outcome::default();
        let mut count = 0;
        for start in &self.starts {
            done.state = start.state;
            for _ in 0..TURNS / self.starts.len() {
                done = turn(done.state, b);
                count += done.answer.count;
                black_box(done.answer.value);
            }
        }
        done.answer.count = count;
        done
    }

    /// By turns in plain Rust. Each finds the machine in memory, as a lone turn would.
    fn done(&self, turn: impl Fn(&mut Machine, &mut Buffers) -> u32, b: &mut Buffers) -> Ran {
        let mut machine = Machine::default();
        let mut count = 0;
        for start in &self.starts {
            machine = start.machine;
            for _ in 0..TURNS / self.starts.len() {
                count += turn(black_box(&mut machine), b);
            }
        }
        Ran::counted(machine, count)
    }
}

fn plain_fetch(m: &mut Machine, b: &mut Buffers) -> u32 {
    m.dp.fetch(&mut m.queue, &b.rdram, &b.dmem) as u32
}

fn plain_consume(m: &mut Machine) -> u32 {
    let word = m.dp.consume(&m.queue);
    black_box(word.unwrap_or_default());
    word.is_some() as u32
}

impl Words for Turns {
    type Given = Outcome;

    fn name(&self) -> &str {
        &self.name
    }

    fn words(&self) -> usize {
        TURNS
    }

    fn called(&self, library: &Library, b: &mut Buffers) -> Outcome {
        match self.kind {
            Kind::Sp => self.taken(|s, b| library.sp_turn(s, b), b),
            Kind::Fetch => self.taken(|s, b| library.dp_turn(s, b), b),
            Kind::Consume => self.taken(|s, _| (library.consumer_turn)(s), b),
            Kind::FetchAndConsume => self.taken(
                |s, b| (library.consumer_turn)(library.dp_turn(s, b).state),
                b,
            ),
        }
    }

    fn plain(&self, b: &mut Buffers) -> Ran {
        match self.kind {
            Kind::Sp => self.done(|m, b| m.sp.turn(&mut b.rdram, &mut b.dmem, &mut b.imem), b),
            Kind::Fetch => self.done(plain_fetch, b),
            Kind::Consume => self.done(|m, _| plain_consume(m), b),
            Kind::FetchAndConsume => self.done(
                |m, b| {
                    plain_fetch(m, b);
                    plain_consume(black_box(m))
                },
                b,
            ),
        }
    }

    fn copy(&self, b: &mut Buffers) {
        for at in (0..8 * TURNS).step_by(8) {
            let at = black_box(at);
            if self.kind == Kind::Sp {
                b.dmem[at..at + 8].copy_from_slice(&b.rdram[at..at + 8]);
            } else {
                black_box::<[u8; 8]>(b.rdram[at..at + 8].try_into().unwrap());
            }
        }
    }

    fn aims(&self) -> Vec<Aim> {
        vec![Aim::new(self.kind.name(), Column::Before, NO_SLOWER)]
    }
}

/// Turns of every kind in RDRAM of every size; consumer turns take no memory.
fn each(mut time: impl FnMut(&mut Buffers, &Turns)) {
    for kind in [Kind::Sp, Kind::Fetch, Kind::Consume, Kind::FetchAndConsume] {
        let sizes = if kind == Kind::Consume {
            1
        } else {
            SIZES.len()
        };
        for (rdram, name) in SIZES.into_iter().take(sizes) {
            let mut buffers = Buffers::new(rdram, 0);
            fill_list(&mut buffers.rdram[..8 * TURNS], Commands::Mixed);
            let turns = Turns::new(kind, name, &buffers);
            time(&mut buffers, &turns);
        }
    }
}

pub fn all(show: &mut dyn FnMut(Line)) {
    each(|buffers, turns| show(turns.beside_plain(buffers)));
}

#[cfg(before)]
pub fn before_and_after(show: &mut dyn FnMut(Line)) {
    each(|buffers, turns| show(turns.beside_before(buffers)));
}
