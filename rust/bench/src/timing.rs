//! Times several ways of doing the same, turn about.

use crate::buffers::{Buffers, Left};
use std::hint::black_box;
use std::time::{Duration, Instant};

const ROUNDS: usize = 64;
const ROUND: Duration = Duration::from_millis(1);

/// Where the stack stands in a line of the cache decides up to a fifth of the time in which a state
/// is handed on. So the rounds are made at each of these depths.
const DEPTHS: [fn(Timed) -> f64; 4] = [lower::<16>, lower::<32>, lower::<48>, lower::<64>];

type Timed<'a> = &'a mut dyn FnMut() -> f64;

/// Makes a call so many bytes further down the stack.
#[inline(never)]
fn lower<const BYTES: usize>(call: Timed) -> f64 {
    let room = black_box([0u8; BYTES]);
    let time = call();
    black_box(&room);
    time
}

/// Whose time it is; each has a column of a table.
#[derive(Clone, Copy, PartialEq)]
pub enum Column {
    Ours,
    /// A call for each register write of a burst.
    Singly,
    /// An earlier library.
    Before,
    Plain,
    /// The SP's words as an emulator's DMA moves them.
    Dma,
    Copy,
}

impl Column {
    pub fn name(self) -> &'static str {
        match self {
            Column::Ours => "ours",
            Column::Singly => "single calls",
            Column::Before => "before",
            Column::Plain => "plain Rust",
            Column::Dma => "DMA loop",
            Column::Copy => "copy",
        }
    }
}

/// By its name: ours may take so many times as long as another.
#[derive(Clone, PartialEq)]
pub struct Aim {
    pub name: String,
    pub of: Column,
    pub most: f64,
}

impl Aim {
    pub fn new(name: impl Into<String>, of: Column, most: f64) -> Aim {
        let name = name.into();
        Aim { name, of, most }
    }
}

/// The nanoseconds of each way for each word, call or record; ours first.
pub struct Line {
    pub what: String,
    pub size: usize,
    pub times: Vec<(Column, f64)>,
    pub aims: Vec<Aim>,
}

impl Line {
    /// How many times as long as another ours takes.
    pub fn ratio(&self, of: Column) -> f64 {
        let (_, ours) = self.times[0];
        let other = self.times.iter().find(|(column, _)| *column == of);
        ours / other.expect("a column of this line").1
    }
}

type Call<'a> = Box<dyn Fn(&mut Buffers) -> Left + 'a>;
type Round<'a> = Box<dyn Fn(&mut Buffers, u32) -> f64 + 'a>;

/// One way of doing it.
pub struct Way<'a> {
    column: Column,
    /// Does it once, if what it leaves is compared.
    call: Option<Call<'a>>,
    /// Times a round of so many calls, which are compiled into it.
    round: Round<'a>,
}

impl<'a> Way<'a> {
    /// One that must leave the same as the others.
    pub fn compared<T: Into<Left>>(
        column: Column,
        call: impl Fn(&mut Buffers) -> T + Copy + 'a,
    ) -> Way<'a> {
        Way {
            call: Some(Box::new(move |b| call(b).into())),
            ..Way::timed(column, call)
        }
    }

    pub fn timed<T>(column: Column, call: impl Fn(&mut Buffers) -> T + 'a) -> Way<'a> {
        Way {
            column,
            call: None,
            round: Box::new(move |b, repeats| round(b, repeats, &call)),
        }
    }

    /// How many times a call must be made to fill a round. This is its warm-up, too.
    fn repeats(&self, buffers: &mut Buffers) -> u32 {
        let mut n = 1;
        loop {
            let time = (self.round)(buffers, n) * n as f64;
            let wanted = ROUND.as_nanos() as f64;
            if time >= wanted / 4.0 {
                return (n as f64 * wanted / time * 1.1).ceil() as u32;
            }
            n *= 2;
        }
    }
}

/// Times the ways, after one call of each of those that must leave the same.
pub fn measure(
    what: impl Into<String>,
    size: usize,
    buffers: &mut Buffers,
    ways: Vec<Way>,
) -> Line {
    let what = what.into();
    compare(&format!("{what}, {size}"), buffers, &ways);
    let repeats: Vec<u32> = ways.iter().map(|way| way.repeats(buffers)).collect();
    let mut times = vec![f64::INFINITY; ways.len()];
    for i in 0..ROUNDS {
        let at_depth = DEPTHS[i % DEPTHS.len()];
        // Interleaved, so that a slow spell of the machine falls on all of them; and the fastest
        // counts, because whatever else runs only makes a round slower.
        for ((way, repeats), fastest) in ways.iter().zip(&repeats).zip(&mut times) {
            let time = at_depth(&mut || (way.round)(buffers, *repeats));
            *fastest = fastest.min(time / size as f64);
        }
    }
    let columns = ways.iter().map(|way| way.column);
    Line {
        what,
        size,
        times: columns.zip(times).collect(),
        aims: Vec::new(),
    }
}

fn compare(what: &str, buffers: &Buffers, ways: &[Way]) {
    let mut first = None;
    for way in ways {
        let Some(call) = &way.call else {
            continue;
        };
        let mut copy = buffers.clone();
        let left = call(&mut copy);
        match &first {
            None => first = Some((left, copy)),
            Some((expected, bytes)) => {
                let name = way.column.name();
                assert_eq!(*expected, left, "{what}: {name} differs");
                assert!(*bytes == copy, "{what}: the bytes of {name} differ");
            }
        }
    }
}

/// One round: the nanoseconds of each call.
fn round<T>(buffers: &mut Buffers, repeats: u32, call: impl Fn(&mut Buffers) -> T) -> f64 {
    let start = Instant::now();
    for _ in 0..repeats {
        black_box(call(black_box(buffers)));
    }
    start.elapsed().as_nanos() as f64 / repeats as f64
}
