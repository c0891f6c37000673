//! Reads a recording from standard input and writes its listing.

use model::machine::Machine;
use model::recording::{replay, RDRAM_BYTES};
use std::io::{self, Read, Write};

fn main() -> io::Result<()> {
    let mut recording = Vec::new();
    io::stdin().read_to_end(&mut recording)?;
    let mut machine = Machine::new(RDRAM_BYTES);
    let outcome = replay(&mut machine, &recording);
    io::stdout().write_all(outcome.listing.as_bytes())
}
