//! `generate SEED BYTES` writes a recording of at most BYTES bytes, `generate SEED BYTES merged`
//! one with runs of both engines in it, too, and `generate SEED BYTES queue` one in which words
//! often stay queued beside that.

use generate::{generate, Traffic};
use std::io::{self, Write};

/// The seed, the limit and the traffic that the arguments ask for.
fn parse(arguments: &[String]) -> Option<(u64, usize, Traffic)> {
    let (numbers, traffic) = match arguments {
        [numbers @ .., last] if last == "merged" => (numbers, Traffic::Merged),
        [numbers @ .., last] if last == "queue" => (numbers, Traffic::Queue),
        numbers => (numbers, Traffic::Plain),
    };
    let numbers: Vec<u64> = numbers
        .iter()
        .filter_map(|word| word.parse().ok())
        .collect();
    match numbers[..] {
        [seed, limit] => Some((seed, limit as usize, traffic)),
        _ => None,
    }
}

fn main() -> io::Result<()> {
    let arguments: Vec<String> = std::env::args().skip(1).collect();
    let Some((seed, limit, traffic)) = parse(&arguments) else {
        eprintln!("generate SEED BYTES [merged|queue]");
        std::process::exit(2);
    };
    io::stdout().write_all(&generate(seed, limit, traffic))
}
