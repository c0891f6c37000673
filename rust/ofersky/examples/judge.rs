//! `judge FILE` replays a recording from power-up, writes its listing and says what it found.
//!
//! Status 0: passed. 1: a value differs, the recording is refused, or nothing was compared. 2: the
//! file cannot be read, or the listing cannot be written.

use ofersky::{message, Replayed, Verdict, BANK_BYTES, LISTING_BYTES};
use std::io::Write;
use std::process::ExitCode;

/// The replay from power-up over 32,768 bytes of RDRAM, and its listing.
fn replay(recording: &[u8]) -> (Replayed, Vec<u8>) {
    let mut rdram = vec![0; 32768];
    let (mut dmem, mut imem) = ([0; BANK_BYTES], [0; BANK_BYTES]);
    let mut listing = vec![0; LISTING_BYTES];
    let state = ofersky::power_up();
    let replayed = ofersky::replay(
        state,
        recording,
        &mut rdram,
        &mut dmem,
        &mut imem,
        &mut listing,
    );
    listing.truncate(replayed.written);
    (replayed, listing)
}

/// What a replay found, in one line.
fn summary(replayed: &Replayed) -> String {
    match ofersky::verdict(replayed) {
        Verdict::Passed { compared } => format!("passed: {compared} compared"),
        Verdict::Differs {
            compared,
            differed,
            first_index,
            first_place,
        } => format!(
            "differs: {differed} of {compared}, first at record {first_index}, byte {first_place}"
        ),
        Verdict::NothingCompared => "nothing compared".to_string(),
        Verdict::Refused { number, .. } => {
            format!("refused at byte {}: {}", replayed.place, message(number))
        }
    }
}

fn main() -> ExitCode {
    let Some(path) = std::env::args_os().nth(1) else {
        eprintln!("usage: judge FILE");
        return ExitCode::from(2);
    };
    let recording = match std::fs::read(&path) {
        Ok(recording) => recording,
        Err(error) => {
            eprintln!("{}: {error}", path.to_string_lossy());
            return ExitCode::from(2);
        }
    };
    let (replayed, listing) = replay(&recording);
    if let Err(error) = std::io::stdout().write_all(&listing) {
        eprintln!("the listing was not written: {error}");
        return ExitCode::from(2);
    }
    eprintln!("{}", summary(&replayed));
    match ofersky::verdict(&replayed) {
        Verdict::Passed { .. } => ExitCode::SUCCESS,
        _ => ExitCode::from(1),
    }
}
