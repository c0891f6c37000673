//! What generated recordings have in them: kinds of records, whole replays, and words that stay
//! queued.

use generate::{generate, Traffic};
use model::machine::Machine;
use model::recording::{apply, record_at, replay, RDRAM_BYTES};

fn power_up() -> Machine {
    Machine::new(RDRAM_BYTES)
}

/// The kinds of the records of a recording.
fn kinds(recording: &[u8]) -> Vec<u8> {
    let mut kinds = Vec::new();
    let mut place = 0;
    while place < recording.len() {
        kinds.push(recording[place]);
        place = record_at(recording, place).expect("a record").1;
    }
    kinds
}

/// Generated recordings are whole, within their length, and have both kinds of line; the sound
/// states are seen to by the generator itself. Runs of both engines are in them exactly where they
/// are asked for.
#[test]
fn generated_recordings_replay_to_their_end() {
    for seed in 1..=6 {
        let limit = 2_000 + 1_000 * seed as usize;
        for traffic in [Traffic::Plain, Traffic::Merged, Traffic::Queue] {
            let recording = generate(seed, limit, traffic);
            assert!(recording.len() <= limit && recording.len() + 13 > limit);
            let outcome = replay(&mut power_up(), &recording);
            assert_eq!(outcome.number, 0);
            assert!(outcome.listing.contains(" ok\n"));
            assert!(outcome.listing.contains(" expected "));
            let merged = traffic != Traffic::Plain;
            assert_eq!(kinds(&recording).contains(&10), merged);
        }
    }
}

/// How many records of a recording are done with a word queued.
fn done_with_words_queued(recording: &[u8]) -> usize {
    let mut machine = power_up();
    let (mut place, mut count) = (0, 0);
    while place < recording.len() {
        count += usize::from(!machine.dp.queue.is_empty());
        let (record, after) = record_at(recording, place).expect("a record");
        apply(&mut machine, record).expect("only good records are made");
        place = after;
    }
    count
}

/// Words stay queued often where that is asked for.
#[test]
fn generated_recordings_leave_words_queued() {
    for seed in [1, 2, 52] {
        let recording = generate(seed, 14_000, Traffic::Queue);
        let records = kinds(&recording).len();
        let queued = done_with_words_queued(&recording);
        assert!(10 * queued > records, "{queued} of {records}");
    }
}
