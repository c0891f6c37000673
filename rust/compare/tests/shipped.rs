//! The recordings that are shipped with their listings, replayed by the library.

use ofersky::{verdict, Replayed, Verdict, LISTING_BYTES};
use std::fs;
use std::path::{Path, PathBuf};

/// The lengths of the replay program's memories.
const RDRAM: usize = 32_768;
const BANK: usize = 4_096;

/// The verdict of each recording, counted in its listing: the `R` and `L` lines, and those with
/// `expected`. The index and the place are those of the first record with such a line.
const VERDICTS: [(&str, Verdict); 42] = [
    ("bank_wrap", passed(13)),
    ("double_buffer", passed(16)),
    ("empty", Verdict::NothingCompared),
    ("freeze_flush", passed(10)),
    ("long_11", differs(463, 67, 84, 800)),
    ("long_138", differs(445, 62, 103, 979)),
    ("long_17", differs(475, 68, 88, 832)),
    ("long_merged_505", differs(400, 53, 78, 774)),
    ("long_queue_52", differs(428, 53, 105, 1081)),
    ("longest", Verdict::NothingCompared),
    ("merged_budgets", passed(9)),
    ("merged_order", passed(5)),
    ("merged_room", passed(6)),
    ("merged_run", passed(10)),
    ("mirrors", differs(13, 1, 14, 126)),
    ("mismatch", differs(9, 7, 0, 0)),
    ("past_length", passed(11)),
    ("pipe_busy", passed(10)),
    ("queue_drain", passed(12)),
    ("queue_flush", passed(9)),
    ("queue_stall", passed(13)),
    ("queue_sync_full", passed(10)),
    ("refused_after_mismatch", refused(10, 2, 1)),
    ("refused_cut", refused(8, 1, 0)),
    ("refused_first", refused(5, 0, 0)),
    ("refused_kind", refused(7, 0, 0)),
    ("refused_long", refused(9, 0, 0)),
    ("refused_memory", refused(6, 1, 0)),
    ("refused_memory_end", refused(6, 1, 0)),
    ("refused_misaligned", refused(10, 2, 0)),
    ("refused_misaligned_outside", refused(10, 1, 0)),
    ("refused_past_mirrors", refused(5, 3, 0)),
    ("refused_register", refused(5, 2, 0)),
    ("refused_unaligned", refused(6, 1, 0)),
    ("refused_zero_kind", refused(7, 2, 0)),
    ("row_pieces", passed(21)),
    ("sync_full", passed(11)),
    ("texture_load", passed(17)),
    ("texture_store", passed(15)),
    ("waiting_list", passed(13)),
    ("whole_case", passed(1)),
    ("xbus_list", passed(9)),
];

const fn passed(compared: u32) -> Verdict {
    Verdict::Passed { compared }
}

const fn differs(compared: u32, differed: u32, first_index: u32, first_place: usize) -> Verdict {
    Verdict::Differs {
        compared,
        differed,
        first_index,
        first_place,
    }
}

const fn refused(number: u32, compared: u32, differed: u32) -> Verdict {
    Verdict::Refused {
        number,
        compared,
        differed,
    }
}

fn folder() -> PathBuf {
    Path::new(env!("CARGO_MANIFEST_DIR")).join("../../crates/recordings/data")
}

/// The last line of a listing, as the call's answer has it.
fn last_line(replayed: &Replayed) -> String {
    let answer = replayed.outcome.answer;
    match answer.number {
        0 => format!("end {}\n", answer.count),
        number => format!("stop {} {number} {}\n", answer.count, replayed.place),
    }
}

/// The listing of a recording from power-up, as the replay program writes it, and the verdict.
fn replay(recording: &[u8]) -> (Vec<u8>, Verdict) {
    let (mut rdram, mut out) = (vec![0; RDRAM], vec![0; LISTING_BYTES]);
    let (mut dmem, mut imem) = ([0; BANK], [0; BANK]);
    let state = ofersky::power_up();
    let replayed = ofersky::replay(state, recording, &mut rdram, &mut dmem, &mut imem, &mut out);
    out.truncate(replayed.written);
    assert!(out.ends_with(last_line(&replayed).as_bytes()));
    (out, verdict(&replayed))
}

/// The first line that differs: a whole listing is too long to read.
fn first_difference(expected: &[u8], given: &[u8]) -> String {
    let [expected, given] = [expected, given].map(String::from_utf8_lossy);
    let lines = expected.split('\n').zip(given.split('\n'));
    let found = lines.enumerate().find(|(_, (one, other))| one != other);
    match found {
        Some((i, (one, other))) => format!("line {}: expected {one}, given {other}", i + 1),
        None => format!("{} bytes expected, {} given", expected.len(), given.len()),
    }
}

#[test]
fn shipped_recordings() {
    let folder = folder();
    let entries = fs::read_dir(&folder)
        .unwrap_or_else(|error| panic!("no recordings in {}: {error}", folder.display()));
    let mut names: Vec<PathBuf> = entries
        .map(|entry| entry.expect("an entry of the folder").path())
        .filter(|path| path.extension().is_some_and(|ending| ending == "rec"))
        .collect();
    names.sort();
    for path in &names {
        let name = path.file_name().unwrap().to_string_lossy();
        let recording = fs::read(path).expect("a recording");
        let expected = fs::read(path.with_extension("listing"))
            .unwrap_or_else(|error| panic!("{name} has no listing: {error}"));
        let (given, verdict) = replay(&recording);
        let differs = || first_difference(&expected, &given);
        assert!(expected == given, "{name}: {}", differs());
        let stem = name.trim_end_matches(".rec");
        let known = VERDICTS.iter().find(|(known, _)| *known == stem);
        assert_eq!(known, Some(&(stem, verdict)));
    }
    println!(
        "compared {} shipped recordings with their listings and verdicts",
        names.len()
    );
    assert_eq!(names.len(), VERDICTS.len());
}
