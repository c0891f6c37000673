//! The program: shipped recordings come out byte for byte, and arguments that it cannot read.

use generate::{generate, Traffic};
use std::fs;
use std::path::Path;
use std::process::{Command, Output};

/// Runs the program.
fn run(arguments: &[&str]) -> Output {
    let program = env!("CARGO_BIN_EXE_generate");
    let output = Command::new(program).args(arguments).output();
    output.expect("the program runs")
}

/// The recordings that are shipped, with the arguments that made them.
const SHIPPED: [(&str, &[&str]); 5] = [
    ("long_138", &["138", "14000"]),
    ("long_11", &["11", "14000"]),
    ("long_17", &["17", "14000"]),
    ("long_merged_505", &["505", "14000", "merged"]),
    ("long_queue_52", &["52", "14000", "queue"]),
];

#[test]
fn shipped_recordings_come_out_byte_for_byte() {
    let folder = Path::new(env!("CARGO_MANIFEST_DIR")).join("../../crates/recordings/data");
    for (name, arguments) in SHIPPED {
        let path = folder.join(name).with_extension("rec");
        let expected = fs::read(&path)
            .unwrap_or_else(|error| panic!("there is no {}: {error}", path.display()));
        let output = run(arguments);
        assert!(output.status.success());
        assert!(output.stdout == expected, "{name} comes out otherwise");
    }
}

#[test]
fn the_program_writes_what_the_library_makes() {
    let kinds: [(&[&str], Traffic); 3] = [
        (&["3", "5000"], Traffic::Plain),
        (&["3", "5000", "merged"], Traffic::Merged),
        (&["3", "5000", "queue"], Traffic::Queue),
    ];
    for (arguments, traffic) in kinds {
        assert!(run(arguments).stdout == generate(3, 5_000, traffic));
    }
}

#[test]
fn other_arguments_are_refused() {
    let others: [&[&str]; 4] = [&[], &["138"], &["138", "many"], &["1", "2", "3"]];
    for arguments in others {
        let output = run(arguments);
        assert_eq!(output.status.code(), Some(2));
        assert!(output.stdout.is_empty());
        let usage = "generate SEED BYTES [merged|queue]\n";
        assert_eq!(output.stderr, usage.as_bytes());
    }
}
