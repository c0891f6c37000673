//! The examples, which `cargo test` builds: what they write and what their statuses are.

mod common;

use common::{path, run, stderr, stdout, text};
use std::path::{Path, PathBuf};

/// The program of an example; it is beside the folder of this test.
fn example(name: &str) -> PathBuf {
    let test = std::env::current_exe().expect("a path");
    let profile = test.ancestors().nth(2).expect("a folder");
    profile.join("examples").join(name)
}

#[test]
fn first_writes_what_readme_says() {
    let output = run(&example("first"), &[]);
    assert!(output.status.success(), "{}", stderr(&output));
    assert_eq!(stdout(&output), "2 words moved, byte 7 of DMEM is 42\n");
}

/// The listing, the line and the status for a shipped recording. They are those of `replay`, in
/// other words.
fn judged(name: &str, summary: &str, status: i32) {
    let output = run(
        &example("judge"),
        &[&path(&format!("recordings/{name}.rec"))],
    );
    assert_eq!(stdout(&output), text(&format!("recordings/{name}.listing")));
    assert_eq!(stderr(&output), format!("{summary}\n"));
    assert_eq!(output.status.code(), Some(status), "{name}");
}

#[test]
fn judge_gives_listing_verdict_and_status() {
    judged("texture_load", "passed: 17 compared", 0);
    judged(
        "mirrors",
        "differs: 1 of 13, first at record 14, byte 126",
        1,
    );
    judged("refused_cut", "refused at byte 18: record is cut short", 1);
    judged("empty", "nothing compared", 1);
}

#[test]
fn judge_without_a_recording_has_status_2() {
    let missing = run(&example("judge"), &[Path::new("no/such/file")]);
    assert_eq!(missing.status.code(), Some(2));
    assert!(stderr(&missing).starts_with("no/such/file: "));
    assert_eq!(run(&example("judge"), &[]).status.code(), Some(2));
}
