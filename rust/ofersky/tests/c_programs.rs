//! The C programs and the header: compiled without a warning, linked with the library and run. The
//! header is tried as C++ too. Where the machine has no compiler, the tests say so and are skipped.

mod common;

use common::{path, run, stderr, stdout, text};
use std::env;
use std::io::ErrorKind;
use std::path::{Path, PathBuf};
use std::process::Command;

/// The static library that the Rust package is linked with too.
fn library() -> PathBuf {
    match env::var_os("OFERSKY_LIB") {
        Some(folder) => Path::new(&folder).join("libofersky.a"),
        None => path("crates/ofersky/out/libofersky.a"),
    }
}

/// Is there such a compiler?
fn is_there(compiler: &str) -> bool {
    match Command::new(compiler).arg("--version").output() {
        Ok(_) => true,
        Err(error) if error.kind() == ErrorKind::NotFound => {
            println!("skipped: there is no {compiler} on this machine");
            false
        }
        Err(error) => panic!("{compiler} cannot be run: {error}"),
    }
}

/// A program of c/, compiled without a warning. The options say which language it is.
fn compile(compiler: &str, options: &[&str], source: &str) -> PathBuf {
    let language = options.concat().replace(['+', '-', '='], "_");
    let program = Path::new(env!("CARGO_TARGET_TMPDIR")).join(format!("{source}{language}"));
    let output = Command::new(compiler)
        .args(options)
        .args(["-Wall", "-Wextra", "-Wpedantic", "-O1", "-I"])
        .arg(path("c"))
        .arg("-o")
        .arg(&program)
        .arg(path("c").join(source))
        .args(["-x", "none"])
        .arg(library())
        .output()
        .expect("the compiler runs");
    let said = stderr(&output);
    assert!(output.status.success(), "{compiler} failed:\n{said}");
    assert!(said.is_empty(), "{compiler} warns:\n{said}");
    program
}

/// What a program of c/ writes; its status must be 0.
fn written(compiler: &str, options: &[&str], source: &str) -> String {
    let output = run(&compile(compiler, options, source), &[]);
    let given = stdout(&output);
    assert!(output.status.success(), "{source} failed:\n{given}");
    given
}

#[test]
fn example_writes_what_is_expected() {
    if is_there("cc") {
        assert_eq!(
            written("cc", &["-std=c11"], "example.c"),
            text("c/example.out")
        );
    }
}

#[test]
fn first_program_writes_what_readme_says_in_c_and_cpp() {
    let line = "success: 2 words moved, byte 7 of DMEM is 42\n";
    for standard in ["-std=c99", "-std=c11"] {
        if is_there("cc") {
            assert_eq!(written("cc", &[standard], "first.c"), line);
        }
    }
    for standard in ["-std=c++11", "-std=c++17"] {
        if is_there("c++") {
            assert_eq!(written("c++", &["-x", "c++", standard], "first.c"), line);
        }
    }
}

/// The messages of C are those of Rust, for every number and some that there are not.
#[test]
fn every_call_answers_c_and_messages_are_the_same() {
    if !is_there("cc") {
        return;
    }
    let given = written("cc", &["-std=c11"], "every_call.c");
    let (messages, rest): (Vec<_>, Vec<_>) =
        given.lines().partition(|line| line.starts_with("message "));
    let expected = (0..=16).map(|number| format!("message {number} {}", ofersky::message(number)));
    assert_eq!(messages, expected.collect::<Vec<_>>());
    let [line] = rest[..] else {
        panic!("{rest:?}");
    };
    let checks: u32 = line
        .strip_suffix(" checks, 0 failed")
        .unwrap()
        .parse()
        .unwrap();
    assert!(checks > 250, "{line}");
    println!("C: {line}");
}

/// The exports of the library's source, each of which C and Rust must declare and a program in C
/// must call.
#[test]
fn every_export_is_declared_and_called() {
    let folder = path("crates/ofersky/src");
    let mut exports = Vec::new();
    for file in std::fs::read_dir(folder).expect("a folder") {
        let source = std::fs::read_to_string(file.expect("a file").path()).expect("text");
        for line in source.lines() {
            if let Some(rest) = line.strip_prefix("pub extern \"C\" fn ") {
                let name: String = rest
                    .chars()
                    .take_while(|c| c.is_alphanumeric() || *c == '_')
                    .collect();
                exports.push(name);
            }
        }
    }
    assert!(exports.len() >= 19, "{exports:?}");
    let (header, raw) = (text("c/ofersky.h"), text("rust/ofersky/src/raw.rs"));
    let (program, calls) = (
        text("c/every_call.c"),
        text("rust/ofersky/src/calls.rs") + &text("rust/ofersky/src/verdict.rs"),
    );
    for name in &exports {
        assert!(
            header.contains(&format!(" {name}(")),
            "the header lacks {name}"
        );
        assert!(
            program.contains(&format!("{name}(")),
            "no call of {name} in C"
        );
        assert!(raw.contains(&format!("fn {name}(")), "raw.rs lacks {name}");
        assert!(
            calls.contains(&format!("raw::{name}(")),
            "no call of {name} in Rust"
        );
    }
}
