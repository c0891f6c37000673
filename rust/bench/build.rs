//! OFERSKY_BEFORE names the folder of an earlier libofersky.a, to be timed beside this one in the
//! same run. All its names are hidden but those of the calls that are timed, which get names of
//! their own, and declarations that are made of ours.

use std::env;
use std::fs;
use std::path::{Path, PathBuf};
use std::process::Command;

/// The calls that are timed.
const CALLS: [&str; 7] = [
    "run",
    "sp_turn",
    "dp_turn",
    "consumer_turn",
    "read_register",
    "write_register",
    "replay",
];

fn main() {
    println!("cargo:rustc-check-cfg=cfg(before)");
    println!("cargo:rerun-if-env-changed=OFERSKY_BEFORE");
    let Some(folder) = env::var_os("OFERSKY_BEFORE") else {
        return;
    };
    let library = PathBuf::from(folder).join("libofersky.a");
    println!("cargo:rerun-if-changed={}", library.display());
    let out = PathBuf::from(env::var_os("OUT_DIR").unwrap());
    rename(&library, &out.join("libbefore.a"));
    declare(&out.join("before.rs"));
    println!("cargo:rustc-link-search=native={}", out.display());
    println!("cargo:rustc-link-lib=static=before");
    println!("cargo:rustc-cfg=before");
}

fn rename(from: &Path, to: &Path) {
    let mut objcopy = Command::new("objcopy");
    for call in CALLS {
        objcopy.arg(format!("--redefine-sym=ofersky_{call}=before_{call}"));
        objcopy.arg(format!("--keep-global-symbol=before_{call}"));
    }
    match objcopy.arg(from).arg(to).status() {
        Ok(status) if status.success() => {}
        other => panic!("objcopy of {}: {other:?}", from.display()),
    }
}

/// The wrapper's declarations, under those names.
fn declare(to: &Path) {
    let ours = "../ofersky/src/raw.rs";
    println!("cargo:rerun-if-changed={ours}");
    let text = fs::read_to_string(ours).unwrap();
    let text = text.replace("ofersky_", "before_");
    let text = text.replace("use crate::", "use ofersky::");
    let lines = text.lines().filter(|line| !line.starts_with("//!"));
    fs::write(to, lines.collect::<Vec<_>>().join("\n")).unwrap();
}
