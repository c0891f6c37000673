//! Tells cargo where the library is that `rt lib` writes in crates/ofersky. OFERSKY_LIB names
//! another folder.
//!
//! Where the library is not built yet this is a warning and no error: `cargo check`, `cargo doc`
//! and editors do not need it. What is linked then fails, for want of the library.

use std::env;
use std::path::PathBuf;

fn main() {
    println!("cargo:rerun-if-env-changed=OFERSKY_LIB");
    let folder = match env::var_os("OFERSKY_LIB") {
        Some(folder) => PathBuf::from(folder),
        None => PathBuf::from(env::var_os("CARGO_MANIFEST_DIR").unwrap())
            .join("../../crates/ofersky/out"),
    };
    let library = folder.join("libofersky.a");
    println!("cargo:rerun-if-changed={}", library.display());
    if !library.exists() {
        println!(
            "cargo:warning=there is no {}: run `rt lib` in crates/ofersky before programs are linked",
            library.display()
        );
    }
    println!("cargo:rustc-link-search=native={}", folder.display());
    // Bundled, it would be read when the package itself is compiled, and `cargo check` would fail
    // without it.
    println!("cargo:rustc-link-lib=static:-bundle=ofersky");
}
