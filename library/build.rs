//! Links `libhurfaith.a`, which `rt lib` in `crates/hurfaith` leaves in its `out`.

use std::env;
use std::path::PathBuf;

fn main() {
    println!("cargo:rerun-if-env-changed=HURFAITH_LIBRARY");
    let directory = match env::var_os("HURFAITH_LIBRARY") {
        Some(directory) => PathBuf::from(directory),
        None => PathBuf::from(env!("CARGO_MANIFEST_DIR")).join("../crates/hurfaith/out"),
    };
    let archive = directory.join("libhurfaith.a");
    println!("cargo:rerun-if-changed={}", archive.display());
    if !archive.exists() {
        eprintln!("no {}: make it with `rt lib` in crates/hurfaith", archive.display());
        std::process::exit(1);
    }
    println!("cargo:rustc-link-search=native={}", directory.display());
    println!("cargo:rustc-link-lib=static=hurfaith");
}
