//! Finds out how the library under test can be reached.
//!
//! The archive `libsgdma.a` is looked for in the directory that `SGDMA_LIB_DIR`
//! names, taken from this package's directory. Its code is x86-64: there it is
//! linked. Elsewhere `SGDMA_BRIDGE`, the command of a program that links it, is
//! the way. Without either the tests of the model and of the harness itself still
//! build and run.
//!
//! `have_library` says that the library can be reached, `have_bridge` that this
//! is by the bridge.

use std::{env, path::Path};

const DEFAULT_DIRECTORY: &str = "../target/staticlib";

fn main() {
    println!("cargo::rustc-check-cfg=cfg(have_library, have_bridge)");
    println!("cargo::rerun-if-changed=build.rs");
    println!("cargo::rerun-if-env-changed=SGDMA_LIB_DIR");
    println!("cargo::rerun-if-env-changed=SGDMA_BRIDGE");
    let directory = env::var("SGDMA_LIB_DIR").unwrap_or_else(|_| DEFAULT_DIRECTORY.to_owned());
    let archive = Path::new(&directory).join("libsgdma.a");
    // An archive that is missing counts as changed, so that its coming is seen.
    println!("cargo::rerun-if-changed={}", archive.display());
    let x86_64 = env::var("CARGO_CFG_TARGET_ARCH").is_ok_and(|target| target == "x86_64");
    if x86_64 && archive.exists() {
        link(&archive);
    } else if env::var_os("SGDMA_BRIDGE").is_some() {
        println!("cargo::rustc-cfg=have_library");
        println!("cargo::rustc-cfg=have_bridge");
    }
}

fn link(archive: &Path) {
    let found = archive.canonicalize().expect("the archive exists");
    let directory = found.parent().expect("a file stands in a directory");
    println!("cargo::rustc-link-search=native={}", directory.display());
    println!("cargo::rustc-link-lib=static=sgdma");
    println!("cargo::rustc-cfg=have_library");
}
