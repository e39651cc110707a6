//! Finds the two archives: `libhw_c.a`, which is proved, and the kit's `liblibc_c.a`, by which it has memory.
//!
//! `HIGHWAY_LIB_DIR` and `RATTLE_C_DIR` name their folders. Else the first is where `rt lib` writes, and the second is
//! the folder `c` beside the page that `rt doc` prints. An archive for a first look, of which nothing is proved, is
//! taken only where `HIGHWAY_LIB_DIR` names its folder, and each build says so.

use std::env;
use std::path::{Path, PathBuf};
use std::process::Command;

/// The folder that the variable names.
fn named(variable: &str) -> Option<PathBuf> {
    println!("cargo:rerun-if-env-changed={variable}");
    env::var_os(variable).map(PathBuf::from)
}

/// Where `rt lib` writes.
fn written() -> PathBuf {
    let here = env::var_os("CARGO_MANIFEST_DIR").map(PathBuf::from).unwrap_or_default();
    here.join("../../crates/hw_c/out")
}

/// The folder `c` of the kit that `rt` is of.
fn of_the_kit() -> Option<PathBuf> {
    let told = Command::new("rt").arg("doc").output().ok()?;
    let page = String::from_utf8(told.stdout).ok()?;
    Some(Path::new(page.trim()).parent()?.join("c"))
}

/// Links the archive of that folder.
fn link(folder: &Path, name: &str, how: &str) {
    let archive = folder.join(format!("lib{name}.a"));
    println!("cargo:rerun-if-changed={}", archive.display());
    if !archive.is_file() {
        println!("cargo:warning={} is missing: {how}", archive.display());
    }
    println!("cargo:rustc-link-search=native={}", folder.display());
    println!("cargo:rustc-link-lib=static={name}");
}

fn main() {
    let library = named("HIGHWAY_LIB_DIR").unwrap_or_else(written);
    link(&library, "hw_c", "run `rt lib` in crates/hw_c, or set HIGHWAY_LIB_DIR");
    if library.join("NOTHING_IS_PROVED").exists() {
        println!("cargo:warning=nothing is proved of the archive in {}", library.display());
    }
    let memory = named("RATTLE_C_DIR").or_else(of_the_kit).unwrap_or_default();
    link(&memory, "libc_c", "set RATTLE_C_DIR to the folder `c` of the kit");
}
