//! Links the archive of `crates/jsonc_c`, and the kit's calls of the C library's allocator.
//!
//! `JSONC_C` and `RATTLE_C` name their folders, where these are not `crates/jsonc_c/out` and the kit's `c`.
use std::path::{Path, PathBuf};
use std::process::Command;

/// The kit's folder of C archives, as its `rt doc` tells.
fn kit() -> PathBuf {
    let said = Command::new("rt").arg("doc").output().expect("`rt doc` runs, or RATTLE_C names the kit's folder c");
    let page = String::from_utf8(said.stdout).expect("a path");
    Path::new(page.trim()).parent().expect("a folder").join("c")
}

fn main() {
    let here = std::env::var("CARGO_MANIFEST_DIR").expect("cargo names it");
    let own = Path::new(&here).join("../../crates/jsonc_c/out");
    let archive = std::env::var("JSONC_C").map_or(own, PathBuf::from);
    let allocator = std::env::var("RATTLE_C").map_or_else(|_| kit(), PathBuf::from);
    println!("cargo::rerun-if-env-changed=JSONC_C");
    println!("cargo::rerun-if-env-changed=RATTLE_C");
    println!("cargo::rerun-if-changed={}/libjsonc_c.a", archive.display());
    println!("cargo::rustc-link-search=native={}", archive.display());
    println!("cargo::rustc-link-search=native={}", allocator.display());
    println!("cargo::rustc-link-lib=static=jsonc_c");
    println!("cargo::rustc-link-lib=static=libc_c");
}
