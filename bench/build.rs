//! Links the proved archive that is for measuring alone, which `.ci/archive measures` writes, and the ordinary version in C, which it
//! compiles. The exported calls come with the crate `jolpibhar`.

use std::path::{Path, PathBuf};
use std::process::Command;

fn run(command: &mut Command) {
    let status = command.status().unwrap_or_else(|error| panic!("{command:?}: {error}"));
    assert!(status.success(), "{command:?}: {status}");
}

fn main() {
    let here = PathBuf::from(std::env::var("CARGO_MANIFEST_DIR").expect("cargo sets it"));
    let folder = here.join("../target/staticlib");
    let archive = folder.join("libmeasures.a");
    println!("cargo:rerun-if-changed={}", archive.display());
    if !archive.exists() {
        println!(
            "cargo:warning=target/staticlib/libmeasures.a is not there: run `.ci/archive measures` first"
        );
    }
    println!("cargo:rustc-link-search=native={}", folder.display());
    println!("cargo:rustc-link-lib=static=measures");
    compiled_c(&here.join("c/ordinary.c"));
}

/// Compiles a file of C as one does for speed, and links it.
fn compiled_c(source: &Path) {
    let out = PathBuf::from(std::env::var("OUT_DIR").expect("cargo sets it"));
    let (object, archive) = (out.join("ordinary.o"), out.join("libordinary_c.a"));
    let compiler = std::env::var("CC").unwrap_or_else(|_| "cc".into());
    let flags = ["-std=c99", "-Wall", "-Wextra", "-Werror", "-O3", "-falign-functions=64", "-fPIC", "-c"];
    run(Command::new(compiler).args(flags).arg(source).arg("-o").arg(&object));
    run(Command::new("ar").arg("crs").arg(&archive).arg(&object));
    println!("cargo:rerun-if-changed={}", source.display());
    println!("cargo:rustc-link-search=native={}", out.display());
    println!("cargo:rustc-link-lib=static=ordinary_c");
}
