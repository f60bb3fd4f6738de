//! Links the proved archive, which `.ci/archive jolpibhar` writes.

use std::path::Path;

fn main() {
    let here = std::env::var("CARGO_MANIFEST_DIR").expect("cargo sets it");
    let folder = Path::new(&here).join("../../target/staticlib");
    let archive = folder.join("libjolpibhar.a");
    println!("cargo:rerun-if-changed={}", archive.display());
    if !archive.exists() {
        println!(
            "cargo:warning=target/staticlib/libjolpibhar.a is not there: run `.ci/archive jolpibhar` first"
        );
    }
    println!("cargo:rustc-link-search=native={}", folder.display());
    println!("cargo:rustc-link-lib=static=jolpibhar");
}
