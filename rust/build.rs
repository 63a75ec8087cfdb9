//! Links the proved static library, which `bash tools/archive` writes: `target/staticlib` of this repository, or the folder
//! that RAZHIKUM_LIB_DIR names by a full path.
use std::path::{Path, PathBuf};

fn main() {
    println!("cargo::rerun-if-env-changed=RAZHIKUM_LIB_DIR");
    let of_repository = || Path::new(env!("CARGO_MANIFEST_DIR")).join("../target/staticlib");
    let folder = std::env::var_os("RAZHIKUM_LIB_DIR").map_or_else(of_repository, PathBuf::from);
    let archive = folder.join("librazhikum.a");
    println!("cargo::rerun-if-changed={}", archive.display());
    if !archive.exists() {
        println!(
            "cargo::error={} is missing: run `bash tools/archive` in the repository, or name its folder in RAZHIKUM_LIB_DIR",
            archive.display()
        );
        return;
    }
    // For tests/header.rs, which tests the same archive from C.
    println!("cargo::rustc-env=RAZHIKUM_ARCHIVE={}", archive.display());
    println!("cargo::rustc-link-search=native={}", folder.display());
    println!("cargo::rustc-link-lib=static=razhikum");
}
