//! Finds the archive: in FUYEGBO_LIB_DIR, else where `archive` leaves it.
use std::env;
use std::path::PathBuf;

/// The archive is libNAME.a.
const NAME: &str = "fuyegbo";

fn main() {
    println!("cargo:rerun-if-env-changed=FUYEGBO_LIB_DIR");
    let dir = match env::var_os("FUYEGBO_LIB_DIR") {
        Some(dir) => PathBuf::from(dir),
        None => {
            PathBuf::from(env::var_os("CARGO_MANIFEST_DIR").unwrap()).join("../target/staticlib")
        }
    };
    let archive = dir.join(format!("lib{NAME}.a"));
    println!("cargo:rerun-if-changed={}", archive.display());
    // Told here, since the linker might take another library of that name.
    assert!(
        archive.is_file(),
        "there is no {}: run ./archive at the repository's root, or set FUYEGBO_LIB_DIR to the archive's folder",
        archive.display()
    );
    println!("cargo:rustc-link-search=native={}", dir.display());
    println!("cargo:rustc-link-lib=static={NAME}");
}
