//! Links the proved library into the tests and the benchmark. `make` writes the archive.
use std::{env, path::Path};

fn main() {
    let here = env::var("CARGO_MANIFEST_DIR").expect("cargo sets it");
    let archive = Path::new(&here).join("../target/staticlib/libbrentivex.a");
    println!("cargo:rerun-if-changed={}", archive.display());
    println!("cargo:rustc-link-arg-tests={}", archive.display());
    println!("cargo:rustc-link-arg-bin=bench={}", archive.display());
}
