//! Says where the archive lies; its name stands in host/rust/meifgur.rs.

use std::env;
use std::path::Path;

fn main() {
    let here = env::var("CARGO_MANIFEST_DIR").expect("cargo sets it");
    let folder = Path::new(&here).join("../../target/staticlib");
    let archive = folder.join("libmeifgur_c.a");
    assert!(
        archive.exists(),
        "no archive: `host/archive.sh meifgur_c` writes it"
    );
    println!("cargo:rustc-link-search=native={}", folder.display());
    println!("cargo:rerun-if-changed={}", archive.display());
}
