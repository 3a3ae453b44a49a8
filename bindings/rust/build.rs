//! Links the archive that `harness/build embed` writes: in the repository's target folder, or where TAGMURLEN_ARCHIVE_DIR says.
use std::{env, path::PathBuf};

fn main() {
    let here = PathBuf::from(env::var("CARGO_MANIFEST_DIR").expect("cargo sets it"));
    let archive = env::var("TAGMURLEN_ARCHIVE_DIR").map_or(here.join("../../target/staticlib"), PathBuf::from);
    println!("cargo:rerun-if-env-changed=TAGMURLEN_ARCHIVE_DIR");
    println!("cargo:rerun-if-changed={}", archive.join("libembed.a").display());
    println!("cargo:rustc-link-search=native={}", archive.display());
    println!("cargo:rustc-link-lib=static=embed");
}
