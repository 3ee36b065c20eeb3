//! Links libflamivorse.a from the folder that FLAMIVORSE_LIB_DIR names, or else from the release that
//! this crate came with, or else from where `make lib` writes it.

use std::env;
use std::path::Path;

const ARCHIVE: &str = "libflamivorse.a";

fn main() {
    let here = Path::new(env!("CARGO_MANIFEST_DIR"));
    let (released, made) = (here.join("../../../lib"), here.join("../../target/lib"));
    let default = if released.join(ARCHIVE).exists() {
        released
    } else {
        made
    };
    let folder = env::var_os("FLAMIVORSE_LIB_DIR").map_or(default, Into::into);
    let archive = folder.join(ARCHIVE);
    println!("cargo:rerun-if-env-changed=FLAMIVORSE_LIB_DIR");
    println!("cargo:rerun-if-changed={}", archive.display());
    println!("cargo:rustc-link-search=native={}", folder.display());
    println!("cargo:rustc-link-lib=static=flamivorse");
    println!("cargo:rustc-env=FLAMIVORSE_ARCHIVE={}", archive.display());
    if !archive.exists() {
        println!(
            "cargo:warning={} is missing: run `make lib`",
            archive.display()
        );
    }
}
