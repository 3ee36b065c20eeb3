//! Compiles src/by_c.c against include/flamivorse.h, by the C compiler and archiver that CC and AR
//! name, or else the machine's own.

use std::env;
use std::path::Path;
use std::process::Command;

const STRICT: [&str; 7] = [
    "-std=c11",
    "-O2",
    "-Wall",
    "-Wextra",
    "-Wconversion",
    "-Wshadow",
    "-Werror",
];

/// A program of the tool chain. Another one means another build.
fn tool(variable: &str, default: &str) -> Command {
    println!("cargo:rerun-if-env-changed={variable}");
    Command::new(env::var(variable).unwrap_or(default.into()))
}

fn run(command: &mut Command) {
    let status = command.status();
    assert!(
        status.is_ok_and(|status| status.success()),
        "failed: {command:?}"
    );
}

fn main() {
    let folder = env::var("OUT_DIR").expect("cargo's folder for what is built");
    let object = Path::new(&folder).join("by_c.o");
    let library = Path::new(&folder).join("libby_c.a");
    let include = "../../include";
    println!("cargo:rerun-if-changed=src/by_c.c");
    println!("cargo:rerun-if-changed={include}/flamivorse.h");
    run(tool("CC", "cc")
        .args(STRICT)
        .args(["-fPIC", "-I", include, "-c", "src/by_c.c", "-o"])
        .arg(&object));
    run(tool("AR", "ar").arg("rcs").arg(&library).arg(&object));
    println!("cargo:rustc-link-search=native={folder}");
    println!("cargo:rustc-link-lib=static=by_c");
}
