//! The crate without the standard library, in a program that has none (rust/bare).

use std::path::Path;
use std::process::Command;

/// Where Debian's packages put crates. The scripts have cargo take them from there (tests/setup).
const DEBIAN: &str = "/usr/share/cargo/registry";

#[test]
fn a_program_without_it_links_and_makes_right_tags() {
    let folder = concat!(env!("CARGO_MANIFEST_DIR"), "/../bare");
    let built = concat!(env!("CARGO_TARGET_TMPDIR"), "/bare");
    let mut cargo = Command::new(env!("CARGO"));
    cargo.current_dir(folder);
    cargo.args([
        "run",
        "--quiet",
        "--release",
        "--offline",
        "--target-dir",
        built,
    ]);
    if Path::new(DEBIAN).is_dir() {
        cargo.args(["--config", "source.crates-io.replace-with=\"debian\""]);
        cargo.arg("--config");
        cargo.arg(format!("source.debian.directory=\"{DEBIAN}\""));
    }
    assert!(cargo.status().expect("cargo").success());
    crate::report(2, "tags without the standard library");
}
