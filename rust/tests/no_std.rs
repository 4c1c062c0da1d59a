//! The crate without its features: it builds, and a program that has neither `std` nor `alloc`
//! makes every call with it.

use std::path::{Path, PathBuf};
use std::process::Command;

/// Runs a command, which has to succeed.
fn run(command: &mut Command) {
    let output = command.output().expect("the command starts");
    let written = [output.stdout, output.stderr].concat();
    let written = String::from_utf8_lossy(&written);
    assert!(output.status.success(), "{command:?}\n{written}");
}

/// The compiler, and what every build here has.
fn rustc() -> Command {
    let mut command = Command::new("rustc");
    command.args([
        "--edition",
        "2021",
        "-O",
        "-C",
        "panic=abort",
        "-D",
        "warnings",
    ]);
    command
}

#[test]
fn a_program_with_core_alone() {
    let rust = Path::new(env!("CARGO_MANIFEST_DIR"));
    let folder = PathBuf::from(env!("CARGO_TARGET_TMPDIR"));
    let (library, program) = (folder.join("libqs.rlib"), folder.join("no_std"));
    let mut native = std::ffi::OsString::from("native=");
    native.push(rust.join("../target/staticlib"));
    run(rustc()
        .args(["--crate-type", "rlib", "--crate-name", "qs"])
        .arg("-L")
        .arg(native)
        .args(["-l", "static=qs", "-o"])
        .arg(&library)
        .arg(rust.join("src/lib.rs")));
    let mut linked = std::ffi::OsString::from("qs=");
    linked.push(&library);
    run(rustc()
        .args(["-C", "link-arg=-lc", "--extern"])
        .arg(linked)
        .arg("-o")
        .arg(&program)
        .arg(rust.join("tests/no_std/program.rs")));
    run(&mut Command::new(&program));
}
