//! The programs of the repository, run as they were built and proved.

use super::leave_out;
use std::io::Write as _;
use std::path::{Path, PathBuf};
use std::process::{Command, Stdio};

/// What the listing program lends: records, and bytes of text.
pub const LIST_RECORDS: usize = 2_000;
pub const LIST_BYTES: usize = qs::MAX_LEN;

/// A program by its name, which `programs.sh` puts there. Where it is missing, the calling test is
/// left out.
pub fn built(name: &str) -> Option<PathBuf> {
    let path = Path::new(env!("CARGO_MANIFEST_DIR")).join(format!("../target/bin/{name}"));
    if path.is_file() {
        return Some(path);
    }
    leave_out(&format!("{} is missing: run `programs.sh`", path.display()));
    None
}

/// What a program prints for an input.
pub fn print(program: &Path, input: &[u8]) -> Vec<u8> {
    let mut child = Command::new(program)
        .stdin(Stdio::piped())
        .stdout(Stdio::piped())
        .stderr(Stdio::piped())
        .spawn()
        .expect("the program starts");
    let mut stdin = child.stdin.take().expect("it is piped");
    let output = std::thread::scope(|scope| {
        // The program stops reading where the input is too long, so that writing may fail.
        scope.spawn(move || drop(stdin.write_all(input)));
        child.wait_with_output().expect("the program ends")
    });
    assert_eq!(output.status.code(), Some(0));
    assert_eq!(output.stderr, b"");
    output.stdout
}
