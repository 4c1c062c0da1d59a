//! The examples for newcomers: all that each prints, and its exit status.

use std::path::PathBuf;
use std::process::Command;

/// The status, standard output and standard error of a run.
type Run = (Option<i32>, String, String);

/// Runs an example, which cargo builds beside the tests.
fn run(name: &str, arguments: &[&str]) -> Run {
    let test = std::env::current_exe().expect("a test has a path");
    let folder = test.ancestors().nth(2).expect("it is in deps");
    let path: PathBuf = folder.join("examples").join(name);
    let built = path.is_file();
    assert!(
        built,
        "{name} is missing: run `rust/cargo.sh build --release --examples`"
    );
    let output = Command::new(path).args(arguments).output();
    let output = output.expect("the example starts");
    let text = |bytes| String::from_utf8(bytes).expect("what it writes is text");
    (
        output.status.code(),
        text(output.stdout),
        text(output.stderr),
    )
}

fn printed(lines: &str) -> Run {
    (Some(0), lines.to_owned(), String::new())
}

fn refused(line: &str) -> Run {
    (Some(1), String::new(), line.to_owned())
}

#[test]
fn read() {
    let tree = r#"map
  "caption": "Fog at dawn"
  "plate": map
    0: map
      "inks": sequence
        - "cyan"
        - "black"
      "page": "4"
  "proof": no value
"#;
    assert_eq!(run("read", &[]), printed(tree));
    assert_eq!(
        run("read", &["1=a&b="]),
        printed("map\n  1: \"a\"\n  \"b\": null\n")
    );
    let why = "refused: `[]` where a map is, at byte 10\n";
    assert_eq!(run("read", &["a[b]=1&a[]=2"]), refused(why));
}

#[test]
fn fields() {
    let lines = "the caption is Fog at dawn
there are 2 inks
  cyan
  black
caption: Fog at dawn
inks: black
plate: the field is of another kind (18)
weight: there is no such field (17)
";
    assert_eq!(run("fields", &[]), printed(lines));
}

#[test]
fn write() {
    let ticket =
        "caption=Fog+at+dawn&plate[0][inks][]=cyan&plate[0][inks][]=black&plate[0][page]=4\n";
    assert_eq!(run("write", &[]), printed(ticket));
    assert_eq!(
        run("write", &["b=2&a=1&a=%2B"]),
        printed("a[]=1&a[]=%2b&b=2\n")
    );
    let why = "refused: the ticket ends straight after an open bracket, at byte 3\n";
    assert_eq!(run("write", &["a["]), refused(why));
}
