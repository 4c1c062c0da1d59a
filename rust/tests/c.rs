//! The library as C programs have it: include/qs.h compiles without a warning, as C and as C++, and
//! has the Rust side's numbers by their names; tests/c/calls.c gets the answers that it states; and
//! examples/c/read.c is built by the line in its head, and against the library as install.sh puts
//! it.

mod common;

use common::leave_out;
use qs::raw::{FieldRead, Reading, Written};
use qs::{refusal, row, Refusal};
use std::fs;
use std::mem::size_of;
use std::path::{Path, PathBuf};
use std::process::{Command, Output};

/// What a C compiler is to complain about.
const STRICT: [&str; 4] = ["-pedantic", "-Wall", "-Wextra", "-Werror"];

/// The repository's top.
fn top() -> &'static Path {
    let package = Path::new(env!("CARGO_MANIFEST_DIR"));
    package.parent().expect("this package is in the repository")
}

/// A path for what a test makes; each test has its own name.
fn made(name: &str) -> PathBuf {
    Path::new(env!("CARGO_TARGET_TMPDIR")).join(name)
}

fn output(command: &mut Command) -> Output {
    command.output().expect("the command starts")
}

/// Runs a command, and gives what it wrote; it has to succeed.
fn run(command: &mut Command) -> String {
    let output = output(command);
    let written = [output.stdout, output.stderr].concat();
    let written = String::from_utf8_lossy(&written).into_owned();
    assert!(output.status.success(), "{command:?}\n{written}");
    written
}

/// A compiler that finds the header, and bears no warning.
fn compiler(name: &str) -> Command {
    let mut command = Command::new(name);
    command.args(STRICT).arg("-I").arg(top().join("include"));
    command
}

/// Whether a tool is there. Where it isn't, the calling test is left out.
fn is_there(tool: &str) -> bool {
    let there = Command::new(tool).arg("--version").output().is_ok();
    if !there {
        leave_out(&format!("{tool} is missing"));
    }
    there
}

/// The Rust side's numbers, defined for the C program to compare with the header's.
fn numbers() -> [String; 10] {
    [
        format!("-DRUST_VERSION={:?}", env!("CARGO_PKG_VERSION")),
        format!("-DRUST_RECORD_WORDS={}", qs::RECORD_WORDS),
        format!("-DRUST_MAX_DEPTH={}", qs::MAX_DEPTH),
        format!("-DRUST_MAX_INPUT={}", qs::MAX_LEN),
        format!("-DRUST_SHEET_LINE={}", qs::SHEET_LINE),
        format!("-DRUST_ANSWER_WORDS={}", qs::ANSWER_WORDS),
        format!("-DRUST_READING_SIZE={}", size_of::<Reading>()),
        format!("-DRUST_FIELD_READ_SIZE={}", size_of::<FieldRead>()),
        format!("-DRUST_WRITTEN_SIZE={}", size_of::<Written>()),
        format!("-DRUST_WRITE_ROOM={}", qs::write_room(21_844)),
    ]
}

#[test]
fn a_c_program_calls_each_export() {
    let program = made("calls");
    run(compiler("cc")
        .args(["-std=c99", "-O1"])
        .args(numbers())
        .arg(top().join("rust/tests/c/calls.c"))
        .arg(top().join("target/staticlib/libqs.a"))
        .arg("-o")
        .arg(&program));
    print!("{}", run(&mut Command::new(&program)));
}

/// Names of the Rust side as C has them, with their numbers.
type Names = Vec<(String, u32)>;

/// `SequenceOnMap` as `SEQUENCE_ON_MAP`.
fn constant(name: &str) -> String {
    let mut constant = String::new();
    for c in name.chars() {
        if c.is_uppercase() && !constant.is_empty() {
            constant.push('_');
        }
        constant.extend(c.to_uppercase());
    }
    constant
}

/// The numbers that a call answers, by the table of refusals.
fn refusals() -> Names {
    let named = |refusal: &Refusal| (constant(&format!("{refusal:?}")), refusal.number());
    let accepted = ("ACCEPTED".to_owned(), refusal::ACCEPTED);
    let refusals = Refusal::ALL.iter().map(named);
    std::iter::once(accepted).chain(refusals).collect()
}

/// Names of a record's words, or of kinds.
macro_rules! of_a_row {
    ($($name:ident)*) => {
        vec![$((stringify!($name).to_owned(), row::$name as u32)),*]
    };
}

/// The header's enums, each with the names that it has to have.
fn enums() -> [(&'static str, Names); 4] {
    [
        ("qs_number", refusals()),
        (
            "qs_word",
            of_a_row!(KIND KEY_KIND KEY KEY_LEN TEXT TEXT_LEN CHILD NEXT),
        ),
        (
            "qs_kind",
            of_a_row!(UNINITIALIZED MAP SEQUENCE STRING NULL NO_VALUE),
        ),
        ("qs_key_kind", of_a_row!(NO_KEY INT_KEY STRING_KEY)),
    ]
}

/// C that compiles only where the enum has these names with these numbers, and no others: an array
/// may not be of a negative size, and the compiler complains of an enumerator without a case.
fn only_these(name: &str, names: &Names) -> String {
    let sizes = names.iter().map(|(name, number)| {
        format!("typedef char size_of_{name}[QS_{name} == {number} ? 1 : -1];\n")
    });
    let cases = names.iter().map(|(name, _)| format!("case QS_{name}:\n"));
    let (sizes, cases): (String, String) = (sizes.collect(), cases.collect());
    let function = format!("int in_{name}(enum {name} of)");
    let body = format!("switch (of) {{\n{cases}return 1;\n}}\nreturn 0;\n");
    format!("{sizes}{function};\n{function} {{\n{body}}}\n")
}

#[test]
fn the_header_has_every_name_and_no_other() {
    let enums = enums().map(|(name, names)| only_these(name, &names));
    let source = made("names.c");
    fs::write(&source, format!("#include <qs.h>\n{}", enums.concat())).expect("it can be written");
    let arguments = ["-std=c99", "-fsyntax-only"];
    run(compiler("cc").args(arguments).arg(&source));
}

/// A C++ program finds the exports by their C names.
#[test]
fn the_header_is_for_cpp_too() {
    if !is_there("c++") {
        return;
    }
    let (source, program) = (made("call.cpp"), made("call"));
    let call = "#include <qs.h>\nint main() { return qs_utf8(0, 0) == 1 ? 0 : 1; }\n";
    fs::write(&source, call).expect("it can be written");
    run(compiler("c++")
        .arg(&source)
        .arg(top().join("target/staticlib/libqs.a"))
        .arg("-o")
        .arg(&program));
    run(&mut Command::new(&program));
}

/// Runs the example as it was built, on a ticket that is read and on one that is refused.
fn check_example(program: &Path) {
    let example = |arguments: &[&str]| {
        let output = output(Command::new(program).args(arguments));
        let text = |bytes| String::from_utf8(bytes).expect("what it writes is text");
        let (out, err) = (text(output.stdout), text(output.stderr));
        (output.status.code(), out, err)
    };
    let tree =
        "map\n  \"caption\": \"Fog at dawn\"\n  \"plate\": map\n    0: map\n      \"page\": \"4\"\n";
    assert_eq!(example(&[]), (Some(0), tree.into(), String::new()));
    let ticket = "7=%1b%22&x[]=1&x[]&y=";
    let tree =
        "map\n  7: \"\\x1b\\x22\"\n  \"x\": sequence\n    \"1\"\n    no value\n  \"y\": null\n";
    assert_eq!(example(&[ticket]), (Some(0), tree.into(), String::new()));
    let told = "refused: number 6 at place 10\n";
    let refused = (Some(1), String::new(), told.into());
    assert_eq!(example(&["a[b]=1&a[]=2"]), refused);
}

#[test]
fn the_example_is_built_by_the_line_in_its_head() {
    let source = fs::read_to_string(top().join("examples/c/read.c")).expect("it is there");
    let line = source
        .lines()
        .find_map(|line| line.strip_prefix(" *   cc "));
    let program = made("read");
    // of two -o the last one counts
    run(Command::new("cc")
        .args(line.expect("its head has the line").split(' '))
        .arg("-std=c99")
        .args(STRICT)
        .arg("-o")
        .arg(&program)
        .current_dir(top()));
    check_example(&program);
}

/// A run of install.sh.
fn install(arguments: &[&str], destination: &str) -> Output {
    let mut command = Command::new(top().join("install.sh"));
    output(command.args(arguments).env("DESTDIR", destination))
}

/// The folder with the installed library's description for pkg-config.
fn modules(prefix: &Path) -> PathBuf {
    prefix.join("lib/pkgconfig")
}

#[test]
fn the_installed_library_serves_a_program() {
    if !is_there("pkg-config") {
        return;
    }
    let prefix = made("installed");
    let _ = fs::remove_dir_all(&prefix);
    let installed = install(&[prefix.to_str().expect("a path that is text")], "");
    assert!(installed.status.success(), "{installed:?}");
    let ask = |option| {
        let mut command = Command::new("pkg-config");
        run(command
            .args([option, "qs"])
            .env("PKG_CONFIG_PATH", modules(&prefix)))
    };
    assert_eq!(ask("--modversion").trim(), env!("CARGO_PKG_VERSION"));
    let program = made("read_installed");
    run(Command::new("cc")
        .arg(top().join("examples/c/read.c"))
        .args(ask("--cflags").split_whitespace())
        .args(ask("--libs").split_whitespace())
        .arg("-o")
        .arg(&program));
    check_example(&program);
}

/// Below DESTDIR the files stand where the prefix says, and the prefix alone is what they tell.
#[test]
fn a_package_is_laid_out_below_its_folder() {
    let folder = made("package");
    let _ = fs::remove_dir_all(&folder);
    let installed = install(&["/opt/qs"], folder.to_str().expect("a path that is text"));
    assert!(installed.status.success(), "{installed:?}");
    let prefix = folder.join("opt/qs");
    let module = fs::read_to_string(modules(&prefix).join("qs.pc")).expect("it is there");
    assert!(module.starts_with("prefix=/opt/qs\n"), "{module}");
    assert!(!module.contains('@'), "{module}");
    for (copy, of) in [
        ("include/qs.h", "include/qs.h"),
        ("lib/libqs.a", "target/staticlib/libqs.a"),
    ] {
        let [copy, of] = [prefix.join(copy), top().join(of)].map(fs::read);
        assert!(copy.expect("it is there") == of.expect("it is there"));
    }
    for arguments in [&["relative"][..], &["/a", "/b"], &["--unknown"], &[""]] {
        assert_eq!(install(arguments, "").status.code(), Some(2));
    }
}
