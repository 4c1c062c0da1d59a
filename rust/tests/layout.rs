//! The layout program: what it writes, and its exit status.

mod common;

use common::inputs::{fields_query, query, NAMES};
use common::{leave_out, random_config, reference_is_there, ticket, times, Random};
use qs::{refusal, Buffers, Config, Refused};
use std::ffi::OsStr;
use std::fs::{self, File};
use std::io::Write;
use std::os::unix::ffi::OsStrExt;
use std::path::{Path, PathBuf};
use std::process::{Command, Output, Stdio};

const PROGRAM: &str = env!("CARGO_BIN_EXE_layout");

fn layout(arguments: &[&[u8]]) -> Output {
    piped(arguments, b"")
}

/// A run that gets bytes on its standard input.
fn piped(arguments: &[&[u8]], input: &[u8]) -> Output {
    let arguments = arguments.iter().map(|argument| OsStr::from_bytes(argument));
    let mut child = Command::new(PROGRAM)
        .args(arguments)
        .stdin(Stdio::piped())
        .stdout(Stdio::piped())
        .stderr(Stdio::piped())
        .spawn()
        .expect("the layout program starts");
    let mut stdin = child.stdin.take().expect("it is piped");
    std::thread::scope(|scope| {
        // which fails where the program doesn't read it
        scope.spawn(move || drop(stdin.write_all(input)));
        child.wait_with_output().expect("the layout program ends")
    })
}

/// A file with these bytes, which one test alone uses.
fn file(name: &str, bytes: &[u8]) -> PathBuf {
    let path = Path::new(env!("CARGO_TARGET_TMPDIR")).join(name);
    fs::write(&path, bytes).expect("it can be written");
    path
}

/// A run's status, standard output and standard error, which are text.
type Written = (Option<i32>, String, String);

fn written(output: Output) -> Written {
    let text = |bytes| String::from_utf8(bytes).expect("what it writes is text");
    (
        output.status.code(),
        text(output.stdout),
        text(output.stderr),
    )
}

/// What is written where the arguments are text.
fn run(arguments: &[&str]) -> Written {
    let arguments: Vec<&[u8]> = arguments
        .iter()
        .map(|argument| argument.as_bytes())
        .collect();
    written(layout(&arguments))
}

const INPUT: &str = "title=Fog+at+dawn&h[]=10&h[]=9&w[1]=b&w[0]=a&x[y]=1&n&7=z&bad=%C3";

#[test]
fn fields_are_shown() {
    let cases = [
        ("title", "\"title\" = \"Fog at dawn\"\n"),
        ("h", "\"h\" = \"9\"\n\"h\"[0] = \"10\"\n\"h\"[1] = \"9\"\n"),
        ("w", "\"w\"[0] = \"a\"\n\"w\"[1] = \"b\"\n"),
        ("n", "\"n\" = \"\"\n"),
    ];
    for (name, lines) in cases {
        assert_eq!(run(&[INPUT, name]), (Some(0), lines.into(), String::new()));
    }
    let (status, lines, _) = run(&[INPUT, "n", "title"]);
    assert_eq!(status, Some(0));
    assert_eq!(lines, "\"n\" = \"\"\n\"title\" = \"Fog at dawn\"\n");
    let (status, lines, _) = run(&["a=%1B%5B2J%0A", "a"]);
    assert_eq!(
        (status, lines.as_str()),
        (Some(0), "\"a\" = \"\\u{1b}[2J\\n\"\n")
    );
}

#[test]
fn fields_that_cannot_be_read_are_told() {
    let cases = [
        ("absent", "\"absent\": there is no such field (17)"),
        ("7", "\"7\": there is no such field (17)"),
        ("x", "\"x\": the field is of another kind (18)"),
        ("bad", "\"bad\": the text is not UTF-8 (21)"),
    ];
    for (name, why) in cases {
        let told = format!("layout: {why}\n");
        assert_eq!(run(&[INPUT, name]), (Some(1), String::new(), told));
    }
    let (status, lines, why) = run(&[INPUT, "absent", "n", "x"]);
    assert_eq!((status, lines.as_str()), (Some(1), "\"n\" = \"\"\n"));
    assert_eq!(why.lines().count(), 2);
    let (_, _, why) = run(&["a[0]=x&a[2]=y", "a"]);
    assert_eq!(why, "layout: \"a\": an index is missing (20)\n");
    let (_, _, why) = run(&["=1&=2", ""]);
    assert_eq!(why, "layout: \"\": the ticket has no named fields (16)\n");
    // As a text it is its last value, and that is read.
    let (status, lines, _) = run(&["a=%C3&a=1", "a"]);
    assert_eq!(status, Some(0));
    assert_eq!(
        lines,
        "\"a\" = \"1\"\n\"a\" as a list: the text is not UTF-8 (21)\n"
    );
}

/// Sequences and maps of one and of several, at the edges of what is a text and what is a list.
#[test]
fn one_value_and_several() {
    let cases = [
        ("a[]=1", "\"a\" = \"1\"\n"),
        ("a[]", "\"a\" = \"\"\n"),
        ("a=", "\"a\" = \"\"\n"),
        ("a=&a", "\"a\" = \"\"\n\"a\"[0] = \"\"\n\"a\"[1] = \"\"\n"),
        ("a[0]=1", "\"a\"[0] = \"1\"\n"),
        ("a[0]=x&a[0]=y", "\"a\"[0] = \"y\"\n"),
    ];
    for (input, lines) in cases {
        let shown = (Some(0), lines.to_owned(), String::new());
        assert_eq!(run(&[input, "a"]), shown, "{input}");
    }
    let cases = [
        ("a[]=%C3", refusal::NOT_UTF8),
        ("a=1&a=%C3", refusal::NOT_UTF8),
        ("a[0]=%C3", refusal::NOT_UTF8),
        ("a[0][b]=1", refusal::WRONG_KIND),
        ("a[0]=1&a[b]=2", refusal::WRONG_KIND),
        ("a[1]=1", refusal::MISSING_INDEX),
        ("", refusal::NO_SUCH_FIELD),
        ("=", refusal::NO_SUCH_FIELD),
        ("&", refusal::WRONG_ROOT),
    ];
    for (input, number) in cases {
        let told = format!("layout: \"a\": {}\n", meaning(number));
        let shown = (Some(1), String::new(), told);
        assert_eq!(run(&[input, "a"]), shown, "{input}");
    }
}

/// A number as the program tells it.
fn meaning(number: u32) -> String {
    let refusal = qs::Refusal::from_number(number).expect("it is a refusal's number");
    format!("{refusal} ({number})")
}

/// Names of every sort at once: the lines stand in the order of the names, and then what can't be
/// read, in that order too.
#[test]
fn a_mixture_of_names() {
    let names = ["h", "title", "absent", "w", "x", "bad", "n", "h", "7"];
    let arguments = [&[INPUT], &names[..]].concat();
    let lines = [
        "\"h\" = \"9\"",
        "\"h\"[0] = \"10\"",
        "\"h\"[1] = \"9\"",
        "\"title\" = \"Fog at dawn\"",
        "\"w\"[0] = \"a\"",
        "\"w\"[1] = \"b\"",
        "\"n\" = \"\"",
        "\"h\" = \"9\"",
        "\"h\"[0] = \"10\"",
        "\"h\"[1] = \"9\"",
    ];
    let told = [
        "layout: \"absent\": there is no such field (17)",
        "layout: \"x\": the field is of another kind (18)",
        "layout: \"bad\": the text is not UTF-8 (21)",
        "layout: \"7\": there is no such field (17)",
    ];
    let written = |lines: &[&str]| lines.join("\n") + "\n";
    assert_eq!(run(&arguments), (Some(1), written(&lines), written(&told)));
}

/// What the crate's reads of one field make of it: its text where it has one, and its elements
/// where they are more than that one text; else why it can't be read.
fn of_the_crate(input: &[u8], name: &str) -> Result<String, String> {
    let Config { depth, form, .. } = Config::default();
    let text = serde_qs_reference::text(input, depth as usize, form, false, name);
    let list = serde_qs_reference::list(input, depth as usize, form, false, name);
    let quoted = |bytes: &[u8]| format!("{:?}", std::str::from_utf8(bytes).expect("a text"));
    let mut lines = String::new();
    match (&text, &list) {
        (Ok(text), _) => lines += &format!("{name:?} = {}\n", quoted(text)),
        (Err(refusal::WRONG_KIND), Err(number)) | (Err(number), Err(_)) => {
            return Err(format!("layout: {name:?}: {}\n", meaning(*number)));
        }
        (Err(_), Ok(_)) => {}
    }
    match list {
        Err(number) => lines += &format!("{name:?} as a list: {}\n", meaning(number)),
        Ok(list) if text.is_ok() && list.len() == 1 => {}
        Ok(list) => {
            for (index, element) in list.iter().enumerate() {
                lines += &format!("{name:?}[{index}] = {}\n", quoted(element));
            }
        }
    }
    Ok(lines)
}

/// The lines of each name one after another, and then what can't be read.
fn each_of_the_crate(input: &[u8], names: &[&str]) -> Written {
    let (mut lines, mut told) = (String::new(), String::new());
    for name in names {
        match of_the_crate(input, name) {
            Ok(shown) => lines += &shown,
            Err(why) => told += &why,
        }
    }
    (Some(i32::from(!told.is_empty())), lines, told)
}

/// Many names of random tickets, each twice: what is written is what the crate's reads of each one
/// alone make. A refused ticket is told as it is without names.
#[test]
fn many_names_are_shown_as_each_alone() {
    if !reference_is_there() {
        return;
    }
    let mut random = Random::new(51);
    let (mut lines, mut told, mut refused) = (0, 0, 0);
    for _ in 0..times(200) {
        let pairs = 1 + random.below(8);
        let mut input = fields_query(&mut random, pairs);
        // which no argument has
        input.retain(|&byte| byte != 0);
        let mut names = NAMES.repeat(2);
        random.shuffle(&mut names);
        let of_names = names.iter().map(|name| name.as_bytes());
        let only = [b"--", &input[..]];
        let arguments: Vec<&[u8]> = only.into_iter().chain(of_names).collect();
        let got = written(layout(&arguments));
        if got.2.starts_with("layout: refused: ") {
            assert_eq!(got, written(layout(&only)));
            refused += 1;
            continue;
        }
        let expected = each_of_the_crate(&input, &names);
        assert_eq!(got, expected, "{}", input.escape_ascii());
        lines += got.1.lines().count();
        told += got.2.lines().count();
    }
    println!("{lines} lines, {told} fields that can't be read, {refused} refused tickets");
    assert!(lines > 0 && told > 0 && refused > 0);
}

#[test]
fn an_accepted_input_is_shown_whole() {
    let (status, lines, why) = run(&[INPUT]);
    assert_eq!((status, why.as_str()), (Some(0), ""));
    let expected = [
        "accepted: records used 13, bytes of text used 32",
        "map",
        "  7: \"z\"",
        "  \"bad\": \"\\xc3\"",
        "  \"h\": sequence",
        "    - \"10\"",
        "    - \"9\"",
        "  \"n\": no value",
        "  \"title\": \"Fog at dawn\"",
        "  \"w\": map",
        "    0: \"a\"",
        "    1: \"b\"",
        "  \"x\": map",
        "    \"y\": \"1\"",
    ];
    assert_eq!(lines.lines().collect::<Vec<_>>(), expected);
    let empty = "accepted: records used 1, bytes of text used 0\nno value\n";
    assert_eq!(run(&[""]), (Some(0), empty.into(), String::new()));
    let nameless = "accepted: records used 1, bytes of text used 1\n\"x\"\n";
    assert_eq!(run(&["=x"]), (Some(0), nameless.into(), String::new()));
    assert_eq!(run(&["=x", ""]).1, "\"\" = \"x\"\n");
}

#[test]
fn a_sheet_is_printed_as_it_is() {
    let expected = [
        "  0       map",
        "  1     1 stri 7                         z",
        "  1     1 stri bad                       .",
        "  1       sequ h",
        "  2     2 stri                           10",
        "  2     1 stri                           9",
        "  1       nova n",
        "  1    11 stri title                     Fog.at.dawn",
        "  1       map  w",
        "  2     1 stri 0                         a",
        "  2     1 stri 1                         b",
        "  1       map  x",
        "  2     1 stri y                         1",
    ];
    let lines = |expected: &[&str]| -> String {
        let lines = expected.iter().map(|line| format!("{line:72}\n"));
        lines.collect()
    };
    let printed = |input| run(&["--sheet", input]);
    let accepted = |expected| (Some(0), lines(expected), String::new());
    assert_eq!(printed(INPUT), accepted(&expected));
    assert_eq!(printed(""), accepted(&["  0       nova"]));
    let longest = "&".repeat(qs::MAX_LEN);
    assert_eq!(printed(&longest), accepted(&["  0       unin"]));
    // At the usual depth, and with the flag off.
    let (_, sheet, _) = printed("a[b][c][d][e][f][g][h]");
    assert_eq!(sheet.lines().count(), 8);
    assert!(sheet.ends_with(&lines(&["  7       nova [g][h]"])));
    let flat = ["  0       map", "  1       nova a[b]"];
    assert_eq!(printed("a%5Bb%5D"), accepted(&flat));
}

#[test]
fn a_ticket_is_written_byte_for_byte() {
    let long = b"a=".repeat(32_767);
    let written_long = [&b"a="[..], &b"a%3d".repeat(16_383)].concat();
    let cases: [(&[u8], &[u8]); 11] = [
        (
            INPUT.as_bytes(),
            b"7=z&bad=\xC3&h[]=10&h[]=9&n&title=Fog+at+dawn&w[0]=a&w[1]=b&x[y]=1",
        ),
        (b"", b""),
        (b"&&", b"&"),
        (b"=1&=2", b"[]=1&[]=2"),
        (b"a[b]=1&a=2&a=3", b"a[b]=1&a=2&a=3"),
        (b"%37=x&007", b"7&%37=x"),
        (b"\xFF\x1B%00=%0A%26", b"\xFF\x1B\0=\n%26"),
        // At the usual depth, and with the flag off.
        (b"a[b][c][d][e][f][g][h]", b"a[b][c][d][e][f][g%5d%5bh%5d"),
        (b"a%5Bb%5D", b"a%5bb%5d"),
        (b"%&%", b"%25[]&%25[]"),
        (&long[..32_768], &written_long[..2 + 4 * 16_383]),
    ];
    for (input, ticket) in cases {
        let output = layout(&[b"--write", input]);
        assert_eq!(output.status.code(), Some(0), "{}", input.escape_ascii());
        assert!(output.stdout == ticket, "{}", input.escape_ascii());
        assert_eq!(output.stderr, b"", "{}", input.escape_ascii());
    }
    let told = "layout: refused: the written ticket is more than the output holds or than 65,535 bytes (26)\n";
    let refused = (Some(1), String::new(), told.to_owned());
    assert_eq!(run(&["--write", &"]".repeat(21_846)]), refused);
}

/// A ticket of folders, with zeros in front not counting and counting, in every way that it is
/// shown.
#[test]
fn zeros_in_front_count_where_asked() {
    let folders = "7=a&007=b&p[0]=x&p[01]=y";
    let shown = |lines: &str| (Some(0), lines.to_owned(), String::new());
    let told = |number, name: &str| {
        let told = format!("layout: {name:?}: {}\n", meaning(number));
        (Some(1), String::new(), told)
    };
    let tree = [
        "accepted: records used 7, bytes of text used 5\nmap\n  7: sequence\n    - \"a\"\n    - \"b\"\n",
        "  \"p\": map\n    0: \"x\"\n    1: \"y\"\n",
    ];
    assert_eq!(run(&[folders]), shown(&tree.concat()));
    let tree = [
        "accepted: records used 6, bytes of text used 10\nmap\n  7: \"a\"\n  \"007\": \"b\"\n",
        "  \"p\": map\n    0: \"x\"\n    \"01\": \"y\"\n",
    ];
    assert_eq!(run(&["--zeros", folders]), shown(&tree.concat()));
    assert_eq!(run(&[folders, "007"]), told(refusal::NO_SUCH_FIELD, "007"));
    let field = shown("\"007\" = \"b\"\n");
    assert_eq!(run(&["--zeros", folders, "007"]), field);
    let list = shown("\"p\"[0] = \"x\"\n\"p\"[1] = \"y\"\n");
    assert_eq!(run(&[folders, "p"]), list);
    let no_list = told(refusal::WRONG_KIND, "p");
    assert_eq!(run(&["--zeros", folders, "p"]), no_list);
    let ticket = shown("7[]=a&7[]=b&p[0]=x&p[1]=y");
    assert_eq!(run(&["--write", folders]), ticket);
    let ticket = shown("7=a&007=b&p[0]=x&p[01]=y");
    assert_eq!(run(&["--zeros", "--write", folders]), ticket);
    let sheet = |lines: [&str; 2]| shown(&lines.map(|line| format!("{line:72}\n")).concat());
    let number = sheet(["  0       map", "  1       nova 7"]);
    assert_eq!(run(&["--sheet", "07"]), number);
    let string = sheet(["  0       map", "  1       nova 07"]);
    assert_eq!(run(&["--zeros", "--sheet", "07"]), string);
}

/// Behind `--` an option is the ticket, and behind a ticket it is a name.
#[test]
fn what_looks_like_an_option_may_be_none() {
    let shown = |lines: &str| (Some(0), lines.to_owned(), String::new());
    assert_eq!(run(&["--write", "--", "--zeros"]), shown("--zeros"));
    let name = shown("\"--zeros\" = \"\"\n");
    assert_eq!(run(&["--", "--zeros&7=a", "--zeros"]), name);
    assert_eq!(run(&["7=a&--zeros", "--zeros"]), name);
    assert_eq!(
        run(&["--", "--"]).1.lines().last(),
        Some("  \"--\": no value")
    );
    assert_eq!(run(&["a&--=1", "--"]), shown("\"--\" = \"1\"\n"));
    // a lone - is a ticket, and standard input behind --file only
    assert_eq!(run(&["--write", "-"]), shown("-"));
}

#[test]
fn a_refused_input_is_marked() {
    let told =
        "layout: refused: `[]` where a map is (6) at place 10\n  a[b]=1&a[]=2\n           ^\n";
    for arguments in [
        &["a[b]=1&a[]=2"][..],
        &["a[b]=1&a[]=2", "a", "b"],
        &["--sheet", "a[b]=1&a[]=2"],
        &["--write", "a[b]=1&a[]=2"],
        &["--zeros", "a[b]=1&a[]=2"],
        &["--zeros", "--sheet", "a[b]=1&a[]=2"],
    ] {
        assert_eq!(run(arguments), (Some(1), String::new(), told.into()));
    }
    let long = "a".repeat(qs::MAX_LEN + 1);
    let told = "layout: refused: the ticket is longer than 65,535 bytes (2)\n";
    for arguments in [
        &[&long[..]][..],
        &[&long, "a", "b"],
        &["--sheet", &long],
        &["--write", &long],
    ] {
        assert_eq!(run(arguments), (Some(1), String::new(), told.into()));
    }
    let ticket = &b"\x1b\xFF["[..];
    for arguments in [&[ticket][..], &[b"--sheet", ticket], &[b"--write", ticket]] {
        let output = layout(arguments);
        assert_eq!(output.status.code(), Some(1));
        assert!(output.stderr.ends_with(b"\n  \\x1b\\xff[\n           ^\n"));
    }
}

/// Of a long ticket the part around the place is shown, in 72 columns.
#[test]
fn a_long_refused_input_is_marked_in_a_part_of_it() {
    let input = format!("x[y]=1&{}x[]=2{}", "p=1&".repeat(99), "&q=2".repeat(99));
    let before = "&p=1".repeat(9) + "&x[";
    let told = [
        "layout: refused: `[]` where a map is (6) at place 406".to_owned(),
        format!("  ...1{before}]=2{}&...", "&q=2".repeat(5)),
        format!("  {:43}^", ""),
    ];
    let (status, shown, why) = run(&[&input]);
    assert_eq!((status, shown.as_str()), (Some(1), ""));
    assert_eq!(why.lines().collect::<Vec<_>>(), told);
    assert!(told[1].len() <= 72 && told[1].as_bytes()[2 + 43] == b']');
}

#[test]
fn the_text_of_a_segment_goes_out_byte_for_byte() {
    let long = b"%41".repeat(20_000);
    let cases: [(&[u8], &[u8]); 9] = [
        (b"", b""),
        (b"plain", b"plain"),
        (b"a+b%20c", b"a b c"),
        (b"caf%C3%A9", "café".as_bytes()),
        ("café".as_bytes(), "café".as_bytes()),
        (b"two%0Alines%0A", b"two\nlines\n"),
        (b"%00%1B%5B2J", b"\0\x1B[2J"),
        (b"%%41", b"%%41"),
        (&long, &[b'A'; 20_000]),
    ];
    for (segment, text) in cases {
        let output = layout(&[b"--segment", segment]);
        assert_eq!(output.status.code(), Some(0), "{}", segment.escape_ascii());
        assert_eq!(output.stdout, text, "{}", segment.escape_ascii());
        assert_eq!(output.stderr, b"", "{}", segment.escape_ascii());
    }
    println!("{} segments shown", cases.len());
}

#[test]
fn a_segment_that_is_not_utf8_is_refused_with_its_place() {
    let cases: [(&[u8], &str); 4] = [
        (b"%FF", "offset 0, byte FF"),
        (b"a\xFF", "offset 1, byte FF"),
        (b"a+b%C3(", "offset 3, byte C3"),
        (b"%C3%A9%ED%A0%80", "offset 2, byte ED"),
    ];
    for (segment, place) in cases {
        let output = layout(&[b"--segment", segment]);
        let message = String::from_utf8(output.stderr).expect("messages are UTF-8");
        assert_eq!(output.status.code(), Some(1), "{message}");
        assert_eq!(output.stdout, b"", "{message}");
        assert!(message.contains("not UTF-8"), "{message}");
        assert!(message.contains(place), "{message}");
    }
    println!("{} segments refused", cases.len());
}

#[test]
fn bad_usage_is_told_apart() {
    let no_ticket = "there is no ticket; --file - takes it from standard input";
    let names = "names don't go with --sheet, --write and --segment";
    let forms = "--sheet, --write and --segment exclude each other";
    let settings = "--depth, --form and --zeros don't go with --segment";
    let option =
        |given| format!("{given:?} is no option; -- goes before a ticket that starts with -");
    for (arguments, why) in [
        (&[][..], no_ticket),
        (&["--segment"], no_ticket),
        (&["--write", "--zeros"], no_ticket),
        (&["--depth", "3", "--form", "--"], no_ticket),
        (&["--segment", "a", "b"], names),
        (&["--sheet", "a", "b"], names),
        (&["--zeros", "--write", "a", "b"], names),
        (&["--sheet", "--file", "-", "a"], names),
        (&["--sheet", "--write", "a"], forms),
        (&["--segment", "--form", "--sheet", "a"], forms),
        (&["--zeros", "--segment", "a"], settings),
        (&["--segment", "--form", "a"], settings),
        (&["--segment", "--depth", "5", "a"], settings),
        (&["--file"], "--file needs a path, or - for standard input"),
        (&["--unknown", "a"], &option("--unknown")),
        (&["--depth=5", "a"], &option("--depth=5")),
        (&["-h"], &option("-h")),
        (&["-\u{1b}=1"], &option("-\u{1b}=1")),
    ] {
        check_bad_usage(arguments, why);
    }
}

#[test]
fn a_depth_is_a_number() {
    for arguments in [
        &["--depth"][..],
        &["--depth", "", "a"],
        &["--depth", "x", "a"],
        &["--depth", "5x", "a"],
        &["--depth", "-1", "a"],
        &["--depth", "--form", "a"],
    ] {
        check_bad_usage(arguments, "--depth needs a number");
    }
}

fn check_bad_usage(arguments: &[&str], why: &str) {
    let (status, written, told) = run(arguments);
    assert_eq!((status, written.as_str()), (Some(2), ""), "{arguments:?}");
    let first = format!("layout: {why}\nusage: layout [OPTION...] TICKET [NAME...]\n");
    assert!(told.starts_with(&first), "{arguments:?}: {told}");
    assert!(told.ends_with("\nlayout --help tells more\n"), "{told}");
}

/// Help comes wherever it stands among the options, before anything is read, and has each of them.
#[test]
fn help_is_no_bad_usage() {
    let (status, help, told) = run(&["--help"]);
    assert_eq!((status, told.as_str()), (Some(0), ""));
    assert!(help.starts_with("usage: layout [OPTION...] TICKET [NAME...]\n"));
    for option in [
        "--depth N",
        "--form",
        "--zeros",
        "--file PATH",
        "--",
        "--sheet",
        "--write",
        "--segment",
        "--help",
    ] {
        let told = help
            .lines()
            .filter(|line| line.starts_with(&format!("  {option} ")));
        assert_eq!(told.count(), 1, "{option}");
    }
    let depths = format!(
        "from 0 to {}; without it to {}\n",
        qs::MAX_DEPTH,
        Config::new().depth
    );
    assert!(help.contains(&depths));
    for arguments in [
        &["--zeros", "--help", "a"][..],
        &["--sheet", "--help", "a", "b"],
        &["--help", "--file", "absent"],
    ] {
        assert_eq!(run(arguments), (Some(0), help.clone(), String::new()));
    }
    assert_eq!(run(&["a&--help=1", "--help"]).1, "\"--help\" = \"1\"\n");
}

/// The arguments that ask for these settings, in any order.
fn setting_options(random: &mut Random, config: Config) -> Vec<String> {
    let mut options = vec![vec!["--depth".to_owned(), config.depth.to_string()]];
    options.extend(config.form.then(|| vec!["--form".to_owned()]));
    options.extend(config.zeros.then(|| vec!["--zeros".to_owned()]));
    random.shuffle(&mut options);
    options.concat()
}

/// What a form of a ticket is by the library.
fn of_the_library(config: Config, input: &[u8], form: &str) -> Result<Vec<u8>, Refused> {
    let (ticket, mut buffers) = (ticket(config, input), Buffers::for_len(input.len()));
    let mut room = vec![0; qs::sheet_room(input.len()).max(qs::write_room(input.len()))];
    match form {
        "--sheet" => Ok(ticket.sheet(&mut buffers, &mut room)?.into()),
        "--write" => Ok(ticket.write(&mut buffers, &mut room)?.into()),
        _ => {
            let reading = ticket.parse(&mut buffers)?;
            let (records, bytes) = (
                reading.records().len() / qs::RECORD_WORDS,
                reading.text().len(),
            );
            let head = format!("accepted: records used {records}, bytes of text used {bytes}\n");
            Ok(format!("{head}{}\n", reading.tree()).into())
        }
    }
}

/// Random tickets at random settings, in each form, as an argument and on standard input: what is
/// shown is what the library has, and a refusal is told with its number and place.
#[test]
fn settings_reach_the_library() {
    let mut random = Random::new(52);
    let (mut refused, mut moved) = (0, 0);
    for turn in 0..times(300) {
        let pairs = 1 + random.below(4);
        let mut input = query(&mut random, pairs);
        input.retain(|&byte| byte != 0 && byte != b'\n');
        let config = random_config(&mut random);
        let form = ["--sheet", "--write", ""][turn % 3];
        let mut options = setting_options(&mut random, config);
        options.insert(0, form.to_owned());
        options.retain(|option| !option.is_empty());
        let options: Vec<&[u8]> = options.iter().map(|option| option.as_bytes()).collect();
        let argument = layout(&[&options[..], &[b"--", &input]].concat());
        let standard_input = piped(&[&options[..], &[b"--file", b"-"]].concat(), &input);
        assert_eq!(argument, standard_input);
        let expected = of_the_library(config, &input, form);
        moved += usize::from(expected != of_the_library(Config::new(), &input, form));
        match expected {
            Ok(shown) => assert_eq!((argument.status.code(), argument.stdout), (Some(0), shown)),
            Err(Refused { refusal, place }) => {
                let told = format!(
                    "layout: refused: {refusal} ({}) at place {place}\n",
                    refusal.number()
                );
                assert!(argument.stderr.starts_with(told.as_bytes()), "{told}");
                assert_eq!(
                    (argument.status.code(), &argument.stdout[..]),
                    (Some(1), &b""[..])
                );
                refused += 1;
            }
        }
    }
    println!("{refused} refused, {moved} moved by the settings");
    assert!(refused > 0 && moved > 0);
}

#[test]
fn each_setting_is_told_apart() {
    let last = |arguments: &[&str]| {
        let (status, lines, _) = run(arguments);
        (status, lines.lines().last().map(str::to_owned))
    };
    let line = |line: &str| (Some(0), Some(line.to_owned()));
    assert_eq!(last(&["--depth", "0", "a[b]=1"]), line("  \"a[b]\": \"1\""));
    assert_eq!(last(&["--depth", "1", "a[b]=1"]), line("    \"b\": \"1\""));
    assert_eq!(
        last(&["--depth", "0", "--depth", "01", "a[b]=1"]),
        line("    \"b\": \"1\"")
    );
    assert_eq!(last(&["a%5Bb%5D=1"]), line("  \"a[b]\": \"1\""));
    assert_eq!(last(&["--form", "a%5Bb%5D=1"]), line("    \"b\": \"1\""));
    assert_eq!(
        last(&["--form", "--form", "a%5Bb%5D=1"]),
        line("    \"b\": \"1\"")
    );
    assert_eq!(last(&["07=1"]), line("  7: \"1\""));
    assert_eq!(last(&["--zeros", "07=1"]), line("  \"07\": \"1\""));
    assert_eq!(
        last(&["--form", "--zeros", "07%5Bb%5D=1"]),
        line("    \"b\": \"1\"")
    );
    let most = qs::MAX_DEPTH.to_string();
    assert_eq!(run(&["--depth", &most, "--write", "a"]).1, "a");
    let told = "layout: refused: the depth is above 64 (1)\n";
    for depth in ["65", "4294967295", "4294967296", "99999999999999999999999"] {
        let refused = (Some(1), String::new(), told.to_owned());
        assert_eq!(run(&["--depth", depth, "a[b]=1"]), refused, "{depth}");
    }
}

#[test]
fn a_file_is_read_byte_for_byte() {
    let every: Vec<u8> = (0..=255).filter(|byte| !b"&=+%[]".contains(byte)).collect();
    let input = [b"a=", &every[..]].concat();
    let path = file("every_byte", &input);
    let path = path.as_os_str().as_bytes();
    let written = layout(&[b"--write", b"--file", path]);
    let mut expected = input;
    expected
        .iter_mut()
        .filter(|byte| **byte == b' ')
        .for_each(|space| *space = b'+');
    assert_eq!((written.status.code(), written.stdout), (Some(0), expected));
    assert_eq!(written.stderr, b"");
}

/// Behind the options every argument is a name then.
#[test]
fn a_file_takes_the_place_of_the_ticket() {
    let path = file("names", b"a=1&b=2");
    let path = path.to_str().expect("a path that is text");
    let fields = (
        Some(0),
        "\"b\" = \"2\"\n\"a\" = \"1\"\n".to_owned(),
        String::new(),
    );
    assert_eq!(run(&["--file", path, "b", "a"]), fields);
    assert_eq!(run(&["--file", "absent", "--file", path, "b", "a"]), fields);
    assert_eq!(
        layout(&[b"--segment", b"--file", path.as_bytes()]).stdout,
        b"a=1&b=2"
    );
    let (status, shown, told) = run(&["--file", "absent"]);
    assert_eq!((status, shown.as_str()), (Some(1), ""));
    assert!(
        told.starts_with("layout: \"absent\": No such file or directory"),
        "{told}"
    );
    let folder = env!("CARGO_TARGET_TMPDIR");
    assert_eq!(run(&["--file", folder]).0, Some(1));
    let long = file("long", &vec![b'a'; qs::MAX_LEN + 1]);
    let told = "layout: refused: the ticket is longer than 65,535 bytes (2)\n";
    let refused = (Some(1), String::new(), told.to_owned());
    assert_eq!(
        run(&["--file", long.to_str().expect("a path that is text")]),
        refused
    );
}

/// A newline at the end is a part of the ticket, and told of.
#[test]
fn a_newline_at_the_end_is_told_of() {
    let note = "layout: note: a newline ends the input and is taken as a part of it\n";
    let path = file("newline", b"a=1\n");
    let path = path.to_str().expect("a path that is text");
    let shown = (Some(0), "\"a\" = \"1\\n\"\n".to_owned(), note.to_owned());
    assert_eq!(run(&["--file", path, "a"]), shown);
    assert_eq!(written(piped(&[b"--file", b"-", b"a"], b"a=1\n")), shown);
    let silent = (Some(0), shown.1.clone(), String::new());
    assert_eq!(run(&["a=1\n", "a"]), silent);
    let (status, _, told) = written(piped(&[b"--file", b"-"], b"a[\n"));
    let refused = "layout: refused: the ticket ends before the closing bracket (5) at place 4\n  a[\\n\n      ^\n";
    assert_eq!((status, told), (Some(1), format!("{note}{refused}")));
}

/// A run whose three streams are a terminal.
fn on_a_terminal(arguments: &[&str], no_color: Option<&str>) -> Option<String> {
    let quoted = arguments.iter().map(|argument| format!(" '{argument}'"));
    let command = format!("'{PROGRAM}'{}", quoted.collect::<String>());
    let mut script = Command::new("script");
    script
        .args(["-qec", &command, "/dev/null"])
        .stdin(Stdio::null());
    script.env_remove("NO_COLOR");
    script.envs(no_color.map(|set| ("NO_COLOR", set)));
    let Ok(output) = script.output() else {
        leave_out("script, of util-linux, is missing");
        return None;
    };
    Some(String::from_utf8(output.stdout).expect("what it writes is text"))
}

#[test]
fn only_a_terminal_gets_colours() {
    let plain = "layout: refused: `[]` where a map is (6) at place 10\r\n  a[b]=1&a[]=2\r\n           ^\r\n";
    let red = |text: &str| format!("\x1b[31m{text}\x1b[0m");
    let coloured = plain
        .replace("refused", &red("refused"))
        .replace('^', &red("^"));
    for (no_color, expected) in [
        (None, &coloured[..]),
        (Some(""), &coloured),
        (Some("0"), plain),
    ] {
        if let Some(shown) = on_a_terminal(&["a[b]=1&a[]=2"], no_color) {
            assert_eq!(shown, expected, "{no_color:?}");
        }
    }
    // piped there are none, wished for or not
    assert_eq!(run(&["a[b]=1&a[]=2"]).2, plain.replace('\r', ""));
}

/// A terminal gets a newline at the end, and no byte that it would obey.
#[test]
fn a_terminal_gets_what_is_written_spelled_out() {
    for (arguments, expected) in [
        (["--write", "b=%1B&a=1"], "a=1&b=\\u{1b}\r\n"),
        (["--segment", "%1B%C3%A9"], "\\u{1b}é\r\n"),
        (["--write", "b=%FF"], "b=\\xff\r\n"),
    ] {
        if let Some(shown) = on_a_terminal(&arguments, None) {
            assert_eq!(shown, expected);
        }
    }
}

/// The script takes a path from the folder that it is called in, and hands over the rest.
#[test]
fn the_script_runs_the_program_from_any_folder() {
    let path = file("in_a_folder", b"a[b]=1&a[]=2");
    let script = Path::new(env!("CARGO_MANIFEST_DIR")).join("layout.sh");
    let run = |arguments: &[&str]| {
        let mut command = Command::new(&script);
        command
            .args(arguments)
            .current_dir(path.parent().expect("it is in a folder"));
        command.output().expect("the script starts")
    };
    let expected = layout(&[b"--file", path.as_os_str().as_bytes()]);
    let output = run(&["--file", "in_a_folder"]);
    assert_eq!(output.status.code(), Some(1));
    assert!(output.stderr.ends_with(&expected.stderr), "{output:?}");
    assert_eq!(
        written(run(&["a=1&b=2", "b", "a"])).1,
        "\"b\" = \"2\"\n\"a\" = \"1\"\n"
    );
}

#[test]
fn what_cannot_be_written_is_no_success() {
    for arguments in [
        &["a"][..],
        &["a", "a"],
        &["--segment", "a"],
        &["--sheet", "a"],
        &["--write", "a"],
    ] {
        let full = File::options()
            .write(true)
            .open("/dev/full")
            .expect("Linux has /dev/full");
        let mut program = Command::new(env!("CARGO_BIN_EXE_layout"));
        let output = program
            .args(arguments)
            .stdout(full)
            .output()
            .expect("the layout program starts");
        assert_eq!(output.status.code(), Some(1));
        assert!(output.stderr.starts_with(b"layout: "));
    }
}
