//! The papers are held to the sources: each name and file that they give exists, each sentence of
//! docs/READING.md has the line that says where it is said, and each comment that cites a section
//! cites one that is there.

use qs::{raw, Config, Lent, Ticket};
use std::collections::{BTreeMap, BTreeSet};
use std::fs;
use std::path::{Path, PathBuf};

/// The papers whose names and files have to exist.
const PAPERS: [&str; 3] = ["docs/READING.md", "docs/CLAIMS.md", "docs/DIFFERENCES.md"];

/// The heading of READING's second half.
const MAP: &str = "Where each sentence is said";

fn top() -> &'static Path {
    let rust = Path::new(env!("CARGO_MANIFEST_DIR"));
    rust.parent().expect("this package is in the repository")
}

fn text(file: impl AsRef<Path>) -> String {
    let file = top().join(file);
    fs::read_to_string(&file).unwrap_or_else(|why| panic!("{}: {why}", file.display()))
}

/// Every file below a folder of the repository, but for what a build leaves.
fn files(folder: &Path, found: &mut Vec<PathBuf>) {
    let entries = fs::read_dir(folder).unwrap_or_else(|why| panic!("{}: {why}", folder.display()));
    for entry in entries {
        let path = entry.expect("an entry of the folder").path();
        let name = path.file_name().unwrap_or_default().to_string_lossy();
        match path.is_dir() {
            true if ["target", "out", ".git"].contains(&&*name) => {}
            true => files(&path, found),
            false => found.push(path),
        }
    }
}

fn with_ending(endings: &[&str]) -> Vec<(PathBuf, String)> {
    let mut found = Vec::new();
    files(top(), &mut found);
    let wanted = |path: &PathBuf| {
        let ending = path.extension().unwrap_or_default().to_string_lossy();
        endings.contains(&&*ending)
    };
    found.retain(wanted);
    found.sort();
    let read = |path: PathBuf| (path.clone(), text(&path));
    found.into_iter().map(read).collect()
}

/// The files of code, definitions and proofs.
fn sources() -> Vec<(PathBuf, String)> {
    with_ending(&["antt", "rt", "rs", "h", "c", "sh"])
}

/// The lines under each heading of a level, in their order.
fn sections<'a>(text: &'a str, heading: &str) -> Vec<(&'a str, Vec<&'a str>)> {
    let mut sections = vec![("", Vec::new())];
    for line in text.lines() {
        match line.strip_prefix(heading) {
            Some(name) => sections.push((name, Vec::new())),
            None => sections.last_mut().expect("one at least").1.push(line),
        }
    }
    sections.split_off(1)
}

/// Paragraphs and items of a list, each on one line; tables are left out.
fn paragraphs(lines: &[&str]) -> Vec<String> {
    let mut paragraphs = vec![String::new()];
    for line in lines {
        let starts = line.is_empty() || line.starts_with("- ") || line.starts_with('|');
        if starts {
            paragraphs.push(String::new());
        }
        if !line.starts_with('|') {
            let last = paragraphs.last_mut().expect("one at least");
            *last += line.trim_start_matches("- ").trim_start();
            last.push(' ');
        }
    }
    let trimmed = paragraphs.iter().map(|paragraph| paragraph.trim());
    trimmed.filter(|p| !p.is_empty()).map(Into::into).collect()
}

/// The sentences of a paragraph: a full stop ends one, but not inside backquotes.
fn sentences(paragraph: &str) -> Vec<String> {
    let mut sentences = vec![String::new()];
    let mut quoted = false;
    for c in (paragraph.to_owned() + " ").chars() {
        let ended = c == ' ' && !quoted && sentences.last().is_some_and(|s| s.ends_with('.'));
        quoted ^= c == '`';
        match ended {
            true => sentences.push(String::new()),
            false => sentences.last_mut().expect("one at least").push(c),
        }
    }
    let trimmed = sentences.iter().map(|sentence| sentence.trim());
    trimmed.filter(|s| !s.is_empty()).map(Into::into).collect()
}

/// READING's first half by section, and its second half by the same sections.
fn reading(text: &str) -> [BTreeMap<String, Vec<String>>; 2] {
    let (meaning, map) = text
        .split_once(&format!("\n## {MAP}\n"))
        .expect("both halves");
    let half = |text: &str, heading: &str| -> BTreeMap<String, Vec<String>> {
        let sections = sections(text, heading).into_iter();
        let sections = sections.map(|(name, lines)| (name.to_owned(), paragraphs(&lines)));
        sections.collect()
    };
    let mut meaning = half(meaning, "## ");
    for paragraphs in meaning.values_mut() {
        *paragraphs = paragraphs.iter().flat_map(|p| sentences(p)).collect();
    }
    [meaning, half(map, "### ")]
}

#[test]
fn each_sentence_of_the_reading_has_its_line() {
    let [meaning, map] = reading(&text("docs/READING.md"));
    assert!(
        meaning.keys().eq(map.keys()),
        "both halves have the same sections"
    );
    let mut count = 0;
    for (section, sentences) in &meaning {
        let lines = &map[section];
        assert_eq!(
            sentences.len(),
            lines.len(),
            "the sentences of '{section}' and its lines"
        );
        for (sentence, line) in sentences.iter().zip(lines) {
            let opening = line
                .strip_prefix('*')
                .and_then(|line| line.split_once("* "));
            let (opening, _) = opening.unwrap_or_else(|| panic!("no opening: {line}"));
            let opening = opening.trim_end_matches(" …");
            assert!(
                sentence.starts_with(opening),
                "'{section}': {sentence}\n{line}"
            );
            count += 1;
        }
    }
    assert!(count > 150, "{count} sentences");
}

/// What stands in backquotes.
fn quoted(text: &str) -> Vec<&str> {
    text.split('`').skip(1).step_by(2).collect()
}

fn is_file(token: &str) -> bool {
    let plain = |c: char| c.is_ascii_alphanumeric() || "_/.-".contains(c);
    let steps: Vec<&str> = token.split('/').collect();
    steps.len() > 1 && steps.iter().all(|step| !step.is_empty()) && token.chars().all(plain)
}

/// The file that a paper means: paths are those of the repository or those under crates/, of
/// definitions and proofs without their ending; CRATE/NAME is a must-fail edit.
fn file(token: &str) -> Option<PathBuf> {
    let edit = token
        .split_once('/')
        .map(|(of, name)| format!("crates/{of}/must-fail/{name}.edit"));
    let places = [
        token.to_owned(),
        format!("crates/{token}"),
        format!("{token}.antt"),
        format!("crates/{token}.antt"),
        edit.unwrap_or_default(),
    ];
    let places = places.iter().map(|place| top().join(place));
    places.into_iter().find(|place| place.exists())
}

fn is_name(token: &str) -> bool {
    let inside = |c: char| c.is_ascii_alphanumeric() || "_-:'".contains(c);
    token.starts_with(|c: char| c.is_ascii_alphabetic()) && token.chars().all(inside)
}

/// The words of a source. A hyphen is part of a name in definitions and proofs, and none in Rust; a
/// quote ends a name there, and in Rust it may stand in front of one.
fn words(text: &str) -> impl Iterator<Item = &str> {
    let inside = |c: char| c.is_alphanumeric() || "_-'".contains(c);
    let whole = text
        .split(move |c| !inside(c))
        .map(|word| word.trim_matches('-').trim_start_matches('\''));
    whole.flat_map(|word| word.split('-').chain([word]))
}

#[test]
fn each_file_and_name_of_the_papers_exists() {
    let sources = sources();
    let known: BTreeSet<&str> = sources.iter().flat_map(|(_, text)| words(text)).collect();
    let crates = crates();
    let is_known =
        |name: &str| crates.contains(name) || name.split("::").all(|part| known.contains(part));
    let (mut names, mut there, mut missing) = (0, 0, Vec::new());
    for paper in PAPERS {
        for token in quoted(&text(paper)) {
            let found = match (is_file(token), is_name(token)) {
                (true, _) => file(token).is_some(),
                (false, named) => !named || is_known(token),
            };
            names += usize::from(is_name(token));
            there += usize::from(is_file(token));
            if !found {
                missing.push(format!("{paper}: `{token}`"));
            }
        }
    }
    assert!(missing.is_empty(), "{missing:#?}");
    assert!(
        names > 300 && there > 300,
        "{names} names and {there} files"
    );
}

/// The crates' names.
fn crates() -> BTreeSet<String> {
    let list = text("crates.txt");
    let names = list.lines().filter(|line| !line.starts_with('#'));
    let names = names.filter_map(|line| line.split_once(':'));
    // behind the name may stand what kind of crate it is
    let names = names.filter_map(|(name, _)| name.split(' ').next());
    names.map(Into::into).collect()
}

/// A source without its comments.
fn code(text: &str) -> String {
    let comment = |line: &&str| {
        let line = line.trim_start();
        !line.starts_with("--") && !line.starts_with("//")
    };
    text.lines().filter(comment).collect::<Vec<_>>().join("\n")
}

/// In READING's second half names stand in front of the file that has them.
#[test]
fn each_name_of_the_reading_is_in_its_file() {
    let [_, map] = reading(&text("docs/READING.md"));
    let mut count = 0;
    for line in map.values().flatten() {
        let (_, said) = line.split_once("* ").expect("an opening");
        let said = said.split("; ").next().unwrap_or_default();
        let mut names = Vec::new();
        for token in quoted(said) {
            if !is_file(token) {
                names.push(token);
                continue;
            }
            let path = file(token).unwrap_or_else(|| panic!("there is no file `{token}`"));
            let code = code(&text(path));
            let known: BTreeSet<&str> = words(&code).collect();
            assert!(!names.is_empty(), "no name in front of `{token}`: {line}");
            for name in names.drain(..) {
                assert!(known.contains(name), "`{token}` has no `{name}`");
                count += 1;
            }
        }
        assert!(names.is_empty(), "no file behind {names:?}: {line}");
    }
    assert!(count > 250, "{count} names");
}

/// A name right in front of its file, as in "`name` in `file`" or "`name` (`file`", is in that file.
#[test]
fn each_name_beside_a_file_is_in_it() {
    let mut count = 0;
    for paper in PAPERS {
        let text = text(paper);
        let parts: Vec<&str> = text.split('`').collect();
        for pair in parts[1..].windows(3).step_by(2) {
            let [name, between, token] = [pair[0], pair[1].trim(), pair[2]];
            let beside = between == "in" || between == "(";
            let (true, true, Some(path)) = (beside && is_name(name), is_file(token), file(token))
            else {
                continue;
            };
            let code = code(&self::text(path));
            let known: BTreeSet<&str> = words(&code).collect();
            let missing = name.split("::").find(|part| !known.contains(part));
            assert_eq!(missing, None, "{paper}: `{token}` has no `{name}`");
            count += 1;
        }
    }
    assert!(count > 200, "{count} names beside their files");
}

#[test]
fn each_link_leads_to_a_file() {
    for (path, text) in with_ending(&["md"]) {
        let folder = path.parent().expect("a folder");
        for link in text
            .split("](")
            .skip(1)
            .filter_map(|rest| rest.split(')').next())
        {
            let file = link.split('#').next().unwrap_or_default();
            let there = file.is_empty() || link.starts_with("http") || folder.join(file).exists();
            assert!(there, "{}: {link}", path.display());
        }
    }
}

/// The sections that a text cites, as `READING, 'Keys'`, or several with commas or `and` between.
fn cited(text: &str) -> Vec<String> {
    let one_line: Vec<&str> = text
        .split_whitespace()
        .filter(|w| !["--", "//", "///", "//!", "*", "#"].contains(w))
        .collect();
    let text = one_line.join(" ");
    let mut cited = Vec::new();
    for mut rest in text.split("READING, '").skip(1) {
        while let Some((section, behind)) = rest.split_once('\'') {
            cited.push(section.to_owned());
            let next = [", '", " and '", " or '"]
                .iter()
                .find_map(|between| behind.strip_prefix(between));
            let Some(next) = next else { break };
            rest = next;
        }
    }
    cited
}

#[test]
fn comments_cite_sections_that_are_there() {
    let [meaning, _] = reading(&text("docs/READING.md"));
    let mut count = 0;
    let mut texts = sources();
    texts.extend(with_ending(&["md", "edit"]));
    for (path, text) in texts {
        let own = path.ends_with("docs/READING.md") || path.ends_with("tests/docs.rs");
        let history = path.ends_with("docs/CHANGES.md") || path.ends_with("tests/docs.rs");
        for section in cited(&text) {
            let there = own || meaning.contains_key(&section);
            assert!(there, "{}: READING has no '{section}'", path.display());
            count += 1;
        }
        let outside = ["document 01", "document 02", "Document 01", "Document 02"];
        let outside = outside
            .iter()
            .find(|paper| !history && text.contains(*paper));
        assert_eq!(outside, None, "{}", path.display());
    }
    assert!(count > 50, "{count} citations");
}

#[test]
fn lines_of_the_papers_end_by_100_characters() {
    for (path, text) in with_ending(&["md"]) {
        for (number, line) in (1..).zip(text.lines()) {
            let length = line.chars().count();
            assert!(
                length <= 100,
                "{}:{number}: {length} characters",
                path.display()
            );
        }
    }
}

/// The definitions that a file of specs uses, as paths under crates/, but for the library's.
fn used(text: &str) -> Vec<String> {
    let uses = text
        .lines()
        .filter_map(|line| line.strip_prefix("use Rattle."));
    let module = |line: &str| {
        let (of, rest) = line.split_once(".specs.")?;
        let name = rest.split(['.', ' ']).next()?;
        (of != "std" && name != "declared").then(|| format!("{of}/specs/{name}"))
    };
    uses.filter_map(module).collect()
}

/// CLAIMS has every file of definitions that the contract of `parse` stands on, and its lines.
#[test]
fn the_files_behind_parse_are_all_there() {
    let mut left = vec![
        "parse/specs/Outcomes".to_owned(),
        "reading/specs/Reading".to_owned(),
    ];
    let mut behind = BTreeMap::new();
    while let Some(file) = left.pop() {
        let text = text(format!("crates/{file}.antt"));
        behind.insert(file, text.lines().count());
        left.extend(
            used(&text)
                .into_iter()
                .filter(|file| !behind.contains_key(file)),
        );
    }
    let claims = text("docs/CLAIMS.md");
    let rows = claims.lines().filter_map(|line| line.strip_prefix("| `"));
    let row = |row: &str| {
        let (file, rest) = row.split_once("` | ")?;
        let lines = rest.split(" | ").next()?.parse().ok()?;
        Some((file.to_owned(), lines))
    };
    let listed: BTreeMap<String, usize> = rows.filter_map(row).collect();
    assert_eq!(listed, behind);
    let all: usize = behind.values().sum();
    assert!(
        claims.contains(&format!("{} files of {all} lines", behind.len())),
        "{} files, {all} lines",
        behind.len()
    );
}

/// The number behind a word in a text, if the word is there: 5 behind "depth" in "at depth 5".
fn number_behind<N: std::str::FromStr>(text: &str, word: &str) -> Option<N> {
    let (_, rest) = text.split_once(&format!("{word} "))?;
    let digits: String = rest.chars().take_while(char::is_ascii_digit).collect();
    digits.parse().ok()
}

/// The number before a word: 3 before "records" in "with 3 records".
fn number_before(text: &str, word: &str) -> Option<usize> {
    let (front, _) = text.split_once(&format!(" {word}"))?;
    front.rsplit(' ').next()?.parse().ok()
}

/// The number and the place that the library answers to an example at its settings, where so many
/// records and bytes are lent, or where nothing is said of them as many as suffice.
fn answer(ticket: &str, said: &str, space: (Option<usize>, Option<usize>)) -> (u32, u32) {
    let config = Config {
        depth: number_behind(said, "depth").unwrap_or(Config::new().depth),
        form: said.contains("the flag on"),
        zeros: said.contains("`zeros` on"),
    };
    let ticket = Ticket {
        config,
        ..Ticket::new(ticket)
    };
    let length = ticket.input.len();
    let mut words = vec![0; qs::RECORD_WORDS * space.0.unwrap_or(length + 1)];
    let mut text = vec![0; space.1.unwrap_or(length)];
    let lent = Lent {
        records: &mut words,
        text: &mut text,
    };
    let reading = raw::parse(ticket, lent);
    (reading.number, reading.place)
}

/// READING's examples: the ticket with its settings and space, and what is said of it.
fn examples(reading: &str) -> Vec<(&str, &str)> {
    let sections = sections(reading, "## ");
    let examples = sections.iter().find(|(name, _)| *name == "Examples");
    let (_, lines) = examples.expect("READING has examples");
    let rows = lines.iter().filter(|line| line.starts_with("| ")).skip(1);
    let cells = rows.map(|row| row.trim_matches(['|', ' ']).split_once(" | "));
    cells.map(|cells| cells.expect("two cells")).collect()
}

/// What READING says of its examples is so: which are refused, by which number and where, and that
/// the others are accepted.
#[test]
fn the_examples_of_the_reading_are_so() {
    let reading = text("docs/READING.md");
    let (mut refused, mut accepted) = (0, 0);
    for (said, gives) in examples(&reading) {
        let ticket = quoted(said).first().copied().unwrap_or_default();
        let space = |text| (number_before(text, "records"), number_before(text, "bytes"));
        let expected = match number_behind(gives, "refused by") {
            Some(number) => (number, number_behind(gives, "at").expect("a place")),
            None => (0, 0),
        };
        assert_eq!(answer(ticket, said, space(said)), expected, "{said}");
        refused += usize::from(expected.0 > 0);
        accepted += usize::from(expected.0 == 0);
        let rest = gives.split_once("; ").map(|(_, rest)| rest);
        if let Some(suffice) = rest.filter(|rest| rest.ends_with("suffice")) {
            assert_eq!(answer(ticket, said, space(suffice)), (0, 0), "{said}");
        }
    }
    assert!(
        refused > 12 && accepted > 10,
        "{refused} refused, {accepted} accepted"
    );
}
