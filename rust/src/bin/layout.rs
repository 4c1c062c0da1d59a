//! `layout TICKET [NAME...]`: a ticket as the controller will read it, or why and where it is
//! refused. [`help`] tells the rest.
//!
//! Whatever comes from the ticket is shown with escapes for all that a terminal would obey.

use qs::{
    Buffers, Config, DuplicateKeyBehavior, NamesBuf, Quoted, Refusal, Refused, Texts, Ticket,
};
use std::error::Error;
use std::ffi::OsString;
use std::fmt::Display;
use std::fs;
use std::io::{self, IsTerminal, Read, Write};
use std::ops::Range;
use std::os::unix::ffi::{OsStrExt, OsStringExt};
use std::path::{Path, PathBuf};
use std::process::ExitCode;
use std::string::FromUtf8Error;

const REFUSED: u8 = 1;
const BAD_USAGE: u8 = 2;

const USAGE: &str = "\
usage: layout [OPTION...] TICKET [NAME...]
       layout [OPTION...] --file PATH [NAME...]";

const REMARKS: &str = "\
A refused ticket is shown around the place of the refusal, with a mark under the byte there, or past
the last byte where the end is refused. Bytes outside printable ASCII are escaped there, as \\xc3,
and a backslash is doubled.

A written ticket and a segment's text are put out byte for byte and with nothing added; only a
terminal gets them with a newline at the end and with control characters spelled out. Only a
terminal gets colours, and none where NO_COLOR is set.

Exit status: 0, shown; 1, refused, not UTF-8, or not to be read or written; 2, bad usage.";

/// What the program does, for who uses it.
fn help() -> String {
    let (usual, most) = (Config::new().depth, qs::MAX_DEPTH);
    let columns = qs::SHEET_LINE - 1;
    format!(
        "\
{USAGE}

Shows a ticket as the controller will read it: its tree, a line for each value, or where names are
given the root's fields of these names, each as a text and, where it has several values, as a list.
A key in quotes is a name; a bare number is none.

How the ticket is read:
  --depth N    brackets nest to N, from 0 to {most}; without it to {usual}
  --form       %5B and %5D are brackets too
  --zeros      zeros in front of a number count: 7, 07 and 007 are three keys

Where it comes from:
  --file PATH  from the file, byte for byte, also a newline at its end; - is standard input
  --           ends the options, for a ticket that starts with -

What is shown in the place of the tree:
  --sheet      the sheet: a line of {columns} characters for each value
  --write      the ticket written again: a pair for each value, in the order of keys
  --segment    the text of a raw segment, which is given in the place of the ticket
  --help       this text

{REMARKS}
"
    )
}

fn main() -> ExitCode {
    let arguments = std::env::args_os().skip(1).map(OsString::into_vec);
    let shown = match Request::of(arguments) {
        Ok(Some(request)) => request.show(),
        Ok(None) => put(help().as_bytes()),
        Err(why) => {
            tell(&format!("{why}\n{USAGE}\nlayout --help tells more"));
            return ExitCode::from(BAD_USAGE);
        }
    };
    if let Err(why) = shown {
        tell(&why.to_string());
        return ExitCode::from(REFUSED);
    }
    ExitCode::SUCCESS
}

/// Tells something on standard error. Where that can't be written, nobody is left to be told.
fn tell(what: &str) {
    let _ = writeln!(io::stderr(), "layout: {what}");
}

/// What is shown in the place of the tree or the fields.
#[derive(Clone, Copy, PartialEq, Eq)]
enum Form {
    Sheet,
    Written,
    Segment,
}

/// Where the ticket, or the segment, comes from.
enum Source {
    Argument(Vec<u8>),
    StandardInput,
    File(PathBuf),
}

/// The options as they are given.
#[derive(Default)]
struct Options {
    settings: Option<Config>,
    form: Option<Form>,
    source: Option<Source>,
    help: bool,
}

impl Options {
    /// The options, which stand first, and the arguments behind them.
    fn of(
        mut arguments: impl Iterator<Item = Vec<u8>>,
    ) -> Result<(Self, impl Iterator<Item = Vec<u8>>), String> {
        let mut options = Options::default();
        let mut next = arguments.next();
        while let Some(option) = next.take_if(|next| next.len() > 1 && next.starts_with(b"-")) {
            if option == b"--" {
                next = arguments.next();
                break;
            }
            options.take(&option, &mut arguments)?;
            next = arguments.next();
        }
        Ok((options, next.into_iter().chain(arguments)))
    }

    /// Takes an option, and its value where it has one.
    fn take(
        &mut self,
        option: &[u8],
        values: &mut impl Iterator<Item = Vec<u8>>,
    ) -> Result<(), String> {
        match option {
            b"--depth" => self.settings().depth = depth(values.next())?,
            b"--form" => self.settings().form = true,
            b"--zeros" => self.settings().zeros = true,
            b"--file" => self.source = Some(source(values.next())?),
            b"--sheet" => self.choose(Form::Sheet)?,
            b"--write" => self.choose(Form::Written)?,
            b"--segment" => self.choose(Form::Segment)?,
            b"--help" => self.help = true,
            _ => {
                let option = Quoted(option);
                return Err(format!(
                    "{option} is no option; -- goes before a ticket that starts with -"
                ));
            }
        }
        Ok(())
    }

    fn settings(&mut self) -> &mut Config {
        self.settings.get_or_insert_default()
    }

    /// Chooses a form, of which there may be one.
    fn choose(&mut self, form: Form) -> Result<(), String> {
        match self.form.replace(form) {
            Some(other) if other != form => {
                Err("--sheet, --write and --segment exclude each other".to_owned())
            }
            _ => Ok(()),
        }
    }
}

/// A depth by its digits. What is too great for a number is too great for the library as well,
/// which refuses it.
fn depth(value: Option<Vec<u8>>) -> Result<u32, String> {
    match String::from_utf8(value.unwrap_or_default()) {
        Ok(digits) if !digits.is_empty() && digits.bytes().all(|b| b.is_ascii_digit()) => {
            Ok(digits.parse().unwrap_or(u32::MAX))
        }
        _ => Err("--depth needs a number".to_owned()),
    }
}

/// A file by its path, or standard input.
fn source(value: Option<Vec<u8>>) -> Result<Source, String> {
    match value {
        None => Err("--file needs a path, or - for standard input".to_owned()),
        Some(path) if path == b"-" => Ok(Source::StandardInput),
        Some(path) => Ok(Source::File(OsString::from_vec(path).into())),
    }
}

/// What is asked for.
struct Request {
    config: Config,
    form: Option<Form>,
    source: Source,
    names: Vec<Vec<u8>>,
}

impl Request {
    /// What the arguments ask for, which may be nothing but help; or what is wrong with them.
    fn of(arguments: impl Iterator<Item = Vec<u8>>) -> Result<Option<Self>, String> {
        let (options, mut others) = Options::of(arguments)?;
        if options.help {
            return Ok(None);
        }
        let argument = || others.next().map(Source::Argument);
        let source = options.source.or_else(argument);
        let source = source.ok_or("there is no ticket; --file - takes it from standard input")?;
        let (form, names) = (options.form, others.collect::<Vec<_>>());
        if form.is_some() && !names.is_empty() {
            return Err("names don't go with --sheet, --write and --segment".to_owned());
        }
        if form == Some(Form::Segment) && options.settings.is_some() {
            return Err("--depth, --form and --zeros don't go with --segment".to_owned());
        }
        let config = options.settings.unwrap_or_default();
        Ok(Some(Request {
            config,
            form,
            source,
            names,
        }))
    }

    fn show(self) -> Shown {
        let input = self.source.bytes()?;
        let ticket = Ticket {
            config: self.config,
            ..Ticket::new(&input)
        };
        let shown = match self.form {
            Some(Form::Sheet) => show_sheet(ticket),
            Some(Form::Written) => show_written(ticket),
            Some(Form::Segment) => show_segment(&input),
            None if self.names.is_empty() => show_tree(ticket),
            None => show_fields(ticket, &self.names),
        };
        shown.map_err(|why| match why.downcast_ref() {
            Some(&refused) => marked(&input, refused, colours(&io::stderr())).into(),
            None => why,
        })
    }
}

impl Source {
    /// The bytes. A newline at their end is told of, since an editor or a shell may have added it.
    fn bytes(self) -> Result<Vec<u8>, Box<dyn Error>> {
        let bytes = match self {
            Source::Argument(bytes) => return Ok(bytes),
            Source::StandardInput => of_standard_input()?,
            Source::File(path) => {
                fs::read(&path).map_err(|why| format!("{}: {why}", quoted_path(&path)))?
            }
        };
        if bytes.ends_with(b"\n") {
            tell("note: a newline ends the input and is taken as a part of it");
        }
        Ok(bytes)
    }
}

fn of_standard_input() -> io::Result<Vec<u8>> {
    let mut bytes = Vec::new();
    io::stdin().lock().read_to_end(&mut bytes)?;
    Ok(bytes)
}

fn quoted_path(path: &Path) -> Quoted<'_> {
    Quoted(path.as_os_str().as_bytes())
}

/// Whether something was shown, or why not. A refused ticket is a [`Refused`] among the errors.
type Shown = Result<(), Box<dyn Error>>;

/// Puts out bytes as they are.
fn put(bytes: &[u8]) -> Shown {
    let mut out = io::stdout().lock();
    out.write_all(bytes)?;
    out.flush()?;
    Ok(())
}

/// What the reading used, and its tree.
fn show_tree(ticket: Ticket) -> Shown {
    let mut buffers = Buffers::for_len(ticket.input.len());
    let reading = ticket.parse(&mut buffers)?;
    let records = reading.records().len() / qs::RECORD_WORDS;
    let bytes = reading.text().len();
    let tree = reading.tree();
    let lines = format!("accepted: records used {records}, bytes of text used {bytes}\n{tree}\n");
    put(lines.as_bytes())
}

/// The fields, one after another. The ticket is read once for all of them, and again only for one
/// that has several values or is a map. One that can't be read doesn't keep the others from being
/// shown.
fn show_fields(ticket: Ticket, names: &[Vec<u8>]) -> Shown {
    let laid = NamesBuf::of(names);
    let (mut buffers, mut answers) = (Buffers::for_len(ticket.input.len()), laid.answers());
    let strict = Ticket {
        duplicates: DuplicateKeyBehavior::Error,
        ..ticket
    };
    let fields = strict.fields(&laid, &mut buffers, &mut answers)?;
    let (mut shown, mut unread) = (String::new(), Vec::new());
    for (name, field) in names.iter().zip(fields) {
        let lines = match field {
            Ok(text) => Ok(line(Quoted(name), text)),
            Err(Refusal::SeveralValues | Refusal::WrongKind) => lines_of(ticket, name),
            Err(refusal) => Err(refusal),
        };
        match lines {
            Ok(lines) => shown += &lines,
            Err(refusal) => unread.push(format!("{}: {}", Quoted(name), numbered(refusal))),
        }
    }
    put(shown.as_bytes())?;
    match unread.is_empty() {
        true => Ok(()),
        false => Err(unread.join("\nlayout: ").into()),
    }
}

/// A name, or a name with an index, and its text.
fn line(name: impl Display, text: &str) -> String {
    format!("{name} = {}\n", Quoted(text.as_bytes()))
}

/// The lines of a field that has several values or is a map, in an accepted ticket: its text where
/// it has one, and its elements; or why it has neither.
fn lines_of(ticket: Ticket, name: &[u8]) -> Result<String, Refusal> {
    let length = ticket.input.len();
    let (mut buffers, mut list) = (Buffers::for_len(length), vec![0; qs::list_room(length)]);
    let quoted = Quoted(name);
    let text = ticket.text(name, &mut buffers);
    let text = text.map(|text| line(quoted, text));
    let elements = ticket.list(name, &mut buffers, &mut list);
    let elements = elements.map(|texts| element_lines(quoted, texts));
    match (text, elements) {
        (Ok(text), Ok(elements)) => Ok(text + &elements),
        (Ok(text), Err(why)) => Ok(format!(
            "{text}{quoted} as a list: {}\n",
            numbered(why.refusal)
        )),
        (Err(_), Ok(elements)) => Ok(elements),
        // What is wrong with a list says more than that it is no text.
        (Err(text), Err(list)) if text.refusal == Refusal::WrongKind => Err(list.refusal),
        (Err(text), Err(_)) => Err(text.refusal),
    }
}

fn element_lines(name: Quoted, texts: Texts) -> String {
    let lines = texts.enumerate();
    lines
        .map(|(index, text)| line(format!("{name}[{index}]"), text))
        .collect()
}

/// A refusal's words and its number.
fn numbered(refusal: Refusal) -> String {
    format!("{refusal} ({})", refusal.number())
}

/// The columns for a part of a ticket, where two are left in front.
const COLUMNS: usize = 70;

/// Those of them that stand in front of the mark, where the ticket goes on behind it.
const BEFORE: usize = 40;

/// What stands for the rest of a ticket.
const CUT: &str = "...";

/// Why a ticket is refused, and the part of it around the place, marked under the byte that was
/// taken last; the end counts as a byte.
fn marked(input: &[u8], refused: Refused, colours: bool) -> String {
    let red = |text| match colours {
        true => format!("\x1b[31m{text}\x1b[0m"),
        false => String::from(text),
    };
    let why = format!("{}: {}", red("refused"), numbered(refused.refusal));
    let place = refused.place as usize;
    let Some(last) = place.checked_sub(1) else {
        return why;
    };
    let cells: Vec<String> = input.iter().map(cell).collect();
    let Range { start, end } = window(&cells, last);
    let cut = |cut| if cut { CUT } else { "" };
    let before = cut(start > 0).to_owned() + &cells[start..last].concat();
    let after = cells[last..end].concat() + cut(end < cells.len());
    let (indent, mark) = (before.len(), red("^"));
    format!(
        "{why} at place {place}\n  {before}{after}\n  {:indent$}{mark}",
        ""
    )
}

/// A byte of a ticket as it is shown, in as many columns as it has bytes then.
fn cell(byte: &u8) -> String {
    match byte {
        // which need no escape outside quotes
        b'"' | b'\'' => char::from(*byte).to_string(),
        _ => byte.escape_ascii().to_string(),
    }
}

/// The cells around the last one that fit in the columns, all of them where they do.
fn window(cells: &[String], last: usize) -> Range<usize> {
    let columns = |range: Range<usize>| cells[range].iter().map(String::len).sum::<usize>();
    if columns(0..cells.len()) <= COLUMNS {
        return 0..cells.len();
    }
    let room = COLUMNS - 2 * CUT.len();
    let start_in = |room| last - fitting(cells[..last].iter().rev(), room);
    let end = last + fitting(cells[last..].iter(), room - columns(start_in(BEFORE)..last));
    // Where little stands behind the mark, more of what is in front has room.
    start_in(room - columns(last..end))..end
}

/// How many of the first cells fit in so many columns.
fn fitting<'c>(cells: impl Iterator<Item = &'c String>, mut room: usize) -> usize {
    let fits = |cell: &&String| {
        let left = room.checked_sub(cell.len());
        room = left.unwrap_or(0);
        left.is_some()
    };
    cells.take_while(fits).count()
}

/// Whether a stream gets colours: a terminal does, unless NO_COLOR is set to anything.
fn colours(stream: &impl IsTerminal) -> bool {
    let unwanted = std::env::var_os("NO_COLOR").is_some_and(|set| !set.is_empty());
    stream.is_terminal() && !unwanted
}

/// The sheet of a ticket. It has no byte that a terminal would obey but its newlines.
fn show_sheet(ticket: Ticket) -> Shown {
    let length = ticket.input.len();
    let (mut buffers, mut page) = (Buffers::for_len(length), vec![0; qs::sheet_room(length)]);
    put(ticket.sheet(&mut buffers, &mut page)?.as_bytes())
}

/// A ticket as it is written.
fn show_written(ticket: Ticket) -> Shown {
    let length = ticket.input.len();
    let (mut buffers, mut out) = (Buffers::for_len(length), vec![0; qs::write_room(length)]);
    put_spelled_out(ticket.write(&mut buffers, &mut out)?)
}

/// The text of a segment.
fn show_segment(raw: &[u8]) -> Shown {
    put_spelled_out(text_of(raw)?.as_bytes())
}

/// Puts out bytes as they are, or spelled out for a terminal.
fn put_spelled_out(bytes: &[u8]) -> Shown {
    if !io::stdout().is_terminal() {
        return put(bytes);
    }
    let shown = match std::str::from_utf8(bytes) {
        Ok(text) => spelled_out(text),
        Err(_) => bytes.escape_ascii().to_string(),
    };
    put((shown + "\n").as_bytes())
}

/// The decoded text of a raw segment, or why it has none. The library decides whether it is UTF-8,
/// as in the controller; Rust's own test adds the place.
fn text_of(raw: &[u8]) -> Result<String, String> {
    let mut text = vec![0; raw.len()];
    let length = qs::decode(raw, &mut text).expect("decoded bytes are no more than raw ones");
    text.truncate(length);
    let well_formed = qs::is_utf8(&text);
    match String::from_utf8(text) {
        Ok(text) if well_formed => Ok(text),
        Err(error) if !well_formed => Err(not_utf8(&error)),
        _ => unreachable!("both tests are RFC 3629's"),
    }
}

/// Says where the first malformed sequence starts.
fn not_utf8(error: &FromUtf8Error) -> String {
    let place = error.utf8_error().valid_up_to();
    let byte = error.as_bytes()[place];
    format!("the decoded text is not UTF-8: it breaks at offset {place}, byte {byte:02X}")
}

/// The text with its control characters, but for newline and tab, as `\u{1b}` and the like.
fn spelled_out(text: &str) -> String {
    let obeyed = |c: char| c.is_control() && c != '\n' && c != '\t';
    let mut shown = String::with_capacity(text.len());
    for c in text.chars() {
        if obeyed(c) {
            shown.extend(c.escape_unicode());
        } else {
            shown.push(c);
        }
    }
    shown
}

#[cfg(test)]
mod tests {
    use super::{marked, spelled_out, COLUMNS};
    use qs::{Refusal, Refused};

    #[test]
    fn a_terminal_gets_no_control_characters() {
        assert_eq!(spelled_out("é\tb\n‽"), "é\tb\n‽");
        assert_eq!(
            spelled_out("a\x1b[2Jb\r\0\x7f\u{9b}"),
            r"a\u{1b}[2Jb\u{d}\u{0}\u{7f}\u{9b}"
        );
    }

    /// The lines below the first: the part of the ticket, and the mark.
    fn part(input: &[u8], place: u32) -> (String, String) {
        let refusal = Refusal::EndBeforeClosing;
        let told = marked(input, Refused { refusal, place }, false);
        let mut lines = told.lines().skip(1).map(|line| {
            let line = line.strip_prefix("  ").expect("it is indented");
            line.to_owned()
        });
        let lines = (lines.next(), lines.next(), lines.next());
        let (Some(part), Some(mark), None) = lines else {
            panic!("{told}");
        };
        (part, mark)
    }

    #[test]
    fn a_short_ticket_is_shown_whole() {
        let pair = |part: &str, mark: &str| (part.to_owned(), mark.to_owned());
        assert_eq!(part(b"a[][b]=1", 4), pair("a[][b]=1", "   ^"));
        assert_eq!(part(b"a[", 3), pair("a[", "  ^"));
        let escaped = pair(r#"a\x1b\xc3\\'"[][b]=1"#, "               ^");
        assert_eq!(part(b"a\x1b\xc3\\'\"[][b]=1", 9), escaped);
        let full = "a".repeat(COLUMNS);
        let place = COLUMNS as u32 + 1;
        assert_eq!(
            part(full.as_bytes(), place),
            pair(&full, &format!("{:COLUMNS$}^", ""))
        );
    }

    #[test]
    fn a_long_ticket_is_cut_on_either_side() {
        let input = [b'a'; 1_000];
        let a = |count| "a".repeat(count);
        let mark = |column| format!("{:column$}^", "");
        assert_eq!(part(&input, 500), (format!("...{}...", a(64)), mark(43)));
        assert_eq!(part(&input, 3), (format!("{}...", a(64)), mark(2)));
        assert_eq!(part(&input, 998), (format!("...{}", a(64)), mark(64)));
        assert_eq!(part(&input, 1_001), (format!("...{}", a(64)), mark(67)));
    }

    /// Wherever the place is, and however many columns the bytes take, the mark stands under the
    /// byte there, what is cut is told, and the line is filled.
    #[test]
    fn the_mark_stands_under_its_byte() {
        let pattern = b"\x1bab\xff\nc\\d\xC3\xA9ef[]=ghi";
        let input: Vec<u8> = pattern.iter().copied().cycle().take(300).collect();
        for last in 0..=input.len() {
            let (before, after) = input.split_at(last);
            let whole = [before, after].map(|bytes| bytes.escape_ascii().to_string());
            let (part, mark) = part(&input, last as u32 + 1);
            let (before, after) = part.split_at(mark.find('^').expect("there is a mark"));
            match before.strip_prefix("...") {
                Some(cut) => assert!(whole[0].len() > cut.len() && whole[0].ends_with(cut)),
                None => assert_eq!(before, whole[0]),
            }
            match after.strip_suffix("...") {
                Some(cut) => assert!(whole[1].len() > cut.len() && whole[1].starts_with(cut)),
                None => assert_eq!(after, whole[1]),
            }
            assert!((COLUMNS - 6..=COLUMNS).contains(&part.len()), "{part}");
        }
    }

    #[test]
    fn a_refusal_without_a_place_has_no_mark() {
        let refusal = Refusal::TooLong;
        let told = marked(b"a", Refused { refusal, place: 0 }, false);
        assert_eq!(told, "refused: the ticket is longer than 65,535 bytes (2)");
    }

    #[test]
    fn colours_change_nothing_else() {
        let refusal = Refusal::EndAfterOpening;
        let [plain, coloured] =
            [false, true].map(|colours| marked(b"a[", Refused { refusal, place: 3 }, colours));
        assert_eq!(coloured.matches("\x1b[31m").count(), 2);
        assert_eq!(
            coloured.replace("\x1b[31m", "").replace("\x1b[0m", ""),
            plain
        );
    }
}
