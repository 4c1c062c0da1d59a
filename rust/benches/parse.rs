//! How long `qs_parse` takes beside the crate's own `parse`, `qs_text` and `qs_list` beside
//! `qs_parse`, `qs_fields` beside as many calls of `qs_text`, and the writing of `qs_write` beside
//! its reading, in one process:
//!
//!     rust/cargo.sh bench
//!     rust/cargo.sh bench --bench parse -- falling 40000
//!     rust/cargo.sh bench --bench parse -- written
//!
//! A number asks for inputs of so many bytes instead of the usual sizes, and other words for the
//! kinds that have one of them in their name.
//!
//! Ours has n + 1 records and n bytes of text lent for n bytes of input, which always suffice. Its
//! time is that of the reading and of clearing what it doesn't use of these; they are lent again
//! and again, and their making isn't in it. The crate's time has the making and the dropping of its
//! tree in it. Both are built optimised. The two read an input in turns, one reading each, and each
//! figure is the least of all its turns. The slowest have few of them.

#[path = "../tests/common/mod.rs"]
mod common;

use common::kinds::{joined, ordered, pairs, plate, Kind, HARD, USUAL};
use common::orders::{falling, rising};
use common::{crate_config, ticket};
use qs::{raw, refusal, Buffers, Config, NamesBuf, Ticket};
use std::fmt::Write as _;
use std::hint::black_box;
use std::time::{Duration, Instant};

const HEAD: &str = "
For inputs of so many bytes: the time of one call of ours, in microseconds, and its ratio to the call that it is held
against, each the least of its turns. Growth is our time at 40,000 bytes over that at 20,000: linear is 2, quadratic 4.
";

const PARSE: &str = "
qs_parse against the crate's parse. Ours: reading, and clearing what isn't used of n + 1 records and n bytes of text.
The crate's: making its tree and dropping it.
";

const PADDED: &str = "
qs_parse where zeros in front of a number count, against the crate's parse of the same input, for which they don't: a string key each
for us, and a number for the crate.
";

const FIELDS: &str = "
qs_text and qs_list, each of which reads first, against qs_parse of the same input: what is above 1 is the field read's.
";

const MANY: &str = "
qs_fields of 20 names, which reads once, against 20 calls of qs_text, which read 20 times.
";

const MANY_ALONE: &str = "
qs_fields of 20 names against qs_parse of the same input: what is above 1 is that of the names.
";

const WRITTEN: &str = "
qs_write without its reading: its time less that of qs_parse of the same input, against that time. Kinds whose written ticket is
too long at one of the sizes are left out.
";

/// The usual sizes, those for many names, and the two that tell the growth, which are those for
/// writing too.
const SIZES: [usize; 4] = [1_000, 20_000, 40_000, 65_535];
const MANY_SIZES: [usize; 2] = [2_000, 40_000];
const GROWTH: [usize; 2] = [20_000, 40_000];

/// How long two calls are made in turns, unless the fewest turns take longer.
const TURNS: Duration = Duration::from_millis(600);
const FEWEST: usize = 2;

fn main() {
    if let Some(why) = serde_qs_reference::MISSING {
        eprintln!("no comparison with the crate: {why}");
        std::process::exit(1);
    }
    let wanted = Wanted::new(std::env::args().skip(1));
    println!("{HEAD}");
    let kinds = || USUAL.iter().chain(&HARD);
    wanted.table(
        PARSE,
        &SIZES,
        kinds().map(|kind| (kind.name, |length| parse(kind, false, length))),
    );
    let padded = PADDED_KINDS.iter();
    wanted.table(
        PADDED,
        &SIZES,
        padded.map(|kind| (kind.name, |length| parse(kind, true, length))),
    );
    let fields = FIELD_READS.iter();
    wanted.table(
        FIELDS,
        &SIZES,
        fields.map(|read| (read.name, |length| field(read, length))),
    );
    for (head, against) in [
        (MANY, against_texts as fn(Many) -> Times),
        (MANY_ALONE, against_parse),
    ] {
        let asked = MANY_NAMES.iter();
        wanted.table(
            head,
            &MANY_SIZES,
            asked.map(|(name, make)| (*name, move |length| against(Many::new(make(length))))),
        );
    }
    let sizes = wanted.sizes(&GROWTH);
    let fits = |kind: &&Kind| {
        sizes
            .iter()
            .all(|&length| Writing::new(kind, length).fits())
    };
    let written = WRITTEN_KINDS.iter().chain(kinds()).filter(fits);
    wanted.table(
        WRITTEN,
        &GROWTH,
        written.map(|kind| {
            let name = format!("written, {}", kind.name);
            (name, |length| Writing::new(kind, length).times())
        }),
    );
}

/// What the arguments ask for; without sizes it is the usual ones.
struct Wanted {
    names: Vec<String>,
    sizes: Vec<usize>,
}

impl Wanted {
    /// cargo itself adds `--bench`.
    fn new(arguments: impl Iterator<Item = String>) -> Self {
        let words = arguments.filter(|argument| !argument.starts_with("--"));
        let (sizes, names): (Vec<_>, Vec<_>) =
            words.partition(|word| word.parse::<usize>().is_ok());
        let sizes = sizes.iter().flat_map(|size| size.parse()).collect();
        Wanted { names, sizes }
    }

    fn wants(&self, name: &str) -> bool {
        self.names.is_empty() || self.names.iter().any(|word| name.contains(word.as_str()))
    }

    /// The sizes that are wanted.
    fn sizes<'a>(&'a self, usual: &'a [usize]) -> &'a [usize] {
        match self.sizes.is_empty() {
            true => usual,
            false => &self.sizes,
        }
    }

    /// A row for each thing that is wanted: its name, and for a length our time and the other's.
    fn table<N: AsRef<str>, T: Fn(usize) -> Times>(
        &self,
        head: &str,
        usual: &[usize],
        things: impl Iterator<Item = (N, T)>,
    ) {
        let wanted = |(name, _): &(N, T)| self.wants(name.as_ref());
        let mut things = things.filter(wanted).peekable();
        if things.peek().is_none() {
            return;
        }
        let sizes = self.sizes(usual);
        let columns: String = sizes
            .iter()
            .map(|size| format!(" {size}: µs | ratio |"))
            .collect();
        println!(
            "{head}\n| kind |{columns} growth |\n|---|{}---|",
            "---|---|".repeat(sizes.len())
        );
        for (name, times) in things {
            println!("{}", row(name.as_ref(), sizes, times));
        }
    }
}

fn row(name: &str, sizes: &[usize], times: impl Fn(usize) -> Times) -> String {
    let mut row = format!("| {name} |");
    let mut of_growth = [None; 2];
    for &size in sizes {
        let Times { ours, other } = times(size);
        let (ours, other) = (ours.as_secs_f64(), other.as_secs_f64());
        write!(row, " {:.1} | {:.2} |", ours * 1e6, ours / other).expect("a String grows");
        if let Some(place) = GROWTH.iter().position(|&of| of == size) {
            of_growth[place] = Some(ours);
        }
    }
    match of_growth {
        [Some(small), Some(large)] => row + &format!(" {:.2} |", large / small),
        _ => row + " |",
    }
}

/// The least time of one call of ours, and of the one that it is held against.
struct Times {
    ours: Duration,
    other: Duration,
}

impl Times {
    fn least(mut ours: impl FnMut(), mut other: impl FnMut()) -> Self {
        let mut least = Times {
            ours: Duration::MAX,
            other: Duration::MAX,
        };
        let start = Instant::now();
        let mut turns = 0;
        while turns < FEWEST || start.elapsed() < TURNS {
            least.other = least.other.min(time(&mut other));
            least.ours = least.ours.min(time(&mut ours));
            turns += 1;
        }
        least
    }
}

fn time(call: &mut impl FnMut()) -> Duration {
    let start = Instant::now();
    call();
    start.elapsed()
}

/// Numbers that have a zero in front, however many of them fit.
const PADDED_KINDS: [Kind; 3] = [
    Kind {
        name: "folders 00000=v&00001=v",
        depth: 5,
        make: |length| pairs(length, |i| format!("{i:05}=v")),
    },
    Kind {
        name: "folders f[00000]=v&f[00001]=v",
        depth: 5,
        make: |length| pairs(length, |i| format!("f[{i:05}]=v")),
    },
    Kind {
        name: "folders of forty digits",
        depth: 5,
        make: |length| pairs(length, |i| format!("{i:040}=v")),
    },
];

/// A reading by us, with zeros in front of a number counting or not, and by the crate.
fn parse(kind: &Kind, zeros: bool, length: usize) -> Times {
    let input = (kind.make)(length);
    let depth = kind.depth;
    let config = Config {
        zeros,
        ..crate_config(depth, false)
    };
    let mut buffers = Buffers::for_len(input.len());
    Times::least(
        || {
            let reading = raw::parse(ticket(config, black_box(&input)), buffers.lend());
            assert_eq!(reading.number, refusal::ACCEPTED);
        },
        || {
            let accepts = serde_qs_reference::accepts(black_box(&input), depth as usize, false);
            assert!(accepts);
        },
    )
}

/// A field read: its name, whether it is a list, and from a length an input and the field's name.
struct FieldRead {
    name: &'static str,
    list: bool,
    make: fn(usize) -> (Vec<u8>, Vec<u8>),
}

const fn text(name: &'static str, make: fn(usize) -> (Vec<u8>, Vec<u8>)) -> FieldRead {
    let list = false;
    FieldRead { name, list, make }
}

const fn list(name: &'static str, make: fn(usize) -> (Vec<u8>, Vec<u8>)) -> FieldRead {
    let list = true;
    FieldRead { name, list, make }
}

/// Keys come falling here, where that is read fastest, so that the field read shows beside it.
const FIELD_READS: [FieldRead; 7] = [
    text("text, last of many fields", |length| {
        let last = key(length / 9 - 1).into_bytes();
        (ordered(length, 9, falling, |i| key(i) + "=v"), last)
    }),
    text("text, one long value", |length| {
        let value = "%C3%A9e".repeat((length - 2) / 7);
        of_a(format!("a={value}").into_bytes())
    }),
    text("text, long sequence", |length| {
        of_a(pairs(length, |_| "a[]=1"))
    }),
    text("text, many values", |length| of_a(pairs(length, |_| "a=1"))),
    list("list, long sequence", |length| {
        of_a(pairs(length, |_| "a[]=1"))
    }),
    list("list, Int keys", |length| {
        of_a(ordered(length, 10, falling, |i| format!("a[{i}]=1")))
    }),
    list("list, Int keys of 30 values", |length| {
        let pair = |i| format!("a[{}]=1", i / 30);
        of_a(ordered(length, 9, falling, pair))
    }),
];

/// Keys of one length, in the order of their numbers; a pair of one is 9 bytes with its `&`.
fn key(i: usize) -> String {
    format!("k{i:05}")
}

/// The field `a` of an input.
fn of_a(input: Vec<u8>) -> (Vec<u8>, Vec<u8>) {
    (input, b"a".to_vec())
}

/// A field read, and a reading alone.
fn field(read: &FieldRead, length: usize) -> Times {
    let (input, name) = (read.make)(length);
    let mut buffers = Buffers::for_len(input.len());
    let mut list = vec![0; qs::list_room(input.len())];
    Times::least(
        || {
            let ticket = Ticket::new(black_box(&input[..]));
            let read = match read.list {
                true => raw::list(ticket, &name, buffers.lend(), &mut list),
                false => raw::text(ticket, &name, buffers.lend()),
            };
            assert_eq!(read.reading.number, refusal::ACCEPTED);
        },
        alone(&input),
    )
}

/// A reading alone, in buffers of its own.
fn alone(input: &[u8]) -> impl FnMut() + '_ {
    let mut buffers = Buffers::for_len(input.len());
    move || {
        let reading = raw::parse(Ticket::new(black_box(input)), buffers.lend());
        assert_eq!(reading.number, refusal::ACCEPTED);
    }
}

/// How many names are asked for at once.
const TWENTY: usize = 20;

/// Inputs for many names, each kind with its name: from a length an input, and the names.
type MakeMany = fn(usize) -> (Vec<u8>, Vec<String>);

const MANY_NAMES: [(&str, MakeMany); 4] = [
    ("fields, before plates", |length| {
        let name = |i| format!("field{i}");
        let fields = (0..TWENTY).map(|i| name(i) + "=Fog+at+dawn");
        let input = joined(length, fields.chain((0..).map(plate)));
        (input, (0..TWENTY).map(name).collect())
    }),
    ("fields, of many", |length| {
        let input = ordered(length, 9, rising, |i| key(i) + "=v");
        (input, spread(length / 9).map(key).collect())
    }),
    ("fields, long values", |length| {
        let value = "%C3%A9e".repeat((length / TWENTY).saturating_sub(8) / 7);
        let input = joined(length, (0..TWENTY).map(|i| format!("{}={value}", key(i))));
        (input, (0..TWENTY).map(key).collect())
    }),
    ("fields, absent", |length| {
        let input = ordered(length, 9, rising, |i| key(i) + "=v");
        (input, spread(length / 9).map(|i| key(i) + "x").collect())
    }),
];

/// Twenty of so many numbers, spread evenly.
fn spread(count: usize) -> impl Iterator<Item = usize> {
    (0..TWENTY).map(move |i| i * count / TWENTY)
}

/// An input, and names laid out; and what is lent to `qs_fields`.
struct Many {
    input: Vec<u8>,
    names: Vec<String>,
    laid: NamesBuf,
    buffers: Buffers,
    answers: Vec<u32>,
}

impl Many {
    fn new((input, names): (Vec<u8>, Vec<String>)) -> Self {
        let laid = NamesBuf::of(&names);
        Many {
            buffers: Buffers::for_len(input.len()),
            answers: laid.answers(),
            input,
            names,
            laid,
        }
    }

    fn fields(&mut self) {
        let ticket = Ticket::new(black_box(&self.input));
        let lent = self.buffers.lend();
        let reading = raw::fields(ticket, self.laid.lend(), lent, &mut self.answers);
        assert_eq!(reading.number, refusal::ACCEPTED);
    }
}

/// One call for all names, and one for each.
fn against_texts(mut many: Many) -> Times {
    let (input, names) = (many.input.clone(), many.names.clone());
    let mut buffers = Buffers::for_len(input.len());
    let mut single = |name: &String| {
        let ticket = Ticket::new(black_box(&input));
        let read = raw::text(ticket, name.as_bytes(), buffers.lend());
        assert!(!refusal::OF_A_READING.contains(&read.reading.number));
    };
    Times::least(|| many.fields(), || names.iter().for_each(&mut single))
}

/// One call for all names, and a reading alone.
fn against_parse(mut many: Many) -> Times {
    let input = many.input.clone();
    Times::least(|| many.fields(), alone(&input))
}

/// What has to be escaped when it is written, beside the usual kinds, which have little of it.
const WRITTEN_KINDS: [Kind; 3] = [
    Kind {
        name: "escapes that stay",
        depth: 5,
        make: |length| {
            let value = "%26%3D%5B%5D%25%2B".repeat(20);
            pairs(length, |i| format!("k{i}={value}"))
        },
    },
    Kind {
        name: "digits of String keys",
        depth: 5,
        make: |length| pairs(length, |i| format!("%3{}{i:05}=v", i % 10)),
    },
    Kind {
        name: "keys at the depth",
        depth: 1,
        make: |length| pairs(length, |i| format!("a[b][{i:05}=v")),
    },
];

/// An input of a kind, and what is lent to `qs_write`.
struct Writing {
    config: Config,
    input: Vec<u8>,
    buffers: Buffers,
    out: Vec<u8>,
}

impl Writing {
    fn new(kind: &Kind, length: usize) -> Self {
        let input = (kind.make)(length);
        Writing {
            config: crate_config(kind.depth, false),
            buffers: Buffers::for_len(input.len()),
            out: vec![0; qs::write_room(input.len())],
            input,
        }
    }

    fn number(&mut self) -> u32 {
        let ticket = ticket(self.config, black_box(&self.input));
        let written = raw::write(ticket, self.buffers.lend(), &mut self.out);
        written.reading.number
    }

    /// Whether the ticket isn't too long.
    fn fits(mut self) -> bool {
        self.number() == refusal::ACCEPTED
    }

    /// The writing alone, and the reading alone.
    fn times(mut self) -> Times {
        let input = self.input.clone();
        let (config, mut buffers) = (self.config, Buffers::for_len(input.len()));
        let Times { ours, other } = Times::least(
            || assert_eq!(self.number(), refusal::ACCEPTED),
            || {
                let reading = raw::parse(ticket(config, black_box(&input)), buffers.lend());
                assert_eq!(reading.number, refusal::ACCEPTED);
            },
        );
        let ours = ours.saturating_sub(other);
        Times { ours, other }
    }
}
