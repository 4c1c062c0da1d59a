//! Why a call is refused: every refusal with its name, its number and its words, in one table; and
//! their numbers alone, for who gets them from [`raw`](crate::raw).
//!
//! The names and numbers are those of the proved crate `refusals`. 27 and 28 are kept for calls to
//! come; a new one is a line of the table.

use core::error::Error;
use core::fmt;
use core::ops::RangeInclusive;

/// Makes of the table the enum, and for each line a constant of the number.
macro_rules! refusals {
    ($($name:ident, $constant:ident = $number:literal: $words:literal)*) => {
        /// Why a call is refused (READING, 'Refusals'). It displays as plain words.
        ///
        /// ```
        /// use qs::Refusal;
        /// assert_eq!(Refusal::SequenceOnMap.number(), 6);
        /// assert_eq!(Refusal::SequenceOnMap.to_string(), "`[]` where a map is");
        /// ```
        #[non_exhaustive]
        #[derive(Clone, Copy, Debug, PartialEq, Eq, PartialOrd, Ord, Hash)]
        pub enum Refusal {
            $(
                #[doc = concat!($number, ": ", $words, ".")]
                $name = $number,
            )*
        }

        impl Refusal {
            /// All of them in the order of their numbers, from 1 on.
            pub const ALL: &'static [Refusal] = &[$(Refusal::$name),*];

            /// The refusal of a number, if it has one.
            ///
            /// ```
            /// use qs::Refusal;
            /// assert_eq!(Refusal::from_number(6), Some(Refusal::SequenceOnMap));
            /// assert_eq!(Refusal::from_number(0), None);
            /// ```
            pub const fn from_number(number: u32) -> Option<Refusal> {
                match number {
                    $($number => Some(Refusal::$name),)*
                    _ => None,
                }
            }

            const fn words(self) -> &'static str {
                match self {
                    $(Refusal::$name => $words,)*
                }
            }
        }

        $(
            #[doc = concat!($number, ", the number of [`Refusal::", stringify!($name), "`].")]
            pub const $constant: u32 = Refusal::$name.number();
        )*
    };
}

refusals! {
    TooDeep, TOO_DEEP = 1: "the depth is above 64"
    TooLong, TOO_LONG = 2: "the ticket is longer than 65,535 bytes"
    NoRecord, NO_RECORD = 3: "no record was lent"
    EndAfterOpening, END_AFTER_OPENING = 4: "the ticket ends straight after an open bracket"
    EndBeforeClosing, END_BEFORE_CLOSING = 5: "the ticket ends before the closing bracket"
    SequenceOnMap, SEQUENCE_ON_MAP = 6: "`[]` where a map is"
    SequenceOnSingle, SEQUENCE_ON_SINGLE = 7: "`[]` where a single value is"
    MapOnSequence, MAP_ON_SEQUENCE = 8: "a key where a sequence is"
    MapOnString, MAP_ON_STRING = 9: "a key where a string is"
    MapOnNull, MAP_ON_NULL = 10: "a key where an empty value is"
    ByteAfterKey, BYTE_AFTER_KEY = 11: "another byte after `]`"
    OpeningAfterBrackets, OPENING_AFTER_BRACKETS = 12: "`[` after `[]`"
    ByteAfterBrackets, BYTE_AFTER_BRACKETS = 13: "another byte after `[]`"
    TooFewRecords, TOO_FEW_RECORDS = 14: "too few records were lent"
    TooLittleText, TOO_LITTLE_TEXT = 15: "too little text was lent"
    WrongRoot, WRONG_ROOT = 16: "the ticket has no named fields"
    NoSuchField, NO_SUCH_FIELD = 17: "there is no such field"
    WrongKind, WRONG_KIND = 18: "the field is of another kind"
    SeveralValues, SEVERAL_VALUES = 19: "several values for one text"
    MissingIndex, MISSING_INDEX = 20: "an index is missing"
    NotUtf8, NOT_UTF8 = 21: "the text is not UTF-8"
    ShortSlice, SHORT_SLICE = 22: "too few words were lent for the list"
    ShortPage, SHORT_PAGE = 23: "too short a page was lent for the sheet"
    WrongEnds, WRONG_ENDS = 24: "the end of a name is below the one before it or past the names"
    ShortAnswers, SHORT_ANSWERS = 25: "too few words were lent for the answers"
    ShortOutput, SHORT_OUTPUT = 26: "the written ticket is more than the output holds or than 65,535 bytes"
}

impl Refusal {
    /// Its number, as C gets it.
    ///
    /// ```
    /// assert_eq!(qs::Refusal::TooDeep.number(), qs::refusal::TOO_DEEP);
    /// ```
    pub const fn number(self) -> u32 {
        self as u32
    }

    /// The refusal of a number that a call answered.
    pub(crate) fn answered(number: u32) -> Refusal {
        Refusal::from_number(number).unwrap_or_else(|| unreachable!("no call answers {number}"))
    }
}

impl fmt::Display for Refusal {
    fn fmt(&self, f: &mut fmt::Formatter) -> fmt::Result {
        f.pad(self.words())
    }
}

impl Error for Refusal {}

/// A number that is no refusal's.
///
/// ```
/// use qs::refusal::{NoRefusal, Refusal};
/// assert_eq!(Refusal::try_from(0), Err(NoRefusal(0)));
/// ```
#[derive(Clone, Copy, Debug, PartialEq, Eq, Hash)]
pub struct NoRefusal(
    /// The number.
    pub u32,
);

impl fmt::Display for NoRefusal {
    fn fmt(&self, f: &mut fmt::Formatter) -> fmt::Result {
        write!(f, "no refusal has the number {}", self.0)
    }
}

impl Error for NoRefusal {}

impl TryFrom<u32> for Refusal {
    type Error = NoRefusal;

    fn try_from(number: u32) -> Result<Self, NoRefusal> {
        Refusal::from_number(number).ok_or(NoRefusal(number))
    }
}

/// A refused call: why, and where in the ticket.
///
/// ```
/// use qs::{Buffers, Refusal, Refused, Ticket};
/// let mut buffers = Buffers::for_len(13);
/// let refused = Ticket::new("a[b]=1&a[]=2").parse(&mut buffers).unwrap_err();
/// assert_eq!(refused, Refused { refusal: Refusal::SequenceOnMap, place: 10 });
/// assert_eq!(refused.to_string(), "`[]` where a map is, at byte 10");
/// let refused = Ticket::new("a=1").text("b", &mut buffers).unwrap_err();
/// assert_eq!(refused.to_string(), "there is no such field");
/// ```
#[derive(Clone, Copy, Debug, PartialEq, Eq, Hash)]
pub struct Refused {
    /// Why.
    pub refusal: Refusal,
    /// The bytes of the ticket that were taken by then, the end counted as one. It is 0 where the
    /// refusal has no place in the ticket: before the first byte, and once the reading is accepted.
    pub place: u32,
}

impl fmt::Display for Refused {
    fn fmt(&self, f: &mut fmt::Formatter) -> fmt::Result {
        match self.place {
            0 => write!(f, "{}", self.refusal),
            place => write!(f, "{}, at byte {place}", self.refusal),
        }
    }
}

impl Error for Refused {}

/// The number of a call that isn't refused.
pub const ACCEPTED: u32 = 0;

/// The refusals of a reading before the first byte: they leave every buffer as it was.
pub const BEFORE_THE_FIRST_BYTE: RangeInclusive<u32> = TOO_DEEP..=NO_RECORD;

/// The refusals that the crate serde_qs has too when it reads a query string.
pub const OF_THE_CRATE: RangeInclusive<u32> = END_AFTER_OPENING..=BYTE_AFTER_BRACKETS;

/// The refusals of a reading.
pub const OF_A_READING: RangeInclusive<u32> = TOO_DEEP..=TOO_LITTLE_TEXT;

/// The refusals of a field read, once the reading is accepted.
pub const OF_A_FIELD: RangeInclusive<u32> = WRONG_ROOT..=SHORT_SLICE;

/// The refusal of a sheet, once the reading is accepted: it leaves the page as it was.
pub const OF_A_SHEET: RangeInclusive<u32> = SHORT_PAGE..=SHORT_PAGE;

/// The refusals of a list of names, before the reading: they leave every buffer as it was.
pub const OF_NAMES: RangeInclusive<u32> = WRONG_ENDS..=SHORT_ANSWERS;

/// The refusal of a writing, once the reading is accepted: it leaves the output as it was.
pub const OF_A_WRITING: RangeInclusive<u32> = SHORT_OUTPUT..=SHORT_OUTPUT;
