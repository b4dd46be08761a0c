//! Reads, writes and compares the dates of bibliographies as the crate
//! biblatex does, counts their days, keeps a [`Chronology`] of entries, and reads
//! and writes page ranges, by a static library of which every function is
//! proved.
//!
//! ```
//! use knobstream::{Date, DateValue};
//!
//! let date: Date = "1999/2003-07~".parse()?;
//! assert!(date.approximate);
//! let DateValue::Between(start, end) = date.value else { panic!() };
//! assert_eq!((start.year, end.month), (1999, Some(6)));
//! assert!(start < end);
//! assert_eq!(start.days()?, 730120..=730484);
//! assert_eq!(date.to_string(), "1999/2003-07~");
//! # Ok::<(), knobstream::TypeError>(())
//! ```
//!
//! No call allocates, keeps state or panics: what biblatex panics on is refused
//! as [`TypeErrorKind::RustPanics`]. The crate needs `core` alone.

#![no_std]
#![deny(missing_docs)]
#![deny(unsafe_code)]

mod chronology;
#[allow(unsafe_code)]
mod ffi;
mod moments;
mod pages;

pub use chronology::{AnyDated, Chronology, Entry};
pub use moments::Instant;
pub use pages::{parse_pages, PageRange};

use core::cmp::Ordering;
use core::fmt::{self, Display, Formatter};
use core::ops::Range;
use core::str::FromStr;

use ffi::List;

/// The version of the library's calls that this crate is made for. The build
/// fails where the header beside the library is of another, and where the
/// library is an earlier one; of a later one without its header it can not tell.
pub const VERSION: u32 = 5;

/// The version that the linked library answers.
///
/// ```
/// assert_eq!(knobstream::library_version(), knobstream::VERSION);
/// ```
pub fn library_version() -> u32 {
    ffi::version()
}

/// The room that every answer to a frame has enough of, its line feed included.
pub const LINE_ROOM: usize = 147;

/// The answer to a frame, a line of hexadecimal digits without its line feed,
/// as the program dateframes gives it: a line with its line feed. A line that
/// is no frame is answered too, as refused.
///
/// ```
/// let mut room = [0; knobstream::LINE_ROOM];
/// let line = knobstream::answer_frame(b"04010003000000000000000334393f", &mut room);
/// assert_eq!(line, "00000100000801ffff00000000000000323034393f\n");
/// ```
pub fn answer_frame<'a>(line: &[u8], room: &'a mut [u8; LINE_ROOM]) -> &'a str {
    ffi::answer_frame(line, room).unwrap_or("")
}

/// A place in the file, in bytes.
pub type Span = Range<usize>;

/// A value with its place in the file.
#[derive(Debug, Clone, Eq, PartialEq, Hash)]
pub struct Spanned<T> {
    /// The value.
    pub v: T,
    /// Where it stands.
    pub span: Span,
}

impl<T> Spanned<T> {
    /// A value at a place.
    pub fn new(v: T, span: Span) -> Self {
        Self { v, span }
    }

    /// A value that stands in no file: its place is the last that there is. A
    /// refusal in such a text has no place that means anything, and one in the
    /// second half of a range is [`TypeErrorKind::RustPanics`], since biblatex
    /// panics where the sum of places is too large. [`Date::parse_str`] counts
    /// places from the start of the text instead.
    pub fn detached(v: T) -> Self {
        Self { v, span: usize::MAX..usize::MAX }
    }
}

/// A part of a field's value.
#[derive(Debug, Copy, Clone, Eq, PartialEq, Hash)]
pub enum Chunk<'a> {
    /// Text in quotes or single braces.
    Normal(&'a str),
    /// Text in further braces.
    Verbatim(&'a str),
    /// Text between dollar signs.
    Math(&'a str),
}

impl<'a> Chunk<'a> {
    /// The text.
    pub fn get(self) -> &'a str {
        match self {
            Chunk::Normal(s) | Chunk::Verbatim(s) | Chunk::Math(s) => s,
        }
    }

    fn kind(self) -> u64 {
        match self {
            Chunk::Normal(_) => 0,
            Chunk::Verbatim(_) => 1,
            Chunk::Math(_) => 2,
        }
    }
}

/// A field's value: at most 64 chunks with at most 4,096 bytes.
pub type ChunksRef<'a> = &'a [Spanned<Chunk<'a>>];

/// A date or a range of dates, and how sure and how exact it is.
#[derive(Debug, Copy, Clone, Eq, PartialEq, Hash)]
pub struct Date {
    /// The date or the range.
    pub value: DateValue,
    /// Whether the sources are unsure of it, as "2000?".
    pub uncertain: bool,
    /// Whether it is not exact, as "2000~".
    pub approximate: bool,
}

/// A single date or a range of dates.
#[derive(Debug, Copy, Clone, Eq, PartialEq, Hash)]
pub enum DateValue {
    /// A single date.
    At(Datetime),
    /// A range with a known start and an open end.
    After(Datetime),
    /// A range with an open start and a known end.
    Before(Datetime),
    /// A range with a known start and a known end.
    Between(Datetime, Datetime),
}

/// A year, and perhaps a month, a day and a time, or a season.
#[derive(Debug, Copy, Clone, Eq, PartialEq, Hash)]
pub struct Datetime {
    /// The year: 1 BC is 0, 2 BC is -1.
    pub year: i32,
    /// The month, counted from zero.
    pub month: Option<u8>,
    /// The day, counted from zero.
    pub day: Option<u8>,
    /// The time.
    pub time: Option<Time>,
    /// The season. Only [`Date::parse_level_one`] gives one, and never beside a
    /// month, a day or a time.
    pub season: Option<Season>,
}

/// A season of a year.
#[derive(Debug, Copy, Clone, Eq, PartialEq, Hash)]
pub enum Season {
    /// Written as 21.
    Spring,
    /// Written as 22.
    Summer,
    /// Written as 23.
    Autumn,
    /// Written as 24.
    Winter,
}

impl Season {
    /// The number of the season in ISO 8601-2: 21 to 24.
    pub fn number(self) -> u8 {
        match self {
            Self::Spring => 21,
            Self::Summer => 22,
            Self::Autumn => 23,
            Self::Winter => 24,
        }
    }

    /// The season of a number in a struct of the library, if it has one.
    fn of(number: u8) -> Option<Self> {
        match number {
            0 => None,
            21 => Some(Self::Spring),
            22 => Some(Self::Summer),
            23 => Some(Self::Autumn),
            _ => Some(Self::Winter),
        }
    }
}

/// A time, with an offset from UTC or without.
#[derive(Debug, Copy, Clone, Eq, PartialEq, Hash)]
pub struct Time {
    /// The hour (0-23).
    pub hour: u8,
    /// The minute (0-59).
    pub minute: u8,
    /// The second (0-59).
    pub second: u8,
    /// The offset.
    pub offset: Option<TimeOffset>,
}

/// An offset from UTC.
#[derive(Debug, Copy, Clone, Eq, PartialEq, Hash)]
pub enum TimeOffset {
    /// UTC itself.
    Utc,
    /// Hours and minutes ahead of UTC, or behind it.
    Offset {
        /// Whether the time is ahead of UTC.
        positive: bool,
        /// The hours.
        hours: u8,
        /// The minutes.
        minutes: u8,
    },
}

/// Why a field is not read, a date is not written, or another call is refused, and where.
#[derive(Debug, Clone, Eq, PartialEq, Hash)]
pub struct TypeError {
    /// Where in the file: the start of the list and a place in its formatted text,
    /// added up, so that it is exact where the field stands in the file as its text
    /// does. Of [`TypeErrorKind::UnsupportedChar`], and of a day that a month field
    /// holds, where in the text alone; behind the second number of a page range from
    /// there in the text to the end of the piece in the file. 0 to 0 if the kind
    /// names no place.
    pub span: Span,
    /// Why.
    pub kind: TypeErrorKind,
}

/// Declares the kinds of refusal, each once: its name, its number and its message.
macro_rules! kinds {
    ($($(#[$doc:meta])* $name:ident = $number:literal, $message:literal;)*) => {
        /// The kinds of refusal, with their numbers.
        #[derive(Debug, Copy, Clone, Eq, PartialEq, Hash)]
        #[non_exhaustive]
        pub enum TypeErrorKind {
            $($(#[$doc])* $name,)*
            /// A number of a later library, which this crate has no name for. No place.
            Other(u8),
        }

        impl TypeErrorKind {
            fn of(number: u8) -> Self {
                match number {
                    $($number => Self::$name,)*
                    _ => Self::Other(number),
                }
            }

            /// The number of the refusal.
            pub fn number(self) -> u8 {
                match self {
                    $(Self::$name => $number,)*
                    Self::Other(number) => number,
                }
            }
        }

        impl Display for TypeErrorKind {
            fn fmt(&self, f: &mut Formatter) -> fmt::Result {
                match self {
                    $(Self::$name => f.pad($message),)*
                    Self::Other(number) => pad(f, format_args!("refused with the number {number}")),
                }
            }
        }

        #[cfg(test)]
        const KINDS: &[(TypeErrorKind, u8)] = &[$((TypeErrorKind::$name, $number),)*];
    };
}

kinds! {
    /// The range is open on both sides.
    UndefinedRange = 1, "range must not be open on both sides";
    /// The day is no day of a month, or not of its month.
    DayOutOfRange = 2, "day out of range (must be a day of its month)";
    /// The month is not one of twelve.
    MonthOutOfRange = 3, "month out of range (must be between 1 and 12)";
    /// What stands there is no number, or not in its range.
    InvalidNumber = 4, "invalid number";
    /// A number is missing.
    MissingNumber = 5, "missing number";
    /// A number has the wrong number of digits.
    WrongNumberOfDigits = 6, "wrong number of digits";
    /// The text is none of the forms that are read.
    InvalidFormat = 7, "invalid format";
    /// A year zero with an era.
    YearZeroCE = 8, "year 0 CE or BCE does not exist";
    /// The crate biblatex, built with overflow checks, panics on this. No place.
    RustPanics = 9, "no date: biblatex panics on it";
    /// The bytes are not UTF-8. No text of Rust is refused so.
    BadUtf8 = 10, "not UTF-8";
    /// A character outside U+0000..U+00FF and U+2000..U+206F. Its place is in the text, not in the file.
    UnsupportedChar = 11, "character outside U+0000..U+00FF and U+2000..U+206F";
    /// The text is not one of the strict grammar. No place.
    NotStrict = 12, "not a date of the strict grammar";
    /// The buffer is too short. No place.
    NoRoom = 13, "buffer too short";
    /// Refuses a frame. No call of this crate does.
    BadFrame = 14, "not a frame";
    /// Refuses a table of chunks. No list of Rust is refused so.
    BadChunks = 15, "chunks do not fit the text";
    /// More than 64 chunks or 4,096 bytes, or more than 64 pieces. No place.
    TooLong = 16, "more than 64 chunks or pieces, or 4,096 bytes";
    /// Not a year, month or day of the calendar, or outside the years -9999 to 9999. No place.
    NotACalendarDate = 17, "not a date of the calendar from -9999 to 9999";
    /// The last day is before the first, or a day is outside the years -9999 to 9999. No place.
    BadPeriod = 18, "not a period of the calendar from -9999 to 9999";
    /// The identifier is in the chronology. No place.
    DuplicateEntry = 19, "the identifier is in the chronology";
    /// The chronology has 512 entries. No place.
    ChronologyFull = 20, "the chronology has 512 entries";
    /// The identifier is not in the chronology. No place.
    UnknownEntry = 21, "the identifier is not in the chronology";
    /// A time without a day beside a month, or with a part or an offset out of range. No place.
    BadTime = 22, "not a time of a day";
    /// The text is not one of the grammar of level one. No place.
    NotLevelOne = 23, "not a date of the grammar of level one";
    /// A season, in a call that knows none. No place.
    HasSeason = 24, "a season, which this call does not know";
    /// The day, the time or its offset is absent, so there is no instant. No place.
    NoInstant = 25, "no day, no time or no offset";
    /// What was lent is no chronology. No place. No [`Chronology`] is refused so.
    BadChronology = 26, "not a chronology";
}

impl TypeErrorKind {
    /// Whether the refusal names a place.
    pub fn has_place(self) -> bool {
        matches!(self.number(), 1..=8 | 10 | 11)
    }
}

impl Display for TypeError {
    fn fmt(&self, f: &mut Formatter) -> fmt::Result {
        if self.kind.has_place() {
            let Span { start, end } = self.span;
            return pad(f, format_args!("{}: {start}-{end}", self.kind));
        }
        self.kind.fmt(f)
    }
}

impl core::error::Error for TypeError {}

/// A short text of ASCII, so that it can be padded as one. What has no room is
/// left out; the longest message with its place has 94 bytes.
struct Short {
    bytes: [u8; 128],
    length: usize,
}

impl fmt::Write for Short {
    fn write_str(&mut self, text: &str) -> fmt::Result {
        for (to, from) in self.bytes[self.length..].iter_mut().zip(text.bytes()) {
            *to = from;
            self.length += 1;
        }
        Ok(())
    }
}

/// Shows a message in the width that is asked for.
fn pad(f: &mut Formatter, message: fmt::Arguments) -> fmt::Result {
    let mut short = Short { bytes: [0; 128], length: 0 };
    fmt::write(&mut short, message)?;
    f.pad(core::str::from_utf8(&short.bytes[..short.length]).unwrap_or(""))
}

impl Date {
    /// The room that the text of every date has enough of.
    pub const TEXT_ROOM: usize = 40;

    /// The room that the fields of every date have enough of.
    pub const FIELDS_ROOM: usize = 79;

    /// The room that the text of every date by the writer of level one has
    /// enough of.
    pub const LEVEL_ONE_ROOM: usize = 42;

    /// The room that the text of every date with its times has enough of.
    pub const TIMED_ROOM: usize = 70;

    /// Reads a text as biblatex reads a date field: "49" is 2049, "0049" the
    /// year 49. The places of a refusal are counted from the start of the text.
    ///
    /// ```
    /// # use knobstream::*;
    /// assert_eq!(Date::parse_str("49?")?.to_string(), "2049?");
    /// let error = Date::parse_str("1999/2000-13").unwrap_err();
    /// assert_eq!((error.kind, error.span), (TypeErrorKind::MonthOutOfRange, 10..12));
    /// # Ok::<(), TypeError>(())
    /// ```
    pub fn parse_str(text: &str) -> Result<Self, TypeError> {
        Self::parse(&[whole(text)])
    }

    /// Reads a text by the strict grammar alone: "49" is refused.
    ///
    /// ```
    /// # use knobstream::*;
    /// assert_eq!(Date::parse_strict_str("0049")?.to_string(), "0049");
    /// assert_eq!(Date::parse_strict_str("49").unwrap_err().kind, TypeErrorKind::NotStrict);
    /// # Ok::<(), TypeError>(())
    /// ```
    pub fn parse_strict_str(text: &str) -> Result<Self, TypeError> {
        Self::parse_strict(&[whole(text)])
    }

    /// Reads a text by the grammar of level one: the strict texts, seasons and
    /// long years. "49" is refused.
    ///
    /// ```
    /// # use knobstream::*;
    /// let DateValue::At(spring) = Date::parse_level_one_str("2000-21")?.value else { panic!() };
    /// assert_eq!((spring.year, spring.season), (2000, Some(Season::Spring)));
    /// assert_eq!(Date::parse_level_one_str("Y-123456789~")?.to_string(), "-123456789~");
    /// assert_eq!(Date::parse_level_one_str("2000-25").unwrap_err().kind, TypeErrorKind::NotLevelOne);
    /// # Ok::<(), TypeError>(())
    /// ```
    pub fn parse_level_one_str(text: &str) -> Result<Self, TypeError> {
        Self::parse_level_one(&[whole(text)])
    }

    /// Reads a date field as biblatex does, a list of chunks with their places
    /// in the file.
    ///
    /// ```
    /// # use knobstream::*;
    /// let error = Date::parse(&[Spanned::new(Chunk::Normal("1900-02-29"), 7..17)]).unwrap_err();
    /// assert_eq!(error.kind, TypeErrorKind::DayOutOfRange);
    /// assert_eq!(error.span, 7..17);
    /// assert_eq!(error.to_string(), "day out of range (must be a day of its month): 7-17");
    /// ```
    pub fn parse(chunks: ChunksRef) -> Result<Self, TypeError> {
        with_list(chunks, |list| answered(ffi::parse(list)))
    }

    /// Reads a date field by the strict grammar alone: "49" is refused.
    ///
    /// ```
    /// # use knobstream::*;
    /// let chunks = [Spanned::new(Chunk::Normal("20"), 7..9), Spanned::new(Chunk::Verbatim("00"), 10..12)];
    /// assert_eq!(Date::parse_strict(&chunks)?, Date::parse_strict_str("2000")?);
    /// # Ok::<(), TypeError>(())
    /// ```
    pub fn parse_strict(chunks: ChunksRef) -> Result<Self, TypeError> {
        with_list(chunks, |list| answered(ffi::parse_strict(list)))
    }

    /// Reads a date field by the grammar of level one: the strict texts,
    /// seasons and long years.
    ///
    /// ```
    /// # use knobstream::*;
    /// let chunks = [Spanned::new(Chunk::Normal("2000-"), 7..12), Spanned::new(Chunk::Verbatim("21"), 13..15)];
    /// assert_eq!(Date::parse_level_one(&chunks)?, Date::parse_level_one_str("2000-21")?);
    /// # Ok::<(), TypeError>(())
    /// ```
    pub fn parse_level_one(chunks: ChunksRef) -> Result<Self, TypeError> {
        with_list(chunks, |list| answered(ffi::parse_level_one(list)))
    }

    /// Reads the fields `year`, `month` and `day`: the year "49" is the year 49.
    /// A day without a month is not looked at.
    ///
    /// ```
    /// # use knobstream::*;
    /// let year = [Spanned::new(Chunk::Normal("49 BC"), 7..12)];
    /// let month = [Spanned::new(Chunk::Normal("jul-4"), 24..29)];
    /// let date = Date::parse_three_fields(&year, Some(&month), None)?;
    /// assert_eq!(date.to_string(), "-0048-07-04");
    /// # Ok::<(), TypeError>(())
    /// ```
    pub fn parse_three_fields(
        year: ChunksRef,
        month: Option<ChunksRef>,
        day: Option<ChunksRef>,
    ) -> Result<Self, TypeError> {
        with_fields(year, month, day, |y, m, d| answered(ffi::parse_three_fields(y, m, d)))
    }

    /// Reads the fields `year`, `month` and `day` of a start, and `endyear`,
    /// `endmonth` and `endday` of an end: a single date if there is no end year,
    /// a range with an open end if the end year is blank, else a range with both
    /// ends. The fields of an end are not looked at before the start is read, nor
    /// without an end year.
    ///
    /// ```
    /// # use knobstream::*;
    /// let text = |text| [Spanned::new(Chunk::Normal(text), 0..4)];
    /// let (start, end, blank) = (text("1999"), text("2003"), text(" "));
    /// let read = |end| Date::parse_six_fields(&start, None, None, end, None, None);
    /// assert_eq!(read(None)?.to_string(), "1999");
    /// assert_eq!(read(Some(&blank))?.to_string(), "1999/..");
    /// assert_eq!(read(Some(&end))?.to_string(), "1999/2003");
    /// # Ok::<(), TypeError>(())
    /// ```
    pub fn parse_six_fields(
        year: ChunksRef,
        month: Option<ChunksRef>,
        day: Option<ChunksRef>,
        end_year: Option<ChunksRef>,
        end_month: Option<ChunksRef>,
        end_day: Option<ChunksRef>,
    ) -> Result<Self, TypeError> {
        with_fields(year, month, day, |y, m, d| match end_year {
            None => answered(ffi::parse_six_fields((y, m, d), (None, None, None))),
            Some(end_year) => with_fields(end_year, end_month, end_day, |ey, em, ed| {
                answered(ffi::parse_six_fields((y, m, d), (Some(ey), em, ed)))
            }),
        })
    }

    /// How many bytes the text of the date has, for whoever must reserve room
    /// before it is written. It refuses what [`Date::write`] refuses, apart from
    /// a buffer that is too short.
    ///
    /// ```
    /// # use knobstream::*;
    /// let mut date = Date::parse_str("2000-2-9T10?")?;
    /// assert_eq!(date.text_length()?, "2000-02-09?".len());
    /// date.value =
    ///     DateValue::At(Datetime { year: 2000, month: Some(255), day: None, time: None, season: None });
    /// assert_eq!(date.text_length().unwrap_err().kind, TypeErrorKind::RustPanics);
    /// # Ok::<(), TypeError>(())
    /// ```
    pub fn text_length(&self) -> Result<usize, TypeError> {
        ffi::measure_date(plain_date(self, plain_day)).map_err(no_place)
    }

    /// Writes the text of the date at the front of the buffer, and gives it. The
    /// time is not written, nor a day without a month.
    ///
    /// It refuses a season, then a month of 255 and a day of 255 beside a month,
    /// on which biblatex panics, and then a buffer that is too short; the buffer
    /// is then as it was.
    ///
    /// ```
    /// # use knobstream::*;
    /// let date = Date::parse_str("2000-2-9T10?")?;
    /// assert_eq!(date.write(&mut [0; Date::TEXT_ROOM])?, "2000-02-09?");
    /// # Ok::<(), TypeError>(())
    /// ```
    pub fn write<'o>(&self, out: &'o mut [u8]) -> Result<&'o str, TypeError> {
        ffi::write_date(plain_date(self, plain_day), out).map_err(no_place)
    }

    /// Writes the fields of the date, a line each, at the front of the buffer,
    /// and gives them. It refuses what [`Date::write`] refuses.
    ///
    /// ```
    /// # use knobstream::*;
    /// let date = Date::parse_str("1999/2000-02")?;
    /// let mut out = [0; Date::FIELDS_ROOM];
    /// assert_eq!(date.write_fields(&mut out)?, "year=1999\nendyear=2000\nendmonth=02\n");
    /// # Ok::<(), TypeError>(())
    /// ```
    pub fn write_fields<'o>(&self, out: &'o mut [u8]) -> Result<&'o str, TypeError> {
        ffi::write_fields(plain_date(self, plain_day), out).map_err(no_place)
    }

    /// How many bytes the text of the date has by the writer of level one. It
    /// refuses what [`Date::write_level_one`] refuses, apart from a buffer that
    /// is too short.
    ///
    /// ```
    /// # use knobstream::*;
    /// assert_eq!(Date::parse_level_one_str("Y12345/2000-24?")?.level_one_length()?, 15);
    /// # Ok::<(), TypeError>(())
    /// ```
    pub fn level_one_length(&self) -> Result<usize, TypeError> {
        ffi::measure_level_one(plain_date(self, plain_day)).map_err(no_place)
    }

    /// Writes the text of the date by the writer of level one at the front of
    /// the buffer, and gives it: as [`Date::write`] does, but with a Y before a
    /// year of more than four digits, and with the season, beside which no month
    /// and no day is looked at.
    ///
    /// It refuses a month of 255 and a day of 255 beside a month, each without a
    /// season, and then a buffer that is too short; the buffer is then as it was.
    ///
    /// ```
    /// # use knobstream::*;
    /// let date = Date::parse_level_one_str("2000-21/Y12345")?;
    /// assert_eq!(date.write_level_one(&mut [0; Date::LEVEL_ONE_ROOM])?, "2000-21/Y12345");
    /// assert_eq!(date.text_length().unwrap_err().kind, TypeErrorKind::HasSeason);
    /// # Ok::<(), TypeError>(())
    /// ```
    pub fn write_level_one<'o>(&self, out: &'o mut [u8]) -> Result<&'o str, TypeError> {
        ffi::write_level_one(plain_date(self, plain_day), out).map_err(no_place)
    }

    /// How many bytes the text of the date with its times has. It refuses what
    /// [`Date::write_timed`] refuses, apart from a buffer that is too short.
    ///
    /// ```
    /// # use knobstream::*;
    /// assert_eq!(Date::parse_str("2000-02-29T10:20")?.timed_length()?, 19);
    /// # Ok::<(), TypeError>(())
    /// ```
    pub fn timed_length(&self) -> Result<usize, TypeError> {
        ffi::measure_timed(plain_date(self, plain_datetime)).map_err(no_place)
    }

    /// Writes the text of the date with its times at the front of the buffer,
    /// and gives it: as [`Date::write`] does, with each time behind its day.
    ///
    /// It refuses a season, then a month of 255 and a day of 255 beside a month,
    /// then a time that is none of a clock or has no day beside a month, and then
    /// a buffer that is too short; the buffer is then as it was.
    ///
    /// ```
    /// # use knobstream::*;
    /// let date = Date::parse_str("2000-02-29T10:20:30+02:00?")?;
    /// assert_eq!(date.write_timed(&mut [0; Date::TIMED_ROOM])?, "2000-02-29T10:20:30+02:00?");
    /// # Ok::<(), TypeError>(())
    /// ```
    pub fn write_timed<'o>(&self, out: &'o mut [u8]) -> Result<&'o str, TypeError> {
        ffi::write_timed(plain_date(self, plain_datetime), out).map_err(no_place)
    }

    /// The date, to be shown with its times.
    ///
    /// ```
    /// # use knobstream::*;
    /// let date = Date::parse_str("2000-02-29T10:20")?;
    /// assert_eq!(date.to_string(), "2000-02-29");
    /// assert_eq!(date.timed().to_string(), "2000-02-29T10:20:00");
    /// # Ok::<(), TypeError>(())
    /// ```
    pub fn timed(self) -> Timed {
        Timed(self)
    }
}

/// A text as [`Date::parse_str`] reads it.
impl FromStr for Date {
    type Err = TypeError;

    fn from_str(text: &str) -> Result<Self, TypeError> {
        Self::parse_str(text)
    }
}

/// The text of the date, as [`Date::write`] gives it, or with a season as
/// [`Date::write_level_one`] does. A date that has none, for its month is 255, or
/// its day beside a month, is shown as words that no reader takes for a date;
/// [`Date::text_length`] says why, or with a season [`Date::level_one_length`].
/// Width and alignment are honoured.
impl Display for Date {
    fn fmt(&self, f: &mut Formatter) -> fmt::Result {
        show(plain_date(self, plain_day), f)
    }
}

/// Shows the text of a date; the writer that has no seasons refuses one.
#[inline(always)] // the date is handed on in registers then
fn show(date: ffi::Date, f: &mut Formatter) -> fmt::Result {
    let mut out = [0; Date::LEVEL_ONE_ROOM];
    match ffi::write_date(date, &mut out) {
        Ok(text) if f.width().is_none() && f.precision().is_none() => f.write_str(text),
        Ok(text) => f.pad(text),
        Err(_) => f.pad(ffi::write_level_one(date, &mut out).unwrap_or(NO_TEXT)),
    }
}

/// What is shown of a date that has no text.
const NO_TEXT: &str = "(no text: month or day 255)";

/// A date that is shown with its times: [`Date::timed`] gives it.
#[derive(Debug, Copy, Clone, Eq, PartialEq, Hash)]
pub struct Timed(pub Date);

/// The text of the date, as [`Date::write_timed`] gives it, or as the date is
/// shown where it has a season. A date that has none is shown as words that no
/// reader takes for a date; [`Date::timed_length`] says why.
impl Display for Timed {
    fn fmt(&self, f: &mut Formatter) -> fmt::Result {
        match self.0.write_timed(&mut [0; Date::TIMED_ROOM]) {
            Ok(text) => f.pad(text),
            Err(e) if e.kind == TypeErrorKind::BadTime => f.pad("(no text: not a time of a day)"),
            Err(_) => self.0.fmt(f),
        }
    }
}

/// The text of the date that is this Datetime.
impl Display for Datetime {
    fn fmt(&self, f: &mut Formatter) -> fmt::Result {
        let (first, second) = (plain_day(self), ffi::Datetime::default());
        show(ffi::Date { first, second, shape: 0, uncertain: 0, approximate: 0 }, f)
    }
}

/// Year, month, day and time in turn. A part that only one of two has, or times
/// of which only one has an offset, give none; a part that neither has ends it.
/// A Datetime with a season stands in no order, not even to itself.
///
/// It is the order of biblatex, and not that of `==`, which compares all parts: the
/// same second by two offsets, or two years of which one has a day and neither a
/// month, compare as equal and are different.
impl PartialOrd for Datetime {
    fn partial_cmp(&self, other: &Self) -> Option<Ordering> {
        match ffi::compare(plain_datetime(self), plain_datetime(other)) {
            -1 => Some(Ordering::Less),
            0 => Some(Ordering::Equal),
            1 => Some(Ordering::Greater),
            _ => None,
        }
    }
}

/// A text as one chunk of a file that it begins.
fn whole(text: &str) -> Spanned<Chunk<'_>> {
    Spanned::new(Chunk::Normal(text), 0..text.len())
}

/// The table of a list that is refused as too long, wherever in their order the
/// checks come to it: 65 chunks, all empty.
static TOO_LONG: [u64; 260] = [0; 260];

/// Calls with the bytes and the table of a chunk list: those of one chunk as
/// they are, those of several behind each other in an array.
fn with_list<R>(chunks: ChunksRef, call: impl FnOnce(List) -> R) -> R {
    if let [c] = chunks {
        let text = c.v.get().as_bytes();
        let table = [c.v.kind(), text.len() as u64, c.span.start as u64, c.span.end as u64];
        return call(List { bytes: text, table: &table });
    }
    let length = chunks.iter().map(|c| c.v.get().len()).fold(0, usize::saturating_add);
    if chunks.len() <= 4 && length <= 56 {
        return call(fill(chunks, &mut [0; 56], &mut [0; 16]));
    }
    if chunks.len() <= 64 && length <= 4096 {
        return call(fill(chunks, &mut [0; 4096], &mut [0; 256]));
    }
    call(List { bytes: &[], table: &TOO_LONG })
}

/// Calls with the lists of the fields year, month and day. A day without a month
/// is not looked at.
fn with_fields<R>(
    year: ChunksRef,
    month: Option<ChunksRef>,
    day: Option<ChunksRef>,
    call: impl FnOnce(List, Option<List>, Option<List>) -> R,
) -> R {
    with_list(year, |y| match (month, day) {
        (None, _) => call(y, None, None),
        (Some(month), None) => with_list(month, |m| call(y, Some(m), None)),
        (Some(month), Some(day)) => {
            with_list(month, |m| with_list(day, |d| call(y, Some(m), Some(d))))
        }
    })
}

/// The bytes and the table of a chunk list, in arrays with the room for them.
fn fill<'a>(chunks: ChunksRef, bytes: &'a mut [u8], table: &'a mut [u64]) -> List<'a> {
    let mut n = 0;
    for (c, row) in chunks.iter().zip(table.chunks_exact_mut(4)) {
        let text = c.v.get().as_bytes();
        bytes[n..n + text.len()].copy_from_slice(text);
        n += text.len();
        row[0] = c.v.kind();
        row[1] = text.len() as u64;
        row[2] = c.span.start as u64;
        row[3] = c.span.end as u64;
    }
    List { bytes: &bytes[..n], table: &table[..4 * chunks.len()] }
}

/// A reader's answer.
fn answered(a: ffi::Answer) -> Result<Date, TypeError> {
    if a.refusal != 0 {
        return Err(TypeError {
            span: a.start as usize..a.end as usize,
            kind: TypeErrorKind::of(a.refusal),
        });
    }
    let date = a.date();
    let first = datetime(date.first);
    Ok(Date {
        value: match date.shape {
            0 => DateValue::At(first),
            1 => DateValue::After(first),
            2 => DateValue::Before(first),
            _ => DateValue::Between(first, datetime(date.second)),
        },
        uncertain: date.uncertain != 0,
        approximate: date.approximate != 0,
    })
}

/// A refusal that names no place.
fn no_place(number: u8) -> TypeError {
    TypeError { span: 0..0, kind: TypeErrorKind::of(number) }
}

fn datetime(p: ffi::Datetime) -> Datetime {
    let [y0, y1, y2, y3, has_month, month, has_day, day] = p.day.to_ne_bytes();
    let [has_time, hour, minute, second, sort, hours, minutes, season] = p.time.to_ne_bytes();
    Datetime {
        year: i32::from_ne_bytes([y0, y1, y2, y3]),
        month: (has_month != 0).then_some(month),
        day: (has_day != 0).then_some(day),
        time: (has_time != 0).then_some(Time {
            hour,
            minute,
            second,
            offset: match sort {
                0 => None,
                1 => Some(TimeOffset::Utc),
                _ => Some(TimeOffset::Offset { positive: sort == 2, hours, minutes }),
            },
        }),
        season: Season::of(season),
    }
}

/// A Datetime with these bytes for its time.
fn plain_with(
    d: &Datetime,
    [has_time, hour, minute, second, sort, hours, minutes]: [u8; 7],
) -> ffi::Datetime {
    let [y0, y1, y2, y3] = d.year.to_ne_bytes();
    let (has_month, month) = d.month.map_or((0, 0), |month| (1, month));
    let (has_day, day) = d.day.map_or((0, 0), |day| (1, day));
    let season = d.season.map_or(0, Season::number);
    ffi::Datetime {
        day: u64::from_ne_bytes([y0, y1, y2, y3, has_month, month, has_day, day]),
        time: u64::from_ne_bytes([has_time, hour, minute, second, sort, hours, minutes, season]),
    }
}

/// A Datetime without its time.
fn plain_day(d: &Datetime) -> ffi::Datetime {
    plain_with(d, [0; 7])
}

fn plain_datetime(d: &Datetime) -> ffi::Datetime {
    let Some(t) = d.time else { return plain_day(d) };
    let [sort, hours, minutes] = match t.offset {
        None => [0, 0, 0],
        Some(TimeOffset::Utc) => [1, 0, 0],
        Some(TimeOffset::Offset { positive: true, hours, minutes }) => [2, hours, minutes],
        Some(TimeOffset::Offset { positive: false, hours, minutes }) => [3, hours, minutes],
    };
    plain_with(d, [1, t.hour, t.minute, t.second, sort, hours, minutes])
}

/// For the writers, which look at the second Datetime of a range with both ends
/// only; each Datetime with its time or without.
fn plain_date(d: &Date, plain: fn(&Datetime) -> ffi::Datetime) -> ffi::Date {
    let none = ffi::Datetime::default();
    let (shape, first, second) = match &d.value {
        DateValue::At(a) => (0, plain(a), none),
        DateValue::After(a) => (1, plain(a), none),
        DateValue::Before(a) => (2, plain(a), none),
        DateValue::Between(a, b) => (3, plain(a), plain(b)),
    };
    let (uncertain, approximate) = (d.uncertain.into(), d.approximate.into());
    ffi::Date { first, second, shape, uncertain, approximate }
}

#[cfg(test)]
mod tests {
    extern crate std;
    use super::*;
    use std::string::ToString;

    #[test]
    fn every_number_has_a_kind() {
        for number in 0..=255 {
            let kind = TypeErrorKind::of(number);
            assert_eq!(kind.number(), number);
            let named = KINDS.contains(&(kind, number));
            assert_eq!(named, !matches!(kind, TypeErrorKind::Other(_)));
            assert_eq!(named, matches!(number, 1..=26));
            assert_eq!(kind.has_place(), matches!(number, 1..=8 | 10 | 11));
            assert!(!no_place(number).to_string().is_empty());
        }
        assert_eq!(TypeErrorKind::of(200).to_string(), "refused with the number 200");
    }

    #[test]
    fn every_number_has_a_season() {
        assert_eq!(Season::of(0), None);
        for number in 1..=255 {
            let season = Season::of(number).unwrap();
            assert_eq!(season.number(), if matches!(number, 21..=23) { number } else { 24 });
        }
    }
}

// The example of the readme is tried with the others.
#[cfg(doctest)]
#[doc = include_str!("../README.md")]
struct Readme;
