//! The published date.rs and chunk.rs of biblatex, unchanged, behind the
//! frames that docs/RULES.md describes; and the reader of page ranges, one
//! block of the published types.rs.
//!
//! The two files are modules of this crate, so that what is private to their
//! own crate is in reach. What else they need of it stands below, cut down to
//! what they use.

// `use unscanny::Scanner` in the published files finds this crate's `Scanner`.
extern crate self as unscanny;

include!(concat!(env!("OUT_DIR"), "/published.rs"));

mod describe;
mod frame;
mod level;
pub mod make;

pub use describe::{describe_answer, describe_answer_to, describe_frame};
#[rustfmt::skip]
pub use frame::{Options, Oracle, BAD_FRAME, LEVEL, MAX_FRAME, PORTED, STRICT, STRICT_TOO, THREE_FIELDS};
#[doc(hidden)]
pub use scanner::Scanner;

/// The published code itself, for measuring.
#[doc(hidden)]
pub mod published {
    pub use crate::chunk::Chunk;
    pub use crate::date::{Date, DateValue, Datetime, Time, TimeOffset};
    pub use crate::types::{Type, TypeError, TypeErrorKind};
    pub use crate::Spanned;

    /// The fields of a date, which the published code keeps to itself.
    pub fn to_fieldset(date: Date) -> Vec<(String, String)> {
        date.to_fieldset()
    }
}

use types::{Type, TypeError, TypeErrorKind};

/// Which scanner the published files were built with.
pub const SCANNER: &str = env!("ORACLE_SCANNER");

/// Length and hash of the published files.
pub const SOURCES: &str = env!("ORACLE_SOURCES");

type Span = std::ops::Range<usize>;

/// A value with its place in the source file.
#[derive(Debug, Clone, Eq, PartialEq)]
#[doc(hidden)]
pub struct Spanned<T> {
    pub v: T,
    pub span: Span,
}

impl<T> Spanned<T> {
    pub fn new(v: T, span: Span) -> Self {
        Self { v, span }
    }

    pub fn detached(v: T) -> Self {
        Self { v, span: usize::MAX..usize::MAX }
    }

    pub fn is_detached(&self) -> bool {
        self.span.start == usize::MAX
    }
}

mod types {
    use crate::chunk::{Chunks, ChunksRef};
    use crate::Span;

    /// A refusal of the Rust.
    #[derive(Debug, Clone, PartialEq)]
    pub struct TypeError {
        pub span: Span,
        pub kind: TypeErrorKind,
    }

    impl TypeError {
        pub(crate) fn new(span: Span, kind: TypeErrorKind) -> Self {
            Self { span, kind }
        }

        pub(crate) fn offset(&mut self, amount: usize) {
            self.span.start = self.span.start.saturating_add(amount);
            self.span.end = self.span.end.saturating_add(amount);
        }
    }

    /// The kinds that dates use, with their refusal numbers.
    #[derive(Debug, Copy, Clone, PartialEq)]
    #[repr(u8)]
    pub enum TypeErrorKind {
        UndefinedRange = 1,
        DayOutOfRange = 2,
        MonthOutOfRange = 3,
        InvalidNumber = 4,
        MissingNumber = 5,
        WrongNumberOfDigits = 6,
        InvalidFormat = 7,
        YearZeroCE = 8,
    }

    /// Convert data types from and to chunk slices.
    pub trait Type: Sized {
        fn from_chunks(chunks: ChunksRef) -> Result<Self, TypeError>;
        fn to_chunks(&self) -> Chunks;
    }
}

/// Page ranges, as the published types.rs reads and writes them.
#[allow(clippy::all)]
mod ranges {
    use std::ops::Range;
    use std::str::FromStr;

    use crate::chunk::*;
    use crate::types::{Type, TypeError, TypeErrorKind};
    use crate::{Scanner, Spanned};

    include!(concat!(env!("OUT_DIR"), "/ranges.rs"));
}

mod resolve {
    /// Only `Chunk::to_biblatex_string` asks this, and no frame comes there.
    pub fn is_escapable(c: char, verb: bool, read_char: bool) -> bool {
        match c {
            '{' | '}' | '\\' => true,
            '~' | '^' | '#' | '&' | '%' | '$' | '_' => !verb,
            ':' => read_char,
            _ => false,
        }
    }
}
