//! Page ranges.

use core::fmt::{self, Display, Formatter};
use core::ops::RangeInclusive;
use core::str::FromStr;

use crate::{ffi, no_place, whole, with_list, ChunksRef, TypeError, TypeErrorKind};

/// The pieces that are read at once.
const MAX_PIECES: usize = 64;

/// A range of pages, both ends among them. The start may be after the end, as it
/// stands in the file.
#[derive(Debug, Copy, Clone, Default, Eq, PartialEq, Hash)]
pub struct PageRange {
    /// The first page.
    pub start: u32,
    /// The last page.
    pub end: u32,
}

impl PageRange {
    /// The room that the text of every range has enough of.
    pub const TEXT_ROOM: usize = 21;

    /// Reads one piece of a pages field: a number, or two with a hyphen, an en
    /// dash or an em dash between them.
    ///
    /// ```
    /// # use knobstream::*;
    /// let piece = [Spanned::new(Chunk::Normal("7\u{2013}12"), 30..36)];
    /// assert_eq!(PageRange::parse(&piece)?, PageRange { start: 7, end: 12 });
    /// let piece = [Spanned::new(Chunk::Normal("vii"), 30..33)];
    /// let error = PageRange::parse(&piece).unwrap_err();
    /// assert_eq!((error.kind, error.span), (TypeErrorKind::InvalidNumber, 30..30));
    /// # Ok::<(), TypeError>(())
    /// ```
    pub fn parse(piece: ChunksRef) -> Result<Self, TypeError> {
        match with_list(piece, ffi::parse_range) {
            Ok([start, end]) => Ok(Self { start, end }),
            Err(a) => Err(TypeError {
                span: a.start as usize..a.end as usize,
                kind: TypeErrorKind::of(a.refusal as u8),
            }),
        }
    }

    /// Writes the text of the range at the front of the buffer, and gives it. It
    /// refuses a buffer that is too short, which is then as it was.
    ///
    /// ```
    /// # use knobstream::*;
    /// let range = PageRange { start: 7, end: 12 };
    /// assert_eq!(range.write(&mut [0; PageRange::TEXT_ROOM])?, "7-12");
    /// assert_eq!(range.write(&mut [0; 3]).unwrap_err().kind, TypeErrorKind::NoRoom);
    /// # Ok::<(), TypeError>(())
    /// ```
    pub fn write<'o>(&self, out: &'o mut [u8]) -> Result<&'o str, TypeError> {
        ffi::write_range(self.start, self.end, out).map_err(no_place)
    }
}

/// Reads the pieces of a pages field, up to 64 that are already split at the
/// commas, each a chunk list, into the front of the buffer, and gives the ranges.
///
/// It refuses more than 64 pieces, then a buffer with less room than a range a
/// piece, and then what the first refused piece is refused for; the buffer is
/// then as it was.
///
/// ```
/// # use knobstream::*;
/// let first = [Spanned::new(Chunk::Normal("7"), 30..31)];
/// let second = [Spanned::new(Chunk::Normal("12--15"), 33..39)];
/// let mut room = [PageRange::default(); 8];
/// let ranges = parse_pages(&[&first, &second], &mut room)?;
/// assert_eq!(ranges, [PageRange { start: 7, end: 7 }, PageRange { start: 12, end: 15 }]);
/// # Ok::<(), TypeError>(())
/// ```
pub fn parse_pages<'o>(
    pieces: &[ChunksRef],
    out: &'o mut [PageRange],
) -> Result<&'o [PageRange], TypeError> {
    if pieces.len() > MAX_PIECES {
        return Err(no_place(TypeErrorKind::TooLong.number()));
    }
    let Some(out) = out.get_mut(..pieces.len()) else {
        return Err(no_place(TypeErrorKind::NoRoom.number()));
    };
    // The library would read them all in one call, of lists behind each other;
    // without an allocation they are as well read one by one.
    let mut ranges = [PageRange::default(); MAX_PIECES];
    for (range, piece) in ranges.iter_mut().zip(pieces) {
        *range = PageRange::parse(piece)?;
    }
    out.copy_from_slice(&ranges[..pieces.len()]);
    Ok(out)
}

/// One piece, whose text begins the file.
impl FromStr for PageRange {
    type Err = TypeError;

    fn from_str(text: &str) -> Result<Self, TypeError> {
        Self::parse(&[whole(text)])
    }
}

/// The text of the range: "7-12". Width and alignment are honoured.
impl Display for PageRange {
    fn fmt(&self, f: &mut Formatter) -> fmt::Result {
        f.pad(self.write(&mut [0; Self::TEXT_ROOM]).unwrap_or(""))
    }
}

impl From<PageRange> for RangeInclusive<u32> {
    fn from(range: PageRange) -> Self {
        range.start..=range.end
    }
}
