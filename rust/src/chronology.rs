//! A chronology of entries, over the calls of the library on a lent store.

use core::fmt::{self, Debug, Formatter};
use core::hash::{Hash, Hasher};
use core::ops::RangeInclusive;

use crate::{ffi, no_place, TypeError};

/// An entry of a chronology. Entries are ordered as the list has them: by first
/// day, last day, identifier.
#[derive(Debug, Copy, Clone, Eq, PartialEq, Ord, PartialOrd, Hash)]
pub struct Entry {
    /// The first day.
    pub first: i32,
    /// The last day.
    pub last: i32,
    /// The identifier.
    pub id: u32,
}

/// What [`Chronology::any_dated`] answers.
#[derive(Debug, Copy, Clone, Eq, PartialEq, Hash)]
pub struct AnyDated {
    /// Whether an entry has a day in common with the period.
    pub found: bool,
    /// How many entries were read to tell: up to the first that touches the
    /// period or begins after it, or all of them.
    pub read: usize,
}

/// Up to 512 entries, each with an identifier and its days, in list order.
///
/// Days are numbered as [`Datetime::days`](crate::Datetime::days) gives them: day
/// 0 is 0000-01-01, and 2000-01-01 is 730485. A period is days of the years -9999 to 9999 ([`Chronology::DAYS`]), the last not before
/// the first. A call that is refused changes nothing, and names no place. The
/// entries stand in the value itself, which has 6,152 bytes; a call takes up to
/// 8 KiB of stack.
///
/// ```
/// use knobstream::{AnyDated, Chronology, Entry, TypeErrorKind};
///
/// let mut volume = Chronology::new();
/// volume.add(730485..=730850, 7)?;
/// assert_eq!(volume.add(-5..=-1, 4)?, 2);
/// assert_eq!(volume.iter().map(|e| e.id).collect::<Vec<_>>(), [4, 7]);
/// assert_eq!(volume.any_dated(730500..=730500)?, AnyDated { found: true, read: 2 });
/// assert_eq!(volume.add(0..=0, 7).unwrap_err().kind, TypeErrorKind::DuplicateEntry);
/// assert_eq!(volume.remove(4)?, 1);
/// assert_eq!(volume.iter().next(), Some(Entry { first: 730485, last: 730850, id: 7 }));
/// # Ok::<(), knobstream::TypeError>(())
/// ```
#[derive(Clone)]
pub struct Chronology {
    store: ffi::Store,
}

impl Chronology {
    /// How many entries there is room for.
    pub const ENTRIES: usize = ffi::ENTRIES;

    /// The days of the years -9999 to 9999.
    pub const DAYS: RangeInclusive<i32> = -3652059..=3652424;

    /// The numbers that every list has enough of.
    pub const LIST_ROOM: usize = 3 * Self::ENTRIES;

    /// A chronology without entries.
    pub const fn new() -> Self {
        Self { store: ffi::Store::EMPTY }
    }

    /// Adds an entry, and gives how many there are then. It refuses a bad
    /// period, then an identifier that is there, then an entry too many.
    ///
    /// ```
    /// # use knobstream::*;
    /// let mut volume = Chronology::new();
    /// assert_eq!(volume.add(10..=20, 7)?, 1);
    /// assert_eq!(volume.add(20..=10, 8).unwrap_err().kind, TypeErrorKind::BadPeriod);
    /// assert_eq!(volume.add(10..=20, 7).unwrap_err().kind, TypeErrorKind::DuplicateEntry);
    /// # Ok::<(), TypeError>(())
    /// ```
    pub fn add(&mut self, days: RangeInclusive<i32>, id: u32) -> Result<usize, TypeError> {
        let (first, last) = ends(&days);
        self.store.add(first, last, id).map_err(no_place)
    }

    /// Removes the entry of an identifier, and gives how many there are then.
    /// It refuses an identifier that is not there.
    ///
    /// ```
    /// # use knobstream::*;
    /// let mut volume = Chronology::new();
    /// volume.add(10..=20, 7)?;
    /// assert_eq!(volume.remove(7)?, 0);
    /// assert_eq!(volume.remove(7).unwrap_err().kind, TypeErrorKind::UnknownEntry);
    /// # Ok::<(), TypeError>(())
    /// ```
    pub fn remove(&mut self, id: u32) -> Result<usize, TypeError> {
        self.store.remove(id).map_err(no_place)
    }

    /// How many entries there are.
    pub fn len(&self) -> usize {
        self.store.rows().0.len()
    }

    /// Whether there is none.
    pub fn is_empty(&self) -> bool {
        self.len() == 0
    }

    /// The entries in list order.
    ///
    /// ```
    /// # use knobstream::*;
    /// let mut volume = Chronology::new();
    /// volume.add(10..=20, 7)?;
    /// volume.add(10..=15, 9)?;
    /// assert_eq!(volume.iter().map(|e| e.id).collect::<Vec<_>>(), [9, 7]);
    /// # Ok::<(), TypeError>(())
    /// ```
    pub fn iter(&self) -> impl ExactSizeIterator<Item = Entry> + DoubleEndedIterator + '_ {
        let (firsts, lasts, ids) = self.store.rows();
        (0..ids.len()).map(|i| Entry { first: firsts[i], last: lasts[i], id: ids[i] })
    }

    /// Writes the list at the front of the buffer, three numbers an entry, and
    /// gives it. It refuses a buffer that is too short, which is then as it was.
    ///
    /// ```
    /// # use knobstream::*;
    /// let mut volume = Chronology::new();
    /// volume.add(10..=20, 7)?;
    /// assert_eq!(volume.list(&mut [0; Chronology::LIST_ROOM])?, [10, 20, 7]);
    /// assert_eq!(volume.list(&mut [0; 2]).unwrap_err().kind, TypeErrorKind::NoRoom);
    /// # Ok::<(), TypeError>(())
    /// ```
    pub fn list<'o>(&self, out: &'o mut [i64]) -> Result<&'o [i64], TypeError> {
        let entries = self.store.list(out).map_err(no_place)?;
        Ok(&out[..3 * entries])
    }

    /// Whether anything is dated in a period: whether an entry has a day in
    /// common with it. It refuses a bad period.
    ///
    /// ```
    /// # use knobstream::*;
    /// let mut volume = Chronology::new();
    /// volume.add(10..=20, 7)?;
    /// volume.add(30..=40, 8)?;
    /// assert_eq!(volume.any_dated(20..=25)?, AnyDated { found: true, read: 1 });
    /// assert_eq!(volume.any_dated(21..=29)?, AnyDated { found: false, read: 2 });
    /// assert_eq!(volume.any_dated(2..=1).unwrap_err().kind, TypeErrorKind::BadPeriod);
    /// # Ok::<(), TypeError>(())
    /// ```
    pub fn any_dated(&self, days: RangeInclusive<i32>) -> Result<AnyDated, TypeError> {
        let (first, last) = ends(&days);
        let (found, read) = self.store.any_dated(first, last).map_err(no_place)?;
        Ok(AnyDated { found, read })
    }
}

/// The first and the last day of a period. One that was iterated to its end has
/// no day, and is as bad as one whose last day is before the first.
fn ends(days: &RangeInclusive<i32>) -> (i32, i32) {
    if days.is_empty() {
        (1, 0)
    } else {
        (*days.start(), *days.end())
    }
}

impl Default for Chronology {
    fn default() -> Self {
        Self::new()
    }
}

/// Two are equal if they have the same entries.
impl PartialEq for Chronology {
    fn eq(&self, other: &Self) -> bool {
        self.iter().eq(other.iter())
    }
}

impl Eq for Chronology {}

impl Hash for Chronology {
    fn hash<H: Hasher>(&self, state: &mut H) {
        self.len().hash(state);
        self.iter().for_each(|e| e.hash(state));
    }
}

impl Debug for Chronology {
    fn fmt(&self, f: &mut Formatter) -> fmt::Result {
        f.debug_list().entries(self.iter()).finish()
    }
}
