//! The days that a Datetime covers, and instants.

use core::cmp::Ordering;
use core::ops::RangeInclusive;

use crate::{ffi, no_place, plain_datetime, Datetime, TypeError};

/// A second of UTC, as [`Datetime::instant`] gives it. Instants are ordered, the
/// earlier one being less; two are equal if they are the same second, whatever
/// their clocks showed.
#[derive(Debug, Copy, Clone, Eq, PartialEq, Ord, PartialOrd, Hash)]
pub struct Instant {
    seconds: i64,
}

impl Instant {
    /// The seconds from 0000-01-01T00:00:00Z on. Every day has 86,400 of them.
    pub const fn seconds(self) -> i64 {
        self.seconds
    }
}

impl Datetime {
    /// The days that the Datetime covers, from the first to the last: those of
    /// its year, of its month, or its one day. Day 0 is 0000-01-01. The time is
    /// not looked at.
    ///
    /// It refuses a season, and then what is no date of the years -9999 to 9999; a
    /// day without a month, which three fields may have, is none.
    ///
    /// ```
    /// # use knobstream::*;
    /// let DateValue::At(year) = Date::parse_str("2000")?.value else { panic!() };
    /// assert_eq!(year.days()?, 730485..=730850);
    /// assert_eq!(Datetime { month: Some(1), ..year }.days()?, 730516..=730544);
    /// let no_month = Datetime { month: Some(12), ..year };
    /// assert_eq!(no_month.days().unwrap_err().kind, TypeErrorKind::NotACalendarDate);
    /// # Ok::<(), TypeError>(())
    /// ```
    pub fn days(&self) -> Result<RangeInclusive<i32>, TypeError> {
        let (first, last) = ffi::days(plain_datetime(self)).map_err(no_place)?;
        Ok(first..=last)
    }

    /// The instant of the Datetime.
    ///
    /// It refuses a season, then what [`Datetime::days`] calls no date, then
    /// a time that is none of a clock or has no day, and then the want of a day,
    /// of a time or of an offset.
    ///
    /// ```
    /// # use knobstream::*;
    /// let read = |text| match Date::parse_str(text)?.value {
    ///     DateValue::At(at) => at.instant(),
    ///     _ => panic!("a range"),
    /// };
    /// let (here, there) = (read("2000-01-01T23:00:00Z")?, read("2000-01-02T00:30:00+02:00")?);
    /// assert!(there < here);
    /// assert_eq!(here.seconds() - there.seconds(), 1800);
    /// assert_eq!(read("2000-01-01T10:20:30").unwrap_err().kind, TypeErrorKind::NoInstant);
    /// # Ok::<(), TypeError>(())
    /// ```
    pub fn instant(&self) -> Result<Instant, TypeError> {
        let seconds = ffi::instant(plain_datetime(self)).map_err(no_place)?;
        Ok(Instant { seconds })
    }

    /// How the instant of this Datetime stands to that of another. It refuses
    /// what [`Datetime::instant`] refuses, of this one before the other.
    ///
    /// [`PartialOrd`] is the order of biblatex, which looks at the day before the
    /// time, and so at the date that each clock shows.
    ///
    /// ```
    /// # use knobstream::*;
    /// let read = |text| match Date::parse_str(text).unwrap().value {
    ///     DateValue::At(at) => at,
    ///     _ => panic!("a range"),
    /// };
    /// let (here, there) = (read("2000-01-01T23:00:00Z"), read("2000-01-02T00:30:00+02:00"));
    /// assert!(here.cmp_instants(&there)?.is_gt());
    /// assert!(here < there);
    /// # Ok::<(), TypeError>(())
    /// ```
    pub fn cmp_instants(&self, other: &Self) -> Result<Ordering, TypeError> {
        match ffi::compare_instants(plain_datetime(self), plain_datetime(other)) {
            -1 => Ok(Ordering::Less),
            0 => Ok(Ordering::Equal),
            1 => Ok(Ordering::Greater),
            number => Err(no_place(number as u8)),
        }
    }
}
