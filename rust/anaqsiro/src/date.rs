//! Days and their dates.

use crate::refusal::answer;
use crate::{raw, Refusal};
use std::fmt;

/// A day from 1 January 1970 to 31 December 2399, by the Gregorian calendar. Each date comes from the library, so that there is
/// none that is no date.
///
/// As text it is the year, the month and the day: `2025-02-28`. Dates are in the order of their days.
///
/// ```
/// use anaqsiro::{Date, Refusal};
///
/// let date = Date::new(2025, 2, 28)?;
/// assert_eq!(date.day_number(), 20_147);
/// assert_eq!(date.to_string(), "2025-02-28");
/// assert_eq!(Date::of_day(20_147), Ok(date));
/// assert!(Date::new(2024, 2, 29)? < date);
/// assert_eq!(Date::new(2025, 2, 29), Err(Refusal::OutsideRange));
/// # Ok::<(), Refusal>(())
/// ```
#[derive(Clone, Copy, PartialEq, Eq, PartialOrd, Ord, Hash)]
pub struct Date(u32);

impl Date {
    /// The first day, 1 January 1970. Its number is 0.
    pub const FIRST: Date = Date(0);
    /// The last day, 31 December 2399. No anniversary is later, so that on this day no appointment of any list stands.
    pub const LAST: Date = Date(157_053);

    /// A date by its year, month and day. One that there is not, or that is before [`Date::FIRST`] or after [`Date::LAST`], is
    /// refused with [`Refusal::OutsideRange`].
    pub fn new(year: u64, month: u64, day: u64) -> Result<Date, Refusal> {
        // SAFETY: the call takes numbers alone, and any numbers.
        answer(unsafe { raw::anaqsiro_day(year, month, day) }).map(Date)
    }

    /// The date of a day by its number. One above that of [`Date::LAST`] is refused with [`Refusal::OutsideRange`].
    pub fn of_day(number: u64) -> Result<Date, Refusal> {
        // SAFETY: the call takes a number alone, and any number.
        answer(unsafe { raw::anaqsiro_date(number) }).map(|_| Date(number as u32))
    }

    /// The number of the day: how many days it is after [`Date::FIRST`].
    pub fn day_number(self) -> u64 {
        self.0.into()
    }

    /// The year, 1970 to 2399.
    pub fn year(self) -> u64 {
        self.parts() >> 9
    }

    /// The month, 1 to 12.
    pub fn month(self) -> u64 {
        self.parts() >> 5 & 15
    }

    /// The day of the month, 1 to 31.
    pub fn day(self) -> u64 {
        self.parts() & 31
    }

    /// The value of the library's answer, which has year, month and day. It is never refused, as each date came from the library.
    fn parts(self) -> u64 {
        // SAFETY: the call takes a number alone.
        unsafe { raw::anaqsiro_date(self.day_number()) }
    }
}

impl fmt::Display for Date {
    fn fmt(&self, f: &mut fmt::Formatter<'_>) -> fmt::Result {
        write!(f, "{:04}-{:02}-{:02}", self.year(), self.month(), self.day())
    }
}

impl fmt::Debug for Date {
    fn fmt(&self, f: &mut fmt::Formatter<'_>) -> fmt::Result {
        write!(f, "Date({self}, day {})", self.0)
    }
}
