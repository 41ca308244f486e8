//! The calendar of request M-105: "dates from 1 January 1970 to 31 December 2399 by the Gregorian calendar, day 0 being the first".
//! It is a table of every date, found by walking from each day to the next. "Dates and day numbers agree each way", as a day's number
//! is the place of its date in the table.

use std::iter::successors;
use std::sync::LazyLock;

/// A date: the year, the month and the day of the month, so that a later one is greater.
pub type Date = (u64, u64, u64);

/// The first date and the last one.
const FIRST: Date = (1970, 1, 1);
const LAST: Date = (2399, 12, 31);

/// How many days there are.
pub const DAYS: u64 = 157_054;

/// Where the month and the year begin in the value of a date, behind the day of the month.
const MONTH: u32 = 5;
const YEAR: u32 = 9;

/// How many days the month of a date has. Of the years that 4 divides, those that 100 divides are no leap years, but those are that
/// 400 divides.
pub fn length((year, month, _): Date) -> u64 {
    let leap = [4, 100, 400].into_iter().filter(|by| year % by == 0).count() % 2 == 1;
    match month {
        2 => 28 + u64::from(leap),
        4 | 6 | 9 | 11 => 30,
        _ => 31,
    }
}

/// The date of the day after.
fn tomorrow(date: Date) -> Date {
    match date {
        (year, month, day) if day < length(date) => (year, month, day + 1),
        (year, 12, _) => (year + 1, 1, 1),
        (year, month, _) => (year, month + 1, 1),
    }
}

/// Every date, by the number of its day.
pub static DATES: LazyLock<Vec<Date>> =
    LazyLock::new(|| successors(Some(FIRST), |&date| (date < LAST).then(|| tomorrow(date))).collect());

/// The number of the day that has a date, or 12 if none has.
pub fn number(date: Date) -> Result<u64, u32> {
    DATES.binary_search(&date).map(|day| day as u64).map_err(|_| 12)
}

/// The date of a day, or 12 if there is no such day.
pub fn dated(day: u64) -> Result<Date, u32> {
    usize::try_from(day).ok().and_then(|day| DATES.get(day)).copied().ok_or(12)
}

/// day: the number, and the day's number.
pub fn day(year: u64, month: u64, day: u64) -> (u32, u32) {
    number((year, month, day)).map_or_else(|number| (number, 0), |day| (0, day as u32))
}

/// date: the number, and the day of the month with the month and the year above it.
pub fn date(day: u64) -> (u32, u32) {
    match dated(day) {
        Ok((year, month, day)) => (0, (day | month << MONTH | year << YEAR) as u32),
        Err(number) => (number, 0),
    }
}
