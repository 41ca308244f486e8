//! The calendar by formulas. Months are counted from March of the year 0 on, so that the leap day is the last of a year of twelve.

/// The years that there are dates of, and the last day.
const FIRST_YEAR: u64 = 1970;
const LAST_YEAR: u64 = 2399;
const LAST_DAY: u64 = 157_053;

/// How many days 1 January 1970 is after 1 March of the year 0.
const BEFORE: u64 = 719_468;
/// The days of 400 years; and of 100 years and of four, up to where a leap day may follow.
const ERA: u64 = 146_097;
const CENTURY: u64 = 36_524;
const FOUR_YEARS: u64 = 1_460;

/// Where the month and the year begin in the value of a date.
const MONTH: u32 = 5;
const YEAR: u32 = 9;

/// The days of the months before one, from March on.
fn months_before(month: u64) -> u64 {
    (153 * month + 2) / 5
}

/// The days of the years before one.
fn years_before(year: u64) -> u64 {
    365 * year + year / 4 - year / 100 + year / 400
}

/// The day's number of the first day of a month.
fn first_of(months: u64) -> u64 {
    years_before(months / 12) + months_before(months % 12) - BEFORE
}

/// A day of a month, or the month's last day if it has no such day. Every month has 28.
fn at_most(months: u64, day: u64) -> u64 {
    if day <= 28 {
        day
    } else {
        day.min(first_of(months + 1) - first_of(months))
    }
}

/// A date: its month, and the day of the month.
#[derive(Clone, Copy)]
pub struct Date {
    months: u64,
    day: u64,
}

impl Date {
    /// The date, if it is one.
    pub fn new(year: u64, month: u64, day: u64) -> Option<Date> {
        if !(FIRST_YEAR..=LAST_YEAR).contains(&year) || !(1..=12).contains(&month) || day == 0 {
            return None;
        }
        let months = 12 * year + month - 3;
        (at_most(months, day) == day).then_some(Date { months, day })
    }

    /// Its day's number.
    pub fn number(self) -> u64 {
        first_of(self.months) + self.day - 1
    }

    /// The day's number so many months later, on the same day of the month or on the month's last day.
    pub fn later(self, months: u64) -> u64 {
        let months = self.months + months;
        first_of(months) + at_most(months, self.day) - 1
    }
}

/// Whether there is such a day.
pub fn is_day(day: u64) -> bool {
    day <= LAST_DAY
}

pub fn day(year: u64, month: u64, day: u64) -> (u32, u32) {
    Date::new(year, month, day).map_or((12, 0), |date| (0, date.number() as u32))
}

pub fn date(day: u64) -> (u32, u32) {
    if !is_day(day) {
        return (12, 0);
    }
    let (era, of_era) = ((day + BEFORE) / ERA, (day + BEFORE) % ERA);
    let year = (of_era - of_era / FOUR_YEARS + of_era / CENTURY - of_era / (ERA - 1)) / 365;
    let of_year = of_era - years_before(year);
    let month = (5 * of_year + 2) / 153;
    let day = of_year - months_before(month) + 1;
    // January and February are the last two months of the year before
    let (year, month) = (400 * era + year + month / 10, if month < 10 { month + 3 } else { month - 9 });
    (0, (day | month << MONTH | year << YEAR) as u32)
}
