//! Day numbers and dates: drawn about the ends of months and of the range, and once one and all.

use super::{packed, After, Call, Library};
use crate::appointments::TERM;
use crate::calendar::{length, number, Date, DATES, DAYS};
use crate::{gen, Appointment};

const DAY: &[&str] = &["day"];
const DATE: &[&str] = &["date"];

/// How many days a month has.
const LENGTHS: &[i64] = &[28, 29, 30, 31];

pub const TOO_GREAT: &str = "12 for the day alone, 157,054 or greater, or a day by its last 32 bits";
const PARTS: [&str; 3] = [
    "12 for the year alone, just outside the range or far from it",
    "12 for the month alone, 0, 13 or more",
    "12 for the day of the month alone, 0, or the one after the last of a month that has",
];
const LEAP_DAY: &str = "29 February accepted, of 2000 or of another year";
const NO_LEAP_DAY: &str = "12 for 29 February, of 2100, 2200 or 2300 or of another year that is no leap year";
const NARROW: &str = "12 for the year, the month or the day alone, that would do by its last bits, 32 of them";
const NARROWER: &str = "12 for the year, the month or the day alone, that would do by its last bits, 8 or 16 of them";

/// What each run is to meet of these two calls: of which, in what respect, and which.
pub const TO_MEET: &[(&[&str], &str, &[i64])] = &[
    (DAY, "number", &[0, 12]),
    (DAY, "day accepted, the first or the last", &[0, DAYS as i64 - 1]),
    (DAY, "last of a month accepted, that has", LENGTHS),
    (DAY, LEAP_DAY, &[0, 1]),
    (DAY, NO_LEAP_DAY, &[0, 1]),
    (DAY, PARTS[0], &[0, 1969, 2400]),
    (DAY, PARTS[1], &[0, 13, 14]),
    (DAY, PARTS[2], &[0, 28, 29, 30, 31]),
    (DAY, NARROW, &[0, 1, 2]),
    (DAY, NARROWER, &[0, 1, 2]),
    (DATE, "number", &[0, 12]),
    (DATE, "day accepted, the first or the last", &[0, DAYS as i64 - 1]),
    (DATE, "last of a month accepted, that has", LENGTHS),
    (DATE, "first of a month accepted, after one that has", LENGTHS),
    (DATE, LEAP_DAY, &[0, 1]),
    (DATE, TOO_GREAT, &[0, 1, 2]),
];

/// How a day is too great: it is the one after the last, or greater; or its last 32 bits are a day.
pub fn too_great(day: u64) -> i64 {
    match day {
        DAYS => 0,
        _ if day > u64::from(u32::MAX) && u64::from(day as u32) < DAYS => 2,
        _ => 1,
    }
}

/// What is wrong with a date that is none, if it is one part alone: in what respect, and which.
pub fn wrong_part((year, month, day): Date) -> Option<(usize, i64)> {
    let outside = match year {
        1970..=2399 => None,
        1969 | 2400 => Some(year as i64),
        _ => Some(0),
    };
    let no_month = if (1..=12).contains(&month) { None } else { Some(month.min(14) as i64) };
    let last = length((year, month, day));
    let no_day = match day {
        0 => Some(0),
        _ if day <= last => None,
        _ if day == last + 1 => Some(last as i64),
        _ => Some(-1),
    };
    match [outside, no_month, no_day] {
        [Some(which), None, None] => Some((0, which)),
        [None, Some(which), None] => Some((1, which)),
        [None, None, Some(which)] => Some((2, which)),
        _ => None,
    }
}

impl Call<'_> {
    pub fn day(&mut self) -> After {
        let [year, month, day] = gen::appointments::date_numbers(self.rng);
        let (number, value) = crate::day(year, month, day);
        let got = self.lib.day(year, month, day);
        self.agree(got, number, value, &[], format!("{year} {month} {day}"))?;
        if number == 0 {
            self.saw_date((year, month, day), value);
        } else {
            self.saw_no_date((year, month, day));
        }
        Ok(self.block.to_vec())
    }

    pub fn date(&mut self) -> After {
        let day = gen::appointments::any_day(self.rng, &[]);
        let (number, value) = crate::date(day);
        let got = self.lib.date(day);
        self.agree(got, number, value, &[], format!("{day}"))?;
        match DATES.get(day as usize) {
            Some(&date) => {
                self.saw_date(date, day as u32);
                if let (true, Some(&before)) = (date.2 == 1, DATES.get((day as usize).wrapping_sub(1))) {
                    self.saw("first of a month accepted, after one that has", length(before) as i64);
                }
            }
            None => self.saw(TOO_GREAT, too_great(day)),
        }
        Ok(self.block.to_vec())
    }

    /// A date that there is.
    fn saw_date(&mut self, date: Date, day: u32) {
        if day == 0 || u64::from(day) == DAYS - 1 {
            self.saw("day accepted, the first or the last", day.into());
        }
        if date.2 == length(date) {
            self.saw("last of a month accepted, that has", length(date) as i64);
        }
        if (date.1, date.2) == (2, 29) {
            self.saw(LEAP_DAY, (date.0 != 2000).into());
        }
    }

    /// A date that there is not.
    fn saw_no_date(&mut self, date: Date) {
        let (year, month, day) = date;
        if let Some((part, which)) = wrong_part(date).filter(|&(_, which)| which >= 0) {
            self.saw(PARTS[part], which);
        }
        if (1970..=2399).contains(&year) && (month, day) == (2, 29) {
            self.saw(NO_LEAP_DAY, (year % 100 != 0).into());
        }
        for (part, bits) in (0..3).flat_map(|part| [8, 16, 32].map(|bits| (part, bits))) {
            let mut narrow = [year, month, day];
            narrow[part] %= 1 << bits;
            if number(narrow.into()).is_ok() {
                self.saw(if bits == 32 { NARROW } else { NARROWER }, part as i64);
            }
        }
    }
}

/// Fails where a library gives something else.
fn same(got: u64, second: (u32, u32), words: impl Fn() -> String) -> Result<(), String> {
    if got == packed(second.0, second.1) {
        return Ok(());
    }
    Err(format!("{}: returned {}, {} where {}, {} is right", words(), got >> 32, got as u32, second.0, second.1))
}

/// Whether an appointment begins and is over where it should, by the two days about each: how many calls.
fn every_end(lib: &dyn Library, (year, month, day): Date, term: u8) -> Result<usize, String> {
    let one = Appointment { mask: 1, year: year as u16, month: month as u8, day: day as u8, term, ..Appointment::default() };
    let bytes = one.encode();
    let Ok(days) = one.days() else {
        return same(lib.stands(&bytes, 0), (12, 0), || format!("stands {one:?}")).map(|()| 1);
    };
    let ends = [(days.start.wrapping_sub(1), 0), (days.start, 1), (days.end - 1, 1), (days.end, 0)];
    let ends = ends.into_iter().filter(|end| end.0 < DAYS);
    let mut calls = 0;
    for (day, stands) in ends {
        same(lib.stands(&bytes, day), (0, stands), || format!("stands {one:?} on {day}"))?;
        calls += 1;
    }
    Ok(calls)
}

/// Every day and every date with those about them that are none; an appointment from every day on; and those of every term from the
/// last days of months on, about leap days that there are and that there are not: how many calls.
pub fn every_day(lib: &dyn Library) -> Result<usize, String> {
    let mut calls = 0;
    for day in 0..DAYS + 1000 {
        same(lib.date(day), crate::date(day), || format!("date {day}"))?;
        calls += 1;
    }
    for (year, month) in (1968..=2401).flat_map(|year| (0..=13).map(move |month| (year, month))) {
        for day in 0..=32 {
            same(lib.day(year, month, day), crate::day(year, month, day), || format!("day {year} {month} {day}"))?;
            calls += 1;
        }
    }
    for (day, &date) in DATES.iter().enumerate() {
        calls += every_end(lib, date, (day % usize::from(TERM)) as u8 + 1)?;
    }
    let late = |&&(year, _, day): &&Date| {
        day > 28 && [1990..=2000, 2019..=2024, 2091..=2100, 2388..=2399].iter().any(|years| years.contains(&year))
    };
    for &date in DATES.iter().filter(late) {
        for term in 0..=TERM + 1 {
            calls += every_end(lib, date, term)?;
        }
    }
    Ok(calls)
}
