//! Days and their dates.

use anaqsiro::{Date, Refusal};

/// The days of a month, as a child learns them.
fn days_of(year: u64, month: u64) -> u64 {
    match month {
        2 if year % 400 == 0 || year % 4 == 0 && year % 100 != 0 => 29,
        2 => 28,
        4 | 6 | 9 | 11 => 30,
        _ => 31,
    }
}

/// Every date of the range, counted through from the first, and its day there and back.
#[test]
fn every_day_has_its_date() {
    let months = (1970..2400).flat_map(|year| (1..=12).map(move |month| (year, month)));
    let dates = months.flat_map(|(year, month)| (1..=days_of(year, month)).map(move |day| (year, month, day)));
    let (mut number, mut before) = (0, None);
    for (year, month, day) in dates {
        let date = Date::new(year, month, day).expect("a date");
        assert_eq!((date.year(), date.month(), date.day(), date.day_number()), (year, month, day, number));
        assert_eq!(Date::of_day(number), Ok(date));
        assert_eq!(date.to_string(), format!("{year}-{month:02}-{day:02}"));
        assert!(before < Some(date));
        (number, before) = (number + 1, Some(date));
    }
    assert_eq!((number, before), (Date::LAST.day_number() + 1, Some(Date::LAST)));
}

#[test]
fn what_is_no_date_is_refused() {
    for (year, month) in (1970..2400).flat_map(|year| (0..14).map(move |month| (year, month))) {
        let from = if (1..=12).contains(&month) { days_of(year, month) + 1 } else { 0 };
        assert_eq!(Date::new(year, month, 0), Err(Refusal::OutsideRange));
        assert!((from..=32).all(|day| Date::new(year, month, day) == Err(Refusal::OutsideRange)), "{year} {month}");
    }
    for more in (12..64).map(|bit| 1 << bit) {
        for (year, month, day) in [(1970 + more, 1, 1), (1970, 1 + more, 1), (1970, 1, 1 + more), (u64::MAX, 1, 1)] {
            assert_eq!(Date::new(year, month, day), Err(Refusal::OutsideRange));
        }
        assert_eq!(Date::of_day(Date::LAST.day_number() + more), Err(Refusal::OutsideRange));
    }
    assert_eq!((Date::new(1969, 12, 31), Date::new(2400, 1, 1)), (Err(Refusal::OutsideRange), Err(Refusal::OutsideRange)));
    assert_eq!(Date::of_day(Date::LAST.day_number() + 1), Err(Refusal::OutsideRange));
}

#[test]
fn the_first_and_the_last() {
    assert_eq!((Date::FIRST, Date::LAST), (Date::new(1970, 1, 1).expect("a date"), Date::new(2399, 12, 31).expect("a date")));
    assert_eq!((Date::FIRST.day_number(), Date::LAST.day_number()), (0, 157_053));
    assert_eq!(format!("{:?}", Date::LAST), "Date(2399-12-31, day 157053)");
}
