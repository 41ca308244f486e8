//! What was wrong with each list of appointments that was refused, for the whole list however long it is.

use super::days::{too_great, wrong_part, TOO_GREAT};
use super::wide::place;
use super::Call;
use crate::appointments::{decode, APPOINTMENT, APPOINTMENTS, MARKER, TERM};
use crate::calendar::{number, DAYS};
use crate::{Appointment, ALL, NAMES};
use std::collections::BTreeSet;

const ONE: &[&str] = &["stands"];
const LISTS: &[&str] = &["move", "next_change"];
const EACH: &[&str] = &["move", "next_change", "stands"];
const MOVE: &[&str] = &["move"];
const OTHERS: &[&str] = &["next_change", "stands"];

const LENGTH: &str = "3 for the length alone, with one byte of the last appointment, eleven, or another number";
const LENGTH_OF_ONE: &str = "3 for the length alone, of so many bytes";
const OF_MARKER: &str = "3 for a marker alone, of 3 or more";
const OF_LAST: &str = "3 for a last byte alone, of 1 or more";
const OF_NAME: &str = "4 for a key alone, or for an id";
const NAME_1024: &str = "4 for name 1024 alone";
const OF_MASK: &str = "5 for a mask alone, of 0, 16 or more";
const OF_DATE: [&str; 3] = [
    "12 for a year alone, just outside the range or far from it",
    "12 for a month alone, 0, 13 or more",
    "12 for a day of the month alone, 0, or the one after the last of a month that has",
];
const NO_LEAP_DAY: &str = "12 for 29 February alone, of 2100, 2200 or 2300 or of another year that is no leap year";
const OF_TERM: &str = "12 for a term alone, 0, 121 or more";
const OF_ANNIVERSARY: &str = "12 for an anniversary alone, on 1 January 2400 or later";
const OF_MANY: &str = "12 for a 257th appointment alone, or for more";
const OF_DAY: [&str; 2] = [
    "12 for the old day alone, 157,054 or greater, or a day by its last 32 bits",
    "12 for the new day alone, 157,054 or greater, or a day by its last 32 bits",
];
const WHERE: [(u32, &str); 4] = [
    (3, "3 for one appointment alone of three or more, the first, inside, or the last"),
    (4, "4 for one appointment alone of three or more, the first, inside, or the last"),
    (5, "5 for one appointment alone of three or more, the first, inside, or the last"),
    (12, "12 for one appointment alone of three or more, the first, inside, or the last"),
];
const BESIDES: [(u32, &str); 3] =
    [(3, "3, and besides there is"), (4, "4, and besides there is"), (5, "5, and besides there is")];

/// What each run is to meet of lists that are refused: of which calls, in what respect, and which.
pub const TO_MEET: &[(&[&str], &str, &[i64])] = &[
    (LISTS, LENGTH, &[1, 2, 11]),
    (ONE, LENGTH_OF_ONE, &[0, 11, 13, 24]),
    (EACH, OF_MARKER, &[3, 4]),
    (EACH, OF_LAST, &[1, 2]),
    (EACH, OF_NAME, &[0, 1]),
    (EACH, NAME_1024, &[1]),
    (EACH, OF_MASK, &[0, 16, 17]),
    (EACH, OF_DATE[0], &[0, 1969, 2400]),
    (EACH, OF_DATE[1], &[0, 13, 14]),
    (EACH, OF_DATE[2], &[0, 28, 29, 30, 31]),
    (EACH, NO_LEAP_DAY, &[0, 1]),
    (EACH, OF_TERM, &[0, 121, 122]),
    (EACH, OF_ANNIVERSARY, &[0, 1]),
    (LISTS, OF_MANY, &[257, 258]),
    (MOVE, OF_DAY[0], &[0, 1, 2]),
    (MOVE, OF_DAY[1], &[0, 1, 2]),
    (OTHERS, TOO_GREAT, &[0, 1, 2]),
    (LISTS, WHERE[0].1, &[0, 1, 2]),
    (LISTS, WHERE[1].1, &[0, 1, 2]),
    (LISTS, WHERE[2].1, &[0, 1, 2]),
    (LISTS, WHERE[3].1, &[0, 1, 2]),
    (LISTS, "wrong behind the 256th appointment alone, by", &[3, 4, 5]),
    (LISTS, "12, or another number, for a list of more than 65,535 bytes", &[0, 1]),
    (EACH, BESIDES[0].1, &[4, 5, 12]),
    (EACH, BESIDES[1].1, &[5, 12]),
    (EACH, BESIDES[2].1, &[12]),
];

/// In what respects something is wrong.
type Respects = Vec<(&'static str, i64)>;

/// One thing that is wrong: by which number, in which appointment if it is in one, and in what respects.
struct Wrong {
    number: u32,
    at: Option<usize>,
    respects: Respects,
}

/// All that is wrong with one appointment but for its days.
fn wrong_with(one: &Appointment) -> Vec<(u32, Respects)> {
    let mut wrong = Vec::new();
    if one.marker > MARKER {
        wrong.push((3, vec![(OF_MARKER, one.marker.min(4).into())]));
    }
    if one.last != 0 {
        wrong.push((3, vec![(OF_LAST, one.last.min(2).into())]));
    }
    for (side, name) in [one.name.0, one.name.1].into_iter().enumerate().filter(|&(_, name)| name >= NAMES) {
        let which = if name == NAMES { vec![(NAME_1024, 1)] } else { vec![] };
        wrong.push((4, [vec![(OF_NAME, side as i64)], which].concat()));
    }
    if one.mask == 0 || u64::from(one.mask) > ALL {
        wrong.push((5, vec![(OF_MASK, one.mask.min(17).into())]));
    }
    wrong
}

/// In what respects the date is none, or the term or the anniversary is outside the range; none, where that is not one thing alone.
fn wrong_days(one: &Appointment) -> Respects {
    let (date, fair) = (one.date(), (1..=TERM).contains(&one.term));
    match (number(date), fair) {
        (Err(_), true) => {
            let (year, month, day) = date;
            let leap = (1970..=2399).contains(&year) && (month, day) == (2, 29);
            let leap = if leap { vec![(NO_LEAP_DAY, (year % 100 != 0).into())] } else { vec![] };
            let part = wrong_part(date).filter(|&(_, which)| which >= 0).map(|(part, which)| (OF_DATE[part], which));
            leap.into_iter().chain(part).collect()
        }
        (Ok(_), false) => vec![(OF_TERM, one.term.min(122).into())],
        (Ok(_), true) => {
            let months = 12 * date.0 + date.1 - 1 + u64::from(one.term);
            vec![(OF_ANNIVERSARY, (months > 12 * 2400 || date.2 > 1).into())]
        }
        _ => vec![],
    }
}

/// A list with so many appointments has more than 65,535 bytes. The days of each are not looked at.
const MANY: usize = 5462;

/// All that is wrong with a list and with days.
fn wrong_list(list: &[u8], days: &[u64]) -> Vec<Wrong> {
    let alone = |number, respects| Wrong { number, at: None, respects };
    let rest = list.len() % APPOINTMENT;
    let (whole, mut wrong) = (decode(&list[..list.len() - rest]).unwrap_or_default(), Vec::new());
    if rest > 0 {
        wrong.push(alone(3, vec![(LENGTH, if rest == 1 || rest == APPOINTMENT - 1 { rest as i64 } else { 2 })]));
    }
    for (at, one) in whole.iter().enumerate() {
        wrong.extend(wrong_with(one).into_iter().map(|(number, respects)| Wrong { number, at: Some(at), respects }));
        if whole.len() < MANY && one.days().is_err() {
            wrong.push(Wrong { number: 12, at: Some(at), respects: wrong_days(one) });
        }
    }
    if whole.len() > APPOINTMENTS {
        wrong.push(alone(12, vec![(OF_MANY, whole.len().min(258) as i64)]));
    }
    for (side, &day) in days.iter().enumerate().filter(|&(_, &day)| day >= DAYS) {
        let what = if days.len() > 1 { OF_DAY[side] } else { TOO_GREAT };
        wrong.push(alone(12, vec![(what, too_great(day))]));
    }
    wrong
}

impl Call<'_> {
    /// What was wrong with a list, or with days, that got this number.
    pub fn saw_list(&mut self, number: u32, list: &[u8], days: &[u64]) {
        let (wrong, many) = (wrong_list(list, days), list.len() / APPOINTMENT);
        if self.name == ONE[0] && list.len() != APPOINTMENT {
            return self.saw_length_of_one(list.len(), &wrong);
        }
        if let [Wrong { at, respects, .. }] = &wrong[..] {
            respects.iter().for_each(|&(what, which)| self.saw(what, which));
            if let (Some(at), 3..) = (at, many) {
                WHERE.iter().filter(|one| one.0 == number).for_each(|&(_, what)| self.saw(what, place(*at, many)));
            }
        }
        if many >= MANY {
            self.saw("12, or another number, for a list of more than 65,535 bytes", (number < 12).into());
        }
        let behind = |one: &Wrong| one.number != number || one.at >= Some(APPOINTMENTS);
        if number < 12 && many > APPOINTMENTS && wrong.iter().all(behind) {
            self.saw("wrong behind the 256th appointment alone, by", number.into());
        }
        for &(_, what) in BESIDES.iter().filter(|one| one.0 == number) {
            let others: BTreeSet<u32> = wrong.iter().map(|one| one.number).filter(|&other| other > number).collect();
            others.into_iter().for_each(|other| self.saw(what, other.into()));
        }
    }

    /// An appointment of a length that none has, with nothing else that is wrong.
    fn saw_length_of_one(&mut self, length: usize, wrong: &[Wrong]) {
        let alone = wrong.iter().all(|one| one.at.is_none() && one.number == 3);
        if alone && [0, APPOINTMENT - 1, APPOINTMENT + 1, 2 * APPOINTMENT].contains(&length) {
            self.saw(LENGTH_OF_ONE, length as i64);
        }
    }
}
