//! Appointments, as request M-105 defines them: "An appointment is a membership with a first date and a term of 1 to 120 months, up
//! to 256 of them". The days of each are found by walking the calendar. "Going from one day to any other" is then a message, which
//! takes away those of the old day only and adds those of the new day only.

use crate::calendar::{dated, number, Date};
use crate::{apply, word, Half, Index, Said, ALL, M, NAMES};
use std::collections::BTreeSet;
use std::ops::Range;

/// The bytes of an appointment, and how many appointments a list may have.
pub const APPOINTMENT: usize = 12;
pub const APPOINTMENTS: usize = 256;
/// How many months a term may have.
pub const TERM: u8 = 120;
/// The greatest byte of a marker: none, X or N.
pub const MARKER: u8 = 2;

/// An appointment as its bytes have it, whatever they are.
#[derive(Clone, Copy, Debug, Default, PartialEq, Eq)]
pub struct Appointment {
    pub name: (u16, u16),
    pub mask: u8,
    pub marker: u8,
    pub year: u16,
    pub month: u8,
    pub day: u8,
    pub term: u8,
    pub last: u8,
}

impl Appointment {
    pub fn encode(&self) -> [u8; APPOINTMENT] {
        let ([k, key], [i, id], [y, year]) = (self.name.0.to_le_bytes(), self.name.1.to_le_bytes(), self.year.to_le_bytes());
        [k, key, i, id, self.mask, self.marker, y, year, self.month, self.day, self.term, self.last]
    }

    pub fn decode(bytes: &[u8]) -> Option<Appointment> {
        let &[_, _, _, _, mask, marker, _, _, month, day, term, last] = bytes else { return None };
        Some(Appointment { name: (word(bytes, 0), word(bytes, 2)), mask, marker, year: word(bytes, 6), month, day, term, last })
    }

    pub fn date(&self) -> Date {
        (self.year.into(), self.month.into(), self.day.into())
    }

    /// The days on which it stands, "from its first day up to the day before the anniversary"; else 12.
    pub fn days(&self) -> Result<Range<u64>, u32> {
        let first = number(self.date())?;
        if !(1..=TERM).contains(&self.term) {
            return Err(12);
        }
        Ok(first..anniversary(self.date(), self.term)?)
    }

    /// What it takes away or adds, as the half of a message would.
    pub(crate) fn half(&self) -> Half {
        Half::new(self.name, self.mask, self.marker)
    }
}

/// The anniversary of a date, so many months later: "on the same day of the month, or on the month's last day if it has no such
/// day". The months are gone through one by one, and then the days back until there is such a date; 12 where there is none.
fn anniversary((year, month, day): Date, term: u8) -> Result<u64, u32> {
    let next = |(year, month), _| if month == 12 { (year + 1, 1) } else { (year, month + 1) };
    let (year, month) = (0..term).fold((year, month), next);
    (1..=day).rev().find_map(|day| number((year, month, day)).ok()).ok_or(12)
}

/// The bytes of a list.
pub fn encode(list: &[Appointment]) -> Vec<u8> {
    list.iter().flat_map(Appointment::encode).collect()
}

/// The appointments that the bytes are of, whatever they are.
pub fn decode(list: &[u8]) -> Option<Vec<Appointment>> {
    list.chunks(APPOINTMENT).map(Appointment::decode).collect()
}

/// The appointments of a list, each with the days on which it stands; or the number that refuses it. Each test is of all of them.
pub fn read(list: &[u8]) -> Result<Vec<(Appointment, Range<u64>)>, u32> {
    let list = decode(list).ok_or(3u32)?;
    let none = |number: u32, wrong: fn(&Appointment) -> bool| if list.iter().any(wrong) { Err(number) } else { Ok(()) };
    none(3, |one| one.marker > MARKER || one.last != 0)?;
    none(4, |one| one.name.0 >= NAMES || one.name.1 >= NAMES)?;
    none(5, |one| one.mask == 0 || u64::from(one.mask) > ALL)?;
    if list.len() > APPOINTMENTS {
        return Err(12);
    }
    list.into_iter().map(|one| Ok((one, one.days()?))).collect()
}

/// What going from one day to another takes away, and then what it adds.
pub(crate) fn changes(list: &[u8], old: u64, new: u64) -> Result<Said, u32> {
    let list = read(list)?;
    dated(old).and(dated(new))?;
    let only = |on: u64, off: u64| {
        let such = list.iter().filter(|(_, days)| days.contains(&on) && !days.contains(&off));
        such.map(|(one, _)| one.half()).collect()
    };
    Ok(Said { kind: M, halves: [only(old, new), only(new, old)] })
}

/// move: the number, and the block then. Where it is refused, what was done to the maps is forgotten.
pub fn move_to(block: &[u8], list: &[u8], old: u64, new: u64) -> (u32, Vec<u8>) {
    let moved = |mut index: Index| apply(&mut index, &changes(list, old, new)?).map(|()| index);
    match Index::decode(block).and_then(moved) {
        Ok(index) => (0, index.encode()),
        Err(number) => (number, block.to_vec()),
    }
}

/// The first day after one on which another set of the list stands, if there is one. The set can be another only where an
/// appointment begins or is over.
fn next(list: &[(Appointment, Range<u64>)], day: u64) -> Option<u64> {
    let set = |day: u64| list.iter().map(|(_, days)| days.contains(&day)).collect::<Vec<_>>();
    let ends: BTreeSet<u64> = list.iter().flat_map(|(_, days)| [days.start, days.end]).collect();
    let standing = set(day);
    ends.range(day + 1..).copied().find(|&later| set(later) != standing)
}

/// next_change: the number, and the first day after this one on which another set of the list stands, or 0.
pub fn next_change(list: &[u8], day: u64) -> (u32, u32) {
    let found = read(list).and_then(|list| dated(day).map(|_| next(&list, day)));
    found.map_or_else(|number| (number, 0), |later| (0, later.unwrap_or(0) as u32))
}

/// stands: the number, and 1 if the appointment stands on the day, else 0.
pub fn stands(appointment: &[u8], day: u64) -> (u32, u32) {
    let one = Appointment::decode(appointment).ok_or(3u32).and_then(|_| read(appointment));
    let found = one.and_then(|list| dated(day).map(|_| list.iter().any(|(_, days)| days.contains(&day))));
    found.map_or_else(|number| (number, 0), |stands| (0, stands.into()))
}
