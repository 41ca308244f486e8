//! Appointments: the form of a list is tested without a branch for each of them, its days are put down once, and a move takes and
//! adds in place. Where one is refused, those before it are undone, the last first.

use crate::calendar::{is_day, Date};
use crate::{add, pair, sound, take, word, Search, ALL, ID, M, NAMES, RIGHTS};

/// The bytes of an appointment: key and id, and from these on the others.
pub const APPOINTMENT: usize = 12;
const MASK: usize = 4;
const MARKER: usize = 5;
const YEAR: usize = 6;
const MONTH: usize = 8;
const DAY: usize = 9;
const TERM: usize = 10;
const LAST: usize = 11;
type Bytes = [u8; APPOINTMENT];

/// How many there may be, and how many months a term may have.
pub const MOST: usize = 256;
const LONGEST: u64 = 120;

/// An appointment that was read: its record, its letters with the marker, its first day and its anniversary.
#[derive(Clone, Copy)]
struct Appointment {
    pair: u32,
    mask: u32,
    first: u32,
    end: u32,
}

const NONE: Appointment = Appointment { pair: 0, mask: 0, first: 0, end: 0 };

impl Appointment {
    fn stands(&self, day: u64) -> bool {
        u64::from(self.first) <= day && day < self.end.into()
    }

    /// Whether it stands on one day and not on the other.
    fn only(&self, on: u64, off: u64) -> bool {
        self.stands(on) && !self.stands(off)
    }

    /// The first day after one on which it stands where it did not, or does not where it did.
    fn changes(&self, day: u64) -> Option<u32> {
        [self.first, self.end].into_iter().find(|&end| day < end.into())
    }
}

/// Looks at all appointments for 3, then for 4, then for 5. What each shows is added up.
fn formed(list: &[Bytes]) -> Result<(), u32> {
    let (mut form, mut names, mut masks) = (false, 0, false);
    for one in list {
        form |= (one[MARKER] > 2) | (one[LAST] != 0);
        names |= word(one, 0) | word(one, ID);
        masks |= one[MASK].wrapping_sub(1) >= ALL;
    }
    if form {
        return Err(3);
    }
    if names >= NAMES {
        return Err(4);
    }
    if masks {
        return Err(5);
    }
    Ok(())
}

/// One appointment whose form is right, or 12.
fn appointment(one: &Bytes) -> Result<Appointment, u32> {
    let date = Date::new(word(one, YEAR) as u64, one[MONTH].into(), one[DAY].into()).ok_or(12u32)?;
    let term = u64::from(one[TERM]);
    if term == 0 || term > LONGEST {
        return Err(12);
    }
    let end = date.later(term);
    if !is_day(end) {
        return Err(12);
    }
    let mask = u32::from(one[MASK]) | u32::from(one[MARKER]) << (2 * RIGHTS);
    Ok(Appointment { pair: pair(one, 0) as u32, mask, first: date.number() as u32, end: end as u32 })
}

/// Reads a list, where these days are days too, handing each appointment on; how many there are.
fn read(list: &[u8], days: &[u64], mut each: impl FnMut(usize, Appointment)) -> Result<usize, u32> {
    let (list, rest) = list.as_chunks();
    if !rest.is_empty() {
        return Err(3);
    }
    formed(list)?;
    if list.len() > MOST || !days.iter().all(|&day| is_day(day)) {
        return Err(12);
    }
    for (n, one) in list.iter().enumerate() {
        each(n, appointment(one)?);
    }
    Ok(list.len())
}

/// What an appointment takes away and adds.
fn take_one(b: &mut [u8], one: &Appointment) -> u32 {
    take(b, &mut Search, M, one.pair as usize, one.mask as usize)
}

fn add_one(b: &mut [u8], one: &Appointment) -> u32 {
    add(b, &mut Search, M, one.pair as usize, one.mask as usize)
}

pub fn move_to(b: &mut [u8], list: &[u8], old: u64, new: u64) -> u32 {
    let mut all = [NONE; MOST];
    let many = sound(b).and_then(|_| read(list, &[old, new], |n, one| all[n] = one));
    many.map_or_else(|number| number, |many| run(b, &all[..many], old, new))
}

/// The move on a good block.
fn run(b: &mut [u8], list: &[Appointment], old: u64, new: u64) -> u32 {
    for (done, one) in list.iter().enumerate().filter(|(_, one)| one.only(old, new)) {
        let number = take_one(b, one);
        if number != 0 {
            put_back(b, &list[..done], old, new);
            return number;
        }
    }
    for (done, one) in list.iter().enumerate().filter(|(_, one)| one.only(new, old)) {
        let number = add_one(b, one);
        if number != 0 {
            take_back(b, &list[..done], old, new);
            put_back(b, list, old, new);
            return number;
        }
    }
    0
}

/// Adds again what was taken.
#[cold]
fn put_back(b: &mut [u8], list: &[Appointment], old: u64, new: u64) {
    for one in list.iter().rev().filter(|one| one.only(old, new)) {
        add_one(b, one);
    }
}

/// Takes away again what was added.
#[cold]
fn take_back(b: &mut [u8], list: &[Appointment], old: u64, new: u64) {
    for one in list.iter().rev().filter(|one| one.only(new, old)) {
        take_one(b, one);
    }
}

pub fn next_change(list: &[u8], day: u64) -> (u32, u32) {
    let mut next = u32::MAX;
    let read = read(list, &[day], |_, one| next = one.changes(day).unwrap_or(next).min(next));
    read.map_or_else(|number| (number, 0), |_| (0, if next == u32::MAX { 0 } else { next }))
}

pub fn stands(one: &[u8], day: u64) -> (u32, u32) {
    if one.len() != APPOINTMENT {
        return (3, 0);
    }
    let mut answer = false;
    let read = read(one, &[day], |_, one| answer = one.stands(day));
    read.map_or_else(|number| (number, 0), |_| (0, answer.into()))
}
