//! Lists of appointments, good ones and such that are wrong in any way; days about where they begin and are over; and blocks in
//! which those of one day stand.

use super::{bytes, index, insert, name, Drawn, Rng};
use crate::appointments::{encode, APPOINTMENT, APPOINTMENTS, TERM};
use crate::calendar::{length, number, Date, DATES, DAYS};
use crate::{letters, Appointment, Counts, Index, ALL, GREATEST, HEADER, M, NAMES, RECORD, ROOM};

/// Years about leap days that there are and that there are not, and about the ends of the range.
const YEARS: [u64; 18] =
    [1970, 1971, 1972, 1996, 1999, 2000, 2001, 2023, 2024, 2025, 2096, 2100, 2104, 2200, 2300, 2389, 2390, 2399];
const MONTHS: [u64; 12] = [1, 1, 2, 2, 2, 2, 3, 4, 8, 9, 11, 12];
const ENDS: [u64; 8] = [1, 28, 29, 29, 30, 30, 31, 31];
const TERMS: [u8; 18] = [1, 1, 1, 2, 3, 4, 6, 11, 12, 12, 13, 24, 36, 47, 48, 96, 119, 120];

/// The first year, and how many there are.
const FIRST: u64 = 1970;
const ALL_YEARS: u64 = 430;

/// A date, more often than not about the end of a month, and now and then a leap day.
fn date(rng: &mut Rng) -> Date {
    if rng.one_in(12) {
        return (rng.pick(&[1972, 2000, 2000, 2024, 2096, 2104]), 2, 29);
    }
    let year = if rng.one_in(2) { rng.pick(&YEARS) } else { FIRST + rng.below(ALL_YEARS) };
    let month = if rng.one_in(3) { 1 + rng.below(12) } else { rng.pick(&MONTHS) };
    let day = if rng.one_in(4) { 1 + rng.below(28) } else { rng.pick(&ENDS) };
    (year, month, day.min(length((year, month, 1))))
}

/// A date, as late in its month as can be, so many months before a February that may have 29 days.
fn to_february(rng: &mut Rng, term: u8) -> Date {
    let months = 12 * rng.pick(&[2000, 2023, 2024, 2024, 2100, 2104]) + 1 - u64::from(term);
    let (year, month) = (months / 12, months % 12 + 1);
    (year, month, length((year, month, 1)))
}

/// A day that a February does not have.
fn no_date(rng: &mut Rng) -> Date {
    if rng.one_in(3) {
        (rng.pick(&[1972, 2000, 2024, 2096]), 2, 30)
    } else {
        (rng.pick(&[1970, 2023, 2025, 2100, 2100, 2200, 2300]), 2, 29)
    }
}

/// What the appointments of a list are drawn from: names of a pool of so many, some masks, and days at most so far from one.
struct Pool {
    names: u64,
    masks: [u8; 3],
    about: u64,
    far: u64,
}

impl Pool {
    fn new(rng: &mut Rng) -> Pool {
        let mask = 1 + rng.below(ALL) as u8;
        let about = date(rng);
        Pool {
            names: rng.pick(&[1, 2, 4, 12, 40, NAMES.into()]),
            masks: [mask, 1 + rng.below(ALL) as u8, ALL as u8],
            about: number(about).expect("a date"),
            far: rng.pick(&[0, 1, 3, 40, 40, 400, 2000]),
        }
    }

    fn draw(&self, rng: &mut Rng) -> Appointment {
        let near = (self.about + rng.below(2 * self.far + 1)).saturating_sub(self.far).min(DAYS - 1);
        let one = Appointment {
            name: (name(rng, self.names), name(rng, self.names)),
            mask: rng.pick(&self.masks),
            marker: rng.pick(&[0, 0, 0, 1, 2]),
            term: if rng.one_in(4) { 1 + rng.below(TERM.into()) as u8 } else { rng.pick(&TERMS) },
            ..Appointment::default()
        };
        let date = match rng.below(16) {
            0 | 1 => date(rng),
            2 => to_february(rng, one.term),
            _ => DATES[near as usize],
        };
        from(one, date)
    }
}

/// An appointment with another first date. Where it would be over too late, it is the one that is over last.
fn from(one: Appointment, (year, month, day): Date) -> Appointment {
    let late = Appointment { year: 2389, month: 12, day: 31, term: TERM, ..one };
    let one = Appointment { year: year as u16, month: month as u8, day: day as u8, ..one };
    one.days().map_or(late, |_| one)
}

/// An appointment about one that is in the list: the same again, one that begins where it is over, or one of the same record.
fn beside(rng: &mut Rng, pool: &Pool, one: Appointment) -> Appointment {
    let days = one.days().expect("a good appointment");
    match rng.below(4) {
        0 => one,
        1 => Appointment { name: one.name, ..pool.draw(rng) },
        2 => from(Appointment { term: rng.pick(&TERMS), ..one }, DATES[days.end as usize]),
        _ => from(one, DATES[days.end as usize]),
    }
}

/// A good list.
pub fn list(rng: &mut Rng) -> Vec<Appointment> {
    let (pool, most) = (Pool::new(rng), APPOINTMENTS as u64);
    let many = match rng.below(33) {
        0 => 0,
        1..=8 => 1 + rng.below(3),
        9..=24 => 3 + rng.below(14),
        25..=29 => 12 + rng.below(60),
        30 => rng.pick(&[most, most, most - 1, 150]),
        _ => return at_once(rng, &pool),
    };
    let mut list = Vec::new();
    for _ in 0..many {
        let one = if list.is_empty() || !rng.one_in(4) {
            pool.draw(rng)
        } else {
            let one = rng.pick(&list);
            beside(rng, &pool, one)
        };
        list.push(one);
    }
    list
}

/// As many as there may be, all from one day on, and every other time all with the same term.
fn at_once(rng: &mut Rng, pool: &Pool) -> Vec<Appointment> {
    let first = pool.draw(rng);
    let terms = if rng.one_in(2) { [first.term; 3] } else { [1, 2, first.term] };
    (0..APPOINTMENTS).map(|_| from(Appointment { term: rng.pick(&terms), ..pool.draw(rng) }, first.date())).collect()
}

/// A day, mostly one about where an appointment of the list begins or is over.
pub fn day(rng: &mut Rng, list: &[Appointment]) -> u64 {
    let last = DAYS - 1;
    if list.is_empty() || rng.one_in(10) {
        let date = date(rng);
        let day = number(date).expect("a date");
        return rng.pick(&[0, last, day, day, (day + 1).min(last), (day + 1).min(last)]);
    }
    let days = rng.pick(list).days().expect("a good appointment");
    let inside = days.start + rng.below(days.end - days.start);
    rng.pick(&[
        days.start,
        days.start,
        days.start + 1,
        days.start.saturating_sub(1),
        days.end,
        days.end,
        days.end - 1,
        days.end - 1,
        (days.end + 1).min(last),
        inside,
    ])
}

/// A day from the caller: mostly fair, sometimes just past the last one, sometimes one that narrows to a fair one.
pub fn any_day(rng: &mut Rng, list: &[Appointment]) -> u64 {
    let day = day(rng, list);
    match rng.below(40) {
        0 => DAYS,
        1 => DAYS + 1 + rng.below(1000),
        2 => (1 << 32) + day,
        3 => rng.pick(&[1 << 32, 1 << 63, (1 << 63) + day, u64::MAX]),
        _ => day,
    }
}

/// Year, month and day from the caller: mostly a date, else wrong in one part, or in any.
pub fn date_numbers(rng: &mut Rng) -> [u64; 3] {
    let (year, month, day) = date(rng);
    let mut date = [year, month, day];
    match rng.below(20) {
        0 => date[0] = rng.pick(&[FIRST - 1, FIRST + ALL_YEARS]),
        1 => date[0] = rng.pick(&[0, 1600, 1900, 2400, 2800, u64::MAX]),
        2 => date[1] = rng.pick(&[0, 13]),
        3 => date[1] = rng.pick(&[14, 255, u64::MAX]),
        4 => date[2] = 0,
        5 | 6 => date[2] = length((year, month, day)) + 1,
        7 => date[2] = rng.pick(&[32, 64, u64::MAX]),
        8 => date = no_date(rng).into(),
        9 | 10 => date[rng.below(3) as usize] += 1 << rng.pick(&[8, 16, 32]),
        11 => date = [0; 3].map(|_| rng.pick(&[0, 1, 12, 31, 1970, 2399])),
        12 => date = [FIRST, 1, 1],
        13 => date = [FIRST + ALL_YEARS - 1, 12, 31],
        _ => {}
    }
    date
}

/// One fault in an appointment, of any kind that one can have; now and then it is none.
fn damage(rng: &mut Rng, one: &mut Appointment) {
    let names = [NAMES, NAMES, NAMES + 1, NAMES + 700, u16::MAX];
    let dated = |one: &mut Appointment, (year, month, day): Date| {
        (one.year, one.month, one.day) = (year as u16, month as u8, day as u8);
    };
    match rng.below(22) {
        0 => one.marker = rng.pick(&[3, 3, 4, 255]),
        1 => one.last = rng.pick(&[1, 1, 2, 128, 255]),
        2 => one.name.0 = rng.pick(&names),
        3 => one.name.1 = rng.pick(&names),
        4 => one.mask = 0,
        5 => one.mask = ALL as u8 + rng.pick(&[1, 1, 2, 17, 240]),
        6 => one.year = rng.pick(&[1969, 1969, 0, 1600, 1901]),
        7 => one.year = rng.pick(&[2400, 2400, 2401, 2424, u16::MAX]),
        8 => one.month = rng.pick(&[0, 13]),
        9 => one.month = rng.pick(&[14, 16, 255]),
        10 => one.day = 0,
        11 | 12 => one.day = length(one.date()) as u8 + 1,
        13 => one.day = rng.pick(&[32, 255]),
        14 => dated(one, no_date(rng)),
        15 => one.term = 0,
        16 => one.term = TERM + 1,
        17 => one.term = rng.pick(&[TERM + 2, 128, 255]),
        18 | 19 => {
            // so many months before January 2400
            let months = 12 * (FIRST + ALL_YEARS) - u64::from(one.term);
            let day = if rng.one_in(2) { 1 } else { 1 + rng.below(28) };
            dated(one, (months / 12, months % 12 + 1, day));
        }
        20 => dated(one, (2399, 12, 31)),
        _ => {
            let mut bytes = one.encode();
            bytes[rng.below(APPOINTMENT as u64) as usize] ^= 1 << rng.below(8);
            *one = Appointment::decode(&bytes).expect("its bytes");
        }
    }
}

/// A list with some faults. Every fifth has more appointments than one may have, and some of these have more than 65,535 bytes.
pub fn damaged_list(rng: &mut Rng, list: &[Appointment]) -> Vec<u8> {
    if rng.one_in(40) {
        return bytes(rng, 3 * APPOINTMENT as u64);
    }
    let (mut list, pool) = (list.to_vec(), Pool::new(rng));
    if rng.one_in(5) {
        let many = APPOINTMENTS + rng.pick(&[1, 1, 1, 2, 44, 44, 5300]);
        let more = list.first().map_or_else(|| pool.draw(rng), |&one| one);
        list.resize(many.max(list.len()), more);
    } else if list.is_empty() {
        list.push(pool.draw(rng));
    }
    let last = list.len() - 1;
    for _ in 0..rng.pick(&[0, 1, 1, 1, 1, 2, 2, 3]) {
        let any = rng.below(list.len() as u64) as usize;
        let at = rng.pick(&[0, last, any]);
        damage(rng, &mut list[at]);
    }
    let mut bytes = encode(&list);
    let (other, length) = (1 + rng.below(APPOINTMENT as u64 - 1) as usize, bytes.len());
    let by = rng.pick(&[1, APPOINTMENT - 1, other]);
    match rng.below(20) {
        0 => bytes.truncate(length - by),
        1 => bytes.resize(length + by, 0),
        _ => {}
    }
    bytes
}

/// One appointment: of the list or another, every third of them with faults, and now and then of another length.
pub fn one(rng: &mut Rng, list: &[Appointment]) -> Vec<u8> {
    let mut one = if list.is_empty() || rng.one_in(3) { Pool::new(rng).draw(rng) } else { rng.pick(list) };
    for _ in 0..rng.pick(&[0, 0, 0, 0, 1, 1, 2, 3]) {
        damage(rng, &mut one);
    }
    let mut bytes = one.encode().to_vec();
    match rng.below(24) {
        0 => bytes.clear(),
        1 => bytes.resize(APPOINTMENT - 1, 0),
        2 => bytes.resize(APPOINTMENT + 1, 0),
        3 => bytes.extend(one.encode()),
        4 => bytes.resize(rng.below(40) as usize, 0),
        _ => {}
    }
    bytes
}

/// A letter of an appointment, or often its marker, if it has one.
fn letter(rng: &mut Rng, one: Appointment) -> usize {
    let all: Vec<usize> = letters(one.half().mask).collect();
    if one.marker > 0 && rng.one_in(2) {
        all[all.len() - 1]
    } else {
        rng.pick(&all)
    }
}

/// Some good block, with room for more.
fn others(rng: &mut Rng) -> Index {
    let mut index = if rng.one_in(3) { index(rng) } else { Index::empty(0) };
    for _ in 0..rng.pick(&[0, 0, 2, 20]) {
        insert(rng, &mut index, Drawn { pool: 12, marked: 4 });
    }
    index
}

/// A good block with the appointments of the day. In every other one a letter of one of them is missing, or one stands at 65,535:
/// of these, or of those that would be added.
pub fn appointed(rng: &mut Rng, list: &[Appointment], day: u64) -> Index {
    let mut index = others(rng);
    let stands = |one: &&Appointment| one.days().is_ok_and(|days| days.contains(&day));
    let (here, elsewhere): (Vec<Appointment>, Vec<Appointment>) = list.iter().partition(|one| stands(one));
    for one in here.iter().take(ROOM.saturating_sub(index.records())) {
        let counts = index.parts[M].entry(one.name).or_default();
        letters(one.half().mask).for_each(|k| counts[k] = counts[k].saturating_add(1));
    }
    let (missing, most) = match rng.below(12) {
        0 | 1 => (&here[..], &[][..]),
        2 => (&here[..], &elsewhere[..]),
        3 | 4 => (&[][..], &elsewhere[..]),
        5 | 6 => (&[][..], &here[..]),
        _ => (&[][..], &[][..]),
    };
    if !missing.is_empty() {
        let one = rng.pick(missing);
        let k = letter(rng, one);
        match index.parts[M].get_mut(&one.name) {
            Some(counts) if !rng.one_in(3) => counts[k] = 0,
            _ => drop(index.parts[M].remove(&one.name)),
        }
    }
    if !most.is_empty() && index.records() < ROOM {
        let one = rng.pick(most);
        let k = letter(rng, one);
        index.parts[M].entry(one.name).or_default()[k] = u16::MAX;
    }
    index.parts[M].retain(|_, counts| *counts != Counts::default());
    index.length = length_of(rng, &index);
    index
}

/// The length of a block with such records: full, nearly full, or with room for most lists.
fn length_of(rng: &mut Rng, index: &Index) -> usize {
    let spare = match rng.below(8) {
        0 | 1 => 0,
        2 | 3 => 1 + rng.below(3),
        4 => rng.below(12),
        5 => rng.below(60),
        _ => 300,
    };
    let odd = if rng.one_in(3) { rng.below(RECORD as u64) } else { 0 };
    (HEADER + RECORD * (index.records() + spare as usize) + odd as usize).min(GREATEST)
}
