//! Appointments: the calendar, anniversaries, each refusal and their order, what a move takes and adds, and the next change.

use super::*;
use crate::appointments::{decode, encode, read, APPOINTMENT, APPOINTMENTS};
use crate::calendar::{DATES, DAYS};
use crate::gen::Rng;
use crate::tests::{block, empty, rights, said};

const LAST_DAY: u64 = DAYS - 1;

/// A date as year, month and day.
type Date = (u16, u8, u8);

fn on((year, month, day): Date) -> u64 {
    let (number, day) = day_of(year, month, day);
    assert_eq!(number, 0, "{year} {month} {day}");
    day.into()
}

fn day_of(year: u16, month: u8, day: u8) -> (u32, u32) {
    super::day(year.into(), month.into(), day.into())
}

/// An appointment of a membership, with its letters and its marker in one mask.
fn appointed(name: (u16, u16), mask: u64, (year, month, day): Date, term: u8) -> Appointment {
    let marker = (mask >> MARKERS.start) as u8;
    Appointment { name, mask: mask as u8, marker, year, month, day, term, last: 0 }
}

/// User 1 in group 2 with R, from a date on.
fn planner(date: Date, term: u8) -> Appointment {
    appointed((1, 2), 2, date, term)
}

/// The day of the anniversary.
fn anniversary(date: Date, term: u8) -> u64 {
    planner(date, term).days().unwrap().end
}

const LEAP_DAY: Date = (2024, 2, 29);

#[test]
fn days_and_dates() {
    let value = |(year, month, day): Date| 512 * u32::from(year) + 32 * u32::from(month) + u32::from(day);
    for (date, day) in [
        ((1970, 1, 1), 0),
        ((1970, 12, 31), 364),
        ((1972, 2, 29), 789),
        ((2000, 2, 29), 11_016),
        ((2000, 3, 1), 11_017),
        (LEAP_DAY, 19_782),
        ((2025, 2, 28), 20_147),
        ((2100, 2, 28), 47_540),
        ((2100, 3, 1), 47_541),
        ((2399, 12, 31), 157_053),
    ] {
        assert_eq!((on(date), super::date(day)), (day, (0, value(date))), "{date:?}");
    }
    assert_eq!((DATES.len() as u64, LAST_DAY), (157_054, 157_053));
    assert!((0..DAYS).all(|day| calendar::number(DATES[day as usize]) == Ok(day)), "they agree each way");
}

#[test]
fn dates_that_are_none() {
    for (year, month, day) in [
        (1969, 12, 31),
        (2400, 1, 1),
        (2023, 2, 29),
        (1900, 2, 29),
        (2100, 2, 29),
        (2200, 2, 29),
        (2300, 2, 29),
        (2024, 2, 30),
        (2024, 4, 31),
        (2024, 0, 1),
        (2024, 13, 1),
        (2024, 1, 0),
        (2024, 1, 32),
        (0, 0, 0),
        (2024 + (1 << 32), 1, 1),
        (2024, 1 + (1 << 32), 1),
        (2024, 1, 1 + (1 << 32)),
        (u64::MAX, 1, 1),
    ] {
        assert_eq!(super::day(year, month, day), (12, 0), "{year} {month} {day}");
    }
    for day in [157_054, 1 << 32, (1 << 32) + 5, 1 << 63, u64::MAX] {
        assert_eq!(super::date(day), (12, 0), "{day}");
    }
}

/// Every year has as many days as it should, and each weekday stands in its turn: 1 January 1970 was a Thursday, and the calendar
/// comes round after 400 years.
#[test]
fn years_and_weekdays() {
    let leap = |year: u16| u64::from(day_of(year, 2, 29).0 == 0);
    assert!((1970..2399).all(|year| on((year + 1, 1, 1)) - on((year, 1, 1)) == 365 + leap(year)));
    assert_eq!((1970..=2399).map(leap).sum::<u64>(), 104, "of 430 years every fourth, less 2100, 2200 and 2300");
    let thursdays = [(1970, 1, 1), (2024, 2, 29), (2025, 2, 27), (2370, 1, 1), (2399, 12, 30)];
    assert_eq!(thursdays.map(|date| on(date) % 7), [0; 5]);
    assert_eq!(on((2370, 1, 1)), 146_097);
}

#[test]
fn anniversaries() {
    for (date, term, later) in [
        (LEAP_DAY, 12, (2025, 2, 28)),
        (LEAP_DAY, 48, (2028, 2, 29)),
        ((2096, 2, 29), 48, (2100, 2, 28)),
        ((2096, 2, 29), 96, (2104, 2, 29)),
        ((1996, 2, 29), 48, (2000, 2, 29)),
        ((2024, 1, 31), 1, (2024, 2, 29)),
        ((2023, 1, 31), 1, (2023, 2, 28)),
        ((2023, 1, 30), 1, (2023, 2, 28)),
        ((2023, 1, 28), 1, (2023, 2, 28)),
        ((2023, 8, 31), 1, (2023, 9, 30)),
        ((2023, 11, 30), 3, (2024, 2, 29)),
        ((2022, 11, 30), 3, (2023, 2, 28)),
        ((2023, 2, 28), 1, (2023, 3, 28)),
        ((2023, 12, 31), 2, (2024, 2, 29)),
        ((2024, 2, 29), 1, (2024, 3, 29)),
        ((2023, 12, 31), 12, (2024, 12, 31)),
        ((2023, 12, 1), 1, (2024, 1, 1)),
        ((2023, 3, 15), 120, (2033, 3, 15)),
        ((2389, 12, 31), 120, (2399, 12, 31)),
        ((2399, 11, 30), 1, (2399, 12, 30)),
    ] {
        assert_eq!(anniversary(date, term), on(later), "{date:?} and {term} months");
    }
    for (date, term) in
        [((2390, 1, 1), 120), ((2399, 12, 1), 1), ((2399, 12, 31), 1), ((2399, 1, 1), 12), ((2399, 12, 31), 120)]
    {
        assert_eq!(planner(date, term).days(), Err(12), "{date:?} and {term} months");
    }
    assert_eq!((planner(LEAP_DAY, 0).days(), planner(LEAP_DAY, 121).days()), (Err(12), Err(12)));
}

#[test]
fn first_and_last_day() {
    let one = planner(LEAP_DAY, 12).encode();
    let answers = [0, 19_781, 19_782, 20_146, 20_147, LAST_DAY].map(|day| stands(&one, day));
    assert_eq!(answers, [0, 0, 1, 1, 0, 0].map(|stands| (0, stands)));
    let first = planner((1970, 1, 1), 1).encode();
    assert_eq!([0, 30, 31].map(|day| stands(&first, day).1), [1, 1, 0]);
    let last = planner((2389, 12, 31), 120).encode();
    assert_eq!([LAST_DAY - 1, LAST_DAY].map(|day| stands(&last, day).1), [1, 0]);
}

#[test]
fn bytes_of_an_appointment() {
    let one = appointed((0x102, 3), 6 | 1 << N, LEAP_DAY, 12);
    assert_eq!(one.encode(), [2, 1, 3, 0, 6, 2, 0xE8, 7, 2, 29, 12, 0]);
    assert_eq!((decode(&one.encode()), decode(&[])), (Some(vec![one]), Some(vec![])));
}

/// The mill's own story: two appointments, and the first ends on a Thursday and takes away its own count alone.
#[test]
fn two_appointments_of_a_planner() {
    let list = encode(&[planner(LEAP_DAY, 12), planner((2024, 6, 1), 12)]);
    let b = move_to(&empty(4), &list, 0, 20_146);
    let count = |b: &[u8]| super::count(b, 0, 1).1;
    assert_eq!((b.0, count(&b.1)), (0, 2));
    let after = move_to(&b.1, &list, 20_146, 20_147);
    assert_eq!((after.0, count(&after.1)), (0, 1));
    let grant = said(P, None, Some((9, 2, 2)));
    assert_eq!(rights(&message(&after.1, &grant).1, 1, 9, 2).1 & 15, 2, "the right is held");
    let end = on((2025, 6, 1));
    assert_eq!(move_to(&after.1, &list, 20_147, end), (0, empty(4)), "and is over with the second");
    assert_eq!(move_to(&after.1, &list, 20_147, 20_146), b, "and back");
    assert_eq!([0, 19_782, 20_146, 20_147, end].map(|day| next_change(&list, day).1), [19_782, 19_875, 20_147, 20_240, 0]);
}

/// A list with something changed in it, or days, that are refused so, by each call that has to do with it.
fn refused(number: u32, list: &[Appointment]) {
    let (b, bytes) = (empty(4), encode(list));
    assert_eq!(move_to(&b, &bytes, 0, LAST_DAY), (number, b), "{list:?}");
    assert_eq!(next_change(&bytes, 0), (number, 0));
    if let [one] = list {
        assert_eq!(stands(&one.encode(), 0), (number, 0));
    }
}

/// The same, alone and behind a good one.
fn refused_alone(number: u32, change: impl Fn(&mut Appointment)) {
    let good = planner(LEAP_DAY, 12);
    let mut one = good;
    change(&mut one);
    refused(number, &[one]);
    refused(number, &[good, one]);
    refused(number, &[one, good]);
}

#[test]
fn lists_that_are_refused() {
    for marker in [3, 4, 255] {
        refused_alone(3, |one| one.marker = marker);
    }
    for last in [1, 128, 255] {
        refused_alone(3, |one| one.last = last);
    }
    for above in [1024, 1025, u16::MAX] {
        refused_alone(4, |one| one.name.0 = above);
        refused_alone(4, |one| one.name.1 = above);
    }
    for mask in [0, 16, 17, 255] {
        refused_alone(5, |one| one.mask = mask);
    }
    for term in [0, 121, 255] {
        refused_alone(12, |one| one.term = term);
    }
    for (year, month, day) in
        [(1969, 2, 28), (2400, 1, 1), (0, 2, 28), (2023, 2, 29), (2024, 4, 31), (2024, 0, 1), (2024, 1, 0)]
    {
        refused_alone(12, |one| (one.year, one.month, one.day) = (year, month, day));
    }
    refused_alone(12, |one| (one.year, one.month, one.day, one.term) = (2390, 1, 1, 120));
    for marker in [0, 1, 2] {
        let one = Appointment { marker, ..planner(LEAP_DAY, 12) };
        assert_eq!((stands(&one.encode(), 19_782), next_change(&one.encode(), 0)), ((0, 1), (0, 19_782)));
    }
}

#[test]
fn lengths_that_are_refused() {
    let (b, two) = (empty(4), encode(&[planner(LEAP_DAY, 12), planner(LEAP_DAY, 1)]));
    for length in (0..=two.len()).filter(|length| length % APPOINTMENT > 0) {
        assert_eq!((move_to(&b, &two[..length], 0, 1).0, next_change(&two[..length], 0).0), (3, 3), "{length} bytes");
    }
    for length in (0..=two.len()).filter(|&length| length != APPOINTMENT) {
        assert_eq!(stands(&two[..length], 0), (3, 0), "{length} bytes");
    }
    assert_eq!((move_to(&b, &[], 0, 1), next_change(&[], 7)), ((0, b.clone()), (0, 0)), "none at all");
    let most = vec![planner(LEAP_DAY, 12); APPOINTMENTS];
    assert_eq!((read(&encode(&most)).map(|list| list.len()), next_change(&encode(&most), 0)), (Ok(256), (0, 19_782)));
    refused(12, &[&most[..], &most[..1]].concat());
}

#[test]
fn days_that_are_refused() {
    let (b, one) = (empty(4), planner(LEAP_DAY, 12).encode());
    for day in [DAYS, 1 << 32, (1 << 32) + 19_782, 1 << 63, u64::MAX] {
        assert_eq!((move_to(&b, &one, day, 0).0, move_to(&b, &one, 0, day).0, move_to(&b, &one, day, day).0), (12, 12, 12));
        assert_eq!((next_change(&one, day), stands(&one, day)), ((12, 0), (12, 0)));
        assert_eq!((move_to(&b, &[], 0, day).0, next_change(&[], day).0), (12, 12));
    }
    assert_eq!((move_to(&b, &one, LAST_DAY, 0).0, next_change(&one, LAST_DAY)), (0, (0, 0)));
}

/// 3, then 4, 5 and 12, each for the whole list however long it is, and the block before them all.
#[test]
fn numbers_in_order() {
    let good = planner(LEAP_DAY, 12);
    let wrong: [(u32, Appointment); 4] = [
        (3, Appointment { marker: 3, ..good }),
        (4, Appointment { name: (1, 1024), ..good }),
        (5, Appointment { mask: 0, ..good }),
        (12, Appointment { term: 0, ..good }),
    ];
    for (first, one) in wrong {
        for (second, other) in wrong {
            refused(first.min(second), &[one, good, other]);
        }
        let long = [vec![good; APPOINTMENTS], vec![one]].concat();
        refused(first, &long);
        refused(first, &[long, vec![good; 50]].concat());
        let bytes = one.encode();
        assert_eq!((move_to(&[7; 15], &bytes, 0, 0), move_to(&[7; 16], &bytes, 0, 0)), ((1, vec![7; 15]), (2, vec![7; 16])));
        assert_eq!(move_to(&empty(1), &bytes, DAYS, 0).0, first);
        assert_eq!((next_change(&bytes, DAYS).0, stands(&bytes, DAYS).0), (first, first));
    }
    let all = wrong.map(|(_, one)| one);
    refused(3, &all);
    refused(4, &all[1..]);
    refused(5, &all[2..]);
    let b = block(1, &[(M, 1, 2, 2)]);
    let late = encode(&[appointed((5, 6), 1, LEAP_DAY, 12), wrong[3].1]);
    assert_eq!(move_to(&b, &late, 19_782, 0), (12, b), "12 before 6");
}

/// Each of the two days in turn is the old one, and the block goes there and back.
fn there_and_back(list: &[Appointment], [one, other]: [u64; 2], blocks: [&[u8]; 2]) {
    let list = encode(list);
    assert_eq!(move_to(blocks[0], &list, one, other), (0, blocks[1].to_vec()));
    assert_eq!(move_to(blocks[1], &list, other, one), (0, blocks[0].to_vec()));
}

#[test]
fn those_of_one_day_only() {
    let (x, n) = (1 | 1 << X, 2 | 1 << N);
    let list = [
        appointed((1, 2), x, (2024, 1, 1), 2),
        appointed((1, 2), 1, (2024, 1, 1), 3),
        appointed((1, 3), n, (2024, 3, 1), 1),
        appointed((1, 2), x, (2024, 2, 1), 12),
    ];
    let [january, february, march, end] = [(2024, 1, 1), (2024, 2, 1), (2024, 3, 1), (2025, 2, 1)].map(on);
    let in_january = block(4, &[(M, 1, 2, x), (M, 1, 2, 1)]);
    let in_february = block(4, &[(M, 1, 2, x), (M, 1, 2, 1), (M, 1, 2, x)]);
    let in_march = block(4, &[(M, 1, 2, 1), (M, 1, 3, n), (M, 1, 2, x)]);
    there_and_back(&list, [0, january], [&empty(4), &in_january]);
    there_and_back(&list, [0, february], [&empty(4), &in_february]);
    there_and_back(&list, [january, february], [&in_january, &in_february]);
    there_and_back(&list, [february, march], [&in_february, &in_march]);
    there_and_back(&list, [january, march], [&in_january, &in_march]);
    there_and_back(&list, [march, end], [&in_march, &empty(4)]);
    there_and_back(&list, [end, LAST_DAY], [&empty(4), &empty(4)]);
    let other = block(4, &[(M, 7, 7, 1)]);
    let both = encode(&list[1..2]);
    assert_eq!(move_to(&other, &both, january, february), (0, other.clone()), "what stands on both days is not looked for");
    assert_eq!(move_to(&other, &both, january, january), (0, other.clone()));
    assert_eq!(move_to(&other, &both, january, end), (6, other), "and then it is");
}

/// What is refused in the middle leaves every byte.
#[test]
fn the_first_that_is_met_refuses() {
    let from = |key, date| appointed((key, 9), 1, date, 1);
    let (old, new) = ((2024, 1, 1), (2024, 2, 1));
    let [day, next] = [old, new].map(on);
    let list = encode(&[from(5, new), from(1, old), from(6, new), from(2, old), from(3, old), from(7, new), from(8, new)]);
    let three = [(M, 1, 9, 1), (M, 2, 9, 1), (M, 3, 9, 1)];
    let b = block(3, &three[..2]);
    assert_eq!(move_to(&b, &list, day, next), (6, b.clone()), "the last of three is missing");
    let b = block(3, &three);
    assert_eq!(move_to(&b, &list, day, next), (8, b.clone()), "three of four fit after three were taken");
    let mut index = Index::decode(&block(4, &[&three[..], &[(M, 7, 9, 1)]].concat())).unwrap();
    index.parts[M].get_mut(&(7, 9)).unwrap()[0] = u16::MAX;
    assert_eq!(move_to(&index.encode(), &list, day, next), (7, index.encode()), "two were inserted before");
    index.parts[M].get_mut(&(7, 9)).unwrap()[0] -= 1;
    assert_eq!(move_to(&index.encode(), &list, day, next).0, 0);
    let marked = appointed((1, 9), 1 | 1 << X, old, 1).encode();
    assert_eq!(move_to(&b, &marked, day, next), (6, b.clone()), "a marker without a count");
    assert_eq!(move_to(&b, &list, next, day), (6, b.clone()), "6 before all that would be added");
}

/// The appointments come in the order of the list: which of 7 and 8 is met first hangs on it.
#[test]
fn in_list_order() {
    let mut index = Index::empty(HEADER + RECORD);
    index.parts[M].insert((1, 1), [u16::MAX, 0, 0, 0, 0, 0, 0, 0, 0, 0]);
    let [full, more] = [(1, 1), (2, 2)].map(|name| appointed(name, 1, LEAP_DAY, 12));
    let b = index.encode();
    assert_eq!(move_to(&b, &encode(&[full, more]), 0, 19_782), (7, b.clone()));
    assert_eq!(move_to(&b, &encode(&[more, full]), 0, 19_782), (8, b.clone()));
    let renewed = appointed((1, 1), 1, (2024, 1, 29), 1);
    assert_eq!(move_to(&b, &encode(&[full, renewed]), 19_781, 19_782), (0, b), "it is taken down first");
}

/// The days that change the set, found by trying every later one.
#[test]
fn next_changes_day_by_day() {
    for seed in 0..40 {
        let mut rng = Rng(seed);
        let list: Vec<Appointment> = (0..1 + rng.below(5))
            .map(|_| planner((2024, 1 + rng.below(3) as u8, 1 + rng.below(28) as u8), 1 + rng.below(3) as u8))
            .collect();
        let bytes = encode(&list);
        let set = |day: u64| list.iter().map(|one| stands(&one.encode(), day).1).collect::<Vec<_>>();
        let days = on((2023, 12, 25))..on((2024, 7, 1));
        let sets: Vec<_> = days.clone().map(set).collect();
        for (at, day) in days.clone().enumerate() {
            let later = (at + 1..sets.len()).find(|&later| sets[later] != sets[at]);
            let later = later.map_or(0, |later| days.start as u32 + later as u32);
            assert_eq!(next_change(&bytes, day), (0, later), "seed {seed}, day {day}");
        }
    }
}

/// One is over on the day on which its renewal begins: no count changes, but another appointment stands.
#[test]
fn a_renewal_is_a_change() {
    let list = encode(&[planner(LEAP_DAY, 12), planner((2025, 2, 28), 12)]);
    assert_eq!(next_change(&list, 20_000), (0, 20_147));
    let b = block(1, &[(M, 1, 2, 2)]);
    assert_eq!(move_to(&b, &list, 20_146, 20_147), (0, b));
}

/// A list, a day of it, and a block in which the appointments of that day mostly stand.
fn drawn(rng: &mut Rng) -> (Vec<Appointment>, u64, Vec<u8>) {
    let list = gen::appointments::list(rng);
    let day = gen::appointments::day(rng, &list);
    let index = gen::appointments::appointed(rng, &list, day);
    (list, day, index.encode())
}

/// What an appointment is as the half of a plain message.
fn half(one: &Appointment) -> crate::tests::Says {
    Some((one.name.0, one.name.1, one.half().mask))
}

/// Those of a list that stand on one day, and not on the other.
fn only(list: &[Appointment], on: u64, off: u64) -> impl Iterator<Item = &Appointment> {
    list.iter().filter(move |one| stands(&one.encode(), on).1 == 1 && stands(&one.encode(), off).1 == 0)
}

/// The block after some messages, or the number of the first that is refused.
fn sent(b: Vec<u8>, mut messages: impl Iterator<Item = Vec<u8>>) -> Result<Vec<u8>, u32> {
    messages.try_fold(b, |b, m| match message(&b, &m) {
        (0, after) => Ok(after),
        (number, _) => Err(number),
    })
}

/// A move is refused where one of its appointments is, sent by itself in its turn, and by the same number; else it leaves the same.
#[test]
fn a_move_is_its_messages() {
    let (mut accepted, mut refused) = (0, 0);
    for seed in 0..400 {
        let mut rng = Rng(seed);
        let (list, old, b) = drawn(&mut rng);
        let new = gen::appointments::day(&mut rng, &list);
        let takes = only(&list, old, new).map(|one| said(M, half(one), None));
        let adds = only(&list, new, old).map(|one| said(M, None, half(one)));
        let (number, after) = move_to(&b, &encode(&list), old, new);
        assert_eq!(sent(b, takes.chain(adds)), if number == 0 { Ok(after) } else { Err(number) }, "seed {seed}");
        accepted += u32::from(number == 0);
        refused += u32::from(number != 0);
    }
    assert!(accepted > 150 && refused > 50, "{accepted} {refused}");
}

/// "If the block is some good block with the appointments of the old day added, and the call is accepted, it ends as that same
/// block with those of the new day added."
#[test]
fn some_good_block_with_those_of_the_day() {
    let mut ended = 0;
    for seed in 0..300 {
        let mut rng = Rng(seed);
        let (list, old, b) = drawn(&mut rng);
        let new = gen::appointments::day(&mut rng, &list);
        let with = |day: u64| {
            let these = list.iter().filter(move |one| stands(&one.encode(), day).1 == 1);
            sent(b.clone(), these.map(|one| said(M, None, half(one))))
        };
        let Ok(before) = with(old) else { continue };
        let (number, after) = move_to(&before, &encode(&list), old, new);
        assert_ne!(number, 6, "seed {seed}");
        if number == 0 {
            assert_eq!(with(new), Ok(after), "seed {seed}");
            ended += 1;
        }
    }
    assert!(ended > 100, "{ended}");
}

/// Up to the next change a move changes nothing, and so it does not matter on which days a host moves in between.
#[test]
fn nothing_changes_before_the_next_change() {
    for seed in 0..150 {
        let mut rng = Rng(seed);
        let (list, day, b) = drawn(&mut rng);
        let bytes = encode(&list);
        let next = match next_change(&bytes, day) {
            (0, 0) => LAST_DAY + 1,
            (0, next) => next.into(),
            other => panic!("{other:?}"),
        };
        for between in [day, day + 1, (day + next) / 2, next - 1].into_iter().filter(|&between| between < next) {
            assert_eq!(move_to(&b, &bytes, day, between), (0, b.clone()), "seed {seed}");
        }
    }
}

/// How often generated moves do much, and are refused after something was done: never less than here.
#[test]
fn moves_do_much() {
    let (mut accepted, mut many, mut undone) = (0, 0, 0);
    for seed in 0..1_000 {
        let mut rng = Rng(seed);
        let (list, old, b) = drawn(&mut rng);
        let new = gen::appointments::day(&mut rng, &list);
        let number = move_to(&b, &encode(&list), old, new).0;
        let [takes, adds] = [only(&list, old, new).count(), only(&list, new, old).count()];
        accepted += u32::from(number == 0 && takes + adds > 0);
        many += u32::from(number == 0 && takes + adds > 16);
        undone += u32::from((7..=8).contains(&number) && takes > 0);
    }
    println!("accepted {accepted}, with many changes {many}, refused after takes {undone}");
    assert!(accepted > 250 && many > 25 && undone > 20, "{accepted} {many} {undone}");
}
