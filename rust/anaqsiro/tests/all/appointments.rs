//! Appointments and lists of them, and what a block makes of a move over a list.

use crate::blocks::with_room;
use anaqsiro::{Appointment, Appointments, Block, Date, Half, Kind, Letters, Marker, Message, Refusal, Rights};
use second::gen::Rng;

const M: Kind = Kind::Membership;

pub fn date(year: u64, month: u64, day: u64) -> Date {
    Date::new(year, month, day).expect("a date")
}

fn day(number: u64) -> Date {
    Date::of_day(number).expect("a day")
}

/// The planner in the group of planners, from this date on.
fn planner(first: Date, term: u64) -> Appointment {
    Appointment::new(Half::new(1, 2, Rights::READ), first, term)
}

/// A list of these.
pub fn list(appointments: impl IntoIterator<Item = Appointment>) -> Appointments {
    Appointments::new(appointments).expect("right, and not too many")
}

/// The bytes of an appointment with each marker and without, as the rules have them.
#[test]
fn the_bytes_are_those_of_the_rules() {
    let membership = Half::new(0x102, 0x304, Rights::CREATE | Rights::UPDATE);
    let markers = [None, Some(Marker::X), Some(Marker::N)];
    for (number, marker) in markers.into_iter().enumerate() {
        let one = Appointment::new(Half { marker, ..membership }, date(2024, 2, 29), 12);
        assert_eq!(one.bytes(), [2, 1, 4, 3, 5, number as u8, 0xE8, 7, 2, 29, 12, 0]);
        assert_eq!(Appointment::try_from(&one.bytes()[..]), Ok(one));
    }
    let one = planner(date(2399, 11, 30), 1);
    assert_eq!(one.to_string(), "key 1, id 2, R, for 1 month from 2399-11-30");
    assert_eq!(format!("{:?}", list([one])), r#"["key 1, id 2, R, for 1 month from 2399-11-30"]"#);
    assert_eq!((Appointment::BYTES, Appointment::LONGEST, Appointments::MOST), (12, 120, 256));
}

/// Each byte of an appointment made any other: what the library takes is taken apart and put together again.
#[test]
fn bytes_are_taken_as_the_library_takes_them() {
    let right = planner(date(2024, 2, 29), 12).bytes();
    let (mut taken, mut refused) = (0, [0; 13]);
    for (at, byte) in (0..right.len()).flat_map(|at| (0..=u8::MAX).map(move |byte| (at, byte))) {
        let mut bytes = right;
        bytes[at] = byte;
        let one = Appointment::try_from(&bytes[..]);
        assert_eq!(Appointments::from_bytes(bytes.to_vec()).map(|list| list.iter().next()), one.map(Some));
        match one {
            Ok(one) => assert_eq!(one.bytes(), bytes),
            Err(refusal) => refused[refusal.number() as usize] += 1,
        }
        taken += usize::from(one.is_ok());
    }
    assert!(taken > 600 && [3, 4, 5, 12].map(|number| refused[number]).iter().all(|&times| times > 200), "{taken} {refused:?}");
    for length in 0..40 {
        let bytes = &right.repeat(4)[..length];
        let (one, whole) = (Appointment::try_from(bytes), bytes.len() % Appointment::BYTES == 0);
        assert_eq!(one.err(), (bytes.len() != Appointment::BYTES).then_some(Refusal::Form));
        assert_eq!(Appointments::from_bytes(bytes.to_vec()).err(), (!whole).then_some(Refusal::Form));
    }
}

/// The anniversary as the rules tell it: that many months later, the same day of the month or the last that it has.
fn told_anniversary(first: Date, term: u64) -> Option<Date> {
    let months = first.month() - 1 + term;
    let (year, month) = (first.year() + months / 12, months % 12 + 1);
    (1..=first.day()).rev().find_map(|day| Date::new(year, month, day).ok())
}

/// An appointment stands from its first day up to the day before the anniversary, and that is where it changes.
fn stands_as_told(one: Appointment) -> bool {
    let anniversary = told_anniversary(one.first, one.term);
    assert_eq!(one.anniversary(), anniversary.ok_or(Refusal::OutsideRange), "{one}");
    assert_eq!(Appointments::new([one]).is_ok(), anniversary.is_some());
    let Some(anniversary) = anniversary else { return false };
    let (first, end) = (one.first.day_number(), anniversary.day_number());
    let ends = [0, first.saturating_sub(1), first, end - 1, end, end + 1, Date::LAST.day_number()];
    for number in ends.into_iter().filter(|&number| number <= Date::LAST.day_number()) {
        assert_eq!(one.stands(day(number)), Ok((first..end).contains(&number)), "{one} on {number}");
        let next = [first, end].into_iter().find(|&change| change > number);
        assert_eq!(list([one]).next_change(day(number)), next.map(day), "{one} after {number}");
    }
    true
}

/// Every day of some years, those of the end of the range among them, with terms of all lengths.
#[test]
fn an_appointment_stands_up_to_the_day_before_the_anniversary() {
    let (mut inside, mut outside) = (0, 0);
    let mut rng = Rng(1);
    for number in (19_700..21_300).chain(47_000..47_800).chain(153_000..=157_053) {
        for term in [1, 12, Appointment::LONGEST, 1 + rng.below(Appointment::LONGEST)] {
            match stands_as_told(planner(day(number), term)) {
                true => inside += 1,
                false => outside += 1,
            }
        }
    }
    assert!(inside > 10_000 && outside > 1_000, "{inside} {outside}");
    assert_eq!(planner(date(2024, 2, 29), 12).anniversary(), Ok(day(20_147)));
    assert_eq!(planner(date(2389, 12, 31), 120).anniversary(), Ok(Date::LAST));
    assert_eq!(planner(date(2390, 1, 1), 120).anniversary(), Err(Refusal::OutsideRange));
}

/// Whatever is wrong with an appointment is refused by its own number, in their order, and no number is cut.
#[test]
fn what_is_wrong_has_its_number() {
    let right = planner(date(2024, 2, 29), 12);
    let half = |key, id, mask: Letters| Appointment { membership: Half::new(key, id, mask), ..right };
    let (read, denial) = (Letters::READ, Letters::READ | Letters::NO_READ);
    for (wrong, refusal) in [
        (half(1_024, 2, read), Refusal::Name),
        (half(1, 65_537, read), Refusal::Name),
        (half(u64::MAX, 2, Letters::NONE), Refusal::Name),
        (half(1, 2, Letters::NONE), Refusal::Mask),
        (half(1, 2, denial), Refusal::Mask),
        (Appointment { term: 0, ..half(1, 2, denial) }, Refusal::Mask),
        (Appointment { term: 0, ..right }, Refusal::OutsideRange),
        (Appointment { term: 121, ..right }, Refusal::OutsideRange),
        (Appointment { term: 256 + 12, ..right }, Refusal::OutsideRange),
        (Appointment { term: (1 << 32) + 12, ..right }, Refusal::OutsideRange),
        (Appointment { term: u64::MAX, ..right }, Refusal::OutsideRange),
        (Appointment { first: Date::LAST, ..right }, Refusal::OutsideRange),
    ] {
        assert_eq!(wrong.stands(Date::FIRST), Err(refusal), "{wrong}");
        assert_eq!((wrong.anniversary(), Appointments::new([right, wrong])), (Err(refusal), Err(refusal)), "{wrong}");
        assert_eq!(Appointment::try_from(&wrong.bytes()[..]), Err(refusal), "{wrong}");
    }
}

/// A list is judged as a whole: its number is that of the rules, whichever of its appointments is wrong first.
#[test]
fn a_list_is_judged_as_a_whole() {
    let right = planner(date(2024, 2, 29), 12);
    let term = Appointment { term: 0, ..right };
    let name = Appointment { membership: Half::new(1_024, 2, Rights::READ), ..right };
    let mask = Appointment { membership: Half::new(1, 2, Rights::NONE), ..right };
    assert_eq!(Appointments::new([term, name]), Err(Refusal::Name));
    assert_eq!(Appointments::new([term, mask]), Err(Refusal::Mask));
    assert_eq!(Appointments::new([mask, name]), Err(Refusal::Name));
    let too_many = [right; 257].into_iter();
    assert_eq!(Appointments::new(too_many.clone().chain([mask])), Err(Refusal::Mask));
    assert_eq!(Appointments::new(too_many.chain([mask, right, name])), Err(Refusal::Name));
    let (mut rng, mut met) = (Rng(7), [0; 13]);
    for _ in 0..500 {
        let ones: Vec<_> = (0..rng.below(4)).map(|_| rng.pick(&[right, right, term, name, mask])).collect();
        let bytes: Vec<u8> = ones.iter().flat_map(|one| one.bytes()).collect();
        let list = Appointments::new(ones);
        assert_eq!(list, Appointments::from_bytes(bytes));
        met[list.map_or_else(|refusal| refusal.number() as usize, |_| 0)] += 1;
    }
    assert!([0, 4, 5, 12].into_iter().all(|number| met[number] > 20), "{met:?}");
}

#[test]
fn a_list_has_256_at_most() {
    let one = planner(date(2024, 2, 29), 12);
    let mut full = list([one; Appointments::MOST]);
    let before = full.clone();
    assert_eq!((full.len(), full.is_empty(), full.iter().count()), (256, false, 256));
    assert_eq!(full.push(one), Err(Refusal::OutsideRange));
    assert_eq!(full.push(Appointment { membership: Half::new(1, 1_024, Rights::READ), ..one }), Err(Refusal::Name));
    assert_eq!(full, before);
    assert_eq!(Appointments::new([one; 257]), Err(Refusal::OutsideRange));
    assert_eq!(Appointments::from_bytes(one.bytes().repeat(257)), Err(Refusal::OutsideRange));
    assert_eq!(Appointments::from_bytes(one.bytes().repeat(256)), Ok(full));
    assert_eq!((Appointments::default().len(), Appointments::from_bytes(vec![])), (0, Ok(Appointments::default())));
    assert_eq!((list([]).next_change(Date::FIRST), list([]).is_empty()), (None, true));
}

/// Some appointments between 2000 and 2006, of few names.
pub fn some(rng: &mut Rng, most: u64) -> Vec<Appointment> {
    let one = |rng: &mut Rng| {
        let marker = rng.pick(&[None, None, Some(Marker::X), Some(Marker::N)]);
        let mask = Letters::from_mask(1 + rng.below(15)).expect("rights");
        let membership = Half { marker, ..Half::new(rng.below(4), rng.below(4), mask) };
        Appointment::new(membership, day(11_000 + rng.below(1_000)), 1 + rng.below(36))
    };
    (0..rng.below(most)).map(|_| one(rng)).collect()
}

/// From each day the next change is the first day after it with others standing, day by day.
#[test]
fn the_next_change_is_the_first_day_with_others_standing() {
    let mut changes = 0;
    for seed in 0..60 {
        let list = list(some(&mut Rng(seed), 12));
        let standing = |number| -> Vec<bool> { list.iter().map(|one| one.stands(day(number)) == Ok(true)).collect() };
        let mut next = None;
        for number in (10_999..13_200).rev() {
            assert_eq!(list.next_change(day(number)), next.map(day));
            if standing(number) != standing(number - 1) {
                next = Some(number);
                changes += 1;
            }
        }
        assert_eq!((list.next_change(Date::FIRST), list.next_change(Date::LAST)), (next.map(day), None));
        assert!(list.standing(Date::LAST).next().is_none());
    }
    assert!(changes > 500, "{changes}");
}

/// Where one ends and another of the same membership begins, another set stands, and no count changes.
#[test]
fn a_change_of_the_list_need_not_change_the_block() {
    let (first, second) = (planner(date(2024, 1, 1), 12), planner(date(2025, 1, 1), 12));
    let list = list([first, second]);
    assert_eq!(list.next_change(first.first), Some(second.first));
    let mut block = with_room(1);
    block.go(&list, Date::LAST, first.first).expect("room");
    let before = block.clone();
    block.go(&list, first.first, second.first).expect("room");
    assert_eq!(block, before);
}

/// A move leaves the block that its appointments leave as messages, one after the other, if none of them is refused; else the
/// first refusal is its own, and nothing has changed.
#[test]
fn a_move_is_its_messages_one_by_one() {
    let mut met = [0; 9];
    for seed in 0..400 {
        let mut rng = Rng(seed);
        let list = list(some(&mut rng, 24));
        let mut block = with_room(1 + rng.below(20) as usize);
        for (key, text) in [(0, "1;RX;2;M65535R65535U65535P65535X65535N65535"), (1, "3;MRUPXN")] {
            let _ = block.read_set(M, key, text);
        }
        for _ in 0..20 {
            let [old, new] = [(); 2].map(|()| day(11_000 + rng.below(2_000)));
            let only = |on: Date, off: Date| list.standing(on).filter(move |one| one.stands(off) == Ok(false));
            let taken = only(old, new).map(|one| Message::new(M, Some(one.membership), None));
            let added = only(new, old).map(|one| Message::new(M, None, Some(one.membership)));
            let (before, mut by_messages) = (block.clone(), block.clone());
            let one_by_one = taken.chain(added).try_for_each(|message| by_messages.apply(message));
            assert_eq!(block.go(&list, old, new), one_by_one);
            assert_eq!(block, if one_by_one.is_ok() { by_messages } else { before });
            met[one_by_one.map_or_else(|refusal| refusal.number() as usize, |()| 0)] += 1;
        }
    }
    assert!([0, 6, 7, 8].into_iter().all(|number| met[number] > 100), "{met:?}");
    let list = list([planner(Date::FIRST, 1)]);
    let mut not_good = Block::from_bytes(vec![0; 40]);
    assert_eq!(not_good.go(&list, Date::LAST, Date::FIRST), Err(Refusal::BlockNotGood));
    assert_eq!(Block::from_bytes(vec![]).go(&list, Date::LAST, Date::FIRST), Err(Refusal::BlockLength));
}

/// Equal appointments of one list are counted each.
#[test]
fn equal_appointments_count_each() {
    let one = planner(date(2024, 2, 29), 12);
    let twice = list([one, one]);
    let mut block = with_room(1);
    block.go(&twice, Date::LAST, one.first).expect("room");
    assert_eq!(block.set_text(M, 1).as_deref(), Ok("2;R2"));
    block.go(&twice, one.first, Date::LAST).expect("they stand");
    assert_eq!(block, with_room(1));
}
