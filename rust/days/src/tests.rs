use super::*;
use anaqsiro::{Half, Marker, Rights};

/// What the program prints for these appointments.
fn printed(appointments: &[Appointment]) -> Result<String, Refusal> {
    told(appointments.iter().flat_map(Appointment::bytes).collect())
}

/// A membership of 1 in 2 for so many months from a day on.
fn one(first: Date, term: u64) -> Appointment {
    Appointment::new(Half::new(1, 2, Rights::READ | Rights::UPDATE), first, term)
}

#[test]
fn the_sample_is_told() {
    assert_eq!(told(include_bytes!("../stdin").to_vec()).as_deref(), Ok(include_str!("../stdout")));
}

#[test]
fn what_stands_on_the_first_day_begins_there() {
    let bound = Appointment { membership: Half::new(1_023, 0, Rights::ALL).marked(Marker::N), ..one(Date::FIRST, 1) };
    assert_eq!(
        printed(&[one(Date::FIRST, 2), bound]).as_deref(),
        Ok("1970-01-01 0\n+ M1 2;RU\n+ M1023 0;MRUPN\n1970-02-01 31\n- M1023 0;MRUPN\n1970-03-01 59\n- M1 2;RU\n")
    );
}

/// On one day what ends comes before what begins, each in the order of the list, also where the membership is the same.
#[test]
fn what_ends_comes_before_what_begins() {
    let (first, second) = (Date::FIRST, Date::of_day(31).expect("a day"));
    let other = Appointment { membership: Half::new(3, 4, Rights::CREATE), ..one(first, 1) };
    assert_eq!(
        printed(&[one(second, 1), one(first, 1), other]).as_deref(),
        Ok("1970-01-01 0\n+ M1 2;RU\n+ M3 4;M\n1970-02-01 31\n- M1 2;RU\n- M3 4;M\n+ M1 2;RU\n1970-03-01 59\n- M1 2;RU\n")
    );
}

#[test]
fn nothing_is_told_of_nothing() {
    assert_eq!(printed(&[]).as_deref(), Ok(""));
}

#[test]
fn a_wrong_list_is_refused_by_its_number() {
    let right = one(Date::FIRST, 1);
    let half = |key, rights| Appointment { membership: Half::new(key, 2, rights), ..right };
    for (list, refusal) in [
        (vec![half(1_024, Rights::READ)], Refusal::Name),
        (vec![right, half(1, Rights::NONE)], Refusal::Mask),
        (vec![right, Appointment { term: 121, ..right }], Refusal::OutsideRange),
        (vec![right; 257], Refusal::OutsideRange),
    ] {
        assert_eq!(printed(&list), Err(refusal));
    }
    assert_eq!(told(vec![0; 11]), Err(Refusal::Form));
    assert!(printed(&[right; 256]).is_ok());
}
