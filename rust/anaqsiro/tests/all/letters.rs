//! Rights and letters, as sets and as text.

use anaqsiro::{Letters, Marker, NotLetters, Rights};
use second::ALL;

/// Each mask of rights, and of letters.
fn rights() -> impl Iterator<Item = Rights> {
    (0..=ALL).map(|mask| Rights::from_mask(mask).expect("rights"))
}

fn letters() -> impl Iterator<Item = Letters> {
    (0..=u8::MAX).map(|mask| Letters::from_mask(mask.into()).expect("letters"))
}

#[test]
fn each_set_goes_there_and_back() {
    assert!(rights().all(|set| set.to_string().parse() == Ok(set)));
    assert!(letters().all(|set| set.to_string().parse() == Ok(set)));
    assert!(rights().all(|set| set.to_string() == Letters::from(set).to_string()));
}

#[test]
fn letters_have_the_masks_of_the_rules() {
    let masks = [("M", 1), ("R", 2), ("U", 4), ("P", 8), ("m", 16), ("r", 32), ("u", 64), ("p", 128), ("MRUPmrup", 255)];
    for (text, mask) in masks {
        assert_eq!(text.parse::<Letters>().map(Letters::mask), Ok(mask), "{text}");
    }
    let named = [Letters::CREATE, Letters::READ, Letters::UPDATE, Letters::DELETE];
    let denied = [Letters::NO_CREATE, Letters::NO_READ, Letters::NO_UPDATE, Letters::NO_DELETE];
    let all = [Rights::CREATE, Rights::READ, Rights::UPDATE, Rights::DELETE];
    assert_eq!(named, all.map(Letters::from));
    assert_eq!(denied, all.map(Rights::denials));
    assert_eq!(all.into_iter().fold(Rights::NONE, |set, one| set | one), Rights::ALL);
}

#[test]
fn texts_of_no_set() {
    assert_eq!("".parse::<Rights>(), Err(NotLetters::Empty));
    assert_eq!("MRm".parse::<Rights>(), Err(NotLetters::NoLetter('m')));
    assert_eq!("MRQ".parse::<Letters>(), Err(NotLetters::NoLetter('Q')));
    assert_eq!("R-".parse::<Letters>(), Err(NotLetters::NoLetter('-')));
    assert_eq!("MRX".parse::<Letters>(), Err(NotLetters::NoLetter('X')));
    assert_eq!("RMR".parse::<Letters>(), Err(NotLetters::Twice('R')));
    assert_eq!("PURM".parse(), Ok(Rights::ALL));
    assert_eq!("-".parse(), Ok(Letters::NONE));
    for why in [NotLetters::Empty, NotLetters::NoLetter('Q'), NotLetters::Twice('R')] {
        assert!(why.to_string().contains(['-', 'Q', 'R']), "{why}");
    }
}

#[test]
fn a_mask_that_is_too_great_is_none() {
    for mask in [16, 255, 256, 257, 1 << 32, (1 << 32) + 1, u64::MAX] {
        assert_eq!(Rights::from_mask(mask), None);
        assert_eq!(Letters::from_mask(mask).is_some(), mask < 256);
    }
}

#[test]
fn sets_are_joined_and_cut() {
    for a in letters() {
        assert_eq!(a.rights() | a.denied().denials(), a);
        for b in letters() {
            assert_eq!((a | b).mask(), a.mask() | b.mask());
            assert_eq!((a & b).mask(), a.mask() & b.mask());
            assert_eq!(a.without(b) | (a & b), a);
            assert_eq!(a.contains(b), a & b == b);
        }
        for b in rights() {
            assert_eq!((a | b, b | a), (a | Letters::from(b), a | Letters::from(b)));
        }
    }
    let mut set = Rights::CREATE;
    set |= Rights::READ;
    set &= Rights::READ | Rights::DELETE;
    assert_eq!((set, set.is_empty(), set.without(set).is_empty()), (Rights::READ, false, true));
}

#[test]
fn sets_are_shown() {
    let set = Rights::READ | Letters::NO_UPDATE;
    assert_eq!(format!("{set} {set:?} {set:>4}|{:<4}|", Rights::NONE), "Ru Letters(Ru)   Ru|-   |");
    assert_eq!(format!("{:?}", Rights::ALL), "Rights(MRUP)");
    assert_eq!(Marker::ALL.map(|marker| marker.to_string()), ["X", "N"]);
}
