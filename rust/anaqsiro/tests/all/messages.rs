//! Kinds, halves, messages and refusals.

use anaqsiro::{Appointment, Appointments, Block, Half, Kind, Letters, Marker, Message, Profile, Refusal, Rights, Slip, NAMES};
use second::drive::packed;

/// The refusal of a number and a value.
fn refusal(number: u32, value: u32) -> Option<Refusal> {
    Refusal::from_answer(packed(number, value))
}

#[test]
fn every_refusal_has_its_number() {
    for number in 1..=15 {
        let named = refusal(number, 0).expect("a refusal");
        assert_eq!(named.number(), number);
        assert!(!matches!(named, Refusal::Unknown(_)));
        assert_eq!(refusal(number, 3) == Some(named), number != 9, "of a text alone the value is told");
    }
    assert_eq!([refusal(0, 0), refusal(0, 9)], [None, None]);
    for number in [16, 17, u32::MAX] {
        assert_eq!(refusal(number, 7), Some(Refusal::Unknown(number)));
        assert_eq!(Refusal::Unknown(number).number(), number);
    }
    assert_eq!(
        Refusal::NoRoom.to_string(),
        "refused with 8: after taking away (or removing the old set), the records do not fit"
    );
    assert_eq!(
        Refusal::Limit.to_string(),
        "refused with 14: for the plain engine a limit above 8 or more than 64 membership records; for the walk a limit above 32"
    );
    assert_eq!(Refusal::Profile.to_string(), "refused with 15: a profile other than ordinary or strict");
    assert_eq!(Refusal::Unknown(99).to_string(), "refused with 99: not a number of this version");
}

/// A number with a comma before its last three digits.
fn with_comma(number: usize) -> String {
    format!("{},{:03}", number / 1_000, number % 1_000)
}

/// Where the words of the rules name a number, it is the one that the crate has a name for.
#[test]
fn the_words_have_the_numbers_of_the_crate() {
    for (refusal, words) in [
        (Refusal::BlockLength, format!("not {} to {}", Block::SHORTEST, with_comma(Block::LONGEST))),
        (Refusal::Form, format!("not {} bytes,", Message::BYTES)),
        (Refusal::Form, format!("not of {} bytes each", Appointment::BYTES)),
        (Refusal::Name, format!("above {},", NAMES - 1)),
        (Refusal::Mask, format!("above {};", Rights::ALL.mask())),
        (Refusal::CountFull, format!("at {}", with_comma(u16::MAX.into()))),
        (Refusal::TextLong, format!("fewer than {} places", Slip::LONGEST)),
        (Refusal::ChainLength, format!("more than {} names", Slip::LONGEST)),
        (Refusal::Limit, format!("above {} or more than {} ", Block::PLAIN_LIMIT, Block::PLAIN_MEMBERSHIPS)),
        (Refusal::Limit, format!("a limit above {}", Block::LIMIT)),
        (Refusal::OutsideRange, format!("a {}th appointment,", Appointments::MOST + 1)),
    ] {
        assert!(refusal.to_string().contains(&words), "{refusal}, and not {words}");
    }
}

#[test]
fn a_wrong_text_is_told_with_its_place() {
    let words = [0, 1, 3].map(|place| Refusal::Text { place }.to_string());
    let after = ["0 bytes", "1 byte", "3 bytes"];
    assert_eq!(words, after.map(|bytes| format!("refused with 9: not the text of any set of that kind, wrong after {bytes}")));
}

#[test]
fn every_kind_has_its_number() {
    assert_eq!(Kind::ALL.map(|kind| (kind.number(), kind.letter())), [(1, 'M'), (2, 'P'), (3, 'F')]);
    assert_eq!([0, 4, 257, u64::MAX].map(Kind::from_number), [None; 4]);
    assert!(Kind::ALL.into_iter().all(|kind| Kind::from_number(kind.number().into()) == Some(kind)));
}

/// The greatest half that there can be, and the least, with each marker.
fn halves() -> [Option<Half>; 7] {
    let all = Letters::from_mask(u8::MAX.into()).expect("letters");
    let (least, greatest) = (Half::new(0, 1023, Rights::READ), Half::new(1023, 0, all));
    let [x, n] = Marker::ALL.map(|marker| [least, greatest].map(|half| Some(half.marked(marker))));
    [None, Some(least), Some(greatest), x[0], x[1], n[0], n[1]]
}

#[test]
fn a_message_is_taken_apart() {
    for kind in Kind::ALL {
        for previous in halves() {
            for new in halves() {
                let message = Message::new(kind, previous, new);
                assert_eq!((message.kind(), message.halves()), (Some(kind), [previous, new]));
                assert_eq!(Message::try_from(message.as_ref()), Ok(message));
            }
        }
    }
    let bytes = [1, 3, 1, 2, 3, 0, 5, 7, 0, 0, 1, 16];
    let [previous, new] = Message(bytes).halves();
    assert_eq!(previous, Some(Half::new(513, 3, Rights::CREATE | Rights::UPDATE)));
    assert_eq!(new, Some(Half::new(7, 256, Letters::NO_CREATE)));
    assert_eq!(Message(bytes).to_string(), "M, from key 513, id 3, MU to key 7, id 256, m");
    assert_eq!(Message([9; Message::BYTES]).kind(), None);
}

/// The bits of the markers in the first byte, as the rules have them, and what is made of bits that are wrong.
#[test]
fn markers_stand_beside_the_kind() {
    let half = Half::new(1, 2, Rights::READ);
    let [x, n] = Marker::ALL.map(|marker| Some(half.marked(marker)));
    for (previous, new, first) in
        [(x, None, 0b0100_0001), (n, None, 0b1000_0001), (None, x, 0b0001_0001), (None, n, 0b0010_0001), (x, n, 0b0110_0001)]
    {
        assert_eq!(Message::new(Kind::Membership, previous, new).0[0], first);
    }
    assert_eq!(Message::new(Kind::Membership, n, x).to_string(), "M, from key 1, id 2, RN to key 1, id 2, RX");
    let mut both = Message::new(Kind::Membership, None, x);
    both.0[0] |= 0b1110_0000;
    assert_eq!((both.kind(), both.halves()), (Some(Kind::Membership), [None, Some(half)]));
    let refused = |message| Block::with_room(1).and_then(|mut block| block.apply(message)).err();
    assert_eq!(refused(both), Some(Refusal::Form));
    assert_eq!(refused(Message::new(Kind::Permission, None, x)), Some(Refusal::Form));
    assert_eq!(refused(Message::new(Kind::Filter, n, None)), Some(Refusal::Form));
    let bare = Half::new(1, 2, Letters::NONE).marked(Marker::X);
    assert_eq!(refused(Message::new(Kind::Membership, None, Some(bare))), Some(Refusal::Mask));
    assert_eq!(refused(Message::new(Kind::Membership, x, None)), Some(Refusal::NothingToTake));
}

#[test]
fn other_lengths_are_no_message() {
    for length in (0..40).filter(|&length| length != Message::BYTES) {
        assert_eq!(Message::try_from(&vec![1; length][..]), Err(Refusal::Form));
    }
}

/// A name that 16 bits do not hold is refused wherever it is given, and 65,537 is not taken for 1.
#[test]
fn a_name_is_not_cut() {
    let mut block = Block::with_room(4).expect("room");
    let give = |key, id| Message::new(Kind::Permission, None, Some(Half::new(key, id, Rights::READ)));
    block.apply(give(1, 1)).expect("names");
    let before = block.clone();
    for name in [1024, 65_535, 65_536, 65_537, (1 << 32) + 1, u64::MAX] {
        assert_eq!(block.apply(give(name, 1)), Err(Refusal::Name));
        assert_eq!(block.apply(give(1, name)), Err(Refusal::Name));
        assert_eq!(
            block.apply(Message::new(Kind::Permission, Some(Half::new(name, 1, Rights::READ)), None)),
            Err(Refusal::Name)
        );
        for profile in Profile::ALL {
            assert_eq!(block.rights(name, 1, Rights::ALL, profile), Err(Refusal::Name));
            assert_eq!(block.may(1, name, Rights::READ, profile), Err(Refusal::Name));
        }
        assert_eq!(block.set_text(Kind::Permission, name), Err(Refusal::Name));
        assert_eq!(block.read_set(Kind::Permission, name, "1;R"), Err(Refusal::Name));
        assert_eq!(block.mentions(name).err(), Some(Refusal::Name));
    }
    assert_eq!(block, before);
}
