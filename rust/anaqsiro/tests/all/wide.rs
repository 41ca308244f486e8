//! Wide halves and wide messages, and what a block makes of them.

use crate::blocks::with_room;
use anaqsiro::{Block, Half, Kind, Letters, Marker, Message, Name, NotWide, Refusal, Rights, Sent, WideHalf, WideMessage};
use second::gen::Rng;

const P: Kind = Kind::Permission;

/// Keys and ids with these letters.
fn half(keys: impl IntoIterator<Item = Name>, ids: impl IntoIterator<Item = Name>, letters: &str) -> WideHalf {
    WideHalf::new(keys, ids, letters.parse::<Letters>().expect("letters")).expect("some names, and not too many")
}

/// What a block with this room answers to a message, by the library.
fn answer(room: usize, message: impl AsRef<[u8]>) -> Result<(), Refusal> {
    with_room(room).apply_wide(message)
}

#[test]
fn names_are_put_in_order_and_stand_once() {
    let one = half([5, 3, 5, 0, 1023], [2, 2], "R");
    assert_eq!((one.keys().collect(), one.ids().collect()), (vec![0, 3, 5, 1023], vec![2]));
    assert_eq!(one, half([0, 3, 5, 1023], [2], "R"));
    assert_ne!(one, half([0, 3, 5], [2], "R"));
    assert_eq!(half((0..8).chain(0..8), 0..8, "R").pairs().count(), 64);
    let read = Rights::READ;
    for (keys, ids, not) in [(0..0, 0..1, NotWide::Empty), (0..1, 0..0, NotWide::Empty), (0..9, 0..1, NotWide::TooMany)] {
        assert_eq!(WideHalf::new(keys.clone(), ids.clone(), read), Err(not));
        assert_eq!(WideHalf::new(ids, keys, read), Err(not));
    }
    assert_eq!(WideHalf::new(0.., 0..1, read), Err(NotWide::TooMany), "a list without an end");
    assert_eq!(Refusal::from(NotWide::Empty), Refusal::Form);
    let words = [NotWide::Empty, NotWide::TooMany].map(|not| not.to_string());
    assert_eq!(words, ["a list of keys or ids without a name", "a list of keys or ids with more than 8 names"]);
}

#[test]
fn a_half_is_every_pair() {
    let wide = half([4, 7], [1, 9], "RU").marked(Marker::X);
    let pairs: Vec<_> = wide.pairs().map(|half| (half.key, half.id)).collect();
    assert_eq!(pairs, [(4, 1), (4, 9), (7, 1), (7, 9)]);
    let one = Half::new(7, 9, Rights::READ | Rights::UPDATE).marked(Marker::X);
    assert_eq!((wide.pairs().last(), wide.pair(7, 9), wide.pair(7, 4), wide.pair(1, 9)), (Some(one), Some(one), None, None));
    assert_eq!((wide.plain(), WideHalf::from(one).plain()), (None, Some(one)));
    assert_eq!(WideHalf::from(one), half([7], [9], "RU").marked(Marker::X));
    assert_eq!((half([7], [1, 9], "R").plain(), half([4, 7], [9], "R").plain()), (None, None));
    assert_eq!(WideHalf::from(one).to_string(), one.to_string());
    assert_eq!(wide.to_string(), "keys 4 7, ids 1 9, RUX");
    assert_eq!(half([4], [1, 9], "m").to_string(), "key 4, ids 1 9, m");
}

/// The bytes of a message with both halves and with one, as the rules have them.
#[test]
fn the_bytes_are_those_of_the_rules() {
    let (before, now) = (half([0x102, 0x304], [5], "RU"), half([7], [8, 9, 0x3FF], "Pp"));
    let both = [2, 3, 2, 1, 1, 3, 6, 0x88, 16, 0, 20, 0, 22, 0, 24, 0, 2, 1, 4, 3, 5, 0, 7, 0, 8, 0, 9, 0, 0xFF, 3];
    let first = [2, 2, 0, 0, 1, 3, 0, 0x88, 16, 0, 16, 0, 16, 0, 18, 0, 7, 0, 8, 0, 9, 0, 0xFF, 3];
    let last = [2, 1, 2, 1, 0, 0, 6, 0, 16, 0, 20, 0, 22, 0, 22, 0, 2, 1, 4, 3, 5, 0];
    let bytes = |previous, new| WideMessage::new(P, previous, new).as_ref().to_vec();
    assert_eq!(bytes(Some(before), Some(now)), both);
    assert_eq!(bytes(None, Some(now)), first);
    assert_eq!(bytes(Some(before), None), last);
    let all = half(0..8, 1_016..1_024, "MRUP");
    assert_eq!((bytes(Some(all), Some(all)).len(), WideMessage::LONGEST), (80, 80));
    let [x, n] = Marker::ALL.map(|marker| Some(before.marked(marker)));
    let front = |previous, new| WideMessage::new(Kind::Membership, previous, new).as_ref()[0];
    assert_eq!([front(x, None), front(n, None), front(None, x), front(None, n)], [0x41, 0x81, 0x11, 0x21]);
    let shown = WideMessage::new(P, None, Some(now));
    assert_eq!(shown.to_string(), "P, from nothing to key 7, ids 8 9 1023, Pp");
    assert_eq!(format!("{shown:?}"), format!("WideMessage({first:?})"));
}

/// Halves of each length, with each marker.
fn halves() -> Vec<Option<WideHalf>> {
    let marked = |half: WideHalf| [half, half.marked(Marker::X), half.marked(Marker::N)];
    let some = (1..=8).flat_map(|keys| marked(half(1_024 - keys..1_024, 0..9 - keys, "MRUP")));
    some.map(Some).chain([None]).collect()
}

#[test]
fn a_wide_message_is_taken_apart() {
    for kind in Kind::ALL {
        for (previous, new) in halves().into_iter().flat_map(|half| halves().into_iter().map(move |other| (half, other))) {
            let message = WideMessage::new(kind, previous, new);
            assert_eq!((message.kind(), message.halves()), (Some(kind), [previous, new]));
            assert_eq!(WideMessage::try_from(message.as_ref()), Ok(message));
            assert_eq!(Sent::try_from(message.as_ref()), Ok(Sent::Wide(message)));
        }
    }
}

/// What is refused with 3 though it was put together here: no half at all, and a marker where there may be none.
fn put_together_wrong(message: &WideMessage) -> bool {
    let halves = message.halves();
    let marked = halves.iter().flatten().any(|half| half.marker.is_some());
    halves == [None, None] || marked && message.kind() != Some(Kind::Membership)
}

/// Bytes are a wide message where the library does not refuse them with 3, and then they have what they say.
fn told_apart(bytes: &[u8]) -> bool {
    let refused = answer(0, bytes) == Err(Refusal::Form);
    match WideMessage::try_from(bytes) {
        Ok(message) => {
            assert_eq!((message.as_ref(), refused), (bytes, put_together_wrong(&message)));
            let [previous, new] = message.halves();
            let kind = message.kind().expect("a kind");
            assert_eq!(WideMessage::new(kind, previous, new), message);
        }
        Err(refusal) => assert_eq!((refusal, refused), (Refusal::Form, true), "{bytes:?}"),
    }
    !refused
}

/// Each byte of some messages made any other, each length, and bytes at random.
#[test]
fn wrong_bytes_are_no_wide_message() {
    let (before, now) = (half([3, 5, 900], [2], "R"), half([4], [6, 1_000], "RU"));
    let mut met = [0; 2];
    let mut met_by = |bytes: &[u8]| met[usize::from(told_apart(bytes))] += 1;
    for (previous, new) in [(Some(before), Some(now)), (None, Some(now)), (Some(before.marked(Marker::X)), None)] {
        let whole = WideMessage::new(Kind::Membership, previous, new).as_ref().to_vec();
        for (at, byte) in (0..whole.len()).flat_map(|at| (0..=u8::MAX).map(move |byte| (at, byte))) {
            let mut bytes = whole.clone();
            bytes[at] = byte;
            met_by(&bytes);
        }
        (0..whole.len()).for_each(|length| met_by(&whole[..length]));
        (1..4).for_each(|more| met_by(&[&whole[..], &vec![0; more]].concat()));
    }
    let mut rng = Rng(1);
    for _ in 0..20_000 {
        let length = rng.below(100) as usize;
        met_by(&(0..length).map(|_| rng.below(20) as u8).collect::<Vec<_>>());
    }
    assert!(met[0] > 20_000 && met[1] > 1_000, "{met:?}");
}

/// A name that 16 bits do not hold is refused with 4 wherever it stands, also where there are several, and 65,537 is not taken
/// for 1.
#[test]
fn a_name_of_a_list_is_not_cut() {
    for name in [1_024, 65_535, 65_536, 65_537, (1 << 32) + 1, u64::MAX] {
        for lists in [[vec![1, name], vec![1]], [vec![1], vec![name]], [vec![name, name - 1, 66_000], vec![0, 66_000]]] {
            let [keys, ids] = lists;
            let wrong = Some(half(keys, ids, "R"));
            for (previous, new) in [(None, wrong), (wrong, None), (Some(half([1], [1], "R")), wrong)] {
                assert_eq!(answer(8, WideMessage::new(P, previous, new)), Err(Refusal::Name));
            }
        }
    }
}

/// 3 before 4 before 5, whichever half they are in, and all before a step is taken.
#[test]
fn the_numbers_come_in_their_order() {
    let (right, no_name, no_mask) = (half([1], [1, 2], "R"), half([1, 1_024], [1], "R"), half([1], [1, 2], "-"));
    let denial = half([1, 2], [3], "m");
    let wide = |kind, previous, new| answer(0, WideMessage::new(kind, Some(previous), Some(new)));
    assert_eq!(wide(P, right, no_name.marked(Marker::X)), Err(Refusal::Form));
    assert_eq!(wide(P, no_mask, no_name), Err(Refusal::Name));
    assert_eq!((wide(P, right, no_mask), wide(P, no_mask, right)), (Err(Refusal::Mask), Err(Refusal::Mask)));
    assert_eq!((wide(Kind::Filter, right, denial), wide(P, right, denial)), (Err(Refusal::Mask), Err(Refusal::NothingToTake)));
    assert_eq!(answer(1, WideMessage::new(P, None, Some(right))), Err(Refusal::NoRoom));
    let not_good = Block::from_bytes(vec![0; 40]).apply_wide([]);
    assert_eq!((Block::from_bytes(vec![]).apply_wide([]), not_good), (Err(Refusal::BlockLength), Err(Refusal::BlockNotGood)));
}

/// A refusal in the middle changes nothing, and is the first that is met, pair by pair.
#[test]
fn the_first_refusal_counts_and_nothing_is_applied() {
    let mut block = with_room(5);
    block.read_set(P, 1, "1;R;2;R65535").expect("room");
    block.read_set(P, 2, "1;R;2;U").expect("room");
    let before = block.clone();
    let read = |keys: &[Name], ids: &[Name]| Some(half(keys.iter().copied(), ids.iter().copied(), "R"));
    for (previous, new, refusal) in [
        (read(&[1, 2], &[1, 2]), None, Refusal::NothingToTake),
        (read(&[1, 2], &[1, 2]), read(&[1], &[2]), Refusal::NothingToTake),
        (None, read(&[1, 3, 4], &[1, 2]), Refusal::CountFull),
        (None, read(&[0, 1], &[1, 2]), Refusal::NoRoom),
        (read(&[1], &[1]), read(&[0, 1], &[2]), Refusal::CountFull),
        (read(&[1], &[2]), read(&[1], &[2, 3, 4]), Refusal::NoRoom),
    ] {
        let message = WideMessage::new(P, previous, new);
        assert_eq!(block.apply_wide(message), Err(refusal), "{message}");
        assert_eq!(block, before);
    }
    block.apply_wide(WideMessage::new(P, read(&[1], &[1, 2]), read(&[1], &[2, 3]))).expect("room");
    assert_eq!(block.set_text(P, 1), Ok("2;R65535;3;R".into()));
}

/// Some names of few.
fn some(rng: &mut Rng) -> Vec<Name> {
    (0..1 + rng.below(4)).map(|_| rng.below(5)).collect()
}

/// A wide message leaves the block that its pairs leave as plain messages, one after the other, if none of them is refused; else
/// the first refusal is its own.
#[test]
fn a_wide_message_is_its_pairs_one_by_one() {
    let (mut accepted, mut refused) = (0, [0; 9]);
    for seed in 0..200 {
        let mut rng = Rng(seed);
        let mut block = with_room(6 + seed as usize % 30);
        for _ in 0..40 {
            let [previous, new] = [3, 4].map(|most| (rng.below(most) > 1).then(|| half(some(&mut rng), some(&mut rng), "R")));
            let mut by_pairs = block.clone();
            let taken = previous.iter().flat_map(WideHalf::pairs).map(|pair| Message::new(P, Some(pair), None));
            let added = new.iter().flat_map(WideHalf::pairs).map(|pair| Message::new(P, None, Some(pair)));
            let steps: Vec<_> = taken.chain(added).collect();
            let one_by_one = steps.iter().try_for_each(|step| by_pairs.apply(step));
            let before = block.clone();
            let answered = block.apply_wide(WideMessage::new(P, previous, new));
            match answered {
                Ok(()) => assert_eq!((&block, one_by_one), (&by_pairs, Ok(()))),
                Err(_) => assert_eq!(block, before),
            }
            if !steps.is_empty() {
                assert_eq!(answered, one_by_one);
                accepted += usize::from(answered.is_ok());
                refused[answered.map_or_else(|refusal| refusal.number() as usize, |()| 0)] += 1;
            }
        }
    }
    assert!(accepted > 1_000 && refused[6] > 500 && refused[8] > 500, "{accepted}, {refused:?}");
}

/// Plain and wide are told apart by their lengths, and what is neither is refused.
#[test]
fn what_is_sent_is_plain_or_wide() {
    let one = half([7], [9], "R");
    let plain = Message::new(P, None, one.plain());
    let wide = WideMessage::new(P, None, Some(one));
    assert_eq!(Sent::new(P, None, Some(one)), plain.into());
    assert_eq!(Sent::new(P, Some(half([7, 8], [9], "R")), None).as_ref().len(), 16 + 2 * 3);
    assert_eq!(Sent::new(P, None, None), Message::new(P, None, None).into());
    for (sent, bytes) in [(Sent::from(plain), plain.as_ref()), (Sent::from(wide), wide.as_ref())] {
        assert_eq!((Sent::try_from(bytes), sent.as_ref()), (Ok(sent), bytes));
        assert_eq!((sent.kind(), sent.halves()), (Some(P), [None, Some(one)]));
        assert_eq!(sent.to_string(), "P, from nothing to key 7, id 9, R");
        let mut block = with_room(1);
        assert_eq!((sent.apply_to(&mut block), block.set_text(P, 7)), (Ok(()), Ok("9;R".into())));
    }
    for length in [0, 11, 13, 16, 19, 20, 80, 81] {
        assert_eq!(Sent::try_from(&vec![2; length][..]), Err(Refusal::Form));
    }
    assert_eq!((with_room(1).apply(wide), with_room(1).apply_wide(plain)), (Err(Refusal::Form), Err(Refusal::Form)));
}
