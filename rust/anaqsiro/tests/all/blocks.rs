//! The block: its calls, its records, its room.

use anaqsiro::{Block, Half, Kind, Letters, Marker, Message, Name, Profile, Record, Refusal, Rights, NAMES};
use second::gen::{self, Rng};
use second::{Index, ALL, LETTERS, MARKERS, RIGHTS};
use std::thread;

/// A block with room for so many records.
pub fn with_room(room: usize) -> Block {
    Block::with_room(room).expect("room")
}

/// How long that block is.
fn length(room: usize) -> usize {
    Block::SHORTEST + Block::RECORD * room
}

/// The rights that a user holds on 9, where no denial reaches across records.
fn held(block: &Block, user: Name) -> Rights {
    block.rights(user, 9, Rights::ALL, Profile::Ordinary).expect("a good block").rights
}

#[test]
fn a_set_goes_there_and_back() {
    let mut block = with_room(4);
    assert_eq!(block.read_set(Kind::Permission, 7, "3;MRU;12;MRU2"), Ok(2));
    assert_eq!(block.set_text(Kind::Permission, 7).as_deref(), Ok("3;MRU;12;MRU2"));
    let before = block.clone();
    assert_eq!(block.read_set(Kind::Permission, 7, "3;M1"), Err(Refusal::Text { place: 4 }));
    assert_eq!(block.read_set(Kind::Permission, 8, "1;M;2;M;3;M"), Err(Refusal::NoRoom));
    assert_eq!(block, before);
    assert_eq!(block.write_set(Kind::Permission, 7, &mut [0; 12]), Err(Refusal::TextLong));
}

/// A text that is wrong where it ends, or from some character on, is cut at its place, whatever that character is.
#[test]
fn a_wrong_text_is_cut_at_its_place() {
    for (right, rest) in [("3;M", "0"), ("3;M1", ""), ("3;M", "ü;4;R"), ("", "³;M"), ("3;M;1023;R2", ";1023;U")] {
        let text = right.to_string() + rest;
        assert_eq!(with_room(0).read_set(Kind::Filter, 7, &text), Err(Refusal::Text { place: right.len() }));
        assert_eq!(text.split_at(right.len()), (right, rest));
    }
}

/// The longest text of all: every name as an id, and every count of a permission as long as it can be.
#[test]
fn the_longest_text_is_written() {
    let letters: String = LETTERS[..MARKERS.start].iter().map(|&letter| format!("{}65535", char::from(letter))).collect();
    let record = |id| format!("{id};{letters}");
    let text = (0..NAMES).map(record).collect::<Vec<_>>().join(";");
    let mut block = with_room(NAMES as usize);
    assert_eq!(block.read_set(Kind::Permission, 5, &text), Ok(NAMES as usize));
    assert_eq!(block.set_text(Kind::Permission, 5).as_ref(), Ok(&text));
    assert_eq!((text.len(), Block::LONGEST_TEXT), (54_185, 54_185));
}

/// Every mask of one statement: its rights, less those it denies, as the rule is told, and as 000's formula has it.
#[test]
fn a_statement_gives_its_rights_less_its_denials() {
    for mask in 1..=u8::MAX {
        let letters = Letters::from_mask(mask.into()).expect("below 256");
        let mut block = with_room(1);
        block.apply(Message::new(Kind::Permission, None, Some(Half::new(9, 1, letters)))).expect("room");
        let net = held(&block, 1);
        assert_eq!(net, letters.rights().without(letters.denied()), "{letters}");
        assert_eq!(net.mask(), ((mask >> 4) ^ 15) & mask, "{letters}");
    }
}

#[test]
fn denials_stay_in_their_record() {
    let mut block = with_room(4);
    let half = |id, mask: Letters| Some(Half::new(9, id, mask));
    block.apply(Message::new(Kind::Permission, None, half(1, Rights::ALL | Letters::NO_CREATE))).expect("room");
    block.apply(Message::new(Kind::Permission, None, half(2, Letters::CREATE))).expect("room");
    block.apply(Message::new(Kind::Membership, None, Some(Half::new(1, 2, Rights::ALL)))).expect("room");
    assert_eq!((held(&block, 1), held(&block, 2)), (Rights::ALL, Rights::CREATE));
    assert_eq!(block.rights(2, 9, Rights::NONE, Profile::Ordinary), Err(Refusal::Mask));
}

/// Every three masks of filters, two on the object and one on its group, a mask of 0 for no filter: each binds.
#[test]
fn every_filter_binds() {
    for masks in 0..1 << (3 * RIGHTS) {
        let filters = [(9, 20, masks & ALL), (9, 21, masks >> RIGHTS & ALL), (3, 20, masks >> (2 * RIGHTS))];
        let mut block = with_room(5);
        block.read_set(Kind::Permission, 9, "1;MRUP").expect("room");
        block.read_set(Kind::Membership, 9, "3;M").expect("room");
        let mut left = Rights::ALL.mask();
        for (key, id, mask) in filters.into_iter().filter(|filter| filter.2 != 0) {
            let letters = Letters::from_mask(mask).expect("below 256");
            block.apply(Message::new(Kind::Filter, None, Some(Half::new(key, id, letters)))).expect("room");
            left &= letters.mask();
        }
        assert_eq!(held(&block, 1).mask(), left, "{filters:?}");
    }
}

#[test]
fn room_that_can_not_be_is_refused() {
    assert_eq!((Block::SHORTEST, Block::RECORD, Block::LONGEST), (16, 24, 49_168));
    assert_eq!((length(1), Block::with_room(1).map(|block| block.into_bytes().len())), (40, Ok(40)));
    assert_eq!((Block::GREATEST_ROOM, Message::BYTES), (2_048, 12));
    let (shortest, one, longest, most) = (Block::SHORTEST, length(1), Block::LONGEST, Block::GREATEST_ROOM);
    for room in [0, 1, most - 1, most] {
        let block = with_room(room);
        assert_eq!((block.bytes().len(), block.room(), block.check()), (length(room), room, Ok(())));
    }
    for room in [most + 1, 2 * most, usize::MAX / Block::RECORD, usize::MAX] {
        assert_eq!(Block::with_room(room), Err(Refusal::BlockLength));
        assert_eq!(with_room(3).grow(room), Err(Refusal::BlockLength));
    }
    let lengths = [0, shortest - 1, shortest, one - 1, one, longest - 1, longest, longest + 1];
    let rooms = lengths.map(|length| Block::from_bytes(vec![0; length]).room());
    assert_eq!(rooms, [0, 0, 0, 0, 1, most - 1, most, 0]);
}

#[test]
fn a_block_that_is_not_good_is_refused_everywhere() {
    let short = Block::from_bytes(vec![0; Block::SHORTEST - 1]);
    let wrong = Block::from_bytes(vec![0; length(1)]);
    for (mut block, refusal) in [(short, Refusal::BlockLength), (wrong, Refusal::BlockNotGood)] {
        let before = block.clone();
        assert_eq!(block.check(), Err(refusal));
        assert_eq!(block.records().err(), Some(refusal));
        assert_eq!(block.mentions(1024).err(), Some(refusal));
        assert_eq!(block.grow(4), Err(refusal));
        assert_eq!(block.grow(2 * Block::GREATEST_ROOM), Err(refusal));
        assert_eq!(block.save(), Err(refusal));
        assert_eq!(block.apply([0u8; 3]), Err(refusal));
        assert_eq!(block, before);
    }
    assert_eq!(Block::from_bytes(vec![]).clear(), Err(Refusal::BlockLength));
    assert_eq!(with_room(1).apply([0u8; 3]), Err(Refusal::Form));
    assert_eq!(format!("{:?}", Block::from_bytes(vec![])), "Block of 0 bytes (refused with 1: block length not 16 to 49,168)");
}

/// The records of a decoded block, in the crate's own words.
fn records_of(index: &Index) -> Vec<Record> {
    let part = |(kind, part): (Kind, &second::Part)| {
        let record = move |(&(key, id), &counts): (&(u16, u16), &second::Counts)| Record {
            kind,
            key: key.into(),
            id: id.into(),
            counts,
        };
        part.iter().map(record).collect::<Vec<_>>()
    };
    Kind::ALL.into_iter().zip(&index.parts).flat_map(part).collect()
}

/// Blocks of every shape: the records are those that the second program decodes, and the text of a record is that of a set
/// with it alone.
#[test]
fn records_are_those_of_the_block() {
    let (mut met, mut most) = ([0; 3], 0);
    for seed in 0..1_000 {
        let index = gen::index(&mut Rng(seed));
        let block = Block::from_bytes(index.encode());
        let (records, wanted) = (block.records().expect("good"), records_of(&index));
        assert_eq!((records.len(), records.clone().count()), (wanted.len(), wanted.len()));
        assert!(records.eq(wanted.iter().copied()));
        for record in &wanted {
            met[usize::from(record.kind.number()) - 1] += 1;
            let set = second::text(&[(record.id as u16, record.counts)].into());
            let text = String::from_utf8(set).expect("a text");
            assert_eq!(record.to_string(), format!("{}{} {text}", record.kind.letter(), record.key));
        }
        most = most.max(wanted.len());
    }
    assert!(
        met.iter().all(|&records| records > 1_000) && most >= Block::GREATEST_ROOM - 2,
        "met {met:?} records of each kind, {most} in one block"
    );
}

#[test]
fn records_end_and_stay_ended() {
    let mut block = with_room(3);
    block.read_set(Kind::Filter, 4, "20;RU;21;R").expect("room");
    let mut records = block.records().expect("good");
    assert_eq!((records.len(), records.next().map(|record| record.id)), (2, Some(20)));
    assert_eq!((records.len(), records.next().map(|record| record.id)), (1, Some(21)));
    assert_eq!((records.len(), records.next(), records.next()), (0, None, None));
    assert_eq!(format!("{block:?}"), format!(r#"Block of {} bytes ["F4 20;RU", "F4 21;R"]"#, length(3)));
}

#[test]
fn a_record_tells_its_letters() {
    let mut block = with_room(1);
    block.read_set(Kind::Permission, 9, "1;MU3p65535").expect("room");
    let record = block.records().expect("good").next().expect("a record");
    assert_eq!(record.letters().to_string(), "MUp");
    assert_eq!(
        "MRUPmrupXNQ;".chars().map(|letter| record.count(letter)).collect::<Vec<_>>(),
        [1, 0, 3, 0, 0, 0, 0, 65_535, 0, 0, 0, 0]
    );
}

/// A record with a marker, and one with nothing else: what each tells, and that the second is no membership.
#[test]
fn a_record_tells_its_markers() {
    let mut block = with_room(3);
    block.read_set(Kind::Membership, 1, "2;RX3;3;N").expect("room");
    block.read_set(Kind::Permission, 9, "3;R").expect("room");
    let records: Vec<Record> = block.records().expect("good").take(2).collect();
    let told = |record: &Record| (record.letters().to_string(), Marker::ALL.map(|marker| record.count(marker.letter())));
    assert_eq!(records.iter().map(told).collect::<Vec<_>>(), [("R".to_string(), [3, 0]), ("-".to_string(), [0, 1])]);
    assert_eq!(records[0].to_string(), "M1 2;RX3");
    assert_eq!(held(&block, 1), Rights::NONE);
    block.read_set(Kind::Membership, 1, "3;RN").expect("room");
    assert_eq!(held(&block, 1), Rights::READ);
}

/// Two firms share a block: who is bound to one sees its objects and those of no firm, by a directory too.
#[test]
fn firms_are_kept_apart() {
    let mut block = with_room(40);
    let half = |name, group| Half::new(name, group, Rights::ALL);
    let (bound, free) = ([(1, 20), (2, 30)], [(3, 20), (5, 20), (6, 30), (7, 40)]);
    for (name, group) in bound {
        block.apply(Message::new(Kind::Membership, None, Some(half(name, group).marked(Marker::X)))).expect("room");
    }
    for (name, group) in free {
        block.apply(Message::new(Kind::Membership, None, Some(half(name, group)))).expect("room");
    }
    block.read_set(Kind::Permission, 0, "1;R;2;R;3;R;4;R").expect("room");
    let directed = block.clone().with_directory().expect("good");
    for (user, open) in [(1, [5, 8]), (2, [6, 8])] {
        for object in 5..9 {
            let wanted = Ok(open.contains(&object));
            for profile in Profile::ALL {
                assert_eq!(block.may(user, object, Rights::READ, profile), wanted, "{user} {object}");
                assert_eq!(directed.may(user, object, Rights::READ, profile), wanted, "{user} {object}");
            }
        }
    }
    let may_read = |block: &Block, user, object| block.may(user, object, Rights::READ, Profile::Ordinary) == Ok(true);
    assert!((3..5).all(|user| (5..9).all(|object| may_read(&block, user, object))));
    let taken = Message::new(Kind::Membership, Some(half(1, 20).marked(Marker::X)), Some(half(1, 20).marked(Marker::N)));
    block.apply(taken).expect("it stands");
    assert!((5..9).all(|object| may_read(&block, 1, object)), "bound no more");
}

/// The records that name a name, as key, as id, as both: those that the second program finds, and each way is met.
#[test]
fn mentions_are_found() {
    let mut met = [0; 4];
    for seed in 0..100 {
        let index = gen::index(&mut Rng(seed));
        let block = Block::from_bytes(index.encode());
        for name in [0, 1, 5, 100, 1023] {
            let all = records_of(&index);
            all.iter().for_each(|record| met[usize::from(record.key == name) + 2 * usize::from(record.id == name)] += 1);
            let wanted = all.into_iter().filter(|record| [record.key, record.id].contains(&name));
            assert!(block.mentions(name).expect("good").eq(wanted));
        }
    }
    assert!(met.iter().all(|&records| records > 10), "{met:?}");
}

/// A block that grew is the block with the same records that is longer, and takes more.
#[test]
fn a_block_grows_and_keeps_its_records() {
    let (mut longer, mut left_alone) = (0, 0);
    for seed in 0..300 {
        let mut rng = Rng(seed);
        let mut index = gen::index(&mut rng);
        let mut block = Block::from_bytes(index.encode());
        let most = rng.pick(&[20, 100, Block::GREATEST_ROOM as u64 + 1]);
        let room = rng.below(most) as usize;
        let before = block.clone();
        block.grow(room).expect("good, and not too long");
        if length(room) > index.length {
            index.length = length(room);
            longer += 1;
        } else {
            left_alone += 1;
            assert_eq!(block, before);
        }
        assert_eq!((block.bytes(), block.check()), (&index.encode()[..], Ok(())));
        assert!(block.room() >= room);
    }
    assert!(longer > 50 && left_alone > 20, "{longer} grew, {left_alone} were left alone");
}

#[test]
fn threads_share_nothing() {
    let history = |first: u64| {
        let mut block = with_room(60);
        for n in 0..4_000 {
            let mask = Letters::from_mask(1 + n % ALL).expect("a mask");
            let half = Some(Half::new((first + 7 * n) % 8, (first + 11 * n) % 9, mask));
            let (previous, new) = if n % 3 == 2 { (half, None) } else { (None, half) };
            let kind = [Kind::Membership, Kind::Permission][n as usize % 2];
            let _ = block.apply(Message::new(kind, previous, new));
        }
        let profile = |n: u64| Profile::ALL[n as usize % 2];
        let answers: Vec<_> = (0..162).map(|n| block.rights(n / 18, n / 2 % 9, Rights::ALL, profile(n))).collect();
        (block, answers)
    };
    let alone: Vec<_> = (0..4).map(history).collect();
    let together: Vec<_> = thread::scope(|scope| {
        let threads: Vec<_> = (0..4).map(|first| scope.spawn(move || history(first))).collect();
        threads.into_iter().map(|thread| thread.join().expect("no panic")).collect()
    });
    assert!(alone.iter().all(|(_, answers)| answers.iter().any(|held| held.is_ok_and(|held| !held.rights.is_empty()))));
    assert_eq!(alone, together);
}
