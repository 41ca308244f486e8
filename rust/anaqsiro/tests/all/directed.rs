//! A block with its directory: the entries, the calls, and that the two stay together.

use crate::blocks::with_room;
use anaqsiro::{Block, DirectedBlock, Half, Held, Kind, Letters, Marker, Message, Name, NotDirected, Profile, Refusal};
use anaqsiro::{Rights, Sent, WideHalf, WideMessage, NAMES};
use second::gen::Rng;
use std::panic::{catch_unwind, AssertUnwindSafe};
use std::thread;

/// Where a record stands, by its number among all of the block.
fn offset(number: usize) -> u16 {
    u16::try_from(Block::SHORTEST + Block::RECORD * number).expect("a block is not longer")
}

/// The block's own directory, record by record: in the part of a kind, a key's records begin after those of all keys below.
fn own(block: &Block) -> Vec<u16> {
    let records: Vec<_> = block.records().expect("good").collect();
    let before = |kind: Kind, key: Name| records.iter().filter(|record| (record.kind, record.key) < (kind, key)).count();
    let all = Kind::ALL.into_iter().flat_map(|kind| (0..=NAMES).map(move |key| (kind, key)));
    all.map(|(kind, key)| offset(before(kind, key))).collect()
}

/// The block with its directory.
fn with_directory(block: Block) -> DirectedBlock {
    block.with_directory().expect("a good block")
}

/// Two memberships, three permissions, and no filter.
fn mill() -> Block {
    let mut block = with_room(8);
    for (kind, key, text) in [
        (Kind::Membership, 1, "2;MRUP"),
        (Kind::Membership, 1023, "2;R"),
        (Kind::Permission, 0, "1;R"),
        (Kind::Permission, 9, "2;RU;3;Mp"),
    ] {
        block.read_set(kind, key, text).expect("room");
    }
    block
}

#[test]
fn the_entries_are_those_of_the_rules() {
    assert_eq!((DirectedBlock::PART, DirectedBlock::DIRECTORY), (1_025, 3_075));
    let directed = with_directory(mill());
    let parts: Vec<&[u16]> = directed.directory().chunks(DirectedBlock::PART).collect();
    let [memberships, permissions, filters] = parts[..] else { panic!("three parts") };
    assert_eq!([0, 1, 2, 1_023, 1_024].map(|key| memberships[key]), [0, 0, 1, 1, 2].map(offset));
    assert_eq!([0, 1, 9, 10, 1_024].map(|key| permissions[key]), [2, 3, 3, 5, 5].map(offset));
    assert!(filters.iter().all(|&entry| entry == offset(5)));
    assert_eq!(directed.directory(), own(directed.block()));
    assert!(with_directory(with_room(0)).directory().iter().all(|&entry| entry == offset(0)));
}

/// A full block: its last entry, the greatest that there is, fits 16 bits.
#[test]
fn the_entries_of_a_full_block_fit() {
    let mut block = with_room(Block::GREATEST_ROOM);
    let ids = (0..NAMES).map(|id| format!("{id};R")).collect::<Vec<_>>().join(";");
    assert_eq!(block.read_set(Kind::Membership, 0, &ids), Ok(NAMES as usize));
    assert_eq!(block.read_set(Kind::Filter, 1023, &ids), Ok(NAMES as usize));
    let directed = with_directory(block);
    assert_eq!(directed.directory(), own(directed.block()));
    assert_eq!(directed.directory().last().copied().map(usize::from), Some(Block::LONGEST));
}

/// Entries that a host kept are taken where they are the block's own, and else the block comes back.
#[test]
fn another_directory_is_refused() {
    let (block, entries) = (mill(), own(&mill()));
    assert_eq!(DirectedBlock::from_parts(block.clone(), &entries), Ok(with_directory(mill())));
    let refused = |refusal| Err(NotDirected { block: mill(), refusal });
    for at in 0..entries.len() {
        let mut other = entries.clone();
        other[at] += Block::RECORD as u16;
        assert_eq!(DirectedBlock::from_parts(block.clone(), &other), refused(Refusal::DirectoryNotOwn), "the entry {at}");
    }
    for wrong in [&entries[1..], &entries[..entries.len() - 1], &[], &[&entries[..], &[offset(5)]].concat()] {
        assert_eq!(DirectedBlock::from_parts(block.clone(), wrong), refused(Refusal::DirectoryNotOwn));
    }
}

/// The block is looked at first, and comes back.
#[test]
fn only_a_good_block_has_one() {
    for (bytes, refusal) in [(vec![0; Block::SHORTEST - 1], Refusal::BlockLength), (vec![0; 40], Refusal::BlockNotGood)] {
        let block = Block::from_bytes(bytes);
        let not = NotDirected { block: block.clone(), refusal };
        assert_eq!(block.clone().with_directory(), Err(not.clone()));
        assert_eq!(DirectedBlock::from_parts(block, &[]), Err(not.clone()));
        assert_eq!((not.to_string(), Refusal::from(not)), (refusal.to_string(), refusal));
    }
    let said = "refused with 13: the lent directory has the wrong length or is not the block's own";
    assert_eq!(Refusal::DirectoryNotOwn.to_string(), said);
}

/// A change of a block.
enum Change {
    Sent(Sent),
    Text(Kind, Name, &'static str),
}

impl Change {
    /// One that comes at random, with few names, so that many have what they take.
    fn any(rng: &mut Rng) -> Change {
        let kind = Kind::ALL[rng.below(3) as usize];
        if rng.one_in(4) {
            let text = ["", "1;M", "0;R;3;U", "1;M;2;R2;1023;P", "3;M1", "4;RM", "2;MRUPX", "0;N"][rng.below(8) as usize];
            return Change::Text(kind, any_name(rng), text);
        }
        let flags = 1 + rng.below(3);
        if rng.one_in(3) {
            let [previous, new] = [1, 2].map(|side| (flags & side > 0).then(|| any_wide_half(rng)));
            return Change::Sent(WideMessage::new(kind, previous, new).into());
        }
        let [previous, new] = [1, 2].map(|side| (flags & side > 0).then(|| any_half(rng)));
        Change::Sent(Message::new(kind, previous, new).into())
    }

    /// What a block answers to it.
    fn on_block(&self, block: &mut Block) -> Result<usize, Refusal> {
        match *self {
            Change::Sent(sent) => sent.apply_to(block).map(|()| 0),
            Change::Text(kind, key, text) => block.read_set(kind, key, text),
        }
    }

    /// What a block with its directory answers to it.
    fn on_both(&self, directed: &mut DirectedBlock) -> Result<usize, Refusal> {
        match *self {
            Change::Sent(Sent::Plain(message)) => directed.apply(message).map(|()| 0),
            Change::Sent(Sent::Wide(message)) => directed.apply_wide(message).map(|()| 0),
            Change::Text(kind, key, text) => directed.read_set(kind, key, text),
        }
    }
}

fn any_name(rng: &mut Rng) -> Name {
    let far = [0, 700, 1023, 1024][rng.below(4) as usize];
    if rng.one_in(8) {
        far
    } else {
        rng.below(6)
    }
}

fn any_half(rng: &mut Rng) -> Half {
    let most = if rng.one_in(9) { 1 << u8::BITS } else { 4 };
    let half = Half::new(any_name(rng), rng.below(3), Letters::from_mask(rng.below(most)).expect("a mask"));
    let marker = [Some(Marker::X), Some(Marker::N)].into_iter().find(|_| rng.one_in(8)).flatten();
    Half { marker, ..half }
}

/// The letters and the marker of a half at random, for one to three keys and as many ids.
fn any_wide_half(rng: &mut Rng) -> WideHalf {
    let [half, other, third] = [any_half(rng), any_half(rng), any_half(rng)];
    let half_of_many = WideHalf::new([half.key, other.key], [half.id, other.id, third.id], half.mask).expect("names");
    half.marker.map_or(half_of_many, |marker| half_of_many.marked(marker))
}

/// Changes, the refused ones among them, leave the block and answer as they do without a directory, and leave the block's own.
#[test]
fn the_two_stay_together() {
    let (mut accepted, mut refused) = (0, [0; 10]);
    for seed in 0..60 {
        let mut rng = Rng(seed);
        let mut block = with_room(2 + 2 * seed as usize % 40);
        let mut directed = with_directory(block.clone());
        for _ in 0..100 {
            let change = Change::any(&mut rng);
            let by = change.on_both(&mut directed);
            assert_eq!(by, change.on_block(&mut block));
            assert_eq!(directed.block(), &block);
            assert_eq!(directed.directory(), with_directory(block.clone()).directory());
            match by {
                Ok(_) => accepted += 1,
                Err(refusal) => refused[refusal.number() as usize] += 1,
            }
        }
        assert_eq!(directed.directory(), own(&block));
    }
    assert!(accepted > 1_000 && [4, 5, 6, 8, 9].iter().all(|&number| refused[number] > 20), "{accepted}, {refused:?}");
}

/// What is asked and written by the directory is what is asked and written without it.
#[test]
fn questions_and_texts_are_the_same() {
    let requests = [Rights::NONE, Rights::READ, Rights::ALL];
    let asked = requests.into_iter().flat_map(|request| Profile::ALL.map(|profile| (request, profile)));
    let mut held = 0;
    for seed in 0..40 {
        let mut rng = Rng(seed);
        let mut directed = with_directory(with_room(60));
        for _ in 0..120 {
            let _ = Change::any(&mut rng).on_both(&mut directed);
        }
        let block = directed.block();
        for (user, object) in (0..7).flat_map(|user| [0, 1, 2, 3, 4, 5, 700, 1_023, 1_024].map(|object| (user, object))) {
            for (request, profile) in asked.clone() {
                assert_eq!(directed.rights(user, object, request, profile), block.rights(user, object, request, profile));
                assert_eq!(directed.may(user, object, request, profile), block.may(user, object, request, profile));
                held += usize::from(directed.may(user, object, request, profile) == Ok(true));
            }
            for kind in Kind::ALL {
                assert_eq!(directed.set_text(kind, object), block.set_text(kind, object));
                assert_eq!(directed.write_set(kind, object, &mut [0; 3]), block.write_set(kind, object, &mut [0; 3]));
            }
        }
    }
    assert!(held > 100, "{held}");
}

/// More room leaves the directory as it is, and so does room that there can not be.
#[test]
fn a_block_grows_with_its_directory() {
    let mut directed = with_directory(mill());
    assert_eq!(directed.grow(Block::GREATEST_ROOM + 1), Err(Refusal::BlockLength));
    assert_eq!(directed, with_directory(mill()));
    assert_eq!(directed.read_set(Kind::Filter, 9, "1;R;2;R;3;R;4;R"), Err(Refusal::NoRoom));
    directed.grow(9).expect("room");
    assert_eq!(directed.directory(), own(&mill()));
    assert_eq!(directed.read_set(Kind::Filter, 9, "1;R;2;R;3;R;4;R"), Ok(4));
    assert_eq!(directed.directory(), own(directed.block()));
    assert_eq!(directed.clone().into_block(), *directed.block());
}

/// A cleared block is as long as it was, also where that is no whole number of records, and has the directory of an empty one.
#[test]
fn a_block_is_cleared_with_its_directory() {
    for more in [0, 7] {
        let mut block = Block::from_bytes([mill().bytes(), &vec![0; more]].concat());
        let mut directed = with_directory(block.clone());
        assert_eq!((directed.clear(), block.clear()), (Ok(()), Ok(())));
        assert_eq!(directed.block(), &block);
        assert_eq!(directed.directory(), own(&block));
        assert_eq!(directed.may(1, 9, Rights::UPDATE, Profile::Ordinary), Ok(false));
        assert_eq!(directed.read_set(Kind::Permission, 9, "1;U"), Ok(1));
        assert_eq!(directed.may(1, 9, Rights::UPDATE, Profile::Ordinary), Ok(true));
    }
}

/// A message whose bytes can not be had.
struct Lost;

impl AsRef<[u8]> for Lost {
    fn as_ref(&self) -> &[u8] {
        panic!("lost")
    }
}

#[test]
fn a_panic_leaves_both_as_they_were() {
    let mut directed = with_directory(mill());
    assert!(catch_unwind(AssertUnwindSafe(|| directed.apply(Lost))).is_err());
    assert!(catch_unwind(AssertUnwindSafe(|| directed.apply_wide(Lost))).is_err());
    assert!(catch_unwind(AssertUnwindSafe(|| directed.read_set(Kind::Filter, 1, Lost))).is_err());
    assert_eq!(directed, with_directory(mill()));
}

/// What each user holds on each object in each profile, by what answers the question.
fn all_held(rights: impl Fn(Name, Name, Profile) -> Result<Held, Refusal>) -> Vec<[Held; 2]> {
    let pairs = (0..NAMES).step_by(11).chain([1]).flat_map(|user| (0..20).map(move |object| (user, object)));
    pairs.map(|(user, object)| Profile::ALL.map(|profile| rights(user, object, profile).expect("names"))).collect()
}

/// Several threads may ask one, as they may a block, and another may take it over. Each hears what the block alone answers.
#[test]
fn threads_share_it() {
    let (block, directed) = (mill(), with_directory(mill()));
    let alone = all_held(|user, object, profile| block.rights(user, object, Rights::ALL, profile));
    let by = |directed: &DirectedBlock| all_held(|user, object, profile| directed.rights(user, object, Rights::ALL, profile));
    let together = thread::scope(|scope| {
        let threads = [0, 1].map(|_| scope.spawn(|| by(&directed)));
        threads.map(|thread| thread.join().expect("no panic"))
    });
    assert!(alone.iter().flatten().any(|held| held.rights == Rights::READ | Rights::UPDATE));
    assert_eq!(together, [alone.clone(), alone.clone()]);
    assert_eq!(thread::spawn(move || by(&directed)).join().expect("no panic"), alone);
}

#[test]
fn it_is_shown_as_its_block() {
    assert_eq!(format!("{:?}", with_directory(mill())), format!("{:?} with its directory", mill()));
}
