//! Blocks that are saved and loaded, and what faults do to them.

use crate::blocks::with_room;
use anaqsiro::{Block, Half, Kind, Message, NotLoaded, Refusal, Rights};
use second::gen::{self, Rng};
use std::ops::Range;

/// Where the names of a kind of thing are, and one of them.
const OBJECTS: Range<u64> = 1..200;
const PEOPLE: Range<u64> = 200..800;
const GROUPS: Range<u64> = 800..1000;

fn any(rng: &mut Rng, of: Range<u64>) -> u64 {
    of.start + rng.below(of.end - of.start)
}

/// A full block like a mill's: people in groups, groups in groups, objects in groups of objects, grants on those, and filters.
fn mill(memberships: usize, grants: usize, filters: usize) -> Block {
    let mut rng = Rng(42);
    let mut block = with_room(memberships + grants + filters);
    let sizes =
        |block: &Block| Kind::ALL.map(|kind| block.records().expect("good").filter(|record| record.kind == kind).count());
    for (kind, wanted) in Kind::ALL.into_iter().zip([memberships, grants, filters]) {
        while sizes(&block)[usize::from(kind.number()) - 1] < wanted {
            let (group, object) = (any(&mut rng, GROUPS), any(&mut rng, OBJECTS));
            let (key, id) = match (kind, rng.below(4)) {
                (Kind::Membership, 0) => (group, any(&mut rng, GROUPS)),
                (Kind::Membership, 1) => (object, any(&mut rng, OBJECTS)),
                (Kind::Membership, _) => (any(&mut rng, PEOPLE), group),
                (Kind::Permission, _) => (object, group),
                (Kind::Filter, _) => (object, rng.below(20)),
            };
            let mask = if rng.one_in(3) { Rights::ALL } else { Rights::READ };
            block.apply(Message::new(kind, None, Some(Half::new(key, id, mask)))).expect("room");
        }
    }
    block
}

/// Flips a bit.
fn flip(bytes: &mut [u8], bit: usize) {
    bytes[bit / 8] ^= 1 << (bit % 8);
}

/// The bits that can be flipped one at a time so that the bytes are another good block.
fn unseen(block: &Block) -> Vec<usize> {
    let mut block = block.clone();
    let mut found = Vec::new();
    for bit in 0..8 * block.bytes().len() {
        let mut bytes = block.into_bytes();
        flip(&mut bytes, bit);
        block = Block::from_bytes(bytes);
        if block.check().is_ok() {
            found.push(bit);
        }
        bytes = block.into_bytes();
        flip(&mut bytes, bit);
        block = Block::from_bytes(bytes);
    }
    found
}

/// Why a saved block has a checksum: of the single-bit faults in a block, more than half give another good block. None of these is
/// loaded.
#[test]
fn most_single_faults_are_not_seen_by_the_block() {
    let block = mill(1_258, 200, 40);
    let (bits, found) = (8 * block.bytes().len(), unseen(&block));
    println!(
        "{} of {bits} single-bit faults give another good block: {:.1} %",
        found.len(),
        100.0 * found.len() as f64 / bits as f64
    );
    assert_eq!((bits, found.len()), (287_744, 160_483));
    let mut saved = block.save().expect("good");
    for &bit in found.iter().step_by(101) {
        flip(&mut saved, 8 * FRONT + bit);
        assert_eq!(Block::load(&saved), Err(NotLoaded::Damaged));
        flip(&mut saved, 8 * FRONT + bit);
    }
    assert_eq!(Block::load(&saved), Ok(block));
}

/// The bytes of a saved block before the block itself, and those of the first of them that say that it is one.
const FRONT: usize = 12;
const MAGIC: usize = 8;

#[test]
fn every_single_fault_is_seen_by_the_checksum() {
    let block = mill(20, 10, 5);
    let mut saved = block.save().expect("good");
    for bit in 0..8 * saved.len() {
        flip(&mut saved, bit);
        let wanted = if bit < 8 * MAGIC { NotLoaded::NotSaved } else { NotLoaded::Damaged };
        assert_eq!(Block::load(&saved), Err(wanted), "bit {bit}");
        flip(&mut saved, bit);
    }
    assert_eq!(Block::load(&saved), Ok(block));
}

#[test]
fn two_faults_and_runs_of_faults_are_seen() {
    let saved = mill(20, 10, 5).save().expect("good");
    let mut rng = Rng(7);
    for _ in 0..20_000 {
        let [one, other] = [0, 1].map(|_| rng.below(8 * saved.len() as u64) as usize);
        let mut faulty = saved.clone();
        flip(&mut faulty, one);
        flip(&mut faulty, other);
        assert_eq!(Block::load(&faulty).is_ok(), one == other);
        let (start, length) = (rng.below(saved.len() as u64 - 4) as usize, 1 + rng.below(4) as usize);
        let mut faulty = saved.clone();
        faulty[start..start + length].iter_mut().for_each(|byte| *byte = rng.bits() as u8);
        assert_eq!(Block::load(&faulty).is_ok(), faulty == saved);
    }
}

#[test]
fn bytes_that_are_lost_or_added_are_seen() {
    let saved = mill(20, 10, 5).save().expect("good");
    for length in 0..saved.len() {
        let wanted = if length < MAGIC { NotLoaded::NotSaved } else { NotLoaded::Damaged };
        assert_eq!(Block::load(&saved[..length]), Err(wanted), "{length} bytes");
    }
    for more in [&b"\0"[..], b"\n", &saved] {
        assert_eq!(Block::load(&[&saved, more].concat()), Err(NotLoaded::Damaged));
    }
    assert_eq!(Block::load(&saved[FRONT..]), Err(NotLoaded::NotSaved));
}

/// Blocks of every shape and length go there and back.
#[test]
fn a_good_block_goes_there_and_back() {
    for seed in 0..200 {
        let block = Block::from_bytes(gen::index(&mut Rng(seed)).encode());
        let saved = block.save().expect("good");
        assert_eq!((saved.len(), &saved[..FRONT]), (FRONT + block.bytes().len() + 4, &b"anaqsiro\x02\0\0\0"[..]));
        assert_eq!(Block::load(&saved), Ok(block));
    }
}

#[test]
fn each_reason_has_its_words() {
    let reasons =
        [NotLoaded::NotSaved, NotLoaded::Damaged, NotLoaded::OtherVersion(7), NotLoaded::NotGood(Refusal::BlockNotGood)];
    let words = [
        "not a saved block",
        "a saved block that was damaged",
        "a saved block of version 7, not 2",
        "a saved block that is refused with 2: block not good",
    ];
    assert_eq!(reasons.map(|why| why.to_string()), words);
}
