//! How many membership records a question examines.

use crate::blocks::with_room;
use anaqsiro::{raw, Block, Held, Kind, Name, Profile, Refusal, Rights};
use second::ALL;

/// The groups of the names 1 to 5: each right comes to 2, 3, 4 and 5 in a round of its own.
const IN_TURN: [(Name, &str); 5] = [(1, "2;M;3;R;4;U;5;P"), (2, "3;MRUP"), (3, "4;MRUP"), (4, "5;MRUP"), (5, "2;MRUP")];

/// A block in which names have these groups.
fn with_groups<T: AsRef<[u8]>>(groups: impl IntoIterator<Item = (Name, T)>) -> Block {
    let mut block = with_room(Block::GREATEST_ROOM);
    for (name, groups) in groups {
        block.read_set(Kind::Membership, name, groups).expect("room");
    }
    block
}

/// How many are examined on the user's side and on the object's, which is the same in both profiles.
fn examined(block: &Block, user: Name, object: Name) -> (u32, u32) {
    let [ordinary, strict] = Profile::ALL.map(|profile| {
        let held = block.rights(user, object, Rights::ALL, profile).expect("a good block");
        (held.user_examined, held.object_examined)
    });
    assert_eq!(ordinary, strict);
    ordinary
}

/// A record is examined once for each round in which its key gains rights.
#[test]
fn records_are_examined_when_their_key_gains_rights() {
    let block = with_groups(IN_TURN);
    assert_eq!(examined(&block, 1, 9), (4 + 4 * 4, 0));
    assert_eq!(examined(&block, 9, 1), (0, 20));
    assert_eq!(examined(&block, 1, 1), (20, 20));
    assert_eq!(examined(&block, 2, 1), (4, 20));
    assert_eq!(examined(&with_groups([(1, "2;R")]), 1, 9), (1, 0));
    assert_eq!(examined(&with_groups([(1, "1;R")]), 1, 9), (1, 0));
    assert_eq!(examined(&with_room(0), 1, 9), (0, 0));
}

/// A chain of 40 records: no more than 32 of them are examined, from wherever it is walked.
#[test]
fn rounds_are_32() {
    let block = with_groups((100..140).map(|name| (name, format!("{};MRUP", name + 1))));
    assert_eq!(examined(&block, 100, 107), (32, 32));
    assert_eq!(examined(&block, 108, 109), (32, 31));
    assert_eq!(examined(&block, 139, 140), (1, 0));
}

/// Name 0 counts in full for every object, but its memberships are examined only where a chain reaches it.
#[test]
fn name_0_is_examined_where_it_is_reached() {
    let block = with_groups([(0, "5;MRUP;6;R"), (8, "0;R")]);
    assert_eq!(examined(&block, 1, 9), (0, 0));
    assert_eq!(examined(&block, 1, 8), (0, 3));
    assert_eq!(examined(&block, 0, 0), (2, 2));
}

/// Every request gets the same numbers in each profile, before and after there are permissions, denials and filters.
#[test]
fn request_profile_permissions_and_filters_have_no_part_in_it() {
    let mut block = with_groups(IN_TURN.into_iter().chain([(9, "1;R")]));
    let answered = |block: &Block, held: [Rights; 2]| {
        for request in (1..=ALL).filter_map(Rights::from_mask) {
            let wanted = held.map(|held| Ok(Held { rights: held & request, user_examined: 20, object_examined: 9 }));
            assert_eq!(Profile::ALL.map(|profile| block.rights(1, 9, request, profile)), wanted);
        }
    };
    answered(&block, [Rights::NONE; 2]);
    block.read_set(Kind::Permission, 9, "5;MRUP").expect("room");
    answered(&block, [Rights::ALL; 2]);
    block.read_set(Kind::Permission, 1, "2;r").expect("room");
    answered(&block, [Rights::ALL, Rights::ALL.without(Rights::READ)]);
    block.read_set(Kind::Filter, 9, "20;RU").expect("room");
    answered(&block, [Rights::READ | Rights::UPDATE, Rights::UPDATE]);
    block.read_set(Kind::Filter, 1, "20;MP").expect("room");
    answered(&block, [Rights::NONE; 2]);
}

/// A full block of which nearly every record is examined four times on both sides.
#[test]
fn the_numbers_of_a_full_block_fit() {
    let others: String = (100..610).map(|id| format!(";{id};M")).collect();
    let block = with_groups(IN_TURN.map(|(name, groups)| (name, groups.to_string() + if name == 1 { "" } else { &others })));
    assert_eq!(block.records().expect("good").len(), Block::GREATEST_ROOM);
    let all = 4 + 4 * (Block::GREATEST_ROOM as u32 - 4);
    assert_eq!(examined(&block, 1, 1), (all, all));
    assert_eq!(Held::MOST_EXAMINED, 8_192);
}

/// The answer to a refused question is the refusal's number and nothing else.
#[test]
fn a_refused_question_reports_nothing() {
    let block = with_groups(IN_TURN);
    let asked = |(length, object, request, profile)| {
        // SAFETY: no length is above that of the block.
        unsafe { raw::anaqsiro_rights(block.bytes().as_ptr(), length, 1, object, request, profile) }
    };
    let (short, part, whole) = (Block::SHORTEST - 1, Block::SHORTEST + Block::RECORD, block.bytes().len());
    let refused = [(short, 9, ALL, 0), (part, 9, ALL, 1), (whole, 1024, ALL, 0), (whole, 9, ALL + 1, 1), (whole, 9, ALL, 2)];
    assert_eq!(refused.map(asked), [1, 2, 4, 5, 15].map(|number| number << 32));
    assert_eq!(block.rights(1, 1024, Rights::ALL, Profile::Strict), Err(Refusal::Name));
}
