//! What bears: each clause of the list and its borders; the numbers; every chain of small blocks; and that blocks which agree on what
//! is listed give equal answers.

use super::*;
use crate::bearing::{leads, Listed, BEARING};
use crate::bound::member;
use crate::gen::Rng;
use crate::tests::{block, Record};

/// Whether a record bears on user 1 and object 9, whether the block has it or not.
fn yes(records: &[Record], (part, key, id): (usize, u16, u16)) -> bool {
    let b = block(records.len(), records);
    let (number, value) = bears(&b, 1, 9, part as u64 + 1, key.into(), id.into());
    assert!(number == 0 && value <= 1);
    value == 1
}

/// A chain of so many memberships from a name over names from 100 times that number on, and the name at its end. Each carries another
/// right than the one before.
fn chain(start: u16, records: u16) -> (Vec<Record>, u16) {
    let name = |n: u16| if n == 0 { start } else { 100 * start + n };
    ((0..records).map(|n| (M, name(n), name(n + 1), 1 << (n % 4))).collect(), name(records))
}

/// The key of an M record is reached by 31 records at most, from either side.
#[test]
fn memberships() {
    for (records, bears) in [(0, true), (1, true), (30, true), (31, true), (32, false), (33, false)] {
        for start in [1, 9] {
            let (to, end) = chain(start, records);
            assert_eq!(yes(&to, (M, end, 600)), bears, "{start} {records}");
            let itself = [&to[..], &[(M, end, 600, 1)]].concat();
            assert_eq!(yes(&itself, (M, end, 600)), bears, "{start} {records}, and the block has it");
            let bare = [&to[..], &[(M, end, 600, 1 << X)]].concat();
            assert_eq!(yes(&bare, (M, end, 600)), bears, "{start} {records}, and it has a marker alone");
        }
    }
    assert!(!yes(&[], (M, 600, 1)) && !yes(&[], (M, 600, 9)), "the id has no part in it");
    assert!(!yes(&[], (M, 0, 1)), "name 0 is nothing special");
    assert!(yes(&[(M, 1, 0, 1)], (M, 0, 5)));
}

/// The key of a P record is reached from the object by 32 records at most or is 0, and its id from the user by 32 at most.
#[test]
fn permissions() {
    for (records, bears) in [(0, true), (1, true), (31, true), (32, true), (33, false), (34, false)] {
        let ((hers, id), (its, key)) = (chain(1, records), chain(9, records));
        assert_eq!(yes(&hers, (P, 9, id)), bears, "{records}");
        assert_eq!(yes(&hers, (P, 0, id)), bears, "{records}, on 0");
        assert_eq!(yes(&its, (P, key, 1)), bears, "{records}");
        assert_eq!(yes(&[hers, its].concat(), (P, key, id)), bears, "{records}, both");
    }
    assert!(!yes(&[], (P, 1, 9)), "user and object have changed places");
    assert!(!yes(&[], (P, 9, 0)) && !yes(&[], (P, 0, 0)), "name 0 as an id is a name as any");
    assert!(!yes(&[], (P, 9, 2)) && !yes(&[], (P, 2, 1)), "both sides are asked for");
    assert!(!yes(&[(M, 1, 8, 1), (M, 9, 7, 1)], (P, 8, 7)), "each side has its own");
    assert!(!yes(&[(M, 0, 7, 15)], (P, 7, 1)), "the groups of 0 are not those of every object");
    assert!(yes(&[(M, 0, 7, 15), (M, 9, 0, 1)], (P, 7, 1)));
}

/// An F record of the object, or of a group that its own memberships name.
#[test]
fn filters() {
    let groups = [(M, 9, 7, 1), (M, 9, 6, 8 | 1 << N | 1 << X), (M, 9, 5, 1 << X), (M, 7, 4, 15), (M, 1, 3, 15)];
    assert!(yes(&[], (F, 9, 600)) && yes(&groups, (F, 9, 600)));
    assert!(yes(&groups, (F, 7, 600)) && yes(&groups, (F, 6, 600)));
    assert!(!yes(&groups, (F, 5, 600)), "markers alone name no group");
    assert!(!yes(&groups, (F, 4, 600)), "a group's group");
    assert!(!yes(&groups, (F, 3, 600)) && !yes(&groups, (F, 1, 600)), "the user's own");
    assert!(!yes(&groups, (F, 0, 600)) && !yes(&groups, (F, 600, 9)) && !yes(&groups, (F, 600, 7)));
    assert!(yes(&[(M, 9, 0, 1)], (F, 0, 600)));
}

/// Masks and markers have no part in reaching, but a record with markers alone gives no chain.
#[test]
fn what_a_chain_goes_over() {
    let over = |mask: u64| {
        let to = [(M, 1, 8, mask), (M, 9, 7, mask)];
        let all = [yes(&to, (M, 8, 2)), yes(&to, (M, 7, 2)), yes(&to, (P, 9, 8)), yes(&to, (P, 7, 1)), yes(&to, (F, 7, 2))];
        assert!(all.iter().all(|one| *one == all[0]), "{mask}: {all:?}");
        all[0]
    };
    assert!([1, 2, 4, 8, 15, 1 | 1 << X, 2 | 1 << N, 8 | 1 << X | 1 << N].into_iter().all(over));
    assert!(![1 << X, 1 << N, 1 << X | 1 << N].into_iter().any(over));
    let crossed = [(M, 1, 8, 1), (M, 8, 7, 2), (M, 7, 6, 4)];
    assert!(yes(&crossed, (M, 6, 2)) && yes(&crossed, (P, 9, 6)), "no right is carried all the way");
    assert!(!yes(&[(M, 8, 1, 15), (M, 7, 9, 15)], (M, 8, 2)), "members lead there, it leads to no members");
}

/// Loops are harmless; a longer way besides does not make a name further off, nor a loop bring it nearer.
#[test]
fn loops() {
    let (to, end) = chain(1, 31);
    let looped = [&to[..], &[(M, 1, 1, 15), (M, end, 1, 15), (M, end, end, 15), (M, end, 600, 1)]].concat();
    assert!(yes(&looped, (M, end, 600)) && !yes(&looped, (M, 600, 2)) && yes(&looped, (P, 9, 600)));
    let shorter = [&looped[..], &[(M, 110, 112, 2)]].concat();
    assert!(yes(&shorter, (M, 600, 2)));
}

/// A user who is the object has one side.
#[test]
fn a_user_who_is_the_object() {
    let b = block(2, &[(M, 1, 2, 1), (M, 2, 3, 1)]);
    let yes = |kind: u64, key: u64, id: u64| bears(&b, 1, 1, kind, key, id) == (0, 1);
    assert!(yes(1, 3, 9) && yes(2, 3, 2) && yes(2, 1, 1) && yes(3, 2, 9));
    assert!(!yes(1, 9, 3) && !yes(2, 3, 4) && !yes(3, 3, 9));
}

/// 1, 2, 3, 4, each before the next, whatever else is wrong.
#[test]
fn numbers_rise() {
    let b = block(1, &[(M, 1, 2, 1)]);
    let wrong = [1024, 1 << 16, (1 << 16) + 1, (1 << 32) + 1, u64::MAX];
    for kind in [0, 4, 5, 255, 256 + 1, (1 << 16) + 1, (1 << 32) + 2, 1 << 63, u64::MAX] {
        assert_eq!(bears(&b[..HEADER - 1], 1024, 1024, kind, 1024, 1024), (1, 0));
        assert_eq!(bears(&b[..HEADER + 1], 1024, 1024, kind, 1024, 1024), (2, 0));
        assert_eq!([bears(&b, 1024, 1024, kind, 1024, 1024), bears(&b, 1, 9, kind, 1, 1)], [(3, 0); 2]);
    }
    for kind in 1..=3 {
        for name in wrong {
            let all = [(name, 9, 1, 1), (1, name, 1, 1), (1, 9, name, 1), (1, 9, 1, name), (name, name, name, name)];
            for (user, object, key, id) in all {
                assert_eq!(bears(&b, user, object, kind, key, id), (4, 0));
            }
        }
        assert_eq!(bears(&b, 1023, 1023, kind, 1023, 1023), (0, 1));
    }
    let long = vec![0; GREATEST + 1];
    assert_eq!(bears(&long, 1, 9, 0, 1024, 1), (1, 0));
}

/// The names that every chain leads to, followed one by one to its end.
fn follow(part: &Part, start: u16, left: usize, met: &mut BTreeSet<u16>) {
    met.insert(start);
    if left > 0 {
        for (id, _) in set_of(part, start).iter().filter(|(_, counts)| member(counts)) {
            follow(part, *id, left - 1, met);
        }
    }
}

/// A small block among few names.
fn small(rng: &mut Rng, pool: u64, records: u64) -> Index {
    let mut index = Index::empty(HEADER + 80 * RECORD);
    for _ in 0..records {
        let (mask, marker) = (1 + rng.below(ALL), rng.pick(&[0, 0, 0, 1 << X, 1 << N]));
        let denying = 1 + rng.below(255);
        let (part, mask) = rng.pick(&[(M, mask | marker), (M, mask), (M, marker.max(1)), (P, denying), (F, mask)]);
        index.parts[part].insert((rng.below(pool) as u16, rng.below(pool) as u16), once(mask));
    }
    index
}

/// On blocks of few names, in which all chains can be followed one by one, a name is reached where one of these ends.
#[test]
fn every_chain_of_small_blocks() {
    let mut counted = [0; 2];
    for seed in 0..300 {
        let mut rng = Rng(seed);
        let (pool, records) = (rng.pick(&[3, 4, 6]), 4 + rng.below(12));
        let index = small(&mut rng, pool, records);
        for (start, end) in (0..pool * pool).map(|n| ((n / pool) as u16, (n % pool) as u16)) {
            for most in 0..=5 {
                let mut met = BTreeSet::new();
                follow(&index.parts[M], start, most, &mut met);
                let reached = leads(&index.parts[M], start, end, most, member);
                assert_eq!(reached, met.contains(&end), "seed {seed}: {start} {end} {most}");
                counted[usize::from(reached)] += 1;
            }
        }
    }
    assert!(counted.iter().all(|&count| count > 2_000), "{counted:?}");
}

/// The same by all records of longer blocks in which names have one way each and the limits of the list are met: `bears` goes from the
/// end, the list from the start, and `follow` goes over every chain.
#[test]
fn every_chain_of_long_ones() {
    let mut borders = [[0; 2]; 3];
    for seed in 0..60 {
        let mut rng = Rng(seed);
        let mut index = Index::empty(HEADER + 200 * RECORD);
        for first in [1, 9] {
            let records = 29 + rng.below(6) as u16;
            for (part, key, id, mask) in chain(first, records).0 {
                index.parts[part].insert((key, id), once(mask));
            }
        }
        let crossing = [rng.pick(&[1, 131, 132]), rng.pick(&[9, 929, 931])];
        index.parts[M].insert(crossing.into(), once(rng.pick(&[1, 2, 1 << N])));
        let listed = Listed::new(&index, [1, 9]);
        let reach = |start: u16, most: usize| {
            let mut met = BTreeSet::new();
            follow(&index.parts[M], start, most, &mut met);
            met
        };
        let [hers, its] = [1, 9].map(|start| [31, 32].map(|most| reach(start, most)));
        let own = reach(9, 1);
        let names = [0, 1, 9, 128, 129, 130, 131, 132, 133, 901, 902, 928, 929, 930, 931, 932, 933, 1023];
        for (key, id) in names.into_iter().flat_map(|key| names.map(|id| (key, id))) {
            let right = [
                hers[0].contains(&key) || its[0].contains(&key),
                (key == 0 || its[1].contains(&key)) && hers[1].contains(&id),
                own.contains(&key),
            ];
            for (part, right) in right.into_iter().enumerate() {
                assert_eq!(BEARING.bears(&index, [1, 9], part, (key, id)), right, "seed {seed}: {part} {key} {id}");
                assert_eq!(listed.has(part, (key, id)), right);
                borders[part][usize::from(right)] += 1;
            }
        }
    }
    assert!(borders.iter().flatten().all(|&count| count > 500), "{borders:?}");
}

/// The answers about a user and an object: to both questions, in both profiles, for all rights and for reading.
fn answers(index: &Index, user: u64, object: u64) -> Vec<(u32, u32)> {
    let b = index.encode();
    let asked = [(ALL, ORDINARY), (ALL, STRICT), (2, ORDINARY), (2, STRICT)].into_iter();
    asked.flat_map(|(request, profile)| [rights, may].map(|ask| ask(&b, user, object, request, profile))).collect()
}

/// Blocks that agree on what is listed give equal answers, whatever else they have; and each clause is needed, as a record that bears
/// often changes an answer.
#[test]
fn blocks_that_agree_answer_alike() {
    let (mut other, mut changed) = (0, [[0; 2]; 3]);
    for seed in 0..160 {
        let mut rng = Rng(seed);
        let (pool, records) = (rng.pick(&[6, 9, 14]), 6 + rng.below(20));
        let mut index = small(&mut rng, pool, records);
        let [user, object] = [rng.below(pool), rng.below(pool)];
        if rng.one_in(2) {
            index.parts[P].insert((object as u16, user as u16), once(ALL));
        }
        let listed = Listed::new(&index, [user, object].map(|name| name as u16));
        let before = answers(&index, user, object);
        let mut another = small(&mut rng, pool, records);
        another.length += 24 * rng.below(4) as usize;
        for (part, kept) in listed.of(&index).into_iter().enumerate() {
            another.parts[part].retain(|&record, _| !listed.has(part, record));
            other += another.parts[part].len();
            another.parts[part].extend(kept);
        }
        assert_eq!(answers(&another, user, object), before, "seed {seed}");
        let again = Listed::new(&another, [user, object].map(|name| name as u16));
        assert_eq!(again.of(&another), listed.of(&index));
        for (part, changed) in changed.iter_mut().enumerate() {
            for &record in index.parts[part].keys() {
                let mut without = index.clone();
                without.parts[part].remove(&record);
                let differ = answers(&without, user, object) != before;
                assert!(listed.has(part, record) || !differ, "seed {seed}: {part} {record:?}");
                changed[usize::from(differ)] += 1;
            }
        }
    }
    println!("records besides those listed {other}; taken away without and with another answer then, by part: {changed:?}");
    assert!(other > 500 && changed.iter().flatten().all(|&count| count > 20), "{other} {changed:?}");
}
