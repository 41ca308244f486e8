//! The strict profile: what bars a right and what does not, 15 and its place among the numbers, and how often the generated blocks
//! decide it.

use super::*;
use crate::barred::denies_some;
use crate::gen::{Rng, NO_PROFILES};
use crate::tests::{answer, block, made, Record};

/// The mask of the small letters of these rights.
fn small(rights: u64) -> u64 {
    rights << DENIALS.start
}

/// The rights that user 1 holds on object 9, of all, in the ordinary profile and in the strict one. The short question agrees in
/// each, the records examined are the same in both, and by a directory all is as without it.
fn both(records: &[Record]) -> [u32; 2] {
    let b = block(records.len(), records);
    let own = made(&b);
    let [ordinary, strict] = [ORDINARY, STRICT].map(|profile| {
        let (number, value) = rights(&b, 1, 9, ALL, profile);
        assert_eq!((number, rights_by(&b, &own, 1, 9, ALL, profile)), (0, (0, value)));
        for request in 1..=ALL {
            let yes = u64::from(value) & request == request;
            assert_eq!(may(&b, 1, 9, request, profile), (0, yes.into()));
            assert_eq!(may_by(&b, &own, 1, 9, request, profile), (0, yes.into()));
            assert_eq!(rights(&b, 1, 9, request, profile), (0, value & !(ALL as u32) | value & request as u32));
        }
        value
    });
    assert_eq!(numbers(ordinary), numbers(strict));
    [ordinary, strict].map(|value| value & ALL as u32)
}

/// The same where all rights are granted on the object besides, to a name of its own that the user leads to.
fn barred(records: &[Record]) -> u32 {
    let granted = both(&[records, &[(M, 1, 7, ALL), (P, 9, 7, ALL)]].concat());
    assert_eq!(granted[0], 15);
    15 - granted[1]
}

#[test]
fn a_denial_in_another_record() {
    assert_eq!(barred(&[]), 0);
    assert_eq!(barred(&[(P, 9, 1, small(2))]), 2, "of the user and the object themselves");
    assert_eq!(barred(&[(M, 9, 3, ALL), (P, 3, 1, small(6))]), 6, "on a group of the object");
    assert_eq!(barred(&[(M, 1, 2, ALL), (P, 9, 2, small(9))]), 9, "to a group of the user");
    assert_eq!(barred(&[(M, 1, 2, ALL), (M, 9, 3, ALL), (P, 3, 2, small(15))]), 15, "on a group, to a group");
    assert_eq!(barred(&[(M, 1, 2, 3), (M, 9, 3, 6), (P, 3, 2, small(15))]), 2, "only where both sides carry the right");
    assert_eq!(barred(&[(P, 9, 1, small(1)), (M, 9, 3, 8), (P, 3, 1, small(14))]), 9, "each right by a record of its own");
}

#[test]
fn a_denial_that_is_reached_for_another_right() {
    assert_eq!(barred(&[(M, 9, 3, 13), (P, 3, 1, small(2))]), 0);
    assert_eq!(barred(&[(M, 1, 2, 13), (P, 9, 2, small(2))]), 0);
    assert_eq!(barred(&[(M, 1, 2, 2), (M, 2, 4, 4), (P, 9, 4, small(15))]), 0, "no right is carried all the way");
    assert_eq!(barred(&[(M, 1, 2, 2), (M, 9, 3, 4), (P, 3, 2, small(6))]), 0);
    assert_eq!(
        barred(&[(M, 1, 2, 2), (M, 9, 3, 2), (P, 3, 2, small(13) | 15)]),
        0,
        "it denies others than the one it is reached for"
    );
}

#[test]
fn a_denial_that_one_side_alone_reaches() {
    assert_eq!(barred(&[(P, 9, 2, small(15))]), 0, "to nobody of hers");
    assert_eq!(barred(&[(P, 3, 1, small(15))]), 0, "on nothing of its own");
    assert_eq!(barred(&[(M, 2, 1, ALL), (M, 3, 9, ALL), (P, 3, 2, small(15))]), 0, "members, not groups");
    assert_eq!(barred(&[(P, 1, 9, small(15))]), 0, "user and object have changed places");
    assert_eq!(barred(&[(M, 1, 3, ALL), (M, 9, 2, ALL), (P, 3, 2, small(15))]), 0);
}

#[test]
fn a_denial_on_name_0() {
    assert_eq!(barred(&[(P, 0, 1, small(10))]), 10, "bars everywhere");
    assert_eq!(barred(&[(M, 1, 2, 2), (P, 0, 2, small(10))]), 2);
    assert_eq!(barred(&[(P, 9, 0, small(15))]), 0, "but name 0 is not everybody");
    assert_eq!(barred(&[(M, 0, 3, ALL), (P, 3, 1, small(15))]), 0, "and its groups are those of no other object");
    assert_eq!(barred(&[(M, 9, 0, 8), (M, 0, 3, ALL), (P, 3, 1, small(15))]), 8, "unless a chain leads there");
}

#[test]
fn the_capital_letter_has_no_part() {
    assert_eq!(barred(&[(M, 9, 3, ALL), (P, 3, 1, small(2))]), 2);
    assert_eq!(barred(&[(M, 9, 3, ALL), (P, 3, 1, small(2) | 2)]), 2);
    assert_eq!(barred(&[(M, 9, 3, ALL), (P, 3, 1, small(2) | 13)]), 2, "what else the record grants is held");
    let more = [(P, 3, 1, small(2)), (P, 3, 1, 2), (P, 3, 1, 2)];
    assert_eq!(barred(&[&more[..], &[(M, 9, 3, ALL)]].concat()), 2, "however often it is counted");
}

/// What the record itself denies, it does not grant in either profile.
#[test]
fn a_denial_in_the_granting_record() {
    assert_eq!(both(&[(P, 9, 1, 15 | small(2))]), [13, 13]);
    assert_eq!(both(&[(P, 9, 1, 135)]), [7, 7]);
    assert_eq!(both(&[(P, 9, 1, 15 | small(2)), (P, 0, 1, 2)]), [15, 13], "another record grants it");
    assert_eq!(both(&[(P, 9, 1, small(15))]), [0, 0]);
}

#[test]
fn long_chains_to_a_denial() {
    for (records, strict) in [(31, 13), (32, 13), (33, 15), (40, 15)] {
        let chain: Vec<Record> = (100..100 + records).map(|n| (M, n, n + 1, 2)).collect();
        let last = 100 + records;
        let hers = [&chain[..], &[(P, 9, last, small(15)), (P, 9, 100, 15)]].concat();
        let its = [&chain[..], &[(P, last, 1, small(15)), (P, 100, 1, 15)]].concat();
        for (user, object, records) in [(100, 9, hers), (1, 100, its)] {
            let b = block(50, &records);
            assert_eq!([ORDINARY, STRICT].map(|profile| rights(&b, user, object, ALL, profile).1 & 15), [15, strict]);
            assert_eq!(may(&b, user, object, 2, STRICT), (0, (strict == 15).into()));
        }
    }
}

/// Each side has its own limit, and a chain may be longer than it needs to be.
#[test]
fn long_chains_on_both_sides() {
    let sides = [(100, 1), (200, 9)].map(|(first, start)| {
        let inner = (first..first + 31).map(|n| (M, n, n + 1, ALL));
        [(M, start, first, ALL)].into_iter().chain(inner).collect::<Vec<Record>>()
    });
    assert_eq!(barred(&[&sides.concat()[..], &[(P, 231, 131, small(4))]].concat()), 4);
    assert_eq!(barred(&[&sides.concat()[..], &[(P, 231, 131, small(4)), (M, 131, 131, ALL)]].concat()), 4);
    assert_eq!(barred(&[&sides.concat()[..], &[(P, 232, 131, small(4)), (M, 231, 232, ALL)]].concat()), 0);
    assert_eq!(barred(&[&sides.concat()[..], &[(P, 231, 132, small(4)), (M, 131, 132, ALL)]].concat()), 0);
}

#[test]
fn filters_have_no_part_in_it() {
    let group = [(M, 9, 3, ALL), (M, 3, 4, ALL), (M, 1, 2, ALL)];
    let granted = [&group[..], &[(P, 9, 1, 15)]].concat();
    let with = |more: &[Record]| both(&[&granted[..], more].concat());
    assert_eq!(with(&[(P, 4, 2, small(3))]), [15, 12]);
    assert_eq!(with(&[(P, 4, 2, small(3)), (F, 9, 20, 6)]), [6, 4], "what passes the filters and is not barred");
    assert_eq!(with(&[(P, 4, 2, small(3)), (F, 4, 20, 12)]), [15, 12], "a filter of the denial's key");
    assert_eq!(with(&[(P, 4, 2, small(3)), (F, 2, 20, 12), (F, 1, 20, 12), (F, 0, 20, 12)]), [15, 12]);
    assert_eq!(with(&[(P, 4, 2, small(3)), (F, 3, 20, 12)]), [12, 12]);
}

#[test]
fn exclusive_groups_have_no_part_in_it() {
    let hers = [(M, 1, 20, ALL | 1 << X), (M, 9, 20, ALL), (P, 9, 1, 15)];
    let with = |more: &[Record]| both(&[&hers[..], more].concat());
    assert_eq!(with(&[]), [15, 15]);
    assert_eq!(
        with(&[(M, 9, 3, ALL), (M, 3, 4, ALL), (P, 3, 1, small(2))]),
        [15, 13],
        "a denial on a name that is closed to her"
    );
    assert_eq!(with(&[(M, 1, 2, ALL | 1 << N), (P, 9, 2, small(2))]), [15, 13], "and to a group that N leads to");
    assert_eq!(with(&[(M, 9, 3, 1 << X), (P, 3, 1, small(2))]), [15, 15], "markers alone lead nowhere");
    let closed = [(M, 1, 20, ALL | 1 << X), (M, 9, 3, ALL), (P, 9, 1, 15), (P, 0, 1, small(2))];
    assert_eq!(both(&closed), [0, 0]);
}

#[test]
fn the_numbers_are_those_of_the_ordinary_profile() {
    let records =
        [(M, 1, 2, 1), (M, 2, 3, 15), (M, 9, 4, 2), (M, 9, 2, 4), (P, 9, 1, 15), (P, 9, 1, small(2)), (P, 0, 2, small(1))];
    let b = block(8, &records);
    for request in 1..=ALL {
        for (profile, held) in [(ORDINARY, 13), (STRICT, 12)] {
            assert_eq!(rights(&b, 1, 9, request, profile), answer(held & request as u32, 2, 3));
        }
    }
}

#[test]
fn other_profiles_are_refused_last() {
    let b = block(3, &[(M, 1, 2, 15), (P, 9, 1, 15), (P, 9, 2, small(2))]);
    let own = made(&b);
    for profile in NO_PROFILES {
        let all = |b: &[u8], own: &[u16], user, object, request| {
            let without = [rights(b, user, object, request, profile), may(b, user, object, request, profile)];
            let by = [rights_by(b, own, user, object, request, profile), may_by(b, own, user, object, request, profile)];
            (without, by)
        };
        assert_eq!(all(&b, &own, 1, 9, ALL), ([(15, 0); 2], [(15, 0); 2]), "{profile}");
        for (user, object, request, number) in [(1, 9, 0, 5), (1, 9, 16, 5), (1024, 9, ALL, 4), (1, 1024, 0, 4)] {
            assert_eq!(all(&b, &own, user, object, request), ([(number, 0); 2], [(number, 0); 2]), "{profile}");
        }
        assert_eq!(all(&b, &own[1..], 1, 9, ALL), ([(15, 0); 2], [(13, 0); 2]));
        assert_eq!(all(&b[..HEADER], &own, 1024, 9, 0), ([(2, 0); 2], [(2, 0); 2]));
        assert_eq!(all(&b[..HEADER - 1], &own, 1, 9, ALL), ([(1, 0); 2], [(1, 0); 2]));
    }
    assert_eq!([ORDINARY, STRICT].map(|profile| rights(&b, 1, 9, ALL, profile)), [answer(15, 1, 0), answer(13, 1, 0)]);
}

/// The names from which a chain leads to a name, each record with the right: they are found from the end of the chain.
fn leading(memberships: &Part, end: u16, right: usize) -> BTreeSet<u16> {
    let mut names = BTreeSet::from([end]);
    for _ in 0..CHAIN {
        let before = memberships.iter().filter(|((_, id), counts)| names.contains(id) && carries(counts, right));
        let before: Vec<u16> = before.map(|((key, _), _)| *key).collect();
        names.extend(before);
    }
    names
}

/// From the denial back to whom it bars, and on what.
#[test]
fn bars_by_going_back() {
    let (mut bars, mut none) = (0, 0);
    for seed in 0..300 {
        let mut rng = Rng(seed);
        let index = gen::index(&mut rng);
        let mut few = index.clone();
        few.parts[P] = { index.parts[P].clone().into_iter() }.filter(|(_, counts)| denies_some(counts)).take(40).collect();
        for _ in 0..3 {
            let (user, object) = gen::question(&mut rng, &index);
            let [Ok(user), Ok(object)] = [user, object].map(name_of) else { continue };
            for right in 0..RIGHTS {
                let barred = few.parts[P].iter().any(|(&(key, id), counts)| {
                    let lead = |start, end| leading(&few.parts[M], end, right).contains(&start);
                    counts[RIGHTS + right] > 0 && lead(user, id) && (key == 0 || lead(object, key))
                });
                assert_eq!(BAR.bars(&few, [user, object], right), barred, "seed {seed}, {user} {object} {right}");
                *(if barred { &mut bars } else { &mut none }) += 1;
            }
        }
    }
    assert!(bars > 500 && none > 500, "{bars} {none}");
}

/// In the strict profile nobody holds more, and without denials everybody holds as much.
#[test]
fn less_is_held_and_without_denials_as_much() {
    for seed in 0..400 {
        let mut rng = Rng(seed);
        let mut index = gen::index(&mut rng);
        let (user, object) = gen::question(&mut rng, &index);
        let asked = |b: &[u8]| [ORDINARY, STRICT].map(|profile| rights(b, user, object, ALL, profile));
        let [ordinary, strict] = asked(&index.encode());
        assert_eq!((ordinary.0, ordinary.1 & strict.1), (strict.0, strict.1));
        assert_eq!(numbers(ordinary.1), numbers(strict.1));
        index.parts[P].retain(|_, counts| {
            counts[DENIALS].fill(0);
            *counts != Counts::default()
        });
        let [ordinary, strict] = asked(&index.encode());
        assert_eq!(ordinary, strict);
    }
}

/// How often generated questions are decided by denials, where a right is held in the ordinary profile: never less than here, so
/// that the comparison does not come to leave them out.
#[test]
fn denials_decide_often() {
    let (mut asked, mut none, mut some, mut all) = (0, 0, 0, 0);
    for seed in 0..4_000 {
        let mut rng = Rng(seed);
        let index = gen::index(&mut rng);
        for _ in 0..3 {
            let (user, object) = gen::question(&mut rng, &index);
            let [Ok(user), Ok(object)] = [user, object].map(name_of) else { continue };
            asked += 1;
            let held: Vec<usize> = (0..RIGHTS).filter(|&right| holds(&index, user, object, right, CHAIN)).collect();
            match held.iter().filter(|&&right| BAR.bars(&index, [user, object], right)).count() {
                _ if held.is_empty() => {}
                0 => none += 1,
                barred if barred < held.len() => some += 1,
                _ => all += 1,
            }
        }
    }
    println!("of {asked}, with rights held, none of them barred {none}, some {some}, all {all}");
    assert!(none > 2_500 && some > 400 && all > 300, "{none} {some} {all}");
}
