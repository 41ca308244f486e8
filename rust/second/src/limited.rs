//! Limits: what each chain is held to, example by example; 14 and its place among the numbers; every chain of small blocks; and how
//! often the generated blocks decide something.

use super::*;
use crate::bound::member;
use crate::gen::Rng;
use crate::limits::{PLAIN_LIMIT, PLAIN_RECORDS};
use crate::tests::{block, Record};

/// All rights with the marker X, and with N.
const AND_X: u64 = ALL | 1 << X;
const AND_N: u64 = ALL | 1 << N;

/// The rights of user 1 on object 9, of all, with a limit: both calls give the same, where the plain engine takes the limit, and with
/// limit 32 the full question does. Each request gives its part.
fn held(records: &[Record], limit: u64) -> u32 {
    let b = block(records.len(), records);
    let (number, value) = rights_to(&b, 1, 9, ALL, limit);
    assert_eq!(number, 0);
    assert_eq!(plain(&b, 1, 9, ALL, limit), if limit > 8 { (14, 0) } else { (0, value) });
    for request in 1..=ALL {
        assert_eq!(rights_to(&b, 1, 9, request, limit), (0, value & request as u32));
    }
    assert_eq!(rights_to(&b, 1, 9, ALL, 32).1, rights(&b, 1, 9, ALL, ORDINARY).1 & ALL as u32);
    value
}

/// The rights with each limit from 0 on.
fn each<const LIMITS: usize>(records: &[Record]) -> [u32; LIMITS] {
    std::array::from_fn(|limit| held(records, limit as u64))
}

/// A chain of so many records from a name over names from 100 times that number on, and the name at its end.
fn chain(start: u16, records: u16, mask: u64) -> (Vec<Record>, u16) {
    let name = |n: u16| if n == 0 { start } else { 100 * start + n };
    ((0..records).map(|n| (M, name(n), name(n + 1), mask)).collect(), name(records))
}

/// A chain of just the limit counts, on each side, and one of a record more does not: at 0, 1, 8, 9, 32 and 33 records.
#[test]
fn a_chain_of_just_the_limit() {
    for records in [0, 1, 2, 8, 9, 31, 32, 33] {
        let (of_user, id) = chain(1, records, 2);
        let (of_object, key) = chain(9, records, 2);
        let hers = [&of_user[..], &[(P, 9, id, ALL)]].concat();
        let its = [&of_object[..], &[(P, key, 1, ALL)]].concat();
        let both = [&of_user[..], &of_object, &[(P, key, id, ALL)]].concat();
        for limit in [0, 1, 7, 8, 9, 31, 32] {
            let right = match (records, u64::from(records) <= limit) {
                (0, _) => 15,
                (_, true) => 2,
                (_, false) => 0,
            };
            assert_eq!([&hers, &its].map(|records| held(records, limit)), [right; 2], "{records} {limit}");
            let b = block(both.len(), &both);
            assert_eq!(rights_to(&b, 1, 9, ALL, limit), (0, right), "{records} {limit}");
        }
    }
}

/// Loops are harmless, and do not make a limit greater.
#[test]
fn loops() {
    let records = [(M, 1, 1, ALL), (M, 1, 2, 3), (M, 2, 1, ALL), (M, 2, 3, 6), (M, 9, 9, ALL), (P, 9, 3, ALL)];
    assert_eq!(each(&records), [0, 0, 2, 2, 2, 2, 2, 2, 2, 2]);
}

/// Marks are those of the round: a second chain, which is longer, brings other rights.
#[test]
fn each_right_by_a_chain_of_its_own() {
    let ways = [(M, 1, 2, 1), (M, 1, 3, ALL), (M, 3, 2, 3), (M, 3, 4, ALL), (M, 4, 2, 15)];
    assert_eq!(each(&[&ways[..], &[(P, 9, 2, ALL)]].concat()), [0, 1, 3, 15, 15]);
    let crossed = [(M, 1, 2, 2), (M, 2, 3, 4), (P, 9, 3, ALL)];
    assert_eq!(each(&crossed), [0; 9], "no right over the whole chain");
}

/// A user who is bound by a chain of two records is bound from limit 2 on: below it she holds more.
#[test]
fn more_with_a_lower_limit() {
    let hers = [(M, 1, 10, 1), (M, 10, 20, 8 | 1 << X), (P, 9, 1, 6)];
    let in_another = [&hers[..], &[(M, 9, 40, 1)]].concat();
    assert_eq!(each(&in_another), [6, 6, 0, 0, 0, 0, 0, 0, 0, 0]);
    assert_eq!(each(&hers), [6; 9], "it is in no group");
    let (bound, end) = chain(1, 8, 1);
    for (marker, rights) in [(1 << X, [6, 6, 6, 6, 6, 6, 6, 6, 6, 0]), (1 << X | 1 << N, [6; 10]), (1 << N, [6; 10])] {
        let last = [(M, end, 20, 1 | marker), (M, 9, 40, 1), (P, 9, 1, 6)];
        assert_eq!(each(&[&bound[..], &last].concat()), rights, "{marker}");
    }
}

/// With limit 0 nobody is bound, and with limit 1 her own records bind her.
#[test]
fn nobody_is_bound_with_limit_0() {
    assert_eq!(each(&[(M, 1, 20, AND_X), (M, 9, 40, ALL), (P, 9, 1, 2)]), [2, 0, 0]);
    assert_eq!(each(&[(M, 1, 1, AND_X), (M, 9, 40, ALL), (P, 9, 1, 2)]), [2, 0, 0], "to herself too");
    assert_eq!(each(&[(M, 1, 20, 1 << X), (M, 9, 40, ALL), (P, 9, 1, 2)]), [2, 2, 2], "markers alone bind nobody");
    assert_eq!(each(&[(M, 1, 5, AND_N), (M, 5, 20, AND_X), (M, 9, 40, ALL), (P, 9, 1, 2)]), [2, 2, 2, 2]);
}

/// The object leads to a group of hers by a chain of as many records: from that limit on it is open.
#[test]
fn the_object_leads_to_a_group_of_hers() {
    for records in [1, 2, 7, 8, 9, 32, 33] {
        let (its, end) = chain(9, records, 1 << (records % 4));
        let all = [&its[..], &[(M, 1, end, AND_X), (P, 0, 1, 2)]].concat();
        for limit in [0, 1, 2, 6, 7, 8, 9, 31, 32] {
            let open = limit == 0 || limit >= u64::from(records);
            assert_eq!(held(&all, limit), if open { 2 } else { 0 }, "{records} {limit}");
        }
    }
    assert_eq!(each(&[(M, 1, 9, AND_X), (M, 9, 40, ALL), (P, 9, 1, 2)]), [2; 9], "it is her group itself");
    let further = [(M, 1, 20, AND_X), (M, 1, 2, ALL), (M, 2, 30, AND_X), (M, 9, 30, ALL), (P, 9, 1, 2)];
    assert_eq!(each(&further), [2, 0, 2, 2], "her second group is further off");
}

/// The limit touches neither the filters nor whether an object is in no group at all.
#[test]
fn what_knows_no_limit() {
    assert_eq!(each(&[(P, 9, 1, ALL), (M, 9, 8, 1), (F, 8, 20, 6)]), [6; 9], "the filter of a group, with limit 0 too");
    assert_eq!(each(&[(P, 9, 1, ALL), (M, 9, 8, 1), (M, 8, 7, ALL), (F, 7, 20, 6)]), [15; 9], "not of a group's group");
    assert_eq!(each(&[(P, 9, 1, ALL), (M, 9, 8, 1 << N), (F, 8, 20, 6), (F, 9, 20, 14), (F, 9, 21, 7)]), [6; 9]);
    assert_eq!(each(&[(M, 1, 20, AND_X), (M, 9, 40, 1 << N), (P, 9, 1, 2)]), [2; 9], "markers alone are no group");
}

/// Name 0 counts for every object with every limit; its memberships are followed only behind a chain to it.
#[test]
fn name_0() {
    assert_eq!(each(&[(P, 0, 1, 5)]), [5; 9]);
    let followed = [(M, 0, 8, ALL), (P, 8, 1, 5)];
    assert_eq!(each(&followed), [0; 9]);
    assert_eq!(each(&[&followed[..], &[(M, 9, 0, 4)]].concat()), [0, 0, 4, 4]);
    let b = block(2, &followed);
    assert_eq!([0, 1].map(|limit| plain(&b, 1, 0, ALL, limit)), [(0, 0), (0, 5)], "the object is 0");
    assert_eq!(each(&[(P, 9, 0, 5), (M, 1, 0, 1)]), [0, 1, 1], "to the user it is a name as any");
}

#[test]
fn a_denial_counts_in_its_record_alone() {
    assert_eq!(each(&[(P, 9, 1, ALL | 2 << DENIALS.start)]), [13; 9]);
    assert_eq!(each(&[(P, 9, 1, ALL), (P, 0, 1, 2 << DENIALS.start)]), [15; 9]);
}

/// So many M records, of which so many have markers alone, beside a grant.
fn with_records(records: u16, bare: u16) -> Vec<u8> {
    let mask = |n: u16| if n < bare { 1 << X } else { ALL };
    let all: Vec<Record> = (0..records).map(|n| (M, 100 + n, 5, mask(n))).chain([(P, 9, 1, 2)]).collect();
    block(all.len(), &all)
}

/// 64 M records are taken and 65 are not, whatever they count; P and F records do not count for it.
#[test]
fn so_many_memberships() {
    for (records, bare, number) in [(0, 0, 0), (63, 0, 0), (64, 0, 0), (64, 64, 0), (65, 0, 14), (65, 1, 14), (65, 65, 14)] {
        let (b, value) = (with_records(records, bare), if number == 0 { 2 } else { 0 });
        assert_eq!(plain(&b, 1, 9, ALL, 8), (number, value), "{records} {bare}");
        assert_eq!(rights_to(&b, 1, 9, ALL, 8), (0, 2));
    }
    for part in [P, F] {
        let all: Vec<Record> = (0..200).map(|n| (part, 100 + n, 5, 2)).chain([(P, 9, 1, 2), (M, 1, 2, 2)]).collect();
        assert_eq!(plain(&block(all.len(), &all), 1, 9, ALL, 0), (0, 2));
    }
    let room = block(2048, &[(P, 9, 1, 2)]);
    assert_eq!(plain(&room, 1, 9, ALL, 8), (0, 2), "room is no record");
    assert_eq!((PLAIN_LIMIT, PLAIN_RECORDS), (8, 64));
}

/// Limits that neither call takes, and those that the main walk takes alone.
#[test]
fn too_great_a_limit() {
    let b = block(1, &[(P, 9, 1, 2)]);
    let above = [33, 34, 64, 255, 256, 1 << 16, 1 << 32, (1 << 32) + 8, (1 << 32) + 32, 1 << 63, u64::MAX];
    for limit in above {
        assert_eq!([plain(&b, 1, 9, ALL, limit), rights_to(&b, 1, 9, ALL, limit)], [(14, 0); 2], "{limit}");
    }
    for limit in 9..=32 {
        assert_eq!([plain(&b, 1, 9, ALL, limit), rights_to(&b, 1, 9, ALL, limit)], [(14, 0), (0, 2)], "{limit}");
    }
    assert_eq!(plain(&with_records(65, 0), 1, 9, ALL, 9), (14, 0), "both at once");
}

/// 1, 2, 4, 5, and then 14, for the limit and for the records.
#[test]
fn numbers_rise() {
    for (b, limit) in [(with_records(3, 0), 33), (with_records(3, 0), u64::MAX), (with_records(65, 0), 33)] {
        for call in [plain, rights_to] {
            assert_eq!(call(&b[..HEADER - 1], 1024, 1024, 0, limit), (1, 0));
            assert_eq!(call(&b[..HEADER + 1], 1024, 1024, 0, limit), (2, 0));
            assert_eq!([call(&b, 1024, 9, 0, limit), call(&b, 1, 1 << 32, 0, limit)], [(4, 0); 2]);
            assert_eq!([0, 16, (1 << 32) + 2, u64::MAX].map(|request| call(&b, 1, 9, request, limit)), [(5, 0); 4]);
            assert_eq!(call(&b, 1, 9, 2, limit), (14, 0));
        }
    }
    let many = with_records(65, 0);
    assert_eq!([plain(&many, 1024, 9, 2, 0), plain(&many, 1, 9, 0, 0), plain(&many, 1, 9, 2, 0)], [(4, 0), (5, 0), (14, 0)]);
}

/// The names that every chain leads to, followed one by one to its end: what a record carries of a mask goes on.
fn follow(part: &Part, start: u16, mask: u64, left: u64, carried: &dyn Fn(&Counts) -> u64, met: &mut Vec<(u16, u64)>) {
    met.push((start, mask));
    if left > 0 {
        for (id, counts) in set_of(part, start) {
            let on = mask & carried(&counts);
            if on != 0 {
                follow(part, id, on, left - 1, carried, met);
            }
        }
    }
}

/// The rights by chains that are followed one by one.
fn followed(index: &Index, user: u16, object: u16, limit: u64) -> u64 {
    let part = &index.parts[M];
    let all = |start: u16, carried: &dyn Fn(&Counts) -> u64| {
        let mut met = Vec::new();
        follow(part, start, ALL, limit, carried, &mut met);
        met
    };
    let rights = |counts: &Counts| (0..RIGHTS).filter(|&right| carries(counts, right)).map(|right| 1 << right).sum::<u64>();
    let whole = |such: bool| if such { ALL } else { 0 };
    let (users, objects) = (all(user, &rights), [all(object, &rights), vec![(0, ALL)]].concat());
    let to = |met: &[(u16, u64)], end: u16| met.iter().filter(|one| one.0 == end).fold(0, |all, one| all | one.1);
    let grants = index.parts[P].iter().map(|(&(key, id), counts)| to(&users, id) & to(&objects, key) & rights(counts));
    let held = grants.fold(0, |held, granted| held | granted);
    let own = set_of(part, object);
    let bind = |key: u16| key == object || own.get(&key).is_some_and(member);
    let filters = index.parts[F].iter().filter(|(record, _)| bind(record.0));
    let filtered = filters.fold(ALL, |all, (_, counts)| all & rights(counts));
    let free = |counts: &Counts| member(counts) && counts[N] == 0;
    let mut hers = BTreeSet::new();
    if limit > 0 {
        let mut before = Vec::new();
        follow(part, user, ALL, limit - 1, &|counts| whole(free(counts)), &mut before);
        for (name, _) in before {
            hers.extend(set_of(part, name).iter().filter(|(_, counts)| free(counts) && counts[X] > 0).map(|(&id, _)| id));
        }
    }
    let around = all(object, &|counts| whole(member(counts)));
    let open = hers.is_empty() || !own.values().any(member) || around.iter().any(|(name, _)| hers.contains(name));
    if open {
        held & filtered
    } else {
        0
    }
}

/// On blocks of few names, in which all chains can be followed one by one, both calls give what these lead to, with each limit.
#[test]
fn every_chain_of_small_blocks() {
    let (mut more, mut fewer) = (0, 0);
    for seed in 0..400 {
        let (mut rng, mut index) = (Rng(seed), Index::empty(HEADER + 40 * RECORD));
        let pool = rng.pick(&[3, 4, 6]);
        for _ in 0..4 + rng.below(12) {
            let (mask, marker) = (1 + rng.below(ALL), rng.pick(&[0, 0, 0, 1 << X, 1 << X, 1 << N]));
            let (denying, filter) = (1 + rng.below(255), rng.pick(&[mask, ALL]));
            let (part, mask) =
                rng.pick(&[(M, mask | marker), (M, mask | marker), (M, marker.max(1)), (P, denying), (F, filter)]);
            index.parts[part].insert((rng.below(pool) as u16, rng.below(pool) as u16), once(mask));
        }
        let b = index.encode();
        for (user, object) in (0..pool * pool).map(|n| (n / pool, n % pool)) {
            let full = u64::from(rights(&b, user, object, ALL, ORDINARY).1) & ALL;
            for limit in 0..=5 {
                let held = followed(&index, user as u16, object as u16, limit);
                assert_eq!(plain(&b, user, object, ALL, limit), (0, held as u32), "seed {seed}: {user} {object} {limit}");
                assert_eq!(rights_to(&b, user, object, ALL, limit), (0, held as u32));
                more += u32::from(held & !full != 0);
                fewer += u32::from(full & !held != 0);
            }
        }
    }
    println!("more than the full question {more}, fewer {fewer}");
    assert!(more > 20 && fewer > 500, "{more} {fewer}");
}

/// How often generated calls are decided by the limit: never less than here, so that the comparison does not come to leave them out.
#[test]
fn limits_decide_often() {
    let (mut taken, mut some, mut more, mut fewer, mut refused) = (0, 0, 0, 0, 0);
    for seed in 0..1_500 {
        let mut rng = Rng(seed);
        let index = gen::limits::index(&mut rng);
        let b = index.encode();
        for _ in 0..4 {
            let q = gen::limits::asked(&mut rng, &index, PLAIN_LIMIT);
            let (number, value) = plain(&b, q.user, q.object, q.request, q.limit);
            let full = rights(&b, q.user, q.object, q.request, ORDINARY).1 & ALL as u32;
            match number {
                0 => {
                    taken += 1;
                    some += usize::from(value != 0);
                    more += usize::from(value & !full != 0);
                    fewer += usize::from(full & !value != 0);
                }
                14 => refused += 1,
                _ => {}
            }
        }
    }
    println!("taken {taken}, with rights {some}, more than the full question {more}, fewer {fewer}; refused with 14 {refused}");
    assert!(taken > 3_000 && some > 1_200 && more > 150 && fewer > 250 && refused > 500);
}
