//! The markers X and N: what messages and texts do with them, who is bound, and how often the generated blocks decide it.

use super::*;
use crate::gen::Rng;
use crate::tests::{answer, block, empty, may, rights, said, Record, Says};

/// The masks of the markers, and of all rights with each.
const EXCLUSIVE: u64 = 1 << X;
const PASSED_OVER: u64 = 1 << N;
const AND_X: u64 = ALL | EXCLUSIVE;
const AND_N: u64 = ALL | PASSED_OVER;

/// The rights of user 1 on object 9, to whom all are granted there and on 8.
fn held(records: &[Record]) -> u32 {
    let grants = [(P, 9, 1, ALL), (P, 8, 1, ALL)];
    let b = block(records.len() + 2, &[records, &grants].concat());
    let (number, value) = rights(&b, 1, 9, ALL);
    assert_eq!((number, may(&b, 1, 9, ALL)), (0, (0, u32::from(value & 15 == 15))));
    value & 15
}

#[test]
fn two_firms() {
    let (one, other, neutral) = (20, 30, 40);
    let firms = [(M, 1, one, AND_X), (M, 2, other, AND_X), (M, 3, one, ALL)];
    let objects = [(M, 5, one, ALL), (M, 6, other, ALL), (M, 7, neutral, ALL)];
    let grants = [5, 6, 7, 8].map(|object| [1, 2, 3, 4].map(|user| (P, object, user, 2))).concat();
    let b = block(40, &[&firms[..], &objects, &grants].concat());
    for (user, open) in [(1, [2, 0, 0, 2]), (2, [0, 2, 0, 2]), (3, [2, 2, 2, 2]), (4, [2, 2, 2, 2])] {
        assert_eq!([5, 6, 7, 8].map(|object| rights(&b, user, object, ALL).1 & 15), open, "user {user}");
    }
}

#[test]
fn her_chain() {
    let object = (M, 9, 40, ALL);
    assert_eq!(held(&[object]), 15);
    assert_eq!(held(&[object, (M, 1, 20, AND_X)]), 0);
    assert_eq!(held(&[object, (M, 1, 20, AND_X | PASSED_OVER)]), 15, "N wins");
    assert_eq!(held(&[object, (M, 1, 10, AND_N), (M, 10, 20, AND_X)]), 15, "a group in between with N");
    assert_eq!(held(&[object, (M, 1, 10, ALL), (M, 10, 20, AND_X)]), 0);
    assert_eq!(held(&[object, (M, 1, 10, AND_X), (M, 10, 20, ALL)]), 0, "X in the first is the last of a shorter chain");
    assert_eq!(held(&[(M, 9, 20, ALL), (M, 1, 10, AND_X), (M, 10, 20, ALL)]), 0, "and the group behind it is not hers");
    assert_eq!(held(&[object, (M, 1, 10, 1), (M, 10, 20, 2 | EXCLUSIVE)]), 0, "masks are disregarded");
    assert_eq!(held(&[object, (M, 1, 20, EXCLUSIVE)]), 15, "markers alone bind nobody");
    assert_eq!(held(&[object, (M, 1, 10, EXCLUSIVE), (M, 10, 20, AND_X)]), 15, "and lead nowhere");
}

#[test]
fn chains_of_an_object() {
    let hers = (M, 1, 20, AND_X);
    assert_eq!(held(&[hers, (M, 9, 20, ALL)]), 15);
    assert_eq!(held(&[hers, (M, 9, 30, 1), (M, 30, 20, 2)]), 15, "masks are disregarded");
    assert_eq!(held(&[hers, (M, 9, 30, AND_N), (M, 30, 20, AND_X | PASSED_OVER)]), 15, "and so are markers");
    assert_eq!(held(&[hers]), 15, "it is in no group");
    assert_eq!(held(&[hers, (M, 9, 40, PASSED_OVER)]), 15, "markers alone are no group");
    assert_eq!(held(&[hers, (M, 9, 40, ALL), (M, 9, 20, EXCLUSIVE)]), 0, "and lead nowhere");
    assert_eq!(held(&[(M, 1, 9, AND_X), (M, 9, 40, ALL)]), 15, "it is her group itself");
    assert_eq!(held(&[(M, 1, 0, AND_X), (M, 9, 40, ALL)]), 0, "name 0 is reached by a chain only");
    assert_eq!(held(&[(M, 1, 0, AND_X), (M, 9, 40, ALL), (M, 40, 0, 1)]), 15);
    assert_eq!(held(&[hers, (M, 9, 40, ALL), (F, 9, 20, 6), (M, 40, 20, 8)]), 6, "filters bind besides");
}

#[test]
fn long_chains_to_her_group() {
    for (records, bound) in [(31, true), (32, true), (33, false)] {
        let mut chain: Vec<Record> = (100..100 + records).map(|n| (M, n, n + 1, 1 << (n % 4))).collect();
        chain[records as usize - 1].3 |= EXCLUSIVE;
        let last = 100 + records;
        let user = [&chain[..], &[(M, 1, 100, ALL), (M, 9, 40, ALL)]].concat();
        assert_eq!(held(&user), if records < 32 { 0 } else { 15 }, "one record and {records}");
        let b = block(50, &[&chain[..], &[(M, 9, 40, ALL), (P, 9, 100, 2)]].concat());
        assert_eq!(rights(&b, 100, 9, 2).1 & 15, if bound { 0 } else { 2 });
        let b = block(50, &[&chain[..], &[(M, 1, last, AND_X), (P, 100, 1, 2)]].concat());
        assert_eq!(rights(&b, 1, 100, 2).1 & 15, if bound { 2 } else { 0 });
    }
}

/// A record with markers alone is one for what is examined, and none for the filters.
#[test]
fn markers_alone() {
    let records = [(M, 1, 2, EXCLUSIVE), (M, 9, 3, PASSED_OVER), (F, 3, 20, 1), (P, 9, 1, ALL)];
    assert_eq!(rights(&block(4, &records), 1, 9, ALL), answer(15, 1, 1));
    assert_eq!(write(&block(4, &records), 1, 9, &[0; 3]), (0, 3, b"3;N".to_vec()));
    assert_eq!(tested(&block(1, &[(P, 9, 1, AND_X)])), 2);
    assert_eq!(tested(&block(1, &[(F, 9, 1, AND_N)])), 2);
    assert_eq!(tested(&block(1, &[(M, 9, 1, 1 << DENIALS.start | EXCLUSIVE)])), 2);
}

/// Each number that the markers of a message can get, on a block with room for one record.
#[test]
fn messages_with_markers() {
    let half = |mask| Some((1, 2, mask));
    let moved = |previous: Says, new: Says| message(&block(1, &[(M, 1, 2, AND_X)]), &said(M, previous, new));
    assert_eq!(said(M, half(AND_X), half(AND_N))[..2], [0b0110_0001, 3]);
    assert_eq!(said(M, half(AND_N), half(AND_X))[..2], [0b1001_0001, 3]);
    assert_eq!(moved(half(AND_X), half(AND_N)), (0, block(1, &[(M, 1, 2, AND_N)])));
    assert_eq!(moved(half(AND_X), None), (0, empty(1)));
    assert_eq!(moved(half(ALL), None), (0, block(1, &[(M, 1, 2, EXCLUSIVE)])));
    let numbers = [
        (half(AND_N), None, 6),
        (half(AND_X | PASSED_OVER), None, 3),
        (None, half(AND_X | PASSED_OVER), 3),
        (None, half(EXCLUSIVE), 5),
        (half(PASSED_OVER), half(1), 5),
        (None, half(1 << DENIALS.start | EXCLUSIVE), 5),
        (Some((1024, 2, EXCLUSIVE)), None, 4),
    ];
    for (previous, new, number) in numbers {
        assert_eq!(moved(previous, new).0, number, "{previous:?} {new:?}");
    }
    for part in [P, F] {
        assert_eq!(message(&empty(1), &said(part, None, half(AND_X))).0, 3);
    }
    for (bits, number) in [(0x10, 0), (0x20, 0), (0x40, 3), (0x80, 3), (0x30, 3), (0x0F, 3), (0x04, 3)] {
        let mut m = said(M, None, half(1));
        m[0] |= bits;
        assert_eq!(message(&empty(1), &m).0, number, "{bits}");
    }
}

#[test]
fn full_counts_of_markers() {
    for k in MARKERS {
        let mut index = Index::empty(HEADER + RECORD);
        let mut counts = Counts::default();
        counts[k] = u16::MAX;
        index.parts[M].insert((1, 2), counts);
        let (full, one) = (index.encode(), Some((1, 2, 1 | 1 << k)));
        assert_eq!(message(&full, &said(M, None, one)), (7, full.clone()));
        assert_eq!(message(&full, &said(M, None, Some((1, 2, 1)))).0, 0);
        assert_eq!(message(&full, &said(M, one, None)), (6, full.clone()));
    }
}

#[test]
fn texts_with_markers() {
    for (text, mask) in [("3;MRXN", 3 | EXCLUSIVE | PASSED_OVER), ("3;X", EXCLUSIVE), ("3;PN", 8 | PASSED_OVER)] {
        let set = block(1, &[(M, 7, 3, mask)]);
        assert_eq!(read(&empty(1), 1, 7, text.as_bytes()), (0, 1, set.clone()));
        assert_eq!(write(&set, 1, 7, &vec![0; text.len()]), (0, text.len() as u32, text.as_bytes().to_vec()));
        for kind in [2, 3] {
            let place = text.find(['X', 'N']).expect("a marker") as u32;
            assert_eq!(read(&empty(1), kind, 7, text.as_bytes()), (9, place, empty(1)));
        }
    }
    let (number, _, b) = read(&empty(1), 1, 7, b"3;MRX2N");
    assert_eq!((number, count(&b, 0, X as u64), count(&b, 0, N as u64), count(&b, 0, 10)), (0, (0, 2), (0, 1), (0, 0)));
    for (text, place) in [("3;NX", 3), ("3;XM", 3), ("3;X1", 4), ("3;X0", 3), ("3;N65536", 7), ("3;XX", 3), ("3;MmX", 3)] {
        assert_eq!(read(&empty(1), 1, 7, text.as_bytes()), (9, place, empty(1)), "{text}");
    }
}

/// A kind that is given to write or read takes no marker.
#[test]
fn kinds_have_no_markers() {
    for kind in [17, 33, 65, 129] {
        assert_eq!((write(&empty(1), kind, 7, &[]).0, read(&empty(1), kind, 7, b"").0, size(&empty(1), kind).0), (3, 3, 3));
    }
}

/// How often generated questions are decided by markers, where a right is granted and in every filter: never less than here, so
/// that the comparison does not come to leave them out.
#[test]
fn markers_decide_often() {
    let (mut unbound, mut let_in, mut kept_out) = (0, 0, 0);
    for seed in 0..4_000 {
        let mut rng = Rng(seed);
        let index = gen::index(&mut rng);
        for _ in 0..3 {
            let (user, object) = gen::question(&mut rng, &index);
            let ([Ok(user), Ok(object)], part) = ([user, object].map(name_of), &index.parts[M]) else { continue };
            let granted = (0..RIGHTS).any(|right| passes(&index, object, right) && granted(&index, user, object, right, CHAIN));
            match (granted, RULE.hers(part, user).is_empty(), RULE.open(part, user, object)) {
                (false, ..) => {}
                (_, true, _) => unbound += 1,
                (_, _, true) => let_in += 1,
                (_, _, false) => kept_out += 1,
            }
        }
    }
    println!("not bound {unbound}, bound and let in {let_in}, bound and kept out {kept_out}");
    assert!(unbound > 2_500 && let_in > 700 && kept_out > 400, "{unbound} {let_in} {kept_out}");
}

/// A statement that says something, which it has to quote.
fn any_half(rng: &mut Rng) -> (u16, u16, u64) {
    let (key, id) = (rng.below(3) as u16, rng.below(3) as u16);
    (key, id, (1 + rng.below(ALL)) | rng.pick(&[0, EXCLUSIVE, PASSED_OVER]))
}

/// Statements begin, change and end, each quoting what it left, its marker too. At every moment each count is the number of those
/// that stand with that record and letter; one that quotes another marker is refused, or takes what another statement says.
#[test]
fn statements_with_markers_are_counted() {
    for seed in 0..200 {
        let (mut rng, mut left, mut b) = (Rng(seed), [None; 6], empty(9));
        for _ in 0..60 {
            let (one, ends) = (rng.below(6) as usize, rng.one_in(3));
            let new = (!ends || left[one].is_none()).then(|| any_half(&mut rng));
            let (number, after) = message(&b, &said(M, left[one], new));
            assert_eq!(number, 0);
            (left[one], b) = (new, after);
            let standing: Vec<Record> = left.iter().flatten().map(|&(key, id, mask)| (M, key, id, mask)).collect();
            assert_eq!(b, block(9, &standing), "seed {seed}");
        }
    }
    let one = message(&empty(1), &said(M, None, Some((1, 2, AND_X)))).1;
    assert_eq!(message(&one, &said(M, Some((1, 2, AND_N)), None)).0, 6);
}
