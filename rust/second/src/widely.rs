//! Wide messages: each refusal and their order, what is taken and added, and statements wide and plain mixed.

use super::*;
use crate::gen::Rng;
use crate::tests::{block, empty, said, Record, Says};

/// One half: keys, ids and mask, with the markers.
type Named<'a> = Option<(&'a [u16], &'a [u16], u64)>;

/// What a message has that says so.
fn built(part: usize, previous: Named, new: Named) -> Wide {
    let mut wide = Wide { first: part as u8 + 1, ..Wide::default() };
    for (side, half) in [previous, new].into_iter().enumerate() {
        let Some((keys, ids, mask)) = half else { continue };
        wide.first |= ((mask >> MARKERS.start) as u8) << MARKED[side];
        wide.flags |= 1 << side;
        wide.halves[side] = Lists { keys: keys.to_vec(), ids: ids.to_vec(), mask: mask as u8 };
    }
    wide
}

/// The bytes of a wide message.
fn says(part: usize, previous: Named, new: Named) -> Vec<u8> {
    built(part, previous, new).encode()
}

/// Every pair of some keys and ids, as records with a mask.
fn pairs(part: usize, keys: &[u16], ids: &[u16], mask: u64) -> Vec<Record> {
    keys.iter().flat_map(|&key| ids.iter().map(move |&id| (part, key, id, mask))).collect()
}

const EIGHT: [u16; 8] = [1, 2, 5, 9, 100, 500, 1000, 1023];
const NINE: [u16; 9] = [1, 2, 5, 9, 100, 500, 1000, 1022, 1023];

/// The bytes of one message, one by one.
#[test]
fn bytes_of_a_message() {
    let m = says(M, Some((&[7], &[3, 0x104], 2)), Some((&[8, 9], &[3], 4 | 1 << X)));
    let header = [0b0001_0001, 3, 1, 2, 2, 1, 2, 4, 16, 0, 18, 0, 22, 0, 26, 0];
    assert_eq!(m, [&header[..], &[7, 0, 3, 0, 4, 1, 8, 0, 9, 0, 3, 0]].concat());
    let m = says(F, None, Some((&[7], &[3], 15)));
    assert_eq!(m, [3, 2, 0, 0, 1, 1, 0, 15, 16, 0, 16, 0, 16, 0, 18, 0, 7, 0, 3, 0]);
    let m = says(P, Some((&[7], &[3], 255)), None);
    assert_eq!(m, [2, 1, 1, 1, 0, 0, 255, 0, 16, 0, 18, 0, 20, 0, 20, 0, 7, 0, 3, 0]);
}

#[test]
fn every_pair_is_added_and_taken() {
    let all = pairs(P, &EIGHT, &EIGHT, 0x83);
    let give = says(P, None, Some((&EIGHT, &EIGHT, 0x83)));
    let take = says(P, Some((&EIGHT, &EIGHT, 0x83)), None);
    assert_eq!((give.len(), wide(&empty(64), &give)), (48, (0, block(64, &all))));
    assert_eq!(wide(&block(64, &all), &take), (0, empty(64)));
    assert_eq!(wide(&empty(63), &give), (8, empty(63)), "the last pair has no room");
    let moved = says(P, Some((&EIGHT, &EIGHT, 0x83)), Some((&[3, 4], &EIGHT, 1)));
    assert_eq!(wide(&block(64, &all), &moved), (0, block(64, &pairs(P, &[3, 4], &EIGHT, 1))));
    let twice = wide(&block(64, &all), &give).1;
    assert_eq!(twice, block(64, &[&all[..], &all].concat()), "a second statement is counted");
    assert_eq!(wide(&twice, &take), (0, block(64, &all)));
}

/// A message of one pair does what the plain one does, number by number.
#[test]
fn one_pair_is_a_plain_message() {
    let b = block(3, &[(M, 1, 2, 3), (M, 1, 3, 1 | 1 << X), (P, 9, 1, 0x81)]);
    let one = [(1, 2, 1), (1, 3, 1 | 1 << X), (9, 1, 0x81), (4, 4, 2), (1024, 1, 1), (1, 2, 0)].map(Some);
    let halves: Vec<Says> = [None].into_iter().chain(one).collect();
    for (part, previous, new) in [M, P, F].into_iter().flat_map(|part| in_twos(&halves).map(move |(old, new)| (part, old, new)))
    {
        let [previous_lists, new_lists] = [previous, new].map(|half| half.map(|(key, id, mask)| ([key], [id], mask)));
        let m = says(part, named(&previous_lists), named(&new_lists));
        assert_eq!(wide(&b, &m), message(&b, &said(part, previous, new)), "{part} {previous:?} {new:?}");
    }
}

/// Each with each.
fn in_twos<T: Copy>(all: &[T]) -> impl Iterator<Item = (T, T)> + '_ {
    all.iter().flat_map(|&one| all.iter().map(move |&other| (one, other)))
}

/// A half of lists that are kept somewhere.
fn named<L: AsRef<[u16]>>(half: &Option<(L, L, u64)>) -> Named<'_> {
    half.as_ref().map(|(keys, ids, mask)| (keys.as_ref(), ids.as_ref(), *mask))
}

/// A good message with something changed in what it says; it is refused with 3, whatever else is wrong.
fn refused(change: impl Fn(&mut Wide)) {
    let b = block(4, &pairs(M, &[1, 2], &[3, 4], 1));
    let mut good = built(M, Some((&[1, 2], &[3, 4], 1)), Some((&[1, 2], &[5, 6], 1)));
    assert_eq!(wide(&b, &good.encode()).0, 0);
    change(&mut good);
    assert_eq!(wide(&b, &good.encode()), (3, b.clone()), "{good:?}");
    for (at, name) in [(0, 1024), (1, 1024)] {
        good.halves[at].ids.iter_mut().for_each(|id| *id += name);
    }
    good.halves.iter_mut().filter(|half| half.mask > 0).for_each(|half| half.mask = 16);
    assert_eq!(wide(&b, &good.encode()), (3, b), "3 before 4 and 5: {good:?}");
}

#[test]
fn lists_that_are_refused() {
    for side in [0, 1] {
        refused(|m| m.halves[side].keys.clear());
        refused(|m| m.halves[side].ids.clear());
        refused(|m| m.halves[side].keys = NINE.to_vec());
        refused(|m| m.halves[side].ids = NINE.to_vec());
        refused(|m| m.halves[side].keys = vec![1, 1]);
        refused(|m| m.halves[side].keys = vec![1, 2, 2]);
        refused(|m| m.halves[side].keys = vec![2, 1]);
        refused(|m| m.halves[side].ids = vec![3, 5, 4]);
        refused(|m| m.halves[side].ids = vec![256, 3]);
    }
}

#[test]
fn absent_halves_that_are_refused() {
    for (side, flags) in [(0, 2), (1, 1)] {
        refused(|m| m.flags = flags);
        refused(|m| (m.flags, m.halves[side].mask) = (flags, 0));
        refused(|m| (m.flags, m.halves[side]) = (flags, Lists { mask: 1, ..Lists::default() }));
        refused(|m| (m.flags, m.halves[side]) = (flags, Lists { keys: vec![1], ..Lists::default() }));
        refused(|m| (m.flags, m.halves[side]) = (flags, Lists { ids: vec![1], ..Lists::default() }));
    }
    let b = block(4, &pairs(M, &[1, 2], &[3, 4], 1));
    assert_eq!(wide(&b, &says(M, Some((&[1, 2], &[3, 4], 1)), None)), (0, empty(4)));
}

#[test]
fn kinds_flags_and_markers_that_are_refused() {
    for first in [0, 4, 15, 0b1100_0001, 0b0011_0001, 0b0100_0010, 0b0010_0011, 0b0001_0000] {
        refused(|m| m.first = first);
    }
    for flags in [0, 4, 7, 255] {
        refused(|m| m.flags = flags);
    }
    for (flags, marker) in [(2, 0x40), (2, 0x80), (1, 0x10), (1, 0x20)] {
        refused(|m| {
            (m.flags, m.first) = (flags, m.first | marker);
            m.halves[usize::from(flags == 1)] = Lists::default();
        });
    }
    let nothing = Wide { first: 1, ..Wide::default() }.encode();
    assert_eq!(wide(&empty(1), &nothing), (3, empty(1)), "flags 0 with nothing besides");
}

/// Each offset off by one, by two and in its upper byte, with both halves and with one; a byte more and a byte less; cut anywhere.
#[test]
fn headers_and_lengths_that_are_refused() {
    let (b, half): (_, Named) = (block(8, &pairs(M, &[1, 2], &[3, 4], 1)), Some((&[1, 2], &[3, 4], 1)));
    for good in [says(M, half, half), says(M, half, None), says(M, None, half)] {
        assert_eq!(wide(&b, &good).0, 0);
        for (at, by) in (8..16).flat_map(|at| [1u8, 2, 254, 255].map(|by| (at, by))) {
            let mut m = good.clone();
            m[at] = m[at].wrapping_add(by);
            assert_eq!(wide(&b, &m), (3, b.clone()), "byte {at} and {by}");
        }
        for at in 2..6 {
            let mut m = good.clone();
            m[at] = m[at].wrapping_add(1);
            assert_eq!(wide(&b, &m).0, 3, "a length that is too great");
        }
        assert_eq!((wide(&b, &[&good[..], &[0]].concat()).0, wide(&b, &[&good[..], &[0, 0]].concat()).0), (3, 3));
        for length in 0..good.len() {
            assert_eq!(wide(&b, &good[..length]).0, 3, "{length} bytes");
        }
    }
    assert_eq!(wide(&b, &said(M, None, Some((1, 3, 1)))).0, 3, "a plain message");
    assert_eq!(message(&b, &says(M, None, half)).0, 3, "and a wide one where a plain one is to be");
}

#[test]
fn names_before_masks_before_steps() {
    let b = block(4, &pairs(M, &[1, 2], &[3, 4], 1));
    let (names, good): ([&[u16]; 2], Named) = ([&[1024], &[1, 1024]], Some((&[1, 2], &[3, 4], 1)));
    for above in names {
        for half in [(above, &[3u16][..], 0), (&[1], above, 16)] {
            for (previous, new) in [(Some(half), good), (good, Some(half)), (Some(half), None), (None, Some(half))] {
                assert_eq!(wide(&b, &says(M, previous, new)), (4, b.clone()));
            }
        }
    }
    for mask in [0, 16, 31, 255, 1 << X, 16 | 1 << N] {
        let half: Named = Some((&[6], &[6], mask));
        for (previous, new) in [(half, good), (good, half), (half, None), (None, half)] {
            assert_eq!(wide(&b, &says(M, previous, new)), (5, b.clone()));
        }
    }
    let fair: [(usize, &[u16], u64); 3] = [(P, &[1023], 255), (F, &[0, 1023], 15), (M, &[0], 15)];
    for (part, keys, mask) in fair {
        assert_eq!(wide(&empty(2), &says(part, None, Some((keys, &[0], mask)))).0, 0);
    }
}

/// What is refused in the middle leaves every byte: after takes that removed records, and after adds that inserted some.
#[test]
fn the_first_that_is_met_refuses() {
    let (one, two) = (&[1, 2][..], &[3, 4][..]);
    let three = block(4, &pairs(M, one, two, 1)[..3]);
    assert_eq!(wide(&three, &says(M, Some((one, two, 1)), None)), (6, three.clone()), "the last pair is missing");
    let take: Named = Some((&[1], two, 1));
    assert_eq!(wide(&three, &says(M, take, Some((&[5, 6], &[7, 8], 1)))), (8, three.clone()), "three fit after two were taken");
    assert_eq!(wide(&three, &says(M, take, Some((&[5], &[7, 8], 1)))).0, 0);
    assert_eq!(
        wide(&three, &says(M, Some((one, &[3], 2)), Some((&[5], &[7], 1)))),
        (6, three.clone()),
        "a letter without a count"
    );
    let mut index = Index::decode(&three).unwrap();
    index.parts[M].get_mut(&(2, 3)).unwrap()[0] = u16::MAX;
    let full = index.encode();
    assert_eq!(wide(&full, &says(M, take, Some((one, &[3], 1)))), (7, full.clone()), "after one was inserted");
    assert_eq!(wide(&full, &says(M, Some((one, &[3], 1)), Some((one, &[3], 1)))), (0, full.clone()), "it is taken down first");
    assert_eq!(wide(&full, &says(M, Some((&[3], two, 1)), Some((&[2], &[3], 1)))), (6, full), "6 before 7");
}

/// Pairs come by key and then by id: which of 7 and 8 is met first hangs on it.
#[test]
fn pairs_by_key_then_id() {
    let mut index = Index::empty(HEADER + 2 * RECORD);
    let full = [u16::MAX, 0, 0, 0, 0, 0, 0, 0, 0, 0];
    index.parts[P].insert((1, 4), full);
    let give = says(P, None, Some((&[1, 2], &[3, 4], 1)));
    assert_eq!(wide(&index.encode(), &give), (7, index.encode()), "(1, 3) fits, and (1, 4) is next");
    index.parts[P].clear();
    index.parts[P].insert((2, 3), full);
    assert_eq!(wide(&index.encode(), &give), (8, index.encode()), "(1, 3) fits, (1, 4) does not");
}

#[test]
fn a_pair_of_both_halves() {
    let b = block(4, &pairs(F, &[1, 2], &[3, 4], 3));
    let both = says(F, Some((&[1, 2], &[3, 4], 3)), Some((&[2, 3], &[3, 4], 1)));
    assert_eq!(wide(&b, &both), (0, block(4, &pairs(F, &[2, 3], &[3, 4], 1))));
    let again = says(F, Some((&[1, 2], &[3, 4], 1)), Some((&[1, 2], &[3, 4], 1)));
    assert_eq!(wide(&b, &again), (0, b.clone()));
    assert_eq!(wide(&b, &says(F, Some((&[1, 2], &[3, 4], 4)), Some((&[1, 2], &[3, 4], 4)))), (6, b));
}

#[test]
fn markers_of_pairs() {
    let (x, n) = (1 | 1 << X, 1 | 1 << N);
    let b = block(4, &pairs(M, &[1, 2], &[3, 4], x));
    let to = |mask| says(M, Some((&[1, 2], &[3, 4], x)), Some((&[1, 2], &[3, 4], mask)));
    assert_eq!(wide(&b, &to(n)), (0, block(4, &pairs(M, &[1, 2], &[3, 4], n))));
    assert_eq!(wide(&b, &to(1)), (0, block(4, &pairs(M, &[1, 2], &[3, 4], 1))));
    assert_eq!(wide(&b, &says(M, Some((&[1, 2], &[3, 4], n)), None)), (6, b.clone()));
    let left = pairs(M, &[1, 2], &[3, 4], 1 << X);
    assert_eq!(wide(&b, &says(M, Some((&[1, 2], &[3, 4], 1)), None)), (0, block(4, &left)), "markers alone stay");
    let mut index = Index::decode(&b).unwrap();
    index.parts[M].get_mut(&(2, 4)).unwrap()[X] = u16::MAX;
    let full = index.encode();
    assert_eq!(wide(&full, &says(M, None, Some((&[1, 2], &[3, 4], x)))), (7, full.clone()), "at the last pair");
    assert_eq!(wide(&full, &says(M, None, Some((&[1, 2], &[3, 4], n)))).0, 0);
}

#[test]
fn the_block_comes_first() {
    let give = says(M, None, Some((&[1], &[2], 1)));
    for m in [&give[..], &[], &says(M, None, Some((&[1024], &[2], 0)))] {
        assert_eq!((wide(&[7; 15], m), wide(&[7; 16], m)), ((1, vec![7; 15]), (2, vec![7; 16])));
    }
    let (b, own) = (empty(1), directory(&empty(1), &[0; ENTRIES]).1);
    for m in [&give[..], &[], &says(M, None, Some((&[1024], &[2], 0)))] {
        for lent in [&own[1..], &[7; ENTRIES]] {
            assert_eq!(wide_by(&b, lent, m), (13, b.clone(), lent.to_vec()));
        }
        assert_eq!((wide_by(&[7; 15], &own[1..], m).0, wide_by(&[7; 16], &own[1..], m).0), (1, 2));
    }
    let (number, after, kept) = wide_by(&b, &own, &give);
    assert_eq!((number, &after, &kept), (0, &block(1, &[(M, 1, 2, 1)]), &directory(&after, &own).1));
    let more = says(M, Some((&[1], &[2], 1)), Some((&[1, 2], &[2], 1)));
    assert_eq!(wide_by(&after, &kept, &more), (8, after.clone(), kept.clone()));
}

/// A wide message is refused where one of its pairs is, sent by itself in its turn, and by the same number; else it leaves the same.
#[test]
fn a_wide_message_is_its_pairs() {
    let (mut accepted, mut refused) = (0, 0);
    for seed in 0..3_000 {
        let mut rng = Rng(seed);
        let index = gen::index(&mut rng);
        let m = gen::wide(&mut rng, &index);
        let (Ok(read), b) = (crate::wide::read(&m), index.encode()) else { continue };
        let (number, after) = wide(&b, &m);
        if number == 4 || number == 5 {
            continue;
        }
        let [old, new] = &read.halves;
        let one = |half: &super::Half| Some((half.name.0, half.name.1, half.mask));
        let takes = old.iter().map(|half| said(read.kind, one(half), None));
        let adds = new.iter().map(|half| said(read.kind, None, one(half)));
        let sent = takes.chain(adds).try_fold(b.clone(), |block, pair| match message(&block, &pair) {
            (0, after) => Ok(after),
            (number, _) => Err(number),
        });
        assert_eq!(sent, if number == 0 { Ok(after) } else { Err(number) }, "seed {seed}");
        accepted += u32::from(number == 0);
        refused += u32::from(number != 0);
    }
    assert!(accepted > 400 && refused > 600, "{accepted} {refused}");
}

/// What a statement says.
type Stated = Option<(Vec<u16>, Vec<u16>, u64)>;

/// Some keys and ids, one of each where the statement is plain, and a mask.
fn stated(rng: &mut Rng, is_wide: bool) -> Stated {
    let mut names = || -> Vec<u16> {
        let (first, most) = (rng.below(4) as u16, 1 + rng.below(4) as usize);
        (first..).take(if is_wide { most } else { 1 }).collect()
    };
    let (keys, ids) = (names(), names());
    Some((keys, ids, (1 + rng.below(ALL)) | rng.pick(&[0, 1 << X, 1 << N])))
}

/// A message of a statement, wide or plain, and the block after it, which accepts it.
fn accepted(b: &[u8], is_wide: bool, m: &[u8]) -> Vec<u8> {
    let (number, after) = if is_wide { wide(b, m) } else { message(b, m) };
    assert_eq!(number, 0);
    after
}

/// Statements, wide and plain, begin, change and end, each quoting what it left. At every moment each count is the number of those that
/// stand with that record and letter: a wide one counts once in each of its pairs. So the block hangs on what stands alone, and the same
/// messages end in the same bytes where those of one statement come after all of another.
#[test]
fn wide_and_plain_statements_are_counted() {
    let plain = |half: &Stated| half.as_ref().map(|(keys, ids, mask)| (keys[0], ids[0], *mask));
    for seed in 0..200 {
        let (mut rng, mut b, mut sent) = (Rng(seed), empty(64), Vec::new());
        let mut left: [Stated; 6] = Default::default();
        for _ in 0..40 {
            let one = rng.below(6) as usize;
            let (is_wide, ends) = (one % 2 == 0, rng.one_in(3) && left[one].is_some());
            let new = if ends { None } else { stated(&mut rng, is_wide) };
            let m = if is_wide { says(M, named(&left[one]), named(&new)) } else { said(M, plain(&left[one]), plain(&new)) };
            b = accepted(&b, is_wide, &m);
            left[one] = new;
            sent.push((one, m));
            let standing = left.iter().flatten().flat_map(|(keys, ids, mask)| pairs(M, keys, ids, *mask));
            assert_eq!(b, block(64, &standing.collect::<Vec<_>>()), "seed {seed}");
        }
        sent.sort_by_key(|&(one, _)| one);
        let other = sent.iter().fold(empty(64), |b, (one, m)| accepted(&b, one % 2 == 0, m));
        assert_eq!(other, b, "seed {seed}");
    }
}

/// How often generated messages are accepted, and refused after something was done: never less than here.
#[test]
fn wide_messages_do_much() {
    let (mut accepted, mut many, mut undone) = (0, 0, 0);
    for seed in 0..3_000 {
        let mut rng = Rng(seed);
        let index = gen::index(&mut rng);
        let m = gen::wide(&mut rng, &index);
        let number = wide(&index.encode(), &m).0;
        let pairs = crate::wide::read(&m).map_or(0, |said| said.halves.iter().map(Vec::len).sum());
        accepted += u32::from(number == 0);
        many += u32::from(number == 0 && pairs > 16);
        undone += u32::from((7..=8).contains(&number) && has(m[1], 0));
    }
    println!("accepted {accepted}, with many pairs {many}, refused after takes {undone}");
    assert!(accepted > 450 && many > 70 && undone > 50, "{accepted} {many} {undone}");
}
