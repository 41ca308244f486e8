//! Every example of the rules.

use super::*;
use crate::barred::denies_some;
use crate::gen::Rng;
use crate::growth::Growth;

/// A record: its part, key, id and mask.
pub type Record = (usize, u16, u16, u64);

/// A block with room for `room` records, and these records, each letter counted once.
pub fn block(room: usize, records: &[Record]) -> Vec<u8> {
    let mut index = Index::empty(HEADER + RECORD * room);
    for &(part, key, id, mask) in records {
        let counts = index.parts[part].entry((key, id)).or_default();
        letters(mask).for_each(|k| counts[k] += 1);
    }
    index.encode()
}

/// What a statement says, as key, id and mask.
pub type Says = Option<(u16, u16, u64)>;

/// A message of a part: what the statement said before, and what it says now.
pub fn said(part: usize, previous: Says, new: Says) -> Vec<u8> {
    let mut m = vec![part as u8 + 1, 0];
    for (side, half) in [previous, new].into_iter().enumerate() {
        let (key, id, mask) = half.unwrap_or_default();
        m[0] |= ((mask >> MARKERS.start) as u8) << MARKED[side];
        m[1] |= u8::from(half.is_some()) << side;
        m.extend([key, id].map(u16::to_le_bytes).concat());
        m.push(mask as u8);
    }
    m
}

/// A message of permissions.
fn permission(previous: Says, new: Says) -> Vec<u8> {
    said(P, previous, new)
}

/// An empty block with room for so many records.
pub fn empty(room: usize) -> Vec<u8> {
    make(&vec![7; HEADER + RECORD * room]).1
}

/// An answer in the ordinary profile. The strict one gives the same, where nothing is denied.
fn in_ordinary(block: &[u8], answer: impl Fn(u64) -> (u32, u32)) -> (u32, u32) {
    let denied = Index::decode(block).is_ok_and(|index| index.parts[P].values().any(denies_some));
    assert!(denied || answer(STRICT) == answer(ORDINARY));
    answer(ORDINARY)
}

/// The questions in the ordinary profile.
pub fn rights(block: &[u8], user: u64, object: u64, request: u64) -> (u32, u32) {
    in_ordinary(block, |profile| crate::rights(block, user, object, request, profile))
}

pub fn may(block: &[u8], user: u64, object: u64, request: u64) -> (u32, u32) {
    in_ordinary(block, |profile| crate::may(block, user, object, request, profile))
}

fn rights_by(block: &[u8], lent: &[u16], user: u64, object: u64, request: u64) -> (u32, u32) {
    in_ordinary(block, |profile| crate::rights_by(block, lent, user, object, request, profile))
}

fn may_by(block: &[u8], lent: &[u16], user: u64, object: u64, request: u64) -> (u32, u32) {
    in_ordinary(block, |profile| crate::may_by(block, lent, user, object, request, profile))
}

/// What an accepted full question gives: the rights held, and the M records examined for the user and for the object.
pub fn answer(held: u32, user: u32, object: u32) -> (u32, u32) {
    (0, held + 16 * user + 262_144 * object)
}

#[test]
fn net_masks() {
    for (mask, net) in [(135, 7), (79, 11)] {
        assert_eq!(rights(&block(1, &[(P, 9, 1, mask)]), 1, 9, ALL), (0, net));
    }
}

#[test]
fn text_of_a_set() {
    let mut index = Index::empty(empty(4).len());
    for (id, first) in [(3, [1, 1, 1]), (12, [1, 1, 2])] {
        let mut counts = Counts::default();
        counts[..3].copy_from_slice(&first);
        index.parts[P].insert((7, id), counts);
    }
    let (number, length, out) = write(&index.encode(), 2, 7, &[b'.'; 20]);
    assert_eq!((number, length), (0, 13));
    assert_eq!(out, b"3;MRU;12;MRU2.......");
    assert_eq!(write(&index.encode(), 2, 7, &[b'.'; 12]), (10, 0, vec![b'.'; 12]));
    let (number, records, after) = read(&empty(4), 2, 7, b"3;MRU;12;MRU2");
    assert_eq!((number, records, after), (0, 2, index.encode()));
}

/// Texts of no set of memberships, and the place of each.
const WRONG: [(&str, u32); 22] = [
    ("3;M0", 3),
    ("3;M1", 4),
    ("3;M1;4;M", 4),
    ("3;M65536", 7),
    ("3;M655350", 8),
    ("03;M", 1),
    ("00;M", 1),
    ("3;RM", 3),
    ("3;MM", 3),
    ("3;m", 2),
    ("3;M;", 4),
    ("3;", 2),
    ("3", 1),
    (";", 0),
    ("+3;M", 0),
    ("1024;M", 3),
    ("65539;M", 3),
    ("399;M;3", 6),
    ("399;M;1024;M", 9),
    ("1;M;1", 5),
    ("1;M;1;R", 5),
    ("1023;M;", 6),
];

#[test]
fn texts_of_no_set() {
    for room in [4, 0] {
        let empty = empty(room);
        for (text, place) in WRONG {
            assert_eq!(read(&empty, 1, 5, text.as_bytes()), (9, place, empty.clone()), "{text}");
        }
        assert_eq!(read(&empty, 1, 5, b""), (0, 0, empty.clone()));
    }
    assert_eq!(read(&empty(4), 1, 5, b"0;M").0, 0);
    assert_eq!(read(&empty(4), 2, 5, b"3;m").0, 0);
    assert_eq!(read(&empty(0), 1, 5, b"3;M"), (8, 0, empty(0)));
}

#[test]
fn chains() {
    let b = block(4, &[(M, 1, 2, 2), (M, 1, 3, 15), (M, 3, 2, 15), (P, 9, 2, 15)]);
    assert_eq!(rights(&b, 1, 9, ALL), answer(15, 3, 0));
    let b = block(3, &[(M, 1, 2, 2), (M, 2, 3, 4), (P, 9, 3, 15)]);
    assert_eq!(rights(&b, 1, 9, ALL), answer(0, 2, 0));
    let b = block(2, &[(M, 1, 1, 15), (P, 0, 1, 2)]);
    for (object, examined) in [(0, 0), (1, 1), (9, 0), (u64::from(NAMES) - 1, 0)] {
        assert_eq!(rights(&b, 1, object, ALL), answer(2, 1, examined));
    }
}

#[test]
fn long_chains() {
    assert_eq!(CHAIN, 32);
    for (length, held, examined) in [(31, 2, 31), (32, 2, 32), (33, 0, 32), (40, 0, 32)] {
        let mut records: Vec<_> = (100..100 + length).map(|n| (M, n, n + 1, 2)).collect();
        records.push((P, 9, 100 + length, 2));
        assert_eq!(rights(&block(64, &records), 100, 9, ALL), answer(held, examined, 0));
        let last = records.len() - 1;
        records[last] = (P, 100 + length, 9, 2);
        assert_eq!(rights(&block(64, &records), 9, 100, ALL), answer(held, 0, examined));
        assert_eq!(rights(&block(64, &records), 100 + u64::from(length) - 31, 9, ALL), answer(0, 31, 0));
    }
}

#[test]
fn one_record_examined() {
    let b = block(1, &[(M, 1, 2, 2)]);
    assert_eq!((rights(&b, 1, 2, ALL), rights(&b, 2, 1, ALL)), (answer(0, 1, 0), answer(0, 0, 1)));
    let b = block(1, &[(M, 1, 1, 15)]);
    assert_eq!((rights(&b, 1, 9, ALL), rights(&b, 1, 1, ALL)), (answer(0, 1, 0), answer(0, 1, 1)));
    assert_eq!((may(&b, 1, 1, 1), rights(&b, 1024, 1, ALL), rights(&b, 1, 1, 0)), ((0, 0), (4, 0), (5, 0)));
}

/// The four names of the ring get a right in each of four rounds, and the start has all at once.
#[test]
fn records_examined_four_times() {
    let start = [(M, 1, 2, 1), (M, 1, 3, 2), (M, 1, 4, 4), (M, 1, 5, 8)];
    let ring = [(M, 2, 3, 15), (M, 3, 4, 15), (M, 4, 5, 15), (M, 5, 2, 15)];
    let b = block(8, &[start, ring].concat());
    assert_eq!((rights(&b, 1, 2, ALL), rights(&b, 9, 1, ALL)), (answer(0, 20, 4), answer(0, 0, 20)));
}

#[test]
fn request_and_filters_have_no_part() {
    let records = [(M, 1, 2, 1), (M, 2, 3, 15), (M, 9, 4, 2), (M, 9, 2, 4), (P, 9, 1, 15), (F, 9, 20, 1), (F, 4, 20, 8)];
    for request in 1..=ALL {
        assert_eq!(rights(&block(8, &records), 1, 9, request), answer(0, 2, 3));
        assert_eq!(rights(&block(8, &records[..5]), 1, 9, request), answer(request as u32, 2, 3));
    }
}

/// That name 0 counts in full for every object is no mark of the walk.
#[test]
fn name_0_is_examined_where_a_chain_reaches_it() {
    let records = [(M, 0, 5, 15), (P, 0, 1, 2), (M, 9, 0, 1)];
    assert_eq!(rights(&block(3, &records[..2]), 1, 9, ALL), answer(2, 0, 0));
    assert_eq!(rights(&block(3, &records), 1, 9, ALL), answer(2, 0, 2));
    assert_eq!(rights(&block(3, &records), 0, 0, ALL), answer(0, 1, 1));
}

/// A mark differs from the round before where a right first comes to its name, so a record is examined four times at most.
#[test]
fn numbers_by_first_rounds() {
    for seed in 0..2000 {
        let memberships = &gen::index(&mut Rng(seed)).parts[M];
        let starts = memberships.keys().flat_map(|&(key, id)| [key, id]).chain([100, 9]);
        for start in starts.take(8) {
            let number = examined(memberships, start);
            assert_eq!(number, Growth::new(memberships, start).number(ALL), "seed {seed}, start {start}");
            assert!(number as usize <= 4 * memberships.len());
        }
    }
}

#[test]
fn filters() {
    let b = block(3, &[(P, 9, 1, 15), (F, 9, 20, 6), (F, 9, 21, 2)]);
    assert_eq!(rights(&b, 1, 9, ALL), (0, 2));
    assert_eq!((may(&b, 1, 9, 2), may(&b, 1, 9, 6)), ((0, 1), (0, 0)));
}

/// Those of the object and of its groups bind, whatever the memberships carry; those of the groups' groups, of the user and of
/// name 0 do not.
#[test]
fn filters_of_groups() {
    let grant = (P, 9, 1, 15);
    let groups = [(M, 9, 3, 1), (M, 9, 12, 8), (F, 3, 20, 14), (F, 9, 20, 7), (F, 12, 20, 11)];
    assert_eq!(rights(&block(6, &[&groups[..], &[grant]].concat()), 1, 9, ALL), answer(2, 0, 2));
    let others = [(M, 9, 3, 15), (M, 3, 4, 15), (M, 1, 5, 15), (F, 4, 20, 1), (F, 1, 20, 1), (F, 5, 20, 1), (F, 0, 20, 1)];
    assert_eq!(rights(&block(8, &[&others[..], &[grant]].concat()), 1, 9, ALL), answer(15, 1, 2));
    let zero = [(M, 9, 0, 8), (F, 0, 20, 1), (F, 0, 21, 3)];
    assert_eq!(rights(&block(4, &[&zero[..], &[grant]].concat()), 1, 9, ALL), answer(1, 0, 1));
    let apart = [(F, 9, 20, 1), (F, 9, 21, 2)];
    assert_eq!(rights(&block(3, &[&apart[..], &[grant]].concat()), 1, 9, ALL), (0, 0));
}

#[test]
fn two_statements() {
    let give = permission(None, Some((9, 1, 2)));
    let take = permission(Some((9, 1, 2)), None);
    let empty = empty(1);
    let one = message(&empty, &give).1;
    let two = message(&one, &give).1;
    assert_eq!(message(&two, &take), (0, one.clone()));
    assert_eq!(rights(&one, 1, 9, ALL), (0, 2));
    assert_eq!(message(&one, &take), (0, empty));
}

#[test]
fn counts_and_room() {
    let mut index = Index::decode(&empty(1)).unwrap();
    let mut counts = Counts::default();
    counts[1] = 65_535;
    index.parts[P].insert((9, 1), counts);
    let full = index.encode();
    let (here, there) = (Some((9, 1, 2)), Some((8, 1, 2)));
    assert_eq!(message(&full, &permission(here, here)), (0, full.clone()));
    assert_eq!(message(&full, &permission(None, here)), (7, full.clone()));
    assert_eq!(message(&full, &permission(None, there)), (8, full.clone()));
    let one = block(1, &[(P, 9, 1, 2)]);
    assert_eq!(message(&one, &permission(here, there)), (0, block(1, &[(P, 8, 1, 2)])));
}

#[test]
fn lengths() {
    assert_eq!((RECORD, empty(1).len(), GREATEST), (24, 40, 49_168));
    assert_eq!(make(&[7; 15]), (1, vec![7; 15]));
    assert_eq!(make(&[7; GREATEST + 1]), (1, vec![7; GREATEST + 1]));
    assert_eq!(Index::decode(&make(&[7; 16]).1).unwrap().room(), 0);
    assert_eq!(Index::decode(&make(&[7; GREATEST]).1).unwrap().room(), 2048);
}

#[test]
fn doors() {
    let b = block(4, &[(M, 1, 2, 2), (P, 9, 1, 135), (P, 9, 1, 1), (F, 9, 0x123, 6)]);
    assert_eq!([0, 1, 2, 3, 4].map(|kind| size(&b, kind)), [(3, 0), (0, 1), (0, 1), (0, 1), (3, 0)]);
    let records = [0, 1, 2, 3, LAST, LAST + 1, 1 << 32].map(|number| record(&b, number));
    assert_eq!(records, [0x2_0001, 0x1_0009, 0x123_0009, 0, 0, 0, 0].map(|value| (0, value)));
    let counts = [0, 1, 2, 3, 4, 7, LETTERS.len() as u64, 256, u64::MAX].map(|letter| count(&b, 1, letter));
    assert_eq!(counts, [2, 1, 1, 0, 0, 1, 0, 0, 0].map(|value| (0, value)));
    assert_eq!((tested(&b), tested(&b[..HEADER - 1]), tested(&b[..HEADER])), (0, 1, 2));
    assert_eq!((record(&b[..HEADER + RECORD + 3], 1), record(&b[..HEADER + RECORD + 2], 1)), ((0, 0x1_0009), (0, 9)));
    assert_eq!((record(&b[..HEADER], 0), size(&[7], 1), size(&[], 1)), ((0, 0), (0, 7), (0, 0)));
}

/// The entries of a part of a directory.
fn entries(directory: &[u16], kind: usize) -> &[u16] {
    &directory[PART_ENTRIES * kind..][..PART_ENTRIES]
}

/// The place of a record, by its number among all of a block, as an entry has it.
fn place_of(number: usize) -> u16 {
    (HEADER + RECORD * number) as u16
}

/// The directory of a block.
pub fn made(block: &[u8]) -> Vec<u16> {
    let (number, directory) = directory(block, &[7; ENTRIES]);
    assert_eq!(number, 0);
    directory
}

/// Records of all three parts: two of one key, and of the least and the greatest.
const KEYED: [Record; 6] = [(M, 5, 1, 2), (M, 5, 9, 2), (M, 8, 1, 2), (P, 0, 3, 15), (F, 1023, 2, 1), (F, 9, 2, 1)];

#[test]
fn directory_of_an_empty_block() {
    assert_eq!((PART_ENTRIES, ENTRIES), (1025, 3075));
    assert_eq!(made(&empty(0)), [HEADER as u16; ENTRIES]);
    assert_eq!(made(&empty(4)), [HEADER as u16; ENTRIES]);
}

#[test]
fn directory_of_known_records() {
    let directory = made(&block(7, &KEYED));
    let at = |kind, numbers: [usize; 8]| numbers.map(|number| entries(&directory, kind)[number]);
    assert_eq!(at(M, [0, 4, 5, 6, 7, 8, 9, 1024]), [0, 0, 0, 2, 2, 2, 3, 3].map(place_of));
    assert_eq!(at(P, [0, 1, 2, 5, 8, 9, 1023, 1024]), [3, 4, 4, 4, 4, 4, 4, 4].map(place_of));
    assert_eq!(at(F, [0, 1, 8, 9, 10, 1022, 1023, 1024]), [4, 4, 4, 4, 5, 5, 5, 6].map(place_of));
}

/// As the request says it: an entry is the place of the first record whose key is not below its number, or else the part's end.
#[test]
fn directories_by_the_first_record() {
    for seed in 0..200 {
        let index = gen::index(&mut Rng(seed));
        let (directory, mut start) = (index.directory(), HEADER);
        for (kind, part) in index.parts.iter().enumerate() {
            for (number, &entry) in entries(&directory, kind).iter().enumerate() {
                let first = part.keys().position(|&(key, _)| usize::from(key) >= number);
                assert_eq!(usize::from(entry), start + RECORD * first.unwrap_or(part.len()), "seed {seed}, {kind}, {number}");
            }
            start += RECORD * part.len();
        }
    }
}

#[test]
fn directories_made() {
    let b = block(7, &KEYED);
    assert_eq!(directory(&b, &made(&b)), (0, made(&b)));
    for length in [0, 1, ENTRIES - 1, ENTRIES + 1, 2 * ENTRIES] {
        assert_eq!(directory(&b, &vec![7; length]), (13, vec![7; length]));
        assert_eq!(directory(&b[..HEADER - 1], &vec![7; length]), (1, vec![7; length]));
        assert_eq!(directory(&b[..HEADER], &vec![7; length]), (2, vec![7; length]));
    }
    assert_eq!(directory(&b[..HEADER], &[7; ENTRIES]), (2, vec![7; ENTRIES]));
}

/// Directories of the wrong length, and with each entry in turn off by a record or by one.
fn wrong_directories(own: &[u16]) -> impl Iterator<Item = Vec<u16>> + '_ {
    let lengths = [vec![], own[..ENTRIES - 1].to_vec(), [own, &own[ENTRIES - 1..]].concat(), [own, own].concat()];
    let (one, record) = (1u16, RECORD as u16);
    let entries = (0..ENTRIES).map(move |at| {
        let mut wrong = own.to_vec();
        wrong[at] = wrong[at].wrapping_add([one, record, record.wrapping_neg(), one.wrapping_neg()][at % 4]);
        wrong
    });
    lengths.into_iter().chain(entries)
}

/// The tests of the block come first, that of the directory next, and then those of the call.
#[test]
fn calls_by_a_directory_are_refused_in_order() {
    let (b, give) = (block(7, &KEYED), permission(None, Some((9, 1, 2))));
    let own = made(&b);
    for wrong in wrong_directories(&own) {
        for m in [&give[..], &[], &permission(None, Some((1024, 1, 2))), &permission(Some((0, 3, 16)), None)] {
            assert_eq!(message_by(&b, &wrong, m), (13, b.clone(), wrong.clone()));
        }
        for (kind, key) in [(1, 5), (0, 5), (1, 1024)] {
            assert_eq!(read_by(&b, &wrong, kind, key, b"3;m"), (13, 0, b.clone(), wrong.clone()));
            assert_eq!(write_by(&b, &wrong, kind, key, &[7; 2]), (13, 0, vec![7; 2]));
        }
        for (user, request, profile) in [(3, ALL, ORDINARY), (1024, ALL, STRICT), (3, 0, ORDINARY), (3, ALL, 2)] {
            assert_eq!(crate::rights_by(&b, &wrong, user, 0, request, profile), (13, 0));
            assert_eq!(crate::may_by(&b, &wrong, user, 0, request, profile), (13, 0));
        }
    }
    for (number, refused) in [(1, &b[..HEADER - 1]), (2, &b[..HEADER])] {
        for lent in [&own[..], &[], &own[1..]] {
            assert_eq!(message_by(refused, lent, &give), (number, refused.to_vec(), lent.to_vec()));
            assert_eq!(read_by(refused, lent, 0, 5, b""), (number, 0, refused.to_vec(), lent.to_vec()));
            assert_eq!(write_by(refused, lent, 1, 1024, &[7]), (number, 0, vec![7]));
            assert_eq!(crate::rights_by(refused, lent, 3, 0, 0, 2), (number, 0));
            assert_eq!(crate::may_by(refused, lent, 3, 0, 0, 2), (number, 0));
        }
    }
}

#[test]
fn calls_by_their_own_directory() {
    let b = block(7, &KEYED);
    let own = made(&b);
    for (m, number) in [
        (permission(None, Some((0, 3, 0))), 5),
        (permission(Some((0, 3, 16)), None), 6),
        (permission(None, Some((1024, 3, 1))), 4),
        (vec![], 3),
    ] {
        assert_eq!(message_by(&b, &own, &m), (number, b.clone(), own.clone()));
    }
    assert_eq!(read_by(&b, &own, 1, 5, b"3;M1"), (9, 4, b.clone(), own.clone()));
    assert_eq!(read_by(&b, &own, 1, 6, b"1;M;2;M;3;M"), (8, 0, b.clone(), own.clone()));
    assert_eq!((read_by(&b, &own, 4, 6, b"").0, read_by(&b, &own, 1, 1024, b"").0), (3, 4));
    assert_eq!(write_by(&b, &own, 1, 5, &[7; 8]), (0, 7, b"1;R;9;R\x07".to_vec()));
    assert_eq!(write_by(&b, &own, 1, 5, &[7; 6]), (10, 0, vec![7; 6]));
    assert_eq!((rights_by(&b, &own, 3, 5, ALL), rights_by(&b, &own, 3, 8, 6)), (answer(1, 0, 2), answer(6, 0, 1)));
    assert_eq!((may_by(&b, &own, 3, 5, 1), may_by(&b, &own, 3, 5, ALL)), ((0, 1), (0, 0)));
    assert_eq!((rights_by(&b, &own, 1024, 5, ALL), may_by(&b, &own, 3, 5, 0)), ((4, 0), (5, 0)));
}

#[test]
fn directories_are_kept_true() {
    let b = block(7, &KEYED);
    let moved = permission(Some((0, 3, 15)), Some((1, 3, 15)));
    let (number, after, directory) = message_by(&b, &made(&b), &moved);
    assert_eq!((number, entries(&directory, P)[..3].to_vec()), (0, [3, 3, 4].map(place_of).to_vec()));
    assert_eq!((entries(&directory, M), entries(&directory, F)), (entries(&made(&b), M), entries(&made(&b), F)));
    let (number, records, after, directory) = read_by(&after, &directory, 1, 6, b"1;M;2;M");
    assert_eq!((number, records, &directory), (8, 0, &made(&after)));
    let (number, records, after, directory) = read_by(&after, &directory, 1, 5, b"");
    let left = [vec![place_of(0); 9], vec![place_of(1); 1016]].concat();
    assert_eq!((number, records, entries(&directory, M)[..].to_vec()), (0, 0, left));
    assert_eq!((directory[PART_ENTRIES * P], directory[ENTRIES - 1]), (place_of(1), place_of(4)));
    let (number, records, after, directory) = read_by(&after, &directory, 3, 1023, b"1;M;2;M;3;M");
    assert_eq!((number, records, &directory), (0, 3, &made(&after)));
    assert_eq!(directory[ENTRIES - 2..], [3, 6].map(place_of));
}

#[test]
fn standing_prints() {
    let input = [
        [0x02, 0x02, 0, 0, 0, 0, 0, 7, 0, 3, 0, 7],
        [0x02, 0x01, 7, 0, 3, 0, 8, 0, 0, 0, 0, 0],
    ];
    assert_eq!(standing(&input.concat()), b"message 2 refused 6\nP7 3;MRU\n");
    assert_eq!(standing(&[]), b"");
    assert_eq!(standing(&[1, 2, 3]), b"message 1 refused 3\n");
}
