//! Blocks in which chains of few records decide, many of them with about as many M records as the plain engine takes; and questions
//! with a limit about as great as the chains are long.

use super::{firms, insert, question, two_rights, Drawn, Rng, OTHER, START};
use crate::bound::member;
use crate::limits::{PLAIN_LIMIT, PLAIN_RECORDS};
use crate::{letters, once, Index, Part, ALL, CHAIN, F, HEADER, M, MARKERS, N, NAMES, P, RECORD, ROOM, X};
use std::collections::btree_map::{BTreeMap, Entry};

/// Where the names of the user's chain begin, and those of the object's; and those of records that nothing leads to.
const HERS: u16 = 700;
const ITS: u16 = 750;
const BESIDE: u16 = 900;

/// A user, an object, a request and a limit.
#[derive(Clone, Copy, Debug)]
pub struct Limited {
    pub user: u64,
    pub object: u64,
    pub request: u64,
    pub limit: u64,
}

/// How many records a chain has, one at least: mostly few, often about as many as the plain engine follows, and now and then about as
/// many as any may have.
fn records(rng: &mut Rng) -> u16 {
    let (few, most) = (PLAIN_LIMIT as u64, CHAIN as u16);
    match rng.below(12) {
        0 => rng.pick(&[most - 1, most, most, most + 1]),
        1..=3 => rng.pick(&[few as u16 - 1, few as u16, few as u16 + 1]),
        4..=6 => 1 + rng.below(few) as u16,
        _ => rng.pick(&[1, 1, 2, 2, 3]),
    }
}

/// Puts a chain into the block, from a name over names from `first` on, and some records besides: one that leads back, and one with
/// another right that leaves names out. In every sixth chain a record in it does not carry the right, or has markers. The names.
fn lead(rng: &mut Rng, index: &mut Index, start: u16, first: u16, [right, other]: [u64; 2]) -> Vec<u16> {
    let records = if rng.one_in(4) { 0 } else { records(rng) };
    let names: Vec<u16> = [start].into_iter().chain((0..records).map(|n| first + n)).collect();
    let odd = if rng.one_in(6) { rng.below(u64::from(records) + 1) as usize } else { names.len() };
    for (n, link) in names.windows(2).enumerate() {
        let mask = right | rng.pick(&[0, 0, other, ALL]);
        let mask = if n == odd { rng.pick(&[other, 1 << X, 1 << N, right | 1 << N, right | 1 << X]) } else { mask };
        index.parts[M].insert((link[0], link[1]), once(mask));
    }
    for _ in 0..rng.pick(&[0, 0, 1, 2]) {
        let [one, later] = [rng.pick(&names), rng.pick(&names)];
        let link = if rng.one_in(2) { (one.max(later), one.min(later)) } else { (one.min(later), one.max(later)) };
        index.parts[M].entry(link).or_insert(once(rng.pick(&[right, other, other, ALL])));
    }
    names
}

/// A user and an object with a chain each, and grants between names of the two, mostly where both end. The object's chain may be one
/// of name 0, to which the object may lead.
fn ways(rng: &mut Rng, index: &mut Index) {
    let (rights, start) = (two_rights(rng), rng.pick(&[OTHER, OTHER, OTHER, OTHER, 0]));
    let (hers, its) = (lead(rng, index, START, HERS, rights), lead(rng, index, start, ITS, rights));
    if start == 0 && rng.one_in(2) {
        let names = lead(rng, index, OTHER, ITS + CHAIN as u16 + 2, rights);
        index.parts[M].insert((names[names.len() - 1], 0), once(rights[0]));
    }
    for n in 0..rng.pick(&[1, 1, 2, 4]) {
        let end = |rng: &mut Rng, names: &[u16]| if n == 0 { names[names.len() - 1] } else { rng.pick(names) };
        let (key, id) = (if rng.one_in(6) { 0 } else { end(rng, &its) }, end(rng, &hers));
        index.parts[P].insert((key, id), once(rng.pick(&[ALL, ALL, rights[0], rights[1], ALL | rights[1] << 4])));
    }
}

/// Filters on the object, on a group of it, on name 0 or on a name that its chain leads to.
fn filters(rng: &mut Rng, index: &mut Index) {
    let own: Vec<u16> = index.parts[M].range((OTHER, 0)..=(OTHER, u16::MAX)).map(|(record, _)| record.1).collect();
    for id in 0..rng.pick(&[1, 1, 2]) {
        let group = if own.is_empty() { OTHER } else { rng.pick(&own) };
        let key = rng.pick(&[OTHER, group, group, 0, ITS + 1, START]);
        index.parts[F].insert((key, 20 + id), once(1 + rng.below(ALL)));
    }
}

/// Brings the M records to about as many as the plain engine takes, by some that nothing leads to. In every other block these have
/// markers alone, all or some.
fn fill(rng: &mut Rng, index: &mut Index) {
    let (many, bare) = (PLAIN_RECORDS, rng.pick(&[0, 0, 1, 3]));
    let many = rng.pick(&[many - 1, many - 1, many, many, many, many, many, many + 1, many + 1, many + 2, many + 9]);
    let mut n = 0;
    while index.parts[M].len() < many {
        let mut counts = once(1 + rng.below(ALL));
        if bare > 0 && rng.one_in(bare) {
            firms::strip(rng, &mut counts);
        }
        index.parts[M].insert((BESIDE + n / 8, BESIDE + 30 + n % 8), counts);
        n += 1;
    }
}

/// Puts so many P or F records in that the records in all are more than the M records may be.
fn many_others(rng: &mut Rng, index: &mut Index) {
    let part = rng.pick(&[P, F, F]);
    for n in 0..PLAIN_RECORDS as u16 + rng.below(20) as u16 {
        index.parts[part].insert((BESIDE + n, BESIDE), once(1 + rng.below(ALL)));
    }
}

/// A good block: every sixth time one as others are, of any size.
pub fn index(rng: &mut Rng) -> Index {
    if rng.one_in(6) {
        return super::index(rng);
    }
    let mut index = Index::empty(HEADER);
    let from = Drawn { pool: rng.pick(&[3, 6, 12, 12, 40]), marked: rng.pick(&[0, 3, 8]) };
    for _ in 0..rng.pick(&[0, 0, 0, 4, 8, 16, 70]) {
        insert(rng, &mut index, from);
    }
    if !rng.one_in(6) {
        ways(rng, &mut index);
    }
    if rng.one_in(2) {
        firms::firms(rng, &mut index, records);
    }
    if rng.one_in(3) {
        filters(rng, &mut index);
    }
    if rng.one_in(3) {
        fill(rng, &mut index);
    }
    if rng.one_in(12) {
        many_others(rng, &mut index);
    }
    let spare = rng.pick(&[0, 0, 1, 5]).min(ROOM - index.records());
    index.length = HEADER + RECORD * (index.records() + spare);
    index
}

/// How many records the shortest chain to each name has, whatever the records carry, up to two more than a chain may have.
pub fn far(memberships: &Part, start: u16) -> BTreeMap<u16, u64> {
    let (mut far, mut last) = (BTreeMap::from([(start, 0)]), vec![start]);
    for records in 1..=CHAIN as u64 + 2 {
        let mut next = Vec::new();
        for name in last {
            for (&(_, id), _) in memberships.range((name, 0)..=(name, u16::MAX)).filter(|(_, counts)| member(counts)) {
                if let Entry::Vacant(place) = far.entry(id) {
                    place.insert(records);
                    next.push(id);
                }
            }
        }
        last = next;
    }
    far
}

/// How many records the shortest chains have that may decide: from the user to the id of a P record, and to a group of hers; from the
/// object to the key of a P record, and to a group that some record marks.
fn deciding(index: &Index, [user, object]: [u16; 2]) -> Vec<u64> {
    let [hers, its] = [user, object].map(|start| far(&index.parts[M], start));
    let exclusive = || index.parts[M].iter().filter(|(_, counts)| counts[X] > 0).map(|(record, _)| record);
    let grants = || index.parts[P].keys();
    let of_user = grants().filter_map(|(_, id)| hers.get(id).copied());
    let to_hers = exclusive().filter_map(|(key, _)| hers.get(key).map(|records| records + 1));
    let of_object = grants().filter_map(|(key, _)| its.get(key).copied());
    of_user.chain(to_hers).chain(of_object).chain(exclusive().filter_map(|(_, id)| its.get(id).copied())).collect()
}

/// Limits that are too great for the plain engine, many of them for both calls, and many of those fair by their last bits.
const GREAT: [u64; 24] = [
    9,
    9,
    9,
    10,
    31,
    32,
    33,
    33,
    33,
    34,
    255,
    256,
    256 + 3,
    256 + 8,
    1 << 16,
    (1 << 16) + 5,
    1 << 32,
    (1 << 32) + 2,
    (1 << 32) + 8,
    (1 << 32) + 32,
    1 << 63,
    (1 << 63) + 4,
    u64::MAX - 3,
    u64::MAX,
];

/// A limit: mostly just enough for a chain that may decide, or one less; else any up to the greatest or one above, or one too great.
fn limit(rng: &mut Rng, index: &Index, names: [u64; 2], greatest: usize) -> u64 {
    match rng.below(10) {
        0 => rng.pick(&GREAT),
        1..=3 => rng.below(greatest as u64 + 2),
        _ => {
            let all = deciding(index, names.map(|name| (name % u64::from(NAMES)) as u16));
            let one = if all.is_empty() { rng.below(PLAIN_LIMIT as u64) } else { rng.pick(&all) };
            rng.pick(&[one, one, one.saturating_sub(1), one.saturating_sub(1), one + 1])
        }
    }
}

/// The steps of a walk that keeps no marks, from both names once for every P record and every record with X.
fn steps(index: &Index, names: [u64; 2], limit: u64) -> u64 {
    let links: Vec<(u16, u16)> = index.parts[M].iter().filter(|(_, counts)| member(counts)).map(|(&link, _)| link).collect();
    let exclusive = index.parts[M].values().filter(|counts| counts[X] > 0).count();
    let chains = |start: u64| {
        let mut ways = BTreeMap::from([(start as u16, 1u64)]);
        (0..limit).fold(1, |sum: u64, _| {
            let mut next = BTreeMap::new();
            for &(key, id) in &links {
                if let Some(&many) = ways.get(&key) {
                    *next.entry(id).or_default() += many;
                }
            }
            ways = next;
            sum + ways.values().sum::<u64>()
        })
    };
    (index.parts[P].len() + exclusive + 1) as u64 * (chains(names[0]) + chains(names[1]))
}

/// How many such steps a question is to take at most, and how many every fiftieth one.
const STEPS: u64 = 10_000;
const MANY_STEPS: u64 = 200_000;

/// The limit, or one below it with which the plain engine, which goes over every chain, does not take too long.
fn bearable(rng: &mut Rng, index: &Index, names: [u64; 2], mut limit: u64) -> u64 {
    let most = if rng.one_in(50) { MANY_STEPS } else { STEPS };
    if index.parts[M].len() <= PLAIN_RECORDS && limit <= PLAIN_LIMIT as u64 {
        while limit > 0 && steps(index, names, limit) > most {
            limit -= 1;
        }
    }
    limit
}

/// What is asked of a call with this greatest limit, often of the names where chains start. Every twelfth time some of it is spoilt, or
/// all.
pub fn asked(rng: &mut Rng, index: &Index, greatest: usize) -> Limited {
    let starts = index.parts[M].contains_key(&(START, HERS)) || index.parts[P].keys().any(|record| record.1 == START);
    let names = if starts && rng.one_in(2) { (START.into(), OTHER.into()) } else { question(rng, index) };
    let request = if rng.one_in(2) { ALL } else { 1 + rng.below(ALL) };
    let limit = limit(rng, index, names.into(), greatest);
    let mut asked = Limited { user: names.0, object: names.1, request, limit };
    if rng.one_in(12) {
        spoil(rng, &mut asked);
    }
    Limited { limit: bearable(rng, index, [asked.user, asked.object], asked.limit), ..asked }
}

/// Makes some of it such that it is refused, or may be.
fn spoil(rng: &mut Rng, asked: &mut Limited) {
    let spoilt = 1 + rng.below(15);
    for k in letters(spoilt) {
        match k {
            0 => asked.user = rng.pick(&[NAMES.into(), asked.user | 1 << 16, asked.user | 1 << 32, u64::MAX]),
            1 => asked.object = rng.pick(&[NAMES.into(), asked.object | 1 << 16, asked.object | 1 << 32, u64::MAX]),
            2 => asked.request = rng.pick(&[0, 0, ALL + 1, 255, 256 + 2, (1 << 32) + 15, u64::MAX]),
            _ => asked.limit = rng.pick(&GREAT),
        }
    }
}

/// How many M records of a block have markers alone.
pub fn bare(index: &Index) -> usize {
    index.parts[M].values().filter(|counts| counts[..MARKERS.start].iter().all(|&count| count == 0)).count()
}
