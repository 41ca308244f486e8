//! Slips that are right, and slips that are forged in some way; what a finder is asked, and the lists lent to it; and blocks in which
//! many ways lead from a user and an object to grants.

use super::{granted, insert, message, number, question, two_rights, Drawn, Rng, OTHER, START};
use crate::slips::{grants, links, Chains, Slip, Ways, LONGEST};
use crate::{
    carries, once, Counts, Index, ALL, CHAIN, F, HALF, HALVES, HEADER, M, MARKED, MESSAGE, NAMES, P, RECORD, RIGHTS, ROOM, X,
};

/// Where the names of the user's ways begin, and those of the object's; and how many records both put in, at most.
const HERS: u16 = 700;
const ITS: u16 = 750;
const WAYS: usize = 2 * (LONGEST + 4) + 6;

/// Ways from a name over names from `first` on, by a chain of so many records.
#[derive(Clone, Copy)]
struct Side {
    start: u16,
    first: u16,
    records: u16,
}

impl Side {
    fn new(rng: &mut Rng, start: u16, first: u16) -> Side {
        let most = CHAIN as u16;
        Side { start, first, records: rng.pick(&[1, 2, 3, 4, 6, 9, most - 1, most, most + 1]) }
    }

    /// The name after so many records.
    fn after(&self, records: u16) -> u16 {
        if records == 0 {
            self.start
        } else {
            self.first + records
        }
    }

    /// One of the names.
    fn any(&self, rng: &mut Rng) -> u16 {
        self.after(rng.below(u64::from(self.records) + 1) as u16)
    }

    /// One of the names, often the last.
    fn end(&self, rng: &mut Rng) -> u16 {
        if rng.one_in(3) {
            self.after(self.records)
        } else {
            self.any(rng)
        }
    }

    /// Puts the chain into the block, each record with one right.
    fn put(&self, rng: &mut Rng, index: &mut Index, [right, other]: [u64; 2]) {
        for n in 0..self.records {
            index.parts[M].insert((self.after(n), self.after(n + 1)), once(right | rng.pick(&[0, 0, other])));
        }
    }

    /// Puts some records besides into it, from any of its names to any other, with that right, with another, or with a marker alone.
    fn put_besides(&self, rng: &mut Rng, index: &mut Index, [right, other]: [u64; 2]) {
        for _ in 0..rng.pick(&[0, 1, 2, 4]) {
            let (link, mask) = ((self.any(rng), self.any(rng)), rng.pick(&[right, other, other, ALL, 1 << X]));
            index.parts[M].entry(link).or_insert(once(mask));
        }
    }
}

/// Many ways from a user and an object, or from name 0, which the object may lead to, and grants of a right between names of the
/// two.
fn many_ways(rng: &mut Rng, index: &mut Index) {
    let (rights, start) = (two_rights(rng), rng.pick(&[OTHER, OTHER, OTHER, OTHER, 0]));
    let sides = [(START, HERS), (start, ITS)].map(|(start, first)| Side::new(rng, start, first));
    for side in sides {
        side.put(rng, index, rights);
        side.put_besides(rng, index, rights);
    }
    if start == 0 && rng.one_in(2) {
        index.parts[M].insert((OTHER, 0), once(rng.pick(&rights)));
    }
    for _ in 0..rng.pick(&[1, 2, 3, 5]) {
        let (key, id) = (if rng.one_in(8) { 0 } else { sides[1].end(rng) }, sides[0].end(rng));
        index.parts[P].insert((key, id), once(rng.pick(&[rights[0], rights[0], ALL, rights[1]])));
    }
}

/// A user and an object with chains that are both about as long as they may be, and a grant from end to end.
fn longest_ways(rng: &mut Rng, index: &mut Index) {
    let (rights, most) = (two_rights(rng), CHAIN as u16);
    let ends = [(START, HERS), (OTHER, ITS)].map(|(start, first)| {
        let side = Side { start, first, records: rng.pick(&[most, most, most, most + 1]) };
        side.put(rng, index, rights);
        side.after(side.records)
    });
    index.parts[P].insert((ends[1], ends[0]), once(rights[0]));
}

/// A good block: one as others are, or with many ways to grants and a few records besides, or both.
pub fn index(rng: &mut Rng) -> Index {
    let mut index = if rng.one_in(2) { super::index(rng) } else { Index::empty(HEADER) };
    for _ in 0..rng.below(8).min((ROOM - index.records()) as u64) {
        insert(rng, &mut index, Drawn { pool: 12, marked: 4 });
    }
    if index.records() + WAYS < ROOM {
        match rng.below(16) {
            0 | 1 => {}
            2 => longest_ways(rng, &mut index),
            _ => many_ways(rng, &mut index),
        }
    }
    index.length = index.length.max(HEADER + RECORD * index.records());
    index
}

/// Numbers that are not one right alone, many of them one by their last bits.
const NO_RIGHTS: [u64; 16] =
    [0, 3, 5, 6, 7, 9, 12, ALL, ALL + 1, ALL + 2, 128, (1 << 8) + 2, (1 << 16) + 4, (1 << 32) + 8, (1 << 63) + 1, u64::MAX];

/// A P record that grants a right, and the right; none where there is no such record.
fn grant(rng: &mut Rng, index: &Index) -> Option<((u16, u16), usize)> {
    let of = |(&record, counts): (&(u16, u16), &Counts)| {
        let counts = *counts;
        (0..RIGHTS).filter(move |&right| carries(&counts, right)).map(move |right| (record, right))
    };
    let all: Vec<_> = index.parts[P].iter().flat_map(of).collect();
    (!all.is_empty()).then(|| rng.pick(&all))
}

/// A user, an object and a right: mostly such that chains may lead to a grant of it, and often from where something starts. Now and
/// then the right is none.
fn about(rng: &mut Rng, index: &Index) -> (u64, u64, u64) {
    let (mut right, mut pair) = (rng.below(RIGHTS as u64) as usize, question(rng, index));
    if let Some((record, granted_right)) = grant(rng, index).filter(|_| !rng.one_in(6)) {
        right = granted_right;
        if rng.one_in(2) {
            pair = granted(rng, index, record, |counts| carries(counts, right));
        }
    }
    (pair.0, pair.1, if rng.one_in(20) { rng.pick(&NO_RIGHTS) } else { 1 << right })
}

/// How many places a list has that is lent to a finder: enough mostly, often just enough, and now and then too few.
fn places(rng: &mut Rng) -> usize {
    match rng.below(12) {
        0 => rng.pick(&[0, 1, LONGEST - 2, LONGEST - 1, LONGEST - 1, LONGEST - 1]),
        1 => rng.pick(&[256, 256 + LONGEST - 1, 300]),
        2 if rng.one_in(40) => 65_536 + rng.pick(&[0, 1, LONGEST - 1]),
        3..=5 => LONGEST + rng.below(40) as usize,
        6 => LONGEST + 1,
        _ => LONGEST,
    }
}

/// What a finder is asked, with the lists that are lent to it.
pub fn asked(rng: &mut Rng, index: &Index) -> Slip {
    let (user, object, right) = about(rng, index);
    let chains = [places(rng), places(rng)].map(|places| {
        let seed = rng.bits();
        (0..places as u64).map(|n| Rng(seed ^ n).bits() as u16).collect()
    });
    let mut slip = Slip { user, object, right, chains };
    if rng.one_in(8) {
        forge_question(rng, index, &mut slip);
    }
    slip
}

/// How many records a chain is to have, of those that it can have: often the fewest, and now and then a record too many.
fn records(rng: &mut Rng, ways: &Ways, end: u16) -> usize {
    let all: Vec<usize> = ways.records(end).collect();
    let fair = all.iter().filter(|&&records| records <= CHAIN).count().max(1);
    match rng.below(8) {
        0..=3 => all[0],
        4 => all[all.len() - 1],
        5 => all[fair - 1],
        _ => all[rng.below(fair as u64) as usize],
    }
}

/// A chain from the start of the ways to a name that they lead to.
fn chain(rng: &mut Rng, ways: &Ways, end: u16) -> Vec<u16> {
    let records = records(rng, ways, end);
    ways.chain(end, records, |before| rng.pick(before))
}

/// A chain over these links from a name to anywhere.
fn anywhere(rng: &mut Rng, links: &[(u16, u16)], start: u16) -> Vec<u16> {
    let mut chain = vec![start];
    for _ in 0..rng.pick(&[0, 1, 2, 3, CHAIN, LONGEST]) {
        let next: Vec<u16> = links.iter().filter(|link| Some(&link.0) == chain.last()).map(|link| link.1).collect();
        if next.is_empty() {
            break;
        }
        chain.push(rng.pick(&next));
    }
    chain
}

/// Chains to a grant, if there is one that both sides lead to, else to anywhere. Some go over any records, or against them.
fn drawn(rng: &mut Rng, index: &Index, names: [u16; 2], right: usize) -> Chains {
    let mut links = links(index, right);
    match rng.below(5) {
        0 => links.extend(index.parts[M].keys()),
        1 => links.extend(links.clone().iter().map(|&(key, id)| (id, key))),
        _ => {}
    }
    let ways = Ways::both(&links, names, LONGEST);
    let grants = grants(index, &ways, right);
    if grants.is_empty() || rng.one_in(8) {
        return names.map(|start| anywhere(rng, &links, start));
    }
    let two = [rng.pick(&grants), rng.pick(&grants)];
    let ((key, id), _) = two.into_iter().max_by_key(|(_, records)| records[0] + records[1]).expect("two");
    let by_itself = key == 0 && (ways[1].records(0).next().is_none() || rng.one_in(2));
    [chain(rng, &ways[0], id), if by_itself { vec![0] } else { chain(rng, &ways[1], key) }]
}

/// A slip to be checked. Now and then the object's chain is one of name 0, and not the object's own. One in two is forged, and some
/// of those twice.
pub fn shown(rng: &mut Rng, index: &Index) -> Slip {
    let (user, object, right) = about(rng, index);
    let names = [user, if rng.one_in(12) { 0 } else { object }].map(|name| (name % u64::from(NAMES)) as u16);
    let one = (0..RIGHTS).find(|k| right >> k & 1 == 1).unwrap_or(0);
    let mut slip = Slip { user, object, right, chains: drawn(rng, index, names, one) };
    for _ in 0..rng.pick(&[0, 0, 0, 1, 1, 1, 2]) {
        forge(rng, index, &mut slip);
    }
    slip
}

/// A message after which a slip may be wrong: a letter is taken from a record that it goes over or from its grant, or the grant is
/// denied, a filter is put on the object, or the user is bound; or it is any message.
pub fn against(rng: &mut Rng, index: &Index, slip: &Slip) -> Vec<u8> {
    let ([hers, its], right) = (&slip.chains, slip.right as u8);
    let [user, object] = [slip.user, slip.object].map(|name| name as u16);
    let grant = (its[its.len() - 1], hers[hers.len() - 1]);
    let links: Vec<(u16, u16)> = slip.chains.iter().flat_map(|chain| chain.windows(2)).map(|link| (link[0], link[1])).collect();
    match rng.below(8) {
        0..=2 if !links.is_empty() => one_half(M as u8 + 1, 0, rng.pick(&links), right),
        0..=3 => one_half(P as u8 + 1, 0, grant, right),
        4 => one_half(P as u8 + 1, 1, grant, right << RIGHTS),
        5 => one_half(F as u8 + 1, 1, (object, user), 1 << rng.below(RIGHTS as u64)),
        6 => {
            one_half((M as u8 + 1) | 1 << MARKED[1], 1, (user, rng.pick(&[object, user, OTHER])), 1 << rng.below(RIGHTS as u64))
        }
        _ => message(rng, index),
    }
}

/// A message with one half, the previous one or the new one, of this record.
fn one_half(first: u8, half: usize, (key, id): (u16, u16), mask: u8) -> Vec<u8> {
    let mut m = vec![0; MESSAGE];
    (m[0], m[1]) = (first, 1 << half);
    let half = &mut m[HALVES + HALF * half..][..HALF];
    half[..HALF - 1].copy_from_slice(&[key, id].map(u16::to_le_bytes).concat());
    half[HALF - 1] = mask;
    m
}

/// Names, so many that no list of 16 bits for its length has them, or fewer; one of them may be none.
fn many(rng: &mut Rng, list: &[u16]) -> Vec<u16> {
    let length = rng.pick(&[LONGEST + 1, LONGEST + 2, 256, 256 + list.len(), 300, 3000, 3000, 65_536 + list.len()]);
    let mut names: Vec<u16> =
        list.iter().copied().chain(std::iter::repeat(rng.below(NAMES.into()) as u16)).take(length).collect();
    if rng.one_in(2) {
        let any = rng.below(length as u64) as usize;
        let at = rng.pick(&[any, length - 1, LONGEST]);
        names[at] = no_name(rng, names[at]);
    }
    names
}

/// A number that is no name: just too great, as great as can be, or this name by its last ten bits.
fn no_name(rng: &mut Rng, name: u16) -> u16 {
    let above = NAMES << rng.below(6);
    rng.pick(&[NAMES, u16::MAX, (name % NAMES) | above])
}

/// One fault in a slip, of any kind that a slip can have; now and then it is none.
fn forge(rng: &mut Rng, index: &Index, slip: &mut Slip) {
    let (side, kind) = (rng.below(2) as usize, rng.below(24));
    if kind < 6 {
        return forge_question(rng, index, slip);
    }
    if kind == 6 {
        return slip.chains.swap(0, 1);
    }
    let other = slip.chains[1 - side].clone();
    forge_list(rng, index, &mut slip.chains[side], &other, kind);
}

/// Another user, object or right, or a number that is none.
fn forge_question(rng: &mut Rng, index: &Index, slip: &mut Slip) {
    match rng.below(6) {
        0 => slip.right = 1 << rng.below(RIGHTS as u64),
        1 => slip.right = rng.pick(&NO_RIGHTS),
        2 => slip.user = number(rng, NAMES.into()),
        3 => slip.object = number(rng, NAMES.into()),
        4 => (slip.user, slip.object) = question(rng, index),
        _ => {
            let name = if rng.one_in(2) { &mut slip.user } else { &mut slip.object };
            *name |= u64::from(NAMES) << rng.pick(&[0, 6, 22, 53]);
        }
    }
}

/// A name that may follow one on a chain: one that a record of it leads to, whatever its letters, or any.
fn next(rng: &mut Rng, index: &Index, name: u16) -> u16 {
    let ids: Vec<u16> = index.parts[M].range((name, 0)..=(name, u16::MAX)).map(|(record, _)| record.1).collect();
    if ids.is_empty() || rng.one_in(4) {
        let any = rng.below(12) as u16;
        rng.pick(&[name, 0, OTHER, START, any, NAMES - 1])
    } else {
        rng.pick(&ids)
    }
}

/// A fault in one of the two lists; `other` is the other one.
fn forge_list(rng: &mut Rng, index: &Index, list: &mut Vec<u16>, other: &[u16], kind: u64) {
    let any = |rng: &mut Rng, length: usize| rng.below(length.max(1) as u64) as usize;
    let (one, two, last) = (any(rng, list.len()), any(rng, list.len()), list.len().saturating_sub(1));
    let name = next(rng, index, list.get(one.saturating_sub(1)).copied().unwrap_or(0));
    match kind {
        7 if !list.is_empty() => list[one] = name,
        8 | 9 | 23 if !list.is_empty() => drop(list.remove(rng.pick(&[one, last.min(1), last.saturating_sub(1)]))),
        10 if !list.is_empty() => drop(list.pop()),
        11 => list.insert(one, name),
        12 if one != two => list.swap(one, two),
        13 => list.reverse(),
        14 => *list = vec![0],
        15 => list.insert(0, 0),
        16 => list.clear(),
        17 => *list = many(rng, list),
        18 if !list.is_empty() => list[one] = no_name(rng, list[one]),
        19 if !list.is_empty() => list[last] = name,
        20 => list.push(next(rng, index, list.last().copied().unwrap_or(0))),
        21 => list.resize((LONGEST + 1).max(list.len()), list.last().copied().unwrap_or(0)),
        22 => *list = other.to_vec(),
        _ => list.truncate(1),
    }
}
