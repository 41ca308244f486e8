//! Blocks in which chains from a user and from an object end about where records cease to bear on her rights, with records about
//! their ends; what is asked about them, messages that change them, and other blocks that agree with one on what is listed.

use super::limits::far;
use super::wide::{about, common};
use super::{byte_of_mask, counts, insert, known, markers_of_half, name, question, Drawn, Rng, OTHER, START};
use crate::bearing::Listed;
use crate::{has, letters, once, set_of, Index, Lists, Part, Wide, ALL, CHAIN, F, FLAGS, GREATEST, HEADER, KINDS, M, MARKED};
use crate::{N, NAMES, P, RECORD, RIGHTS, ROOM, X};
use std::collections::{BTreeMap, BTreeSet};

/// Where the names of the user's chain begin, those of the object's, the object's other groups, and names that nothing leads to.
const HERS: u16 = 800;
const ITS: u16 = 850;
const GROUPS: u16 = 900;
const BESIDE: u16 = 920;

/// How many records a chain has: none, few, or mostly about as many as one may have.
fn records(rng: &mut Rng) -> u16 {
    let most = CHAIN as u16;
    match rng.below(6) {
        0 => rng.pick(&[0, 0, 1, 2, 3]),
        1 => rng.below(u64::from(most) + 3) as u16,
        _ => rng.pick(&[most - 2, most - 1, most - 1, most, most, most + 1, most + 1, most + 2]),
    }
}

/// The mask of a membership in a chain: with the right that the chain has, if it has one, and in one of so many, or in none where that
/// is 0, with markers, which have no part in reaching.
fn linking(rng: &mut Rng, right: u64, marked: u64) -> u64 {
    let mask = if right > 0 { right } else { 1 << rng.below(RIGHTS as u64) };
    let marker = if marked > 0 && rng.one_in(marked) { rng.pick(&[1 << X, 1 << N, 1 << X | 1 << N]) } else { 0 };
    mask | rng.pick(&[0, 0, 0, ALL]) | marker
}

/// Puts a chain into the block, from a name over names from `first` on; the names. Most chains carry a right all the way. In some a
/// record has markers alone, some have markers, a name in it is 0, names are left out by a second record, or a record leads back.
fn lead(rng: &mut Rng, index: &mut Index, start: u16, first: u16) -> Vec<u16> {
    let (records, right, marked) = (records(rng), rng.pick(&[0, 1, 2, 4, 8, ALL, ALL, ALL]), rng.pick(&[0, 0, 8]));
    let mut names: Vec<u16> = [start].into_iter().chain((0..records).map(|n| first + n)).collect();
    if rng.one_in(8) {
        let at = rng.below(names.len() as u64) as usize;
        names[at] = if at == 0 { start } else { 0 };
    }
    let bare = if rng.one_in(10) { rng.below(u64::from(records) + 1) as usize } else { names.len() };
    for (n, link) in names.windows(2).enumerate() {
        let mask = if n == bare { rng.pick(&[1 << X, 1 << N]) } else { linking(rng, right, marked) };
        index.parts[M].insert((link[0], link[1]), once(mask));
    }
    if rng.one_in(6) {
        let from = rng.below(names.len() as u64) as usize;
        let over = names[(from + rng.pick(&[1, 2, 2, 3])).min(names.len() - 1)];
        let mask = linking(rng, right, marked);
        index.parts[M].entry((names[from], over)).or_insert(once(mask));
    }
    if rng.one_in(3) {
        let link = (rng.pick(&names), rng.pick(&names));
        let mask = linking(rng, right, marked);
        index.parts[M].entry((link.0.max(link.1), link.0.min(link.1))).or_insert(once(mask));
    }
    names
}

/// One of the last names of a chain, or any.
fn end(rng: &mut Rng, names: &[u16]) -> u16 {
    let last = names.len() - 1;
    let back = if rng.one_in(5) { rng.below(last as u64 + 1) as usize } else { rng.pick(&[0, 0, 1, 2]) };
    names[last.saturating_sub(back)]
}

/// Records about the ends of both chains: memberships of the last names, and permissions on those of the object to those of the user.
fn ends(rng: &mut Rng, index: &mut Index, hers: &[u16], its: &[u16]) {
    for _ in 0..rng.pick(&[0, 1, 2, 4]) {
        let (key, id) = (if rng.one_in(2) { end(rng, hers) } else { end(rng, its) }, BESIDE + rng.below(8) as u16);
        let counts = counts(rng, M, 4);
        index.parts[M].insert((key, id), counts);
    }
    for _ in 0..rng.pick(&[1, 2, 2, 4]) {
        let key = if rng.one_in(4) { 0 } else { end(rng, its) };
        let id = if rng.one_in(12) { 0 } else { end(rng, hers) };
        let granted = if rng.one_in(2) { ALL } else { 1 + rng.below(ALL) };
        let denied = if rng.one_in(3) { 1 << rng.below(RIGHTS as u64) } else { 0 };
        index.parts[P].insert((key, id), once(granted | denied << RIGHTS));
    }
    if rng.one_in(2) {
        index.parts[P].insert((rng.pick(&[OTHER, 0]), START), once(ALL));
    }
}

/// Groups of the object, of which some records have markers alone, groups of these, and filters on all of them, and on name 0.
fn filters(rng: &mut Rng, index: &mut Index) {
    for n in 0..rng.below(4) as u16 {
        let counts = if rng.one_in(3) { once(rng.pick(&[1 << X, 1 << N])) } else { once(linking(rng, 0, 6)) };
        index.parts[M].entry((OTHER, GROUPS + n)).or_insert(counts);
        if rng.one_in(2) {
            index.parts[M].insert((GROUPS + n, GROUPS + 8 + n), once(linking(rng, 0, 16)));
        }
    }
    for id in 0..rng.pick(&[0, 1, 2, 3]) {
        let key = rng.pick(&[OTHER, GROUPS, GROUPS + 1, GROUPS + 2, GROUPS + 8, GROUPS + 9, ITS, ITS + 1, 0, START]);
        index.parts[F].insert((key, 20 + id), once(1 + rng.below(ALL)));
    }
}

/// A good block: every sixth time one as others are, of any size.
pub fn index(rng: &mut Rng) -> Index {
    if rng.one_in(6) {
        return super::index(rng);
    }
    let mut index = Index::empty(HEADER);
    let from = Drawn { pool: rng.pick(&[3, 6, 12, 12, 40]), marked: rng.pick(&[0, 3, 8]) };
    for _ in 0..rng.pick(&[0, 0, 0, 4, 8, 16, 40]) {
        insert(rng, &mut index, from);
    }
    let start = rng.pick(&[OTHER, OTHER, OTHER, OTHER, OTHER, 0]);
    let (hers, its) = (lead(rng, &mut index, START, HERS), lead(rng, &mut index, start, ITS));
    if rng.one_in(8) {
        index.parts[M].insert((rng.pick(&hers), rng.pick(&its)), once(linking(rng, 0, 16)));
    }
    ends(rng, &mut index, &hers, &its);
    filters(rng, &mut index);
    let spare = rng.pick(&[0, 2, 9, 20, 40]);
    index.length = HEADER + RECORD * (index.records() + spare);
    index
}

/// A user and an object, mostly those where the chains start.
pub fn names(rng: &mut Rng, index: &Index) -> [u64; 2] {
    let [start, other] = [START, OTHER].map(u64::from);
    match rng.below(16) {
        0 => [other, start],
        1 => [start, start],
        2 => [start, 0],
        3..=5 => question(rng, index).into(),
        _ => [start, other],
    }
}

/// A name that the shortest chain to has about so many records as one may have, few or none; any, where there is none such.
fn name_at(rng: &mut Rng, far: &BTreeMap<u16, u64>, most: usize) -> u16 {
    let most = most as u64;
    let wanted = rng.pick(&[0, 1, 2, most - 1, most, most, most + 1, most + 1, most + 2]);
    let such: Vec<u16> = far.iter().filter(|(_, &records)| records == wanted).map(|(&name, _)| name).collect();
    match rng.below(8) {
        0 => name(rng, NAMES.into()),
        1 => BESIDE + rng.below(8) as u16,
        _ if such.is_empty() => *far.keys().nth(rng.below(far.len() as u64) as usize).expect("the start"),
        _ => rng.pick(&such),
    }
}

/// How many records the shortest chains have, from the user and from the object.
type Far = [BTreeMap<u16, u64>; 2];

/// A record of the part, by key and id, about whose names chains end, whether the block has it or not.
fn aimed(rng: &mut Rng, index: &Index, [hers, its]: &Far, object: u16, part: usize) -> (u16, u16) {
    let any = if rng.one_in(2) { name(rng, NAMES.into()) } else { BESIDE + rng.below(8) as u16 };
    match part {
        M => {
            let side = if rng.one_in(2) { hers } else { its };
            (name_at(rng, side, CHAIN - 1), any)
        }
        P => {
            let key = if rng.one_in(5) { 0 } else { name_at(rng, its, CHAIN) };
            (key, if rng.one_in(12) { 0 } else { name_at(rng, hers, CHAIN) })
        }
        _ => {
            let groups: Vec<u16> = set_of(&index.parts[M], object).into_keys().collect();
            let group = if groups.is_empty() { object } else { rng.pick(&groups) };
            (if rng.one_in(2) { group } else { name_at(rng, its, 1) }, any)
        }
    }
}

/// A record to ask about: one about whose names chains end, one that the block has, or any; now and then with key and id exchanged.
fn drawn(rng: &mut Rng, index: &Index, far: &Far, object: u16, part: usize) -> (u16, u16) {
    let record = match rng.below(6) {
        0 => (name(rng, NAMES.into()), name(rng, NAMES.into())),
        1 | 2 => known(rng, index, part),
        _ => aimed(rng, index, far, object, part),
    };
    if rng.one_in(12) {
        (record.1, record.0)
    } else {
        record
    }
}

/// A user, an object, and a record by its kind, key and id.
#[derive(Clone, Copy, Debug)]
pub struct Asked {
    pub user: u64,
    pub object: u64,
    pub kind: u64,
    pub key: u64,
    pub id: u64,
}

/// The names, or where they are none, those where the chains start.
fn fair(names: [u64; 2]) -> [u16; 2] {
    let all = names.iter().all(|&name| name < NAMES.into());
    if all {
        names.map(|name| name as u16)
    } else {
        [START, OTHER]
    }
}

/// What is asked. Every tenth time some of it is spoilt, or all.
pub fn asked(rng: &mut Rng, index: &Index) -> Asked {
    let (names, part) = (names(rng, index), rng.pick(&[M, M, P, P, F]));
    let starts = fair(names);
    let far = starts.map(|start| far(&index.parts[M], start));
    let (key, id) = drawn(rng, index, &far, starts[1], part);
    let mut asked = Asked { user: names[0], object: names[1], kind: part as u64 + 1, key: key.into(), id: id.into() };
    if rng.one_in(10) {
        spoil(rng, &mut asked);
    }
    asked
}

/// A name that is none, often one by its last bits.
fn no_name(rng: &mut Rng, name: u64) -> u64 {
    rng.pick(&[NAMES.into(), name | 1 << 16, name | 1 << 32, u64::MAX])
}

/// Makes some of it such that it is refused. Every other time it is one thing alone.
fn spoil(rng: &mut Rng, asked: &mut Asked) {
    let spoilt = if rng.one_in(2) { 1 << rng.below(5) } else { 1 + rng.below(31) };
    for k in letters(spoilt) {
        match k {
            0 => asked.user = no_name(rng, asked.user),
            1 => asked.object = no_name(rng, asked.object),
            2 => asked.key = no_name(rng, asked.key),
            3 => asked.id = no_name(rng, asked.id),
            _ => {
                let by_bits = asked.kind | rng.pick(&[1 << 8, 1 << 16, 1 << 32, 1 << 63]);
                asked.kind = rng.pick(&[0, KINDS as u64 + 1, 1 | 1 << 4, by_bits, by_bits, u64::MAX]);
            }
        }
    }
}

/// A user and an object that are names.
pub fn fair_names(rng: &mut Rng, index: &Index) -> [u16; 2] {
    fair(names(rng, index))
}

/// A message that changes a block, and whether it is a wide one.
pub struct Change {
    pub wide: bool,
    pub message: Vec<u8>,
}

/// Keys and ids, as a half of a message has them.
type Names = (Vec<u16>, Vec<u16>);

/// The keys of some records, and their ids.
fn spread(records: &[(u16, u16)]) -> Names {
    let rising = |names: BTreeSet<u16>| names.into_iter().collect();
    (rising(records.iter().map(|record| record.0).collect()), rising(records.iter().map(|record| record.1).collect()))
}

/// What a message is to be about: records of a part, alone or several at a time, all of them or only those that are not listed.
struct About<'a> {
    index: &'a Index,
    object: u16,
    far: Far,
    listed: Listed,
    part: usize,
    unlisted: bool,
    wide: bool,
}

impl About<'_> {
    fn part(&self) -> &Part {
        &self.index.parts[self.part]
    }

    /// Whether it may be about a record.
    fn such(&self, record: &(u16, u16)) -> bool {
        !self.unlisted || !self.listed.has(self.part, *record)
    }

    /// Whether chains of as many records as may be, and no fewer, lead to a record; to a filter one of one record.
    fn just(&self, (key, id): (u16, u16)) -> bool {
        let [hers, its] = &self.far;
        let at = |side: &BTreeMap<u16, u64>, name: u16, most: usize| side.get(&name) == Some(&(most as u64));
        match self.part {
            M => at(hers, key, CHAIN - 1) || at(its, key, CHAIN - 1),
            P => at(hers, id, CHAIN) || at(its, key, CHAIN),
            _ => at(its, key, 1),
        }
    }

    /// One of the records that the block has: every third time one of those to which the chains are as long as may be.
    fn picked(&self, rng: &mut Rng, there: &[(u16, u16)]) -> (u16, u16) {
        let just: Vec<(u16, u16)> = there.iter().filter(|&&record| self.just(record)).copied().collect();
        if just.is_empty() || !rng.one_in(3) {
            rng.pick(there)
        } else {
            rng.pick(&just)
        }
    }

    /// A previous half, of a record that the block has, or of several about it.
    fn previous_half(&self, rng: &mut Rng, record: (u16, u16)) -> Names {
        if self.wide {
            about(rng, self.part(), record, true)
        } else {
            spread(&[record])
        }
    }

    /// A record for a new half.
    fn one(&self, rng: &mut Rng) -> (u16, u16) {
        let mut tries = (0..6).map(|_| drawn(rng, self.index, &self.far, self.object, self.part));
        tries.find(|record| self.such(record)).unwrap_or((BESIDE, BESIDE))
    }

    /// A new half: every third time of the records of the previous one.
    fn new_half(&self, rng: &mut Rng, previous: &Lists) -> Names {
        if !previous.keys.is_empty() && rng.one_in(3) {
            return (previous.keys.clone(), previous.ids.clone());
        }
        let many = if self.wide { 1 + rng.below(3) } else { 1 };
        spread(&(0..many).map(|_| self.one(rng)).collect::<Vec<_>>())
    }

    /// The message.
    fn said(&self, rng: &mut Rng) -> Wide {
        let there: Vec<(u16, u16)> = self.part().keys().filter(|&record| self.such(record)).copied().collect();
        let flags = if there.is_empty() { 2 } else { rng.pick(&[1, 2, 2, FLAGS, FLAGS]) };
        let mut said = Wide { first: self.part as u8 + 1, flags, ..Wide::default() };
        for side in (0..2).filter(|&side| has(flags, side)) {
            let (keys, ids) = if side == 0 {
                let record = self.picked(rng, &there);
                self.previous_half(rng, record)
            } else {
                self.new_half(rng, &said.halves[0])
            };
            let mut half = Lists { keys, ids, mask: 0 };
            let common = common(rng, self.part(), &half);
            half.mask = byte_of_mask(rng, self.part, common);
            if self.part == M {
                said.first |= (markers_of_half(rng, common) % 3) << MARKED[side];
            }
            said.halves[side] = half;
        }
        said
    }
}

/// A message about records of one part, for a user and an object. Half of them are to speak of records alone that are not listed.
/// Every sixth is one as others are, damaged or not.
pub fn change(rng: &mut Rng, index: &Index, names: [u16; 2]) -> Change {
    let wide = rng.one_in(2);
    if rng.one_in(6) {
        return Change { wide, message: if wide { super::wide(rng, index) } else { super::message(rng, index) } };
    }
    let (listed, far) = (Listed::new(index, names), names.map(|start| far(&index.parts[M], start)));
    let (part, unlisted) = (rng.pick(&[M, M, P, P, F]), rng.one_in(2));
    let said = About { index, object: names[1], far, listed, part, unlisted, wide }.said(rng);
    Change { wide, message: if wide { said.encode() } else { said.plain() } }
}

/// How the records of another block came about that are not listed: thrown away, with other counts, and added, by part.
#[derive(Default)]
pub struct Made {
    pub thrown: [usize; KINDS],
    pub altered: [usize; KINDS],
    pub added: [usize; KINDS],
}

/// Another block, of another length, with the same listed records and otherwise anything: of the others some are kept, some altered,
/// and some thrown away, in every third block all; and others are added, many of them about the ends of the chains.
pub fn another(rng: &mut Rng, index: &Index, names: [u16; 2], listed: &Listed) -> (Index, Made) {
    let (mut another, mut made) = (Index { length: 0, parts: listed.of(index) }, Made::default());
    let all = rng.one_in(3);
    for (part, records) in index.parts.iter().enumerate() {
        for (&record, &old) in records.iter().filter(|(&record, _)| !listed.has(part, record)) {
            let new = match rng.below(3) {
                _ if all => None,
                0 => Some(old),
                1 => Some(counts(rng, part, 3)),
                _ => None,
            };
            made.thrown[part] += usize::from(new.is_none());
            made.altered[part] += usize::from(new.is_some_and(|new| new != old));
            another.parts[part].extend(new.map(|new| (record, new)));
        }
    }
    let far = names.map(|start| far(&index.parts[M], start));
    for _ in 0..rng.pick(&[0, 2, 6, 20, 60]) {
        let part = rng.pick(&[M, M, P, F]);
        let record = drawn(rng, index, &far, names[1], part);
        if another.records() < ROOM && !listed.has(part, record) && !index.parts[part].contains_key(&record) {
            let counts = counts(rng, part, 3);
            made.added[part] += usize::from(another.parts[part].insert(record, counts).is_none());
        }
    }
    another.length = length(rng, &another, index.length);
    (another, made)
}

/// A length for a block, and not this one, but where the longest alone will do.
fn length(rng: &mut Rng, index: &Index, not: usize) -> usize {
    let odd = if rng.one_in(3) { rng.below(RECORD as u64) as usize } else { 0 };
    let length = HEADER + RECORD * (index.records() + rng.pick(&[0, 0, 1, 7, 100])) + odd;
    (if length == not { length + 1 } else { length }).min(GREATEST)
}
