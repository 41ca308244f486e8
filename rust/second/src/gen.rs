//! Seeded cases: good blocks of every shape, damage of every kind, and calls that provoke each refusal on purpose.

use crate::{has, lettered, letters, once, text, Counts, Index};
use crate::{ALL, CHAIN, COUNTS, F, FLAGS, GREATEST, HALF, HALVES, HEADER, KIND, KINDS, LAST, LETTERS, MARKED, MARKERS};
use crate::{ENTRIES, M, MESSAGE, N, NAMES, ORDINARY, P, PART_ENTRIES, RECORD, RIGHTS, ROOM, STRICT};
use std::collections::BTreeMap;

pub mod appointments;
pub mod bearing;
mod denials;
mod firms;
pub mod limits;
pub mod slips;
mod wide;

use denials::denials;
use firms::firms;
pub use wide::wide;

/// A small seeded generator (splitmix64).
pub struct Rng(pub u64);

impl Rng {
    pub fn bits(&mut self) -> u64 {
        self.0 = self.0.wrapping_add(0x9E37_79B9_7F4A_7C15);
        let mut z = self.0;
        z = (z ^ z >> 30).wrapping_mul(0xBF58_476D_1CE4_E5B9);
        z = (z ^ z >> 27).wrapping_mul(0x94D0_49BB_1331_11EB);
        z ^ z >> 31
    }

    pub fn below(&mut self, n: u64) -> u64 {
        self.bits() % n
    }

    pub fn one_in(&mut self, n: u64) -> bool {
        self.below(n) == 0
    }

    pub fn pick<T: Copy>(&mut self, from: &[T]) -> T {
        from[self.below(from.len() as u64) as usize]
    }
}

fn count(rng: &mut Rng) -> u16 {
    match rng.below(12) {
        0 => u16::MAX,
        1 => u16::MAX - 1,
        2 => 2,
        3 => rng.bits() as u16,
        _ => 1,
    }
}

/// The counts of a record. Of the M records one in so many has markers, and none where that is 0.
fn counts(rng: &mut Rng, kind: usize, marked: u64) -> Counts {
    let mut counts = Counts::default();
    let sparse = rng.pick(&[1, 2, 2, 4]);
    let letters: Vec<usize> = lettered(kind).filter(|k| !MARKERS.contains(k)).collect();
    for &k in &letters {
        if rng.one_in(sparse) {
            counts[k] = count(rng);
        }
    }
    if counts == Counts::default() {
        counts[rng.pick(&letters)] = 1;
    }
    if kind == M && marked > 0 && rng.one_in(marked) {
        mark(rng, &mut counts);
    }
    counts
}

/// Counts one marker or both, in every third record as often as can be, and in every fourth one nothing else.
fn mark(rng: &mut Rng, counts: &mut Counts) {
    if rng.one_in(4) {
        *counts = Counts::default();
    }
    for k in letters((1 + rng.below(3)) << MARKERS.start) {
        counts[k] = if rng.one_in(3) { u16::MAX } else { count(rng) };
    }
}

/// What the records of a block are drawn from: names of a pool of so many, and markers in one M record of so many.
#[derive(Clone, Copy)]
struct Drawn {
    pool: u64,
    marked: u64,
}

fn insert(rng: &mut Rng, index: &mut Index, from: Drawn) {
    let kind = rng.pick(&[M, M, P, P, F]);
    let name = (name(rng, from.pool), name(rng, from.pool));
    let counts = counts(rng, kind, from.marked);
    index.parts[kind].insert(name, counts);
}

/// A block as long as it may be, full but for two places at most.
fn largest(rng: &mut Rng) -> Index {
    let mut index = Index::empty(GREATEST);
    let (from, records) =
        (Drawn { pool: rng.pick(&[64, NAMES.into()]), marked: rng.pick(&[0, 0, 8]) }, ROOM - rng.pick(&[0, 0, 1, 2]));
    if !rng.one_in(3) {
        ring(rng, &mut index, 400);
    }
    while index.records() < records {
        insert(rng, &mut index, from);
    }
    index
}

/// A good block. Names come from a small pool, so that chains, loops and shared records are common. Every other block has no
/// markers but those that firms have.
pub fn index(rng: &mut Rng) -> Index {
    if rng.one_in(120) {
        return largest(rng);
    }
    let from = Drawn { pool: rng.pick(&[2, 4, 8, 24, 100, NAMES.into()]), marked: rng.pick(&[0, 0, 0, 2, 4, 8]) };
    let records = match rng.below(10) {
        0 => 0,
        1..=5 => rng.below(12),
        6..=8 => rng.below(80),
        _ => rng.below(600),
    };
    let mut index = Index::empty(0);
    for _ in 0..records {
        insert(rng, &mut index, from);
    }
    if rng.one_in(3) {
        firms(rng, &mut index, firms::records);
    } else if rng.one_in(4) {
        chain(rng, &mut index);
    }
    if rng.one_in(4) {
        denials(rng, &mut index);
    }
    if rng.one_in(12) {
        fan(rng, &mut index);
    }
    if rng.one_in(12) {
        let besides = rng.below(4);
        ring(rng, &mut index, besides);
    }
    if rng.one_in(16) {
        memberships_alone(&mut index);
    }
    if rng.one_in(4) {
        wide::grid(rng, &mut index);
    }
    let spare = match rng.below(6) {
        0 | 1 => 0,
        2 => 1,
        3 => rng.below(4),
        _ => rng.below(200),
    };
    let odd = if rng.one_in(3) { rng.below(RECORD as u64) } else { 0 };
    index.length = (HEADER + RECORD * (index.records() + spare as usize) + odd as usize).min(GREATEST);
    index
}

/// Leaves M records alone, of which the last, and so the last bytes of all records, counts N as often as can be.
fn memberships_alone(index: &mut Index) {
    index.parts[P..].fill_with(Default::default);
    if let Some(mut last) = index.parts[M].last_entry() {
        last.get_mut()[N] = u16::MAX;
    }
}

fn name(rng: &mut Rng, pool: u64) -> u16 {
    if rng.one_in(16) {
        rng.pick(&[0, NAMES - 1])
    } else {
        rng.below(pool) as u16
    }
}

/// Where a chain, many ways, a fan, a ring, a user of a firm or one who is denied something starts, and the name on the other side.
const START: u16 = 100;
const OTHER: u16 = 9;

/// A chain about as long as one may be, with a grant at its end on the user's or the object's side. In every other one a second
/// right comes to its names too, a round before the first: it leaves out a name.
fn chain(rng: &mut Rng, index: &mut Index) {
    let longest = CHAIN as u16;
    let end = START + rng.pick(&[longest - 1, longest, longest, longest + 1, longest + 1, longest + 8]);
    let [first, other] = two_rights(rng);
    let second = if rng.one_in(2) { other } else { 0 };
    let mask = |rng: &mut Rng| first | second | if rng.one_in(3) { rng.below(ALL + 1) } else { 0 };
    for n in START..end {
        let counts = once(mask(rng));
        index.parts[M].insert((n, n + 1), counts);
    }
    if second > 0 {
        index.parts[M].insert((START, START + 2), once(second));
    }
    grant(rng, index, end);
}

/// A name that is a member of six groups, of which the last two lead, with a right each, to the group of a group with a grant.
fn fan(rng: &mut Rng, index: &mut Index) {
    let (group, last) = (rng.pick(&[0, START + 7, NAMES - 1]), START + 8);
    let rights = two_rights(rng);
    for n in 1..7 {
        let counts = once(1 + rng.below(ALL));
        index.parts[M].insert((START, START + n), counts);
    }
    for (n, right) in [5, 6].into_iter().zip(rights) {
        index.parts[M].insert((START, START + n), once(right));
        index.parts[M].insert((START + n, group), once(right));
    }
    index.parts[M].insert((group, last), once(rights[0] | rights[1]));
    grant(rng, index, last);
}

/// Four names in a ring, each with so many M records besides. Two others lead to each of the four with one right, to each with
/// another, and every right goes round the ring: the mark of each of the four grows in four rounds.
fn ring(rng: &mut Rng, index: &mut Index, besides: u64) {
    let (names, turn) = (RIGHTS as u16, rng.below(RIGHTS as u64) as u16);
    for n in 0..names {
        let (name, next) = (START + 1 + n, START + 1 + (n + 1) % names);
        for _ in 0..besides {
            let (id, counts) = (rng.below(NAMES.into()) as u16, counts(rng, M, 0));
            index.parts[M].insert((name, id), counts);
        }
        for start in [START, OTHER] {
            index.parts[M].insert((start, name), once(1 << ((n + turn) % names)));
        }
        index.parts[M].insert((name, next), once(ALL));
    }
}

/// The masks of two rights, not the same.
fn two_rights(rng: &mut Rng) -> [u64; 2] {
    let (all, one) = (RIGHTS as u64, rng.below(RIGHTS as u64));
    [one, (one + 1 + rng.below(all - 1)) % all].map(|right| 1 << right)
}

/// A grant of all rights to a name, or on it.
fn grant(rng: &mut Rng, index: &mut Index, name: u16) {
    let grant = if rng.one_in(2) { (OTHER, name) } else { (name, OTHER) };
    index.parts[P].insert(grant, once(ALL));
}

/// One fault in a good block, of any kind that a block can have.
pub fn damage(rng: &mut Rng, block: &mut Vec<u8>) {
    let records = block.len().saturating_sub(HEADER) / RECORD;
    let field = |rng: &mut Rng| 2 * rng.below(HEADER as u64 / 2) as usize;
    let record = |rng: &mut Rng| HEADER + RECORD * rng.below(records.max(1) as u64) as usize;
    match rng.below(15) {
        0 => block.truncate(rng.below(HEADER as u64) as usize),
        1 => block.resize(GREATEST + 1 + rng.below(3) as usize, 0),
        2 => block.truncate(block.len() - 1),
        3 => {
            let at = field(rng);
            block[at] = block[at].wrapping_add(rng.pick(&[1, 255, RECORD as u8]));
        }
        4 => {
            let at = field(rng) + 1;
            block[at] = rng.pick(&[1, 64, 128, 255]);
        }
        5 => block[6] = 1,
        6 => {
            // 16,384 M records: sixteen bits of the bytes that they have are zero
            let (many, first) = (1u16 << 14, HEADER as u16);
            let fields = [many, 0, 0, 0, first, first, first, first];
            block[..HEADER].copy_from_slice(&fields.map(u16::to_le_bytes).concat());
        }
        7 if records > 1 => {
            let (a, b) = (record(rng), record(rng));
            for i in 0..RECORD {
                block.swap(a + i, b + i);
            }
        }
        8 if records > 1 => {
            let (a, b) = (record(rng), record(rng));
            block.copy_within(a..a + RECORD, b);
        }
        9 if records > 0 => {
            let at = record(rng) + rng.pick(&[1, 3]);
            block[at] = rng.pick(&[4, 8, 255]);
        }
        10 if records > 0 => {
            let at = record(rng);
            block[at + COUNTS..at + RECORD].fill(0);
        }
        11 | 12 if records > 0 => {
            // denials and markers: a record may have one of the two at most
            let at = record(rng) + COUNTS + 2 * RIGHTS + rng.below(2 * (LETTERS.len() - RIGHTS) as u64) as usize;
            block[at] = 1;
        }
        13 => {
            let last = block.len() - 1;
            block[last] = 1;
        }
        _ => {
            let at = rng.below(block.len() as u64) as usize;
            block[at] ^= 1 << rng.below(8);
        }
    }
}

/// Bytes with no plan.
pub fn bytes(rng: &mut Rng, most: u64) -> Vec<u8> {
    (0..rng.below(most + 1)).map(|_| rng.bits() as u8).collect()
}

/// A record of the block, or a name that it may not have.
fn known(rng: &mut Rng, index: &Index, kind: usize) -> (u16, u16) {
    let part = &index.parts[kind];
    if part.is_empty() || rng.one_in(5) {
        (name(rng, 12), name(rng, 12))
    } else {
        *part.keys().nth(rng.below(part.len() as u64) as usize).expect("a record")
    }
}

/// The mask of some letters.
fn masked(letters: impl Iterator<Item = usize>) -> u64 {
    letters.map(|k| 1 << k).sum()
}

/// The mask of the letters that a record counts.
fn counted(counts: &Counts) -> u64 {
    masked((0..counts.len()).filter(|&k| counts[k] > 0))
}

/// The byte of a half's mask: mostly of letters that its record counts, if it counts some.
fn byte_of_mask(rng: &mut Rng, kind: usize, counted: u64) -> u8 {
    let mask = counted as u8;
    if mask == 0 || rng.one_in(4) {
        return 1 + rng.below(masked(lettered(kind)) & u64::from(u8::MAX)) as u8;
    }
    (mask & rng.bits() as u8).max(mask & mask.wrapping_neg())
}

/// The markers of a half, a bit for each: none every other time, else one that its record counts, any one, or all that it counts.
fn markers_of_half(rng: &mut Rng, counted: u64) -> u8 {
    let counted = (counted >> MARKERS.start) as u8;
    match rng.below(6) {
        0 => rng.pick(&[1, 2]),
        1 => counted,
        2 if counted == 3 => rng.pick(&[1, 2]),
        2 => counted,
        _ => 0,
    }
}

/// A record for a half to speak of: of the M records every third time one with markers, if there are some.
fn spoken_of(rng: &mut Rng, index: &Index, kind: usize) -> (u16, u16) {
    let marked = index.parts[kind].iter().filter(|(_, counts)| counts[MARKERS] != [0, 0]);
    let marked: Vec<(u16, u16)> = marked.map(|(&name, _)| name).collect();
    if marked.is_empty() || !rng.one_in(3) {
        return known(rng, index, kind);
    }
    rng.pick(&marked)
}

pub fn message(rng: &mut Rng, index: &Index) -> Vec<u8> {
    let kind = rng.pick(&[M, M, P, F]);
    let flags = 1 + rng.below(FLAGS.into()) as u8;
    let mut m = vec![kind as u8 + 1, flags];
    let mut last = None;
    for side in 0..2 {
        if !has(flags, side) {
            m.extend([0; HALF]);
            continue;
        }
        let name = last.filter(|_| rng.one_in(2)).unwrap_or_else(|| spoken_of(rng, index, kind));
        last = Some(name);
        let counted = index.parts[kind].get(&name).map_or(0, counted);
        m.extend(name.0.to_le_bytes());
        m.extend(name.1.to_le_bytes());
        m.push(byte_of_mask(rng, kind, counted));
        if kind == M {
            m[0] |= markers_of_half(rng, counted) << MARKED[side];
        }
    }
    damage_message(rng, &mut m);
    m
}

/// Every other message gets one fault, of any kind that a message can have; now and then it is none.
fn damage_message(rng: &mut Rng, m: &mut Vec<u8>) {
    let side = rng.below(2) as usize;
    let (half, marker) = (HALVES + HALF * side, rng.pick(&[1, 2]) << MARKED[side]);
    match rng.below(30) {
        0 => m[0] = rng.pick(&[0, KINDS as u8 + 1, 255]),
        1 => m[1] = rng.pick(&[0, FLAGS + 1, 7]),
        2 => m.truncate(rng.below(MESSAGE as u64) as usize),
        3 => m.push(0),
        4 => m[HALVES + rng.below(2 * HALF as u64) as usize] = rng.bits() as u8,
        5 | 6 => m[half + rng.pick(&[1, 3])] = (NAMES >> 8) as u8,
        7 | 8 => m[half + HALF - 1] = rng.pick(&[0, ALL as u8 + 1, u8::MAX]),
        9 => m[rng.below(HALVES as u64) as usize] = rng.bits() as u8,
        10 => m[0] = m[0] & !KIND | rng.pick(&[0, KINDS as u8 + 1, KIND]),
        11 => m[0] ^= marker,
        12 => m[0] |= 3 << MARKED[side],
        13 => {
            m[0] = (1 + M as u8) | marker;
            m[half + HALF - 1] = 0;
        }
        _ => {}
    }
}

/// A number from the caller: mostly fair, sometimes just past the limit, sometimes one that narrows to a fair one.
pub fn number(rng: &mut Rng, limit: u64) -> u64 {
    match rng.below(24) {
        0 => limit,
        1 => (1 << 16) + rng.below(limit),
        2 => (1 << 32) + rng.below(limit),
        3 => u64::MAX,
        4 => rng.below(limit),
        5 => limit - 1,
        _ => rng.below(limit.min(12)),
    }
}

/// The number of a record: mostly of one that the block has, sometimes just past them, sometimes too great.
pub fn record(rng: &mut Rng, index: &Index) -> u64 {
    let one = rng.below(index.records() as u64 + 2);
    match rng.below(12) {
        0 => LAST + 1 + one,
        1 => LAST + 1 + rng.below(3),
        2 => (1 << 32) + one,
        3 => rng.pick(&[LAST, u64::MAX]),
        _ => one,
    }
}

/// The name, or one that a chain of some M records, which are such, leads from to it.
fn before(rng: &mut Rng, index: &Index, mut name: u16, such: impl Fn(&Counts) -> bool) -> u64 {
    for _ in 0..rng.pick(&[0, 1, 1, 2, 3, CHAIN, CHAIN + 1]) {
        let records = index.parts[M].iter().filter(|(record, counts)| record.1 == name && such(counts));
        let keys: Vec<u16> = records.map(|(record, _)| record.0).collect();
        if keys.is_empty() {
            break;
        }
        name = rng.pick(&keys);
    }
    name.into()
}

/// A user and an object: mostly such that a P record may grant something between them. Where a chain, many ways, a fan, a ring, a
/// user of a firm or one who is denied something starts, every other question is asked from there.
pub fn question(rng: &mut Rng, index: &Index) -> (u64, u64) {
    let grants = &index.parts[P];
    let starts = index.parts[M].keys().any(|record| record.0 == START) || grants.keys().any(|record| record.1 == START);
    if starts && rng.one_in(2) {
        let [start, other] = [START, OTHER].map(u64::from);
        return rng.pick(&[(start, other), (start, other), (other, start)]);
    }
    if grants.is_empty() || rng.one_in(4) {
        return (any(rng), any(rng));
    }
    let &grant = grants.keys().nth(rng.below(grants.len() as u64) as usize).expect("a record");
    granted(rng, index, grant, |_| true)
}

/// A name from the caller, now and then one where something may start.
fn any(rng: &mut Rng) -> u64 {
    if rng.one_in(6) {
        rng.pick(&[OTHER, START]).into()
    } else {
        number(rng, NAMES.into())
    }
}

/// A user and an object from which chains of M records that are such may lead to a P record, by key and id.
fn granted(rng: &mut Rng, index: &Index, (key, id): (u16, u16), such: impl Fn(&Counts) -> bool) -> (u64, u64) {
    let object = if key == 0 { any(rng) } else { before(rng, index, key, &such) };
    (before(rng, index, id, such), object)
}

/// Numbers that are no profile, many of them one by their last bits.
pub const NO_PROFILES: [u64; 12] =
    [2, 3, 255, 256, 257, 1 << 16, (1 << 16) + 1, 1 << 32, (1 << 32) + 1, 1 << 63, (1 << 63) + 1, u64::MAX];

/// A profile: ordinary and strict as often, and now and then a number that is none.
pub fn profile(rng: &mut Rng) -> u64 {
    if rng.one_in(12) {
        rng.pick(&NO_PROFILES)
    } else {
        rng.pick(&[ORDINARY, STRICT])
    }
}

/// Whose a directory is: the block's own, one that was the block's own before, another block's, or no block's.
#[derive(Clone, Copy)]
pub enum Whose {
    Own,
    Before,
    Another,
    None,
}

/// A directory to lend.
pub struct Directory {
    pub entries: Vec<u16>,
    pub whose: Whose,
}

/// The directory of the block more often than not; else the one that was kept, that of another block, or one that is wrong in
/// some way.
pub fn directory(rng: &mut Rng, index: &Index, kept: &[u16]) -> Directory {
    let (entries, whose) = match rng.below(12) {
        0 => (kept.to_vec(), Whose::Before),
        1 => (another(rng, index).directory(), Whose::Another),
        2..=4 => (damaged(rng, index), Whose::None),
        _ => (index.directory(), Whose::Own),
    };
    Directory { entries, whose }
}

/// Another block: with a record more, with one less, or with some records of its own.
fn another(rng: &mut Rng, index: &Index) -> Index {
    let mut other = if rng.one_in(3) { Index::empty(0) } else { index.clone() };
    let kind = rng.below(KINDS as u64) as usize;
    let record = known(rng, index, kind);
    if other.parts[kind].remove(&record).is_none() {
        for _ in 0..rng.pick(&[1, 1, 1, 5]) {
            insert(rng, &mut other, Drawn { pool: NAMES.into(), marked: 4 });
        }
    }
    other
}

/// The directory of the block with one fault, of any kind that a directory can have; now and then it is none.
fn damaged(rng: &mut Rng, index: &Index) -> Vec<u16> {
    let mut entries = index.directory();
    let (kind, any) = (rng.below(KINDS as u64) as usize, rng.bits() as u16);
    let part = PART_ENTRIES * kind;
    match rng.below(14) {
        0 => drop(entries.pop()),
        1 => entries.push(if rng.one_in(2) { entries[ENTRIES - 1] } else { any }),
        2 => entries.truncate(rng.below(ENTRIES as u64) as usize),
        3 => entries.clear(),
        4 => entries.extend_from_within(..1 + rng.below(ENTRIES as u64) as usize),
        5 => {
            let other = PART_ENTRIES * ((kind + 1) % KINDS);
            (0..PART_ENTRIES).for_each(|n| entries.swap(part + n, other + n));
        }
        6 => entries.copy_within(part + 1..part + PART_ENTRIES, part),
        7 => entries.iter_mut().for_each(|entry| *entry = rng.bits() as u16),
        _ => {
            let (key, other) = (known(rng, index, kind).0, rng.below(NAMES.into()) as u16);
            let at = part + usize::from(rng.pick(&[0, NAMES, key, key + 1, other]));
            let (one, record) = (1u16, RECORD as u16);
            entries[at] = entries[at].wrapping_add(rng.pick(&[one, one.wrapping_neg(), record, record.wrapping_neg(), any]));
        }
    }
    entries
}

/// A text: of a set of the block, of a set of its own, or one that is wrong in some way.
pub fn set_text(rng: &mut Rng, index: &Index, kind: usize) -> Vec<u8> {
    let mut set: BTreeMap<u16, Counts> = BTreeMap::new();
    let key = known(rng, index, kind).0;
    if rng.one_in(3) {
        let part = &index.parts[kind];
        set.extend(part.range((key, 0)..=(key, u16::MAX)).map(|(&(_, id), &c)| (id, c)));
    }
    let other = if rng.one_in(8) { rng.pick(&[M, P]) } else { kind };
    for _ in 0..rng.pick(&[0, 1, 2, 5, 40]) {
        let id = name(rng, NAMES.into());
        let kind = rng.pick(&[kind, kind, other]);
        let counts = counts(rng, kind, 3);
        set.insert(id, counts);
    }
    let mut text = text(&set);
    for _ in 0..rng.pick(&[0, 0, 0, 1, 1, 2]) {
        damage_text(rng, &mut text);
    }
    text
}

/// One fault in a text, of any kind that a text can have; now and then it is none.
fn damage_text(rng: &mut Rng, text: &mut Vec<u8>) {
    let alphabet = [b"0123456789;", &LETTERS[..], b" x"].concat();
    let wrong = ["1", "00", ";;", &format!("{NAMES};M"), &(1u64 << 16).to_string(), &((1u64 << 32) + 2).to_string()];
    let at = rng.below(text.len() as u64 + 1) as usize;
    // the end of the first such byte from there on, or of the text
    let after = |text: &[u8], such: fn(&u8) -> bool| text[at..].iter().position(such).map_or(text.len(), |n| at + n + 1);
    match rng.below(12) {
        0 => text.insert(at, rng.pick(&alphabet)),
        1 if at < text.len() => drop(text.remove(at)),
        2 if at < text.len() => text[at] = rng.pick(&alphabet),
        3 => text.push(b';'),
        4 => drop(text.splice(at..at, rng.pick(&wrong).bytes())),
        5 => *text = [&text[..], b";", &text[..]].concat(),
        6 => text.truncate(at),
        7 if at + 1 < text.len() => text.swap(at, at + 1),
        8 => text.insert(after(text, u8::is_ascii_digit), rng.pick(b"0123456789")),
        9 | 10 => text.insert(after(text, u8::is_ascii_alphabetic), rng.pick(b"0111MUXN")),
        _ => text.extend([b';', b'9', b';', rng.pick(&LETTERS)]),
    }
}

/// Texts that are tried one and all: those that go on from a head by at most so many of these bytes.
pub struct Tried {
    pub head: &'static str,
    pub bytes: &'static [u8],
    pub most: usize,
}

const fn after(head: &'static str) -> Tried {
    Tried { head, bytes: b"01234569;MPmXN", most: 3 }
}

/// Short texts of the digits of 1023 and 1024, a semicolon, two letters, a small one, and a byte that is in no text; the letters of
/// a record, markers too, with small counts; then what goes on, with more digits, from heads after which ids, counts and letters
/// come to their ends.
pub const TRIED: [Tried; 11] = [
    Tried { head: "", bytes: b"01234;MRmx", most: 5 },
    Tried { head: "3;", bytes: b"12;MPmXN", most: 4 },
    after("3;M6553"),
    after("102"),
    after("99;M;"),
    after("399;M;"),
    after("1021;M;10"),
    after("1022;M2;102"),
    after("1023;MUP"),
    after("3;MX6553"),
    after("1023;MX2N"),
];

impl Tried {
    /// All of them, the shorter first.
    pub fn texts(&self) -> Vec<Vec<u8>> {
        let mut longest = vec![self.head.as_bytes().to_vec()];
        let mut texts = longest.clone();
        for _ in 0..self.most {
            longest = longest.iter().flat_map(|text| self.bytes.iter().map(|&byte| [&text[..], &[byte]].concat())).collect();
            texts.extend(longest.clone());
        }
        texts
    }
}
