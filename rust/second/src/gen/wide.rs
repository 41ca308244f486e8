//! Wide messages, and blocks in which every pair of some keys and ids stands, so that whole halves can be taken away.

use super::{byte_of_mask, counted, known, markers_of_half, name, Rng};
use crate::wide::{LENGTHS, OFFSETS};
use crate::{has, markers, once, Counts, Index, Lists, Part, Wide};
use crate::{ALL, F, FLAGS, KIND, KINDS, LIST, M, MARKED, MARKERS, NAMES, P, WIDE};
use std::collections::BTreeSet;

/// Where the keys and the ids of a grid begin, which has every second name from there on.
const KEYS: u16 = 700;
const IDS: u16 = 740;

/// So many names from one on, every second of them; now and then the least name and the greatest are among them.
fn row(rng: &mut Rng, first: u16, most: u64) -> Vec<u16> {
    let mut names: Vec<u16> = (0..most as u16).map(|n| first + 2 * n).collect();
    if rng.one_in(4) {
        names[0] = 0;
    }
    if rng.one_in(4) {
        names.pop();
        names.push(NAMES - 1);
    }
    names
}

/// The length of a list: often as long as one may be.
fn length(rng: &mut Rng) -> u64 {
    if rng.one_in(2) {
        LIST as u64
    } else {
        1 + rng.below(LIST as u64)
    }
}

/// Every pair of some keys and ids, in one part, with the same letters, as wide statements leave them. In most grids some pairs are
/// missing, count other letters, or count a letter as often as can be.
pub fn grid(rng: &mut Rng, index: &mut Index) {
    let kind = rng.pick(&[M, P, F]);
    let (keys, ids) = (length(rng), length(rng));
    let (keys, ids) = (row(rng, KEYS, keys), row(rng, IDS, ids));
    let marker = if kind == M { rng.pick(&[0, 0, 1, 2]) << MARKERS.start } else { 0 };
    let counts = once(u64::from(byte_of_mask(rng, kind, 0)) | marker);
    let [missing, other, full] = rng.pick(&[[0, 0, 0], [0, 0, 0], [0, 0, 0], [20, 0, 0], [0, 40, 0], [0, 0, 20], [2, 0, 8]]);
    let drawn = |rng: &mut Rng, one_in: u64| one_in > 0 && rng.one_in(one_in);
    for name in (Lists { keys, ids, mask: 0 }).pairs() {
        let mut counts = counts;
        if drawn(rng, other) {
            counts = once(1 << rng.below(2));
        }
        if drawn(rng, full) {
            let counted: Vec<usize> = (0..counts.len()).filter(|&k| counts[k] > 0).collect();
            let k = if rng.one_in(2) { counted[counted.len() - 1] } else { rng.pick(&counted) };
            counts[k] = u16::MAX;
        } else if rng.one_in(40) {
            counts.iter_mut().filter(|count| **count > 0).for_each(|count| *count = 2);
        }
        if drawn(rng, missing) {
            index.parts[kind].remove(&name);
        } else {
            index.parts[kind].insert(name, counts);
        }
    }
}

/// The part that a message speaks of: that of a grid mostly, if there is one.
fn kind(rng: &mut Rng, index: &Index) -> usize {
    let any = rng.pick(&[M, M, P, F]);
    let grids = (0..KINDS).filter(|&kind| index.parts[kind].range((KEYS, 0)..(KEYS + 16, 0)).next().is_some());
    if rng.one_in(4) {
        any
    } else {
        { grids }.next().unwrap_or(any)
    }
}

/// Some of the names, rising: all, if they are not too many, or fewer.
fn some(rng: &mut Rng, names: impl Iterator<Item = u16>) -> Vec<u16> {
    let mut names: Vec<u16> = names.collect();
    let most = if rng.one_in(3) { 1 + rng.below(LIST as u64) as usize } else { LIST };
    while names.len() > most {
        names.remove(rng.below(names.len() as u64) as usize);
    }
    names
}

/// Keys and ids about a record: the ids that stand with its key, and the keys that stand with its id; where the halves are to be
/// taken away, mostly those keys alone that stand with all of the ids.
pub fn about(rng: &mut Rng, part: &Part, (key, id): (u16, u16), whole: bool) -> (Vec<u16>, Vec<u16>) {
    let beside = part.range((key, 0)..=(key, u16::MAX)).map(|(&(_, id), _)| id);
    let ids = some(rng, beside.chain([id]).collect::<BTreeSet<_>>().into_iter());
    let all = part.keys().filter(|&&record| record.1 == id).map(|record| record.0);
    let stands = |other: &u16| !whole || ids.iter().all(|&id| part.contains_key(&(*other, id)));
    let keys = some(rng, all.filter(stands).chain([key]).collect::<BTreeSet<_>>().into_iter());
    (keys, ids)
}

/// Names with no plan, with some of those among them that the lists of a grid have or go on with; now and then the greatest alone.
fn fresh(rng: &mut Rng, first: u16) -> Vec<u16> {
    if rng.one_in(12) {
        return vec![NAMES - 1];
    }
    let (many, pool) = (length(rng), rng.pick(&[4, 16, NAMES.into()]));
    let names = (0..many).map(|_| if rng.one_in(2) { name(rng, pool) } else { first + rng.below(16) as u16 });
    names.collect::<BTreeSet<_>>().into_iter().collect()
}

/// The letters that every pair counts, or where no letter is such, those of one pair.
pub fn common(rng: &mut Rng, part: &Part, lists: &Lists) -> u64 {
    let masks: Vec<u64> = lists.pairs().filter_map(|name| part.get(&name).map(counted)).collect();
    match masks.iter().copied().reduce(|all, mask| all & mask) {
        Some(all) if all & u64::from(u8::MAX) > 0 => all,
        Some(_) => rng.pick(&masks),
        None => 0,
    }
}

/// The keys and ids of a half: the previous one is mostly of pairs that stand; the new one often has the same lists, or some of them.
fn lists(rng: &mut Rng, index: &Index, kind: usize, before: Option<&Lists>) -> (Vec<u16>, Vec<u16>) {
    let part = &index.parts[kind];
    let grid: Vec<(u16, u16)> = part.range((KEYS, IDS)..(KEYS + 16, 0)).map(|(&name, _)| name).collect();
    let record = if grid.is_empty() || rng.one_in(4) { known(rng, index, kind) } else { rng.pick(&grid) };
    match (before, rng.below(8)) {
        (Some(before), 0..=2) => (before.keys.clone(), before.ids.clone()),
        (Some(before), 3) => (before.keys.clone(), fresh(rng, IDS)),
        (Some(before), 4) => (fresh(rng, KEYS), before.ids.clone()),
        (None, 0..=4) => about(rng, part, record, true),
        (_, 5) if !grid.is_empty() => [KEYS, IDS].map(|first| some(rng, (0..LIST as u16).map(|n| first + 2 * n))).into(),
        (_, 6) => about(rng, part, record, false),
        _ => (fresh(rng, KEYS), fresh(rng, IDS)),
    }
}

/// The markers of a half, whose pairs count these letters: often the one that they count or, after a previous half with a marker, the
/// other one.
fn markers_of_pairs(rng: &mut Rng, counted: u64, before: u8) -> u8 {
    match (before, counted >> MARKERS.start) {
        (1 | 2, _) if rng.one_in(2) => 3 - before,
        (_, marker @ 1..=2) if rng.one_in(3) => marker as u8,
        _ => markers_of_half(rng, counted),
    }
}

/// A message that adds to a record whose count of a letter can not go up, and to others about it that may not have room: whether it
/// is refused with 7 or with 8 hangs on the order of the pairs. Every other one removes a record first. Where the part has no such
/// records, there is none.
fn crowded(rng: &mut Rng, index: &Index, kind: usize) -> Option<Wide> {
    let part = &index.parts[kind];
    let full = |counts: &Counts| (0..MARKERS.start).find(|&k| counts[k] == u16::MAX);
    let records: Vec<_> = part.iter().filter_map(|(&name, counts)| Some((name, full(counts)?))).collect();
    let single = |counts: &Counts| u8::try_from(counted(counts)).ok().filter(|&mask| *counts == once(mask.into()));
    let gone: Vec<_> = part.iter().filter_map(|(&name, counts)| Some((name, single(counts)?))).collect();
    if records.is_empty() || gone.is_empty() {
        return None;
    }
    let ((key, id), k) = rng.pick(&records);
    let mut beside = |name: u16| {
        let others = (0..1 + rng.below(3)).map(|_| self::name(rng, NAMES.into()));
        others.chain([name]).collect::<BTreeSet<u16>>().into_iter().collect()
    };
    let new = Lists { keys: beside(key), ids: beside(id), mask: 1 << k };
    if rng.one_in(2) {
        return Some(Wide { first: kind as u8 + 1, flags: 2, halves: [Lists::default(), new] });
    }
    let ((key, id), mask) = rng.pick(&gone);
    let previous = Lists { keys: vec![key], ids: vec![id], mask };
    Some(Wide { first: kind as u8 + 1, flags: FLAGS, halves: [previous, new] })
}

pub fn wide(rng: &mut Rng, index: &Index) -> Vec<u8> {
    let kind = kind(rng, index);
    if rng.one_in(12) {
        if let Some(wide) = crowded(rng, index, kind) {
            return wide.encode();
        }
    }
    let mut wide = Wide { first: kind as u8 + 1, flags: rng.pick(&[1, 2, 2, FLAGS, FLAGS, FLAGS]), ..Wide::default() };
    let previous = has(wide.flags, 0);
    for side in (0..2).filter(|&side| has(wide.flags, side)) {
        let before = (side == 1 && previous).then(|| wide.halves[0].clone());
        let (keys, ids) = lists(rng, index, kind, before.as_ref());
        let mut half = Lists { keys, ids, mask: 0 };
        let common = common(rng, &index.parts[kind], &half);
        half.mask = byte_of_mask(rng, kind, common);
        if kind == M {
            wide.first |= markers_of_pairs(rng, common, markers(wide.first, 0)) << MARKED[side];
        }
        wide.halves[side] = half;
    }
    for _ in 0..rng.pick(&[0, 0, 0, 0, 0, 0, 1, 1, 1, 2]) {
        damage_lists(rng, &mut wide);
    }
    let mut bytes = wide.encode();
    if rng.one_in(4) {
        damage_bytes(rng, &mut bytes);
    }
    bytes
}

/// The list of a half by its number.
fn list(wide: &mut Wide, number: usize) -> &mut Vec<u16> {
    let half = &mut wide.halves[number / 2];
    if number % 2 == 0 {
        &mut half.keys
    } else {
        &mut half.ids
    }
}

/// One fault in what a message says, which its header goes with; now and then it is none.
fn damage_lists(rng: &mut Rng, wide: &mut Wide) {
    let side = if has(wide.flags, 0) && has(wide.flags, 1) { rng.below(2) as usize } else { usize::from(!has(wide.flags, 0)) };
    let (number, marker) = (2 * side + rng.below(2) as usize, rng.pick(&[1, 2]) << MARKED[side]);
    let names = list(wide, number);
    if names.is_empty() {
        return;
    }
    let at = rng.below(names.len() as u64) as usize;
    match rng.below(22) {
        0 => names.clear(),
        1 => {
            let many = LIST + rng.pick(&[1, 1, 1, 2, 8]);
            let first = names[0].min(NAMES - 1 - many as u16);
            *names = (first..).take(many).collect();
        }
        2 => names.insert(at, names[at]),
        3 => names.insert(at, names[at].saturating_add(1).min(NAMES - 1)),
        4 if names.len() > 1 => names.swap(at.max(1) - 1, at.max(1)),
        5 | 6 => *names.last_mut().expect("a name") = rng.pick(&[NAMES, NAMES, NAMES + 700, u16::MAX]),
        7 | 8 => (NAMES..).zip(names).for_each(|(above, name)| *name = above),
        9 | 10 => wide.halves[side].mask = 0,
        11 | 12 => wide.halves[side].mask = rng.pick(&[ALL as u8 + 1, ALL as u8 + 2, u8::MAX]),
        // the lists of a half that is not there any more, and one list in a half that is not there
        13 | 14 if wide.flags == FLAGS => {
            wide.flags -= 1 << side;
            wide.first &= !(3 << MARKED[side]);
            wide.halves[side].mask = 0;
        }
        13 | 14 => *list(wide, number ^ 2) = vec![rng.below(NAMES.into()) as u16],
        15 if wide.flags != FLAGS => wide.halves[1 - side].mask = 1 + rng.below(ALL) as u8,
        16 => wide.first ^= rng.pick(&[1, 2, 3]) << MARKED[1 - side],
        17 => wide.first |= 3 << MARKED[side],
        18 => {
            wide.first = (1 + M as u8) | marker;
            wide.halves[side].mask = 0;
        }
        19 => wide.first = wide.first & !KIND | rng.pick(&[0, 2, 3, KINDS as u8 + 1, KIND]),
        20 => wide.first = marker | rng.pick(&[0, KINDS as u8 + 1, KIND]),
        _ => wide.first ^= marker,
    }
}

/// One fault in the bytes of a message; now and then it is none.
fn damage_bytes(rng: &mut Rng, bytes: &mut Vec<u8>) {
    let offset = OFFSETS + 2 * rng.below(4) as usize;
    match rng.below(16) {
        0..=4 => bytes[offset] = bytes[offset].wrapping_add(rng.pick(&[1, 2, 1u8.wrapping_neg(), 2u8.wrapping_neg()])),
        5 => bytes[offset + 1] = 1,
        6 => {
            let by = rng.pick(&[1, 1, 2]);
            bytes.resize(bytes.len() - by, 0);
        }
        7 => {
            let by = rng.pick(&[1, 1, 2]);
            bytes.resize(bytes.len() + by, 0);
        }
        8 => bytes.truncate(rng.pick(&[0, 1, 2, WIDE - 2, WIDE - 1, WIDE])),
        9 => {
            // the flags of no half, or of those that are there and one more
            let flags = rng.pick(&[0, FLAGS + 1, bytes[1] | (FLAGS + 1), bytes[1] | (FLAGS + 1)]);
            if has(flags, 0) || has(flags, 1) {
                bytes[1] = flags;
            } else {
                *bytes = Wide { first: 1 + rng.below(KINDS as u64) as u8, flags, ..Wide::default() }.encode();
            }
        }
        10 => bytes[0] = rng.pick(&[0, KINDS as u8 + 1, u8::MAX]),
        11 => bytes[1] = 1 + rng.below(FLAGS.into()) as u8,
        12 => bytes[LENGTHS + rng.below(4) as usize] ^= 1 << rng.below(8),
        13 => bytes.truncate(rng.below(bytes.len() as u64) as usize),
        _ => {
            let at = rng.below(bytes.len() as u64) as usize;
            bytes[at] ^= 1 << rng.below(8);
        }
    }
}
