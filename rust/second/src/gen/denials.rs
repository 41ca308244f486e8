//! Blocks in which denials decide: a user and an object with a grant between them, and P records with small letters that chains
//! lead to from both sides or from one, for some rights or for all.

use super::{count, mark, two_rights, Rng, OTHER, START};
use crate::{letters, once, Counts, Index, ALL, CHAIN, DENIALS, F, M, P, RIGHTS, X};

/// Where the names of the user's chains to denials begin, and those of the object's; a group that grants go to, one that a user is
/// bound to, and a name that neither side leads to.
const HERS: u16 = 400;
const ITS: u16 = 450;
const GRANTED: u16 = 398;
const EXCLUSIVE: u16 = 399;
const NOBODY: u16 = 640;

/// How many records a chain has: often none or few, or about as many as one may have.
fn records(rng: &mut Rng) -> u16 {
    let most = CHAIN as u16;
    if rng.one_in(4) {
        rng.pick(&[most - 1, most, most, most + 1, most + 1])
    } else {
        rng.pick(&[0, 0, 0, 1, 1, 2, 3])
    }
}

/// The rights that a chain carries: all, one, two, or some.
fn carried(rng: &mut Rng) -> u64 {
    let [one, other] = two_rights(rng);
    rng.pick(&[ALL, ALL, ALL, one, one | other, ALL & !one])
}

/// Puts a chain into the block, from a name over names from `first` on; the name at its end. Some of its records carry more, and in
/// some chains one has markers.
fn lead(rng: &mut Rng, index: &mut Index, start: u16, first: u16) -> u16 {
    let (carried, records, mut key) = (carried(rng), records(rng), start);
    let marked = if rng.one_in(6) { rng.below(u64::from(records) + 1) as u16 } else { records };
    for n in 0..records {
        let more = if rng.one_in(3) { 1 << rng.below(RIGHTS as u64) } else { 0 };
        let counts = index.parts[M].entry((key, first + n)).or_default();
        letters(carried | more).for_each(|k| counts[k] = 1);
        if n == marked {
            mark(rng, counts);
        }
        key = first + n;
    }
    key
}

/// What a denial counts: small letters, and often capital ones beside them.
fn denying(rng: &mut Rng) -> Counts {
    let [one, other] = two_rights(rng);
    let denied = rng.pick(&[one, one, one | other, ALL]);
    let capitals = match rng.below(4) {
        0 => ALL,
        1 => rng.below(ALL + 1),
        _ => 0,
    };
    let mut counts = once(capitals);
    letters(denied << DENIALS.start).for_each(|k| counts[k] = count(rng).max(1));
    counts
}

/// A denial where both chains end; now and then on name 0 or to it, or where only one of them leads. In some blocks a filter stands
/// on its key or on its id, and in some its key is in a group that nobody is bound to.
fn denial(rng: &mut Rng, index: &mut Index) {
    let (mut id, mut key) = (lead(rng, index, START, HERS), lead(rng, index, OTHER, ITS));
    match rng.below(16) {
        0..=2 => key = 0,
        3 => id = 0,
        4 => id = NOBODY,
        5 => key = NOBODY,
        _ => {}
    }
    let record = index.parts[P].entry((key, id)).or_default();
    record.iter_mut().zip(denying(rng)).for_each(|(count, more)| *count = (*count).max(more));
    if rng.one_in(4) {
        index.parts[F].insert((rng.pick(&[key, key, id]), 20), once(1 + rng.below(ALL)));
    }
    if rng.one_in(4) {
        index.parts[M].insert((key, NOBODY + 1), once(ALL));
    }
}

/// The user stands where chains start, the object on the other side. All rights are granted between the two, on the object or on
/// name 0, to her or to a group of hers; then something is denied, once or twice. Every sixth user is bound to a group that the
/// object leads to.
pub fn denials(rng: &mut Rng, index: &mut Index) {
    let (key, id) = (rng.pick(&[OTHER, OTHER, 0]), rng.pick(&[START, GRANTED]));
    if id == GRANTED {
        index.parts[M].insert((START, GRANTED), once(ALL));
    }
    index.parts[P].insert((key, id), once(ALL));
    for _ in 0..rng.pick(&[1, 1, 2]) {
        denial(rng, index);
    }
    if rng.one_in(6) {
        index.parts[M].insert((START, EXCLUSIVE), once(ALL | 1 << X));
        index.parts[M].insert((OTHER, EXCLUSIVE), once(ALL));
    }
}
