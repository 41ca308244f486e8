//! Blocks in which firms share one installation: a user with a chain to a group of hers, an object that leads there or somewhere
//! else, and a grant between the two, so that the markers decide.

use super::{two_rights, Rng, OTHER, START};
use crate::{letters, once, Counts, Index, ALL, CHAIN, M, MARKERS, N, P, RIGHTS, X};

/// Where the names of the object's chain begin; a group of another firm; and a group of none.
const ITS: u16 = 300;
const ELSEWHERE: u16 = 500;
const NEUTRAL: u16 = 600;

/// How many records a chain has, one at least: few, or about as many as one may have.
pub fn records(rng: &mut Rng) -> u16 {
    let most = CHAIN as u16;
    if rng.one_in(3) {
        rng.pick(&[most - 1, most, most, most + 1, most + 1])
    } else {
        rng.pick(&[1, 1, 2, 3])
    }
}

/// A membership that carries one right, which may be another than the next one carries.
fn membership(rng: &mut Rng) -> Counts {
    once(1 << rng.below(RIGHTS as u64))
}

/// Takes all letters out of a record, so that it has markers alone.
pub fn strip(rng: &mut Rng, counts: &mut Counts) {
    counts[..MARKERS.start].fill(0);
    if counts[MARKERS].iter().all(|&count| count == 0) {
        counts[rng.pick(&[X, N])] = 1;
    }
}

/// Puts a chain into the block, from a name over names from `first` on to the last one.
fn put(index: &mut Index, start: u16, first: u16, last: u16, chain: &[Counts]) {
    let (mut key, end) = (start, chain.len() - 1);
    for (n, &counts) in chain.iter().enumerate() {
        let id = if n == end { last } else { first + n as u16 };
        index.parts[M].insert((key, id), counts);
        key = id;
    }
}

/// The chain from the user to her group. X stands in the last record; in every other chain something is different.
fn to_her_group(rng: &mut Rng, records: u16) -> Vec<Counts> {
    let mut chain: Vec<Counts> = (0..records).map(|_| membership(rng)).collect();
    let (any, last) = (rng.below(chain.len() as u64) as usize, chain.len() - 1);
    chain[last][X] = 1;
    match rng.below(12) {
        0 | 1 => chain[any][N] = 1,
        2 => chain[last][N] = 1,
        3 => chain[any][X] = 2,
        4 => {
            chain[last][X] = 0;
            chain[any][X] = 1;
        }
        5 | 6 => strip(rng, &mut chain[any]),
        _ => {}
    }
    chain
}

/// The chain from the object, with markers that have no part in it. In every third chain one record has markers alone.
fn from_object(rng: &mut Rng, records: u16) -> Vec<Counts> {
    let mut chain: Vec<Counts> = (0..records).map(|_| membership(rng)).collect();
    let any = rng.below(chain.len() as u64) as usize;
    if rng.one_in(2) {
        letters((1 + rng.below(3)) << MARKERS.start).for_each(|k| chain[any][k] = 1);
    }
    if rng.one_in(3) {
        strip(rng, &mut chain[any]);
    }
    chain
}

/// The user stands where chains start, the object on the other side. Her group may be name 0, or the object itself, and the object
/// may lead to her in the place of her group. The chains have so many records.
pub fn firms(rng: &mut Rng, index: &mut Index, records: fn(&mut Rng) -> u16) {
    let hers = rng.pick(&[START + 2 * CHAIN as u16, START + 2 * CHAIN as u16, 0, OTHER]);
    let records_to_hers = records(rng);
    put(index, START, START + 1, hers, &to_her_group(rng, records_to_hers));
    if rng.one_in(2) {
        let mut counts = once(two_rights(rng)[0]);
        counts[X] = 1;
        index.parts[M].insert((START, ELSEWHERE), counts);
    }
    match rng.below(8) {
        0 => {}
        1 => {
            let mut counts = Counts::default();
            strip(rng, &mut counts);
            index.parts[M].insert((OTHER, rng.pick(&[hers, NEUTRAL])), counts);
        }
        2..=4 => drop(index.parts[M].insert((OTHER, rng.pick(&[NEUTRAL, ELSEWHERE])), membership(rng))),
        _ => {
            let (end, records) = (rng.pick(&[hers, hers, hers, START]), records(rng));
            put(index, OTHER, ITS, end, &from_object(rng, records));
        }
    }
    let key = rng.pick(&[OTHER, OTHER, 0]);
    index.parts[P].insert((key, START), once(ALL));
}
