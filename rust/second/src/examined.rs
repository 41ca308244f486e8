//! How many M records each side of a full question examines, as request M-109 defines it: the marks of all names are made for
//! each round, and in each round the M records are counted whose key has another mark than in the round before.

use crate::{carries, Part, CHAIN, RIGHTS};
use std::array::from_fn;
use std::collections::BTreeSet;
use std::mem::replace;

/// The marks of all names in a round: for each right, the names that have it.
type Marks = [BTreeSet<u16>; RIGHTS];

/// The marks one round later, where chains may have a record more.
fn later(memberships: &Part, marks: &Marks) -> Marks {
    from_fn(|right| {
        let carried = memberships.iter().filter(|((key, _), counts)| carries(counts, right) && marks[right].contains(key));
        carried.map(|((_, id), _)| *id).chain(marks[right].iter().copied()).collect()
    })
}

/// How many M records have a key whose mark is not the same in both rounds.
fn differing(memberships: &Part, before: &Marks, marks: &Marks) -> usize {
    let differs = |key: &u16| (0..RIGHTS).any(|right| before[right].contains(key) != marks[right].contains(key));
    memberships.keys().filter(|(key, _)| differs(key)).count()
}

/// The number of M records examined from a name: the sum over rounds 0 to 31. Before round 0 nobody has any right.
pub fn examined(memberships: &Part, start: u16) -> u32 {
    let (mut before, mut marks) = (Marks::default(), from_fn(|_| BTreeSet::from([start])));
    let mut sum = 0;
    for _ in 0..CHAIN {
        sum += differing(memberships, &before, &marks);
        let next = later(memberships, &marks);
        before = replace(&mut marks, next);
        if marks == before {
            break; // all later rounds are the same
        }
    }
    sum as u32
}
