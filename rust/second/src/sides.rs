//! The two sides of a question about one right, and what a walk may forget of them.

use crate::{carries, joins, reached, Index, Part, CHAIN, M, RIGHTS};
use std::collections::{BTreeMap, BTreeSet};

/// The round in which a walk for a right first comes to each name.
pub type Rounds = BTreeMap<u16, usize>;

/// Those of a walk from a name for each right, up to round 32.
pub fn rounds(memberships: &Part, start: u16) -> [Rounds; RIGHTS] {
    std::array::from_fn(|right| {
        let mut rounds = Rounds::from([(start, 0)]);
        for round in 1..=CHAIN {
            let comes = |record: &(u16, u16)| rounds.get(&record.0) == Some(&(round - 1)) && !rounds.contains_key(&record.1);
            let links = memberships.iter().filter(|(_, counts)| carries(counts, right));
            let next: Vec<_> = links.filter(|(record, _)| comes(record)).map(|(record, _)| (record.1, round)).collect();
            if next.is_empty() {
                break;
            }
            rounds.extend(next);
        }
        rounds
    })
}

/// The two sides of a question about one right: the user's, then the object's.
pub struct Sides<'a> {
    pub index: &'a Index,
    pub starts: [u16; 2],
    right: usize,
    /// The names that each reaches.
    pub names: [BTreeSet<u16>; 2],
}

impl Sides<'_> {
    pub fn new(index: &Index, user: u16, object: u16, right: usize) -> Sides<'_> {
        let starts = [user, object];
        Sides { index, starts, right, names: starts.map(|start| reached(&index.parts[M], start, right, CHAIN)) }
    }

    /// The names that one side reaches over chains of at most `limit` records.
    pub fn names_within(&self, side: usize, limit: usize) -> BTreeSet<u16> {
        reached(&self.index.parts[M], self.starts[side], self.right, limit)
    }

    /// The names that one side reaches without some M records.
    pub fn names_without(&self, side: usize, forgotten: &dyn Fn((u16, u16)) -> bool) -> BTreeSet<u16> {
        let mut left = self.index.parts[M].clone();
        left.retain(|&record, _| !forgotten(record));
        reached(&left, self.starts[side], self.right, CHAIN)
    }

    /// Whether the right is granted where one side reaches these names, and the other its own.
    pub fn joined(&self, side: usize, names: &BTreeSet<u16>) -> bool {
        let [users, objects] = if side == 0 { [names, &self.names[1]] } else { [&self.names[0], names] };
        joins(self.index, users, objects, self.right, carries)
    }

    /// Whether another right comes to the name in an earlier round than this one.
    pub fn comes_again(&self, rounds: &[Rounds; RIGHTS], name: u16) -> bool {
        let own = rounds[self.right].get(&name);
        rounds.iter().any(|other| other.get(&name).is_some_and(|round| Some(round) < own))
    }

    /// Whether another right comes to the name in the same round as this one, by other records.
    pub fn comes_beside(&self, rounds: &[Rounds; RIGHTS], name: u16) -> bool {
        // the keys of the records that bring a right to the name in the round in which it first comes
        let brought = |right: usize| -> BTreeSet<u16> {
            let records = self.index.parts[M].iter().filter(|(record, counts)| record.1 == name && carries(counts, right));
            let before = |key: &u16| rounds[right].get(key).is_some_and(|round| rounds[right].get(&name) == Some(&(round + 1)));
            records.map(|(record, _)| record.0).filter(before).collect()
        };
        let (round, own) = (rounds[self.right].get(&name), brought(self.right));
        let beside = |right: usize| rounds[right].get(&name) == round && brought(right).is_disjoint(&own);
        !own.is_empty() && (0..RIGHTS).any(beside)
    }
}
