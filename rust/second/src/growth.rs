//! How the marks of one side of a full question grow, and what its number of M records examined hangs on.

use crate::sides::{rounds, Rounds};
use crate::{carries, letters, set_of, Counts, Part, ALL, CHAIN, RIGHTS};
use std::collections::BTreeSet;

/// The M records, the name where one side starts, and for each right the rounds in which it first comes to names.
pub struct Growth<'a> {
    memberships: &'a Part,
    start: u16,
    first: [Rounds; RIGHTS],
}

impl Growth<'_> {
    pub fn new(memberships: &Part, start: u16) -> Growth<'_> {
        Growth { memberships, start, first: rounds(memberships, start) }
    }

    /// The keys of the M records, each as often as it has records.
    fn keys(&self) -> impl Iterator<Item = u16> + '_ {
        self.memberships.keys().map(|&(key, _)| key)
    }

    /// The rounds, 32 too, in which the mark of a name differs from the round before by one of these rights.
    fn rounds(&self, name: u16, rights: u64) -> BTreeSet<usize> {
        letters(rights).filter_map(|right| self.first[right].get(&name).copied()).collect()
    }

    /// How often each M record of a name is examined by a walk for these rights alone.
    pub fn times(&self, name: u16, rights: u64) -> usize {
        self.rounds(name, rights).range(..CHAIN).count()
    }

    /// How often the M records are examined: each number of times that there is.
    pub fn all_times(&self) -> BTreeSet<usize> {
        self.keys().map(|key| self.times(key, ALL)).collect()
    }

    /// The number of M records examined by a walk for these rights alone.
    pub fn number(&self, rights: u64) -> u32 {
        self.keys().map(|key| self.times(key, rights) as u32).sum()
    }

    /// Whether an M record is examined in the round, if the round counts.
    pub fn in_round(&self, round: usize) -> bool {
        self.keys().any(|key| self.rounds(key, ALL).contains(&round))
    }

    /// Whether a chain ends at a name that has no M records.
    pub fn ends(&self) -> bool {
        let mut names = self.first.iter().flat_map(Rounds::keys);
        names.any(|&name| name != self.start && set_of(self.memberships, name).is_empty())
    }

    /// Whether an M record carries a right on from its key.
    fn carries_on(&self, key: u16, counts: &Counts) -> bool {
        (0..RIGHTS).any(|right| carries(counts, right) && self.times(key, 1 << right) > 0)
    }

    /// Whether an M record is examined and carries no right on.
    pub fn idles(&self) -> bool {
        self.memberships.iter().any(|(&(key, _), counts)| self.times(key, ALL) > 0 && !self.carries_on(key, counts))
    }

    /// Whether an M record leads back to the start.
    pub fn returns(&self) -> bool {
        self.memberships.iter().any(|(&(key, id), counts)| id == self.start && self.carries_on(key, counts))
    }

    /// Whether an M record that was examined is examined for the other side alone in a later round.
    pub fn stays_behind(&self, other: &Growth) -> bool {
        self.keys().any(|key| {
            let (own, later) = (self.rounds(key, ALL), other.rounds(key, ALL));
            later.range(..CHAIN).any(|round| !own.contains(round) && own.range(..round).next().is_some())
        })
    }
}
