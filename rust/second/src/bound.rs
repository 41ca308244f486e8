//! Who is bound to exclusive groups, and which objects are then open to her, as request M-107 says it. The rule is kept in parts,
//! so that the comparison can change one and see what hangs on it.

use crate::{led, set_of, Counts, Part, CHAIN, MARKERS, N, X};
use std::collections::BTreeSet;

/// Whether an M record is a membership: it counts a letter, and not markers alone.
pub fn member(counts: &Counts) -> bool {
    counts[..MARKERS.start].iter().any(|&count| count > 0)
}

/// What a record has to be for a chain to go over it.
pub type Link = fn(&Counts) -> bool;

/// The rule in its parts.
#[derive(Clone, Copy)]
pub struct Rule {
    /// Her chain: the records before the last one, the last one, and how many there may be.
    pub before: Link,
    pub last: Link,
    pub most: usize,
    /// What puts an object into a group.
    pub grouped: Link,
    /// The object's chain: its records, how many there may be, and whether it may have none.
    pub leads: Link,
    pub most_of_object: usize,
    pub itself: bool,
}

/// The rule as it is told.
pub const RULE: Rule = Rule {
    before: |counts| member(counts) && counts[N] == 0,
    last: |counts| member(counts) && counts[N] == 0 && counts[X] > 0,
    most: CHAIN,
    grouped: member,
    leads: member,
    most_of_object: CHAIN,
    itself: true,
};

impl Rule {
    /// The rule for chains of at most so many records.
    pub fn within(self, limit: usize) -> Rule {
        Rule { most: limit, most_of_object: limit, ..self }
    }

    /// The groups that are hers. Her chain has a record at least, the last one: where it may have none, no group is.
    pub fn hers(&self, memberships: &Part, user: u16) -> BTreeSet<u16> {
        let Some(before) = self.most.checked_sub(1) else { return BTreeSet::new() };
        let names = led(memberships, user, before, self.before);
        let last = memberships.iter().filter(|((key, _), counts)| names.contains(key) && (self.last)(counts));
        last.map(|((_, id), _)| *id).collect()
    }

    /// Whether an object is in no group at all.
    pub fn alone(&self, memberships: &Part, object: u16) -> bool {
        !set_of(memberships, object).values().any(self.grouped)
    }

    /// The names that the object's chains lead to.
    pub fn around(&self, memberships: &Part, object: u16) -> BTreeSet<u16> {
        let mut names = led(memberships, object, self.most_of_object, self.leads);
        if !self.itself {
            let back =
                memberships.iter().any(|((key, id), counts)| *id == object && names.contains(key) && (self.leads)(counts));
            names.retain(|&name| name != object || back);
        }
        names
    }

    /// Whether the object is open to the user: she has no such group, or it is in no group, or it leads to one of hers.
    pub fn open(&self, memberships: &Part, user: u16, object: u16) -> bool {
        let hers = self.hers(memberships, user);
        hers.is_empty() || self.alone(memberships, object) || !self.around(memberships, object).is_disjoint(&hers)
    }
}
