//! Which records can bear on a user's rights on an object, as request M-113 lists them: "M records, markers too, whose key is reached
//! from user or object by chains of at most 31 records, masks disregarded; P records whose key is reached from the object by at most
//! 32, or is 0, and whose id is reached from the user by at most 32; F records of the object and of the groups its M records name".
//! Whether a name is reached is found from its end: from the name back to those that lead to it, record by record. The rule is kept in
//! parts, so that the comparison can change one and see what hangs on it.

use crate::bound::{member, Link};
use crate::{led, name_of, part_of, Index, Part, CHAIN, M, P};
use std::collections::BTreeSet;

/// The rule in its parts.
#[derive(Clone, Copy)]
pub struct Bearing {
    /// What a record has to be for a chain to go over it.
    pub link: Link,
    /// How many records a chain to the key of an M record may have, from the user and from the object.
    pub to_member: [usize; 2],
    /// The same to a P record: from the user to its id, and from the object to its key.
    pub to_grant: [usize; 2],
    /// Whether name 0 is reached without a chain: as the id of a P record, and as its key.
    pub zero: [bool; 2],
    /// How many records a chain from the object to the key of an F record may have.
    pub to_filter: usize,
}

/// The rule as it is told.
pub const BEARING: Bearing =
    Bearing { link: member, to_member: [CHAIN - 1; 2], to_grant: [CHAIN; 2], zero: [false, true], to_filter: 1 };

/// Whether a chain of at most `most` such records leads from one name to another: the names before the end are gone through, those
/// from which one record leads there, then two, until the start is among them.
pub fn leads(memberships: &Part, start: u16, end: u16, most: usize, such: Link) -> bool {
    let (mut before, mut last) = (BTreeSet::from([end]), vec![end]);
    for _ in 0..most {
        if before.contains(&start) || last.is_empty() {
            break;
        }
        let to_last = memberships.iter().filter(|((_, id), counts)| last.contains(id) && such(counts));
        let keys: BTreeSet<u16> = to_last.map(|((key, _), _)| *key).collect();
        last = keys.difference(&before).copied().collect();
        before.extend(keys);
    }
    before.contains(&start)
}

impl Bearing {
    /// Whether the record of a part, by its key and id, is one of those listed for the user and the object. It need not be there.
    pub fn bears(&self, index: &Index, [user, object]: [u16; 2], part: usize, (key, id): (u16, u16)) -> bool {
        let leads = |start, end, most| leads(&index.parts[M], start, end, most, self.link);
        match part {
            M => leads(user, key, self.to_member[0]) || leads(object, key, self.to_member[1]),
            P => {
                let of_object = (self.zero[1] && key == 0) || leads(object, key, self.to_grant[1]);
                of_object && ((self.zero[0] && id == 0) || leads(user, id, self.to_grant[0]))
            }
            _ => leads(object, key, self.to_filter),
        }
    }
}

/// All that is listed for a user and an object, by the names that are reached: from each of the two by 31 records and by 32, and from
/// the object by one. They are found from the start, so that this is not the way by which `bears` goes.
pub struct Listed {
    keys: BTreeSet<u16>,
    ends: [BTreeSet<u16>; 2],
    filtered: BTreeSet<u16>,
}

impl Listed {
    pub fn new(index: &Index, names: [u16; 2]) -> Listed {
        let by = |start: u16, most: usize| led(&index.parts[M], start, most, member);
        let keys = names.iter().flat_map(|&start| by(start, CHAIN - 1)).collect();
        Listed { keys, ends: names.map(|start| by(start, CHAIN)), filtered: by(names[1], 1) }
    }

    /// Whether a record is listed.
    pub fn has(&self, part: usize, (key, id): (u16, u16)) -> bool {
        match part {
            M => self.keys.contains(&key),
            P => (key == 0 || self.ends[1].contains(&key)) && self.ends[0].contains(&id),
            _ => self.filtered.contains(&key),
        }
    }

    /// The listed records of a block, with their counts.
    pub fn of(&self, index: &Index) -> [Part; 3] {
        let mut parts = index.parts.clone();
        for (part, records) in parts.iter_mut().enumerate() {
            records.retain(|&record, _| self.has(part, record));
        }
        parts
    }
}

/// bears: the number, and 1 where the record of that kind, key and id is one of those listed, or 0.
pub fn bears(block: &[u8], user: u64, object: u64, kind: u64, key: u64, id: u64) -> (u32, u32) {
    let outcome = Index::decode(block).and_then(|index| {
        let part = part_of(kind)?;
        let names = [name_of(user)?, name_of(object)?];
        Ok(BEARING.bears(&index, names, part, (name_of(key)?, name_of(id)?)))
    });
    outcome.map_or_else(|number| (number, 0), |yes| (0, yes.into()))
}
