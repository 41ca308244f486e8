//! Whether a record can bear on a user's rights on an object. Chains are gone over round by round, from the user or from the object, and
//! the walk ends where the name is found; the groups of an object are searched for by halves.

use crate::bound::Names;
use crate::{find, member, parts, sound, spans, word, Record, Search, Span, CHAIN, ID, KINDS, M, NAMES, NAME_BITS, P};

/// A user, an object, and a record by its part, key and id.
struct Asked {
    user: usize,
    object: usize,
    part: usize,
    key: usize,
    id: usize,
}

/// What is asked, where it can be; else 1, 2, 3 or 4.
fn asked(b: &[u8], user: u64, object: u64, kind: u64, key: u64, id: u64) -> Result<Asked, u32> {
    sound(b)?;
    if kind == 0 || kind > KINDS as u64 {
        return Err(3);
    }
    if user.max(object).max(key).max(id) >= NAMES as u64 {
        return Err(4);
    }
    let [user, object, key, id] = [user, object, key, id].map(|name| name as usize);
    Ok(Asked { user, object, part: kind as usize - 1, key, id })
}

pub fn bears(b: &[u8], user: u64, object: u64, kind: u64, key: u64, id: u64) -> (u32, u32) {
    asked(b, user, object, kind, key, id).map_or_else(|number| (number, 0), |asked| (0, borne(b, &asked).into()))
}

/// Whether it is one of the records that can.
fn borne(b: &[u8], asked: &Asked) -> bool {
    let &Asked { user, object, part, key, id } = asked;
    match part {
        M => {
            let chains = Chains::new(b);
            chains.lead(user, key, CHAIN - 1) || chains.lead(object, key, CHAIN - 1)
        }
        P => {
            let chains = Chains::new(b);
            (key == 0 || chains.lead(object, key, CHAIN)) && chains.lead(user, id, CHAIN)
        }
        _ => key == object || in_group(b, object, key),
    }
}

/// The chains over all memberships, whatever they carry.
struct Chains<'a> {
    memberships: &'a [Record],
    noted: [Span; NAMES],
}

impl Chains<'_> {
    fn new(b: &[u8]) -> Chains<'_> {
        let memberships = parts(b)[M];
        Chains { memberships, noted: spans(memberships) }
    }

    /// Whether one of at most so many records leads from a name to another.
    fn lead(&self, start: usize, end: usize, most: usize) -> bool {
        let mut found = start == end;
        if !found {
            Names::new(start).go(self.memberships, &self.noted, most, |record| {
                let goes = member(record);
                found = goes && word(record, ID) % NAMES == end;
                (!found).then_some(goes)
            });
        }
        found
    }
}

/// Whether a membership of the name's own names the group.
fn in_group(b: &[u8], name: usize, group: usize) -> bool {
    let (i, there) = find(b, &Search, M, name << NAME_BITS | group);
    there && member(&parts(b)[M][i])
}
