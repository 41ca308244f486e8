//! Rights over chains of at most so many records. The main walk is ended after as many rounds. The plain engine keeps no marks: it
//! asks whether a name is reached with so many records left, goes through the records of the name, and asks again with one fewer.

use crate::bound::open_within;
use crate::{filter, granted, markers, mask, member, net, parts, sound, spans, word, Look, Record, Span, Walk};
use crate::{CHAIN, COUNTS, FEW, ID, M, NAMES, OBJECT, ORDINARY, ROOM, X};

/// The greatest limit of the plain engine, and the most M records that it goes over.
const PLAIN_LIMIT: u64 = 8;
const PLAIN_RECORDS: usize = 64;

/// A user, an object and a request, and whether M records count X.
struct Asked {
    user: usize,
    object: usize,
    request: u8,
    marked: bool,
}

/// What is asked, where it can be; else 1, 2, 4 or 5.
fn asked(b: &[u8], user: u64, object: u64, request: u64) -> Result<Asked, u32> {
    let marked = sound(b)?;
    let (user, object, request, _) = crate::asked(user, object, request, ORDINARY)?;
    Ok(Asked { user, object, request, marked })
}

/// The number, and the rights.
fn told(answer: Result<u8, u32>) -> (u32, u32) {
    answer.map_or_else(|number| (number, 0), |held| (0, held.into()))
}

/// The rights requested that every filter lets through. No limit bears on them.
fn wanted(m: &[Record], f: &[Record], noted: &[Span; NAMES], asked: &Asked) -> u8 {
    let (first, after) = noted.span(asked.object);
    filter(f, noted, asked.object, &m[first.into()..after.into()]) & asked.request
}

pub fn rights_to(b: &[u8], user: u64, object: u64, request: u64, limit: u64) -> (u32, u32) {
    told(asked(b, user, object, request).and_then(|asked| {
        if limit > CHAIN as u64 {
            return Err(14);
        }
        Ok(walked(b, &asked, limit as usize))
    }))
}

/// The rights by the main walk, held to a limit.
fn walked(b: &[u8], asked: &Asked, limit: usize) -> u8 {
    let [m, p, f] = parts(b);
    let (noted, mut walk, mut list) = (&spans(m), Walk::new(asked.user, asked.object), [0; ROOM + FEW]);
    for _ in 0..limit {
        let listed = walk.begin::<false>(noted, &mut list);
        if listed == 0 {
            break;
        }
        walk.look(m, &list[..listed]);
    }
    walk.marks[0] |= OBJECT;
    let held = granted(p, &walk.marks, wanted(m, f, noted, asked));
    if held != 0 && asked.marked && !open_within(m, noted, asked.user, asked.object, limit) {
        return 0;
    }
    held
}

pub fn plain(b: &[u8], user: u64, object: u64, request: u64, limit: u64) -> (u32, u32) {
    told(asked(b, user, object, request).and_then(|asked| {
        if limit > PLAIN_LIMIT || parts(b)[M].len() > PLAIN_RECORDS {
            return Err(14);
        }
        Ok(followed(b, &asked, limit as usize))
    }))
}

/// The chains over some M records: a record carries some rights, or one bit for any other sort of chain.
struct Chains<'a> {
    memberships: &'a [Record],
    noted: &'a [Span; NAMES],
    carried: fn(&Record) -> u8,
}

impl Chains<'_> {
    /// Which of these rights are carried from a name to an end, with so many records left.
    fn reached(&self, name: usize, end: usize, rights: u8, left: usize) -> u8 {
        if name == end {
            return rights;
        }
        if left == 0 {
            return 0;
        }
        self.through(name, end, rights, left)
    }

    /// The same over the records of the name, the first of so many that are left.
    fn through(&self, name: usize, end: usize, rights: u8, left: usize) -> u8 {
        let ((first, after), mut found) = (self.noted.span(name), 0);
        for record in &self.memberships[first.into()..after.into()] {
            let on = rights & (self.carried)(record) & !found;
            if on != 0 {
                found |= self.reached(word(record, ID) % NAMES, end, on, left - 1);
            }
        }
        found
    }
}

/// The rights by the plain engine.
fn followed(b: &[u8], asked: &Asked, limit: usize) -> u8 {
    let [m, p, f] = parts(b);
    let noted = &spans(m);
    let chains = Chains { memberships: m, noted, carried: |record| mask(record, COUNTS) };
    let (wanted, mut held) = (wanted(m, f, noted, asked), 0);
    for record in p {
        let (key, id, more) = (word(record, 0) % NAMES, word(record, ID) % NAMES, net(record) & wanted & !held);
        if more != 0 {
            let hers = chains.reached(asked.user, id, more, limit);
            held |= if key == 0 { hers } else { chains.reached(asked.object, key, hers, limit) };
        }
    }
    if held != 0 && asked.marked && !open_plainly(m, noted, asked, limit) {
        return 0;
    }
    held
}

/// Whether a chain to a group of the user's may go over an M record.
fn free(record: &Record) -> bool {
    member(record) && markers(record) & !X == 0
}

/// Whether the object is open to the user.
fn open_plainly(m: &[Record], noted: &[Span; NAMES], asked: &Asked, limit: usize) -> bool {
    let to_hers = Chains { memberships: m, noted, carried: |record| free(record).into() };
    let of_object = Chains { memberships: m, noted, carried: |record| member(record).into() };
    let hers = |record: &&Record| {
        let last = free(record) && markers(record) & X != 0;
        last && limit > 0 && to_hers.reached(asked.user, word(*record, 0) % NAMES, 1, limit - 1) != 0
    };
    let groups: Vec<usize> = m.iter().filter(hers).map(|record| word(record, ID) % NAMES).collect();
    let (first, after) = noted.span(asked.object);
    let alone = m[first.into()..after.into()].iter().all(|record| !member(record));
    groups.is_empty() || alone || groups.iter().any(|&group| of_object.reached(asked.object, group, 1, limit) != 0)
}
