//! Slips. The finder goes out from each side for the one right, name by name, notes which name came before, and takes the P record
//! with the fewest names; the check searches for each record by halves.

use crate::bound::open;
use crate::{filter, find, keyed_filters, net, parts, sound, spans, word, Find, Look, Record, Search, Span};
use crate::{CHAIN, COUNTS, ID, M, NAMES, NAME_BITS, ORDINARY, P};

/// The most names on a chain.
pub const LONGEST: usize = CHAIN + 1;

/// A user, an object and one right, by its number, and whether M records count X.
struct Asked {
    user: usize,
    object: usize,
    right: u32,
    marked: bool,
}

/// What is asked, where the names on these lists are names too; else 1, 2, 4 or 5.
fn asked(b: &[u8], user: u64, object: u64, right: u64, lists: [&[u16]; 2]) -> Result<Asked, u32> {
    let marked = sound(b)?;
    let no_names = |list: &[u16]| list.iter().fold(0, |all, &name| all | usize::from(name)) >= NAMES;
    if no_names(lists[0]) || no_names(lists[1]) {
        return Err(4);
    }
    let (user, object, mask, _) = crate::asked(user, object, right, ORDINARY)?;
    if !mask.is_power_of_two() {
        return Err(5);
    }
    Ok(Asked { user, object, right: mask.trailing_zeros(), marked })
}

/// How far names are from a start by chains with one right, and the name before each.
struct Way {
    far: [u8; NAMES],
    before: [u16; NAMES],
}

/// Farther than any name.
const NOWHERE: u8 = u8::MAX;

impl Way {
    fn new(memberships: &[Record], look: &impl Look, start: usize, right: u32) -> Way {
        let mut way = Way { far: [NOWHERE; NAMES], before: [0; NAMES] };
        let (mut list, mut from, mut end) = ([0; NAMES], 0, 1);
        (list[0], way.far[start]) = (start as u16, 0);
        let count = COUNTS + 2 * right as usize;
        while from < end {
            let key = list[from];
            from += 1;
            let far = way.far[usize::from(key)] + 1;
            if usize::from(far) > CHAIN {
                break;
            }
            let (first, after) = look.span(key.into());
            for record in &memberships[first.into()..after.into()] {
                let id = word(record, ID) % NAMES;
                if way.far[id] == NOWHERE && word(record, count) != 0 {
                    (way.far[id], way.before[id]) = (far, key);
                    list[end % NAMES] = id as u16;
                    end += 1;
                }
            }
        }
        way
    }

    /// Puts the names to an end at the front of a list; how many they are.
    fn put(&self, list: &mut [u16], end: usize) -> u32 {
        let (far, mut name) = (usize::from(self.far[end]), end);
        for place in list[..=far].iter_mut().rev() {
            *place = name as u16;
            name = self.before[name].into();
        }
        far as u32 + 1
    }
}

/// The P record with the right that has the fewest names to it, by key and id.
fn nearest(records: &[Record], hers: &Way, its: &Way, right: u32) -> Option<(usize, usize)> {
    let (mut least, mut found) = (u16::from(NOWHERE), None);
    for record in records {
        let (key, id) = (word(record, 0) % NAMES, word(record, ID) % NAMES);
        let far = u16::from(hers.far[id]) + u16::from(its.far[key]);
        if far < least && net(record) >> right & 1 == 1 {
            (least, found) = (far, Some((key, id)));
            if far == 0 {
                break;
            }
        }
    }
    found
}

/// Whether every filter lets the right through for an object.
fn passes(memberships: &[Record], filters: &[Record], look: &impl Look, object: usize, right: u32) -> bool {
    let (first, after) = look.span(object);
    filter(filters, look, object, &memberships[first.into()..after.into()]) >> right & 1 == 1
}

pub fn find_slip(b: &[u8], user: u64, object: u64, right: u64, hers: &mut [u16], its: &mut [u16]) -> (u32, u32) {
    match asked(b, user, object, right, [&[], &[]]) {
        Err(number) => (number, 0),
        Ok(_) if hers.len() < LONGEST || its.len() < LONGEST => (10, 0),
        Ok(asked) => (0, found(b, &asked, hers, its).unwrap_or(0)),
    }
}

/// The slip with the fewest names, put into the lists, and the value that tells its names. Name 0 by itself is no farther from any
/// object than the object is.
fn found(b: &[u8], &Asked { user, object, right, marked }: &Asked, hers: &mut [u16], its: &mut [u16]) -> Option<u32> {
    let [m, p, f] = parts(b);
    let noted = &spans(m);
    if !passes(m, f, noted, object, right) {
        return None;
    }
    let [of_user, mut of_object] = [user, object].map(|start| Way::new(m, noted, start, right));
    of_object.far[0] = 0;
    let (key, id) = nearest(p, &of_user, &of_object, right)?;
    if marked && !open(m, noted, user, object) {
        return None;
    }
    Some(of_user.put(hers, id) + 256 * of_object.put(its, key))
}

/// The records of a name are searched for.
struct Searched<'a>(&'a [u8]);

impl Look for Searched<'_> {
    fn span(&self, name: usize) -> Span {
        let (first, after) = Search.set(self.0, M, name);
        (first as u16, after as u16)
    }

    fn filters<'a>(&self, filters: &'a [Record], name: usize) -> &'a [Record] {
        keyed_filters(filters, name)
    }
}

pub fn check_slip(b: &[u8], user: u64, object: u64, right: u64, hers: &[u16], its: &[u16]) -> (u32, u32) {
    let fair = |list: &[u16]| (1..=LONGEST).contains(&list.len());
    match asked(b, user, object, right, [hers, its]) {
        Err(number) => (number, 0),
        Ok(_) if !fair(hers) || !fair(its) => (11, 0),
        Ok(asked) => (0, checked(b, &asked, hers, its).into()),
    }
}

/// Whether the slip is right.
fn checked(b: &[u8], &Asked { user, object, right, marked }: &Asked, hers: &[u16], its: &[u16]) -> bool {
    let [m, p, f] = parts(b);
    let carries = |kind: usize, key: u16, id: u16| {
        let (i, there) = find(b, &Search, kind, usize::from(key) << NAME_BITS | usize::from(id));
        there && net(if kind == M { &m[i] } else { &p[i - m.len()] }) >> right & 1 == 1
    };
    let starts = usize::from(hers[0]) == user && (usize::from(its[0]) == object || its == [0]);
    let linked = |list: &[u16]| list.windows(2).all(|link| carries(M, link[0], link[1]));
    starts
        && carries(P, its[its.len() - 1], hers[hers.len() - 1])
        && linked(hers)
        && linked(its)
        && passes(m, f, &Searched(b), object, right)
        && (!marked || open(m, &spans(m), user, object))
}
