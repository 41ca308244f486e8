//! Whether an object is open to a user whom exclusive groups bind. Both walks go round by round over the names that are new, and
//! that of the object ends at the first group of hers.

use crate::{markers, member, word, Look, Record, CHAIN, ID, NAMES, X};

/// A set of names, and those that came last.
pub struct Names {
    there: [bool; NAMES],
    list: [u16; NAMES],
    names: usize,
}

impl Names {
    pub fn new(start: usize) -> Names {
        let mut names = Names { there: [false; NAMES], list: [0; NAMES], names: 0 };
        names.add(start);
        names
    }

    fn add(&mut self, name: usize) {
        self.list[self.names % NAMES] = name as u16;
        self.names += usize::from(!self.there[name]);
        self.there[name] = true;
    }

    /// Goes over the M records of all names that chains of less than `most` lead to, and hands each on: where that says so a chain
    /// goes over it, and where it says `None` the walk ends.
    pub fn go(&mut self, memberships: &[Record], look: &impl Look, most: usize, mut each: impl FnMut(&Record) -> Option<bool>) {
        let mut from = 0;
        for _ in 0..most {
            let end = self.names;
            if from == end {
                break;
            }
            for at in from..end {
                let (first, after) = look.span(usize::from(self.list[at]));
                for record in &memberships[first.into()..after.into()] {
                    match each(record) {
                        Some(true) => self.add(word(record, ID) % NAMES),
                        Some(false) => {}
                        None => return,
                    }
                }
            }
            from = end;
        }
    }
}

/// Whether the object is open to the user: she is not bound, or it is in no group, or it leads to a group of hers.
pub fn open(memberships: &[Record], look: &impl Look, user: usize, object: usize) -> bool {
    open_within(memberships, look, user, object, CHAIN)
}

/// The same, over chains of at most so many records.
#[inline(never)]
pub fn open_within(memberships: &[Record], look: &impl Look, user: usize, object: usize, most: usize) -> bool {
    let (mut hers, mut bound) = ([false; NAMES], false);
    Names::new(user).go(memberships, look, most, |record| {
        let markers = markers(record);
        let free = member(record) && markers & !X == 0;
        if free && markers & X != 0 {
            hers[word(record, ID) % NAMES] = true;
            bound = true;
        }
        Some(free)
    });
    let (first, after) = look.span(object);
    if !bound || hers[object] || !memberships[first.into()..after.into()].iter().any(member) {
        return true;
    }
    let mut found = false;
    Names::new(object).go(memberships, look, most, |record| {
        let leads = member(record);
        found = leads && hers[word(record, ID) % NAMES];
        (!found).then_some(leads)
    });
    found
}
