//! Questions about blocks with markers: the mill's block, shared by two firms, and a dense one on which both walks of a bound user
//! go everywhere. Beside each stands the same block without markers.

use super::{asked, block, doubled, empty, give, rows, shaped, spread, Asked, Programs, Size};
use super::{EVERY, FULL_QUESTION, MEMBERSHIP, MILL, OBJECTS, PERMISSION, READ, SHORT_QUESTION};
use plain::Plain;
use second::drive::Library;
use second::{Counts, Index, M, P, RIGHTS};
use std::collections::BTreeSet;

/// The marker X in a mask.
const X: u16 = 256;

/// The groups of the firms. What everybody may read is granted to each of them.
const FIRMS: [u16; 2] = [1000, 1001];

/// How many users and objects the questions are about.
const ASKED: usize = 6400;

/// The firm of a name: every second user and every second object is the other firm's.
fn firm_of(name: u16) -> usize {
    usize::from(name % 2)
}

/// The user and the object of the n-th question about one firm's user and one firm's object.
fn with_firms(n: usize, firms: [u64; 2]) -> (u64, u64) {
    let (user, object) = asked(n);
    (user - user % 2 + firms[0], object + (object + firms[1]) % 2)
}

const LET_IN: Asked = |n| with_firms(n, [n as u64 % 2; 2]);
const KEPT_OUT: Asked = |n| with_firms(n, [n as u64 % 2, 1 - n as u64 % 2]);

/// The names of one side of all those questions.
fn members(of: impl Fn((u64, u64)) -> u64) -> BTreeSet<u16> {
    (0..ASKED).flat_map(|n| [LET_IN(n), KEPT_OUT(n)]).map(|pair| of(pair) as u16).collect()
}

/// The mask of a record's rights.
fn rights_of(counts: &Counts) -> u16 {
    (0..RIGHTS).filter(|&right| counts[right] > 0).map(|right| 1 << right).sum()
}

/// The group that an object is to be a member of: the one that was drawn or, where that is the other firm's, one beside it.
fn of_its_firm(key: u16, id: u16) -> u16 {
    if !OBJECTS.contains(&key) || firm_of(key) == firm_of(id) {
        id
    } else if OBJECTS.contains(&(id + 1)) {
        id + 1
    } else {
        id - 1
    }
}

/// The mill's block with as many records, but for filters, in which each user who is asked about is a member of her firm by this
/// mask, and each object of its own. No object is in a group of the other firm's.
fn shared(library: &dyn Library, mask: u16) -> Vec<u8> {
    let Size(memberships, grants, _, spare) = MILL;
    let (users, objects) = (members(|pair| pair.0), members(|pair| pair.1));
    let drawn = Size(memberships - users.len() - objects.len(), grants - FIRMS.len(), 0, 0);
    let mill = Index::decode(&block(&Plain, &drawn)).expect("a good block");
    let mut b = empty(library, memberships + grants + spare);
    for (kind, part) in [(MEMBERSHIP, M), (PERMISSION, P)] {
        for (&(key, id), counts) in &mill.parts[part] {
            let id = if kind == MEMBERSHIP { of_its_firm(key, id) } else { id };
            give(library, &mut b, kind, key, id, rights_of(counts));
        }
    }
    users.iter().for_each(|&user| give(library, &mut b, MEMBERSHIP, user, FIRMS[firm_of(user)], mask));
    objects.iter().for_each(|&object| give(library, &mut b, MEMBERSHIP, object, FIRMS[firm_of(object)], EVERY));
    FIRMS.iter().for_each(|&firm| give(library, &mut b, PERMISSION, 0, firm, READ.into()));
    b
}

/// The lines of both questions, on blocks made so.
fn lines(programs: &Programs, what: &str, asked: Asked, made: impl Fn(&dyn Library) -> Vec<u8>) {
    let told = [FULL_QUESTION, SHORT_QUESTION].map(|(question, kind)| (format!("{question}, {what}"), kind));
    rows(&told.each_ref().map(|(told, kind)| (told.as_str(), *kind)), &mut programs.with(made), asked);
}

/// Whether every question of these has an answer of reading, or none has: the blocks are what the lines say.
fn all_read(programs: &Programs, asked: Asked, mask: u16, read: bool) {
    for runner in programs.with(|library| shared(library, mask)) {
        let answers = (0..ASKED).map(asked).map(|(user, object)| runner.may(user, object));
        assert!({ answers }.all(|answer| answer == u64::from(read)), "each is let in, or each is kept out");
    }
}

fn dense(mask: u16) -> impl Fn(&dyn Library) -> Vec<u8> {
    let memberships: Vec<_> = doubled(0, 1000).map(|(key, id, _)| (key, id, mask)).collect();
    move |library| shaped(library, &memberships)
}

/// The tables of those programs that know markers.
pub fn tables(programs: &mut Programs) {
    programs.timed = programs.marked;
    if programs.marked < 2 {
        return;
    }
    all_read(programs, LET_IN, EVERY | X, true);
    all_read(programs, KEPT_OUT, EVERY | X, false);
    all_read(programs, KEPT_OUT, EVERY, true);
    programs.title("The mill, shared by two firms, whose users may read everything");
    lines(programs, "nobody bound", LET_IN, |library| shared(library, EVERY));
    lines(programs, "bound and let in", LET_IN, |library| shared(library, EVERY | X));
    lines(programs, "bound and kept out", KEPT_OUT, |library| shared(library, EVERY | X));
    programs.title("Dense: every name reaches every other");
    lines(programs, "no markers", spread, dense(EVERY));
    lines(programs, "X in every membership", spread, dense(EVERY | X));
    programs.timed = programs.all.len();
}
