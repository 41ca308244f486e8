//! What wide messages met: what was wrong with each that was refused, and how the steps of the others went.

use super::{index_of, Call, Form};
use crate::gen;
use crate::wide::{LENGTHS, MASKS, OFFSETS};
use crate::{add, begun, has, letters, once, take, word, Half, Index, Said, Wide};
use crate::{ALL, FLAGS, KIND, KINDS, LIST, NAMES, P, WIDE as HEADER};

const ALONE: &[&str] = &["wide"];
const BOTH: &[&str] = &["wide", "wide_by"];

/// The lists of a message by their numbers: previous keys, previous ids, new keys, new ids; and the lengths that each may have.
const EACH_LIST: &[i64] = &[0, 1, 2, 3];
const EACH_LENGTH: &[i64] = &[1, 2, 3, 4, 5, 6, 7, 8];

const SHORT: &str = "3 for a header that is too short, of 15 bytes or of fewer";
const OF_KIND: &str = "3 for a kind alone that is none, one above 3 taken as 4";
const OF_FLAGS: &str = "3 for flags alone, of no half or of halves that are there";
const OF_OFFSET: &str = "3 for one offset alone, of list";
const OFFSET_BY: &str = "3 for one offset alone, off by";
const OF_ABSENT_OFFSET: &str = "3 for one offset alone, in an absent half, of list";
const BY_LENGTH: &str = "3 for the length alone, too small or too great by";
const ABSENT_LIST: &str = "3 for one list alone of an absent half, list";
const ABSENT_LISTS: &str = "3 for both lists of an absent half, the previous or the new one";
const ABSENT_MASK: &str = "3 for the mask alone of an absent half, the previous or the new one";
const EMPTY: &str = "3 for an empty list alone, list";
const OF_NINE: &str = "3 for nine names alone, in list";
const OF_MORE: &str = "3 for more than nine names alone, in list";
const REPEATED: &str = "3 for one name alone that is the one before, in list";
const FALLING: &str = "3 for one name alone that is below the one before, in list";
const FALLING_AT: &str = "3 for one name alone that is not above the one before, the second, inside, or the last";

const ACCEPTED: [&str; 4] = ["previous keys accepted", "previous ids accepted", "new keys accepted", "new ids accepted"];
const WHERE: [(u32, &str); 3] = [
    (6, "6 at the first pair of three or more, inside, or at the last"),
    (7, "7 at the first pair of three or more, inside, or at the last"),
    (8, "8 at the first pair of three or more, inside, or at the last"),
];
const BY_ID: &str = "refused, and by another number if pairs came by id and then by key";
const BACKWARDS: &str = "refused, and by another number if pairs came from the last to the first";

/// What each run is to meet of wide messages: of which calls, in what respect, and which.
pub const TO_MEET: &[(&[&str], &str, &[i64])] = &[
    (ALONE, "number", &[0, 1, 2, 3, 4, 5, 6, 7, 8]),
    (ALONE, "number after a half was taken", &[0, 7, 8]),
    (ALONE, "kind accepted", &[1, 2, 3]),
    (ALONE, "flags accepted", &[1, 2, 3]),
    (BOTH, "records more, or fewer", &[-1, 0, 1]),
    (BOTH, SHORT, &[0, 15]),
    (BOTH, OF_KIND, &[0, 4]),
    (BOTH, OF_FLAGS, &[0, 1]),
    (BOTH, OF_OFFSET, EACH_LIST),
    (BOTH, OFFSET_BY, &[-2, -1, 1, 2, 256]),
    (BOTH, OF_ABSENT_OFFSET, EACH_LIST),
    (BOTH, BY_LENGTH, &[-2, -1, 1, 2]),
    (BOTH, ABSENT_LIST, EACH_LIST),
    (BOTH, ABSENT_LISTS, &[0, 1]),
    (BOTH, ABSENT_MASK, &[0, 1]),
    (BOTH, EMPTY, EACH_LIST),
    (BOTH, OF_NINE, EACH_LIST),
    (BOTH, OF_MORE, EACH_LIST),
    (BOTH, REPEATED, EACH_LIST),
    (BOTH, FALLING, EACH_LIST),
    (BOTH, FALLING_AT, &[0, 1, 2]),
    (BOTH, "3, and a name is above 1023 or a mask is 0 besides", &[0, 1]),
    (BOTH, "4 for the names of one list alone, list", EACH_LIST),
    (BOTH, "4 for the last name alone of two or more, in list", EACH_LIST),
    (BOTH, "4 for every name of two or more, in list", EACH_LIST),
    (BOTH, "4 for name 1024 alone", &[1]),
    (BOTH, "4, and a mask is wrong besides", &[1]),
    (BOTH, "5 for a mask of 0 alone, in the previous half or in the new one", &[0, 1]),
    (BOTH, "5 for letters alone that the kind may not have, in the previous half or in the new one", &[0, 1]),
    (BOTH, "5 for one mask of two, in the previous half or in the new one", &[0, 1]),
    (BOTH, WHERE[0].1, &[0, 1, 2]),
    (BOTH, WHERE[1].1, &[0, 1, 2]),
    (BOTH, WHERE[2].1, &[0, 1, 2]),
    (BOTH, "refused after a pair was taken", &[6, 7, 8]),
    (BOTH, "refused after a record was removed", &[6, 7, 8]),
    (BOTH, "refused after a pair was added to a record", &[7, 8]),
    (BOTH, "refused after a record was inserted", &[7, 8]),
    (BOTH, BY_ID, &[7, 8]),
    (BOTH, BACKWARDS, &[7, 8]),
    (BOTH, ACCEPTED[0], EACH_LENGTH),
    (BOTH, ACCEPTED[1], EACH_LENGTH),
    (BOTH, ACCEPTED[2], EACH_LENGTH),
    (BOTH, ACCEPTED[3], EACH_LENGTH),
    (BOTH, "pairs taken and added by one message, as many as there can be", &[64]),
    (BOTH, "accepted, with no record in both halves, or with some", &[0, 1]),
    (BOTH, "accepted, with a record removed and inserted again", &[1]),
    (BOTH, "accepted, as the previous half made room for the new one", &[1]),
    (BOTH, "accepted, as the previous half took a count of 65,535 down", &[1]),
    (BOTH, "one name in both lists of a half accepted, the previous or the new one", &[0, 1]),
];

pub const WIDE: Form = Form {
    drawn: |call| call.wide_bytes(),
    second: crate::wide,
    lib: |lib, b, m| lib.wide(b, m),
    second_by: crate::wide_by,
    lib_by: |lib, b, d, m| lib.wide_by(b, d, m),
    read: crate::wide::read,
    saw: |call, number, m, after| call.saw_wide(number, m, after),
};

/// In what respects something is wrong.
type Respects = Vec<(&'static str, i64)>;

/// A list of a message, by its number: its half, how many names the header says that it has, and where it is to begin.
struct Listed {
    number: usize,
    half: usize,
    length: usize,
    start: usize,
}

/// The lists of a message that has a header; and where it is to end.
fn listed(m: &[u8]) -> (Vec<Listed>, usize) {
    let (mut lists, mut start) = (Vec::new(), HEADER);
    for number in 0..4 {
        let length = m[LENGTHS + number].into();
        lists.push(Listed { number, half: number / 2, length, start });
        start += 2 * length;
    }
    (lists, start)
}

/// All that 3 has against a message, each fault by itself.
fn faults(m: &[u8]) -> Vec<Respects> {
    if m.len() < HEADER {
        return vec![vec![(SHORT, if m.len() == HEADER - 1 { 15 } else { 0 })]];
    }
    let (lists, end) = listed(m);
    let mut faults = faults_of_begin(m[0], m[1]);
    faults.extend(lists.iter().filter_map(|list| fault_of_offset(m, list)));
    if m.len() != end {
        let by = m.len() as i64 - end as i64;
        faults.push(if by.abs() <= 2 { vec![(BY_LENGTH, by)] } else { vec![] });
    }
    for half in 0..2 {
        let own: Vec<&Listed> = lists.iter().filter(|list| list.half == half).collect();
        if has(m[1], half) {
            faults.extend(own.iter().flat_map(|list| faults_of_list(m, list)));
        } else {
            faults.extend(faults_of_absent(m[MASKS + half], half, &own));
        }
    }
    faults
}

/// Those of the first two bytes. Those of markers have respects of their own.
fn faults_of_begin(first: u8, flags: u8) -> Vec<Respects> {
    let kind = first & KIND;
    let mut faults = Vec::new();
    if !(1..=KINDS as u8).contains(&kind) {
        let respects = if first == kind { vec![(OF_KIND, kind.min(4).into())] } else { vec![] };
        faults.push(respects);
    }
    if !(1..=FLAGS).contains(&flags) {
        faults.push(vec![(OF_FLAGS, (has(flags, 0) || has(flags, 1)).into())]);
    }
    if faults.is_empty() && begun(first, flags).is_err() {
        faults.push(vec![]);
    }
    faults
}

fn fault_of_offset(m: &[u8], list: &Listed) -> Option<Respects> {
    let by = i64::from(word(m, OFFSETS + 2 * list.number)) - list.start as i64;
    let mut respects = vec![(OF_OFFSET, list.number as i64)];
    if [-2, -1, 1, 2, 256].contains(&by) {
        respects.push((OFFSET_BY, by));
    }
    if !has(m[1], list.half) {
        respects.push((OF_ABSENT_OFFSET, list.number as i64));
    }
    (by != 0).then_some(respects)
}

fn faults_of_absent(mask: u8, half: usize, lists: &[&Listed]) -> Vec<Respects> {
    let there: Vec<&&Listed> = lists.iter().filter(|list| list.length > 0).collect();
    let mut faults = match there[..] {
        [] => vec![],
        [one] => vec![vec![(ABSENT_LIST, one.number as i64)]],
        _ => vec![vec![(ABSENT_LISTS, half as i64)]],
    };
    if mask > 0 {
        faults.push(vec![(ABSENT_MASK, half as i64)]);
    }
    faults
}

/// Those of a list of a half that is there. Where the message is too short for it, its names are not looked at.
fn faults_of_list(m: &[u8], &Listed { number, length, start, .. }: &Listed) -> Vec<Respects> {
    let which = number as i64;
    let mut faults = match length {
        0 => vec![vec![(EMPTY, which)]],
        1..=LIST => vec![],
        _ => vec![vec![(if length == LIST + 1 { OF_NINE } else { OF_MORE }, which)]],
    };
    let names: Vec<u16> = m.get(start..start + 2 * length).unwrap_or_default().chunks(2).map(|name| word(name, 0)).collect();
    for at in (1..names.len()).filter(|&at| names[at] <= names[at - 1]) {
        let mut respects = vec![(if names[at] == names[at - 1] { REPEATED } else { FALLING }, which)];
        if length > 2 {
            respects.push((FALLING_AT, i64::from(at > 1) + i64::from(at == length - 1)));
        }
        faults.push(respects);
    }
    faults
}

/// How the steps of a message, or of a move, went: how many pairs were taken, how many were added, how many records that removed and
/// inserted, and the number that ended them.
#[derive(Default)]
pub struct Steps {
    pub taken: usize,
    pub added: usize,
    pub removed: usize,
    pub inserted: usize,
    pub number: u32,
}

pub fn steps<'a>(mut index: Index, kind: usize, takes: &[Half], adds: impl Iterator<Item = &'a Half>) -> Steps {
    let mut steps = Steps::default();
    for half in takes {
        let before = index.records();
        if let Err(number) = take(&mut index, kind, half) {
            return Steps { number, ..steps };
        }
        steps.taken += 1;
        steps.removed += before - index.records();
    }
    for half in adds {
        let before = index.records();
        if let Err(number) = add(&mut index, kind, half) {
            return Steps { number, ..steps };
        }
        steps.added += 1;
        steps.inserted += index.records() - before;
    }
    steps
}

/// The first of so many, one inside, or the last.
pub fn place(at: usize, many: usize) -> i64 {
    i64::from(at > 0) + i64::from(at == many - 1)
}

impl Call<'_> {
    /// A wide message, good more often than not.
    fn wide_bytes(&mut self) -> Vec<u8> {
        match self.rng.below(60) {
            0 => gen::bytes(self.rng, HEADER as u64 + 6),
            1 => gen::message(self.rng, self.index),
            _ => gen::wide(self.rng, self.index),
        }
    }

    fn saw_wide(&mut self, number: u32, m: &[u8], after: &[u8]) {
        if number == 3 {
            if let [respects] = &faults(m)[..] {
                respects.iter().for_each(|&(what, which)| self.saw(what, which));
            }
        }
        let (Some(wide), said) = (Wide::decode(m), crate::wide::read(m)) else { return };
        match (number, said) {
            (3, _) => self.saw_besides(&wide),
            (4, _) => self.saw_names(&wide),
            (5, _) => self.saw_masks(&wide),
            (0, Ok(said)) => {
                self.saw("records more, or fewer", (Self::records(after) - Self::records(self.block)).signum());
                self.saw_all_pairs(&wide, &said);
            }
            (6..=8, Ok(said)) => self.saw_pair(number, &said),
            _ => {}
        }
    }

    /// What would be refused for another number.
    fn saw_besides(&mut self, wide: &Wide) {
        let what = "3, and a name is above 1023 or a mask is 0 besides";
        if wide.lists().iter().any(|list| list.iter().any(|&name| name >= NAMES)) {
            self.saw(what, 0);
        }
        if (0..2).any(|side| has(wide.flags, side) && wide.halves[side].mask == 0) {
            self.saw(what, 1);
        }
    }

    /// Which names were above 1023.
    fn saw_names(&mut self, wide: &Wide) {
        let above: Vec<Vec<u16>> = wide.lists().map(|list| list.iter().copied().filter(|&name| name >= NAMES).collect()).into();
        let wrong: Vec<usize> = (0..4).filter(|&number| !above[number].is_empty()).collect();
        if let [number] = wrong[..] {
            let (names, all) = (&above[number], wide.lists()[number].len());
            self.saw("4 for the names of one list alone, list", number as i64);
            if all > 1 && names.len() == 1 {
                self.saw("4 for the last name alone of two or more, in list", number as i64);
            }
            if all > 1 && names.len() == all {
                self.saw("4 for every name of two or more, in list", number as i64);
            }
            if names[..] == [NAMES] {
                self.saw("4 for name 1024 alone", 1);
            }
        }
        if (0..2).any(|side| wrong_mask(wide, side)) {
            self.saw("4, and a mask is wrong besides", 1);
        }
    }

    fn saw_masks(&mut self, wide: &Wide) {
        if let [side] = (0..2).filter(|&side| wrong_mask(wide, side)).collect::<Vec<_>>()[..] {
            if wide.flags == FLAGS {
                self.saw("5 for one mask of two, in the previous half or in the new one", side as i64);
            }
            let what = if wide.halves[side].mask == 0 {
                "5 for a mask of 0 alone, in the previous half or in the new one"
            } else {
                "5 for letters alone that the kind may not have, in the previous half or in the new one"
            };
            self.saw(what, side as i64);
        }
    }

    /// At which pair the steps ended, and after what; and whether the order of the pairs decided the number.
    fn saw_pair(&mut self, number: u32, Said { kind, halves: [takes, adds] }: &Said) {
        let index = index_of(self.block);
        let steps_of = |adds: &mut dyn Iterator<Item = &Half>| steps(index.clone(), *kind, takes, adds);
        let went = steps_of(&mut adds.iter());
        let (at, many) = if number == 6 { (went.taken, takes.len()) } else { (went.added, adds.len()) };
        if many > 2 {
            WHERE.iter().filter(|place| place.0 == number).for_each(|&(_, what)| self.saw(what, place(at, many)));
        }
        let after = [
            ("refused after a pair was taken", went.taken > 0),
            ("refused after a record was removed", went.removed > 0),
            ("refused after a pair was added to a record", went.added > went.inserted),
            ("refused after a record was inserted", went.inserted > 0),
        ];
        after.into_iter().filter(|(_, such)| *such).for_each(|(what, _)| self.saw(what, number.into()));
        if number > 6 {
            let mut by_id: Vec<&Half> = adds.iter().collect();
            by_id.sort_by_key(|half| half.name.1);
            if steps_of(&mut by_id.into_iter()).number != number {
                self.saw(BY_ID, number.into());
            }
            if steps_of(&mut adds.iter().rev()).number != number {
                self.saw(BACKWARDS, number.into());
            }
        }
    }

    /// What an accepted message did.
    fn saw_all_pairs(&mut self, wide: &Wide, Said { kind, halves: [takes, adds] }: &Said) {
        for (what, list) in ACCEPTED.into_iter().zip(wide.lists()).filter(|(_, list)| !list.is_empty()) {
            self.saw(what, list.len() as i64);
        }
        for (side, half) in wide.halves.iter().enumerate() {
            if half.keys.iter().any(|key| half.ids.contains(key)) {
                self.saw("one name in both lists of a half accepted, the previous or the new one", side as i64);
            }
        }
        if takes.is_empty() || adds.is_empty() {
            return;
        }
        if takes.len() == LIST * LIST && adds.len() == LIST * LIST {
            self.saw("pairs taken and added by one message, as many as there can be", takes.len() as i64);
        }
        let both: Vec<(&Half, &Half)> =
            takes.iter().filter_map(|half| Some((half, adds.iter().find(|new| new.name == half.name)?))).collect();
        self.saw("accepted, with no record in both halves, or with some", (!both.is_empty()).into());
        let index = index_of(self.block);
        let part = &index.parts[*kind];
        let more = adds.iter().filter(|half| !part.contains_key(&half.name)).count();
        let full = |(old, new): &(&Half, &Half)| letters(old.mask & new.mask).any(|k| part[&old.name][k] == u16::MAX);
        let such = [
            (
                "accepted, with a record removed and inserted again",
                both.iter().any(|(old, _)| part[&old.name] == once(old.mask)),
            ),
            ("accepted, as the previous half made room for the new one", index.records() + more > index.room()),
            ("accepted, as the previous half took a count of 65,535 down", both.iter().any(full)),
        ];
        such.into_iter().filter(|(_, such)| *such).for_each(|(what, _)| self.saw(what, 1));
    }
}

/// Whether 5 has something against the mask of a half.
fn wrong_mask(wide: &Wide, side: usize) -> bool {
    let (mask, other) = (wide.halves[side].mask, usize::from(wide.first & KIND) != P + 1);
    has(wide.flags, side) && (mask == 0 || (other && u64::from(mask) > ALL))
}
