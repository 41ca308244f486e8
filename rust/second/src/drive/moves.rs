//! What moves from day to day met: what each took and added, and where and after what the others were refused.

use super::wide::{place, steps};
use super::{index_of, packed, After, Call, Lent};
use crate::appointments::{changes, decode, encode, read, APPOINTMENTS};
use crate::gen;
use crate::{add, letters, once, take, Appointment, Half, Index, M, MARKERS};
use std::collections::BTreeSet;
use std::ops::Range;

const MOVE: &[&str] = &["move"];

const WHERE: [(u32, &str); 3] = [
    (6, "6 at the first of three or more to take, inside, or at the last"),
    (7, "7 at the first of three or more to add, inside, or at the last"),
    (8, "8 at the first of three or more to add, inside, or at the last"),
];
const BACKWARDS: &str = "refused, and by another number if the list came from the last to the first";
const ADDS_FIRST: &str = "another number if what is added came before what is taken, where it is";
const ALL_OF_BOTH: &str = "another number if those of both days were taken and added too, where it is";
const REFUSED: [(u32, &str); 2] = [(1, "1, with a list that gets"), (2, "2, with a list that gets")];
const WITHOUT: &str = "12, and without the appointments that are wrong it is";
const BETWEEN: &str = "accepted, and going over a day between gives the same, or is refused";

/// What each run is to meet of moves: in what respect, and which.
pub const TO_MEET: &[(&[&str], &str, &[i64])] = &[
    (MOVE, "number", &[0, 1, 2, 3, 4, 5, 6, 7, 8, 12]),
    (MOVE, REFUSED[0].1, &[0, 3, 4, 5, 12]),
    (MOVE, REFUSED[1].1, &[0, 3, 4, 5, 12]),
    (MOVE, WITHOUT, &[0, 6, 7, 8]),
    (MOVE, "accepted, to an earlier day, to the same or to a later one", &[-1, 0, 1]),
    (MOVE, "accepted, with so many taken, three or more taken as three", &[0, 1, 2, 3]),
    (MOVE, "accepted, with so many added, three or more taken as three", &[0, 1, 2, 3]),
    (MOVE, "accepted, with none, one or more standing on both days", &[0, 1, 2]),
    (MOVE, "accepted, with 256 taken, or added", &[0, 1]),
    (MOVE, "records more, or fewer", &[-1, 0, 1]),
    (MOVE, "accepted, with one record taken from twice, or added to twice", &[0, 1]),
    (MOVE, "accepted, with a record taken from and added to", &[1]),
    (MOVE, "accepted, with a record removed and inserted again", &[1]),
    (MOVE, "accepted, as what is taken made room for what is added", &[1]),
    (MOVE, "accepted, as what is taken took a count of 65,535 down", &[1]),
    (MOVE, "accepted, and back again", &[1]),
    (MOVE, BETWEEN, &[0, 1]),
    (MOVE, "marker taken by an accepted move", &[1, 2]),
    (MOVE, "marker added by an accepted move", &[1, 2]),
    (MOVE, "6 for a marker alone", &[1, 2]),
    (MOVE, "7 for a marker alone", &[1, 2]),
    (MOVE, WHERE[0].1, &[0, 1, 2]),
    (MOVE, WHERE[1].1, &[0, 1, 2]),
    (MOVE, WHERE[2].1, &[0, 1, 2]),
    (MOVE, "refused after one was taken", &[6, 7, 8]),
    (MOVE, "refused after a record was removed", &[6, 7, 8]),
    (MOVE, "refused after one was added to a record", &[7, 8]),
    (MOVE, "refused after a record was inserted", &[7, 8]),
    (MOVE, BACKWARDS, &[7, 8]),
    (MOVE, ADDS_FIRST, &[0, 6]),
    (MOVE, ALL_OF_BOTH, &[0, 7, 8]),
];

/// A move over a list that is good: each appointment with the days on which it stands, and the old day and the new one.
struct Going {
    list: Vec<(Appointment, Range<u64>)>,
    days: [u64; 2],
}

impl Going {
    fn new(list: &[u8], old: u64, new: u64) -> Going {
        Going { list: read(list).expect("a good list"), days: [old, new] }
    }

    /// Those of which it is so that they stand on the old day or not, and on the new one or not.
    fn such(&self, such: impl Fn(bool, bool) -> bool) -> Vec<Half> {
        let stands = self.list.iter().map(|(one, days)| (one, self.days.map(|day| days.contains(&day))));
        stands.filter(|&(_, [old, new])| such(old, new)).map(|(one, _)| one.half()).collect()
    }

    /// What it takes, and what it adds.
    fn changes(&self) -> [Vec<Half>; 2] {
        [self.such(|old, new| old && !new), self.such(|old, new| new && !old)]
    }
}

/// The marker of a half, 1 for X and 2 for N; 0 if it has none.
fn marker(half: &Half) -> i64 {
    (half.mask >> MARKERS.start) as i64
}

/// Whether so much of a half and no marker could be taken from a block, or added to it, after these steps.
fn goes_without_marker(mut index: Index, steps: [&[Half]; 2], half: &Half, taken: bool) -> bool {
    let without = Half::new(half.name, half.byte, 0);
    let done = steps[0].iter().try_for_each(|half| take(&mut index, M, half));
    let done = done.and_then(|()| steps[1].iter().try_for_each(|half| add(&mut index, M, half)));
    let one = if taken { take(&mut index, M, &without) } else { add(&mut index, M, &without) };
    done.and(one).is_ok()
}

/// The calls.
impl Call<'_> {
    /// Goes from the day of the case, or now and then from another one, over its list, or over one with faults.
    pub fn moved(&mut self) -> After {
        let (own, list) = (self.appointed.list.clone(), self.list(4));
        let [other, new, between] = [0; 3].map(|_| gen::appointments::any_day(self.rng, &own));
        let old = if self.rng.one_in(8) { other } else { self.appointed.day };
        let (number, after) = self.go(&list, old, new)?;
        if number == 0 && self.rng.one_in(4) {
            self.goes_otherwise(&list, [old, new, between], &after)?;
        }
        if number == 0 && list == encode(&own) && old == self.appointed.day {
            self.appointed.day = new;
        }
        Ok(after)
    }

    /// Goes from one day to another: the number, and the block then.
    pub fn go(&mut self, list: &[u8], old: u64, new: u64) -> Result<(u32, Vec<u8>), String> {
        let (number, after) = crate::move_to(self.block, list, old, new);
        let (mut b, mut lent) = (Lent::new(self.block), Lent::new(list));
        let got = self.lib.move_to(b.lend(), lent.lend(), old, new);
        let told = |what| format!("{what}\nlist {list:02x?}");
        self.agree(got, number, 0, &[b.is(&after), lent.is(list)], format!("from {old} to {new}")).map_err(told)?;
        match number {
            0 => self.saw_move(&Going::new(list, old, new), &after),
            1 | 2 => {
                let got = changes(list, old, new).map_or_else(|number| number, |_| 0);
                REFUSED.iter().filter(|one| one.0 == number).for_each(|&(_, what)| self.saw(what, got.into()));
            }
            6..=8 => self.saw_ended(number, &Going::new(list, old, new)),
            _ => {
                self.saw_list(number, list, &[old, new]);
                self.saw_without(number, list, old, new);
            }
        }
        Ok((number, after))
    }

    /// After an accepted move the library goes back, and has the block that it had; and where it may go over another day, it has the
    /// same in the end.
    fn goes_otherwise(&mut self, list: &[u8], [old, new, between]: [u64; 3], after: &[u8]) -> Result<(), String> {
        let told = |what: &str| Err(format!("move from {old} to {new} {what}\nlist {list:02x?}"));
        let mut back = after.to_vec();
        if self.lib.move_to(&mut back, list, new, old) != packed(0, 0) || back != self.block {
            return told("and back: the block is another one");
        }
        self.saw("accepted, and back again", 1);
        let mut over = self.block.to_vec();
        let there =
            [(old, between), (between, new)].into_iter().all(|(from, to)| self.lib.move_to(&mut over, list, from, to) == 0);
        if there && over != after {
            return told(&format!("over {between}: the block is another one"));
        }
        self.saw(BETWEEN, (!there).into());
        Ok(())
    }
}

/// What became of a move.
impl Call<'_> {
    /// What a list that is refused with 12 would have got without the appointments that are wrong.
    fn saw_without(&mut self, number: u32, list: &[u8], old: u64, new: u64) {
        let list = decode(list).unwrap_or_default().into_iter();
        let right: Vec<Appointment> = list.filter(|one| one.days().is_ok()).take(APPOINTMENTS).collect();
        let (without, _) = crate::move_to(self.block, &encode(&right), old, new);
        if number == 12 && without != 12 {
            self.saw(WITHOUT, without.into());
        }
    }

    /// What an accepted move did.
    fn saw_move(&mut self, going: &Going, after: &[u8]) {
        let ([takes, adds], both) = (going.changes(), going.such(|old, new| old && new));
        self.saw("accepted, to an earlier day, to the same or to a later one", going.days[1].cmp(&going.days[0]) as i64);
        self.saw("accepted, with so many taken, three or more taken as three", takes.len().min(3) as i64);
        self.saw("accepted, with so many added, three or more taken as three", adds.len().min(3) as i64);
        self.saw("accepted, with none, one or more standing on both days", both.len().min(2) as i64);
        self.saw("records more, or fewer", (Self::records(after) - Self::records(self.block)).signum());
        self.saw_changes(0, "marker taken by an accepted move", &takes);
        self.saw_changes(1, "marker added by an accepted move", &adds);
        self.saw_both(&takes, &adds);
        self.saw_otherwise(0, going);
    }

    /// What was taken, or added.
    fn saw_changes(&mut self, side: usize, what: &'static str, halves: &[Half]) {
        let names: BTreeSet<_> = halves.iter().map(|half| half.name).collect();
        let twice = names.len() < halves.len();
        self.saw_all(
            side,
            &[
                ("accepted, with one record taken from twice, or added to twice", twice),
                ("accepted, with 256 taken, or added", halves.len() == APPOINTMENTS),
            ],
        );
        let markers: BTreeSet<i64> = halves.iter().map(marker).filter(|&marker| marker > 0).collect();
        markers.into_iter().for_each(|marker| self.saw(what, marker));
    }

    /// What taking had to do with adding.
    fn saw_both(&mut self, takes: &[Half], adds: &[Half]) {
        let index = index_of(self.block);
        let part = &index.parts[M];
        let of_one = |old: &'_ Half| adds.iter().filter(|new| new.name == old.name).map(|new| new.mask).collect::<Vec<_>>();
        let both: Vec<(&Half, u64)> = takes.iter().flat_map(|old| of_one(old).into_iter().map(move |new| (old, new))).collect();
        let inserted: BTreeSet<_> = adds.iter().map(|half| half.name).filter(|name| !part.contains_key(name)).collect();
        let full = |&(old, new): &(&Half, u64)| letters(old.mask & new).any(|k| part[&old.name][k] == u16::MAX);
        let again = both.iter().any(|(old, _)| part[&old.name] == once(old.mask));
        self.saw_all(
            1,
            &[
                ("accepted, with a record taken from and added to", !both.is_empty()),
                ("accepted, with a record removed and inserted again", again),
                ("accepted, as what is taken made room for what is added", index.records() + inserted.len() > index.room()),
                ("accepted, as what is taken took a count of 65,535 down", both.iter().any(full)),
            ],
        );
    }

    /// At which appointment a move ended, and after what.
    fn saw_ended(&mut self, number: u32, going: &Going) {
        let ([takes, adds], index) = (going.changes(), index_of(self.block));
        let went = steps(index.clone(), M, &takes, adds.iter());
        let (at, halves) = if number == 6 { (went.taken, &takes) } else { (went.added, &adds) };
        if halves.len() > 2 {
            WHERE.iter().filter(|place| place.0 == number).for_each(|&(_, what)| self.saw(what, place(at, halves.len())));
        }
        self.saw_all(
            number as usize,
            &[
                ("refused after one was taken", went.taken > 0),
                ("refused after a record was removed", went.removed > 0),
                ("refused after one was added to a record", went.added > went.inserted),
                ("refused after a record was inserted", went.inserted > 0),
            ],
        );
        if number > 6 && steps(index.clone(), M, &takes, adds.iter().rev()).number != number {
            self.saw(BACKWARDS, number.into());
        }
        let half = &halves[at];
        let done = [&takes[..went.taken], &adds[..went.added]];
        if number < 8 && marker(half) > 0 && goes_without_marker(index, done, half, number == 6) {
            self.saw(if number == 6 { "6 for a marker alone" } else { "7 for a marker alone" }, marker(half));
        }
        self.saw_otherwise(number, going);
    }

    /// Whether the number would be another one with the steps in another order, or with more of them.
    fn saw_otherwise(&mut self, number: u32, going: &Going) {
        let [takes, adds] = going.changes();
        if number <= 6 && !takes.is_empty() && !adds.is_empty() {
            let mut index = index_of(self.block);
            let added = adds.iter().try_for_each(|half| add(&mut index, M, half));
            let both = added.and_then(|()| takes.iter().try_for_each(|half| take(&mut index, M, half)));
            if both.err().unwrap_or(0) != number {
                self.saw(ADDS_FIRST, number.into());
            }
        }
        let (takes, adds) = (going.such(|old, _| old), going.such(|_, new| new));
        if steps(index_of(self.block), M, &takes, adds.iter()).number != number {
            self.saw(ALL_OF_BOTH, number.into());
        }
    }
}
