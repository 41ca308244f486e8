//! Histories that begin with an empty block: statements begin, change and end by messages, plain and wide, and moves go from day to
//! day over one list. "Demand 3's second half counts an appointment as a statement on the days it stands, if the list stays fixed
//! and each move starts where the last accepted one ended or, while none has been accepted, from a day with none standing": so each
//! count is, at every moment, the number of those that stand, and no move is refused with 6.

use super::wide::WIDE;
use super::{index_of, Case, Form, Lent, PLAIN};
use crate::appointments::encode;
use crate::calendar::DAYS;
use crate::gen::{self, Rng};
use crate::{letters, Appointment, Index, Lists, Wide};
use crate::{ALL, F, HEADER, LIST, M, MARKED, MARKERS, P, RECORD};
use std::collections::BTreeSet;

const HISTORY: &[&str] = &["history"];

/// What each run is to meet of histories: in what respect, and which.
pub const TO_MEET: &[(&[&str], &str, &[i64])] = &[
    (HISTORY, "number of a move", &[0, 8]),
    (HISTORY, "number of a plain message", &[0, 8]),
    (HISTORY, "number of a wide message", &[0, 8]),
    (HISTORY, "moves accepted, three or more taken as three", &[0, 1, 2, 3]),
    (HISTORY, "standing at a moment, statements alone, appointments alone, or both of one record", &[0, 1, 2]),
];

/// What a statement says: keys, ids and mask, and a marker or none.
type Says = Option<(Lists, u8)>;

/// A statement: its part, whether its messages are wide, and what it left.
struct Statement {
    kind: usize,
    wide: bool,
    left: Says,
}

impl Statement {
    fn new(rng: &mut Rng) -> Statement {
        Statement { kind: rng.pick(&[M, M, M, M, P, F]), wide: rng.one_in(2), left: None }
    }

    /// Something that it may say, often of records that appointments have.
    fn drawn(&self, rng: &mut Rng, list: &[Appointment]) -> (Lists, u8) {
        let many = if self.wide { 1 + rng.below(4) as usize } else { 1 };
        let one = |rng: &mut Rng| if list.is_empty() || rng.one_in(4) { (7, 7) } else { rng.pick(list).name };
        let pairs: Vec<(u16, u16)> = (0..many.min(LIST)).map(|_| one(rng)).collect();
        let names = |all: BTreeSet<u16>| all.into_iter().collect();
        let [keys, ids] = [names(pairs.iter().map(|pair| pair.0).collect()), names(pairs.iter().map(|pair| pair.1).collect())];
        let mask = 1 + rng.below(if self.kind == P { u8::MAX.into() } else { ALL }) as u8;
        (Lists { keys, ids, mask }, if self.kind == M { rng.pick(&[0, 0, 1, 2]) } else { 0 })
    }

    /// The message that quotes what it left, and says this.
    fn message(&self, new: &Says) -> Vec<u8> {
        let mut wide = Wide { first: self.kind as u8 + 1, ..Wide::default() };
        for (side, half) in [&self.left, new].into_iter().enumerate() {
            if let Some((lists, marker)) = half {
                wide.first |= marker << MARKED[side];
                wide.flags |= 1 << side;
                wide.halves[side] = lists.clone();
            }
        }
        if self.wide {
            wide.encode()
        } else {
            wide.plain()
        }
    }

    fn form(&self) -> (&'static str, Form) {
        if self.wide {
            ("wide", WIDE)
        } else {
            ("message", PLAIN)
        }
    }

    /// Each record that it speaks of, and the mask of its letters and its marker.
    fn standing(&self) -> Vec<((u16, u16), u64)> {
        let all = self.left.iter();
        all.flat_map(|(lists, marker)| {
            let mask = u64::from(lists.mask) | u64::from(*marker) << MARKERS.start;
            lists.pairs().map(move |name| (name, mask))
        })
        .collect()
    }
}

/// A history: its statements, and how many moves were accepted.
struct History {
    statements: Vec<Statement>,
    moves: i64,
}

impl History {
    /// The appointments that stand: none, while no move was accepted.
    fn appointed<'a>(&self, list: &'a [Appointment], day: u64) -> Vec<&'a Appointment> {
        let stands = |one: &&Appointment| self.moves > 0 && one.days().is_ok_and(|days| days.contains(&day));
        list.iter().filter(stands).collect()
    }

    /// The block that counts all that stands, one by one.
    fn tally(&self, length: usize, appointed: &[&Appointment]) -> Index {
        let mut index = Index::empty(length);
        let mut count = |kind: usize, name, mask| {
            let counts = index.parts[kind].entry(name).or_default();
            letters(mask).for_each(|k| counts[k] += 1);
        };
        for statement in &self.statements {
            statement.standing().into_iter().for_each(|(name, mask)| count(statement.kind, name, mask));
        }
        appointed.iter().for_each(|one| count(M, one.name, one.half().mask));
        index
    }
}

impl Case<'_> {
    pub fn history(&mut self) -> Result<(), String> {
        self.begin()?;
        let statements = (0..4).map(|_| Statement::new(self.rng)).collect();
        let mut history = History { statements, moves: 0 };
        for _ in 0..self.rng.below(16) {
            if self.rng.one_in(2) {
                self.history_moves(&mut history)?;
            } else {
                self.history_sends(&mut history)?;
            }
            self.counted(&history)?;
        }
        self.tally.saw("history", "moves accepted, three or more taken as three", history.moves.min(3));
        Ok(())
    }

    /// Makes an empty block, often one with little room.
    fn begin(&mut self) -> Result<(), String> {
        let room = self.rng.pick(&[1, 2, 4, 8, 40, 300, 300]);
        let bytes = vec![7; HEADER + RECORD * room];
        let ((number, after), mut b) = (crate::make(&bytes), Lent::new(&bytes));
        if self.lib.make(b.lend()) != u64::from(number) << 32 {
            return Err("make: another number".into());
        }
        b.is(&after).map_err(|what| format!("make: the block {what}"))?;
        self.block = after;
        Ok(())
    }

    /// A message of one of the statements.
    fn history_sends(&mut self, history: &mut History) -> Result<(), String> {
        let one = self.rng.below(history.statements.len() as u64) as usize;
        let statement = &mut history.statements[one];
        let ends = statement.left.is_some() && self.rng.one_in(3);
        let new = if ends { None } else { Some(statement.drawn(self.rng, &self.appointed.list)) };
        let (m, (name, form)) = (statement.message(&new), statement.form());
        let number = (form.second)(&self.block, &m).0;
        self.call(name, &index_of(&self.block), |call| call.send(&form, &m))?;
        let what = if statement.wide { "number of a wide message" } else { "number of a plain message" };
        self.tally.saw("history", what, number.into());
        if number == 0 {
            statement.left = new;
        }
        Ok(())
    }

    /// A move from where the last accepted one ended or, while none has been accepted, from a day with none standing.
    fn history_moves(&mut self, history: &mut History) -> Result<(), String> {
        let list = self.appointed.list.clone();
        let none = |day: u64| !list.iter().any(|one| one.days().is_ok_and(|days| days.contains(&day)));
        if history.moves == 0 {
            let day = gen::appointments::day(self.rng, &list);
            self.appointed.day = if none(day) { day } else { DAYS - 1 };
        }
        let (old, new, mut number) = (self.appointed.day, gen::appointments::day(self.rng, &list), 0);
        self.call("move", &index_of(&self.block), |call| {
            let (given, after) = call.go(&encode(&list), old, new)?;
            number = given;
            Ok(after)
        })?;
        self.tally.saw("history", "number of a move", number.into());
        if number == 6 {
            return Err(format!("history: a move from {old} to {new} is refused with 6\nlist {:02x?}", encode(&list)));
        }
        if number == 0 {
            self.appointed.day = new;
            history.moves += 1;
        }
        Ok(())
    }

    /// Whether each count is the number of those that stand.
    fn counted(&mut self, history: &History) -> Result<(), String> {
        let appointed = history.appointed(&self.appointed.list, self.appointed.day);
        let index = history.tally(self.block.len(), &appointed);
        if index.encode() != self.block {
            return Err(format!("history: a count is not the number of those that stand\nblock {:02x?}", self.block));
        }
        let said: BTreeSet<_> = { history.statements.iter() }
            .filter(|statement| statement.kind == M)
            .flat_map(Statement::standing)
            .map(|(name, _)| name)
            .collect();
        let which = match (said.is_empty(), appointed.is_empty()) {
            (false, true) => 0,
            (true, false) => 1,
            (false, false) if appointed.iter().any(|one| said.contains(&one.name)) => 2,
            _ => return Ok(()),
        };
        let what = "standing at a moment, statements alone, appointments alone, or both of one record";
        self.tally.saw("history", what, which);
        Ok(())
    }
}
