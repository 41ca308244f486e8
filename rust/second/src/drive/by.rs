//! The directory of keys and the calls by one, held against the second program. Beside each stands the library's own call
//! without a directory: by the block's own directory it has to give the same.

use super::{index_of, Asked, Call, Case, Form, Lent, Question, CALLS, EACH_RIGHT, FULL, OVER_UNMEASURED, SHORT};
use crate::gen::{self, Directory, Whose};
use crate::{binding, letters, set_of, ENTRIES, KINDS, NAMES, PART_ENTRIES, RECORD};

const MESSAGES: &[&str] = &["message_by", "wide_by"];
const READ: &[&str] = &["read_by"];
const WRITE: &[&str] = &["write_by"];
const SETS: &[&str] = &["write_by", "read_by"];
const CHANGES: &[&str] = &["message_by", "wide_by", "read_by"];
const QUESTIONS: &[&str] = &["rights_by", "may_by"];
const EACH: &[&str] = &["message_by", "wide_by", "read_by", "write_by", "rights_by", "may_by"];
const ALL_SEVEN: &[&str] = &["directory", "message_by", "wide_by", "read_by", "write_by", "rights_by", "may_by"];

/// Where a block was refused: how the directory was that came with it.
const OF_ANOTHER_LENGTH: &str = "number of a block refused, with a directory of the wrong length";
const OF_ITS_RECORDS: &str = "number of a block refused, with the directory that it had before its fault";
const OF_OTHER_RECORDS: &str = "number of a block refused, with another directory of the right length";

/// What each run is to meet of these calls: of which calls, in what respect, and which.
pub const TO_MEET: &[(&[&str], &str, &[i64])] = &[
    (&["directory"], "number", &[0, 1, 2, 13]),
    (&["directory"], "made where another stood, or the same", &[0, 1]),
    (&["directory"], "made afresh after so many changes by one directory, three or more taken as three", &[0, 1, 2, 3]),
    (MESSAGES, "number", &[0, 1, 2, 3, 4, 5, 6, 7, 8, 13]),
    (MESSAGES, "number after a half was taken", &[0, 7, 8]),
    (MESSAGES, "kind accepted", &[1, 2, 3]),
    (MESSAGES, "flags accepted", &[1, 2, 3]),
    (&["message_by"], "records more", &[-1, 0, 1]),
    (MESSAGES, "13 where the call without it gives", &[0, 3, 4, 5, 6, 7, 8]),
    (MESSAGES, "directory changed, with as many records as before", &[0, 1]),
    (READ, "number", &[0, 1, 2, 3, 4, 8, 9, 13]),
    (READ, "records more, or fewer", &[-1, 0, 1]),
    (READ, "refused for its text at the front, inside, or at the end", &[0, 1, 2]),
    (READ, "13 where the call without it gives", &[0, 3, 4, 8, 9]),
    (WRITE, "number", &[0, 1, 2, 3, 4, 10, 13]),
    (WRITE, "bytes of room over a text", &[-1, 0]),
    (WRITE, OVER_UNMEASURED, &[-1, 0]),
    (WRITE, "13 where the call without it gives", &[0, 3, 4, 10]),
    (SETS, "kind accepted, with an empty text", &[1, 2, 3]),
    (SETS, "kind accepted, with a text", &[1, 2, 3]),
    (SETS, "records of the key looked up, two or more taken as two", &[0, 1, 2]),
    (CHANGES, "directory changed", &[0, 1]),
    (CHANGES, "part of the first entry that changed", &[1, 2, 3]),
    (CHANGES, "part whose end is the first entry that changed", &[1, 2, 3]),
    (QUESTIONS, "number", &[0, 1, 2, 4, 5, 13, 15]),
    (QUESTIONS, "13 where the call without it gives", &[0, 4, 5, 15]),
    (QUESTIONS, "filters looked up, three or more taken as three", &[0, 1, 2, 3]),
    (&["rights_by"], "held", &EACH_RIGHT),
    (&["rights_by"], "not held", &EACH_RIGHT),
    (&["rights_by"], "examined, for user or object", &[0, 1]),
    (&["may_by"], "answer", &[0, 1]),
    (EACH, "key looked up, the least or the greatest", &[0, 1023]),
    (EACH, "13 by a directory that was the block's own, that is another block's, or that is no block's", &[1, 2, 3]),
    (EACH, "13 by a directory with all its own entries but the last, or with one more", &[-1, 1]),
    (EACH, "13 for one entry, of part", &[1, 2, 3]),
    (EACH, "13 for one entry, off by a record or by one", &[-(RECORD as i64), -1, 1, RECORD as i64]),
    (EACH, "13 for one entry, of a key without records or with some", &[0, 1]),
    (EACH, "13 for the first entry alone, of part", &[1, 2, 3]),
    (EACH, "13 for the last entry alone, of part", &[1, 2, 3]),
    (EACH, "13 for the entries of the next keys, in part", &[1, 2, 3]),
    (EACH, "13 for two parts exchanged, and not part", &[1, 2, 3]),
    (ALL_SEVEN, "13 by a directory that is empty, shorter or longer", &[0, 1, 2]),
    (ALL_SEVEN, OF_ANOTHER_LENGTH, &[1, 2]),
    (ALL_SEVEN, OF_ITS_RECORDS, &[1, 2]),
    (ALL_SEVEN, OF_OTHER_RECORDS, &[1, 2]),
];

/// The entries of a part.
fn part(directory: &[u16], kind: usize) -> &[u16] {
    &directory[PART_ENTRIES * kind..PART_ENTRIES * (kind + 1)]
}

impl Call<'_> {
    /// The directory to lend: the one that the library made and kept true, in a stream of calls by it, or one that is drawn.
    fn lent(&mut self) -> Directory {
        if self.keeping {
            Directory { entries: self.kept.clone(), whose: Whose::Before }
        } else {
            gen::directory(self.rng, self.index, self.kept)
        }
    }

    pub fn directory(&mut self) -> Result<Vec<u8>, String> {
        let lent = self.lent();
        let (number, after) = crate::directory(self.block, &lent.entries);
        let (mut b, mut d) = (Lent::new(self.block), Lent::new(&lent.entries));
        let got = self.lib.directory(b.lend(), d.lend());
        let words = format!("into {} numbers", lent.entries.len());
        self.agree(got, number, 0, &[b.is(self.block), d.is(&after)], words)?;
        match number {
            0 => {
                self.saw("made where another stood, or the same", (lent.entries == after).into());
                *self.kept = after;
            }
            13 => self.saw_length(lent.entries.len()),
            _ => self.saw_refused(number, &lent),
        }
        Ok(self.block.to_vec())
    }

    /// Sends a message of the form by a directory.
    pub fn sent_by(&mut self, form: &Form) -> Result<Vec<u8>, String> {
        let lent = self.lent();
        let m = (form.drawn)(self);
        let (number, after, directory) = (form.second_by)(self.block, &lent.entries, &m);
        let (mut b, mut d, mut bytes) = (Lent::new(self.block), Lent::new(&lent.entries), Lent::new(&m));
        let got = (form.lib_by)(self.lib, b.lend(), d.lend(), bytes.lend());
        self.agree(got, number, 0, &[b.is(&after), d.is(&directory), bytes.is(&m)], format!("{m:02x?}"))?;
        let mut alone = self.block.to_vec();
        let without = (form.lib)(self.lib, &mut alone, &m);
        self.beside(&lent, got, without, alone == after)?;
        self.saw_message(form, number, &m, &after);
        if number == 0 {
            let said = (form.read)(&m).expect("an accepted message");
            said.halves.iter().flatten().for_each(|half| self.saw_key(half.name.0.into()));
            if Self::records(&after) == Self::records(self.block) {
                self.saw("directory changed, with as many records as before", (directory != lent.entries).into());
            }
            self.saw_kept(&lent, directory);
        }
        Ok(after)
    }

    pub fn read_by(&mut self) -> Result<Vec<u8>, String> {
        let lent = self.lent();
        let (kind, key) = self.set();
        let text = self.text(kind);
        let (number, value, after, directory) = crate::read_by(self.block, &lent.entries, kind, key, &text);
        let (mut b, mut d, mut bytes) = (Lent::new(self.block), Lent::new(&lent.entries), Lent::new(&text));
        let got = self.lib.read_by(b.lend(), d.lend(), kind, key, bytes.lend());
        let words = format!("{kind} {key} {}", String::from_utf8_lossy(&text));
        self.agree(got, number, value, &[b.is(&after), d.is(&directory), bytes.is(&text)], words)?;
        let mut alone = self.block.to_vec();
        let without = self.lib.read(&mut alone, kind, key, &text);
        self.beside(&lent, got, without, alone == after)?;
        match number {
            0 => {
                self.saw_read(kind, &text, &after);
                self.saw_looked_up(kind, key);
                self.saw_kept(&lent, directory);
            }
            9 => self.saw_where(&text, value as usize),
            _ => {}
        }
        Ok(after)
    }

    pub fn write_by(&mut self) -> Result<Vec<u8>, String> {
        let lent = self.lent();
        let (kind, key) = self.set();
        let (written, out) = self.out(kind, key);
        let (number, value, after) = crate::write_by(self.block, &lent.entries, kind, key, &out);
        let (mut b, mut d, mut text) = (Lent::new(self.block), Lent::new(&lent.entries), Lent::new(&out));
        let got = self.lib.write_by(b.lend(), d.lend(), kind, key, text.lend());
        let words = format!("{kind} {key} into {}", out.len());
        self.agree(got, number, value, &[b.is(self.block), d.is(&lent.entries), text.is(&after)], words)?;
        let mut alone = out.clone();
        let without = self.lib.write(self.block, kind, key, &mut alone);
        self.beside(&lent, got, without, alone == after)?;
        if number == 0 {
            self.saw_looked_up(kind, key);
        }
        if number == 0 || number == 10 {
            self.saw_write(number, kind, &written, out.len());
        }
        Ok(self.block.to_vec())
    }

    /// Asks a question by a directory of both programs; what was asked and the value, where it is accepted.
    fn asked_by(&mut self, question: &Question) -> Result<Option<(Asked, u32)>, String> {
        let lent = self.lent();
        let q = self.question();
        let (number, value) = (question.second_by)(self.block, &lent.entries, &q);
        let (mut b, mut d) = (Lent::new(self.block), Lent::new(&lent.entries));
        let got = (question.lib_by)(self.lib, b.lend(), d.lend(), &q);
        self.agree(got, number, value, &[b.is(self.block), d.is(&lent.entries)], q.to_string())?;
        self.beside(&lent, got, (question.lib)(self.lib, self.block, &q), true)?;
        self.saw_profile(&q, number);
        if number != 0 {
            return Ok(None);
        }
        self.in_each_profile(&q, Some(&lent.entries))?;
        self.saw_another(question, &q, value);
        self.saw_who(&q);
        let names = q.names();
        names.into_iter().for_each(|name| self.saw_key(name.into()));
        let filters = binding(&index_of(self.block), names[1]).count();
        self.saw("filters looked up, three or more taken as three", filters.min(3) as i64);
        Ok(Some((q, value)))
    }

    pub fn rights_by(&mut self) -> Result<Vec<u8>, String> {
        if let Some((q, value)) = self.asked_by(&FULL)? {
            for right in letters(q.request) {
                self.saw(if value >> right & 1 == 1 { "held" } else { "not held" }, 1 << right);
            }
            let examined = crate::numbers(value);
            (0..2).filter(|&side| examined[side] > 0).for_each(|side| self.saw("examined, for user or object", side as i64));
        }
        Ok(self.block.to_vec())
    }

    pub fn may_by(&mut self) -> Result<Vec<u8>, String> {
        if let Some((_, value)) = self.asked_by(&SHORT)? {
            self.saw("answer", value.into());
        }
        Ok(self.block.to_vec())
    }
}

/// What the directory had to do with a call.
impl Call<'_> {
    /// What came back by the directory beside what came back without it; `alike` is whether both left the same.
    fn beside(&mut self, lent: &Directory, got: u64, without: u64, alike: bool) -> Result<(), String> {
        let number = (got >> 32) as u32;
        match number {
            13 => {
                self.saw("13 where the call without it gives", (without >> 32) as i64);
                self.saw_wrong(lent);
                Ok(())
            }
            _ if got != without || !alike => Err(format!("{}: gives something else without the directory", self.name)),
            1 | 2 => {
                self.saw_refused(number, lent);
                Ok(())
            }
            _ => Ok(()),
        }
    }

    /// A directory of a length that none has.
    fn saw_length(&mut self, length: usize) {
        let which = if length > ENTRIES { 2 } else { length.min(1) as i64 };
        self.saw("13 by a directory that is empty, shorter or longer", which);
    }

    /// A block that was refused, and the directory that came with it.
    fn saw_refused(&mut self, number: u32, lent: &Directory) {
        let what = match lent.whose {
            _ if lent.entries.len() != ENTRIES => OF_ANOTHER_LENGTH,
            Whose::Own => OF_ITS_RECORDS,
            _ => OF_OTHER_RECORDS,
        };
        self.saw(what, number.into());
    }

    /// How the directory that was refused was wrong.
    fn saw_wrong(&mut self, lent: &Directory) {
        let (own, entries) = (index_of(self.block).directory(), &lent.entries[..]);
        let whose = "13 by a directory that was the block's own, that is another block's, or that is no block's";
        match lent.whose {
            Whose::Own => {} // the fault that the block got has left another good block
            other => self.saw(whose, other as i64),
        }
        if entries.len() != ENTRIES {
            self.saw_length(entries.len());
            let more = entries.len() as i64 - ENTRIES as i64;
            if more.abs() == 1 && entries.iter().zip(&own).all(|(entry, own)| entry == own) {
                self.saw("13 by a directory with all its own entries but the last, or with one more", more);
            }
            return;
        }
        if let [at] = (0..ENTRIES).filter(|&at| entries[at] != own[at]).collect::<Vec<_>>()[..] {
            self.saw_entry(&own, at, entries[at]);
        }
        for kind in 0..KINDS {
            let (right, [one, other]) = (part(entries, kind) == part(&own, kind), [1, 2].map(|k| (kind + k) % KINDS));
            if right && part(entries, one) == part(&own, other) && part(entries, other) == part(&own, one) {
                self.saw("13 for two parts exchanged, and not part", kind as i64 + 1);
            }
            if !right && part(entries, kind)[..PART_ENTRIES - 1] == part(&own, kind)[1..] {
                self.saw("13 for the entries of the next keys, in part", kind as i64 + 1);
            }
        }
    }

    /// A directory of which one entry alone is wrong.
    fn saw_entry(&mut self, own: &[u16], at: usize, entry: u16) {
        let (part, number) = ((at / PART_ENTRIES) as i64 + 1, at % PART_ENTRIES);
        let off = i64::from(entry) - i64::from(own[at]);
        self.saw("13 for one entry, of part", part);
        if [1, RECORD as i64].contains(&off.abs()) {
            self.saw("13 for one entry, off by a record or by one", off);
        }
        if number == 0 {
            self.saw("13 for the first entry alone, of part", part);
        }
        if number == PART_ENTRIES - 1 {
            self.saw("13 for the last entry alone, of part", part);
        } else {
            self.saw("13 for one entry, of a key without records or with some", (own[at] < own[at + 1]).into());
        }
    }

    /// A key that was looked up.
    fn saw_key(&mut self, key: u64) {
        if key == 0 || key == u64::from(NAMES) - 1 {
            self.saw("key looked up, the least or the greatest", key as i64);
        }
    }

    /// A set that was looked up.
    fn saw_looked_up(&mut self, kind: u64, key: u64) {
        let records = set_of(&index_of(self.block).parts[kind as usize - 1], key as u16).len();
        self.saw("records of the key looked up, two or more taken as two", records.min(2) as i64);
        self.saw_key(key);
    }

    /// The directory that an accepted message or read kept true.
    fn saw_kept(&mut self, lent: &Directory, directory: Vec<u16>) {
        let changed = (0..ENTRIES).find(|&at| directory[at] != lent.entries[at]);
        self.saw("directory changed", changed.is_some().into());
        if let Some(at) = changed {
            let (part, number) = ((at / PART_ENTRIES) as i64 + 1, at % PART_ENTRIES);
            self.saw("part of the first entry that changed", part);
            if number == PART_ENTRIES - 1 {
                self.saw("part whose end is the first entry that changed", part);
            }
        }
        *self.kept = directory;
    }
}

impl Case<'_> {
    /// The directory that the library makes for the block; numbers with no plan where it is not good.
    fn afresh(&self) -> Vec<u16> {
        let mut directory = vec![u16::MAX; ENTRIES];
        self.lib.directory(&self.block, &mut directory);
        directory
    }

    /// A stream of calls by one directory: at its end it is the one made afresh.
    pub fn stream(&mut self) -> Result<(), String> {
        (self.kept, self.keeping) = (self.afresh(), true);
        let (calls, mut changes) = (CALLS.into_iter().filter(|call| EACH.contains(&call.0)).collect::<Vec<_>>(), 0);
        for _ in 0..self.rng.below(24) {
            let before = self.block.clone();
            self.one(&index_of(&before), &calls)?;
            changes += i64::from(self.block != before);
        }
        let what = "made afresh after so many changes by one directory, three or more taken as three";
        self.tally.saw("directory", what, changes.min(3));
        if self.kept == self.afresh() {
            Ok(())
        } else {
            Err(format!("directory: after {changes} changes it is not the one made afresh\nblock {:02x?}", self.block))
        }
    }
}
