//! The directory of keys, and the calls by one: they find the records of a key by two entries, and where records move they move
//! the entries of what stands behind.

use crate::wide::wide_with;
use crate::{answered, asked, full, message_with, parts, read_with, short, sound, tested, word, write_with};
use crate::{Answer, Find, Keep, Look, Record, Span, F, HEADER, KINDS, M, NAMES, RECORD};

/// The entries of a part, one for each name and one for the part's end; and those of a directory.
const PART: usize = NAMES + 1;
pub const ENTRIES: usize = KINDS * PART;

type Directory = [u16; ENTRIES];

/// Makes the directory of a good block. A record's place is the entry of its key, and of the keys before that have no record.
fn fill(b: &[u8], directory: &mut Directory) {
    let mut at = HEADER as u16;
    for (entries, records) in directory.chunks_exact_mut(PART).zip(parts(b)) {
        let mut next = 0;
        for record in records {
            let key = word(record, 0);
            entries[next..=key].fill(at);
            next = key + 1;
            at += RECORD as u16;
        }
        entries[next..].fill(at);
    }
}

pub fn directory(b: &[u8], lent: &mut [u16]) -> u32 {
    let number = tested(b);
    if number != 0 {
        return number;
    }
    let Ok(directory) = lent.try_into() else { return 13 };
    fill(b, directory);
    0
}

/// Whether these are the entries of a part that begins at `start`. None is below the one before, and each record stands between
/// the entry of its key and the next: so none can have another place. No record is looked at by a branch.
fn fits(entries: &[u16], records: &[Record], start: usize) -> bool {
    let falls = entries.iter().zip(&entries[1..]).fold(0, |falls, (entry, next)| falls | u16::from(next < entry));
    let (mut at, mut outside) = (start, 0);
    for record in records {
        let (key, end) = (word(record, 0) % NAMES, at + RECORD);
        outside |= u16::from(usize::from(entries[key]) > at) | u16::from(usize::from(entries[key + 1]) < end);
        at = end;
    }
    usize::from(entries[0]) == start && usize::from(entries[NAMES]) == at && falls | outside == 0
}

/// The lent directory, where the block is good and the directory its own; and whether M records count X.
fn own<'a>(b: &[u8], lent: &'a [u16]) -> Result<(&'a Directory, bool), u32> {
    let marked = sound(b)?;
    let directory: &Directory = lent.try_into().map_err(|_| 13u32)?;
    let mut start = HEADER;
    for (entries, records) in directory.chunks_exact(PART).zip(parts(b)) {
        if !fits(entries, records, start) {
            return Err(13);
        }
        start += RECORD * records.len();
    }
    Ok((directory, marked))
}

/// The same where it is to be kept true.
fn own_mut<'a>(b: &[u8], lent: &'a mut [u16]) -> Result<&'a mut Directory, u32> {
    own(b, lent)?;
    lent.try_into().map_err(|_| 13)
}

/// The number of the record at an offset.
fn number(offset: u16) -> usize {
    (usize::from(offset) - HEADER) / RECORD
}

/// The records of a key: the first, and the one after the last.
fn keyed(directory: &Directory, kind: usize, key: usize) -> (usize, usize) {
    let at = PART * kind + key;
    (number(directory[at]), number(directory[at + 1]))
}

impl Find for Directory {
    fn set(&self, _: &[u8], kind: usize, key: usize) -> (usize, usize) {
        keyed(self, kind, key)
    }
}

impl Keep for Directory {
    /// The entries of the names behind the key move, and those of the parts behind.
    fn moved(&mut self, kind: usize, key: usize, from: usize, to: usize) {
        let more = (RECORD * to).wrapping_sub(RECORD * from) as u16;
        self[PART * kind + key + 1..].iter_mut().for_each(|entry| *entry = entry.wrapping_add(more));
    }
}

impl Look for Directory {
    fn span(&self, name: usize) -> Span {
        let (first, end) = keyed(self, M, name);
        (first as u16, end as u16)
    }

    fn filters<'a>(&self, filters: &'a [Record], name: usize) -> &'a [Record] {
        let ((first, end), start) = (keyed(self, F, name), number(self[PART * F]));
        &filters[first - start..end - start]
    }
}

pub fn message_by(b: &mut [u8], lent: &mut [u16], m: &[u8]) -> u32 {
    own_mut(b, lent).map_or_else(|number| number, |directory| message_with(b, directory, m))
}

pub fn wide_by(b: &mut [u8], lent: &mut [u16], m: &[u8]) -> u32 {
    own_mut(b, lent).map_or_else(|number| number, |directory| wide_with(b, directory, m))
}

pub fn read_by(b: &mut [u8], lent: &mut [u16], kind: u64, key: u64, text: &[u8]) -> (u32, u32) {
    own_mut(b, lent).map_or_else(|number| (number, 0), |directory| read_with(b, directory, kind, key, text))
}

pub fn write_by(b: &[u8], lent: &[u16], kind: u64, key: u64, out: &mut [u8]) -> (u32, u32) {
    own(b, lent).map_or_else(|number| (number, 0), |(directory, _)| write_with(b, directory, kind, key, out))
}

fn question_by<const COUNTED: bool>(b: &[u8], lent: &[u16], user: u64, object: u64, request: u64, profile: u64) -> Answer {
    let (directory, marked) = own(b, lent)?;
    let asked = asked(user, object, request, profile)?;
    Ok(answered::<COUNTED>(b, directory, asked, marked))
}

pub fn rights_by(b: &[u8], lent: &[u16], user: u64, object: u64, request: u64, profile: u64) -> (u32, u32) {
    full(question_by::<true>(b, lent, user, object, request, profile))
}

pub fn may_by(b: &[u8], lent: &[u16], user: u64, object: u64, request: u64, profile: u64) -> (u32, u32) {
    short(question_by::<false>(b, lent, user, object, request, profile), request)
}
