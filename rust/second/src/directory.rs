//! The directory of a block and the calls by one, as request M-106 defines them. A lent directory is held against the one that
//! the records have, entry by entry; then the call is made without it.

use crate::{may, message, read, rights, wide, write, Index, Part, HEADER, KINDS, NAMES, RECORD};

/// The entries of a part, for the numbers 0 to 1024, and those of a directory.
pub const PART_ENTRIES: usize = NAMES as usize + 1;
pub const ENTRIES: usize = KINDS * PART_ENTRIES;

/// The entries of a part that begins at `start`: each record stands before the entries of all numbers above its key.
fn entries(part: &Part, start: u16) -> Vec<u16> {
    let mut entries = vec![start; PART_ENTRIES];
    for &(key, _) in part.keys() {
        entries[usize::from(key) + 1..].iter_mut().for_each(|entry| *entry += RECORD as u16);
    }
    entries
}

impl Index {
    /// The only directory of the block. A part begins where the last entry of the part before says that it ends.
    pub fn directory(&self) -> Vec<u16> {
        let mut directory = Vec::with_capacity(ENTRIES);
        for part in &self.parts {
            let start = directory.last().copied().unwrap_or(HEADER as u16);
            directory.extend(entries(part, start));
        }
        directory
    }
}

/// Fails where a call by the lent directory is refused for the block or for the directory: 1, 2 or 13.
fn own(block: &[u8], lent: &[u16]) -> Result<(), u32> {
    let index = Index::decode(block)?;
    (lent == index.directory()).then_some(()).ok_or(13)
}

/// The directory after a call that gave this number and left this block.
fn kept(number: u32, after: &[u8], lent: &[u16]) -> Vec<u16> {
    if number == 0 {
        directory(after, lent).1
    } else {
        lent.to_vec()
    }
}

/// directory: the number, and the lent numbers then.
pub fn directory(block: &[u8], lent: &[u16]) -> (u32, Vec<u16>) {
    match Index::decode(block) {
        Ok(index) if lent.len() == ENTRIES => (0, index.directory()),
        Ok(_) => (13, lent.to_vec()),
        Err(number) => (number, lent.to_vec()),
    }
}

/// A message of either form by a directory: the number, the block then, and the directory then.
fn sent_by(block: &[u8], lent: &[u16], sent: impl FnOnce() -> (u32, Vec<u8>)) -> (u32, Vec<u8>, Vec<u16>) {
    let (number, after) = own(block, lent).map_or_else(|number| (number, block.to_vec()), |()| sent());
    let directory = kept(number, &after, lent);
    (number, after, directory)
}

/// message by a directory.
pub fn message_by(block: &[u8], lent: &[u16], bytes: &[u8]) -> (u32, Vec<u8>, Vec<u16>) {
    sent_by(block, lent, || message(block, bytes))
}

/// wide by a directory.
pub fn wide_by(block: &[u8], lent: &[u16], bytes: &[u8]) -> (u32, Vec<u8>, Vec<u16>) {
    sent_by(block, lent, || wide(block, bytes))
}

/// read by a directory: the number, the value, the block then, and the directory then.
pub fn read_by(block: &[u8], lent: &[u16], kind: u64, key: u64, text: &[u8]) -> (u32, u32, Vec<u8>, Vec<u16>) {
    let refused = |number| (number, 0, block.to_vec());
    let (number, value, after) = own(block, lent).map_or_else(refused, |()| read(block, kind, key, text));
    let directory = kept(number, &after, lent);
    (number, value, after, directory)
}

/// write by a directory: the number, the length of the text, and the output buffer then.
pub fn write_by(block: &[u8], lent: &[u16], kind: u64, key: u64, out: &[u8]) -> (u32, u32, Vec<u8>) {
    own(block, lent).map_or_else(|number| (number, 0, out.to_vec()), |()| write(block, kind, key, out))
}

/// The full question by a directory: the number, and what the question without it gives.
pub fn rights_by(block: &[u8], lent: &[u16], user: u64, object: u64, request: u64, profile: u64) -> (u32, u32) {
    own(block, lent).map_or_else(|number| (number, 0), |()| rights(block, user, object, request, profile))
}

/// The short question by a directory: the number, and 1 for yes or 0 for no.
pub fn may_by(block: &[u8], lent: &[u16], user: u64, object: u64, request: u64, profile: u64) -> (u32, u32) {
    own(block, lent).map_or_else(|number| (number, 0), |()| may(block, user, object, request, profile))
}
