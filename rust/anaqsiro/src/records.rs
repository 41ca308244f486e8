//! What stands in a block, record by record.

use crate::letters::{place_of, LETTERS, MASKED, ORDER};
use crate::{raw, Block, Kind, Letters, Name, Refusal, NAMES};
use std::array;
use std::fmt;
use std::iter::FusedIterator;

/// A record of a block. As text it is its kind's letter, its key, and the record as a set has it: `P9 1;MRU2`.
#[derive(Clone, Copy, Debug, PartialEq, Eq, Hash)]
pub struct Record {
    pub kind: Kind,
    pub key: Name,
    pub id: Name,
    /// How many statements stand with each letter, in the order M, R, U, P, m, r, u, p, X, N.
    pub counts: [u16; LETTERS],
}

impl Record {
    /// How many statements stand with a letter, one of `MRUPmrupXN`; 0 for any other. A [`Marker`](crate::Marker) tells its letter.
    pub fn count(&self, letter: char) -> u16 {
        place_of(letter).map_or(0, |place| self.counts[place])
    }

    /// The letters with a count above zero, without the markers. Where there are none, the record has markers alone: it makes nobody
    /// a member.
    pub fn letters(&self) -> Letters {
        let counted = self.counts[..MASKED].iter().enumerate().filter(|(_, &count)| count > 0);
        Letters::from_mask(counted.map(|(place, _)| 1 << place).sum()).unwrap_or_default()
    }

    /// Whether the name is the key or the id.
    pub fn mentions(&self, name: Name) -> bool {
        self.key == name || self.id == name
    }
}

impl fmt::Display for Record {
    fn fmt(&self, f: &mut fmt::Formatter<'_>) -> fmt::Result {
        write!(f, "{}{} {};", self.kind.letter(), self.key, self.id)?;
        ORDER.chars().zip(self.counts).try_for_each(|(letter, count)| match count {
            0 => Ok(()),
            1 => write!(f, "{letter}"),
            count => write!(f, "{letter}{count}"),
        })
    }
}

/// The records of a good block, those of each kind by key and id: memberships, permissions, filters.
#[derive(Clone, Debug)]
pub struct Records<'a> {
    block: &'a [u8],
    /// The number of the next record, and for each kind the number after its last one.
    next: usize,
    ends: [usize; Kind::ALL.len()],
}

/// The value of a call that is never refused, as the block is good.
fn value(packed: u64) -> u32 {
    packed as u32
}

impl Records<'_> {
    fn of(block: &[u8]) -> Records<'_> {
        let mut end = 0;
        let ends = Kind::ALL.map(|kind| {
            // SAFETY: the pointer and the length are those of one slice, which the call only reads.
            end += value(unsafe { raw::anaqsiro_size(block.as_ptr(), block.len(), kind.number().into()) }) as usize;
            end
        });
        Records { block, next: 0, ends }
    }

    /// The record of a number, if there is one.
    fn record(&self, number: usize) -> Option<Record> {
        let kind = Kind::ALL.into_iter().zip(self.ends).find(|&(_, end)| number < end)?.0;
        let (block, length, number) = (self.block.as_ptr(), self.block.len(), number as u64);
        // SAFETY: the pointer and the length are those of one slice, which the call only reads.
        let names = value(unsafe { raw::anaqsiro_record(block, length, number) });
        // SAFETY: as above.
        let count = |letter: usize| value(unsafe { raw::anaqsiro_count(block, length, number, letter as u64) }) as u16;
        Some(Record { kind, key: (names & 0xFFFF).into(), id: (names >> 16).into(), counts: array::from_fn(count) })
    }
}

impl Iterator for Records<'_> {
    type Item = Record;

    fn next(&mut self) -> Option<Record> {
        let record = self.record(self.next)?;
        self.next += 1;
        Some(record)
    }

    fn size_hint(&self) -> (usize, Option<usize>) {
        let left = self.ends[Kind::ALL.len() - 1] - self.next;
        (left, Some(left))
    }
}

impl ExactSizeIterator for Records<'_> {}
impl FusedIterator for Records<'_> {}

impl Block {
    /// The records of the block, if it is good.
    ///
    /// ```
    /// use anaqsiro::{Block, Kind};
    ///
    /// let mut block = Block::with_room(8)?;
    /// block.read_set(Kind::Permission, 9, "1;U;2;MRUp")?;
    /// block.read_set(Kind::Membership, 3, "1;R2U")?;
    /// let lines: Vec<String> = block.records()?.map(|record| record.to_string()).collect();
    /// assert_eq!(lines, ["M3 1;R2U", "P9 1;U", "P9 2;MRUp"]);
    /// assert_eq!(block.room() - block.records()?.len(), 5);
    /// # Ok::<(), anaqsiro::Refusal>(())
    /// ```
    pub fn records(&self) -> Result<Records<'_>, Refusal> {
        self.check()?;
        Ok(Records::of(self.bytes()))
    }

    /// The records that have the name as their key or id: what a host looks through before it gives a name to something else.
    ///
    /// ```
    /// use anaqsiro::{Block, Kind, Refusal};
    ///
    /// let mut block = Block::with_room(8)?;
    /// block.read_set(Kind::Permission, 9, "1;U;2;MRUp")?;
    /// block.read_set(Kind::Membership, 3, "1;R2U")?;
    /// let lines: Vec<String> = block.mentions(1)?.map(|record| record.to_string()).collect();
    /// assert_eq!(lines, ["M3 1;R2U", "P9 1;U"]);
    /// assert!(matches!(block.mentions(65_537), Err(Refusal::Name)));
    /// # Ok::<(), anaqsiro::Refusal>(())
    /// ```
    pub fn mentions(&self, name: Name) -> Result<impl Iterator<Item = Record> + '_, Refusal> {
        let records = self.records()?;
        if name >= NAMES {
            return Err(Refusal::Name);
        }
        Ok(records.filter(move |record| record.mentions(name)))
    }
}
