//! A block as it is stored, so that a fault in what was stored is found. More than half of all single-bit faults in a block give
//! another good block, with other counts or names; the block alone can not show them.

use crate::{Block, Refusal};
use std::fmt;

/// The first bytes of a saved block.
const MAGIC: [u8; 8] = *b"anaqsiro";

/// The version of what follows: how a block is laid out. In version 1 a record had 20 bytes, and no counts of markers.
const VERSION: u32 = 2;

/// The bytes of the checksum at the end.
const CHECKSUM: usize = 4;

/// What each byte does to a checksum, by the polynomial of IEEE 802.3.
const TABLE: [u32; 256] = {
    let mut table = [0; 256];
    let mut byte = 0;
    while byte < table.len() {
        let mut sum = byte as u32;
        let mut bit = 0;
        while bit < 8 {
            sum = sum >> 1 ^ if sum & 1 == 1 { 0xEDB8_8320 } else { 0 };
            bit += 1;
        }
        table[byte] = sum;
        byte += 1;
    }
    table
};

/// The CRC-32 of some bytes, the one of zlib, gzip and PNG.
fn checksum(bytes: &[u8]) -> u32 {
    !bytes.iter().fold(u32::MAX, |sum, byte| sum >> 8 ^ TABLE[usize::from(sum as u8 ^ byte)])
}

/// Why bytes are not loaded.
#[derive(Clone, Copy, Debug, PartialEq, Eq, Hash)]
#[non_exhaustive]
pub enum NotLoaded {
    /// They do not begin as a saved block does.
    NotSaved,
    /// They begin as a saved block does, but the checksum is not theirs: some were changed, lost or added.
    Damaged,
    /// They are whole, but of this version, which this crate does not read.
    OtherVersion(u32),
    /// They are whole, but the block in them is not good. [`Block::save`] does not write such bytes.
    NotGood(Refusal),
}

impl fmt::Display for NotLoaded {
    fn fmt(&self, f: &mut fmt::Formatter<'_>) -> fmt::Result {
        match self {
            NotLoaded::NotSaved => write!(f, "not a saved block"),
            NotLoaded::Damaged => write!(f, "a saved block that was damaged"),
            NotLoaded::OtherVersion(version) => write!(f, "a saved block of version {version}, not {VERSION}"),
            NotLoaded::NotGood(refusal) => write!(f, "a saved block that is {refusal}"),
        }
    }
}

impl std::error::Error for NotLoaded {}

impl Block {
    /// The block with what is needed to know it again, for a file or a database:
    ///
    /// | bytes | what |
    /// |---|---|
    /// | 0 to 7 | `anaqsiro` |
    /// | 8 to 11 | the version, 2 |
    /// | from 12 on | the block |
    /// | the last 4 | the CRC-32 (that of zlib) of all bytes before |
    ///
    /// Numbers have their low byte first. Only a good block is saved. Write the file beside the old one and rename it, so that a
    /// crash leaves the one or the other.
    ///
    /// ```
    /// use anaqsiro::{Block, Kind, NotLoaded};
    ///
    /// let mut block = Block::with_room(8)?;
    /// block.read_set(Kind::Permission, 9, "1;U")?;
    /// let mut saved = block.save()?;
    /// assert_eq!(Block::load(&saved), Ok(block));
    /// saved[40] ^= 1;
    /// assert_eq!(Block::load(&saved), Err(NotLoaded::Damaged));
    /// assert_eq!(Block::load(b"12 May, line 2"), Err(NotLoaded::NotSaved));
    /// # Ok::<(), anaqsiro::Refusal>(())
    /// ```
    pub fn save(&self) -> Result<Vec<u8>, Refusal> {
        self.check()?;
        let mut saved = [&MAGIC, &VERSION.to_le_bytes()[..], self.bytes()].concat();
        saved.extend(checksum(&saved).to_le_bytes());
        Ok(saved)
    }

    /// The block that was saved. The checksum is looked at before the version, so that a fault in the version is not taken for
    /// another version; every version ends in the same checksum.
    pub fn load(saved: &[u8]) -> Result<Block, NotLoaded> {
        let rest = saved.strip_prefix(&MAGIC).ok_or(NotLoaded::NotSaved)?;
        let (rest, sum) = rest.split_last_chunk::<CHECKSUM>().ok_or(NotLoaded::Damaged)?;
        if checksum(&saved[..saved.len() - CHECKSUM]) != u32::from_le_bytes(*sum) {
            return Err(NotLoaded::Damaged);
        }
        let (version, bytes) = rest.split_first_chunk().ok_or(NotLoaded::Damaged)?;
        let version = u32::from_le_bytes(*version);
        if version != VERSION {
            return Err(NotLoaded::OtherVersion(version));
        }
        let block = Block::from_bytes(bytes.to_vec());
        block.check().map_err(NotLoaded::NotGood)?;
        Ok(block)
    }
}

#[cfg(test)]
mod tests {
    use super::*;

    /// Where the block begins, after magic and version.
    const BLOCK_AT: usize = MAGIC.len() + 4;

    /// The bytes with their own checksum.
    fn summed(front: &[u8]) -> Vec<u8> {
        [front, &checksum(front).to_le_bytes()].concat()
    }

    #[test]
    fn the_checksum_is_that_of_zlib() {
        assert_eq!(checksum(b"123456789"), 0xCBF4_3926);
        assert_eq!(checksum(b""), 0);
    }

    #[test]
    fn each_reason_is_told_apart() {
        let whole = Block::with_room(3).and_then(|block| block.save()).expect("good");
        let front = &whole[..whole.len() - CHECKSUM];
        assert_eq!(summed(front), whole);
        let mut other = front.to_vec();
        other[MAGIC.len()] = 3;
        assert_eq!(Block::load(&summed(&other)), Err(NotLoaded::OtherVersion(3)));
        other[MAGIC.len() + 3] = 1;
        assert_eq!(Block::load(&summed(&other)), Err(NotLoaded::OtherVersion((1 << 24) + 3)));
        let mut bad = front.to_vec();
        bad[BLOCK_AT + 6] = 1;
        assert_eq!(Block::load(&summed(&bad)), Err(NotLoaded::NotGood(Refusal::BlockNotGood)));
        assert_eq!(Block::load(&summed(&front[..BLOCK_AT])), Err(NotLoaded::NotGood(Refusal::BlockLength)));
        assert_eq!(Block::load(&summed(&front[..BLOCK_AT - 1])), Err(NotLoaded::Damaged));
        assert_eq!(Block::load(&summed(b"anaqsirx0000")), Err(NotLoaded::NotSaved));
    }

    /// Blocks of version 1 with a record of each kind, and with none: the version tells them, and so do the offsets of a block that
    /// has a record.
    #[test]
    fn a_block_of_version_1_is_not_read() {
        for sizes in [[0, 0, 0], [1, 0, 0], [0, 1, 0], [0, 0, 1], [2, 3, 1]] {
            let ends = [sizes[0], sizes[0] + sizes[1], sizes.iter().sum()].map(|records: u16| 16 + 20 * records);
            let header = [sizes[0], sizes[1], sizes[2], 0, 16, ends[0], ends[1], ends[2]];
            let records = (0..ends[2] - 16).map(|at| u8::from(at % 20 == 4) + (at / 20 * u16::from(at % 20 == 0)) as u8);
            let old: Vec<u8> = header.iter().flat_map(|word| word.to_le_bytes()).chain(records).chain([0; 60]).collect();
            assert_eq!(Block::load(&summed(&[&MAGIC[..], &[1, 0, 0, 0], &old].concat())), Err(NotLoaded::OtherVersion(1)));
            assert_eq!(Block::from_bytes(old).check().is_ok(), sizes == [0, 0, 0]);
        }
    }
}
