//! The block and its calls.

use crate::letters::{LETTERS, MASKED};
use crate::refusal::{done, how_many, yes};
use crate::{raw, Held, Kind, Name, Profile, Refusal, Rights, NAMES};
use std::fmt;

/// A block of bytes that holds an index.
#[derive(Clone, PartialEq, Eq)]
pub struct Block {
    bytes: Vec<u8>,
}

impl Block {
    /// The greatest number of records that a block can have room for.
    pub const GREATEST_ROOM: usize = 2048;
    /// The bytes of a record: key, id and a count for each letter, two bytes each.
    pub const RECORD: usize = 2 * (2 + LETTERS);
    /// The bytes of the shortest block, which has room for no record.
    pub const SHORTEST: usize = 16;
    /// The bytes of the longest block.
    pub const LONGEST: usize = Self::SHORTEST + Self::GREATEST_ROOM * Self::RECORD;
    /// The bytes of the longest text of a set: it has every name as an id, every letter that a permission may have with a count of
    /// five digits in each record, a semicolon after each id and one between two records.
    pub const LONGEST_TEXT: usize = {
        let names = NAMES as usize;
        let digits = 10 + 90 * 2 + 900 * 3 + (names - 1000) * 4;
        digits + names + (names - 1) + names * MASKED * (1 + 5)
    };

    /// How long a block with room for so many records is. More than [`Block::GREATEST_ROOM`] are refused.
    fn length(room: usize) -> Result<usize, Refusal> {
        if room > Self::GREATEST_ROOM {
            return Err(Refusal::BlockLength);
        }
        Ok(Self::SHORTEST + Self::RECORD * room)
    }

    /// An empty block with room for so many records. More than [`Block::GREATEST_ROOM`] are refused with
    /// [`Refusal::BlockLength`], as the block would be too long.
    pub fn with_room(room: usize) -> Result<Block, Refusal> {
        let mut block = Block { bytes: vec![0; Self::length(room)?] };
        block.clear()?;
        Ok(block)
    }

    /// Any bytes. Where they are no good block, each call but [`Block::clear`] refuses them.
    pub fn from_bytes(bytes: Vec<u8>) -> Block {
        Block { bytes }
    }

    /// The bytes, which can be stored and sent as they are. [`Block::save`] adds what tells a damaged block from a whole one.
    pub fn bytes(&self) -> &[u8] {
        &self.bytes
    }

    /// The bytes, to be changed by a call.
    pub(crate) fn bytes_mut(&mut self) -> &mut [u8] {
        &mut self.bytes
    }

    /// The bytes.
    pub fn into_bytes(self) -> Vec<u8> {
        self.bytes
    }

    /// Whether the block is good: refused with [`Refusal::BlockLength`] or [`Refusal::BlockNotGood`] where it is not.
    pub fn check(&self) -> Result<(), Refusal> {
        // SAFETY: the pointer and the length are those of one slice, which the call only reads.
        done(unsafe { raw::anaqsiro_tested(self.bytes.as_ptr(), self.bytes.len()) })
    }

    /// How many records the block has room for in all, those that it holds among them; 0 where no block is so long. How many
    /// it holds is the length of [`Block::records`].
    pub fn room(&self) -> usize {
        match self.bytes.len() {
            length @ Self::SHORTEST..=Self::LONGEST => (length - Self::SHORTEST) / Self::RECORD,
            _ => 0,
        }
    }

    /// Makes room for so many records in all; those that the block holds stay as they are. A block that has the room already
    /// is left alone. More than [`Block::GREATEST_ROOM`] are refused, and so is a block that is not good.
    ///
    /// ```
    /// use anaqsiro::{Block, Kind, Refusal};
    ///
    /// let mut block = Block::with_room(1)?;
    /// assert_eq!(block.read_set(Kind::Permission, 9, "1;U;2;U"), Err(Refusal::NoRoom));
    /// block.grow(2)?;
    /// assert_eq!(block.read_set(Kind::Permission, 9, "1;U;2;U"), Ok(2));
    /// assert_eq!(block.grow(Block::GREATEST_ROOM + 1), Err(Refusal::BlockLength));
    /// # Ok::<(), anaqsiro::Refusal>(())
    /// ```
    pub fn grow(&mut self, room: usize) -> Result<(), Refusal> {
        self.check()?;
        let length = Self::length(room)?;
        if length > self.bytes.len() {
            // Every byte from the end of the records on is zero, in the longer block too.
            self.bytes.resize(length, 0);
        }
        Ok(())
    }

    /// Makes the block an empty one, as long as it is.
    pub fn clear(&mut self) -> Result<(), Refusal> {
        // SAFETY: the pointer and the length are those of one slice that is ours for the call.
        done(unsafe { raw::anaqsiro_make(self.bytes.as_mut_ptr(), self.bytes.len()) })
    }

    /// Applies a message: takes the previous half away, then adds the new one. The block does not know statements; a
    /// [`Ledger`](crate::Ledger) does, and applies each message in its turn.
    pub fn apply(&mut self, message: impl AsRef<[u8]>) -> Result<(), Refusal> {
        let message = message.as_ref();
        // SAFETY: each pointer and length are those of one slice; the borrows keep the two apart.
        done(unsafe { raw::anaqsiro_message(self.bytes.as_mut_ptr(), self.bytes.len(), message.as_ptr(), message.len()) })
    }

    /// Applies a [`WideMessage`](crate::WideMessage): takes all pairs of the previous half away, then adds all of the new one, by
    /// key, then id. Where a pair is refused nothing has changed, and the refusal is that of the first such pair.
    pub fn apply_wide(&mut self, message: impl AsRef<[u8]>) -> Result<(), Refusal> {
        let message = message.as_ref();
        // SAFETY: each pointer and length are those of one slice; the borrows keep the two apart.
        done(unsafe { raw::anaqsiro_wide(self.bytes.as_mut_ptr(), self.bytes.len(), message.as_ptr(), message.len()) })
    }

    /// The rights that the user holds on the object in the profile, of those requested, and how many membership records were
    /// examined on each side, which is the same in both profiles. A user whom a [`Marker`](crate::Marker) binds holds none on what
    /// is in some group and in none of hers.
    ///
    /// ```
    /// use anaqsiro::{Block, Kind, Profile, Rights};
    ///
    /// let mut block = Block::with_room(8)?;
    /// block.read_set(Kind::Membership, 1, "2;MRUP")?; // 1 is a member of 2
    /// block.read_set(Kind::Membership, 2, "3;R")?; // 2 is a member of 3, for reading
    /// block.read_set(Kind::Permission, 9, "3;RU")?; // 3 may read and update 9
    /// let held = block.rights(1, 9, Rights::ALL, Profile::Ordinary)?;
    /// assert_eq!(held.rights, Rights::READ);
    /// assert_eq!((held.user_examined, held.object_examined), (2, 0));
    /// # Ok::<(), anaqsiro::Refusal>(())
    /// ```
    pub fn rights(&self, user: Name, object: Name, request: Rights, profile: Profile) -> Result<Held, Refusal> {
        Held::from_answer(self.asked(raw::anaqsiro_rights, user, object, request, profile))
    }

    /// Whether the user holds every right requested on the object, in the profile.
    pub fn may(&self, user: Name, object: Name, request: Rights, profile: Profile) -> Result<bool, Refusal> {
        yes(self.asked(raw::anaqsiro_may, user, object, request, profile))
    }

    /// What a question answers.
    fn asked(&self, question: Question, user: Name, object: Name, request: Rights, profile: Profile) -> u64 {
        let (request, profile) = (request.mask().into(), profile.number().into());
        // SAFETY: the pointer and the length are those of one slice, which the call only reads.
        unsafe { question(self.bytes.as_ptr(), self.bytes.len(), user, object, request, profile) }
    }

    /// Writes the records of one kind and key as text at the front of `out`, and says how long the text is.
    pub fn write_set(&self, kind: Kind, key: Name, out: &mut [u8]) -> Result<usize, Refusal> {
        let kind = kind.number().into();
        // SAFETY: each pointer and length are those of one slice; the borrows keep the two apart.
        how_many(unsafe { raw::anaqsiro_write(self.bytes.as_ptr(), self.bytes.len(), kind, key, out.as_mut_ptr(), out.len()) })
    }

    /// The records of one kind and key as text.
    pub fn set_text(&self, kind: Kind, key: Name) -> Result<String, Refusal> {
        whole_text(|out| self.write_set(kind, key, out))
    }

    /// Replaces the records of one kind and key by those of a text, and says how many they are. A text that is of no set of
    /// that kind is refused with its place:
    ///
    /// ```
    /// use anaqsiro::{Block, Kind, Refusal};
    ///
    /// let mut block = Block::with_room(8)?;
    /// let text = "1;U;4;UR2;12;R";
    /// let Err(Refusal::Text { place }) = block.read_set(Kind::Permission, 9, text) else { panic!("the text is wrong") };
    /// assert_eq!(&text[..place], "1;U;4;U");
    /// let shown = format!("{text}\n{:place$}^", "");
    /// assert_eq!(shown, "1;U;4;UR2;12;R\n       ^");
    /// assert_eq!(block.read_set(Kind::Permission, 9, "1;U;4;RU2;12;R"), Ok(3));
    /// # Ok::<(), anaqsiro::Refusal>(())
    /// ```
    pub fn read_set(&mut self, kind: Kind, key: Name, text: impl AsRef<[u8]>) -> Result<usize, Refusal> {
        let (kind, text) = (kind.number().into(), text.as_ref());
        // SAFETY: each pointer and length are those of one slice; the borrows keep the two apart.
        how_many(unsafe { raw::anaqsiro_read(self.bytes.as_mut_ptr(), self.bytes.len(), kind, key, text.as_ptr(), text.len()) })
    }
}

/// A question, as C has it.
pub(crate) type Question = unsafe extern "C" fn(*const u8, usize, u64, u64, u64, u64) -> u64;

/// The text that a call writes, in a buffer that is made longer until the text fits.
pub(crate) fn whole_text(write: impl Fn(&mut [u8]) -> Result<usize, Refusal>) -> Result<String, Refusal> {
    let mut out = vec![0; 64];
    loop {
        match write(&mut out) {
            Err(Refusal::TextLong) if out.len() < Block::LONGEST_TEXT => {
                out.resize(Block::LONGEST_TEXT.min(8 * out.len()), 0);
            }
            Err(refusal) => return Err(refusal),
            Ok(length) => return Ok(out[..length].iter().copied().map(char::from).collect()),
        }
    }
}

/// The length, and the records of a good block.
impl fmt::Debug for Block {
    fn fmt(&self, f: &mut fmt::Formatter<'_>) -> fmt::Result {
        write!(f, "Block of {} bytes ", self.bytes.len())?;
        match self.records() {
            Ok(records) => f.debug_list().entries(records.map(|record| record.to_string())).finish(),
            Err(refusal) => write!(f, "({refusal})"),
        }
    }
}
