//! A block with its directory, which says where the records of each key begin.

use crate::block::whole_text;
use crate::refusal::{done, how_many, yes};
use crate::{raw, Block, Held, Kind, Name, Profile, Refusal, Rights, NAMES};
use std::fmt;

/// A block with its directory, so that a question need not search for the records of a key. Messages and sets by it search as
/// before: [`DirectedBlock::apply`], [`DirectedBlock::apply_wide`], [`DirectedBlock::read_set`] and [`DirectedBlock::write_set`]
/// test it, and the first three renew it.
///
/// The directory has a part for the memberships, one for the permissions and one for the filters, [`DirectedBlock::PART`] entries
/// each. The entry at `x` of a part is where that kind's records with the key `x` begin, or would begin if there were any, in
/// bytes from the front of the block; the last entry of a part is where that kind's records end. A good block has just one
/// directory.
///
/// Every call answers as that of [`Block`] does, with the same refusals, and keeps the directory true: block and directory can
/// not come apart. No answer needs a directory. It is for hosts that ask much of large blocks.
///
/// ```
/// use anaqsiro::{Block, Half, Kind, Message, Profile, Refusal, Rights};
///
/// // Load the block first, and make the directory once after it.
/// let mut block = Block::with_room(8)?;
/// block.read_set(Kind::Membership, 1, "2;MRUP")?;
/// block.read_set(Kind::Permission, 9, "2;RU")?;
/// let mut directed = block.with_directory()?;
/// assert!(directed.may(1, 9, Rights::UPDATE, Profile::Ordinary)?);
///
/// // Then change both together.
/// directed.apply(Message::new(Kind::Permission, None, Some(Half::new(10, 2, Rights::UPDATE))))?;
/// assert!(directed.may(1, 10, Rights::UPDATE, Profile::Ordinary)?);
/// assert_eq!(directed.directory(), directed.block().clone().with_directory()?.directory());
/// assert_eq!(directed.rights(1, 1_024, Rights::ALL, Profile::Ordinary), Err(Refusal::Name));
/// # Ok::<(), anaqsiro::Refusal>(())
/// ```
#[derive(Clone, PartialEq, Eq)]
pub struct DirectedBlock {
    block: Block,
    /// The block's own directory, at every moment that a caller can see.
    directory: Box<[u16; DirectedBlock::DIRECTORY]>,
}

/// Why a block did not get a directory, and the block as it was.
///
/// ```
/// use anaqsiro::{Block, DirectedBlock, Kind, Refusal};
///
/// let kept = Block::with_room(8)?.with_directory()?.directory().to_vec();
/// let mut block = Block::with_room(8)?;
/// block.read_set(Kind::Permission, 9, "1;U")?; // the directory that was kept is left behind
/// let not = DirectedBlock::from_parts(block, &kept).expect_err("not its own");
/// assert_eq!(not.refusal, Refusal::DirectoryNotOwn);
/// let directed = not.block.with_directory()?; // make it again
/// assert_eq!(directed.set_text(Kind::Permission, 9)?, "1;U");
/// # Ok::<(), anaqsiro::Refusal>(())
/// ```
#[derive(Clone, Debug, PartialEq, Eq)]
pub struct NotDirected {
    pub block: Block,
    pub refusal: Refusal,
}

impl From<NotDirected> for Refusal {
    fn from(not: NotDirected) -> Refusal {
        not.refusal
    }
}

impl fmt::Display for NotDirected {
    fn fmt(&self, f: &mut fmt::Formatter<'_>) -> fmt::Result {
        self.refusal.fmt(f)
    }
}

impl std::error::Error for NotDirected {}

impl Block {
    /// The block with its directory. One that is not good is refused with [`Refusal::BlockLength`] or
    /// [`Refusal::BlockNotGood`], and comes back.
    pub fn with_directory(self) -> Result<DirectedBlock, NotDirected> {
        let (bytes, mut directory) = (self.bytes(), Box::new([0; DirectedBlock::DIRECTORY]));
        let (entries, length) = (directory.as_mut_ptr(), directory.len());
        // SAFETY: each pointer and length are those of one slice; the first is only read, and the second is ours.
        match done(unsafe { raw::anaqsiro_directory(bytes.as_ptr(), bytes.len(), entries, length) }) {
            Ok(()) => Ok(DirectedBlock { block: self, directory }),
            Err(refusal) => Err(NotDirected { block: self, refusal }),
        }
    }
}

impl DirectedBlock {
    /// The entries of one part of a directory: one for each name, and one for the part's end.
    pub const PART: usize = NAMES as usize + 1;
    /// The entries of a directory: a part for each kind.
    pub const DIRECTORY: usize = Kind::ALL.len() * Self::PART;

    /// A block and the entries of its directory, as a host has kept them. Where they are not the block's own, or not as many, it
    /// is refused with [`Refusal::DirectoryNotOwn`], after what [`Block::with_directory`] refuses; the block comes back.
    pub fn from_parts(block: Block, directory: &[u16]) -> Result<DirectedBlock, NotDirected> {
        let directed = block.with_directory()?;
        if directed.directory() == directory {
            return Ok(directed);
        }
        Err(NotDirected { block: directed.block, refusal: Refusal::DirectoryNotOwn })
    }

    /// The block. It can be asked and saved, and cloned to be changed by itself.
    pub fn block(&self) -> &Block {
        &self.block
    }

    /// The entries of the directory, [`DirectedBlock::DIRECTORY`] of them.
    pub fn directory(&self) -> &[u16] {
        &self.directory[..]
    }

    /// The block, without its directory.
    pub fn into_block(self) -> Block {
        self.block
    }

    /// Makes room for so many records in all, as [`Block::grow`] does. The directory stays as it is.
    pub fn grow(&mut self, room: usize) -> Result<(), Refusal> {
        self.block.grow(room)
    }

    /// Makes the block an empty one, as long as it is, as [`Block::clear`] does, and makes its directory anew. The two change
    /// together.
    ///
    /// ```
    /// use anaqsiro::{Block, Kind};
    ///
    /// let mut block = Block::with_room(8)?;
    /// block.read_set(Kind::Permission, 9, "1;U")?;
    /// let mut directed = block.with_directory()?;
    /// directed.clear()?;
    /// assert_eq!(directed, Block::with_room(8)?.with_directory()?);
    /// # Ok::<(), anaqsiro::Refusal>(())
    /// ```
    pub fn clear(&mut self) -> Result<(), Refusal> {
        let mut empty = Block::from_bytes(vec![0; self.block.bytes().len()]);
        empty.clear()?;
        *self = empty.with_directory()?;
        Ok(())
    }

    /// Applies a message, as [`Block::apply`] does.
    pub fn apply(&mut self, message: impl AsRef<[u8]>) -> Result<(), Refusal> {
        self.changed(raw::anaqsiro_message_by, message.as_ref())
    }

    /// Applies a wide message, as [`Block::apply_wide`] does.
    pub fn apply_wide(&mut self, message: impl AsRef<[u8]>) -> Result<(), Refusal> {
        self.changed(raw::anaqsiro_wide_by, message.as_ref())
    }

    /// The rights that the user holds on the object in the profile, as [`Block::rights`] answers.
    pub fn rights(&self, user: Name, object: Name, request: Rights, profile: Profile) -> Result<Held, Refusal> {
        Held::from_answer(self.asked(raw::anaqsiro_rights_by, user, object, request, profile))
    }

    /// Whether the user holds every right requested on the object, in the profile, as [`Block::may`] answers.
    pub fn may(&self, user: Name, object: Name, request: Rights, profile: Profile) -> Result<bool, Refusal> {
        yes(self.asked(raw::anaqsiro_may_by, user, object, request, profile))
    }

    /// Writes the records of one kind and key as text at the front of `out`, as [`Block::write_set`] does.
    pub fn write_set(&self, kind: Kind, key: Name, out: &mut [u8]) -> Result<usize, Refusal> {
        let (block, directory, kind) = (self.block.bytes(), self.directory(), kind.number().into());
        let (entries, length) = (directory.as_ptr(), directory.len());
        // SAFETY: each pointer and length are those of one slice; the borrows keep the three apart.
        how_many(unsafe {
            raw::anaqsiro_write_by(block.as_ptr(), block.len(), entries, length, kind, key, out.as_mut_ptr(), out.len())
        })
    }

    /// The records of one kind and key as text.
    pub fn set_text(&self, kind: Kind, key: Name) -> Result<String, Refusal> {
        whole_text(|out| self.write_set(kind, key, out))
    }

    /// Replaces the records of one kind and key by those of a text, as [`Block::read_set`] does.
    pub fn read_set(&mut self, kind: Kind, key: Name, text: impl AsRef<[u8]>) -> Result<usize, Refusal> {
        let (block, directory, text) = (self.block.bytes_mut(), &mut self.directory, text.as_ref());
        let (entries, length, kind) = (directory.as_mut_ptr(), directory.len(), kind.number().into());
        // SAFETY: each pointer and length are those of one slice; the borrows keep the three apart.
        how_many(unsafe {
            raw::anaqsiro_read_by(block.as_mut_ptr(), block.len(), entries, length, kind, key, text.as_ptr(), text.len())
        })
    }

    /// Changes the block by a call that does not know the directory, and makes that anew.
    pub(crate) fn made_anew(&mut self, change: impl FnOnce(&mut Block) -> Result<(), Refusal>) -> Result<(), Refusal> {
        let mut block = self.block.clone();
        change(&mut block)?;
        *self = block.with_directory()?;
        Ok(())
    }

    /// What comes of a message.
    fn changed(&mut self, change: Change, message: &[u8]) -> Result<(), Refusal> {
        let (block, directory) = (self.block.bytes_mut(), &mut self.directory);
        let (entries, length) = (directory.as_mut_ptr(), directory.len());
        // SAFETY: each pointer and length are those of one slice; the borrows keep the three apart.
        done(unsafe { change(block.as_mut_ptr(), block.len(), entries, length, message.as_ptr(), message.len()) })
    }

    /// What a question answers.
    fn asked(&self, question: Question, user: Name, object: Name, request: Rights, profile: Profile) -> u64 {
        let (block, directory) = (self.block.bytes(), self.directory());
        let (request, profile) = (request.mask().into(), profile.number().into());
        // SAFETY: each pointer and length are those of one slice, which the call only reads.
        unsafe { question(block.as_ptr(), block.len(), directory.as_ptr(), directory.len(), user, object, request, profile) }
    }
}

/// A call by a directory that applies a message, as C has it.
type Change = unsafe extern "C" fn(*mut u8, usize, *mut u16, usize, *const u8, usize) -> u64;

/// A question by a directory, as C has it.
type Question = unsafe extern "C" fn(*const u8, usize, *const u16, usize, u64, u64, u64, u64) -> u64;

/// The block. The directory follows from it.
impl fmt::Debug for DirectedBlock {
    fn fmt(&self, f: &mut fmt::Formatter<'_>) -> fmt::Result {
        write!(f, "{:?} with its directory", self.block)
    }
}
