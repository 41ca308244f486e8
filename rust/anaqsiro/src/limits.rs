//! Rights over chains of at most so many memberships.

use crate::block::Question;
use crate::refusal::answer;
use crate::{raw, Block, DirectedBlock, Name, Refusal, Rights};

/// Rights over chains of at most so many memberships, in the [ordinary profile](crate::Profile::Ordinary).
///
/// The limit holds for every chain: the one from the user and the one from the object that end at the permission record, the one by
/// which a [`Marker`](crate::Marker) binds her to a group, which has one membership at least, and the one from the object to a group
/// of hers. It holds neither for the filters nor for whether an object is in no group at all, and what is granted on 0 counts for
/// every object with every limit. A lower limit may show more rights: a group that lies further off does not bind.
///
/// ```
/// use anaqsiro::{Block, Kind, Profile, Refusal, Rights};
///
/// let mut block = Block::with_room(8)?;
/// block.read_set(Kind::Membership, 1, "2;MRUP")?; // 1 is a member of 2
/// block.read_set(Kind::Membership, 2, "3;R;20;MX")?; // 2 is a member of 3, for reading, and bound to 20
/// block.read_set(Kind::Permission, 9, "1;M;3;RU")?; // 1 may create 9, and 3 may read and update it
/// assert_eq!(block.rights_to(1, 9, Rights::ALL, 1)?, Rights::CREATE);
/// assert_eq!(block.rights_to(1, 9, Rights::ALL, 2)?, Rights::CREATE | Rights::READ);
///
/// // Once 9 is in a group, it is closed to who is bound to another. That she is, two memberships show.
/// block.read_set(Kind::Membership, 9, "30;MRUP")?;
/// assert_eq!(block.rights_to(1, 9, Rights::ALL, 1)?, Rights::CREATE);
/// assert_eq!(block.rights_to(1, 9, Rights::ALL, 2)?, Rights::NONE);
/// let full = block.rights(1, 9, Rights::ALL, Profile::Ordinary)?;
/// assert_eq!(block.rights_to(1, 9, Rights::ALL, Block::LIMIT)?, full.rights);
///
/// // The plain engine gives the same.
/// assert_eq!(block.rights_plain(1, 9, Rights::ALL, 1)?, Rights::CREATE);
/// assert_eq!(block.rights_plain(1, 9, Rights::ALL, 9), Err(Refusal::Limit));
/// # Ok::<(), anaqsiro::Refusal>(())
/// ```
///
/// No such question needs a directory: a [`DirectedBlock`] asks its [block](DirectedBlock::block).
impl Block {
    /// The greatest limit: no chain of any question has more memberships.
    pub const LIMIT: u64 = 32;
    /// The greatest limit of the plain engine.
    pub const PLAIN_LIMIT: u64 = 8;
    /// The most membership records of a block that the plain engine takes. Those that count markers alone are among them.
    pub const PLAIN_MEMBERSHIPS: usize = 64;

    /// The rights that the user holds on the object in the ordinary profile, of those requested, over chains of at most so many
    /// memberships, by the walk of [`Block::rights`]. With [`Block::LIMIT`] they are the rights that it answers. A limit above that
    /// is refused with [`Refusal::Limit`], last of all.
    pub fn rights_to(&self, user: Name, object: Name, request: Rights, limit: u64) -> Result<Rights, Refusal> {
        self.limited(raw::anaqsiro_rights_to, user, object, request, limit)
    }

    /// The same rights by the plain engine, which can be followed with a finger: it asks whether a name is reached with so many
    /// memberships left, goes through those of the name, and asks again with one fewer. It goes over every chain, so that where there
    /// are many it takes long: it is for a small block, and for a look at how a right comes about. A limit above
    /// [`Block::PLAIN_LIMIT`], or a block with more than [`Block::PLAIN_MEMBERSHIPS`] membership records, is refused with
    /// [`Refusal::Limit`], last of all.
    pub fn rights_plain(&self, user: Name, object: Name, request: Rights, limit: u64) -> Result<Rights, Refusal> {
        self.limited(raw::anaqsiro_plain, user, object, request, limit)
    }

    /// What a question with a limit answers.
    fn limited(&self, question: Question, user: Name, object: Name, request: Rights, limit: u64) -> Result<Rights, Refusal> {
        let (block, request) = (self.bytes(), request.mask().into());
        // SAFETY: the pointer and the length are those of one slice, which the call only reads.
        let value = answer(unsafe { question(block.as_ptr(), block.len(), user, object, request, limit) })?;
        Ok(Rights::from_mask(value.into()).unwrap_or_default())
    }
}

/// Questions with a limit do not go by the directory.
impl DirectedBlock {
    /// The rights over chains of at most so many memberships, as [`Block::rights_to`] answers.
    pub fn rights_to(&self, user: Name, object: Name, request: Rights, limit: u64) -> Result<Rights, Refusal> {
        self.block().rights_to(user, object, request, limit)
    }

    /// The same by the plain engine, as [`Block::rights_plain`] answers.
    pub fn rights_plain(&self, user: Name, object: Name, request: Rights, limit: u64) -> Result<Rights, Refusal> {
        self.block().rights_plain(user, object, request, limit)
    }
}
