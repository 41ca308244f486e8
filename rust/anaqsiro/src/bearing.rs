//! Which records can bear on a user's rights on an object.

use crate::refusal::yes;
use crate::{raw, Block, DirectedBlock, Kind, Name, Refusal};

/// Which records can bear on a user's rights on an object, and which can not.
///
/// Of the memberships those can whose key is reached from the user or from the object by at most 31 memberships; of the permissions
/// those whose key is reached from the object by at most 32, or is 0, and whose id is reached from the user by at most 32; of the
/// filters those of the object, and those of the groups that its own memberships name. A membership leads from its key to its id
/// whatever it carries; a record that counts [`Marker`](crate::Marker)s alone leads nowhere.
///
/// Two good blocks that agree on these records give equal answers about her and the object: [`Block::rights`] and [`Block::may`], in
/// each [`Profile`](crate::Profile), for every request, the numbers of memberships examined among them. So a message about records of
/// which none bears, in the block before it, changes none of these answers.
///
/// ```
/// use anaqsiro::{Block, Kind, Profile, Rights};
///
/// let mut block = Block::with_room(8)?;
/// block.read_set(Kind::Membership, 1, "2;MRUP")?; // 1 is a member of 2
/// block.read_set(Kind::Membership, 9, "30;R")?; // 9 is in the group 30
/// block.read_set(Kind::Permission, 30, "2;RU")?; // 2 may read and update what is in 30
///
/// // Whatever another department says of its own people and orders, 1 holds on 9 what she held.
/// assert!(!block.bears(1, 9, Kind::Membership, 400, 401)?);
/// assert!(!block.bears(1, 9, Kind::Permission, 30, 400)?); // to somebody whom she does not lead to
/// let before = block.rights(1, 9, Rights::ALL, Profile::Ordinary)?;
/// block.read_set(Kind::Membership, 400, "401;MRUP")?;
/// assert_eq!(block.rights(1, 9, Rights::ALL, Profile::Ordinary)?, before);
///
/// // These can touch her, whether the block has them or not.
/// assert!(block.bears(1, 9, Kind::Membership, 2, 3)?); // a further group of hers
/// assert!(block.bears(1, 9, Kind::Permission, 30, 2)?);
/// assert!(block.bears(1, 9, Kind::Permission, 0, 1)?); // what is granted or denied on 0 is so on every object
/// assert!(block.bears(1, 9, Kind::Filter, 30, 20)?); // a filter of a group that 9 is in
/// # Ok::<(), anaqsiro::Refusal>(())
/// ```
///
/// The question does not go by a directory: a [`DirectedBlock`] asks its [block](DirectedBlock::block).
impl Block {
    /// Whether the record of the kind with this key and id can bear on the user's rights on the object. The block need not have it.
    pub fn bears(&self, user: Name, object: Name, kind: Kind, key: Name, id: Name) -> Result<bool, Refusal> {
        let (block, kind) = (self.bytes(), kind.number().into());
        // SAFETY: the pointer and the length are those of one slice, which the call only reads.
        yes(unsafe { raw::anaqsiro_bears(block.as_ptr(), block.len(), user, object, kind, key, id) })
    }
}

/// What bears is not looked up by the directory.
impl DirectedBlock {
    /// Whether a record can bear on the user's rights on the object, as [`Block::bears`] answers.
    pub fn bears(&self, user: Name, object: Name, kind: Kind, key: Name, id: Name) -> Result<bool, Refusal> {
        self.block().bears(user, object, kind, key, id)
    }
}
