//! How far a denial reaches.

/// How far a denial reaches. Each question is asked in a profile, which is its last argument.
///
/// A permission record is reached for a right where a chain of 0 to 32 memberships, each of which carries the right, leads from the
/// user to the record's id, and such a chain from the object to its key, or the key is 0. A record that is reached for a right
/// grants it if it counts the right and not its denial. So in both profiles a denial takes its right out of the record that it
/// stands in. What it does to the grants of other records is the profile's.
///
/// ```
/// use anaqsiro::{Block, Kind, Profile, Rights};
///
/// let mut block = Block::with_room(8)?;
/// let (anna, ben, order) = (1, 2, 30); // and 10 are the planners, 11 is hired staff
/// block.read_set(Kind::Permission, order, "10;RU;11;u")?; // planners may read and update it, hired staff may not update it
/// block.read_set(Kind::Membership, anna, "10;MRUP;11;MRUP")?; // Anna is a planner, and hired
/// assert!(block.may(anna, order, Rights::UPDATE, Profile::Ordinary)?);
/// assert!(!block.may(anna, order, Rights::UPDATE, Profile::Strict)?);
/// assert!(block.may(anna, order, Rights::READ, Profile::Strict)?); // updating alone is barred
///
/// // Ben is hired too, but over a membership that carries reading alone: the denial is not reached for updating.
/// block.read_set(Kind::Membership, ben, "10;MRUP;11;R")?;
/// assert!(block.may(ben, order, Rights::UPDATE, Profile::Strict)?);
/// # Ok::<(), anaqsiro::Refusal>(())
/// ```
///
/// Filters and markers have no part in what is barred, and whatever is held in the strict profile is held in the ordinary one, too.
/// A block does not know profiles: one block may be asked in both.
#[derive(Clone, Copy, Debug, PartialEq, Eq, PartialOrd, Ord, Hash)]
pub enum Profile {
    /// A denial takes its right out of the record that it stands in. Another record may still grant it.
    Ordinary = 0,
    /// A denial bars its right, whatever other records grant, where its record is reached for that right. It does not matter
    /// whether the record counts the right too.
    Strict = 1,
}

impl Profile {
    /// Each profile, in the order of the numbers.
    pub const ALL: [Profile; 2] = [Profile::Ordinary, Profile::Strict];

    /// The profile of a number, 0 or 1. The number is 64 bits wide, so that 2^32 is not taken for 0.
    pub fn from_number(number: u64) -> Option<Profile> {
        Self::ALL.into_iter().find(|profile| u64::from(profile.number()) == number)
    }

    /// The number of the profile.
    pub const fn number(self) -> u8 {
        self as u8
    }
}
