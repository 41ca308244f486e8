//! What the full question answers, taken apart.

use crate::letters::RIGHTS;
use crate::refusal::answer;
use crate::{Block, Refusal, Rights};

/// What [`Block::rights`] answers, and [`DirectedBlock::rights`](crate::DirectedBlock::rights): the rights, and the number of
/// membership records examined, one for the user's side and one for the object's.
///
/// A name's mark in round n is the set of rights that some chain of at most n records carries to it; in round 0 the start,
/// which is the user or the object, has all four, the others none, and before round 0 nobody has any. The number is, summed
/// over rounds 0 to 31, the membership records whose key's mark differs from the round before. It is at most four times the
/// membership records. Request, profile, filters and markers have no part in it.
///
/// ```
/// use anaqsiro::{Block, Kind, Profile, Rights};
///
/// // Each right comes to 2, 3, 4 and 5 in a round of its own.
/// let mut block = Block::with_room(8)?;
/// for (name, groups) in (1..).zip(["2;M;3;R;4;U;5;P", "3;MRUP", "4;MRUP", "5;MRUP", "2;MRUP"]) {
///     block.read_set(Kind::Membership, name, groups)?;
/// }
/// let held = block.rights(1, 9, Rights::READ, Profile::Ordinary)?;
/// assert_eq!(held.user_examined, 4 + 4 * 4); // the records of 1 once, the others four times
/// assert_eq!(held.object_examined, 0); // 9 is a member of no group
/// assert_eq!(held.rights, Rights::NONE);
/// # Ok::<(), anaqsiro::Refusal>(())
/// ```
#[derive(Clone, Copy, Debug, PartialEq, Eq, Hash)]
pub struct Held {
    /// The rights held, of those requested, in the profile of the question.
    pub rights: Rights,
    /// How many membership records were examined on the user's side.
    pub user_examined: u32,
    /// How many were examined on the object's side.
    pub object_examined: u32,
}

/// The bits of each of the two numbers in the value of an answer, behind those of the rights.
const EXAMINED: usize = 14;

impl Held {
    /// No number of records examined on one side is above this one: four times the greatest room of a block.
    pub const MOST_EXAMINED: u32 = 4 * Block::GREATEST_ROOM as u32;

    /// Takes an answer of [`raw::anaqsiro_rights`](crate::raw::anaqsiro_rights) apart, or of
    /// [`raw::anaqsiro_rights_by`](crate::raw::anaqsiro_rights_by). Its value has the rights in the lowest 4 bits, the number of the
    /// user's side in the next 14, and that of the object's in the last 14. The header has `anaqsiro_held`,
    /// `anaqsiro_user_examined` and `anaqsiro_object_examined` for this.
    pub fn from_answer(packed: u64) -> Result<Held, Refusal> {
        let value = answer(packed)?;
        Ok(Held {
            rights: Rights::from_mask((value & u32::from(Rights::ALL.mask())).into()).unwrap_or_default(),
            user_examined: value >> RIGHTS & ((1 << EXAMINED) - 1),
            object_examined: value >> (RIGHTS + EXAMINED),
        })
    }
}

#[cfg(test)]
mod tests {
    use super::*;

    /// Each mask of rights beside numbers up to the greatest: no part runs into another.
    #[test]
    fn a_full_answer_is_taken_apart() {
        let numbers = [0, 1, 20, Held::MOST_EXAMINED - 1, Held::MOST_EXAMINED];
        for mask in 0..16 {
            for (user, object) in numbers.into_iter().flat_map(|user| numbers.map(|object| (user, object))) {
                let packed = mask + 16 * u64::from(user) + 262_144 * u64::from(object);
                let rights = Rights::from_mask(mask).expect("rights");
                assert_eq!(Held::from_answer(packed), Ok(Held { rights, user_examined: user, object_examined: object }));
            }
        }
        let greatest = Held { rights: Rights::ALL, user_examined: 8_192, object_examined: 8_192 };
        assert_eq!(Held::from_answer(2_147_614_735), Ok(greatest));
    }

    #[test]
    fn a_refusal_reports_nothing() {
        assert_eq!(Held::from_answer(1 << 32), Err(Refusal::BlockLength));
        assert_eq!(Held::from_answer(5 << 32), Err(Refusal::Mask));
        assert_eq!(Held::from_answer(15 << 32), Err(Refusal::Profile));
        assert_eq!(Held::from_answer(u64::MAX), Err(Refusal::Unknown(u32::MAX)));
    }
}
