//! Why a user holds a right.

use crate::message::narrow;
use crate::refusal::{how_many, yes};
use crate::{raw, Block, Name, Refusal, Rights};
use std::fmt;

/// Why a user holds one right on an object: the names on a chain of memberships from the user, and those on a chain from the object,
/// or 0 by itself. They end at the permission record that grants the right.
///
/// A slip is right where each membership from name to name carries the right, the permission record whose key is the last name of
/// the object's list and whose id is the last of the user's list grants it, every filter of the object and of the groups that its
/// memberships name lets it through, and the object is open to the user, if a [`Marker`](crate::Marker) binds her. 0 by itself stands
/// for the group of all resources: what is granted on it counts for every object. It is no chain from the object, unless that is 0.
///
/// ```
/// use anaqsiro::{Block, Kind, Refusal, Rights, Slip};
///
/// let mut block = Block::with_room(8)?;
/// let (planner_7, planners, maintenance, order_4711, line_2) = (7, 10, 12, 711, 20);
/// block.read_set(Kind::Membership, planner_7, "10;MRUP")?; // planner-7 is one of the planners
/// block.read_set(Kind::Membership, planners, "12;RU")?; // planners do maintenance, for reading and updating
/// block.read_set(Kind::Membership, order_4711, "20;MRUP")?; // order-4711 is of line-2
/// block.read_set(Kind::Permission, line_2, "12;U")?; // maintenance may update line-2
/// let slip = block.find_slip(planner_7, order_4711, Rights::UPDATE)?.expect("the right is held");
/// assert_eq!(slip.user_chain, [planner_7, planners, maintenance]);
/// assert_eq!(slip.object_chain, [order_4711, line_2]);
/// assert_eq!(slip.to_string(), "7, 10, 12 | 711, 20");
/// assert!(block.check_slip(planner_7, order_4711, Rights::UPDATE, &slip)?);
///
/// // Another right, or another slip: no.
/// assert!(!block.check_slip(planner_7, order_4711, Rights::READ, &slip)?);
/// let forged = Slip { user_chain: vec![planner_7, maintenance], ..slip.clone() };
/// assert!(!block.check_slip(planner_7, order_4711, Rights::UPDATE, &forged)?);
///
/// // It was right of the block as it was.
/// block.read_set(Kind::Permission, line_2, "")?;
/// assert!(!block.check_slip(planner_7, order_4711, Rights::UPDATE, &slip)?);
/// assert_eq!(block.find_slip(planner_7, order_4711, Rights::UPDATE)?, None);
/// assert_eq!(block.find_slip(planner_7, order_4711, Rights::ALL), Err(Refusal::Mask)); // one right at a time
/// # Ok::<(), anaqsiro::Refusal>(())
/// ```
///
/// Slips belong to the [ordinary profile](crate::Profile::Ordinary): what a slip shows may be barred in the strict one. No slip needs
/// a directory: of a [`DirectedBlock`](crate::DirectedBlock) ask its [block](crate::DirectedBlock::block). As text a slip is the names
/// of its two lists, with `|` between these.
#[derive(Clone, Debug, PartialEq, Eq, Hash)]
pub struct Slip {
    /// The names on the user's chain. The first is the user.
    pub user_chain: Vec<Name>,
    /// The names on the object's chain, of which the first is the object, or 0 by itself.
    pub object_chain: Vec<Name>,
}

impl Slip {
    /// No list of a slip that is right has more names than this: those of a chain of 32 memberships, the start among them.
    pub const LONGEST: usize = 33;
}

/// The names of a chain, as a caller has them.
fn widened(chain: &[u16], names: usize) -> Vec<Name> {
    chain.iter().take(names).copied().map(Name::from).collect()
}

/// The names of a chain, as the call has them.
fn narrowed(chain: &[Name]) -> Vec<u16> {
    chain.iter().copied().map(narrow).collect()
}

impl Block {
    /// A slip for the right, which is to be exactly one. There is one exactly where [`Block::may`] says yes in the ordinary profile.
    /// Which one it is, where there are several, is left open; but no slip for this block, user, object and right has fewer names,
    /// both lists counted together.
    pub fn find_slip(&self, user: Name, object: Name, right: Rights) -> Result<Option<Slip>, Refusal> {
        let (block, right) = (self.bytes(), right.mask().into());
        let (mut users, mut objects) = ([0; Slip::LONGEST], [0; Slip::LONGEST]);
        let (of_user, of_object, places) = (users.as_mut_ptr(), objects.as_mut_ptr(), Slip::LONGEST);
        // SAFETY: each pointer and length are those of one slice; the first is only read, and the others are ours.
        let names = how_many(unsafe {
            raw::anaqsiro_find_slip(block.as_ptr(), block.len(), user, object, right, of_user, places, of_object, places)
        })?;
        let slip = || Slip { user_chain: widened(&users, names % 256), object_chain: widened(&objects, names / 256) };
        Ok((names > 0).then(slip))
    }

    /// Whether a slip is right for this user, object and right, wherever it comes from. A list of no names, or of more than
    /// [`Slip::LONGEST`], is refused with [`Refusal::ChainLength`], after all names of both lists.
    pub fn check_slip(&self, user: Name, object: Name, right: Rights, slip: &Slip) -> Result<bool, Refusal> {
        let (block, right) = (self.bytes(), right.mask().into());
        let (users, objects) = (narrowed(&slip.user_chain), narrowed(&slip.object_chain));
        let [of_user, of_object] = [users.as_ptr(), objects.as_ptr()];
        let [user_len, object_len] = [users.len(), objects.len()];
        // SAFETY: each pointer and length are those of one slice, which the call only reads.
        yes(unsafe {
            raw::anaqsiro_check_slip(block.as_ptr(), block.len(), user, object, right, of_user, user_len, of_object, object_len)
        })
    }
}

/// The names of the user's list, and of the object's.
impl fmt::Display for Slip {
    fn fmt(&self, f: &mut fmt::Formatter<'_>) -> fmt::Result {
        let [user, object] = [&self.user_chain, &self.object_chain].map(|chain| {
            let names: Vec<String> = chain.iter().map(Name::to_string).collect();
            names.join(", ")
        });
        write!(f, "{user} | {object}")
    }
}
