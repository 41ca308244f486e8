//! A list of appointments, and a move of a block over it.

use crate::refusal::{answer, done};
use crate::{raw, Appointment, Block, Date, Refusal};
use std::fmt;

/// A list of appointments, in their order. The library has judged each of them, so that no call refuses the list.
///
/// ```
/// use anaqsiro::{Appointment, Appointments, Date, Half, Refusal, Rights};
///
/// let planner = Half::new(1, 2, Rights::READ);
/// let year = |first| Appointment::new(planner, first, 12);
/// let (first, second) = (Date::new(2024, 2, 29)?, Date::new(2024, 6, 1)?);
/// let mut list = Appointments::new([year(first)])?;
/// list.push(year(second))?;
/// assert_eq!(list.next_change(first), Some(second));
/// assert_eq!(list.standing(second).count(), 2);
///
/// // What is stored is the bytes.
/// assert_eq!(Appointments::from_bytes(list.bytes().to_vec()), Ok(list.clone()));
/// assert_eq!(list.push(year(Date::LAST)), Err(Refusal::OutsideRange));
/// assert_eq!(list.len(), 2);
/// # Ok::<(), Refusal>(())
/// ```
///
/// A [`Roster`](crate::Roster) keeps the list with the day on which a block has it, which is what a host needs.
#[derive(Clone, Default, PartialEq, Eq, Hash)]
pub struct Appointments {
    bytes: Vec<u8>,
}

impl Appointments {
    /// The most appointments of a list.
    pub const MOST: usize = 256;

    /// A list of these. It is judged as a whole, as [`Appointments::from_bytes`] does: a wrong name anywhere comes before a wrong
    /// mask, and that before a wrong term, an anniversary outside the range, and one more than [`Appointments::MOST`].
    pub fn new(appointments: impl IntoIterator<Item = Appointment>) -> Result<Appointments, Refusal> {
        Appointments::from_bytes(appointments.into_iter().flat_map(|appointment| appointment.bytes()).collect())
    }

    /// A list by its bytes, [`Appointment::BYTES`] each. Where a call would refuse it, it is refused so here.
    pub fn from_bytes(bytes: Vec<u8>) -> Result<Appointments, Refusal> {
        changed_after(&bytes, Date::FIRST)?;
        Ok(Appointments { bytes })
    }

    /// The bytes, which can be stored and sent as they are.
    pub fn bytes(&self) -> &[u8] {
        &self.bytes
    }

    /// Puts an appointment at the end. Where it is wrong the list stays as it was; one more than [`Appointments::MOST`] is refused
    /// with [`Refusal::OutsideRange`].
    ///
    /// A list that a block has been moved over is not to be changed so: see [`Block::replace_list`].
    pub fn push(&mut self, appointment: Appointment) -> Result<(), Refusal> {
        let bytes = appointment.bytes();
        changed_after(&bytes, Date::FIRST)?;
        if self.len() == Self::MOST {
            return Err(Refusal::OutsideRange);
        }
        self.bytes.extend(bytes);
        Ok(())
    }

    /// How many there are.
    pub fn len(&self) -> usize {
        self.bytes.len() / Appointment::BYTES
    }

    /// Whether there is none.
    pub fn is_empty(&self) -> bool {
        self.bytes.is_empty()
    }

    /// The appointments, in their order.
    pub fn iter(&self) -> impl Iterator<Item = Appointment> + '_ {
        // None is left out: each was judged when the list was made.
        self.bytes.chunks_exact(Appointment::BYTES).filter_map(|bytes| Appointment::try_from(bytes).ok())
    }

    /// Those that stand on a day, in their order.
    pub fn standing(&self, day: Date) -> impl Iterator<Item = Appointment> + '_ {
        self.iter().filter(move |appointment| appointment.stands(day) == Ok(true))
    }

    /// The next day after this one on which another set of the list stands, if there is one: the day to set a timer for. Where one
    /// ends and another of the same membership begins, another set stands, though no count changes.
    pub fn next_change(&self, day: Date) -> Option<Date> {
        changed_after(&self.bytes, day).unwrap_or_default()
    }
}

/// The next day after this one on which another set of a list stands.
fn changed_after(list: &[u8], day: Date) -> Result<Option<Date>, Refusal> {
    // SAFETY: the pointer and the length are those of one slice, which the call only reads.
    let number = answer(unsafe { raw::anaqsiro_next_change(list.as_ptr(), list.len(), day.day_number()) })?;
    Ok(Date::of_day(number.into()).ok().filter(|_| number > 0))
}

impl AsRef<[u8]> for Appointments {
    fn as_ref(&self) -> &[u8] {
        &self.bytes
    }
}

impl fmt::Debug for Appointments {
    fn fmt(&self, f: &mut fmt::Formatter<'_>) -> fmt::Result {
        f.debug_list().entries(self.iter().map(|appointment| appointment.to_string())).finish()
    }
}

impl Block {
    /// Goes from one day to any other, later or earlier: takes away the appointments of the list that stand on the old day only,
    /// then adds those that stand on the new day only, in the order of the list. Where one is refused nothing has changed, and the
    /// refusal is that of the first: [`Refusal::NothingToTake`], [`Refusal::CountFull`] or [`Refusal::NoRoom`].
    ///
    /// The block does not know its day. While the list stays the same, the old day is the one that the last accepted move went to,
    /// and for the first a day with none standing, as [`Date::LAST`]. From any other it takes away what it never added, which is
    /// refused or takes another's, or adds again what the block already has, which is accepted and which nothing ends afterwards. A
    /// [`Roster`](crate::Roster) sees to the right one.
    pub fn go(&mut self, list: &Appointments, old: Date, new: Date) -> Result<(), Refusal> {
        let (block, list) = (self.bytes_mut(), list.bytes());
        let (old, new) = (old.day_number(), new.day_number());
        // SAFETY: each pointer and length are those of one slice; the borrows keep the two apart.
        done(unsafe { raw::anaqsiro_move(block.as_mut_ptr(), block.len(), list.as_ptr(), list.len(), old, new) })
    }
}
