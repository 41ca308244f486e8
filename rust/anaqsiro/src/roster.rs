//! A list of appointments, kept with the day on which a block has it.

use crate::{Appointments, Block, Date, DirectedBlock, Ledger, Refusal};

/// A list of appointments and the day on which a block has them: that of the last accepted move.
///
/// A block does not know its day. A move that started from another one would take away what it never added, which is refused with
/// [`Refusal::NothingToTake`] or takes another's, or add again what the block already has, which is accepted and which nothing ends
/// afterwards. A roster keeps the day with the list, and each move starts where the last accepted one ended. It begins on
/// [`Date::LAST`], on which none stands; that is the start only for a block that was never moved over the list, or was moved back to
/// that day. A roster belongs to one block, and is stored with it.
///
/// ```
/// use anaqsiro::{Appointment, Appointments, Block, Date, Half, Kind, Profile, Refusal, Rights, Roster};
///
/// let (planner, planners, order) = (1, 2, 9);
/// let mut block = Block::with_room(8)?;
/// block.read_set(Kind::Permission, order, "2;R")?;
/// let year = |first| Appointment::new(Half::new(planner, planners, Rights::READ), first, 12);
/// let list = Appointments::new([year(Date::new(2024, 2, 29)?), year(Date::new(2024, 6, 1)?)])?;
///
/// let mut roster = Roster::new(list);
/// block.go_to(&mut roster, Date::new(2025, 2, 27)?)?;
/// assert_eq!(block.set_text(Kind::Membership, planner)?, "2;R2"); // both stand
///
/// let next = roster.next_change().expect("one ends");
/// assert_eq!(next, Date::new(2025, 2, 28)?);
/// block.go_to(&mut roster, next)?;
/// assert!(block.may(planner, order, Rights::READ, Profile::Ordinary)?); // the other still stands
///
/// let next = roster.next_change().expect("the other ends");
/// block.go_to(&mut roster, next)?;
/// assert!(!block.may(planner, order, Rights::READ, Profile::Ordinary)?);
/// assert_eq!((roster.day(), roster.next_change()), (Date::new(2025, 6, 1)?, None));
/// # Ok::<(), Refusal>(())
/// ```
///
/// A [`DirectedBlock`] and a [`Ledger`] have the same two calls. What is proved of the library, with the block of a ledger that
/// began empty and one roster:
///
/// - Each count is at every moment the number of statements and appointments standing with that record and that letter. It stays
///   so over another list, if that is taken up where none of the first stands, as on [`Date::LAST`].
/// - While the list is the first, no move and no message is refused with [`Refusal::NothingToTake`].
/// - From a good block accepted moves by any days in between end the same, byte for byte, and there and back ends as the block was.
/// - An accepted move over one list leaves whatever else the block has, the appointments of other rosters among it, as counts.
///
/// Not proved, but tested, are several rosters of one block beyond that, a list after the second, that nothing is refused with
/// [`Refusal::NothingToTake`] after the list was changed, a block that was given more room, and a ledger that was restored.
///
/// To store it, store its list and its day with the block; [`Roster::from_parts`] makes it again. A block that
/// [`Ledger::restore`] has made has no appointments in it: begin a new roster there, and go to the day.
#[derive(Clone, Debug, PartialEq, Eq)]
pub struct Roster {
    list: Appointments,
    day: Date,
}

impl Roster {
    /// The list of a block that was never moved over it. For one that was, and is loaded, use [`Roster::from_parts`]: with a new
    /// roster its next move would add again what it already has, and nothing would end that.
    pub fn new(list: Appointments) -> Roster {
        Roster { list, day: Date::LAST }
    }

    /// A list and a day as they were stored with the block.
    pub fn from_parts(list: Appointments, day: Date) -> Roster {
        Roster { list, day }
    }

    /// The list.
    pub fn list(&self) -> &Appointments {
        &self.list
    }

    /// The day of the last accepted move, whose appointments the block has; [`Date::LAST`] before the first.
    pub fn day(&self) -> Date {
        self.day
    }

    /// The next day after [`Roster::day`] on which another set of the list stands, if there is one: the day to set a timer for. Where
    /// one ends and another of the same membership begins, another set stands, though no count changes. Go to today first: before the
    /// first move the roster stands on [`Date::LAST`], and the answer is none.
    pub fn next_change(&self) -> Option<Date> {
        self.list.next_change(self.day)
    }

    /// Moves the block to a day.
    fn go(&mut self, block: &mut Block, day: Date) -> Result<(), Refusal> {
        block.go(&self.list, self.day, day)?;
        self.day = day;
        Ok(())
    }

    /// Moves the block to a day with none standing, and back over another list. Where the second is refused, neither was done.
    fn replace(&mut self, block: &mut Block, list: Appointments) -> Result<(), Refusal> {
        let mut moved = block.clone();
        moved.go(&self.list, self.day, Date::LAST)?;
        moved.go(&list, Date::LAST, self.day)?;
        *block = moved;
        self.list = list;
        Ok(())
    }
}

impl Block {
    /// Goes to a day, later or earlier, from the day of the roster, over its list: see [`Block::go`]. Where it is refused, block and
    /// roster are as they were.
    pub fn go_to(&mut self, roster: &mut Roster, day: Date) -> Result<(), Refusal> {
        roster.go(self, day)
    }

    /// Gives the roster another list, on the same day: the appointments of the old list that stand are taken away, then those of
    /// the new one that stand are added. Where that is refused, block and roster are as they were.
    ///
    /// The day is [`Roster::day`]. A host that moves by its timer alone goes to today first: something of the new list may have begun
    /// or ended since the last move. And it sets its timer anew.
    ///
    /// ```
    /// use anaqsiro::{Appointment, Appointments, Block, Date, Half, Kind, Refusal, Rights, Roster};
    ///
    /// let mut block = Block::with_room(1)?;
    /// let one = |id| Appointment::new(Half::new(1, id, Rights::READ), Date::FIRST, 12);
    /// let mut roster = Roster::new(Appointments::new([one(2)])?);
    /// block.go_to(&mut roster, Date::FIRST)?;
    ///
    /// let mut list = roster.list().clone();
    /// list.push(one(3))?;
    /// assert_eq!(block.replace_list(&mut roster, list.clone()), Err(Refusal::NoRoom));
    /// block.grow(2)?;
    /// block.replace_list(&mut roster, list)?;
    /// assert_eq!(block.set_text(Kind::Membership, 1)?, "2;R;3;R");
    /// # Ok::<(), Refusal>(())
    /// ```
    pub fn replace_list(&mut self, roster: &mut Roster, list: Appointments) -> Result<(), Refusal> {
        roster.replace(self, list)
    }
}

impl DirectedBlock {
    /// Goes to a day, as [`Block::go_to`] does, and makes the directory anew: no move knows it.
    pub fn go_to(&mut self, roster: &mut Roster, day: Date) -> Result<(), Refusal> {
        self.made_anew(|block| roster.go(block, day))
    }

    /// Gives the roster another list, as [`Block::replace_list`] does, and makes the directory anew.
    pub fn replace_list(&mut self, roster: &mut Roster, list: Appointments) -> Result<(), Refusal> {
        self.made_anew(|block| roster.replace(block, list))
    }
}

impl<L: Ord> Ledger<L> {
    /// Goes to a day, as [`Block::go_to`] does, and tries again the messages that were refused for lack of room, or at a full count.
    /// How many of these were applied.
    pub fn go_to(&mut self, roster: &mut Roster, day: Date) -> Result<usize, Refusal> {
        self.changed(|block| roster.go(block, day))
    }

    /// Gives the roster another list, as [`Block::replace_list`] does, and tries again what was refused, as [`Ledger::go_to`] does.
    pub fn replace_list(&mut self, roster: &mut Roster, list: Appointments) -> Result<usize, Refusal> {
        self.changed(|block| roster.replace(block, list))
    }
}
