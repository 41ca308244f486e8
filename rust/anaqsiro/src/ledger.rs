//! Statements: what each one left, and the turn of each of its messages.

use crate::{Block, Half, Kind, Name, Refusal, Sent, WideHalf};
use std::borrow::Borrow;
use std::collections::BTreeMap;
use std::fmt;

/// A block with the statements that it counts, which applies each message in its turn.
///
/// A message does not name its statement, so a block can not know whether it came in its turn. Say that a first appointment
/// gives a right, a second one gives it too, and the end of the second arrives before its start. The block accepts the end, as
/// there is a count to take: that of the first appointment. The right is gone until the late start arrives.
///
/// A ledger knows the statement of a message by a label, of any ordered type, and its turn by its sequence number, which
/// rises by one with each message of the statement, from 1. It holds the early message back:
///
/// ```
/// use anaqsiro::{Half, Kind, Ledger, Profile, Rights, Taken, Why};
///
/// // Where the appointments are made, each message gets its sequence number.
/// let mut office = Ledger::with_room(8)?;
/// let update = Half::new(9, 1, Rights::UPDATE);
/// let first = office.say("first", Kind::Permission, Some(update))?;
/// let second = office.say("second", Kind::Permission, Some(update))?;
/// let ended = office.say("second", Kind::Permission, None)?;
/// assert_eq!((first.sequence, second.sequence, ended.sequence), (1, 1, 2));
///
/// // Elsewhere the messages arrive in another order.
/// let mut plant = Ledger::with_room(8)?;
/// plant.take("first", first.sequence, first.message)?;
/// let early = plant.take("second", ended.sequence, ended.message)?;
/// assert_eq!(early, Taken::HeldBack(Why::Early));
/// assert!(plant.block().may(1, 9, Rights::UPDATE, Profile::Ordinary)?); // the first appointment still stands
/// let late = plant.take("second", second.sequence, second.message)?;
/// assert_eq!(late, Taken::Applied { released: 1 });
/// assert!(plant.block().may(1, 9, Rights::UPDATE, Profile::Ordinary)?);
/// assert_eq!(plant.block(), office.block()); // the same block, byte for byte
/// # Ok::<(), Box<dyn std::error::Error>>(())
/// ```
///
/// The block begins empty, and each message that is applied quotes as its previous half just what its statement left. Then each
/// count is the number of statements standing with that record and that letter, at every moment, and no message is refused with
/// [`Refusal::NothingToTake`]: that is proved of the library. A marker counts as a letter, a wide statement counts once in each of
/// its pairs, and an appointment of a [`Roster`](crate::Roster) counts as a statement on the days on which it stands. With moves in
/// between, both are proved for one roster, whose list stays; what is proved of other lists is said there. Not proved, but tested,
/// are a block that was given more room and a ledger that was restored.
///
/// What is sent may be plain or wide, as it likes for each message of a statement: what a statement left is a list of pairs, and a
/// plain half is the list of one.
///
/// ```
/// use anaqsiro::{Half, Kind, Ledger, Profile, Rights, Sent, WideHalf};
///
/// let mut ledger = Ledger::with_room(8)?;
/// let four = WideHalf::new([20, 21], [1, 2], Rights::UPDATE)?;
/// ledger.say_wide("planner", Kind::Permission, Some(four))?;
/// ledger.say("foreman", Kind::Permission, Some(Half::new(21, 2, Rights::UPDATE)))?; // one of the same rights
/// let fewer = ledger.say("planner", Kind::Permission, Some(Half::new(20, 1, Rights::UPDATE)))?;
/// assert_eq!(fewer.message.to_string(), "P, from keys 20 21, ids 1 2, U to key 20, id 1, U");
/// let ended = ledger.say("planner", Kind::Permission, None)?;
/// assert!(matches!((fewer.message, ended.message), (Sent::Wide(_), Sent::Plain(_))));
/// assert!(ledger.block().may(2, 21, Rights::UPDATE, Profile::Ordinary)?); // the foreman's still stands
/// assert_eq!(ledger.block().records()?.len(), 1);
/// # Ok::<(), Box<dyn std::error::Error>>(())
/// ```
///
/// A message is kept as what it says. Where it is wide and a plain one would do, the plain one is shown and given back in its
/// place.
///
/// What [`Ledger::take`] does with a message:
///
/// | the message | the answer | and then |
/// |---|---|---|
/// | comes in its turn | [`Taken::Applied`] | those behind it that were held back follow |
/// | comes early | [`Taken::HeldBack`] with [`Why::Early`] | it is kept until those before it have come |
/// | comes in its turn, and a count is full (7) or the block is (8) | [`Taken::HeldBack`] with [`Why::Refused`] | it is kept, and tried again after each message that is applied, and by [`Ledger::grow`] and [`Ledger::go_to`] |
/// | has the sequence number of one that was applied | [`Taken::Repeated`] | it is not kept |
/// | is not well formed (3, 4, 5) | [`NotTaken::Refused`] | nothing has changed, and it is not kept |
/// | is of another kind than its statement | [`NotTaken::OtherKind`] | the same |
/// | comes in its turn, and quotes something else than the statement left | [`NotTaken::NotQuoted`] | the same |
/// | has the sequence number of another one that is held back | [`NotTaken::Conflicts`] | the same |
///
/// So a message that the ledger keeps is not lost: it is applied in its turn, or [`Ledger::waiting`] shows it and says why. The
/// host can always go on. Where a message will not come, [`Ledger::skip`] does without it. Where one that is held back is wrong,
/// [`Ledger::give_back`] takes it out. Where there is no room, [`Ledger::grow`] makes it: a block that has just room for some
/// messages in the order in which they were said may be too small for them in another.
///
/// A ledger is kept in memory. To store it, store what [`Ledger::statements`] and [`Ledger::waiting`] give.
/// [`Ledger::restore`] makes it again, and its block, from the statements alone.
#[derive(Clone, Debug)]
pub struct Ledger<L> {
    block: Block,
    known: BTreeMap<L, Known>,
    /// Whether some message may be held back because the library refused it.
    some_refused: bool,
}

/// What a statement has said so far.
#[derive(Clone, Copy, Debug, PartialEq, Eq, Hash)]
pub struct Statement {
    /// Its kind, which it keeps.
    pub kind: Kind,
    /// What it left: the new half of its last applied message, if that had one. It stands while it has something left. Where it is
    /// of one pair, [`WideHalf::plain`] gives it as a plain half.
    pub left: Option<WideHalf>,
    /// The sequence number of its last applied message; 0 before the first.
    pub taken: u64,
}

/// A message that was said, to be sent on with its sequence number.
#[derive(Clone, Copy, Debug, PartialEq, Eq, Hash)]
pub struct Said {
    /// Its number among the messages of its statement, from 1.
    pub sequence: u64,
    pub message: Sent,
}

/// What became of a message that the ledger took.
#[derive(Clone, Copy, Debug, PartialEq, Eq, Hash)]
pub enum Taken {
    /// It was applied, and after it so many that were held back, of any statement.
    Applied { released: usize },
    /// It is held back, for this reason.
    HeldBack(Why),
    /// A message with its sequence number was applied before, or was passed over by [`Ledger::skip`]. What it says is not looked at.
    Repeated,
}

/// Why a message is held back.
#[derive(Clone, Copy, Debug, PartialEq, Eq, Hash)]
#[non_exhaustive]
pub enum Why {
    /// It is not its turn: a message before it was not applied yet.
    Early,
    /// Its statement is of this kind, and the message is not.
    OtherKind(Kind),
    /// Its statement left this, and the message quotes something else.
    NotQuoted(Option<WideHalf>),
    /// The library refuses it: with 7 while a count is full, with 8 while the block is.
    Refused(Refusal),
}

impl fmt::Display for Why {
    fn fmt(&self, f: &mut fmt::Formatter<'_>) -> fmt::Result {
        match self {
            Why::Early => write!(f, "a message of its statement comes before it"),
            Why::OtherKind(kind) => write!(f, "its statement is of kind {}", kind.letter()),
            Why::NotQuoted(None) => write!(f, "its statement left nothing, and it quotes something"),
            Why::NotQuoted(Some(left)) => write!(f, "its statement left {left}, and it does not quote that"),
            Why::Refused(refusal) => refusal.fmt(f),
        }
    }
}

/// Why a message was not taken, or not said. Nothing has changed then.
#[derive(Clone, Copy, Debug, PartialEq, Eq, Hash)]
#[non_exhaustive]
pub enum NotTaken {
    /// The library refuses it.
    Refused(Refusal),
    /// Its sequence number is 0; the first message of a statement has 1.
    SequenceZero,
    /// Its statement is of this kind.
    OtherKind(Kind),
    /// It is its turn, and its statement left this, but it quotes something else.
    NotQuoted(Option<WideHalf>),
    /// This other message with the same sequence number is held back.
    Conflicts(Sent),
    /// Messages of the statement are held back: they come before what would be said now.
    OthersFirst,
    /// No message of the statement is held back.
    NothingHeldBack,
    /// There is no greater sequence number for another message of the statement.
    SequenceUsedUp,
}

impl From<Refusal> for NotTaken {
    fn from(refusal: Refusal) -> NotTaken {
        NotTaken::Refused(refusal)
    }
}

impl From<Why> for NotTaken {
    fn from(why: Why) -> NotTaken {
        match why {
            Why::Early => NotTaken::OthersFirst,
            Why::OtherKind(kind) => NotTaken::OtherKind(kind),
            Why::NotQuoted(left) => NotTaken::NotQuoted(left),
            Why::Refused(refusal) => NotTaken::Refused(refusal),
        }
    }
}

impl fmt::Display for NotTaken {
    fn fmt(&self, f: &mut fmt::Formatter<'_>) -> fmt::Result {
        match *self {
            NotTaken::Refused(refusal) => Why::Refused(refusal).fmt(f),
            NotTaken::SequenceZero => write!(f, "the sequence number is 0, and the first message of a statement has 1"),
            NotTaken::OtherKind(kind) => Why::OtherKind(kind).fmt(f),
            NotTaken::NotQuoted(left) => Why::NotQuoted(left).fmt(f),
            NotTaken::Conflicts(held) => write!(f, "another message with its sequence number is held back: {held}"),
            NotTaken::OthersFirst => write!(f, "messages of the statement are held back, which come first"),
            NotTaken::NothingHeldBack => write!(f, "no message of the statement is held back"),
            NotTaken::SequenceUsedUp => write!(f, "the statement has no sequence number left"),
        }
    }
}

impl std::error::Error for NotTaken {}

/// A statement that has messages held back.
#[derive(Clone, Debug, PartialEq, Eq)]
pub struct Waiting<'a, L> {
    pub label: &'a L,
    /// The sequence number of the message whose turn it is.
    pub next: u64,
    /// Why the first of those held back is: [`Why::Early`] where the message whose turn it is has not come.
    pub why: Why,
    /// The messages held back, with their sequence numbers, which rise.
    pub held: Vec<(u64, Sent)>,
}

/// What a well-formed message says, plain or wide.
#[derive(Clone, Copy, Debug, PartialEq, Eq)]
struct Told {
    kind: Kind,
    previous: Option<WideHalf>,
    new: Option<WideHalf>,
}

impl Told {
    /// Takes a message apart; one that is not well formed is refused with 3, 4 or 5. It is the library that judges: it tests
    /// these before it looks for what to take (6) and for room (8), and a block without room has neither.
    fn of(sent: &Sent) -> Result<Told, Refusal> {
        match sent.apply_to(&mut Block::with_room(0)?) {
            Err(Refusal::NothingToTake | Refusal::NoRoom) => {}
            Err(refusal) => return Err(refusal),
            Ok(()) => return Err(Refusal::Form),
        }
        let [previous, new] = sent.halves();
        Ok(Told { kind: sent.kind().ok_or(Refusal::Form)?, previous, new })
    }

    /// A message that says it.
    fn message(&self) -> Sent {
        Sent::new(self.kind, self.previous, self.new)
    }
}

/// A statement as the ledger knows it.
#[derive(Clone, Debug, Default)]
struct Known {
    /// What it has said, once a message of it was applied.
    said: Option<Statement>,
    /// Its messages that are held back, by their sequence numbers, which are all above that of the last applied one.
    held: BTreeMap<u64, Told>,
    /// How the library refused the one whose turn it is and that fits, when it was last tried.
    refused: Option<Refusal>,
}

impl Known {
    /// The sequence number of the last applied message.
    fn taken(&self) -> u64 {
        self.said.map_or(0, |said| said.taken)
    }

    /// What the statement left.
    fn left(&self) -> Option<WideHalf> {
        self.said.and_then(|said| said.left)
    }

    /// The statement has said this.
    fn says(&mut self, sequence: u64, told: Told) {
        self.said = Some(Statement { kind: told.kind, left: told.new, taken: sequence });
    }

    /// Whether a message is of the statement's kind.
    fn keeps(&self, kind: Kind) -> Result<(), Why> {
        match self.said {
            Some(said) if said.kind != kind => Err(Why::OtherKind(said.kind)),
            _ => Ok(()),
        }
    }

    /// Whether it is the turn of a message, one above the last applied, and it quotes what the statement left.
    fn fits(&self, sequence: u64, told: &Told) -> Result<(), Why> {
        self.keeps(told.kind)?;
        if sequence - self.taken() != 1 {
            return Err(Why::Early);
        }
        if told.previous != self.left() {
            return Err(Why::NotQuoted(self.left()));
        }
        Ok(())
    }

    /// Why a message is held back.
    fn why(&self, sequence: u64, told: &Told) -> Why {
        match (self.fits(sequence, told), self.refused) {
            (Err(why), _) => why,
            (Ok(()), Some(refusal)) => Why::Refused(refusal),
            (Ok(()), None) => Why::Early,
        }
    }

    /// Applies those held back whose turn has come; how many.
    fn release(&mut self, block: &mut Block) -> usize {
        let mut applied = 0;
        self.refused = None;
        while let Some((&sequence, &told)) = self.held.first_key_value() {
            if self.fits(sequence, &told).is_err() {
                break;
            }
            if let Err(refusal) = told.message().apply_to(block) {
                self.refused = Some(refusal);
                break;
            }
            self.held.pop_first();
            self.says(sequence, told);
            applied += 1;
        }
        applied
    }
}

impl<L: Ord> Ledger<L> {
    /// A ledger without statements, over an empty block with room for so many records. More than
    /// [`Block::GREATEST_ROOM`] are refused.
    pub fn with_room(room: usize) -> Result<Ledger<L>, Refusal> {
        Ok(Ledger { block: Block::with_room(room)?, known: BTreeMap::new(), some_refused: false })
    }

    /// A ledger with these statements, as [`Ledger::statements`] gave them, over a block that counts them: the same block, byte
    /// for byte, as the one that they were taken from, if it has the same room and no appointments. Of a label that comes twice the
    /// last counts. Messages that were held back are to be taken again. If the block was moved, it is to be moved again over a new
    /// [`Roster`](crate::Roster); if that is accepted, it is the same block.
    ///
    /// ```
    /// use anaqsiro::{Half, Kind, Ledger, Rights};
    ///
    /// let mut ledger = Ledger::with_room(8)?;
    /// ledger.say("first", Kind::Permission, Some(Half::new(9, 1, Rights::UPDATE)))?;
    /// let stored: Vec<_> = ledger.statements().map(|(label, statement)| (*label, statement)).collect();
    /// let restored = Ledger::restore(8, stored)?;
    /// assert_eq!(restored.block(), ledger.block());
    /// # Ok::<(), Box<dyn std::error::Error>>(())
    /// ```
    pub fn restore(room: usize, statements: impl IntoIterator<Item = (L, Statement)>) -> Result<Ledger<L>, Refusal> {
        let mut ledger = Ledger::with_room(room)?;
        let known = statements.into_iter().map(|(label, said)| (label, Known { said: Some(said), ..Known::default() }));
        ledger.known.extend(known);
        for said in ledger.known.values().filter_map(|known| known.said).filter(|said| said.left.is_some()) {
            Sent::new(said.kind, None, said.left).apply_to(&mut ledger.block)?;
        }
        Ok(ledger)
    }

    /// The block, to ask questions of. Only the ledger changes it, by messages and by moves.
    pub fn block(&self) -> &Block {
        &self.block
    }

    /// Says something new for a statement, or that it ends: builds the message, which quotes what the statement left, and
    /// applies it. The message can be sent on with its sequence number. Where it is refused, the number is not used up.
    ///
    /// A statement has one speaker. So it is refused while messages of the statement are held back: the numbers that are
    /// missing here were given to others already.
    pub fn say(&mut self, label: L, kind: Kind, new: Option<Half>) -> Result<Said, NotTaken> {
        self.say_wide(label, kind, new.map(WideHalf::from))
    }

    /// Says something of several keys and ids at a time, as [`Ledger::say`] does of one pair. The message is wide only where it has
    /// to be: where what it quotes or what it says is of more than one pair.
    pub fn say_wide(&mut self, label: L, kind: Kind, new: Option<WideHalf>) -> Result<Said, NotTaken> {
        let blank = Known::default();
        let known = self.known.get(&label).unwrap_or(&blank);
        if !known.held.is_empty() {
            return Err(NotTaken::OthersFirst);
        }
        let sequence = known.taken().checked_add(1).ok_or(NotTaken::SequenceUsedUp)?;
        let told = Told { kind, previous: known.left(), new };
        known.fits(sequence, &told)?;
        let message = told.message();
        message.apply_to(&mut self.block)?;
        self.applied(label, sequence, told);
        Ok(Said { sequence, message })
    }

    /// Takes a message of a statement that was said elsewhere, plain or wide, with its sequence number: applies it in its turn, or
    /// holds it back until then. The table [above](Ledger) has every case.
    ///
    /// Where the answer is a [`Taken`], the ledger has seen to the message, and it need not be handed in again. Where it is a
    /// [`NotTaken`], the ledger does not have it.
    pub fn take(&mut self, label: L, sequence: u64, message: impl Into<Sent>) -> Result<Taken, NotTaken> {
        let sent = message.into();
        let told = Told::of(&sent)?;
        if sequence == 0 {
            return Err(NotTaken::SequenceZero);
        }
        let blank = Known::default();
        let known = self.known.get(&label).unwrap_or(&blank);
        if sequence <= known.taken() {
            return Ok(Taken::Repeated);
        }
        match known.held.get(&sequence) {
            Some(held) if *held != told => return Err(NotTaken::Conflicts(held.message())),
            Some(held) => return Ok(Taken::HeldBack(known.why(sequence, held))),
            None => {}
        }
        let why = match known.fits(sequence, &told) {
            Ok(()) => match sent.apply_to(&mut self.block) {
                Ok(()) => return Ok(Taken::Applied { released: self.applied(label, sequence, told) }),
                Err(refusal @ (Refusal::CountFull | Refusal::NoRoom)) => Why::Refused(refusal),
                Err(refusal) => return Err(refusal.into()),
            },
            Err(Why::Early) => Why::Early,
            Err(why) => return Err(why.into()),
        };
        self.hold(label, sequence, told, why);
        Ok(Taken::HeldBack(why))
    }

    /// Keeps a message back.
    fn hold(&mut self, label: L, sequence: u64, told: Told, why: Why) {
        let known = self.known.entry(label).or_default();
        known.held.insert(sequence, told);
        if let Why::Refused(refusal) = why {
            known.refused = Some(refusal);
            self.some_refused = true;
        }
    }

    /// A message was applied. How many of those held back could be applied after it.
    fn applied(&mut self, label: L, sequence: u64, told: Told) -> usize {
        let known = self.known.entry(label).or_default();
        known.says(sequence, told);
        let released = known.release(&mut self.block);
        self.some_refused |= known.refused.is_some();
        released + self.retry()
    }

    /// Tries the messages that the library refused again, until no more of them is accepted; how many were applied.
    fn retry(&mut self) -> usize {
        let mut applied = 0;
        while self.some_refused {
            let mut now = 0;
            self.some_refused = false;
            for known in self.known.values_mut().filter(|known| known.refused.is_some()) {
                now += known.release(&mut self.block);
                self.some_refused |= known.refused.is_some();
            }
            applied += now;
            if now == 0 {
                break;
            }
        }
        applied
    }

    /// Makes room in the block for so many records in all, and tries again what was refused for lack of it. How many messages
    /// were applied.
    pub fn grow(&mut self, room: usize) -> Result<usize, Refusal> {
        self.changed(|block| block.grow(room))
    }

    /// Changes the block by something else than a message, and tries again what was refused; how many messages were applied.
    pub(crate) fn changed(&mut self, change: impl FnOnce(&mut Block) -> Result<(), Refusal>) -> Result<usize, Refusal> {
        change(&mut self.block)?;
        Ok(self.retry())
    }

    /// Goes on with a statement whose next message will not come, or does not fit it: the first message held back is applied as
    /// though it quoted what the statement left, and those behind it follow. How many were applied, it among them.
    ///
    /// Each message says in full what its statement says from then on. So the block is the one that the whole stream would have
    /// left, and nothing is lost but the time between. The messages passed over are given up: should one come, it is
    /// [`Taken::Repeated`].
    ///
    /// ```
    /// use anaqsiro::{Half, Kind, Ledger, Message, Profile, Rights, Taken};
    ///
    /// let half = |rights| Some(Half::new(9, 1, rights));
    /// let mut ledger = Ledger::with_room(8)?;
    /// let third = Message::new(Kind::Permission, half(Rights::READ), half(Rights::UPDATE));
    /// ledger.take("first", 3, third)?;
    /// assert_eq!(ledger.block().rights(1, 9, Rights::ALL, Profile::Ordinary)?.rights, Rights::NONE);
    /// assert_eq!(ledger.skip("first")?, 1); // the first and the second were lost
    /// assert_eq!(ledger.block().rights(1, 9, Rights::ALL, Profile::Ordinary)?.rights, Rights::UPDATE);
    /// let second = Message::new(Kind::Permission, half(Rights::CREATE), half(Rights::READ));
    /// assert_eq!(ledger.take("first", 2, second)?, Taken::Repeated);
    /// # Ok::<(), Box<dyn std::error::Error>>(())
    /// ```
    pub fn skip<Q>(&mut self, label: &Q) -> Result<usize, NotTaken>
    where
        L: Borrow<Q>,
        Q: Ord + ?Sized,
    {
        let known = self.known.get_mut(label).ok_or(NotTaken::NothingHeldBack)?;
        let (&sequence, &held) = known.held.first_key_value().ok_or(NotTaken::NothingHeldBack)?;
        known.keeps(held.kind)?;
        let told = Told { previous: known.left(), ..held };
        if told.previous.is_some() || told.new.is_some() {
            told.message().apply_to(&mut self.block)?;
        }
        known.held.pop_first();
        known.says(sequence, told);
        let released = known.release(&mut self.block);
        self.some_refused |= known.refused.is_some();
        Ok(1 + released + self.retry())
    }

    /// Takes a message that is held back out of the ledger, as though it had not come.
    pub fn give_back<Q>(&mut self, label: &Q, sequence: u64) -> Option<Sent>
    where
        L: Borrow<Q>,
        Q: Ord + ?Sized,
    {
        let told = self.known.get_mut(label)?.held.remove(&sequence)?;
        Some(told.message())
    }

    /// What a statement has said so far, if a message of it was applied.
    pub fn statement<Q>(&self, label: &Q) -> Option<Statement>
    where
        L: Borrow<Q>,
        Q: Ord + ?Sized,
    {
        self.known.get(label)?.said
    }

    /// What a statement left, if it stands.
    pub fn left<Q>(&self, label: &Q) -> Option<WideHalf>
    where
        L: Borrow<Q>,
        Q: Ord + ?Sized,
    {
        self.statement(label)?.left
    }

    /// Each statement of which a message was applied, by label; also those that do not stand any more.
    pub fn statements(&self) -> impl Iterator<Item = (&L, Statement)> {
        self.known.iter().filter_map(|(label, known)| Some((label, known.said?)))
    }

    /// The statements that stand with a record, and what each left of it, its letters and its marker: who is to be asked why a right
    /// is there, or why somebody is bound. A wide statement is among those of each of its pairs.
    pub fn statements_of(&self, kind: Kind, key: Name, id: Name) -> impl Iterator<Item = (&L, Half)> {
        let of_kind = self.statements().filter(move |(_, said)| said.kind == kind);
        of_kind.filter_map(move |(label, said)| Some((label, said.left?.pair(key, id)?)))
    }

    /// The statements that have messages held back, by label.
    pub fn waiting(&self) -> impl Iterator<Item = Waiting<'_, L>> {
        self.known.iter().filter_map(|(label, known)| {
            let (&sequence, told) = known.held.first_key_value()?;
            let held = known.held.iter().map(|(&sequence, told)| (sequence, told.message())).collect();
            Some(Waiting { label, next: known.taken() + 1, why: known.why(sequence, told), held })
        })
    }
}
