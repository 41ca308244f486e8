//! What is sent for a statement: a plain message or a wide one.

use crate::{Block, Kind, Message, Refusal, WideHalf, WideMessage};
use std::fmt;

/// What is sent for a statement: a plain message or a wide one. Their lengths tell the bytes of the two apart.
///
/// A plain half is the same as a wide half of one pair, so both are taken apart into wide halves.
///
/// ```
/// use anaqsiro::{Half, Kind, Message, Rights, Sent, WideHalf};
///
/// let one = Half::new(20, 1, Rights::UPDATE);
/// let more = WideHalf::new([20, 21], [1], Rights::UPDATE)?;
/// let plain = Sent::new(Kind::Permission, None, Some(one.into()));
/// assert_eq!(plain, Message::new(Kind::Permission, None, Some(one)).into());
/// let wide = Sent::new(Kind::Permission, Some(one.into()), Some(more));
/// assert_eq!(wide.to_string(), "P, from key 20, id 1, U to keys 20 21, id 1, U");
/// assert_eq!(wide.halves(), [Some(one.into()), Some(more)]);
/// assert_eq!(Sent::try_from(wide.as_ref()), Ok(wide));
/// # Ok::<(), anaqsiro::NotWide>(())
/// ```
#[derive(Clone, Copy, Debug, PartialEq, Eq, Hash)]
pub enum Sent {
    Plain(Message),
    Wide(WideMessage),
}

impl Sent {
    /// What the statement said before, and what it says now: a plain message, unless a half is of more than one pair.
    pub fn new(kind: Kind, previous: Option<WideHalf>, new: Option<WideHalf>) -> Sent {
        let plain = |half: Option<WideHalf>| half.map_or(Some(None), |half| half.plain().map(Some));
        match (plain(previous), plain(new)) {
            (Some(previous), Some(new)) => Sent::Plain(Message::new(kind, previous, new)),
            _ => Sent::Wide(WideMessage::new(kind, previous, new)),
        }
    }

    /// The kind, if its number is one of a kind.
    pub fn kind(&self) -> Option<Kind> {
        match self {
            Sent::Plain(message) => message.kind(),
            Sent::Wide(message) => message.kind(),
        }
    }

    /// The previous half and the new one, each if it is present.
    pub fn halves(&self) -> [Option<WideHalf>; 2] {
        match self {
            Sent::Plain(message) => message.halves().map(|half| half.map(WideHalf::from)),
            Sent::Wide(message) => message.halves(),
        }
    }

    /// Applies it to a block, by [`Block::apply`] or by [`Block::apply_wide`].
    pub fn apply_to(&self, block: &mut Block) -> Result<(), Refusal> {
        match self {
            Sent::Plain(message) => block.apply(message),
            Sent::Wide(message) => block.apply_wide(message),
        }
    }
}

impl From<Message> for Sent {
    fn from(message: Message) -> Sent {
        Sent::Plain(message)
    }
}

impl From<WideMessage> for Sent {
    fn from(message: WideMessage) -> Sent {
        Sent::Wide(message)
    }
}

impl AsRef<[u8]> for Sent {
    fn as_ref(&self) -> &[u8] {
        match self {
            Sent::Plain(message) => message.as_ref(),
            Sent::Wide(message) => message.as_ref(),
        }
    }
}

/// Bytes that came from elsewhere: a plain message where they are as long as one, else a wide one.
impl TryFrom<&[u8]> for Sent {
    type Error = Refusal;

    fn try_from(bytes: &[u8]) -> Result<Sent, Refusal> {
        Message::try_from(bytes).map(Sent::Plain).or_else(|_| WideMessage::try_from(bytes).map(Sent::Wide))
    }
}

impl fmt::Display for Sent {
    fn fmt(&self, f: &mut fmt::Formatter<'_>) -> fmt::Result {
        match self {
            Sent::Plain(message) => message.fmt(f),
            Sent::Wide(message) => message.fmt(f),
        }
    }
}
