//! What a host tells the index: kinds, names, halves and messages.

use crate::{Letters, Marker, Refusal};
use std::fmt;

/// The number of a user, a group or an object. It is 64 bits wide everywhere, so that 65,537 is refused with
/// [`Refusal::Name`] and never taken for 1.
pub type Name = u64;

/// Names are below this number; 0 is the group of all resources.
pub const NAMES: Name = 1024;

/// What a record says.
#[derive(Clone, Copy, Debug, PartialEq, Eq, PartialOrd, Ord, Hash)]
pub enum Kind {
    /// The key is a member of the group id.
    Membership = 1,
    /// The id is granted or denied rights on the key.
    Permission = 2,
    /// The filter named id bounds the key, and the members of the key where that is a group. Every filter binds.
    Filter = 3,
}

impl Kind {
    /// Each kind, in the order of the numbers.
    pub const ALL: [Kind; 3] = [Kind::Membership, Kind::Permission, Kind::Filter];

    /// The kind of a number, 1 to 3.
    pub fn from_number(number: u64) -> Option<Kind> {
        Self::ALL.into_iter().find(|kind| u64::from(kind.number()) == number)
    }

    /// The number of the kind.
    pub const fn number(self) -> u8 {
        self as u8
    }

    /// The letter of the kind: M, P or F.
    pub const fn letter(self) -> char {
        match self {
            Kind::Membership => 'M',
            Kind::Permission => 'P',
            Kind::Filter => 'F',
        }
    }
}

/// One half of a message: a record, and the letters that are taken away from it or added to it. As text a marker follows the
/// letters.
#[derive(Clone, Copy, Debug, PartialEq, Eq, Hash)]
pub struct Half {
    pub key: Name,
    pub id: Name,
    pub mask: Letters,
    /// The marker that goes with the letters, if the half speaks of a membership.
    pub marker: Option<Marker>,
}

/// A name in the 16 bits that a message has for it. One that they do not hold becomes the greatest that they do, which is
/// above every name too: the message is refused with 4, as it should be.
pub(crate) fn narrow(name: Name) -> u16 {
    u16::try_from(name).unwrap_or(u16::MAX)
}

/// The bits of the first byte of a message, plain or wide, that have the kind, and the one from which on each half, the previous
/// and the new one, has its markers: X and N, a bit for each.
const KIND: u8 = 15;
const MARKERS: [u32; 2] = [6, 4];

/// The first two bytes of a message, plain or wide, by the marker of each half that is present: the kind with the markers, and
/// which halves are present.
pub(crate) fn front(kind: Kind, halves: [Option<Option<Marker>>; 2]) -> [u8; 2] {
    let mut front = [kind.number(), 0];
    for (side, half) in halves.into_iter().enumerate() {
        if let Some(marker) = half {
            front[0] |= marker.map_or(0, |marker| 1 << marker as u8) << MARKERS[side];
            front[1] |= 1 << side;
        }
    }
    front
}

/// The kind in the first byte, if its number is one of a kind.
pub(crate) fn kind_in(first: u8) -> Option<Kind> {
    Kind::from_number((first & KIND).into())
}

/// The marker of a half in the first byte, by the half's number; none where it has both, which is refused.
pub(crate) fn marker_in(first: u8, side: usize) -> Option<Marker> {
    let bits = first >> MARKERS[side] & 3;
    Marker::ALL.into_iter().find(|&marker| bits == 1 << marker as u8)
}

/// Whether the second byte says that a half is present, by the half's number.
pub(crate) fn has_half(flags: u8, side: usize) -> bool {
    flags >> side & 1 == 1
}

/// A message, plain or wide, as text: its kind, and what the statement said before and says now.
pub(crate) fn in_words(kind: Option<Kind>, halves: [Option<impl fmt::Display>; 2]) -> String {
    let [previous, new] = halves.map(|half| half.map_or("nothing".into(), |half| half.to_string()));
    format!("{}, from {previous} to {new}", kind.map_or('?', Kind::letter))
}

impl Half {
    /// The bytes of a half in a message: key, id and mask.
    const BYTES: usize = 5;

    /// A half with this mask, of rights or of letters, and no marker.
    pub fn new(key: Name, id: Name, mask: impl Into<Letters>) -> Half {
        Half { key, id, mask: mask.into(), marker: None }
    }

    /// The half with a marker. It is part of what a statement leaves and has to quote. Of a permission or a filter, the message is
    /// refused with [`Refusal::Form`]; without letters beside the marker, with [`Refusal::Mask`].
    ///
    /// ```
    /// use anaqsiro::{Block, Half, Kind, Marker, Message, Refusal, Rights};
    ///
    /// let mut block = Block::with_room(8)?;
    /// let plain = Half::new(1, 2, Rights::READ);
    /// let marked = plain.marked(Marker::X);
    /// block.apply(Message::new(Kind::Membership, None, Some(marked)))?;
    /// let other = Message::new(Kind::Membership, Some(plain.marked(Marker::N)), None);
    /// assert_eq!(block.apply(other), Err(Refusal::NothingToTake));
    /// block.apply(Message::new(Kind::Membership, Some(marked), Some(plain)))?; // the marker is taken away
    /// assert_eq!(block.set_text(Kind::Membership, 1)?, "2;R");
    /// # Ok::<(), Refusal>(())
    /// ```
    pub fn marked(self, marker: Marker) -> Half {
        Half { marker: Some(marker), ..self }
    }

    fn put(self, bytes: &mut [u8]) {
        bytes[..2].copy_from_slice(&narrow(self.key).to_le_bytes());
        bytes[2..4].copy_from_slice(&narrow(self.id).to_le_bytes());
        bytes[4] = self.mask.mask();
    }

    fn get(bytes: &[u8], marker: Option<Marker>) -> Half {
        let name = |at: usize| u16::from_le_bytes([bytes[at], bytes[at + 1]]).into();
        Half { key: name(0), id: name(2), mask: Letters::from_mask(bytes[4].into()).unwrap_or_default(), marker }
    }
}

impl fmt::Display for Half {
    fn fmt(&self, f: &mut fmt::Formatter<'_>) -> fmt::Result {
        write!(f, "key {}, id {}, {}", self.key, self.id, self.mask)?;
        self.marker.map_or(Ok(()), |marker| marker.fmt(f))
    }
}

/// A message: its kind with the markers of the halves, which halves are present, and the two halves. It may be any bytes; the library
/// refuses what is wrong. A [`WideMessage`](crate::WideMessage) speaks of several keys and ids at a time.
///
/// ```
/// use anaqsiro::{Half, Kind, Letters, Message};
///
/// let message = Message::new(Kind::Permission, None, Some(Half::new(7, 3, "MRU".parse::<Letters>()?)));
/// assert_eq!(message.0, [2, 2, 0, 0, 0, 0, 0, 7, 0, 3, 0, 7]);
/// assert_eq!(message.to_string(), "P, from nothing to key 7, id 3, MRU");
/// # Ok::<(), anaqsiro::NotLetters>(())
/// ```
#[derive(Clone, Copy, Debug, PartialEq, Eq, Hash)]
pub struct Message(pub [u8; Message::BYTES]);

impl Message {
    /// The bytes of a message.
    pub const BYTES: usize = Self::HALVES + 2 * Half::BYTES;
    /// Where the halves begin, after kind and flags.
    const HALVES: usize = 2;

    /// What the statement said before, and what it says now.
    pub fn new(kind: Kind, previous: Option<Half>, new: Option<Half>) -> Message {
        let (mut bytes, halves) = ([0; Message::BYTES], [previous, new]);
        let (first, rest) = bytes.split_at_mut(Self::HALVES);
        first.copy_from_slice(&front(kind, halves.map(|half| half.map(|half| half.marker))));
        for (half, bytes) in halves.into_iter().zip(rest.chunks_mut(Half::BYTES)) {
            if let Some(half) = half {
                half.put(bytes);
            }
        }
        Message(bytes)
    }

    /// The kind, if its number is one of a kind. The markers of the halves, which stand in the same byte, are not looked at.
    pub fn kind(&self) -> Option<Kind> {
        kind_in(self.0[0])
    }

    /// The previous half and the new one, each if the flags say that it is present. A half with both markers, which is refused, is
    /// given without a marker.
    pub fn halves(&self) -> [Option<Half>; 2] {
        [0, 1].map(|side| {
            let bytes = &self.0[Self::HALVES + side * Half::BYTES..][..Half::BYTES];
            has_half(self.0[1], side).then(|| Half::get(bytes, marker_in(self.0[0], side)))
        })
    }
}

impl AsRef<[u8]> for Message {
    fn as_ref(&self) -> &[u8] {
        &self.0
    }
}

/// Bytes that came from elsewhere. Only their length is looked at.
impl TryFrom<&[u8]> for Message {
    type Error = Refusal;

    fn try_from(bytes: &[u8]) -> Result<Message, Refusal> {
        bytes.try_into().map(Message).map_err(|_| Refusal::Form)
    }
}

impl fmt::Display for Message {
    fn fmt(&self, f: &mut fmt::Formatter<'_>) -> fmt::Result {
        f.write_str(&in_words(self.kind(), self.halves()))
    }
}
