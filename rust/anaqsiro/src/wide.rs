//! Wide messages, which speak of several keys and ids at a time.

use crate::message::{front, has_half, in_words, kind_in, marker_in, narrow};
use crate::{Half, Kind, Letters, Marker, Name, Refusal};
use std::collections::BTreeSet;
use std::fmt;

/// The names of one list of a wide half: at least one, and they rise strictly. What is behind the last is 0.
#[derive(Clone, Copy, Debug, PartialEq, Eq, Hash)]
struct Names {
    names: [u16; WideHalf::MOST],
    how_many: u8,
}

impl Names {
    /// The names of a list, in their order and each once.
    fn new(given: impl IntoIterator<Item = Name>) -> Result<Names, NotWide> {
        let mut rising = BTreeSet::new();
        for name in given {
            rising.insert(name);
            if rising.len() > WideHalf::MOST {
                return Err(NotWide::TooMany);
            }
        }
        let fitting: BTreeSet<u16> = rising.into_iter().map(narrow).collect();
        let mut list = Names { names: [0; WideHalf::MOST], how_many: 0 };
        for (place, name) in list.names.iter_mut().zip(fitting) {
            *place = name;
            list.how_many += 1;
        }
        if list.how_many == 0 {
            return Err(NotWide::Empty);
        }
        Ok(list)
    }

    /// A list of one name.
    fn one(name: Name) -> Names {
        let mut names = [0; WideHalf::MOST];
        names[0] = narrow(name);
        Names { names, how_many: 1 }
    }

    fn iter(&self) -> impl Iterator<Item = u16> + '_ {
        self.names.iter().copied().take(self.how_many.into())
    }

    /// Writes what they are, one or several, and each of them.
    fn write(&self, f: &mut fmt::Formatter<'_>, what: &str) -> fmt::Result {
        write!(f, "{what}{}", if self.how_many == 1 { "" } else { "s" })?;
        self.iter().try_for_each(|name| write!(f, " {name}"))
    }
}

/// Why names do not make a list of a wide half.
#[derive(Clone, Copy, Debug, PartialEq, Eq, Hash)]
#[non_exhaustive]
pub enum NotWide {
    /// There is no name.
    Empty,
    /// There are more than [`WideHalf::MOST`] names.
    TooMany,
}

impl fmt::Display for NotWide {
    fn fmt(&self, f: &mut fmt::Formatter<'_>) -> fmt::Result {
        match self {
            NotWide::Empty => write!(f, "a list of keys or ids without a name"),
            NotWide::TooMany => write!(f, "a list of keys or ids with more than {} names", WideHalf::MOST),
        }
    }
}

impl std::error::Error for NotWide {}

/// The library refuses a message with such a list with 3.
impl From<NotWide> for Refusal {
    fn from(_: NotWide) -> Refusal {
        Refusal::Form
    }
}

/// One half of a wide message: keys, ids, and the letters that are taken away from the record of every pair or added to it. As text
/// a marker follows the letters.
///
/// Keys and ids are sets: they may be given in any order, and a name that is given twice stands there once, as a statement counts
/// once in each of its pairs. There are 1 to [`WideHalf::MOST`] of each. A number that is no name is refused by the library with
/// 4, and a wrong mask with 5, as those of a [`Half`] are.
///
/// ```
/// use anaqsiro::{Half, NotWide, Rights, WideHalf};
///
/// let half = WideHalf::new([22, 20, 21], [1, 2, 1], Rights::UPDATE)?;
/// assert_eq!(half.to_string(), "keys 20 21 22, ids 1 2, U");
/// assert_eq!(half.pairs().count(), 6);
/// assert_eq!(half.pairs().next(), Some(Half::new(20, 1, Rights::UPDATE)));
/// assert_eq!(WideHalf::new(20..29, [1], Rights::UPDATE), Err(NotWide::TooMany));
/// assert_eq!(WideHalf::new([20], [], Rights::UPDATE), Err(NotWide::Empty));
/// # Ok::<(), NotWide>(())
/// ```
///
/// A half of one pair says the same as a [`Half`], and is made of it by `from`.
#[derive(Clone, Copy, Debug, PartialEq, Eq, Hash)]
pub struct WideHalf {
    keys: Names,
    ids: Names,
    pub mask: Letters,
    /// The marker that goes with the letters, if the half speaks of memberships.
    pub marker: Option<Marker>,
}

impl WideHalf {
    /// The most keys of a half, and the most ids.
    pub const MOST: usize = 8;

    /// A half with this mask, of rights or of letters, and no marker.
    pub fn new(
        keys: impl IntoIterator<Item = Name>,
        ids: impl IntoIterator<Item = Name>,
        mask: impl Into<Letters>,
    ) -> Result<WideHalf, NotWide> {
        Ok(WideHalf { keys: Names::new(keys)?, ids: Names::new(ids)?, mask: mask.into(), marker: None })
    }

    /// The half with a marker, as [`Half::marked`] has it: every pair has it.
    pub fn marked(self, marker: Marker) -> WideHalf {
        WideHalf { marker: Some(marker), ..self }
    }

    /// The keys, which rise.
    pub fn keys(&self) -> impl Iterator<Item = Name> + '_ {
        self.keys.iter().map(Name::from)
    }

    /// The ids, which rise.
    pub fn ids(&self) -> impl Iterator<Item = Name> + '_ {
        self.ids.iter().map(Name::from)
    }

    /// What the half says of each pair, by key, then id.
    pub fn pairs(&self) -> impl Iterator<Item = Half> + '_ {
        self.keys().flat_map(move |key| self.ids().map(move |id| self.of(key, id)))
    }

    /// What the half says of a pair, if that is one of it.
    pub fn pair(&self, key: Name, id: Name) -> Option<Half> {
        (self.keys().any(|own| own == key) && self.ids().any(|own| own == id)).then(|| self.of(key, id))
    }

    /// The half as a plain one, where it is of one pair.
    pub fn plain(&self) -> Option<Half> {
        self.pairs().next().filter(|_| (self.keys.how_many, self.ids.how_many) == (1, 1))
    }

    fn of(&self, key: Name, id: Name) -> Half {
        Half { key, id, mask: self.mask, marker: self.marker }
    }
}

impl From<Half> for WideHalf {
    fn from(half: Half) -> WideHalf {
        WideHalf { keys: Names::one(half.key), ids: Names::one(half.id), mask: half.mask, marker: half.marker }
    }
}

impl fmt::Display for WideHalf {
    fn fmt(&self, f: &mut fmt::Formatter<'_>) -> fmt::Result {
        self.keys.write(f, "key")?;
        self.ids.write(f, ", id")?;
        write!(f, ", {}", self.mask)?;
        self.marker.map_or(Ok(()), |marker| marker.fmt(f))
    }
}

/// A wide message: its kind, and for each half up to eight keys and up to eight ids, for every pair of them. It is applied as a
/// whole, by [`Block::apply_wide`](crate::Block::apply_wide): all of the previous half is taken away, then all of the new one is
/// added.
///
/// ```
/// use anaqsiro::{Block, Kind, Profile, Refusal, Rights, WideHalf, WideMessage};
///
/// let mut block = Block::with_room(8)?;
/// let four = WideHalf::new([20, 21], [1, 2], Rights::UPDATE)?;
/// let message = WideMessage::new(Kind::Permission, None, Some(four));
/// assert_eq!(message.to_string(), "P, from nothing to keys 20 21, ids 1 2, U");
/// block.apply_wide(message)?;
/// assert!(block.may(2, 21, Rights::UPDATE, Profile::Ordinary)?);
///
/// // One of these pairs is not there: the message is refused, and nothing has changed.
/// let six = WideHalf::new([20, 21, 22], [1, 2], Rights::UPDATE)?;
/// let ended = WideMessage::new(Kind::Permission, Some(six), None);
/// assert_eq!(block.apply_wide(ended), Err(Refusal::NothingToTake));
/// assert_eq!(block.records()?.len(), 4);
/// # Ok::<(), Refusal>(())
/// ```
///
/// Its bytes are always those that [`WideMessage::new`] writes, so that nothing but the flags, a marker, a name or the mask can be
/// wrong with them; the library refuses that.
#[derive(Clone, Copy, PartialEq, Eq, Hash)]
pub struct WideMessage {
    bytes: [u8; WideMessage::LONGEST],
    length: u8,
}

impl WideMessage {
    /// The bytes of the header, before the lists.
    const HEADER: usize = 16;
    /// The bytes of the longest wide message.
    pub const LONGEST: usize = Self::HEADER + 4 * 2 * WideHalf::MOST;
    /// Where the header has the lengths of the lists, the masks of the halves, and where each list begins.
    const LENGTHS: usize = 2;
    const MASKS: usize = 6;
    const OFFSETS: usize = 8;

    /// What the statement said before, and what it says now.
    pub fn new(kind: Kind, previous: Option<WideHalf>, new: Option<WideHalf>) -> WideMessage {
        let (mut bytes, mut end, halves) = ([0; Self::LONGEST], Self::HEADER, [previous, new]);
        bytes[..Self::LENGTHS].copy_from_slice(&front(kind, halves.map(|half| half.map(|half| half.marker))));
        for (side, half) in halves.into_iter().enumerate() {
            bytes[Self::MASKS + side] = half.map_or(0, |half| half.mask.mask());
        }
        let lists = halves.into_iter().flat_map(|half| [half.map(|half| half.keys), half.map(|half| half.ids)]);
        for (number, list) in lists.enumerate() {
            bytes[Self::LENGTHS + number] = list.map_or(0, |list| list.how_many);
            bytes[Self::OFFSETS + 2 * number..][..2].copy_from_slice(&(end as u16).to_le_bytes());
            for name in list.iter().flat_map(Names::iter) {
                bytes[end..][..2].copy_from_slice(&name.to_le_bytes());
                end += 2;
            }
        }
        WideMessage { bytes, length: end as u8 }
    }

    /// The kind. The markers of the halves, which stand in the same byte, are not looked at.
    pub fn kind(&self) -> Option<Kind> {
        kind_in(self.bytes[0])
    }

    /// The previous half and the new one, each if it is present.
    pub fn halves(&self) -> [Option<WideHalf>; 2] {
        [0, 1].map(|side| half_in(self.as_ref(), side))
    }
}

/// The names of a list by its number, as the bytes have them.
fn list_in(bytes: &[u8], number: usize) -> Option<Names> {
    let start = bytes.get(WideMessage::OFFSETS + 2 * number..)?.first_chunk()?;
    let how_many = usize::from(*bytes.get(WideMessage::LENGTHS + number)?);
    let list = bytes.get(u16::from_le_bytes(*start).into()..)?.get(..2 * how_many)?;
    Names::new(list.chunks_exact(2).map(|name| Name::from(name[0]) | Name::from(name[1]) << 8)).ok()
}

/// A half by its number, if the flags say that it is present and its lists can be read.
fn half_in(bytes: &[u8], side: usize) -> Option<WideHalf> {
    let (&[first, flags], &mask) = (bytes.first_chunk()?, bytes.get(WideMessage::MASKS + side)?);
    let mask = Letters::from_mask(mask.into()).filter(|_| has_half(flags, side))?;
    let (keys, ids) = (list_in(bytes, 2 * side)?, list_in(bytes, 2 * side + 1)?);
    Some(WideHalf { keys, ids, mask, marker: marker_in(first, side) })
}

impl AsRef<[u8]> for WideMessage {
    fn as_ref(&self) -> &[u8] {
        &self.bytes[..self.length.into()]
    }
}

/// Bytes that came from elsewhere. They are taken apart and put together again, and refused with [`Refusal::Form`] where that gives
/// other bytes: so it is with all that the library refuses with 3, but for a message without halves, and for a marker on a
/// permission or a filter.
impl TryFrom<&[u8]> for WideMessage {
    type Error = Refusal;

    fn try_from(bytes: &[u8]) -> Result<WideMessage, Refusal> {
        let kind = bytes.first().and_then(|&first| kind_in(first)).ok_or(Refusal::Form)?;
        let message = WideMessage::new(kind, half_in(bytes, 0), half_in(bytes, 1));
        Some(message).filter(|message| message.as_ref() == bytes).ok_or(Refusal::Form)
    }
}

impl fmt::Display for WideMessage {
    fn fmt(&self, f: &mut fmt::Formatter<'_>) -> fmt::Result {
        f.write_str(&in_words(self.kind(), self.halves()))
    }
}

impl fmt::Debug for WideMessage {
    fn fmt(&self, f: &mut fmt::Formatter<'_>) -> fmt::Result {
        write!(f, "WideMessage({:?})", self.as_ref())
    }
}
