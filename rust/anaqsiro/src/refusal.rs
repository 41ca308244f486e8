//! The numbers that a call can give.

use std::fmt;

/// Why a call was refused. Nothing has changed then.
#[derive(Clone, Copy, Debug, PartialEq, Eq, Hash)]
#[non_exhaustive]
pub enum Refusal {
    /// 1: block length not [`Block::SHORTEST`](crate::Block::SHORTEST) to [`Block::LONGEST`](crate::Block::LONGEST).
    BlockLength,
    /// 2: block not good.
    BlockNotGood,
    /// 3: message not as long as a [`Message`](crate::Message), or kind, flags, a marker or an absent half wrong: both markers in one
    /// half, one on an absent half, or one on a permission or a filter. Of a [`WideMessage`](crate::WideMessage) also a header or a
    /// length that is not that of its lists, or a list that is empty, too long or not strictly rising. Of a list of
    /// [`Appointments`](crate::Appointments) a length that is not that of whole ones, or a wrong marker or last byte of one.
    Form,
    /// 4: a name that is not below [`NAMES`](crate::NAMES).
    Name,
    /// 5: no right requested; for a [`Slip`](crate::Slip) none or more than one; a half's mask empty, with or without a marker, or with a denial where a membership, a filter or an
    /// appointment is spoken of.
    Mask,
    /// 6: a letter or the marker of the previous half, or of an appointment to take, has count 0 or no record.
    NothingToTake,
    /// 7: after taking away, a letter or the marker to add stands at [`u16::MAX`].
    CountFull,
    /// 8: after taking away, the records do not fit.
    NoRoom,
    /// 9: not the text of any set of that kind.
    Text {
        /// The length of the text's longest beginning that is also a beginning of some acceptable text of that kind, whatever the
        /// room. The byte after it is the first wrong one; where there is none, the text ends too early. All bytes before it are
        /// ASCII, so that a `str` can be cut there.
        place: usize,
    },
    /// 10: text longer than the output buffer; a list lent for a slip has fewer than [`Slip::LONGEST`](crate::Slip::LONGEST) places,
    /// which only the [C interface](crate::raw) can be given.
    TextLong,
    /// 11: a list of a checked [`Slip`](crate::Slip) has no names, or more than [`Slip::LONGEST`](crate::Slip::LONGEST).
    ChainLength,
    /// 12: a 257th appointment, a date that is none, or a day, date, term or anniversary outside the range, which is from
    /// [`Date::FIRST`](crate::Date::FIRST) to [`Date::LAST`](crate::Date::LAST), and for a term from 1 to
    /// [`Appointment::LONGEST`](crate::Appointment::LONGEST) months.
    OutsideRange,
    /// 13: the lent directory has the wrong length or is not the block's own.
    DirectoryNotOwn,
    /// 14: a limit above [`Block::PLAIN_LIMIT`](crate::Block::PLAIN_LIMIT), or more than
    /// [`Block::PLAIN_MEMBERSHIPS`](crate::Block::PLAIN_MEMBERSHIPS) membership records, for the plain engine; a limit above
    /// [`Block::LIMIT`](crate::Block::LIMIT).
    Limit,
    /// 15: a profile other than ordinary or strict. A [`Profile`](crate::Profile) is one of the two, so that no safe call is refused
    /// so; the [C interface](crate::raw), which takes any number, is.
    Profile,
    /// A number that this crate has no name for: the archive is newer than the crate.
    Unknown(u32),
}

impl Refusal {
    /// The refusal of an answer as the [C interface](crate::raw) gives it, the number times 2^32 plus a value; none where the
    /// number is 0. It takes the whole answer, since the number alone does not say the place of a text.
    pub fn from_answer(answer: u64) -> Option<Refusal> {
        let (number, value) = ((answer >> 32) as u32, answer as u32);
        Some(match number {
            0 => return None,
            1 => Refusal::BlockLength,
            2 => Refusal::BlockNotGood,
            3 => Refusal::Form,
            4 => Refusal::Name,
            5 => Refusal::Mask,
            6 => Refusal::NothingToTake,
            7 => Refusal::CountFull,
            8 => Refusal::NoRoom,
            9 => Refusal::Text { place: value as usize },
            10 => Refusal::TextLong,
            11 => Refusal::ChainLength,
            12 => Refusal::OutsideRange,
            13 => Refusal::DirectoryNotOwn,
            14 => Refusal::Limit,
            15 => Refusal::Profile,
            _ => Refusal::Unknown(number),
        })
    }

    /// The number of the refusal.
    pub fn number(self) -> u32 {
        match self {
            Refusal::BlockLength => 1,
            Refusal::BlockNotGood => 2,
            Refusal::Form => 3,
            Refusal::Name => 4,
            Refusal::Mask => 5,
            Refusal::NothingToTake => 6,
            Refusal::CountFull => 7,
            Refusal::NoRoom => 8,
            Refusal::Text { .. } => 9,
            Refusal::TextLong => 10,
            Refusal::ChainLength => 11,
            Refusal::OutsideRange => 12,
            Refusal::DirectoryNotOwn => 13,
            Refusal::Limit => 14,
            Refusal::Profile => 15,
            Refusal::Unknown(number) => number,
        }
    }
}

/// The number, and when it is given, in the words of the rules; then the place of a text.
impl fmt::Display for Refusal {
    fn fmt(&self, f: &mut fmt::Formatter<'_>) -> fmt::Result {
        let why = match self {
            Refusal::BlockLength => "block length not 16 to 49,168",
            Refusal::BlockNotGood => "block not good",
            Refusal::Form => {
                "message not 12 bytes, or kind, flags, a marker or an absent half wrong; \
                 a wide message's header, length or list wrong; kind not 1 to 3; \
                 appointments not of 12 bytes each, or a marker or last byte of one wrong"
            }
            Refusal::Name => "a name above 1023, given by the caller, in a present half or in an appointment",
            Refusal::Mask => {
                "request 0 or above 15; not exactly one right on a slip; \
                 a present half's mask 0, or above 15 for M or F; an appointment's mask 0 or above 15"
            }
            Refusal::NothingToTake => {
                "a letter or marker of the previous half, or of an appointment to take, has count 0 or no record"
            }
            Refusal::CountFull => "after taking away, a letter or marker to add stands at 65,535",
            Refusal::NoRoom => "after taking away (or removing the old set), the records do not fit",
            Refusal::Text { .. } => "not the text of any set of that kind",
            Refusal::TextLong => "text longer than the output buffer; a list lent for a slip has fewer than 33 places",
            Refusal::ChainLength => "a checked chain has 0 or more than 33 names",
            Refusal::OutsideRange => {
                "a 257th appointment, a date that is none, or a day, date, term or anniversary outside the range"
            }
            Refusal::DirectoryNotOwn => "the lent directory has the wrong length or is not the block's own",
            Refusal::Limit => {
                "for the plain engine a limit above 8 or more than 64 membership records; for the walk a limit above 32"
            }
            Refusal::Profile => "a profile other than ordinary or strict",
            Refusal::Unknown(_) => "not a number of this version",
        };
        write!(f, "refused with {}: {why}", self.number())?;
        match self {
            Refusal::Text { place: 1 } => write!(f, ", wrong after 1 byte"),
            Refusal::Text { place } => write!(f, ", wrong after {place} bytes"),
            _ => Ok(()),
        }
    }
}

impl std::error::Error for Refusal {}

/// An answer of a call taken apart: the value, or the refusal.
pub(crate) fn answer(packed: u64) -> Result<u32, Refusal> {
    Refusal::from_answer(packed).map_or(Ok(packed as u32), Err)
}

/// An answer without a value.
pub(crate) fn done(packed: u64) -> Result<(), Refusal> {
    answer(packed).map(drop)
}

/// An answer of yes or no.
pub(crate) fn yes(packed: u64) -> Result<bool, Refusal> {
    answer(packed).map(|value| value == 1)
}

/// An answer that is a length, or how many records there are.
pub(crate) fn how_many(packed: u64) -> Result<usize, Refusal> {
    answer(packed).map(|value| value as usize)
}

#[cfg(test)]
mod tests {
    use super::*;
    use crate::Block;

    #[test]
    fn an_answer_is_taken_apart() {
        assert_eq!(answer(7), Ok(7));
        assert_eq!(answer(u64::from(u32::MAX)), Ok(u32::MAX));
        assert_eq!(answer(8 << 32), Err(Refusal::NoRoom));
        assert_eq!(answer(9 << 32), Err(Refusal::Text { place: 0 }));
        let place = Block::LONGEST_TEXT - 1;
        assert_eq!(answer(9 << 32 | place as u64), Err(Refusal::Text { place }));
        assert_eq!(answer(10 << 32), Err(Refusal::TextLong));
        assert_eq!(answer(11 << 32), Err(Refusal::ChainLength));
        assert_eq!(answer(12 << 32), Err(Refusal::OutsideRange));
        assert_eq!(answer(13 << 32), Err(Refusal::DirectoryNotOwn));
        assert_eq!(answer(14 << 32), Err(Refusal::Limit));
        assert_eq!(answer(15 << 32), Err(Refusal::Profile));
        assert_eq!(answer(16 << 32 | 5), Err(Refusal::Unknown(16)));
        assert_eq!(answer(u64::MAX), Err(Refusal::Unknown(u32::MAX)));
    }

    #[test]
    fn an_answer_says_what_it_is_to_say() {
        assert_eq!((done(0), done(13 << 32)), (Ok(()), Err(Refusal::DirectoryNotOwn)));
        assert_eq!((yes(0), yes(1), yes(4 << 32)), (Ok(false), Ok(true), Err(Refusal::Name)));
        assert_eq!((yes(15 << 32), Refusal::Profile.number()), (Err(Refusal::Profile), 15));
        assert_eq!((how_many(1_000), how_many(9 << 32 | 3)), (Ok(1_000), Err(Refusal::Text { place: 3 })));
    }
}
