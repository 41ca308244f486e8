//! One appointment: a membership with a first date and a term.

use crate::message::narrow;
use crate::refusal::{answer, yes};
use crate::{raw, Date, Half, Letters, Marker, Name, Refusal};
use std::fmt;

/// An appointment: a membership with a first date and a term in months. It stands from its first day up to the day before the
/// anniversary, which falls so many months later on the same day of the month, or on the month's last day if it has no such day.
///
/// ```
/// use anaqsiro::{Appointment, Date, Half, Refusal, Rights};
///
/// let (planner, planners) = (1, 2);
/// let year = Appointment::new(Half::new(planner, planners, Rights::READ), Date::new(2024, 2, 29)?, 12);
/// assert_eq!(year.to_string(), "key 1, id 2, R, for 12 months from 2024-02-29");
/// assert_eq!(year.anniversary(), Date::new(2025, 2, 28));
/// assert!(year.stands(Date::new(2025, 2, 27)?)?);
/// assert!(!year.stands(Date::new(2025, 2, 28)?)?);
/// let too_long = Appointment { term: 121, ..year };
/// assert_eq!(too_long.anniversary(), Err(Refusal::OutsideRange));
/// # Ok::<(), Refusal>(())
/// ```
///
/// What is wrong with it the library refuses: a number that is no name with [`Refusal::Name`], a mask without a right or with a
/// denial with [`Refusal::Mask`], a term or an anniversary outside the range with [`Refusal::OutsideRange`].
#[derive(Clone, Copy, Debug, PartialEq, Eq, Hash)]
pub struct Appointment {
    /// The membership that it is: who is in which group, with which rights, and with a marker or without.
    pub membership: Half,
    /// Its first day.
    pub first: Date,
    /// Its term in months, 1 to [`Appointment::LONGEST`].
    pub term: u64,
}

impl Appointment {
    /// The bytes of an appointment in a list.
    pub const BYTES: usize = 12;
    /// The longest term, in months.
    pub const LONGEST: u64 = 120;

    /// A membership from this day on, for so many months.
    pub fn new(membership: Half, first: Date, term: u64) -> Appointment {
        Appointment { membership, first, term }
    }

    /// Whether it stands on a day.
    pub fn stands(&self, day: Date) -> Result<bool, Refusal> {
        let bytes = self.bytes();
        // SAFETY: the pointer and the length are those of one slice, which the call only reads.
        yes(unsafe { raw::anaqsiro_stands(bytes.as_ptr(), bytes.len(), day.day_number()) })
    }

    /// The first day after its first on which it does not stand.
    pub fn anniversary(&self) -> Result<Date, Refusal> {
        let bytes = self.bytes();
        // SAFETY: the pointer and the length are those of one slice, which the call only reads.
        let change = unsafe { raw::anaqsiro_next_change(bytes.as_ptr(), bytes.len(), self.first.day_number()) };
        Date::of_day(answer(change)?.into())
    }

    /// The bytes of it in a list: key, id, mask, marker, year, month, day, term, zero. Names and year have two bytes, the low one
    /// first. A term that one byte does not hold becomes the greatest that it does, which is above every term too.
    pub fn bytes(&self) -> [u8; Self::BYTES] {
        let Half { key, id, mask, marker } = self.membership;
        let [key, id, year] = [key, id, self.first.year()].map(|number| narrow(number).to_le_bytes());
        let marker = marker.map_or(0, |marker| 1 + marker as u8);
        let [month, day, term] = [self.first.month(), self.first.day(), self.term].map(|number| number.min(255) as u8);
        [key[0], key[1], id[0], id[1], mask.mask(), marker, year[0], year[1], month, day, term, 0]
    }
}

/// Bytes that came from elsewhere. The library judges them.
impl TryFrom<&[u8]> for Appointment {
    type Error = Refusal;

    fn try_from(bytes: &[u8]) -> Result<Appointment, Refusal> {
        // SAFETY: the pointer and the length are those of one slice, which the call only reads.
        yes(unsafe { raw::anaqsiro_stands(bytes.as_ptr(), bytes.len(), 0) })?;
        let &[k, key, i, id, mask, marker, y, year, month, day, term, _] = bytes else { return Err(Refusal::Form) };
        let two = |low, high| Name::from(u16::from_le_bytes([low, high]));
        let marker = Marker::ALL.into_iter().find(|&known| 1 + known as u8 == marker);
        let mask = Letters::from_mask(mask.into()).unwrap_or_default();
        let membership = Half { key: two(k, key), id: two(i, id), mask, marker };
        Ok(Appointment { membership, first: Date::new(two(y, year), month.into(), day.into())?, term: term.into() })
    }
}

impl fmt::Display for Appointment {
    fn fmt(&self, f: &mut fmt::Formatter<'_>) -> fmt::Result {
        let months = if self.term == 1 { "month" } else { "months" };
        write!(f, "{}, for {} {months} from {}", self.membership, self.term, self.first)
    }
}
