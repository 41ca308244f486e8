//! The letters of the rules: the four rights, the denial of each, and the two markers.

use std::fmt;
use std::ops::{BitAnd, BitAndAssign, BitOr, BitOrAssign};
use std::str::FromStr;

/// The letters in their order: the rights, the denial of each, then the markers. The mask of a letter is 1 shifted by its place.
pub(crate) const ORDER: &str = "MRUPmrupXN";

/// How many letters there are, how many of them a mask has bits for, which are all but the markers, and how many are rights.
pub(crate) const LETTERS: usize = ORDER.len();
pub(crate) const MASKED: usize = u8::BITS as usize;
pub(crate) const RIGHTS: usize = 4;

/// The place of a letter in the order.
pub(crate) fn place_of(letter: char) -> Option<usize> {
    ORDER.find(letter)
}

/// The letters that may stand in a text, all of a mask or only the rights, each with its mask.
fn masks(letters: usize) -> impl Iterator<Item = (char, u8)> {
    ORDER.chars().take(letters).enumerate().map(|(place, letter)| (letter, 1 << place))
}

/// The mask of a text of letters.
fn read(text: &str, letters: usize) -> Result<u8, NotLetters> {
    if text.is_empty() {
        return Err(NotLetters::Empty);
    }
    if text == NONE {
        return Ok(0);
    }
    text.chars().try_fold(0, |mask, letter| {
        let (_, one) = masks(letters).find(|&(known, _)| known == letter).ok_or(NotLetters::NoLetter(letter))?;
        if mask & one == 0 {
            Ok(mask | one)
        } else {
            Err(NotLetters::Twice(letter))
        }
    })
}

/// The text of a mask.
fn written(mask: u8) -> String {
    if mask == 0 {
        return NONE.into();
    }
    masks(MASKED).filter(|&(_, one)| mask & one != 0).map(|(letter, _)| letter).collect()
}

/// How a mask without letters is written.
const NONE: &str = "-";

/// Why a text is not one of letters.
#[derive(Clone, Copy, Debug, PartialEq, Eq, Hash)]
#[non_exhaustive]
pub enum NotLetters {
    /// There is no text. No letters at all are written `-`, so that a field that was forgotten is not taken for none.
    Empty,
    /// This is not one of the letters.
    NoLetter(char),
    /// This letter stands there twice.
    Twice(char),
}

impl fmt::Display for NotLetters {
    fn fmt(&self, f: &mut fmt::Formatter<'_>) -> fmt::Result {
        match self {
            NotLetters::Empty => write!(f, "there are no letters; none at all are written '{NONE}'"),
            NotLetters::NoLetter(letter) => write!(f, "{letter:?} is not one of the letters"),
            NotLetters::Twice(letter) => write!(f, "{letter:?} stands there twice"),
        }
    }
}

impl std::error::Error for NotLetters {}

/// A marker of a membership, for firms that share one installation: see [`Half::marked`](crate::Half::marked). It belongs to the
/// membership, not to a right.
///
/// A user is bound if a chain of 1 to 32 memberships, whatever rights they carry, counts N in none of them and X in the last; the
/// group that it ends at is hers. A bound user holds rights only on objects that are members of no group at all, and on those from
/// which a chain of 0 to 32 memberships, whatever rights and markers they have, leads to one of her groups.
///
/// ```
/// use anaqsiro::{Block, Half, Kind, Marker, Message, Profile, Rights};
///
/// let mut block = Block::with_room(8)?;
/// let (anna, firm, other_firm) = (1, 2, 3);
/// let hers = Half::new(anna, firm, Rights::ALL).marked(Marker::X);
/// block.apply(Message::new(Kind::Membership, None, Some(hers)))?;
/// assert_eq!(block.set_text(Kind::Membership, anna)?, "2;MRUPX");
/// for (pump, group) in [(9, firm), (10, other_firm)] {
///     block.read_set(Kind::Membership, pump, format!("{group};MRUP"))?;
/// }
/// block.read_set(Kind::Permission, 0, "1;RU")?; // Anna may read and update everything
/// assert!(block.may(anna, 9, Rights::UPDATE, Profile::Ordinary)?);
/// assert!(!block.may(anna, 10, Rights::UPDATE, Profile::Ordinary)?); // it is the other firm's
/// assert!(block.may(anna, 11, Rights::UPDATE, Profile::Ordinary)?); // it is in no group
/// # Ok::<(), anaqsiro::Refusal>(())
/// ```
#[derive(Clone, Copy, Debug, PartialEq, Eq, PartialOrd, Ord, Hash)]
pub enum Marker {
    /// Who is a member so is bound to the group.
    X,
    /// A chain that goes over the membership binds nobody. It wins over X in the same record.
    N,
}

impl Marker {
    /// Each marker, in the order of the letters.
    pub const ALL: [Marker; 2] = [Marker::X, Marker::N];

    /// The letter of the marker.
    pub const fn letter(self) -> char {
        match self {
            Marker::X => 'X',
            Marker::N => 'N',
        }
    }
}

impl fmt::Display for Marker {
    fn fmt(&self, f: &mut fmt::Formatter<'_>) -> fmt::Result {
        self.letter().fmt(f)
    }
}

/// A set of rights.
///
/// As text it has a letter for each: `M` create, `R` read, `U` update, `P` delete. They are read in any order and written in
/// this one; no right at all is `-`.
///
/// ```
/// use anaqsiro::Rights;
///
/// let request: Rights = "UR".parse()?;
/// assert_eq!(request, Rights::READ | Rights::UPDATE);
/// assert_eq!(request.to_string(), "RU");
/// assert_eq!((request & Rights::DELETE).to_string(), "-");
/// assert!("Rx".parse::<Rights>().is_err());
/// # Ok::<(), anaqsiro::NotLetters>(())
/// ```
#[derive(Clone, Copy, Default, PartialEq, Eq, Hash)]
pub struct Rights(u8);

/// A set of letters, as the mask of a half of a message has it: rights and, where it speaks of a permission, denials. A marker is
/// not among them: a half has it by itself.
///
/// As text a denial has the small letter of its right: `m`, `r`, `u`, `p`.
///
/// ```
/// use anaqsiro::{Letters, Rights};
///
/// let mask: Letters = "MRUm".parse()?;
/// assert_eq!(mask, Rights::CREATE | Rights::READ | Rights::UPDATE | Letters::NO_CREATE);
/// assert_eq!(mask.rights().to_string(), "MRU");
/// assert_eq!(mask.denied(), Rights::CREATE);
/// assert_eq!(mask.mask(), 23);
/// # Ok::<(), anaqsiro::NotLetters>(())
/// ```
#[derive(Clone, Copy, Default, PartialEq, Eq, Hash)]
pub struct Letters(u8);

impl Rights {
    pub const NONE: Rights = Rights(0);
    pub const CREATE: Rights = Rights(1);
    pub const READ: Rights = Rights(2);
    pub const UPDATE: Rights = Rights(4);
    pub const DELETE: Rights = Rights(8);
    pub const ALL: Rights = Rights((1 << RIGHTS) - 1);

    /// The rights of a mask; none where it has more than rights. The mask is 64 bits wide, so that 257 is not taken for 1.
    pub const fn from_mask(mask: u64) -> Option<Rights> {
        if mask <= Self::ALL.0 as u64 {
            Some(Rights(mask as u8))
        } else {
            None
        }
    }

    /// The denial of each of these rights.
    pub const fn denials(self) -> Letters {
        Letters(self.0 << RIGHTS)
    }
}

impl Letters {
    pub const NONE: Letters = Letters(0);
    pub const CREATE: Letters = Letters(1);
    pub const READ: Letters = Letters(2);
    pub const UPDATE: Letters = Letters(4);
    pub const DELETE: Letters = Letters(8);
    pub const NO_CREATE: Letters = Letters(16);
    pub const NO_READ: Letters = Letters(32);
    pub const NO_UPDATE: Letters = Letters(64);
    pub const NO_DELETE: Letters = Letters(128);

    /// The letters of a mask; none where it is above 255.
    pub const fn from_mask(mask: u64) -> Option<Letters> {
        if mask <= u8::MAX as u64 {
            Some(Letters(mask as u8))
        } else {
            None
        }
    }

    /// The rights among these letters, whether or not their denials are there too.
    pub const fn rights(self) -> Rights {
        Rights(self.0 & Rights::ALL.0)
    }

    /// The rights whose denials are among these letters.
    pub const fn denied(self) -> Rights {
        Rights(self.0 >> RIGHTS)
    }
}

/// What both sets have.
macro_rules! set_of_letters {
    ($set:ident, $letters:expr) => {
        impl $set {
            /// The set as a mask.
            pub const fn mask(self) -> u8 {
                self.0
            }

            /// Whether the set has nothing in it.
            pub const fn is_empty(self) -> bool {
                self.0 == 0
            }

            /// Whether all of the others are in the set.
            pub const fn contains(self, others: $set) -> bool {
                self.0 & others.0 == others.0
            }

            /// What is in the set and not among the others.
            pub const fn without(self, others: $set) -> $set {
                $set(self.0 & !others.0)
            }
        }

        impl FromStr for $set {
            type Err = NotLetters;

            fn from_str(text: &str) -> Result<$set, NotLetters> {
                read(text, $letters).map($set)
            }
        }

        impl fmt::Display for $set {
            fn fmt(&self, f: &mut fmt::Formatter<'_>) -> fmt::Result {
                f.pad(&written(self.0))
            }
        }

        impl fmt::Debug for $set {
            fn fmt(&self, f: &mut fmt::Formatter<'_>) -> fmt::Result {
                write!(f, concat!(stringify!($set), "({})"), written(self.0))
            }
        }

        impl BitAnd for $set {
            type Output = $set;

            fn bitand(self, others: $set) -> $set {
                $set(self.0 & others.0)
            }
        }

        impl BitOr for $set {
            type Output = $set;

            fn bitor(self, others: $set) -> $set {
                $set(self.0 | others.0)
            }
        }

        impl BitAndAssign for $set {
            fn bitand_assign(&mut self, others: $set) {
                *self = *self & others;
            }
        }

        impl BitOrAssign for $set {
            fn bitor_assign(&mut self, others: $set) {
                *self = *self | others;
            }
        }
    };
}

set_of_letters!(Rights, RIGHTS);
set_of_letters!(Letters, MASKED);

impl From<Rights> for Letters {
    fn from(rights: Rights) -> Letters {
        Letters(rights.0)
    }
}

impl BitOr<Letters> for Rights {
    type Output = Letters;

    fn bitor(self, letters: Letters) -> Letters {
        Letters::from(self) | letters
    }
}

impl BitOr<Rights> for Letters {
    type Output = Letters;

    fn bitor(self, rights: Rights) -> Letters {
        self | Letters::from(rights)
    }
}
