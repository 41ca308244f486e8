//! Safe calls of `libanaqsiro.a`: an authorization index in one block of bytes, with counts, so that a right that two
//! statements give is still held when one of them is withdrawn.
//!
//! ```
//! use anaqsiro::{Block, Half, Kind, Message, Profile, Rights};
//!
//! let mut block = Block::with_room(8)?;
//! let may_release = Half::new(9, 1, Rights::UPDATE);
//! let give = Message::new(Kind::Permission, None, Some(may_release));
//! block.apply(give)?;
//! block.apply(give)?; // a second appointment gives the same right
//! block.apply(Message::new(Kind::Permission, Some(may_release), None))?; // the first ends
//! assert!(block.may(1, 9, Rights::UPDATE, Profile::Ordinary)?);
//! assert_eq!(block.set_text(Kind::Permission, 9)?, "1;U");
//! # Ok::<(), anaqsiro::Refusal>(())
//! ```
//!
//! No call panics, whatever the bytes and numbers. Bad input gets the one [`Refusal`] that the rules assign to it, and then
//! nothing has changed:
//!
//! ```
//! use anaqsiro::{Block, Profile, Refusal, Rights};
//!
//! let block = Block::from_bytes(vec![0; 40]);
//! assert_eq!(block.rights(1, 9, Rights::ALL, Profile::Strict), Err(Refusal::BlockNotGood));
//! let block = Block::with_room(0)?;
//! assert_eq!(block.rights(65_537, 9, Rights::ALL, Profile::Strict), Err(Refusal::Name));
//! # Ok::<(), anaqsiro::Refusal>(())
//! ```
//!
//! - [`Block`]: messages, the two questions, rights over chains that the caller limits, what bears on somebody's rights, slips, sets
//!   as text, the records, and saving it with a checksum.
//! - [`WideMessage`]: a message about several objects and subjects at a time.
//! - [`DirectedBlock`]: a block with its directory, where many questions are asked of a large one.
//! - [`Ledger`]: a block with its statements. Use it where messages may arrive out of order, twice or late, or where nobody
//!   else keeps what each statement said last.
//! - [`Sent`]: what a ledger takes and gives to be sent on, a plain message or a wide one.
//! - [`Appointment`]: a membership with a first [`Date`] and a term. [`Appointments`] are a list of them.
//! - [`Roster`]: such a list with the day on which a block has it. Use it where memberships begin and end by the calendar.
//! - [`Rights`] and [`Letters`]: what a question asks for, and what a message gives or denies.
//! - [`Marker`]: how firms that share one installation are kept apart.
//! - [`Profile`]: how far a denial reaches. Every question says in which it is asked.
//! - [`Held`]: what the full question answers: the rights, and how many memberships were examined on each side.
//! - [`Slip`]: why a user holds a right on an object, which can be found and checked.
//!
//! The answers of the block are those of the archive, which is proved; this crate around it is tested.

mod appointment;
mod appointments;
mod bearing;
mod block;
mod date;
mod directed;
mod held;
mod ledger;
mod letters;
mod limits;
mod message;
mod profile;
pub mod raw;
mod records;
mod refusal;
mod roster;
mod saved;
mod sent;
mod slip;
mod wide;

pub use appointment::Appointment;
pub use appointments::Appointments;
pub use block::Block;
pub use date::Date;
pub use directed::{DirectedBlock, NotDirected};
pub use held::Held;
pub use ledger::{Ledger, NotTaken, Said, Statement, Taken, Waiting, Why};
pub use letters::{Letters, Marker, NotLetters, Rights};
pub use message::{Half, Kind, Message, Name, NAMES};
pub use profile::Profile;
pub use records::{Record, Records};
pub use refusal::Refusal;
pub use roster::Roster;
pub use saved::NotLoaded;
pub use sent::Sent;
pub use slip::Slip;
pub use wide::{NotWide, WideHalf, WideMessage};
