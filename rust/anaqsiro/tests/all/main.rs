//! The tests of the crate from outside, all in one program.

mod appointments;
mod bearing;
mod blocks;
mod build;
mod compared;
mod dates;
mod directed;
mod examined;
mod ledgers;
mod letters;
mod limits;
mod messages;
mod profiles;
mod rosters;
mod saved;
mod slips;
mod streams;
mod wide;
