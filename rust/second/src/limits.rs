//! The rights over chains of at most so many records, as request M-111 says it: the full question in the ordinary profile, with the
//! caller's limit for every chain. The two calls give the same; they differ in what they refuse.

use crate::{held, question, CHAIN, M, ORDINARY};

/// The greatest limit of the plain engine, and the most M records that it goes over.
pub const PLAIN_LIMIT: usize = 8;
pub const PLAIN_RECORDS: usize = 64;

/// The number, and the rights of those requested: 14 where the limit is above the greatest, or there are too many M records, whatever
/// they count.
fn limited(block: &[u8], names: [u64; 2], request: u64, limit: u64, greatest: usize, records: usize) -> (u32, u32) {
    let outcome = question(block, names[0], names[1], request, ORDINARY).and_then(|question| {
        let fair = limit <= greatest as u64 && question.index.parts[M].len() <= records;
        fair.then(|| held(&question, request, limit as usize)).ok_or(14)
    });
    outcome.map_or_else(|number| (number, 0), |rights| (0, rights))
}

/// plain: the number, and the rights held of those requested, over chains of at most `limit` records.
pub fn plain(block: &[u8], user: u64, object: u64, request: u64, limit: u64) -> (u32, u32) {
    limited(block, [user, object], request, limit, PLAIN_LIMIT, PLAIN_RECORDS)
}

/// rights_to: the same, with any limit that a chain may have, and of any good block.
pub fn rights_to(block: &[u8], user: u64, object: u64, request: u64, limit: u64) -> (u32, u32) {
    limited(block, [user, object], request, limit, CHAIN, usize::MAX)
}
