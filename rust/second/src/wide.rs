//! Wide messages, as request M-100 defines them. What one says is read loosely and written again, which must give the same bytes:
//! so every length, every offset and the end are tested without a rule for each. Then it is a message like a plain one, that takes
//! and adds pair by pair.

use crate::{begun, has, markers, sent, word, Half, Said, FLAGS, HALF};

/// The bytes of its header, and where the lengths, the masks and the offsets stand in it.
pub const WIDE: usize = 16;
pub const LENGTHS: usize = 2;
pub const MASKS: usize = 6;
pub const OFFSETS: usize = 8;
/// How many names a list may have.
pub const LIST: usize = 8;

/// One half: its keys, its ids and the byte of its mask.
#[derive(Clone, Debug, Default, PartialEq, Eq)]
pub struct Lists {
    pub keys: Vec<u16>,
    pub ids: Vec<u16>,
    pub mask: u8,
}

/// What a wide message has: the byte of its kind with the markers, its flags, and the previous half and the new one.
#[derive(Clone, Debug, Default)]
pub struct Wide {
    pub first: u8,
    pub flags: u8,
    pub halves: [Lists; 2],
}

impl Wide {
    /// The four lists in their order.
    pub fn lists(&self) -> [&Vec<u16>; 4] {
        let [previous, new] = &self.halves;
        [&previous.keys, &previous.ids, &new.keys, &new.ids]
    }

    /// The bytes of the message, whose lists follow the header without gaps.
    pub fn encode(&self) -> Vec<u8> {
        let mut bytes = vec![self.first, self.flags];
        bytes.extend(self.lists().map(|list| list.len() as u8));
        bytes.extend(self.halves.each_ref().map(|half| half.mask));
        let mut offset = WIDE as u16;
        for list in self.lists() {
            bytes.extend(offset.to_le_bytes());
            offset += 2 * list.len() as u16;
        }
        bytes.extend(self.lists().into_iter().flatten().flat_map(|name| name.to_le_bytes()));
        bytes
    }

    /// The plain message of one key and one id in each half, the first of its lists.
    pub fn plain(&self) -> Vec<u8> {
        let mut bytes = vec![self.first, self.flags & FLAGS];
        for half in &self.halves {
            match half.pairs().next() {
                Some((key, id)) => bytes.extend([&key.to_le_bytes()[..], &id.to_le_bytes(), &[half.mask]].concat()),
                None => bytes.extend([0; HALF]),
            }
        }
        bytes
    }

    /// What the bytes have, if they are those of such a message, whatever its lists.
    pub fn decode(bytes: &[u8]) -> Option<Wide> {
        let (header, names) = bytes.split_at_checked(WIDE)?;
        let mut names = names.chunks_exact(2).map(|name| word(name, 0));
        let mut list = |number: usize| names.by_ref().take(header[LENGTHS + number].into()).collect();
        let halves = [0, 1].map(|n| Lists { keys: list(2 * n), ids: list(2 * n + 1), mask: header[MASKS + n] });
        let wide = Wide { first: header[0], flags: header[1], halves };
        (wide.encode() == bytes).then_some(wide)
    }
}

/// Whether a list is one that a half may have: some names, not too many, and each above the one before.
fn listed(list: &[u16]) -> bool {
    (1..=LIST).contains(&list.len()) && list.is_sorted_by(|one, next| one < next)
}

impl Lists {
    /// Every pair of a key and an id, by key and then by id.
    pub fn pairs(&self) -> impl Iterator<Item = (u16, u16)> + '_ {
        self.keys.iter().flat_map(|&key| self.ids.iter().map(move |&id| (key, id)))
    }
}

/// What a wide message says.
pub(crate) fn read(message: &[u8]) -> Result<Said, u32> {
    let Wide { first, flags, halves } = Wide::decode(message).ok_or(3u32)?;
    let mut said = Said { kind: begun(first, flags)?, halves: Default::default() };
    for (side, half) in halves.iter().enumerate() {
        let fair = if has(flags, side) { listed(&half.keys) && listed(&half.ids) } else { *half == Lists::default() };
        if !fair {
            return Err(3);
        }
        said.halves[side] = half.pairs().map(|name| Half::new(name, half.mask, markers(first, side))).collect();
    }
    Ok(said)
}

/// wide: the number, and the block then.
pub fn wide(block: &[u8], message: &[u8]) -> (u32, Vec<u8>) {
    sent(block, message, read)
}
