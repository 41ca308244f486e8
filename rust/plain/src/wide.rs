//! Wide messages: every pair of a half is taken away, or added, in place; where one is refused, those before it are undone, the
//! last first.

use crate::{add, front, sound, take, word, Keep, Search, NAMES, NAME_BITS, NEW, OLD};

/// Where the lists begin, behind the header; and the names that a list may have.
const LISTS: usize = 16;
pub const LIST: usize = 8;
/// Where the lengths of the lists, the masks and the offsets stand in the header.
const LENGTHS: usize = 2;
const MASKS: usize = 6;
const OFFSETS: usize = 8;

/// A name of a list, as its bytes have it.
type Name = [u8; 2];

/// A half: its keys, its ids, and its mask with the markers.
#[derive(Clone, Copy)]
struct Half<'a> {
    keys: &'a [Name],
    ids: &'a [Name],
    mask: usize,
}

impl Half<'_> {
    /// Its pairs, by key and then by id.
    fn pairs(&self) -> impl DoubleEndedIterator<Item = usize> + '_ {
        self.keys.iter().flat_map(|key| self.ids.iter().map(move |id| word(key, 0) << NAME_BITS | word(id, 0)))
    }

    fn many(&self) -> usize {
        self.keys.len() * self.ids.len()
    }

    /// So many of its first pairs, the last of them first.
    fn back(&self, many: usize) -> impl Iterator<Item = usize> + '_ {
        self.pairs().rev().skip(self.many() - many)
    }
}

/// The four lists of a message, where they follow the header and each other without gaps, and nothing follows them.
fn lists(m: &[u8]) -> Option<[&[Name]; 4]> {
    let (header, names) = m.split_at_checked(LISTS)?;
    let (mut names, odd) = names.as_chunks::<2>();
    let mut lists = [names; 4];
    for (k, list) in lists.iter_mut().enumerate() {
        if word(header, OFFSETS + 2 * k) != m.len() - 2 * names.len() - odd.len() {
            return None;
        }
        (*list, names) = names.split_at_checked(header[LENGTHS + k].into())?;
    }
    (names.is_empty() && odd.is_empty()).then_some(lists)
}

/// Whether a half that is there may have the list.
fn fair(list: &[Name]) -> bool {
    (1..=LIST).contains(&list.len()) && list.windows(2).all(|two| word(&two[0], 0) < word(&two[1], 0))
}

/// A wide message that was read: its part, and its halves, without pairs where they are not there.
fn read(m: &[u8]) -> Result<(usize, [Half<'_>; 2]), u32> {
    let lists = lists(m).ok_or(3u32)?;
    let (front, masks) = (front(m[0], m[1])?, [OLD, NEW].map(|half| m[MASKS + half]));
    for half in [OLD, NEW] {
        let (keys, ids) = (lists[2 * half], lists[2 * half + 1]);
        let absent = keys.is_empty() && ids.is_empty() && masks[half] == 0;
        if if front.there[half] { !fair(keys) || !fair(ids) } else { !absent } {
            return Err(3);
        }
    }
    // names rise, so that the last of a list is the greatest
    if lists.iter().filter_map(|list| list.last()).any(|name| word(name, 0) >= NAMES) {
        return Err(4);
    }
    let masks = front.masks(masks)?;
    let half = |half: usize| Half { keys: lists[2 * half], ids: lists[2 * half + 1], mask: masks[half] };
    Ok((front.kind, [half(OLD), half(NEW)]))
}

pub fn wide(b: &mut [u8], m: &[u8]) -> u32 {
    sound(b).map_or_else(|number| number, |_| wide_with(b, &mut Search, m))
}

/// The message on a good block, whose records are found in this way.
pub fn wide_with(b: &mut [u8], keys: &mut impl Keep, m: &[u8]) -> u32 {
    let (kind, [old, new]) = match read(m) {
        Err(number) => return number,
        Ok(message) => message,
    };
    for (done, pair) in old.pairs().enumerate() {
        let number = take(b, keys, kind, pair, old.mask);
        if number != 0 {
            put_back(b, keys, kind, &old, done);
            return number;
        }
    }
    for (done, pair) in new.pairs().enumerate() {
        let number = add(b, keys, kind, pair, new.mask);
        if number != 0 {
            take_back(b, keys, kind, &new, done);
            put_back(b, keys, kind, &old, old.many());
            return number;
        }
    }
    0
}

/// Adds so many pairs of a half again, which were taken.
#[cold]
fn put_back(b: &mut [u8], keys: &mut impl Keep, kind: usize, half: &Half, many: usize) {
    for pair in half.back(many) {
        add(b, keys, kind, pair, half.mask);
    }
}

/// Takes so many pairs of a half away again, which were added.
#[cold]
fn take_back(b: &mut [u8], keys: &mut impl Keep, kind: usize, half: &Half, many: usize) {
    for pair in half.back(many) {
        take(b, keys, kind, pair, half.mask);
    }
}
