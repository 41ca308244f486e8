//! The places of texts, held against sets that are written and never read: each text that is short, or goes on from a head for a
//! few bytes, is looked up among the beginnings of the texts of all sets.

use super::*;
use crate::gen::{Tried, TRIED};
use std::collections::HashSet;

type Set = BTreeMap<u16, Counts>;

/// The texts of all sets of a kind that begin with a head, and their beginnings, as far as texts of so many bytes show them.
struct Written {
    kind: usize,
    head: &'static [u8],
    length: usize,
    texts: HashSet<Vec<u8>>,
    beginnings: HashSet<Vec<u8>>,
}

impl Written {
    fn new(kind: usize, head: &'static [u8], length: usize) -> Written {
        let mut written = Written { kind, head, length, texts: HashSet::new(), beginnings: HashSet::new() };
        written.grow(&Set::new());
        written
    }

    /// Whether the text is a beginning of the head or goes on from it.
    fn fits(&self, text: &[u8]) -> bool {
        text.starts_with(self.head) || self.head.starts_with(text)
    }

    /// Notes the text of a set, and then of the sets that have a letter more in the last record, or a record more: their texts
    /// begin with it. Whether a text that begins with it can show more than it does.
    fn grow(&mut self, set: &Set) -> bool {
        let text = text(set);
        if !self.fits(&text) {
            return false;
        }
        let shown = text.len().min(self.length);
        self.beginnings.extend((0..=shown).map(|length| text[..length].to_vec()));
        let left = self.length - shown;
        if left > 0 {
            if let Some((&id, counts)) = set.last_key_value() {
                let after = counts.iter().rposition(|&count| count > 0).map_or(0, |k| k + 1);
                lettered(self.kind).filter(|&k| k >= after).for_each(|k| self.letter(set, id, k, 1));
            }
            for id in greater_ids(set, left) {
                lettered(self.kind).for_each(|k| self.letter(set, id, k, 1));
            }
        }
        self.texts.insert(text);
        left > 0
    }

    /// The sets that have one letter more, the last of all, with this count and with those that go on from its digits: after a
    /// count of 1, which is not written, all digits.
    fn letter(&mut self, set: &Set, id: u16, k: usize, count: u16) {
        let mut more = set.clone();
        more.entry(id).or_default()[k] = count;
        if self.grow(&more) {
            let longer = if count == 1 { 2..20 } else { 10 * u32::from(count)..10 * u32::from(count) + 10 };
            longer.filter_map(|n| n.try_into().ok()).for_each(|n| self.letter(set, id, k, n));
        }
    }

    /// The place of a text that begins with the head.
    fn place(&self, text: &[u8]) -> usize {
        (0..=text.len()).rev().find(|&n| self.beginnings.contains(&text[..n])).expect("the empty beginning")
    }
}

/// The ids that the next record may have. There are so many bytes left to show them, and of those that look the same in a row the
/// first is enough.
fn greater_ids(set: &Set, left: usize) -> Vec<u16> {
    let (least, digits) = set.last_key_value().map_or((0, left), |(&id, _)| (id + 1, left - 1));
    let mut ids: Vec<u16> = (least..NAMES).collect();
    ids.dedup_by_key(|id| shown(*id, digits));
    ids
}

/// The first so many digits of an id, or all.
fn shown(mut id: u16, digits: usize) -> u16 {
    while digits < 4 && id >= 10u16.pow(digits as u32) {
        id /= 10;
    }
    id
}

/// Each text that goes on from a head: its place, and whether it is of a set.
fn compared(kind: usize, tried: &Tried) {
    let head = tried.head.as_bytes();
    let written = Written::new(kind, head, head.len() + tried.most);
    let fair = |byte: &u8| LETTERS.iter().position(|letter| letter == byte).is_none_or(|k| lettered(kind).any(|own| own == k));
    let begins = head.iter().all(fair);
    assert_eq!(
        written.place(head) == head.len(),
        begins,
        "the texts of some sets begin with the head, if the kind has its letters"
    );
    for text in tried.texts() {
        let told = || format!("{} of kind {}", String::from_utf8_lossy(&text), kind + 1);
        assert_eq!(place(&text, kind), written.place(&text), "{}", told());
        assert_eq!(parse(&text, kind).is_some(), written.texts.contains(&text), "{}", told());
    }
}

fn places_of(kind: usize) {
    TRIED.iter().for_each(|tried| compared(kind, tried));
}

#[test]
fn places_of_memberships() {
    places_of(M);
}

#[test]
fn places_of_permissions() {
    places_of(P);
}

#[test]
fn places_of_filters() {
    places_of(F);
}
