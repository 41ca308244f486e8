//! Which rights are barred in the strict profile, as request M-112 says it: the denials of a right are gone through, and each is
//! looked for from both sides. The rule is kept in parts, so that the comparison can change one and see what hangs on it.

use crate::{carries, led, Counts, Index, CHAIN, M, P, RIGHTS};

/// What a record has to be, for a right.
pub type Such = fn(&Counts, usize) -> bool;

/// Something of both sides: of the user's, which is to lead to the id of a denial, and of the object's, which is to lead to its key.
pub type Both<T> = [T; 2];

/// The rule in its parts.
#[derive(Clone, Copy)]
pub struct Bar {
    /// What a P record has to count.
    pub denies: Such,
    /// What the records of a chain have to be, and how many there may be.
    pub link: Such,
    pub most: Both<usize>,
    /// Whether every name is reached, and whether name 0 always is.
    pub any: Both<bool>,
    pub zero: Both<bool>,
}

/// Whether the small letter of the right is counted, whatever the capital one counts.
pub fn denies(counts: &Counts, right: usize) -> bool {
    counts[right + RIGHTS] > 0
}

/// Whether that of some right is.
pub fn denies_some(counts: &Counts) -> bool {
    (0..RIGHTS).any(|right| denies(counts, right))
}

/// The rule as it is told.
pub const BAR: Bar = Bar { denies, link: carries, most: [CHAIN; 2], any: [false; 2], zero: [false, true] };

impl Bar {
    /// The P records that deny a right and are reached, from each side for a right of its own: by key and id.
    pub fn reached(&self, index: &Index, names: Both<u16>, denied: usize, rights: Both<usize>) -> Vec<(u16, u16)> {
        let all = index.parts[P].iter().filter(|(_, counts)| (self.denies)(counts, denied));
        let mut all: Vec<(u16, u16)> = all.map(|(&record, _)| record).collect();
        for side in (0..2).filter(|&side| !self.any[side]) {
            if !all.is_empty() {
                let link = |counts: &Counts| (self.link)(counts, rights[side]);
                let mut names = led(&index.parts[M], names[side], self.most[side], link);
                names.extend(self.zero[side].then_some(0));
                all.retain(|&(key, id)| names.contains(&[id, key][side]));
            }
        }
        all
    }

    /// The P records that bar a right for a user on an object.
    pub fn denials(&self, index: &Index, names: Both<u16>, right: usize) -> Vec<(u16, u16)> {
        self.reached(index, names, right, [right; 2])
    }

    /// Whether there are some.
    pub fn bars(&self, index: &Index, names: Both<u16>, right: usize) -> bool {
        !self.denials(index, names, right).is_empty()
    }
}
