//! What markers had to do with a message or a question.

use super::{index_of, Asked, Call, Form};
use crate::bound::{member, Link, Rule, RULE};
use crate::growth::Growth;
use crate::{carries, granted, has, letters, markers, passes, set_of, Counts, Half, Index, Part, Reading, Said};
use crate::{ALL, CHAIN, F, KIND, KINDS, M, MARKED, MARKERS, N, RIGHTS, X};

const MESSAGES: &[&str] = &["message", "message_by", "wide", "wide_by"];
const FULL: &[&str] = &["rights"];
const QUESTIONS: &[&str] = &["rights", "may", "rights_by", "may_by"];

const BOTH: &str = "3 for both markers, in the previous half or in the new one";
const ABSENT: &str = "3 for a marker of an absent half, the previous or the new one";
const OF_KIND: &str = "3 for a marker, of kind";
const WITH_KIND: &str = "3 for a kind that is none, beside a marker, one above 3 taken as 4";
const CARRYING: &str = "kept out or let in, and the other way if her chain had to carry the right";
const CARRYING_OBJECT: &str = "let in, and kept out if the object's chain had to carry the right";

/// What each run is to meet of markers: of which calls, in what respect, and which.
pub const TO_MEET: &[(&[&str], &str, &[i64])] = &[
    (MESSAGES, "marker of the previous half accepted", &[1, 2]),
    (MESSAGES, "marker of the new half accepted", &[1, 2]),
    (MESSAGES, "markers of both halves accepted, not the same or the same", &[0, 1]),
    (MESSAGES, "marker accepted whose count was 1, and is 0 then", &[1, 2]),
    (MESSAGES, BOTH, &[0, 1]),
    (MESSAGES, ABSENT, &[0, 1]),
    (MESSAGES, OF_KIND, &[2, 3]),
    (MESSAGES, WITH_KIND, &[0, 4]),
    (MESSAGES, "5 for a marker without letters, in the previous half or in the new one", &[0, 1]),
    (MESSAGES, "6 for a marker alone", &[1, 2]),
    (MESSAGES, "7 for a marker alone", &[1, 2]),
    (QUESTIONS, "granted, and in every filter, to a user who is not bound, is let in, or is kept out", &[0, 1, 2]),
    (FULL, "let in to an object in no group, or to one of a group of hers", &[0, 1]),
    (FULL, "bound, with one group of hers or with more", &[1, 2]),
    (FULL, "kept out though a group of hers is name 0, or let in for it", &[0, 1]),
    (FULL, "kept out or let in, and the other way if her chain had 31 records at most", &[0, 1]),
    (FULL, "kept out or let in, and the other way if her chain had 33 records at most", &[0, 1]),
    (FULL, "let in, and kept out if the object's chain had 31 records at most", &[1]),
    (FULL, "kept out, and let in if the object's chain had 33 records at most", &[0]),
    (FULL, "kept out or let in, and the other way if N were not looked at", &[0, 1]),
    (FULL, "kept out or let in, and the other way if N were not looked at in the last record", &[0, 1]),
    (FULL, "kept out or let in, and the other way if N were looked at in the last record alone", &[0, 1]),
    (FULL, "kept out or let in, and the other way if X were asked of no record", &[0, 1]),
    (FULL, "kept out or let in, and the other way if X were asked of every record", &[0, 1]),
    (FULL, "kept out or let in, and the other way if her chain went over markers alone", &[0, 1]),
    (FULL, CARRYING, &[0, 1]),
    (FULL, CARRYING_OBJECT, &[1]),
    (FULL, "let in, and kept out if markers alone put the object into a group", &[1]),
    (FULL, "kept out, and let in if the object's chain went over markers alone", &[0]),
    (FULL, "let in, and kept out if N ended the object's chain", &[1]),
    (FULL, "let in, and kept out if the object were not its own group", &[1]),
    (FULL, "held, and not if markers alone named a group for the filters", &[1]),
    (FULL, "markers alone examined, for user or object", &[0, 1]),
];

/// The rule with one part changed.
const OTHERWISE: &[(&str, Rule)] = &[
    ("kept out or let in, and the other way if her chain had 31 records at most", Rule { most: CHAIN - 1, ..RULE }),
    ("kept out or let in, and the other way if her chain had 33 records at most", Rule { most: CHAIN + 1, ..RULE }),
    ("let in, and kept out if the object's chain had 31 records at most", Rule { most_of_object: CHAIN - 1, ..RULE }),
    ("kept out, and let in if the object's chain had 33 records at most", Rule { most_of_object: CHAIN + 1, ..RULE }),
    ("kept out or let in, and the other way if N were not looked at", Rule { before: member, last: exclusive, ..RULE }),
    ("kept out or let in, and the other way if N were not looked at in the last record", Rule { last: exclusive, ..RULE }),
    ("kept out or let in, and the other way if N were looked at in the last record alone", Rule { before: member, ..RULE }),
    ("kept out or let in, and the other way if X were asked of no record", Rule { last: RULE.before, ..RULE }),
    ("kept out or let in, and the other way if X were asked of every record", Rule { before: RULE.last, ..RULE }),
    (
        "kept out or let in, and the other way if her chain went over markers alone",
        Rule { before: |counts| counts[N] == 0, last: |counts| counts[N] == 0 && counts[X] > 0, ..RULE },
    ),
    ("let in, and kept out if markers alone put the object into a group", Rule { grouped: |_| true, ..RULE }),
    ("kept out, and let in if the object's chain went over markers alone", Rule { leads: |_| true, ..RULE }),
    ("let in, and kept out if N ended the object's chain", Rule { leads: RULE.before, ..RULE }),
    ("let in, and kept out if the object were not its own group", Rule { itself: false, ..RULE }),
];

/// A membership with X, whether or not N is counted.
fn exclusive(counts: &Counts) -> bool {
    member(counts) && counts[X] > 0
}

/// For each right, the records that carry it; those of them without N; and those of these with X.
const CARRIED: [[Link; 3]; RIGHTS] = [
    [|c| carries(c, 0), |c| carries(c, 0) && (RULE.before)(c), |c| carries(c, 0) && (RULE.last)(c)],
    [|c| carries(c, 1), |c| carries(c, 1) && (RULE.before)(c), |c| carries(c, 1) && (RULE.last)(c)],
    [|c| carries(c, 2), |c| carries(c, 2) && (RULE.before)(c), |c| carries(c, 2) && (RULE.last)(c)],
    [|c| carries(c, 3), |c| carries(c, 3) && (RULE.before)(c), |c| carries(c, 3) && (RULE.last)(c)],
];

/// What is wrong with the markers of a message that is read so, where all else is as it should be.
fn wrong(m: &[u8], marked: [u8; 2], read: Reading) -> Vec<(&'static str, i64)> {
    let (kind, flags) = (m[0] & KIND, m[1]);
    let is_kind = (1..=KINDS as u8).contains(&kind);
    let mut without = m.to_vec();
    without[0] = if is_kind { kind } else { 1 };
    if marked == [0; 2] || read(&without).is_err() {
        return vec![];
    }
    if !is_kind {
        return vec![(WITH_KIND, kind.min(4).into())];
    }
    let of_half = |side: usize| match marked[side] {
        0 => None,
        _ if kind > 1 => Some((OF_KIND, kind.into())),
        _ if !has(flags, side) => Some((ABSENT, side as i64)),
        marked => (marked == 3).then_some((BOTH, side as i64)),
    };
    (0..2).filter_map(of_half).collect()
}

impl Call<'_> {
    /// What the markers of a message of the form that got this number did.
    pub fn saw_markers(&mut self, form: &Form, number: u32, m: &[u8]) {
        if m.len() < 2 {
            return;
        }
        let marked = [0, 1].map(|side| markers(m[0], side));
        match (number, (form.read)(m)) {
            (0, Ok(said)) => self.saw_accepted(&said, marked),
            (3, _) => {
                if let [(what, which)] = wrong(m, marked, form.read)[..] {
                    self.saw(what, which);
                }
            }
            (5, Ok(said)) => {
                let bare = |side: &usize| marked[*side] > 0 && said.halves[*side].iter().any(|half| half.byte == 0);
                for side in (0..2).filter(bare) {
                    self.saw("5 for a marker without letters, in the previous half or in the new one", side as i64);
                }
            }
            (6, _) if self.hangs_on(form, m, 0, 6) => self.saw("6 for a marker alone", marked[0].into()),
            (7, _) if self.hangs_on(form, m, 1, 7) => self.saw("7 for a marker alone", marked[1].into()),
            _ => {}
        }
    }

    /// Whether a message would get another number without the markers of one half.
    fn hangs_on(&self, form: &Form, m: &[u8], side: usize, number: u32) -> bool {
        let mut without = m.to_vec();
        without[0] &= !(3 << MARKED[side]);
        without != m && (form.second)(self.block, &without).0 != number
    }

    fn saw_accepted(&mut self, said: &Said, marked: [u8; 2]) {
        let halves = ["marker of the previous half accepted", "marker of the new half accepted"];
        for side in (0..2).filter(|&side| marked[side] > 0) {
            self.saw(halves[side], marked[side].into());
        }
        if marked.iter().all(|&marked| marked > 0) {
            self.saw("markers of both halves accepted, not the same or the same", (marked[0] == marked[1]).into());
        }
        if marked[0] == 0 {
            return;
        }
        let index = index_of(self.block);
        for k in letters(u64::from(marked[0]) << MARKERS.start) {
            let once = |half: &Half| index.parts[M].get(&half.name).is_some_and(|counts| counts[k] == 1);
            if said.halves[0].iter().any(once) {
                self.saw("marker accepted whose count was 1, and is 0 then", 1 << (k - MARKERS.start));
            }
        }
    }
}

/// Whether a block has markers.
fn has_markers(index: &Index) -> bool {
    index.parts[M].values().any(|counts| counts[MARKERS] != [0, 0])
}

/// The rights requested that are granted and in every filter and not barred, so that the markers decide.
fn passed(index: &Index, q: &Asked) -> Vec<usize> {
    let [user, object] = q.names();
    let passed = |&right: &usize| granted(index, user, object, right, CHAIN) && passes(index, object, right);
    letters(q.request & ALL).filter(passed).filter(|&right| !q.barred(index, right)).collect()
}

/// What an accepted question hung on.
impl Call<'_> {
    /// Whether the user is bound, and the object open to her.
    pub fn saw_who(&mut self, q: &Asked) {
        let index = index_of(self.block);
        if !has_markers(&index) || passed(&index, q).is_empty() {
            return;
        }
        let (part, [user, object]) = (&index.parts[M], q.names());
        let bound = !RULE.hers(part, user).is_empty();
        let which = if bound { 2 - i64::from(RULE.open(part, user, object)) } else { 0 };
        self.saw("granted, and in every filter, to a user who is not bound, is let in, or is kept out", which);
    }

    pub fn saw_bound(&mut self, index: &Index, q: &Asked) {
        let (part, [user, object]) = (&index.parts[M], q.names());
        if !has_markers(index) {
            return;
        }
        self.saw_markers_alone(part, [user, object]);
        let rights = passed(index, q);
        if rights.is_empty() {
            return;
        }
        let open = RULE.open(part, user, object);
        self.saw_groups(part, [user, object], open);
        for (what, rule) in OTHERWISE {
            if rule.open(part, user, object) != open {
                self.saw(what, open.into());
            }
        }
        for [carried, before, last] in rights.iter().map(|&right| CARRIED[right]) {
            if (Rule { before, last, ..RULE }).open(part, user, object) != open {
                self.saw(CARRYING, open.into());
            }
            if (Rule { leads: carried, ..RULE }).open(part, user, object) != open {
                self.saw(CARRYING_OBJECT, open.into());
            }
        }
        if open && rights.iter().any(|&right| named_by_markers(index, object).any(|counts| !carries(counts, right))) {
            self.saw("held, and not if markers alone named a group for the filters", 1);
        }
    }

    /// The groups of a user who is bound, and what they have to do with the object.
    fn saw_groups(&mut self, part: &Part, [user, object]: [u16; 2], open: bool) {
        let hers = RULE.hers(part, user);
        if hers.is_empty() {
            return;
        }
        self.saw("bound, with one group of hers or with more", hers.len().min(2) as i64);
        let (alone, around) = (RULE.alone(part, object), RULE.around(part, object));
        if open {
            self.saw("let in to an object in no group, or to one of a group of hers", (!alone).into());
        }
        let zero_alone = around.contains(&0) && around.intersection(&hers).count() == 1;
        if hers.contains(&0) && !alone && (!open || zero_alone) {
            self.saw("kept out though a group of hers is name 0, or let in for it", open.into());
        }
    }

    /// Whether a record with markers alone is examined.
    fn saw_markers_alone(&mut self, part: &Part, names: [u16; 2]) {
        for (side, start) in names.into_iter().enumerate() {
            let growth = Growth::new(part, start);
            if part.iter().any(|(record, counts)| !member(counts) && growth.times(record.0, ALL) > 0) {
                self.saw("markers alone examined, for user or object", side as i64);
            }
        }
    }
}

/// The F records of the groups that M records of an object with markers alone name.
fn named_by_markers(index: &Index, object: u16) -> impl Iterator<Item = &Counts> {
    let named = set_of(&index.parts[M], object).into_iter().filter(|(_, counts)| !member(counts)).map(|(id, _)| id);
    let filters = |key: u16| index.parts[F].range((key, 0)..=(key, u16::MAX)).map(|(_, counts)| counts);
    named.filter(move |&name| name != object).flat_map(filters)
}
