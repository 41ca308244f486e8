//! The profile of a question: what a library's answers in the two have to do with each other, and what a right that is barred, or is
//! not, hung on.

use super::{index_of, Call, Question, EACH_RIGHT, FULL, SHORT};
use crate::barred::{denies, denies_some, Bar, Both, BAR};
use crate::bound::{member, RULE};
use crate::{carries, holds, letters, numbers, passes, Counts, Index, Part, ALL, CHAIN, M, ORDINARY, P, RIGHTS, STRICT};
use std::fmt::{self, Display, Formatter};

const QUESTIONS: &[&str] = &["rights", "may", "rights_by", "may_by"];
const WITHOUT: &[&str] = &["rights", "may"];
const BY: &[&str] = &["rights_by", "may_by"];
const ASKED_FULL: &[&str] = &["rights"];

const ANOTHER: &str = "accepted in the strict profile, with the ordinary one's answer or with another";
const BESIDE: &str = "number of a question refused, with a profile that is none";
const AS_ORDINARY: &str = "15 for a profile that is the ordinary one by its last bits, so many of them";
const AS_STRICT: &str = "15 for a profile that is the strict one by its last bits, so many of them";
const PLAIN_NUMBER: &str = "15 for the profile 2, 3 or 255, or for the greatest number, taken as -1";
const OVER_OTHERS: &str = "not barred, but over chains of another right, for the user, for the object or for both";
const BOUND_NAMES: &str = "barred by denials alone whose key, or whose id, filters bind without the right";
const IN_ORDER: &str = "barred by records alone before the first that grants it, or behind the last";
const AT_THE_ENDS: &str = "barred by the first P record alone, or by the last";

/// What each run is to meet of profiles: of which calls, in what respect, and which.
pub const TO_MEET: &[(&[&str], &str, &[i64])] = &[
    (QUESTIONS, "profile accepted", &[0, 1]),
    (QUESTIONS, ANOTHER, &[0, 1]),
    (QUESTIONS, AS_ORDINARY, &[8, 16, 32, 63]),
    (QUESTIONS, AS_STRICT, &[8, 16, 32, 63]),
    (QUESTIONS, PLAIN_NUMBER, &[2, 3, 255, -1]),
    (WITHOUT, BESIDE, &[1, 2, 4, 5]),
    (BY, BESIDE, &[1, 2, 4, 5, 13]),
    (ASKED_FULL, "granted as before, and none barred, some of the rights, or all", &[0, 1, 2]),
    (ASKED_FULL, "granted as before, and barred", &EACH_RIGHT),
    (ASKED_FULL, "granted as before, and not barred though it is denied somewhere", &EACH_RIGHT),
    (ASKED_FULL, "barred by one record alone, or by more", &[1, 2]),
    (ASKED_FULL, "barred by records alone that grant something", &[1]),
    (ASKED_FULL, "barred, and not if the capital letter had to be counted", &[1]),
    (ASKED_FULL, "barred, and not if the capital letter might not be counted", &[1]),
    (ASKED_FULL, "barred, and not if the user's chain had 31 records at most", &[1]),
    (ASKED_FULL, "barred, and not if the object's chain had 31 records at most", &[1]),
    (ASKED_FULL, "barred, and not if the user's chain had no records", &[1]),
    (ASKED_FULL, "barred, and not if the object's chain had no records", &[1]),
    (ASKED_FULL, "not barred, but if the user's chain had 33 records at most", &[0]),
    (ASKED_FULL, "not barred, but if the object's chain had 33 records at most", &[0]),
    (ASKED_FULL, "not barred, but if every name were the user's", &[0]),
    (ASKED_FULL, "not barred, but if every name were the object's", &[0]),
    (ASKED_FULL, "barred, and not if name 0 did not count for every object", &[1]),
    (ASKED_FULL, "not barred, but if name 0 counted for every user", &[0]),
    (ASKED_FULL, "not barred, but if chains went over any membership", &[0]),
    (ASKED_FULL, "not barred, but if chains went over markers alone", &[0]),
    (ASKED_FULL, "not barred, but if the denial of another right were its own", &[0]),
    (ASKED_FULL, OVER_OTHERS, &[0, 1, 2]),
    (ASKED_FULL, BOUND_NAMES, &[0, 1]),
    (ASKED_FULL, "barred by denials alone whose key is closed to a bound user", &[1]),
    (ASKED_FULL, "barred for a user who is the object", &[1]),
    (ASKED_FULL, IN_ORDER, &[0, 1]),
    (ASKED_FULL, AT_THE_ENDS, &[0, 1]),
];

/// The rule with one part changed.
const OTHERWISE: &[(&str, Bar)] = &[
    (
        "barred, and not if the capital letter had to be counted",
        Bar { denies: |counts, right| denies(counts, right) && counts[right] > 0, ..BAR },
    ),
    (
        "barred, and not if the capital letter might not be counted",
        Bar { denies: |counts, right| denies(counts, right) && counts[right] == 0, ..BAR },
    ),
    ("barred, and not if the user's chain had 31 records at most", Bar { most: [CHAIN - 1, CHAIN], ..BAR }),
    ("barred, and not if the object's chain had 31 records at most", Bar { most: [CHAIN, CHAIN - 1], ..BAR }),
    ("barred, and not if the user's chain had no records", Bar { most: [0, CHAIN], ..BAR }),
    ("barred, and not if the object's chain had no records", Bar { most: [CHAIN, 0], ..BAR }),
    ("not barred, but if the user's chain had 33 records at most", Bar { most: [CHAIN + 1, CHAIN], ..BAR }),
    ("not barred, but if the object's chain had 33 records at most", Bar { most: [CHAIN, CHAIN + 1], ..BAR }),
    ("not barred, but if every name were the user's", Bar { any: [true, false], ..BAR }),
    ("not barred, but if every name were the object's", Bar { any: [false, true], ..BAR }),
    ("barred, and not if name 0 did not count for every object", Bar { zero: [false, false], ..BAR }),
    ("not barred, but if name 0 counted for every user", Bar { zero: [true, true], ..BAR }),
    ("not barred, but if chains went over any membership", Bar { link: |counts, _| member(counts), ..BAR }),
    (
        "not barred, but if chains went over markers alone",
        Bar { link: |counts, right| carries(counts, right) || !member(counts), ..BAR },
    ),
];

/// Which P records grant a right: they are reached as those are that bar it.
const GRANT: Bar = Bar { denies: carries, ..BAR };

/// What is asked: a user, an object, a request and a profile.
#[derive(Clone, Copy)]
pub struct Asked {
    pub user: u64,
    pub object: u64,
    pub request: u64,
    pub profile: u64,
}

impl Display for Asked {
    fn fmt(&self, to: &mut Formatter) -> fmt::Result {
        write!(to, "{} {} {} {}", self.user, self.object, self.request, self.profile)
    }
}

impl Asked {
    /// The user and the object, where the question is accepted.
    pub fn names(&self) -> Both<u16> {
        [self.user, self.object].map(|name| name as u16)
    }

    /// Whether a right is barred, in its profile.
    pub fn barred(&self, index: &Index, right: usize) -> bool {
        self.profile == STRICT && BAR.bars(index, self.names(), right)
    }

    /// The same in another profile.
    fn with(&self, profile: u64) -> Asked {
        Asked { profile, ..*self }
    }
}

/// Whether a P record of the block counts a small letter.
fn has_denials(index: &Index) -> bool {
    index.parts[P].values().any(denies_some)
}

/// What a library answers in one profile: in full and in short.
#[derive(Clone, Copy, PartialEq)]
struct Answers {
    full: u64,
    short: u64,
}

impl Answers {
    fn rights(&self) -> u64 {
        self.full & ALL
    }

    /// Whether the short answer agrees with the full one.
    fn agree(&self, request: u64) -> bool {
        self.short == u64::from(self.rights() == request)
    }
}

/// What is wrong with a library's answers to one question in both profiles, if anything is.
fn apart(ordinary: Answers, strict: Answers, request: u64, denials: bool) -> Option<&'static str> {
    let examined = |answers: Answers| numbers(answers.full as u32);
    if [ordinary.full, strict.full].iter().any(|full| full >> 32 != 0) {
        return Some("is refused in another profile");
    }
    if !ordinary.agree(request) || !strict.agree(request) {
        return Some("the short answer does not agree with the full one");
    }
    if strict.rights() & !ordinary.rights() != 0 {
        return Some("a right is held in the strict profile alone");
    }
    if examined(ordinary) != examined(strict) {
        return Some("another number of records is examined in the strict profile");
    }
    (!denials && ordinary != strict).then_some("the profiles differ though nothing is denied")
}

impl Call<'_> {
    /// Asks the library what was accepted in both profiles, in full and in short, and by the directory if one is lent: the answers
    /// have to go together.
    pub fn in_each_profile(&mut self, q: &Asked, lent: Option<&[u16]>) -> Result<(), String> {
        let (lib, b) = (self.lib, self.block);
        let [ordinary, strict] = [ORDINARY, STRICT].map(|profile| {
            let q = q.with(profile);
            Answers { full: (FULL.lib)(lib, b, &q), short: (SHORT.lib)(lib, b, &q) }
        });
        let told = |what: &str| Err(format!("{} {q}: {what}", self.name));
        if let Some(what) = apart(ordinary, strict, q.request, has_denials(&index_of(b))) {
            return told(what);
        }
        let Some(d) = lent else { return Ok(()) };
        let by = [ORDINARY, STRICT].map(|profile| {
            let q = q.with(profile);
            Answers { full: (FULL.lib_by)(lib, b, d, &q), short: (SHORT.lib_by)(lib, b, d, &q) }
        });
        if by == [ordinary, strict] {
            Ok(())
        } else {
            told("gives something else by the directory, in one of the profiles")
        }
    }

    /// The profile of a question that got this number.
    pub fn saw_profile(&mut self, q: &Asked, number: u32) {
        match number {
            0 => self.saw("profile accepted", q.profile as i64),
            15 => self.saw_none(q.profile),
            _ if q.profile > STRICT => self.saw(BESIDE, number.into()),
            _ => {}
        }
    }

    /// A number that is no profile.
    fn saw_none(&mut self, profile: u64) {
        if [2, 3, 255, u64::MAX].contains(&profile) {
            self.saw(PLAIN_NUMBER, profile as i64);
        }
        for (what, narrowed) in [(AS_ORDINARY, ORDINARY), (AS_STRICT, STRICT)] {
            let bits = [63, 32, 16, 8].into_iter().find(|&bits| profile % (1 << bits) == narrowed);
            bits.into_iter().for_each(|bits| self.saw(what, bits.into()));
        }
    }

    /// Whether a question in the strict profile that got this value would get it in the ordinary one.
    pub fn saw_another(&mut self, question: &Question, q: &Asked, value: u32) {
        if q.profile == STRICT {
            let (_, ordinary) = (question.second)(self.block, &q.with(ORDINARY));
            self.saw(ANOTHER, (ordinary != value).into());
        }
    }

    /// What the rights that are granted as before had to do with denials, in the strict profile.
    pub fn saw_barred(&mut self, index: &Index, q: &Asked, value: u32) {
        if q.profile != STRICT {
            return;
        }
        let names = q.names();
        let granted: Vec<usize> =
            letters(q.request & ALL).filter(|&right| holds(index, names[0], names[1], right, CHAIN)).collect();
        let barred = granted.iter().filter(|&right| value >> right & 1 == 0).count();
        if !granted.is_empty() {
            let which = i64::from(barred > 0) + i64::from(barred == granted.len());
            self.saw("granted as before, and none barred, some of the rights, or all", which);
        }
        for right in granted {
            let denials = BAR.denials(index, names, right);
            self.saw_changed_bar(index, names, right, !denials.is_empty());
            if denials.is_empty() {
                self.saw_not_barred(index, names, right);
            } else {
                self.saw_denials(index, names, right, &denials);
            }
        }
    }

    /// Whether a right would be barred, or would not, by a rule of which one part is changed.
    fn saw_changed_bar(&mut self, index: &Index, names: Both<u16>, right: usize, barred: bool) {
        if has_denials(index) {
            let changed = OTHERWISE.iter().filter(|(_, bar)| bar.bars(index, names, right) != barred);
            changed.for_each(|(what, _)| self.saw(what, barred.into()));
        }
    }

    /// What a right that is not barred would be barred by.
    fn saw_not_barred(&mut self, index: &Index, names: Both<u16>, right: usize) {
        if index.parts[P].values().any(|counts| denies(counts, right)) {
            self.saw("granted as before, and not barred though it is denied somewhere", 1 << right);
        }
        let reached = |denied, rights| !BAR.reached(index, names, denied, rights).is_empty();
        let others = || (0..RIGHTS).filter(|&other| other != right);
        if others().any(|other| reached(other, [right; 2])) {
            self.saw("not barred, but if the denial of another right were its own", 0);
        }
        let chains: [fn(usize, usize) -> Both<usize>; 3] =
            [|own, other| [other, own], |own, other| [own, other], |_, other| [other; 2]];
        for (which, rights) in chains.iter().enumerate() {
            if others().any(|other| reached(right, rights(right, other))) {
                self.saw(OVER_OTHERS, which as i64);
            }
        }
    }

    /// The denials that bar a right: which they are, and what has no part in it.
    fn saw_denials(&mut self, index: &Index, names: Both<u16>, right: usize, denials: &[(u16, u16)]) {
        let ([user, object], part) = (names, &index.parts[P]);
        self.saw("granted as before, and barred", 1 << right);
        self.saw("barred by one record alone, or by more", denials.len().min(2) as i64);
        let grants = |counts: &Counts| (0..RIGHTS).any(|right| carries(counts, right));
        let unopened = |key: u16| !RULE.open(&index.parts[M], user, key);
        let all = |such: &dyn Fn(u16, u16) -> bool| denials.iter().all(|&(key, id)| such(key, id));
        let seen = [
            ("barred by records alone that grant something", all(&|key, id| grants(&part[&(key, id)])), 1),
            (BOUND_NAMES, all(&|key, _| !passes(index, key, right)), 0),
            (BOUND_NAMES, all(&|_, id| !passes(index, id, right)), 1),
            ("barred by denials alone whose key is closed to a bound user", all(&|key, _| unopened(key)), 1),
            ("barred for a user who is the object", user == object, 1),
        ];
        seen.into_iter().filter(|one| one.1).for_each(|(what, _, which)| self.saw(what, which));
        self.saw_order(part, denials, &GRANT.denials(index, names, right));
    }

    /// Where they stand, among all P records and to those that grant the right.
    fn saw_order(&mut self, part: &Part, denials: &[(u16, u16)], grants: &[(u16, u16)]) {
        if denials.last() < grants.first() {
            self.saw(IN_ORDER, 0);
        }
        if denials.first() > grants.last() {
            self.saw(IN_ORDER, 1);
        }
        let ends = [part.keys().next(), part.keys().next_back()];
        for which in (0..2).filter(|&which| denials.len() == 1 && ends[which] == denials.first()) {
            self.saw(AT_THE_ENDS, which as i64);
        }
    }
}

#[cfg(test)]
mod tests {
    use super::{apart, Answers};

    /// Each way in which the answers of a library can be apart.
    #[test]
    fn answers_go_together_or_are_apart() {
        let answers = |full, short| Answers { full, short };
        let (all, some, none) = (answers(15 + (3 << 4), 1), answers(7 + (3 << 4), 0), answers(3 << 4, 0));
        for (ordinary, strict) in [(all, all), (all, some), (some, some), (some, none), (none, none)] {
            assert_eq!(apart(ordinary, strict, 15, true), None);
            assert_eq!(apart(ordinary, strict, 15, false).is_none(), ordinary == strict);
        }
        let refused = answers(15 << 32, 0);
        let wrong = [
            (all, refused),
            (refused, none),
            (answers(15 + (3 << 4), 0), some),
            (all, answers(7 + (3 << 4), 1)),
            (some, all),
            (answers(6, 0), answers(9, 0)),
            (some, answers(7 + (4 << 4), 0)),
            (some, answers(7 + (3 << 4) + (1 << 18), 0)),
        ];
        for (ordinary, strict) in wrong {
            assert!(apart(ordinary, strict, 15, true).is_some());
        }
    }
}
