//! What bears on a user's rights on an object: both programs are asked about records; then records are changed, and other blocks made
//! that agree on what is listed, and where nothing changed that bears, no answer of the library may be another.

use super::wide::WIDE;
use super::{index_of, packed, After, Appointed, Call, Case, Form, Lent, Library, Often, Tally, PLAIN};
use crate::bearing::{Bearing, Listed, BEARING};
use crate::bound::member;
use crate::gen::bearing::{another, asked, change, fair_names, index, Asked, Change, Made};
use crate::gen::limits::far;
use crate::gen::Rng;
use crate::{carries, numbers, Index, ALL, CHAIN, ENTRIES, F, KINDS, M, N, NAMES, ORDINARY, P, RIGHTS, STRICT, X};
use std::collections::BTreeMap;
use std::fmt::{self, Display, Formatter};

const BEARS: &[&str] = &["bears"];
const CHANGE: &[&str] = &["change"];
const ANOTHER: &[&str] = &["another"];
pub const EACH: &[&str] = &["bears", "change", "another"];

const EACH_KIND: &[i64] = &[1, 2, 3];

const BESIDES: [(u32, &str); 3] =
    [(1, "1, and besides there is"), (2, "2, and besides there is"), (3, "3, and besides there is")];
const ONE_NAME: &str = "4 for one name alone: the user, the object, the key or the id";
const JUST: &str = "4 for one name alone, which is 1024, or 2^64 - 1";
const NAME_BY_BITS: &str = "4 for one name alone, which is fair by its last bits, so many of them";
const NO_KIND: &str = "3 for the kind 0, 4 or 17, or for the greatest number, taken as -1";
const KIND_BY_BITS: &str = "3 for a kind that is fair by its last bits, so many of them";

const HAS: &str = "yes or no, of a record that the block has";
const HAS_NOT: &str = "yes or no, of a record that the block does not have";
const SIDES: &str = "yes of an M record for the user alone, for the object alone, or for both";
const HALF: &str = "no of a P record whose key is reached, whose id is reached, or neither";
const FILTERS: &str = "yes of an F record of the object, or of a group";
const TO_MEMBER: [&str; 2] = [
    "records from the user to the key of an M record, as few as can be",
    "records from the object to the key of an M record, as few as can be",
];
const TO_GRANT: [&str; 2] = [
    "records from the user to the id of a P record, as few as can be",
    "records from the object to the key of a P record, as few as can be",
];
const TO_FILTER: &str = "records from the object to the key of an F record, as few as can be, more or no chain taken as 3";

/// How many records: none, one, some, about as many as may be, and more or no chain at all, taken as 34.
const FAR: &[i64] = &[0, 1, 2, 30, 31, 32, 33, 34];

const NO_ZERO: &str = "yes of a P record, and no if key 0 had to be reached";
const ZERO_ID: &str = "no of a P record, and yes if id 0 had not to be reached";
const ZERO_GROUPS: &str = "no of a P record, and yes if the groups of name 0 were those of every object";
const EXCHANGED: &str = "another answer with user and object exchanged, of the kind";
const OTHER_WAY: &str = "another answer with key and id exchanged, of the kind";

const BORE_NOT: &str = "did not bear, and changed nothing, of the kind";
const BORE_IDLE: &str = "bore, and changed no answer, of the kind";
const BORE: &str = "bore, and changed an answer, of the kind";
const FORM_NOT: &str = "did not bear, and named one record, several that the block has, or several of which some are new";
const BY_LONGEST: &str = "bore by chains of as many records as may be alone, and changed an answer, of the kind";
const BY_LONGER: &str = "did not bear, but if chains might have one record more, of the kind";
const WHAT: &str = "changed the rights in the ordinary profile, in the strict one, her number, its number, or a short answer";
const ALONE: &str = "changed the rights in one profile alone, the ordinary or the strict one";
const PART: &str = "bore, of several records of which not all bear";

const LENGTH: &str = "a shorter block, or a longer one";
const THROWN: &str = "records thrown away, of the kind";
const ALTERED: &str = "records altered, of the kind";
const ADDED: &str = "records added, of the kind";
const HELD: &str = "asked of a user who holds nothing, or something";
const LISTED: &str = "asked in both blocks about a record, no or yes";

/// What each run is to meet of it: of which calls, in what respect, and which.
pub const TO_MEET: &[(&[&str], &str, &[i64])] = &[
    (BEARS, "number", &[0, 1, 2, 3, 4]),
    (BEARS, BESIDES[0].1, &[3, 4]),
    (BEARS, BESIDES[1].1, &[3, 4]),
    (BEARS, BESIDES[2].1, &[4]),
    (BEARS, ONE_NAME, &[0, 1, 2, 3]),
    (BEARS, JUST, &[0, 1]),
    (BEARS, NAME_BY_BITS, &[16, 32]),
    (BEARS, NO_KIND, &[0, 4, 17, -1]),
    (BEARS, KIND_BY_BITS, &[8, 16, 32, 63]),
    (BEARS, "yes, of the kind", EACH_KIND),
    (BEARS, "no, of the kind", EACH_KIND),
    (BEARS, HAS, &[0, 1]),
    (BEARS, HAS_NOT, &[0, 1]),
    (BEARS, SIDES, &[0, 1, 2]),
    (BEARS, HALF, &[0, 1, 2]),
    (BEARS, FILTERS, &[0, 1]),
    (BEARS, TO_MEMBER[0], FAR),
    (BEARS, TO_MEMBER[1], FAR),
    (BEARS, TO_GRANT[0], FAR),
    (BEARS, TO_GRANT[1], FAR),
    (BEARS, TO_FILTER, &[0, 1, 2, 3]),
    (BEARS, "yes of an M record, and no if the user's chain had 30 records at most", &[1]),
    (BEARS, "yes of an M record, and no if the object's chain had 30 records at most", &[1]),
    (BEARS, "no of an M record, and yes if the user's chain had 32 records at most", &[1]),
    (BEARS, "no of an M record, and yes if the object's chain had 32 records at most", &[1]),
    (BEARS, "yes of a P record, and no if the user's chain had 31 records at most", &[2]),
    (BEARS, "yes of a P record, and no if the object's chain had 31 records at most", &[2]),
    (BEARS, "no of a P record, and yes if the user's chain had 33 records at most", &[2]),
    (BEARS, "no of a P record, and yes if the object's chain had 33 records at most", &[2]),
    (BEARS, NO_ZERO, &[2]),
    (BEARS, ZERO_ID, &[2]),
    (BEARS, ZERO_GROUPS, &[1]),
    (BEARS, "no of an F record, and yes if the groups' groups counted", &[3]),
    (BEARS, "no, and yes if markers alone gave a chain, of the kind", EACH_KIND),
    (BEARS, "yes, and no if N ended a chain, of the kind", EACH_KIND),
    (BEARS, "yes, and no if X ended a chain, of the kind", EACH_KIND),
    (BEARS, "yes, and no if chains had to carry reading, of the kind", EACH_KIND),
    (BEARS, EXCHANGED, &[2, 3]),
    (BEARS, OTHER_WAY, EACH_KIND),
    (CHANGE, "number", &[0, 3, 4, 5, 6, 7, 8]),
    (CHANGE, BORE_NOT, EACH_KIND),
    (CHANGE, BORE_IDLE, EACH_KIND),
    (CHANGE, BORE, EACH_KIND),
    (CHANGE, FORM_NOT, &[0, 1, 2]),
    (CHANGE, PART, &[1]),
    (CHANGE, BY_LONGEST, EACH_KIND),
    (CHANGE, BY_LONGER, EACH_KIND),
    (CHANGE, WHAT, &[0, 1, 2, 3, 4]),
    (CHANGE, ALONE, &[0, 1]),
    (ANOTHER, LENGTH, &[-1, 1]),
    (ANOTHER, THROWN, EACH_KIND),
    (ANOTHER, ALTERED, EACH_KIND),
    (ANOTHER, ADDED, EACH_KIND),
    (ANOTHER, HELD, &[0, 1]),
    (ANOTHER, LISTED, &[0, 1]),
];

/// The rule with one part changed, and the part of the block for whose records that is looked at; all, where none is named.
const OTHERWISE: &[(&str, Option<usize>, Bearing)] = &[
    (
        "yes of an M record, and no if the user's chain had 30 records at most",
        Some(M),
        Bearing { to_member: [CHAIN - 2, CHAIN - 1], ..BEARING },
    ),
    (
        "yes of an M record, and no if the object's chain had 30 records at most",
        Some(M),
        Bearing { to_member: [CHAIN - 1, CHAIN - 2], ..BEARING },
    ),
    (
        "no of an M record, and yes if the user's chain had 32 records at most",
        Some(M),
        Bearing { to_member: [CHAIN, CHAIN - 1], ..BEARING },
    ),
    (
        "no of an M record, and yes if the object's chain had 32 records at most",
        Some(M),
        Bearing { to_member: [CHAIN - 1, CHAIN], ..BEARING },
    ),
    (
        "yes of a P record, and no if the user's chain had 31 records at most",
        Some(P),
        Bearing { to_grant: [CHAIN - 1, CHAIN], ..BEARING },
    ),
    (
        "yes of a P record, and no if the object's chain had 31 records at most",
        Some(P),
        Bearing { to_grant: [CHAIN, CHAIN - 1], ..BEARING },
    ),
    (
        "no of a P record, and yes if the user's chain had 33 records at most",
        Some(P),
        Bearing { to_grant: [CHAIN + 1, CHAIN], ..BEARING },
    ),
    (
        "no of a P record, and yes if the object's chain had 33 records at most",
        Some(P),
        Bearing { to_grant: [CHAIN, CHAIN + 1], ..BEARING },
    ),
    (NO_ZERO, Some(P), Bearing { zero: [false, false], ..BEARING }),
    (ZERO_ID, Some(P), Bearing { zero: [true, true], ..BEARING }),
    ("no of an F record, and yes if the groups' groups counted", Some(F), Bearing { to_filter: 2, ..BEARING }),
    ("no, and yes if markers alone gave a chain, of the kind", None, Bearing { link: |_| true, ..BEARING }),
    (
        "yes, and no if N ended a chain, of the kind",
        None,
        Bearing { link: |counts| member(counts) && counts[N] == 0, ..BEARING },
    ),
    (
        "yes, and no if X ended a chain, of the kind",
        None,
        Bearing { link: |counts| member(counts) && counts[X] == 0, ..BEARING },
    ),
    ("yes, and no if chains had to carry reading, of the kind", None, Bearing { link: |counts| carries(counts, 1), ..BEARING }),
];

/// Chains of one record fewer than may be, and of one more.
const FEWER: Bearing = Bearing { to_member: [CHAIN - 2; 2], to_grant: [CHAIN - 1; 2], to_filter: 0, ..BEARING };
const MORE: Bearing = Bearing { to_member: [CHAIN; 2], to_grant: [CHAIN + 1; 2], to_filter: 2, ..BEARING };

/// The calls, each as often as it is drawn among nine. The first one is made on damaged blocks too.
const CALLS: [Often; 3] =
    [("bears", 5, |call| call.bears()), ("change", 3, |call| call.change()), ("another", 1, |call| call.another())];

/// A block, and calls about what bears on it.
pub fn case(lib: &dyn Library, rng: &mut Rng, tally: &mut Tally) -> Result<(), String> {
    let (block, appointed) = (index(rng).encode(), Appointed::default());
    let mut case = Case { lib, rng, tally, block, kept: Vec::new(), keeping: false, appointed };
    for _ in 0..1 + case.rng.below(10) {
        case.one(&index_of(&case.block), &CALLS)?;
    }
    case.one_with_a_fault(&CALLS[..1])
}

impl Display for Asked {
    fn fmt(&self, to: &mut Formatter) -> fmt::Result {
        write!(to, "{} {} {} {} {}", self.user, self.object, self.kind, self.key, self.id)
    }
}

impl Asked {
    /// What is asked about a record.
    fn about(names: [u16; 2], part: usize, (key, id): (u16, u16)) -> Asked {
        let [user, object] = names.map(u64::from);
        Asked { user, object, kind: part as u64 + 1, key: key.into(), id: id.into() }
    }

    /// What the library answers.
    fn of(&self, lib: &dyn Library, block: &[u8]) -> u64 {
        lib.bears(block, self.user, self.object, self.kind, self.key, self.id)
    }

    /// The names that the caller gave, in their order.
    fn given(&self) -> [u64; 4] {
        [self.user, self.object, self.key, self.id]
    }

    /// The same, where it is accepted: the user and the object, the part, and the record.
    fn fair(&self) -> ([u16; 2], usize, (u16, u16)) {
        let [user, object, key, id] = self.given().map(|name| name as u16);
        ([user, object], self.kind as usize - 1, (key, id))
    }
}

impl Call<'_> {
    /// Asks both programs about a record.
    fn bears(&mut self) -> After {
        let q = asked(self.rng, self.index);
        let (number, value) = crate::bears(self.block, q.user, q.object, q.kind, q.key, q.id);
        let mut b = Lent::new(self.block);
        let got = q.of(self.lib, b.lend());
        self.agree(got, number, value, &[b.is(self.block)], q.to_string())?;
        if number == 0 {
            self.saw_borne(&q, value == 1);
        } else {
            self.saw_not_asked(&q, number);
        }
        Ok(self.block.to_vec())
    }

    /// What a refused call was refused for.
    fn saw_not_asked(&mut self, q: &Asked, number: u32) {
        let no_kind = q.kind == 0 || q.kind > KINDS as u64;
        let wrong: Vec<usize> = (0..4).filter(|&k| q.given()[k] >= NAMES.into()).collect();
        if let Some((_, what)) = BESIDES.iter().find(|one| one.0 == number) {
            let others = [(3, no_kind), (4, !wrong.is_empty())].into_iter().filter(|&(other, is)| is && other > number);
            others.for_each(|(other, _)| self.saw(what, other.into()));
        }
        match (number, &wrong[..]) {
            (3, _) => self.saw_no_kind(q.kind),
            (4, &[one]) => self.saw_name_above(one, q.given()[one]),
            _ => {}
        }
    }

    fn saw_no_kind(&mut self, kind: u64) {
        if [0, 4, 17, u64::MAX].contains(&kind) {
            self.saw(NO_KIND, kind as i64);
        }
        let bits = [63, 32, 16, 8].into_iter().find(|&bits| (1..=KINDS as u64).contains(&(kind % (1 << bits))));
        bits.into_iter().for_each(|bits| self.saw(KIND_BY_BITS, bits));
    }

    fn saw_name_above(&mut self, which: usize, name: u64) {
        self.saw(ONE_NAME, which as i64);
        let just = [NAMES.into(), u64::MAX].iter().position(|&other| other == name);
        just.into_iter().for_each(|which| self.saw(JUST, which as i64));
        let bits = [32, 16].into_iter().find(|&bits| name % (1 << bits) < NAMES.into());
        bits.into_iter().for_each(|bits| self.saw(NAME_BY_BITS, bits));
    }
}

/// How many records the shortest chain to a name has, as it is told.
fn told(far: &BTreeMap<u16, u64>, name: u16) -> i64 {
    match far.get(&name) {
        Some(&records) if (2..30).contains(&records) => 2,
        Some(&records) => records.min(34) as i64,
        None => 34,
    }
}

/// What an accepted answer hung on. The rule with other parts is looked at for one call in three.
impl Call<'_> {
    fn saw_borne(&mut self, q: &Asked, yes: bool) {
        let (index, (names, part, record)) = (index_of(self.block), q.fair());
        self.saw(if yes { "yes, of the kind" } else { "no, of the kind" }, q.kind as i64);
        self.saw(if index.parts[part].contains_key(&record) { HAS } else { HAS_NOT }, yes.into());
        self.saw_far(&index, names, part, record);
        if !self.rng.one_in(3) {
            return;
        }
        for (what, of, rule) in OTHERWISE {
            if of.is_none_or(|of| of == part) && rule.bears(&index, names, part, record) != yes {
                self.saw(what, q.kind as i64);
            }
        }
        let [user, object] = names;
        if BEARING.bears(&index, [object, user], part, record) != yes {
            self.saw(EXCHANGED, q.kind as i64);
        }
        if BEARING.bears(&index, names, part, (record.1, record.0)) != yes {
            self.saw(OTHER_WAY, q.kind as i64);
        }
        if part == P && !yes && BEARING.bears(&index, [user, 0], part, record) {
            self.saw(ZERO_GROUPS, 1);
        }
    }

    /// How far the names of a record are from the user and from the object, and what of the list it meets.
    fn saw_far(&mut self, index: &Index, names: [u16; 2], part: usize, (key, id): (u16, u16)) {
        let far = names.map(|start| far(&index.parts[M], start));
        let within = |side: usize, name: u16, most: u64| far[side].get(&name).is_some_and(|&records| records <= most);
        match part {
            M => {
                (0..2).for_each(|side| self.saw(TO_MEMBER[side], told(&far[side], key)));
                match [0, 1].map(|side| within(side, key, 31)) {
                    [true, true] => self.saw(SIDES, 2),
                    [false, false] => {}
                    [_, object] => self.saw(SIDES, object.into()),
                }
            }
            P => {
                self.saw(TO_GRANT[0], told(&far[0], id));
                self.saw(TO_GRANT[1], told(&far[1], key));
                match [key == 0 || within(1, key, 32), within(0, id, 32)] {
                    [true, true] => {}
                    [false, false] => self.saw(HALF, 2),
                    [_, of_user] => self.saw(HALF, of_user.into()),
                }
            }
            _ => {
                self.saw(TO_FILTER, far[1].get(&key).map_or(3, |&records| records.min(3) as i64));
                if within(1, key, 1) {
                    self.saw(FILTERS, (key != names[1]).into());
                }
            }
        }
    }
}

/// The answers of a library to both questions, in both profiles, about some requests.
#[derive(PartialEq)]
struct Answers {
    full: [Vec<u64>; 2],
    short: [Vec<u64>; 2],
}

impl Answers {
    /// Those of these two calls, each with a request and a profile.
    fn of(requests: &[u64], full: impl Fn(u64, u64) -> u64, short: impl Fn(u64, u64) -> u64) -> Answers {
        let all = |ask: &dyn Fn(u64, u64) -> u64| {
            [ORDINARY, STRICT].map(|profile| requests.iter().map(|&request| ask(request, profile)).collect())
        };
        Answers { full: all(&full), short: all(&short) }
    }

    /// Those that a library gives without a directory.
    fn without(lib: &dyn Library, block: &[u8], names: [u16; 2], requests: &[u64]) -> Answers {
        let [user, object] = names.map(u64::from);
        Answers::of(
            requests,
            |request, profile| lib.rights(block, user, object, request, profile),
            |request, profile| lib.may(block, user, object, request, profile),
        )
    }

    /// Those by a directory that it makes.
    fn by(lib: &dyn Library, block: &[u8], names: [u16; 2], requests: &[u64]) -> Answers {
        let ([user, object], mut own) = (names.map(u64::from), vec![0; ENTRIES]);
        lib.directory(block, &mut own);
        Answers::of(
            requests,
            |request, profile| lib.rights_by(block, &own, user, object, request, profile),
            |request, profile| lib.may_by(block, &own, user, object, request, profile),
        )
    }

    /// Those of the second program.
    fn second(block: &[u8], names: [u16; 2], requests: &[u64]) -> Answers {
        let ([user, object], both) = (names.map(u64::from), |(number, value)| packed(number, value));
        Answers::of(
            requests,
            |request, profile| both(crate::rights(block, user, object, request, profile)),
            |request, profile| both(crate::may(block, user, object, request, profile)),
        )
    }

    /// The rights held of all, which are the first request, in each profile.
    fn held(&self) -> [u64; 2] {
        [0, 1].map(|profile| self.full[profile][0] & ALL)
    }

    /// The numbers of M records examined, of the user and of the object.
    fn examined(&self) -> [u32; 2] {
        numbers(self.full[0][0] as u32)
    }

    /// In what respects two differ, by their numbers in `WHAT`.
    fn differences(&self, other: &Answers) -> Vec<i64> {
        let told = |answers: &Answers| {
            let ([ordinary, strict], [hers, its]) = (answers.held(), answers.examined());
            [ordinary, strict, hers.into(), its.into()]
        };
        let full = told(self).into_iter().zip(told(other)).map(|(one, other)| one != other);
        full.chain([self.short != other.short]).zip(0..).filter(|(differ, _)| *differ).map(|(_, which)| which).collect()
    }
}

/// The records that a message names, by their part, keys and ids.
struct Named {
    part: usize,
    records: Vec<(u16, u16)>,
}

/// Changes by messages.
impl Call<'_> {
    /// Some requests, that of all rights first.
    fn requests(&mut self) -> [u64; 3] {
        [ALL, 1 + self.rng.below(ALL), 1 << self.rng.below(RIGHTS as u64)]
    }

    /// All answers of the library about a user and an object; by a directory they are the same. Now and then they are held against the
    /// second program's.
    fn answers(&mut self, block: &[u8], names: [u16; 2], requests: &[u64], by: bool) -> Result<Answers, String> {
        let answers = Answers::without(self.lib, block, names, requests);
        self.tally.calls += 4 * requests.len() as u64;
        if by {
            self.tally.calls += 4 * requests.len() as u64 + 1;
            if Answers::by(self.lib, block, names, requests) != answers {
                return Err(format!("{} {names:?}: the answers by a directory are others", self.name));
            }
        }
        if self.rng.one_in(24) && Answers::second(block, names, requests) != answers {
            return Err(format!("{} {names:?} {requests:?}: the second program has other answers", self.name));
        }
        Ok(answers)
    }

    /// Whether a record bears, by the library; it is as the list says.
    fn borne(
        &mut self,
        block: &[u8],
        names: [u16; 2],
        listed: &Listed,
        part: usize,
        record: (u16, u16),
    ) -> Result<bool, String> {
        let (q, bears) = (Asked::about(names, part, record), listed.has(part, record));
        self.tally.calls += 1;
        if q.of(self.lib, block) != packed(0, bears.into()) {
            return Err(format!("bears {q}, in {}: {bears} is right", self.name));
        }
        Ok(bears)
    }

    /// Changes records by a message, which both programs are sent.
    fn change(&mut self) -> After {
        let names = fair_names(self.rng, self.index);
        let Change { wide, message } = change(self.rng, self.index, names);
        let form = if wide { &WIDE } else { &PLAIN };
        let Some(after) = self.changed(form, &message)? else { return Ok(self.block.to_vec()) };
        let said = (form.read)(&message).map_err(|number| format!("a message with {number} was taken"))?;
        let records = said.halves.iter().flatten().map(|half| half.name).collect();
        self.compare(&after, names, &Named { part: said.kind, records }).map_err(|what| format!("{what}\n{message:02x?}"))?;
        Ok(after)
    }

    /// Asks before and after a change of these records. Where none of them bears before, no answer may be another, and none bears then.
    fn compare(&mut self, after: &[u8], names: [u16; 2], named: &Named) -> Result<(), String> {
        let (index, requests, by) = (index_of(self.block), self.requests(), self.rng.one_in(4));
        let listed = Listed::new(&index, names);
        let bore = self.all_borne(self.block, names, &listed, named)?;
        let before = self.answers(self.block, names, &requests, by)?;
        let then = self.answers(after, names, &requests, by)?;
        if !bore.contains(&true) {
            if before != then {
                return Err(format!("change {names:?}: it does not bear, and an answer is another"));
            }
            self.all_borne(after, names, &listed, named)?;
        }
        self.saw_change(&index, names, named, &bore, before != then);
        self.saw_differences(&before, &then);
        Ok(())
    }

    /// Whether each of some records bears, by the library; it is as the list says.
    fn all_borne(&mut self, block: &[u8], names: [u16; 2], listed: &Listed, named: &Named) -> Result<Vec<bool>, String> {
        named.records.iter().map(|&record| self.borne(block, names, listed, named.part, record)).collect()
    }

    /// Sends a message; the block then, where it is accepted.
    fn changed(&mut self, form: &Form, m: &[u8]) -> Result<Option<Vec<u8>>, String> {
        let (number, after) = (form.second)(self.block, m);
        let (mut b, mut lent) = (Lent::new(self.block), Lent::new(m));
        let got = (form.lib)(self.lib, b.lend(), lent.lend());
        self.agree(got, number, 0, &[b.is(&after), lent.is(m)], format!("{m:02x?}"))?;
        Ok((number == 0).then_some(after))
    }

    /// Whether an answer changed, of records that bore or did not.
    fn saw_change(&mut self, index: &Index, names: [u16; 2], named: &Named, bore: &[bool], changed: bool) {
        let (kind, any) = (named.part as i64 + 1, bore.contains(&true));
        let by = |rule: &Bearing| named.records.iter().any(|&record| rule.bears(index, names, named.part, record));
        match (any, changed) {
            (_, true) => self.saw(BORE, kind),
            (true, false) => self.saw(BORE_IDLE, kind),
            (false, false) => self.saw(BORE_NOT, kind),
        }
        if !any {
            let new = named.records.iter().any(|record| !index.parts[named.part].contains_key(record));
            self.saw(FORM_NOT, if bore.len() == 1 { 0 } else { 1 + i64::from(new) });
            if by(&MORE) {
                self.saw(BY_LONGER, kind);
            }
        } else if bore.contains(&false) {
            self.saw(PART, 1);
        }
        if changed && !by(&FEWER) {
            self.saw(BY_LONGEST, kind);
        }
    }

    /// Which answers changed.
    fn saw_differences(&mut self, before: &Answers, then: &Answers) {
        before.differences(then).into_iter().for_each(|which| self.saw(WHAT, which));
        match [0, 1].map(|profile| before.held()[profile] != then.held()[profile]) {
            [true, false] => self.saw(ALONE, 0),
            [false, true] => self.saw(ALONE, 1),
            _ => {}
        }
    }
}

/// How many records are asked about in both blocks.
const ASKED: usize = 12;

/// Blocks that agree on what is listed.
impl Call<'_> {
    /// Makes another block that agrees with this one: all answers are the same, without a directory and by one, and so is what is
    /// listed.
    fn another(&mut self) -> After {
        let (names, requests) = (fair_names(self.rng, self.index), self.requests());
        let listed = Listed::new(self.index, names);
        let (other, made) = another(self.rng, self.index, names, &listed);
        let bytes = other.encode();
        let answers = self.answers(self.block, names, &requests, true)?;
        if self.answers(&bytes, names, &requests, true)? != answers {
            return Err(format!("another {names:?}: the answers are others\nthe other block {bytes:02x?}"));
        }
        let again = Listed::new(&other, names);
        if again.of(&other) != listed.of(self.index) {
            return Err(format!("another {names:?}: other records are listed\nthe other block {bytes:02x?}"));
        }
        for (part, record) in self.some_records(&other) {
            let yes = self.borne(self.block, names, &listed, part, record)?;
            self.borne(&bytes, names, &again, part, record)?;
            if again.has(part, record) != yes {
                return Err(format!("another {names:?}: {part} {record:?} is listed in one of the blocks alone"));
            }
            self.saw(LISTED, yes.into());
        }
        self.saw_made(&made);
        if bytes.len() != self.block.len() {
            self.saw(LENGTH, if bytes.len() < self.block.len() { -1 } else { 1 });
        }
        self.saw(HELD, (answers.held()[0] > 0).into());
        Ok(self.block.to_vec())
    }

    /// Some records of the two blocks.
    fn some_records(&mut self, other: &Index) -> Vec<(usize, (u16, u16))> {
        let of = |index: &Index| -> Vec<(usize, (u16, u16))> {
            let parts = index.parts.iter().enumerate();
            parts.flat_map(|(part, records)| records.keys().map(move |&record| (part, record))).collect()
        };
        let all = [of(self.index), of(other)].concat();
        (0..ASKED.min(all.len())).map(|_| self.rng.pick(&all)).collect()
    }

    fn saw_made(&mut self, made: &Made) {
        for (what, many) in [(THROWN, made.thrown), (ALTERED, made.altered), (ADDED, made.added)] {
            (0..KINDS).filter(|&part| many[part] > 0).for_each(|part| self.saw(what, part as i64 + 1));
        }
    }
}

/// The last lines of a run: how many changes did not bear and changed nothing, how many bore, and in how many of these some answer
/// changed.
impl Tally {
    pub fn changes(&self) -> Vec<String> {
        let of = |what: &'static str| [1, 2, 3].map(|kind| self.times("change", what, kind));
        let [not, idle, changed] = [BORE_NOT, BORE_IDLE, BORE].map(of);
        let each = |one: &dyn Fn(usize) -> String| {
            ["M", "P", "F"]
                .iter()
                .enumerate()
                .map(|(part, name)| format!("{name} {}", one(part)))
                .collect::<Vec<_>>()
                .join(", ")
        };
        let (all, sum) = (|part: usize| idle[part] + changed[part], |many: [u64; 3]| many.iter().sum::<u64>());
        let bore = sum(idle) + sum(changed);
        vec![
            format!("{} changes did not bear, and changed no answer: {}", sum(not), each(&|part| not[part].to_string())),
            format!(
                "{bore} changes bore, and in {} of these some answer changed: {}",
                sum(changed),
                each(&|part| format!("{} of {}", changed[part], all(part)))
            ),
        ]
    }
}
