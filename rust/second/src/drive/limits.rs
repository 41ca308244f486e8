//! Limits: each question is asked of the plain engine and of the main walk held to the same limit, and both answers are held against
//! the second program's and against each other.

use super::{index_of, packed, After, Appointed, Call, Case, Lent, Library, Often, Tally, EACH_RIGHT};
use crate::barred::{Both, BAR};
use crate::bound::{Rule, RULE};
use crate::gen::limits::{asked, bare, index, Limited};
use crate::gen::Rng;
use crate::limits::{PLAIN_LIMIT, PLAIN_RECORDS};
use crate::{binding, carries, joins, letters, passes, reached, Index, ALL, CHAIN, M, NAMES, ORDINARY};
use std::fmt::{self, Display, Formatter};

const PLAIN: &[&str] = &["plain"];
const WALK: &[&str] = &["rights_to"];
pub const EACH: &[&str] = &["plain", "rights_to"];

/// The sides, where a line is of both: the user's, then the object's.
const SIDES: &[i64] = &[0, 1];

const BESIDES: [(u32, &str); 4] = [
    (1, "1, and besides there is"),
    (2, "2, and besides there is"),
    (4, "4, and besides there is"),
    (5, "5, and besides there is"),
];
const WHY: &str = "14 for the limit, for the M records, or for both";
const JUST: &str = "14 for a limit just above the greatest, or for 2^64 - 1";
const BY_BITS: &str = "14 for a limit that is fair by its last bits, so many of them";
const MANY: &str = "M records of a block that is taken, fewer than 63 taken as 62";
const TOO_MANY: &str = "M records of a block that gets 14 for them alone, more than 66 taken as 67";
const BARE: &str = "taken with 64 M records of which some have markers alone";
const NOT_BARE: &str = "14 for more than 64 M records, of which no more than 64 have letters";
const OTHERS: &str = "taken with more than 64 records, of which no more than 64 are M records";
const LONGEST: &str = "held only over a chain of as many records as the limit, for user or object";
const LONGER: &str = "not held, but over a chain of one record more than the limit, for user or object";
const FEWER_OF_HERS: &str = "kept out or let in, and the other way with one record fewer on her chain";
const MORE_OF_HERS: &str = "kept out or let in, and the other way with one record more on her chain";
const FEWER_OF_OBJECT: &str = "let in, and kept out with one record fewer on the object's chain";
const MORE_OF_OBJECT: &str = "kept out, and let in with one record more on the object's chain";
const BOUND: &str = "granted, and in every filter, to a user who is not bound, is let in, or is kept out";
const ALONE: &str = "let in to an object in no group, or to one of a group of hers";
const BEYOND: &str = "a right that the full question does not give";
const SHORT_OF: &str = "no right, and the full question gives one";

/// The limits of each call.
const PLAIN_LIMITS: &[i64] = &[0, 1, 2, 3, 4, 5, 6, 7, 8];
const LIMITS: &[i64] =
    &[0, 1, 2, 3, 4, 5, 6, 7, 8, 9, 10, 11, 12, 13, 14, 15, 16, 17, 18, 19, 20, 21, 22, 23, 24, 25, 26, 27, 28, 29, 30, 31, 32];

/// What each run is to meet of limits: of which calls, in what respect, and which.
pub const TO_MEET: &[(&[&str], &str, &[i64])] = &[
    (EACH, "number", &[0, 1, 2, 4, 5, 14]),
    (PLAIN, "limit accepted", PLAIN_LIMITS),
    (WALK, "limit accepted", LIMITS),
    (EACH, BESIDES[0].1, &[4, 5, 14]),
    (EACH, BESIDES[1].1, &[4, 5, 14]),
    (EACH, BESIDES[2].1, &[5, 14]),
    (EACH, BESIDES[3].1, &[14]),
    (PLAIN, WHY, &[0, 1, 2]),
    (WALK, WHY, &[0]),
    (EACH, JUST, &[0, 1]),
    (EACH, BY_BITS, &[8, 16, 32, 63]),
    (PLAIN, MANY, &[62, 63, 64]),
    (PLAIN, TOO_MANY, &[65, 66, 67]),
    (PLAIN, BARE, &[1]),
    (PLAIN, NOT_BARE, &[1]),
    (PLAIN, OTHERS, &[1]),
    (EACH, "held", &EACH_RIGHT),
    (EACH, "not held", &EACH_RIGHT),
    (EACH, LONGEST, SIDES),
    (EACH, LONGER, SIDES),
    (EACH, BOUND, &[0, 1, 2]),
    (EACH, FEWER_OF_HERS, &[0, 1]),
    (EACH, MORE_OF_HERS, &[0, 1]),
    (EACH, FEWER_OF_OBJECT, &[1]),
    (EACH, MORE_OF_OBJECT, &[0]),
    (EACH, "let in with limit 0, and kept out with limit 1", &[1]),
    (EACH, ALONE, &[0, 1]),
    (EACH, BEYOND, &[1]),
    (EACH, SHORT_OF, &[1]),
    (EACH, "granted with limit 0, and not in the filter of a group", &[1]),
    (EACH, "held, and not if name 0 did not count", &[1]),
    (EACH, "not held, but if the groups of name 0 were those of every object", &[1]),
    (EACH, "held though it is barred in the strict profile", &[1]),
    (EACH, "held by a user who is the object", &[1]),
    (WALK, "asked again with limit 32, and as the full question, refused or accepted", &[0, 1]),
];

/// The calls of limits, each as often as it is drawn among three.
const CALLS: [Often; 2] = [("plain", 2, |call| call.plain_and_walk()), ("rights_to", 1, |call| call.walk())];

/// A block, and calls of limits on it, which leave it as it is.
pub fn case(lib: &dyn Library, rng: &mut Rng, tally: &mut Tally) -> Result<(), String> {
    let index = index(rng);
    let (block, appointed) = (index.encode(), Appointed::default());
    let mut case = Case { lib, rng, tally, block, kept: Vec::new(), keeping: false, appointed };
    for _ in 0..1 + case.rng.below(15) {
        case.one(&index, &CALLS)?;
    }
    case.one_with_a_fault(&CALLS)
}

impl Display for Limited {
    fn fmt(&self, to: &mut Formatter) -> fmt::Result {
        write!(to, "{} {} {} {}", self.user, self.object, self.request, self.limit)
    }
}

impl Limited {
    /// The user and the object, where the question is accepted.
    fn names(&self) -> Both<u16> {
        [self.user, self.object].map(|name| name as u16)
    }
}

/// How both programs answer one of the two calls, and what limits and how many M records it takes.
struct Engine {
    second: fn(&[u8], &Limited) -> (u32, u32),
    lib: fn(&dyn Library, &[u8], &Limited) -> u64,
    greatest: u64,
    records: usize,
}

const BY_CHAINS: Engine = Engine {
    second: |b, q| crate::plain(b, q.user, q.object, q.request, q.limit),
    lib: |lib, b, q| lib.plain(b, q.user, q.object, q.request, q.limit),
    greatest: PLAIN_LIMIT as u64,
    records: PLAIN_RECORDS,
};

const BY_ROUNDS: Engine = Engine {
    second: |b, q| crate::rights_to(b, q.user, q.object, q.request, q.limit),
    lib: |lib, b, q| lib.rights_to(b, q.user, q.object, q.request, q.limit),
    greatest: CHAIN as u64,
    records: usize::MAX,
};

impl Call<'_> {
    /// Asks the plain engine, and the main walk the same: where the first is not refused with 14, they give one answer.
    fn plain_and_walk(&mut self) -> After {
        let q = asked(self.rng, self.index, PLAIN_LIMIT);
        let plain = self.limited(&BY_CHAINS, &q)?;
        self.name = "rights_to";
        let walk = self.limited(&BY_ROUNDS, &q)?;
        if plain != walk && plain >> 32 != 14 {
            return Err(format!("plain {q}: the main walk held to the limit gives something else"));
        }
        Ok(self.block.to_vec())
    }

    /// Asks the main walk, and every fourth time with limit 32 besides.
    fn walk(&mut self) -> After {
        let q = asked(self.rng, self.index, CHAIN);
        self.limited(&BY_ROUNDS, &q)?;
        if q.limit == CHAIN as u64 || self.rng.one_in(4) {
            self.whole(&Limited { limit: CHAIN as u64, ..q })?;
        }
        Ok(self.block.to_vec())
    }

    /// With limit 32 the main walk gives the rights of the full question in the ordinary profile.
    fn whole(&mut self, q: &Limited) -> Result<(), String> {
        let full = self.lib.rights(self.block, q.user, q.object, q.request, ORDINARY);
        let walk = self.limited(&BY_ROUNDS, q)?;
        if walk != packed((full >> 32) as u32, full as u32 & ALL as u32) {
            return Err(format!("rights_to {q}: the full question has other rights"));
        }
        self.saw("asked again with limit 32, and as the full question, refused or accepted", (walk >> 32 == 0).into());
        Ok(())
    }

    /// Asks one of the two of both programs; what the library answers.
    fn limited(&mut self, engine: &Engine, q: &Limited) -> Result<u64, String> {
        let (number, value) = (engine.second)(self.block, q);
        let mut b = Lent::new(self.block);
        let got = (engine.lib)(self.lib, b.lend(), q);
        self.agree(got, number, value, &[b.is(self.block)], q.to_string())?;
        if number == 0 {
            self.saw("limit accepted", q.limit as i64);
            self.saw_limited(engine, q, value);
        } else {
            self.saw_refused_limit(engine, q, number);
        }
        Ok(got)
    }
}

/// What a refused call was refused for.
impl Call<'_> {
    fn saw_refused_limit(&mut self, engine: &Engine, q: &Limited, number: u32) {
        let records = index_of(self.block).parts[M].len();
        let (great, many) = (q.limit > engine.greatest, records > engine.records);
        let no_name = [q.user, q.object].iter().any(|&name| name >= NAMES.into());
        let all = [(4, no_name), (5, q.request == 0 || q.request > ALL), (14, great || many)];
        if let Some((_, what)) = BESIDES.iter().find(|one| one.0 == number) {
            let others = all.into_iter().filter(|&(other, is)| is && other > number);
            others.for_each(|(other, _)| self.saw(what, other.into()));
        }
        if number != 14 {
            return;
        }
        self.saw(WHY, i64::from(many) + i64::from(great && many));
        if great && !many {
            self.saw_great_limit(engine, q.limit);
        }
        if many && !great {
            self.saw(TOO_MANY, records.min(PLAIN_RECORDS + 3) as i64);
            if records - bare(&index_of(self.block)) <= PLAIN_RECORDS {
                self.saw(NOT_BARE, 1);
            }
        }
    }

    /// A limit that is too great.
    fn saw_great_limit(&mut self, engine: &Engine, limit: u64) {
        let just = [engine.greatest + 1, u64::MAX].iter().position(|&other| other == limit);
        just.into_iter().for_each(|which| self.saw(JUST, which as i64));
        let bits = [63, 32, 16, 8].into_iter().find(|&bits| limit % (1 << bits) <= engine.greatest);
        bits.into_iter().for_each(|bits| self.saw(BY_BITS, bits));
    }
}

/// What an accepted call was about. Most of it is looked at for one call in three.
impl Call<'_> {
    fn saw_limited(&mut self, engine: &Engine, q: &Limited, value: u32) {
        letters(q.request).for_each(|right| self.saw(if value >> right & 1 == 1 { "held" } else { "not held" }, 1 << right));
        if !self.rng.one_in(3) {
            return;
        }
        let index = index_of(self.block);
        if engine.records == PLAIN_RECORDS {
            self.saw_records(&index);
        }
        let names = q.names();
        for right in letters(q.request) {
            self.saw_chains(&index, names, right, q.limit as usize, value >> right & 1 == 1);
        }
        self.saw_open(&index, q);
        let (_, full) = crate::rights(self.block, q.user, q.object, q.request, ORDINARY);
        if value & !full != 0 {
            self.saw(BEYOND, 1);
        }
        if value == 0 && full & ALL as u32 != 0 {
            self.saw(SHORT_OF, 1);
        }
        if value != 0 && names[0] == names[1] {
            self.saw("held by a user who is the object", 1);
        }
    }

    /// How many records a block has that the plain engine takes.
    fn saw_records(&mut self, index: &Index) {
        let records = index.parts[M].len();
        self.saw(MANY, records.max(PLAIN_RECORDS - 2) as i64);
        if records == PLAIN_RECORDS && bare(index) > 0 {
            self.saw(BARE, 1);
        }
        if index.records() > PLAIN_RECORDS {
            self.saw(OTHERS, 1);
        }
    }

    /// What one right hung on: the lengths of both chains, and name 0.
    fn saw_chains(&mut self, index: &Index, names: Both<u16>, right: usize, limit: usize, held: bool) {
        let (part, [user, object]) = (&index.parts[M], names);
        if !passes(index, object, right) {
            let of_group = |&(key, counts): &(u16, &_)| key != object && !carries(counts, right);
            let one_alone = binding(index, object).all(|one| of_group(&one) || carries(one.1, right));
            if limit == 0 && one_alone && crate::granted(index, user, object, right, 0) {
                self.saw("granted with limit 0, and not in the filter of a group", 1);
            }
            return;
        }
        let within = |start: u16, limit: usize| reached(part, start, right, limit);
        let [users, objects] = names.map(|start| within(start, limit));
        let by = |users: &_, objects: &_| joins(index, users, objects, right, carries);
        if !held {
            if RULE.within(limit).open(part, user, object) {
                self.saw_all(0, &[(LONGER, by(&within(user, limit + 1), &objects))]);
                self.saw_all(1, &[(LONGER, by(&users, &within(object, limit + 1)))]);
                if by(&users, &(&objects | &within(0, limit))) {
                    self.saw("not held, but if the groups of name 0 were those of every object", 1);
                }
            }
            return;
        }
        if let Some(fewer) = limit.checked_sub(1) {
            self.saw_all(0, &[(LONGEST, !by(&within(user, fewer), &objects))]);
            self.saw_all(1, &[(LONGEST, !by(&users, &within(object, fewer)))]);
        }
        let grants = index.parts[crate::P].iter().filter(|((_, id), counts)| users.contains(id) && carries(counts, right));
        if { grants }.all(|((key, _), _)| !objects.contains(key)) {
            self.saw("held, and not if name 0 did not count", 1);
        }
        if BAR.bars(index, names, right) {
            self.saw("held though it is barred in the strict profile", 1);
        }
    }

    /// What exclusive groups had to do with it, where something is granted and in every filter.
    fn saw_open(&mut self, index: &Index, q: &Limited) {
        let (part, [user, object], limit) = (&index.parts[M], q.names(), q.limit as usize);
        let granted = |right: usize| passes(index, object, right) && crate::granted(index, user, object, right, limit);
        if !letters(q.request).any(granted) {
            return;
        }
        let with = |of_user: usize, of_object: usize| Rule { most: of_user, most_of_object: of_object, ..RULE };
        let (rule, open) = (RULE.within(limit), |rule: Rule| rule.open(part, user, object));
        let (bound, is) = (!rule.hers(part, user).is_empty(), open(rule));
        self.saw(BOUND, if bound { 2 - i64::from(is) } else { 0 });
        if bound && is {
            self.saw(ALONE, (!rule.alone(part, object)).into());
        }
        let (fewer, more) = (limit.saturating_sub(1), limit + 1);
        let others = [
            (FEWER_OF_HERS, with(fewer, limit)),
            (MORE_OF_HERS, with(more, limit)),
            (FEWER_OF_OBJECT, with(limit, fewer)),
            (MORE_OF_OBJECT, with(limit, more)),
        ];
        others.into_iter().filter(|&(_, other)| open(other) != is).for_each(|(what, _)| self.saw(what, is.into()));
        if limit == 0 && !open(RULE.within(1)) {
            self.saw("let in with limit 0, and kept out with limit 1", 1);
        }
    }
}
