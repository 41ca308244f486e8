//! Holds a library against the second program: random cases, the result and every element of every lent buffer compared, and
//! guards around each buffer. A run keeps count of what it met, and says what it should have met and did not.

use crate::bound::RULE;
use crate::gen::{self, Rng};
use crate::growth::Growth;
use crate::sides::{rounds, Sides};
use crate::{binding, carries, denied, granted, has, letters, meets, numbers, passes, set_of, word, Index, Reading};
use crate::{
    ALL, CHAIN, COUNTS, DENIALS, HEADER, IDS, KIND, KINDS, LAST, LETTERS, M, MARKERS, MESSAGE, NAMES, P, RECORD, RIGHTS,
};
use std::collections::{BTreeMap, BTreeSet};
use std::fmt::Debug;
use std::ops::Range;

mod appointments;
mod bearing;
mod by;
mod days;
mod history;
mod limits;
mod lists;
mod markers;
mod moves;
mod profiles;
mod slips;
mod wide;

use appointments::Appointed;
pub use days::every_day;
use profiles::Asked;

/// The calls, each returning the refusal's number times 2^32 plus a value, as the C interface does.
pub trait Library {
    fn make(&self, block: &mut [u8]) -> u64;
    fn message(&self, block: &mut [u8], message: &[u8]) -> u64;
    fn wide(&self, block: &mut [u8], message: &[u8]) -> u64;
    fn rights(&self, block: &[u8], user: u64, object: u64, request: u64, profile: u64) -> u64;
    fn may(&self, block: &[u8], user: u64, object: u64, request: u64, profile: u64) -> u64;
    fn plain(&self, block: &[u8], user: u64, object: u64, request: u64, limit: u64) -> u64;
    fn rights_to(&self, block: &[u8], user: u64, object: u64, request: u64, limit: u64) -> u64;
    fn bears(&self, block: &[u8], user: u64, object: u64, kind: u64, key: u64, id: u64) -> u64;
    fn find_slip(&self, block: &[u8], user: u64, object: u64, right: u64, hers: &mut [u16], its: &mut [u16]) -> u64;
    fn check_slip(&self, block: &[u8], user: u64, object: u64, right: u64, hers: &[u16], its: &[u16]) -> u64;
    fn write(&self, block: &[u8], kind: u64, key: u64, out: &mut [u8]) -> u64;
    fn read(&self, block: &mut [u8], kind: u64, key: u64, text: &[u8]) -> u64;
    fn tested(&self, block: &[u8]) -> u64;
    fn size(&self, block: &[u8], kind: u64) -> u64;
    fn record(&self, block: &[u8], number: u64) -> u64;
    fn count(&self, block: &[u8], number: u64, letter: u64) -> u64;
    fn directory(&self, block: &[u8], directory: &mut [u16]) -> u64;
    fn message_by(&self, block: &mut [u8], directory: &mut [u16], message: &[u8]) -> u64;
    fn wide_by(&self, block: &mut [u8], directory: &mut [u16], message: &[u8]) -> u64;
    fn rights_by(&self, block: &[u8], directory: &[u16], user: u64, object: u64, request: u64, profile: u64) -> u64;
    fn may_by(&self, block: &[u8], directory: &[u16], user: u64, object: u64, request: u64, profile: u64) -> u64;
    fn write_by(&self, block: &[u8], directory: &[u16], kind: u64, key: u64, out: &mut [u8]) -> u64;
    fn read_by(&self, block: &mut [u8], directory: &mut [u16], kind: u64, key: u64, text: &[u8]) -> u64;
    fn day(&self, year: u64, month: u64, day: u64) -> u64;
    fn date(&self, day: u64) -> u64;
    fn move_to(&self, block: &mut [u8], list: &[u8], old: u64, new: u64) -> u64;
    fn next_change(&self, list: &[u8], day: u64) -> u64;
    fn stands(&self, appointment: &[u8], day: u64) -> u64;
}

/// A number and a value as the calls return them.
pub fn packed(number: u32, value: u32) -> u64 {
    u64::from(number) << 32 | u64::from(value)
}

/// No text is longer: an id of four digits, counts of five for all letters but the markers, which no record has beside denials,
/// and a semicolon after each of the two.
pub const TEXT: usize = NAMES as usize * (4 + 1 + 6 * MARKERS.start + 1);

/// With room for so many bytes a record, the library writes a text that it has not measured: it takes an id for five digits too,
/// and every letter as counted.
const UNMEASURED: usize = 5 + 1 + 6 * 8 + 1;
const OVER_UNMEASURED: &str = "bytes of room over what is enough for a text that is not measured";

/// How much room that is for a text.
fn unmeasured(text: &[u8]) -> usize {
    UNMEASURED * text.iter().filter(|&&byte| byte == b';').count().div_ceil(2)
}

const GUARD: usize = 64;
const FRONT: u8 = 0xA5;
const BACK: u8 = 0x5A;

/// A lent buffer, of bytes or of 16-bit numbers, with guards before and after it.
struct Lent<T>(Vec<T>);

impl<T: Copy + PartialEq + Debug + From<u8>> Lent<T> {
    fn new(elements: &[T]) -> Lent<T> {
        Lent([&[FRONT.into(); GUARD], elements, &[BACK.into(); GUARD]].concat())
    }

    fn lend(&mut self) -> &mut [T] {
        let end = self.0.len() - GUARD;
        &mut self.0[GUARD..end]
    }

    /// Fails where the elements are not these, or the guards are not whole.
    fn is(&self, want: &[T]) -> Result<(), String> {
        let (front, rest) = self.0.split_at(GUARD);
        let (elements, back) = rest.split_at(rest.len() - GUARD);
        if front != [FRONT.into(); GUARD] || back != [BACK.into(); GUARD] {
            return Err("was written beyond its ends".into());
        }
        if elements == want {
            return Ok(());
        }
        let at = elements.iter().zip(want).take_while(|(one, other)| one == other).count();
        Err(format!("has {:?} at {at} where {:?} is right", elements[at], want[at]))
    }
}

/// The mask of each right, and the number of each letter.
const EACH_RIGHT: [i64; RIGHTS] = [1, 2, 4, 8];
const EACH_LETTER: [i64; LETTERS.len()] = {
    let mut numbers = [0; LETTERS.len()];
    let mut k = 0;
    while k < numbers.len() {
        numbers[k] = k as i64;
        k += 1;
    }
    numbers
};

/// What each run is to meet, and nothing else: of which call, in what respect, and which.
const TO_MEET: &[(&str, &str, &[i64])] = &[
    ("make", "number", &[0, 1]),
    ("message", "number", &[0, 1, 2, 3, 4, 5, 6, 7, 8]),
    ("message", "number after a half was taken", &[0, 7, 8]),
    ("message", "kind accepted", &[1, 2, 3]),
    ("message", "flags accepted", &[1, 2, 3]),
    ("message", "records more", &[-1, 0, 1]),
    ("rights", "number", &[0, 1, 2, 4, 5, 15]),
    ("rights", "held", &EACH_RIGHT),
    ("rights", "not held", &EACH_RIGHT),
    ("rights", "granted, and not in every filter", &EACH_RIGHT),
    ("rights", "granted, and in the first filter, but not in every one", &EACH_RIGHT),
    ("rights", "granted, and stopped by one filter alone, of a group or of the object", &[0, 1]),
    ("rights", "held, with filters, three or more taken as three", &[0, 1, 2, 3]),
    ("rights", "not granted for a denial alone", &EACH_RIGHT),
    ("rights", "granted only by a chain of 32 records, for user or object", &[0, 1]),
    ("rights", "not granted but by a chain of 33 records, for user or object", &[0, 1]),
    ("rights", "held, with a name reached that has no M records, for user or object", &[0, 1]),
    ("rights", "held only over a name with other rights before, for user or object", &[0, 1]),
    ("rights", "held only over a name that two records gave rights in one round, for user or object", &[0, 1]),
    ("rights", "held only over the first M record, for user or object", &[0, 1]),
    ("rights", "held only over the last M record, for user or object", &[0, 1]),
    ("rights", "held only over an M record of name 0, for user or object", &[0, 1]),
    ("rights", "held only over an M record of name 1023, for user or object", &[0, 1]),
    ("rights", "held only over the fifth M record of a name or one behind it, for user or object", &[0, 1]),
    ("rights", "held by a user who is the object", &EACH_RIGHT),
    ("rights", "examined for a user who is the object", &[1]),
    ("rights", "fewer examined for the user than for the object, as many, or more", &[-1, 0, 1]),
    ("rights", "times that an M record is examined for the user", &[0, 1, 2, 3, 4]),
    ("rights", "times that an M record is examined for the object", &[0, 1, 2, 3, 4]),
    ("rights", "times that M records of name 0 are examined for another object, three or four taken as two", &[0, 1, 2]),
    ("rights", "none examined though there are M records, for user or object", &[0, 1]),
    ("rights", "more examined than there are M records, for user or object", &[0, 1]),
    ("rights", "1,000 or more examined, for user or object", &[0, 1]),
    ("rights", "4,096 or more examined, for user or object", &[0, 1]),
    ("rights", "examined in round 31, for user or object", &[0, 1]),
    ("rights", "not examined, as a round 32 does not count, for user or object", &[0, 1]),
    ("rights", "examined, and carrying no right on, for user or object", &[0, 1]),
    ("rights", "examined once at the start, to which a chain leads back, for user or object", &[0, 1]),
    ("rights", "examined before, and then for the other side alone, for user or object", &[0, 1]),
    ("rights", "reached, with no M records to examine, for user or object", &[0, 1]),
    ("rights", "examined though no right requested is held, for user or object", &[0, 1]),
    ("rights", "examined though no right is in every filter, for user or object", &[0, 1]),
    ("rights", "examined for rights alone that are not requested, for user or object", &[0, 1]),
    ("rights", "examined for rights alone that are not in every filter, for user or object", &[0, 1]),
    ("may", "number", &[0, 1, 2, 4, 5, 15]),
    ("may", "answer", &[0, 1]),
    ("write", "number", &[0, 1, 2, 3, 4, 10]),
    ("write", "kind accepted, with an empty text", &[1, 2, 3]),
    ("write", "kind accepted, with a text", &[1, 2, 3]),
    ("write", "bytes of room over a text", &[-1, 0]),
    ("write", OVER_UNMEASURED, &[-1, 0]),
    ("read", "number", &[0, 1, 2, 3, 4, 8, 9]),
    ("read", "kind accepted, with an empty text", &[1, 2, 3]),
    ("read", "kind accepted, with a text", &[1, 2, 3]),
    ("read", "kind refused for its text", &[1, 2, 3]),
    ("read", "refused for its text at the front, inside, or at the end", &[0, 1, 2]),
    ("read", "refused for its text after no more records than there is room for, or after more", &[0, 1]),
    ("read", "kind refused where its text ends", &[1, 2, 3]),
    ("read", "kind refused at a digit of an id above 1023", &[1, 2, 3]),
    ("read", "kind refused at a digit of an id not above the one before", &[1, 2, 3]),
    ("read", "kind refused at the end of an id not above the one before", &[1, 2, 3]),
    ("read", "kind refused at a digit of a count above 65,535", &[1, 2, 3]),
    ("read", "kind refused at a digit for a zero in front", &[1, 2, 3]),
    ("read", "kind refused at the end of a count of 1", &[1, 2, 3]),
    ("read", "kind refused at the semicolon after id 1023", &[1, 2, 3]),
    ("read", "kind refused at a letter out of order", &[1, 2, 3]),
    ("read", "kind refused at a small letter", &[1, 3]),
    ("read", "kind refused at a marker", &[2, 3]),
    ("read", OTHER_BYTE, &[1, 2, 3]),
    ("read", "records more, or fewer", &[-1, 0, 1]),
    ("tested", "number", &[0, 1, 2]),
    ("size", "number", &[0, 3]),
    ("size", "number of the block that it reads", &[0, 1, 2]),
    ("size", "bytes that the block has of it", &[0, 1, 2]),
    ("size", "kind with records", &[1, 2, 3]),
    ("record", "number", &[0]),
    ("record", "number of the block that it reads", &[0, 1, 2]),
    ("record", "bytes that the block has of it", &[0, 1, 2, 3, 4]),
    ("record", "kind of a record", &[1, 2, 3]),
    ("record", "number too great, that names a record by its last bits", &[16, 32]),
    ("count", "number", &[0]),
    ("count", "number of the block that it reads", &[0, 1, 2]),
    ("count", "bytes that the block has of it", &[0, 1, 2]),
    ("count", "letter counted", &EACH_LETTER),
    ("count", "letter that there is not, before a record with key and id", &[LETTERS.len() as i64]),
    ("count", "number too great, that names a record by its last bits", &[16, 32]),
];

/// The lines of `TO_MEET`, those of wide messages, those of the markers, those of the profiles, those of limits, those of slips, those
/// of what bears, those of the calls by a directory, and those of appointments.
fn to_meet() -> impl Iterator<Item = (&'static str, &'static str, &'static [i64])> {
    let appointments = [days::TO_MEET, lists::TO_MEET, appointments::TO_MEET, moves::TO_MEET, history::TO_MEET].concat();
    let questions = [markers::TO_MEET, profiles::TO_MEET, limits::TO_MEET, slips::TO_MEET, bearing::TO_MEET].concat();
    let more = [wide::TO_MEET, &questions, by::TO_MEET, &appointments].concat().into_iter();
    let more = more.flat_map(|(calls, what, all)| calls.iter().map(move |&call| (call, what, all)));
    TO_MEET.iter().copied().chain(more)
}

/// How often a run met what. One about some calls alone is to meet the lines of these alone.
#[derive(Default)]
pub struct Tally {
    pub calls: u64,
    met: BTreeMap<(&'static str, &'static str, i64), u64>,
    alone: Option<&'static [&'static str]>,
}

impl Tally {
    /// The lines that the run is to meet.
    fn to_meet(&self) -> impl Iterator<Item = (&'static str, &'static str, &'static [i64])> {
        let alone = self.alone;
        to_meet().filter(move |(call, ..)| alone.is_none_or(|calls| calls.contains(call)))
    }

    fn saw(&mut self, call: &'static str, what: &'static str, which: i64) {
        *self.met.entry((call, what, which)).or_default() += 1;
    }

    /// How often the run met this.
    fn times(&self, call: &'static str, what: &'static str, which: i64) -> u64 {
        self.met.get(&(call, what, which)).copied().unwrap_or_default()
    }

    /// What was met, a line for each call and respect.
    pub fn lines(&self) -> Vec<String> {
        let counted = |(call, what, all): (&'static str, &'static str, &[i64])| {
            let one = |&n: &i64| format!("{n}: {}", self.times(call, what, n));
            format!("{call}, {what} {}", all.iter().map(one).collect::<Vec<_>>().join(", "))
        };
        self.to_meet().map(counted).collect()
    }

    /// Fails where something was not met, or something was met that no call may give.
    pub fn complete(&self) -> Result<(), String> {
        let wanted: BTreeSet<_> =
            self.to_meet().flat_map(|(call, what, all)| all.iter().map(move |&n| (call, what, n))).collect();
        let met = self.met.keys().copied().collect();
        let told = |what: &str, keys: BTreeSet<(&str, &str, i64)>| {
            keys.into_iter().map(|(call, respect, n)| format!("{what}: {call}, {respect} {n}")).collect::<Vec<_>>()
        };
        let wrong = [told("not met", &wanted - &met), told("met, and not to be met", &met - &wanted)].concat();
        if wrong.is_empty() {
            Ok(())
        } else {
            Err(wrong.join("\n"))
        }
    }
}

/// The number and the value that the second program gives.
type Answer = (u32, u32);

/// A question, the full one or the short one: how both programs answer it, without a directory and by one.
struct Question {
    second: fn(&[u8], &Asked) -> Answer,
    lib: fn(&dyn Library, &[u8], &Asked) -> u64,
    second_by: fn(&[u8], &[u16], &Asked) -> Answer,
    lib_by: fn(&dyn Library, &[u8], &[u16], &Asked) -> u64,
}

const FULL: Question = Question {
    second: |b, q| crate::rights(b, q.user, q.object, q.request, q.profile),
    lib: |lib, b, q| lib.rights(b, q.user, q.object, q.request, q.profile),
    second_by: |b, d, q| crate::rights_by(b, d, q.user, q.object, q.request, q.profile),
    lib_by: |lib, b, d, q| lib.rights_by(b, d, q.user, q.object, q.request, q.profile),
};

const SHORT: Question = Question {
    second: |b, q| crate::may(b, q.user, q.object, q.request, q.profile),
    lib: |lib, b, q| lib.may(b, q.user, q.object, q.request, q.profile),
    second_by: |b, d, q| crate::may_by(b, d, q.user, q.object, q.request, q.profile),
    lib_by: |lib, b, d, q| lib.may_by(b, d, q.user, q.object, q.request, q.profile),
};

/// A form of message: how one is drawn, how both programs take it, without a directory and by one, how it is read, and what is seen
/// of one that got a number and left a block.
struct Form {
    drawn: fn(&mut Call) -> Vec<u8>,
    second: fn(&[u8], &[u8]) -> (u32, Vec<u8>),
    lib: fn(&dyn Library, &mut [u8], &[u8]) -> u64,
    second_by: fn(&[u8], &[u16], &[u8]) -> (u32, Vec<u8>, Vec<u16>),
    lib_by: fn(&dyn Library, &mut [u8], &mut [u16], &[u8]) -> u64,
    read: Reading,
    saw: fn(&mut Call, u32, &[u8], &[u8]),
}

const PLAIN: Form = Form {
    drawn: |call| call.bytes(),
    second: crate::message,
    lib: |lib, b, m| lib.message(b, m),
    second_by: crate::message_by,
    lib_by: |lib, b, d, m| lib.message_by(b, d, m),
    read: crate::plain_message,
    saw: |call, number, _, after| call.saw_plain(number, after),
};

/// One call in the making: the library, the block that it is made on, the records of that block or of one like it, the
/// directory that the library last made or kept true, whether that one is to be lent, and the appointments of the case.
struct Call<'a> {
    lib: &'a dyn Library,
    rng: &'a mut Rng,
    tally: &'a mut Tally,
    name: &'static str,
    block: &'a [u8],
    index: &'a Index,
    kept: &'a mut Vec<u16>,
    keeping: bool,
    appointed: &'a mut Appointed,
}

impl Call<'_> {
    fn saw(&mut self, what: &'static str, which: i64) {
        self.tally.saw(self.name, what, which);
    }

    /// What came back, and whether the buffers are as they should be, against what the second program says. `words` are those of
    /// the call.
    fn agree(&mut self, got: u64, number: u32, value: u32, lent: &[Result<(), String>], words: String) -> Result<(), String> {
        self.tally.calls += 1;
        self.saw("number", number.into());
        let told = |what: String| format!("{} {words}: {what}", self.name);
        if got != packed(number, value) {
            return Err(told(format!("returned {}, {} where {number}, {value} is right", got >> 32, got as u32)));
        }
        let wrong = lent.iter().enumerate().find_map(|(k, buffer)| Some((k, buffer.as_ref().err()?)));
        wrong.map_or(Ok(()), |(k, what)| Err(told(format!("buffer {k} {what}"))))
    }

    /// How many records a good block has.
    fn records(block: &[u8]) -> i64 {
        (0..KINDS).map(|part| i64::from(word(block, 2 * part))).sum()
    }

    fn make(&mut self) -> Result<Vec<u8>, String> {
        let (number, after) = crate::make(self.block);
        let mut b = Lent::new(self.block);
        let got = self.lib.make(b.lend());
        self.agree(got, number, 0, &[b.is(&after)], String::new())?;
        Ok(if self.rng.one_in(8) { after } else { self.block.to_vec() })
    }

    /// A message, good more often than not.
    fn bytes(&mut self) -> Vec<u8> {
        if self.rng.one_in(30) {
            gen::bytes(self.rng, MESSAGE as u64 + 2)
        } else {
            gen::message(self.rng, self.index)
        }
    }

    /// Sends a message of the form that is drawn.
    fn sent(&mut self, form: &Form) -> Result<Vec<u8>, String> {
        let m = (form.drawn)(self);
        self.send(form, &m)
    }

    /// Sends this message of the form.
    fn send(&mut self, form: &Form, m: &[u8]) -> Result<Vec<u8>, String> {
        let (number, after) = (form.second)(self.block, m);
        let (mut b, mut lent) = (Lent::new(self.block), Lent::new(m));
        let got = (form.lib)(self.lib, b.lend(), lent.lend());
        self.agree(got, number, 0, &[b.is(&after), lent.is(m)], format!("{m:02x?}"))?;
        self.saw_message(form, number, m, &after);
        Ok(after)
    }

    /// What a message of the form that got this number did.
    fn saw_message(&mut self, form: &Form, number: u32, m: &[u8], after: &[u8]) {
        self.saw_markers(form, number, m);
        if number == 0 {
            self.saw("kind accepted", (m[0] & KIND).into());
            self.saw("flags accepted", m[1].into());
        }
        if [0, 7, 8].contains(&number) && has(m[1], 0) {
            self.saw("number after a half was taken", number.into());
        }
        (form.saw)(self, number, m, after);
    }

    /// How many records a plain message brought or took.
    fn saw_plain(&mut self, number: u32, after: &[u8]) {
        if number == 0 {
            self.saw("records more", Self::records(after) - Self::records(self.block));
        }
    }

    /// Something to ask.
    fn question(&mut self) -> Asked {
        let (user, object) = gen::question(self.rng, self.index);
        let request = if self.rng.one_in(3) { gen::number(self.rng, ALL + 1) } else { 1 + self.rng.below(ALL) };
        Asked { user, object, request, profile: gen::profile(self.rng) }
    }

    /// Asks a question of both programs; what was asked and the value, where it is accepted.
    fn asked(&mut self, question: &Question) -> Result<Option<(Asked, u32)>, String> {
        let q = self.question();
        let (number, value) = (question.second)(self.block, &q);
        let mut b = Lent::new(self.block);
        let got = (question.lib)(self.lib, b.lend(), &q);
        self.agree(got, number, value, &[b.is(self.block)], q.to_string())?;
        self.saw_profile(&q, number);
        if number != 0 {
            return Ok(None);
        }
        self.in_each_profile(&q, None)?;
        self.saw_another(question, &q, value);
        self.saw_who(&q);
        Ok(Some((q, value)))
    }

    fn rights(&mut self) -> Result<Vec<u8>, String> {
        if let Some((q, value)) = self.asked(&FULL)? {
            let index = index_of(self.block);
            letters(q.request).for_each(|right| self.saw_right(&index, &q, right, value >> right & 1 == 1));
            self.saw_bound(&index, &q);
            self.saw_barred(&index, &q, value);
            self.saw_numbers(&index, q.names(), q.request, value);
        }
        Ok(self.block.to_vec())
    }

    /// What one right of an accepted question hung on. Where it is barred, that tells nothing of the rest.
    fn saw_right(&mut self, index: &Index, q: &Asked, right: usize, held: bool) {
        self.saw(if held { "held" } else { "not held" }, 1 << right);
        if q.barred(index, right) {
            return;
        }
        let [user, object] = q.names();
        let by = |limit| granted(index, user, object, right, limit);
        let filters: Vec<_> = binding(index, object).collect();
        let stops: Vec<_> = filters.iter().filter(|(_, counts)| !carries(counts, right)).collect();
        let (filtered, long) = (!stops.is_empty(), index.parts[M].len() >= CHAIN);
        let kept_out = !RULE.open(&index.parts[M], user, object);
        if held {
            self.saw("held, with filters, three or more taken as three", filters.len().min(3) as i64);
        }
        if filtered && !kept_out && by(CHAIN) {
            self.saw("granted, and not in every filter", 1 << right);
            let first = filters.iter().min_by_key(|&&(key, _)| key != object).expect("a filter");
            if carries(first.1, right) {
                self.saw("granted, and in the first filter, but not in every one", 1 << right);
            }
            if let [&(key, _)] = stops[..] {
                self.saw("granted, and stopped by one filter alone, of a group or of the object", (key == object).into());
            }
        }
        if !held && !filtered && !kept_out && meets(index, user, object, right, CHAIN, denied) {
            self.saw("not granted for a denial alone", 1 << right);
        }
        if held && user == object {
            self.saw("held by a user who is the object", 1 << right);
        }
        let sides = Sides::new(index, user, object, right);
        for side in 0..2 {
            if !held && !filtered && !kept_out && long && sides.joined(side, &sides.names_within(side, CHAIN + 1)) {
                self.saw("not granted but by a chain of 33 records, for user or object", side as i64);
            }
            if held {
                self.saw_side(&sides, side);
            }
        }
    }

    /// What a right that is held hung on, on one side: the M records that a walk may forget, without which it would not be held.
    fn saw_side(&mut self, sides: &Sides, side: usize) {
        let part = &sides.index.parts[M];
        if part.len() >= CHAIN && !sides.joined(side, &sides.names_within(side, CHAIN - 1)) {
            self.saw("granted only by a chain of 32 records, for user or object", side as i64);
        }
        if sides.names[side].iter().any(|&name| name != sides.starts[side] && set_of(part, name).is_empty()) {
            self.saw("held, with a name reached that has no M records, for user or object", side as i64);
        }
        let rounds = rounds(part, sides.starts[side]);
        let keys: BTreeSet<u16> = part.keys().map(|record| record.0).collect();
        let beside: BTreeSet<u16> = keys.into_iter().filter(|&key| sides.comes_beside(&rounds, key)).collect();
        let ends = [part.first_key_value(), part.last_key_value()].map(|end| end.map(|(&record, _)| record));
        let nth = |record: (u16, u16)| part.range((record.0, 0)..record).count();
        let mut hinge = |what, forgotten: &dyn Fn((u16, u16)) -> bool| {
            if part.keys().any(|&record| forgotten(record)) && !sides.joined(side, &sides.names_without(side, forgotten)) {
                self.saw(what, side as i64);
            }
        };
        hinge("held only over the first M record, for user or object", &|record| Some(record) == ends[0]);
        hinge("held only over the last M record, for user or object", &|record| Some(record) == ends[1]);
        hinge("held only over an M record of name 0, for user or object", &|record| record.0 == 0);
        hinge("held only over an M record of name 1023, for user or object", &|record| record.0 == NAMES - 1);
        hinge("held only over the fifth M record of a name or one behind it, for user or object", &|record| nth(record) > 3);
        hinge("held only over a name with other rights before, for user or object", &|record| {
            sides.comes_again(&rounds, record.0)
        });
        hinge("held only over a name that two records gave rights in one round, for user or object", &|record| {
            beside.contains(&record.0)
        });
    }

    /// What the numbers of M records examined hung on.
    fn saw_numbers(&mut self, index: &Index, names: [u16; 2], request: u64, value: u32) {
        let (part, [user, object], numbers) = (&index.parts[M], names, numbers(value));
        let sides = names.map(|start| Growth::new(part, start));
        let order = numbers[0].cmp(&numbers[1]) as i64;
        self.saw("fewer examined for the user than for the object, as many, or more", order);
        if user == object && numbers[0] > 0 {
            self.saw("examined for a user who is the object", 1);
        }
        if object != 0 && !set_of(part, 0).is_empty() {
            let times = sides[1].times(0, ALL).min(2) as i64;
            self.saw("times that M records of name 0 are examined for another object, three or four taken as two", times);
        }
        let passing = (0..RIGHTS).filter(|&right| passes(index, object, right)).map(|right| 1 << right).sum();
        for side in 0..2 {
            self.saw_number(&sides, side, part.len(), numbers[side]);
            self.saw_unlimited(&sides[side], side, numbers[side], [u64::from(value) & ALL, request, passing]);
        }
    }

    /// What the number of one side hung on, of so many M records.
    fn saw_number(&mut self, sides: &[Growth; 2], side: usize, records: usize, number: u32) {
        let (own, other) = (&sides[side], &sides[1 - side]);
        let times = ["times that an M record is examined for the user", "times that an M record is examined for the object"];
        own.all_times().into_iter().for_each(|n| self.saw(times[side], n as i64));
        self.saw_all(
            side,
            &[
                ("none examined though there are M records, for user or object", number == 0 && records > 0),
                ("more examined than there are M records, for user or object", number as usize > records),
                ("1,000 or more examined, for user or object", number >= 1000),
                ("4,096 or more examined, for user or object", number >= 4096),
                ("examined in round 31, for user or object", own.in_round(CHAIN - 1)),
                ("not examined, as a round 32 does not count, for user or object", own.in_round(CHAIN)),
                ("examined, and carrying no right on, for user or object", own.idles()),
                ("examined once at the start, to which a chain leads back, for user or object", own.returns()),
                ("examined before, and then for the other side alone, for user or object", own.stays_behind(other)),
                ("reached, with no M records to examine, for user or object", own.ends()),
            ],
        );
    }

    /// Where the number of one side is that of all rights, and the question is about fewer: those held of the rights requested,
    /// those requested, and those in every filter.
    fn saw_unlimited(&mut self, own: &Growth, side: usize, number: u32, [held, requested, passing]: [u64; 3]) {
        self.saw_all(
            side,
            &[
                ("examined though no right requested is held, for user or object", number > 0 && held == 0),
                ("examined though no right is in every filter, for user or object", number > 0 && passing == 0),
                ("examined for rights alone that are not requested, for user or object", own.number(requested) < number),
                ("examined for rights alone that are not in every filter, for user or object", own.number(passing) < number),
            ],
        );
    }

    /// What is so on one side.
    fn saw_all(&mut self, side: usize, all: &[(&'static str, bool)]) {
        all.iter().filter(|(_, such)| *such).for_each(|(what, _)| self.saw(what, side as i64));
    }

    fn may(&mut self) -> Result<Vec<u8>, String> {
        if let Some((_, value)) = self.asked(&SHORT)? {
            self.saw("answer", value.into());
        }
        Ok(self.block.to_vec())
    }

    /// The number of a kind, a good one mostly; now and then one with the bit of a marker, as messages alone may have it.
    fn kind(&mut self) -> u64 {
        let marker = if self.rng.one_in(30) { (1 + u64::from(KIND)) << self.rng.below(4) } else { 0 };
        gen::number(self.rng, KINDS as u64 + 1) | marker
    }

    /// A kind and a key, good ones mostly.
    fn set(&mut self) -> (u64, u64) {
        (self.kind(), gen::number(self.rng, NAMES.into()))
    }

    /// An accepted set of the kind, with a text or with none.
    fn saw_set(&mut self, kind: u64, length: usize) {
        let what = if length == 0 { "kind accepted, with an empty text" } else { "kind accepted, with a text" };
        self.saw(what, kind as i64);
    }

    /// The text of a set, and a buffer that it may fit into.
    fn out(&mut self, kind: u64, key: u64) -> (Vec<u8>, Vec<u8>) {
        let (_, full, mut text) = crate::write(self.block, kind, key, &[0; TEXT]);
        text.truncate(full as usize);
        let room = match self.rng.below(6) {
            0 => text.len(),
            1 => text.len().saturating_sub(1),
            2 => text.len() + self.rng.below(5) as usize,
            3 => unmeasured(&text),
            4 => unmeasured(&text).saturating_sub(1),
            _ => self.rng.below(64) as usize,
        };
        (text, (0..room).map(|_| self.rng.bits() as u8).collect())
    }

    fn write(&mut self) -> Result<Vec<u8>, String> {
        let (kind, key) = self.set();
        let (text, out) = self.out(kind, key);
        let (number, value, after) = crate::write(self.block, kind, key, &out);
        let (mut b, mut lent) = (Lent::new(self.block), Lent::new(&out));
        let got = self.lib.write(b.lend(), kind, key, lent.lend());
        let words = format!("{kind} {key} into {}", out.len());
        self.agree(got, number, value, &[b.is(self.block), lent.is(&after)], words)?;
        self.saw_write(number, kind, &text, out.len());
        Ok(self.block.to_vec())
    }

    /// What a write of a text into so much room did.
    fn saw_write(&mut self, number: u32, kind: u64, text: &[u8], room: usize) {
        if number == 0 {
            self.saw_set(kind, text.len());
        }
        if text.is_empty() {
            return;
        }
        for (what, just) in [("bytes of room over a text", text.len()), (OVER_UNMEASURED, unmeasured(text))] {
            if room == just || room == just - 1 {
                self.saw(what, room as i64 - just as i64);
            }
        }
    }

    /// A text for a set of the kind.
    fn text(&mut self, kind: u64) -> Vec<u8> {
        let part = (kind as usize).wrapping_sub(1).min(KINDS - 1);
        if self.rng.one_in(30) {
            gen::bytes(self.rng, 9)
        } else {
            gen::set_text(self.rng, self.index, part)
        }
    }

    fn read(&mut self) -> Result<Vec<u8>, String> {
        let (kind, key) = self.set();
        let text = self.text(kind);
        let (number, value, after) = crate::read(self.block, kind, key, &text);
        let (mut b, mut lent) = (Lent::new(self.block), Lent::new(&text));
        let got = self.lib.read(b.lend(), kind, key, lent.lend());
        let words = format!("{kind} {key} {}", String::from_utf8_lossy(&text));
        self.agree(got, number, value, &[b.is(&after), lent.is(&text)], words)?;
        match number {
            0 => self.saw_read(kind, &text, &after),
            9 => self.saw_place(kind, key, &text, value as usize),
            _ => {}
        }
        Ok(after)
    }

    /// What an accepted read did.
    fn saw_read(&mut self, kind: u64, text: &[u8], after: &[u8]) {
        self.saw_set(kind, text.len());
        self.saw("records more, or fewer", (Self::records(after) - Self::records(self.block)).signum());
    }

    /// Where a text was wrong, and in what way.
    fn saw_place(&mut self, kind: u64, key: u64, text: &[u8], place: usize) {
        let (index, part) = (index_of(self.block), kind as usize - 1);
        let room = index.room() - index.records() + set_of(&index.parts[part], key as u16).len();
        let records = semicolons(&text[..place]) / 2;
        self.saw("kind refused for its text", kind as i64);
        self.saw_where(text, place);
        self.saw("refused for its text after no more records than there is room for, or after more", (records > room).into());
        self.saw(wrong(text, place, part), kind as i64);
    }

    fn saw_where(&mut self, text: &[u8], place: usize) {
        let (inside, end) = (place > 0, place == text.len());
        self.saw("refused for its text at the front, inside, or at the end", i64::from(inside) + i64::from(end));
    }
}

/// Where the byte at the place is of a sort that cannot stand there at all.
const OTHER_BYTE: &str = "kind refused at a byte of another sort";

fn semicolons(text: &[u8]) -> usize {
    text.iter().filter(|&&byte| byte == b';').count()
}

/// What is wrong at the place of a text of no set, by the byte there and by what stands before it.
fn wrong(text: &[u8], place: usize, part: usize) -> &'static str {
    let Some(&byte) = text.get(place) else { return "kind refused where its text ends" };
    let before = &text[..place];
    let word = before.rsplit(|&byte| byte == b';').next().unwrap_or_default();
    if semicolons(before) % 2 == 1 {
        wrong_in_letters(word, byte, part)
    } else {
        wrong_in_id(word, byte)
    }
}

/// The same after some digits of an id, or none.
fn wrong_in_id(digits: &[u8], byte: u8) -> &'static str {
    match byte {
        b'0'..=b'9' if digits == b"0" => "kind refused at a digit for a zero in front",
        b'0'..=b'9' if !IDS.contains_key(&[digits, &[byte]].concat()) => "kind refused at a digit of an id above 1023",
        b'0'..=b'9' => "kind refused at a digit of an id not above the one before",
        b';' if !digits.is_empty() => "kind refused at the end of an id not above the one before",
        _ => OTHER_BYTE,
    }
}

/// The same after some letters and counts of a record, or none.
fn wrong_in_letters(word: &[u8], byte: u8, part: usize) -> &'static str {
    let count = word.rsplit(|byte| LETTERS.contains(byte)).next().unwrap_or_default();
    match byte {
        b'0'..=b'9' | b';' if word.is_empty() => OTHER_BYTE,
        b'0' if count.is_empty() => "kind refused at a digit for a zero in front",
        b'0'..=b'9' => "kind refused at a digit of a count above 65,535",
        _ if count == b"1" => "kind refused at the end of a count of 1",
        b';' => "kind refused at the semicolon after id 1023",
        _ if part != P && LETTERS[DENIALS].contains(&byte) => "kind refused at a small letter",
        _ if part != M && LETTERS[MARKERS].contains(&byte) => "kind refused at a marker",
        _ if LETTERS.contains(&byte) => "kind refused at a letter out of order",
        _ => OTHER_BYTE,
    }
}

/// The test of a block, and the doors to its records.
impl Call<'_> {
    fn tested(&mut self) -> Result<Vec<u8>, String> {
        let number = crate::tested(self.block);
        let mut b = Lent::new(self.block);
        let got = self.lib.tested(b.lend());
        self.agree(got, number, 0, &[b.is(self.block)], String::new())?;
        Ok(self.block.to_vec())
    }

    /// The block, or often its front alone, cut somewhere about the bytes that a call reads: the doors take any bytes.
    fn front(&mut self, read: &Range<usize>) -> Vec<u8> {
        let cut = read.start + self.rng.below(read.len() as u64 + 1) as usize;
        let end = if self.rng.one_in(3) { cut.min(self.block.len()) } else { self.block.len() };
        self.block[..end].to_vec()
    }

    /// What came back from a door to a block of these bytes, against what the second program says.
    fn door(&mut self, bytes: &[u8], read: Range<usize>, second: (u32, u32), words: String, lib: Door) -> Result<(), String> {
        let mut b = Lent::new(bytes);
        let got = lib(self.lib, b.lend());
        let words = format!("{words} on the first {} bytes", bytes.len());
        self.agree(got, second.0, second.1, &[b.is(bytes)], words)?;
        self.saw("number of the block that it reads", crate::tested(bytes).into());
        self.saw("bytes that the block has of it", read.filter(|&at| at < bytes.len()).count() as i64);
        Ok(())
    }

    fn size(&mut self) -> Result<Vec<u8>, String> {
        let kind = self.kind();
        let at = 2 * (kind as usize).wrapping_sub(1).min(KINDS - 1);
        let bytes = self.front(&(at..at + 2));
        let second = crate::size(&bytes, kind);
        self.door(&bytes, at..at + 2, second, format!("{kind}"), &|lib, b| lib.size(b, kind))?;
        if second.1 > 0 {
            self.saw("kind with records", kind as i64);
        }
        Ok(self.block.to_vec())
    }

    /// The number of a record, and where the record is in a block that goes so far.
    fn numbered(&mut self) -> (u64, usize) {
        let number = gen::record(self.rng, self.index);
        (number, HEADER + RECORD * number.min(LAST) as usize)
    }

    /// A number that is too great, where as many of its last bits would be the number of a record.
    fn saw_great(&mut self, bytes: &[u8], number: u64) {
        for bits in [16, 32] {
            if number > LAST && number >> bits > 0 && crate::record(bytes, number % (1 << bits)).1 > 0 {
                self.saw("number too great, that names a record by its last bits", bits);
            }
        }
    }

    fn record(&mut self) -> Result<Vec<u8>, String> {
        let (number, at) = self.numbered();
        let bytes = self.front(&(at..at + COUNTS));
        let second = crate::record(&bytes, number);
        self.door(&bytes, at..at + COUNTS, second, format!("{number}"), &|lib, b| lib.record(b, number))?;
        self.saw_great(&bytes, number);
        if let Some(part) = index_of(&bytes).part_of_record(number) {
            self.saw("kind of a record", part as i64 + 1);
        }
        Ok(self.block.to_vec())
    }

    fn count(&mut self) -> Result<Vec<u8>, String> {
        let (number, start) = self.numbered();
        let letter = gen::number(self.rng, LETTERS.len() as u64);
        let at = start + COUNTS + 2 * letter.min(LETTERS.len() as u64) as usize;
        let bytes = self.front(&(at..at + 2));
        let second = crate::count(&bytes, number, letter);
        self.door(&bytes, at..at + 2, second, format!("{number} {letter}"), &|lib, b| lib.count(b, number, letter))?;
        self.saw_great(&bytes, number);
        if second.1 > 0 {
            self.saw("letter counted", letter as i64);
        }
        if letter == LETTERS.len() as u64 && crate::record(&bytes, number.saturating_add(1)).1 > 0 {
            self.saw("letter that there is not, before a record with key and id", letter as i64);
        }
        Ok(self.block.to_vec())
    }
}

/// A door to a block, as a library is asked.
type Door<'a> = &'a dyn Fn(&dyn Library, &[u8]) -> u64;

/// The block after a call, or why the two programs disagree.
type After = Result<Vec<u8>, String>;

/// A call by name, and how often it is drawn.
type Often = (&'static str, u64, fn(&mut Call) -> After);

/// The calls, each as often as it is drawn among 29.
const CALLS: [Often; 18] = [
    ("make", 1, |call| call.make()),
    ("message", 3, |call| call.sent(&PLAIN)),
    ("wide", 3, |call| call.sent(&wide::WIDE)),
    ("rights", 2, |call| call.rights()),
    ("may", 1, |call| call.may()),
    ("write", 1, |call| call.write()),
    ("read", 2, |call| call.read()),
    ("tested", 1, |call| call.tested()),
    ("size", 1, |call| call.size()),
    ("record", 1, |call| call.record()),
    ("count", 1, |call| call.count()),
    ("directory", 1, |call| call.directory()),
    ("message_by", 3, |call| call.sent_by(&PLAIN)),
    ("wide_by", 3, |call| call.sent_by(&wide::WIDE)),
    ("rights_by", 1, |call| call.rights_by()),
    ("may_by", 1, |call| call.may_by()),
    ("write_by", 1, |call| call.write_by()),
    ("read_by", 2, |call| call.read_by()),
];

/// One of the calls, drawn.
fn drawn(rng: &mut Rng, calls: &[Often]) -> Often {
    let mut drawn = rng.below(calls.iter().map(|call| call.1).sum());
    for &call in calls {
        if drawn < call.1 {
            return call;
        }
        drawn -= call.1;
    }
    unreachable!("a call is drawn")
}

/// The calls of one case: the library, the block and the directory that the calls before left, whether that directory is to be
/// lent, and the appointments.
struct Case<'a> {
    lib: &'a dyn Library,
    rng: &'a mut Rng,
    tally: &'a mut Tally,
    block: Vec<u8>,
    kept: Vec<u16>,
    keeping: bool,
    appointed: Appointed,
}

impl<'a> Case<'a> {
    /// A case on a block, without appointments.
    fn new(lib: &'a dyn Library, rng: &'a mut Rng, tally: &'a mut Tally, block: Vec<u8>) -> Case<'a> {
        let kept = index_of(&block).directory();
        Case { lib, rng, tally, block, kept, keeping: false, appointed: Appointed::default() }
    }

    /// Makes one of these calls on the block, which has these records or is like one that has. The next is made on what it left.
    fn one(&mut self, index: &Index, calls: &[Often]) -> Result<(), String> {
        let (name, _, made) = drawn(self.rng, calls);
        self.call(name, index, made)
    }

    /// Makes this call.
    fn call(&mut self, name: &'static str, index: &Index, made: impl FnOnce(&mut Call) -> After) -> Result<(), String> {
        let Case { lib, rng, tally, block, kept, keeping, appointed } = self;
        let mut call = Call { lib: *lib, rng, tally, name, block, index, kept, keeping: *keeping, appointed };
        self.block = made(&mut call).map_err(|what| format!("{what}\nblock {block:02x?}"))?;
        Ok(())
    }

    /// Some of these calls, one after the other.
    fn some(&mut self, calls: &[Often]) -> Result<(), String> {
        for _ in 0..1 + self.rng.below(15) {
            self.one(&index_of(&self.block), calls)?;
        }
        Ok(())
    }

    /// One more of these calls, on the block with one fault.
    fn one_with_a_fault(&mut self, calls: &[Often]) -> Result<(), String> {
        if self.block.len() >= HEADER {
            let index = index_of(&self.block);
            gen::damage(self.rng, &mut self.block);
            self.one(&index, calls)?;
        }
        Ok(())
    }
}

/// The records of a block; none where it is not good.
fn index_of(block: &[u8]) -> Index {
    Index::decode(block).unwrap_or_else(|_| Index::empty(block.len()))
}

/// A block, and calls on it: every sixth time those of appointments.
fn one_case(lib: &dyn Library, rng: &mut Rng, tally: &mut Tally) -> Result<(), String> {
    if rng.one_in(6) {
        return appointments::case(lib, rng, tally);
    }
    let block = if rng.one_in(40) { gen::bytes(rng, 120) } else { gen::index(rng).encode() };
    let mut case = Case::new(lib, rng, tally, block);
    if case.rng.one_in(20) {
        return case.stream();
    }
    case.some(&CALLS)?;
    case.one_with_a_fault(&CALLS)
}

/// The same, and every eighth time a block and calls of slips after it, and every fourth time one and calls of limits, and one and
/// calls about what bears.
fn one_and_more(lib: &dyn Library, rng: &mut Rng, tally: &mut Tally) -> Result<(), String> {
    one_case(lib, rng, tally)?;
    if rng.one_in(8) {
        slips::case(lib, rng, tally)?;
    }
    if rng.one_in(4) {
        limits::case(lib, rng, tally)?;
    }
    if rng.one_in(4) {
        bearing::case(lib, rng, tally)?;
    }
    Ok(())
}

/// How the calls of one case are made.
type Made = fn(&dyn Library, &mut Rng, &mut Tally) -> Result<(), String>;

/// Runs cases that are made so; the first disagreement, with what leads to it, ends the run.
fn run_all(lib: &dyn Library, cases: u64, seed: u64, made: Made, mut tally: Tally) -> Result<Tally, String> {
    for case in 0..cases {
        let mut rng = Rng(seed.wrapping_mul(1 << 32).wrapping_add(case));
        made(lib, &mut rng, &mut tally).map_err(|what| format!("seed {seed}, case {case}: {what}"))?;
    }
    Ok(tally)
}

/// Runs the cases.
pub fn run(lib: &dyn Library, cases: u64, seed: u64) -> Result<Tally, String> {
    run_all(lib, cases, seed, one_and_more, Tally::default())
}

/// Runs cases of limits alone.
pub fn run_limits(lib: &dyn Library, cases: u64, seed: u64) -> Result<Tally, String> {
    run_all(lib, cases, seed, limits::case, Tally { alone: Some(limits::EACH), ..Tally::default() })
}

/// Runs cases about what bears alone.
pub fn run_bearing(lib: &dyn Library, cases: u64, seed: u64) -> Result<Tally, String> {
    run_all(lib, cases, seed, bearing::case, Tally { alone: Some(bearing::EACH), ..Tally::default() })
}

/// Reads every text of `TRIED`, as a set of each kind, into a block that has no room for a record: how many reads.
pub fn every_text(lib: &dyn Library) -> Result<usize, String> {
    let texts: Vec<Vec<u8>> = gen::TRIED.iter().flat_map(gen::Tried::texts).collect();
    let block = crate::make(&[0; HEADER]).1;
    for kind in 1..=KINDS as u64 {
        for text in &texts {
            let (number, value, after) = crate::read(&block, kind, 0, text);
            let mut b = block.clone();
            let got = lib.read(&mut b, kind, 0, text);
            if got != packed(number, value) || b != after {
                let text = String::from_utf8_lossy(text);
                return Err(format!("read {kind} {text}: returned {}, {} where {number}, {value} is right", got >> 32, got as u32));
            }
        }
    }
    Ok(KINDS * texts.len())
}
