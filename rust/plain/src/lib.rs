//! The same rules as a straightforward fast program on the bytes of the block: what the library is timed against. It works
//! in place, searches by halves, moves bytes with `copy_within`, tests a block without a branch for each record, notes for each
//! question where the memberships of each name stand, and walks from the user and the object at once, with marks in arrays.

use bound::open;
use second::drive::{packed, Library};

mod appointments;
mod bearing;
mod bound;
mod calendar;
mod directory;
mod limits;
mod slips;
mod wide;

pub use appointments::{move_to, next_change, stands, APPOINTMENT, MOST as APPOINTMENTS};
pub use bearing::bears;
pub use calendar::{date, day};
pub use directory::{directory, may_by, message_by, read_by, rights_by, wide_by, write_by, ENTRIES};
pub use limits::{plain, rights_to};
pub use slips::{check_slip, find_slip, LONGEST as SLIP};
pub use wide::{wide, LIST};

const LETTERS: [u8; 10] = *b"MRUPmrupXN";
/// How many of the letters are rights, and the mask of those; the denials follow, and then the markers.
const RIGHTS: usize = 4;
pub const ALL: u8 = (1 << RIGHTS) - 1;
/// The profiles of a question.
const ORDINARY: u64 = 0;
const STRICT: u64 = 1;
const NAME_BITS: usize = 10;
pub const NAMES: usize = 1 << NAME_BITS;
pub const CHAIN: usize = 32;
const MOST: usize = 65_535;
pub const HEADER: usize = 16;
/// Key, id and counts, two bytes each.
pub const RECORD: usize = COUNTS + 2 * LETTERS.len();
const ID: usize = 2;
const COUNTS: usize = 4;
const SMALLS: usize = COUNTS + 2 * RIGHTS;
const MARKERS: usize = SMALLS + 2 * RIGHTS;
type Record = [u8; RECORD];
pub const ROOM: usize = 2048;
pub const GREATEST: usize = HEADER + ROOM * RECORD;
/// The greatest number of a record that can be asked for by its number.
const LAST: u64 = 65_535;
/// A message: kind and flags, then two halves of five bytes, by their numbers. The flag of a half is 1 shifted by its number.
pub const MESSAGE: usize = half_at(NEW) + HALF;
pub const OLD: usize = 0;
pub const NEW: usize = 1;
const HALF: usize = 5;
pub const MASK: usize = 4;
/// The first byte has the kind in these bits. X and N of a half follow, each by one bit, from these on.
const KIND: u8 = 15;
pub const MARKED: [u32; 2] = [6, 4];
/// The parts of a block in their order. A kind's number is one more.
const M: usize = 0;
const P: usize = 1;
const F: usize = 2;
const KINDS: usize = 3;

/// Where a half of a message begins.
pub const fn half_at(half: usize) -> usize {
    2 + HALF * half
}

fn word(b: &[u8], at: usize) -> usize {
    usize::from(u16::from_le_bytes(b[at..at + 2].try_into().expect("two bytes")))
}

fn four_words(b: &[u8], at: usize) -> u64 {
    u64::from_le_bytes(b[at..at + 8].try_into().expect("eight bytes"))
}

/// The counts of both markers, X in the lower half.
fn markers(record: &Record) -> u32 {
    u32::from_le_bytes(record[MARKERS..].try_into().expect("four bytes"))
}

/// The half of them that X has.
const X: u32 = 0xFFFF;

fn put_word(b: &mut [u8], at: usize, n: usize) {
    b[at..at + 2].copy_from_slice(&(n as u16).to_le_bytes());
}

fn place(i: usize) -> usize {
    HEADER + RECORD * i
}

/// The first record number of each part, and the end.
fn bounds(b: &[u8]) -> [usize; 4] {
    let (m, p, f) = (word(b, 0), word(b, 2), word(b, 4));
    [0, m, m + p, m + p + f]
}

/// Key and id, at `at`, as one number.
fn pair(b: &[u8], at: usize) -> usize {
    word(b, at) << NAME_BITS | word(b, at + ID)
}

/// The records of each part.
fn parts(b: &[u8]) -> [&[Record]; 3] {
    let at = bounds(b);
    [0, 1, 2].map(|kind| b[place(at[kind])..place(at[kind + 1])].as_chunks().0)
}

/// Key and id of a record, by one load, as a number that rises with the key, then with the id.
fn spot(record: &Record) -> u32 {
    u32::from_le_bytes(record[..COUNTS].try_into().expect("four bytes")).rotate_left(16)
}

/// The bits that are set in no spot of two names.
const NO_NAMES: u32 = !((NAMES as u32 - 1) << 16 | (NAMES as u32 - 1));

/// Whether the records of a part are good, and the markers that they count. What each record shows is added up without a branch,
/// four records at a time, and looked at in the end.
fn good<const PART: usize>(records: &[Record]) -> (bool, u32) {
    let (mut names, mut last, mut falls, mut empty, mut denials, mut marked) = (0, 0, 0, 0u64, 0, 0);
    let mut look = |record: &Record| {
        let (spot, capitals, smalls, markers) =
            (spot(record), four_words(record, COUNTS), four_words(record, SMALLS), markers(record));
        names |= spot;
        falls += u32::from(spot <= last);
        last = spot;
        let counted = match PART {
            M => capitals | u64::from(markers),
            P => capitals | smalls,
            _ => capitals,
        };
        empty += u64::from(counted == 0);
        denials |= if PART == P { 0 } else { smalls };
        marked |= markers;
    };
    let (fours, rest) = records.as_chunks::<4>();
    fours.iter().for_each(|four| four.iter().for_each(&mut look));
    rest.iter().for_each(look);
    // the first record is above none, and where its names are both 0 it was counted
    let first = records.first().is_some_and(|record| spot(record) == 0);
    let fair = names & NO_NAMES == 0 && falls <= first.into() && empty == 0 && denials == 0;
    (fair && (PART == M || marked == 0), marked)
}

/// Whether M records of a good block count X; else 1 or 2.
fn sound(b: &[u8]) -> Result<bool, u32> {
    if b.len() < HEADER || b.len() > GREATEST {
        return Err(1);
    }
    let at = bounds(b);
    let header = [0, HEADER, place(at[1]), place(at[2]), place(at[3])];
    let differ = (0..5).fold(0, |differ, k| differ | (word(b, 6 + 2 * k) ^ header[k]));
    if differ != 0 || place(at[3]) > b.len() {
        return Err(2);
    }
    let rest = b[place(at[3])..].iter().fold(0, |all, &x| all | x);
    let [m, p, f] = parts(b);
    let (fair, marked) = good::<M>(m);
    if fair && good::<P>(p).0 && good::<F>(f).0 && rest == 0 {
        Ok(marked & X != 0)
    } else {
        Err(2)
    }
}

/// 0 for a good block, else 1 or 2.
pub fn tested(b: &[u8]) -> u32 {
    sound(b).map_or_else(|number| number, |_| 0)
}

fn put_header(b: &mut [u8], m: usize, p: usize, f: usize) {
    for (k, n) in [m, p, f, 0, HEADER, place(m), place(m + p), place(m + p + f)].into_iter().enumerate() {
        put_word(b, 2 * k, n);
    }
}

pub fn make(b: &mut [u8]) -> u32 {
    if b.len() < HEADER || b.len() > GREATEST {
        return 1;
    }
    b.fill(0);
    put_header(b, 0, 0, 0);
    0
}

/// The first record of the part whose key and id are at least these.
fn lower(b: &[u8], mut lo: usize, mut hi: usize, want: usize) -> usize {
    while lo < hi {
        let mid = (lo + hi) / 2;
        if pair(b, place(mid)) < want {
            lo = mid + 1;
        } else {
            hi = mid;
        }
    }
    lo
}

/// How the records of a key are found: the first, and the one after the last.
trait Find {
    /// The records of the key.
    fn set(&self, b: &[u8], kind: usize, key: usize) -> (usize, usize);

    /// Those among which one of them is searched for.
    fn near(&self, b: &[u8], kind: usize, key: usize) -> (usize, usize) {
        self.set(b, kind, key)
    }
}

/// What is kept true while records move.
trait Keep: Find {
    /// The records behind those of the key began at `from`, and begin at `to`.
    fn moved(&mut self, kind: usize, key: usize, from: usize, to: usize);
}

/// Records are searched for by halves, and nothing is kept.
struct Search;

impl Find for Search {
    fn set(&self, b: &[u8], kind: usize, key: usize) -> (usize, usize) {
        let ((lo, hi), want) = (self.near(b, kind, key), key << NAME_BITS);
        let first = lower(b, lo, hi, want);
        (first, lower(b, first, hi, want + NAMES))
    }

    fn near(&self, b: &[u8], kind: usize, _: usize) -> (usize, usize) {
        let at = bounds(b);
        (at[kind], at[kind + 1])
    }
}

impl Keep for Search {
    fn moved(&mut self, _: usize, _: usize, _: usize, _: usize) {}
}

fn find(b: &[u8], keys: &impl Find, kind: usize, want: usize) -> (usize, bool) {
    let (lo, hi) = keys.near(b, kind, want >> NAME_BITS);
    let i = lower(b, lo, hi, want);
    (i, i < hi && pair(b, place(i)) == want)
}

/// The records from `from` on, behind those of the key, move so that they begin at `to`; the header follows.
fn shift(b: &mut [u8], keys: &mut impl Keep, kind: usize, key: usize, from: usize, to: usize) {
    let at = bounds(b);
    let end = place(at[3]);
    b.copy_within(place(from)..end, place(to));
    if to < from {
        b[end - RECORD * (from - to)..end].fill(0);
    }
    let mut sizes = [at[1], at[2] - at[1], at[3] - at[2]];
    sizes[kind] = sizes[kind] + to - from;
    put_header(b, sizes[0], sizes[1], sizes[2]);
    keys.moved(kind, key, from, to);
}

fn count_at(i: usize, k: usize) -> usize {
    place(i) + COUNTS + 2 * k
}

fn take(b: &mut [u8], keys: &mut impl Keep, kind: usize, want: usize, mask: usize) -> u32 {
    let (i, there) = find(b, keys, kind, want);
    if !there || (0..LETTERS.len()).any(|k| mask >> k & 1 == 1 && word(b, count_at(i, k)) == 0) {
        return 6;
    }
    let mut left = 0;
    for k in 0..LETTERS.len() {
        let n = word(b, count_at(i, k)) - (mask >> k & 1);
        put_word(b, count_at(i, k), n);
        left |= n;
    }
    if left == 0 {
        shift(b, keys, kind, want >> NAME_BITS, i + 1, i);
    }
    0
}

fn add(b: &mut [u8], keys: &mut impl Keep, kind: usize, want: usize, mask: usize) -> u32 {
    let (i, there) = find(b, keys, kind, want);
    if there {
        if (0..LETTERS.len()).any(|k| mask >> k & 1 == 1 && word(b, count_at(i, k)) == MOST) {
            return 7;
        }
        for k in 0..LETTERS.len() {
            let n = word(b, count_at(i, k)) + (mask >> k & 1);
            put_word(b, count_at(i, k), n);
        }
    } else {
        if bounds(b)[3] == (b.len() - HEADER) / RECORD {
            return 8;
        }
        shift(b, keys, kind, want >> NAME_BITS, i, i + 1);
        put_word(b, place(i), want >> NAME_BITS);
        put_word(b, place(i) + ID, want % NAMES);
        for k in 0..LETTERS.len() {
            put_word(b, count_at(i, k), mask >> k & 1);
        }
    }
    0
}

pub fn message(b: &mut [u8], m: &[u8]) -> u32 {
    sound(b).map_or_else(|number| number, |_| message_with(b, &mut Search, m))
}

/// What the first two bytes of a message say: its part, and for each half whether it is there, and its markers.
struct Front {
    kind: usize,
    there: [bool; 2],
    markers: [usize; 2],
}

/// The first two bytes of a message; else 3.
#[inline]
fn front(first: u8, flags: u8) -> Result<Front, u32> {
    if !(1..=3).contains(&(first & KIND)) || !(1..=3).contains(&flags) {
        return Err(3);
    }
    let kind = usize::from(first & KIND) - 1;
    let (there, markers) = ([OLD, NEW].map(|half| flags >> half & 1 == 1), MARKED.map(|at| usize::from(first >> at & 3)));
    if first > KIND {
        if kind != M || markers[OLD] == 3 || markers[NEW] == 3 {
            return Err(3);
        }
        if (!there[OLD] && markers[OLD] != 0) || (!there[NEW] && markers[NEW] != 0) {
            return Err(3);
        }
    }
    Ok(Front { kind, there, markers })
}

impl Front {
    /// The masks of the halves, with their markers, by the bytes that have the letters; else 5.
    #[inline]
    fn masks(&self, bytes: [u8; 2]) -> Result<[usize; 2], u32> {
        let bad = |half: usize| self.there[half] && (bytes[half] == 0 || (self.kind != P && bytes[half] > ALL));
        if bad(OLD) || bad(NEW) {
            return Err(5);
        }
        Ok([OLD, NEW].map(|half| usize::from(bytes[half]) | self.markers[half] << (2 * RIGHTS)))
    }
}

/// A message that was read: its part, and of each half that is there the record and the mask.
type Message = (usize, [Option<(usize, usize)>; 2]);

fn read_message(m: &[u8]) -> Result<Message, u32> {
    let m: &[u8; MESSAGE] = m.try_into().map_err(|_| 3u32)?;
    let front = front(m[0], m[1])?;
    let halves = [OLD, NEW].map(|half| &m[half_at(half)..half_at(half + 1)]);
    if (!front.there[OLD] && *halves[OLD] != [0; HALF]) || (!front.there[NEW] && *halves[NEW] != [0; HALF]) {
        return Err(3);
    }
    if halves.into_iter().any(|half| word(half, 0) >= NAMES || word(half, ID) >= NAMES) {
        return Err(4);
    }
    let masks = front.masks(halves.map(|half| half[MASK]))?;
    Ok((front.kind, [OLD, NEW].map(|half| front.there[half].then(|| (pair(halves[half], 0), masks[half])))))
}

/// The message on a good block, whose records are found in this way.
fn message_with(b: &mut [u8], keys: &mut impl Keep, m: &[u8]) -> u32 {
    let (kind, [old, new]) = match read_message(m) {
        Err(number) => return number,
        Ok(message) => message,
    };
    if let Some((from, less)) = old {
        let number = take(b, keys, kind, from, less);
        if number != 0 {
            return number;
        }
    }
    if let Some((to, more)) = new {
        let number = add(b, keys, kind, to, more);
        if number != 0 {
            if let Some((from, less)) = old {
                add(b, keys, kind, from, less);
            }
            return number;
        }
    }
    0
}

/// The highest bit of each of four counts.
const HIGHEST: u64 = 0x8000_8000_8000_8000;

/// Which of the four counts at `at` are above zero. The sum sets the highest bit of those, and the product moves the bits 0, 16,
/// 32 and 48 to 48, 49, 50 and 51.
fn mask(record: &Record, at: usize) -> u8 {
    let four = four_words(record, at);
    let bits = (((four & !HIGHEST) + !HIGHEST) | four) & HIGHEST;
    ((bits >> 15).wrapping_mul(1 << 48 | 1 << 33 | 1 << 18 | 1 << 3) >> 48) as u8 & ALL
}

/// The net mask of a P record. That of an M or F record, which counts no small letters, is the mask of its capitals.
fn net(record: &Record) -> u8 {
    mask(record, COUNTS) & !mask(record, SMALLS)
}

/// The numbers of a name's M records: the first, and the one after the last.
type Span = (u16, u16);

/// How a question looks up the records of a name: the numbers of its M records, and its F records.
trait Look {
    fn span(&self, name: usize) -> Span;
    fn filters<'a>(&self, filters: &'a [Record], name: usize) -> &'a [Record];
}

/// The M records were noted for each name; the F records are searched for.
impl Look for [Span; NAMES] {
    fn span(&self, name: usize) -> Span {
        self[name]
    }

    fn filters<'a>(&self, filters: &'a [Record], name: usize) -> &'a [Record] {
        keyed_filters(filters, name)
    }
}

/// The F records of a name, searched for.
fn keyed_filters(filters: &[Record], name: usize) -> &[Record] {
    let from = &filters[filters.partition_point(|record| word(record, 0) < name)..];
    &from[..from.iter().take_while(|&record| word(record, 0) == name).count()]
}

/// Where the M records of each name stand; the two numbers are the same for a name that has none.
fn spans(memberships: &[Record]) -> [Span; NAMES] {
    let mut spans = [(0, 0); NAMES];
    let (mut start, mut last) = (0, NAMES);
    for (i, record) in memberships.iter().enumerate() {
        let key = word(record, 0);
        start = if key == last { start } else { i };
        last = key;
        spans[key % NAMES] = (start as u16, i as u16 + 1);
    }
    spans
}

/// The halves of a mark: both sides are walked at once, and each right goes its own way.
const USER: u8 = ALL;
const OBJECT: u8 = ALL << RIGHTS;

/// Where the numbers of M records examined begin in the value of a full question, behind the rights: the user's, then the
/// object's.
const EXAMINED: [usize; 2] = [RIGHTS, RIGHTS + EXAMINED_BITS];
const EXAMINED_BITS: usize = 14;

/// What one M record adds to them, by the bits by which its key's mark grew: 1 for each side whose half grew.
static ONCE: [u32; 1 << (2 * RIGHTS)] = {
    let mut once = [0; 1 << (2 * RIGHTS)];
    let mut grew = 0;
    while grew < once.len() {
        let [user, object] = [grew as u8 & USER != 0, grew as u8 & OBJECT != 0];
        once[grew] = (user as u32) << EXAMINED[0] | (object as u32) << EXAMINED[1];
        grew += 1;
    }
    once
};

/// How many numbers of records are put on a list at a time; those that are too many are written over.
const FEW: usize = 4;

/// The marks in a round and in the round before, the names whose marks grew, and the two numbers of M records examined so far.
struct Walk {
    marks: [u8; NAMES],
    before: [u8; NAMES],
    grown: [u16; NAMES],
    names: usize,
    examined: u32,
}

impl Walk {
    fn new(user: usize, object: usize) -> Walk {
        let mut walk = Walk { marks: [0; NAMES], before: [0; NAMES], grown: [0; NAMES], names: 2, examined: 0 };
        walk.marks[user] = USER;
        walk.marks[object] |= OBJECT;
        walk.grown[..2].copy_from_slice(&[user as u16, object as u16]);
        walk.names -= usize::from(user == object);
        walk
    }

    /// Begins a round: lists the records of the names whose marks grew in the round before, and counts them if they are to be
    /// counted. How many there are.
    fn begin<const COUNTED: bool>(&mut self, look: &impl Look, list: &mut [u16; ROOM + FEW]) -> usize {
        let mut listed = 0;
        for &name in &self.grown[..self.names] {
            let name = usize::from(name) % NAMES;
            let grew = self.before[name] ^ self.marks[name];
            self.before[name] = self.marks[name];
            let (mut i, end) = look.span(name);
            self.examined += if COUNTED { ONCE[usize::from(grew)] * u32::from(end - i) } else { 0 };
            let (mut at, after) = (listed, listed + usize::from(end - i));
            listed = after;
            loop {
                list[at..at + FEW].copy_from_slice(&[i, i + 1, i + 2, i + 3]);
                (i, at) = (i + FEW as u16, at + FEW);
                if at >= after {
                    break;
                }
            }
        }
        listed
    }

    /// Looks at the records that are listed. A name is put down as grown once, when its mark grows for the first time.
    fn look(&mut self, memberships: &[Record], list: &[u16]) {
        self.names = 0;
        for &i in list {
            let record = &memberships[usize::from(i)];
            let (key, id, net) = (word(record, 0) % NAMES, word(record, ID) % NAMES, mask(record, COUNTS));
            let more = self.before[key] & (net | net << RIGHTS) & !self.marks[id];
            self.grown[self.names % NAMES] = id as u16;
            self.names += usize::from((more != 0) & (self.marks[id] == self.before[id]));
            self.marks[id] |= more;
        }
    }

    /// Goes on for as many rounds as a chain may have records.
    fn go<const COUNTED: bool>(&mut self, memberships: &[Record], look: &impl Look) {
        let mut list = [0; ROOM + FEW];
        for _ in 0..CHAIN {
            let listed = self.begin::<COUNTED>(look, &mut list);
            if listed == 0 {
                break;
            }
            self.look(memberships, &list[..listed]);
        }
    }
}

/// Whether an M record is a membership, and does not count markers alone.
fn member(record: &Record) -> bool {
    four_words(record, COUNTS) != 0
}

/// The rights that all filters leave which bind an object, given its own M records.
fn filter(filters: &[Record], look: &impl Look, object: usize, own: &[Record]) -> u8 {
    let groups = own.iter().filter(|&record| member(record)).map(|record| word(record, ID));
    let binding = std::iter::once(object).chain(groups).flat_map(|name| look.filters(filters, name));
    binding.fold(ALL, |all, record| all & mask(record, COUNTS))
}

/// The rights held of those requested and, if they are to be counted, the numbers of M records examined.
type Answer = Result<(u8, u32), u32>;

/// A user, an object and a request, and whether the profile is the strict one.
type Asked = (usize, usize, u8, bool);

/// What is asked, where it can be.
fn asked(user: u64, object: u64, request: u64, profile: u64) -> Result<Asked, u32> {
    if user >= NAMES as u64 || object >= NAMES as u64 {
        return Err(4);
    }
    if request == 0 || request > ALL.into() {
        return Err(5);
    }
    if profile != ORDINARY && profile != STRICT {
        return Err(15);
    }
    Ok((user as usize, object as usize, request as u8, profile == STRICT))
}

fn question<const COUNTED: bool>(b: &[u8], user: u64, object: u64, request: u64, profile: u64) -> Answer {
    let marked = sound(b)?;
    let asked = asked(user, object, request, profile)?;
    Ok(answered::<COUNTED>(b, &spans(parts(b)[M]), asked, marked))
}

/// The rights for which a P record is reached from both sides.
fn reached(marks: &[u8; NAMES], record: &Record) -> u8 {
    marks[word(record, 0) % NAMES] >> RIGHTS & marks[word(record, ID) % NAMES]
}

/// The rights that P records grant, of those in the limit. The search ends where all are found.
fn granted(records: &[Record], marks: &[u8; NAMES], limit: u8) -> u8 {
    let mut held = 0;
    for record in records {
        let reached = reached(marks, record) & limit;
        if reached & !held != 0 {
            held |= reached & net(record);
            if held == limit {
                break;
            }
        }
    }
    held
}

/// The rights that P records grant, of those in the limit, and which of those in the limit they leave unbarred. A denial may stand
/// anywhere, so the search ends only where nothing is left.
#[inline(never)]
fn strictly(records: &[Record], marks: &[u8; NAMES], limit: u8) -> (u8, u8) {
    let (mut held, mut left) = (0, limit);
    for record in records {
        let reached = reached(marks, record) & left;
        if reached != 0 {
            held |= reached & net(record);
            left &= !(reached & mask(record, SMALLS));
            if left == 0 {
                break;
            }
        }
    }
    (held, left)
}

/// The answer from a good block, where records are looked up in this way. Where no M record counts X, nobody is bound.
fn answered<const COUNTED: bool>(b: &[u8], look: &impl Look, asked: Asked, marked: bool) -> (u8, u32) {
    let ([m, p, f], (user, object, request, strict)) = (parts(b), asked);
    let (start, end) = look.span(object);
    let limit = filter(f, look, object, &m[start.into()..end.into()]) & request;
    let mut walk = Walk::new(user, object);
    walk.go::<COUNTED>(m, look);
    let marks = &mut walk.marks;
    marks[0] |= OBJECT;
    let mut held = if strict {
        let (held, left) = strictly(p, marks, limit);
        held & left
    } else {
        granted(p, marks, limit)
    };
    if held != 0 && marked && !open(m, look, user, object) {
        held = 0;
    }
    (held, walk.examined)
}

/// The number and the value of the full question.
fn full(answer: Answer) -> (u32, u32) {
    answer.map_or_else(|n| (n, 0), |(held, examined)| (0, u32::from(held) | examined))
}

/// The same of the short one.
fn short(answer: Answer, request: u64) -> (u32, u32) {
    answer.map_or_else(|n| (n, 0), |(held, _)| (0, (u64::from(held) == request).into()))
}

pub fn rights(b: &[u8], user: u64, object: u64, request: u64, profile: u64) -> (u32, u32) {
    full(question::<true>(b, user, object, request, profile))
}

pub fn may(b: &[u8], user: u64, object: u64, request: u64, profile: u64) -> (u32, u32) {
    short(question::<false>(b, user, object, request, profile), request)
}

fn set_bounds(b: &[u8], keys: &impl Find, kind: u64, key: u64) -> Result<(usize, usize, usize), u32> {
    if !(1..=3).contains(&kind) {
        return Err(3);
    }
    if key >= NAMES as u64 {
        return Err(4);
    }
    let kind = kind as usize - 1;
    let (lo, hi) = keys.set(b, kind, key as usize);
    Ok((kind, lo, hi))
}

struct Out<'a> {
    bytes: &'a mut [u8],
    at: usize,
}

impl Out<'_> {
    fn byte(&mut self, byte: u8) {
        if let Some(slot) = self.bytes.get_mut(self.at) {
            *slot = byte;
        }
        self.at += 1;
    }

    fn number(&mut self, n: usize) {
        if n >= 10 {
            self.number(n / 10);
        }
        self.byte(b'0' + (n % 10) as u8);
    }
}

fn put_set(b: &[u8], lo: usize, hi: usize, out: &mut [u8]) -> usize {
    let mut out = Out { bytes: out, at: 0 };
    for i in lo..hi {
        if i > lo {
            out.byte(b';');
        }
        out.number(word(b, place(i) + ID));
        out.byte(b';');
        for (k, &letter) in LETTERS.iter().enumerate() {
            let n = word(b, count_at(i, k));
            if n > 0 {
                out.byte(letter);
                if n > 1 {
                    out.number(n);
                }
            }
        }
    }
    out.at
}

/// No record has a longer text, with the `;` after it: an id of four digits, and eight letters with a count of five, as no kind
/// has both denials and markers.
const LONGEST: usize = 4 + 1 + 6 * (2 * RIGHTS) + 1;

/// Whether the text of the set has at most so many bytes. It is measured only where the number of its records does not tell.
fn fits(b: &[u8], lo: usize, hi: usize, room: usize) -> bool {
    LONGEST * (lo..hi).len() <= room || put_set(b, lo, hi, &mut []) <= room
}

pub fn write(b: &[u8], kind: u64, key: u64, out: &mut [u8]) -> (u32, u32) {
    sound(b).map_or_else(|number| (number, 0), |_| write_with(b, &Search, kind, key, out))
}

/// The text of a set of a good block, whose records are found in this way.
fn write_with(b: &[u8], keys: &impl Find, kind: u64, key: u64, out: &mut [u8]) -> (u32, u32) {
    match set_bounds(b, keys, kind, key) {
        Err(number) => (number, 0),
        Ok((_, lo, hi)) => {
            if !fits(b, lo, hi, out.len()) {
                return (10, 0);
            }
            (0, put_set(b, lo, hi, out) as u32)
        }
    }
}

/// Reads a number without leading zeros from the front of the text.
fn number(text: &[u8], at: &mut usize, most: usize) -> Option<usize> {
    let start = *at;
    let mut n = 0;
    while let Some(digit) = text.get(*at).filter(|d| d.is_ascii_digit()) {
        n = 10 * n + usize::from(digit - b'0');
        *at += 1;
        if n > most {
            return None;
        }
    }
    let fair = *at > start && (text[start] != b'0' || *at == start + 1);
    fair.then_some(n)
}

/// Whether the number, or one that goes on from its digits, is from `least` to `most`.
fn begins(n: usize, least: usize, most: usize) -> bool {
    n <= most && (n >= least || (n > 0 && (0..10).any(|digit| begins(10 * n + digit, least, most))))
}

/// The end of the digits from `at` on that a number from `least` to `most` begins with.
#[cold]
fn begun(text: &[u8], mut at: usize, least: usize, most: usize) -> usize {
    let (start, mut n) = (at, 0);
    while let Some(digit) = text.get(at).filter(|d| d.is_ascii_digit() && (at == start || n > 0)) {
        n = 10 * n + usize::from(digit - b'0');
        if !begins(n, least, most) {
            break;
        }
        at += 1;
    }
    at
}

/// Reads a number from `least` to `most`; where there is none, the place up to which one may stand there.
fn bounded(text: &[u8], at: &mut usize, least: usize, most: usize) -> Result<usize, usize> {
    let start = *at;
    number(text, at, most).filter(|&n| n >= least).ok_or_else(|| begun(text, start, least, most))
}

/// The letters that a record of each part may count.
const LETTERED: [&[usize]; KINDS] = [&[0, 1, 2, 3, 8, 9], &[0, 1, 2, 3, 4, 5, 6, 7], &[0, 1, 2, 3]];

/// Reads the set of a text, handing each record's id and counts on; how many there are, or the place where it is of no set.
fn scan(text: &[u8], kind: usize, mut each: impl FnMut(usize, usize, &[usize; LETTERS.len()])) -> Result<usize, usize> {
    let (mut at, mut records, mut least) = (0, 0, 0);
    while at < text.len() || records > 0 {
        let id = bounded(text, &mut at, least, NAMES - 1)?;
        if text.get(at) != Some(&b';') {
            return Err(at);
        }
        at += 1;
        let mut counts = [0; LETTERS.len()];
        let start = at;
        for &k in LETTERED[kind] {
            if text.get(at) == Some(&LETTERS[k]) {
                at += 1;
                counts[k] = 1;
                if text.get(at).is_some_and(u8::is_ascii_digit) {
                    counts[k] = bounded(text, &mut at, 2, MOST)?;
                }
            }
        }
        if at == start {
            return Err(at);
        }
        each(records, id, &counts);
        records += 1;
        least = id + 1;
        if at == text.len() {
            return Ok(records);
        }
        if text[at] != b';' || least == NAMES {
            return Err(at);
        }
        at += 1;
    }
    Ok(0)
}

pub fn read(b: &mut [u8], kind: u64, key: u64, text: &[u8]) -> (u32, u32) {
    sound(b).map_or_else(|number| (number, 0), |_| read_with(b, &mut Search, kind, key, text))
}

/// The set of a text put into a good block, whose records are found in this way.
fn read_with(b: &mut [u8], keys: &mut impl Keep, kind: u64, key: u64, text: &[u8]) -> (u32, u32) {
    let (kind, lo, hi) = match set_bounds(b, keys, kind, key) {
        Err(number) => return (number, 0),
        Ok(found) => found,
    };
    let records = match scan(text, kind, |_, _, _| ()) {
        Err(at) => return (9, at as u32),
        Ok(records) => records,
    };
    if bounds(b)[3] - (hi - lo) + records > (b.len() - HEADER) / RECORD {
        return (8, 0);
    }
    shift(b, keys, kind, key as usize, hi, lo + records);
    let _ = scan(text, kind, |n, id, counts| {
        let i = lo + n;
        put_word(b, place(i), key as usize);
        put_word(b, place(i) + ID, id);
        counts.iter().enumerate().for_each(|(k, &c)| put_word(b, count_at(i, k), c));
    });
    (0, records as u32)
}

/// The 16-bit number at `at` of any bytes; those past the end are 0.
fn word_in(b: &[u8], at: usize) -> u32 {
    match b.get(at..) {
        Some([low, high, ..]) => u16::from_le_bytes([*low, *high]).into(),
        Some([low]) => (*low).into(),
        _ => 0,
    }
}

pub fn size(b: &[u8], kind: u64) -> (u32, u32) {
    match kind {
        1..=3 => (0, word_in(b, 2 * (kind as usize - 1))),
        _ => (3, 0),
    }
}

pub fn record(b: &[u8], number: u64) -> u32 {
    if number > LAST {
        return 0;
    }
    let at = place(number as usize);
    word_in(b, at) | word_in(b, at + ID) << 16
}

pub fn count(b: &[u8], number: u64, letter: u64) -> u32 {
    if number > LAST || letter >= LETTERS.len() as u64 {
        return 0;
    }
    word_in(b, count_at(number as usize, letter as usize))
}

/// A number and a value as the C interface returns them.
fn both((number, value): (u32, u32)) -> u64 {
    packed(number, value)
}

/// The calls as the C interface has them.
pub struct Plain;

impl Library for Plain {
    fn make(&self, block: &mut [u8]) -> u64 {
        packed(make(block), 0)
    }

    fn message(&self, block: &mut [u8], bytes: &[u8]) -> u64 {
        packed(message(block, bytes), 0)
    }

    fn wide(&self, block: &mut [u8], bytes: &[u8]) -> u64 {
        packed(wide(block, bytes), 0)
    }

    fn rights(&self, block: &[u8], user: u64, object: u64, request: u64, profile: u64) -> u64 {
        both(rights(block, user, object, request, profile))
    }

    fn may(&self, block: &[u8], user: u64, object: u64, request: u64, profile: u64) -> u64 {
        both(may(block, user, object, request, profile))
    }

    fn plain(&self, block: &[u8], user: u64, object: u64, request: u64, limit: u64) -> u64 {
        both(plain(block, user, object, request, limit))
    }

    fn rights_to(&self, block: &[u8], user: u64, object: u64, request: u64, limit: u64) -> u64 {
        both(rights_to(block, user, object, request, limit))
    }

    fn bears(&self, block: &[u8], user: u64, object: u64, kind: u64, key: u64, id: u64) -> u64 {
        both(bears(block, user, object, kind, key, id))
    }

    fn find_slip(&self, block: &[u8], user: u64, object: u64, right: u64, hers: &mut [u16], its: &mut [u16]) -> u64 {
        both(find_slip(block, user, object, right, hers, its))
    }

    fn check_slip(&self, block: &[u8], user: u64, object: u64, right: u64, hers: &[u16], its: &[u16]) -> u64 {
        both(check_slip(block, user, object, right, hers, its))
    }

    fn write(&self, block: &[u8], kind: u64, key: u64, out: &mut [u8]) -> u64 {
        both(write(block, kind, key, out))
    }

    fn read(&self, block: &mut [u8], kind: u64, key: u64, text: &[u8]) -> u64 {
        both(read(block, kind, key, text))
    }

    fn tested(&self, block: &[u8]) -> u64 {
        packed(tested(block), 0)
    }

    fn size(&self, block: &[u8], kind: u64) -> u64 {
        both(size(block, kind))
    }

    fn record(&self, block: &[u8], number: u64) -> u64 {
        packed(0, record(block, number))
    }

    fn count(&self, block: &[u8], number: u64, letter: u64) -> u64 {
        packed(0, count(block, number, letter))
    }

    fn directory(&self, block: &[u8], lent: &mut [u16]) -> u64 {
        packed(directory(block, lent), 0)
    }

    fn message_by(&self, block: &mut [u8], directory: &mut [u16], bytes: &[u8]) -> u64 {
        packed(message_by(block, directory, bytes), 0)
    }

    fn wide_by(&self, block: &mut [u8], directory: &mut [u16], bytes: &[u8]) -> u64 {
        packed(wide_by(block, directory, bytes), 0)
    }

    fn rights_by(&self, block: &[u8], directory: &[u16], user: u64, object: u64, request: u64, profile: u64) -> u64 {
        both(rights_by(block, directory, user, object, request, profile))
    }

    fn may_by(&self, block: &[u8], directory: &[u16], user: u64, object: u64, request: u64, profile: u64) -> u64 {
        both(may_by(block, directory, user, object, request, profile))
    }

    fn write_by(&self, block: &[u8], directory: &[u16], kind: u64, key: u64, out: &mut [u8]) -> u64 {
        both(write_by(block, directory, kind, key, out))
    }

    fn read_by(&self, block: &mut [u8], directory: &mut [u16], kind: u64, key: u64, text: &[u8]) -> u64 {
        both(read_by(block, directory, kind, key, text))
    }

    fn day(&self, year: u64, month: u64, of_month: u64) -> u64 {
        both(day(year, month, of_month))
    }

    fn date(&self, day: u64) -> u64 {
        both(date(day))
    }

    fn move_to(&self, block: &mut [u8], list: &[u8], old: u64, new: u64) -> u64 {
        packed(move_to(block, list, old, new), 0)
    }

    fn next_change(&self, list: &[u8], day: u64) -> u64 {
        both(next_change(list, day))
    }

    fn stands(&self, appointment: &[u8], day: u64) -> u64 {
        both(stands(appointment, day))
    }
}
