//! A second reading of the rules of the authorization index, in another style than the library: a block is decoded into
//! three ordered maps, every call works on the maps, and the result is encoded again. Each right is walked by itself with
//! sets of names. Nothing here is shared with the library; the comparison holds the two against each other.

use std::collections::{BTreeMap, BTreeSet};
use std::ops::Range;
use std::sync::LazyLock;

pub mod appointments;
mod barred;
mod bearing;
mod bound;
pub mod calendar;
mod directory;
pub mod drive;
mod examined;
pub mod gen;
mod growth;
mod limits;
mod sides;
mod slips;
mod wide;

pub use appointments::{move_to, next_change, stands, Appointment};
use barred::{Bar, BAR};
pub use bearing::bears;
use bound::{member, RULE};
pub use calendar::{date, day};
pub use directory::{directory, may_by, message_by, read_by, rights_by, wide_by, write_by, ENTRIES, PART_ENTRIES};
use examined::examined;
pub use limits::{plain, rights_to};
pub use slips::{check_slip, find_slip, Slip};
pub use wide::{wide, Lists, Wide, LIST, WIDE};

/// The letters that a record counts, in their order: the rights, the denial of each, then the markers.
pub const LETTERS: [u8; 10] = *b"MRUPmrupXN";
/// How many of the letters are rights.
pub const RIGHTS: usize = 4;
/// The mask of all rights.
pub const ALL: u64 = (1 << RIGHTS) - 1;
/// Which of the letters are denials: one for each right, in the order of the rights.
pub const DENIALS: Range<usize> = RIGHTS..2 * RIGHTS;
/// Which of them are markers: X, which makes a group exclusive, and N, by which a membership is passed over for that.
pub const MARKERS: Range<usize> = 2 * RIGHTS..LETTERS.len();
pub const X: usize = MARKERS.start;
pub const N: usize = X + 1;
/// The profiles of a question: in the strict one a denial wins that is reached as a grant would be.
pub const ORDINARY: u64 = 0;
pub const STRICT: u64 = 1;
/// Names are below this number.
pub const NAMES: u16 = 1024;
/// How many records a chain may have.
pub const CHAIN: usize = 32;

/// The bytes of the header.
pub const HEADER: usize = 16;
/// The bytes of a record, and where its counts begin: key, id and counts have 16 bits each.
pub const RECORD: usize = COUNTS + 2 * LETTERS.len();
pub const COUNTS: usize = 4;
/// How many records the longest block has room for, and its bytes.
pub const ROOM: usize = 2048;
pub const GREATEST: usize = HEADER + ROOM * RECORD;

/// Where the numbers of M records examined begin in the value of a full question, behind the rights: the user's, then the
/// object's; and their bits.
const EXAMINED: [u32; 2] = [RIGHTS as u32, RIGHTS as u32 + EXAMINED_BITS];
const EXAMINED_BITS: u32 = 14;

/// The greatest number of a record that can be asked for by its number.
pub const LAST: u64 = 65_535;

/// The bytes of a message, where its halves begin, and the bytes of each: key, id and mask.
pub const MESSAGE: usize = HALVES + 2 * HALF;
pub const HALVES: usize = 2;
pub const HALF: usize = 5;
/// The flags of a message, all of them: one for each half, 1 for the previous one and 2 for the new one.
pub const FLAGS: u8 = 1 | 2;
/// The first byte of a message has the kind in these bits. From these on, for the previous half and for the new one, it has a
/// bit for each marker, in their order.
pub const KIND: u8 = 15;
pub const MARKED: [u32; 2] = [6, 4];

/// The parts of a block in their order. A kind's number is one more.
pub const M: usize = 0;
pub const P: usize = 1;
pub const F: usize = 2;
pub const KINDS: usize = 3;

/// The counts of one record, in letter order.
pub type Counts = [u16; LETTERS.len()];

/// The records of one kind, by key and id.
pub type Part = BTreeMap<(u16, u16), Counts>;

/// A decoded block: how long it is, and its three parts, M, P, F.
#[derive(Clone, Debug, PartialEq, Eq)]
pub struct Index {
    pub length: usize,
    pub parts: [Part; KINDS],
}

fn word(bytes: &[u8], at: usize) -> u16 {
    u16::from_le_bytes([bytes[at], bytes[at + 1]])
}

/// Whether the block is as long as a block may be.
fn sized(block: &[u8]) -> bool {
    (HEADER..=GREATEST).contains(&block.len())
}

/// The letters that a record of the kind may count, by their numbers: a denial in P only, a marker in M only.
fn lettered(kind: usize) -> impl Iterator<Item = usize> {
    let denials = DENIALS.filter(move |_| kind == P);
    let markers = MARKERS.filter(move |_| kind == M);
    (0..RIGHTS).chain(denials).chain(markers)
}

/// Whether a record of the kind may have these counts: some letter, and none that the kind may not count.
fn fair(kind: usize, counts: &Counts) -> bool {
    let counted = |k: &usize| counts[*k] > 0;
    let (all, own) = ((0..LETTERS.len()).filter(counted).count(), lettered(kind).filter(counted).count());
    all > 0 && own == all
}

impl Index {
    pub fn empty(length: usize) -> Index {
        Index { length, parts: Default::default() }
    }

    pub fn records(&self) -> usize {
        self.parts.iter().map(|p| p.len()).sum()
    }

    /// The part of a record by its number, counted through all parts.
    pub fn part_of_record(&self, number: u64) -> Option<usize> {
        let mut parts = self.parts.iter().enumerate().flat_map(|(kind, part)| part.keys().map(move |_| kind));
        parts.nth(usize::try_from(number).ok()?)
    }

    pub fn room(&self) -> usize {
        (self.length - HEADER) / RECORD
    }

    /// The bytes of the block. What a good block is, follows: the one encoding of its records.
    pub fn encode(&self) -> Vec<u8> {
        let mut words: Vec<u16> = self.parts.iter().map(|p| p.len() as u16).collect();
        words.push(0);
        let mut offset = HEADER;
        words.push(offset as u16);
        for part in &self.parts {
            offset += RECORD * part.len();
            words.push(offset as u16);
        }
        for part in &self.parts {
            for (&(key, id), counts) in part {
                words.extend([key, id]);
                words.extend(counts);
            }
        }
        let mut bytes: Vec<u8> = words.iter().flat_map(|w| w.to_le_bytes()).collect();
        bytes.resize(self.length, 0);
        bytes
    }

    /// The block's records, or the number that refuses it: 1 or 2.
    pub fn decode(block: &[u8]) -> Result<Index, u32> {
        if !sized(block) {
            return Err(1);
        }
        let mut index = Index::empty(block.len());
        let mut at = HEADER;
        for (kind, part) in index.parts.iter_mut().enumerate() {
            let (mut last, mut records) = (None, Vec::new());
            for _ in 0..word(block, 2 * kind) {
                if at + RECORD > block.len() {
                    return Err(2);
                }
                let name = (word(block, at), word(block, at + 2));
                let mut counts = Counts::default();
                for (k, count) in counts.iter_mut().enumerate() {
                    *count = word(block, at + COUNTS + 2 * k);
                }
                if name.0 >= NAMES || name.1 >= NAMES || last >= Some(name) || !fair(kind, &counts) {
                    return Err(2);
                }
                last = Some(name);
                records.push((name, counts));
                at += RECORD;
            }
            *part = records.into_iter().collect();
        }
        if index.encode() == block {
            Ok(index)
        } else {
            Err(2)
        }
    }
}

/// make: the number, and the block then.
pub fn make(block: &[u8]) -> (u32, Vec<u8>) {
    if !sized(block) {
        return (1, block.to_vec());
    }
    (0, Index::empty(block.len()).encode())
}

/// A half of a message: its record, and the mask of its letters, with the markers behind those that the byte has.
struct Half {
    name: (u16, u16),
    byte: u8,
    mask: u64,
}

impl Half {
    fn new(name: (u16, u16), byte: u8, markers: u8) -> Half {
        Half { name, byte, mask: u64::from(byte) | u64::from(markers) << MARKERS.start }
    }
}

fn half(bytes: &[u8], markers: u8) -> Half {
    Half::new((word(bytes, 0), word(bytes, 2)), bytes[HALF - 1], markers)
}

/// The markers of a half by its number, a bit for each, in the first byte of a message.
fn markers(first: u8, half: usize) -> u8 {
    first >> MARKED[half] & ((1 << MARKERS.len()) - 1)
}

/// Whether a message with these flags has a half, by its number: 0 is the previous one, 1 the new one.
fn has(flags: u8, half: usize) -> bool {
    flags >> half & 1 == 1
}

fn letters(mask: u64) -> impl Iterator<Item = usize> {
    (0..LETTERS.len()).filter(move |k| mask >> k & 1 == 1)
}

/// Counts of 1 for the letters of a mask.
fn once(mask: u64) -> Counts {
    let mut counts = Counts::default();
    letters(mask).for_each(|k| counts[k] = 1);
    counts
}

/// The part of a kind's number.
fn part_of(kind: u64) -> Result<usize, u32> {
    (1..=KINDS as u64).contains(&kind).then(|| kind as usize - 1).ok_or(3)
}

/// The part that a message speaks of, by its first two bytes: a kind, the flags of some half, and for each half one marker at most,
/// where it is there and of memberships.
fn begun(first: u8, flags: u8) -> Result<usize, u32> {
    let kind = part_of((first & KIND).into())?;
    let marked = |side| markers(first, side).count_ones() <= u32::from(kind == M && has(flags, side));
    ((1..=FLAGS).contains(&flags) && (0..2).all(marked)).then_some(kind).ok_or(3)
}

/// What a message says: the part that it speaks of, and record by record what it takes away, and then what it adds.
struct Said {
    kind: usize,
    halves: [Vec<Half>; 2],
}

/// How a message is read: what it says, or 3.
type Reading = fn(&[u8]) -> Result<Said, u32>;

fn plain_message(message: &[u8]) -> Result<Said, u32> {
    if message.len() != MESSAGE {
        return Err(3);
    }
    let (first, flags) = (message[0], message[1]);
    let mut said = Said { kind: begun(first, flags)?, halves: Default::default() };
    for (side, bytes) in message[HALVES..].chunks(HALF).enumerate() {
        if has(flags, side) {
            said.halves[side].push(half(bytes, markers(first, side)));
        } else if bytes != [0; HALF] {
            return Err(3);
        }
    }
    Ok(said)
}

/// Takes a half away from its record.
fn take(index: &mut Index, kind: usize, half: &Half) -> Result<(), u32> {
    let part = &mut index.parts[kind];
    let counts = part.get_mut(&half.name).ok_or(6u32)?;
    if letters(half.mask).any(|k| counts[k] == 0) {
        return Err(6);
    }
    letters(half.mask).for_each(|k| counts[k] -= 1);
    if *counts == Counts::default() {
        part.remove(&half.name);
    }
    Ok(())
}

/// Adds a half to its record.
fn add(index: &mut Index, kind: usize, half: &Half) -> Result<(), u32> {
    let full = index.records() == index.room();
    let part = &mut index.parts[kind];
    match part.get_mut(&half.name) {
        Some(counts) => {
            if letters(half.mask).any(|k| counts[k] == u16::MAX) {
                return Err(7);
            }
            letters(half.mask).for_each(|k| counts[k] += 1);
        }
        None => {
            if full {
                return Err(8);
            }
            part.insert(half.name, once(half.mask));
        }
    }
    Ok(())
}

fn apply(index: &mut Index, Said { kind, halves }: &Said) -> Result<(), u32> {
    let all = || halves.iter().flatten();
    if all().any(|h| h.name.0 >= NAMES || h.name.1 >= NAMES) {
        return Err(4);
    }
    if all().any(|h| h.byte == 0 || (*kind != P && u64::from(h.byte) > ALL)) {
        return Err(5);
    }
    halves[0].iter().try_for_each(|half| take(index, *kind, half))?;
    halves[1].iter().try_for_each(|half| add(index, *kind, half))
}

/// The number of a message that is read so, and the block then. Where it is refused, what was done to the maps is forgotten.
fn sent(block: &[u8], message: &[u8], read: Reading) -> (u32, Vec<u8>) {
    let outcome = Index::decode(block).and_then(|mut index| apply(&mut index, &read(message)?).map(|()| index));
    match outcome {
        Ok(index) => (0, index.encode()),
        Err(number) => (number, block.to_vec()),
    }
}

/// message: the number, and the block then.
pub fn message(block: &[u8], message: &[u8]) -> (u32, Vec<u8>) {
    sent(block, message, plain_message)
}

fn carries(counts: &Counts, right: usize) -> bool {
    counts[right] > 0 && counts[right + RIGHTS] == 0
}

/// Whether the right is given, and a denial beside it takes it away.
fn denied(counts: &Counts, right: usize) -> bool {
    counts[right] > 0 && counts[right + RIGHTS] > 0
}

/// The names that a chain of at most `limit` M records leads to from `start`, each record with the right.
fn reached(memberships: &Part, start: u16, right: usize, limit: usize) -> BTreeSet<u16> {
    led(memberships, start, limit, |counts| carries(counts, right))
}

/// The same of any M records that are such.
fn led(memberships: &Part, start: u16, limit: usize, such: impl Fn(&Counts) -> bool) -> BTreeSet<u16> {
    let links: Vec<(u16, u16)> = memberships.iter().filter(|(_, c)| such(c)).map(|(&n, _)| n).collect();
    let mut names = BTreeSet::from([start]);
    for _ in 0..limit {
        let next: Vec<u16> = links.iter().filter(|(key, _)| names.contains(key)).map(|&(_, id)| id).collect();
        let before = names.len();
        names.extend(next);
        if names.len() == before {
            break;
        }
    }
    names
}

/// The F records that bind an object: those whose key is the object, or a group that the object is a member of.
fn binding(index: &Index, object: u16) -> impl Iterator<Item = (u16, &Counts)> {
    let binds = move |name: u16| name == object || index.parts[M].get(&(object, name)).is_some_and(member);
    index.parts[F].iter().map(|(&(key, _), counts)| (key, counts)).filter(move |&(key, _)| binds(key))
}

/// Whether each of them has the right.
fn passes(index: &Index, object: u16, right: usize) -> bool {
    binding(index, object).all(|(_, counts)| carries(counts, right))
}

/// Whether a P record with such counts joins one of the user's names and one of the object's, to which 0 belongs.
fn joins(index: &Index, users: &BTreeSet<u16>, objects: &BTreeSet<u16>, right: usize, such: fn(&Counts, usize) -> bool) -> bool {
    let on = |g: u16| g == 0 || objects.contains(&g);
    index.parts[P].iter().any(|(&(g, s), c)| such(c, right) && on(g) && users.contains(&s))
}

/// Whether a P record with such counts is reached for the right from both sides, over chains of at most `limit` records.
fn meets(index: &Index, user: u16, object: u16, right: usize, limit: usize, such: fn(&Counts, usize) -> bool) -> bool {
    let [users, objects] = [user, object].map(|start| reached(&index.parts[M], start, right, limit));
    joins(index, &users, &objects, right, such)
}

fn granted(index: &Index, user: u16, object: u16, right: usize, limit: usize) -> bool {
    meets(index, user, object, right, limit, carries)
}

/// Whether a right is held, over chains of at most `limit` records. The filters know no limit.
fn holds(index: &Index, user: u16, object: u16, right: usize, limit: usize) -> bool {
    let open = || RULE.within(limit).open(&index.parts[M], user, object);
    passes(index, object, right) && granted(index, user, object, right, limit) && open()
}

/// A name that the caller gave.
fn name_of(number: u64) -> Result<u16, u32> {
    (number < NAMES.into()).then_some(number as u16).ok_or(4)
}

/// What a question is about: the records, the user and the object, and whether the profile is the strict one.
struct Question {
    index: Index,
    names: [u16; 2],
    strict: bool,
}

/// A question with all that the caller gave; or the number that refuses it.
fn question(block: &[u8], user: u64, object: u64, request: u64, profile: u64) -> Result<Question, u32> {
    let index = Index::decode(block)?;
    let names = [name_of(user)?, name_of(object)?];
    if request == 0 || request > ALL {
        return Err(5);
    }
    match profile {
        ORDINARY | STRICT => Ok(Question { index, names, strict: profile == STRICT }),
        _ => Err(15),
    }
}

/// The rights that a user holds on an object, of those requested, over chains of at most `limit` records: in the strict profile those
/// that nothing bars.
fn held(Question { index, names, strict }: &Question, request: u64, limit: usize) -> u32 {
    let ([user, object], bar) = (*names, Bar { most: [limit; 2], ..BAR });
    let held = (0..RIGHTS).filter(|&right| holds(index, user, object, right, limit));
    let kept = held.filter(|&right| !(*strict && bar.bars(index, *names, right)));
    kept.map(|right| 1 << right).sum::<u32>() & request as u32
}

/// The full question: the number, and the rights held of those requested, with the numbers of M records examined above them.
pub fn rights(block: &[u8], user: u64, object: u64, request: u64, profile: u64) -> (u32, u32) {
    match question(block, user, object, request, profile) {
        Ok(question) => {
            let numbers = question.names.map(|start| examined(&question.index.parts[M], start));
            let above: u32 = numbers.iter().zip(EXAMINED).map(|(number, at)| number << at).sum();
            (0, held(&question, request, CHAIN) + above)
        }
        Err(number) => (number, 0),
    }
}

/// The numbers of M records examined that the value of a full question tells: the user's, then the object's.
fn numbers(value: u32) -> [u32; 2] {
    EXAMINED.map(|at| value >> at & ((1 << EXAMINED_BITS) - 1))
}

/// The short question: the number, and 1 for yes or 0 for no.
pub fn may(block: &[u8], user: u64, object: u64, request: u64, profile: u64) -> (u32, u32) {
    match question(block, user, object, request, profile) {
        Ok(question) => (0, (u64::from(held(&question, request, CHAIN)) == request).into()),
        Err(number) => (number, 0),
    }
}

/// The text of a set.
pub fn text(set: &BTreeMap<u16, Counts>) -> Vec<u8> {
    let record = |(id, counts): (&u16, &Counts)| {
        let pieces = counts.iter().zip(LETTERS).map(|(&n, letter)| match n {
            0 => String::new(),
            1 => (letter as char).to_string(),
            n => format!("{}{n}", letter as char),
        });
        format!("{id};{}", pieces.collect::<String>())
    };
    set.iter().map(record).collect::<Vec<_>>().join(";").into_bytes()
}

fn set_of(part: &Part, key: u16) -> BTreeMap<u16, Counts> {
    part.range((key, 0)..=(key, u16::MAX)).map(|(&(_, id), &c)| (id, c)).collect()
}

fn located(block: &[u8], kind: u64, key: u64) -> Result<(Index, usize, u16), u32> {
    let index = Index::decode(block)?;
    let kind = part_of(kind)?;
    Ok((index, kind, name_of(key)?))
}

/// write: the number, the length of the text, and the output buffer then.
pub fn write(block: &[u8], kind: u64, key: u64, out: &[u8]) -> (u32, u32, Vec<u8>) {
    let mut after = out.to_vec();
    match located(block, kind, key) {
        Err(number) => (number, 0, after),
        Ok((index, kind, key)) => {
            let text = text(&set_of(&index.parts[kind], key));
            if text.len() > out.len() {
                return (10, 0, after);
            }
            after[..text.len()].copy_from_slice(&text);
            (0, text.len() as u32, after)
        }
    }
}

/// The set that a text is of: it is split at the semicolons, read loosely, and then written again, which must give the same
/// text. So a leading zero, a count of 1 or a letter out of order is refused without a rule for each.
pub fn parse(text: &[u8], kind: usize) -> Option<BTreeMap<u16, Counts>> {
    let mut set = BTreeMap::new();
    if text.is_empty() {
        return Some(set);
    }
    let words: Vec<&str> = std::str::from_utf8(text).ok()?.split(';').collect();
    for pair in words.chunks(2) {
        let [id, pieces] = pair else { return None };
        let id: u16 = id.parse().ok().filter(|&id| id < NAMES)?;
        let mut counts = Counts::default();
        let mut rest = *pieces;
        while let Some(letter) = rest.bytes().next() {
            let k = LETTERS.iter().position(|&l| l == letter)?;
            let digits = rest[1..].bytes().take_while(u8::is_ascii_digit).count();
            counts[k] = if digits == 0 { 1 } else { rest[1..=digits].parse().ok()? };
            rest = &rest[1 + digits..];
        }
        if !fair(kind, &counts) || set.insert(id, counts).is_some() {
            return None;
        }
    }
    (self::text(&set) == text).then_some(set)
}

/// Each beginning of an id as it is written, with the greatest id that begins so.
static IDS: LazyLock<BTreeMap<Vec<u8>, u16>> = LazyLock::new(|| {
    let mut ids = BTreeMap::new();
    for id in 0..NAMES {
        let written = id.to_string().into_bytes();
        ids.extend((0..=written.len()).map(|length| (written[..length].to_vec(), id)));
    }
    ids
});

/// Whether the text of some set of the kind begins so: what is missing is added, and then it must be the text of a set. To an
/// id that is what makes it the greatest that begins so, since ids rise; behind an id it is nothing, a letter, or one more
/// digit of a count.
fn begins(beginning: &[u8], kind: usize) -> bool {
    let is_text = |front: &[u8], rest: &str| parse(&[front, rest.as_bytes()].concat(), kind).is_some();
    let words: Vec<&[u8]> = beginning.split(|&byte| byte == b';').collect();
    if words.len() % 2 == 1 {
        let digits = words[words.len() - 1];
        let front = &beginning[..beginning.len() - digits.len()];
        IDS.get(digits).is_some_and(|id| is_text(front, &format!("{id};M")))
    } else {
        ["", "M", "0"].iter().any(|rest| is_text(beginning, rest))
    }
}

/// The place of a text: the length of its longest beginning that is also a beginning of the text of some set of the kind. What
/// is shorter than such a beginning is one too, so the longest is found by halves.
pub fn place(text: &[u8], kind: usize) -> usize {
    let lengths: Vec<usize> = (1..=text.len()).collect();
    lengths.partition_point(|&length| begins(&text[..length], kind))
}

/// read: the number, how many records the set has or the place where its text is wrong, and the block then.
pub fn read(block: &[u8], kind: u64, key: u64, text: &[u8]) -> (u32, u32, Vec<u8>) {
    let found = located(block, kind, key).map_err(|number| (number, 0));
    let outcome = found.and_then(|(mut index, kind, key)| {
        let set = parse(text, kind).ok_or_else(|| (9, place(text, kind) as u32))?;
        index.parts[kind].retain(|&(k, _), _| k != key);
        if index.records() + set.len() > index.room() {
            return Err((8, 0));
        }
        index.parts[kind].extend(set.iter().map(|(&id, &counts)| ((key, id), counts)));
        Ok((set.len() as u32, index.encode()))
    });
    match outcome {
        Ok((records, block)) => (0, records, block),
        Err((number, value)) => (number, value, block.to_vec()),
    }
}

/// tested: 0 for a good block, else the number that refuses it.
pub fn tested(block: &[u8]) -> u32 {
    Index::decode(block).map_or_else(|number| number, |_| 0)
}

/// So many bytes of any block from a place on, with zeros after its end.
fn padded<const N: usize>(block: &[u8], at: usize) -> [u8; N] {
    let mut bytes = [0; N];
    bytes.iter_mut().zip(block.iter().skip(at)).for_each(|(to, &from)| *to = from);
    bytes
}

/// size: the number, and how many records of the kind the header says there are. The block may be any bytes.
pub fn size(block: &[u8], kind: u64) -> (u32, u32) {
    let header: [u8; HEADER] = padded(block, 0);
    part_of(kind).map_or_else(|number| (number, 0), |part| (0, word(&header, 2 * part).into()))
}

/// The bytes of a record of any block by its number, counted through all parts; zeros where the number is too great.
fn numbered(block: &[u8], number: u64) -> [u8; RECORD] {
    if number > LAST {
        return [0; RECORD];
    }
    padded(block, HEADER + RECORD * number as usize)
}

/// record: the number, which is 0 for every record, and its key and id side by side.
pub fn record(block: &[u8], number: u64) -> (u32, u32) {
    let [key, key_high, id, id_high, ..] = numbered(block, number);
    (0, u32::from_le_bytes([key, key_high, id, id_high]))
}

/// count: the number, which is 0 for every record and letter, and the count.
pub fn count(block: &[u8], number: u64, letter: u64) -> (u32, u32) {
    let counts = numbered(block, number)[COUNTS..].to_vec();
    let count = counts.chunks(2).enumerate().find(|&(k, _)| k as u64 == letter);
    (0, count.map_or(0, |(_, bytes)| word(bytes, 0).into()))
}

/// What the program `standing` prints for an input.
pub fn standing(input: &[u8]) -> Vec<u8> {
    let mut block = make(&[0; GREATEST]).1;
    let mut printed = Vec::new();
    for (n, piece) in input.chunks(MESSAGE).enumerate() {
        let (number, after) = message(&block, piece);
        block = after;
        if number != 0 {
            printed.extend(format!("message {} refused {number}\n", n + 1).bytes());
        }
    }
    let index = Index::decode(&block).expect("a good block");
    for (part, letter) in index.parts.iter().zip("MPF".chars()) {
        let keys: BTreeSet<u16> = part.keys().map(|&(key, _)| key).collect();
        for key in keys {
            printed.extend(format!("{letter}{key} ").bytes());
            printed.extend(text(&set_of(part, key)));
            printed.push(b'\n');
        }
    }
    printed
}

#[cfg(test)]
mod appointed;
#[cfg(test)]
mod borne;
#[cfg(test)]
mod limited;
#[cfg(test)]
mod marked;
#[cfg(test)]
mod places;
#[cfg(test)]
mod slipped;
#[cfg(test)]
mod strictly;
#[cfg(test)]
mod tests;
#[cfg(test)]
mod widely;
