//! Shows that the comparison can find a fault: plants one fault at a time in a copy of the plain program, which stands where
//! the library stands, and runs the comparison on it. Every fault must be caught, and by a wrong answer: a program that stops is
//! not enough. Run it in `rust/`: faults [WORDS], where only faults are planted that have the words in their names, or `limits` for
//! those of limits, or `bearing` for those of what bears. It prints in which case each was caught.

use std::fs;
use std::path::{Path, PathBuf};
use std::process::{Command, Stdio};

mod appointments;
mod bearing;
mod days;
mod limits;
mod markers;
mod profiles;
mod slips;
mod wide;

/// What the fault is, the text in plain/src, and what is put in its place.
type Fault = (&'static str, &'static str, &'static str);

/// The faults but for those of markers, of profiles, of slips, of limits, of what bears, of wide messages, of days and of appointments.
const FAULTS: &[Fault] = &[
    ("a block that is a byte too short is one that is not good", "if b.len() < HEADER || b.len() > GREATEST {\n        return Err(1);\n    }\n    let at", "if b.len() + 1 == HEADER {\n        return Err(2);\n    }\n    if b.len() < HEADER || b.len() > GREATEST {\n        return Err(1);\n    }\n    let at"),
    ("a block that is a byte too long is taken", "b.len() > GREATEST {\n        return 1;\n    }\n    b.fill(0);", "b.len() > GREATEST + 1 {\n        return 1;\n    }\n    b.fill(0);"),
    ("bytes after the end are not looked at", ".fold(0, |all, &x| all | x)", ".fold(0, |all, &x| all | u8::from(x == 255))"),
    ("a record may stand twice", "falls += u32::from(spot <= last);", "falls += u32::from(spot < last);"),
    ("a record may stand out of order", "falls <= first.into()", "falls <= 1"),
    ("a key of 1024 is taken", "        names |= spot;\n", "        names |= if spot >> 16 == NAMES as u32 { spot & 0xFFFF } else { spot };\n"),
    ("an id above 1023 is taken", "!((NAMES as u32 - 1) << 16 | (NAMES as u32 - 1))", "!((NAMES as u32 - 1) << 16 | 0xFFFF)"),
    ("the last records of a part are not tested", "rest.iter().for_each(look);", "rest.iter().take(0).for_each(look);"),
    ("small letters may stand in M and F", " && denials == 0", ""),
    ("a record may count nothing", " && empty == 0", ""),
    ("the zero at 6 is not looked at", "(0..5).fold(0, |differ, k|", "(1..5).fold(0, |differ, k|"),
    ("an update only adds", "        let number = take(b, keys, kind, from, less);", "        let number = if new.is_some() { 0 } else { take(b, keys, kind, from, less) };"),
    ("a refused message leaves the take applied", "                add(b, keys, kind, from, less);\n", ""),
    ("a record with no counts stays", "    if left == 0 {\n        shift(b, keys, kind, want >> NAME_BITS, i + 1, i);\n    }", "    if left == usize::MAX {\n        shift(b, keys, kind, want >> NAME_BITS, i + 1, i);\n    }"),
    ("old bytes stay after the end", "        b[end - RECORD * (from - to)..end].fill(0);", "        b[end - RECORD * (from - to)..end - 5].fill(0);"),
    ("a letter without a count may be taken", "word(b, count_at(i, k)) == 0)", "word(b, count_at(i, k)) > MOST)"),
    ("a count wraps", "mask >> k & 1 == 1 && word(b, count_at(i, k)) == MOST", "mask >> k & 1 == 1 && word(b, count_at(i, k)) == MOST - 1"),
    ("the last place is not given", "if bounds(b)[3] == (b.len() - HEADER) / RECORD {", "if bounds(b)[3] + 1 >= (b.len() - HEADER) / RECORD {"),
    ("a mask of 16 is taken for M", "self.kind != P && bytes[half] > ALL", "self.kind != P && bytes[half] > ALL + 1"),
    ("an absent half is not looked at", "(!front.there[OLD] && *halves[OLD] != [0; HALF])", "(!front.there[OLD] && halves[OLD][..MASK] != [0; MASK])"),
    ("masks are joined by or", "let more = self.before[key] & (net | net << RIGHTS) & !self.marks[id];", "let more = (self.before[key] | net | net << RIGHTS) & !self.marks[id];"),
    ("the last record decides", "let more = self.before[key] & (net | net << RIGHTS) & !self.marks[id];", "let side = |half: u8| if self.before[key] & half != 0 { half } else { 0 };\n            let more = (side(USER) | side(OBJECT)) & (net | net << RIGHTS) & !self.marks[id];"),
    ("a group is done at its first visit", "let more = self.before[key] & (net | net << RIGHTS) & !self.marks[id];", "let side = |half: u8| if self.marks[id] & half == 0 { half } else { 0 };\n            let more = (side(USER) | side(OBJECT)) & self.before[key] & (net | net << RIGHTS);"),
    ("marks are updated within a round", "let more = self.before[key] & (net | net << RIGHTS) & !self.marks[id];", "let more = self.marks[key] & (net | net << RIGHTS) & !self.marks[id];"),
    ("a name that grew is left out of the list", "&self.grown[..self.names]", "&self.grown[..self.names.max(1) - 1]"),
    ("a name whose mark grew a second time is not looked at again", "(self.marks[id] == self.before[id])", "(self.marks[id] == 0)"),
    ("a mark grows once in a round", "            self.marks[id] |= more;\n", "            self.marks[id] |= if self.marks[id] == self.before[id] { more } else { 0 };\n"),
    ("the first record of a name is not looked at", "let (mut i, end) = look.span(name);", "let (first, end) = look.span(name);\n            let mut i = end.min(first + 1);"),
    ("the last record of a name is not looked at", "listed + usize::from(end - i)", "listed + usize::from(end - i).saturating_sub(1)"),
    ("the fifth record of a name is not looked at", "if at >= after {", "if at > 0 {"),
    ("only the last record of a name is looked at", "start = if key == last { start } else { i };", "start = i;"),
    ("the first M record is not looked at", "memberships.iter().enumerate()", "memberships.iter().enumerate().skip(1)"),
    ("the last M record is not looked at", "memberships.iter().enumerate()", "memberships.iter().enumerate().take(memberships.len() - 1)"),
    ("what a user brings and what an object brings are one", "self.before[key] & (net | net << RIGHTS)", "(self.before[key] | self.before[key] >> RIGHTS) & (net | net << RIGHTS)"),
    ("a user who is the object has no mark", "walk.marks[object] |= OBJECT;", "walk.marks[object] = OBJECT;"),
    ("a chain may have one record more", "    for _ in 0..CHAIN {", "    for _ in 0..CHAIN + 1 {"),
    ("a chain may have one record less", "    for _ in 0..CHAIN {", "    for _ in 0..CHAIN - 1 {"),
    ("name 0 does not count", "    marks[0] |= OBJECT;\n", ""),
    ("denials are not looked at", " & !mask(record, SMALLS)", ""),
    ("the denial of update is forgotten", " & !mask(record, SMALLS)", " & !(mask(record, SMALLS) & 11)"),
    ("key and id of a grant change places", "marks[word(record, 0) % NAMES] >> RIGHTS & marks[word(record, ID) % NAMES]\n", "marks[word(record, ID) % NAMES] >> RIGHTS & marks[word(record, 0) % NAMES]\n"),
    ("the search ends at the first grant", "            if held == limit {", "            if held != 0 {"),
    ("only the first filter found binds", "    binding.fold(", "    binding.take(1).fold("),
    ("only the first filter of each name binds", "take_while(|&record| word(record, 0) == name)", "take_while(|&record| word(record, 0) == name).take(1)"),
    ("only the object's own filters bind", "once(object).chain(groups)", "once(object).chain(groups.take(0))"),
    ("the object's own filters are skipped", "std::iter::once(object).chain(groups).flat_map", "groups.flat_map"),
    ("the filters of the first group are skipped", "own.iter().filter(", "own.iter().skip(1).filter("),
    ("a group binds only by a membership with all rights", "own.iter().filter(|&record| member(record)).map(", "own.iter().filter(|&record| mask(record, COUNTS) == ALL).map("),
    ("the groups' own groups bind too", "filter(f, look, object, &m[start.into()..end.into()])", "filter(f, look, object, &m.iter().copied().filter(|group| word(group, 0) == object || m[start.into()..end.into()].iter().any(|own| word(own, ID) == word(group, 0))).collect::<Vec<_>>())"),
    ("the filters of name 0 bind always", "std::iter::once(object).chain(groups)", "[0, object].into_iter().chain(groups)"),
    ("the filters are skipped", "filter(f, look, object, &m[start.into()..end.into()]) & request", "request"),
    ("the request is not applied", "filter(f, look, object, &m[start.into()..end.into()]) & request", "filter(f, look, object, &m[start.into()..end.into()])"),
    ("a record is examined in every round once its key is reached", "            let listed = self.begin::<COUNTED>(look, &mut list);", "            let listed = self.begin::<false>(look, &mut list);\n            (0..NAMES).map(|name| (name, look.span(name))).for_each(|(name, span)| self.examined += ONCE[usize::from(self.marks[name])] * u32::from(span.1 - span.0));"),
    ("a record is examined once at most", "let grew = self.before[name] ^ self.marks[name];", "let grew = [USER, OBJECT].iter().filter(|&half| self.before[name] & half == 0).fold(0, |grew, half| grew | self.marks[name] & half);"),
    ("a record is not examined for the last right of its key", "let grew = self.before[name] ^ self.marks[name];", "let grew = [USER, OBJECT].iter().filter(|&half| (self.before[name] & half).count_ones() != RIGHTS as u32 - 1).fold(0, |grew, half| grew | (self.before[name] ^ self.marks[name]) & half);"),
    ("a record is examined once for each right that comes", "once[grew] = (user as u32) << EXAMINED[0] | (object as u32) << EXAMINED[1];", "once[grew] = (user as u32 * (grew as u8 & USER).count_ones()) << EXAMINED[0] | (object as u32 * (grew as u8 & OBJECT).count_ones()) << EXAMINED[1];"),
    ("only records that carry a right on are examined", "            let listed = self.begin::<COUNTED>(look, &mut list);", "            let before = self.before;\n            let listed = self.begin::<false>(look, &mut list);\n            for record in list[..listed].iter().map(|&i| &memberships[usize::from(i)]) {\n                let (key, id, net) = (word(record, 0), word(record, ID), mask(record, COUNTS));\n                let on = self.marks[key] & (net | net << RIGHTS);\n                self.examined += ONCE[usize::from(before[key] ^ self.marks[key])] & ONCE[usize::from(on)];\n            }"),
    ("only records that bring a new right are examined", "            let listed = self.begin::<COUNTED>(look, &mut list);", "            let before = self.before;\n            let listed = self.begin::<false>(look, &mut list);\n            for record in list[..listed].iter().map(|&i| &memberships[usize::from(i)]) {\n                let (key, id, net) = (word(record, 0), word(record, ID), mask(record, COUNTS));\n                let on = self.marks[key] & (net | net << RIGHTS) & !self.marks[id];\n                self.examined += ONCE[usize::from(before[key] ^ self.marks[key])] & ONCE[usize::from(on)];\n            }"),
    ("round 0 does not count", "        for _ in 0..CHAIN {\n            let listed = self.begin::<COUNTED>(look, &mut list);", "        for round in 0..CHAIN {\n            let listed = self.begin::<COUNTED>(look, &mut list);\n            self.examined *= u32::from(round > 0);"),
    ("round 31 does not count", "        for _ in 0..CHAIN {\n            let listed = self.begin::<COUNTED>(look, &mut list);", "        for round in 0..CHAIN {\n            let listed = if round + 1 < CHAIN { self.begin::<COUNTED>(look, &mut list) } else { self.begin::<false>(look, &mut list) };"),
    ("round 32 counts", "            self.look(memberships, &list[..listed]);\n        }\n", "            self.look(memberships, &list[..listed]);\n        }\n        self.begin::<COUNTED>(look, &mut list);\n"),
    ("names are counted that have records", "* u32::from(end - i) }", "* u32::from(end > i) }"),
    ("a name without records is counted for one", "* u32::from(end - i) }", "* u32::from((end - i).max(1)) }"),
    ("the records of name 0 are examined for every object", "walk.go::<COUNTED>(m, look);", "walk.go::<COUNTED>(m, look);\n    walk.examined += if walk.marks[0] & OBJECT == 0 { ONCE[usize::from(OBJECT)] * u32::from(look.span(0).1 - look.span(0).0) } else { 0 };"),
    ("the records of name 0 are examined for no object", "let grew = self.before[name] ^ self.marks[name];", "let grew = (self.before[name] ^ self.marks[name]) & if name == 0 { USER } else { USER | OBJECT };"),
    ("the two numbers change places", "<< EXAMINED[0] | (object as u32) << EXAMINED[1]", "<< EXAMINED[1] | (object as u32) << EXAMINED[0]"),
    ("the user's number stands for the object's too", "grew as u8 & OBJECT != 0", "grew as u8 & USER != 0"),
    ("the object's number stands for the user's too", "grew as u8 & USER != 0", "grew as u8 & OBJECT != 0"),
    ("what one side examines the other does too", "[grew as u8 & USER != 0, grew as u8 & OBJECT != 0]", "[grew != 0; 2]"),
    ("a record that both sides examine in one round counts for the user alone", "grew as u8 & OBJECT != 0]", "grew as u8 & OBJECT != 0 && grew as u8 & USER == 0]"),
    ("a record is examined for a side that reached it before", "let grew = self.before[name] ^ self.marks[name];", "let grew = self.marks[name];"),
    ("a number has twelve bits", "    (held, walk.examined)\n", "    (held, walk.examined & (0xFFF << EXAMINED[0] | 0xFFF << EXAMINED[1]))\n"),
    ("nothing is examined where no right is held", "    (held, walk.examined)\n", "    (held, if held == 0 { 0 } else { walk.examined })\n"),
    ("nothing is examined where no right passes the filters", "    (held, walk.examined)\n", "    (held, if limit == 0 { 0 } else { walk.examined })\n"),
    ("nothing is examined where not all rights are requested", "    (held, walk.examined)\n", "    (held, if request < ALL { 0 } else { walk.examined })\n"),
    ("only the rights requested are walked for", "walk.go::<COUNTED>(m, look);", "walk.marks.iter_mut().for_each(|mark| *mark &= request | request << RIGHTS);\n    walk.go::<COUNTED>(m, look);"),
    ("only the rights that pass the filters are walked for", "walk.go::<COUNTED>(m, look);", "walk.marks.iter_mut().for_each(|mark| *mark &= limit | limit << RIGHTS);\n    walk.go::<COUNTED>(m, look);"),
    ("a refused question examines a record", "answer.map_or_else(|n| (n, 0), |(held, examined)|", "answer.map_or_else(|n| (n, 1 << EXAMINED[0]), |(held, examined)|"),
    ("65,537 is taken for 1", "    if user >= NAMES as u64 ||", "    let user = user % 65_536;\n    if user >= NAMES as u64 ||"),
    ("a count of 1 is written", "                if n > 1 {", "                if n > 0 {"),
    ("a text that just fits is refused", "&mut []) <= room", "&mut []) < room"),
    ("a text that fits is refused where a longer one of as many records would not", " || put_set(b, lo, hi, &mut []) <= room", ""),
    ("a text that does not fit is written where a shorter one of as many records would fit", "LONGEST * (lo..hi).len() <= room", "16 * (lo..hi).len() <= room"),
    ("a leading zero is read", "(text[start] != b'0' || *at == start + 1)", "(text[start] != b'0' || *at <= start + 2)"),
    ("a count of 1 is read", "bounded(text, &mut at, 2, MOST)?", "bounded(text, &mut at, 1, MOST)?"),
    ("ids need not rise", "        least = id + 1;", "        least = id;"),
    ("a wrong text has no place", "return (9, at as u32)", "return (9, 0)"),
    ("a wrong text has no place where the block is full", "return (9, at as u32)", "return (9, if bounds(b)[3] == (b.len() - HEADER) / RECORD { 0 } else { at as u32 })"),
    ("the place is after the wrong byte", "return (9, at as u32)", "return (9, (at + 1).min(text.len()) as u32)"),
    ("the place is the end of the text", "return (9, at as u32)", "return (9, text.len() as u32)"),
    ("the place is where the number begins", ".ok_or_else(|| begun(text, start, least, most))", ".ok_or(start)"),
    ("the place is where the letters begin", "least == NAMES {\n            return Err(at);", "least == NAMES {\n            return Err(start);"),
    ("the place is past every digit", "begun(text, start, least, most)", "start + text[start..].iter().take_while(|d| d.is_ascii_digit()).count()"),
    ("the place forgets that ids rise", "begun(text, start, least, most)", "begun(text, start, least.min(2), most)"),
    ("the place forgets that no id is above 1023", "begun(text, start, least, most)", "begun(text, start, least, MOST)"),
    ("the place is past the semicolon after id 1023", " || least == NAMES {", " {"),
    ("the place is before a digit that wants another", "(n >= least || (n > 0 && (0..10)", "(n >= least || (n > MOST && (0..10)"),
    ("the place is past a zero in front", "d.is_ascii_digit() && (at == start || n > 0))", "d.is_ascii_digit())"),
    ("half a number at the end is not read", "        Some([low]) => (*low).into(),\n", ""),
    ("a kind that is none has a size", "        1..=3 => (0, word_in(b, 2 * (kind as usize - 1))),", "        1..=4 => (0, word_in(b, 2 * (kind as usize - 1))),"),
    ("the sizes of P and F change places", "(0, word_in(b, 2 * (kind as usize - 1)))", "(0, word_in(b, 2 * [0, 2, 1][kind as usize - 1]))"),
    ("a record's number is taken by its last 16 bits", "    if number > LAST {\n        return 0;\n    }\n    let at = place(number as usize);", "    let at = place(number as u16 as usize);"),
    ("key and id change places", "word_in(b, at) | word_in(b, at + ID) << 16", "word_in(b, at + ID) | word_in(b, at) << 16"),
    ("the letter after the last is the next record's key", "number > LAST || letter >= LETTERS.len() as u64 {", "number > LAST || letter > LETTERS.len() as u64 {"),
    ("a count's record is taken by its last 16 bits", "    if number > LAST || letter >= LETTERS.len() as u64 {\n        return 0;\n    }\n    word_in(b, count_at(number as usize,", "    if letter >= LETTERS.len() as u64 {\n        return 0;\n    }\n    word_in(b, count_at(number as u16 as usize,"),
    ("the old set's room is forgotten", "if bounds(b)[3] - (hi - lo) + records >", "if bounds(b)[3] + records >"),
    ("an entry is one too far", "entries[next..=key].fill(at);\n            next = key + 1;", "entries[next..key].fill(at);\n            next = key;"),
    ("the entry of a key is the place of its last record", "            entries[next..=key].fill(at);\n", "            entries[next..=key].fill(at);\n            entries[key] = at;\n"),
    ("the part's end is left out", "        entries[next..].fill(at);", "        entries[next..NAMES].fill(at);"),
    ("the part's end is its last record", "        entries[next..].fill(at);", "        entries[next..].fill(at);\n        entries[NAMES] -= if records.is_empty() { 0 } else { RECORD as u16 };"),
    ("each part begins after the header", "        let mut next = 0;", "        at = HEADER as u16;\n        let mut next = 0;"),
    ("offsets are counted from the first record", "    let mut at = HEADER as u16;", "    let mut at = 0;"),
    ("making refuses one that is not own", "    let Ok(directory) = lent.try_into() else { return 13 };", "    if own(b, lent).is_err() {\n        return 13;\n    }\n    let Ok(directory) = lent.try_into() else { return 13 };"),
    ("making takes one that is too long", "let Ok(directory) = lent.try_into() else { return 13 };", "let Some(directory) = lent.first_chunk_mut() else { return 13 };"),
    ("making looks at the length before the block", "    let number = tested(b);\n    if number != 0 {\n        return number;\n    }\n    let Ok", "    if lent.len() != ENTRIES {\n        return 13;\n    }\n    let number = tested(b);\n    if number != 0 {\n        return number;\n    }\n    let Ok"),
    ("making writes into one that it refuses", "    let Ok(directory) = lent.try_into() else { return 13 };", "    if lent.len() != ENTRIES {\n        lent.fill(HEADER as u16);\n    }\n    let Ok(directory) = lent.try_into() else { return 13 };"),
    ("making writes though the block is not good", "        return number;\n    }\n    let Ok", "        lent.fill(HEADER as u16);\n        return number;\n    }\n    let Ok"),
    ("13 comes before 2", "    let marked = sound(b)?;\n    let directory: &Directory = lent.try_into().map_err(|_| 13u32)?;", "    let directory: &Directory = lent.try_into().map_err(|_| 13u32)?;\n    let marked = sound(b)?;"),
    ("a directory that is too long is taken", "let directory: &Directory = lent.try_into().map_err(|_| 13u32)?;", "let directory: &Directory = lent.first_chunk().ok_or(13u32)?;"),
    ("a directory that lacks its last entry is taken", "    let directory: &Directory = lent", "    if lent.len() + 1 == ENTRIES {\n        let mut whole = [word(b, HEADER - 2) as u16; ENTRIES];\n        whole[..ENTRIES - 1].copy_from_slice(lent);\n        return Ok((Box::leak(Box::new(whole)), marked));\n    }\n    let directory: &Directory = lent"),
    ("the empty directory stands for the block's own", "    let directory: &Directory = lent", "    if lent.is_empty() {\n        let mut whole = [0; ENTRIES];\n        fill(b, &mut whole);\n        return Ok((Box::leak(Box::new(whole)), marked));\n    }\n    let directory: &Directory = lent"),
    ("only the first part of a directory is tested", "directory.chunks_exact(PART).zip(parts(b))", "directory.chunks_exact(PART).zip(parts(b)).take(1)"),
    ("the last part of a directory is not tested", "directory.chunks_exact(PART).zip(parts(b))", "directory.chunks_exact(PART).zip(parts(b)).take(2)"),
    ("the first entry of P is not tested", "        if !fits(entries, records, start) {", "        let first = if entries.as_ptr() == directory[PART..].as_ptr() { start as u16 } else { entries[0] };\n        if !fits(&[&[first], &entries[1..]].concat(), records, start) {"),
    ("the last entry of a part is not tested", " && usize::from(entries[NAMES]) == at", ""),
    ("entries of P may fall", "        if !fits(entries, records, start) {", "        let mut risen = entries.to_vec();\n        if entries.as_ptr() == directory[PART..].as_ptr() {\n            (1..PART).for_each(|at| risen[at] = risen[at].max(risen[at - 1]));\n        }\n        if !fits(&risen, records, start) {"),
    ("an entry may be too great", "u16::from(usize::from(entries[key]) > at) | ", ""),
    ("an entry may be too small", " | u16::from(usize::from(entries[key + 1]) < end)", ""),
    ("an entry may be less than a record too great", "usize::from(entries[key]) > at", "usize::from(entries[key]) >= end"),
    ("an entry may be less than a record too small", "usize::from(entries[key + 1]) < end", "usize::from(entries[key + 1]) <= at"),
    ("an entry may be a record too great", "usize::from(entries[key]) > at", "usize::from(entries[key]) > end"),
    ("a wrong directory is put right and taken", "    own(b, lent)?;\n    lent.try_into().map_err(|_| 13)", "    sound(b)?;\n    let directory: &mut Directory = lent.try_into().map_err(|_| 13u32)?;\n    fill(b, directory);\n    Ok(directory)"),
    ("a wrong directory is put right and refused", "    own(b, lent)?;\n    lent.try_into().map_err(|_| 13)", "    if own(b, lent) == Err(13) && lent.len() == ENTRIES {\n        fill(b, (&mut *lent).try_into().expect(\"its length\"));\n        return Err(13);\n    }\n    own(b, lent)?;\n    lent.try_into().map_err(|_| 13)"),
    ("3, 4 and 5 of a message come before 13", "    own_mut(b, lent).map_or_else(|number| number, |directory| message_with(b, directory, m))", "    match own_mut(b, lent) {\n        Err(13) => match message_with(&mut b.to_vec(), &mut crate::Search, m) {\n            early @ 3..=5 => early,\n            _ => 13,\n        },\n        Err(number) => number,\n        Ok(directory) => message_with(b, directory, m),\n    }"),
    ("6, 7 and 8 of a message come before 13", "    own_mut(b, lent).map_or_else(|number| number, |directory| message_with(b, directory, m))", "    match own_mut(b, lent) {\n        Err(13) => match message_with(&mut b.to_vec(), &mut crate::Search, m) {\n            late @ 6..=8 => late,\n            _ => 13,\n        },\n        Err(number) => number,\n        Ok(directory) => message_with(b, directory, m),\n    }"),
    ("3 and 4 of a read come before 13", "    own_mut(b, lent).map_or_else(|number| (number, 0), |directory| read_with(", "    let early = sound(b).and_then(|_| crate::set_bounds(b, &crate::Search, kind, key));\n    early.and_then(|_| own_mut(b, lent)).map_or_else(|number| (number, 0), |directory| read_with("),
    ("8 and 9 of a read come before 13", "    own_mut(b, lent).map_or_else(|number| (number, 0), |directory| read_with(b, directory, kind, key, text))", "    match own_mut(b, lent) {\n        Err(13) => match read_with(&mut b.to_vec(), &mut crate::Search, kind, key, text) {\n            late @ (8..=9, _) => late,\n            _ => (13, 0),\n        },\n        Err(number) => (number, 0),\n        Ok(directory) => read_with(b, directory, kind, key, text),\n    }"),
    ("3 and 4 of a write come before 13", "    own(b, lent).map_or_else(|number| (number, 0), |(directory, _)| write_with(", "    let early = sound(b).and_then(|_| crate::set_bounds(b, &crate::Search, kind, key));\n    early.and_then(|_| own(b, lent)).map_or_else(|number| (number, 0), |(directory, _)| write_with("),
    ("10 comes before 13", "    own(b, lent).map_or_else(|number| (number, 0), |(directory, _)| write_with(b, directory, kind, key, out))", "    match own(b, lent) {\n        Err(13) => match write_with(b, &crate::Search, kind, key, &mut out.to_vec()) {\n            late @ (10, _) => late,\n            _ => (13, 0),\n        },\n        Err(number) => (number, 0),\n        Ok((directory, _)) => write_with(b, directory, kind, key, out),\n    }"),
    ("4, 5 and 15 of a question come before 13", "    let (directory, marked) = own(b, lent)?;\n    let asked = asked(user, object, request, profile)?;", "    sound(b)?;\n    let asked = asked(user, object, request, profile)?;\n    let (directory, marked) = own(b, lent)?;"),
    ("4, 5 and 15 of a question come before 2", "    let (directory, marked) = own(b, lent)?;\n    let asked = asked(user, object, request, profile)?;", "    let asked = asked(user, object, request, profile)?;\n    let (directory, marked) = own(b, lent)?;"),
    ("a directory is not renewed after a read", "    shift(b, keys, kind, key as usize, hi, lo + records);", "    shift(b, &mut Search, kind, key as usize, hi, lo + records);"),
    ("a directory is not renewed after a message that inserts", "        shift(b, keys, kind, want >> NAME_BITS, i, i + 1);", "        shift(b, &mut Search, kind, want >> NAME_BITS, i, i + 1);"),
    ("a directory is not renewed after a message that removes", "        shift(b, keys, kind, want >> NAME_BITS, i + 1, i);", "        shift(b, &mut Search, kind, want >> NAME_BITS, i + 1, i);"),
    ("a directory is renewed though the message is refused", "                add(b, keys, kind, from, less);", "                add(b, &mut Search, kind, from, less);"),
    ("a directory is renewed though the set does not fit", "        return (8, 0);\n    }\n    shift(b, keys,", "        keys.moved(kind, key as usize, hi, lo + records);\n        return (8, 0);\n    }\n    shift(b, keys,"),
    ("a directory is renewed though the text is wrong", "Err(at) => return (9, at as u32),", "Err(at) => {\n            keys.moved(kind, key as usize, hi, lo);\n            return (9, at as u32);\n        }"),
    ("the entry of the key itself moves", "self[PART * kind + key + 1..]", "self[PART * kind + key..]"),
    ("the entry of the next key does not move", "self[PART * kind + key + 1..]", "self[PART * kind + key + 2..]"),
    ("the parts behind do not move", "self[PART * kind + key + 1..]", "self[PART * kind + key + 1..PART * (kind + 1)]"),
    ("only the parts behind move", "self[PART * kind + key + 1..]", "self[PART * (kind + 1)..]"),
    ("the last part does not move", "self[PART * kind + key + 1..]", "self[PART * kind + key + 1..PART * F.max(kind + 1)]"),
    ("the part's end does not move", "self[PART * kind + key + 1..].iter_mut().for_each(|entry|", "self.iter_mut().enumerate().filter(|(at, _)| *at > PART * kind + key && *at != PART * kind + NAMES).for_each(|(_, entry)|"),
    ("entries move by one record whatever a read brings", "(RECORD * to).wrapping_sub(RECORD * from)", "RECORD.wrapping_mul((to as isize - from as isize).signum() as usize)"),
    ("entries move the other way where a read moves more than one record", "entry.wrapping_add(more)", "entry.wrapping_add(if from.abs_diff(to) > 1 { more.wrapping_neg() } else { more })"),
    ("entries do not move back", "(RECORD * to).wrapping_sub(RECORD * from)", "(RECORD * to).wrapping_sub(RECORD * from.min(to))"),
    ("a read of as many records moves entries", "        let more = (RECORD", "        let to = if from == to { to + 1 } else { to };\n        let more = (RECORD"),
    ("the records of the next key are looked up", "        keyed(self, kind, key)", "        keyed(self, kind, (key + 1) % NAMES)"),
    ("the records of the key before are looked up", "        keyed(self, kind, key)", "        keyed(self, kind, key.max(1) - 1)"),
    ("the parts are exchanged where a set is looked up", "        keyed(self, kind, key)", "        keyed(self, [M, F, 1][kind], key)"),
    ("the first record of a set is not looked up", "        keyed(self, kind, key)", "        let (first, end) = keyed(self, kind, key);\n        (end.min(first + 1), end)"),
    ("the last record of a set is not looked up", "        keyed(self, kind, key)", "        let (first, end) = keyed(self, kind, key);\n        (first, end.max(first + 1) - 1)"),
    ("the part's end is not looked up for the last key", "        keyed(self, kind, key)", "        let (first, end) = keyed(self, kind, key);\n        (first, if key == NAMES - 1 { first } else { end })"),
    ("the M records of the next name are looked up", "keyed(self, M, name)", "keyed(self, M, (name + 1) % NAMES)"),
    ("the last M record of a name is not looked up", "(first as u16, end as u16)", "(first as u16, end.max(first + 1) as u16 - 1)"),
    ("the M records of name 1023 are not looked up", "(first as u16, end as u16)", "(first as u16, if name == NAMES - 1 { first } else { end } as u16)"),
    ("the M records of name 0 are not looked up", "(first as u16, end as u16)", "(if name == 0 { end } else { first } as u16, end as u16)"),
    ("the filters of the next name are looked up", "(keyed(self, F, name)", "(keyed(self, F, (name + 1) % NAMES)"),
    ("one filter of a name is looked up", "&filters[first - start..end - start]", "&filters[first - start..end.min(first + 1) - start]"),
    ("no filter is looked up", "&filters[first - start..end - start]", "&filters[first - start..first - start + 0 * end]"),
    ("a read by a directory loses its value", "|directory| read_with(b, directory, kind, key, text))", "|directory| (read_with(b, directory, kind, key, text).0, 0))"),
    ("a text read by a directory has no place", "    own_mut(b, lent).map_or_else(|number| (number, 0), |directory| read_with(b, directory, kind, key, text))", "    match own_mut(b, lent).map_or_else(|number| (number, 0), |directory| read_with(b, directory, kind, key, text)) {\n        (9, _) => (9, 0),\n        other => other,\n    }"),
    ("a write by a directory loses its value", "|(directory, _)| write_with(b, directory, kind, key, out))", "|(directory, _)| (write_with(b, directory, kind, key, out).0, 0))"),
    ("a write by a wrong directory writes", "    own(b, lent).map_or_else(|number| (number, 0), |(directory, _)| write_with(b, directory, kind, key, out))", "    match own(b, lent) {\n        Err(number) => {\n            out.fill(0);\n            (number, 0)\n        }\n        Ok((directory, _)) => write_with(b, directory, kind, key, out),\n    }"),
    ("nothing is examined by a directory", "full(question_by::<true>(", "full(question_by::<false>("),
    ("the short question by a directory gives the rights", "short(question_by::<false>(b, lent, user, object, request, profile), request)", "full(question_by::<false>(b, lent, user, object, request, profile))"),
    ("13 has a value", "full(question_by::<true>(b, lent, user, object, request, profile))", "match full(question_by::<true>(b, lent, user, object, request, profile)) {\n        (13, _) => (13, 1),\n        other => other,\n    }"),
    ("a request is not applied by a directory", "    let asked = asked(user, object, request, profile)?;\n    Ok(answered::<COUNTED>(b, directory, asked, marked))", "    let (user, object, _, strict) = asked(user, object, request, profile)?;\n    Ok(answered::<COUNTED>(b, directory, (user, object, crate::ALL, strict), marked))"),
];

fn copy(from: &Path, to: &Path) -> std::io::Result<()> {
    fs::create_dir_all(to)?;
    for entry in fs::read_dir(from)? {
        let entry = entry?;
        let target = to.join(entry.file_name());
        if entry.file_type()?.is_dir() {
            copy(&entry.path(), &target)?;
        } else {
            fs::copy(entry.path(), target)?;
        }
    }
    Ok(())
}

/// How a comparison ended: without a disagreement, with one, of which the seed and the case are told, or because the program did not
/// go on.
enum End {
    Agreed,
    Disagreed(String),
    Stopped,
}

impl End {
    /// How it ended with a fault.
    fn told(&self, what: &str) -> String {
        match self {
            End::Agreed => format!("MISSED {what}"),
            End::Disagreed(place) => format!("caught {what} (seed {place})"),
            End::Stopped => format!("STOPPED {what}"),
        }
    }
}

/// Compares the plain program of a folder with the second program.
fn compared(folder: &Path) -> std::io::Result<End> {
    let run = Command::new("cargo")
        .args(["test", "--offline", "--release", "-p", "plain", "--test", "agree"])
        .current_dir(folder)
        .stdout(Stdio::piped())
        .stderr(Stdio::piped())
        .output()?;
    let said = String::from_utf8_lossy(&run.stdout).into_owned() + &String::from_utf8_lossy(&run.stderr);
    assert!(said.contains("test result:"), "the comparison did not run:\n{said}");
    let place = said.split("\nseed ").nth(1).and_then(|rest| rest.split(':').next());
    Ok(match (run.status.success(), place) {
        (true, _) => End::Agreed,
        (false, Some(place)) => End::Disagreed(place.into()),
        (false, None) => End::Stopped,
    })
}

/// A file of the plain program, and its text.
type Source = (PathBuf, String);

/// The file in which the text to change stands, once.
fn place<'a>(sources: &'a [Source], what: &str, old: &str) -> &'a Source {
    let found: Vec<&Source> = sources.iter().filter(|(_, text)| text.contains(old)).collect();
    match found[..] {
        [one] if one.1.matches(old).count() == 1 => one,
        _ => panic!("{what}: the text to change does not stand there once"),
    }
}

fn main() -> std::io::Result<()> {
    let folder = std::env::temp_dir().join(format!("faults-{}", std::process::id()));
    for part in ["second", "plain"] {
        copy(Path::new(part), &folder.join(part))?;
    }
    fs::write(folder.join("Cargo.toml"), "[workspace]\nmembers = [\"second\", \"plain\"]\nresolver = \"2\"\n")?;
    let sources: Vec<Source> = fs::read_dir(folder.join("plain/src"))?
        .map(|entry| entry.map(|entry| entry.path()).and_then(|path| Ok((path.clone(), fs::read_to_string(path)?))))
        .collect::<std::io::Result<_>>()?;
    let words = std::env::args().nth(1).unwrap_or_default();
    let questions = [markers::FAULTS, profiles::FAULTS, slips::FAULTS, limits::FAULTS, bearing::FAULTS].concat();
    let all = [FAULTS, &questions, wide::FAULTS, days::FAULTS, appointments::FAULTS].concat();
    let planted: Vec<(&Fault, &Source)> = all.iter().map(|fault| (fault, place(&sources, fault.0, fault.1))).collect();
    let table = match &words[..] {
        "limits" => limits::FAULTS,
        "bearing" => bearing::FAULTS,
        _ => &[],
    };
    let wanted = |what: &str| what.contains(&words) || table.iter().any(|fault| fault.0 == what);
    let faults: Vec<(&Fault, &Source)> = planted.into_iter().filter(|((what, ..), _)| wanted(what)).collect();
    assert!(matches!(compared(&folder)?, End::Agreed), "the program without a fault disagrees");
    let mut missed = 0;
    for &((what, old, new), (path, text)) in &faults {
        fs::write(path, text.replace(old, new))?;
        let end = compared(&folder)?;
        fs::write(path, text)?;
        println!("{}", end.told(what));
        missed += usize::from(!matches!(end, End::Disagreed(_)));
    }
    fs::remove_dir_all(&folder)?;
    println!("{} faults, {} caught by a wrong answer", faults.len(), faults.len() - missed);
    std::process::exit(i32::from(missed > 0));
}
