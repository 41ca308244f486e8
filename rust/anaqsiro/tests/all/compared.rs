//! The safe calls, held against the second program as the archive is.

use anaqsiro::{raw, Appointment, Appointments, Block, Date, DirectedBlock, Held, Kind, Profile, Record, Refusal};
use anaqsiro::{Rights, Roster, Slip};
use second::drive::{self, run, Library};
use second::LETTERS;

/// The safe calls where the comparison wants a library. What they have no words for goes to the archive itself: a kind that is
/// none, a request that is not of rights, a profile that there is not, a list for a slip that is too short, a record that there is not,
/// the records of a block that is not good, a place for a directory that is too long or too short, and a move over a wrong list or with
/// a day that is none.
struct Safe;

/// An answer put together again.
fn packed(answer: Result<usize, Refusal>) -> u64 {
    match answer {
        Ok(value) => value as u64,
        Err(refusal @ Refusal::Text { place }) => drive::packed(refusal.number(), place as u32),
        Err(refusal) => drive::packed(refusal.number(), 0),
    }
}

/// The value of a full answer put together again.
fn value_of(held: Held) -> usize {
    usize::from(held.rights.mask()) + 16 * held.user_examined as usize + 262_144 * held.object_examined as usize
}

/// The names of a slip put at the front of two lists, and the value of the answer that has it.
fn laid_out(slip: &Slip, hers: &mut [u16], its: &mut [u16]) -> usize {
    for (list, chain) in [(hers, &slip.user_chain), (its, &slip.object_chain)] {
        for (place, &name) in list.iter_mut().zip(chain) {
            *place = name as u16;
        }
    }
    slip.user_chain.len() + 256 * slip.object_chain.len()
}

/// What a call on a block of these bytes gives; the bytes are then the block's.
fn on(bytes: &mut [u8], call: impl FnOnce(&mut Block) -> Result<usize, Refusal>) -> u64 {
    let mut block = Block::from_bytes(bytes.to_vec());
    let answer = call(&mut block);
    bytes.copy_from_slice(block.bytes());
    packed(answer)
}

/// A block of these bytes with this directory. Where that is not its own, the block comes back as it was.
fn directed(block: &[u8], directory: &[u16]) -> Result<DirectedBlock, Refusal> {
    DirectedBlock::from_parts(Block::from_bytes(block.to_vec()), directory).map_err(|not| {
        assert_eq!(not.block.bytes(), block);
        not.refusal
    })
}

/// What a call that changes a block by its directory gives; the bytes and the numbers are then those of the two.
fn on_both(bytes: &mut [u8], directory: &mut [u16], call: impl FnOnce(&mut DirectedBlock) -> Result<usize, Refusal>) -> u64 {
    packed(directed(bytes, directory).and_then(|mut both| {
        let answer = call(&mut both);
        directory.copy_from_slice(both.directory());
        bytes.copy_from_slice(both.into_block().bytes());
        answer
    }))
}

/// A move of a block by a roster, which has the new day only where the move is accepted.
fn moved(block: &mut Block, list: Appointments, old: Date, new: Date) -> Result<usize, Refusal> {
    let mut roster = Roster::from_parts(list, old);
    let answer = block.go_to(&mut roster, new).map(|()| 0);
    assert_eq!(roster.day(), if answer.is_ok() { new } else { old });
    answer
}

/// Writing into a buffer, held against the whole text.
fn written(length: Result<usize, Refusal>, whole: Result<String, Refusal>, out: &[u8]) -> Result<usize, Refusal> {
    match length {
        Ok(length) => assert_eq!(whole.expect("a text").as_bytes(), &out[..length]),
        Err(Refusal::TextLong) => assert!(whole.expect("a text").len() > out.len()),
        Err(refusal) => assert_eq!(whole, Err(refusal)),
    }
    length
}

/// A record of a good block by its number.
fn record_of(block: &[u8], number: u64) -> Option<Record> {
    Block::from_bytes(block.to_vec()).records().ok()?.nth(usize::try_from(number).ok()?)
}

impl Library for Safe {
    fn make(&self, block: &mut [u8]) -> u64 {
        on(block, |block| block.clear().map(|()| 0))
    }

    fn message(&self, block: &mut [u8], message: &[u8]) -> u64 {
        on(block, |block| block.apply(message).map(|()| 0))
    }

    fn wide(&self, block: &mut [u8], message: &[u8]) -> u64 {
        on(block, |block| block.apply_wide(message).map(|()| 0))
    }

    fn rights(&self, block: &[u8], user: u64, object: u64, request: u64, profile: u64) -> u64 {
        let safe = Block::from_bytes(block.to_vec());
        match (Rights::from_mask(request), Profile::from_number(profile)) {
            (Some(request), Some(profile)) => packed(safe.rights(user, object, request, profile).map(value_of)),
            _ => unsafe { raw::anaqsiro_rights(block.as_ptr(), block.len(), user, object, request, profile) },
        }
    }

    fn may(&self, block: &[u8], user: u64, object: u64, request: u64, profile: u64) -> u64 {
        let safe = Block::from_bytes(block.to_vec());
        match (Rights::from_mask(request), Profile::from_number(profile)) {
            (Some(request), Some(profile)) => packed(safe.may(user, object, request, profile).map(usize::from)),
            _ => unsafe { raw::anaqsiro_may(block.as_ptr(), block.len(), user, object, request, profile) },
        }
    }

    fn plain(&self, block: &[u8], user: u64, object: u64, request: u64, limit: u64) -> u64 {
        let safe = Block::from_bytes(block.to_vec());
        match Rights::from_mask(request) {
            Some(request) => packed(safe.rights_plain(user, object, request, limit).map(|rights| rights.mask().into())),
            None => unsafe { raw::anaqsiro_plain(block.as_ptr(), block.len(), user, object, request, limit) },
        }
    }

    fn rights_to(&self, block: &[u8], user: u64, object: u64, request: u64, limit: u64) -> u64 {
        let safe = Block::from_bytes(block.to_vec());
        match Rights::from_mask(request) {
            Some(request) => packed(safe.rights_to(user, object, request, limit).map(|rights| rights.mask().into())),
            None => unsafe { raw::anaqsiro_rights_to(block.as_ptr(), block.len(), user, object, request, limit) },
        }
    }

    fn bears(&self, block: &[u8], user: u64, object: u64, kind: u64, key: u64, id: u64) -> u64 {
        match Kind::from_number(kind) {
            Some(kind) => packed(Block::from_bytes(block.to_vec()).bears(user, object, kind, key, id).map(usize::from)),
            None => unsafe { raw::anaqsiro_bears(block.as_ptr(), block.len(), user, object, kind, key, id) },
        }
    }

    fn find_slip(&self, block: &[u8], user: u64, object: u64, right: u64, hers: &mut [u16], its: &mut [u16]) -> u64 {
        let safe = Block::from_bytes(block.to_vec());
        match Rights::from_mask(right).filter(|_| hers.len().min(its.len()) >= Slip::LONGEST) {
            Some(right) => {
                packed(safe.find_slip(user, object, right).map(|slip| slip.map_or(0, |slip| laid_out(&slip, hers, its))))
            }
            None => unsafe {
                let [hers, its] = [hers, its].map(|list| (list.as_mut_ptr(), list.len()));
                raw::anaqsiro_find_slip(block.as_ptr(), block.len(), user, object, right, hers.0, hers.1, its.0, its.1)
            },
        }
    }

    fn check_slip(&self, block: &[u8], user: u64, object: u64, right: u64, hers: &[u16], its: &[u16]) -> u64 {
        let safe = Block::from_bytes(block.to_vec());
        let [user_chain, object_chain] = [hers, its].map(|list| list.iter().copied().map(u64::from).collect());
        match Rights::from_mask(right) {
            Some(right) => packed(safe.check_slip(user, object, right, &Slip { user_chain, object_chain }).map(usize::from)),
            None => unsafe {
                let [hers, its] = [hers, its].map(|list| (list.as_ptr(), list.len()));
                raw::anaqsiro_check_slip(block.as_ptr(), block.len(), user, object, right, hers.0, hers.1, its.0, its.1)
            },
        }
    }

    fn write(&self, block: &[u8], kind: u64, key: u64, out: &mut [u8]) -> u64 {
        let Some(kind) = Kind::from_number(kind) else {
            return unsafe { raw::anaqsiro_write(block.as_ptr(), block.len(), kind, key, out.as_mut_ptr(), out.len()) };
        };
        let block = Block::from_bytes(block.to_vec());
        packed(written(block.write_set(kind, key, out), block.set_text(kind, key), out))
    }

    fn read(&self, block: &mut [u8], kind: u64, key: u64, text: &[u8]) -> u64 {
        match Kind::from_number(kind) {
            Some(kind) => on(block, |block| block.read_set(kind, key, text)),
            None => unsafe { raw::anaqsiro_read(block.as_mut_ptr(), block.len(), kind, key, text.as_ptr(), text.len()) },
        }
    }

    fn tested(&self, block: &[u8]) -> u64 {
        packed(Block::from_bytes(block.to_vec()).check().map(|()| 0))
    }

    fn size(&self, block: &[u8], kind: u64) -> u64 {
        let safe = Block::from_bytes(block.to_vec());
        match (safe.records(), Kind::from_number(kind)) {
            (Ok(records), Some(kind)) => records.filter(|record| record.kind == kind).count() as u64,
            _ => unsafe { raw::anaqsiro_size(block.as_ptr(), block.len(), kind) },
        }
    }

    fn record(&self, block: &[u8], number: u64) -> u64 {
        match record_of(block, number) {
            Some(record) => record.key + (record.id << 16),
            None => unsafe { raw::anaqsiro_record(block.as_ptr(), block.len(), number) },
        }
    }

    fn count(&self, block: &[u8], number: u64, letter: u64) -> u64 {
        match (record_of(block, number), usize::try_from(letter).ok().and_then(|k| LETTERS.get(k))) {
            (Some(record), Some(&letter)) => record.count(letter.into()).into(),
            _ => unsafe { raw::anaqsiro_count(block.as_ptr(), block.len(), number, letter) },
        }
    }

    fn directory(&self, block: &[u8], directory: &mut [u16]) -> u64 {
        if directory.len() != DirectedBlock::DIRECTORY {
            let (numbers, length) = (directory.as_mut_ptr(), directory.len());
            return unsafe { raw::anaqsiro_directory(block.as_ptr(), block.len(), numbers, length) };
        }
        let made = Block::from_bytes(block.to_vec()).with_directory();
        packed(made.map_err(Refusal::from).map(|both| {
            directory.copy_from_slice(both.directory());
            0
        }))
    }

    fn message_by(&self, block: &mut [u8], directory: &mut [u16], message: &[u8]) -> u64 {
        on_both(block, directory, |both| both.apply(message).map(|()| 0))
    }

    fn wide_by(&self, block: &mut [u8], directory: &mut [u16], message: &[u8]) -> u64 {
        on_both(block, directory, |both| both.apply_wide(message).map(|()| 0))
    }

    fn rights_by(&self, block: &[u8], directory: &[u16], user: u64, object: u64, request: u64, profile: u64) -> u64 {
        let (bytes, len, numbers, length) = (block.as_ptr(), block.len(), directory.as_ptr(), directory.len());
        match (Rights::from_mask(request), Profile::from_number(profile)) {
            (Some(request), Some(profile)) => {
                packed(directed(block, directory).and_then(|both| both.rights(user, object, request, profile).map(value_of)))
            }
            _ => unsafe { raw::anaqsiro_rights_by(bytes, len, numbers, length, user, object, request, profile) },
        }
    }

    fn may_by(&self, block: &[u8], directory: &[u16], user: u64, object: u64, request: u64, profile: u64) -> u64 {
        let (bytes, len, numbers, length) = (block.as_ptr(), block.len(), directory.as_ptr(), directory.len());
        match (Rights::from_mask(request), Profile::from_number(profile)) {
            (Some(request), Some(profile)) => {
                packed(directed(block, directory).and_then(|both| both.may(user, object, request, profile).map(usize::from)))
            }
            _ => unsafe { raw::anaqsiro_may_by(bytes, len, numbers, length, user, object, request, profile) },
        }
    }

    fn write_by(&self, block: &[u8], directory: &[u16], kind: u64, key: u64, out: &mut [u8]) -> u64 {
        let Some(kind) = Kind::from_number(kind) else {
            let (numbers, length, text) = (directory.as_ptr(), directory.len(), out.as_mut_ptr());
            return unsafe { raw::anaqsiro_write_by(block.as_ptr(), block.len(), numbers, length, kind, key, text, out.len()) };
        };
        let write = |both: DirectedBlock| written(both.write_set(kind, key, out), both.set_text(kind, key), out);
        packed(directed(block, directory).and_then(write))
    }

    fn read_by(&self, block: &mut [u8], directory: &mut [u16], kind: u64, key: u64, text: &[u8]) -> u64 {
        let (numbers, length) = (directory.as_mut_ptr(), directory.len());
        match Kind::from_number(kind) {
            Some(kind) => on_both(block, directory, |both| both.read_set(kind, key, text)),
            None => unsafe {
                let (text, text_length) = (text.as_ptr(), text.len());
                raw::anaqsiro_read_by(block.as_mut_ptr(), block.len(), numbers, length, kind, key, text, text_length)
            },
        }
    }

    fn day(&self, year: u64, month: u64, day: u64) -> u64 {
        packed(Date::new(year, month, day).map(|date| date.day_number() as usize))
    }

    fn date(&self, day: u64) -> u64 {
        packed(Date::of_day(day).map(|date| (date.day() + 32 * date.month() + 512 * date.year()) as usize))
    }

    fn move_to(&self, block: &mut [u8], list: &[u8], old: u64, new: u64) -> u64 {
        match (Appointments::from_bytes(list.to_vec()), Date::of_day(old), Date::of_day(new)) {
            (Ok(list), Ok(old), Ok(new)) => on(block, |block| moved(block, list, old, new)),
            _ => unsafe { raw::anaqsiro_move(block.as_mut_ptr(), block.len(), list.as_ptr(), list.len(), old, new) },
        }
    }

    fn next_change(&self, list: &[u8], day: u64) -> u64 {
        let change = |list: Appointments| Ok(list.next_change(Date::of_day(day)?).map_or(0, |next| next.day_number() as usize));
        packed(Appointments::from_bytes(list.to_vec()).and_then(change))
    }

    fn stands(&self, appointment: &[u8], day: u64) -> u64 {
        packed(Appointment::try_from(appointment).and_then(|one| one.stands(Date::of_day(day)?).map(usize::from)))
    }
}

/// Blocks that are good or nearly good, messages and texts that are right or wrong in one place: each call answers what the
/// second program does, and every number of every call comes up.
#[test]
fn any_bytes_are_answered() {
    let tally = run(&Safe, 20_000, 3).unwrap_or_else(|what| panic!("{what}"));
    tally.complete().unwrap_or_else(|what| panic!("{what}"));
}
