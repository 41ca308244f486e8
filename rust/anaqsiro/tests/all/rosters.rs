//! Rosters: a block that is moved from day to day, with its directory and in a ledger.

use crate::appointments::{date, list, some};
use crate::blocks::with_room;
use anaqsiro::{
    Appointment, Appointments, Block, Date, Half, Kind, Ledger, Message, NotTaken, Profile, Refusal, Rights, Roster, Taken, Why,
};
use second::gen::Rng;

const M: Kind = Kind::Membership;

/// Some day of the years in which appointments begin and end here, or one with none standing.
fn any_day(rng: &mut Rng) -> Date {
    let number = if rng.one_in(5) { rng.pick(&[0, 10_999, 20_000, 157_053]) } else { 11_000 + rng.below(2_000) };
    Date::of_day(number).expect("a day")
}

/// The block with all appointments of a list that stand on a day added, one by one.
fn with_standing(block: &Block, list: &Appointments, day: Date) -> Block {
    let mut block = block.clone();
    for one in list.standing(day) {
        block.apply(Message::new(M, None, Some(one.membership))).expect("room");
    }
    block
}

/// From day to day, later and earlier, over lists that change, the block is that of the statements with the appointments of the
/// day added: its counts are right at every moment, and no move is refused with 6.
#[test]
fn the_block_is_that_of_the_day() {
    for seed in 0..60 {
        let mut rng = Rng(seed);
        let mut plain = with_room(40);
        plain.read_set(M, 1, "2;R2X;9;M").expect("room");
        let mut roster = Roster::new(list(some(&mut rng, 40)));
        let (mut block, mut directed) = (plain.clone(), plain.clone().with_directory().expect("good"));
        let mut by_directory = roster.clone();
        for _ in 0..30 {
            if rng.one_in(6) {
                let other = list(some(&mut rng, 40));
                assert_eq!(block.replace_list(&mut roster, other.clone()), Ok(()));
                assert_eq!(directed.replace_list(&mut by_directory, other), Ok(()));
            } else {
                let day = any_day(&mut rng);
                assert_eq!((block.go_to(&mut roster, day), roster.day()), (Ok(()), day));
                assert_eq!(directed.go_to(&mut by_directory, day), Ok(()));
            }
            assert_eq!(block, with_standing(&plain, roster.list(), roster.day()));
            assert_eq!((&directed, &by_directory), (&block.clone().with_directory().expect("good"), &roster));
        }
        block.go_to(&mut roster, Date::LAST).expect("to a day with none standing");
        assert_eq!(block, plain);
    }
}

/// A move that is refused leaves block and roster as they were, and so does a list that does not fit; then the host goes on.
#[test]
fn a_refused_move_changes_nothing() {
    let one = |id, year| Appointment::new(Half::new(1, id, Rights::READ), date(year, 1, 1), 12);
    let mut roster = Roster::new(list([one(2, 2024), one(3, 2025), one(4, 2025)]));
    let mut directed = with_room(1).with_directory().expect("good");
    directed.go_to(&mut roster, date(2024, 5, 1)).expect("room for one");
    let before = (directed.clone(), roster.clone());
    assert_eq!(directed.go_to(&mut roster, date(2025, 1, 1)), Err(Refusal::NoRoom));
    let longer = list([one(2, 2024), one(5, 2024)]);
    assert_eq!(directed.replace_list(&mut roster, longer.clone()), Err(Refusal::NoRoom));
    assert_eq!((&directed, &roster), (&before.0, &before.1));
    assert_eq!(roster.next_change(), Some(date(2025, 1, 1)));
    directed.grow(2).expect("not too long");
    directed.go_to(&mut roster, date(2025, 1, 1)).expect("room for two");
    assert_eq!(directed.set_text(M, 1).as_deref(), Ok("3;R;4;R"));
    assert_eq!(directed.replace_list(&mut roster, longer.clone()), Ok(()));
    assert_eq!((directed.set_text(M, 1).as_deref(), roster.list()), (Ok(""), &longer));
    let mut other = with_room(1);
    directed.go_to(&mut roster, date(2024, 12, 31)).expect("both stand again");
    assert_eq!(other.go_to(&mut roster, Date::LAST), Err(Refusal::NothingToTake), "it belongs to another block");
    assert_eq!(roster.day(), date(2024, 12, 31));
}

/// A roster is stored as its list and its day, and made again of them.
#[test]
fn a_roster_is_made_again() {
    let mut roster = Roster::new(list(some(&mut Rng(5), 40)));
    let mut block = with_room(40);
    assert_eq!((roster.day(), roster.next_change()), (Date::LAST, None));
    block.go_to(&mut roster, date(2001, 7, 1)).expect("room");
    let (bytes, day, saved) = (roster.list().bytes().to_vec(), roster.day().day_number(), block.save().expect("good"));

    let stored = Appointments::from_bytes(bytes).expect("a list");
    let mut again = Roster::from_parts(stored, Date::of_day(day).expect("a day"));
    assert_eq!(again, roster);
    let mut loaded = Block::load(&saved).expect("as it was saved");
    loaded.go_to(&mut again, Date::FIRST).expect("they stand");
    assert_eq!(loaded, with_room(40));
}

/// Who begins anew with a block that was moved adds again what it has: that is accepted, and no right move ends it.
#[test]
fn a_block_that_was_moved_does_not_begin_anew() {
    let one = Appointment::new(Half::new(1, 2, Rights::READ), date(2024, 2, 29), 12);
    let mut roster = Roster::new(list([one]));
    let mut block = with_room(1);
    block.go_to(&mut roster, one.first).expect("room");
    let mut wrong = Roster::new(roster.list().clone());
    assert_eq!(block.go_to(&mut wrong, one.first), Ok(()));
    assert_eq!(block.set_text(M, 1).as_deref(), Ok("2;R2"));
    block.go_to(&mut wrong, Date::LAST).expect("it stands");
    assert_eq!((block.set_text(M, 1).as_deref(), wrong.next_change()), (Ok("2;R"), None));
}

/// Several rosters of one block, each with its own day: the block has what stands of each on its day, and a block that is given
/// more room in between has the same.
#[test]
fn a_block_has_several_rosters() {
    for seed in 0..40 {
        let mut rng = Rng(seed);
        let (mut plain, mut room) = (with_room(20), 20);
        plain.read_set(M, 1, "2;R2X;9;M").expect("room");
        let mut block = plain.clone();
        let mut rosters = [(); 3].map(|()| Roster::new(list(some(&mut rng, 40))));
        for _ in 0..40 {
            let roster = &mut rosters[rng.below(3) as usize];
            if rng.one_in(6) {
                assert_eq!(block.replace_list(roster, list(some(&mut rng, 40))), Ok(()));
            } else {
                assert_eq!(block.go_to(roster, any_day(&mut rng)), Ok(()));
            }
            if rng.one_in(10) {
                room += 1;
                plain.grow(room).expect("not too long");
                block.grow(room).expect("not too long");
            }
            let told = rosters.iter().fold(plain.clone(), |block, roster| with_standing(&block, roster.list(), roster.day()));
            assert_eq!(block, told);
        }
    }
}

/// Statements and appointments in one block: each count is the number of both, whichever come and go, over one list and over lists
/// that change. Nothing is refused with 6. Restored and moved anew, it is the same block.
#[test]
fn a_ledger_counts_statements_and_appointments() {
    let (mut accepted, mut full) = (0, 0);
    for seed in 0..40 {
        let mut rng = Rng(seed);
        let mut ledger = Ledger::with_room(if seed % 2 == 0 { 40 } else { 6 }).expect("room");
        let mut roster = Roster::new(list(some(&mut rng, 20)));
        for _ in 0..60 {
            if rng.one_in(2) {
                let said = rng.one_in(2).then(|| Half::new(rng.below(4), rng.below(4), Rights::READ | Rights::UPDATE));
                let refused = ledger.say(rng.below(5), M, said).err();
                assert_ne!(refused, Some(NotTaken::Refused(Refusal::NothingToTake)));
            } else {
                let moved = match seed % 4 < 2 || rng.one_in(2) {
                    true => ledger.go_to(&mut roster, any_day(&mut rng)),
                    false => ledger.replace_list(&mut roster, list(some(&mut rng, 20))),
                };
                match moved {
                    Ok(released) => accepted += 1 + released,
                    Err(refusal) => {
                        assert_eq!(refusal, Refusal::NoRoom, "no other is to be met");
                        full += 1;
                    }
                }
            }
            let stored: Vec<_> = ledger.statements().map(|(&label, said)| (label, said)).collect();
            let mut statements = Ledger::restore(ledger.block().room(), stored).expect("room");
            assert_eq!(ledger.block(), &with_standing(statements.block(), roster.list(), roster.day()));
            let mut anew = Roster::new(roster.list().clone());
            assert_eq!(statements.go_to(&mut anew, roster.day()), Ok(0));
            assert_eq!((statements.block(), &anew), (ledger.block(), &roster));
        }
    }
    assert!(accepted > 500 && full > 20, "{accepted} {full}");
}

/// A message that waits for room is applied by the ledger when a move has made it.
#[test]
fn a_move_makes_room_for_what_waits() {
    let member = Half::new(1, 2, Rights::READ);
    let mut ledger = Ledger::with_room(1).expect("room");
    let mut roster = Roster::new(list([Appointment::new(member, date(2024, 2, 29), 12)]));
    assert_eq!(ledger.go_to(&mut roster, date(2025, 2, 27)), Ok(0));
    let grant = Message::new(Kind::Permission, None, Some(Half::new(9, 1, Rights::UPDATE)));
    assert_eq!(ledger.take("grant", 1, grant), Ok(Taken::HeldBack(Why::Refused(Refusal::NoRoom))));
    let next = roster.next_change().expect("it ends");
    assert_eq!(ledger.go_to(&mut roster, next), Ok(1));
    assert!(ledger.block().may(1, 9, Rights::UPDATE, Profile::Ordinary).expect("good"));
    assert_eq!(ledger.go_to(&mut roster, date(2024, 2, 29)), Err(Refusal::NoRoom));
    ledger.say("grant", Kind::Permission, None).expect("it stands");
    assert_eq!(ledger.go_to(&mut roster, date(2024, 2, 29)), Ok(0));
    assert_eq!(ledger.replace_list(&mut roster, Appointments::default()), Ok(0));
    assert_eq!(ledger.block(), &with_room(1));
}
