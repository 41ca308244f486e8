//! The ledger, case by case.

use anaqsiro::{Block, Half, Kind, Ledger, Letters, Marker, Message, NotTaken, Profile, Refusal, Rights, Said, Sent};
use anaqsiro::{Statement, Taken, Why, WideHalf, WideMessage};
use second::drive::packed;
use second::gen::{self, Rng};

const P: Kind = Kind::Permission;
const EARLY: Taken = Taken::HeldBack(Why::Early);
const APPLIED: Taken = Taken::Applied { released: 0 };

/// Letters on 9 for the user 1.
fn half(letters: &str) -> Option<Half> {
    Some(Half::new(9, 1, letters.parse::<Letters>().expect("letters")))
}

/// The same as a statement leaves it.
fn left(letters: &str) -> Option<WideHalf> {
    half(letters).map(WideHalf::from)
}

/// A message of a permission: what it quotes, and what it says; none where the text is empty.
fn message(previous: &str, new: &str) -> Message {
    let half = |text: &str| (!text.is_empty()).then(|| half(text)).flatten();
    Message::new(P, half(previous), half(new))
}

fn with_room(room: usize) -> Ledger<&'static str> {
    Ledger::with_room(room).expect("room")
}

/// What stands in the block, a line for each record.
fn lines(ledger: &Ledger<&str>) -> Vec<String> {
    ledger.block().records().expect("good").map(|record| record.to_string()).collect()
}

/// Label, next number, reason, and the numbers held back.
type Line = (&'static str, u64, Why, Vec<u64>);

fn waiting(ledger: &Ledger<&'static str>) -> Vec<Line> {
    let numbers = |held: Vec<(u64, Sent)>| held.into_iter().map(|(number, _)| number).collect();
    ledger.waiting().map(|waits| (*waits.label, waits.next, waits.why, numbers(waits.held))).collect()
}

/// The mill's story. A block alone takes the early end for that of the first appointment; the ledger does not.
#[test]
fn the_end_of_the_second_appointment_comes_before_its_start() {
    let (start, end) = (message("", "U"), message("U", ""));
    let mut ledger = with_room(8);
    let mut alone = ledger.block().clone();
    let may = |block: &Block| block.may(1, 9, Rights::UPDATE, Profile::Ordinary).expect("good");
    let steps = [("first", 1, start, APPLIED), ("second", 2, end, EARLY), ("second", 1, start, Taken::Applied { released: 1 })];
    let mut seen = Vec::new();
    for (label, number, message, taken) in steps {
        assert_eq!(ledger.take(label, number, message), Ok(taken));
        alone.apply(message).expect("accepted");
        seen.push((may(ledger.block()), may(&alone)));
    }
    assert_eq!(seen, [(true, true), (true, false), (true, true)]);
    assert_eq!(ledger.block(), &alone);
}

#[test]
fn what_is_said_quotes_what_was_left() {
    let mut ledger = with_room(8);
    let said = |sequence, previous, new| Ok(Said { sequence, message: message(previous, new).into() });
    assert_eq!(ledger.say("a", P, half("MR")), said(1, "", "MR"));
    assert_eq!(ledger.say("a", P, half("Ru")), said(2, "MR", "Ru"));
    assert_eq!((ledger.left("a"), lines(&ledger)), (left("Ru"), vec!["P9 1;Ru".to_string()]));
    assert_eq!(ledger.say("a", P, None), said(3, "Ru", ""));
    assert_eq!((ledger.left("a"), lines(&ledger)), (None, vec![]));
    assert_eq!(ledger.say("a", P, half("P")), said(4, "", "P"));
    assert_eq!(ledger.statements().collect::<Vec<_>>(), [(&"a", Statement { kind: P, left: left("P"), taken: 4 })]);
}

#[test]
fn what_can_not_be_said_changes_nothing() {
    let mut ledger = with_room(1);
    ledger.say("a", P, half("R")).expect("room");
    ledger.say("ended", P, half("R")).expect("room");
    ledger.say("ended", P, None).expect("it stands");
    ledger.take("behind", 2, message("R", "")).expect("held back");
    let before = (lines(&ledger), waiting(&ledger));
    let elsewhere = |key, mask: Rights| Some(Half::new(key, 1, mask));
    let refused = |refusal| Err(NotTaken::Refused(refusal));
    assert_eq!(ledger.say("ended", P, None), refused(Refusal::Form));
    assert_eq!(ledger.say("new", P, None), refused(Refusal::Form));
    assert_eq!(ledger.say("a", P, elsewhere(65_545, Rights::READ)), refused(Refusal::Name));
    assert_eq!(ledger.say("a", P, elsewhere(9, Rights::NONE)), refused(Refusal::Mask));
    assert_eq!(ledger.say("new", P, elsewhere(8, Rights::READ)), refused(Refusal::NoRoom));
    assert_eq!(ledger.say("a", Kind::Filter, half("R")), Err(NotTaken::OtherKind(P)));
    assert_eq!(ledger.say("ended", Kind::Filter, half("R")), Err(NotTaken::OtherKind(P)));
    assert_eq!(ledger.say("behind", P, half("R")), Err(NotTaken::OthersFirst));
    assert_eq!((lines(&ledger), waiting(&ledger)), before);
    assert_eq!(ledger.statements().count(), 2, "no statement was begun");
    assert_eq!(ledger.say("a", P, elsewhere(8, Rights::READ)).map(|said| said.sequence), Ok(2), "no number was used up");
}

#[test]
fn messages_are_released_in_their_turn() {
    let stream = [message("", "M"), message("M", "MR"), message("MR", "P"), message("P", "P"), message("P", "")];
    let mut ledger = with_room(8);
    for number in [5, 2, 4] {
        assert_eq!(ledger.take("a", number, stream[number as usize - 1]), Ok(EARLY));
    }
    assert_eq!((waiting(&ledger), lines(&ledger)), (vec![("a", 1, Why::Early, vec![2, 4, 5])], vec![]));
    assert_eq!(ledger.statements().count(), 0);
    assert_eq!(ledger.take("a", 1, stream[0]), Ok(Taken::Applied { released: 1 }));
    assert_eq!((waiting(&ledger), lines(&ledger)), (vec![("a", 3, Why::Early, vec![4, 5])], vec!["P9 1;MR".to_string()]));
    assert_eq!(ledger.waiting().next().map(|waits| waits.held), Some(vec![(4, stream[3].into()), (5, stream[4].into())]));
    assert_eq!(ledger.take("a", 3, stream[2]), Ok(Taken::Applied { released: 2 }));
    assert_eq!((waiting(&ledger), lines(&ledger)), (vec![], vec![]));
    for number in 1..=5 {
        assert_eq!(ledger.take("a", number, stream[number as usize - 1]), Ok(Taken::Repeated));
    }
    assert_eq!(lines(&ledger), Vec::<String>::new());
}

#[test]
fn a_message_that_does_not_fit_is_not_taken() {
    let mut ledger = with_room(8);
    assert_eq!(ledger.take("a", 1, message("R", "")), Err(NotTaken::NotQuoted(None)));
    assert_eq!(ledger.take("a", 0, message("", "R")), Err(NotTaken::SequenceZero));
    assert_eq!(ledger.statements().count() + ledger.waiting().count(), 0);
    assert_eq!(ledger.take("a", 1, message("", "RU")), Ok(APPLIED));
    for other in [message("R", ""), message("", "R"), message("RUm", "")] {
        assert_eq!(ledger.take("a", 2, other), Err(NotTaken::NotQuoted(left("RU"))));
    }
    for number in [2, 3] {
        let membership = Message::new(Kind::Membership, half("RU"), None);
        assert_eq!(ledger.take("a", number, membership), Err(NotTaken::OtherKind(P)));
    }
    assert_eq!((waiting(&ledger), ledger.left("a")), (vec![], left("RU")));
    assert_eq!(ledger.take("a", 2, message("RU", "")), Ok(APPLIED));
}

/// What a ledger without statements makes of a message that the second program gives this number: it is refused with 3, 4 and 5,
/// and for any other held back and given back, as what it says.
fn judged(sent: Sent, number: u32) {
    let mut ledger = with_room(8);
    let taken = ledger.take("a", 2, sent);
    if (3..=5).contains(&number) {
        let refusal = Refusal::from_answer(packed(number, 0)).expect("a refusal");
        assert_eq!(taken.map_err(|why| why.to_string()), Err(refusal.to_string()));
        assert_eq!(ledger.waiting().count(), 0);
    } else {
        let [previous, new] = sent.halves();
        let said = sent.kind().map(|kind| Sent::new(kind, previous, new));
        assert_eq!((taken, ledger.give_back("a", 2)), (Ok(EARLY), said));
    }
}

/// Messages with one wrong place, plain and wide: those that the second program refuses with 3, 4 or 5 are refused so, whatever
/// their number, and the others are taken. Each of the three is met, and so is what is well formed.
#[test]
fn a_message_that_is_not_well_formed_is_not_taken() {
    let mut met = [[0; 9]; 2];
    let empty = second::make(&[0; Block::SHORTEST]).1;
    for seed in 0..4_000 {
        let mut rng = Rng(seed);
        let index = gen::index(&mut rng);
        let (plain, wide) = (gen::message(&mut rng, &index), gen::wide(&mut rng, &index));
        let sent = [Message::try_from(&plain[..]).map(Sent::from), WideMessage::try_from(&wide[..]).map(Sent::from)];
        let numbers = [second::message(&empty, &plain).0, second::wide(&empty, &wide).0];
        for (form, sent) in sent.into_iter().enumerate() {
            let Ok(sent) = sent else { continue };
            judged(sent, numbers[form]);
            met[form][numbers[form] as usize] += 1;
        }
    }
    assert!(met.iter().all(|met| [3, 4, 5, 6, 8].iter().all(|&number| met[number] > 50)), "{met:?}");
}

#[test]
fn two_messages_of_one_number() {
    let mut ledger = with_room(8);
    let (wrong, right) = (message("M", ""), message("R", "U"));
    assert_eq!(ledger.take("a", 2, wrong), Ok(EARLY));
    assert_eq!(ledger.take("a", 2, wrong), Ok(EARLY), "the same once more");
    assert_eq!(ledger.take("a", 2, right), Err(NotTaken::Conflicts(wrong.into())));
    assert_eq!(ledger.take("a", 1, message("", "R")), Ok(APPLIED));
    let stuck = Why::NotQuoted(left("R"));
    assert_eq!(waiting(&ledger), [("a", 2, stuck, vec![2])]);
    assert_eq!(ledger.take("a", 2, wrong), Ok(Taken::HeldBack(stuck)));
    assert_eq!(ledger.take("a", 2, right), Err(NotTaken::Conflicts(wrong.into())));
    assert_eq!(ledger.give_back("a", 2), Some(wrong.into()));
    assert_eq!((ledger.give_back("a", 2), ledger.give_back("b", 2)), (None, None));
    assert_eq!(ledger.take("a", 2, right), Ok(APPLIED));
    assert_eq!((waiting(&ledger), ledger.left("a")), (vec![], left("U")));
}

/// Messages of another kind that were held back before the kind was known stay where they are until they are taken out.
#[test]
fn another_kind_is_held_back_until_it_is_given_back() {
    let mut ledger = with_room(8);
    let other = Message::new(Kind::Membership, half("R"), half("U"));
    assert_eq!(ledger.take("a", 2, other), Ok(EARLY));
    assert_eq!(ledger.take("a", 3, message("U", "")), Ok(EARLY));
    assert_eq!(ledger.take("a", 1, message("", "R")), Ok(APPLIED));
    assert_eq!(waiting(&ledger), [("a", 2, Why::OtherKind(P), vec![2, 3])]);
    assert_eq!(ledger.skip("a"), Err(NotTaken::OtherKind(P)));
    assert_eq!(ledger.give_back("a", 2), Some(other.into()));
    assert_eq!(ledger.skip("a"), Ok(1), "from R to nothing, though the last message quotes U");
    assert_eq!((waiting(&ledger), lines(&ledger)), (vec![], vec![]));
    assert_eq!(ledger.statement("a"), Some(Statement { kind: P, left: None, taken: 3 }));
}

/// A record for each key, with room for one.
fn on(key: u64) -> Option<Half> {
    Some(Half::new(key, 1, Rights::READ))
}

#[test]
fn a_full_block_is_tried_again() {
    let no_room = Taken::HeldBack(Why::Refused(Refusal::NoRoom));
    let mut ledger = with_room(1);
    ledger.say("here", P, on(1)).expect("room");
    assert_eq!(ledger.take("b", 1, Message::new(P, None, on(2))), Ok(no_room));
    assert_eq!(ledger.take("b", 1, Message::new(P, None, on(2))), Ok(no_room), "the same once more");
    assert_eq!(ledger.take("b", 2, Message::new(P, on(2), on(3))), Ok(EARLY));
    assert_eq!(ledger.take("c", 1, Message::new(P, None, on(3))), Ok(no_room));
    let full = Why::Refused(Refusal::NoRoom);
    assert_eq!(waiting(&ledger), [("b", 1, full, vec![1, 2]), ("c", 1, full, vec![1])]);
    assert_eq!(ledger.skip("b"), Err(NotTaken::Refused(Refusal::NoRoom)));
    assert_eq!(ledger.say("b", P, on(1)), Err(NotTaken::OthersFirst));
    // The room is free: b takes it and moves on to where c finds its record.
    assert_eq!(ledger.take("here", 2, Message::new(P, on(1), None)), Ok(Taken::Applied { released: 3 }));
    assert_eq!((waiting(&ledger), lines(&ledger)), (vec![], vec!["P3 1;R2".to_string()]));
}

#[test]
fn a_block_that_grows_takes_what_had_no_room() {
    let full = Why::Refused(Refusal::NoRoom);
    let mut ledger = with_room(0);
    for (label, key) in [("a", 1), ("b", 2), ("c", 3)] {
        assert_eq!(ledger.take(label, 1, Message::new(P, None, on(key))), Ok(Taken::HeldBack(full)));
    }
    assert_eq!(ledger.grow(2), Ok(2));
    assert_eq!((waiting(&ledger), ledger.block().room()), (vec![("c", 1, full, vec![1])], 2));
    assert_eq!(ledger.grow(Block::GREATEST_ROOM + 1), Err(Refusal::BlockLength));
    assert_eq!(ledger.grow(2), Ok(0));
    assert_eq!(ledger.give_back("c", 1), Some(Message::new(P, None, on(3)).into()));
    assert_eq!((ledger.grow(Block::GREATEST_ROOM), lines(&ledger)), (Ok(0), vec!["P1 1;R".to_string(), "P2 1;R".to_string()]));
    assert_eq!(ledger.take("c", 1, Message::new(P, None, on(3))), Ok(APPLIED));
}

/// A message that had no room is given back while one behind it waits: that one is early then, and is not tried.
#[test]
fn one_that_had_no_room_is_given_back() {
    let mut ledger = with_room(1);
    ledger.say("here", P, on(1)).expect("room");
    ledger.take("b", 1, Message::new(P, None, on(2))).expect("held back");
    ledger.take("b", 2, Message::new(P, on(2), None)).expect("held back");
    assert_eq!(ledger.give_back("b", 1), Some(Message::new(P, None, on(2)).into()));
    assert_eq!(waiting(&ledger), [("b", 1, Why::Early, vec![2])]);
    assert_eq!(ledger.say("here", P, None).map(|said| said.sequence), Ok(2));
    assert_eq!(waiting(&ledger), [("b", 1, Why::Early, vec![2])]);
    assert_eq!(ledger.skip("b"), Ok(1), "a start that is given up and an end: nothing is left to do");
    assert_eq!((waiting(&ledger), lines(&ledger)), (vec![], vec![]));
    assert_eq!(ledger.take("b", 1, Message::new(P, None, on(2))), Ok(Taken::Repeated));
}

/// What follows when a statement goes on: its own messages, one of which has no room and is tried again later, and those of
/// others that had no room.
#[test]
fn a_full_block_is_tried_again_after_going_on() {
    let mut ledger = with_room(1);
    ledger.say("here", P, on(1)).expect("room");
    ledger.take("b", 2, Message::new(P, on(1), on(1))).expect("held back");
    ledger.take("b", 3, Message::new(P, on(1), on(2))).expect("held back");
    assert_eq!((ledger.skip("b"), lines(&ledger)), (Ok(1), vec!["P1 1;R2".to_string()]));
    assert_eq!(waiting(&ledger), [("b", 3, Why::Refused(Refusal::NoRoom), vec![3])]);
    assert_eq!(ledger.take("here", 2, Message::new(P, on(1), None)), Ok(Taken::Applied { released: 1 }));
    assert_eq!(lines(&ledger), ["P2 1;R"]);
    ledger.take("c", 1, Message::new(P, None, on(3))).expect("held back");
    ledger.take("b", 5, Message::new(P, on(4), None)).expect("held back");
    assert_eq!((ledger.skip("b"), waiting(&ledger), lines(&ledger)), (Ok(2), vec![], vec!["P3 1;R".to_string()]));
}

/// 65,535 statements stand with one letter of one record. One more waits until one of them ends.
#[test]
fn a_full_count_is_tried_again() {
    let mut ledger = Ledger::with_room(1).expect("room");
    for label in 0..65_535u32 {
        ledger.say(label, P, half("R")).expect("a count below the greatest");
    }
    let full = Why::Refused(Refusal::CountFull);
    assert_eq!(ledger.say(70_000, P, half("RU")), Err(NotTaken::Refused(Refusal::CountFull)));
    assert_eq!(ledger.take(70_000, 1, message("", "RU")), Ok(Taken::HeldBack(full)));
    assert_eq!(ledger.take(70_000, 2, message("RU", "U")), Ok(EARLY));
    assert_eq!(ledger.waiting().map(|waits| waits.why).collect::<Vec<_>>(), [full]);
    assert_eq!(ledger.take(3, 2, message("R", "R")), Ok(APPLIED), "the count is as full as before");
    assert_eq!(ledger.take(3, 3, message("R", "")), Ok(Taken::Applied { released: 2 }));
    let record = ledger.block().records().expect("good").next().expect("a record");
    assert_eq!((record.count('R'), record.count('U'), ledger.waiting().count()), (65_534, 1, 0));
}

/// One message waits for a count, and the one that would lower it waits for room: both follow when there is room, though the
/// first is tried before the second.
#[test]
fn what_was_refused_is_tried_until_nothing_more_is_accepted() {
    let mut ledger = Ledger::with_room(2).expect("room");
    for label in 10..65_545u32 {
        ledger.say(label, P, on(1)).expect("a count below the greatest");
    }
    ledger.say(70_000, P, on(2)).expect("room");
    let refused = |refusal| Ok(Taken::HeldBack(Why::Refused(refusal)));
    assert_eq!(ledger.take(20, 2, Message::new(P, on(1), on(3))), refused(Refusal::NoRoom));
    assert_eq!(ledger.take(5, 1, Message::new(P, None, on(1))), refused(Refusal::CountFull));
    assert_eq!(ledger.take(70_000, 2, Message::new(P, on(2), None)), Ok(Taken::Applied { released: 2 }));
    let records: Vec<String> = ledger.block().records().expect("good").map(|record| record.to_string()).collect();
    assert_eq!((records, ledger.waiting().count()), (vec!["P1 1;R65535".into(), "P3 1;R".into()], 0));
}

#[test]
fn a_statement_goes_on_without_what_was_lost() {
    let mut ledger = with_room(8);
    assert_eq!(ledger.skip("a"), Err(NotTaken::NothingHeldBack));
    assert_eq!(ledger.take("a", 1, message("", "M")), Ok(APPLIED));
    assert_eq!(ledger.skip("a"), Err(NotTaken::NothingHeldBack));
    assert_eq!(ledger.take("a", 4, message("U", "P")), Ok(EARLY));
    assert_eq!(ledger.take("a", 5, message("P", "RP")), Ok(EARLY));
    assert_eq!(ledger.take("a", 7, message("R", "")), Ok(EARLY));
    assert_eq!(ledger.skip("a"), Ok(2), "from M to P, and on to RP");
    assert_eq!((waiting(&ledger), lines(&ledger)), (vec![("a", 6, Why::Early, vec![7])], vec!["P9 1;RP".to_string()]));
    assert_eq!(ledger.take("a", 2, message("M", "R")), Ok(Taken::Repeated));
    assert_eq!(ledger.skip("a"), Ok(1));
    assert_eq!((waiting(&ledger), lines(&ledger), ledger.left("a")), (vec![], vec![], None));
}

/// Numbers up to the greatest: nothing wraps.
#[test]
fn the_greatest_number_is_the_last() {
    let mut ledger = with_room(8);
    assert_eq!(ledger.take("a", u64::MAX, message("M", "R")), Ok(EARLY));
    assert_eq!(ledger.take("a", u64::MAX - 1, message("U", "M")), Ok(EARLY));
    assert_eq!(ledger.skip("a"), Ok(2));
    assert_eq!(ledger.say("a", P, None), Err(NotTaken::SequenceUsedUp));
    assert_eq!(ledger.take("a", u64::MAX, message("R", "")), Ok(Taken::Repeated));
    assert_eq!((lines(&ledger), ledger.waiting().count()), (vec!["P9 1;R".to_string()], 0));
}

/// The statements of a record, whatever they have held back; those that ended, and those of other kinds and records, are not
/// among them.
#[test]
fn statements_of_a_record() {
    let mut ledger: Ledger<String> = Ledger::with_room(8).expect("room");
    let mut say = |label: &str, kind, new| ledger.say(label.into(), kind, new).map(drop);
    for (label, kind, new) in [
        ("one", P, half("RU")),
        ("ended", P, half("R")),
        ("moved", P, half("R")),
        ("two", P, half("um")),
        ("other kind", Kind::Filter, half("R")),
        ("other id", P, Some(Half::new(9, 2, Rights::READ))),
    ] {
        say(label, kind, new).expect("room");
    }
    say("ended", P, None).expect("it stands");
    say("moved", P, on(8)).expect("room");
    ledger.take("one".into(), 3, message("M", "")).expect("held back");
    let of = |kind, key, id| {
        ledger.statements_of(kind, key, id).map(|(label, half)| format!("{label} {}", half.mask)).collect::<Vec<_>>()
    };
    assert_eq!(of(P, 9, 1), ["one RU", "two mu"]);
    assert_eq!((of(Kind::Filter, 9, 1), of(P, 8, 1)), (vec!["other kind R".into()], vec!["moved R".into()]));
    assert_eq!((of(Kind::Membership, 9, 1), of(P, 1, 9), of(P, 65_545, 1)), (vec![], vec![], vec![]));
    assert_eq!((ledger.left("two"), ledger.left("ended"), ledger.left("nobody")), (left("um"), None, None));
}

/// A marker is part of what a statement leaves, and one that quotes another, or none, does not follow.
#[test]
fn markers_are_quoted() {
    let member = Half::new(1, 2, Rights::ALL);
    let [x, n] = Marker::ALL.map(|marker| member.marked(marker));
    let mut ledger: Ledger<&str> = Ledger::with_room(2).expect("room");
    ledger.say("a", Kind::Membership, Some(x)).expect("room");
    ledger.say("b", Kind::Membership, Some(n)).expect("room");
    for quoted in [member, n] {
        let message = Message::new(Kind::Membership, Some(quoted), None);
        assert_eq!(ledger.take("a", 2, message), Err(NotTaken::NotQuoted(Some(x.into()))));
    }
    let words = NotTaken::NotQuoted(Some(x.into())).to_string();
    assert_eq!(words, "its statement left key 1, id 2, MRUPX, and it does not quote that");
    let of: Vec<_> = ledger.statements_of(Kind::Membership, 1, 2).map(|(label, half)| (*label, half.marker)).collect();
    assert_eq!((of, lines(&ledger)), (vec![("a", Some(Marker::X)), ("b", Some(Marker::N))], vec!["M1 2;M2R2U2P2XN".into()]));
    assert_eq!(ledger.take("a", 2, Message::new(Kind::Membership, Some(x), Some(member))), Ok(APPLIED));
    assert_eq!(lines(&ledger), ["M1 2;M2R2U2P2N"]);
    let stored: Vec<_> = ledger.statements().map(|(label, said)| (*label, said)).collect();
    assert_eq!(Ledger::restore(2, stored).expect("room").block(), ledger.block());
}

/// Keys and ids with these letters.
fn wide(keys: &[u64], ids: &[u64], letters: &str) -> Option<WideHalf> {
    let half = WideHalf::new(keys.iter().copied(), ids.iter().copied(), letters.parse::<Letters>().expect("letters"));
    Some(half.expect("names"))
}

/// A wide message of a permission.
fn widely(previous: Option<WideHalf>, new: Option<WideHalf>) -> WideMessage {
    WideMessage::new(P, previous, new)
}

/// The mill's story with wide messages: a plain statement gives one of the same rights, and it is held when the wide one has less
/// to say, and when it ends.
#[test]
fn a_wide_statement_counts_once_in_each_of_its_pairs() {
    let mut ledger = with_room(8);
    let (four, two) = (wide(&[8, 9], &[1, 2], "RU"), wide(&[8], &[1, 2], "U"));
    assert_eq!(ledger.take("plain", 1, message("", "U")), Ok(APPLIED));
    assert_eq!(ledger.take("wide", 3, widely(two, None)), Ok(EARLY));
    assert_eq!(ledger.take("wide", 1, widely(None, four)), Ok(APPLIED));
    assert_eq!(lines(&ledger), ["P8 1;RU", "P8 2;RU", "P9 1;RU2", "P9 2;RU"]);
    let of = |key, id| ledger.statements_of(P, key, id).map(|(label, half)| (*label, half)).collect::<Vec<_>>();
    let both = [("plain", Half::new(9, 1, Rights::UPDATE)), ("wide", Half::new(9, 1, Rights::READ | Rights::UPDATE))];
    assert_eq!((of(9, 1), of(9, 3), of(7, 1)), (both.to_vec(), vec![], vec![]));
    assert_eq!(ledger.left("wide"), four);
    assert_eq!(ledger.take("wide", 2, widely(four, two)), Ok(Taken::Applied { released: 1 }));
    assert_eq!((lines(&ledger), ledger.left("wide")), (vec!["P9 1;U".to_string()], None));
}

/// A statement may speak plainly and widely in turn. One pair is one pair, in whichever message it stands.
#[test]
fn what_is_left_is_a_list_of_pairs() {
    let mut ledger = with_room(8);
    let more = wide(&[8, 9], &[1], "R");
    assert_eq!(ledger.take("a", 1, widely(None, left("R"))), Ok(APPLIED));
    assert_eq!((ledger.left("a"), ledger.left("a").and_then(|left| left.plain())), (left("R"), half("R")));
    for other in [widely(more, None), widely(left("U"), None), widely(wide(&[9], &[1, 2], "R"), more)] {
        assert_eq!(ledger.take("a", 2, other), Err(NotTaken::NotQuoted(left("R"))));
    }
    assert_eq!(ledger.take("a", 2, message("R", "RU")), Ok(APPLIED), "what was left by a wide message, quoted by a plain one");
    assert_eq!(ledger.take("a", 3, widely(left("RU"), more)), Ok(APPLIED), "and the other way");
    for other in [message("R", ""), message("", "R")] {
        assert_eq!(ledger.take("a", 4, other), Err(NotTaken::NotQuoted(more)));
    }
    let words = "its statement left keys 8 9, id 1, R, and it does not quote that";
    assert_eq!(NotTaken::NotQuoted(more).to_string(), words);
    assert_eq!(ledger.say("a", P, half("U")).map(|said| said.message), Ok(widely(more, left("U")).into()));
    assert_eq!(ledger.say("a", P, None).map(|said| said.message), Ok(message("U", "").into()));
    assert_eq!(lines(&ledger), Vec::<String>::new());
}

/// What is held back is kept as what it says: the same in the other form is the same message, and is given back as a plain one.
#[test]
fn the_same_plainly_and_widely_is_one_message() {
    let mut ledger = with_room(8);
    let (plain, one_pair, more) = (message("U", ""), widely(left("U"), None), widely(wide(&[8, 9], &[1], "U"), None));
    assert_eq!(ledger.take("a", 2, one_pair), Ok(EARLY));
    assert_eq!(ledger.take("a", 2, plain), Ok(EARLY));
    assert_eq!(ledger.take("a", 2, more), Err(NotTaken::Conflicts(plain.into())));
    assert_eq!(ledger.give_back("a", 2), Some(plain.into()));
    assert_eq!(ledger.take("a", 2, more), Ok(EARLY));
    assert_eq!(ledger.take("a", 2, plain), Err(NotTaken::Conflicts(more.into())));
    let words = "another message with its sequence number is held back: P, from keys 8 9, id 1, U to nothing";
    assert_eq!(NotTaken::Conflicts(more.into()).to_string(), words);
}

/// A wide message has room for all its pairs or for none, waits, and is tried again; where it will not come, the statement goes on.
#[test]
fn a_wide_message_waits_for_room() {
    let mut ledger = with_room(4);
    let (three, four) = (wide(&[1, 2, 3], &[1], "R"), wide(&[3, 4], &[1, 2], "R"));
    let no_room = Taken::HeldBack(Why::Refused(Refusal::NoRoom));
    ledger.say_wide("here", P, three).expect("room");
    assert_eq!(ledger.take("b", 1, widely(None, four)), Ok(no_room), "for two of its four pairs");
    assert_eq!(lines(&ledger), ["P1 1;R", "P2 1;R", "P3 1;R"]);
    assert_eq!(ledger.take("b", 3, widely(three, left("U"))), Ok(EARLY));
    assert_eq!(waiting(&ledger), [("b", 1, Why::Refused(Refusal::NoRoom), vec![1, 3])]);
    assert_eq!(ledger.take("here", 2, widely(three, left("R"))), Ok(APPLIED), "still one too few");
    assert_eq!(ledger.say("here", P, None).map(|said| said.sequence), Ok(3));
    assert_eq!(lines(&ledger), ["P3 1;R", "P3 2;R", "P4 1;R", "P4 2;R"]);
    assert_eq!(ledger.skip("b"), Ok(1), "from the four pairs, though the message quotes three");
    assert_eq!((lines(&ledger), ledger.left("b")), (vec!["P9 1;U".to_string()], left("U")));
}

/// Wide statements are stored and come again, with their markers.
#[test]
fn a_ledger_of_wide_statements_is_restored() {
    let mut ledger = with_room(8);
    let members = wide(&[1, 2], &[3, 4], "MRUP").map(|half| half.marked(Marker::X));
    ledger.say_wide("firm", Kind::Membership, members).expect("room");
    ledger.say("plain", Kind::Membership, Some(Half::new(1, 3, Rights::READ))).expect("room");
    let other = WideMessage::new(Kind::Membership, wide(&[1, 2], &[3, 4], "MRUP"), None);
    assert_eq!(ledger.take("firm", 2, other), Err(NotTaken::NotQuoted(members)), "the marker is part of it");
    let stored: Vec<_> = ledger.statements().map(|(label, said)| (*label, said)).collect();
    let mut again = Ledger::restore(8, stored).expect("room");
    assert_eq!((again.block(), again.left("firm")), (ledger.block(), members));
    assert_eq!(again.say("firm", Kind::Membership, None).map(|said| said.sequence), Ok(2));
    assert_eq!(lines(&again), ["M1 3;R"]);
}

/// What can be put together wrongly all the same.
#[test]
fn a_wide_message_that_is_wrong_is_not_taken() {
    let refused = |refusal| Err(NotTaken::Refused(refusal));
    let not_said = |refusal| Err(NotTaken::Refused(refusal));
    let mut ledger = with_room(8);
    let marked = wide(&[1, 2], &[3], "R").map(|half| half.marked(Marker::N));
    assert_eq!(ledger.take("a", 1, widely(None, None)), refused(Refusal::Form));
    assert_eq!(ledger.take("a", 2, widely(None, marked)), refused(Refusal::Form));
    assert_eq!(ledger.take("a", 1, widely(None, wide(&[1, 1_024], &[3], "R"))), refused(Refusal::Name));
    assert_eq!(ledger.take("a", 2, WideMessage::new(Kind::Filter, None, wide(&[1, 2], &[3], "m"))), refused(Refusal::Mask));
    assert_eq!(ledger.say_wide("a", P, wide(&[1, 2], &[3], "-")), not_said(Refusal::Mask));
    assert_eq!(ledger.say_wide("a", P, wide(&[70_000, 2], &[3], "R")), not_said(Refusal::Name));
    assert_eq!(ledger.statements().count() + ledger.waiting().count(), 0);
}

#[test]
fn statements_that_can_not_be_are_not_restored() {
    let said = |left: Option<Half>| Statement { kind: P, left: left.map(WideHalf::from), taken: 1 };
    let restored = |room, statements: &[Statement]| Ledger::restore(room, statements.iter().copied().enumerate());
    assert_eq!(restored(Block::GREATEST_ROOM + 1, &[]).err(), Some(Refusal::BlockLength));
    assert_eq!(restored(1, &[said(on(1)), said(on(2))]).err(), Some(Refusal::NoRoom));
    assert_eq!(restored(1, &[said(on(1_024))]).err(), Some(Refusal::Name));
    let twice = Ledger::restore(1, [("a", said(on(1))), ("a", said(on(2)))]).expect("room for one");
    assert_eq!((twice.left("a"), lines(&twice)), (on(2).map(WideHalf::from), vec!["P2 1;R".to_string()]));
}

#[test]
fn each_reason_has_its_words() {
    let held = message("M", "");
    let words = [
        (
            NotTaken::from(Refusal::NoRoom),
            "refused with 8: after taking away (or removing the old set), the records do not fit",
        ),
        (NotTaken::SequenceZero, "the sequence number is 0, and the first message of a statement has 1"),
        (NotTaken::OtherKind(P), "its statement is of kind P"),
        (NotTaken::NotQuoted(None), "its statement left nothing, and it quotes something"),
        (NotTaken::NotQuoted(left("RU")), "its statement left key 9, id 1, RU, and it does not quote that"),
        (
            NotTaken::Conflicts(held.into()),
            "another message with its sequence number is held back: P, from key 9, id 1, M to nothing",
        ),
        (NotTaken::OthersFirst, "messages of the statement are held back, which come first"),
        (NotTaken::NothingHeldBack, "no message of the statement is held back"),
        (NotTaken::SequenceUsedUp, "the statement has no sequence number left"),
    ];
    for (why, said) in words {
        assert_eq!(why.to_string(), said);
    }
    assert_eq!(Why::Early.to_string(), "a message of its statement comes before it");
    assert_eq!(NotTaken::from(Why::Early), NotTaken::OthersFirst);
}
