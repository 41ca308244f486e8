//! Both profiles: which denials bar a right, and which do not.

use crate::blocks::with_room;
use anaqsiro::{raw, Block, DirectedBlock, Half, Kind, Letters, Marker, Message, Name, Profile, Refusal, Rights};
use second::gen::Rng;
use second::ALL;
use std::collections::BTreeSet;

const M: Kind = Kind::Membership;
const P: Kind = Kind::Permission;
const F: Kind = Kind::Filter;

/// How many records a chain may have.
pub const CHAIN: u64 = 32;

/// A block of these sets.
pub fn block_of<T: AsRef<[u8]>>(sets: impl IntoIterator<Item = (Kind, Name, T)>) -> Block {
    let mut block = with_room(200);
    for (kind, key, text) in sets {
        block.read_set(kind, key, text).expect("room");
    }
    block
}

/// What a user holds on an object in the ordinary profile and in the strict one. The short question, the one by a directory and the
/// numbers of records examined are looked at besides.
fn both(block: &Block, directed: &DirectedBlock, user: Name, object: Name) -> [Rights; 2] {
    let [ordinary, strict] = Profile::ALL.map(|profile| {
        let all = block.rights(user, object, Rights::ALL, profile).expect("a good block");
        for request in (1..=ALL).filter_map(Rights::from_mask) {
            let held = block.rights(user, object, request, profile).expect("a good block");
            assert_eq!(held.rights, all.rights & request);
            assert_eq!(directed.rights(user, object, request, profile), Ok(held));
            let yes = Ok(all.rights.contains(request));
            assert_eq!(block.may(user, object, request, profile), yes, "{user} {object} {request} {profile:?}");
            assert_eq!(directed.may(user, object, request, profile), yes);
        }
        all
    });
    assert_eq!([ordinary.user_examined, ordinary.object_examined], [strict.user_examined, strict.object_examined]);
    assert!(ordinary.rights.contains(strict.rights), "the strict profile never gives more");
    [ordinary.rights, strict.rights]
}

/// The same as letters, of a block of its own.
fn told(block: &Block, user: Name, object: Name) -> [String; 2] {
    let directed = block.clone().with_directory().expect("a good block");
    both(block, &directed, user, object).map(|held| held.to_string())
}

#[test]
fn a_profile_has_its_number() {
    assert_eq!(Profile::ALL.map(Profile::number), [0, 1]);
    assert_eq!(Profile::ALL.map(|profile| Profile::from_number(profile.number().into())), Profile::ALL.map(Some));
    for number in [2, 3, 255, 256, 257, 1 << 32, (1 << 32) + 1, u64::MAX] {
        assert_eq!(Profile::from_number(number), None);
    }
}

/// Every two masks of permissions, one of the user and one of a group of hers, a mask of 0 for none: a denial takes its right out of
/// its own record in both profiles, and in the strict one out of the other, too.
#[test]
fn every_denial_counts() {
    for masks in 0..1 << 16 {
        let letters = [masks & 255, masks >> 8].map(|mask| Letters::from_mask(mask).expect("a mask"));
        let mut block = with_room(3);
        block.apply(Message::new(M, None, Some(Half::new(1, 2, Rights::ALL)))).expect("room");
        for (id, &letters) in (1..).zip(&letters).filter(|(_, letters)| !letters.is_empty()) {
            block.apply(Message::new(P, None, Some(Half::new(9, id, letters)))).expect("room");
        }
        let [one, other] = letters.map(|letters| letters.rights().without(letters.denied()));
        let (granted, barred) = (one | other, letters[0].denied() | letters[1].denied());
        let asked = |profile| block.rights(1, 9, Rights::ALL, profile).expect("a good block").rights;
        assert_eq!(Profile::ALL.map(asked), [granted, granted.without(barred)], "{letters:?}");
    }
}

/// A denial comes to the user by a group of hers, by a group of the object's, by both, and by 0.
#[test]
fn a_denial_is_reached_as_a_grant_is() {
    let grant = [(P, 9, "1;MRUP"), (M, 1, "2;MRUP"), (M, 9, "8;MRUP")];
    let with = |more: (Kind, Name, &'static str)| block_of(grant.into_iter().chain([more]));
    assert_eq!(told(&block_of(grant), 1, 9), ["MRUP", "MRUP"]);
    assert_eq!(told(&with((P, 9, "1;MRUP;2;r")), 1, 9), ["MRUP", "MUP"]);
    assert_eq!(told(&with((P, 8, "1;u")), 1, 9), ["MRUP", "MRP"]);
    assert_eq!(told(&with((P, 8, "2;up")), 1, 9), ["MRUP", "MR"]);
    assert_eq!(told(&with((P, 0, "2;m")), 1, 9), ["MRUP", "RUP"]);
    assert_eq!(told(&with((P, 8, "3;mrup")), 1, 9), ["MRUP", "MRUP"], "she is not in 3");
    assert_eq!(told(&with((P, 7, "2;mrup")), 1, 9), ["MRUP", "MRUP"], "it is not in 7");
    assert_eq!(told(&with((P, 9, "1;MRUPu")), 1, 9), ["MRP", "MRP"], "in the granting record");
    assert_eq!(told(&with((P, 8, "2;RUu")), 1, 9), ["MRUP", "MRP"], "beside the right itself");
}

/// A denial that is reached for other rights alone does not bar: each right has chains of its own, on both sides.
#[test]
fn a_denial_is_reached_for_its_own_right() {
    for mask in 1..=ALL {
        let carried = Rights::from_mask(mask).expect("rights");
        let barred = Rights::ALL.without(carried).to_string();
        let sets = |user: String, object: String| {
            let sets = [(M, 1, format!("2;{user}")), (M, 9, format!("8;{object}"))];
            block_of(sets.into_iter().chain([(P, 9, "1;MRUP".into()), (P, 8, "2;mrup".into())]))
        };
        assert_eq!(told(&sets(carried.to_string(), "MRUP".into()), 1, 9), ["MRUP", &barred]);
        assert_eq!(told(&sets("MRUP".into(), carried.to_string()), 1, 9), ["MRUP", &barred]);
    }
    let crossed = block_of([(M, 1, "2;R"), (M, 9, "8;U"), (P, 9, "1;MRUP"), (P, 8, "2;mrup")]);
    assert_eq!(told(&crossed, 1, 9), ["MRUP", "MRUP"], "from each side for another right");
    let broken = block_of([(M, 1, "2;R"), (M, 2, "3;U"), (P, 9, "1;MRUP;3;mrup")]);
    assert_eq!(told(&broken, 1, 9), ["MRUP", "MRUP"], "no right over the whole chain");
}

/// A chain of 32 memberships brings a denial, on either side, and one of 33 does not. Loops are harmless.
#[test]
fn a_denial_is_reached_over_32_records() {
    for length in [CHAIN - 1, CHAIN, CHAIN + 1] {
        let chain = (100..100 + length).map(|name| (M, name, format!("{name};R;{};MRUP", name + 1)));
        let end = 100 + length;
        let ends = [(P, 9, "100;R".into()), (P, 100, "9;R".into()), (P, 0, format!("{end};r")), (P, end, "9;r".into())];
        let block = block_of(chain.chain(ends));
        let strict = if length <= CHAIN { "-" } else { "R" };
        assert_eq!(told(&block, 100, 9), ["R", strict], "the user's side, {length}");
        assert_eq!(told(&block, 9, 100), ["R", strict], "the object's side, {length}");
    }
}

/// What is denied on 0 is barred on every object; what is denied on a group of 0 only where a chain from the object reaches 0.
#[test]
fn a_denial_on_0_bars_everywhere() {
    let sets = [(P, 0, "1;MRUPu"), (P, 5, "1;r"), (M, 0, "5;MRUP"), (M, 8, "0;R")];
    let block = block_of(sets.into_iter().chain([(P, 9, "1;U"), (P, 8, "1;U")]));
    assert_eq!(told(&block, 1, 9), ["MRUP", "MRP"]);
    assert_eq!(told(&block, 1, 700), ["MRP", "MRP"]);
    assert_eq!(told(&block, 1, 8), ["MRUP", "MP"], "0 is reached, and so is its group");
    assert_eq!(told(&block, 1, 0), ["MRP", "MP"]);
}

/// A right that two statements deny is barred until both have ended.
#[test]
fn denials_are_counted() {
    let mut block = block_of([(P, 9, "1;RU"), (M, 1, "2;MRUP")]);
    let denial = Some(Half::new(9, 2, Letters::NO_UPDATE));
    let (begins, ends) = (Message::new(P, None, denial), Message::new(P, denial, None));
    let mut seen = Vec::new();
    for message in [begins, begins, ends, ends] {
        block.apply(message).expect("accepted");
        seen.push(told(&block, 1, 9));
    }
    assert_eq!(seen, [["RU", "R"], ["RU", "R"], ["RU", "R"], ["RU", "RU"]]);
    block.read_set(P, 9, "1;RU;2;u65535").expect("room");
    assert_eq!(told(&block, 1, 9), ["RU", "R"]);
}

/// Filters and markers neither bar nor lift a bar: of what they leave, all is held that is not barred.
#[test]
fn filters_and_markers_have_no_part_in_it() {
    let sets = [(P, 9, "1;MRU;7;m"), (P, 8, "1;r"), (M, 9, "8;MRUP")];
    let with = |kind, key, text| told(&block_of(sets.into_iter().chain([(kind, key, text)])), 1, 9);
    assert_eq!(with(F, 8, "20;RU"), ["RU", "U"]);
    assert_eq!(with(F, 9, "20;MU"), ["MU", "MU"], "what is barred is not in the filter either");
    assert_eq!(with(M, 1, "8;MRUPX"), ["MRU", "MU"], "she is bound, and 9 is open to her");
    assert_eq!(with(M, 1, "10;MRUPX"), ["-", "-"], "she is bound, and 9 is not open to her");
    assert_eq!(with(M, 1, "7;MN"), ["MRU", "U"], "a membership with a marker brings the denial");
    assert_eq!(with(M, 1, "7;N"), ["MRU", "MU"], "one with a marker alone does not");
}

/// The names that a chain leads to from a start, each membership with the right, by the memberships as they are told.
fn reached(memberships: &[(Name, Name, Rights)], start: Name, right: Rights) -> BTreeSet<Name> {
    let mut names = BTreeSet::from([start]);
    for _ in 0..CHAIN {
        let here = |key: &Name, carried: &Rights| names.contains(key) && carried.contains(right);
        let next: Vec<Name> = memberships.iter().filter(|(key, _, carried)| here(key, carried)).map(|one| one.1).collect();
        names.extend(next);
    }
    names
}

/// The rights that are barred, record by record.
fn barred(block: &Block, user: Name, object: Name) -> Rights {
    let of = |kind| block.records().expect("good").filter(move |record| record.kind == kind);
    let memberships: Vec<_> = of(M).map(|record| (record.key, record.id, record.letters().rights())).collect();
    let is_barred = |right: &Rights| {
        let [users, objects] = [user, object].map(|start| reached(&memberships, start, *right));
        let on = |key| key == 0 || objects.contains(&key);
        of(P).any(|record| record.letters().denied().contains(*right) && users.contains(&record.id) && on(record.key))
    };
    let each = [Rights::CREATE, Rights::READ, Rights::UPDATE, Rights::DELETE];
    each.into_iter().filter(is_barred).fold(Rights::NONE, |barred, right| barred | right)
}

/// A block of few names at random, so that many records are reached.
pub fn any_block(rng: &mut Rng) -> Block {
    let mut block = with_room(40);
    for _ in 0..10 + rng.below(20) {
        let (kind, most) = rng.pick(&[(M, ALL), (M, ALL), (P, 255), (P, 255), (F, ALL)]);
        let half = Half::new(rng.below(6), rng.below(6), Letters::from_mask(1 + rng.below(most)).expect("a mask"));
        let marker = Marker::ALL.into_iter().find(|_| kind == M && rng.one_in(12));
        block.apply(Message::new(kind, None, Some(Half { marker, ..half }))).expect("room");
    }
    block
}

/// The strict answer is the ordinary one without what is barred, which is looked for record by record.
#[test]
fn what_is_barred_is_not_held() {
    let (mut differ, mut same) = (0, 0);
    for seed in 0..200 {
        let block = any_block(&mut Rng(seed));
        let directed = block.clone().with_directory().expect("a good block");
        for (user, object) in (0..36).map(|pair| (pair / 6, pair % 6)) {
            let [ordinary, strict] = both(&block, &directed, user, object);
            assert_eq!(strict, ordinary.without(barred(&block, user, object)), "{user} {object} {block:?}");
            *if strict == ordinary { &mut same } else { &mut differ } += usize::from(!ordinary.is_empty());
        }
    }
    assert!(differ > 500 && same > 500, "where something is held, {differ} differ and {same} are the same");
}

/// A profile that there is not is refused with 15 by each call, last of all: after 1, 2, 13, 4 and 5.
#[test]
fn another_profile_is_refused_last() {
    let directed = block_of([(P, 9, "1;R")]).with_directory().expect("good");
    let (block, entries) = (directed.block().bytes(), directed.directory());
    let [short, part, whole] = [Block::SHORTEST - 1, Block::SHORTEST + 1, block.len()];
    let (own, cut) = (entries.len(), entries.len() - 1);
    let ask = |(len, length, user, request): (usize, usize, Name, u64), profile: u64| {
        let (block, directory) = (block.as_ptr(), entries.as_ptr());
        // SAFETY: no length is above that of its slice, and the calls only read.
        unsafe {
            [
                raw::anaqsiro_rights(block, len, user, 9, request, profile),
                raw::anaqsiro_may(block, len, user, 9, request, profile),
                raw::anaqsiro_rights_by(block, len, directory, length, user, 9, request, profile),
                raw::anaqsiro_may_by(block, len, directory, length, user, 9, request, profile),
            ]
        }
    };
    let refused = |numbers: [u64; 4]| numbers.map(|number| number << 32);
    for profile in [2, 3, 256, 1 << 32, (1 << 32) + 1, u64::MAX] {
        assert_eq!(ask((short, cut, 1024, 0), profile), refused([1, 1, 1, 1]));
        assert_eq!(ask((part, cut, 1024, 0), profile), refused([2, 2, 2, 2]));
        assert_eq!(ask((whole, cut, 1024, 0), profile), refused([4, 4, 13, 13]));
        assert_eq!(ask((whole, own, 1024, 0), profile), refused([4, 4, 4, 4]));
        assert_eq!(ask((whole, own, 1, 0), profile), refused([5, 5, 5, 5]));
        assert_eq!(ask((whole, own, 1, 2), profile), refused([15, 15, 15, 15]));
        assert_eq!(Refusal::from_answer(ask((whole, own, 1, 2), profile)[0]), Some(Refusal::Profile));
    }
    for profile in Profile::ALL.map(|profile| profile.number().into()) {
        assert_eq!(ask((whole, own, 1, 2), profile), [2, 1, 2, 1]);
    }
}
