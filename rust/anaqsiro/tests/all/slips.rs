//! Slips: which are found, which are right, and what is refused.

use crate::profiles::{any_block, block_of, CHAIN};
use anaqsiro::{raw, Block, Kind, Name, Profile, Refusal, Rights, Slip, NAMES};
use second::gen::Rng;
use second::ALL;

const M: Kind = Kind::Membership;
const P: Kind = Kind::Permission;
const F: Kind = Kind::Filter;

/// Each right by itself.
const EACH: [Rights; 4] = [Rights::CREATE, Rights::READ, Rights::UPDATE, Rights::DELETE];

/// A slip of these names.
fn slip(user: impl Into<Vec<Name>>, object: impl Into<Vec<Name>>) -> Slip {
    Slip { user_chain: user.into(), object_chain: object.into() }
}

/// What is found, as text; `-` for none. It has to be right, and there where the right is held.
fn found(block: &Block, user: Name, object: Name, right: Rights) -> String {
    let slip = block.find_slip(user, object, right).expect("a good block");
    assert_eq!(block.may(user, object, right, Profile::Ordinary), Ok(slip.is_some()), "{user} {object} {right} {block:?}");
    slip.map_or("-".into(), |slip| {
        assert_eq!(block.check_slip(user, object, right, &slip), Ok(true), "{slip}");
        slip.to_string()
    })
}

/// The block of the planner: 7 is in 10, which is in 12 for reading and updating, and bound to 21; 711 is in 20, which is in 21.
fn planned() -> Block {
    let memberships = [(M, 7, "10;MRUP;21;MRUPX"), (M, 10, "12;RU"), (M, 20, "21;MRUP"), (M, 711, "20;MRUP")];
    block_of(memberships.into_iter().chain([(P, 20, "12;MRU"), (F, 20, "30;MU")]))
}

#[test]
fn a_slip_says_why() {
    let block = planned();
    assert_eq!(found(&block, 7, 711, Rights::UPDATE), "7, 10, 12 | 711, 20");
    assert_eq!(found(&block, 7, 20, Rights::UPDATE), "7, 10, 12 | 20");
    assert_eq!(found(&block, 12, 711, Rights::UPDATE), "12 | 711, 20");
    assert_eq!(found(&block, 7, 711, Rights::READ), "-", "the filter has no reading");
    assert_eq!(found(&block, 7, 711, Rights::CREATE), "-", "a membership carries no creating");
    assert_eq!(found(&block, 7, 711, Rights::DELETE), "-", "nobody grants deleting");
    assert_eq!(found(&block, 7, 712, Rights::UPDATE), "-");
}

/// After a change the slip is right where all that it rests on is still there.
#[test]
fn a_slip_is_of_the_block_as_it_was() {
    let ask = |kind, key, text: &str| {
        let mut block = planned();
        block.read_set(kind, key, text).expect("room");
        block.check_slip(7, 711, Rights::UPDATE, &slip([7, 10, 12], [711, 20])).expect("a good block")
    };
    assert!(ask(M, 9, "10;MRUP"), "what it does not rest on");
    assert!(ask(M, 10, "12;U65535X"), "more of the same");
    assert!(!ask(M, 7, "21;MRUPX"), "the first membership");
    assert!(!ask(M, 10, "12;MRP"), "the right of the second one");
    assert!(!ask(M, 711, "21;MRUP"), "that of the object");
    assert!(!ask(P, 20, "7;U;10;U"), "the permission");
    assert!(!ask(P, 20, "12;MRUu"), "the right in it");
    assert!(!ask(F, 711, "31;MR"), "a filter of the object");
    assert!(ask(F, 21, "31;MR"), "a filter of what its groups are in");
    assert!(!ask(M, 20, "22;MRUP"), "a group of hers");
    assert!(ask(P, 711, "7;u"), "a denial, which bars in the strict profile alone");
}

/// 0 by itself counts for every object, and is no chain from it.
#[test]
fn zero_stands_by_itself() {
    let block = block_of([(P, 0, "1;R"), (P, 5, "1;U"), (M, 0, "5;MRUP"), (M, 8, "0;MRUP")]);
    let right = |object, right, list: &[Name]| block.check_slip(1, object, right, &slip([1], list)).expect("a good block");
    for object in [0, 5, 8, 9] {
        assert_eq!(found(&block, 1, object, Rights::READ), "1 | 0");
    }
    assert_eq!(found(&block, 1, 0, Rights::UPDATE), "1 | 0, 5");
    assert_eq!(found(&block, 1, 8, Rights::UPDATE), "1 | 8, 0, 5");
    assert_eq!(found(&block, 1, 9, Rights::UPDATE), "-");
    assert!(!right(9, Rights::UPDATE, &[0, 5]) && !right(8, Rights::UPDATE, &[0, 5]) && right(0, Rights::UPDATE, &[0, 5]));
    assert!(right(8, Rights::READ, &[8, 0]) && !right(9, Rights::READ, &[9, 0]) && !right(9, Rights::READ, &[0, 0]));
}

/// A chain of 32 memberships has 33 names; one of 33 gives no slip, and its names are too many.
#[test]
fn a_chain_has_33_names_at_most() {
    for length in [CHAIN - 1, CHAIN, CHAIN + 1] {
        let (end, names) = (100 + length, (100..=100 + length).collect::<Vec<Name>>());
        let chain = (100..end).map(|name| (M, name, format!("{name};R;{};MRUP", name + 1)));
        let block = block_of(chain.chain([(P, 9, format!("{end};R")), (P, end, "9;R".into())]));
        for (user, object, slip) in [(100, 9, slip(names.clone(), [9])), (9, 100, slip([9], names))] {
            let held = length <= CHAIN;
            assert_eq!(block.find_slip(user, object, Rights::READ), Ok(held.then(|| slip.clone())));
            let right = if held { Ok(true) } else { Err(Refusal::ChainLength) };
            assert_eq!(block.check_slip(user, object, Rights::READ, &slip), right);
        }
    }
}

/// The memberships or the permissions of a block that count in full for a right, as key and id.
fn counting(block: &Block, kind: Kind, right: Rights) -> Vec<(Name, Name)> {
    let records = block.records().expect("good").filter(|record| record.kind == kind);
    let net = records.filter(|record| record.letters().rights().without(record.letters().denied()).contains(right));
    net.map(|record| (record.key, record.id)).collect()
}

/// Whether the filters let a right through, and the object is open: with a grant on 0 to the user herself it is held just then.
fn let_through(block: &Block, user: Name, object: Name, right: Rights) -> bool {
    let mut granted = block.clone();
    granted.grow(Block::GREATEST_ROOM).expect("room");
    granted.read_set(P, 0, format!("{user};{right}")).expect("room");
    granted.may(user, object, right, Profile::Ordinary).expect("a good block")
}

/// Whether a slip is right, by what the records say.
fn is_right(block: &Block, user: Name, object: Name, right: Rights, slip: &Slip) -> bool {
    let (steps, grants) = (counting(block, M, right), counting(block, P, right));
    let leads = |chain: &[Name], start| chain[0] == start && chain.windows(2).all(|pair| steps.contains(&(pair[0], pair[1])));
    let Some((&id, &key)) = slip.user_chain.last().zip(slip.object_chain.last()) else { return false };
    let from_object = slip.object_chain == [0] || leads(&slip.object_chain, object);
    leads(&slip.user_chain, user) && from_object && grants.contains(&(key, id)) && let_through(block, user, object, right)
}

/// How many names the shortest chain from a start to an end has, in a block with few names.
fn names_to(steps: &[(Name, Name)], start: Name, end: Name) -> Option<usize> {
    let mut reached = vec![start];
    for names in 1..=Slip::LONGEST {
        if reached.contains(&end) {
            return Some(names);
        }
        let next: Vec<Name> = steps.iter().filter(|(key, _)| reached.contains(key)).map(|&(_, id)| id).collect();
        reached.extend(next);
    }
    None
}

/// How many names a slip has at least that ends at some grant, filters and groups aside.
fn fewest(block: &Block, user: Name, object: Name, right: Rights) -> Option<usize> {
    let steps = counting(block, M, right);
    let names = |(key, id)| {
        let of_object = if key == 0 { Some(1) } else { names_to(&steps, object, key) };
        Some(names_to(&steps, user, id)? + of_object?)
    };
    counting(block, P, right).into_iter().filter_map(names).min()
}

/// One name of a slip changed, left out, put in, or both lists exchanged.
fn forged(rng: &mut Rng, slip: &Slip) -> Slip {
    let Slip { mut user_chain, mut object_chain } = slip.clone();
    if rng.one_in(8) {
        return Slip { user_chain: object_chain, object_chain: user_chain };
    }
    let chain = if rng.one_in(2) { &mut user_chain } else { &mut object_chain };
    let place = rng.below(chain.len() as u64) as usize;
    match rng.below(3) {
        0 => chain[place] = rng.below(6),
        1 if chain.len() > 1 => drop(chain.remove(place)),
        _ => chain.insert(place, rng.below(6)),
    }
    Slip { user_chain, object_chain }
}

/// On blocks of few names: a slip is found where the right is held, it is right, none has fewer names, and forged ones are judged by
/// what the records say.
#[test]
fn slips_are_found_and_judged() {
    let (mut slips, mut yes, mut no) = (0, 0, 0);
    for seed in 0..100 {
        let mut rng = Rng(seed);
        let block = any_block(&mut rng);
        for (user, object, right) in (0..144).map(|case| (case / 24, case / 4 % 6, EACH[case as usize % 4])) {
            found(&block, user, object, right);
            let Some(slip) = block.find_slip(user, object, right).expect("a good block") else { continue };
            assert!(is_right(&block, user, object, right, &slip), "{slip} {user} {object} {right} {block:?}");
            let names = slip.user_chain.len() + slip.object_chain.len();
            assert_eq!(Some(names), fewest(&block, user, object, right), "{slip} {user} {object} {right} {block:?}");
            slips += 1;
            for _ in 0..4 {
                let other = forged(&mut rng, &slip);
                let judged = is_right(&block, user, object, right, &other);
                assert_eq!(
                    block.check_slip(user, object, right, &other),
                    Ok(judged),
                    "{other} {user} {object} {right} {block:?}"
                );
                *if judged { &mut yes } else { &mut no } += 1;
            }
        }
    }
    assert!(slips > 500 && yes > 200 && no > 1_000, "{slips} slips, of the forged ones {yes} are right and {no} are not");
}

/// Exactly one right, and names that are none: neither is cut to fit.
#[test]
fn a_question_for_a_slip_is_refused() {
    let (block, right) = (planned(), slip([7, 10, 12], [711, 20]));
    for request in (0..=ALL).filter_map(Rights::from_mask).filter(|request| !EACH.contains(request)) {
        assert_eq!(block.find_slip(7, 711, request), Err(Refusal::Mask));
        assert_eq!(block.check_slip(7, 711, request, &right), Err(Refusal::Mask));
    }
    for above in [NAMES, 65_535, 65_536 + 7, u64::MAX] {
        assert_eq!(block.find_slip(above, 711, Rights::NONE), Err(Refusal::Name));
        assert_eq!(block.find_slip(7, above, Rights::NONE), Err(Refusal::Name));
        for place in 0..3 {
            let (mut of_user, mut of_object) = (right.clone(), right.clone());
            of_user.user_chain[place] = above;
            of_object.object_chain[place % 2] = above;
            assert_eq!(block.check_slip(7, 711, Rights::NONE, &of_user), Err(Refusal::Name));
            assert_eq!(block.check_slip(7, 711, Rights::UPDATE, &of_object), Err(Refusal::Name));
        }
        let mut long = slip([7; 5_000], []);
        assert_eq!(block.check_slip(7, 711, Rights::UPDATE, &long), Err(Refusal::ChainLength));
        assert_eq!(block.check_slip(7, 711, Rights::ALL, &long), Err(Refusal::Mask));
        long.user_chain[4_999] = above;
        assert_eq!(block.check_slip(7, 711, Rights::UPDATE, &long), Err(Refusal::Name));
    }
    assert_eq!(Block::from_bytes(vec![1; 40]).find_slip(NAMES, 711, Rights::NONE), Err(Refusal::BlockNotGood));
    assert_eq!(Block::from_bytes(vec![1; 15]).check_slip(NAMES, 711, Rights::NONE, &right), Err(Refusal::BlockLength));
}

/// A lent list of fewer than 33 places is refused with 10, last of all, and where there is no slip too. Nothing past the names of a
/// chain is written, and nothing at all where there is none.
#[test]
fn lent_lists_have_33_places() {
    let block = planned();
    let find = |right: Rights, lengths: [usize; 2]| {
        let [mut user, mut object] = [[u16::MAX; 40]; 2];
        let [of_user, of_object] = [user.as_mut_ptr(), object.as_mut_ptr()];
        let (bytes, length, right) = (block.bytes().as_ptr(), block.bytes().len(), right.mask().into());
        // SAFETY: no length is above that of its slice, and the lists are ours.
        let answer =
            unsafe { raw::anaqsiro_find_slip(bytes, length, 7, 711, right, of_user, lengths[0], of_object, lengths[1]) };
        let written = [user, object].map(|list| list.into_iter().take_while(|&name| name != u16::MAX).collect::<Vec<u16>>());
        let kept = [user, object].map(|list| list.iter().filter(|&&name| name == u16::MAX).count());
        assert_eq!(kept, [40 - written[0].len(), 40 - written[1].len()]);
        (answer, written)
    };
    for lengths in [[33, 33], [33, 40], [40, 33]] {
        assert_eq!(find(Rights::UPDATE, lengths), (3 + 256 * 2, [vec![7, 10, 12], vec![711, 20]]));
        assert_eq!(find(Rights::DELETE, lengths), (0, [vec![], vec![]]));
        assert_eq!(find(Rights::ALL, lengths), (5 << 32, [vec![], vec![]]));
    }
    for lengths in [[32, 33], [33, 32], [0, 40], [40, 0], [0, 0]] {
        assert_eq!(find(Rights::UPDATE, lengths), (10 << 32, [vec![], vec![]]));
        assert_eq!(find(Rights::DELETE, lengths), (10 << 32, [vec![], vec![]]));
        assert_eq!(find(Rights::ALL, lengths), (5 << 32, [vec![], vec![]]));
    }
}
