//! What bears on a user's rights on an object, and that nothing else changes an answer.

use crate::profiles::{any_block, block_of};
use anaqsiro::{raw, Block, Half, Held, Kind, Message, Name, Profile, Refusal, Rights, NAMES};
use second::gen::Rng;
use second::ALL;

const M: Kind = Kind::Membership;
const P: Kind = Kind::Permission;
const F: Kind = Kind::Filter;

/// Whether a record bears on user 1 and object 9. A block with its directory says the same.
fn bears(block: &Block, kind: Kind, key: Name, id: Name) -> bool {
    let yes = block.bears(1, 9, kind, key, id);
    let directed = block.clone().with_directory().expect("a good block");
    assert_eq!(directed.bears(1, 9, kind, key, id), yes);
    yes.expect("names")
}

/// A chain of memberships from a name, of which each carries another right than the one before, and the name at its end.
fn chain(start: Name, length: u64) -> (Vec<(Kind, Name, String)>, Name) {
    let name = |n: u64| if n == 0 { start } else { 100 * start + n };
    let letter = |n: u64| ["M", "R", "U", "P"][n as usize % 4];
    ((0..length).map(|n| (M, name(n), format!("{};{}", name(n + 1), letter(n)))).collect(), name(length))
}

/// 31 memberships to the key of a membership, from either side; 32 to a permission, from the object to its key and from the user to
/// its id.
#[test]
fn chains_of_just_so_many() {
    for length in [0, 1, 2, 30, 31, 32, 33, 34] {
        let ((hers, id), (its, key)) = (chain(1, length), chain(9, length));
        let both = block_of(hers.iter().chain(&its).cloned());
        let (hers, its) = (block_of(hers), block_of(its));
        assert_eq!([bears(&hers, M, id, 500), bears(&its, M, key, 500)], [length <= 31; 2], "{length}");
        assert_eq!([bears(&hers, P, 9, id), bears(&hers, P, 0, id), bears(&its, P, key, 1)], [length <= 32; 3], "{length}");
        assert_eq!(bears(&both, P, key, id), length <= 32, "{length}");
        assert_eq!(bears(&its, F, key, 500), length <= 1, "{length}");
        assert_eq!([bears(&hers, F, id, 500), bears(&hers, P, id, 9)], [false; 2], "{length}");
    }
}

/// Markers neither lead nor stop; name 0 is special as the key of a permission alone.
#[test]
fn what_leads() {
    let leading = |letters: &str| block_of([(M, 1, format!("2;{letters}")), (M, 9, format!("3;{letters}"))]);
    let all = |block: &Block| {
        [bears(block, M, 2, 5), bears(block, M, 3, 5), bears(block, P, 9, 2), bears(block, P, 3, 1), bears(block, F, 3, 5)]
    };
    for letters in ["M", "R", "U2", "P", "MRUP", "RX", "RN", "PXN"] {
        assert_eq!(all(&leading(letters)), [true; 5], "{letters}");
    }
    for letters in ["X", "N", "X3N2"] {
        assert_eq!(all(&leading(letters)), [false; 5], "{letters}");
    }
    let nothing = block_of::<&str>([]);
    assert!(bears(&nothing, P, 0, 1) && !bears(&nothing, P, 9, 0) && !bears(&nothing, M, 0, 1) && !bears(&nothing, F, 0, 1));
    let behind = block_of([(M, 0, "7;MRUP")]);
    assert!(!bears(&behind, P, 7, 1) && bears(&block_of([(M, 0, "7;MRUP"), (M, 9, "0;M")]), P, 7, 1));
}

/// All answers about a user and an object.
fn answers(block: &Block, user: Name, object: Name) -> Vec<(Held, bool)> {
    let asked = Profile::ALL.into_iter().flat_map(|profile| (1..=ALL).map(move |request| (request, profile)));
    asked
        .filter_map(|(request, profile)| Some((Rights::from_mask(request)?, profile)))
        .map(|(request, profile)| {
            let held = block.rights(user, object, request, profile).expect("a good block");
            (held, block.may(user, object, request, profile).expect("a good block"))
        })
        .collect()
}

/// A message about a record that does not bear changes no answer, and many about one that does change some.
#[test]
fn what_does_not_bear_changes_nothing() {
    let (mut idle, mut changed, mut besides) = (0, 0, 0);
    for seed in 0..150 {
        let mut rng = Rng(seed);
        let block = any_block(&mut rng);
        let (user, object) = (rng.below(6), rng.below(6));
        let before = answers(&block, user, object);
        for _ in 0..12 {
            let (kind, key, id) = (rng.pick(&Kind::ALL), rng.below(8), rng.below(8));
            let bears = block.bears(user, object, kind, key, id).expect("names");
            let mut then = block.clone();
            let half = Half::new(key, id, Rights::from_mask(1 + rng.below(ALL)).expect("rights"));
            if then.apply(Message::new(kind, None, Some(half))).is_err() {
                continue;
            }
            let differs = answers(&then, user, object) != before;
            assert!(bears || !differs, "{user} {object} {kind:?} {key} {id} {block:?}");
            match (bears, differs) {
                (false, _) => besides += 1,
                (true, false) => idle += 1,
                (true, true) => changed += 1,
            }
        }
    }
    assert!(besides > 300 && idle > 100 && changed > 100, "{besides} {idle} {changed}");
}

/// 1, 2, then 3, which the safe call can not be given, then 4 for each of the four names.
#[test]
fn numbers_rise() {
    let block = block_of([(M, 1, "2;M")]);
    for name in [NAMES, 65_536 + 1, (1 << 32) + 1, u64::MAX] {
        for kind in Kind::ALL {
            assert_eq!(block.bears(name, 9, kind, 1, 1), Err(Refusal::Name));
            assert_eq!(block.bears(1, name, kind, 1, 1), Err(Refusal::Name));
            assert_eq!(block.bears(1, 9, kind, name, 1), Err(Refusal::Name));
            assert_eq!(block.bears(1, 9, kind, 1, name), Err(Refusal::Name));
            let part = Block::from_bytes(block.bytes()[..39].to_vec());
            assert_eq!(part.bears(name, name, kind, name, name), Err(Refusal::BlockNotGood));
            let short = Block::from_bytes(block.bytes()[..15].to_vec());
            assert_eq!(short.bears(name, 9, kind, 1, 1), Err(Refusal::BlockLength));
        }
    }
    let (bytes, len) = (block.bytes().as_ptr(), block.bytes().len());
    for kind in [0, 4, 17, 256 + 1, (1 << 32) + 2, u64::MAX] {
        // SAFETY: the pointer and the length are those of one slice, and the call only reads.
        let answers = unsafe {
            [raw::anaqsiro_bears(bytes, len, 1, 9, kind, 1, 1), raw::anaqsiro_bears(bytes, len, NAMES, 9, kind, 1, 1)]
        };
        assert_eq!(answers, [3 << 32; 2]);
    }
}
