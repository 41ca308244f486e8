//! Limits: what each chain is held to, both engines beside each other and beside the full question, and what is refused.

use crate::profiles::{any_block, block_of};
use anaqsiro::{raw, Block, Kind, Name, Profile, Refusal, Rights, NAMES};
use second::gen::Rng;
use second::ALL;

const M: Kind = Kind::Membership;
const P: Kind = Kind::Permission;
const F: Kind = Kind::Filter;

/// The rights of user 1 on object 9, of all. The plain engine gives the same, where it takes the limit, and so does a block with its
/// directory; each request gives its part.
fn held(block: &Block, limit: u64) -> Rights {
    let all = block.rights_to(1, 9, Rights::ALL, limit).expect("a good block");
    let directed = block.clone().with_directory().expect("a good block");
    for request in (1..=ALL).filter_map(Rights::from_mask) {
        let part = Ok(all & request);
        let plain = if limit <= Block::PLAIN_LIMIT { part } else { Err(Refusal::Limit) };
        assert_eq!(block.rights_to(1, 9, request, limit), part);
        assert_eq!(block.rights_plain(1, 9, request, limit), plain);
        assert_eq!(directed.rights_to(1, 9, request, limit), part);
        assert_eq!(directed.rights_plain(1, 9, request, limit), plain);
    }
    all
}

/// The same with each limit from 0 on, as letters.
fn told<const LIMITS: usize>(block: &Block) -> [String; LIMITS] {
    std::array::from_fn(|limit| held(block, limit as u64).to_string())
}

#[test]
fn the_limits_are_these() {
    assert_eq!((Block::LIMIT, Block::PLAIN_LIMIT, Block::PLAIN_MEMBERSHIPS), (32, 8, 64));
}

/// A chain of memberships from a name, and the name at its end.
fn chain(start: Name, length: u64, letters: &str) -> (Vec<(Kind, Name, String)>, Name) {
    let name = |n: u64| if n == 0 { start } else { 100 * start + n };
    ((0..length).map(|n| (M, name(n), format!("{};{letters}", name(n + 1)))).collect(), name(length))
}

/// A chain of just so many memberships as the limit brings a right, on either side, and one of one more does not.
#[test]
fn a_chain_of_just_the_limit() {
    for length in [1, 2, 7, 8, 9, 31, 32, 33] {
        let ((hers, id), (its, key)) = (chain(1, length, "R"), chain(9, length, "RU"));
        let of_user = block_of(hers.into_iter().chain([(P, 9, format!("{id};MRUP"))]));
        let of_object = block_of(its.into_iter().chain([(P, key, "1;R".into())]));
        for limit in [0, 1, 2, 7, 8, 9, 31, 32] {
            let rights = if length <= limit { Rights::READ } else { Rights::NONE };
            assert_eq!([&of_user, &of_object].map(|block| held(block, limit)), [rights; 2], "{length} {limit}");
        }
    }
}

/// The chain that makes a group hers, and the one from the object to it: a lower limit may show more.
#[test]
fn exclusive_groups_within_the_limit() {
    let with = |sets: &[(Kind, Name, &'static str)]| block_of([(P, 9, "1;RU")].into_iter().chain(sets.iter().copied()));
    assert_eq!(told(&with(&[(M, 1, "20;MX"), (M, 9, "30;M")])), ["RU", "-", "-"], "nobody is bound with limit 0");
    assert_eq!(told(&with(&[(M, 1, "2;M"), (M, 2, "20;MX"), (M, 9, "30;M")])), ["RU", "RU", "-", "-"]);
    assert_eq!(told(&with(&[(M, 1, "2;MN"), (M, 2, "20;MX"), (M, 9, "30;M")])), ["RU"; 4]);
    assert_eq!(told(&with(&[(M, 1, "20;MX"), (M, 9, "30;M"), (M, 30, "20;P")])), ["RU", "-", "RU", "RU"]);
    assert_eq!(told(&with(&[(M, 1, "20;MX")])), ["RU"; 4], "9 is in no group at all");
    assert_eq!(told(&with(&[(M, 1, "9;MX"), (M, 9, "30;M")])), ["RU"; 4], "9 is a group of hers");
}

/// No limit holds for the filters, and 0 counts with every limit; its groups only behind a chain to it.
#[test]
fn what_knows_no_limit() {
    assert_eq!(told(&block_of([(P, 9, "1;MRUP"), (M, 9, "8;M"), (F, 8, "20;RU")])), ["RU"; 10]);
    assert_eq!(told(&block_of([(P, 0, "1;RP")])), ["RP"; 10]);
    assert_eq!(told(&block_of([(P, 8, "1;RP"), (M, 0, "8;MRUP")])), ["-"; 10]);
    assert_eq!(told(&block_of([(P, 8, "1;RP"), (M, 0, "8;MRUP"), (M, 9, "0;P")])), ["-", "-", "P", "P"]);
    assert_eq!(told(&block_of([(P, 9, "1;RP;2;r"), (M, 1, "2;MRUP")])), ["RP"; 10], "the ordinary profile");
}

/// On blocks of few names: both engines agree with each limit, and with the greatest the rights are those of the full question.
#[test]
fn the_engines_agree() {
    let (mut more, mut fewer) = (0, 0);
    for seed in 0..200 {
        let block = any_block(&mut Rng(seed));
        for (user, object) in (0..36).map(|pair| (pair / 6, pair % 6)) {
            let full = block.rights(user, object, Rights::ALL, Profile::Ordinary).expect("a good block").rights;
            assert_eq!(block.rights_to(user, object, Rights::ALL, Block::LIMIT), Ok(full));
            for limit in 0..4 {
                let rights = block.rights_to(user, object, Rights::ALL, limit).expect("a good block");
                assert_eq!(
                    block.rights_plain(user, object, Rights::ALL, limit),
                    Ok(rights),
                    "{user} {object} {limit} {block:?}"
                );
                more += usize::from(!full.contains(rights));
                fewer += usize::from(!rights.contains(full));
            }
        }
    }
    assert!(more > 20 && fewer > 500, "more rights than the full question {more} times, fewer {fewer} times");
}

/// A block of so many memberships, of which so many count a marker alone.
fn of_memberships(many: u64, bare: u64) -> Block {
    let marker = |n: u64| if n < bare { "5;X" } else { "5;M" };
    block_of((0..many).map(|n| (M, 100 + n, marker(n))).chain([(P, 9, "1;R")]))
}

/// 64 memberships are taken, and 65 are not, also where they count markers alone. Permissions and filters do not count.
#[test]
fn so_many_memberships() {
    for bare in [0, 1, 64] {
        assert_eq!(of_memberships(64, bare).rights_plain(1, 9, Rights::ALL, 8), Ok(Rights::READ));
        assert_eq!(of_memberships(65, bare).rights_plain(1, 9, Rights::ALL, 0), Err(Refusal::Limit));
        assert_eq!(of_memberships(65, bare).rights_to(1, 9, Rights::ALL, 8), Ok(Rights::READ));
    }
    let others = (100..180).flat_map(|key| [(P, key, "1;R"), (F, key, "1;R")]);
    assert_eq!(block_of(others).rights_plain(1, 100, Rights::ALL, 8), Ok(Rights::READ));
}

/// Limits that are too great, neither cut to fit nor taken by their last bits; and 14 after 1, 2, 4 and 5.
#[test]
fn a_limit_is_refused_last() {
    let block = of_memberships(3, 0);
    for limit in [33, 64, 255, 256, 264, 65_536, (1 << 32) + 8, 1 << 63, u64::MAX] {
        for many in [3, 65] {
            let block = of_memberships(many, 0);
            for ask in [Block::rights_to, Block::rights_plain] {
                assert_eq!(ask(&block, 1, 9, Rights::READ, limit), Err(Refusal::Limit));
                assert_eq!(ask(&block, 1, 9, Rights::NONE, limit), Err(Refusal::Mask));
                assert_eq!(ask(&block, NAMES, 9, Rights::NONE, limit), Err(Refusal::Name));
                assert_eq!(ask(&block, 1, 65_536 + 9, Rights::READ, limit), Err(Refusal::Name));
                let part = Block::from_bytes(block.bytes()[..40].to_vec());
                assert_eq!(ask(&part, NAMES, 9, Rights::NONE, limit), Err(Refusal::BlockNotGood));
                let short = Block::from_bytes(block.bytes()[..15].to_vec());
                assert_eq!(ask(&short, NAMES, 9, Rights::NONE, limit), Err(Refusal::BlockLength));
            }
        }
    }
    for limit in 9..=32 {
        assert_eq!(block.rights_plain(1, 9, Rights::READ, limit), Err(Refusal::Limit));
        assert_eq!(block.rights_to(1, 9, Rights::READ, limit), Ok(Rights::READ));
    }
}

/// The archive's own numbers, for requests that are none too.
#[test]
fn requests_that_are_none() {
    let block = of_memberships(65, 0);
    let (bytes, len) = (block.bytes().as_ptr(), block.bytes().len());
    for request in [0, 16, 256 + 2, (1 << 32) + 2, u64::MAX] {
        // SAFETY: the pointer and the length are those of one slice, and the calls only read.
        let answers = unsafe {
            [raw::anaqsiro_plain(bytes, len, 1, 9, request, 9), raw::anaqsiro_rights_to(bytes, len, 1, 9, request, 33)]
        };
        assert_eq!(answers, [5 << 32; 2]);
    }
}
