//! Slips: what is found and what is checked, example by example; every slip of small blocks; and how often the generated calls have
//! to do with slips that are right.

use super::*;
use crate::gen::Rng;
use crate::slips::{Chains, LONGEST};
use crate::tests::{block, Record};

/// A slip for a user, an object and a right.
fn slip(user: u64, object: u64, right: u64, hers: &[u16], its: &[u16]) -> Slip {
    Slip { user, object, right, chains: [hers.to_vec(), its.to_vec()] }
}

/// What places have that nothing is written into.
const OLD: u16 = 7777;

/// The two chains that are found in a block; none, where there are none. The lists are as they were behind them, and the check says
/// yes to what is found, and to nothing where one name is missing.
fn found(b: &[u8], user: u64, object: u64, right: u64) -> Option<Chains> {
    let lent = slip(user, object, right, &[OLD; LONGEST], &[OLD; LONGEST + 9]);
    let (number, value, after) = find_slip(b, &lent);
    let names = [value % 256, value / 256].map(|names| names as usize);
    assert_eq!((number, value > 0), (0, rights(b, user, object, right, ORDINARY).1 as u64 & ALL == right));
    let chains = [0, 1].map(|side| after[side][..names[side]].to_vec());
    for side in 0..2 {
        assert_eq!(after[side].len(), lent.chains[side].len());
        assert!(after[side][names[side]..].iter().all(|&name| name == OLD));
    }
    if value == 0 {
        return None;
    }
    let shown = slip(user, object, right, &chains[0], &chains[1]);
    assert_eq!(check_slip(b, &shown), (0, 1));
    for (side, at) in [0, 1].into_iter().flat_map(|side| (0..names[side]).map(move |at| (side, at))) {
        let mut shorter = shown.clone();
        shorter.chains[side].remove(at);
        assert_ne!(check_slip(b, &shorter), (0, 1), "without the name {at} of side {side}");
    }
    Some(chains)
}

/// The answer to a slip for user 1, object 9 and reading.
fn checked(records: &[Record], hers: &[u16], its: &[u16]) -> (u32, u32) {
    check_slip(&block(records.len(), records), &slip(1, 9, 2, hers, its))
}

const WAY: [Record; 4] = [(M, 1, 2, 2), (M, 2, 3, 3), (M, 9, 8, 6), (P, 8, 3, 2)];

#[test]
fn one_way() {
    assert_eq!(found(&block(4, &WAY), 1, 9, 2), Some([vec![1, 2, 3], vec![9, 8]]));
    assert_eq!([1, 4, 8].map(|right| found(&block(4, &WAY), 1, 9, right)), [None, None, None]);
    assert_eq!(checked(&WAY, &[1, 2, 3], &[9, 8]), (0, 1));
    let wrong: [(&[u16], &[u16]); 9] = [
        (&[1, 3], &[9, 8]),
        (&[1, 2, 2, 3], &[9, 8]),
        (&[2, 3], &[9, 8]),
        (&[1, 2, 3], &[8]),
        (&[1, 2, 3], &[9]),
        (&[1, 2, 3], &[0]),
        (&[9, 8], &[1, 2, 3]),
        (&[3, 2, 1], &[9, 8]),
        (&[1, 2, 3, 4], &[9, 8]),
    ];
    for (hers, its) in wrong {
        assert_eq!(checked(&WAY, hers, its), (0, 0), "{hers:?} {its:?}");
    }
    assert_eq!(check_slip(&block(4, &WAY), &slip(1, 9, 1, &[1, 2, 3], &[9, 8])), (0, 0), "another right");
    assert_eq!(check_slip(&block(4, &WAY), &slip(2, 9, 2, &[1, 2, 3], &[9, 8])), (0, 0), "another user");
    assert_eq!(check_slip(&block(4, &WAY), &slip(1, 8, 2, &[1, 2, 3], &[9, 8])), (0, 0), "another object");
}

#[test]
fn loops_are_longer_and_right() {
    let records = [&WAY[..], &[(M, 3, 1, 2), (M, 9, 9, 2)]].concat();
    assert_eq!(found(&block(6, &records), 1, 9, 2), Some([vec![1, 2, 3], vec![9, 8]]));
    assert_eq!(checked(&records, &[1, 2, 3, 1, 2, 3], &[9, 9, 9, 8]), (0, 1));
}

#[test]
fn name_0_by_itself() {
    let records = [(P, 0, 1, 2), (M, 0, 5, 2), (P, 5, 2, 2), (M, 1, 2, 2)];
    let b = block(4, &records);
    assert_eq!([0, 5, 9].map(|object| found(&b, 1, object, 2)), [(); 3].map(|()| Some([vec![1], vec![0]])));
    assert_eq!(checked(&records, &[1], &[0]), (0, 1));
    assert_eq!(checked(&records, &[1], &[9]), (0, 0), "the grant is on 0");
    assert_eq!(checked(&records, &[1, 2], &[0, 5]), (0, 0), "0 and its groups, for another object");
    assert_eq!(check_slip(&b, &slip(1, 0, 2, &[1, 2], &[0, 5])), (0, 1), "and for 0");
    assert_eq!(checked(&[&records[..], &[(M, 9, 0, 2)]].concat(), &[1, 2], &[9, 0, 5]), (0, 1), "or over a chain");
    assert_eq!(found(&block(5, &[&records[..], &[(M, 9, 0, 2)]].concat()), 1, 9, 2), Some([vec![1], vec![0]]));
}

#[test]
fn long_ways() {
    for (records, is) in [(31, true), (32, true), (33, false)] {
        let chain: Vec<Record> = (100..100 + records).map(|n| (M, n, n + 1, 2)).collect();
        let (names, last) = ((100..=100 + records).collect::<Vec<u16>>(), 100 + records);
        let hers = block(50, &[&chain[..], &[(P, 9, last, 2)]].concat());
        let its = block(50, &[&chain[..], &[(P, last, 1, 2)]].concat());
        assert_eq!(found(&hers, 100, 9, 2), is.then(|| [names.clone(), vec![9]]));
        assert_eq!(found(&its, 1, 100, 2), is.then(|| [vec![1], names.clone()]));
        let answer = if is { (0, 1) } else { (11, 0) };
        assert_eq!(check_slip(&hers, &slip(100, 9, 2, &names, &[9])), answer);
        assert_eq!(check_slip(&its, &slip(1, 100, 2, &[1], &names)), answer);
    }
}

/// The grant with the fewest names on both chains together, though others are nearer to the user or to the object.
#[test]
fn the_fewest_names() {
    let hers = [(M, 1, 2, 2), (M, 2, 3, 2), (M, 3, 4, 2)];
    let its = [(M, 9, 8, 2), (M, 8, 7, 2), (M, 7, 6, 2)];
    let grants = [(P, 6, 1, 2), (P, 7, 2, 2), (P, 8, 2, 2), (P, 9, 4, 2)];
    let b = block(20, &[&hers[..], &its, &grants].concat());
    assert_eq!(found(&b, 1, 9, 2), Some([vec![1, 2], vec![9, 8]]));
    let short = block(20, &[&hers[..], &its, &grants, &[(M, 1, 4, 2)]].concat());
    assert_eq!(found(&short, 1, 9, 2), Some([vec![1, 4], vec![9]]));
    let other = block(20, &[&hers[..], &its, &grants, &[(M, 1, 4, 13)]].concat());
    assert_eq!(found(&other, 1, 9, 2), Some([vec![1, 2], vec![9, 8]]), "a shorter chain has not the right");
}

#[test]
fn filters_groups_and_denials() {
    let with = |more: &[Record]| {
        let records = [&WAY[..], more].concat();
        let is = found(&block(12, &records), 1, 9, 2).is_some();
        assert_eq!(checked(&records, &[1, 2, 3], &[9, 8]), (0, is.into()));
        is
    };
    assert!(with(&[]));
    assert!(!with(&[(F, 9, 20, 13)]));
    assert!(!with(&[(F, 8, 20, 13), (F, 8, 21, 15)]));
    assert!(with(&[(F, 8, 20, 2), (F, 1, 20, 13), (F, 0, 20, 13)]));
    assert!(!with(&[(M, 2, 20, ALL | 1 << X)]));
    assert!(with(&[(M, 2, 20, ALL | 1 << X), (M, 8, 20, 1)]));
    assert!(with(&[(M, 2, 8, ALL | 1 << X)]));
    assert!(!with(&[(P, 8, 3, 2 << RIGHTS)]), "a denial in the grant");
    assert!(with(&[(P, 9, 1, 2 << RIGHTS)]), "one in another record has no part in the ordinary profile");
}

#[test]
fn numbers_rise() {
    let b = block(4, &WAY);
    let many = vec![5; 3000];
    let at_last = [&many[..], &[1024]].concat();
    let find = |b: &[u8], user, object, right, places: [usize; 2]| {
        let lent = slip(user, object, right, &vec![OLD; places[0]], &vec![OLD; places[1]]);
        let (number, value, after) = find_slip(b, &lent);
        assert_eq!((value, after), (0, lent.chains));
        number
    };
    assert_eq!([[32, 33], [33, 32], [0, 0]].map(|places| find(&b, 1, 9, 2, places)), [10, 10, 10]);
    assert_eq!([1, 4, 8].map(|right| find(&b, 1, 9, right, [32, 33])), [10, 10, 10], "where there is no slip too");
    assert_eq!([0, 3, 15, 16, (1 << 32) + 2].map(|right| find(&b, 1, 9, right, [0, 0])), [5; 5]);
    assert_eq!([find(&b, 1024, 9, 0, [0, 0]), find(&b, 1, 1024, 0, [0, 0])], [4, 4]);
    assert_eq!([find(&b[..HEADER], 1024, 9, 0, [0, 0]), find(&b[..HEADER - 1], 1024, 9, 0, [0, 0])], [2, 1]);
    let check = |b: &[u8], user, object, right, hers: &[u16], its: &[u16]| check_slip(b, &slip(user, object, right, hers, its));
    assert_eq!([check(&b, 1, 9, 2, &[], &[9]), check(&b, 1, 9, 2, &[1], &[])], [(11, 0); 2]);
    assert_eq!([check(&b, 1, 9, 2, &many, &[9]), check(&b, 1, 9, 2, &[1], &many)], [(11, 0); 2]);
    assert_eq!([0, 3, 15, 16, (1 << 32) + 2].map(|right| check(&b, 1, 9, right, &[], &many)), [(5, 0); 5]);
    assert_eq!([check(&b, 1, 9, 0, &at_last, &[]), check(&b, 1, 9, 0, &[], &at_last)], [(4, 0); 2]);
    assert_eq!([check(&b, 1024, 9, 2, &[1], &[9]), check(&b, 1, 1 << 32, 2, &[1], &[9])], [(4, 0); 2]);
    assert_eq!(
        [check(&b[..HEADER], 1, 9, 0, &at_last, &[]), check(&b[..HEADER - 1], 1, 9, 0, &at_last, &[])],
        [(2, 0), (1, 0)]
    );
}

/// All lists of one to three of the names 0, 1 and 2.
fn lists() -> Vec<Vec<u16>> {
    let longer = |lists: &[Vec<u16>]| -> Vec<Vec<u16>> {
        lists.iter().flat_map(|list| (0..3).map(move |name| [&list[..], &[name]].concat())).collect()
    };
    let one = longer(&[vec![]]);
    let two = longer(&one);
    [longer(&two), two, one].concat()
}

/// On blocks of three names every slip without a loop is looked at: one is found where one is right, with as few names as any.
#[test]
fn among_all_slips() {
    let (lists, mut some, mut none) = (lists(), 0, 0);
    for seed in 0..60 {
        let (mut rng, mut records) = (Rng(seed), Vec::new());
        for _ in 0..2 + rng.below(7) {
            let (mask, marker, denying) = (1 + rng.below(3), if rng.one_in(6) { 1 << X } else { 0 }, 1 + rng.below(32));
            let (part, mask) = rng.pick(&[(M, mask | marker), (M, mask | marker), (P, mask), (P, denying), (F, mask)]);
            records.push((part, rng.below(3) as u16, rng.below(3) as u16, mask));
        }
        let (b, user, object, right) = (block(9, &records), rng.below(3), rng.below(3), 1 + rng.below(2));
        let all = lists.iter().flat_map(|hers| lists.iter().map(move |its| slip(user, object, right, hers, its)));
        let right_ones = all.filter(|slip| check_slip(&b, slip) == (0, 1));
        let fewest = right_ones.map(|slip| slip.chains.concat().len()).min();
        assert_eq!(found(&b, user, object, right).map(|chains| chains.concat().len()), fewest, "seed {seed}");
        *(if fewest.is_some() { &mut some } else { &mut none }) += 1;
    }
    assert!(some > 12 && none > 12, "{some} {none}");
}

/// How often generated calls are accepted and find a slip, or none, and get yes, or no: never less than here, so that the comparison
/// does not come to leave them out.
#[test]
fn slips_are_often_right() {
    let (mut found, mut none, mut yes, mut no) = (0, 0, 0, 0);
    for seed in 0..1_500 {
        let mut rng = Rng(seed);
        let index = gen::slips::index(&mut rng);
        let b = index.encode();
        for _ in 0..3 {
            match find_slip(&b, &gen::slips::asked(&mut rng, &index)) {
                (0, 0, _) => none += 1,
                (0, ..) => found += 1,
                _ => {}
            }
            match check_slip(&b, &gen::slips::shown(&mut rng, &index)) {
                (0, 1) => yes += 1,
                (0, _) => no += 1,
                _ => {}
            }
        }
    }
    println!("slips found {found}, none {none}; yes {yes}, no {no}");
    assert!(found > 1_000 && none > 1_000 && yes > 400 && no > 1_000, "{found} {none} {yes} {no}");
}
