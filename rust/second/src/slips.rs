//! Slips, as request M-103 says it. A slip is judged by each thing that is asked of it. To find one, the names are gathered that
//! chains of just so many records lead to, for every number of records and from both sides.

use crate::barred::Both;
use crate::bound::RULE;
use crate::{carries, name_of, passes, Index, CHAIN, M, NAMES, P, RIGHTS};

/// The most names on a chain, and the fewest places of a list that is lent for one.
pub const LONGEST: usize = CHAIN + 1;

/// The names on the user's chain, then those on the object's.
pub type Chains = Both<Vec<u16>>;

/// What a call is given besides the block: a user, an object and a right, and the two lists, with places for chains or with the
/// names on them.
#[derive(Clone, Debug)]
pub struct Slip {
    pub user: u64,
    pub object: u64,
    pub right: u64,
    pub chains: Chains,
}

impl Slip {
    /// The right by its number, if it is one alone.
    pub fn one_right(&self) -> Option<usize> {
        (0..RIGHTS).find(|&right| self.right == 1 << right)
    }

    /// The records, the user and the object, and the right; or the number that refuses the call. All names of a slip that is to be
    /// checked have to be names.
    fn asked(&self, block: &[u8], checked: bool) -> Result<(Index, Both<u16>, usize), u32> {
        let index = Index::decode(block)?;
        let names = [name_of(self.user)?, name_of(self.object)?];
        if checked && self.chains.concat().iter().any(|&name| name >= NAMES) {
            return Err(4);
        }
        Ok((index, names, self.one_right().ok_or(5u32)?))
    }
}

/// A slip that is judged.
#[derive(Clone, Copy)]
pub struct Judged<'a> {
    pub index: &'a Index,
    pub names: Both<u16>,
    pub right: usize,
    pub chains: Both<&'a [u16]>,
}

/// What is asked of a slip: each chain begins with its name, but for 0 by itself, and goes over M records with the right; a P record
/// grants it from end to end; every filter lets it through; and the object is open to the user.
pub const WANTED: [fn(&Judged) -> bool; 7] = [
    |slip| slip.chains[0].first() == Some(&slip.names[0]),
    |slip| slip.links(0).all(|link| slip.carries(M, link)),
    |slip| slip.chains[1].first() == Some(&slip.names[1]) || slip.chains[1] == [0],
    |slip| slip.links(1).all(|link| slip.carries(M, link)),
    |slip| slip.grant().is_some_and(|grant| slip.carries(P, grant)),
    |slip| passes(slip.index, slip.names[1], slip.right),
    |slip| RULE.open(&slip.index.parts[M], slip.names[0], slip.names[1]),
];

impl Judged<'_> {
    /// Each two names of a chain that follow each other.
    pub fn links(&self, side: usize) -> impl Iterator<Item = (u16, u16)> + '_ {
        self.chains[side].iter().zip(self.chains[side].iter().skip(1)).map(|(&key, &id)| (key, id))
    }

    /// Key and id of the P record where the chains end.
    pub fn grant(&self) -> Option<(u16, u16)> {
        Some((*self.chains[1].last()?, *self.chains[0].last()?))
    }

    /// Whether there is such a record, with the right.
    pub fn carries(&self, part: usize, record: (u16, u16)) -> bool {
        self.index.parts[part].get(&record).is_some_and(|counts| carries(counts, self.right))
    }

    /// Whether it is all that is asked.
    pub fn right(&self) -> bool {
        WANTED.iter().all(|wanted| wanted(self))
    }

    /// What it is not of that, by the numbers.
    pub fn lacks(&self) -> Vec<usize> {
        (0..WANTED.len()).filter(|&wanted| !WANTED[wanted](self)).collect()
    }
}

/// The names that chains of just so many records lead to from one name, over some links, by the number of records.
pub struct Ways<'a> {
    links: &'a [(u16, u16)],
    after: Vec<Vec<bool>>,
}

/// The links of chains for a right.
pub fn links(index: &Index, right: usize) -> Vec<(u16, u16)> {
    index.parts[M].iter().filter(|(_, counts)| carries(counts, right)).map(|(&link, _)| link).collect()
}

impl Ways<'_> {
    /// Those from each of two names, over chains of at most so many records.
    pub fn both(links: &[(u16, u16)], starts: Both<u16>, most: usize) -> Both<Ways<'_>> {
        starts.map(|start| {
            let mut after = vec![vec![false; NAMES.into()]; most + 1];
            after[0][usize::from(start)] = true;
            for records in 0..most {
                for &(key, id) in links {
                    after[records + 1][usize::from(id)] |= after[records][usize::from(key)];
                }
            }
            Ways { links, after }
        })
    }

    /// How many records the chains to a name have, from the fewest on.
    pub fn records(&self, end: u16) -> impl Iterator<Item = usize> + '_ {
        (0..self.after.len()).filter(move |&records| self.after[records][usize::from(end)])
    }

    /// A chain of so many records to a name, found from its end: each time one of the names is chosen that can come before.
    pub fn chain(&self, end: u16, records: usize, mut chosen: impl FnMut(&[u16]) -> u16) -> Vec<u16> {
        let mut chain = vec![end];
        for records in (0..records).rev() {
            let comes_before = |link: &&(u16, u16)| Some(&link.1) == chain.last() && self.after[records][usize::from(link.0)];
            let before: Vec<u16> = self.links.iter().filter(comes_before).map(|link| link.0).collect();
            chain.push(chosen(&before));
        }
        chain.reverse();
        chain
    }
}

/// The P records with the right that both sides lead to, by key and id: each with how many records the shortest chains have. To name
/// 0 the object needs none.
pub fn grants(index: &Index, ways: &Both<Ways>, right: usize) -> Vec<((u16, u16), Both<usize>)> {
    let granting = index.parts[P].iter().filter(|(_, counts)| carries(counts, right));
    let shortest = |&(key, id): &(u16, u16)| {
        let of_object = if key == 0 { 0 } else { ways[1].records(key).next()? };
        Some(((key, id), [ways[0].records(id).next()?, of_object]))
    };
    granting.filter_map(|(record, _)| shortest(record)).collect()
}

/// A slip with the fewest names, if there is one.
fn found(index: &Index, names: Both<u16>, right: usize) -> Option<Chains> {
    let links = links(index, right);
    let ways = Ways::both(&links, names, CHAIN);
    let ((key, id), records) = grants(index, &ways, right).into_iter().min_by_key(|(_, records)| records[0] + records[1])?;
    let chain = |side: usize, end| ways[side].chain(end, records[side], |before| before[0]);
    let chains = [chain(0, id), if key == 0 { vec![0] } else { chain(1, key) }];
    let slip = Judged { index, names, right, chains: chains.each_ref().map(|chain| &chain[..]) };
    slip.right().then_some(chains)
}

/// find_slip: the number; the names on the user's chain and 256 times those on the object's, or 0; and the lists then.
pub fn find_slip(block: &[u8], lent: &Slip) -> (u32, u32, Chains) {
    let mut after = lent.chains.clone();
    let outcome = lent.asked(block, false).and_then(|(index, names, right)| {
        let room = lent.chains.iter().all(|list| list.len() >= LONGEST);
        room.then(|| found(&index, names, right)).ok_or(10)
    });
    let Ok(Some(chains)) = outcome else { return (outcome.err().unwrap_or(0), 0, after) };
    after.iter_mut().zip(&chains).for_each(|(list, chain)| list[..chain.len()].copy_from_slice(chain));
    (0, chains[0].len() as u32 + 256 * chains[1].len() as u32, after)
}

/// check_slip: the number, and 1 for yes or 0 for no.
pub fn check_slip(block: &[u8], slip: &Slip) -> (u32, u32) {
    let outcome = slip.asked(block, true).and_then(|(index, names, right)| {
        let chains = slip.chains.each_ref().map(|chain| &chain[..]);
        let fair = chains.iter().all(|chain| (1..=LONGEST).contains(&chain.len()));
        fair.then(|| Judged { index: &index, names, right, chains }.right()).ok_or(11)
    });
    outcome.map_or_else(|number| (number, 0), |yes| (0, yes.into()))
}
