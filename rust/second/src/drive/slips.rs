//! Slips: what a finder leaves is judged by the second program's own rule and by the library's own check, and a check is asked about
//! slips that are right and slips that are forged.

use super::wide::place;
use super::{index_of, packed, After, Call, Case, Lent, Library, Often, Tally, EACH_RIGHT};
use crate::barred::{Both, BAR};
use crate::bound::member;
use crate::gen::{self, Rng};
use crate::sides::Sides;
use crate::slips::{grants, links, Chains, Judged, Slip, Ways, LONGEST, WANTED};
use crate::{denied, granted, holds, led, Index, ALL, CHAIN, M, NAMES, P, RIGHTS};
use std::collections::BTreeSet;

const FIND: &[&str] = &["find_slip"];
const CHECK: &[&str] = &["check_slip"];
const EACH: &[&str] = &["find_slip", "check_slip"];

/// The sides, where a line is of both: the user's, then the object's.
const SIDES: &[i64] = &[0, 1];

const NAMES_ON: Both<&str> =
    ["names on the user's chain, from 4 to 31 taken as 4", "names on the object's chain, from 4 to 31 taken as 4"];
const WHOSE: &str =
    "object's chain of 0 by itself for another object, of 0 that is the object, of another one by itself, or of more";
const NO_RIGHT: &str = "5 for no right, for more than one, for 16, or for one by its last bits";
const BESIDES: [(u32, &str); 4] = [
    (1, "1, and besides there is"),
    (2, "2, and besides there is"),
    (4, "4, and besides there is"),
    (5, "5, and besides there is"),
];

const PLACES: Both<&str> =
    ["places of the user's list, 35 or more taken as 35", "places of the object's list, 35 or more taken as 35"];
const FEW: Both<&str> =
    ["10 for the user's list alone, of so many places", "10 for the object's list alone, of so many places"];
const FEW_BY_BITS: &str = "places enough, and too few by the last bits of their number, so many of them";
const NONE_FOR: &str = "none, for the grant, the filters or the groups alone";
const TOO_LONG: &str = "none, but over a chain of 33 records, for user or object";
const OTHER_GRANT: &str = "found, with a shorter chain to another grant, for user or object";
const ANY_RIGHT: &str = "found, with a shorter chain of other rights to the same grant, for user or object";

const NO_NAME: &str = "4 for the user, the object, the user's chain or the object's alone";
const WHICH_NAME: &str = "4 for one name on the chains alone, 1024, 65,535 or another";
const WHERE_NAME: &str = "4 for one name on the chains alone, the first, inside, the last, or behind the 33rd";
const BY_TEN_BITS: &str = "4 for one name on the chains alone, and right by its last ten bits, for user or object";
const LENGTHS: Both<&str> = [
    "11 for the user's chain alone, of so many names, 35 or more taken as 35",
    "11 for the object's chain alone, of so many names, 35 or more taken as 35",
];
const BUT_FOR_LENGTH: &str = "11 for a chain of 34 names, and right but for that, for user or object";
const FAIR_BY_BITS: &str = "11 for more than 33 names, and not by the last bits of their number, so many of them";
const LINK: &str = "no for one link alone: no record, without the right, with markers alone, or the other way round";
const LINK_AT: Both<&str> = [
    "no for one link alone of the user's chain, the first of three or more, inside, or the last",
    "no for one link alone of the object's chain, the first of three or more, inside, or the last",
];
const GRANT: &str = "no for the grant alone: no record, without the right, with its denial, or the other way round";
const LATER: &str = "found, and after a message not right any more, or still";

/// What each run is to meet of slips: of which calls, in what respect, and which.
pub const TO_MEET: &[(&[&str], &str, &[i64])] = &[
    (FIND, "number", &[0, 1, 2, 4, 5, 10]),
    (CHECK, "number", &[0, 1, 2, 4, 5, 11]),
    (EACH, "right", &EACH_RIGHT),
    (EACH, NAMES_ON[0], &[1, 2, 3, 4, 32, 33]),
    (EACH, NAMES_ON[1], &[1, 2, 3, 4, 32, 33]),
    (EACH, "right, with 33 names on each chain", &[1]),
    (EACH, WHOSE, &[0, 1, 2, 3]),
    (EACH, "right though it is barred in the strict profile", &[1]),
    (EACH, "right for a user who is the object", &[1]),
    (EACH, NO_RIGHT, &[0, 1, 2, 3]),
    (FIND, BESIDES[0].1, &[4, 5, 10]),
    (FIND, BESIDES[1].1, &[4, 5, 10]),
    (FIND, BESIDES[2].1, &[5, 10]),
    (FIND, BESIDES[3].1, &[10]),
    (CHECK, BESIDES[0].1, &[4, 5, 11]),
    (CHECK, BESIDES[1].1, &[4, 5, 11]),
    (CHECK, BESIDES[2].1, &[5, 11]),
    (CHECK, BESIDES[3].1, &[11]),
    (FIND, "none", &EACH_RIGHT),
    (FIND, NONE_FOR, &[0, 1, 2]),
    (FIND, TOO_LONG, SIDES),
    (FIND, PLACES[0], &[33, 34, 35]),
    (FIND, PLACES[1], &[33, 34, 35]),
    (FIND, FEW[0], &[0, 32]),
    (FIND, FEW[1], &[0, 32]),
    (FIND, FEW_BY_BITS, &[8, 16]),
    (FIND, "10 for both lists", &[1]),
    (FIND, "10 where no slip is, or where one is", &[0, 1]),
    (FIND, "found, with no other grant as near, or with others", &[0, 1]),
    (FIND, "found, with a grant before it in the block that is not as near", &[1]),
    (FIND, LATER, &[0, 1]),
    (FIND, OTHER_GRANT, SIDES),
    (FIND, ANY_RIGHT, SIDES),
    (CHECK, "no", &EACH_RIGHT),
    (CHECK, "no though the right is not held, or though it is", &[0, 1]),
    (CHECK, "no for one alone of the things that are wanted", &[0, 1, 2, 3, 4, 5, 6]),
    (CHECK, "no, and right if 0 might be followed by its groups", &[1]),
    (CHECK, "no, and right if the chains changed places", &[1]),
    (CHECK, "no, and right for another right", &[1]),
    (CHECK, LINK, &[0, 1, 2, 3]),
    (CHECK, LINK_AT[0], &[0, 1, 2]),
    (CHECK, LINK_AT[1], &[0, 1, 2]),
    (CHECK, GRANT, &[0, 1, 2, 3]),
    (CHECK, "right, with a name twice on a chain, for user or object", SIDES),
    (CHECK, "right, with a chain longer than the shortest to its end, for user or object", SIDES),
    (CHECK, NO_NAME, &[0, 1, 2, 3]),
    (CHECK, WHICH_NAME, &[0, 1, 2]),
    (CHECK, WHERE_NAME, &[0, 1, 2, 3]),
    (CHECK, BY_TEN_BITS, SIDES),
    (CHECK, LENGTHS[0], &[0, 34, 35]),
    (CHECK, LENGTHS[1], &[0, 34, 35]),
    (CHECK, "11 for both chains", &[1]),
    (CHECK, BUT_FOR_LENGTH, SIDES),
    (CHECK, FAIR_BY_BITS, &[8, 16]),
];

/// The calls of slips, each as often as it is drawn among eight.
const CALLS: [Often; 2] = [("find_slip", 3, |call| call.find_slip()), ("check_slip", 5, |call| call.check_slip())];

/// A block, and calls of slips on it.
pub fn case(lib: &dyn Library, rng: &mut Rng, tally: &mut Tally) -> Result<(), String> {
    let block = gen::slips::index(rng).encode();
    let mut case = Case::new(lib, rng, tally, block);
    case.some(&CALLS)?;
    case.one_with_a_fault(&CALLS)
}

/// A slip in words. Long lists are cut short.
fn told(slip: &Slip) -> String {
    let [hers, its] = slip.chains.each_ref().map(|list| (list.len(), &list[..list.len().min(40)]));
    format!("{} {} {} {hers:?} {its:?}", slip.user, slip.object, slip.right)
}

/// Whether a list is as long as a finder wants it, or as a check does.
type Fair = fn(&[u16]) -> bool;
const ROOMY: Fair = |list| list.len() >= LONGEST;
const CHAINED: Fair = |list| (1..=LONGEST).contains(&list.len());

/// The numbers but for 1 and 2 that a call could get, where the last is given for lists that are not fair.
fn wrong(slip: &Slip, last: u32, fair: Fair) -> Vec<u32> {
    let no_name = !no_names(slip, last == 11).is_empty();
    let unfair = !slip.chains.iter().all(|list| fair(list));
    let all = [(4, no_name), (5, slip.one_right().is_none()), (last, unfair)];
    all.into_iter().filter(|one| one.1).map(|one| one.0).collect()
}

/// Who of these is no name: the user, the object, and, where the slip is checked, one of the user's chain and one of the object's.
fn no_names(slip: &Slip, checked: bool) -> Vec<i64> {
    let asked = [slip.user, slip.object].map(|name| name >= NAMES.into());
    let listed = slip.chains.each_ref().map(|list| checked && list.iter().any(|&name| name >= NAMES));
    (0..).zip([asked, listed].concat()).filter(|one| one.1).map(|one| one.0).collect()
}

/// What an accepted call judges.
fn judged<'a>(index: &'a Index, slip: &'a Slip) -> Judged<'a> {
    let names = [slip.user, slip.object].map(|name| name as u16);
    Judged { index, names, right: slip.one_right().expect("a right"), chains: slip.chains.each_ref().map(|chain| &chain[..]) }
}

/// What a finder told, where it found a slip that has as many names as one of this value: how many stand at the front of each list.
fn told_names(got: u64, value: u32) -> Option<Both<usize>> {
    let names = |value: u64| [value % 256, value / 256].map(|names| names as usize);
    let (own, least) = (names(got), names(value.into()));
    let fair = own.iter().all(|names| (1..=LONGEST).contains(names)) && own[0] + own[1] == least[0] + least[1];
    (value > 0 && fair).then_some(own)
}

/// The slip whose names stand at the front of the lists, so many on each.
fn front(lent: &Slip, lists: &mut Both<Lent<u16>>, names: Both<usize>) -> Slip {
    Slip { chains: [0, 1].map(|side| lists[side].lend()[..names[side]].to_vec()), ..*lent }
}

/// The lists as they were lent, with the names of a slip at their front.
fn laid_out(lent: &Slip, slip: &Slip) -> Chains {
    [0, 1].map(|side| [&slip.chains[side], &lent.chains[side][slip.chains[side].len()..]].concat())
}

impl Call<'_> {
    /// Any slip with the fewest names is right, with the names at the front of the lists and the rest as it was: so the lists that
    /// are wanted are taken from those that the library left, and the names are judged.
    pub fn find_slip(&mut self) -> After {
        let lent = gen::slips::asked(self.rng, self.index);
        let (number, value, _) = crate::find_slip(self.block, &lent);
        let (mut b, mut lists) = (Lent::new(self.block), lent.chains.each_ref().map(|list| Lent::new(list)));
        let [hers, its] = &mut lists;
        let got = self.lib.find_slip(b.lend(), lent.user, lent.object, lent.right, hers.lend(), its.lend());
        let found = told_names(got, value).map(|names| front(&lent, &mut lists, names));
        let (value, wanted) = match &found {
            Some(slip) => (got as u32, laid_out(&lent, slip)),
            None => (value, lent.chains.clone()),
        };
        let [hers, its] = [0, 1].map(|side| lists[side].is(&wanted[side]));
        self.agree(got, number, value, &[b.is(self.block), hers, its], told(&lent))?;
        if number == 0 {
            self.judge(&lent, found)?;
        } else {
            self.saw_refused_slip(number, &lent, 10, ROOMY);
        }
        Ok(self.block.to_vec())
    }

    /// Whether a slip is found just where the right is held, and what is found is right.
    fn judge(&mut self, lent: &Slip, found: Option<Slip>) -> Result<(), String> {
        let index = index_of(self.block);
        let asked = judged(&index, lent);
        if holds(&index, asked.names[0], asked.names[1], asked.right, CHAIN) != found.is_some() {
            return Err(format!("find_slip {}: a slip is found where the right is not held, or none where it is", told(lent)));
        }
        self.saw_places(lent);
        let Some(slip) = found else {
            self.saw_none_found(&asked);
            return Ok(());
        };
        self.shows(&slip)?;
        self.saw_found(&judged(&index, &slip));
        self.shows_later(&slip)
    }

    /// What was found is right, and the library itself says so.
    fn shows(&mut self, slip: &Slip) -> Result<(), String> {
        let said = |what: &str| Err(format!("find_slip {}: {what}", told(slip)));
        if crate::check_slip(self.block, slip) != (0, 1) {
            return said("what is found is not right");
        }
        let [hers, its] = &slip.chains;
        match self.lib.check_slip(self.block, slip.user, slip.object, slip.right, hers, its) {
            1 => Ok(()),
            _ => said("what is found is right, and the check does not say so"),
        }
    }

    /// What was found is judged again after a message.
    fn shows_later(&mut self, slip: &Slip) -> Result<(), String> {
        let m = gen::slips::against(self.rng, self.index, slip);
        let (_, later) = crate::message(self.block, &m);
        let ((number, value), [hers, its]) = (crate::check_slip(&later, slip), &slip.chains);
        if self.lib.check_slip(&later, slip.user, slip.object, slip.right, hers, its) != packed(number, value) {
            return Err(format!("find_slip {}: after {m:02x?} the check says something else than {value}", told(slip)));
        }
        self.saw(LATER, value.into());
        Ok(())
    }

    pub fn check_slip(&mut self) -> After {
        let slip = gen::slips::shown(self.rng, self.index);
        let (number, value) = crate::check_slip(self.block, &slip);
        let (mut b, mut lists) = (Lent::new(self.block), slip.chains.each_ref().map(|list| Lent::new(list)));
        let [hers, its] = &mut lists;
        let got = self.lib.check_slip(b.lend(), slip.user, slip.object, slip.right, hers.lend(), its.lend());
        let [hers, its] = [0, 1].map(|side| lists[side].is(&slip.chains[side]));
        self.agree(got, number, value, &[b.is(self.block), hers, its], told(&slip))?;
        if number != 0 {
            self.saw_refused_slip(number, &slip, 11, CHAINED);
            return Ok(self.block.to_vec());
        }
        let index = index_of(self.block);
        if value == 1 {
            self.saw_yes(&judged(&index, &slip));
        } else {
            self.saw_no(&judged(&index, &slip));
        }
        Ok(self.block.to_vec())
    }
}

/// What a refused call was refused for.
impl Call<'_> {
    fn saw_refused_slip(&mut self, number: u32, slip: &Slip, last: u32, fair: Fair) {
        if let Some((_, what)) = BESIDES.iter().find(|one| one.0 == number) {
            let others = wrong(slip, last, fair).into_iter().filter(|&other| other > number);
            others.for_each(|other| self.saw(what, other.into()));
        }
        match number {
            4 if last == 11 => self.saw_no_name(slip),
            5 => self.saw_no_right(slip.right),
            10 => self.saw_few(slip),
            11 => self.saw_length_of_chains(slip),
            _ => {}
        }
    }

    fn saw_no_right(&mut self, right: u64) {
        let by_bits = [8, 16, 32, 63].iter().any(|bits| (right % (1 << bits)).count_ones() == 1);
        match right {
            0 => self.saw(NO_RIGHT, 0),
            right if right <= ALL => self.saw(NO_RIGHT, 1),
            16 => self.saw(NO_RIGHT, 2),
            _ if by_bits => self.saw(NO_RIGHT, 3),
            _ => {}
        }
    }

    /// Which name of a slip is none, where one alone is.
    fn saw_no_name(&mut self, slip: &Slip) {
        let [who] = no_names(slip, true)[..] else { return };
        self.saw(NO_NAME, who);
        let Ok(side) = usize::try_from(who - 2) else { return };
        let list = &slip.chains[side];
        let [at] = (0..list.len()).filter(|&at| list[at] >= NAMES).collect::<Vec<_>>()[..] else { return };
        let which = [NAMES, u16::MAX].iter().position(|&name| name == list[at]).unwrap_or(2);
        self.saw(WHICH_NAME, which as i64);
        if list.len() > 2 {
            self.saw(WHERE_NAME, if at >= LONGEST { 3 } else { place(at, list.len()) });
        }
        let mut narrowed = slip.clone();
        narrowed.chains[side][at] %= NAMES;
        if crate::check_slip(self.block, &narrowed) == (0, 1) {
            self.saw(BY_TEN_BITS, side as i64);
        }
    }

    /// The lists that have too few places.
    fn saw_few(&mut self, slip: &Slip) {
        let roomy = Slip { chains: [(); 2].map(|()| vec![0; LONGEST]), ..slip.clone() };
        self.saw("10 where no slip is, or where one is", (crate::find_slip(self.block, &roomy).1 > 0).into());
        match [0, 1].map(|side| ROOMY(&slip.chains[side])) {
            [false, false] => self.saw("10 for both lists", 1),
            fair => self.saw_one_of(FEW, slip, fair, &[0, LONGEST - 1]),
        }
    }

    /// The chains that have no names, or too many.
    fn saw_length_of_chains(&mut self, slip: &Slip) {
        let lengths = slip.chains.each_ref().map(Vec::len);
        match [0, 1].map(|side| CHAINED(&slip.chains[side])) {
            [false, false] => self.saw("11 for both chains", 1),
            fair => self.saw_one_of(LENGTHS, slip, fair, &[0, LONGEST + 1, LONGEST + 2]),
        }
        let by_bits = |bits: &i64| lengths.iter().all(|length| (1..=LONGEST).contains(&(length % (1 << bits))));
        [8, 16].into_iter().filter(by_bits).for_each(|bits| self.saw(FAIR_BY_BITS, bits));
        let (index, longer) = (index_of(self.block), lengths.iter().position(|&length| length == LONGEST + 1));
        if let Some(side) = longer.filter(|_| lengths.iter().all(|&length| length > 0) && judged(&index, slip).right()) {
            self.saw(BUT_FOR_LENGTH, side as i64);
        }
    }

    /// The one list that is not fair, by its length; one of the last of these lengths or more is taken as the last.
    fn saw_one_of(&mut self, what: Both<&'static str>, slip: &Slip, fair: Both<bool>, lengths: &[usize]) {
        let side = usize::from(fair[0]);
        let length = slip.chains[side].len().min(lengths[lengths.len() - 1]);
        if lengths.contains(&length) {
            self.saw(what[side], length as i64);
        }
    }
}

/// What an accepted call was about.
impl Call<'_> {
    /// A slip that is right, found or shown.
    fn saw_right_slip(&mut self, slip: &Judged) {
        self.saw("right", 1 << slip.right);
        for (what, chain) in NAMES_ON.into_iter().zip(slip.chains) {
            self.saw(what, if (4..32).contains(&chain.len()) { 4 } else { chain.len() as i64 });
        }
        if slip.chains.iter().all(|chain| chain.len() == LONGEST) {
            self.saw("right, with 33 names on each chain", 1);
        }
        let whose = match (slip.chains[1], slip.names[1]) {
            ([0], 0) => 1,
            ([0], _) => 0,
            ([_], _) => 2,
            _ => 3,
        };
        self.saw(WHOSE, whose);
        if BAR.bars(slip.index, slip.names, slip.right) {
            self.saw("right though it is barred in the strict profile", 1);
        }
        if slip.names[0] == slip.names[1] {
            self.saw("right for a user who is the object", 1);
        }
    }

    /// How many places a finder was lent.
    fn saw_places(&mut self, lent: &Slip) {
        for (what, list) in PLACES.into_iter().zip(&lent.chains) {
            self.saw(what, list.len().min(LONGEST + 2) as i64);
        }
        let by_bits = |bits: &i64| lent.chains.iter().any(|list| list.len() % (1 << bits) < LONGEST);
        [8, 16].into_iter().filter(by_bits).for_each(|bits| self.saw(FEW_BY_BITS, bits));
    }

    /// What was found, beside the other grants that both sides lead to.
    fn saw_found(&mut self, slip: &Judged) {
        self.saw_right_slip(slip);
        let links = links(slip.index, slip.right);
        let ways = Ways::both(&links, slip.names, CHAIN);
        let (all, own) = (grants(slip.index, &ways, slip.right), slip.chains.map(|chain| chain.len() - 1));
        let near = |records: Both<usize>| records[0] + records[1] == own[0] + own[1];
        let as_near = all.iter().filter(|(_, records)| near(*records)).count();
        self.saw("found, with no other grant as near, or with others", (as_near > 1).into());
        if !near(all[0].1) {
            self.saw("found, with a grant before it in the block that is not as near", 1);
        }
        for side in 0..2 {
            if all.iter().any(|(_, records)| records[side] < own[side]) {
                self.saw(OTHER_GRANT, side as i64);
            }
            let chain = slip.chains[side];
            if own[side] > 1 && led(&slip.index.parts[M], chain[0], own[side] - 1, member).contains(&chain[own[side]]) {
                self.saw(ANY_RIGHT, side as i64);
            }
        }
    }

    /// Why nothing was found.
    fn saw_none_found(&mut self, asked: &Judged) {
        self.saw("none", 1 << asked.right);
        let granted = granted(asked.index, asked.names[0], asked.names[1], asked.right, CHAIN);
        let [.., filters, groups] = WANTED;
        let missing = [granted, filters(asked), groups(asked)].map(|such| !such);
        if let [which] = (0..3).filter(|&which| missing[which]).collect::<Vec<_>>()[..] {
            self.saw(NONE_FOR, which as i64);
        }
        if missing == [true, false, false] && asked.index.parts[M].len() > CHAIN {
            let sides = Sides::new(asked.index, asked.names[0], asked.names[1], asked.right);
            let longer = (0..2).filter(|&side| sides.joined(side, &sides.names_within(side, CHAIN + 1)));
            longer.for_each(|side| self.saw(TOO_LONG, side as i64));
        }
    }

    /// A slip to which yes is said.
    fn saw_yes(&mut self, slip: &Judged) {
        self.saw_right_slip(slip);
        for (side, chain) in slip.chains.into_iter().enumerate() {
            if chain.iter().collect::<BTreeSet<_>>().len() < chain.len() {
                self.saw("right, with a name twice on a chain, for user or object", side as i64);
            }
            let shorter = || led(&slip.index.parts[M], chain[0], chain.len() - 2, |counts| crate::carries(counts, slip.right));
            if chain.len() > 1 && shorter().contains(&chain[chain.len() - 1]) {
                self.saw("right, with a chain longer than the shortest to its end, for user or object", side as i64);
            }
        }
    }

    /// A slip to which no is said.
    fn saw_no(&mut self, slip: &Judged) {
        let [user, object] = slip.names;
        self.saw("no", 1 << slip.right);
        self.saw("no though the right is not held, or though it is", holds(slip.index, user, object, slip.right, CHAIN).into());
        if (Judged { chains: [slip.chains[1], slip.chains[0]], ..*slip }).right() {
            self.saw("no, and right if the chains changed places", 1);
        }
        if (0..RIGHTS).any(|other| Judged { right: other, ..*slip }.right()) {
            self.saw("no, and right for another right", 1);
        }
        if let [wanted] = slip.lacks()[..] {
            self.saw("no for one alone of the things that are wanted", wanted as i64);
            match wanted {
                1 | 3 => self.saw_link(slip, wanted / 2),
                2 if slip.chains[1][0] == 0 => self.saw("no, and right if 0 might be followed by its groups", 1),
                4 => self.saw_grant(slip),
                _ => {}
            }
        }
    }

    /// The link of a chain that is none, where one alone is.
    fn saw_link(&mut self, slip: &Judged, side: usize) {
        let links: Vec<(u16, u16)> = slip.links(side).collect();
        let [at] = (0..links.len()).filter(|&at| !slip.carries(M, links[at])).collect::<Vec<_>>()[..] else { return };
        let which = match slip.index.parts[M].get(&links[at]) {
            None if slip.carries(M, (links[at].1, links[at].0)) => 3,
            None => 0,
            Some(counts) => 1 + i64::from(!member(counts)),
        };
        self.saw(LINK, which);
        if links.len() > 2 {
            self.saw(LINK_AT[side], place(at, links.len()));
        }
    }

    /// The grant that is none.
    fn saw_grant(&mut self, slip: &Judged) {
        let (key, id) = slip.grant().expect("two chains");
        let which = match slip.index.parts[P].get(&(key, id)) {
            None if slip.carries(P, (id, key)) => 3,
            None => 0,
            Some(counts) => 1 + i64::from(denied(counts, slip.right)),
        };
        self.saw(GRANT, which);
    }
}
