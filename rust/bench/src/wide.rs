//! Wide messages, each beside its pairs sent one by one as plain messages.

use super::{block, give, message, row, Programs, Runner, Size, MILL, OBJECTS, PEOPLE, PERMISSION, READ, SMALL};
use plain::{half_at, LIST, MESSAGE, NEW, OLD};
use second::drive::{packed, Library};
use second::{Lists, Wide};
use std::hint::black_box;

/// How many pairs a half has at most.
const PAIRS: usize = LIST * LIST;

/// Some orders, and as many people who may read them, of one of two teams. No record of a block has such a pair by itself.
fn team(team: u16, many: usize) -> Lists {
    let names = |first: u16| (0..many as u16).map(|n| first + 20 * n).collect();
    Lists { keys: names(OBJECTS.start + 4), ids: names(PEOPLE.start + 5 + 10 * team), mask: READ }
}

/// The plain message of one pair, with one half.
fn of_pair(half: usize, (key, id): (u16, u16)) -> [u8; MESSAGE] {
    message(half, PERMISSION, key, id, READ.into())
}

/// A wide message, and what a host without it would send.
struct Sent {
    wide: Vec<u8>,
    pairs: Vec<[u8; MESSAGE]>,
}

impl Sent {
    /// What these pairs said is said of others: each plain message has both halves.
    fn moved(previous: &Lists, new: &Lists) -> Sent {
        let halves = [previous.clone(), new.clone()];
        let both = |(old, new)| {
            let (mut m, other) = (of_pair(OLD, old), of_pair(NEW, new));
            m[1] |= other[1];
            m[half_at(NEW)..].copy_from_slice(&other[half_at(NEW)..]);
            m
        };
        let pairs = previous.pairs().zip(new.pairs()).map(both).collect();
        Sent { wide: Wide { first: PERMISSION, flags: 3, halves }.encode(), pairs }
    }

    /// One half, which is refused at its last pair: the plain messages of all pairs, and then those that undo all but the last.
    fn refused(half: usize, lists: &Lists) -> Sent {
        let mut halves = <[Lists; 2]>::default();
        halves[half] = lists.clone();
        let there = lists.pairs().map(|pair| of_pair(half, pair));
        let back = lists.pairs().take(PAIRS - 1).map(|pair| of_pair(NEW + OLD - half, pair));
        let pairs = there.chain(back).collect();
        Sent { wide: Wide { first: PERMISSION, flags: 1 << half, halves }.encode(), pairs }
    }

    /// Sends it, whole or in pairs; the number of the whole.
    fn to(&self, runner: &mut Runner) -> Option<u64> {
        if !runner.one_by_one {
            return Some(runner.wide(&self.wide));
        }
        for pair in &self.pairs {
            black_box(runner.message(pair));
        }
        None
    }
}

/// The block of a size, and room for so many more, with some pairs that may read.
fn with_pairs(library: &dyn Library, size: &Size, more: usize, pairs: impl Iterator<Item = (u16, u16)>) -> Vec<u8> {
    let Size(memberships, grants, filters, _) = *size;
    let mut b = block(library, &Size(memberships, grants, filters, more));
    pairs.for_each(|(key, id)| give(library, &mut b, PERMISSION, key, id, READ.into()));
    b
}

/// Times messages in turn, that give this number, and prints the line of it. The library that sends the pairs comes last.
fn line(programs: &Programs, what: &str, sent: &[Sent], number: u32, made: impl Fn(&dyn Library) -> Vec<u8>) {
    let mut runners = programs.with(&made);
    runners.push(Runner { one_by_one: true, ..programs.library_with(&made) });
    for one in sent {
        let answers = runners.iter_mut().filter_map(|runner| one.to(runner)).collect::<Vec<_>>();
        assert!(answers.iter().all(|&answer| answer == packed(number, 0)), "{what}: {answers:?}");
        let (first, last) = (&runners[0].block, &runners[runners.len() - 1].block);
        assert_eq!(first, last, "a wide message leaves what its pairs leave");
    }
    row(what, &mut runners, |runner, n| {
        black_box(sent[n % sent.len()].to(runner));
    });
}

/// The lines of one block.
fn lines(programs: &Programs, name: &str, size: &Size) {
    programs.headed(name, "call", &["wide / in pairs", "Rust"]);
    for (many, what) in [(1, "one pair to another"), (2, "2 × 2 pairs to others"), (LIST, "8 × 8 pairs to others")] {
        let [one, other] = [0, 1].map(|team| self::team(team, many));
        let sent = [Sent::moved(&one, &other), Sent::moved(&other, &one)];
        line(programs, what, &sent, 0, |library| with_pairs(library, size, PAIRS, one.pairs()));
    }
    let all = team(0, LIST);
    let stay = [Sent::moved(&all, &all)];
    line(programs, "8 × 8 pairs that stay", &stay, 0, |library| {
        with_pairs(library, size, PAIRS, all.pairs().chain(all.pairs()))
    });
    let [missing, full] = [Sent::refused(OLD, &all), Sent::refused(NEW, &all)];
    line(programs, "8 × 8 pairs to take, the last refused", &[missing], 6, |library| {
        with_pairs(library, size, PAIRS, all.pairs().take(PAIRS - 1))
    });
    line(programs, "8 × 8 pairs to add, the last refused", &[full], 8, |library| {
        with_pairs(library, size, PAIRS - 1, std::iter::empty())
    });
}

/// The tables of those programs that take wide messages.
pub fn tables(programs: &mut Programs) {
    programs.timed = programs.wide;
    lines(programs, "Wide messages on the small block", &SMALL);
    lines(programs, "Wide messages on the mill's block", &MILL);
    programs.timed = programs.all.len();
}
