//! Rights over chains of at most so many records, by the plain engine and by the main walk held to the limit: each beside the full
//! question about the same user and object, the library's own and the plain program's. The block is the mill's, cut to as many
//! memberships as the plain engine takes: those nearest to the users and objects that are asked about.

use super::{asked, block, empty, give, records_of, row, Programs, Runner, Size};
use super::{FILTER, MEMBERSHIP, MILL, PERMISSION};
use plain::{Plain, ALL};
use second::drive::Library;
use second::{Counts, Index, M, RIGHTS};
use std::collections::BTreeSet;
use std::hint::black_box;

/// The most memberships that the plain engine takes.
const MEMBERSHIPS: usize = 64;

/// The limits that are timed. The plain engine takes those up to 8.
const LIMITS: [u64; 5] = [0, 2, 4, 8, 32];
const PLAIN_LIMIT: u64 = 8;

/// The mask of a record's rights.
fn rights_of(counts: &Counts) -> u16 {
    (0..RIGHTS).filter(|&right| counts[right] > 0).map(|right| 1 << right).sum()
}

/// The users and objects that are asked about.
const QUESTIONS: usize = 6;

/// The records of the mill's block after the cut, and the questions.
struct Cut {
    index: Index,
    asked: Vec<(u64, u64)>,
}

impl Cut {
    fn new() -> Cut {
        let mut index = Index::decode(&block(&Plain, &MILL)).expect("a good block");
        let part = &index.parts[M];
        let grouped = |name: u64| records_of(part, name as u16).next().is_some();
        let questions = (0..).map(asked).filter(|&(user, object)| grouped(user) && grouped(object));
        let asked: Vec<(u64, u64)> = questions.take(QUESTIONS).collect();
        let mut names: Vec<u16> = asked.iter().flat_map(|&(user, object)| [user as u16, object as u16]).collect();
        let (mut kept, mut next) = (BTreeSet::new(), 0);
        while next < names.len() {
            for (&record, _) in records_of(part, names[next]).take(MEMBERSHIPS - kept.len()) {
                kept.insert(record);
                if !names.contains(&record.1) {
                    names.push(record.1);
                }
            }
            next += 1;
        }
        index.parts[M].retain(|record, _| kept.contains(record));
        Cut { index, asked }
    }

    /// The block of a program.
    fn block(&self, library: &dyn Library) -> Vec<u8> {
        let Size(.., spare) = MILL;
        let mut b = empty(library, self.index.records() + spare);
        for (kind, part) in [MEMBERSHIP, PERMISSION, FILTER].into_iter().zip(&self.index.parts) {
            for (&(key, id), counts) in part {
                give(library, &mut b, kind, key, id, rights_of(counts));
            }
        }
        b
    }
}

/// A call with a limit.
type Call = fn(&dyn Library, &[u8], u64, u64, u64) -> u64;

const PLAIN_ENGINE: (&str, Call) =
    ("the plain engine", |library, b, user, object, limit| library.plain(b, user, object, ALL.into(), limit));
const MAIN_WALK: (&str, Call) =
    ("the main walk", |library, b, user, object, limit| library.rights_to(b, user, object, ALL.into(), limit));

/// Times a call of the library with a limit, and prints the line of it. The others are asked the full question.
fn line(runners: &mut [Runner], cut: &Cut, (what, call): (&str, Call), limit: u64) {
    let library = &runners[0];
    let rights = |call: Call, library: &dyn Library, b: &[u8]| -> Vec<u64> {
        cut.asked.iter().map(|&(user, object)| call(library, b, user, object, limit)).collect()
    };
    let answers = rights(call, library.library, &library.block);
    assert_eq!(answers, rights(MAIN_WALK.1, &Plain, &cut.block(&Plain)), "{what}: the programs agree");
    row(&format!("{what}, limit {limit}"), runners, |runner, n| {
        let (user, object) = cut.asked[n % cut.asked.len()];
        black_box(match runner.full {
            true => runner.rights(user, object),
            false => call(runner.library, &runner.block, user, object, limit),
        });
    });
}

/// The table. An archive from before has no part in it.
pub fn tables(programs: &mut Programs) {
    programs.timed = 2;
    let cut = Cut::new();
    let what = "Limits: the mill's block, cut to 64 memberships, beside the full question in Rust and in the library";
    programs.headed(what, "call", &["limited / full question", "Rust"]);
    let (made, library) = (|library: &dyn Library| cut.block(library), 0);
    let mut runners = programs.with(made);
    runners.iter_mut().enumerate().for_each(|(program, runner)| runner.full = program != library);
    runners.push(Runner { full: true, ..programs.library_with(made) });
    for limit in LIMITS {
        if limit <= PLAIN_LIMIT {
            line(&mut runners, &cut, PLAIN_ENGINE, limit);
        }
        line(&mut runners, &cut, MAIN_WALK, limit);
    }
    let (memberships, b) = (cut.index.parts[M].len(), cut.block(&Plain));
    let rights = |limit| cut.asked.iter().filter(|&&(user, object)| MAIN_WALK.1(&Plain, &b, user, object, limit) > 0).count();
    let held: Vec<String> = LIMITS.iter().map(|&limit| format!("{} with limit {limit}", rights(limit))).collect();
    println!("\nThe block has {memberships} memberships. Of {QUESTIONS} questions there are with rights: {}.", held.join(", "));
    programs.timed = programs.all.len();
}
