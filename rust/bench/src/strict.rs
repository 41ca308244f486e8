//! Questions in the strict profile, each beside the same one in the ordinary profile: on blocks in which nothing is denied, on the
//! same with a denial in every fourth P record, and on one in which the first P record grants all and many are left to be looked at.

use super::{any, ask, asked, block, due, empty, give, row, word, Asked, Programs, Runner, Size, FULL, MILL, SMALL};
use super::{EVERY, FULL_QUESTION, GROUPS, MEMBERSHIP, OBJECTS, PEOPLE, PERMISSION, READ, SHORT_QUESTION};
use second::drive::Library;
use second::gen::Rng;
use second::{ORDINARY, P, RIGHTS, STRICT};

/// How many users and objects the answers are compared for.
const COMPARED: usize = 1600;

/// A block of the size, of which every fourth P record denies.
fn denying(library: &dyn Library, &Size(memberships, grants, filters, spare): &Size) -> Vec<u8> {
    let denials = grants / 4;
    let mut b = block(library, &Size(memberships, grants - denials, filters, spare + denials));
    let mut rng = Rng(43);
    while word(&b, 2 * P) < grants {
        let (object, group) = (any(&mut rng, OBJECTS), any(&mut rng, GROUPS));
        let mask = if rng.one_in(3) { EVERY } else { READ.into() };
        give(library, &mut b, PERMISSION, object, group, mask << RIGHTS);
    }
    b
}

/// A user to whom the first P record grants all, and an object with 1,000 grants to others on it and 900 on a group of it.
const USER: u16 = PEOPLE.start;
const OBJECT: u16 = OBJECTS.start;

fn many(library: &dyn Library) -> Vec<u8> {
    let mut b = empty(library, 2000);
    give(library, &mut b, MEMBERSHIP, OBJECT, OBJECT + 1, EVERY);
    give(library, &mut b, PERMISSION, 0, USER, EVERY);
    let others = |names: u16| (0..names).filter(|&name| name != USER);
    others(1001).for_each(|name| give(library, &mut b, PERMISSION, OBJECT, name, EVERY));
    others(901).for_each(|name| give(library, &mut b, PERMISSION, OBJECT + 1, name, EVERY));
    b
}

/// The programs in the strict profile, and the library in the ordinary one, which comes last.
fn runners(programs: &Programs, made: impl Fn(&dyn Library) -> Vec<u8>) -> Vec<Runner<'_>> {
    let strict = programs.with(&made).into_iter().map(|runner| Runner { profile: STRICT, ..runner });
    strict.chain([Runner { profile: ORDINARY, ..programs.library_with(&made) }]).collect()
}

/// How many of some questions get another answer in the strict profile than in the ordinary one. All programs give the same.
fn answered_otherwise(runners: &[Runner], asked: Asked) -> usize {
    let (ordinary, strict) = runners.split_last().expect("the library in the ordinary profile");
    let differs = |&(user, object): &(u64, u64)| {
        let answers: Vec<u64> = strict.iter().map(|runner| runner.rights(user, object)).collect();
        assert!(answers.iter().all(|answer| *answer == answers[0]), "the programs agree about {user} and {object}");
        answers[0] != ordinary.rights(user, object)
    };
    (0..COMPARED).map(asked).filter(differs).count()
}

/// The lines of both questions, on a block made so; how many full ones are answered otherwise in the ordinary profile.
fn lines(programs: &Programs, what: &str, asked: Asked, made: impl Fn(&dyn Library) -> Vec<u8>) -> usize {
    let mut runners = runners(programs, made);
    for (question, kind) in [FULL_QUESTION, SHORT_QUESTION] {
        row(&format!("{question}, {what}"), &mut runners, |runner, n| ask(runner, kind, asked, n));
    }
    answered_otherwise(&runners, asked)
}

/// The lines of a block of the size, as it is and with denials.
fn table(programs: &Programs, name: &str, size: &Size, asked: Asked) {
    programs.headed(name, "call", &["strict / ordinary", "Rust"]);
    let without = lines(programs, "nothing denied", asked, |library| block(library, size));
    let with = lines(programs, "a denial in every fourth P record", asked, |library| denying(library, size));
    assert_eq!(without, 0, "where nothing is denied nothing is barred");
    println!("\nIn the strict profile {with} of {COMPARED} full questions are answered otherwise, with the denials.");
}

/// The tables of those programs that have profiles.
pub fn tables(programs: &mut Programs) {
    programs.timed = programs.profiled;
    if programs.profiled > 1 {
        table(programs, "The strict profile on the small block", &SMALL, asked);
        table(programs, "The strict profile on the mill's block", &MILL, asked);
        table(programs, "The strict profile on the full block", &FULL, asked);
        table(programs, "The strict profile on the mill's block, the questions of the due list", &MILL, due);
        programs.headed("The strict profile, with 1,900 P records behind the first", "call", &["strict / ordinary", "Rust"]);
        lines(programs, "the first P record grants all", |_| (USER.into(), OBJECT.into()), many);
    }
    programs.timed = programs.all.len();
}
