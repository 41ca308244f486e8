//! Whether a record can bear on a user's rights on an object, on the mill's block: each kind of record, one that does and one that
//! does not, beside the plain program's call, and beside the library's full question about the same user and object.

use super::{asked, block, row, Programs, Runner, FILTER, MEMBERSHIP, MILL, PERMISSION};
use plain::{bears, Plain};
use second::drive::{packed, Library};
use second::{Index, Part};
use std::hint::black_box;

/// How many users and objects are looked at, and the most of them that are timed in a row.
const COMPARED: usize = 1600;
const TIMED: usize = 60;

/// A user, an object, and a record by its kind, key and id.
struct Asked {
    user: u64,
    object: u64,
    kind: u64,
    key: u64,
    id: u64,
}

impl Asked {
    fn of(&self, library: &dyn Library, b: &[u8]) -> u64 {
        library.bears(b, self.user, self.object, self.kind, self.key, self.id)
    }

    /// Whether it bears, by the plain program, on one who is the user and the object, or on these two.
    fn bears(&self, b: &[u8], user: u64, object: u64) -> bool {
        bears(b, user, object, self.kind, self.key, self.id) == (0, 1)
    }
}

/// Which records of a part are asked about, given the block.
type Such = fn(&Asked, &[u8]) -> bool;

/// For each of some users and objects, a record of the kind that is such; not the same of them for each.
fn asks(b: &[u8], kind: u8, part: &Part, such: Such) -> Vec<Asked> {
    let records: Vec<(u16, u16)> = part.keys().copied().collect();
    let one = |n: usize| {
        let (user, object) = asked(n);
        let turned = records.iter().cycle().skip(7 * n % records.len()).take(records.len());
        let mut all = turned.map(|&(key, id)| Asked { user, object, kind: kind.into(), key: key.into(), id: id.into() });
        all.find(|asked| such(asked, b))
    };
    (0..COMPARED).filter_map(one).take(TIMED).collect()
}

/// The rows: what is asked about, of which kind, which records, and the answer.
const ROWS: [(&str, u8, Such, bool); 6] = [
    ("a permission that bears", PERMISSION, |asked, b| asked.bears(b, asked.user, asked.object), true),
    ("a permission that does not", PERMISSION, |asked, b| !asked.bears(b, asked.user, asked.object), false),
    (
        "a membership that bears for the object alone",
        MEMBERSHIP,
        |asked, b| asked.bears(b, asked.object, asked.object) && !asked.bears(b, asked.user, asked.user),
        true,
    ),
    ("a membership that does not", MEMBERSHIP, |asked, b| !asked.bears(b, asked.user, asked.object), false),
    ("a filter that bears", FILTER, |asked, b| asked.bears(b, asked.user, asked.object), true),
    ("a filter that does not", FILTER, |asked, b| !asked.bears(b, asked.user, asked.object), false),
];

/// Times the call about these, and prints the line of it. The last runner asks the full question in its place.
fn line(runners: &mut [Runner], what: &str, asks: &[Asked], yes: bool) {
    assert!(!asks.is_empty(), "{what}: there are such records");
    for runner in runners.iter().filter(|runner| !runner.full) {
        let answers = asks.iter().map(|asked| asked.of(runner.library, &runner.block));
        assert!({ answers }.all(|answer| answer == packed(0, yes.into())), "{what}: the programs agree");
    }
    row(what, runners, |runner, n| {
        let asked = &asks[n % asks.len()];
        black_box(if runner.full { runner.rights(asked.user, asked.object) } else { asked.of(runner.library, &runner.block) });
    });
}

/// The table. An archive from before has no part in it.
pub fn tables(programs: &mut Programs) {
    programs.timed = 2;
    let (made, b) = (|library: &dyn Library| block(library, &MILL), block(&Plain, &MILL));
    let index = Index::decode(&b).expect("a good block");
    programs.headed("What bears, on the mill's block", "call", &["bears / full question", "Rust"]);
    let mut runners = programs.with(made);
    runners.push(Runner { full: true, ..programs.library_with(made) });
    for (what, kind, such, yes) in ROWS {
        line(&mut runners, what, &asks(&b, kind, &index.parts[usize::from(kind) - 1], such), yes);
    }
    programs.timed = programs.all.len();
}
