//! Finding slips and checking them, on the blocks in use: each call beside the full question about the same user and object.

use super::{asked, block, due, row, shaped, shapes, spread, Asked, Programs, Runner, FULL, MILL, READ, SMALL};
use plain::{find_slip, Plain, SLIP};
use second::drive::Library;
use second::Slip;
use std::hint::black_box;

/// How many users and objects slips are looked for.
const COMPARED: usize = 1600;

/// The slips for reading on a block, and what has none.
struct Asks {
    some: Vec<Slip>,
    none: Vec<Slip>,
}

impl Asks {
    fn new(made: impl Fn(&dyn Library) -> Vec<u8>, asked: Asked) -> Asks {
        let (b, mut asks) = (made(&Plain), Asks { some: vec![], none: vec![] });
        for (user, object) in (0..COMPARED).map(asked) {
            let [mut hers, mut its] = [[0; SLIP]; 2];
            let (_, value) = find_slip(&b, user, object, READ.into(), &mut hers, &mut its);
            let names = [value % 256, value / 256].map(|names| names as usize);
            let chains = [hers[..names[0]].to_vec(), its[..names[1]].to_vec()];
            let kind = if value > 0 { &mut asks.some } else { &mut asks.none };
            kind.push(Slip { user, object, right: READ.into(), chains });
        }
        asks
    }
}

/// Looks for a slip, or asks the full question in its place; how many names were found, on both chains.
fn find(runner: &mut Runner, slip: &Slip) -> u64 {
    if runner.full {
        return runner.rights(slip.user, slip.object);
    }
    let [hers, its] = &mut runner.lists;
    let value = runner.library.find_slip(&runner.block, slip.user, slip.object, slip.right, hers, its);
    value % 256 + value / 256
}

/// Checks a slip, or asks the full question in its place.
fn check(runner: &mut Runner, slip: &Slip) -> u64 {
    if runner.full {
        return runner.rights(slip.user, slip.object);
    }
    let [hers, its] = &slip.chains;
    runner.library.check_slip(&runner.block, slip.user, slip.object, slip.right, hers, its)
}

/// A call about a slip.
type Call = fn(&mut Runner, &Slip) -> u64;

/// Times a call about some slips in turn, which tells this of each, and prints the line of it.
fn line(what: &str, runners: &mut [Runner], slips: &[Slip], call: Call, tells: impl Fn(&Slip) -> u64) {
    if slips.is_empty() {
        return;
    }
    for runner in runners.iter_mut().filter(|runner| !runner.full) {
        assert!(slips.iter().all(|slip| call(runner, slip) == tells(slip)), "{what}: the programs agree");
    }
    row(what, runners, |runner, n| {
        black_box(call(runner, &slips[n % slips.len()]));
    });
}

/// The lines of a block that is made so, about these users and objects. The library that is asked the full question comes last.
fn table(programs: &Programs, name: &str, asked: Asked, made: impl Fn(&dyn Library) -> Vec<u8>) {
    programs.headed(&format!("Slips: {name}"), "call", &["slip / full question", "Rust"]);
    let (asks, mut runners) = (Asks::new(&made, asked), programs.with(&made));
    runners.push(Runner { full: true, ..programs.library_with(&made) });
    let names = |slip: &Slip| slip.chains.iter().map(Vec::len).sum::<usize>() as u64;
    line("finding a slip", &mut runners, &asks.some, find, names);
    line("finding none", &mut runners, &asks.none, find, |_| 0);
    line("checking a slip", &mut runners, &asks.some, check, |_| 1);
    let (many, names) = (asks.some.len(), asks.some.iter().map(names));
    println!("\nOf {COMPARED} there are {many} with a slip, and the longest has {} names.", names.max().unwrap_or(0));
}

/// The tables of those programs that have slips.
pub fn tables(programs: &mut Programs) {
    programs.timed = programs.slipped;
    table(programs, "the small block", asked, |library| block(library, &SMALL));
    table(programs, "the mill's block", asked, |library| block(library, &MILL));
    table(programs, "the mill's block, the questions of the due list", due, |library| block(library, &MILL));
    table(programs, "the full block", asked, |library| block(library, &FULL));
    for (what, memberships) in shapes() {
        table(programs, what, spread, |library| shaped(library, &memberships));
    }
    programs.timed = programs.all.len();
}
