//! Times the library beside the plain program in one run, and prints ratios: bench. ANAQSIRO_NOW and ANAQSIRO_BEFORE name
//! shared objects of two archives, as `tools/ratios` makes them: the first is then the library, in place of the archive that is
//! linked, and the second is timed beside it. Their records may have different lengths: each program's blocks are made by its
//! own calls, as long as its own records want them, and the test of a block is told by the byte too. The calls by a directory
//! have tables of their own, in which each stands beside the call without it, and so have blocks with markers, for programs
//! that know them, questions in the strict profile, each beside the same one in the ordinary profile, for programs that have
//! profiles, questions with a limit, each beside the full question, slips, each beside the full question, for programs that
//! find and check them, the call about what bears, beside the full question, wide messages, each beside its pairs as plain
//! messages, for programs that take them, and moves of appointments, each beside its changes as plain messages, for programs
//! that have them. All other questions are asked in the ordinary profile, which is the only one of an archive without profiles.
//!
//! Each figure is the median over several rounds of some milliseconds of the processor's time; in a round each program does the
//! same calls, in turn, on a block that its own calls have made. Buffers are warm: each call works on what the call before left.

use compare::Archive;
use plain::{half_at, Plain, ALL, CHAIN, ENTRIES, HEADER, MARKED, MASK, MESSAGE, NAMES, NEW, OLD, RECORD, ROOM, SLIP};
use second::drive::{packed, Library, TEXT};
use second::gen::Rng;
use second::{Counts, Index, Part, M, ORDINARY, RIGHTS, STRICT};
use std::collections::BTreeSet;
use std::env::var;
use std::ffi::c_int;
use std::fs;
use std::hint::black_box;
use std::ops::Range;

mod appointments;
mod bearing;
mod firms;
mod limits;
mod slips;
mod strict;
mod wide;

const ROUNDS: usize = 31;

/// The calls of a round come in groups of so many, an even number, as each group leaves the block as it was.
const GROUP: usize = 60;

/// How long a round of one program is to take, in seconds.
const LONG: f64 = 0.004;

/// Who is who in the blocks: objects, some of them groups of objects, people, and groups of people.
const OBJECTS: Range<u16> = 1..200;
const PEOPLE: Range<u16> = 200..800;
const GROUPS: Range<u16> = 800..1000;

const MEMBERSHIP: u8 = 1;
const PERMISSION: u8 = 2;
const FILTER: u8 = 3;
const READ: u8 = 2;

/// The due list: each of so many people asks for each of so many orders.
const CALLERS: u64 = 40;
const ORDERS: u64 = 50;
const QUESTIONS: usize = (CALLERS * ORDERS) as usize;

/// How many memberships, grants and filters a block has, and how many more it has room for.
struct Size(usize, usize, usize, usize);

const SMALL: Size = Size(10, 5, 2, 4);
const MILL: Size = Size(1258, 200, 40, 20);
const FULL: Size = Size(1500, 500, 45, 3);

/// A program that is timed, with its block, the block's directory if the calls go by it, the profile in which it is asked, a buffer
/// for texts and lists for chains, whether it is to send the pairs of a wide message, or the changes of a move, one by one as plain
/// messages, and whether it is asked the full question where others are asked about a slip, with a limit or about what bears.
struct Runner<'a> {
    library: &'a dyn Library,
    block: Vec<u8>,
    directory: Option<Vec<u16>>,
    profile: u64,
    out: Vec<u8>,
    lists: [Vec<u16>; 2],
    one_by_one: bool,
    full: bool,
}

/// The calls, by the directory if there is one.
impl<'a> Runner<'a> {
    /// A program whose calls go without a directory.
    fn without(library: &'a dyn Library, block: Vec<u8>) -> Runner<'a> {
        let (out, lists) = (vec![0; TEXT], [(); 2].map(|()| vec![0; SLIP]));
        Runner { library, block, directory: None, profile: ORDINARY, out, lists, one_by_one: false, full: false }
    }

    /// A program whose calls go by the directory, which it makes.
    fn by(library: &'a dyn Library, block: Vec<u8>) -> Runner<'a> {
        let mut directory = vec![0; ENTRIES];
        assert_eq!(library.directory(&block, &mut directory), 0);
        Runner { directory: Some(directory), ..Runner::without(library, block) }
    }

    fn message(&mut self, message: &[u8]) -> u64 {
        match &mut self.directory {
            Some(directory) => self.library.message_by(&mut self.block, directory, message),
            None => self.library.message(&mut self.block, message),
        }
    }

    fn wide(&mut self, message: &[u8]) -> u64 {
        match &mut self.directory {
            Some(directory) => self.library.wide_by(&mut self.block, directory, message),
            None => self.library.wide(&mut self.block, message),
        }
    }

    fn rights(&self, user: u64, object: u64) -> u64 {
        match &self.directory {
            Some(directory) => self.library.rights_by(&self.block, directory, user, object, ALL.into(), self.profile),
            None => self.library.rights(&self.block, user, object, ALL.into(), self.profile),
        }
    }

    fn may(&self, user: u64, object: u64) -> u64 {
        match &self.directory {
            Some(directory) => self.library.may_by(&self.block, directory, user, object, READ.into(), self.profile),
            None => self.library.may(&self.block, user, object, READ.into(), self.profile),
        }
    }

    fn write(&mut self, key: u64) -> u64 {
        match &self.directory {
            Some(directory) => self.library.write_by(&self.block, directory, PERMISSION.into(), key, &mut self.out),
            None => self.library.write(&self.block, PERMISSION.into(), key, &mut self.out),
        }
    }

    fn read(&mut self, key: u64, text: &[u8]) -> u64 {
        match &mut self.directory {
            Some(directory) => self.library.read_by(&mut self.block, directory, PERMISSION.into(), key, text),
            None => self.library.read(&mut self.block, PERMISSION.into(), key, text),
        }
    }

    /// Makes the directory again. Without one, it only tests the block.
    fn make_directory(&mut self) -> u64 {
        match &mut self.directory {
            Some(directory) => self.library.directory(&self.block, directory),
            None => self.library.tested(&self.block),
        }
    }
}

fn word(b: &[u8], at: usize) -> usize {
    usize::from(u16::from_le_bytes([b[at], b[at + 1]]))
}

/// A message with one half, the old one or the new one. The mask has the letters of a half, and above them its markers.
fn message(half: usize, kind: u8, key: u16, id: u16, mask: u16) -> [u8; MESSAGE] {
    let (mut m, at, [letters, markers]) = ([0; MESSAGE], half_at(half), mask.to_le_bytes());
    (m[0], m[1]) = (kind | markers << MARKED[half], 1 << half);
    m[at..at + MASK].copy_from_slice(&[key, id].map(u16::to_le_bytes).concat());
    m[at + MASK] = letters;
    m
}

/// How long a program's records are: where they end in a block that has one.
fn record_of(library: &dyn Library) -> usize {
    let mut one = vec![0; 2 * HEADER + 64];
    assert_eq!(library.make(&mut one), 0);
    assert_eq!(library.message(&mut one, &message(NEW, MEMBERSHIP, 1, 1, READ.into())), 0);
    word(&one, HEADER - 2) - HEADER
}

/// Whether a program has profiles: it refuses a number that is none. One without them passes over the number.
fn has_profiles(library: &dyn Library) -> bool {
    library.rights(&empty(library, 0), 0, 0, ALL.into(), STRICT + 1) == packed(15, 0)
}

/// An empty block of a program with room for so many records, as long as the program's own records are.
fn empty(library: &dyn Library, room: usize) -> Vec<u8> {
    let mut b = vec![0; HEADER + record_of(library) * room];
    assert_eq!(library.make(&mut b), 0);
    b
}

/// Adds to a record of the block, which has room for it.
fn give(library: &dyn Library, b: &mut [u8], kind: u8, key: u16, id: u16, mask: u16) {
    assert_eq!(library.message(b, &message(NEW, kind, key, id, mask)), 0);
}

fn any(rng: &mut Rng, of: Range<u16>) -> u16 {
    of.start + rng.below(of.len() as u64) as u16
}

/// A block of a program: people in groups, groups in groups, objects in groups of objects, grants on those, and filters.
fn block(library: &dyn Library, &Size(memberships, grants, filters, spare): &Size) -> Vec<u8> {
    let mut rng = Rng(42);
    let mut b = empty(library, memberships + grants + filters + spare);
    for (kind, wanted) in (MEMBERSHIP..).zip([memberships, grants, filters]) {
        while word(&b, 2 * usize::from(kind - 1)) < wanted {
            let (group, object) = (any(&mut rng, GROUPS), any(&mut rng, OBJECTS));
            let (key, id) = match (kind, rng.below(4)) {
                (MEMBERSHIP, 0) => (group, any(&mut rng, GROUPS)),
                (MEMBERSHIP, 1) => (object, any(&mut rng, OBJECTS)),
                (MEMBERSHIP, _) => (any(&mut rng, PEOPLE), group),
                (PERMISSION, _) => (object, group),
                _ => (object, rng.below(20) as u16),
            };
            let mask = if rng.one_in(3) { ALL } else { READ };
            give(library, &mut b, kind, key, id, mask.into());
        }
    }
    b
}

/// A membership: key, id and mask, with markers or without.
type Membership = (u16, u16, u16);

/// The mask of all rights.
const EVERY: u16 = ALL as u16;

/// A block of a program with these memberships, and grants to and on some names.
fn shaped(library: &dyn Library, memberships: &[Membership]) -> Vec<u8> {
    let mut b = empty(library, memberships.len() + 40);
    for &(key, id, mask) in memberships {
        give(library, &mut b, MEMBERSHIP, key, id, mask);
    }
    for n in 0..40 {
        give(library, &mut b, PERMISSION, 25 * n, (25 * n + 500) % 1000, EVERY);
    }
    b
}

/// Memberships, two for each of some names, by which each of those leads to all of them.
fn doubled(first: u16, names: u16) -> impl Iterator<Item = Membership> {
    (0..2 * names).map(move |n| (first + n / 2, first + n % names, EVERY))
}

/// The user and the object of the n-th question.
type Asked = fn(usize) -> (u64, u64);

fn asked(n: usize) -> (u64, u64) {
    (u64::from(PEOPLE.start) + 9 * (n as u64 % 64), u64::from(OBJECTS.start) + n as u64 % 100)
}

/// The same, of 1,000 names that are people and objects alike.
fn spread(n: usize) -> (u64, u64) {
    (37 * n as u64 % 1000, (61 * n as u64 + 500) % 1000)
}

/// The same, of the due list.
fn due(n: usize) -> (u64, u64) {
    let (caller, order) = (n as u64 % CALLERS, n as u64 / CALLERS % ORDERS);
    (u64::from(PEOPLE.start) + 15 * caller, u64::from(OBJECTS.start) + 3 * order)
}

/// How a program is asked about a user and an object.
type Ask = fn(&Runner, u64, u64) -> u64;

const TEST: (&str, Ask) =
    ("the test of the block (a question refused with 4)", |runner, _, object| runner.rights(NAMES as u64, object));
const BOTH_TESTS: (&str, Ask) = ("the tests of block and directory (a question refused with 4)", TEST.1);
const FULL_QUESTION: (&str, Ask) = ("the full question", |runner, user, object| runner.rights(user, object));
const SHORT_QUESTION: (&str, Ask) = ("the short question", |runner, user, object| runner.may(user, object));

/// A time as C has it.
#[repr(C)]
struct Time {
    seconds: i64,
    nanoseconds: i64,
}

extern "C" {
    fn clock_gettime(clock: c_int, time: *mut Time) -> c_int;
}

/// The clock of the processor's time that this thread has had.
const OWN: c_int = 3;

/// What that clock shows, in seconds. What other programs take of the processor meanwhile does not count.
fn clock() -> f64 {
    let mut time = Time { seconds: 0, nanoseconds: 0 };
    // SAFETY: the call writes the one value that it is lent.
    assert_eq!(unsafe { clock_gettime(OWN, &mut time) }, 0, "the thread has a clock");
    time.seconds as f64 + 1e-9 * time.nanoseconds as f64
}

fn seconds(times: usize, call: &mut impl FnMut(usize)) -> f64 {
    let start = clock();
    (0..times).for_each(call);
    (clock() - start) / times as f64
}

fn median(values: impl Iterator<Item = f64>) -> f64 {
    let mut values: Vec<f64> = values.collect();
    values.sort_by(f64::total_cmp);
    values[values.len() / 2]
}

/// How long each call takes in each round, whose calls come in groups of so many. They are timed in turn, there and back, so that
/// a machine that changes its pace changes them all.
fn in_turn(calls: &mut [impl FnMut(usize)], group: usize) -> Vec<Vec<f64>> {
    let slowest = calls.iter_mut().map(|call| seconds(group, call)).fold(0.0, f64::max);
    let times = group * (LONG / (group as f64 * slowest)).ceil() as usize;
    let mut rounds = vec![vec![0.0; calls.len()]; ROUNDS];
    for (round, taken) in rounds.iter_mut().enumerate() {
        for k in 0..calls.len() {
            let k = if round % 2 == 0 { k } else { calls.len() - 1 - k };
            taken[k] = seconds(times, &mut calls[k]);
        }
    }
    rounds
}

/// How many times as long one call takes as another: the median of the rounds' own ratios.
fn ratio(rounds: &[Vec<f64>], one: usize, other: usize) -> f64 {
    median(rounds.iter().map(|taken| taken[one] / taken[other]))
}

/// The programs that are timed: the library first, then the plain program, then the archive from before, if there is one.
struct Programs {
    all: Vec<Box<dyn Library>>,
    /// How many of them, the first ones, have the calls by a directory, how many know markers, how many have profiles, how many find
    /// and check slips, how many take wide messages, and how many have the calls of appointments.
    directed: usize,
    marked: usize,
    profiled: usize,
    slipped: usize,
    wide: usize,
    appointed: usize,
    /// How many of them are timed.
    timed: usize,
    /// Whether the calls go by a directory.
    by: bool,
}

/// Whether a shared object has the name of a function.
fn has(path: &str, name: &str) -> bool {
    let name = [name.as_bytes(), &[0]].concat();
    fs::read(path).is_ok_and(|bytes| bytes.windows(name.len()).any(|window| window == name))
}

impl Programs {
    fn new() -> Result<Programs, String> {
        let named = |name: &str| var(name).ok().map(|path| Archive::loaded(&path)).transpose();
        let library = named("ANAQSIRO_NOW")?.unwrap_or_else(Archive::linked);
        let mut all: Vec<Box<dyn Library>> = vec![Box::new(library), Box::new(Plain)];
        let [mut directed, mut slipped, mut wide, mut appointed] = [all.len(); 4];
        if let Some(before) = named("ANAQSIRO_BEFORE")? {
            all.push(Box::new(before));
            let known = |name| usize::from(var("ANAQSIRO_BEFORE").is_ok_and(|path| has(&path, name)));
            directed += known("anaqsiro_directory");
            slipped += known("anaqsiro_find_slip");
            wide += known("anaqsiro_wide");
            appointed += known("anaqsiro_move");
        }
        let marked = all.iter().take_while(|library| record_of(library.as_ref()) == RECORD).count();
        let profiled = all.iter().take_while(|library| has_profiles(library.as_ref())).count();
        Ok(Programs { timed: all.len(), all, directed, marked, profiled, slipped, wide, appointed, by: false })
    }

    /// Each program with a block of its own, made by the function given. Where the calls go by a directory, the library without
    /// one is the first.
    fn with(&self, made: impl Fn(&dyn Library) -> Vec<u8>) -> Vec<Runner<'_>> {
        let all = self.all.iter().take(self.timed).map(Box::as_ref);
        if !self.by {
            return all.map(|library| Runner::without(library, made(library))).collect();
        }
        let first = self.all[0].as_ref();
        let by = all.take(self.directed).map(|library| Runner::by(library, made(library)));
        [Runner::without(first, made(first))].into_iter().chain(by).collect()
    }

    /// The library alone with a block of its own, by a directory if the calls go by one.
    fn library_with(&self, made: impl Fn(&dyn Library) -> Vec<u8>) -> Runner<'_> {
        let library = self.all[0].as_ref();
        if self.by {
            Runner::by(library, made(library))
        } else {
            Runner::without(library, made(library))
        }
    }

    /// The ways to ask: one that is refused once the tests are done, and the two questions.
    fn asks(&self) -> [(&'static str, Ask); 3] {
        [if self.by { BOTH_TESTS } else { TEST }, FULL_QUESTION, SHORT_QUESTION]
    }

    fn title(&self, what: &str) {
        self.headed(what, "call", &["Rust"]);
    }

    /// A title, and the head of a table with these columns; between them are those of the ratios: to the call without a directory, if
    /// the calls go by one, to the plain program, and to the archive from before, if there is one that has the calls.
    fn headed(&self, what: &str, first: &str, last: &[&str]) {
        let (by, how) = if self.by { (&["by / without"][..], ", by a directory") } else { (&[][..], "") };
        let known = if self.by { self.directed.min(self.timed) } else { self.timed };
        let before: &[&str] = if known > 2 { &["library / before"] } else { &[] };
        let columns = [&[first], by, &["library / Rust"], before, last].concat();
        println!("\n{what}{how}\n\n| {} |\n|{}", columns.join(" | "), "---|".repeat(columns.len()));
    }
}

/// Which of the runners the others are compared with: the library, by a directory if there is one. The plain program follows it.
fn library_of(runners: &[Runner]) -> usize {
    usize::from(runners[0].directory.is_none() && runners[1].directory.is_some())
}

/// The ratios of a line: of the library's call to each of the others.
fn ratios(rounds: &[Vec<f64>], library: usize) -> String {
    let others = (0..rounds[0].len()).filter(|&other| other != library);
    others.map(|other| format!("{:.2}", ratio(rounds, library, other))).collect::<Vec<_>>().join(" | ")
}

/// How long a call takes, in microseconds.
fn micros(rounds: &[Vec<f64>], call: usize) -> f64 {
    median(rounds.iter().map(|taken| taken[call])) * 1e6
}

/// Times a call of each program, so many in a group. The blocks, and the directories, are then as they were.
fn timed(runners: &mut [Runner], group: usize, call: impl Fn(&mut Runner, usize)) -> Vec<Vec<f64>> {
    let state = |runner: &Runner| (runner.block.clone(), runner.directory.clone());
    let before: Vec<_> = runners.iter().map(state).collect();
    let call = &call;
    let mut calls: Vec<_> = runners.iter_mut().map(|runner| move |n| call(runner, n)).collect();
    let rounds = in_turn(&mut calls, group);
    assert!(runners.iter().map(state).eq(before), "a group of calls leaves the block as it was");
    rounds
}

/// Times the test of each program's block, and prints the line of it: by the byte.
fn row_by_the_byte(runners: &mut [Runner]) {
    let (mut rounds, library) = (timed(runners, GROUP, |runner, n| ask(runner, TEST.1, asked, n)), library_of(runners));
    for taken in &mut rounds {
        taken.iter_mut().zip(runners.iter()).for_each(|(time, runner)| *time /= runner.block.len() as f64);
    }
    let (others, nanoseconds) = (ratios(&rounds, library), 1e3 * micros(&rounds, library + 1));
    println!("| the test of the block, by the byte | {others} | {nanoseconds:.4} ns |");
}

/// Times a call of each program, and prints the line of it.
fn row(what: &str, runners: &mut [Runner], call: impl Fn(&mut Runner, usize)) {
    let (rounds, library) = (timed(runners, GROUP, call), library_of(runners));
    println!("| {what} | {} | {:.2} µs |", ratios(&rounds, library), micros(&rounds, library + 1));
}

/// The n-th call of a program that is asked in this way.
fn ask(runner: &Runner, kind: Ask, asked: impl Fn(usize) -> (u64, u64), n: usize) {
    let (user, object) = asked(n);
    black_box(kind(runner, user, object));
}

/// The lines of some calls that ask.
fn rows(kinds: &[(&str, Ask)], runners: &mut [Runner], asked: impl Fn(usize) -> (u64, u64) + Copy) {
    for &(what, kind) in kinds {
        row(what, runners, |runner, n| ask(runner, kind, asked, n));
    }
}

/// Prints how many times the test of the block a question takes. The calls of one program are timed in turn.
fn in_tests(runners: &[Runner], asked: Asked) {
    let told = ["the library", "Rust"].iter().zip(&runners[library_of(runners)..]).map(|(name, runner)| {
        let mut calls = [TEST, FULL_QUESTION, SHORT_QUESTION].map(|(_, kind)| move |n| ask(runner, kind, asked, n));
        let rounds = in_turn(&mut calls, GROUP);
        format!("in {name} {:.2} and {:.2}", ratio(&rounds, 1, 0), ratio(&rounds, 2, 0))
    });
    println!("\nThe full and the short question in times the test: {}", told.collect::<Vec<_>>().join(", "));
}

/// Adds a membership and takes it away again.
fn there_and_back(what: &str, runners: &mut [Runner], key: usize, id: usize) {
    let messages = [NEW, OLD].map(|half| message(half, MEMBERSHIP, key as u16, id as u16, READ.into()));
    row(what, runners, |run, n| {
        black_box(run.message(&messages[n % 2]));
    });
}

/// Reads a text in as the set of a key, and the empty text after it.
fn in_and_out(what: &str, runners: &mut [Runner], key: u64, text: &[u8]) {
    let texts = [text, b""];
    row(what, runners, |run, n| {
        black_box(run.read(key, texts[n % 2]));
    });
}

fn measure(programs: &Programs, name: &str, size: &Size) {
    programs.title(name);
    let mut runners = programs.with(|library| block(library, size));
    rows(&programs.asks(), &mut runners, asked);
    if !programs.by {
        row_by_the_byte(&mut runners);
    }
    let (key, id) = (word(&runners[0].block, HEADER), word(&runners[0].block, HEADER + 2));
    there_and_back("a message that changes a count", &mut runners, key, id);
    there_and_back("a message that inserts, or removes, in front of all", &mut runners, 0, 1);
    row("writing the sets of objects", &mut runners, |run, n| {
        black_box(run.write(n as u64 % u64::from(OBJECTS.end)));
    });
    in_and_out("reading a set of two records, and taking it out", &mut runners, 0, b"3;MR;12;MRU2");
    if programs.by {
        row("making the directory (without: the test of the block)", &mut runners, |run, _| {
            black_box(run.make_directory());
        });
    }
    in_tests(&runners, asked);
}

/// Questions about the names of a block with these memberships.
fn questions(programs: &Programs, name: &str, memberships: &[Membership]) {
    programs.title(name);
    let mut runners = programs.with(|library| shaped(library, memberships));
    rows(&programs.asks(), &mut runners, spread);
    in_tests(&runners, spread);
}

/// The memberships, of which two thirds carry one right only.
fn thinned(memberships: &[Membership]) -> Vec<Membership> {
    let mut rng = Rng(42);
    let mut thin = |mask: u16| if rng.one_in(3) { mask } else { 1 << rng.below(RIGHTS as u64) };
    memberships.iter().map(|&(key, id, mask)| (key, id, thin(mask))).collect()
}

/// The due list, whose questions are asked one after the other: the time of one, and of the list.
fn due_list(programs: &Programs) {
    let columns = ["library", "Rust", "library, the list", "Rust, the list"];
    let what = "The due list: 2,000 questions on the mill's block, of 40 people about 50 orders";
    programs.headed(what, "each question", &columns);
    let mut runners = programs.with(|library| block(library, &MILL));
    let first = library_of(&runners);
    for (what, kind) in [FULL_QUESTION, SHORT_QUESTION] {
        let rounds = timed(&mut runners, QUESTIONS, |runner, n| ask(runner, kind, due, n));
        let [library, rust] = [first, first + 1].map(|program| micros(&rounds, program));
        let [all, in_rust] = [library, rust].map(|one| one * QUESTIONS as f64 / 1e3);
        println!("| {what} | {} | {library:.2} µs | {rust:.2} µs | {all:.1} ms | {in_rust:.1} ms |", ratios(&rounds, first));
    }
}

/// Questions about one object on which all the filters of the mill stand: four on it, and four on each of nine groups of it. Each
/// filter has all rights, so that every one has to be looked at.
fn bound(programs: &Programs) {
    let Size(memberships, grants, filters, spare) = MILL;
    let (object, groups) = (OBJECTS.start, OBJECTS.start + 1..=OBJECTS.start + 9);
    programs.title("The mill, with its 40 filters on one object and nine groups of it");
    let mut runners = programs.with(|library| {
        let mut b = block(library, &Size(memberships - 9, grants, 0, filters + spare + 9));
        let mut all = |kind, key, id| give(library, &mut b, kind, key, id, EVERY);
        groups.clone().for_each(|group| all(MEMBERSHIP, object, group));
        (object..).take(filters / 4).for_each(|key| (0..4).for_each(|id| all(FILTER, key, id)));
        b
    });
    rows(&[FULL_QUESTION, SHORT_QUESTION], &mut runners, |n| (asked(n).0, object.into()));
}

/// Reading a set of 1,000 records into a block with as many records behind it, or refusing its text, and writing it.
fn large_set(programs: &Programs) {
    let text = (0..1000).map(|id| format!("{id};MRU2")).collect::<Vec<_>>().join(";").into_bytes();
    programs.title("A set of 1,000 records, with 1,000 records behind it");
    let mut runners = programs.with(|library| {
        let mut b = empty(library, ROOM);
        (0..1000).for_each(|id| give(library, &mut b, PERMISSION, 9, id, READ.into()));
        b
    });
    in_and_out("reading it in, and taking it out", &mut runners, 5, &text);
    let wrong = [&text[..], b";"].concat();
    row("refusing it for a semicolon at its end", &mut runners, |run, _| {
        black_box(run.read(5, &wrong));
    });
    for run in &mut runners {
        assert_eq!(run.read(5, &text), 1000);
    }
    row("writing it", &mut runners, |run, _| {
        black_box(run.write(5));
    });
    assert!(runners.iter().all(|run| run.out.starts_with(&text)), "each program writes the text");
}

/// A block where a user and an object each reach some names, and neither reaches the others; each name has two memberships.
struct Reach {
    own: u16,
    others: u16,
}

impl Reach {
    /// Where the names of the user and those of the object begin.
    fn starts(&self) -> (u16, u16) {
        (1 + self.others, 2 + self.others + self.own)
    }

    fn block(&self, library: &dyn Library) -> Vec<u8> {
        let (user, object) = self.starts();
        let own = doubled(user, self.own).chain(doubled(object, self.own));
        shaped(library, &doubled(1, self.others).chain(own).collect::<Vec<_>>())
    }

    /// The user and the object of the n-th question.
    fn asked(&self, n: usize) -> (u64, u64) {
        let (user, object) = self.starts();
        let nth = n as u64 % u64::from(self.own.max(1));
        (u64::from(user) + nth, u64::from(object) + nth)
    }
}

/// How long a full question takes on each block, less the test of the block: as multiples of the first, and of the first in
/// microseconds.
fn less_the_test(library: &dyn Library, along: &[Reach]) -> (Vec<f64>, f64) {
    let blocks: Vec<_> = along.iter().map(|reach| reach.block(library)).collect();
    let runners = blocks.into_iter().map(|block| Runner::without(library, block)).collect::<Vec<_>>();
    let two = |(runner, reach)| [TEST.1, FULL_QUESTION.1].map(|kind| move |n| ask(runner, kind, |n| Reach::asked(reach, n), n));
    let mut calls: Vec<_> = runners.iter().zip(along).flat_map(two).collect();
    let rounds = in_turn(&mut calls, GROUP);
    let less = |taken: &[f64], k: usize| taken[2 * k + 1] - taken[2 * k];
    let multiple = |k| median(rounds.iter().map(|taken| less(taken, k) / less(taken, 0)));
    ((0..along.len()).map(multiple).collect(), median(rounds.iter().map(|taken| less(taken, 0))) * 1e6)
}

/// Prints how the time of the full question grows along some blocks; each has its number, which stands for it in the table.
fn growth(programs: &Programs, what: &str, numbers: &[u16], reach: impl Fn(u16) -> Reach) {
    let along: Vec<_> = numbers.iter().map(|&number| reach(number)).collect();
    let [(library, _), (rust, scale)] = [0, 1].map(|program| less_the_test(programs.all[program].as_ref(), &along));
    println!("\nThe full question less the test of the block, by memberships {what}, in multiples of the first\n");
    println!("| memberships | library | Rust |\n|---|---|---|");
    for (number, (library, rust)) in numbers.iter().zip(library.iter().zip(rust)) {
        println!("| {number} | {library:.2} | {rust:.2} |");
    }
    println!("\nThe first takes {scale:.2} µs in Rust.");
}

/// The names whose records a side looks at, round by round: in each round those whose marks grew in the round before.
fn rounds_of(memberships: &Part, start: u16) -> Vec<Vec<u16>> {
    let mut marks = [0; NAMES];
    marks[usize::from(start)] = ALL;
    let (mut grown, mut rounds) = (vec![start], Vec::new());
    while rounds.len() < CHAIN && !grown.is_empty() {
        let before = marks;
        for (&(key, id), counts) in grown.iter().flat_map(|&name| records_of(memberships, name)) {
            let mask = (0..RIGHTS).filter(|&right| counts[right] > 0).map(|right| 1 << right).sum::<u8>();
            marks[usize::from(id)] |= before[usize::from(key)] & mask;
        }
        rounds.push(grown);
        grown = (0..NAMES as u16).filter(|&name| marks[usize::from(name)] != before[usize::from(name)]).collect();
    }
    rounds
}

/// The records of a name.
fn records_of(memberships: &Part, name: u16) -> impl Iterator<Item = (&(u16, u16), &Counts)> {
    memberships.range((name, 0)..=(name, u16::MAX))
}

/// How many rounds a side takes, and how many names and records it looks at.
fn looked_at(memberships: &Part, start: u16) -> [usize; 3] {
    let rounds = rounds_of(memberships, start);
    let names = rounds.iter().flatten();
    [rounds.len(), names.clone().count(), names.flat_map(|&name| records_of(memberships, name)).count()]
}

/// What a side looks at in the mill, over all its names.
fn sides() {
    let index = Index::decode(&block(&Plain, &MILL)).expect("a good block");
    let all: Vec<_> = (OBJECTS.start..GROUPS.end).map(|name| looked_at(&index.parts[M], name)).collect();
    let told = ["rounds", "names", "records"].iter().enumerate().map(|(k, what)| {
        let (sum, most) = (all.iter().map(|sums| sums[k]).sum::<usize>() as f64, all.iter().map(|sums| sums[k]).max().unwrap());
        format!("{what} {:.1} on average, {most} at most", sum / all.len() as f64)
    });
    println!("\nWhat a side looks at in the mill, in at most {CHAIN} rounds: {}", told.collect::<Vec<_>>().join("; "));
}

/// The bytes of a record that a look at it reads, its key and its id; and those of a number of a directory.
const PAIR: usize = 4;
const ENTRY: usize = 2;

/// How many records of a part, with these keys, the library looks at to find the first one of a name. It halves a window of as many
/// records as there can be, and looks at the one that is left; past the end of the part it reads nothing.
fn looks(keys: &[u16], name: u16) -> usize {
    let (mut low, mut looks) = (0, 0);
    let mut taken = |step: usize, at: usize| {
        looks += usize::from(at < keys.len());
        keys.get(at).map_or(0, |&key| if key < name { step } else { 0 })
    };
    let mut window = ROOM;
    while window > 1 {
        let step = window / 2;
        low += taken(step, low + step);
        window -= step;
    }
    low += taken(1, low);
    assert_eq!(low, keys.partition_point(|&key| key < name), "the first one is found");
    looks
}

/// The names that the walk of a question looks up, each once for both sides.
fn looked_up(memberships: &Part, (user, object): (u64, u64)) -> BTreeSet<u16> {
    [user, object].iter().flat_map(|&start| rounds_of(memberships, start as u16)).flatten().collect()
}

fn average(numbers: impl ExactSizeIterator<Item = usize>) -> f64 {
    let how_many = numbers.len() as f64;
    numbers.sum::<usize>() as f64 / how_many
}

/// Prints what is read for lookups among the memberships of a block, on average over as many questions as the due list has: the
/// line of a table.
fn line_of_lookups(what: &str, block: &[u8], asked: Asked) {
    let index = Index::decode(block).expect("a good block");
    let memberships = &index.parts[M];
    let keys: Vec<u16> = memberships.keys().map(|&(key, _)| key).collect();
    let each: Vec<usize> = (0..NAMES as u16).map(|name| PAIR * looks(&keys, name)).collect();
    let walks: Vec<_> = (0..QUESTIONS).map(|n| looked_up(memberships, asked(n))).collect();
    let names = average(walks.iter().map(BTreeSet::len));
    let read = average(walks.iter().map(|names| names.iter().map(|&name| each[usize::from(name)]).sum()));
    let (one, most, by) = (average(each.iter().copied()), each.iter().max().unwrap(), ENTRY as f64 * names);
    println!("| {what} | {} | {one:.1} | {most} | {names:.1} | {read:.0} | {by:.0} |", keys.len());
}

/// Prints what lookups read: of the block without a directory, and of the directory with it.
fn lookups() {
    let whole = ENTRY * ENTRIES;
    println!(
        "\nBytes that lookups among the memberships read, beside the tests: of the block, or of a directory ({whole} bytes)\n"
    );
    let columns =
        ["block", "memberships", "a lookup", "at most", "names in the walk of a question", "of the block", "of a directory"];
    println!("| {} |\n|{}", columns.join(" | "), "---|".repeat(columns.len()));
    line_of_lookups("Small", &block(&Plain, &SMALL), asked);
    line_of_lookups("The mill", &block(&Plain, &MILL), asked);
    line_of_lookups("The mill, the due list", &block(&Plain, &MILL), due);
    line_of_lookups("Full", &block(&Plain, &FULL), asked);
    for (what, memberships) in shapes() {
        line_of_lookups(what, &shaped(&Plain, &memberships), spread);
    }
}

/// Blocks of other shapes.
fn shapes() -> [(&'static str, Vec<Membership>); 4] {
    let dense: Vec<_> = doubled(0, 1000).collect();
    [
        ("A chain of 1,000", (0..1000).map(|name| (name, name + 1, EVERY)).collect()),
        ("Dense: every name reaches every other", dense.clone()),
        ("Dense, with masks that differ", thinned(&dense)),
        (
            "Dense by one group, which every name is in and which is in every name",
            (0..999).flat_map(|name| [(name, 999, EVERY), (999, name, EVERY)]).collect(),
        ),
    ]
}

/// The tables of all calls.
fn tables(programs: &Programs) {
    measure(programs, "Small: 10 memberships, 5 grants", &SMALL);
    measure(programs, "The mill: 1,258 memberships, 200 grants, 40 filters", &MILL);
    measure(programs, "Full: 1,500 memberships, 500 grants, 45 filters, room for 3 more", &FULL);
    for (what, memberships) in shapes() {
        questions(programs, what, &memberships);
    }
    due_list(programs);
    bound(programs);
    large_set(programs);
}

fn main() -> Result<(), String> {
    let mut programs = Programs::new()?;
    sides();
    tables(&programs);
    let more = [250, 500, 1000, 1800];
    growth(&programs, "not reached, with 80 that are", &more, |number| Reach { own: 20, others: number / 2 });
    let reached = [0, 100, 400, 1600];
    growth(&programs, "reached, of 1,800", &reached, |number| Reach { own: number / 4, others: 900 - number / 2 });
    lookups();
    firms::tables(&mut programs);
    strict::tables(&mut programs);
    limits::tables(&mut programs);
    slips::tables(&mut programs);
    bearing::tables(&mut programs);
    wide::tables(&mut programs);
    appointments::tables(&mut programs);
    programs.by = true;
    tables(&programs);
    firms::tables(&mut programs);
    strict::tables(&mut programs);
    wide::tables(&mut programs);
    Ok(())
}
