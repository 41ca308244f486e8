//! Appointments: moves from day to day on the mill's block, each beside its changes sent one by one as plain messages; and the
//! calls that ask about days.

use super::{block, give, message, row, Programs, Runner, Size, MEMBERSHIP, MILL, PEOPLE, READ};
use plain::{APPOINTMENT, APPOINTMENTS, MESSAGE, NEW, OLD};
use second::appointments::encode;
use second::calendar::{dated, Date, DAYS};
use second::drive::{packed, Library};
use second::Appointment;
use std::hint::black_box;

/// The date on which some appointments begin, its day, and the day before.
const FIRST: Date = (2024, 1, 1);
const DAY: u64 = 19_723;
const BEFORE: u64 = DAY - 1;

/// Groups that no record of a block has by itself.
const TEAMS: [u16; 8] = [1000, 1001, 1002, 1003, 1004, 1005, 1006, 1007];

/// How many dates and days one call of a row is about.
const MANY: u64 = 1000;

/// So many appointments of people in teams, of which so many begin on the day, and the others stand on it and on the day before.
fn list(many: usize, begin: usize) -> Vec<Appointment> {
    let one = |n: usize| {
        let name = (PEOPLE.start + 2 * n as u16, TEAMS[n % TEAMS.len()]);
        let membership = Appointment { name, mask: READ, year: FIRST.0 as u16, month: 1, day: 1, ..Appointment::default() };
        // those that begin on the day are spread over the list
        if n * begin / many != (n + 1) * begin / many {
            Appointment { term: 1 + (n % 120) as u8, ..membership }
        } else {
            Appointment {
                year: 2015 + (n % 8) as u16,
                month: 1 + (n % 12) as u8,
                day: 1 + (n % 28) as u8,
                term: 120,
                ..membership
            }
        }
    };
    (0..many).map(one).collect()
}

/// The mill's block with room for so many more, and those of a list that stand on the day before.
fn appointed(library: &dyn Library, list: &[Appointment], more: usize) -> Vec<u8> {
    let Size(memberships, grants, filters, _) = MILL;
    let mut b = block(library, &Size(memberships, grants, filters, more));
    for one in list.iter().filter(|one| one.date() != FIRST) {
        give(library, &mut b, MEMBERSHIP, one.name.0, one.name.1, READ.into());
    }
    b
}

/// A move, and what a host without it would send.
struct Move {
    list: Vec<u8>,
    days: [u64; 2],
    messages: Vec<[u8; MESSAGE]>,
}

impl Move {
    /// To the day from the day before, by the new halves of messages, or back, by the old ones.
    fn new(list: &[Appointment], half: usize) -> Move {
        let days = if half == NEW { [BEFORE, DAY] } else { [DAY, BEFORE] };
        Move { list: encode(list), days, messages: messages(list, half).collect() }
    }

    /// To the day, where the last that begins is refused: the messages of all, and then those that undo all but the last.
    fn refused(list: &[Appointment]) -> Move {
        let there = Move::new(list, NEW);
        let back = messages(list, OLD).take(there.messages.len() - 1);
        Move { messages: there.messages.iter().copied().chain(back).collect(), ..there }
    }

    /// Goes there, at once or one by one; the number of the whole.
    fn with(&self, runner: &mut Runner) -> Option<u64> {
        if !runner.one_by_one {
            return Some(runner.library.move_to(&mut runner.block, &self.list, self.days[0], self.days[1]));
        }
        for message in &self.messages {
            black_box(runner.message(message));
        }
        None
    }
}

/// The messages of those that begin on the day, with one half.
fn messages(list: &[Appointment], half: usize) -> impl Iterator<Item = [u8; MESSAGE]> + '_ {
    let begin = list.iter().filter(|one| one.date() == FIRST);
    begin.map(move |one| message(half, MEMBERSHIP, one.name.0, one.name.1, READ.into()))
}

/// Times moves in turn, that give this number, and prints the line of it. The library that sends messages, if that is timed too,
/// comes last.
fn line(programs: &Programs, what: &str, moves: &[Move], number: u32, made: impl Fn(&dyn Library) -> Vec<u8>) {
    let mut runners = programs.with(&made);
    if moves.iter().any(|one| !one.messages.is_empty()) {
        let library = programs.all[0].as_ref();
        runners.push(Runner { one_by_one: true, ..Runner::without(library, made(library)) });
    }
    for one in moves {
        let answers = runners.iter_mut().filter_map(|runner| one.with(runner)).collect::<Vec<_>>();
        assert!(answers.iter().all(|&answer| answer == packed(number, 0)), "{what}: {answers:?}");
        let (first, last) = (&runners[0].block, &runners[runners.len() - 1].block);
        assert_eq!(first, last, "a move leaves what its changes leave");
    }
    row(what, &mut runners, |runner, n| {
        black_box(moves[n % moves.len()].with(runner));
    });
}

/// The lines of moves that change something.
fn changes(programs: &Programs) {
    programs.headed("Moves of appointments on the mill's block, there and back", "move", &["move / in messages", "Rust"]);
    for (many, begin, what) in [
        (1, 1, "1 change, of a list of 1"),
        (8, 8, "8 changes, of a list of 8"),
        (APPOINTMENTS, 1, "1 change, of a list of 256"),
        (APPOINTMENTS, 8, "8 changes, of a list of 256"),
        (APPOINTMENTS, APPOINTMENTS, "256 changes, of a list of 256"),
    ] {
        let list = list(many, begin);
        let moves = [NEW, OLD].map(|half| Move::new(&list, half));
        line(programs, what, &moves, 0, |library| appointed(library, &list, APPOINTMENTS));
    }
    let all = list(APPOINTMENTS, APPOINTMENTS);
    let refused = [Move::refused(&all)];
    line(programs, "256 to add, the last refused", &refused, 8, |library| appointed(library, &all, APPOINTMENTS - 1));
}

/// The lines of what changes nothing.
fn no_changes(programs: &Programs) {
    programs.title("Appointments and days, with nothing to change on the mill's block");
    let standing = list(APPOINTMENTS, 0);
    let moves = [Move::new(&standing, NEW)];
    line(programs, "a move, of a list of 256", &moves, 0, |library| appointed(library, &standing, APPOINTMENTS));
    let (all, mut runners) = (encode(&list(APPOINTMENTS, 8)), programs.with(|library| appointed(library, &[], 0)));
    row("the next change, of a list of 256", &mut runners, |runner, n| {
        black_box(runner.library.next_change(&all, DAY - n as u64 % MANY));
    });
    row("whether each of 256 appointments stands", &mut runners, |runner, n| {
        for one in all.chunks(APPOINTMENT) {
            black_box(runner.library.stands(one, DAY - n as u64 % MANY));
        }
    });
    let days = |n: usize| (0..MANY).map(move |k| (157 * k + n as u64) % DAYS);
    row("the dates of 1,000 days", &mut runners, |runner, n| {
        for day in days(n) {
            black_box(runner.library.date(day));
        }
    });
    let dates: Vec<_> = days(0).map(|day| dated(day).expect("a day")).collect();
    row("the days of 1,000 dates", &mut runners, |runner, _| {
        for &(year, month, day) in &dates {
            black_box(runner.library.day(year, month, day));
        }
    });
}

/// The tables of those programs that have the calls of appointments.
pub fn tables(programs: &mut Programs) {
    programs.timed = programs.appointed;
    changes(programs);
    no_changes(programs);
    programs.timed = programs.all.len();
}
