//! Cases of appointments: a list, a block in which those of one day stand, and calls that go from day to day or ask about days.

use super::wide::{place, WIDE};
use super::{After, Call, Case, Lent, Library, Often, Tally, PLAIN};
use crate::appointments::{encode, read, APPOINTMENTS, TERM};
use crate::calendar::{length, DATES, DAYS};
use crate::gen::{self, Rng};
use crate::Appointment;
use std::ops::Range;

const NEXT: &[&str] = &["next_change"];
const STANDS: &[&str] = &["stands"];

const LAST: u64 = DAYS - 1;

const FROM_FIRST: &str = "days from the first day, where the day is near it";
const FROM_ANNIVERSARY: &str = "days from the anniversary, where the day is near it";
const OVER_ON: &str = "anniversary on the same day of the month, or on the last of a month that has";
const ON_A_DAY: &str = "on a day on which one begins, or is over";
const OTHERS: &str = "one that is over, or one that stands, and the change after it is another's";
const CHANGED_BY: &str = "changed by the first alone of three or more, by one inside, or by the last alone";

/// What each run is to meet of the calls that ask about days: of which, in what respect, and which.
pub const TO_MEET: &[(&[&str], &str, &[i64])] = &[
    (STANDS, "number", &[0, 3, 4, 5, 12]),
    (STANDS, "answer", &[0, 1]),
    (STANDS, FROM_FIRST, &[-1, 0, 1]),
    (STANDS, FROM_ANNIVERSARY, &[-1, 0, 1]),
    (STANDS, OVER_ON, &[0, 28, 29, 30]),
    (STANDS, "marker accepted", &[0, 1, 2]),
    (STANDS, "term accepted, the least or the greatest", &[1, TERM as i64]),
    (STANDS, "day accepted, the first or the last", &[0, LAST as i64]),
    (NEXT, "number", &[0, 3, 4, 5, 12]),
    (NEXT, "appointments accepted, none, one, more or the most", &[0, 1, 2, APPOINTMENTS as i64]),
    (NEXT, "no change, a beginning, an end, or both", &[0, 1, 2, 3]),
    (NEXT, "changed on the next day", &[1]),
    (NEXT, "changed on the last day", &[1]),
    (NEXT, OTHERS, &[0, 1]),
    (NEXT, "changed, with every count as it was", &[1]),
    (NEXT, CHANGED_BY, &[0, 1, 2]),
    (NEXT, ON_A_DAY, &[0, 1]),
];

/// The appointments of a case: a good list, and the day whose appointments stand in the block, if no message took them.
#[derive(Default)]
pub struct Appointed {
    pub list: Vec<Appointment>,
    pub day: u64,
}

const MOVE: [Often; 1] = [("move", 7, |call| call.moved())];

/// The calls of a case of appointments, each as often as it is drawn among 16.
const CALLS: [Often; 7] = [
    MOVE[0],
    ("next_change", 3, |call| call.next_change()),
    ("stands", 2, |call| call.stands()),
    ("day", 1, |call| call.day()),
    ("date", 1, |call| call.date()),
    ("message", 1, |call| call.sent(&PLAIN)),
    ("wide", 1, |call| call.sent(&WIDE)),
];

/// A list, a day and a block, and calls on them; or a history that begins with an empty block.
pub fn case(lib: &dyn Library, rng: &mut Rng, tally: &mut Tally) -> Result<(), String> {
    let list = gen::appointments::list(rng);
    let day = gen::appointments::day(rng, &list);
    let block = gen::appointments::appointed(rng, &list, day).encode();
    let mut case = Case { appointed: Appointed { list, day }, ..Case::new(lib, rng, tally, block) };
    if case.rng.one_in(8) {
        return case.history();
    }
    case.some(&CALLS)?;
    case.one_with_a_fault(&MOVE)
}

impl Call<'_> {
    /// The list of the case, or one time in so many one with faults.
    pub fn list(&mut self, one_in: u64) -> Vec<u8> {
        if self.rng.one_in(one_in) {
            gen::appointments::damaged_list(self.rng, &self.appointed.list)
        } else {
            encode(&self.appointed.list)
        }
    }

    fn stands(&mut self) -> After {
        let one = gen::appointments::one(self.rng, &self.appointed.list);
        let own: Vec<Appointment> = Appointment::decode(&one).filter(|one| one.days().is_ok()).into_iter().collect();
        let day = gen::appointments::any_day(self.rng, if own.is_empty() { &self.appointed.list } else { &own });
        let (number, value) = crate::stands(&one, day);
        let mut lent = Lent::new(&one);
        let got = self.lib.stands(lent.lend(), day);
        self.agree(got, number, value, &[lent.is(&one)], format!("{one:02x?} on {day}"))?;
        if number == 0 {
            self.saw("answer", value.into());
            own.iter().for_each(|one| self.saw_stands(one, day));
        } else {
            self.saw_list(number, &one, &[day]);
        }
        Ok(self.block.to_vec())
    }

    /// What an accepted question about one appointment was about.
    fn saw_stands(&mut self, one: &Appointment, day: u64) {
        let days = one.days().expect("a good appointment");
        for (what, end) in [(FROM_FIRST, days.start), (FROM_ANNIVERSARY, days.end)] {
            if day.abs_diff(end) <= 1 {
                self.saw(what, day as i64 - end as i64);
            }
        }
        let over = DATES[days.end as usize];
        self.saw(OVER_ON, if over.2 == one.date().2 { 0 } else { length(over) as i64 });
        self.saw("marker accepted", one.marker.into());
        if one.term == 1 || one.term == TERM {
            self.saw("term accepted, the least or the greatest", one.term.into());
        }
        if day == 0 || day == LAST {
            self.saw("day accepted, the first or the last", day as i64);
        }
    }

    fn next_change(&mut self) -> After {
        let list = self.list(2);
        let day = gen::appointments::any_day(self.rng, &self.appointed.list);
        let (number, value) = crate::next_change(&list, day);
        let mut lent = Lent::new(&list);
        let got = self.lib.next_change(lent.lend(), day);
        let told = |what| format!("{what}\nlist {list:02x?}");
        self.agree(got, number, value, &[lent.is(&list)], format!("after {day}")).map_err(told)?;
        if number == 0 {
            self.saw_next(&list, day, value.into());
        } else {
            self.saw_list(number, &list, &[day]);
        }
        Ok(self.block.to_vec())
    }

    /// What the next change was, or that there was none.
    fn saw_next(&mut self, list: &[u8], day: u64, later: u64) {
        let list = read(list).expect("a good list");
        let any = |such: &dyn Fn(u64, u64) -> bool| list.iter().any(|(_, days)| such(days.start, days.end));
        let many = match list.len() {
            many @ (0 | 1 | APPOINTMENTS) => many as i64,
            _ => 2,
        };
        self.saw("appointments accepted, none, one, more or the most", many);
        let [begins, ends] = [any(&|start, _| start == later), any(&|start, end| end == later && start <= day)];
        let which = if later == 0 { 0 } else { i64::from(begins) + 2 * i64::from(ends) };
        self.saw("no change, a beginning, an end, or both", which);
        self.saw_all(0, &[(ON_A_DAY, any(&|start, _| start == day)), (OTHERS, later > 0 && any(&|_, end| end <= day))]);
        self.saw_all(1, &[(ON_A_DAY, any(&|_, end| end == day)), (OTHERS, any(&|start, end| start <= day && later < end))]);
        if later > 0 {
            self.saw_all(1, &[("changed on the next day", later == day + 1), ("changed on the last day", later == LAST)]);
            self.saw_changed(&list, day, later);
        }
    }

    /// Which appointments the next change was of.
    fn saw_changed(&mut self, list: &[(Appointment, Range<u64>)], day: u64, later: u64) {
        let differ = |(_, days): &(Appointment, Range<u64>)| days.contains(&day) != days.contains(&later);
        let changed: Vec<usize> = (0..list.len()).filter(|&at| differ(&list[at])).collect();
        if let (&[at], 3..) = (&changed[..], list.len()) {
            self.saw(CHANGED_BY, place(at, list.len()));
        }
        let counted = |day: u64| {
            let standing = list.iter().filter(|(_, days)| days.contains(&day));
            let mut counted: Vec<_> = standing.map(|(one, _)| (one.name, one.half().mask)).collect();
            counted.sort_unstable();
            counted
        };
        self.saw_all(1, &[("changed, with every count as it was", counted(day) == counted(later))]);
    }
}
