//! Reads a list of appointments, 12 bytes each, from standard input, and prints what it changes on which day, days rising: a line
//! with the date and the day's number, then a line for each appointment that ends on that day (`-`), in the order of the list, and
//! a line for each that begins (`+`). What stands on the first day of all begins there. An appointment is printed as the membership
//! record that it gives: `M1 2;RX`, the key, the group, the letters and the marker.
//!
//! For a list that the library refuses it prints one line, `refused N`, and nothing else, and the exit status is 1. Where standard
//! input or output fails, it says so on standard error, and the exit status is 2.
//!
//! `stdin` is a sample, which `examples/sample.rs` writes, and `stdout` what is printed for it.

use anaqsiro::{Appointment, Appointments, Date, Refusal};
use std::io::{self, Read, Write};
use std::process::ExitCode;

/// An appointment as the record of its membership has it.
fn record(appointment: Appointment) -> String {
    let membership = appointment.membership;
    let marker = membership.marker.map(|marker| marker.letter());
    format!("M{} {};{}{}", membership.key, membership.id, membership.mask, marker.map_or(String::new(), String::from))
}

/// Which appointments of the list stand on a day, in the order of the list.
fn standing(list: &Appointments, day: Date) -> Result<Vec<bool>, Refusal> {
    list.iter().map(|appointment| appointment.stands(day)).collect()
}

/// The lines of one day: those that stood before and do not now, then those that stand now and did not before.
fn changes(list: &Appointments, day: Date, before: &[bool], now: &[bool]) -> String {
    let only = |sign: char, here: &[bool], there: &[bool]| -> String {
        let pairs = here.iter().zip(there);
        let those = list.iter().zip(pairs).filter(|(_, (&here, &there))| here && !there);
        those.map(|(appointment, _)| format!("{sign} {}\n", record(appointment))).collect()
    };
    format!("{day} {}\n{}{}", day.day_number(), only('-', before, now), only('+', now, before))
}

/// What the program prints for a list: from the first day on, where nothing stood before, from one change to the next.
fn told(bytes: Vec<u8>) -> Result<String, Refusal> {
    let list = Appointments::from_bytes(bytes)?;
    let (mut printed, mut before, mut next) = (String::new(), vec![false; list.len()], Some(Date::FIRST));
    while let Some(day) = next {
        let now = standing(&list, day)?;
        if now != before {
            printed += &changes(&list, day, &before, &now);
        }
        (before, next) = (now, list.next_change(day));
    }
    Ok(printed)
}

fn main() -> ExitCode {
    let mut bytes = Vec::new();
    let read = io::stdin().lock().read_to_end(&mut bytes);
    let (printed, code) = match told(bytes) {
        Ok(printed) => (printed, ExitCode::SUCCESS),
        Err(refusal) => (format!("refused {}\n", refusal.number()), ExitCode::FAILURE),
    };
    match read.and_then(|_| io::stdout().lock().write_all(printed.as_bytes())) {
        Ok(()) => code,
        Err(why) => {
            eprintln!("days: {why}");
            ExitCode::from(2)
        }
    }
}

#[cfg(test)]
mod tests;
