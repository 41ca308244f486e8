//! The plain program and the second program agree, so that the times compare the same work.

use second::drive::{every_day, run, run_bearing, run_limits};

#[test]
fn on_many_cases() {
    let tally = run(&plain::Plain, 24_000, 7).unwrap_or_else(|what| panic!("{what}"));
    tally.complete().unwrap_or_else(|what| panic!("{what}"));
}

#[test]
fn on_many_limits() {
    let tally = run_limits(&plain::Plain, 10_000, 7).unwrap_or_else(|what| panic!("{what}"));
    tally.complete().unwrap_or_else(|what| panic!("{what}"));
}

#[test]
fn on_many_records_that_bear_or_do_not() {
    let tally = run_bearing(&plain::Plain, 10_000, 7).unwrap_or_else(|what| panic!("{what}"));
    tally.changes().iter().for_each(|line| println!("{line}"));
    tally.complete().unwrap_or_else(|what| panic!("{what}"));
}

#[test]
fn on_every_day() {
    every_day(&plain::Plain).unwrap_or_else(|what| panic!("{what}"));
}
