//! Writes the sample list of the program `days` to standard output: from the folder rust,
//! `cargo run --offline -p days --example sample > days/stdin`.

use anaqsiro::{Appointment, Appointments, Date, Half, Marker, Refusal, Rights};
use std::error::Error;
use std::io::{self, Write};

/// A membership for so many months from a date on.
fn from(first: (u64, u64, u64), term: u64, membership: Half) -> Result<Appointment, Refusal> {
    let (year, month, day) = first;
    Ok(Appointment::new(membership, Date::new(year, month, day)?, term))
}

fn main() -> Result<(), Box<dyn Error>> {
    let planner = Half::new(1, 2, Rights::READ);
    let bound = Half::new(3, 4, Rights::ALL).marked(Marker::X);
    let list = Appointments::new([
        from((2024, 2, 29), 12, planner)?,
        from((2024, 6, 1), 12, planner)?,
        from((1970, 1, 1), 120, bound)?, // stands on the first day of all
        from((1980, 1, 1), 1, Half::new(5, 4, Rights::READ | Rights::UPDATE).marked(Marker::N))?,
        from((1980, 1, 1), 12, bound)?, // follows the third, with the same membership
        from((2024, 1, 31), 1, Half::new(6, 2, Rights::READ))?, // ends on the day on which the first begins
        from((2389, 12, 31), 120, Half::new(7, 2, Rights::ALL))?, // ends on the last day of all
        from((2000, 2, 29), 48, Half::new(1_023, 0, Rights::DELETE))?,
    ])?;
    io::stdout().write_all(list.bytes())?;
    Ok(())
}
