//! Holds the library, through its C interface, against the second program: compare [CASES [SEED [limits|bearing]]], where the last word
//! is for cases of limits alone, or for cases about what bears alone. It fails where the two disagree, and where the cases did not meet
//! all that they are to meet. The last lines say what changes of records did to answers, if there were such.

use compare::Archive;
use second::drive::{every_day, every_text, run, run_bearing, run_limits, Library, Tally};
use std::process::ExitCode;

/// How the program is used.
const USAGE: &str = "compare [CASES [SEED [limits|bearing]]]";

/// What the cases are about.
#[derive(Clone, Copy, Debug, PartialEq)]
enum About {
    All,
    Limits,
    Bearing,
}

impl About {
    /// What a word says, or none.
    fn of(word: Option<&String>) -> Option<About> {
        match word.map(String::as_str) {
            None => Some(About::All),
            Some("limits") => Some(About::Limits),
            Some("bearing") => Some(About::Bearing),
            Some(_) => None,
        }
    }

    /// How the cases are run.
    fn run(self) -> fn(&dyn Library, u64, u64) -> Result<Tally, String> {
        match self {
            About::All => run,
            About::Limits => run_limits,
            About::Bearing => run_bearing,
        }
    }

    /// What is said of them.
    fn told(self) -> &'static str {
        match self {
            About::All => "",
            About::Limits => " of limits",
            About::Bearing => " about what bears",
        }
    }
}

/// How many cases to run, the seed, and what they are about.
type Words = (u64, u64, About);

/// What the words after the program's name say.
fn read(words: &[String]) -> Option<Words> {
    let number = |at: usize, else_this: u64| words.get(at).map_or(Some(else_this), |word| word.parse().ok());
    let about = About::of(words.get(2))?;
    (words.len() <= 3).then_some((number(0, 100_000)?, number(1, 1)?, about))
}

/// Where the two programs differ.
fn disagree(what: String) -> String {
    format!("{what}\ncomparison: the library and the second program disagree")
}

/// Reads the texts that are tried one and all, and goes through every day and every date; or why it fails.
fn one_and_all() -> Result<(), String> {
    let texts = every_text(&Archive::linked()).map_err(disagree)?;
    println!("comparison: {texts} reads of all short texts, no disagreement");
    let days = every_day(&Archive::linked()).map_err(disagree)?;
    println!("comparison: {days} calls about every day and every date, no disagreement");
    Ok(())
}

/// Tries what is tried one and all, if the cases are about all calls, and runs the cases; what to print, or why it fails.
fn compared((cases, seed, about): Words) -> Result<String, String> {
    if about == About::All {
        one_and_all()?;
    }
    let tally = about.run()(&Archive::linked(), cases, seed).map_err(disagree)?;
    tally.complete().map_err(|what| format!("{what}\ncomparison: {cases} cases did not meet all that they are to meet"))?;
    let said = format!("comparison: {cases} cases{}, {} calls, seed {seed}, no disagreement", about.told(), tally.calls);
    let changes = if about == About::Limits { Vec::new() } else { tally.changes() };
    let changes = changes.into_iter().map(|line| format!("comparison: {line}"));
    Ok(tally.lines().into_iter().chain([said]).chain(changes).collect::<Vec<_>>().join("\n"))
}

fn main() -> ExitCode {
    let words: Vec<String> = std::env::args().skip(1).collect();
    match read(&words).ok_or_else(|| format!("usage: {USAGE}")).and_then(compared) {
        Ok(said) => {
            println!("{said}");
            ExitCode::SUCCESS
        }
        Err(said) => {
            println!("{said}");
            ExitCode::FAILURE
        }
    }
}

#[cfg(test)]
mod tests {
    use super::{read, About};

    #[test]
    fn words_are_read() {
        let told = |words: &[&str]| read(&words.iter().map(|word| word.to_string()).collect::<Vec<_>>());
        assert_eq!(told(&[]), Some((100_000, 1, About::All)));
        assert_eq!(told(&["7"]), Some((7, 1, About::All)));
        assert_eq!(told(&["7", "9"]), Some((7, 9, About::All)));
        assert_eq!(told(&["7", "9", "limits"]), Some((7, 9, About::Limits)));
        assert_eq!(told(&["7", "9", "bearing"]), Some((7, 9, About::Bearing)));
        for wrong in [&["limits"][..], &["7", "limits"], &["7", "9", "limit"], &["7", "9", "limits", "1"], &["-1"]] {
            assert_eq!(told(wrong), None);
        }
    }
}
