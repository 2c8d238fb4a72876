//! Counts of the answers to many questions, and which answers were never met.

use std::collections::BTreeMap;
use std::fmt;
use std::io::{self, BufRead};

use crate::kind::Kind;

/// How often each answer was met.
#[derive(Default)]
pub struct Tally {
    cases: usize,
    met: BTreeMap<String, usize>,
}

impl Tally {
    /// Counts the answers on the lines of an input.
    pub fn of(input: impl BufRead) -> io::Result<Tally> {
        let mut tally = Tally::default();
        for line in input.lines() {
            tally.count(&line?);
        }
        Ok(tally)
    }

    /// Counts one answer.
    pub fn count(&mut self, answer: &str) {
        self.cases += 1;
        *self.met.entry(head(answer)).or_default() += 1;
    }

    fn times(&self, head: &str) -> usize {
        self.met.get(head).copied().unwrap_or(0)
    }
}

/// As much of an answer as is counted: its words before the spelling, without numbers but a refusal's. Several differences are counted as one.
fn head(answer: &str) -> String {
    let words: Vec<&str> = answer.split(' ').collect();
    match words[..] {
        ["OK", "ARRIVED", "----", ..] => "OK ARRIVED ----".to_string(),
        ["CAUSE", "12", _, _, ..] => "CAUSE 12 SEVERAL".to_string(),
        ["CAUSE", number, cause, ..] => format!("CAUSE {number} {cause}"),
        [kind @ ("OK" | "NO" | "IN"), which, ..] => format!("{kind} {which}"),
        _ => answer.to_string(),
    }
}

/// The answers that a run should meet, by what they are.
fn groups() -> Vec<(&'static str, Vec<String>)> {
    let all = |kind: &str, names: &[&str]| names.iter().map(|name| format!("{kind} {name}")).collect::<Vec<_>>();
    let types = Kind::ALL.map(Kind::name);
    let numbers = (1..=17).map(|number| format!("NO {number}")).collect();
    vec![
        ("read", all("OK", &types)),
        ("refused", numbers),
        ("updated", all("OK", &["FILED", "DEPARTED", "ARRIVED", "ARRIVED ----", "CANCELLED"])),
        ("differs", all("CAUSE 12", &["IDENTIFICATION", "AERODROME", "TIME", "DESTINATION", "DATE", "SEVERAL"])),
        ("lacks", all("CAUSE 10", &["TYP", "DEP", "DEST", "ALTN"])),
        ("found", all("CAUSE 13", &["DEPARTED", "ARRIVED", "CANCELLED"])),
        ("no cause", vec!["NONE".to_string()]),
        ("in force", all("IN", &["STRIP", "CHG"])),
        ("held", vec!["HELD".to_string()]),
        ("content alone", vec!["FITS".to_string(), "NO".to_string()]),
    ]
}

impl fmt::Display for Tally {
    fn fmt(&self, f: &mut fmt::Formatter<'_>) -> fmt::Result {
        writeln!(f, "cases: {}", self.cases)?;
        let mut due = Vec::new();
        for (group, heads) in groups() {
            let counts: Vec<String> = heads.iter().map(|head| format!("{head} {}", self.times(head))).collect();
            writeln!(f, "{group}: {}", counts.join(", "))?;
            due.extend(heads);
        }
        let never: Vec<&str> = due.iter().filter(|head| self.times(head) == 0).map(String::as_str).collect();
        let others: usize = self.met.iter().filter(|(head, _)| !due.contains(head)).map(|(_, times)| times).sum();
        writeln!(f, "other answers: {others}")?;
        writeln!(f, "never met: {}", if never.is_empty() { "none".to_string() } else { never.join(", ") })
    }
}
