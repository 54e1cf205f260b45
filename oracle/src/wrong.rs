//! Counts how often a wrong rule gives another answer, so that it is seen that the rule decides answers.

use crate::brute::Tally;

/// Each wrong rule gives another answer to at least one case in so many.
const RAREST: usize = 400;

/// The cases to which a wrong rule gives another answer.
pub struct Wrong {
    name: &'static str,
    changed: usize,
    shortest: String,
}

impl Wrong {
    pub fn new(name: &'static str) -> Wrong {
        Wrong {
            name,
            changed: 0,
            shortest: String::new(),
        }
    }

    /// Keeps the shortest of the cases.
    pub fn add(&mut self, line: String) {
        if self.changed == 0 || line.len() < self.shortest.len() {
            self.shortest = line;
        }
        self.changed += 1;
    }

    /// Where the rule shows among so many cases, in words; an error where it shows too rarely.
    pub fn shown(&self, tally: &mut Tally, count: usize, cases: &str) -> Result<String, String> {
        let (name, changed) = (self.name, self.changed);
        tally
            .agree(changed * RAREST >= count, "how often a wrong rule shows")
            .map_err(|what| format!("{what}, {changed} of {count}: {name}"))?;
        Ok(format!(
            "{changed} of {count} {cases} have another answer where {name}, the shortest: {}",
            self.shortest
        ))
    }
}
