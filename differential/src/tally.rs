//! How many cases of each kind ran, and how often each answer came.
#![forbid(unsafe_code)]

use crate::answers::{Told, LETTERS, REASONS, REFUSED, WORDS};
use crate::cases::{Case, Outcome, KINDS};
use std::fmt;

const LAYERS: usize = LETTERS.len();

/// The counts of a run, or of a part of it.
#[derive(Clone)]
pub struct Tally {
    cases: [u64; KINDS.len()],
    // by kind, then by word
    words: [[u64; WORDS.len()]; KINDS.len()],
    // by kind, then by layer, then by reason
    refusals: [[[u64; REASONS]; LAYERS]; KINDS.len()],
}

impl Default for Tally {
    fn default() -> Tally {
        Tally {
            cases: [0; KINDS.len()],
            words: [[0; WORDS.len()]; KINDS.len()],
            refusals: [[[0; REASONS]; LAYERS]; KINDS.len()],
        }
    }
}

impl Tally {
    /// Counts a case and what the library answered.
    pub fn count(&mut self, case: &Case, library: &Outcome) {
        let kind = case.kind();
        self.cases[kind] += 1;
        if !library.text.is_empty() {
            self.count_told(kind, told_by_line(&library.text));
        }
        let inside = library.performed.inside.iter().flatten();
        for told in library
            .told
            .iter()
            .chain(&library.performed.answers)
            .chain(inside)
        {
            self.count_told(kind, *told);
        }
    }

    fn count_told(&mut self, kind: usize, told: Told) {
        if told.word == REFUSED {
            self.refusals[kind][usize::from(told.layer)][usize::from(told.reason)] += 1;
        } else if let Some(count) = self.words[kind].get_mut(usize::from(told.word)) {
            *count += 1;
        }
    }

    /// Adds the counts of another part.
    pub fn add(&mut self, other: &Tally) {
        for kind in 0..KINDS.len() {
            self.cases[kind] += other.cases[kind];
            for word in 0..WORDS.len() {
                self.words[kind][word] += other.words[kind][word];
            }
            for layer in 0..LAYERS {
                for reason in 0..REASONS {
                    self.refusals[kind][layer][reason] += other.refusals[kind][layer][reason];
                }
            }
        }
    }
}

/// The answer that a line tells, by its words.
fn told_by_line(line: &str) -> Told {
    let fields: Vec<&str> = line.split_whitespace().collect();
    let number = |at: usize| {
        fields
            .get(at)
            .and_then(|field| field.parse().ok())
            .unwrap_or(0)
    };
    let place = |name: &str, names: &[&str]| {
        names.iter().position(|other| *other == name).unwrap_or(0) as u16
    };
    let word = place(fields.first().unwrap_or(&""), &WORDS);
    if word == REFUSED {
        let layer = place(fields.get(1).unwrap_or(&""), &LETTERS);
        return Told {
            reason: number(2) as u16,
            layer,
            ..Told::new(REFUSED, number(3))
        };
    }
    Told::new(word, number(1))
}

impl fmt::Display for Tally {
    fn fmt(&self, f: &mut fmt::Formatter<'_>) -> fmt::Result {
        for (kind, name) in KINDS.iter().enumerate() {
            writeln!(f, "{name}: {} cases", self.cases[kind])?;
            for (word, count) in self.words[kind]
                .iter()
                .enumerate()
                .filter(|(_, count)| **count > 0)
            {
                writeln!(f, "  {} {count}", WORDS[word])?;
            }
            for (layer, reasons) in self.refusals[kind].iter().enumerate() {
                let counts: Vec<String> = (0..REASONS)
                    .filter(|reason| reasons[*reason] > 0)
                    .map(|reason| format!("{reason}: {}", reasons[reason]))
                    .collect();
                if !counts.is_empty() {
                    writeln!(f, "  refused {} {}", LETTERS[layer], counts.join(", "))?;
                }
            }
        }
        Ok(())
    }
}
