//! How a case and an outcome are printed: files as bytes, and as rules and claims where they can be read.
#![forbid(unsafe_code)]

use crate::answers::Told;
use crate::cases::{ByKind, Case, Outcome, KINDS};
use crate::files::{read_certificate, read_kind, read_program};
use crate::meaning::Rule;
use crate::survey::{Asked, Call, Level, Making, Order, Question};
use std::fmt;

/// Longer files and tables are not printed in full.
const SHOWN: usize = 400;

/// The bytes of a file, by two hexadecimal digits each.
fn hex(bytes: &[u8]) -> String {
    let shown: Vec<String> = bytes
        .iter()
        .take(SHOWN)
        .map(|byte| format!("{byte:02x}"))
        .collect();
    let rest = if bytes.len() > SHOWN {
        format!(" .. {} bytes", bytes.len())
    } else {
        String::new()
    };
    shown.join(" ") + &rest
}

/// Numbers, one after the other.
fn numbers<T: fmt::Display>(numbers: &[T]) -> String {
    let shown: Vec<String> = numbers.iter().take(SHOWN).map(T::to_string).collect();
    let rest = if numbers.len() > SHOWN {
        format!(" .. {} in all", numbers.len())
    } else {
        String::new()
    };
    shown.join(" ") + &rest
}

/// Levels, with a dash for none.
fn levels(levels: &[Level]) -> String {
    let shown: Vec<String> = levels
        .iter()
        .map(|level| level.map_or("-".into(), |level| level.to_string()))
        .collect();
    numbers(&shown)
}

/// A rule as `3 <- 1, not 2`.
fn rule(rule: &Rule) -> String {
    let positive = rule.positive.iter().map(u16::to_string);
    let negative = rule.negative.iter().map(|atom| format!("not {atom}"));
    let body: Vec<String> = positive.chain(negative).collect();
    let head = if rule.head == 0 {
        String::new()
    } else {
        format!("{} ", rule.head)
    };
    format!("{head}<- {}", body.join(", "))
}

fn order(order: Order) -> &'static str {
    match order {
        Order::Numbers => "numbers",
        Order::Routes => "routes",
    }
}

fn question(question: &Question) -> &'static str {
    match question {
        Question::Judge => "judge",
        Question::Refute => "refute",
    }
}

fn call(call: &Call) -> String {
    let name = match call.asked {
        Asked::Mark(atom) => format!("mark {atom}"),
        Asked::Unmark(atom) => format!("unmark {atom}"),
        Asked::Doubt(atom) => format!("doubt {atom}"),
        Asked::Level(atom, level) => format!("level {atom} at {level}"),
        Asked::Ask(asked) => question(&asked).to_string(),
        Asked::Settle => "settle".to_string(),
        Asked::Trial(atom) => format!("trial of {atom}"),
    };
    let inside: Vec<&str> = call.inside.iter().map(question).collect();
    format!(
        "{name}, rounds [{}], inside [{}]",
        numbers(&call.rounds),
        inside.join(" ")
    )
}

fn show_program(f: &mut fmt::Formatter<'_>, bytes: &[u8]) -> fmt::Result {
    writeln!(f, "  program: {}", hex(bytes))?;
    let Ok(program) = read_program(bytes) else {
        return Ok(());
    };
    writeln!(f, "  atoms: {}", program.atoms)?;
    for (at, it) in program.rules.iter().take(SHOWN).enumerate() {
        writeln!(f, "  rule {}: {}", at + 1, rule(it))?;
    }
    Ok(())
}

fn show_certificate(f: &mut fmt::Formatter<'_>, program: &[u8], bytes: &[u8]) -> fmt::Result {
    writeln!(f, "  certificate: {}", hex(bytes))?;
    let claims = read_program(program).and_then(|program| {
        let kind = read_kind(bytes, program.atoms)?;
        read_certificate(bytes, program.atoms, kind)
    });
    for (atom, level) in claims.unwrap_or_default() {
        writeln!(f, "  claim: {atom} at {}", levels(&[level]))?;
    }
    Ok(())
}

/// Prints marks, and levels with their order.
fn show_tables(
    f: &mut fmt::Formatter<'_>,
    by: Order,
    marks: &[u8],
    table: &[Level],
) -> fmt::Result {
    writeln!(f, "  marks: {}", numbers(marks))?;
    writeln!(f, "  levels, {}: {}", order(by), levels(table))
}

/// Prints how the tables of a list are made.
fn show_making(f: &mut fmt::Formatter<'_>, program: &[u8], making: &Making) -> fmt::Result {
    match making {
        Making::AsTheyAre => writeln!(f, "  making: none"),
        Making::NothingMarked => writeln!(f, "  making: nothing marked"),
        Making::From(certificate) => show_certificate(f, program, certificate),
    }
}

/// Prints what is asked in a case.
struct Printer<'a, 'b>(&'a mut fmt::Formatter<'b>);

impl ByKind for Printer<'_, '_> {
    type Answer = fmt::Result;

    /// Prints a line case.
    fn line(&mut self, program: &[u8], certificate: &[u8]) -> fmt::Result {
        show_program(self.0, program)?;
        show_certificate(self.0, program, certificate)
    }

    /// Prints a judge case.
    fn judge(&mut self, program: &[u8], by: Order, marks: &[u8], table: &[Level]) -> fmt::Result {
        show_program(self.0, program)?;
        show_tables(self.0, by, marks, table)
    }

    /// Prints a refute case.
    fn refute(&mut self, program: &[u8], marks: &[u8]) -> fmt::Result {
        show_program(self.0, program)?;
        writeln!(self.0, "  marks: {}", numbers(marks))
    }

    /// Prints a settle case.
    fn settle(
        &mut self,
        program: &[u8],
        by: Order,
        (marks, table): (&[u8], &[Level]),
        rounds: &[u16],
    ) -> fmt::Result {
        show_program(self.0, program)?;
        show_tables(self.0, by, marks, table)?;
        writeln!(self.0, "  rounds: {}", numbers(rounds))
    }

    /// Prints a list case.
    fn list(
        &mut self,
        program: &[u8],
        by: Order,
        making: &Making,
        (marks, table): (&[u8], &[Level]),
        calls: &[Call],
    ) -> fmt::Result {
        show_program(self.0, program)?;
        show_making(self.0, program, making)?;
        show_tables(self.0, by, marks, table)?;
        for it in calls {
            writeln!(self.0, "  call: {}", call(it))?;
        }
        Ok(())
    }

    /// Prints a copy case.
    fn copy(&mut self, program: &[u8], inputs: &[u16], out: &[u8]) -> fmt::Result {
        show_program(self.0, program)?;
        writeln!(self.0, "  inputs: {}", numbers(inputs))?;
        writeln!(self.0, "  output: {} bytes", out.len())
    }
}

impl fmt::Display for Case {
    /// Prints the kind of the case, and what is asked in it.
    fn fmt(&self, f: &mut fmt::Formatter<'_>) -> fmt::Result {
        writeln!(f, "  case: {}", KINDS[self.kind()])?;
        self.answer(&mut Printer(f))
    }
}

fn told(answers: &[Told]) -> String {
    let answers: Vec<String> = answers.iter().map(Told::to_string).collect();
    answers.join(", ")
}

impl fmt::Display for Outcome {
    fn fmt(&self, f: &mut fmt::Formatter<'_>) -> fmt::Result {
        write!(f, "{}{}", self.text.trim_end(), told(self.told.as_slice()))?;
        if !self.marks.is_empty() {
            write!(f, "; marks {}", numbers(&self.marks))?;
            write!(f, "; levels {}", levels(&self.levels))?;
        }
        if !self.rounds.is_empty() {
            write!(f, "; rounds {}", numbers(&self.rounds))?;
        }
        if !self.out.is_empty() {
            write!(f, "; output {}", hex(&self.out))?;
        }
        let performed = &self.performed;
        for (at, answer) in performed.answers.iter().enumerate() {
            let rounds = performed
                .rounds
                .get(at)
                .map(|rounds| numbers(rounds))
                .unwrap_or_default();
            let inside = performed
                .inside
                .get(at)
                .map(|inside| told(inside))
                .unwrap_or_default();
            write!(
                f,
                "; call {}: {answer}, rounds [{rounds}], inside [{inside}]",
                at + 1
            )?;
        }
        Ok(())
    }
}
