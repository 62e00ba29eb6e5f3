//! Cases: what both implementations are asked, and what each of them answers and leaves.
#![forbid(unsafe_code)]

use crate::answers::Told;
use crate::survey::{Call, Level, Making, Order, Performed};

/// A case.
#[derive(Clone, Debug, PartialEq, Eq)]
pub enum Case {
    Line {
        program: Vec<u8>,
        certificate: Vec<u8>,
    },
    Judge {
        program: Vec<u8>,
        order: Order,
        marks: Vec<u8>,
        levels: Vec<Level>,
    },
    Refute {
        program: Vec<u8>,
        marks: Vec<u8>,
    },
    Settle {
        program: Vec<u8>,
        order: Order,
        marks: Vec<u8>,
        levels: Vec<Level>,
        rounds: Vec<u16>,
    },
    List {
        program: Vec<u8>,
        order: Order,
        making: Making,
        marks: Vec<u8>,
        levels: Vec<Level>,
        calls: Vec<Call>,
    },
    Copy {
        program: Vec<u8>,
        inputs: Vec<u16>,
        out: Vec<u8>,
    },
}

/// The kinds of cases, in the order of their numbers.
pub const KINDS: [&str; 6] = ["line", "judge", "refute", "settle", "list", "copy"];

impl Case {
    /// The number of the case's kind.
    pub fn kind(&self) -> usize {
        match self {
            Case::Line { .. } => 0,
            Case::Judge { .. } => 1,
            Case::Refute { .. } => 2,
            Case::Settle { .. } => 3,
            Case::List { .. } => 4,
            Case::Copy { .. } => 5,
        }
    }
}

/// What is done with a case, by its kind.
pub trait ByKind {
    /// What comes of it.
    type Answer;

    fn line(&mut self, program: &[u8], certificate: &[u8]) -> Self::Answer;

    fn judge(
        &mut self,
        program: &[u8],
        order: Order,
        marks: &[u8],
        levels: &[Level],
    ) -> Self::Answer;

    fn refute(&mut self, program: &[u8], marks: &[u8]) -> Self::Answer;

    fn settle(
        &mut self,
        program: &[u8],
        order: Order,
        tables: (&[u8], &[Level]),
        rounds: &[u16],
    ) -> Self::Answer;

    fn list(
        &mut self,
        program: &[u8],
        order: Order,
        making: &Making,
        tables: (&[u8], &[Level]),
        calls: &[Call],
    ) -> Self::Answer;

    fn copy(&mut self, program: &[u8], inputs: &[u16], out: &[u8]) -> Self::Answer;
}

impl Case {
    /// What comes of the case.
    pub fn answer<K: ByKind>(&self, by: &mut K) -> K::Answer {
        match self {
            Case::Line {
                program,
                certificate,
            } => by.line(program, certificate),
            Case::Judge {
                program,
                order,
                marks,
                levels,
            } => by.judge(program, *order, marks, levels),
            Case::Refute { program, marks } => by.refute(program, marks),
            Case::Settle {
                program,
                order,
                marks,
                levels,
                rounds,
            } => by.settle(program, *order, (marks, levels), rounds),
            Case::List {
                program,
                order,
                making,
                marks,
                levels,
                calls,
            } => by.list(program, *order, making, (marks, levels), calls),
            Case::Copy {
                program,
                inputs,
                out,
            } => by.copy(program, inputs, out),
        }
    }
}

/// What an implementation answers, and how the tables are afterwards; what a case has not is empty.
#[derive(Clone, Debug, PartialEq, Eq, Default)]
pub struct Outcome {
    pub told: Option<Told>,
    pub text: String,
    pub marks: Vec<u8>,
    pub levels: Vec<Level>,
    pub rounds: Vec<u16>,
    pub out: Vec<u8>,
    pub performed: Performed,
}
