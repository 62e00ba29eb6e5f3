//! Both implementations on one case, and the laws on what the library answers.
#![forbid(unsafe_code)]

use crate::answers::{Told, ACCEPTED, BROKEN, DONE, LOOPED, NONE, RANKED};
use crate::cases::{ByKind, Case, Outcome};
use crate::files::{read_certificate, read_kind, read_program, write_program};
use crate::linked::{self, AskCode, CallCode, List, Stored};
use crate::meaning::{members, Program, Set};
use crate::survey::{
    self, marked, put_inputs, set_of, Asked, Call, Level, Making, Order, Performed, Question,
    Survey,
};

/// The longest line has fewer bytes than this.
const LINE: usize = 100;

/// What a case showed that must not be.
#[derive(Clone, Debug)]
pub struct Mismatch {
    pub what: String,
    pub library: Outcome,
    pub second: Outcome,
}

/// Asks both implementations, and then the laws. Answers what the library answered, and what is wrong.
pub fn compare(case: &Case) -> (Outcome, Option<Mismatch>) {
    let library = by_library(case);
    let second = by_definition(case);
    let what = if library == second {
        broken_law(case, &library)
    } else {
        Some("the implementations differ".to_string())
    };
    let mismatch = what.map(|what| Mismatch {
        what,
        library: library.clone(),
        second,
    });
    (library, mismatch)
}

fn stored(levels: &[Level]) -> Vec<Stored> {
    levels.iter().copied().map(Stored::from).collect()
}

fn levels(stored: &[Stored]) -> Vec<Level> {
    stored.iter().copied().map(Level::from).collect()
}

fn is_routes(order: Order) -> bool {
    order == Order::Routes
}

/// The library.
struct Library;

impl ByKind for Library {
    type Answer = Outcome;

    /// The line by the library.
    fn line(&mut self, program: &[u8], certificate: &[u8]) -> Outcome {
        let mut out = [0; LINE];
        let many = linked::line(program, certificate, &mut out);
        Outcome {
            text: String::from_utf8_lossy(&out[..many]).into_owned(),
            ..Outcome::default()
        }
    }

    /// What judge answers by the library.
    fn judge(&mut self, program: &[u8], order: Order, marks: &[u8], levels: &[Level]) -> Outcome {
        Outcome {
            told: Some(linked::judge(
                program,
                is_routes(order),
                marks,
                &stored(levels),
            )),
            ..Outcome::default()
        }
    }

    /// What refute answers by the library.
    fn refute(&mut self, program: &[u8], marks: &[u8]) -> Outcome {
        Outcome {
            told: Some(linked::refute(program, marks)),
            ..Outcome::default()
        }
    }

    /// What settle answers by the library, and the tables as it leaves them.
    fn settle(
        &mut self,
        program: &[u8],
        order: Order,
        (marks, before): (&[u8], &[Level]),
        rounds: &[u16],
    ) -> Outcome {
        let (mut marks, mut rounds) = (marks.to_vec(), rounds.to_vec());
        let mut entries = stored(before);
        let routes = is_routes(order);
        let told = linked::settle(program, routes, &mut marks, &mut entries, &mut rounds);
        Outcome {
            told: Some(told),
            marks,
            levels: levels(&entries),
            rounds,
            ..Outcome::default()
        }
    }

    /// What a list of calls answers by the library, and the tables as it leaves them.
    fn list(
        &mut self,
        program: &[u8],
        order: Order,
        making: &Making,
        (marks, before): (&[u8], &[Level]),
        calls: &[Call],
    ) -> Outcome {
        let mut marks = marks.to_vec();
        let mut entries = stored(before);
        let routes = is_routes(order);
        let mut lent = Lent::of(calls);
        let told = lent.with_list(|list| {
            linked::list(program, routes, making, &mut marks, &mut entries, list)
        });
        Outcome {
            told: Some(told),
            marks,
            levels: levels(&entries),
            performed: lent.performed(calls),
            ..Outcome::default()
        }
    }

    /// What the copy answers by the library, and the output as it leaves it.
    fn copy(&mut self, program: &[u8], inputs: &[u16], out: &[u8]) -> Outcome {
        let mut out = out.to_vec();
        let told = linked::copy(program, inputs, &mut out);
        Outcome {
            told: Some(told),
            out,
            ..Outcome::default()
        }
    }
}

/// The outcome by the library.
pub fn by_library(case: &Case) -> Outcome {
    case.answer(&mut Library)
}

/// What a list of calls is lent, as it crosses: docs/DIFFERENTIAL.md tells its encoding.
struct Lent {
    codes: Vec<CallCode>,
    rounds: Vec<u16>,
    asks: Vec<AskCode>,
    answers: Vec<Told>,
}

/// No answer yet.
fn no_answer() -> Told {
    Told::new(NONE, 0)
}

impl Lent {
    /// What the calls are lent.
    fn of(calls: &[Call]) -> Lent {
        let ask = |question: &Question| AskCode {
            refute: *question == Question::Refute,
            told: no_answer(),
        };
        Lent {
            codes: calls.iter().map(code_of).collect(),
            rounds: calls
                .iter()
                .flat_map(|call| call.rounds.iter().copied())
                .collect(),
            asks: calls
                .iter()
                .flat_map(|call| call.inside.iter().map(ask))
                .collect(),
            answers: vec![no_answer(); calls.len()],
        }
    }

    /// Lends it.
    fn with_list(&mut self, call: impl FnOnce(&mut List) -> Told) -> Told {
        call(&mut List {
            codes: &self.codes,
            rounds: &mut self.rounds,
            asks: &mut self.asks,
            answers: &mut self.answers,
        })
    }

    /// What it holds afterwards, call by call.
    fn performed(&self, calls: &[Call]) -> Performed {
        let (mut rounds, mut asks) = (self.rounds.as_slice(), self.asks.as_slice());
        let mut performed = Performed {
            answers: self.answers.clone(),
            ..Performed::default()
        };
        for call in calls {
            let (ours, others) = rounds.split_at(call.rounds.len());
            performed.rounds.push(ours.to_vec());
            rounds = others;
            let (ours, others) = asks.split_at(call.inside.len());
            performed
                .inside
                .push(ours.iter().map(|ask| ask.told).collect());
            asks = others;
        }
        performed
    }
}

/// The code of a call.
fn code_of(call: &Call) -> CallCode {
    let (word, atom, level) = match call.asked {
        Asked::Mark(atom) => (1, atom, 0),
        Asked::Unmark(atom) => (2, atom, 0),
        Asked::Doubt(atom) => (3, atom, 0),
        Asked::Level(atom, level) => (4, atom, level),
        Asked::Ask(Question::Judge) => (5, 0, 0),
        Asked::Ask(Question::Refute) => (6, 0, 0),
        Asked::Settle => (7, 0, 0),
        Asked::Trial(atom) => (8, atom, 0),
    };
    CallCode {
        word,
        atom,
        level,
        rounds: call.rounds.len(),
        inside: call.inside.len(),
    }
}

/// The definitions.
struct Definitions;

impl ByKind for Definitions {
    type Answer = Outcome;

    /// The line by the definitions.
    fn line(&mut self, program: &[u8], certificate: &[u8]) -> Outcome {
        Outcome {
            text: survey::line(&survey::answer(program, certificate).into()),
            ..Outcome::default()
        }
    }

    /// What judge answers by the definitions.
    fn judge(&mut self, program: &[u8], order: Order, marks: &[u8], levels: &[Level]) -> Outcome {
        told_by(program, |program| {
            survey::judge(program, order, marks, levels).into()
        })
    }

    /// What refute answers by the definitions.
    fn refute(&mut self, program: &[u8], marks: &[u8]) -> Outcome {
        told_by(program, |program| survey::refute(program, marks).into())
    }

    /// What settle answers by the definitions, and the tables as it leaves them.
    fn settle(
        &mut self,
        program: &[u8],
        order: Order,
        (marks, levels): (&[u8], &[Level]),
        rounds: &[u16],
    ) -> Outcome {
        let (mut marks, mut levels, mut rounds) =
            (marks.to_vec(), levels.to_vec(), rounds.to_vec());
        let outcome = told_by(program, |program| {
            survey::settle(program, order, &mut marks, &mut levels, &mut rounds).into()
        });
        Outcome {
            marks,
            levels,
            rounds,
            ..outcome
        }
    }

    /// What a list of calls answers by the definitions, and the tables as it leaves them.
    fn list(
        &mut self,
        program: &[u8],
        order: Order,
        making: &Making,
        (marks, levels): (&[u8], &[Level]),
        calls: &[Call],
    ) -> Outcome {
        let (mut marks, mut levels) = (marks.to_vec(), levels.to_vec());
        let mut performed = nothing_performed(calls);
        let outcome = told_by(program, |program| {
            let mut survey = Survey {
                program,
                order,
                marks: std::mem::take(&mut marks),
                levels: std::mem::take(&mut levels),
            };
            survey.make(making);
            performed = survey.perform(calls);
            (marks, levels) = (survey.marks, survey.levels);
            Told::new(DONE, calls.len())
        });
        Outcome {
            marks,
            levels,
            performed,
            ..outcome
        }
    }

    /// What the copy answers by the definitions, and the output as it leaves it.
    fn copy(&mut self, program: &[u8], inputs: &[u16], out: &[u8]) -> Outcome {
        let mut out = out.to_vec();
        let outcome = told_by(program, |program| {
            let size = put_inputs(program, inputs).and_then(|over| write_program(&over, &mut out));
            size.map(|size| Told::new(DONE, size)).into()
        });
        Outcome { out, ..outcome }
    }
}

/// The outcome by the definitions.
pub fn by_definition(case: &Case) -> Outcome {
    case.answer(&mut Definitions)
}

/// What calls tell that were not performed: no answer, and the round tables as they were lent.
fn nothing_performed(calls: &[Call]) -> Performed {
    Performed {
        answers: vec![no_answer(); calls.len()],
        rounds: calls.iter().map(|call| call.rounds.clone()).collect(),
        inside: calls
            .iter()
            .map(|call| vec![no_answer(); call.inside.len()])
            .collect(),
    }
}

/// The answer over the program of a file, or the refusal of the file.
fn told_by(program: &[u8], answer: impl FnOnce(&Program) -> Told) -> Outcome {
    let told = match read_program(program) {
        Ok(program) => answer(&program),
        Err(refusal) => refusal.into(),
    };
    Outcome {
        told: Some(told),
        ..Outcome::default()
    }
}

/// A law that the library's answer breaks.
fn broken_law(case: &Case, library: &Outcome) -> Option<String> {
    match case {
        Case::Line {
            program,
            certificate,
        } => {
            let accepts = library.text.starts_with("accepted");
            let held = !accepts || claims_a_stable_set(program, certificate) == Some(true);
            (!held).then(|| "the line accepts, and the claimed set is not stable".into())
        }
        Case::Judge { program, marks, .. } => {
            let held = library.told?.word != ACCEPTED || is_stable(program, marks) == Some(true);
            (!held).then(|| "judge accepts, and the set is not stable".into())
        }
        Case::Refute { program, marks } => {
            let held = library.told?.word != ACCEPTED || is_stable(program, marks) == Some(false);
            (!held).then(|| "refute accepts, and the set is stable".into())
        }
        Case::Settle {
            program,
            order,
            marks,
            ..
        } => broken_settling(program, *order, marks, library),
        Case::List {
            program,
            order,
            making,
            marks,
            calls,
            ..
        } => broken_reading(program, *order, (making, marks), calls, library),
        Case::Copy { .. } => None,
    }
}

/// Is the set that a certificate claims stable? None where a file is refused.
fn claims_a_stable_set(program: &[u8], certificate: &[u8]) -> Option<bool> {
    let program = read_program(program).ok()?;
    let kind = read_kind(certificate, program.atoms).ok()?;
    let claims = read_certificate(certificate, program.atoms, kind).ok()?;
    let atoms: Vec<u16> = claims.iter().map(|claim| claim.0).collect();
    Some(program.is_stable(&set_of(program.atoms, &atoms)))
}

/// Whether the marked atoms after a list are not those read from the calls: an atom is in where the last accepted mark, unmark or
/// doubt that names it was no unmark, and where none names it, where the making marked it. Only what the library answered is read.
fn broken_reading(
    program: &[u8],
    order: Order,
    (making, before): (&Making, &[u8]),
    calls: &[Call],
    library: &Outcome,
) -> Option<String> {
    let program = read_program(program).ok()?;
    let lengths = [library.marks.len(), library.levels.len()];
    let fits = lengths == [usize::from(program.atoms); 2];
    let mut read = match making {
        Making::AsTheyAre => marked(before),
        _ => vec![false; library.marks.len() + 1],
    };
    if let Making::From(certificate) = making {
        let claims = read_certificate(certificate, program.atoms, order.kind());
        for (atom, _) in claims.unwrap_or_default().iter().filter(|_| fits) {
            read[usize::from(*atom)] = true;
        }
    }
    for (call, answer) in calls.iter().zip(&library.performed.answers) {
        let says = match call.asked {
            Asked::Mark(atom) | Asked::Doubt(atom) => Some((atom, true)),
            Asked::Unmark(atom) => Some((atom, false)),
            _ => None,
        };
        if let Some((atom, is_in)) = says.filter(|_| answer.word == DONE) {
            read[usize::from(atom)] = is_in;
        }
    }
    (marked(&library.marks) != read)
        .then(|| "the marked atoms are not those read from the calls".into())
}

/// Is the set of the marked atoms stable, by the reduct? None where the program is refused.
fn is_stable(program: &[u8], marks: &[u8]) -> Option<bool> {
    let program = read_program(program).ok()?;
    Some(program.is_stable(&marked(marks)))
}

/// A law of settle that is broken: on its answer, its tables, and what judge and refute say straight after it.
fn broken_settling(bytes: &[u8], order: Order, marks: &[u8], library: &Outcome) -> Option<String> {
    let program = read_program(bytes).ok()?;
    let set = marked(marks);
    let told = library.told?;
    let numbers: Vec<u64> = std::iter::once(0)
        .chain(library.rounds.iter().map(|k| u64::from(*k)))
        .collect();
    let judged = || {
        linked::judge(
            bytes,
            is_routes(order),
            &library.marks,
            &stored(&library.levels),
        )
    };
    let refuted = || linked::refute(bytes, &library.marks);
    let count = members(&set).count();
    let held = match told.word {
        RANKED => {
            program.is_stable(&set)
                && program.is_strict_ranking(&set, &numbers)
                && judged() == Told::new(ACCEPTED, count)
        }
        LOOPED => !program.is_stable(&set) && refuted() == Told::new(ACCEPTED, told.number),
        BROKEN => !program.is_stable(&set),
        _ if told.is_refused_for(crate::answers::SURVEY, 16) => {
            is_over(&program, order, &set, &numbers, told.number)
        }
        _ => true,
    };
    (!held).then(|| format!("settle answers {told}, and its law does not hold"))
}

/// Is the set stable, and do the numbers rank it strictly, the greatest of them over the rungs?
fn is_over(program: &Program, order: Order, set: &Set, numbers: &[u64], needed: usize) -> bool {
    let greatest = numbers.iter().copied().max().unwrap_or(0);
    program.is_stable(set)
        && program.is_strict_ranking(set, numbers)
        && greatest == needed as u64
        && greatest > order.rungs()
}
