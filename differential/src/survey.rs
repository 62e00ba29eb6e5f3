//! Surveys and the calls on them: docs/SURVEY.md, and the console's line: docs/CONSOLE.md.
#![forbid(unsafe_code)]

use crate::answers::{
    refusal, Refusal, Told, ACCEPTED, BROKEN, DONE, ESCAPED, LETTERS, LOOPED, RANKED, REFUSED,
    SOURCE, SURVEY, UNDOUBTED, UNGROUNDED, UNLEVELLED, WORDS,
};
use crate::files::{level_kind_refused, read_certificate, read_kind, read_program, Claim};
use crate::meaning::{empty_set, has, Program, Rule, Set};

const LIMIT: u16 = 4;
const TABLE_LENGTH: u16 = 12;
const MARK_BYTE: u16 = 13;
const CALL_ATOM: u16 = 14;
const UNMARKED: u16 = 15;
const ROUNDS: u16 = 16;
const MAX_INPUTS: usize = 64;
const MAX_SOURCE_RULES: usize = 16_384;

/// The level of an atom, or none. Levels are numbers, which stand for routes by their bits.
pub type Level = Option<u64>;

/// The two orders of levels.
#[derive(Clone, Copy, Debug, PartialEq, Eq)]
pub enum Order {
    Numbers,
    Routes,
}

impl Order {
    /// The level kind of certificates.
    pub fn kind(self) -> u16 {
        match self {
            Order::Numbers => 1,
            Order::Routes => 2,
        }
    }

    /// Is the level below the other?
    fn is_below(self, level: u64, other: u64) -> bool {
        match self {
            Order::Numbers => level < other,
            Order::Routes => {
                (0..64).all(|bit| level >> bit & 1 <= other >> bit & 1) && level != other
            }
        }
    }

    /// How many rungs there are.
    pub fn rungs(self) -> u64 {
        match self {
            Order::Numbers => 4_294_967_295,
            Order::Routes => 65,
        }
    }

    /// The rung of that number, counted from 1.
    pub fn rung(self, number: u64) -> u64 {
        match self {
            Order::Numbers => number,
            Order::Routes => (0..number - 1).map(|bit| 1 << bit).sum(),
        }
    }
}

/// The atoms whose byte is one of these.
fn atoms_with(marks: &[u8], bytes: &[u8]) -> Set {
    let of_atoms = marks.iter().map(|mark| bytes.contains(mark));
    std::iter::once(false).chain(of_atoms).collect()
}

/// The marked atoms.
pub fn marked(marks: &[u8]) -> Set {
    atoms_with(marks, &[1, 2])
}

/// How many atoms are in a set.
fn count(set: &Set) -> usize {
    set.iter().filter(|is_in| **is_in).count()
}

/// Refuses a table that does not have an entry for each atom.
fn check_length(atoms: u16, length: usize) -> Result<(), Refusal> {
    if length != usize::from(atoms) {
        return Err(refusal(SURVEY, TABLE_LENGTH, length));
    }
    Ok(())
}

/// Refuses a mark byte above 2.
fn check_bytes(marks: &[u8]) -> Result<(), Refusal> {
    match marks.iter().position(|mark| *mark > 2) {
        Some(at) => Err(refusal(SURVEY, MARK_BYTE, at + 1)),
        None => Ok(()),
    }
}

/// Refuses what is no atom.
fn check_atom(layer: u16, atoms: u16, atom: u16) -> Result<(), Refusal> {
    if !(1..=atoms).contains(&atom) {
        return Err(refusal(layer, CALL_ATOM, usize::from(atom)));
    }
    Ok(())
}

/// What asking for mark, unmark and a trial refuses.
fn check_named(atoms: u16, marks: &[u8], atom: u16) -> Result<(), Refusal> {
    check_length(atoms, marks.len())?;
    check_bytes(marks)?;
    check_atom(SURVEY, atoms, atom)
}

/// Judge.
pub fn judge(
    program: &Program,
    order: Order,
    marks: &[u8],
    levels: &[Level],
) -> Result<Told, Refusal> {
    check_length(program.atoms, marks.len())?;
    check_length(program.atoms, levels.len())?;
    check_bytes(marks)?;
    let set = marked(marks);
    let level = |atom: u16| levels[usize::from(atom) - 1];
    if let Some(rule) = program.lowest_broken(&set) {
        return Ok(Told::new(BROKEN, rule));
    }
    let mut atoms = 1..=program.atoms;
    if let Some(atom) = atoms.find(|atom| has(&set, *atom) && level(*atom).is_none()) {
        return Ok(Told::new(UNLEVELLED, usize::from(atom)));
    }
    let is_under = |other: u16, atom: u16| matches!((level(other), level(atom)), (Some(low), Some(high)) if order.is_below(low, high));
    let is_grounded = |atom: u16| {
        let mut rules = program.supporting(&set, atom);
        rules.any(|rule| rule.positive.iter().all(|other| is_under(*other, atom)))
    };
    let mut atoms = 1..=program.atoms;
    if let Some(atom) = atoms.find(|atom| has(&set, *atom) && !is_grounded(*atom)) {
        return Ok(Told::new(UNGROUNDED, usize::from(atom)));
    }
    Ok(Told::new(ACCEPTED, count(&set)))
}

/// Refute.
pub fn refute(program: &Program, marks: &[u8]) -> Result<Told, Refusal> {
    check_length(program.atoms, marks.len())?;
    check_bytes(marks)?;
    let set = marked(marks);
    let doubted = atoms_with(marks, &[2]);
    if count(&doubted) == 0 {
        return Ok(Told::new(UNDOUBTED, 0));
    }
    let escapes_by = |atom: u16, rule: &Rule| {
        rule.supports(&set, atom) && !rule.positive.iter().any(|other| has(&doubted, *other))
    };
    for atom in (1..=program.atoms).filter(|atom| has(&doubted, *atom)) {
        if let Some(at) = program.rules.iter().position(|rule| escapes_by(atom, rule)) {
            return Ok(Told::with_rule(ESCAPED, usize::from(atom), at + 1));
        }
    }
    Ok(Told::new(ACCEPTED, count(&doubted)))
}

/// Settle.
pub fn settle(
    program: &Program,
    order: Order,
    marks: &mut [u8],
    levels: &mut [Level],
    rounds: &mut [u16],
) -> Result<Told, Refusal> {
    check_length(program.atoms, marks.len())?;
    check_length(program.atoms, levels.len())?;
    check_length(program.atoms, rounds.len())?;
    check_bytes(marks)?;
    let set = marked(marks);
    if let Some(rule) = program.lowest_broken(&set) {
        return Ok(Told::new(BROKEN, rule));
    }
    let taken = program.rounds(&set);
    rounds.copy_from_slice(&taken[1..]);
    let is_left = |atom: usize| set[atom] && taken[atom] == 0;
    let left = (1..set.len()).filter(|atom| is_left(*atom)).count();
    if left > 0 {
        for atom in (1..set.len()).filter(|atom| set[*atom]) {
            marks[atom - 1] = if is_left(atom) { 2 } else { 1 };
        }
        return Ok(Told::new(LOOPED, left));
    }
    let needed = usize::from(taken.iter().copied().max().unwrap_or(0));
    if needed as u64 > order.rungs() {
        return Err(refusal(SURVEY, ROUNDS, needed));
    }
    for atom in (1..set.len()).filter(|atom| set[*atom]) {
        levels[atom - 1] = Some(order.rung(u64::from(taken[atom])));
    }
    Ok(Told::new(RANKED, needed))
}

/// Puts inputs over a program, one after the other; the first refusal ends it.
pub fn put_inputs(program: &Program, inputs: &[u16]) -> Result<Program, Refusal> {
    let mut over = program.clone();
    let mut put: Vec<u16> = Vec::new();
    for input in inputs {
        check_atom(SOURCE, program.atoms, *input)?;
        if put.contains(input) {
            continue;
        }
        if put.len() >= MAX_INPUTS {
            return Err(refusal(SOURCE, LIMIT, MAX_INPUTS));
        }
        if over.rules.len() >= MAX_SOURCE_RULES {
            return Err(refusal(SOURCE, LIMIT, MAX_SOURCE_RULES));
        }
        put.push(*input);
        over.rules.push(Rule {
            head: *input,
            ..Rule::default()
        });
    }
    Ok(over)
}

/// A call of a list, with what it is lent.
#[derive(Clone, Debug, PartialEq, Eq)]
pub struct Call {
    pub asked: Asked,
    pub rounds: Vec<u16>,
    pub inside: Vec<Question>,
}

/// What is called.
#[derive(Clone, Copy, Debug, PartialEq, Eq)]
pub enum Asked {
    Mark(u16),
    Unmark(u16),
    Doubt(u16),
    Level(u16, u64),
    Ask(Question),
    Settle,
    Trial(u16),
}

/// A question, which may be asked inside a trial.
#[derive(Clone, Copy, Debug, PartialEq, Eq)]
pub enum Question {
    Judge,
    Refute,
}

/// How the tables are made on which a list of calls begins.
#[derive(Clone, Debug, PartialEq, Eq)]
pub enum Making {
    AsTheyAre,
    NothingMarked,
    From(Vec<u8>),
}

/// The tables of a survey, and what a call told: its answer, the round table, the answers inside.
#[derive(Clone, Debug, PartialEq, Eq, Default)]
pub struct Performed {
    pub answers: Vec<Told>,
    pub rounds: Vec<Vec<u16>>,
    pub inside: Vec<Vec<Told>>,
}

/// The tables of a survey over a program.
pub struct Survey<'a> {
    pub program: &'a Program,
    pub order: Order,
    pub marks: Vec<u8>,
    pub levels: Vec<Level>,
}

impl Survey<'_> {
    /// Makes the tables: clears them, and puts in the claims of a certificate that is not refused.
    pub fn make(&mut self, making: &Making) {
        let claims = match making {
            Making::AsTheyAre => return,
            Making::NothingMarked => None,
            Making::From(certificate) => self.claims_for(certificate).ok(),
        };
        self.marks.fill(0);
        self.levels.fill(None);
        for (atom, level) in claims.unwrap_or_default() {
            self.marks[usize::from(atom) - 1] = 1;
            self.levels[usize::from(atom) - 1] = level;
        }
    }

    /// What a certificate claims for these tables.
    fn claims_for(&self, certificate: &[u8]) -> Result<Vec<Claim>, Refusal> {
        check_length(self.program.atoms, self.marks.len())?;
        check_length(self.program.atoms, self.levels.len())?;
        read_certificate(certificate, self.program.atoms, self.order.kind())
    }

    /// Performs a list of calls, each on what the last one left.
    pub fn perform(&mut self, calls: &[Call]) -> Performed {
        let mut performed = Performed::default();
        for call in calls {
            let mut rounds = call.rounds.clone();
            let mut inside = Vec::new();
            let told = match call.asked {
                Asked::Mark(atom) => self.write(atom, 1),
                Asked::Unmark(atom) => self.write(atom, 0),
                Asked::Doubt(atom) => self.doubt(atom),
                Asked::Level(atom, level) => self.level(atom, level),
                Asked::Ask(question) => self.ask(question),
                Asked::Settle => settle(
                    self.program,
                    self.order,
                    &mut self.marks,
                    &mut self.levels,
                    &mut rounds,
                ),
                Asked::Trial(atom) => self.try_atom(atom, &call.inside, &mut inside),
            };
            if !matches!(call.asked, Asked::Trial(_)) {
                inside = vec![Told::new(crate::answers::NONE, 0); call.inside.len()];
            }
            performed.answers.push(told.into());
            performed.rounds.push(rounds);
            performed.inside.push(inside);
        }
        performed
    }

    /// Mark and unmark write the atom's byte.
    fn write(&mut self, atom: u16, byte: u8) -> Result<Told, Refusal> {
        check_named(self.program.atoms, &self.marks, atom)?;
        self.marks[usize::from(atom) - 1] = byte;
        Ok(Told::new(DONE, 0))
    }

    /// Doubt.
    fn doubt(&mut self, atom: u16) -> Result<Told, Refusal> {
        check_named(self.program.atoms, &self.marks, atom)?;
        if !has(&marked(&self.marks), atom) {
            return Err(refusal(SURVEY, UNMARKED, usize::from(atom)));
        }
        self.marks[usize::from(atom) - 1] = 2;
        Ok(Told::new(DONE, 0))
    }

    /// Level.
    fn level(&mut self, atom: u16, level: u64) -> Result<Told, Refusal> {
        check_length(self.program.atoms, self.levels.len())?;
        check_atom(SURVEY, self.program.atoms, atom)?;
        self.levels[usize::from(atom) - 1] = Some(level);
        Ok(Told::new(DONE, 0))
    }

    /// Answers a question.
    fn ask(&self, question: Question) -> Result<Told, Refusal> {
        match question {
            Question::Judge => judge(self.program, self.order, &self.marks, &self.levels),
            Question::Refute => refute(self.program, &self.marks),
        }
    }

    /// Turns the atom, answers the questions, and puts the byte back. Where asking refuses, nothing is turned.
    fn try_atom(
        &mut self,
        atom: u16,
        questions: &[Question],
        inside: &mut Vec<Told>,
    ) -> Result<Told, Refusal> {
        let answer = check_named(self.program.atoms, &self.marks, atom);
        let before = self.marks.clone();
        if answer.is_ok() {
            let byte = &mut self.marks[usize::from(atom) - 1];
            *byte = if *byte == 0 { 1 } else { 0 };
        }
        for question in questions {
            inside.push(self.ask(*question).into());
        }
        self.marks = before;
        answer.map(|()| Told::new(DONE, 0))
    }
}

/// The answer for a program file and a certificate file.
pub fn answer(program: &[u8], certificate: &[u8]) -> Result<Told, Refusal> {
    let program = read_program(program)?;
    let order = match read_kind(certificate, program.atoms)? {
        1 => Order::Numbers,
        2 => Order::Routes,
        _ => return Err(level_kind_refused()),
    };
    let claims = read_certificate(certificate, program.atoms, order.kind())?;
    let mut marks = vec![0; usize::from(program.atoms)];
    let mut levels = vec![None; usize::from(program.atoms)];
    for (atom, level) in claims {
        marks[usize::from(atom) - 1] = 1;
        levels[usize::from(atom) - 1] = level;
    }
    judge(&program, order, &marks, &levels)
}

/// The console's line for an answer.
pub fn line(told: &Told) -> String {
    match told.word {
        REFUSED => {
            let letter = LETTERS[usize::from(told.layer)];
            format!("refused {letter} {} {}\n", told.reason, told.number)
        }
        word => format!("{} {}\n", WORDS[usize::from(word)], told.number),
    }
}

/// A set as marks, each atom of it in.
pub fn marks_of(set: &Set) -> Vec<u8> {
    set[1..].iter().map(|is_in| u8::from(*is_in)).collect()
}

/// The set of the atoms.
pub fn set_of(atoms: u16, members: &[u16]) -> Set {
    let mut set = empty_set(atoms);
    for atom in members {
        set[usize::from(*atom)] = true;
    }
    set
}
