//! The files, record by record: docs/FORMATS.md and docs/REFUSALS.md.
#![forbid(unsafe_code)]

use crate::answers::{refusal, Refusal, CERTIFICATE, PROGRAM, WRITER};
use crate::meaning::{Program, Rule};

pub const MAX_BYTES: usize = 65_000;
pub const MAX_ATOMS: u16 = 4_096;
pub const MAX_RULES: usize = 8_000;
pub const PROGRAM_HEAD: u16 = 1;
pub const RULE: u16 = 2;
pub const END: u16 = 3;
pub const CERTIFICATE_HEAD: u16 = 17;
pub const CLAIM: u16 = 18;

const CUT: u16 = 1;
const KIND: u16 = 2;
const LENGTH: u16 = 3;
const LIMIT: u16 = 4;
const ATOM: u16 = 5;
const ORDER: u16 = 6;
const BOTH_PARTS: u16 = 7;
const RULE_COUNT: u16 = 8;
const TRAILING: u16 = 9;
const LEVEL_KIND: u16 = 10;
const ATOM_COUNT: u16 = 11;
const RECORD_COUNT: u16 = 17;
const OUTPUT: u16 = 18;

/// A claim of a certificate: an atom, with its level or none.
pub type Claim = (u16, Option<u64>);

/// The number of 16 bits at an offset.
pub fn word(bytes: &[u8], at: usize) -> u16 {
    u16::from(bytes[at]) + 256 * u16::from(bytes[at + 1])
}

/// The record at a place: its length and its kind, where those four bytes are there.
fn record_at(bytes: &[u8], place: usize) -> Option<(usize, u16)> {
    (place + 4 <= bytes.len()).then(|| (usize::from(word(bytes, place)), word(bytes, place + 2)))
}

/// Do the atoms strictly ascend?
fn ascends(atoms: &[u16]) -> bool {
    atoms.windows(2).all(|pair| pair[0] < pair[1])
}

/// Checks size and head, which is the same for both files but for its kind; answers the two numbers in it.
fn read_head(bytes: &[u8], layer: u16, wanted: u16) -> Result<(u16, u16), Refusal> {
    if bytes.len() > MAX_BYTES {
        return Err(refusal(layer, LIMIT, 0));
    }
    let Some((length, kind)) = record_at(bytes, 0) else {
        return Err(refusal(layer, CUT, 0));
    };
    if kind != wanted {
        return Err(refusal(layer, KIND, 0));
    }
    if length != 4 {
        return Err(refusal(layer, LENGTH, 0));
    }
    if bytes.len() < 8 {
        return Err(refusal(layer, CUT, 0));
    }
    Ok((word(bytes, 4), word(bytes, 6)))
}

/// Reads a program file.
pub fn read_program(bytes: &[u8]) -> Result<Program, Refusal> {
    let (atoms, stated) = read_head(bytes, PROGRAM, PROGRAM_HEAD)?;
    if atoms > MAX_ATOMS || usize::from(stated) > MAX_RULES {
        return Err(refusal(PROGRAM, LIMIT, 0));
    }
    let mut rules = Vec::new();
    let mut place = 8;
    loop {
        let refused = |reason| Err(refusal(PROGRAM, reason, place));
        let Some((length, kind)) = record_at(bytes, place) else {
            return refused(CUT);
        };
        match kind {
            RULE => {
                rules.push(read_rule(bytes, place, length, atoms, rules.len())?);
                place += 4 + length;
            }
            END if length != 0 => return refused(LENGTH),
            END if rules.len() != usize::from(stated) => return refused(RULE_COUNT),
            END if place + 4 != bytes.len() => return Err(refusal(PROGRAM, TRAILING, place + 4)),
            END => return Ok(Program { atoms, rules }),
            _ => return refused(KIND),
        }
    }
}

/// Reads the rule record at a place, which has so many before it.
fn read_rule(
    bytes: &[u8],
    place: usize,
    length: usize,
    atoms: u16,
    before: usize,
) -> Result<Rule, Refusal> {
    let refused = |reason| Err(refusal(PROGRAM, reason, place));
    if !length.is_multiple_of(2) || !(4..=514).contains(&length) {
        return refused(LENGTH);
    }
    if place + 4 + length > bytes.len() {
        return refused(CUT);
    }
    let positive_count = usize::from(word(bytes, place + 6));
    if 2 * positive_count + 4 > length {
        return refused(LENGTH);
    }
    if before >= MAX_RULES {
        return refused(LIMIT);
    }
    let words: Vec<u16> = (0..length / 2)
        .map(|at| word(bytes, place + 4 + 2 * at))
        .collect();
    let rule = Rule {
        head: words[0],
        positive: words[2..2 + positive_count].to_vec(),
        negative: words[2 + positive_count..].to_vec(),
    };
    let mut both = rule.positive.iter().chain(&rule.negative);
    if rule.head > atoms || both.any(|atom| !(1..=atoms).contains(atom)) {
        return refused(ATOM);
    }
    if !ascends(&rule.positive) || !ascends(&rule.negative) {
        return refused(ORDER);
    }
    if rule
        .positive
        .iter()
        .any(|atom| rule.negative.contains(atom))
    {
        return refused(BOTH_PARTS);
    }
    Ok(rule)
}

/// The level kind that a certificate states, with its size and head checked.
pub fn read_kind(bytes: &[u8], atoms: u16) -> Result<u16, Refusal> {
    let (stated, kind) = read_head(bytes, CERTIFICATE, CERTIFICATE_HEAD)?;
    if stated != atoms {
        return Err(refusal(CERTIFICATE, ATOM_COUNT, 0));
    }
    Ok(kind)
}

/// Refuses a level kind.
pub fn level_kind_refused() -> Refusal {
    refusal(CERTIFICATE, LEVEL_KIND, 0)
}

/// Reads a certificate for so many atoms and a wanted level kind: 1 numbers of four bytes, 2 routes of eight.
pub fn read_certificate(bytes: &[u8], atoms: u16, wanted: u16) -> Result<Vec<Claim>, Refusal> {
    if read_kind(bytes, atoms)? != wanted {
        return Err(level_kind_refused());
    }
    let width = if wanted == 1 { 4 } else { 8 };
    let mut claims: Vec<Claim> = Vec::new();
    let mut place = 8;
    loop {
        let refused = |reason| Err(refusal(CERTIFICATE, reason, place));
        let Some((length, kind)) = record_at(bytes, place) else {
            return refused(CUT);
        };
        match kind {
            CLAIM => {
                claims.push(read_claim(bytes, place, length, (atoms, width), &claims)?);
                place += 4 + length;
            }
            END if length != 0 => return refused(LENGTH),
            END if place + 4 != bytes.len() => {
                return Err(refusal(CERTIFICATE, TRAILING, place + 4));
            }
            END => return Ok(claims),
            _ => return refused(KIND),
        }
    }
}

/// Reads the claim record at a place, for so many atoms and levels of so many bytes, with the claims before it.
fn read_claim(
    bytes: &[u8],
    place: usize,
    length: usize,
    (atoms, width): (u16, usize),
    claims: &[Claim],
) -> Result<Claim, Refusal> {
    let refused = |reason| Err(refusal(CERTIFICATE, reason, place));
    if length != 2 && length != 2 + width {
        return refused(LENGTH);
    }
    if place + 4 + length > bytes.len() {
        return refused(CUT);
    }
    let atom = word(bytes, place + 4);
    if atom < 1 || atom > atoms {
        return refused(ATOM);
    }
    if claims.last().is_some_and(|last| last.0 >= atom) {
        return refused(ORDER);
    }
    if claims.len() >= usize::from(atoms) {
        return refused(RECORD_COUNT);
    }
    let level = &bytes[place + 6..place + 4 + length];
    let number = level
        .iter()
        .rev()
        .fold(0, |sum, byte| 256 * sum + u64::from(*byte));
    Ok((atom, (length > 2).then_some(number)))
}

/// Puts numbers of 16 bits to the end, each with its low byte first.
pub fn put_words(bytes: &mut Vec<u8>, words: &[u16]) {
    for word in words {
        bytes.extend([(word % 256) as u8, (word / 256) as u8]);
    }
}

/// Puts the record of a rule to the end.
pub fn put_rule(bytes: &mut Vec<u8>, rule: &Rule) {
    let positive = rule.positive.len() as u16;
    let negative = rule.negative.len() as u16;
    put_words(
        bytes,
        &[4 + 2 * positive + 2 * negative, RULE, rule.head, positive],
    );
    put_words(bytes, &rule.positive);
    put_words(bytes, &rule.negative);
}

/// The bytes of a program file, whether or not it keeps the limits.
pub fn program_bytes(program: &Program) -> Vec<u8> {
    let mut bytes = Vec::new();
    put_words(
        &mut bytes,
        &[4, PROGRAM_HEAD, program.atoms, program.rules.len() as u16],
    );
    for rule in &program.rules {
        put_rule(&mut bytes, rule);
    }
    put_words(&mut bytes, &[0, END]);
    bytes
}

/// The bytes of a certificate for so many atoms, of a level kind.
pub fn certificate_bytes(atoms: u16, kind: u16, claims: &[Claim]) -> Vec<u8> {
    let width: u16 = if kind == 1 { 4 } else { 8 };
    let mut bytes = Vec::new();
    put_words(&mut bytes, &[4, CERTIFICATE_HEAD, atoms, kind]);
    for (atom, level) in claims {
        let length = if level.is_some() { 2 + width } else { 2 };
        put_words(&mut bytes, &[length, CLAIM, *atom]);
        let mut rest = level.unwrap_or(0);
        for _ in 2..length {
            bytes.push((rest % 256) as u8);
            rest /= 256;
        }
    }
    put_words(&mut bytes, &[0, END]);
    bytes
}

/// Writes the file of a program to the front of the output; answers its size.
pub fn write_program(program: &Program, out: &mut [u8]) -> Result<usize, Refusal> {
    if program.rules.len() > MAX_RULES {
        return Err(refusal(WRITER, LIMIT, MAX_RULES));
    }
    let bytes = program_bytes(program);
    let size = bytes.len();
    if size > MAX_BYTES {
        return Err(refusal(WRITER, LIMIT, MAX_BYTES));
    }
    if out.len() < size {
        return Err(refusal(WRITER, OUTPUT, size));
    }
    out[..size].copy_from_slice(&bytes);
    Ok(size)
}
