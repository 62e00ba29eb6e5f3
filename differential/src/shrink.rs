//! Smaller cases that still show a mismatch.
#![forbid(unsafe_code)]

use crate::cases::Case;
use crate::compare::compare;
use crate::files::{certificate_bytes, program_bytes, read_certificate, read_kind, read_program};
use crate::meaning::Program;
use crate::survey::Making;
use std::ops::Range;

/// A table has fewer entries than this.
const MAX_TABLE: usize = 5_000;

/// What smaller cases may cost in all: each costs the size of its program file, and a bit.
const COST: usize = 40_000_000;

/// What a case costs besides its program file.
const BIT: usize = 1_000;

/// Smaller cases, one after the other.
type Smaller<'a, T> = Box<dyn Iterator<Item = T> + 'a>;

/// A case that shows a mismatch, and from which nothing can be dropped, as far as the costs allow.
pub fn shrunk(case: &Case) -> Case {
    let mut smallest = case.clone();
    let mut left = COST;
    loop {
        let mut candidates = smaller(&smallest).take_while(|candidate| {
            let cost = BIT + program_of(candidate).len();
            left = left.saturating_sub(cost);
            left > 0
        });
        let Some(found) = candidates.find(|candidate| compare(candidate).1.is_some()) else {
            break;
        };
        drop(candidates);
        smallest = found;
    }
    smallest
}

/// The cases that are one step smaller.
fn smaller(case: &Case) -> Smaller<'_, Case> {
    let programs = smaller_programs(program_of(case)).map(|program| with_program(case, program));
    let others: Smaller<'_, Case> = match case {
        Case::Line {
            program,
            certificate,
        } => Box::new(
            smaller_certificates(program, certificate).map(|certificate| Case::Line {
                program: program.clone(),
                certificate,
            }),
        ),
        Case::Judge { .. } | Case::Refute { .. } | Case::Settle { .. } => {
            Box::new(with_plainer_tables(case))
        }
        Case::List { .. } => Box::new(with_fewer_calls(case).into_iter()),
        Case::Copy {
            program,
            inputs,
            out,
        } => Box::new(without_some(inputs).map(|inputs| Case::Copy {
            program: program.clone(),
            inputs,
            out: out.clone(),
        })),
    };
    Box::new(others.chain(programs).chain(with_fewer_atoms(case)))
}

fn program_of(case: &Case) -> &[u8] {
    match case {
        Case::Line { program, .. }
        | Case::Judge { program, .. }
        | Case::Refute { program, .. }
        | Case::Settle { program, .. }
        | Case::List { program, .. }
        | Case::Copy { program, .. } => program,
    }
}

fn with_program(case: &Case, bytes: Vec<u8>) -> Case {
    let mut case = case.clone();
    match &mut case {
        Case::Line { program, .. }
        | Case::Judge { program, .. }
        | Case::Refute { program, .. }
        | Case::Settle { program, .. }
        | Case::List { program, .. }
        | Case::Copy { program, .. } => *program = bytes,
    }
    case
}

/// The ranges of a list that are tried: each half, each quarter, and so on to each place.
fn ranges(many: usize) -> impl Iterator<Item = Range<usize>> {
    std::iter::successors(Some(many.div_ceil(2)), |size| (*size > 1).then(|| size / 2))
        .filter(|size| *size > 0)
        .flat_map(move |size| {
            (0..many)
                .step_by(size)
                .map(move |first| first..(first + size).min(many))
        })
}

/// The lists without the values of a range.
fn without_some<T: Clone>(values: &[T]) -> impl Iterator<Item = Vec<T>> + '_ {
    ranges(values.len()).map(|range| [&values[..range.start], &values[range.end..]].concat())
}

/// Program files with rules or atoms of a rule less; where the file is refused, with bytes less.
fn smaller_programs(bytes: &[u8]) -> Smaller<'_, Vec<u8>> {
    let Ok(program) = read_program(bytes) else {
        return Box::new(without_some(bytes));
    };
    let parts = program.clone();
    let fewer_rules = ranges(program.rules.len()).map(move |range| {
        let mut other = program.clone();
        other.rules.drain(range);
        program_bytes(&other)
    });
    let fewer_atoms = (0..parts.rules.len()).flat_map(move |at| {
        let rule = parts.rules[at].clone();
        let split = rule.positive.len();
        let mut other = parts.clone();
        ranges(split + rule.negative.len()).map(move |range| {
            let keep = |place: usize| !range.contains(&place);
            other.rules[at].positive = kept(&rule.positive, keep);
            other.rules[at].negative = kept(&rule.negative, |place| keep(split + place));
            program_bytes(&other)
        })
    });
    Box::new(fewer_rules.chain(fewer_atoms))
}

/// The atoms whose places are kept.
fn kept(atoms: &[u16], keep: impl Fn(usize) -> bool) -> Vec<u16> {
    (0..atoms.len())
        .filter(|place| keep(*place))
        .map(|place| atoms[place])
        .collect()
}

/// Certificates with claims less; where the certificate is refused, with bytes less.
fn smaller_certificates<'a>(program: &[u8], certificate: &'a [u8]) -> Smaller<'a, Vec<u8>> {
    let read = read_program(program).and_then(|program| {
        let kind = read_kind(certificate, program.atoms)?;
        let claims = read_certificate(certificate, program.atoms, kind)?;
        Ok((program.atoms, kind, claims))
    });
    match read {
        Ok((atoms, kind, claims)) if kind == 1 || kind == 2 => {
            Box::new(ranges(claims.len()).map(move |range| {
                let mut fewer = claims.clone();
                fewer.drain(range);
                certificate_bytes(atoms, kind, &fewer)
            }))
        }
        _ => Box::new(without_some(certificate)),
    }
}

/// The case with an atom less, which no rule names any more; the numbers of the atoms above it are one lower.
fn with_fewer_atoms(case: &Case) -> Smaller<'_, Case> {
    match read_program(program_of(case)) {
        Ok(program) => Box::new(
            (1..=program.atoms)
                .rev()
                .filter_map(move |atom| without_atom(case, &program, atom)),
        ),
        Err(_) => Box::new(std::iter::empty()),
    }
}

fn without_atom(case: &Case, program: &Program, atom: u16) -> Option<Case> {
    let lower = |other: &mut u16| *other -= u16::from(*other > atom);
    let mut program = program.clone();
    program.atoms -= 1;
    program.rules.retain(|rule| rule.head != atom);
    for rule in &mut program.rules {
        rule.positive.retain(|other| *other != atom);
        rule.negative.retain(|other| *other != atom);
        lower(&mut rule.head);
        rule.positive.iter_mut().for_each(lower);
        rule.negative.iter_mut().for_each(lower);
    }
    let mut case = with_program(case, program_bytes(&program));
    let at = usize::from(atom) - 1;
    match &mut case {
        Case::Judge { marks, levels, .. } => {
            remove(marks, at)?;
            remove(levels, at)?;
        }
        Case::Refute { marks, .. } => remove(marks, at)?,
        Case::Settle {
            marks,
            levels,
            rounds,
            ..
        } => {
            remove(marks, at)?;
            remove(levels, at)?;
            remove(rounds, at)?;
        }
        Case::List { marks, levels, .. } => {
            remove(marks, at)?;
            remove(levels, at)?;
        }
        Case::Line { .. } | Case::Copy { .. } => {}
    }
    Some(case)
}

fn remove<T>(values: &mut Vec<T>, at: usize) -> Option<()> {
    (at < values.len()).then(|| {
        values.remove(at);
    })
}

/// The case with a mark, a level or a round less.
fn with_plainer_tables(case: &Case) -> impl Iterator<Item = Case> + '_ {
    let marks = (0..MAX_TABLE).map_while(move |at| {
        plainer(case, |case| match case {
            Case::Judge { marks, .. } | Case::Refute { marks, .. } | Case::Settle { marks, .. } => {
                plain(marks, at, 0)
            }
            _ => None,
        })
    });
    let levels = (0..MAX_TABLE).map_while(move |at| {
        plainer(case, |case| match case {
            Case::Judge { levels, .. } | Case::Settle { levels, .. } => plain(levels, at, None),
            _ => None,
        })
    });
    let rounds = (0..MAX_TABLE).map_while(move |at| {
        plainer(case, |case| match case {
            Case::Settle { rounds, .. } => plain(rounds, at, 0),
            _ => None,
        })
    });
    marks.chain(levels).chain(rounds).flatten()
}

/// The case after a change: none where the table has ended, and none inside where the change is none.
fn plainer(case: &Case, change: impl Fn(&mut Case) -> Option<bool>) -> Option<Option<Case>> {
    let mut other = case.clone();
    let changed = change(&mut other)?;
    Some(changed.then_some(other))
}

/// Writes a plain value over another, where there is one; answers whether this changes it.
fn plain<T: PartialEq>(values: &mut [T], at: usize, value: T) -> Option<bool> {
    let there = values.get_mut(at)?;
    let changed = *there != value;
    *there = value;
    Some(changed)
}

/// The list with a call less, with a question less, without its making.
fn with_fewer_calls(case: &Case) -> Vec<Case> {
    let Case::List { calls, making, .. } = case else {
        return Vec::new();
    };
    let with = |change: &dyn Fn(&mut Case)| {
        let mut case = case.clone();
        change(&mut case);
        case
    };
    let mut cases: Vec<Case> = without_some(calls)
        .map(|fewer| {
            with(&|case| {
                if let Case::List { calls, .. } = case {
                    calls.clone_from(&fewer);
                }
            })
        })
        .collect();
    if *making != Making::AsTheyAre {
        cases.push(with(&|case| {
            if let Case::List { making, .. } = case {
                *making = Making::AsTheyAre;
            }
        }));
    }
    for at in 0..calls.len() {
        for fewer in without_some(&calls[at].inside) {
            cases.push(with(&|case| {
                if let Case::List { calls, .. } = case {
                    calls[at].inside.clone_from(&fewer);
                }
            }));
        }
    }
    cases
}
