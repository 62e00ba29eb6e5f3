//! Random cases. Most are small; some stand at the limits.
#![forbid(unsafe_code)]

use crate::cases::Case;
use crate::files::{certificate_bytes, program_bytes, Claim};
use crate::meaning::{has, Program, Rule, Set};
use crate::mutate::{fault, mutate};
use crate::random::Random;
use crate::survey::{marks_of, set_of, Asked, Call, Level, Making, Order, Question};

/// Once in so many cases of a kind the program stands at a limit.
const LIMITS_IN: usize = 800;

/// Once in so many settle cases the program is a chain of all the atoms that there may be.
const LONGEST_IN: usize = 50_000;

/// So many cases with consecutive numbers make a block; one block in so many is a sweep.
const BLOCK: u64 = 1_024;
const SWEEPS_IN: usize = 12;

/// The case of that number in the run with that seed.
pub fn case(seed: u64, number: u64) -> Case {
    let mut block = Random::of_case(!seed, number / BLOCK);
    if block.once_in(SWEEPS_IN) {
        return sweep_case(&mut block, (number % BLOCK) as usize);
    }
    let random = &mut Random::of_case(seed, number);
    match random.below(100) {
        0..=29 => line_case(random),
        30..=41 => judge_case(random),
        42..=53 => refute_case(random),
        54..=73 => settle_case(random),
        74..=93 => list_case(random),
        _ => copy_case(random),
    }
}

/// One of the changes to two small files, the same two for a whole block: each file cut at every byte, every bit turned.
fn sweep_case(block: &mut Random, at: usize) -> Case {
    let (mut program, mut certificate) = small_files(block);
    let sizes = [
        program.len(),
        certificate.len(),
        8 * program.len(),
        8 * certificate.len(),
    ];
    let mut rest = at;
    for (part, size) in sizes.into_iter().enumerate() {
        if rest < size {
            let file = if part % 2 == 0 {
                &mut program
            } else {
                &mut certificate
            };
            if part < 2 {
                file.truncate(rest);
            } else {
                file[rest / 8] ^= 1 << (rest % 8);
            }
            break;
        }
        rest -= size;
    }
    Case::Line {
        program,
        certificate,
    }
}

/// A program file and a certificate file so small that all their changes fit in a block.
fn small_files(random: &mut Random) -> (Vec<u8>, Vec<u8>) {
    loop {
        let (program, set) = plan(random);
        let order = order(random);
        let certificate = certificate_for(random, &program, order, &set);
        let program = program_bytes(&program);
        if 9 * (program.len() + certificate.len()) <= BLOCK as usize {
            return (program, certificate);
        }
    }
}

fn order(random: &mut Random) -> Order {
    random.of(&[Order::Numbers, Order::Routes])
}

/// A program, and a set of its atoms that is worth marking.
pub fn plan(random: &mut Random) -> (Program, Set) {
    let atoms = match random.below(100) {
        0 => 0,
        1..=40 => random.within(1, 4),
        41..=80 => random.within(3, 8),
        81..=96 => random.within(6, 20),
        _ => random.within(20, 80),
    } as u16;
    match random.below(10) {
        0..=3 => planned(random, atoms),
        4 => chain(random, atoms),
        5 => loops(random, atoms),
        _ => free(random, atoms),
    }
}

/// Some atoms of the list, ascending, without those in the other list; at most so many.
fn some_of(random: &mut Random, from: &[u16], without: &[u16], most: usize) -> Vec<u16> {
    if from.is_empty() || most == 0 {
        return Vec::new();
    }
    let many = random.below(most + 1);
    let mut atoms: Vec<u16> = (0..many).map(|_| random.of(from)).collect();
    atoms.retain(|atom| !without.contains(atom));
    atoms.sort_unstable();
    atoms.dedup();
    atoms
}

/// Random rules; a set that repeated least models lead to, or a random one.
fn free(random: &mut Random, atoms: u16) -> (Program, Set) {
    let all: Vec<u16> = (1..=atoms).collect();
    let many = random.below(2 * usize::from(atoms) + 3);
    let most = random.of(&[1, 1, 2, 2, 3, 5]);
    let mut rules: Vec<Rule> = (0..many)
        .map(|_| {
            let positive = some_of(random, &all, &[], most);
            let negative = some_of(random, &all, &positive, most);
            Rule {
                head: random.below(usize::from(atoms) + 1) as u16,
                positive,
                negative,
            }
        })
        .collect();
    if random.once_in(2) {
        rules.retain(|rule| rule.head != 0);
    }
    if !rules.is_empty() && random.once_in(4) {
        let again = random.below(rules.len());
        rules.push(rules[again].clone());
    }
    let program = Program { atoms, rules };
    let mut set = random_set(random, atoms);
    for _ in 0..random.below(6) {
        set = program.least_model(&set);
    }
    (program, set)
}

fn random_set(random: &mut Random, atoms: u16) -> Set {
    let members: Vec<u16> = (1..=atoms).filter(|_| random.once_in(2)).collect();
    set_of(atoms, &members)
}

/// A program for a set that is stable but for a fault here and there: each atom has a rule by atoms that come before it.
fn planned(random: &mut Random, atoms: u16) -> (Program, Set) {
    let set = random_set(random, atoms);
    let mut inside: Vec<u16> = (1..=atoms).filter(|atom| has(&set, *atom)).collect();
    let outside: Vec<u16> = (1..=atoms).filter(|atom| !has(&set, *atom)).collect();
    random.shuffle(&mut inside);
    let most = random.of(&[1, 2, 3, 8]);
    let mut rules = Vec::new();
    for at in 0..inside.len() {
        for _ in 0..random.of(&[0, 1, 1, 1, 1, 1, 1, 2]) {
            rules.push(Rule {
                head: inside[at],
                positive: some_of(random, &inside[..at], &[], most),
                negative: some_of(random, &outside, &[], most),
            });
        }
    }
    for _ in 0..random.below(usize::from(atoms) + 1) {
        rules.extend(harmless(random, atoms, &inside, &outside, most));
    }
    random.shuffle(&mut rules);
    (Program { atoms, rules }, set)
}

/// A rule that the set does not break: its body is not true, or its head is in the set.
fn harmless(
    random: &mut Random,
    atoms: u16,
    inside: &[u16],
    outside: &[u16],
    most: usize,
) -> Option<Rule> {
    let all: Vec<u16> = (1..=atoms).collect();
    let mut positive = some_of(random, &all, &[], most);
    let mut negative = some_of(random, &all, &positive, most);
    let mut head = random.below(usize::from(atoms) + 1) as u16;
    if inside.contains(&head) || random.once_in(40) {
        return Some(Rule {
            head,
            positive,
            negative,
        });
    }
    if !outside.is_empty() && random.once_in(2) {
        let atom = random.of(outside);
        negative.retain(|other| *other != atom);
        positive = some_of(random, &positive, &[atom], most);
        positive.push(atom);
        positive.sort_unstable();
    } else if !inside.is_empty() {
        let atom = random.of(inside);
        positive.retain(|other| *other != atom);
        negative.retain(|other| *other != atom);
        negative.push(atom);
        negative.sort_unstable();
    } else {
        return None;
    }
    if random.once_in(3) {
        head = 0;
    }
    Some(Rule {
        head,
        positive,
        negative,
    })
}

/// A chain, sometimes with a gap, a loop at its end, or its atoms out of order.
fn chain(random: &mut Random, atoms: u16) -> (Program, Set) {
    let atoms = if random.once_in(20) {
        random.within(62, 68) as u16
    } else {
        atoms
    };
    let mut names: Vec<u16> = (1..=atoms).collect();
    if random.once_in(3) {
        random.shuffle(&mut names);
    }
    let mut rules: Vec<Rule> = (0..names.len())
        .map(|at| Rule {
            head: names[at],
            positive: if at == 0 { vec![] } else { vec![names[at - 1]] },
            negative: vec![],
        })
        .collect();
    if !rules.is_empty() && random.once_in(4) {
        let gap = random.below(rules.len());
        rules.remove(gap);
    }
    if random.once_in(4) {
        rules.reverse();
    }
    let program = Program { atoms, rules };
    let all = set_of(atoms, &names);
    let set = if random.once_in(3) {
        program.least_model(&all)
    } else {
        all
    };
    (program, set)
}

/// Loops of several atoms, some with an entry from outside.
fn loops(random: &mut Random, atoms: u16) -> (Program, Set) {
    let mut names: Vec<u16> = (1..=atoms).collect();
    random.shuffle(&mut names);
    let mut rules = Vec::new();
    let mut members = Vec::new();
    let mut rest = names.as_slice();
    while !rest.is_empty() {
        let size = random.within(1, rest.len().min(4));
        let (circle, others) = rest.split_at(size);
        for at in 0..size {
            let mut positive = vec![circle[(at + 1) % size]];
            positive.extend(some_of(random, &members, &positive, 1));
            positive.sort_unstable();
            let negative = some_of(random, others, &positive, 1);
            rules.push(Rule {
                head: circle[at],
                positive,
                negative,
            });
        }
        if random.once_in(2) {
            let positive = some_of(random, &members, &[], 2);
            rules.push(Rule {
                head: random.of(circle),
                positive,
                negative: vec![],
            });
        }
        members.extend_from_slice(circle);
        rest = others;
    }
    random.shuffle(&mut rules);
    let program = Program { atoms, rules };
    let all = set_of(atoms, &names);
    let set = match random.below(4) {
        0 => program.least_model(&all),
        1 => random_set(random, atoms),
        _ => all,
    };
    (program, set)
}

/// Marks for a set: some atoms turned, some doubted; now and then an unlawful byte or a wrong length.
fn marks_for(random: &mut Random, set: &Set) -> Vec<u8> {
    let mut marks = marks_of(set);
    if !marks.is_empty() {
        for _ in 0..random.of(&[0, 0, 0, 1, 1, 3]) {
            let at = random.below(marks.len());
            marks[at] = 1 - marks[at].min(1);
        }
        if !random.once_in(3) {
            let doubted = random.within(1, 4);
            for mark in marks.iter_mut().filter(|mark| **mark == 1) {
                if random.once_in(doubted) {
                    *mark = 2;
                }
            }
        }
        if random.once_in(40) {
            let at = random.below(marks.len());
            marks[at] = random.of(&[3, 4, 128, 254, 255]);
        }
    }
    let many = other_length(random, marks.len());
    marks.resize(many, random_byte(random));
    marks
}

fn random_byte(random: &mut Random) -> u8 {
    random.below(256) as u8
}

/// Mostly the length itself, now and then another.
fn other_length(random: &mut Random, length: usize) -> usize {
    if random.once_in(50) {
        return random
            .of(&[0, length + 1, length.saturating_sub(1), length + 7])
            .min(4_097);
    }
    length
}

/// A level of the order: a rung, or one near it, or any.
fn level(random: &mut Random, order: Order, rung: u64) -> u64 {
    let rung = rung.clamp(1, order.rungs());
    let level = match random.below(12) {
        0 => random.next(),
        1 => order.rung(order.rungs()),
        2 => order.rung(order.rungs() - 1),
        3 => 0,
        4 => random.below(8) as u64,
        5 => order.rung(rung).wrapping_add(1),
        6 => order.rung(rung).saturating_sub(1),
        7 => order.rung(rung) ^ (1 << random.below(4)),
        _ => order.rung(rung),
    };
    match order {
        Order::Numbers => level & 0xffff_ffff,
        Order::Routes => level,
    }
}

/// Levels for the marks: those of the rounds, or others.
fn levels_for(random: &mut Random, program: &Program, order: Order, set: &Set) -> Vec<Level> {
    let rounds = program.rounds(set);
    let faults = random.of(&[1_000_000, 1_000_000, 12, 4, 1]);
    let spread = random.of(&[1, 1, 1, 3]);
    let mut levels: Vec<Level> = (1..rounds.len())
        .map(|atom| {
            if random.once_in(faults) {
                let other = random.below(rounds.len()) as u64;
                return (!random.once_in(5)).then(|| level(random, order, other));
            }
            if !set[atom] && random.once_in(2) {
                return None;
            }
            Some(order.rung((u64::from(rounds[atom]) * spread).clamp(1, order.rungs())))
        })
        .collect();
    let many = other_length(random, levels.len());
    levels.resize(many, None);
    levels
}

/// A certificate for marks and levels, as a list of claims.
fn claims_for(random: &mut Random, program: &Program, order: Order, set: &Set) -> Vec<Claim> {
    let levels = levels_for(random, program, order, set);
    let turned = random.once_in(4).then(|| random.below(set.len()));
    (1..set.len())
        .filter(|atom| set[*atom] != (turned == Some(*atom)))
        .map(|atom| (atom as u16, levels.get(atom - 1).copied().flatten()))
        .collect()
}

fn certificate_for(random: &mut Random, program: &Program, order: Order, set: &Set) -> Vec<u8> {
    let claims = claims_for(random, program, order, set);
    let mut kind = order.kind();
    let mut bytes = certificate_bytes(program.atoms, kind, &claims);
    if random.once_in(40) {
        kind = random.of(&[0, 1, 2, 3, 257]);
        bytes[6] = (kind % 256) as u8;
        bytes[7] = (kind / 256) as u8;
    }
    bytes
}

/// The bytes of a program, now and then with a fault in a rule.
fn bytes_for(random: &mut Random, program: &Program) -> Vec<u8> {
    let mut program = program.clone();
    if random.once_in(12) {
        fault(random, &mut program);
    }
    program_bytes(&program)
}

fn line_case(random: &mut Random) -> Case {
    if random.once_in(LIMITS_IN) {
        return limit_line(random);
    }
    let (program, set) = plan(random);
    let order = order(random);
    let mut certificate = certificate_for(random, &program, order, &set);
    let mut bytes = bytes_for(random, &program);
    match random.below(10) {
        0..=2 => mutate(random, &mut bytes),
        3..=5 => mutate(random, &mut certificate),
        6 => std::mem::swap(&mut bytes, &mut certificate),
        _ => {}
    }
    Case::Line {
        program: bytes,
        certificate,
    }
}

fn judge_case(random: &mut Random) -> Case {
    let (program, set) = plan_or_limit(random);
    let order = order(random);
    let levels = levels_for(random, &program, order, &set);
    Case::Judge {
        program: program_or_mutated(random, &program),
        order,
        marks: marks_for(random, &set),
        levels,
    }
}

fn refute_case(random: &mut Random) -> Case {
    let (program, set) = plan_or_limit(random);
    let mut marks = marks_for(random, &set);
    if random.once_in(3) && marks.len() == usize::from(program.atoms) {
        let rounds = program.rounds(&set);
        for (at, mark) in marks.iter_mut().enumerate().filter(|(_, mark)| **mark != 0) {
            *mark = if rounds[at + 1] == 0 { 2 } else { 1 };
        }
    }
    Case::Refute {
        program: program_or_mutated(random, &program),
        marks,
    }
}

fn settle_case(random: &mut Random) -> Case {
    if random.once_in(LONGEST_IN) {
        return longest_chain(random);
    }
    let (program, set) = plan_or_limit(random);
    let order = order(random);
    let many = other_length(random, usize::from(program.atoms));
    Case::Settle {
        program: program_or_mutated(random, &program),
        order,
        marks: marks_for(random, &set),
        levels: levels_for(random, &program, order, &set),
        rounds: (0..many).map(|_| random.below(12) as u16).collect(),
    }
}

fn plan_or_limit(random: &mut Random) -> (Program, Set) {
    if random.once_in(LIMITS_IN) {
        return many_atoms(random);
    }
    if random.once_in(LIMITS_IN) {
        let many = random.of(&[253, 254, 255]);
        let program = wide_rule(random, many);
        let set = program.least_model(&set_of(program.atoms, &[]));
        return (program, set);
    }
    plan(random)
}

fn program_or_mutated(random: &mut Random, program: &Program) -> Vec<u8> {
    let mut bytes = program_bytes(program);
    if random.once_in(60) {
        mutate(random, &mut bytes);
    }
    bytes
}

/// All the atoms that there may be, in a chain.
fn longest_chain(random: &mut Random) -> Case {
    let atoms = crate::files::MAX_ATOMS;
    let rules = (1..=atoms)
        .map(|atom| Rule {
            head: atom,
            positive: if atom == 1 { vec![] } else { vec![atom - 1] },
            negative: vec![],
        })
        .collect();
    Case::Settle {
        program: program_bytes(&Program { atoms, rules }),
        order: order(random),
        marks: vec![1; usize::from(atoms)],
        levels: vec![None; usize::from(atoms)],
        rounds: vec![9; usize::from(atoms)],
    }
}

/// Many atoms, with rules by few.
fn many_atoms(random: &mut Random) -> (Program, Set) {
    let atoms = random.of(&[4_096, 4_095, 1_000, 300]);
    let mut rules = Vec::new();
    for head in 1..=atoms {
        let below: Vec<u16> = (1..head).rev().take(40).collect();
        rules.push(Rule {
            head,
            positive: some_of(random, &below, &[], 2),
            negative: vec![],
        });
    }
    for _ in 0..random.below(5) {
        rules.remove(random.below(rules.len()));
    }
    let program = Program { atoms, rules };
    let all: Vec<u16> = (1..=atoms).collect();
    let set = match random.below(3) {
        0 => program.least_model(&set_of(atoms, &[])),
        1 => random_set(random, atoms),
        _ => set_of(atoms, &all),
    };
    (program, set)
}

/// A program file at a limit, and a certificate for it.
fn limit_line(random: &mut Random) -> Case {
    let (bytes, program) = limit_program(random);
    let order = order(random);
    let all: Vec<u16> = (1..=program.atoms).collect();
    let set = match random.below(4) {
        0 => random_set(random, program.atoms),
        1 => set_of(program.atoms, &all),
        _ => program.least_model(&set_of(program.atoms, &[])),
    };
    let mut certificate = certificate_for(random, &program, order, &set);
    if random.once_in(3) {
        let size = random.of(&[64_999, 65_000, 65_001, 70_000]);
        certificate.resize(size, 0);
    }
    Case::Line {
        program: bytes,
        certificate,
    }
}

/// The bytes of a program at a limit or one past it, and the program.
fn limit_program(random: &mut Random) -> (Vec<u8>, Program) {
    match random.below(5) {
        0 => limit_of_atoms(random),
        1 => limit_of_rules(random),
        2 => limit_of_bytes(random),
        3 => all_bytes(random),
        _ => limit_of_a_body(random),
    }
}

/// The rule of an atom without a body.
fn fact(head: u16) -> Rule {
    Rule {
        head,
        ..Rule::default()
    }
}

/// About as many atoms as there may be, with a few facts.
fn limit_of_atoms(random: &mut Random) -> (Vec<u8>, Program) {
    let atoms = random.of(&[4_095, 4_096, 4_097]);
    let rules = (1..=random.below(5) as u16).map(fact).collect();
    let program = Program { atoms, rules };
    (program_bytes(&program), program)
}

/// About as many rules as there may be, there or stated.
fn limit_of_rules(random: &mut Random) -> (Vec<u8>, Program) {
    let many = random.of(&[7_999, 8_000, 8_001]);
    let rules = vec![fact(1); many];
    let program = Program { atoms: 2, rules };
    let mut bytes = program_bytes(&program);
    if random.once_in(2) {
        let stated = random.of(&[7_999u16, 8_000, 8_001]);
        bytes[6] = (stated % 256) as u8;
        bytes[7] = (stated / 256) as u8;
    }
    (bytes, program)
}

/// About as many bytes as there may be, now and then with one after the end record.
fn limit_of_bytes(random: &mut Random) -> (Vec<u8>, Program) {
    let size = random.of(&[64_990, 64_996, 64_998, 65_000, 65_002, 65_004]);
    let program = sized_program(random, size);
    let mut bytes = program_bytes(&program);
    if random.once_in(3) {
        bytes.push(0);
    }
    (bytes, program)
}

/// As many bytes as there may be, every other time with two after the end record.
fn all_bytes(random: &mut Random) -> (Vec<u8>, Program) {
    let program = sized_program(random, 65_000);
    let mut bytes = program_bytes(&program);
    if random.once_in(2) {
        bytes.extend([0; 2]);
    }
    (bytes, program)
}

/// About as many atoms in a body as there may be.
fn limit_of_a_body(random: &mut Random) -> (Vec<u8>, Program) {
    let many = random.of(&[253, 254, 255, 256, 257]);
    let program = wide_rule(random, many);
    (program_bytes(&program), program)
}

/// A rule with so many atoms in its body, and facts for its positive ones, now and then but one.
fn wide_rule(random: &mut Random, many: u16) -> Program {
    let atoms = 300;
    let mut all: Vec<u16> = (1..=atoms).collect();
    random.shuffle(&mut all);
    let split = match random.below(3) {
        0 => usize::from(many),
        _ => random.below(usize::from(many) + 1),
    };
    let mut positive = all[..split].to_vec();
    let mut negative = all[split..usize::from(many)].to_vec();
    positive.sort_unstable();
    negative.sort_unstable();
    let mut facts = positive.clone();
    if !facts.is_empty() && random.once_in(2) {
        facts.remove(random.below(facts.len()));
    }
    let mut rules: Vec<Rule> = facts.into_iter().map(fact).collect();
    rules.push(Rule {
        head: all[usize::from(many)],
        positive,
        negative,
    });
    Program { atoms, rules }
}

/// A program whose file has that size, an even number over 12.
fn sized_program(random: &mut Random, size: usize) -> Program {
    let atoms = 400;
    let mut rules = Vec::new();
    let mut left = size - 12;
    while left >= 8 {
        let most = ((left - 8) / 2).min(255);
        let many = if left < 1_100 {
            most
        } else {
            random.below(most + 1)
        };
        let rest = left - 8 - 2 * many;
        let many = if rest > 0 && rest < 8 {
            many.saturating_sub(4)
        } else {
            many
        };
        let first = random.within(1, 100) as u16;
        let last = first + many as u16;
        let split = random.within(usize::from(first), usize::from(last)) as u16;
        rules.push(Rule {
            head: random.within(0, 400) as u16,
            positive: (first..split).collect(),
            negative: (split..last).collect(),
        });
        left -= 8 + 2 * many;
    }
    Program { atoms, rules }
}

fn list_case(random: &mut Random) -> Case {
    let (program, set) = plan(random);
    let order = order(random);
    let n = usize::from(program.atoms);
    let making = match random.below(6) {
        0..=1 => Making::AsTheyAre,
        2..=3 => Making::NothingMarked,
        _ => Making::From(certificate_or_mutated(random, &program, order, &set)),
    };
    let (marks, levels) = if making == Making::AsTheyAre {
        (
            marks_for(random, &set),
            levels_for(random, &program, order, &set),
        )
    } else {
        let mark = random.of(&[0, 1, 2, 7]);
        let level = random.of(&[None, Some(3)]);
        (
            vec![mark; other_length(random, n)],
            vec![level; other_length(random, n)],
        )
    };
    let calls = calls_for(random, &program, order, &set);
    Case::List {
        program: program_or_mutated(random, &program),
        order,
        making,
        marks,
        levels,
        calls,
    }
}

fn certificate_or_mutated(
    random: &mut Random,
    program: &Program,
    order: Order,
    set: &Set,
) -> Vec<u8> {
    let mut certificate = certificate_for(random, program, order, set);
    if random.once_in(6) {
        mutate(random, &mut certificate);
    }
    certificate
}

/// A list of calls: often the set is marked first; then any calls, now and then one again.
fn calls_for(random: &mut Random, program: &Program, order: Order, set: &Set) -> Vec<Call> {
    let mut asked: Vec<Asked> = Vec::new();
    if random.once_in(2) {
        asked.extend(
            (1..set.len())
                .filter(|atom| set[*atom])
                .map(|atom| Asked::Mark(atom as u16)),
        );
        random.shuffle(&mut asked);
        asked.truncate(40);
    }
    let many = random.of(&[1, 3, 6, 6, 12, 20]);
    for _ in 0..many {
        match asked.last() {
            Some(last) if random.once_in(6) => asked.push(*last),
            _ => asked.push(asked_of(random, program, order)),
        }
    }
    asked
        .into_iter()
        .map(|asked| lent(random, program, asked))
        .collect()
}

fn asked_of(random: &mut Random, program: &Program, order: Order) -> Asked {
    let atom = match random.below(20) {
        0 => random.of(&[0, program.atoms + 1, 4_096, 65_535]),
        _ => random.within(1, usize::from(program.atoms).max(1)) as u16,
    };
    let rung = random.within(1, 9) as u64;
    match random.below(16) {
        0..=2 => Asked::Mark(atom),
        3 => Asked::Unmark(atom),
        4..=6 => Asked::Doubt(atom),
        7 => Asked::Level(atom, level(random, order, rung)),
        8..=9 => Asked::Ask(Question::Judge),
        10 => Asked::Ask(Question::Refute),
        11..=13 => Asked::Settle,
        _ => Asked::Trial(atom),
    }
}

/// A call with what it is lent: settle a round table, a trial questions, and others now and then one of these too.
fn lent(random: &mut Random, program: &Program, asked: Asked) -> Call {
    let has_rounds = asked == Asked::Settle || random.once_in(20);
    let has_inside = matches!(asked, Asked::Trial(_)) || random.once_in(20);
    let rounds = if has_rounds {
        other_length(random, usize::from(program.atoms))
    } else {
        0
    };
    let inside = if has_inside { random.below(4) } else { 0 };
    Call {
        asked,
        rounds: (0..rounds).map(|_| random.below(9) as u16).collect(),
        inside: (0..inside)
            .map(|_| random.of(&[Question::Judge, Question::Refute]))
            .collect(),
    }
}

fn copy_case(random: &mut Random) -> Case {
    let (mut bytes, program) = if random.once_in(LIMITS_IN / 10) {
        limit_program(random)
    } else if random.once_in(30) {
        let (program, _) = free(random, 80);
        (program_bytes(&program), program)
    } else {
        let (program, _) = plan(random);
        (bytes_for(random, &program), program)
    };
    if random.once_in(20) {
        mutate(random, &mut bytes);
    }
    let many = match random.below(20) {
        _ if program.atoms == 80 => random.within(62, 68),
        0 => random.within(60, 70),
        _ => random.below(6),
    };
    let mut inputs: Vec<u16> = (0..many)
        .map(|_| random.within(1, usize::from(program.atoms).max(1)) as u16)
        .collect();
    if many > 20 && random.once_in(2) {
        inputs = (1..=many as u16).collect();
    }
    if !inputs.is_empty() && random.once_in(20) {
        let at = random.below(inputs.len());
        inputs[at] = random.of(&[0, program.atoms + 1, 65_535]);
    }
    let size = bytes.len() + 8 * inputs.len();
    let room = match random.below(8) {
        0 => size.saturating_sub(random.within(1, 20)),
        1 => size + 1,
        2 => random.below(size + 1),
        3 => bytes.len(),
        _ => size,
    };
    Case::Copy {
        program: bytes,
        inputs,
        out: vec![0xa5; room],
    }
}
