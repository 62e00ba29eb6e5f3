//! Faults: in a rule before it is written, and in the bytes of a file.
#![forbid(unsafe_code)]

use crate::files::word;
use crate::meaning::Program;
use crate::random::Random;

/// Numbers that stand near a limit or have a meaning.
const TELLING: [u16; 18] = [
    0, 1, 2, 3, 4, 5, 6, 10, 17, 18, 255, 256, 514, 516, 4_096, 4_097, 8_001, 65_535,
];

/// Puts a fault into one rule: an atom that is none, a part out of order, an atom in both parts or twice.
pub fn fault(random: &mut Random, program: &mut Program) {
    if program.rules.is_empty() {
        return;
    }
    let at = random.below(program.rules.len());
    let outside = random.of(&[0, program.atoms + 1, 65_535]);
    let rule = &mut program.rules[at];
    match random.below(8) {
        0 => rule.head = program.atoms + 1,
        1 => rule.positive.insert(0, outside),
        2 => rule.negative.push(outside),
        3 => rule.positive.reverse(),
        4 => rule.negative.reverse(),
        5 if !rule.positive.is_empty() => rule.positive.push(rule.positive[0]),
        6 if !rule.positive.is_empty() => {
            let atom = random.of(&rule.positive);
            rule.negative.push(atom);
            rule.negative.sort_unstable();
            rule.negative.dedup();
        }
        7 if !rule.negative.is_empty() => {
            let atom = random.of(&rule.negative);
            rule.positive.push(atom);
            rule.positive.sort_unstable();
            rule.positive.dedup();
        }
        _ => rule.positive = rule.negative.clone(),
    }
}

/// The places of the records, as far as their lengths lead.
pub fn record_places(bytes: &[u8]) -> Vec<usize> {
    let mut places = Vec::new();
    let mut place = 0;
    while place + 4 <= bytes.len() {
        places.push(place);
        place += 4 + usize::from(word(bytes, place));
    }
    places
}

/// Changes the bytes of a file one to three times.
pub fn mutate(random: &mut Random, bytes: &mut Vec<u8>) {
    for _ in 0..random.of(&[1, 1, 1, 1, 2, 3]) {
        mutate_once(random, bytes);
    }
}

fn mutate_once(random: &mut Random, bytes: &mut Vec<u8>) {
    if bytes.is_empty() {
        bytes.push(random.below(256) as u8);
        return;
    }
    let at = random.below(bytes.len());
    match random.below(12) {
        0 | 1 => bytes.truncate(at),
        2 => {
            for _ in 0..random.within(1, 5) {
                bytes.push(random.of(&[0, 0, 3, 255]));
            }
        }
        3 => bytes[at] ^= 1 << random.below(8),
        4 => bytes[at] = random.below(256) as u8,
        5 => bytes.insert(at, random.of(&[0, 1, 255])),
        6 => {
            bytes.remove(at);
        }
        7..=9 => change_word(random, bytes),
        _ => change_records(random, bytes),
    }
}

/// Changes a number of 16 bits in a record: its length, its kind, or one of its contents.
fn change_word(random: &mut Random, bytes: &mut [u8]) {
    let places = record_places(bytes);
    if places.is_empty() {
        return;
    }
    let place = random.of(&places);
    let at = place + random.of(&[0, 0, 2, 2, 4, 4, 6, 6, 8, 10]);
    if at + 2 > bytes.len() {
        return;
    }
    let now = word(bytes, at);
    let next = match random.below(8) {
        0 | 1 => now.wrapping_add(1),
        2 | 3 => now.wrapping_sub(1),
        4 => now.wrapping_add(2),
        5 => now.wrapping_sub(2),
        _ => random.of(&TELLING),
    };
    bytes[at] = (next % 256) as u8;
    bytes[at + 1] = (next / 256) as u8;
}

/// Takes out a record, has one twice, or has two in each other's place.
fn change_records(random: &mut Random, bytes: &mut Vec<u8>) {
    let mut places = record_places(bytes);
    places.push(bytes.len());
    if places.len() < 3 {
        return;
    }
    let at = random.below(places.len() - 2);
    let (first, second) = (places[at], places[at + 1]);
    let third = places[at + 2].min(bytes.len());
    if second > third {
        return;
    }
    match random.below(3) {
        0 => {
            bytes.drain(first..second);
        }
        1 => {
            let again = bytes[first..second].to_vec();
            bytes.splice(second..second, again);
        }
        _ => bytes[first..third].rotate_left(second - first),
    }
}
