//! How answers are told by both implementations: a word and numbers. docs/DIFFERENTIAL.md lists the words.
#![forbid(unsafe_code)]

/// An answer as it crosses the boundary.
#[repr(C)]
#[derive(Clone, Copy, Debug, PartialEq, Eq)]
pub struct Told {
    pub word: u16,
    pub reason: u16,
    pub layer: u16,
    pub number: usize,
    pub rule: usize,
}

pub const REFUSED: u16 = 0;
pub const DONE: u16 = 1;
pub const BROKEN: u16 = 2;
pub const UNLEVELLED: u16 = 3;
pub const UNGROUNDED: u16 = 4;
pub const ACCEPTED: u16 = 5;
pub const UNDOUBTED: u16 = 6;
pub const ESCAPED: u16 = 7;
pub const RANKED: u16 = 8;
pub const LOOPED: u16 = 9;
pub const NONE: u16 = 10;

/// The words, in the order of their numbers; the last two are the boundary's own, and no case has them.
pub const WORDS: [&str; 13] = [
    "refused",
    "done",
    "broken",
    "unlevelled",
    "ungrounded",
    "accepted",
    "undoubted",
    "escape",
    "ranked",
    "looped",
    "none",
    "too long",
    "no memory",
];

/// The letters of the layers, in the order of their numbers; 0 is none.
pub const LETTERS: [&str; 6] = ["", "P", "C", "R", "S", "W"];

/// How many reasons there are, with 0 for none.
pub const REASONS: usize = 19;

/// A refusal, by the numbers of its reason and its layer.
#[derive(Clone, Copy, Debug, PartialEq, Eq)]
pub struct Refusal {
    pub layer: u16,
    pub reason: u16,
    pub place: usize,
}

/// The numbers of the layers.
pub const PROGRAM: u16 = 1;
pub const CERTIFICATE: u16 = 2;
pub const SOURCE: u16 = 3;
pub const SURVEY: u16 = 4;
pub const WRITER: u16 = 5;

/// The refusal of a layer, for a reason, at a place.
pub fn refusal(layer: u16, reason: u16, place: usize) -> Refusal {
    Refusal {
        layer,
        reason,
        place,
    }
}

impl Told {
    /// An answer that is a word and a number.
    pub fn new(word: u16, number: usize) -> Told {
        Told {
            word,
            reason: 0,
            layer: 0,
            number,
            rule: 0,
        }
    }

    /// The same with a rule, for an escape.
    pub fn with_rule(word: u16, number: usize, rule: usize) -> Told {
        Told {
            rule,
            ..Told::new(word, number)
        }
    }

    /// Was this refused for the reason, by the layer?
    pub fn is_refused_for(&self, layer: u16, reason: u16) -> bool {
        self.word == REFUSED && self.layer == layer && self.reason == reason
    }
}

impl From<Refusal> for Told {
    fn from(refusal: Refusal) -> Told {
        Told {
            word: REFUSED,
            reason: refusal.reason,
            layer: refusal.layer,
            number: refusal.place,
            rule: 0,
        }
    }
}

impl From<Result<Told, Refusal>> for Told {
    fn from(answer: Result<Told, Refusal>) -> Told {
        answer.unwrap_or_else(Told::from)
    }
}

impl std::fmt::Display for Told {
    fn fmt(&self, f: &mut std::fmt::Formatter<'_>) -> std::fmt::Result {
        let word = WORDS.get(usize::from(self.word)).unwrap_or(&"?");
        match self.word {
            REFUSED => {
                let letter = LETTERS.get(usize::from(self.layer)).unwrap_or(&"?");
                write!(f, "{word} {letter} {} {}", self.reason, self.number)
            }
            ESCAPED => write!(f, "{word} {} {}", self.number, self.rule),
            _ => write!(f, "{word} {}", self.number),
        }
    }
}
