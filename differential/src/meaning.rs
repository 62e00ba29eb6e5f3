//! Programs and what holds of sets, by definition: docs/MEANING.md. A set says of each atom whether it is in; atom 0 never is.
#![forbid(unsafe_code)]

/// A rule; head 0 is that of a constraint.
#[derive(Clone, Debug, PartialEq, Eq, Default)]
pub struct Rule {
    pub head: u16,
    pub positive: Vec<u16>,
    pub negative: Vec<u16>,
}

/// The atoms 1 to `atoms`, and the rules, numbered from 1.
#[derive(Clone, Debug, PartialEq, Eq, Default)]
pub struct Program {
    pub atoms: u16,
    pub rules: Vec<Rule>,
}

/// Which atoms are in, by their numbers.
pub type Set = Vec<bool>;

/// Is the atom in the set? An atom that it has no place for is not.
pub fn has(set: &Set, atom: u16) -> bool {
    atom != 0 && set.get(usize::from(atom)).copied().unwrap_or(false)
}

/// The set without atoms.
pub fn empty_set(atoms: u16) -> Set {
    vec![false; usize::from(atoms) + 1]
}

/// The atoms of a set, ascending.
pub fn members(set: &Set) -> impl Iterator<Item = u16> + '_ {
    (1..set.len())
        .filter(|atom| set[*atom])
        .map(|atom| atom as u16)
}

impl Rule {
    /// Is the body true?
    pub fn has_true_body(&self, set: &Set) -> bool {
        self.positive.iter().all(|atom| has(set, *atom))
            && !self.negative.iter().any(|atom| has(set, *atom))
    }

    /// Is the rule broken?
    pub fn is_broken(&self, set: &Set) -> bool {
        self.has_true_body(set) && (self.head == 0 || !has(set, self.head))
    }

    /// Does the rule support the atom?
    pub fn supports(&self, set: &Set, atom: u16) -> bool {
        self.head == atom && self.has_true_body(set) && has(set, atom)
    }
}

impl Program {
    /// The number of the lowest broken rule.
    pub fn lowest_broken(&self, set: &Set) -> Option<usize> {
        (1..=self.rules.len()).find(|rule| self.rules[rule - 1].is_broken(set))
    }

    /// The rules that support the atom.
    pub fn supporting<'a>(&'a self, set: &'a Set, atom: u16) -> impl Iterator<Item = &'a Rule> {
        self.rules
            .iter()
            .filter(move |rule| rule.supports(set, atom))
    }

    /// The reduct by the set: heads and positive parts.
    pub fn reduct(&self, set: &Set) -> Vec<(u16, &[u16])> {
        self.rules
            .iter()
            .filter(|rule| rule.head != 0)
            .filter(|rule| !rule.negative.iter().any(|atom| has(set, *atom)))
            .map(|rule| (rule.head, rule.positive.as_slice()))
            .collect()
    }

    /// The least model of the reduct by the set, by adding heads until nothing is added.
    pub fn least_model(&self, set: &Set) -> Set {
        let reduct = self.reduct(set);
        let mut model = empty_set(self.atoms);
        loop {
            let mut added = false;
            for (head, positive) in &reduct {
                if !has(&model, *head) && positive.iter().all(|atom| has(&model, *atom)) {
                    model[usize::from(*head)] = true;
                    added = true;
                }
            }
            if !added {
                return model;
            }
        }
    }

    /// Is the set stable?
    pub fn is_stable(&self, set: &Set) -> bool {
        let mut constraints = self.rules.iter().filter(|rule| rule.head == 0);
        self.least_model(set) == *set && !constraints.any(|rule| rule.is_broken(set))
    }

    /// The round of each atom, and 0 where none takes it. Each round looks only at what earlier rounds took.
    pub fn rounds(&self, set: &Set) -> Vec<u16> {
        let mut rounds = vec![0u16; usize::from(self.atoms) + 1];
        for round in 1..=self.atoms {
            let taken: Vec<u16> = self
                .rules
                .iter()
                .filter(|rule| rule.head != 0 && rounds[usize::from(rule.head)] == 0)
                .filter(|rule| rule.supports(set, rule.head))
                .filter(|rule| {
                    rule.positive
                        .iter()
                        .all(|atom| rounds[usize::from(*atom)] > 0)
                })
                .map(|rule| rule.head)
                .collect();
            if taken.is_empty() {
                break;
            }
            for atom in taken {
                rounds[usize::from(atom)] = round;
            }
        }
        rounds
    }

    /// Do the numbers rank the set strictly? Each of its atoms has one more than the least, over the rules that support it, of the
    /// greatest number in the positive part.
    pub fn is_strict_ranking(&self, set: &Set, numbers: &[u64]) -> bool {
        let greatest = |rule: &Rule| {
            let numbers = rule.positive.iter().map(|atom| numbers[usize::from(*atom)]);
            numbers.max().unwrap_or(0)
        };
        members(set).all(|atom| {
            let least = self.supporting(set, atom).map(greatest).min();
            least.is_some_and(|least| numbers[usize::from(atom)] == least + 1)
        })
    }
}
