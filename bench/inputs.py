#!/usr/bin/env python3
"""Makes the inputs of the benchmarks, each at an eighth, a quarter, a half and the whole of its size.

Usage: inputs.py FOLDER

Each input becomes a folder FOLDER/NAME/EIGHTHS with
  program.bin, certificate.bin    the plan for judge, with levels
  bare/                           the same plan for settle, its certificate without levels
  program.smodels, program.aspif  the same rules for clasp, which is to check the claimed set and no other
  answers                         the lines that judge and settle must print, and the word that clasp must
FOLDER/empty/0 has a plan without atoms and rules, which costs what starting costs, and FOLDER/one-broken/0 one with a broken rule
alone. The inputs are the same at each run.
docs/FORMATS.md describes the binary files.
"""
import collections
import os
import random
import struct
import sys

ATOMS = 4096
RULES = 8000
BODY = 255
FILE_BYTES = 65000
SIZES = (1, 2, 4, 8)

# Rules are triples (head, positive atoms, negative atoms), the head of a constraint is 0. Levels say for each claimed atom its
# level; where there are none, the rounds in which settle takes the atoms are the levels.
Plan = collections.namedtuple("Plan", "atoms rules claimed levels", defaults=(None,))


def fact(atom):
    return atom, (), ()


def size_of(rule):
    return 8 + 2 * len(rule[1]) + 2 * len(rule[2])


def fitting(rules, eighths, taken=()):
    """Those of the rules, from the first, that fit in so many eighths of a file, beside the rules `taken`."""
    room = FILE_BYTES * eighths // 8 - 12 - sum(map(size_of, taken))
    many = RULES * eighths // 8 - len(taken)
    kept = []
    for rule in rules:
        room -= size_of(rule)
        if room < 0 or len(kept) == many:
            break
        kept.append(rule)
    return kept


# The inputs.


def chain(eighths):
    """Each atom rests on the one before it."""
    n = ATOMS * eighths // 8
    rules = [fact(1)] + [(atom, (atom - 1,), ()) for atom in range(2, n + 1)]
    return Plan(n, rules, range(1, n + 1))


def chain_reversed(eighths):
    """The chain, its rules written from its end, so that a walk over the rules takes one atom."""
    plan = chain(eighths)
    return plan._replace(rules=plan.rules[::-1])


def star(eighths):
    """Each atom rests on the first, which is a fact."""
    n = ATOMS * eighths // 8
    return Plan(n, [(atom, (1,), ()) for atom in range(2, n + 1)] + [fact(1)], range(1, n + 1))


def one_head(eighths):
    """As many rules as a file may have, all with the head 1; the bodies of the first are false, and the rest are facts."""
    n = ATOMS * eighths // 8
    many = RULES * eighths // 8
    spare = (FILE_BYTES * eighths // 8 - 12 - 8 * many) // 2
    return Plan(n, [(1, (2,), ())] * spare + [fact(1)] * (many - spare), [1])


def one_head_late(eighths):
    """All rules but one have the head 1 and a true body that is no lower; the last one supports it."""
    n = ATOMS * eighths // 8
    last = [(2, (1,), ()), fact(1)]
    return Plan(n, fitting([(1, (2,), ())] * RULES, eighths, last) + last, [1, 2])


def many_heads(eighths):
    """As many rules as a file may have over as many atoms, from the highest head down, and some heads twice."""
    n = ATOMS * eighths // 8
    many = RULES * eighths // 8
    spare = (FILE_BYTES * eighths // 8 - 12 - 8 * many) // 2
    rules = [fact(n - at % n) for at in range(many)]
    rules[:spare] = [(head, (1,), ()) if head != 1 else fact(1) for head, _, _ in rules[:spare]]
    return Plan(n, rules, range(1, n + 1))


def bodies(eighths):
    """Bodies of 255 positive atoms, all of them facts."""
    base = [fact(atom) for atom in range(1, BODY + 1)]
    return with_bodies(base, eighths)


def bodies_rising(eighths):
    """Bodies of 255 positive atoms of which each round takes one, in the order in which they are written."""
    base = [fact(1)] + [(atom, (atom - 1,), ()) for atom in range(2, BODY + 1)]
    return with_bodies(base, eighths)


def bodies_falling(eighths):
    """Bodies of 255 positive atoms of which each round takes one, against the order in which they are written."""
    base = [fact(BODY)] + [(atom, (atom + 1,), ()) for atom in range(1, BODY)]
    return with_bodies(base, eighths)


def with_bodies(base, eighths):
    """The rules of the atoms 1 to 255, and rules for the next atoms whose bodies are all of these."""
    body = tuple(range(1, BODY + 1))
    rules = fitting([(BODY + at, body, ()) for at in range(1, RULES)], eighths, base)
    n = BODY + len(rules)
    return Plan(n, base + rules, range(1, n + 1))


def bodies_negative(eighths):
    """Bodies of 255 negative atoms, all of them out."""
    body = tuple(range(1, BODY + 1))
    rules = fitting([(BODY + at, (), body) for at in range(1, RULES)], eighths)
    n = BODY + len(rules)
    return Plan(n, rules, range(BODY + 1, n + 1))


def ring(eighths):
    """The chain with its first atom resting on its last; the levels are unfit at the last atom alone."""
    n = ATOMS * eighths // 8
    rules = [(1, (n,), ())] + [(atom, (atom - 1,), ()) for atom in range(2, n + 1)]
    levels = {atom: atom + 1 for atom in range(1, n)} | {n: 1}
    return Plan(n, rules, range(1, n + 1), levels)


def constraints(eighths):
    """Facts, and constraints of three atoms whose bodies fail at the last atom."""
    n = ATOMS * eighths // 8
    base = [fact(atom) for atom in range(1, n // 4 + 1)]
    draw = Draw(1)
    rules = [(0, draw.atoms(2, n // 4), draw.atoms(1, n // 4)) for _ in range(RULES)]
    kept = [rule for rule in rules if not set(rule[1]) & set(rule[2])]
    return Plan(n, base + fitting(kept, eighths, base), range(1, n // 4 + 1))


def random_tight(eighths):
    """A planted stable set, where no atom depends on itself by positive atoms."""
    return planted(eighths, Draw(2), True)


def random_loops(eighths):
    """A planted stable set among rules by which many atoms depend on themselves."""
    return planted(eighths, Draw(3), False)


def random_unfounded(eighths):
    """The same, but the two highest atoms are claimed and rest only on each other."""
    n = ATOMS * eighths // 8
    plan = planted(eighths, Draw(4), False, 2, [(n - 1, (n,), ()), (n, (n - 1,), ())])
    levels = rounds_of(plan)
    top = max(levels.values())
    return plan._replace(claimed=[*plan.claimed, n - 1, n], levels=levels | {n - 1: top + 1, n: top + 2})


def random_broken(eighths):
    """A planted set, and a last rule with a true body and with the highest atom, which is outside the set, as its head."""
    n = ATOMS * eighths // 8
    return planted(eighths, Draw(5), True, 1, [fact(n)])


class Draw:
    """Draws that are the same at each run: of a seeded generator, Python promises it for `random` alone."""

    def __init__(self, seed):
        self.draw = random.Random(seed).random

    def below(self, bound):
        return int(self.draw() * bound)

    def atoms(self, many, n, start=0):
        """At most `many` atoms of start + 1 to start + n, ascending."""
        return tuple(sorted({start + 1 + self.below(n) for _ in range(many)}))

    def shuffled(self, items):
        items = list(items)
        for at in range(len(items) - 1, 0, -1):
            other = self.below(at + 1)
            items[at], items[other] = items[other], items[at]
        return items


def planted(eighths, draw, tight, apart=0, last=()):
    """A program with half its atoms as a stable set. One rule supports each by atoms of the set that come earlier in an order;
    each other rule has a body that the set makes false, or a head in it. The highest atoms, so many as `apart`, stand in none
    of these rules. The rules `last` come after them."""
    n = ATOMS * eighths // 8
    order = draw.shuffled(range(1, n + 1 - apart))
    inside, outside = order[::2], order[1::2]
    rules = []
    for at, atom in enumerate(inside):
        positive = {inside[draw.below(at)] for _ in range(draw.below(3))} if at else set()
        negative = {outside[draw.below(len(outside))] for _ in range(draw.below(2))}
        rules.append((atom, tuple(sorted(positive)), tuple(sorted(negative))))
    more = [other_rule(draw, order, set(inside), tight) for _ in range(RULES * eighths // 8)]
    rules += fitting([rule for rule in more if rule], eighths, [*rules, *last])
    return Plan(n, [*draw.shuffled(rules), *last], sorted(inside))


def other_rule(draw, order, claimed, tight):
    """A rule that leaves a planted set stable, or none. In a tight program its positive atoms come before its head."""
    at = draw.below(len(order))
    positive = {order[draw.below(at if tight else len(order))] for _ in range(draw.below(3))} if at else set()
    negative = {order[draw.below(len(order))] for _ in range(draw.below(3))} - positive
    holds = positive <= claimed and not negative & claimed
    if holds and order[at] not in claimed:
        return None
    return order[at], tuple(sorted(positive)), tuple(sorted(negative))


INPUTS = {
    "chain": chain,
    "chain-reversed": chain_reversed,
    "star": star,
    "one-head": one_head,
    "one-head-late": one_head_late,
    "many-heads": many_heads,
    "bodies": bodies,
    "bodies-negative": bodies_negative,
    "bodies-rising": bodies_rising,
    "bodies-falling": bodies_falling,
    "ring": ring,
    "random-tight": random_tight,
    "random-loops": random_loops,
    "random-unfounded": random_unfounded,
    "random-broken": random_broken,
    "constraints": constraints,
}


# What must come out, worked out here from the definitions and not from the programs that are measured.


def holds(rule, claimed):
    return claimed.issuperset(rule[1]) and claimed.isdisjoint(rule[2])


def broken_rule(plan):
    """The first rule with a true body and no claimed head."""
    claimed = set(plan.claimed)
    for number, rule in enumerate(plan.rules, 1):
        if rule[0] not in claimed and holds(rule, claimed):
            return number
    return None


def rounds_of(plan):
    """The round that takes each claimed atom, for those that a round takes."""
    claimed = set(plan.claimed)
    waiting = collections.defaultdict(list)
    missing, front, rounds = {}, set(), {}
    for number, rule in enumerate(plan.rules):
        if rule[0] in claimed and holds(rule, claimed):
            missing[number] = len(rule[1])
            for atom in rule[1]:
                waiting[atom].append(number)
            if not rule[1]:
                front.add(rule[0])
    count = 0
    while front:
        count += 1
        rounds |= dict.fromkeys(front, count)
        after = set()
        for number in (number for atom in front for number in waiting[atom]):
            missing[number] -= 1
            if missing[number] == 0:
                after.add(plan.rules[number][0])
        front = after - rounds.keys()
    return rounds


def ungrounded_atom(plan, levels):
    """The lowest claimed atom that no rule supports by atoms of lower levels."""
    claimed, grounded = set(plan.claimed), set()
    for head, positive, negative in plan.rules:
        if head in claimed and holds((head, positive, negative), claimed):
            if all(levels[atom] < levels[head] for atom in positive):
                grounded.add(head)
    return min(claimed - grounded, default=None)


def answers(plan, levels):
    """The line of judge, the line of settle and the word of clasp."""
    rule = broken_rule(plan)
    if rule is not None:
        return f"broken {rule}", f"broken {rule}", "UNSATISFIABLE"
    rounds = rounds_of(plan)
    left = len(set(plan.claimed)) - len(rounds)
    settled = f"looped {left}" if left else f"ranked {max(rounds.values(), default=0)}"
    atom = ungrounded_atom(plan, levels)
    if atom is None:
        return f"accepted {len(plan.claimed)}", settled, "SATISFIABLE"
    return f"ungrounded {atom}", settled, "UNSATISFIABLE"


# The files.


def words(*numbers):
    return struct.pack(f"<{len(numbers)}H", *numbers)


def record(kind, contents):
    return words(len(contents), kind) + contents


def program_file(plan):
    rules = (record(2, words(head, len(pos), *pos, *neg)) for head, pos, neg in plan.rules)
    return record(1, words(plan.atoms, len(plan.rules))) + b"".join(rules) + record(3, b"")


def certificate_file(plan, levels):
    claims = (
        record(18, words(atom) + (struct.pack("<I", levels[atom]) if levels else b""))
        for atom in sorted(plan.claimed)
    )
    return record(17, words(plan.atoms, 1)) + b"".join(claims) + record(3, b"")


def smodels_file(plan):
    """The rules for clasp; atom 1 is the false one, and each other has its number and one. No atom has a name."""
    lines = []
    for head, positive, negative in plan.rules:
        body = [str(atom + 1) for atom in negative + positive]
        lines.append(" ".join(["1", str(head + 1), str(len(body)), str(len(negative)), *body]))
    claimed = set(plan.claimed)
    inside = [str(atom + 1) for atom in sorted(claimed)]
    outside = [str(atom + 1) for atom in range(plan.atoms + 1) if atom not in claimed]
    return "\n".join([*lines, "0", "0", "B+", *inside, "0", "B-", *outside, "0", "1", ""])


def aspif_file(plan):
    """The same in clasp's other form, with the claimed set as assumptions."""
    lines = ["asp 1 0 0"]
    for head, positive, negative in plan.rules:
        heads = ["1", str(head)] if head else ["0"]
        body = [str(atom) for atom in positive] + [str(-atom) for atom in negative]
        lines.append(" ".join(["1", "0", *heads, "0", str(len(body)), *body]))
    claimed = set(plan.claimed)
    assumed = [str(atom if atom in claimed else -atom) for atom in range(1, plan.atoms + 1)]
    return "\n".join([*lines, " ".join(["6", str(plan.atoms), *assumed]), "0", ""])


def write(folder, plan):
    levels = plan.levels or rounds_of(plan)
    files = {
        "program.bin": program_file(plan),
        "certificate.bin": certificate_file(plan, levels),
        "bare/program.bin": program_file(plan),
        "bare/certificate.bin": certificate_file(plan, None),
        "program.smodels": smodels_file(plan).encode(),
        "program.aspif": aspif_file(plan).encode(),
        "answers": "\n".join([*answers(plan, levels), ""]).encode(),
    }
    os.makedirs(f"{folder}/bare")
    for name, data in files.items():
        assert not name.endswith(".bin") or len(data) <= FILE_BYTES, (folder, name, len(data))
        with open(f"{folder}/{name}", "wb") as file:
            file.write(data)


def main():
    (folder,) = sys.argv[1:]
    write(f"{folder}/empty/0", Plan(0, [], []))
    write(f"{folder}/one-broken/0", Plan(0, [(0, (), ())], []))
    for name, make in INPUTS.items():
        for eighths in SIZES:
            write(f"{folder}/{name}/{eighths}", make(eighths))


if __name__ == "__main__":
    main()
