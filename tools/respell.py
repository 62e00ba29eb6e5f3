#!/usr/bin/env python3
"""Respells the definitions and lemmas of this repository, once, after the kit's port.py.

Run at the top. A definition with dashes gets underscores (`head-bytes` becomes `head_bytes`). In a lemma a dash stays
only between the names of two definitions (`length-with_inputs`); other dashes become underscores. Fields, constructors,
module aliases and local names with dashes get underscores. Names that come from src/, from the kit and from goals that
Rattle makes stay as they are. Prints the table of names, and the names that fall together, which it leaves alone.
"""
import collections
import glob
import re

WORD = r"[A-Za-z_ℕ][A-Za-z0-9_'ℕ]*"
DASHED = re.compile(r"(?<![\w'·\-.])(%s(?:-[A-Za-z0-9_'ℕ]+)+)(?![\w'·\-])" % WORD)
FIELD = re.compile(r"(?<=[\w')}])\.(%s(?:-[A-Za-z0-9_'ℕ]+)+)(?![\w'·\-])" % WORD)
HEAD = re.compile(r"^\s*((?:abbrev |unfoldable |pub )*)([^\s:=(){}.]+)\s*(?:\{[^}]*\}\s*)?:(?!\S)\s*(.*)")
FORBIDDEN = {"ground": "grounds", "assumption": "assumptions"}


def files(kind):
    return sorted(glob.glob("crates/*/%s/**/*.antt" % kind, recursive=True))


def read(path):
    with open(path, encoding="utf-8") as f:
        return f.read()


proofs = files("proofs") + files("specs")
sources = sorted(glob.glob("crates/*/src/**/*.rt", recursive=True))
edits = sorted(glob.glob("crates/*/must-fail/*.edit"))

definitions, lemmas, fields, aliases, made = set(), set(), set(), set(), set()
kit = set()
for path in proofs:
    text = read(path)
    for m in re.finditer(r"^use Rattle\.(std\.[^\n{]*)(?:\{([^}]*)\})?", text, re.M):
        for item in (m.group(2) or "").split(","):
            kit.add(item.split(" as ")[-1].strip())
    for m in re.finditer(r"^(?:pub )?use \S+ as (\S+)$", text, re.M):
        aliases.add(m.group(1))
    for block in re.finditer(r"^(?:abbrev |unfoldable |pub )*(?:record|data) [^\n]*\n((?:[ \t]+[^\n]*\n)+)", text, re.M):
        for m in re.finditer(r"^  (?:pub )?(\S+) :", block.group(1), re.M):
            fields.add(m.group(1))
    for line in text.split("\n"):
        m = HEAD.match(line)
        if not m or line.startswith("--"):
            continue
        if re.match(r"(goal|given)\.\S+\s*$", m.group(3)):
            made.add(m.group(2))
        elif "abbrev" in m.group(1) or "unfoldable" in m.group(1):
            definitions.add(m.group(2))
        else:
            lemmas.add(m.group(2))


def snake(name):
    return name.replace("-", "_")


table = {d: snake(d) for d in definitions}
names = set(table.values()) | {k for k in kit if re.match(r"^[A-Za-z]", k)} | {"append"}
names -= {"here", "more", "less", "zero", "there", "fitting", "from", "of", "at", "in", "is", "by", "stays", "all", "any"}


def lemma_name(name):
    parts = name.split("-")
    segments, i = [], 0
    while i < len(parts):
        for j in range(len(parts), i, -1):
            word = "_".join(parts[i:j])
            if word in names or j == i + 1:
                segments.append((word, word in names))
                i = j
                break
    out = segments[0][0]
    for (_, before), (word, here) in zip(segments, segments[1:]):
        out += ("-" if before and here else "_") + word
    return out


for lemma in lemmas:
    if lemma not in table:
        table[lemma] = lemma_name(lemma)
for name in aliases:
    table.setdefault(name, snake(name))
for name, other in FORBIDDEN.items():
    if name in lemmas | definitions:
        table[name] = other
member = {f: snake(f) for f in fields}

# what falls together: two old names for one new, or a new name that stood already
back = collections.defaultdict(set)
for old, new in table.items():
    back[new].add(old)
for new, olds in sorted(back.items()):
    if len(olds) > 1:
        print("falls together:", new, sorted(olds))
        for old in olds:
            if old in lemmas and old not in definitions and old != new:
                table[old] = new + "_lem"
                print("  so", old, "becomes", table[old])


def local_names(text):
    found = {"c-is", "s-is", "head-is", "part-is", "count-so", "head-so", "size-so", "room-is", "reads-back", "reason-number"}
    for m in re.finditer(r"let (%s(?:-[\w']+)+) [:=]" % WORD, text):
        found.add(m.group(1))
    for m in re.finditer(r"λ ([^.]*)\.", text):
        found |= set(DASHED.findall(m.group(1)))
    for m in re.finditer(r"[({]([^(){}:=.\n]*) :", text):
        found |= set(DASHED.findall(m.group(1)))
    return found


def respell(text, local, with_fields):
    def name(m):
        word = m.group(1)
        if word in made:
            return word
        if word in table:
            return table[word]
        return snake(word) if word in local or word in member else word

    out = []
    for line in text.split("\n"):
        code, dash, comment = line.partition("-- ")
        if line.startswith("use ") and re.search(r"\.(Goals|Given)\b", line):
            out.append(line)
            continue
        code = DASHED.sub(name, code)
        if with_fields:
            code = FIELD.sub(lambda m: "." + member.get(m.group(1), m.group(1)), code)
            # a name behind a module alias
            code = re.sub(r"\b(%s)\.(%s(?:-[\w']+)+)" % (WORD, WORD),
                          lambda m: m.group(1) + "." + table[m.group(2)]
                          if m.group(1) in alias_words and m.group(2) in table else m.group(0), code)
        out.append(code + dash + comment)
    return "\n".join(out)


alias_words = {snake(a) for a in aliases}
changed = 0
for path in proofs:
    before = read(path)
    after = respell(before, local_names(before), True)
    for old, new in FORBIDDEN.items():
        if old in table and re.search(r"^%s :" % old, after, re.M):
            after = re.sub(r"(?<![\w.\-'])%s(?![\w\-'])" % old, new, after)
    if after != before:
        changed += 1
        with open(path, "w", encoding="utf-8") as f:
            f.write(after)


def clauses(text):
    """The parts of a source that are antt: ghost lines and what stands in the braces of a clause."""
    spans = [m.span() for m in re.finditer(r"^\s*(?:pub )?ghost use [^;]*;", text, re.M)]
    for m in re.finditer(r"\b(?:requires|ensures|ghost|invariant)\*?(?: \w+)?(?::| =)? \{", text):
        depth, i = 1, m.end()
        while depth:
            depth += {"{": 1, "}": -1}.get(text[i], 0)
            i += 1
        spans.append((m.start(), i))
    return sorted(spans)


for path in sources:
    before = read(path)
    after, at = "", 0
    for start, end in clauses(before):
        if start < at:
            continue
        after += before[at:start] + respell(before[start:end], set(), True)
        at = end
    after += before[at:]
    if after != before:
        changed += 1
        with open(path, "w", encoding="utf-8") as f:
            f.write(after)

for path in edits:
    before = read(path)
    if re.search(r"ensures|requires|\.antt", before):
        after = respell(before, set(), True)
        if after != before:
            changed += 1
            with open(path, "w", encoding="utf-8") as f:
                f.write(after)

for old, new in sorted(table.items()):
    if old != new:
        print(old, "→", new)
for old, new in sorted(member.items()):
    if old != new:
        print("field", old, "→", new)
print(changed, "files changed")
