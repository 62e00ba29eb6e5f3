#!/usr/bin/env python3
"""Writes program.bin and certificate.bin from a readable plan.

Usage: encode.py PLAN FOLDER

A plan has rules and claims, one to a line; `%` starts a comment.
  a :- b, not c.     a rule; without a head it is a constraint, without a body a fact
  claim a 3          atom a is claimed to be in, with level 3
  claim a            the same without a level
  levels routes      the levels are sets of repeaters, given as numbers; without this line they are numbers
Atoms are numbered in the order in which their names first appear. docs/FORMATS.md describes both files.
"""
import struct
import sys


def words(*numbers):
    return b"".join(struct.pack("<H", n) for n in numbers)


def record(kind, contents):
    return words(len(contents), kind) + contents


def read(text):
    atoms, rules, claims, routes = {}, [], {}, False

    def atom(name):
        return atoms.setdefault(name.strip(), len(atoms) + 1)

    for line in text.splitlines():
        line = line.split("%")[0].strip()
        if not line:
            continue
        if line == "levels routes":
            routes = True
        elif line.startswith("claim "):
            name, *level = line.split()[1:]
            claims[atom(name)] = int(level[0], 0) if level else None
        else:
            head, _, body = line.rstrip(".").partition(":-")
            head = atom(head) if head.strip() else 0
            parts = [p.strip() for p in body.split(",") if p.strip()]
            negative = sorted({atom(p[4:]) for p in parts if p.startswith("not ")})
            positive = sorted({atom(p) for p in parts if not p.startswith("not ")})
            rules.append((head, positive, negative))
    return atoms, rules, claims, routes


def main():
    plan, folder = sys.argv[1:]
    with open(plan, encoding="utf-8") as file:
        atoms, rules, claims, routes = read(file.read())
    program = record(1, words(len(atoms), len(rules)))
    for head, positive, negative in rules:
        program += record(2, words(head, len(positive), *positive, *negative))
    certificate = record(17, words(len(atoms), 2 if routes else 1))
    for number in sorted(claims):
        level = claims[number]
        stored = b"" if level is None else struct.pack("<Q" if routes else "<I", level)
        certificate += record(18, words(number) + stored)
    for name, data in (("program.bin", program), ("certificate.bin", certificate)):
        with open(f"{folder}/{name}", "wb") as file:
            file.write(data + record(3, b""))


main()
