#!/usr/bin/env python3
"""Counts the instructions of judge, settle and clasp on the inputs by callgrind, and prints tables.

Usage: counts.py FOLDER

FOLDER holds the inputs. An instruction that repeats itself is counted once for each time, as callgrind does: a block of memory
that is filled or copied at one stroke counts as many instructions as it has bytes.
"""
import os
import re
import subprocess
import sys

import programs

SIZES = ("1", "8")

COLLECTED = re.compile(r"Collected : (\d+)")


def count(run, folder):
    """How many instructions a run takes on an input."""
    valgrind = ["valgrind", "--tool=callgrind", f"--callgrind-out-file={os.devnull}"]
    done = subprocess.run(
        valgrind + run.command, cwd=f"{folder}/{run.folder}", capture_output=True, encoding="utf-8", check=False
    )
    programs.check_answer(run, folder, done.stdout)
    return int(COLLECTED.search(done.stderr).group(1))


def main():
    room = os.path.realpath(sys.argv[1])
    counts = {}
    for name, size in programs.places_in(room, SIZES):
        counts[name, size] = programs.least((run, count(run, f"{room}/{name}/{size}")) for run in programs.RUNS)
    cells = {place: [f"{costs[name]:,}" for name in programs.NAMES] for place, costs in counts.items()}
    programs.print_costs("Instructions", room, cells, counts)
    programs.print_growth("Instructions of a byte", room, SIZES, counts)


main()
