#!/usr/bin/env python3
"""Proves and builds the libraries below a crate by `rt lib`, as many at a time as there are processors.

Usage: libraries.py CRATE

Each begins once those that it uses are there. `rt lib` alone builds them one after the other.
"""
import concurrent.futures
import os
import subprocess
import sys

ROOT = os.path.dirname(os.path.dirname(os.path.realpath(__file__)))
PROCESSORS = len(os.sched_getaffinity(0))


def uses_of_crates():
    """For each crate of crates.txt the crates that it uses, without those of the toolchain."""
    uses = {}
    with open(f"{ROOT}/crates.txt", encoding="ascii") as file:
        for line in file:
            crate, _, used = line.partition("#")[0].partition(":")
            if crate.strip():
                uses[crate.split()[0]] = used.split()
    return {crate: [name for name in used if name in uses] for crate, used in uses.items()}


def below(crate, uses):
    """The crates that a crate uses, and those that they use."""
    return set(uses[crate]).union(*(below(name, uses) for name in uses[crate]))


def build(crate):
    """Builds one library, whose own libraries are there; whether it could."""
    return subprocess.run(["rt", "lib"], cwd=f"{ROOT}/crates/{crate}", capture_output=True, check=False).returncode == 0


def main():
    uses = uses_of_crates()
    left = below(sys.argv[1], uses)
    built, running = set(), {}
    with concurrent.futures.ThreadPoolExecutor(PROCESSORS) as pool:
        while left or running:
            ready = {crate for crate in left if built.issuperset(uses[crate])}
            left -= ready
            running.update({pool.submit(build, crate): crate for crate in ready})
            done, _ = concurrent.futures.wait(running, return_when=concurrent.futures.FIRST_COMPLETED)
            for one in done:
                crate = running.pop(one)
                if not one.result():
                    raise SystemExit(f"{crate}: `rt lib` fails")
                built.add(crate)


main()
