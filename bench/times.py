#!/usr/bin/env python3
"""Measures the times of judge, settle and clasp on the inputs, and prints tables.

Usage: times.py FOLDER TIMES

FOLDER holds the inputs, and each run goes TIMES times over each, the runs by turns. Times are those from the start of a process
to its end, and those that the processor spent on it, for itself and in the system.
"""
import os
import random
import statistics
import sys
import time

import programs

SIZES = ("1", "2", "4", "8")

# The environment of each run. To hand on that of this script takes a tenth of a millisecond, for the script and not for the run.
NO_VARIABLES = {}


def run_once(run, folder, output):
    """The wall time and the processor's time of one run, in milliseconds, and what it printed to the file `output`."""
    os.chdir(f"{folder}/{run.folder}")
    os.ftruncate(output, 0)
    os.lseek(output, 0, os.SEEK_SET)
    begin = time.perf_counter_ns()
    child = os.posix_spawn(
        run.command[0], run.command, NO_VARIABLES, file_actions=[(os.POSIX_SPAWN_DUP2, output, 1)]
    )
    _, _, usage = os.wait4(child, 0)
    wall = (time.perf_counter_ns() - begin) / 1e6
    printed = os.pread(output, os.fstat(output).st_size, 0).decode()
    return wall, (usage.ru_utime + usage.ru_stime) * 1e3, printed


def measure(room, times):
    """For each input and size and for each run the wall times and the processor's times. All take turns, so that what else the
    machine does falls on all, and each time in another order, since a run is slower after one that needs more memory. A first
    turn is not counted."""
    # in memory, so that no disk is waited for
    output = os.memfd_create("output")
    places = programs.places_in(room, SIZES)
    measured = {place: [[] for _ in programs.RUNS] for place in places}
    for turn in range(times + 1):
        for place, order in zip(places, orders_of_runs(len(places), turn)):
            folder = "/".join([room, *place])
            for at in order:
                *costs, printed = run_once(programs.RUNS[at], folder, output)
                programs.check_answer(programs.RUNS[at], folder, printed)
                if turn > 0:
                    measured[place][at].append(costs)
    return measured


def orders_of_runs(many, turn):
    """As many orders of the runs, others in each turn."""
    draw = random.Random(turn)
    return [draw.sample(range(len(programs.RUNS)), len(programs.RUNS)) for _ in range(many)]


def picked(measured, pick, at):
    """For each input and size what `pick` makes of the wall times or the processor's times of the runs."""
    return {
        place: programs.least((run, pick([cost[at] for cost in costs])) for run, costs in zip(programs.RUNS, runs))
        for place, runs in measured.items()
    }


def main():
    room, times = os.path.realpath(sys.argv[1]), int(sys.argv[2])
    measured = measure(room, times)
    for at, what in enumerate(("Wall time", "Processor time")):
        medians, minima = picked(measured, statistics.median, at), picked(measured, min, at)
        cells = {
            place: [f"{medians[place][name]:.2f} ({minima[place][name]:.2f})" for name in programs.NAMES]
            for place in measured
        }
        programs.print_costs(f"{what} in ms, median of {times} (minimum)", room, cells, medians)
        nanoseconds = {place: {name: cost * 1e6 for name, cost in costs.items()} for place, costs in minima.items()}
        programs.print_growth(f"{what} of a byte in ns, by the minima", room, SIZES, nanoseconds)


main()
