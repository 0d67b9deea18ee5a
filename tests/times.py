#!/usr/bin/env python3
"""Nanoseconds a call, of Sailgarnet and of the reference, on the inputs of the benchmark.

Where its code lies changes the time of a short call, on either side. So the benchmark is built with its code at four places, and the mean
of the four counts. Each is run several times, and of these the fastest counts: other programs only add time.
"""

import os
import shutil
import subprocess
import sys
import tempfile

BUILD = "cargo build --quiet --offline --manifest-path host/Cargo.toml --release -p sailgarnet --example benchmark"
BUILT = "host/target/release/examples/benchmark"
SHIFTS = (0, 16, 32, 48)
RUNS = 3
HEAD = f"""Nanoseconds a call: the mean of {len(SHIFTS)} programs, whose code lies {SHIFTS[1]} bytes apart; of each the fastest round
of {RUNS} runs. A round is 64 calls, each with buffers of its own. Both sides take turns in one run. All buffers are in the
cache; what is written to is reset before each round, outside the time.
"""


def output(command, **more):
    done = subprocess.run(command, capture_output=True, text=True, **more)
    if done.returncode != 0:
        sys.exit(done.stderr)
    return done.stdout


def programs(folder):
    """The benchmark with its code moved by each of the shifts."""
    for shift in SHIFTS:
        output(BUILD.split(), env={**os.environ, "SAILGARNET_SHIFT": str(shift)})
        yield shutil.copy(BUILT, os.path.join(folder, str(shift)))


def times(program):
    """Function, input and answer of each row, with its two times."""
    lines = [line.split("|") for line in output([program, "times"]).splitlines()]
    if not lines or any(len(line) != 5 for line in lines):
        sys.exit(f"these are no rows: {lines}")
    return {tuple(line[:3]): [float(x) for x in line[3:]] for line in lines}


def fastest(runs):
    return {row: [min(run[row][side] for run in runs) for side in range(2)] for row in runs[0]}


def main():
    os.chdir(os.path.join(os.path.dirname(__file__), ".."))
    with tempfile.TemporaryDirectory() as folder:
        built = list(programs(folder))
        runs = [[times(program) for program in built] for _ in range(RUNS)]
    places = [fastest(of_place) for of_place in zip(*runs)]
    print(HEAD)
    print("| function | input | answer | Sailgarnet ns | reference ns | ratio |")
    print("|---|---|---|---|---|---|")
    for row in places[0]:
        library, reference = (sum(place[row][side] for place in places) / len(places) for side in range(2))
        print(f"| {' | '.join(row)} | {library:.0f} | {reference:.0f} | {library / reference:.2f} |")


main()
