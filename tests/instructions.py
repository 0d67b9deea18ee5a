#!/usr/bin/env python3
"""Instructions a call, of Sailgarnet and of the reference, on the inputs of the benchmark, whose program is the operand.

callgrind counts only inside the benchmark's function `counted`, which makes one call, and writes a file after each. The
benchmark makes every call twice, and the second one counts.
"""

import glob
import re
import shutil
import subprocess
import sys
import tempfile

COUNTED = "benchmark::counted"


def rows_and_calls(program):
    """The rows' names, and the instructions of every call in their order."""
    with tempfile.TemporaryDirectory() as folder:
        options = [f"--callgrind-out-file={folder}/calls", f"--toggle-collect={COUNTED}", f"--dump-after={COUNTED}"]
        run = subprocess.run(["valgrind", "--tool=callgrind", *options, program, "instructions"], capture_output=True, text=True)
        if run.returncode != 0:
            sys.exit(run.stderr)
        files = sorted(glob.glob(f"{folder}/calls.*"), key=lambda name: int(name.rsplit(".", 1)[1]))
        return run.stdout.splitlines(), [total(name) for name in files]


def total(name):
    with open(name, encoding="utf-8") as file:
        return int(re.search(r"^totals: (\d+)$", file.read(), re.MULTILINE)[1])


def main():
    if not shutil.which("valgrind"):
        sys.exit("valgrind is needed to count instructions")
    rows, calls = rows_and_calls(sys.argv[1])
    # each row has four: the library twice, the reference twice
    if not rows or len(calls) != 4 * len(rows) or 0 in calls:
        sys.exit(f"{len(rows)} rows, but these calls: {calls}")
    print("| function | input | answer | Sailgarnet instructions | reference instructions | ratio |")
    print("|---|---|---|---|---|---|")
    for i, row in enumerate(rows):
        library, reference = calls[4 * i + 1], calls[4 * i + 3]
        print(f"| {row.replace('|', ' | ')} | {library} | {reference} | {library / reference:.2f} |")


main()
