#!/usr/bin/env python3
"""Compares runs of random sources with what Python prints for them.

    runs_with_python.py ROOT [COUNT [SEED]]

ROOT is the top of the repository, whose script `myhdl` runs `sim` on COUNT sources (200), made from SEED (1) and the
numbers that follow. Python executes each source too, over the small model of MyHDL in the folder `model` beside this
file. What is printed, the error line of a fault, and the status have to be the same. Prints each source that differs,
and how many ended with each status. Ends with status 0 where nothing differs.
"""
import collections
import os
import subprocess
import sys
import tempfile

import random_sources

FOLDER = os.path.dirname(os.path.abspath(__file__))
# Run by a Python of its own, since the model keeps all signals.
MODEL = """
import runpy, sys
sys.path.insert(0, sys.argv[2])
import myhdl
runpy.run_path(sys.argv[1])
fault = myhdl.run(sys.argv[1])
if fault:
    print("error " + fault, file=sys.stderr)
    sys.exit(7 if fault.startswith("X7") else 2)
"""


def ran(words):
    done = subprocess.run(words, capture_output=True, text=True, timeout=60 * 60 * 6)
    return done.returncode, done.stdout, done.stderr


def first_difference(one, other):
    for number, (a, b) in enumerate(zip(one.split("\n"), other.split("\n")), 1):
        if a != b:
            return f"printed line {number} is {a!r}, by Python {b!r}"
    return "one prints more than the other"


def main():
    if not 2 <= len(sys.argv) <= 4:
        sys.exit(__doc__)
    program = os.path.join(os.path.abspath(sys.argv[1]), "myhdl")
    count, seed = (int(word) for word in (sys.argv[2:] + ["200", "1"][len(sys.argv) - 2:]))
    # The script builds the program, which then runs by itself.
    status, _, complained = ran([program, "sim", os.devnull])
    if status == 70:
        sys.exit(complained)
    program = os.path.join(os.path.dirname(program), ".built", "myhdl")
    wrong, ends = 0, collections.Counter()
    with tempfile.TemporaryDirectory() as folder:
        path = os.path.join(folder, "bench.py")
        for number in range(seed, seed + count):
            with open(path, "w", encoding="ascii") as file:
                file.write(random_sources.source(number))
            status, printed, complained = ran([program, "sim", path])
            wanted = ran([sys.executable, "-c", MODEL, path, os.path.join(FOLDER, "model")])
            ends[status] += 1
            if (status, printed, complained) != wanted:
                wrong += 1
                print(f"{number}: status {status}, complained {complained!r}; by Python {wanted[0]}, {wanted[2][-200:]!r}")
                if printed != wanted[1]:
                    print("   ", first_difference(printed, wanted[1]))
    print(f"{count} sources, {wrong} differ; statuses {dict(sorted(ends.items()))}")
    sys.exit(1 if wrong else 0)


main()
