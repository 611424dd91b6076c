#!/usr/bin/env python3
"""Runs the examples that have a bench, and compares what they print with the file beside each.

    examples.py ROOT

ROOT is the top of the repository, whose script `myhdl` runs `sim` on each `examples/NAME.py` beside
which `examples/NAME.out` stands. Ends with status 0 where nothing differs.
"""
import os
import subprocess
import sys


def main():
    if len(sys.argv) != 2:
        sys.exit(__doc__)
    root = os.path.abspath(sys.argv[1])
    folder = os.path.join(root, "examples")
    names = sorted(name[: -len(".out")] for name in os.listdir(folder) if name.endswith(".out"))
    wrong = 0
    for name in names:
        source, wanted = os.path.join(folder, f"{name}.py"), os.path.join(folder, f"{name}.out")
        with open(wanted, encoding="ascii") as file:
            printed = file.read()
        ran = subprocess.run(
            [os.path.join(root, "myhdl"), "sim", source], capture_output=True, text=True, timeout=60 * 60 * 6
        )
        if ran.returncode != 0 or ran.stdout != printed:
            print(f"{name}: status {ran.returncode}, printed {ran.stdout!r}, complained {ran.stderr!r}")
            wrong += 1
    print(f"{len(names)} examples, {wrong} differ")
    sys.exit(1 if wrong or not names else 0)


main()
