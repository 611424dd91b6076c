#!/usr/bin/env python3
"""Times how the program reads a source: its tokens and its tree, and the execution of its definitions.

    time_reading.py ROOT

ROOT is the top of the repository. Sources of ordinary text of about 100 KiB and 1 MiB are given to the
program that the script `myhdl` has built, with `convert`, which reads the whole source and then refuses
it, since it asks for no conversion. Prints the best of five times of each, the start of the program on
an empty source taken off. Ends with status 1 where the greater takes more than two seconds, or more
than twice as long for each byte as the smaller.
"""
import os
import subprocess
import sys
import tempfile
import time

BLOCK = """
@block
def counter_{n}(count, enable, clock, reset):
    # counts up while enabled, and wraps
    @always_seq(clock.posedge, reset=reset)
    def step():
        if enable and not (count == {n} or count[3:] > 0x{n:x}):
            count.next = (count + 1) % 256
        elif count < len(count) - 1:
            count.next[4:2] = concat(enable, count[0] ^ reset)
        else:
            print("stopped at", int(count), 'in {n}')
    return step
"""


def source_of(size):
    text = "from myhdl import *\n"
    n = 0
    while len(text) + len(BLOCK) + 20 < size:
        text += BLOCK.format(n=n)
        n += 1
    return text.encode()


def best_time(program, folder, source):
    path = os.path.join(folder, "source.py")
    with open(path, "wb") as file:
        file.write(source)
    best = None
    for _turn in range(5):
        start = time.perf_counter()
        ended = subprocess.run([program, "convert", path, "--verilog", os.path.join(folder, "out.v")], capture_output=True)
        taken = time.perf_counter() - start
        if (ended.returncode, ended.stderr) != (1, b"error C1 NoTop line 0\n"):
            sys.exit(f"the program ended with {ended.returncode}: {ended.stderr!r}")
        best = taken if best is None else min(best, taken)
    return best


def main():
    if len(sys.argv) != 2:
        sys.exit(__doc__)
    root = os.path.abspath(sys.argv[1])
    subprocess.run([os.path.join(root, "myhdl")], capture_output=True)
    program = os.path.join(root, ".built", "myhdl")
    rates = []
    with tempfile.TemporaryDirectory() as folder:
        start = best_time(program, folder, b"")
        for size in (100 << 10, 1 << 20):
            source = source_of(size)
            taken = max(best_time(program, folder, source) - start, 1e-6)
            rates.append(taken / len(source))
            print(f"{len(source)} bytes: {taken * 1000:.0f} ms, {taken / len(source) * 1e9:.0f} ns a byte")
    if taken > 2 or rates[1] > 2 * rates[0]:
        sys.exit(1)


if __name__ == "__main__":
    main()
