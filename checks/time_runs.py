#!/usr/bin/env python3
"""Times runs of a free-running counter of 8 bits and of a pipeline of 100 stages.

    time_runs.py ROOT

ROOT is the top of the repository, whose script `myhdl` runs `sim` on the two sources, each up to a
time, and up to twice and four times that. Prints the seconds of each run and how many evaluations of
generators were done a second. Ends with status 1 where four times the simulated time takes more than
six times the seconds.
"""
import os
import subprocess
import sys
import tempfile
import time

COUNTER = """from myhdl import *

@block
def bench():
    clock = Signal(bool(0))
    count = Signal(modbv(0)[8:])

    @always(delay(5))
    def tick():
        clock.next = not clock

    @always(clock.posedge)
    def step():
        count.next = count + 1

    return tick, step

b = bench()
b.run_sim({limit})
"""
PIPELINE = """from myhdl import *

@block
def stage(q, d, clock):
    @always(clock.posedge)
    def go():
        q.next = d
    return go

@block
def bench():
    clock = Signal(bool(0))
    s = [Signal(intbv(0)[8:]) for i in range(101)]

    @always(delay(5))
    def tick():
        clock.next = not clock

    @always(clock.negedge)
    def feed():
        s[0].next = (s[0] + 1) & 255

    all = [tick, feed]
    for i in range(100):
        all.append(stage(s[i + 1], s[i], clock))
    return all

b = bench()
b.run_sim({limit})
"""
# the source, the first limit, and how many evaluations there are in 10 units of time
RUNS = [("counter", COUNTER, 4_000_000, 3), ("pipeline", PIPELINE, 200_000, 103)]


def main():
    if len(sys.argv) != 2:
        sys.exit(__doc__)
    program = os.path.join(os.path.abspath(sys.argv[1]), "myhdl")
    wrong = 0
    with tempfile.TemporaryDirectory() as folder:
        file = os.path.join(folder, "bench.py")

        def seconds(source, limit):
            with open(file, "w", encoding="ascii") as out:
                out.write(source.format(limit=limit))
            began = time.monotonic()
            ran = subprocess.run([program, "sim", file], capture_output=True, text=True)
            if ran.returncode != 0 or ran.stdout:
                sys.exit(f"status {ran.returncode}: {ran.stdout}{ran.stderr}")
            return time.monotonic() - began

        for name, source, limit, evaluations in RUNS:
            seconds(source, 10)
            took = [seconds(source, limit * turns) for turns in (1, 2, 4)]
            rate = 4 * limit // 10 * evaluations / took[2]
            print(f"{name}: up to {limit}, {2 * limit}, {4 * limit}: {', '.join(f'{it:.2f} s' for it in took)}; {rate:,.0f} evaluations a second")
            wrong += took[2] > 6 * took[0]
    sys.exit(1 if wrong else 0)


main()
