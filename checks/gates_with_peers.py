#!/usr/bin/env python3
"""Gives the Verilog text of each form of gate to other tools, and compares values with Icarus Verilog.

    gates_with_peers.py ROOT

ROOT is the top of the repository, whose script `myhdl` converts `examples/and.py` with each of the
expressions in the place of its own. Each text must be taken by Icarus Verilog, Verilator and Yosys,
and for all values of the ports Icarus must give the output that Python gives the expression. A tool
that is not installed is skipped and named. Ends with status 0 where nothing differs.
"""
import itertools
import os
import shutil
import subprocess
import sys
import tempfile

EXPRESSIONS = ["a & b", "a", "not a", "a | b", "a ^ b", "b & a", "b ^ b"]
ASSIGNMENT = "y.next = "
BENCH = """module bench;
reg a, b;
wire y;
gate gate(y, a, b);
initial begin
{turns}
end
endmodule
"""
TURN = '    a = {a}; b = {b}; #1 $display("%b", y);'
LINTERS = {
    "verilator": ["verilator", "--lint-only", "-Wall", "-Wno-UNUSED", "gate.v"],
    "yosys": ["yosys", "-q", "-p", "read_verilog gate.v; hierarchy -check -top gate; proc; check -assert"],
}


def main():
    if len(sys.argv) != 2:
        sys.exit(__doc__)
    root = os.path.abspath(sys.argv[1])
    program = os.path.join(root, "myhdl")
    with open(os.path.join(root, "examples", "and.py"), encoding="ascii") as file:
        before, after = file.read().split(ASSIGNMENT + EXPRESSIONS[0] + "\n")
    tools = [tool for tool in ["iverilog", *LINTERS] if shutil.which(tool)]
    for tool in sorted({"iverilog", *LINTERS} - set(tools)):
        print(f"{tool} is not installed: skipped")
    wrong = 0
    with tempfile.TemporaryDirectory() as folder:

        def run(*words):
            return subprocess.run(words, cwd=folder, capture_output=True, text=True, timeout=900)

        for expression in EXPRESSIONS:
            with open(os.path.join(folder, "gate.py"), "w", encoding="ascii") as file:
                file.write(before + ASSIGNMENT + expression + "\n" + after)
            converted = run(program, "convert", "gate.py", "--verilog", "gate.v")
            if converted.returncode != 0:
                sys.exit(f"{expression}: status {converted.returncode}: {converted.stderr}")
            for tool in tools:
                if tool in LINTERS:
                    taken = run(*LINTERS[tool])
                    if taken.returncode != 0:
                        wrong += 1
                        print(f"{expression}: {tool} refuses the text: {taken.stdout}{taken.stderr}")
            if "iverilog" not in tools:
                continue
            rows = list(itertools.product([0, 1], repeat=2))
            turns = "\n".join(TURN.format(a=a, b=b) for a, b in rows)
            with open(os.path.join(folder, "bench.v"), "w", encoding="ascii") as file:
                file.write(BENCH.format(turns=turns))
            compiled = run("iverilog", "-g2005", "-Wall", "-o", "bench", "gate.v", "bench.v")
            values = run("vvp", "-n", "bench").stdout.split() if compiled.returncode == 0 else []
            wanted = [str(int(eval(expression, {"a": a, "b": b}))) for a, b in rows]
            if values != wanted:
                wrong += 1
                print(f"{expression}: Icarus gives {values}, MyHDL {wanted}: {compiled.stderr}")
    print(f"{len(EXPRESSIONS)} texts given to {', '.join(tools) or 'no tool'}: {wrong} differences")
    sys.exit(1 if wrong else 0)


if __name__ == "__main__":
    main()
