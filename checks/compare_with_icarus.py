#!/usr/bin/env python3
"""Compares `binary` of mh_bits with Icarus Verilog on random operands.

    compare_with_icarus.py ROOT [ROWS] [SEED]

ROOT is the top of the repository. In a copy of mh_bits and what it stands on, the rows of the test
`binary_operators` are replaced by ROWS random ones (300 unless given) with the results of Icarus
Verilog, and the tests are run there without a proof (`rt try --test`). Nothing is done where
`iverilog` is not installed. Left out, since Icarus 11 answers them wrongly or never: divisions wider
than 64 bits, and shifts by more than 1,000.
"""
import os
import random
import re
import shutil
import subprocess
import sys
import tempfile

OPERATORS = {
    "Add": "+", "Sub": "-", "Mul": "*", "Div": "/", "Rem": "%", "And": "&", "Or": "|", "Xor": "^",
    "Shl": "<<", "Shr": ">>", "Sar": ">>>", "Eq": "==", "Ne": "!=", "Lt": "<", "Le": "<=",
    "Gt": ">", "Ge": ">=",
}
SHIFTS = {"Shl", "Shr", "Sar"}
COMPARISONS = {"Eq", "Ne", "Lt", "Le", "Gt", "Ge"}
WIDTHS = [1, 2, 3, 7, 8, 31, 32, 33, 63, 64, 65, 100, 127, 128]


def digits(width, number):
    return format(number % (1 << width), "0{}b".format(width))


def operand(width):
    kind = random.randrange(3)
    if kind == 0:
        share = random.choice([0, 0, 0, 0.05, 0.5])
        return "".join("x" if random.random() < share else random.choice("01") for _ in range(width))
    if kind == 1:
        top = 1 << (width - 1)
        return digits(width, random.choice([0, 1, 2, 3, -1, -2, top, top - 1]))
    return digits(width, random.getrandbits(random.randint(1, width)))


def case():
    op = random.choice(list(OPERATORS))
    width = random.choice([w for w in WIDTHS if w <= 64 or op not in ("Div", "Rem")])
    a = operand(width)
    if op not in SHIFTS:
        return op, random.random() < 0.5, a, operand(width)
    amount = operand(random.choice([width, 8, 1, 128]))
    if "x" not in amount and int(amount, 2) > 1000:
        amount = digits(len(amount), int(amount, 2) % 200)
    return op, random.random() < 0.5, a, amount


def answers(cases, folder):
    lines, body = ["module compare;"], []
    for i, (op, signed, a, b) in enumerate(cases):
        sign = " signed" if signed else ""
        width = 1 if op in COMPARISONS else len(a)
        lines.append("reg%s [%d:0] a%d; reg%s [%d:0] b%d; reg [%d:0] r%d;"
                     % (sign, len(a) - 1, i, sign, len(b) - 1, i, width - 1, i))
        body.append("a%d = %d'b%s; b%d = %d'b%s; r%d = a%d %s b%d; $display(\"%%b\", r%d);"
                    % (i, len(a), a, i, len(b), b, i, i, OPERATORS[op], i, i))
    source = os.path.join(folder, "compare.v")
    with open(source, "w") as file:
        file.write("\n".join(lines + ["initial begin"] + body + ["end", "endmodule", ""]))
    program = os.path.join(folder, "compare.vvp")
    subprocess.check_call(["iverilog", "-g2005", "-o", program, source])
    return subprocess.check_output(["vvp", "-n", program], text=True, timeout=60).split()


def main():
    root = os.path.abspath(sys.argv[1])
    count = int(sys.argv[2]) if len(sys.argv) > 2 else 300
    random.seed(int(sys.argv[3]) if len(sys.argv) > 3 else 1)
    if shutil.which("iverilog") is None:
        print("compare_with_icarus: skipped, since iverilog is not installed")
        return 0
    with tempfile.TemporaryDirectory() as folder:
        for name in ("mh_codes", "mh_bits"):
            shutil.copytree(os.path.join(root, "crates", name), os.path.join(folder, "crates", name),
                            ignore=shutil.ignore_patterns("out"))
        with open(os.path.join(folder, "crates.txt"), "w") as file:
            file.write("mh_codes:\nmh_bits: mh_codes\n")
        cases = [case() for _ in range(count)]
        rows = ['    (BinOp::%s, %s, %d, "%s", "%s", "%s"),' % (op, str(s).lower(), len(a), a, b, r)
                for (op, s, a, b), r in zip(cases, answers(cases, folder))]
        path = os.path.join(folder, "crates", "mh_bits", "src", "tests.rt")
        with open(path) as file:
            text = file.read()
        table = "const BINARY: [(BinOp, bool, u8, &str, &str, &str); %d] = [\n%s\n];\n" % (count, "\n".join(rows))
        text, found = re.subn(r"const BINARY: .*?\n\];\n", lambda _: table, text, flags=re.S)
        assert found == 1, "the table of binary_operators was not found"
        with open(path, "w") as file:
            file.write(text)
        return subprocess.call(["rt", "try", "--test"], cwd=os.path.join(folder, "crates", "mh_bits"))


if __name__ == "__main__":
    sys.exit(main())
