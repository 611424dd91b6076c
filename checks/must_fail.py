#!/usr/bin/env python3
"""Tries the wrong bodies that the gate doesn't try: the prover has to refuse each.

    must_fail.py [--texts] [CRATE ..]

They are the edits `must-fail/CRATE/NAME.edit` beside this file, for all crates or those that are named. In a copy of the
crates and of what they stand on, they are put into the folders `must-fail/` and tried by `rt must-fail`. Before that, each
text that an edit replaces has to stand exactly once in its file, in the edits of the gate too; `--texts` does no more
than that. Prints what each came to, and ends with status 0 where all were refused.
"""
import os
import re
import shutil
import subprocess
import sys
import tempfile

FOLDER = os.path.dirname(os.path.abspath(__file__))
ROOT = os.path.dirname(FOLDER)
EDITS = os.path.join(FOLDER, "must-fail")
VERDICT = re.compile(r"rt: must-fail (\S+)\.edit: (.*)")


def lines_of_crates():
    """The line of each crate in crates.txt."""
    with open(os.path.join(ROOT, "crates.txt"), encoding="ascii") as file:
        lines = [line.split("#")[0].strip() for line in file]
    return {line.split(":")[0].split()[0]: line for line in lines if ":" in line}


def with_those_below(names, lines):
    found, left = set(), list(names)
    while left:
        name = left.pop()
        if name in lines and name not in found:
            found.add(name)
            left += lines[name].split(":")[1].split()
    return sorted(found)


def edits_in(folder):
    return sorted(name for name in os.listdir(folder) if name.endswith(".edit")) if os.path.isdir(folder) else []


def texts_missed(crate, path):
    """The texts that an edit replaces and that don't stand exactly once in its file."""
    missed, text, old = [], "", ""
    with open(path, encoding="utf-8") as file:
        for line in file.read().splitlines():
            word, _, rest = line.partition(": ")
            if word == "file":
                with open(os.path.join(ROOT, "crates", crate, rest), encoding="utf-8") as changed:
                    text = changed.read()
            elif word == "old":
                old = rest
                missed += [] if text.count(old) == 1 else [old]
            elif word == "new":
                text = text.replace(old, rest)
    return missed


def texts_are_met(crates):
    """Whether each text that an edit of these crates replaces stands once, in the edits of the gate too."""
    count = wrong = 0
    for crate in crates:
        for folder in (os.path.join(ROOT, "crates", crate, "must-fail"), os.path.join(EDITS, crate)):
            for name in edits_in(folder):
                count += 1
                path = os.path.join(folder, name)
                for old in texts_missed(crate, path):
                    wrong += 1
                    print(f"{os.path.relpath(path, ROOT)}: not exactly once in its file: {old}")
    print(f"{count} edits, {wrong} texts missed")
    return wrong == 0


def refused(crates, lines):
    """Tries the edits of these crates in a copy. Answers how many were refused, and prints the others."""
    count = 0
    with tempfile.TemporaryDirectory() as copy:
        needed = with_those_below(crates, lines)
        with open(os.path.join(copy, "crates.txt"), "w", encoding="ascii") as file:
            file.writelines(f"{lines[crate]}\n" for crate in needed)
        shutil.copy(os.path.join(ROOT, "HANDLES"), copy)
        for crate in needed:
            target = os.path.join(copy, "crates", crate)
            shutil.copytree(os.path.join(ROOT, "crates", crate), target, ignore=shutil.ignore_patterns("out", "must-fail"))
            if crate in crates:
                shutil.copytree(os.path.join(EDITS, crate), os.path.join(target, "must-fail"))
        trying = subprocess.Popen(["rt", "must-fail", *crates], cwd=copy, stdout=subprocess.PIPE, stderr=subprocess.STDOUT, text=True)
        for line in trying.stdout:
            told = VERDICT.match(line)
            if told and told[2].startswith("refused"):
                count += 1
                print(f"{told[1]}: refused", flush=True)
            else:
                print(line, end="", flush=True)
        trying.wait()
    return count


def main():
    words = sys.argv[1:]
    names, lines = [word for word in words if word != "--texts"], lines_of_crates()
    unknown = [name for name in names if name not in lines]
    if unknown:
        sys.exit(f"no such crate: {', '.join(unknown)}\n{__doc__}")
    chosen = names or sorted(lines)
    if not texts_are_met(chosen):
        sys.exit(1)
    if "--texts" in words:
        return
    crates = [name for name in chosen if edits_in(os.path.join(EDITS, name))]
    count = sum(len(edits_in(os.path.join(EDITS, name))) for name in crates)
    wrong = count - refused(crates, lines) if crates else 0
    print(f"{count} edits, {wrong} of them not refused or not tried")
    sys.exit(1 if wrong else 0)


main()
