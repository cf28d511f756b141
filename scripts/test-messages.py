#!/usr/bin/env python3
"""The texts of the refusals: those of the C header and of the Rust crate must be those of README.md, "What a refusal means".

    scripts/test-messages.py                compare them
    scripts/test-messages.py --self-check   plant a difference in each row of the table, and want it noticed in both

Needs a C compiler, cargo and `scripts/build lindenscoop_c`. Change a text in README.md, in lindenscoop_message of
bindings/c/include/lindenscoop.h and in bindings/rust/src/refusal.rs together.
"""
import os
import pathlib
import re
import subprocess
import sys
import tempfile

ROOT = pathlib.Path(__file__).resolve().parent.parent
ROW = re.compile(r"\| (\d+) \| `(\w+)` \| (.*) \|")


def table():
    """The rows of README.md: number, name and meaning."""
    section = (ROOT / "README.md").read_text(encoding="utf-8").split("## What a refusal means\n")[1].split("\n## ")[0]
    rows = [ROW.fullmatch(line) for line in section.split("\n")]
    return [(int(row[1]), row[2], row[3]) for row in rows if row]


def c_messages():
    """Number and text of each answer that has one, as the header says them."""
    with tempfile.TemporaryDirectory() as folder:
        program = os.path.join(folder, "messages")
        source, include = ROOT / "bindings/c/tests/messages.c", ROOT / "bindings/c/include"
        library = ROOT / "target/staticlib/liblindenscoop.a"
        subprocess.run([os.environ.get("CC", "cc"), "-std=c99", f"-I{include}", source, library, "-o", program], check=True)
        lines = subprocess.run([program], check=True, capture_output=True, text=True).stdout.splitlines()
    return {int(number): text for number, text in (line.split("\t") for line in lines)}


def rust_messages():
    """Name and text of each refusal, as the Rust crate prints them."""
    command = ["cargo", "run", "--quiet", "--offline", "-p", "lindenscoop", "--example", "refusals"]
    lines = subprocess.run(command, check=True, capture_output=True, text=True, cwd=ROOT).stdout.splitlines()
    return dict(line.split("\t") for line in lines)


def expected_c(rows):
    """The answers that are no refusal have texts of their own."""
    return {0: "no refusal", 100: "a record was handed out", **{number: meaning for number, _, meaning in rows}}


def expected_rust(rows):
    return {name: f"refused with {number}: {meaning}" for number, name, meaning in rows}


def differences(expected, found):
    return [f"{key}: README.md has {expected.get(key)!r}, the code {found.get(key)!r}"
            for key in sorted(expected.keys() | found.keys(), key=str) if expected.get(key) != found.get(key)]


def all_differences(rows, c, rust):
    return [f"C: {line}" for line in differences(expected_c(rows), c)], [f"Rust: {line}" for line in differences(expected_rust(rows), rust)]


def planted(rows):
    """The table with one row changed: its text, its number, or left out."""
    for i, (number, name, meaning) in enumerate(rows):
        for row in ([(number, name, meaning[:-1])], [(number + 1000, name, meaning)], []):
            yield rows[:i] + row + rows[i + 1 :]


def main(words):
    if words not in ([], ["--self-check"]):
        sys.exit(__doc__)
    rows, c, rust = table(), c_messages(), rust_messages()
    if not rows:
        sys.exit("messages: README.md has no table under \"What a refusal means\"")
    if words:
        faults = list(planted(rows))
        missed = sum(not all(all_differences(fault, c, rust)) for fault in faults)
        if missed:
            sys.exit(f"messages: {missed} of {len(faults)} planted differences were not noticed in both C and Rust")
        print(f"messages: {len(faults)} planted differences noticed in C and in Rust")
        return
    wrong = sum(all_differences(rows, c, rust), [])
    if wrong:
        sys.exit("messages: make these texts the same:\n  " + "\n  ".join(wrong))
    print(f"messages: the {len(rows)} texts of README.md are those of the C header and of the Rust crate")


if __name__ == "__main__":
    main(sys.argv[1:])
