#!/usr/bin/env python3
"""Checks docs/PROMISES.md.

    scripts/check-promises.py                every `name` in `file` is declared there, and every statement has its proof
    scripts/check-promises.py --self-check   shows that a wrong name, a wrong file and a statement without a proof are noticed

A declaration is, in a .antt file, a line that declares the name (a definition, theorem, data type, record or a field of one);
in a .rt file, a function, enum, struct, trait, type or constant of that name.

A statement is a record of a specs folder, or a field of one, that no contract cites: nothing but a proof makes it true. A row of the page that
names one must name a proof in the same row: a declaration of a proofs folder whose type speaks of that record, or of one that has it in a field.
"""
import functools
import glob
import os
import re
import sys

ROOT = os.path.dirname(os.path.dirname(os.path.abspath(__file__)))
ENTRY = re.compile(r"`([^`]+)` in `([^`]+)`")


@functools.lru_cache(maxsize=None)
def text_of(path):
    return open(os.path.join(ROOT, path), encoding="utf-8").read()


def declares(path, name):
    word = re.escape(name)
    if path.endswith(".rt"):
        return re.search(rf"(?m)^\s*(pub(\(crate\))? )?(const|enum|struct|trait|type|fn|extern \"C\" fn) {word}\b", text_of(path))
    return re.search(
        rf"(?m)^\s*((abbrev|unfoldable) )?(pub )?(data |record )?{word}(?= | \(|$)(?=.*[:]|\s*$|\s*\()", text_of(path)
    )


@functools.lru_cache(maxsize=None)
def contracts():
    files = glob.glob(os.path.join(ROOT, "crates", "*", "src", "**", "*.rt"), recursive=True)
    return "\n".join(open(f, encoding="utf-8").read() for f in files)


def mentions(text, name):
    return re.search(rf"(?<![\w·'-]){re.escape(name)}(?![\w·'-])", text)


def records_of(path):
    """The records of a specs file: name, and the text of its fields."""
    return re.findall(r"(?m)^pub record (\S+)[^\n]*\n((?:(?:[ \t]+[^\n]*)?\n?(?=[ \t]|\n[ \t]))*(?:[ \t]+[^\n]*\n?)*)", text_of(path))


def statement_of(path, name):
    """The record without a contract that the name is, or is a field of; None for anything else."""
    if "/specs/" not in path:
        return None
    for record, fields in records_of(path):
        is_field = re.search(rf"(?m)^\s+pub {re.escape(name)}(?= )", fields)
        if (record == name or is_field) and not mentions(contracts(), record):
            return record
    return None


@functools.lru_cache(maxsize=None)
def holders(record):
    """The record, and those of all specs that have it in a field."""
    found = {record}
    for path in glob.glob(os.path.join(ROOT, "crates", "*", "specs", "**", "*.antt"), recursive=True):
        for name, fields in records_of(os.path.relpath(path, ROOT)):
            if mentions(fields, record):
                found.add(name)
    return found


def proves(path, name, record):
    """The declaration's type speaks of the record or of one that has it in a field."""
    if "/proofs/" not in path:
        return False
    signature = re.search(rf"(?m)^\s*pub {re.escape(name)} :((?:.*\n)(?:\s+→.*\n|\s{{6,}}.*\n)*)", text_of(path))
    return bool(signature) and any(mentions(signature.group(1), r) for r in holders(record))


def wrongs_of(page):
    wrong = []
    for line in page.split("\n"):
        entries = ENTRY.findall(line)
        for name, path in entries:
            if not os.path.exists(os.path.join(ROOT, path)):
                wrong.append(f"{name}: no file {path}")
            elif not declares(path, name):
                wrong.append(f"{name}: not declared in {path}")
            else:
                record = statement_of(path, name)
                if record and not any(os.path.exists(os.path.join(ROOT, p)) and proves(p, n, record) for n, p in entries):
                    wrong.append(f"{name} in {path}: a statement, and its row names no proof of {record}")
    return wrong


def self_check(page):
    """Each fault planted into the page must be noticed."""
    faults = [
        ("`Demand3` in `crates/listener/specs/Demand3.antt`", "`Demand4` in `crates/listener/specs/Demand3.antt`"),
        ("`demand_3` in `crates/listener/proofs/Demand3.antt`", "`demand_3` in `crates/listener/proofs/Demand4.antt`"),
        ("`demand_3` in `crates/listener/proofs/Demand3.antt`", "the listener's proof"),
        ("`demand_2` in `crates/forms/proofs/Demand2.antt`", "`bench` in `crates/forms/proofs/Bench.antt`"),
    ]
    missed = [old for old, new in faults if old not in page or not wrongs_of(page.replace(old, new))]
    for old in missed:
        print("promises: a fault in place of", old, "was not noticed")
    print(f"promises: {len(faults) - len(missed)} planted faults noticed, {len(missed)} not")
    return 1 if missed else 0


def main():
    page = open(os.path.join(ROOT, "docs", "PROMISES.md"), encoding="utf-8").read()
    if "--self-check" in sys.argv[1:]:
        return self_check(page)
    wrong = wrongs_of(page)
    for line in wrong:
        print("promises:", line)
    entries = ENTRY.findall(page)
    statements = sum(1 for name, path in entries if os.path.exists(os.path.join(ROOT, path)) and statement_of(path, name))
    print(f"promises: {len(entries)} names, {statements} of them statements with a proof, {len(wrong)} wrong")
    return 1 if wrong or not entries else 0


if __name__ == "__main__":
    sys.exit(main())
