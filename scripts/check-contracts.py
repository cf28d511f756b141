#!/usr/bin/env python3
"""Checks that every function which another crate or C can reach has a contract that promises something and asks nothing of its caller.

What an impl of a library's trait promises are its ghost members. A trait of the repository may ask something where no other crate can call its
methods: outside of its own crate the trait stands only in `use` and in the impls of types that are private to theirs, and inside it has no impl.
"""
import glob
import os
import re
import sys

sys.dont_write_bytecode = True
sys.path.insert(0, os.path.dirname(os.path.abspath(__file__)))
from mutants.sources import Crate

ROOT = os.path.dirname(os.path.dirname(os.path.abspath(__file__)))


ASKS, PROMISES, LAWS = (re.compile(rf"(?m)^\s*{word}") for word in (r"requires\b", r"ensures\b", r"ghost \w+ ="))
TRAIT = re.compile(r"(?ms)^pub trait (\w+).*?^}")
METHOD = re.compile(r"(?ms)^    fn (\w+)[^;{]*(?:\{[^{}]*\}[^;{]*)*;")


def openings_of(trait, text):
    """The lines by which a file of another crate opens the trait's methods to still others, or calls them where it may not."""
    private = set(re.findall(r"(?m)^(?:struct|enum) (\w+)", text))
    for line in re.findall(rf"(?m)^.*\b{trait}\b.*$", re.sub(r"(?m)//.*$", "", text)):
        served = re.fullmatch(rf"impl {trait} for (\w+) {{", line)
        if not re.fullmatch(r"use [\w:]+;", line) and not (served and served.group(1) in private):
            yield line.strip()


def methods_of(crate, text, own, others):
    """What is wrong with the methods that the traits of a file ask for, and how many they are."""
    wrong, count = [], 0
    for trait in TRAIT.finditer(text):
        methods = list(METHOD.finditer(trait.group(0)))
        count += len(methods)
        wrong += [f"{crate}::{m.group(1)} promises nothing" for m in methods if not PROMISES.search(m.group(0))]
        if any(ASKS.search(m.group(0)) for m in methods):
            name = trait.group(1)
            opened = [(path, line) for path, other in others for line in openings_of(name, other)]
            opened += [(path, line) for path, other in own for line in re.findall(rf"(?m)^(?:impl\b.*\b{name} for|pub trait \w+.*:.*\b{name}\b).*$", other)]
            wrong += [f"{crate}::{name} asks something, and {path} opens it: {line}" for path, line in opened]
    return wrong, count


def main():
    wrong, public, methods = [], 0, 0
    sources = [(os.path.relpath(p, ROOT), open(p, encoding="utf-8").read()) for p in sorted(glob.glob(f"{ROOT}/crates/*/src/**/*.rt", recursive=True))]
    for folder in sorted(glob.glob(f"{ROOT}/crates/*/src/lib.rt")):
        crate = Crate(ROOT, folder.split("/")[-3])
        for path in glob.glob(f"{crate.folder}/src/**/*.rt", recursive=True):
            text = open(path, encoding="utf-8").read()
            own = [(p, t) for p, t in sources if p.startswith(f"crates/{crate.name}/")]
            faults, found = methods_of(crate.name, text, own, [s for s in sources if s not in own])
            wrong, methods = wrong + faults, methods + found
            for function in crate.functions_of(os.path.relpath(path, crate.folder), text):
                if not function.public:
                    continue
                public += 1
                contract, laws = text[function.header : function.start], text[function.block : function.header] if function.served else ""
                if ASKS.search(contract):
                    wrong.append(f"{function.name} asks something of its caller")
                if not PROMISES.search(contract) and not LAWS.search(laws):
                    wrong.append(f"{function.name} promises nothing")
    for line in wrong:
        print("contracts:", line)
    print(f"contracts: {public} public functions, {methods} methods of traits, {len(wrong)} wrong")
    return 1 if wrong or not public else 0


if __name__ == "__main__":
    sys.exit(main())
