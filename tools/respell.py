#!/usr/bin/env python3
"""Brings the repository's own definitions and lemmas to the spelling of Rattle kit 13f, once, after the kit's port/port.py.

    respell.py [--list]        at the top of the repository; --list prints the map and writes nothing

isDate -> is_date, day-in -> day_in, dateIs (an alias of a module) -> DateIs, a fact (what answers a Type) -> UpperCamel; the proof of
a function f is f_spec. A lemma that would fall together with a definition, with a name of the kit that the repository brings in or with
another lemma gets _lem, a local the_. Names of src/, strings and comments stay; so do names that Rattle makes. respell_edits.py comes next.
"""
import collections
import glob
import os
import re
import sys

WORD = r"[A-Za-z_\u03bc\u2080-\u2089][\w'\u2080-\u2089-]*"
OWN = {os.path.basename(c) for c in glob.glob("crates/*")}
STRING = re.compile(r'"(?:\\.|[^"\\])*"')
TOKEN = re.compile(r'"(?:\\.|[^"\\])*"|(?<![\w\'\u2080-\u2089\u25cc-])' + WORD)
HEAD = re.compile(r"\s*((?:abbrev |unfoldable |pub |record |data )*)(" + WORD + r")(?: \{[^}]*\})*\s*(?:\([^)]*\)\s*)*:(?!:)(.*)")
FIELDS = re.compile(r"\s+((?:pub )?" + WORD + r"(?: " + WORD + r")+) : [A-Z]")
HUMP = r"[a-z0-9][A-Z]"
CLAUSE = r"ghost |requires|ensures|\{ .*\u2261|\u2192|\u03bb|\u2194|\u00d7|\u2264|^\s*use "


def files(*patterns):
    return sorted({p for pattern in patterns for p in glob.glob(pattern, recursive=True) if "/out/" not in p})


ANTT = files("crates/*/specs/**/*.antt", "crates/*/proofs/**/*.antt")
RT = files("crates/*/src/**/*.rt")
EDITS = files("crates/*/must-fail/*.edit", "crates/*/mutants/*.edit")


def read(path):
    with open(path, encoding="utf-8") as f:
        return f.read()


FUNCTIONS = {m for p in RT for m in re.findall(r"\bfn (\w+)", read(p))}


def bare(line):
    """The line without its comment; strings blanked."""
    line = STRING.sub(lambda m: '"' + " " * (len(m.group()) - 2) + '"', line)
    return re.split(r"(?:^|\s)--(?:\s|$)", line)[0]


def snake(name):
    name = re.sub(r"([a-z0-9'])([A-Z])", lambda m: m.group(1) + "_" + m.group(2).lower(), name)
    name = re.sub(r"(over)(\d)", r"\1_\2", name)
    return name.replace("-", "_").lower() if re.match(r"[a-z_]", name) else name


def camel(name):
    return "".join(part[:1].upper() + part[1:] for part in re.split(r"[-_]", name))


def kit_names():
    """Names that use lines bring in from outside the repository's crates."""
    out = set()
    for path in ANTT + RT:
        for m in re.finditer(r"use ([\w.\u00b7]+?)\.\{([^}]*)\}", read(path)):
            root = m.group(1).split(".")
            if root[0] == "Rattle" and len(root) > 1 and root[1] in OWN:
                continue
            for item in m.group(2).split(","):
                out.update(part.strip() for part in item.split(" as ")[:2])
    return out


def note_heads(line, in_specs, kinds):
    """What the line declares: a definition, a fact, a lemma, an alias of a module, or the fields of a record."""
    for m in re.finditer(r"use [\w.]+ as (" + WORD + ")", line):
        kinds[m.group(1)].add("alias")
    m = HEAD.match(line)
    if m:
        words, name, rest = m.groups()
        fact = "record" not in words and re.search(r"Type 0\s*$", rest) and not re.match(r".*\{A : Type", rest)
        kinds[name].add("fact" if fact else "def" if in_specs or "abbrev" in words else "lemma")
    m = FIELDS.match(line)
    if m and not re.search(r"\b(abbrev|unfoldable|record|let|use)\b", line):
        for name in m.group(1).replace("pub ", "").split():
            kinds[name].add("def")


def note_locals(line, kinds):
    """The names that the line binds: by let, by a lambda, or as the arguments of a clause."""
    for m in re.finditer(r"\blet (" + WORD + r")\b", line):
        kinds[m.group(1)].add("local")
    for m in re.finditer(r"\u03bb ([^.]*)\.", line):
        for w in re.findall(WORD, m.group(1)):
            kinds[w].add("local")
    m = re.match(r"\s*(" + WORD + r")((?: [^=]+)?) =", line)
    if m:
        for w in [m.group(1)] + re.findall(WORD, m.group(2)):
            kinds[w].add("local")


def declared():
    """name -> kinds: def, fact, lemma, alias, local."""
    kinds = collections.defaultdict(set)
    for path in ANTT:
        for line in map(bare, read(path).split("\n")):
            note_heads(line, "/specs/" in path, kinds)
            note_locals(line, kinds)
    return kinds


def names():
    """old name -> new name, for each that changes."""
    kinds, kit = declared(), kit_names()
    turned, wanted = {}, {}                         # wanted: new name -> the definition that has it
    own = [n for n in kinds if n not in kit and not n.startswith("returns-") and re.match(r"[a-z_]", n)]

    def is_definition(name):
        return bool(kinds[name] & {"def", "fact", "alias"}) or bool(re.search(HUMP, name)) and not kinds[name] <= {"local"}

    def named(name):
        if "alias" in kinds[name] and re.search(r"[a-z][A-Z]", name) or "fact" in kinds[name]:
            return camel(name)
        if name.endswith("-spec") and name[:-5].replace("-", "_") in FUNCTIONS:
            return name.replace("-", "_")
        return snake(name)

    for name in sorted(filter(is_definition, own)):
        new = named(name)
        taken = new in kit or wanted.get(new, name) != name
        if taken and "-" in name:
            turned[name] = new + "_lem"
            continue
        if taken and new not in kit and "-" in wanted[new]:
            turned[wanted[new]] = new + "_lem"
        elif taken:
            print("by hand:", name, "->", new, "is taken by", wanted.get(new, "the kit"))
        turned[name] = new
        wanted[new] = name
    for name in sorted(n for n in own if not is_definition(n)):
        new = named(name)
        if new in wanted or new in kit:
            new = "the_" + new if kinds[name] <= {"local"} else new + "_lem"
        turned[name] = new
    return {a: b for a, b in turned.items() if a != b}


class Respelling:
    """The map, over a line of .antt text, over a line of .rt text, and over an edit."""

    def __init__(self, turned):
        self.turned = turned
        odd = sorted((a for a in turned if re.search(HUMP + "|-", a)), key=len, reverse=True)
        self.odd = re.compile(r"(?<![\w.])(" + "|".join(map(re.escape, odd)) + r")(?![\w'-])")

    def line(self, text, walks=False):
        def one(m):
            word = m.group()
            if word.startswith('"'):
                return word
            # c.is-date.ensures: a name that Rattle makes of a function's
            if walks and text[m.start() - 1:m.start()] == "." and re.sub(r"-?\d*$", "", word).replace("-", "_") in FUNCTIONS:
                return word.replace("-", "_")
            return self.turned.get(word, word)
        return TOKEN.sub(one, text)

    def antt(self, path, old):
        new = []
        for raw in old.split("\n"):
            m = re.search(r"(?:^|\s)--(?:\s|$)", STRING.sub(lambda s: "_" * len(s.group()), raw))
            code, rest = (raw[:m.start()], raw[m.start():]) if m else (raw, "")
            new.append(self.line(code, path.endswith("/Proof.antt")) + rest)
        return "\n".join(new)

    def clause(self, raw):
        return raw if re.match(r"\s*//", raw) or not is_ghost(raw) else self.odd.sub(lambda m: self.turned[m.group(1)], raw)

    def rt(self, _path, old):
        return "\n".join(map(self.clause, old.split("\n")))

    def edit(self, _path, old):
        new, turn = [], self.line
        for raw in old.split("\n"):
            m = re.match(r"(old|new): (.*)", raw)
            if raw.startswith("file: "):
                turn = self.clause if raw.startswith("file: src/") else self.line
            new.append(m.group(1) + ": " + turn(m.group(2)) if m else raw)
        return "\n".join(new)


def is_ghost(raw):
    """A line of a .rt file that has clause text."""
    return bool(re.search(CLAUSE, raw)) or bool(re.match(r"\s+[({]?[a-z]\w* .*[)}]$", raw))


def main(argv):
    turned = names()
    falls = collections.defaultdict(list)
    for a, b in turned.items():
        falls[b].append(a)
    for b, olds in sorted(falls.items()):
        if len(olds) > 1:
            print("fall together:", b, "<-", ", ".join(olds))
    if argv[1:] == ["--list"]:
        for a, b in sorted(turned.items()):
            print(a, b)
        return
    respelling, count = Respelling(turned), 0
    for paths, turn in ((ANTT, respelling.antt), (RT, respelling.rt), (EDITS, respelling.edit)):
        for path in paths:
            old = read(path)
            new = turn(path, old)
            if new != old:
                count += 1
                with open(path, "w", encoding="utf-8") as f:
                    f.write(new)
    print("respell: %d names, %d files" % (len(turned), count))


main(sys.argv)
