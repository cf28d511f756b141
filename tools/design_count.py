#!/usr/bin/env python3
"""The second way of counting for docs/DESIGN-PASS.md: reads crates/*/src as functions and types, where the page's commands read lines.

    tools/design_count.py            a line for each point
    tools/design_count.py 2          the places of one point
"""
import collections
import glob
import re
import sys

# Words that stand for themselves in the skeleton of a body; every other word is a name.
KEYWORDS = set("let mut if else match while loop for in return break continue as fn self true false ref move".split())


def plain(text):
    """The text without comments, and with empty strings and bytes."""
    text = re.sub(r"//[^\n]*", "", text)
    text = re.sub(r'b?"(?:\\.|[^"\\])*"', '""', text, flags=re.S)
    return re.sub(r"b?'(?:\\.|[^'\\])'", "0", text)


def closing(text, at, pair):
    """The place behind the bracket that closes the one at `at`."""
    depth = 0
    for i in range(at, len(text)):
        depth += {pair[0]: 1, pair[1]: -1}.get(text[i], 0)
        if depth == 0:
            return i + 1
    raise ValueError(text[at : at + 40])


def mark_behind(text, at):
    """The place of the next `{` or `;` that no bracket holds."""
    depth = 0
    while depth or text[at] not in "{;":
        depth += {"(": 1, "[": 1, ")": -1, "]": -1}.get(text[at], 0)
        at += 1
    return at


def split(text, mark):
    """The parts of a list, split where no bracket is open."""
    parts, depth, part = [], 0, ""
    for c in text:
        depth += {"(": 1, "[": 1, "{": 1, ")": -1, "]": -1, "}": -1}.get(c, 0)
        if c == mark and depth == 0:
            parts.append(part)
            part = ""
        else:
            part += c
    return [p.strip() for p in parts + [part] if p.strip()]


Function = collections.namedtuple("Function", "file name params requires ensures body")
Function.__hash__ = lambda f: hash((f.file, f.name, f.body))
Type = collections.namedtuple("Type", "file kind name derives members")


def functions(file, text):
    for m in re.finditer(r"\bfn (\w+)(?:<[^>]*>)?\(", text):
        end = closing(text, m.end() - 1, "()")
        params = [tuple(p.split(":", 1)) if ":" in p else (p, p) for p in split(text[m.end() : end - 1], ",")]
        clauses = {"requires": [], "ensures": []}
        at = end
        while True:
            mark = mark_behind(text, at)
            word = re.search(r"\b(requires|ensures)\b", text[at:mark])
            if text[mark] == ";" or not word:
                break
            at = closing(text, mark, "{}")
            clauses[word.group(1)].append(" ".join(text[mark + 1 : at - 1].split()))
        body = "{}" if text[mark] == ";" else text[mark : closing(text, mark, "{}")]
        yield Function(file, m.group(1), [(a.strip(), b.strip()) for a, b in params], clauses["requires"], clauses["ensures"], body)


def types(file, text):
    for m in re.finditer(r"((?:#\[[^\]]*\]\s*)*)(?:pub(?:\([^)]*\))? )?(enum|struct) (\w+)\s*\{", text):
        end = closing(text, m.end() - 1, "{}")
        derives = re.findall(r"\w+", " ".join(re.findall(r"derive\(([^)]*)\)", m.group(1))))
        yield Type(file, m.group(2), m.group(3), derives, split(text[m.end() : end - 1], ","))


FUNCTIONS, TYPES = [], []
for path in sorted(glob.glob("crates/*/src/**/*.rt", recursive=True)):
    source = plain(open(path, encoding="utf-8").read())
    short = path.removeprefix("crates/")
    FUNCTIONS += functions(short, source)
    TYPES += types(short, source)


def skeleton(body):
    words = re.findall(r"\w+|[^\w\s]", body)
    return " ".join(w if w in KEYWORDS else "0" if w[0].isdigit() else "n" if w[0].isalpha() or w[0] == "_" else w for w in words if w != ",")


def place(item, more=""):
    return f"{item.file}: {item.name}{more}"


def point_1():
    refusals = {m for t in TYPES if t.name == "Refusal" for m in t.members}
    for t in TYPES:
        if t.kind == "enum" and t.name != "Refusal":
            units = [m for m in t.members if m.isidentifier()]
            if any(re.search(r"\bRefusal\b", m) for m in t.members) or refusals & set(t.members):
                yield "shape of Result", place(t)
            elif {"Absent", "Unknown"} <= set(units):
                yield "number for a kind", place(t)
            elif "Absent" in units or 0 < len(units) < len(t.members):
                yield "shape of Option", place(t)
        for m in t.members if t.kind == "struct" else []:
            if re.search(r": bool$", m):
                yield "flag beside a value", place(t, "." + m.split(":")[0].removeprefix("pub "))
    # a number that some function matches against numbers, and each parameter that is handed on to such a one
    known = set()
    for f in FUNCTIONS:
        for k, (name, kind) in enumerate(f.params):
            if name != "w" and kind in ("u32", "usize") and re.search(rf"\bmatch {name} \{{\s*\d|\b{name} == [1-9]", f.body):
                known.add((f.name, k, name, f.file))
    grown = True
    while grown:
        grown = False
        for f in FUNCTIONS:
            for k, (name, kind) in enumerate(f.params):
                if kind != "u32" and kind != "usize" or (f.name, k, name, f.file) in known:
                    continue
                for callee, j, _, _ in list(known):
                    for call in re.finditer(rf"\b{callee}\(", f.body):
                        args = split(f.body[call.end() : closing(f.body, call.end() - 1, "()") - 1], ",")
                        if name in args and args.index(name) == j:
                            known.add((f.name, k, name, f.file))
                            grown = True
    for function, _, name, file in sorted(known, key=lambda x: (x[3], x[0])):
        yield "number for a kind", f"{file}: {function}({name})"


def point_2():
    groups = collections.defaultdict(list)
    for f in FUNCTIONS:
        shape = skeleton(f.body)
        if 10 <= len(shape.split()):
            groups[shape, len(f.params)].append(f)
    for group in groups.values():
        if 1 < len(group):
            for f in group:
                yield "body that differs in names and numbers alone", place(f, f"   ({len(group)} alike)")


def loops(f):
    for m in re.finditer(r"\b(while\b[^{]*|loop\s*)\{", f.body):
        yield m.group(1).strip(), f.body[m.end() : closing(f.body, m.end() - 1, "{}")]


def point_3():
    for f in FUNCTIONS:
        for head, body in loops(f):
            steps = [s for s in re.findall(r"\b(\w+) [+-]= 1;", body) if re.search(rf"\b{s}\b", head)]
            yield "by an index" if steps else "otherwise", place(f, f"   {head}")


def point_4():
    for f in FUNCTIONS:
        inside = f.body.strip()[1:-1].strip()
        one = re.match(r"match [\w.]+ \{", inside)
        if one and closing(inside, one.end() - 1, "{}") == len(inside):
            arms = split(inside[one.end() : -1].replace("=> {}", "=> ()"), ",")
            if all(re.search(r"=> (-?\w+|\w+::\w+|\w+(::\w+)?\(\w*\))(\.\w+\(\))?$", " ".join(a.split())) for a in arms):
                yield "cases to values, or back, by hand", place(f)
        for name in re.findall(r"\blet (\w+) = [\w.]+\.\1;", f.body):
            yield "copy of a field before its use", place(f, f".{name}")
        pairs = re.findall(r"\b(\w+)\.(\w+) == (\w+)\.\2\b", f.body)
        if 1 < len(pairs):
            yield "equality of fields by hand", place(f)
    for t in TYPES:
        if "PartialEq" not in t.derives:
            yield "type without a derive of equality", place(t)


def point_5():
    facts, travel = collections.defaultdict(list), collections.defaultdict(list)
    for f in FUNCTIONS:
        for clause in f.requires:
            for part in re.split(r" × ", clause):
                facts[re.sub(r"[()]", "", part).strip()].append(f)
        names = sorted({n for n, _ in f.params} - {"self", "r", "s", "out", "n", "x", "w"})
        for i, a in enumerate(names):
            for b in names[i + 1 :]:
                travel[a, b].append(f)
    for fact, where in facts.items():
        for f in where if 3 <= len(where) else []:
            yield "fact in three contracts or more", place(f, f"   {fact}")
    alone = collections.Counter(n for f in FUNCTIONS for n, _ in f.params)
    together = collections.defaultdict(set)
    for (a, b), where in travel.items():
        if 3 <= len(where) and 3 * min(alone[a], alone[b]) <= 4 * len(where):
            for f in where:
                together[f].update((a, b))
    for f, names in together.items():
        yield "parameters that travel together", place(f, f"   {', '.join(n for n, _ in f.params if n in names)}")
    for f in FUNCTIONS:
        for k in range(len(f.params) - 1):
            if f.params[k][0] in ("s", "out") and f.params[k + 1][0] == "at":
                yield "a slice and a place", place(f)


def point_6():
    for f in FUNCTIONS:
        for made in re.findall(r"\[0(?:u8|u32)?; \w+\]", f.body):
            yield "array filled with zeros", place(f, f"   {made}")
        lent = [n for n, t in f.params if re.match(r"&(mut )?\[|\[", t)]
        beside = [n for n, t in f.params if t in ("usize", "u32") and re.fullmatch(r"at|from|start|end|got|carried|used|kept|k", n)]
        if lent and beside and beside != ["at"]:
            yield "slice with a place or a length beside it", place(f, f"   {', '.join(lent + beside)}")
    for t in TYPES:
        names = [m.split(":")[0].removeprefix("pub ") for m in t.members]
        if any(re.fullmatch(r"\w+1", n) and n[:-1] + "0" in names for n in names):
            yield "parallel fields", place(t)
        if any(re.search(r": \[", m) for m in t.members) and any(re.search(r": usize$", m) for m in t.members):
            yield "array with places beside it", place(t)


def point_7():
    for f in FUNCTIONS:
        for m in re.finditer(r"\bmatch ([^{]+) \{\s*\d", f.body):
            arms = f.body[f.body.index("{", m.start()) : closing(f.body, f.body.index("{", m.start()), "{}")]
            kind = "that runs a step" if re.search(r"=>\s*(\{\s*)?(return )?[\w:]+\([^)]*\b(s|out|input)\b", arms) else "that gives a value"
            yield f"switch on a number {kind}", place(f, f"   match {m.group(1)}")


def point_8():
    for path in sorted(glob.glob("crates/*/proofs/**/*.antt", recursive=True)):
        text = open(path, encoding="utf-8").read()
        short = path.removeprefix("crates/")
        for m in re.finditer(r"^(abbrev )?(pub )?([^\s:(]+) :(?: |$)", text, flags=re.M):
            kind = "answer" if re.match(r"\s*goal\.(?!invariant|decreases)", text[m.end() :]) else "invariant or measure" if text[m.end() :].startswith("goal.") else "lemma"
            yield kind, f"{short}: {m.group(3)}"


def main():
    chosen = [int(a) for a in sys.argv[1:]] or range(1, 9)
    for n in chosen:
        found = list(globals()[f"point_{n}"]())
        if len(sys.argv) > 1:
            for what, where in found:
                print(f"{what}\t{where}")
        else:
            print(n, len(found), "; ".join(f"{what} {k}" for what, k in collections.Counter(what for what, _ in found).items()))


main()
