#!/usr/bin/env python3
"""Turns the edits (must-fail/, mutants/) as the kit's port/port.py and respell.py turned the sources: once, after respell.py, at the top of the repository.

    respell_edits.py [--list]

First BY_HAND: what no rule turns. Then in old: and new: lines for files of specs/ and proofs/: a word that the crate no longer has, but has in snake case, with _lem or as a type,
is turned; x .f is x.f and f x .g is (f x).g, a prime is '. In breaks: lines a lemma has its name of today. Lines for src/ stay.
Then (--list: only that) prints the words of new: lines that neither the crate's files nor the old text beside them have: by hand.
"""
import glob
import os
import re
import sys

WORD = r"[A-Za-z_\u03bc\u2080-\u2089][\w'\u2080-\u2089-]*"
TOKEN = re.compile(r"\s+|\"[^\"]*\"|[()\[\]{}]|(?:(?<=[\s(])|^)\." + WORD + r"|(?:" + WORD + r"(?:\.(?=[A-Za-z_]))?)+|\d+|[^\s()\[\]{}\w]+|.")
MINUS = ("use Prim.Native.Nat.{\u2115, zero, suc, _+_}\nnew: use Prim.Native.Nat.{\u2115, zero, suc, _+_, _-_}", "use Rattle.std.specs.Prelude.{\nnew: use Rattle.std.specs.Prelude.{\u25cc-\u25cc,")
DROP = "old: use Rattle.std.specs.Prelude.{\nnew: use Rattle.std.specs.Prelude.{drop,\n"
BY_HAND = {
    "forms/mutants/frame_date_of_the_year": [("m d \u2192 decode", "m d \u2192 (decode")],
    "lindenscoop/mutants/version_1_refused": [("getD", "get_or")],
    "racks/mutants/looked_at_all_rows_but_the_last": [MINUS],
    "racks/mutants/row_joined_is_the_newest_of_the_table": [MINUS],
    "racks/mutants/row_opened_over_the_newest": [MINUS],
    "stream/mutants/listener_forgets_a_kept_byte": [("old: =", DROP + "old: ="), ("lib.ListN.drop", "drop")],
    "listener/mutants/demand_3_state_a_byte_behind": [("old: state", DROP + "old: state"), ("lib.ListN.drop", "drop")],
}
BREAKERS = {"in", "let", "use", "with", "pub", "abbrev"}


def snake(name):
    name = re.sub(r"([a-z0-9'])([A-Z])", lambda m: m.group(1) + "_" + m.group(2).lower(), name)
    return name.replace("-", "_")


def camel(name):
    return "".join(part[:1].upper() + part[1:] for part in re.split(r"[-_]", name))


def words_of(paths):
    """Each word of the files, but for comments."""
    out = set()
    for path in paths:
        for line in open(path, encoding="utf-8"):
            out |= set(re.findall(WORD, re.split(r"(?:^|\s)(?:--|//)(?:\s|$)", line)[0]))
    return out


def today(word, known):
    for name in (word, snake(word), re.sub(r"(over)(\d)", r"\1_\2", snake(word)), snake(word) + "_lem", camel(word)):
        if name in known:
            return name
    return word


def lemma(name, crate, known):
    """F.x-y -> F.x_y, or F.x_y_lem where the file has that."""
    file, dot, name = name.rpartition(".")
    here = words_of(glob.glob("%s/proofs/**/%s.antt" % (crate, file), recursive=True)) if dot else known
    return file + dot + (snake(name) + "_lem" if snake(name) + "_lem" in here else today(name, known))


def tight(text):
    """x .f -> x.f, f x .g -> (f x).g, and (x.f) without its parentheses; the text may be a piece of an expression."""
    rows = [["", []]]                               # for each open bracket: the bracket, and [text, is it a projection] with the spaces between

    def spine(row):
        """Where the application before the end of the row begins."""
        at = len(row)
        while at and (row[at - 1][0].isspace() or re.match(r"[\w\"(\[{\u2080-\u2089\U0001d4d0-\U0001d503]", row[at - 1][0])) and row[at - 1][0] not in BREAKERS:
            at -= 1
        while at < len(row) and row[at][0].isspace():
            at += 1
        return at

    for token in TOKEN.findall(text):
        row = rows[-1][1]
        if token in "([{":
            rows.append([token, []])
        elif token in ")]}" and len(rows) > 1:
            opened, inside = rows.pop()
            whole = "".join(t for t, _ in inside)
            bare = opened == "(" and len(inside) == 1 and inside[0][1]
            rows[-1][1].append([whole if bare else opened + whole + token, bool(bare)])
        elif re.match(r"\.[A-Za-z_]", token):
            at = spine(row)
            head = "".join(t for t, _ in row[at:]).strip()
            many = len([t for t, _ in row[at:] if not t.isspace()]) > 1
            row[at:] = [[("(" + head + ")" if many else head) + token, True]]
        else:
            row.append([token, False])
    return "".join(opened + "".join(t for t, _ in row) for opened, row in rows)


def turn(text, known):
    text = tight(text.replace("\u2032", "'"))
    return re.sub(r"(?<![\w'])" + WORD, lambda m: today(m.group(), known), text)


def main(argv):
    count, kept = 0, {}
    for path in sorted(glob.glob("crates/*/must-fail/*.edit") + glob.glob("crates/*/mutants/*.edit")):
        crate = path.split("/m")[0]
        if crate not in kept:
            antt = [p for p in glob.glob(crate + "/**/*.antt", recursive=True) if "/out/" not in p]
            kept[crate] = words_of(antt), words_of(antt + glob.glob(crate + "/src/**/*.rt", recursive=True))
        known, all_known = kept[crate]
        before = open(path, encoding="utf-8").read()
        text = before
        for a, b in BY_HAND.get(path[len("crates/"):-len(".edit")], []):
            text = text if b in text else text.replace(a, b)
        lines, source, old = text.split("\n"), False, ""
        for i, line in enumerate(lines):
            m = re.match(r"(breaks|old|new): (.*)", line)
            if line.startswith("file: "):
                source = line.startswith("file: src/")
            elif m and m.group(1) == "breaks" and "::" not in line:
                lines[i] = "breaks: " + lemma(m.group(2), crate, known)
            elif m and m.group(1) != "breaks" and not source:
                lines[i] = m.group(1) + ": " + turn(m.group(2), known)
            if m and m.group(1) == "old":
                old = lines[i]
            if m and m.group(1) == "new":
                strange = [w for w in re.findall(r"(?<![\w'\"])" + WORD, lines[i][5:]) if w not in all_known and w not in re.findall(WORD, old)]
                if strange:
                    print("by hand? " + path + ": " + ", ".join(strange))
        after = "\n".join(lines)
        if after != before and argv[1:] != ["--list"]:
            count += 1
            with open(path, "w", encoding="utf-8") as f:
                f.write(after)
    print("respell_edits: %d edits turned" % count)


main(sys.argv)
