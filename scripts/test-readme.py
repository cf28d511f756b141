#!/usr/bin/env python3
"""What README.md shows must be so: its strings are read, its commands are run, its sizes are measured.

    scripts/test-readme.py PROGRAM                try them, with PROGRAM as the command lindenscoop
    scripts/test-readme.py PROGRAM --self-check   plant faults in copies of the text, and want each noticed

Needs a C compiler, binutils, `scripts/build lindenscoop_c` and `scripts/build heard`. The last line is 'N passed, M failed'.
"""
import functools
import importlib
import importlib.util
import os
import pathlib
import re
import subprocess
import sys
import tempfile
import traceback

ROOT = pathlib.Path(__file__).resolve().parent.parent
MARKS = {"<SOH>": b"\x01", "<STX>": b"\x02", "<ETX>": b"\x03", "<LF>": b"\n", "<CR>": b"\r"}
# the forms that search and listener take, and by their names those that the program heard takes, 1 to 7
SERIAL = {1, 2, 3, 4, 5, 6, 7, 10, 12}
HEARD = "standard capture erlangen spa racal sysplex computime".split()
# shown by a digit for each byte
FRAMES = 8, 11
LEFT_OUT = "[..]"
KINDS = "Three kinds of fraction, two of position"
# kinds of a fraction, by their digits
DIGITS = {"hundredths": 2, "thousandths": 3, "ten-millionths": 7}


def section(text, heading):
    return text.split(f"\n## {heading}\n")[1].split("\n## ")[0]


def fenced(text, language):
    return re.findall(rf"(?ms)^```{language}\n(.*?)^```$", text)


def rows(text):
    return [[cell.strip() for cell in line.strip("|").split("|")] for line in text.splitlines() if line.startswith("| ")]


def decoded(text):
    """The bytes of a string whose control bytes are marks."""
    parts = re.split("(%s)" % "|".join(MARKS), text)
    return b"".join(MARKS.get(part, part.encode()) for part in parts)


def read_again(form, data):
    """The number of a refusal, or the bytes of the record that was read, written again."""
    try:
        return ls.write(form, ls.read(form, data))
    except ls.Refused as refused:
        return refused.number


def carried(form, data):
    """What a string carries beside time, in the words of the table."""
    record = ls.read(form, data)
    words = {name for name in ("channel", "sync", "fix", "utc", "summer", "change", "leap", "offset", "dsp", "lsp") if getattr(record, name) is not None}
    words |= {kind for kind, digits in DIGITS.items() if record.fraction and len(str(record.fraction)) == 2 + digits}
    words |= {"position in minutes" if isinstance(record.position, ls.PositionInMinutes) else "position"} if record.position else set()
    return words | {"full date" if isinstance(record.date, ls.Date) else "day of year"}


def block_of(record):
    """The block of a record, or the number of the refusal."""
    try:
        return ls.write(9, record)
    except ls.Refused as refused:
        return refused.number


def fraction(value, digits):
    return ls.Hundredths(value) if digits == 2 else ls.Fraction(value, digits)


def edges(kind, numbers):
    """The last position that a kind has, then positions beyond it."""
    if kind == "position in minutes":
        latitude, longitude = numbers[-2:]
        places = (latitude, longitude), (latitude + 1, 0), (0, longitude + 1), (-latitude - 1, 0), (0, -longitude - 1)
        return (ls.Record(position=ls.PositionInMinutes(*place)) for place in places)
    latitude, longitude, altitude = numbers[0] * 10000, numbers[1] * 10000, numbers[-1]
    places = (latitude, longitude, altitude), (latitude + 1, 0, 0), (0, longitude + 1, 0), (0, 0, altitude + 1)
    return (ls.Record(position=ls.Position(*place)) for place in places)


@functools.lru_cache(maxsize=None)
def printed(command):
    """What a command of the README prints."""
    words = command.split()
    if words[0] == "scripts/heard":
        # what the script runs; scripts/test-first-command.py tries the script
        form = int(words[1]) if words[1].isdigit() else HEARD.index(words[1]) + 1
        given, words = b"%d\n" % form + (ROOT / words[2]).read_bytes(), [ROOT / "target/bin/heard"]
    else:
        given, words[0] = b"", program if words[0] == "lindenscoop" else words[0]
    return subprocess.run(words, input=given, capture_output=True, check=True, cwd=ROOT, timeout=20).stdout.decode()


@functools.lru_cache(maxsize=None)
def measured():
    """Code and constants, and for each function the stack at most and the stack touched."""
    path = ROOT / "scripts/sizes.py"
    sizes = importlib.util.module_from_spec(importlib.util.spec_from_file_location("sizes", path))
    sizes.__spec__.loader.exec_module(sizes)
    return sizes.text_size(), sizes.bounds(), sizes.touched()


def number(text):
    return int(text.replace(",", ""))


class Trial:
    """The tests over one text."""

    def __init__(self, text):
        self.text = text
        self.passed, self.failures = 0, []

    def check(self, holds, what):
        if holds:
            self.passed += 1
        else:
            self.failures.append(what)

    def same(self, found, expected, what):
        self.check(found == expected, f"{what}: {found!r}, expected {expected!r}")

    def test_strings(self):
        forms = section(self.text, "The forms")
        table = {int(row[0]): row for row in rows(forms) if row[0].isdigit()}
        self.same(list(table), [int(form) for form in ls.Form], "the forms of the table")
        for form, row in table.items():
            self.same(row[1], f"`{ls.Form(form).name.lower()}`", f"the name of form {form}")
        lines = fenced(forms, "text")[0].splitlines()
        # the block is shown by what heard prints
        shown = [form for form in table if form != 9]
        self.same([line[:3] for line in lines], [start for form in shown for start in (f"{form:<3}", "   ")], "layouts and strings in turn")
        records = {}
        for form, layout, string in zip(shown, lines[::2], lines[1::2]):
            data = decoded(string[3:])
            if form in FRAMES:
                data = bytes(map(int, string[3:]))
                fixed = [(at, data[at], "0P".index(letter) * 2) for at, letter in enumerate(layout[3:]) if letter in "0P"]
                self.check(all(found == expected for _, found, expected in fixed), f"marks and zeros of the frame: {fixed}")
            self.same(len(data), number(table[form][3]), f"the length of the string of form {form}")
            self.same(len(decoded(layout[3:])), len(data), f"the length of the layout of form {form}")
            self.same(read_again(form, data), data, f"the string of form {form}, read and written again")
            self.same(set(table[form][4].split(", ")), carried(form, data), f"what form {form} carries")
            records[form] = ls.read(form, data)
        self.same([records[form].offset for form in FRAMES], [60, 60], "the frames are in UTC+1")
        self.same(*(records[form] for form in FRAMES), "the frames are of one record")
        self.same(table[9][4], "every field", "what form 9 carries")
        shortest, longest = map(number, table[9][3].split(" to "))
        flags = dict.fromkeys(("sync", "fix", "summer", "change", "leap", "dsp", "lsp"), True)
        full = ls.Record(23, 59, 60, ls.Date(2024, 2, 29), ls.Fraction(1, 7), 1, utc=False, offset=-840, position=ls.Position(1, 1, 1), **flags)
        lengths = [len(ls.write(9, record)) for record in (ls.Record(), full)]
        self.same(lengths, [shortest, longest], "the shortest and the longest block")
        for length in (shortest - 1, longest + 1):
            self.same(read_again(9, b"-" * length), 2, f"a block of {length} bytes")
        for length in (shortest, longest):
            self.same(read_again(9, b"-" * length), 3, f"{length} bytes that are no block")

    def test_kinds(self):
        """The ranges of the kinds and the forms that carry them."""
        table = {row[0]: row[1:] for row in rows(section(self.text, KINDS))}
        forms = {row[0]: row[4].split(", ") for row in rows(section(self.text, "The forms"))}
        named = {**DIGITS, "position in degrees": 0, "position in minutes": 0}
        self.same(list(table)[1:], list(named), "the kinds of the table")
        for kind, digits in named.items():
            word = "position" if kind == "position in degrees" else kind
            self.same([form for form, words in forms.items() if word in words], [table[kind][2]], f"the form that carries {kind}")
            numbers = [number(text) for text in re.findall(r"\d[\d,]*", table[kind][1])]
            records = [ls.Record(fraction=fraction(numbers[-1] + over, digits)) for over in (0, 1)] if digits else list(edges(kind, numbers))
            self.same([read_again(9, block_of(record)) for record in records[:1]], [block_of(records[0])], f"the last of {kind}")
            self.same([block_of(record) for record in records[1:]], [7] * (len(records) - 1), f"beyond the last of {kind}")

    def test_spellings(self):
        """The kinds as the block and CSV spell them."""
        text = section(self.text, KINDS)
        fractions = re.findall(r"`(?:fraction=)?(\d+)`", text)
        positions = re.findall(r"`(?:position=)?([+-]\d[^`]*)`", text)
        self.same([len(spelled) for spelled in fractions], list(DIGITS.values()), "the digits of the fractions")
        empty = block_of(ls.Record()).decode()
        for key, spelled in [("fraction", text) for text in fractions] + [("position", text) for text in positions]:
            block = empty.replace(f"{key}=-", f"{key}={spelled}").encode()
            self.same(read_again(9, block), block, f"{key}={spelled}, read and written again")
        minutes = [ls.read(9, empty.replace("position=-", f"position={spelled}").encode()).position for spelled in positions]
        self.same([type(position) for position in minutes], [ls.Position, ls.PositionInMinutes], "the kinds of the positions")
        self.same(re.findall(r"\((\d+\.\d\d) for the same\)", text), [f"{minutes[1].latitude_hundredths / 100:.2f}"], "the latitude in minutes")

    def test_commands(self):
        blocks = fenced(self.text, "console")
        self.check(blocks, "no command with what it prints")
        for block in blocks:
            _, *parts = re.split(r"(?m)^\$ (.*)\n", block)
            for command, shown in zip(parts[::2], parts[1::2]):
                out = printed(command)
                head, left_out, tail = shown.partition(f"{LEFT_OUT}\n")
                parted = out.startswith(head) and out.endswith(tail) and len(out) > len(head) + len(tail)
                self.check(head and (parted if left_out else out == shown), f"{command} prints something else")
                if command.startswith("scripts/heard"):
                    record = head[: head.index("\n\n") + 1].encode()
                    self.same(read_again(9, record), record, "the block, read and written again")

    def test_sizes(self):
        sizes = rows(section(self.text, "Sizes"))
        figures = {row[0]: row[1:] for row in sizes}
        (code, data, bss), most, touched = measured()
        stated = [number(row[1]) for row in sizes if row[0].startswith("code and constants")]
        self.same(stated, [code], "code and constants")
        self.same(data + bss, 0, "variables of the library")
        names = [name.strip("`") for name in figures["stack, in bytes"]]
        self.same(names, list(most), "the functions whose stack is told")
        self.same([number(cell) for cell in figures["at most"]], list(most.values()), "the stack at most")
        for name, cell, limit in zip(names, figures["touched"], most.values()):
            # the caller's own frame differs a little from compiler to compiler
            near = abs(number(cell) - touched[name]) <= 64
            self.check(near and number(cell) <= limit, f"the stack touched by {name}: {cell}, measured {touched[name]}")
        header = (ROOT / "bindings/c/include/lindenscoop.h").read_text(encoding="utf-8")
        constants = {name: int(value) for name, value in re.findall(r"LINDENSCOOP_(\w+) = (\d+)", header)}
        self.same(number(figures["a record in C"][0]), 4 * constants["RECORD_NUMBERS"], "a record in C")
        self.same(number(figures["a listener in C"][0]), constants["LISTENER_BYTES"], "a listener in C")
        lengths = [number(row[3]) for row in rows(section(self.text, "The forms")) if row[0].isdigit() and int(row[0]) in SERIAL]
        self.same(len(lengths), len(SERIAL), "how many serial forms there are")
        self.same(number(figures["longest string that a listener takes"][0]), max(lengths), "the longest string")
        self.same(number(figures["longest output of a writer"][0]), constants["LONGEST_STRING"], "the longest output")

    def test_vectors(self):
        lines = fenced(section(self.text, "Your own vectors"), "text")[0].splitlines()
        self.check(len(lines) == 2 and all(line.count("\t") == 4 for line in lines), "the lines of vectors")
        form, data, refusal, _, _ = lines[0].split("\t")
        self.same(read_again(int(form), data.replace("\\x0D", "\r").encode()), int(refusal), "the first line of vectors")
        _, _, refusal, data, _ = lines[1].split("\t")
        data = data.replace("\\x0D", "\r").encode()
        self.same((read_again(5, data), refusal), (data, "0"), "the second line of vectors")
        files = [path.read_text(encoding="utf-8") for path in (ROOT / "vectors").glob("*.txt")]
        every = [line for text in files for line in text.splitlines() if line and line[0] != "#"]
        self.same(re.findall(r"([\d,]+) lines (?:of `vectors/`|to begin)", self.text), [f"{len(every):,}"] * 2, "how many vectors there are")

    def test_links(self):
        links = re.findall(r"\]\(([^)]*)\)", self.text)
        self.check(links, "no links")
        for link in links:
            self.check((ROOT / link).exists(), f"there is no {link}")
        for path in re.findall(r"`((?:scripts|docs|vectors|reference|bindings|crates|samples|\.ci)/[\w./-]*)`", self.text):
            self.check((ROOT / path).exists(), f"there is no {path}")

    def run(self):
        for name in dir(self):
            if name.startswith("test_"):
                try:
                    getattr(self, name)()
                except Exception:
                    self.failures.append(f"{name}:\n{traceback.format_exc()}")
        return self


def faults(text):
    """Texts with one fault each, and what it is."""
    def put(old, new, what):
        if text.count(old) < 1:
            raise ValueError(f"no {old!r} in README.md")
        return text.replace(old, new, 1), what
    lines = fenced(section(text, "The forms"), "text")[0].splitlines()
    frames = [string for layout, string in zip(lines[::2], lines[1::2]) if int(layout[:2]) in FRAMES]
    yield put(*frames, "the sign of form 8 is that of form 11")
    for line in lines:
        yield put(line, line[:-1] if line[-1] != ">" else line[: line.rindex("<")], f"the end of {line} is lost")
        if line.startswith("   "):
            yield put(line, line[:10] + "?" + line[11:], f"a byte of {line} is changed")
    for row in section(text, "The forms").splitlines():
        if re.match(r"\| \d", row):
            yield put(row, row.replace(row.split(" | ")[3], "33"), f"the length in {row}")
            yield put(row, row.replace("`", "`x", 1), f"the name in {row}")
            yield put(row, row[: row.rindex(" | ")] + " | full date, day of year |", f"what is carried in {row}")
    for row in section(text, "Sizes").splitlines():
        if re.match(r"\| .*\d", row):
            yield put(row, re.sub(r"(?<=\d)(?= \|$)", "0", row), f"the figure in {row}")
    for row in section(text, KINDS).splitlines():
        if re.match(r"\| .*\d", row):
            yield put(row, re.sub(r"(?<=\d)(?=( m)? \| \d+ \|$)", "0", row), f"the range in {row}")
            yield put(row, re.sub(r"\d+ \|$", "5 |", row), f"the form in {row}")
    for old, new in (("`007`", "`07`"), ("`+4721.00", "`+4760.00"), ("+008.0625 0431`", "+008.0625`"), ("2841.00", "2821.00")):
        yield put(old, new, f"{new} for {old}")
    yield put("time=23:59:51", "time=23:59:50", "another record")
    yield put("telegrams=18", "telegrams=19", "another count")
    yield put("57,2016", "58,2016", "another place")
    yield put("\t4\t-", "\t5\t-", "another refusal")
    yield put("(LICENSE)", "(LICENCE)", "a link to no file")


def main(words):
    global ls, program
    if len(words) not in (1, 2) or words[1:] not in ([], ["--self-check"]):
        sys.exit(__doc__)
    sys.dont_write_bytecode = True
    program = os.path.abspath(words[0])
    text = (ROOT / "README.md").read_text(encoding="utf-8")
    with tempfile.TemporaryDirectory() as folder:
        subprocess.run([ROOT / "python/make-shared.sh", folder], check=True, stdout=subprocess.DEVNULL)
        os.environ["LINDENSCOOP_LIBRARY"] = os.path.join(folder, "liblindenscoop.so.0.1")
        sys.path.insert(0, str(ROOT / "python"))
        ls = importlib.import_module("lindenscoop")
        if words[1:]:
            planted = list(faults(text))
            failures = [f"not noticed: {what}" for fault, what in planted if not Trial(fault).run().failures]
            passed = len(planted) - len(failures)
        else:
            trial = Trial(text).run()
            passed, failures = trial.passed, trial.failures
    for failure in failures:
        print(f"test-readme: {failure}")
    print(f"{passed} passed, {len(failures)} failed")
    return 1 if failures or not passed else 0


if __name__ == "__main__":
    sys.exit(main(sys.argv[1:]))
