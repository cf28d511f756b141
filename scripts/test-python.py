#!/usr/bin/env python3
"""The Python module over the shared library, which is made afresh for it: vectors, streams, fields, days, runs, refusals, forms, and how it
is found.

    scripts/test-python.py

Needs a C compiler and `scripts/build lindenscoop_c`. Its last line is 'N passed, M failed'.
"""
import ctypes
import dataclasses
import datetime
import doctest
import functools
import importlib
import importlib.util
import io
import operator
import os
import pathlib
import pickle
import random
import re
import shutil
import signal
import subprocess
import sys
import tempfile
import traceback

ROOT = pathlib.Path(__file__).resolve().parent.parent
FLAGS = ("sync", "fix", "utc", "summer", "change", "leap", "dsp", "lsp")
#: the forms that search and listener take
SERIAL = {1, 2, 3, 4, 5, 6, 7, 10, 12}
counts = {True: 0, False: 0}


def check(holds, what):
    counts[bool(holds)] += 1
    if not holds:
        print(f"test-python: {what}")


def same(found, expected, what):
    check(found == expected, f"{what}: {found!r}, expected {expected!r}")


def number_of(function, *words):
    """The number with which a call is refused, 0 where it is not."""
    try:
        function(*words)
    except ls.Refused as refused:
        return refused.number
    return 0


def raises(kind, function, *words):
    try:
        function(*words)
    except kind as error:
        return str(error) or kind.__name__
    except Exception as error:  # another one is what the test is to show
        return f"{type(error).__name__}: {error}"
    return ""


# ---- vectors/ ----


def unescaped(text):
    return re.sub(rb"\\x([0-9A-Fa-f]{2})", lambda match: bytes([int(match[1], 16)]), text.encode())


def parsed(text, parse):
    return None if text == "-" else parse(text)


def parsed_date(text):
    kind, *numbers = text.split(":")
    if kind == "day":
        return ls.DayOfYear(int(numbers[0]))
    year, month, day = map(int, numbers)
    return ls.Date(year + (1900 if 80 <= year <= 99 else 2000), month, day)


def parsed_fraction(text):
    digits, value = text.split(":")
    return ls.Hundredths(int(value)) if digits == "2" else ls.Fraction(int(value), int(digits))


def parsed_position(text):
    kind, *numbers = text.split(":")
    if kind == "min":
        return ls.PositionInMinutes(*map(int, numbers))
    return ls.Position(int(kind), *map(int, numbers))


def parsed_record(text):
    date, time, fraction, channel, *rest = text.split(",")
    hour, minute, second = map(int, time.split(":"))
    flags = dict(zip(FLAGS, rest[:6] + rest[8:]))
    return ls.Record(
        hour, minute, second, parsed(date, parsed_date), parsed(fraction, parsed_fraction), parsed(channel, int),
        offset=parsed(rest[6], int),
        position=parsed(rest[7], parsed_position),
        **{name: parsed(text, "1".__eq__) for name, text in flags.items()},
    )


def answered(form, data):
    """Number and bytes of a line: the block of what is read, or what is written."""
    try:
        if not form.startswith("w"):
            return 0, ls.write("block", ls.read(int(form), unescaped(data)))
        number, room = form[1:].split(":")
        buffer = bytearray(b"\xa5" * int(room))
        before = bytes(buffer)
        try:
            written = ls.write_into(int(number), parsed_record(data), buffer)
        except ls.Refused:
            check(buffer == before, f"{form} {data}: a refused write changed the buffer")
            raise
        check(buffer[written:] == before[written:], f"{form} {data}: bytes behind the string changed")
        return 0, bytes(buffer[:written])
    except ls.Refused as refused:
        return refused.number, b"-"


def parsed_second(numbers):
    """What is no two digits becomes a year that no two digits mean."""
    year, *rest = numbers
    return ls.Second(year + (10000 if year > 99 else 1900 if year >= 80 else 2000), *rest)


def parsed_table(text, length):
    """The rows of a table; one that is not named is all zero."""
    rows = [ls.Row(0, ls.Run(parsed_second([0] * 6), parsed_second([0] * 6), 0))] * length
    for row in [] if text == "-" else text.split(";"):
        place, rack, *numbers = map(int, row.split(":"))
        rows[place] = ls.Row(rack, ls.Run(parsed_second(numbers[:6]), parsed_second(numbers[6:12]), numbers[12]))
    return rows


def check_add(form, data, number, expected):
    """A line of one call on a table."""
    length, used, rack = map(int, form.split()[1:])
    table, record = data.split(" ")
    used_after, table_after = expected.split(" ")
    runs = ls.Runs.of(parsed_table(table, length), used)
    same(number_of(runs.add, parsed_record(record), rack), int(number), f"{form} {data}")
    same((runs.used, runs.rows), (int(used_after), parsed_table(table_after, length)[: runs.used]), f"{form} {data}, afterwards")


def check_addall(data, numbers, expected):
    """A line of calls from an empty table on."""
    runs, told = ls.Runs(), []
    for call in [] if data == "-" else data.split(";"):
        rack, record = call.split("=")
        number = number_of(runs.add, parsed_record(record), int(rack))
        told.append(f"{number}:{runs.used}")
    same((";".join(told) or "-"), numbers, f"addall {data}")
    same(runs.rows, parsed_table(expected, 64)[: runs.used], f"addall {data}, afterwards")


def test_vectors():
    lines = {"add": 0, "addall": 0, "": 0}
    for path in sorted((ROOT / "vectors").glob("*.txt")):
        for line in path.read_text(encoding="utf-8").splitlines():
            if line and not line.startswith("#"):
                form, data, number, expected, _ = line.split("\t")
                word = form.split()[0] if form.startswith("add") else ""
                lines[word] += 1
                if word == "add":
                    check_add(form, data, number, expected)
                elif word == "addall":
                    check_addall(data, number, expected)
                else:
                    same(answered(form, data), (int(number), unescaped(expected)), f"{path.name}: {form} {data}")
    check(all(count > 10 for count in lines.values()), f"few vectors: {lines}")


# ---- Streams ----


class Dripping:
    """A stream without read1 that hands out a few bytes at a time."""

    def __init__(self, data, size):
        self.stream, self.size = io.BytesIO(data), size

    def read(self, most):
        return self.stream.read(min(most, self.size))


def blocks(strings, length):
    """As the program heard prints them."""
    strings = list(strings)
    text = b"".join(ls.write("block", found.record) + b"\n" for found in strings)
    return text + b"end bytes=%d telegrams=%d\n" % (length, len(strings))


def streams():
    """Form, stream and what heard prints, for each stored run that is not refused."""
    for path in sorted((ROOT / "tests/heard").glob("*.in")):
        expected = path.with_suffix(".out").read_bytes()
        if not expected.startswith(b"refused"):
            data = path.read_bytes()
            yield int(data[:1]), data[2:], expected
    yield 1, (ROOT / "samples/standard.log").read_bytes(), (ROOT / "tests/heard/sample.out").read_bytes()


def test_streams():
    for form, data, expected in streams():
        strings = list(ls.heard(form, data))
        for stream in (io.BytesIO(data), Dripping(data, 1), Dripping(data, 7), bytearray(data), memoryview(data)):
            same(list(ls.heard(form, stream)), strings, f"form {form}, {stream!r}")
        same(blocks(strings, len(data)), expected, f"form {form}")
        for place, record in strings:
            string = ls.write(form, record)
            same(data[place : place + len(string)], string, f"form {form}: the string at {place}")
        same(repeated_search(form, data), strings, f"form {form}: repeated search")
        listener = ls.Listener(form)
        same([record for record in map(listener.feed, data) if record], [found.record for found in strings], f"form {form}: byte by byte")
        same(listener.fed, len(data), f"form {form}: bytes fed")


def place_cells(position):
    """Latitude, longitude and altitude in degrees and metres, and both in minutes; those of another kind are empty."""
    degrees, minutes = [""] * 3, [""] * 2
    if isinstance(position, ls.Position):
        degrees = [f"{value / 10000:.4f}" for value in (position.latitude, position.longitude)] + [str(position.altitude)]
    elif position is not None:
        minutes = [f"{value / 100:.2f}" for value in (position.latitude_hundredths, position.longitude_hundredths)]
    return degrees, minutes


def cells(record):
    """A record as a row of CSV, in the columns of bindings/heard_csv.columns."""
    date, fraction, offset = record.date, record.fraction, record.offset
    flags = ["" if value is None else "yes" if value else "no" for value in (getattr(record, name) for name in FLAGS)]
    full = f"{date.year}-{date.month:02}-{date.day:02}" if isinstance(date, ls.Date) else ""
    day = str(date.day) if isinstance(date, ls.DayOfYear) else ""
    time = f"{record.hour:02}:{record.minute:02}:{record.second:02}"
    minutes = "" if offset is None else "%s%02d:%02d" % ("-" if offset < 0 else "+", *divmod(abs(offset), 60))
    degrees, minutes_of_arc = place_cells(record.position)
    channel = "" if record.channel is None else str(record.channel)
    return ",".join([full, day, time, str(fraction or ""), channel, *flags[:6], minutes, *degrees, *flags[6:], *minutes_of_arc])


def test_logs():
    """The logs of every serial form whose rows are known."""
    logs = sorted((ROOT / "tests/csv").glob("form-*.log"))
    same({int(path.stem[5:]) for path in logs}, SERIAL, "the forms of the logs")
    for path in logs:
        form, data, rows = int(path.stem[5:]), path.read_bytes(), path.with_suffix(".csv").read_text().splitlines()[1:]
        strings = list(ls.heard(form, data))
        same([cells(found.record) for found in strings], rows, path.name)
        same(repeated_search(form, data), strings, f"{path.name}: repeated search")
        same(list(ls.heard(form, Dripping(data, 7))), strings, f"{path.name}: in pieces")
        for place, record in strings:
            string = ls.write(form, record)
            same(data[place : place + len(string)], string, f"{path.name}: the string at {place}")


def repeated_search(form, data):
    strings, start = [], 0
    while True:
        try:
            strings.append(ls.search(form, data, start))
        except ls.Refused as refused:
            same(refused.number, 12, f"form {form}: search from {start}")
            return strings
        start = strings[-1].place + 1


def test_a_pipe_is_heard_at_once():
    """The pipe stays open: waiting for more than the string would never end."""
    def late(*_):
        raise TimeoutError("a string in an open pipe was not handed out")
    here, there = os.pipe()
    signal.signal(signal.SIGALRM, late)
    signal.alarm(10)
    with open(here, "rb") as stream, open(there, "wb", buffering=0) as source:
        source.write(b"..XGU000229000000\r")
        same(next(ls.heard("racal", stream)).place, 2, "a pipe")
    signal.alarm(0)


def test_streams_that_fail():
    class Failing(Dripping):
        def read(self, most):
            return super().read(most) or self.fail()

        def fail(self):
            raise OSError("the cable was pulled")

    class NotYet(Dripping):
        def read(self, most):
            return super().read(most) or None

    strings = ls.heard("racal", Failing(b"XGU000229000000\r", 5))
    same(next(strings).place, 0, "before the failure")
    same(raises(OSError, next, strings), "the cable was pulled", "a failing stream")
    check("waits" in raises(BlockingIOError, list, ls.heard("racal", NotYet(b"", 5))), "a stream that does not wait")
    check("'rb'" in raises(TypeError, list, ls.heard("racal", io.StringIO("XGU"))), "a text stream")
    check("'rb'" in raises(TypeError, ls.heard, "racal", "file.log"), "a path for a stream")
    check(raises(TypeError, ls.heard, "racal", 5).startswith("memoryview"), "a number for a stream")


# ---- Fields ----

EMPTY = {"date": "-", "time": "00:00:00", "fraction": "-", "channel": "-", **{name: "-" for name in FLAGS[:6]}, "offset": "-", "position": "-", "dsp": "-", "lsp": "-"}


def fractions():
    """Fractions of every kind, as the block spells them."""
    return ("00", ls.Hundredths(0)), ("99", ls.Hundredths(99)), ("007", ls.Fraction(7, 3)), ("0000007", ls.Fraction(7, 7))


def positions():
    """Positions of both kinds, as the block spells them."""
    yield "-047.3500 +008.0625 0431", ls.Position(-473500, 80625, 431)
    yield "+000.0001 -180.0000 9999", ls.Position(1, -1800000, 9999)
    yield "+4721.00 +00803.75", ls.PositionInMinutes(284100, 48375)
    yield "-9000.00 -18000.00", ls.PositionInMinutes(-540000, -1080000)
    yield "-0000.01 +00059.99", ls.PositionInMinutes(-1, 5999)
    yield "+0000.00 +00000.00", ls.PositionInMinutes(0, 0)


def single_fields():
    """Records with one field each, and its line in the block."""
    for name in FLAGS:
        yield {name: True}, name, "yes"
        yield {name: False}, name, "no"
    yield {}, "time", "00:00:00"
    yield {"hour": 23, "minute": 59, "second": 60}, "time", "23:59:60"
    yield {"date": ls.Date(2024, 2, 29)}, "date", "24-02-29"
    yield {"date": ls.Date(1980, 1, 1)}, "date", "80-01-01"
    yield {"date": ls.Date(1991, 1, 1)}, "date", "91-01-01"
    yield {"date": ls.Date(1999, 12, 31)}, "date", "99-12-31"
    yield {"date": ls.Date(2000, 1, 1)}, "date", "00-01-01"
    yield {"date": ls.Date(2079, 12, 31)}, "date", "79-12-31"
    yield {"date": ls.DayOfYear(366)}, "date", "day-366"
    for text, fraction in fractions():
        yield {"fraction": fraction}, "fraction", text
    yield {"channel": 0}, "channel", "0"
    yield {"channel": 1}, "channel", "1"
    for minutes, text in ((0, "+00:00"), (-210, "-03:30"), (840, "+14:00"), (-840, "-14:00")):
        yield {"offset": minutes}, "offset", text
    for text, position in positions():
        yield {"position": position}, "position", text


def test_each_field_crosses_alone():
    for fields, key, text in single_fields():
        record = ls.Record(**fields)
        block = "".join(f"{name}={value}\n" for name, value in {**EMPTY, key: text}.items()).encode()
        same(ls.write("block", record), block, f"{fields} written")
        same(ls.read("block", block), record, f"{fields} read")
        for field in dataclasses.fields(ls.Record):
            if field.name not in fields and field.name not in ("hour", "minute", "second"):
                check(getattr(ls.read("block", block), field.name) is None, f"{fields}: {field.name} is not None")


def test_every_pair_of_kinds():
    """Each fraction with each position: through the block, and written in the forms that carry these kinds and in no other."""
    names = {"sync": True, "fix": True, "summer": False, "change": False, "leap": False}
    other = {"date": ls.Date(2024, 1, 1), "channel": 0, "offset": 0, **names}
    spelled = {**EMPTY, "date": "24-01-01", "channel": "0", "offset": "+00:00", **{name: "yes" if yes else "no" for name, yes in names.items()}}
    pairs = [(one, two) for one in (("-", None), *fractions()) for two in (("-", None), *positions())]
    same(len(pairs), 35, "how many pairs")
    for (fraction_text, fraction), (position_text, position) in pairs:
        record = ls.Record(fraction=fraction, position=position, **other)
        block = "".join(f"{name}={value}\n" for name, value in {**spelled, "fraction": fraction_text, "position": position_text}.items()).encode()
        same(ls.write("block", record), block, f"{fraction}, {position} written")
        same(ls.read("block", block), record, f"{fraction}, {position} read")
        digits = len(str(fraction)) - 2 if fraction else 0
        for form, good in (("capture", digits == 7), ("spa", digits == 3), ("erlangen", isinstance(position, ls.Position)),
                           ("rmc", digits == 2 and isinstance(position, ls.PositionInMinutes))):
            same(number_of(ls.write, form, record), 0 if good else 8, f"{fraction}, {position} written as {form}")
            back = ls.read(form, ls.write(form, record)) if good else record
            check(back.fraction in (None, fraction) and back.position in (None, position), f"{fraction}, {position} turned into {back} by {form}")


def test_kinds_have_no_attribute_in_common():
    """So that code which knows one kind alone fails with the other, and takes no minute for a degree and no hundredth for another fraction."""
    for kind, newer in ((ls.Position, ls.PositionInMinutes(1, 1)), (ls.Fraction, ls.Hundredths(1))):
        names, newer_names = ({field.name for field in dataclasses.fields(one)} for one in (kind, newer))
        same(names & newer_names, set(), f"attributes that {kind} and {newer} have in common")
        check(names and not isinstance(newer, kind), f"{newer} is a {kind}")
        for name in names:
            check("no attribute" in raises(AttributeError, getattr, newer, name), f"{newer} has {name}")


def bad_records():
    """Values outside their range, and those that would be inside it if cut to 32 bits."""
    for wide in (-1, 2**32, 2**32 + 1, 2**64, -(2**32)):
        yield {"hour": wide}
        yield {"second": wide}
        yield {"channel": wide}
        yield {"date": ls.DayOfYear(wide)}
        yield {"date": ls.Date(2024, wide, 1)}
        yield {"date": ls.Date(2024, 1, wide)}
        yield {"date": ls.Date(wide, 1, 1)}
        yield {"date": ls.Date(2000 + 100 * wide, 1, 1)}
        yield {"fraction": ls.Fraction(wide, 3)}
        yield {"position": ls.Position(0, 0, wide)}
    for wide in (841, -841, 2**31, 2**32, -(2**32), 2**32 + 60, -(2**31)):
        yield {"offset": wide}
        yield {"position": ls.Position(wide * 2**32, 0, 0)}
        yield {"position": ls.Position(0, wide * 2**32, 0)}
        yield {"position": ls.PositionInMinutes(wide * 2**32, 0)}
        yield {"position": ls.PositionInMinutes(0, wide * 2**32)}
    for wide in (-1, 100, 999, 2**32, 2**32 + 1, 2**64):
        yield {"fraction": ls.Hundredths(wide)}
    for latitude, longitude in ((540001, 0), (-540001, 0), (0, 1080001), (0, -1080001), (900000, 0)):
        yield {"position": ls.PositionInMinutes(latitude, longitude)}
    for value, digits in ((1000, 3), (10000000, 7)):
        yield {"fraction": ls.Fraction(value, digits)}
    for year in (24, 91, 1891, 1979, 2080, 2091, 2100):
        yield {"date": ls.Date(year, 1, 1)}
    yield {"date": ls.Date(2023, 2, 29)}
    for digits in (0, 1, 2, 4, 6, 8):
        yield {"fraction": ls.Fraction(0, digits)}


def test_bad_records_are_refused():
    for fields in bad_records():
        record = ls.Record(**fields)
        same(number_of(ls.write, "block", record), 7, f"{fields}")
        same(number_of(ls.write, 15, record), 1, f"{fields}, of a form that there is not")


def test_values_of_another_type():
    wrong = (
        {"sync": 1}, {"lsp": 0}, {"sync": "yes"}, {"hour": True}, {"hour": 1.0}, {"hour": None}, {"date": (2024, 1, 1)}, {"date": "24-01-01"},
        {"fraction": 0.5}, {"position": (0, 0, 0)}, {"offset": 1.5}, {"channel": False}, {"fraction": ls.Fraction(1, 3.0)},
        {"position": (0, 0)}, {"position": ls.PositionInMinutes(0.5, 0)}, {"position": ls.PositionInMinutes(0, None)},
        {"fraction": 7}, {"fraction": ls.Hundredths(0.07)}, {"fraction": ls.Hundredths(True)}, {"fraction": ls.Hundredths(ls.Hundredths(7))},
    )
    for fields in wrong:
        check(" not " in raises(TypeError, ls.write, "block", ls.Record(**fields)), f"{fields}: no TypeError that says what is needed")
    check("Record" in raises(TypeError, ls.write, "block", {}), "a dict for a record")
    same([str(fraction) for _, fraction in fractions()], ["0.00", "0.99", "0.007", "0.0000007"], "fractions as text")


# ---- Days ----


def counted(year, month, day):
    """The number of a day by Python's own calendar; None where there is no such date of 1980 to 2079."""
    try:
        date = datetime.date(year, month, day)
    except ValueError:
        return None
    return (date - datetime.date(1980, 1, 1)).days if 1980 <= year <= 2079 else None


def test_every_day():
    """Every date of the calendar and of the years beside it, with the days and months that there are not."""
    dates = [(year, month, day) for year in range(1979, 2081) for month in range(14) for day in range(33)]
    wrong = [date for date in dates if ls.days_since_1980(*date) != counted(*date)]
    same(wrong[:5], [], "dates whose numbers are not those of datetime")
    numbers = [number for number in (ls.days_since_1980(*date) for date in dates) if number is not None]
    same(numbers, list(range((datetime.date(2080, 1, 1) - datetime.date(1980, 1, 1)).days)), "the days of 1980 to 2079 in their order")


def test_every_weekday():
    """Of every date of the calendar a string has the weekday of datetime, and tells the date again; of the years beside it there is none."""
    first = datetime.date(1980, 1, 1)
    flags = {"sync": True, "fix": True, "utc": True, "summer": False, "change": False, "leap": False}
    for date in (first + datetime.timedelta(number) for number in range(36525)):
        string = ls.write("standard", ls.Record(date=ls.Date(date.year, date.month, date.day), **flags))
        told = ls.read("standard", string).date
        wanted = f"\x02D:{date:%d.%m.%y};T:{date.isoweekday()};U:00.00.00;  U \x03".encode()
        if (string, (told.year, told.month, told.day)) != (wanted, (date.year, date.month, date.day)):
            check(False, f"{date}: {string}, {told}")
            return
    same(date, datetime.date(2079, 12, 31), "the calendar's last day")
    for year in (1979, 2080):
        same(number_of(ls.write, "standard", ls.Record(date=ls.Date(year, 6, 30), **flags)), 7, f"a string of {year}")


def test_nineties():
    """Of 1991, with its weekday and with that of 2091."""
    tuesday = b"\x02D:01.01.91;T:2;U:12.00.00;  U \x03"
    record = ls.read("standard", tuesday)
    same(record.date, ls.Date(1991, 1, 1), "a string of 1991")
    same(ls.write("standard", record), tuesday, "a string of 1991, written again")
    same(number_of(ls.read, "standard", tuesday.replace(b"T:2", b"T:1")), 5, "a string of 1991 with the weekday of 2091")
    change = b"".join(b"\x02D:%s;  U \x03" % told for told in (b"31.12.99;T:5;U:23.59.59", b"01.01.00;T:6;U:00.00.00"))
    same([found.record.date for found in ls.heard("standard", change)], [ls.Date(1999, 12, 31), ls.Date(2000, 1, 1)], "from 1999 to 2000")


def test_days():
    string = ls.read("racal", b"XGU240229000000\r").date
    same(ls.days_since_1980(string.year, string.month, string.day), 16130, "the day of a string")
    for date, number in (((1980, 1, 1), 0), ((1980, 2, 29), 59), ((1981, 1, 1), 366), ((2000, 1, 1), 7305), ((2079, 12, 31), 36524)):
        same(ls.days_since_1980(*date), number, f"{date}")
    for wide in (-1, 0, 2**32, 2**32 + 1, 2**64, 2**64 + 1, -(2**32)):
        for date in ((2000 + 100 * (wide or 1), 1, 1), (wide, 1, 1), (2024, wide, 1), (2024, 1, wide)):
            check(ls.days_since_1980(*date) is None, f"there is a number of {date}")
    for wrong in (True, 1.0, "1", None):
        for date in ((wrong, 1, 1), (2024, wrong, 1), (2024, 1, wrong)):
            check(" not " in raises(TypeError, ls.days_since_1980, *date), f"{date}: no TypeError that says what is needed")
    check(not hasattr(ls, "day_number"), "the days are still counted by the name that meant those from 2000 on")


# ---- Runs ----


def second_at(moment):
    return ls.Second(moment.year, moment.month, moment.day, moment.hour, moment.minute, moment.second)


def record_at(second, **more):
    return ls.Record(second.hour, second.minute, second.second, second.date, **more)


def alone(second, rack=0):
    return ls.Row(rack, ls.Run(second, second, 1))


def follows(before, after):
    """Whether a second is the next of another one, by Python's own calendar, which has no second 60."""
    minutes = [datetime.datetime(s.year, s.month, s.day, s.hour, s.minute) for s in (before, after)]
    if minutes[0] == minutes[1]:
        return after.second == before.second + 1
    return minutes[1] - minutes[0] == datetime.timedelta(minutes=1) and before.second >= 59 and after.second == 0


def afresh(seconds):
    """The runs of seconds, worked out from all of them."""
    ends = [place for place, pair in enumerate(zip(seconds, seconds[1:]), 1) if not follows(*pair)]
    parts = [seconds[begin:end] for begin, end in zip([0, *ends], [*ends, len(seconds)]) if begin < end]
    return [ls.Run(part[0], part[-1], len(part)) for part in parts]


def added(before, after, rack=0, between=None):
    """What is told of a second behind another one of the same rack, and the rows; the other rack heard one in between."""
    runs = ls.Runs()
    same((runs.add(record_at(before), rack), runs.rows, runs.used), ("opened", [alone(before, rack)], 1), f"{before} in an empty table")
    if between:
        same((runs.add(record_at(between), 1 - rack), runs.rows), ("opened", [alone(before, rack), alone(between, 1 - rack)]), f"{between} of the other rack")
    return runs.add(record_at(after), rack), runs.rows


def test_next_second():
    """Around the ends of minutes, hours, days, months and years, second 60 included, each with each."""
    moments = [datetime.datetime(*told) for told in ((1980, 1, 1), (1980, 2, 29), (1991, 1, 1), (1999, 12, 31, 23, 59, 59), (2000, 2, 28, 23, 59, 59),
               (2000, 2, 29, 23, 59, 59), (2023, 2, 28, 23, 59, 59), (2024, 4, 30, 23, 59, 59), (2024, 5, 1, 11, 59, 59), (2024, 5, 1, 12, 0, 30))]
    for moment in moments:
        near = {second_at(moment + datetime.timedelta(seconds=away)) for away in (0, 1, 2, 3600, 86400)}
        near |= {second_at(moment - datetime.timedelta(seconds=away)) for away in (1, 2, 60, 86400) if moment.year > 1980}
        near |= {dataclasses.replace(second, second=60) for second in near}
        for before in sorted(near, key=str):
            for after in sorted(near, key=str):
                for rack, between in ((0, None), (1, None), (0, before), (1, after)):
                    other = [alone(between, 1 - rack)] if between else []
                    if follows(before, after):
                        expected = "joined", [ls.Row(rack, ls.Run(before, after, 2)), *other]
                    else:
                        expected = "opened", [alone(before, rack), *other, alone(after, rack)]
                    same(added(before, after, rack, between), expected, f"{after} behind {before}, rack {rack}, {between} in between")


def test_last_minute():
    """Nothing follows the last minute of 2079, and 80 to 99 are no years behind it."""
    last, first = ls.Second(2079, 12, 31, 23, 59, 59), ls.Second(1980, 1, 1, 0, 0, 0)
    leap = dataclasses.replace(last, second=60)
    same(added(last, leap)[0], "joined", "second 60 of the last minute")
    for before in (last, leap):
        same(added(before, first)[0], "opened", f"{first} behind {before}")
        same(number_of(ls.Runs().add, ls.Record(0, 0, 0, ls.Date(2080, 1, 1))), 14, "a second of 2080")
    same(added(ls.Second(1999, 12, 31, 23, 59, 60), ls.Second(2000, 1, 1, 0, 0, 0))[0], "joined", "from 1999 to 2000")


def test_every_midnight():
    """The first second of each day of 1980 to 2079 follows the last one of the day before, and of no other day."""
    runs, wrong, day = ls.Runs(), [], datetime.date(1980, 1, 1)
    for _ in range(36525):
        date = ls.Date(day.year, day.month, day.day)
        told = runs.add(ls.Record(date=date))
        runs.take()
        again = runs.add(ls.Record(23, 59, 59, date)), runs.add(ls.Record(date=date))
        runs = ls.Runs.of(runs.rows[:1] + [None] * 63, 1)
        if (told, *again) != ("opened" if date == ls.Date(1980, 1, 1) else "joined", "opened", "opened"):
            wrong.append((date, told, *again))
        day += datetime.timedelta(1)
    same((wrong[:5], day), ([], datetime.date(2080, 1, 1)), "the days of 1980 to 2079")


def test_leap_second():
    """That of 2016 in the sample, whose damaged strings, 23:59:54 and 23:59:58, were not heard."""
    runs = ls.Runs()
    records = [found.record for found in ls.heard("standard", (ROOT / "samples/standard.log").read_bytes())]
    told = [runs.add(record) for record in records]
    seconds = [ls.Second(r.date.year, r.date.month, r.date.day, r.hour, r.minute, r.second) for r in records]
    check(ls.Second(2016, 12, 31, 23, 59, 60) in seconds, "the sample has no leap second")
    same(runs.of_rack(0), afresh(seconds), "the runs of the sample")
    same([str(run.first)[-8:] for run in runs.of_rack(0)][:3], ["23:59:51", "23:59:55", "23:59:59"], "where the runs of the sample begin")
    same((told.count("opened"), told.count("joined")), (len(runs.rows), len(told) - len(runs.rows)), "what was told")
    same(sum(row.run.count for row in runs.rows), len(records), "the seconds counted")
    same({row.rack for row in runs.rows}, {0}, "the rack where none is named")


def wandering(source, length):
    """Seconds that mostly go on from one to the next, over ends of minutes and of days."""
    moment, seconds = datetime.datetime(2024, 2, 28, 23, 58, 30), []
    while len(seconds) < length:
        seconds.append(second_at(moment))
        if moment.second == 59 and source.random() < 0.5:
            seconds.append(dataclasses.replace(seconds[-1], second=60))
        away = 1 if source.random() < 0.9 else source.choice((0, -1, 2, 25, 60, 86400, -86400))
        moment += datetime.timedelta(seconds=away)
    return seconds


def turns(source, seconds):
    """The seconds of both racks, each in its order, with their racks."""
    places = [0, 0]
    while any(place < len(each) for place, each in zip(places, seconds)):
        rack = source.randrange(2)
        if places[rack] < len(seconds[rack]):
            yield rack, places[rack], seconds[rack][places[rack]]
            places[rack] += 1


def test_runs_afresh():
    """More runs than rows: taken out whenever a row is wanting, those of each rack are those worked out afresh; records that tell no second
    change nothing."""
    source = random.Random(206)
    for lengths in ((0, 0), (1, 0), (0, 2), (100, 100), (2000, 300), (2000, 2000)):
        seconds = [wandering(source, length)[:length] for length in lengths]
        runs, heard, times = ls.Runs(), [[], []], 0
        for rack, place, second in turns(source, seconds):
            if number_of(runs.add, record_at(second, sync=True), rack) == 15:
                other = runs.of_rack(1 - rack)
                same(runs.of_rack(rack), afresh(seconds[rack][:place])[len(heard[rack]) :], "a full rack")
                heard[rack] += runs.take(rack)
                same((runs.of_rack(rack), runs.of_rack(1 - rack), runs.used), ([], other, len(other)), "the rows of the other rack")
                same(runs.add(record_at(second), rack), "opened", "behind a full rack")
                times += 1
            if source.random() < 0.1:
                same(number_of(runs.add, ls.Record(second.hour, second.minute, second.second, ls.DayOfYear(60)), rack), 14, "a day of year")
        same([heard[rack] + runs.take(rack) for rack in (0, 1)], [afresh(each) for each in seconds], f"the runs of {lengths} seconds")
        same((runs.used, runs.rows), (0, []), "both racks taken")
        check(sum(lengths) < 1000 or times > 2, f"only {times} full racks")


def lane(source, rack, records, most):
    """What one rack is told, and its own runs. Before each of its records come at most so many of the other rack's."""
    runs, told = ls.Runs(), []
    others = wandering(source, len(records) * most + 1)
    for record in records:
        for _ in range(source.randint(0, most)):
            number_of(runs.add, source.choice([record, ls.Record()] + [record_at(others.pop())] * 6), 1 - rack)
        try:
            told.append(runs.add(record, rack))
        except ls.Refused as refused:
            told.append(refused.number)
    return told, runs.of_rack(rack)


def test_racks_apart():
    """What one rack is told and its own runs are the same with any records of the other rack as with none."""
    source, full = random.Random(207), 0
    for time in range(30):
        records = [record_at(second) for second in wandering(source, (50, 300, 900)[time % 3])]
        for _ in range(5):
            records.insert(source.randrange(len(records)), ls.Record())
        expected = lane(source, 0, records, 0)
        full += 15 in expected[0]
        for rack, most in ((0, 1), (0, 4), (1, 0), (1, 2)):
            same(lane(source, rack, records, most) == expected, True, f"rack {rack} beside at most {most} records of the other before each")
    check(3 < full < 27, f"{full} full racks")


#: in which order the racks opened their rows, 32 each: by turns, one after the other, or three at a time
LAYOUTS = (lambda row: row % 2), (lambda row: row // 32), (lambda row: 1 - row // 32), (lambda row: (row + 1) // 3 % 2)


def full_table(layout=LAYOUTS[0]):
    """Rows that differ from each other, each of a minute of its own."""
    runs = [ls.Run(ls.Second(2024, 2, 29, 12 + place // 60, place % 60, 0), ls.Second(2024, 2, 29, 12 + place // 60, place % 60, 7), 8 + place) for place in range(64)]
    return [ls.Row(layout(place), run) for place, run in enumerate(runs)]


def newest(rows, used, rack):
    """Where the newest row of a rack stands, None where it has none in use."""
    return max((place for place in range(used) if rows[place].rack == rack), default=None)


def lent(runs):
    """The rows as the library was lent them, those that are not in use too."""
    seconds = [[[getattr(second, name) for name, _ in second._fields_] for second in (row.run.first, row.run.last)] for row in runs._table]
    return [(row.rack, *first, *last, row.run.count) for (first, last), row in zip(seconds, runs._table)]


def numbers_of(rows):
    seconds = [[(s.year % 100, s.month, s.day, s.hour, s.minute, s.second) for s in (row.run.first, row.run.last)] for row in rows]
    return [(row.rack, *first, *last, row.run.count) for (first, last), row in zip(seconds, rows)]


def test_one_row_is_changed():
    """Of those that are handed out, and of those that the library is lent."""
    other = ls.Second(1991, 6, 30, 23, 59, 60)
    for layout, used, rack in ((layout, used, rack) for layout in LAYOUTS for used in range(65) for rack in (0, 1)):
        rows = full_table(layout)
        runs, place, what = ls.Runs.of(rows, used), newest(rows, used, rack), f"{used} in use, rack {rack}"
        if place is not None:
            run = rows[place].run
            after = dataclasses.replace(run.last, second=8)
            same(runs.add(record_at(after), rack), "joined", what)
            rows[place] = ls.Row(rack, ls.Run(run.first, after, run.count + 1))
        same((runs.used, runs.rows, lent(runs)), (used, rows[:used], numbers_of(rows)), f"{what}, joined")
        if len(runs.of_rack(rack)) == 32:
            same(number_of(runs.add, record_at(other), rack), 15, f"{what}, a row behind the last")
        else:
            same(runs.add(record_at(other), rack), "opened", what)
            rows[used], used = alone(other, rack), used + 1
        same((runs.used, runs.rows, lent(runs)), (used, rows[:used], numbers_of(rows)), f"{what}, opened")


def test_each_rack_opens_32_rows():
    """From an empty table on; behind a row of the other rack with the second that would join it."""
    for layout in LAYOUTS:
        runs, expected, moment = ls.Runs(), [], datetime.datetime(2024, 2, 29, 12)
        for place in range(64):
            rack = layout(place)
            moment += datetime.timedelta(seconds=1 if place and layout(place - 1) != rack else 7)
            same(runs.add(record_at(second_at(moment)), rack), "opened", f"row {place}")
            expected.append(alone(second_at(moment), rack))
            for each in (0, 1):
                if len(runs.of_rack(each)) == 32:
                    same(number_of(runs.add, ls.Record(date=ls.Date(1991, 1, 1)), each), 15, f"33 rows of rack {each}")
            same((runs.used, runs.rows), (place + 1, expected), f"row {place}")
        for rack in (0, 1):
            place = newest(expected, 64, rack)
            last = expected[place].run.last
            expected = replaced(expected, place, last=dataclasses.replace(last, second=last.second + 1), count=2)
            same((runs.add(record_at(expected[place].run.last), rack), runs.rows), ("joined", expected), f"the newest run of rack {rack} goes on")


def test_no_rack():
    """First of all: where the record would be added, where it tells no second, where no row is left, where the table is none."""
    rows, wide = full_table(), [dataclasses.replace(row, rack=2) for row in full_table()]
    for rack in (2, 3, 64, 2**31, 2**32 - 1, 2**32, 2**32 + 1, 2**64, -1, -(2**32)):
        for record in (ls.Record(12, 0, 8, ls.Date(2024, 2, 29)), ls.Record()):
            for table, used in ((rows, 0), (rows, 1), (rows, 64), (rows, 65), (rows, -1), (rows[:63], 1), (rows * 2, 1), ([], 0), (wide, 1), (wide, 64)):
                runs = ls.Runs.of(table, used)
                same(number_of(runs.add, record, rack), 16, f"rack {rack}, {len(table)} rows, {used} in use")
                same((runs.used, runs.rows), (used, table[: max(used, 0)]), f"rack {rack}, afterwards")
        runs = ls.Runs.of(rows, 5)
        same((runs.of_rack(rack), runs.take(rack), runs.rows), ([], [], rows[:5]), f"the runs of rack {rack}")
    for wrong in (None, 1.0, True, "0"):
        for call in (functools.partial(ls.Runs().add, ls.Record()), ls.Runs().of_rack, ls.Runs().take):
            check("rack is a whole number" in raises(TypeError, call, wrong), f"{wrong!r} for a rack")


def test_take():
    """The runs of one rack in order, and the rows of the other one as they were, which go on."""
    for layout, used, rack in ((layout, used, rack) for layout in LAYOUTS for used in range(65) for rack in (0, 1)):
        rows, what = full_table(layout), f"{used} in use, rack {rack} taken"
        runs = ls.Runs.of(rows, used)
        own, kept = ([row for row in rows[:used] if (row.rack == rack) == is_own] for is_own in (True, False))
        same((runs.of_rack(rack), runs.take(rack)), ([row.run for row in own],) * 2, what)
        same((runs.used, runs.rows, runs.of_rack(rack), runs.take(rack)), (len(kept), kept, [], []), f"{what}, afterwards")
        same(lent(runs)[: len(kept)], numbers_of(kept), f"{what}, lent")
        if kept:
            after = dataclasses.replace(kept[-1].run.last, second=8)
            same((runs.add(record_at(after), 1 - rack), runs.of_rack(1 - rack)[-1].count), ("joined", kept[-1].run.count + 1), f"{what}, the other goes on")
    runs = ls.Runs.of(rows, 64)
    same((len(runs.take()), {row.rack for row in runs.rows}), (32, {1}), "the rack that is taken where none is named")


def test_no_second():
    """Every bad record, with a full date where it has none of its own; before a row is wanting."""
    date = {"date": ls.Date(2024, 2, 29)}
    wrong = [{**date, **fields} for fields in bad_records()] + [{}, {"date": None, "sync": True}, {"date": ls.DayOfYear(60)}, {**date, "utc": True, "summer": True}]
    check(len(wrong) > 100, "few bad records")
    for used, rack in ((0, 0), (1, 0), (1, 1), (64, 0), (64, 1)):
        runs = ls.Runs.of(full_table(), used)
        for fields in wrong:
            same(number_of(runs.add, ls.Record(**fields), rack), 14, f"{fields}, {used} in use, rack {rack}")
        same((runs.used, runs.rows, lent(runs)), (used, full_table()[:used], numbers_of(full_table())), "after records that tell no second")
    check("Record" in raises(TypeError, ls.Runs().add, {}), "a dict for a record")
    check(" not " in raises(TypeError, ls.Runs().add, ls.Record(1.0, **date)), "a number with a point for an hour")


def impossible_seconds():
    """Seconds that the calendar does not have, and those that it would have if cut to 32 bits or to two digits."""
    good = ls.Second(2024, 2, 29, 12, 0, 7)
    for name, values in (("year", (24, 91, 1924, 1979, 2080, 2091, 2124)), ("month", (0, 13)), ("day", (0, 30)), ("hour", (24,)), ("minute", (60,)), ("second", (61,))):
        for value in (*values, -1, 100, 2**32 - 1, 2**32 + getattr(good, name), 2**64):
            yield dataclasses.replace(good, **{name: value})
    yield dataclasses.replace(good, year=2023)


def replaced(rows, place, **changes):
    """Rows of which one is changed: its rack, or numbers of its run."""
    rack, run = changes.pop("rack", rows[place].rack), dataclasses.replace(rows[place].run, **changes)
    return [*rows[:place], ls.Row(rack, run), *rows[place + 1 :]]


def bad_tables():
    """Rows and the number in use of tables that no calls made."""
    rows = full_table()
    for length in (0, 1, 8, 63, 65, 128):
        for used in (0, min(length, 8)):
            yield (rows * 2)[:length], used
    for used in (65, 66, 128, 2**32 - 1, 2**32, 2**32 + 8, 2**64 + 8, -1, -(2**32) + 8):
        yield rows, used
    # rows in use of no rack, and those that would be of one if cut to 32 bits
    for rack in (2, 3, 2**31, 2**32 - 1, 2**32, 2**32 + 1, 2**64, -1, -(2**32)):
        for place, used in ((0, 1), (0, 5), (4, 5), (3, 64), (63, 64)):
            yield replaced(rows, place, rack=rack), used
    # over 32 rows of a rack
    for rack in (0, 1):
        for used in (33, 34, 63, 64):
            yield [ls.Row(rack, row.run) for row in rows], used
        yield replaced(rows, 1 - rack, rack=rack), 64
    # the newest row of a rack, which is the newest one of the table or stands before rows of the other rack
    for layout, used, place in ((0, 1, 0), (0, 2, 0), (0, 2, 1), (0, 64, 62), (0, 64, 63), (1, 40, 31), (2, 40, 31), (1, 40, 39)):
        for last in impossible_seconds():
            yield replaced(full_table(LAYOUTS[layout]), place, last=last), used
        for count in (4_000_000_001, 2**32 - 1, 2**32, 2**32 + 8, -1):
            yield replaced(full_table(LAYOUTS[layout]), place, count=count), used


def test_bad_tables():
    """Refused before the record is looked at, whichever rack it is of, and left as they are."""
    tables = list(bad_tables())
    check(len(tables) > 400, "few bad tables")
    for rows, used in tables:
        for record, rack in ((ls.Record(12, 0, 8, ls.Date(2024, 2, 29)), 0), (ls.Record(12, 1, 8, ls.Date(2024, 2, 29)), 1), (ls.Record(), 0), (ls.Record(), 1)):
            runs = ls.Runs.of(rows, used)
            same(number_of(runs.add, record, rack), 21, f"{len(rows)} rows, {used} in use, rack {rack}")
            same((runs.used, runs.rows), (used, rows[: max(used, 0)]), f"{len(rows)} rows, {used} in use, afterwards")
        taken = [run for rack in sorted({row.rack for row in runs.rows} | {0}) for run in runs.take(rack)]
        same((len(taken), runs.used, runs.add(ls.Record(date=ls.Date(2024, 1, 1)))), (len(rows[: max(used, 0)]), 0, "opened"), "a bad table emptied")


def test_what_is_not_looked_at():
    """All runs but the newest of each rack, the first seconds, the racks behind the rows in use; a count of 0 and the largest one grow."""
    after, other = ls.Second(2024, 2, 29, 12, 0, 8), ls.Second(1991, 6, 30, 23, 59, 60)
    for wrong in impossible_seconds():
        for count, rack in ((0, 0), (8, 1), (4_000_000_000, 0), (4_000_000_000, 1)):
            bad = ls.Run(wrong, wrong, 2**32 - 1)
            rows = [ls.Row(place % 2, bad) for place in range(4)] + [ls.Row(7, bad)] * 60
            rows[2] = rows[3] = ls.Row(1 - rack, ls.Run(wrong, dataclasses.replace(after, second=7), 8))
            rows[3 - rack] = ls.Row(rack, ls.Run(wrong, dataclasses.replace(after, second=7), count))
            runs = ls.Runs.of(rows, 4)
            same((runs.add(record_at(other), rack), runs.rows), ("opened", [*rows[:4], alone(other, rack)]), f"a row opened where {wrong} stands")
            runs = ls.Runs.of(rows, 4)
            same((runs.add(record_at(after), rack), runs.used), ("joined", 4), f"{wrong} in other places")
            same(runs.rows, replaced(rows[:4], 3 - rack, last=after, count=count + 1), f"{wrong} in other places, afterwards")
            for each in (0, 1):
                same(number_of(runs.add, record_at(other), each), 21 if count > 8 else 0, f"behind a count of {count + 1}, rack {each}")


def test_rows_of_another_type():
    rows = full_table()
    second, run = rows[0].run.first, rows[0].run
    for wrong in (0, "row", second, run, (0, run), {}):
        check(" not " in raises(TypeError, ls.Runs.of, [wrong] + rows[1:], 1), f"{wrong!r} for a row")
    for wrong in (None, 0, rows[0], (second, second, 1)):
        check(" not " in raises(TypeError, ls.Runs.of, [ls.Row(0, wrong)] + rows[1:], 1), f"{wrong!r} for a run")
    for wrong in (None, "12:00:00", ls.Date(2024, 1, 1), datetime.datetime(2024, 1, 1)):
        check(" not " in raises(TypeError, ls.Runs.of, [ls.Row(0, ls.Run(wrong, second, 1))] + rows[1:], 1), f"{wrong!r} for a second")
    for wrong in (None, 1.0, True, "1"):
        check(" not " in raises(TypeError, ls.Runs.of, rows, wrong), f"{wrong!r} for the number in use")
        check(" not " in raises(TypeError, ls.Runs.of, replaced(rows, 0, rack=wrong), 1), f"{wrong!r} for a rack")
        check(" not " in raises(TypeError, ls.Runs.of, replaced(rows, 0, count=wrong), 1), f"{wrong!r} for a count")
        check(" not " in raises(TypeError, ls.Runs.of, [alone(dataclasses.replace(second, hour=wrong))] + rows[1:], 1), f"{wrong!r} for an hour")
    check("None" in raises(TypeError, ls.Runs.of, [None] * 64, 1), "None for a row in use")
    same(ls.Runs.of([None] * 64, 0).rows, [], "rows that are not in use")


def test_runs_are_values():
    """What is handed out is the caller's, and cannot be changed from outside."""
    runs = ls.Runs()
    same((ls.Runs.ROWS, ls.Runs.RACKS, ls.Runs.RACK_ROWS), (64, 2, 32), "the sizes")
    same((runs.used, runs.rows, runs.of_rack(0), runs.take(), runs.take(1)), (0, [], [], [], []), "an empty table")
    second = ls.Second(2024, 2, 29, 12, 0, 7)
    told = runs.add(record_at(second), rack=1)
    check(told is ls.Added.OPENED and told == "opened" and f"{told}" == "opened", f"what is told: {told!r}")
    runs.rows.clear()
    runs.of_rack(1).clear()
    same((runs.rows, runs.of_rack(1), runs.of_rack(0)), ([alone(second, 1)], [alone(second).run], []), "rows, after the list was cleared")
    kept = [alone(second, 1)] + [None] * 63
    other = ls.Runs.of(kept, 1)
    kept[0] = None
    same((other.add(record_at(dataclasses.replace(second, second=8)), 1), runs.rows), ("joined", [alone(second, 1)]), "two tables")
    check("cannot assign" in raises(dataclasses.FrozenInstanceError, setattr, second, "second", 8), "a Second is changed")
    check("cannot assign" in raises(dataclasses.FrozenInstanceError, setattr, runs.rows[0], "rack", 0), "a Row is changed")
    check("cannot assign" in raises(dataclasses.FrozenInstanceError, setattr, runs.rows[0].run, "count", 8), "a Run is changed")
    same((second.date, str(second), len({second, dataclasses.replace(second)})), (ls.Date(2024, 2, 29), "2024-02-29 12:00:07", 1), "a Second")
    same(pickle.loads(pickle.dumps((runs.rows, told))), (runs.rows, told), "rows kept in a file")


# ---- Refusals and forms ----


def readme_rows():
    path = ROOT / "scripts/test-messages.py"
    module = importlib.util.module_from_spec(importlib.util.spec_from_file_location("messages", path))
    module.__spec__.loader.exec_module(module)
    return module.table()


def test_messages():
    rows = {(number, re.sub(r"(?<=.)([A-Z])", r"_\1", name).upper(), meaning) for number, name, meaning in readme_rows()}
    found = {(int(refusal), refusal.name, refusal.meaning) for refusal in ls.Refusal}
    for row in sorted(rows ^ found):
        check(False, f"in {'README.md' if row in rows else 'refusal.py'} alone: {row}")
    check(rows and rows == found, "the texts of README.md and of refusal.py differ")


def test_refused():
    for refusal in ls.Refusal:
        refused = pickle.loads(pickle.dumps(ls.Refused(refusal)))
        same((refused.refusal, refused.number, refused.meaning), (refusal, int(refusal), refusal.meaning), "an exception")
        same(str(refused), f"refused with {int(refusal)}: {refusal.meaning}", "an exception's text")
        check(isinstance(refused, ValueError), "Refused is a ValueError")


def test_forms():
    names = ("standard", "capture", "erlangen", "spa", "racal", "sysplex", "computime", "frame", "block", "sat", "c37118", "rmc")
    same([form.name.lower() for form in ls.Form], list(names), "the forms")
    for number, name in enumerate(names, 1):
        string = ls.write("block", ls.Record()) if name == "block" else b""
        for form in (number, name, name.upper(), str(number), ls.Form(number)):
            same(number_of(ls.read, form, string), 0 if name == "block" else 2, f"form {form!r}")
    same(ls.read("racal", b"XGU000229000000\r").date, ls.Date(2000, 2, 29), "racal")
    for form in (0, 15, 77, -1, 2**32, 2**32 + 5, 2**64 + 5, "", "0", "15", "05", " 5", "010", "012", "radio"):
        same(number_of(ls.read, form, b"XGU000229000000\r"), 1, f"form {form!r}")
    told = raises(ls.Refused, ls.read, "radio", b"")
    check("racal (5), " in told and told.endswith("c37118 (11), rmc (12)"), "an unknown name is not told which names there are")
    for form in (None, 5.0, True, b"racal"):
        check("name or a number" in raises(TypeError, ls.read, form, b""), f"form {form!r}")


def test_forms_that_are_not_serial():
    """Refused at the call, not at the first record."""
    for form in (0, 8, 9, 11, 15, 26, 28, "frame", "block", "c37118", 2**32 + 5, 2**32 + 10, 2**32 + 12):
        same(number_of(ls.heard, form, b"XGU000229000000\r"), 1, f"heard {form!r}")
        same(number_of(ls.Listener, form), 1, f"Listener {form!r}")
        same(number_of(ls.search, form, b"XGU000229000000\r"), 1, f"search {form!r}")


def test_serial_forms():
    for form in ls.Form:
        serial = form in SERIAL
        same(number_of(ls.Listener, form), 0 if serial else 1, f"Listener {form!r}")
        same(number_of(ls.search, form, b""), 12 if serial else 1, f"search {form!r}")
    check(SERIAL < set(ls.Form), "a serial form without a name")


def test_sat():
    """Strings that were worked out by hand from document 02 and manual 004."""
    record = ls.Record(12, date=ls.Date(2024, 1, 1), sync=True, utc=True, summer=False, change=False)
    string = b"\x0201.01.24/1/12:00:00UTC   \r\n\x03"
    same(ls.read("sat", string), record, "a SAT string")
    same(ls.write(ls.Form.SAT, record), string, "a SAT string, written")
    flagged = dataclasses.replace(record, sync=False, utc=False, summer=True, change=True)
    same(ls.write("sat", flagged), string.replace(b"UTC   ", b"CEST#!"), "a SAT string without sync, in summer, before a change")
    same(ls.read("sat", string.replace(b"UTC ", b"CET ")), dataclasses.replace(record, utc=False), "a SAT string in winter")
    zones = (b"UTC ", b"MEZ ", 3), (b"UTC ", b"MESZ", 3), (b"UTC ", b" UTC", 3)
    for old, new, number in (*zones, (b"UTC  ", b"UTC *", 3), (b"/1/", b"/8/", 4), (b"/1/", b"/2/", 5), (b"\r\n", b"", 2)):
        same(number_of(ls.read, "sat", string.replace(old, new)), number, f"a SAT string with {new!r}")
    for name in ("date", "sync", "utc", "summer", "change"):
        same(number_of(ls.write, "sat", dataclasses.replace(record, **{name: None})), 8, f"a SAT string without {name}")
    same([found.place for found in ls.heard("sat", b"." + string + string[:9] + string)], [1, 39], "SAT strings in a stream")


def altered(string, old, new):
    """An RMC string with some bytes replaced, and its sum made right again."""
    head, tail = string.replace(old, new).split(b"*")
    return head + b"*%02X" % functools.reduce(operator.xor, head[1:]) + tail[2:]


def test_rmc():
    """A string of a real clock, and others that were worked out by hand from document 02 and manual 002."""
    record = ls.Record(22, 9, 52, ls.Date(2023, 12, 18), ls.Hundredths(0), sync=True, position=ls.PositionInMinutes(286221, 72075))
    string = b"$GPRMC,220952.00,A,4742.21,N,01200.75,E,0.0,0.0,181223,0.0,E*5A\r\n"
    same(ls.read("rmc", string), record, "an RMC string")
    same(ls.write(ls.Form.RMC, record), string, "an RMC string, written")
    leap = ls.Record(23, 59, 60, ls.Date(2024, 2, 29), ls.Hundredths(99), sync=False, position=ls.PositionInMinutes(-1, -1))
    same(ls.write("rmc", leap), b"$GPRMC,235960.99,V,0000.01,S,00000.01,W,0.0,0.0,290224,0.0,E*44\r\n", "an RMC string of a leap second")
    same(ls.read("rmc", altered(string, b",N,", b",S,")).position, ls.PositionInMinutes(-286221, 72075), "south")
    wrong = (b"GPRMC", b"GNRMC", 3), (b",01200", b", 1200", 3), (b",A,", b",X,", 3), (b",E,0.0", b",E,0.1", 3), (b",0.0,E*", b",0.0,W*", 3)
    ranges = (b"4742", b"4760", 4), (b"4742", b"9042", 4), (b"01200", b"01260", 4), (b"01200", b"18000", 4), (b"2209", b"2409", 4), (b"1812", b"3102", 4)
    zeros = (b"4742.21,N", b"0000.00,S", 5), (b"01200.75,E", b"00000.00,W", 5)
    for old, new, number in (*wrong, *ranges, *zeros, (b"\r\n", b"\n", 2), (b"4742.21", b"4742.2100", 2)):
        same(number_of(ls.read, "rmc", altered(string, old, new)), number, f"an RMC string with {new!r}")
    for old, new, number in ((b"*5A", b"*5B", 6), (b"*5A", b"*7E", 6), (b"*5A", b"*5a", 3)):
        same(number_of(ls.read, "rmc", string.replace(old, new)), number, f"an RMC string with {new!r}")
    for name in ("date", "fraction", "sync", "position"):
        same(number_of(ls.write, "rmc", dataclasses.replace(record, **{name: None})), 8, f"an RMC string without {name}")
    same([found.place for found in ls.heard("rmc", b"." + string + string[:9] + string)], [1, 75], "RMC strings in a stream")


def frame(*ones):
    """The marks, and ones at these elements."""
    return bytes(2 if at == 0 or at % 10 == 9 else int(at in ones) for at in range(100))


def framed(offset):
    """24-01-01 00:00:00, sync yes, all else no: ones at 30, 52 and 56, without those of the offset."""
    return ls.Record(date=ls.Date(2024, 1, 1), sync=True, summer=False, offset=offset, dsp=False, lsp=False)


def test_frames():
    """Elements worked out by hand from documents 01 and 02: 65 is an hour, 64 the sign, and by 75 the ones at 1..75 are even in number."""
    without, signed, zero = frame(30, 52, 56, 65), frame(30, 52, 56, 64, 65, 75), frame(30, 52, 56, 75)
    for form, other, above, below in (("frame", "c37118", signed, without), ("c37118", "frame", without, signed)):
        for offset, string in ((60, above), (-60, below), (0, zero)):
            same(ls.write(form, framed(offset)), string, f"{form}, offset {offset}")
            same(ls.read(form, string), framed(offset), f"{form}, offset {offset}, read")
            same(ls.read(other, string), framed(-offset), f"{form}, offset {offset}, read as {other}")
        same(number_of(ls.read, form, frame(30, 52, 56, 64)), 5, f"{form}: sign 1 on a zero")
        same(number_of(ls.read, form, frame(30, 52, 56, 64, 65)), 6, f"{form}: a wrong parity")
        for offset in (45, -45, 345):
            same(number_of(ls.write, form, framed(offset)), 9, f"{form}: offset {offset}")


def test_twin_frames():
    """For every offset that a frame can say."""
    for offset in range(-840, 841, 30):
        one, other = (ls.write(form, framed(offset)) for form in (8, 11))
        differ = [at for at in range(100) if one[at] != other[at]]
        same(differ, [64, 75] if offset else [], f"where the frames of offset {offset} differ")


def test_search():
    data = b"..XGU000229000000\r.."
    same(ls.search("racal", data), ls.Found(2, ls.read("racal", data[2:18])), "search")
    same(ls.search("racal", bytearray(data), 2).place, 2, "search at the string")
    for start in (3, 20, 21, 2**32, 2**64, 2**64 + 1):
        same(number_of(ls.search, "racal", data, start), 12, f"search from {start}")
    check("start is -1" in raises(ValueError, ls.search, "racal", data, -1), "a start below 0")
    same(number_of(ls.search, "racal", b""), 12, "search in nothing")


def test_bytes():
    string = b"XGU000229000000\r"
    doubled = bytes(byte for byte in string for _ in range(2))
    for data in (bytearray(string), memoryview(string), memoryview(string + string)[:16], memoryview(doubled)[::2]):
        same(ls.read("racal", data), ls.read("racal", string), f"{data!r}")
    check("'rb'" in raises(TypeError, ls.read, "racal", string.decode()), "text for bytes")
    check("bytes-like" in raises(TypeError, ls.read, "racal", 16), "a number for bytes")
    for byte in (-1, 256):
        check("range(0, 256)" in raises(ValueError, ls.Listener("racal").feed, byte), f"byte {byte}")


def test_write_into():
    record = ls.read("racal", b"XGU000229000000\r")
    for room in (0, 15):
        buffer = bytearray(b"." * room)
        try:
            ls.write_into("racal", record, buffer)
            check(False, f"written into {room} bytes")
        except ls.Refused as refused:
            same((refused.number, buffer), (10, b"." * room), f"into {room} bytes")
            buffer.extend(b"...")
            same(len(buffer), room + 3, "a buffer that grows after a refusal")
    buffer = bytearray(b"." * 17)
    same((ls.write_into("racal", record, buffer), buffer), (16, b"XGU000229000000\r."), "into 17 bytes")


# ---- How it is found ----


def imported(folder, **environment):
    words = {name: value for name, value in os.environ.items() if not name.startswith("LINDENSCOOP")}
    code = "import lindenscoop; print(lindenscoop.read('racal', b'XGU000229000000\\r').date.year)"
    words.update(environment, PYTHONPATH=str(folder), PYTHONDONTWRITEBYTECODE="1")
    run = subprocess.run([sys.executable, "-c", code], env=words, cwd="/", capture_output=True, text=True)
    return run.stdout.strip(), run.stderr


def test_how_the_library_is_found(made):
    with tempfile.TemporaryDirectory() as prefix:
        packages = pathlib.Path(prefix, "lib/python3/site-packages")
        shutil.copytree(ROOT / "python/lindenscoop", packages / "lindenscoop", ignore=shutil.ignore_patterns("__pycache__"))
        shutil.copy(made, pathlib.Path(prefix, "lib"))
        same(imported(packages)[0], "2000", "the library in the lib folder of a prefix")
        shutil.move(str(pathlib.Path(prefix, "lib", made.name)), str(packages / "lindenscoop"))
        same(imported(packages)[0], "2000", "the library beside the module")
        out, err = imported(packages, LINDENSCOOP_LIBRARY=f"{prefix}/none.so")
        check(out == "" and "none.so" in err, "a library that is named and missing")
        check("make-shared.sh" in err and "LINDENSCOOP_LIBRARY" in err, "what to do where the library is missing is not said")


WITH_RECORDS = "read", "write", "search", "feed", "feed_all"
#: the names before there were kinds, and those that took their place
BEFORE_KINDS, RECORD_NAMES = (tuple(f"lindenscoop_{name}_{end}" for name in WITH_RECORDS) for end in ("raw", "numbers"))
#: what counted days from 2000, when all years were of 2000 and later
BEFORE_1980 = ("lindenscoop_day_number_raw",)
SAME_NAMES = "lindenscoop_start_raw", "lindenscoop_mark_raw"
#: those with which it counts from 1980
SINCE_1980 = "lindenscoop_full_year_raw", "lindenscoop_days_since_1980_raw"
#: what took rows without a rack, which are shorter
BEFORE_RACKS = ("lindenscoop_add_second_numbers",)


def test_names_from_before(made):
    """What once meant another thing has another name since, so that a module and a library from before and from after do not go together."""
    library = ctypes.CDLL(str(made))
    for name in BEFORE_KINDS + BEFORE_1980 + BEFORE_RACKS:
        check("undefined symbol" in raises(AttributeError, getattr, library, name), f"{name} is there, and a module from before would take minutes for degrees or 1991 for 2091, or lend rows of another size")
    for name in SAME_NAMES:
        check(hasattr(library, name), f"there is no {name}")
    for names, missing in ((BEFORE_KINDS, "lindenscoop_read_numbers"), (RECORD_NAMES, "lindenscoop_full_year_raw"),
                           (RECORD_NAMES + SINCE_1980 + BEFORE_RACKS, "lindenscoop_add_rack_second_numbers")):
        with tempfile.TemporaryDirectory() as folder:
            source, older = pathlib.Path(folder, "older.c"), pathlib.Path(folder, "older.so")
            source.write_text("".join(f"unsigned {name}(void) {{ return 0; }}\n" for name in names + SAME_NAMES + BEFORE_1980))
            subprocess.run([os.environ.get("CC", "cc"), "-shared", "-fPIC", source, "-o", older], check=True)
            out, err = imported(ROOT / "python", LINDENSCOOP_LIBRARY=str(older))
            check(out == "" and f"ImportError: lindenscoop: {older} has no {missing}" in err, f"a library from before is taken: {out}{err}")


def test_documentation():
    for name in ("", ".codec", ".days", ".flat", ".form", ".library", ".listener", ".record", ".refusal", ".runs"):
        module = importlib.import_module(f"lindenscoop{name}")
        result = doctest.testmod(module)
        counts[True] += result.attempted - result.failed
        counts[False] += result.failed
    check(sorted(ls.__all__) == ls.__all__ and all(getattr(ls, name).__doc__ for name in ls.__all__), "a public name without a docstring")


def run(test, *words):
    try:
        test(*words)
    except Exception:
        print(f"test-python: {test.__name__}:\n{traceback.format_exc()}")
        counts[False] += 1


def main():
    global ls
    sys.dont_write_bytecode = True
    with tempfile.TemporaryDirectory() as folder:
        subprocess.run([ROOT / "python/make-shared.sh", folder], check=True, stdout=subprocess.DEVNULL)
        made = pathlib.Path(folder, "liblindenscoop.so.0.1")
        os.environ["LINDENSCOOP_LIBRARY"] = str(made)
        sys.path.insert(0, str(ROOT / "python"))
        ls = importlib.import_module("lindenscoop")
        for name, test in list(globals().items()):
            if name.startswith("test_"):
                run(test, *([made] if name in ("test_how_the_library_is_found", "test_names_from_before") else []))
    print(f"{counts[True]} passed, {counts[False]} failed")
    return 1 if counts[False] or not counts[True] else 0


if __name__ == "__main__":
    sys.exit(main())
