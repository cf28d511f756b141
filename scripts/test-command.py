#!/usr/bin/env python3
"""Tries the command lindenscoop as its users would:  test-command.py PROGRAM

It builds nothing. A technician listens on a pseudo-terminal in its default mode, somebody exports logs and has them written again,
somebody asks which seconds were heard and has a picture drawn of them, somebody asks why a log is silent, somebody tests a recorder without
a clock; and disks are full, ports closed, pipes ended.
"""
import calendar
import csv
import functools
import io
import json
import operator
import os
import pathlib
import pty
import re
import resource
import select
import signal
import subprocess
import sys
import tempfile
import termios
import time

ROOT = pathlib.Path(__file__).resolve().parent.parent
RUNS = ROOT / "tests/runs"
sys.dont_write_bytecode = True
sys.path.insert(0, str(RUNS))

from picture import Picture, faults
from seconds import at, every, heard_in, listed_of_racks, racal, wandering

# Name and length of each form that can be listened for.
FORMS = {1: ("standard", 32), 2: ("capture", 31), 3: ("erlangen", 66), 4: ("spa", 32), 5: ("racal", 16), 6: ("sysplex", 16), 7: ("computime", 24),
         10: ("sat", 29), 12: ("rmc", 65)}
A = b"\x02D:01.01.24;T:1;U:12.00.00;  U \x03"
BLOCK = (b"date=24-01-01\ntime=12:00:00\nfraction=-\nchannel=-\nsync=yes\nfix=yes\nutc=yes\nsummer=no\nchange=no\nleap=no\n"
         b"offset=-\nposition=-\ndsp=-\nlsp=-\n\n")
RACAL = b"XGU000229000000\r"
SYSPLEX = b"\x01366:23:59:60?\r\n"
COMPUTIME = b"T:24:01:01:01:12:00:00\r\n"
SAT = b"\x0201.01.24/1/12:00:00UTC   \r\n\x03"
SAT_BLOCK = (b"date=24-01-01\ntime=12:00:00\nfraction=-\nchannel=-\nsync=yes\nfix=-\nutc=yes\nsummer=no\nchange=no\nleap=-\n"
             b"offset=-\nposition=-\ndsp=-\nlsp=-\n\n")
RMC = b"$GPRMC,220952.00,A,4742.21,N,01200.75,E,0.0,0.0,181223,0.0,E*5A\r\n"
RMC_BLOCK = (b"date=23-12-18\ntime=22:09:52\nfraction=00\nchannel=-\nsync=yes\nfix=-\nutc=-\nsummer=-\nchange=-\nleap=-\n"
             b"offset=-\nposition=+4742.21 +01200.75\ndsp=-\nlsp=-\n\n")
ERLANGEN = b"\x0201.01.24; 1; 13:00:00; +00:00; #*     ;  0.0000N   0.0000E    0m\x03"
FRAMED = b'{"date":"2024-01-01","time":"00:00:00","sync":true,"summer":false,"offset":"%s","dsp":false,"lsp":false}'
SECONDS = 10
# Logs with their forms: gaps within and over minutes, with damaged strings; a leap second, a repeat and a clock set back; 150 runs, where a rack has
# 32 rows; runs days apart, over the end of 1999 and a leap day.
STORED = {"gaps": "standard", "leap": "racal", "many": "racal", "apart": "computime"}
# Logs that follow a rule: six hours with one second missing, at the beginning of a line of the picture, which is less than a hundredth of a percent; a
# day and a half with one missing and ten thousand; three hours of every other second before three whole ones; one second in every ten minutes, and one
# in every hour; a leap second alone between two gaps, and a minute alone in which nothing was heard.
MADE = {
    "hours": every("2024-05-04 17:00:00", 21600, but=[9000]),
    "day": every("2024-05-04 12:30:00", 130000, but=[43210, *range(100000, 110000)]),
    "halves": every("2024-05-04 08:00:00", 21600, but=range(1, 10800, 2)),
    "sparse": every("2024-02-27 00:00:00", 172800, 600),
    "sparser": every("2024-02-20 00:30:00", 864000, 3600),
    "alone": every("2015-06-30 23:59:40", 10) + [at("2015-06-30 23:59:60")] + every("2015-07-01 00:00:10", 40) + every("2015-07-01 00:02:30", 5),
}
# Two logs, a rack each: two forms on one evening, with seconds that are missing in both; a leap second that rack 0 alone heard; more runs in each than a
# rack has rows, in minutes that both have; a day and a day that begins later; minutes of different days; a rack of which nothing was heard. A log is one
# of the stored ones, or a list of seconds, which are sent as racal.
EVENING = every("2024-05-04 19:59:05", 260, but=[*range(5, 13), 60, 61, 62, 200])
PAIRS = {
    "pair-forms": ("gaps", EVENING),
    "pair-leap": ("leap", every("2016-12-31 23:59:45", 30, but=[14])),
    "pair-many": ("many", every("2024-05-04 09:10:00", 1200, but=range(7, 1200, 9))),
    "pair-day": (every("2024-05-04 00:00:00", 86400, but=[43210, *range(50000, 53000)]),
                 every("2024-05-04 02:30:00", 86400, but=[34210, *range(42000, 44000), 70001])),
    "pair-days": (every("2024-05-04 20:00:00", 100), every("2024-05-06 08:00:00", 70, but=[20])),
    "pair-nothing": (EVENING, "undated"),
}

program = ""
counts = {"passed": 0, "failed": 0}
started = []


def check(name, good, told=""):
    counts["passed" if good else "failed"] += 1
    if not good:
        print("failed: %s: %s" % (name, told))


def run(*words, given=b"", **more):
    """Status, standard output and standard error of a run."""
    if "stdout" not in more:
        more["stdout"] = subprocess.PIPE
    if "stdin" not in more:
        more["input"] = given
    done = subprocess.run([program, *words], stderr=subprocess.PIPE, timeout=SECONDS, **more)
    return done.returncode, done.stdout, done.stderr.decode()


def log(form):
    return ROOT / ("tests/csv/form-%d.log" % form)


def wait_for(stream, wanted):
    """Reads from a stream until it has told what is wanted, or ends."""
    told, until = b"", time.monotonic() + SECONDS
    while wanted not in told:
        if not select.select([stream], [], [], max(0, until - time.monotonic()))[0]:
            raise TimeoutError("waited for %r, and there was %r" % (wanted, told))
        part = os.read(stream.fileno(), 4096)
        if not part:
            break
        told += part
    return told


def start(*words, **more):
    pipes = {"stdin": subprocess.DEVNULL, "stdout": subprocess.PIPE, "stderr": subprocess.PIPE}
    started.append(subprocess.Popen([program, *words], **{**pipes, **more}))
    return started[-1]


def finish(process):
    """Ends a process that did not end by itself; its status and standard error."""
    try:
        error = process.communicate(timeout=SECONDS)[1]
    except subprocess.TimeoutExpired:
        process.kill()
        error = process.communicate()[1] + b" (had to be killed)"
    return process.returncode, error.decode()


# ---- help, usage ----

def test_help():
    status, out, _ = run("--help")
    check("--help", status == 0 and b"listen" in out and b"simulate" in out, out)
    for name in ["listen", "export", "runs", "why", "write", "simulate"]:
        status, out, _ = run(name, "--help")
        check(name + " --help", status == 0 and out.startswith(b"lindenscoop " + name.encode()), out)
    status, out, _ = run("--version")
    check("--version", status == 0 and out.startswith(b"lindenscoop ") and out.count(b".") == 2, out)


def test_usage():
    wrong = [[], ["hear"], ["listen"], ["listen", "-"], ["listen", "-", "--form", "racl"], ["listen", "-", "--form", "frame"],
             ["listen", "-", "--form", "0"], ["listen", "-", "--form"], ["listen", "-", "--form", "1", "--baud", "fast"],
             ["listen", "-", "--form", "1", "--framing", "9N1"], ["listen", "-", "--form", "1", "--loud"],
             ["export", "--form", "1", "-"], ["export", "--json", "--csv", "--form", "1", "-"], ["export", "--csv", "--form", "1"],
             ["why"], ["why", "-", "-"], ["write"], ["write", "racl"], ["write", "15"], ["listen", "-", "--form", "11"],
             ["listen", "-", "--form", "block"], ["export", "--csv", "--form", "8", "-"], ["export", "--csv", "--form", "c37118", "-"],
             ["write", "010"], ["write", "012"], ["listen", "-", "--form", "gprmc"], ["runs"], ["runs", "-"], ["runs", "--form", "1"],
             ["runs", "--form", "1", "-", "-"], ["runs", "--form", "block", "-"], ["runs", "--form", "1", "--loud", "-"],
             ["runs", "--form", "1", "--csv", "--json", "-"], ["runs", "--form", "1", "--svg"], ["runs", "--form", "1", "--title", "a", "-"],
             ["runs", "--form", "1", "--svg", "-", "--title", " ", "-"], ["runs", "--form", "1", "--svg", "-", "--csv", "-"],
             ["runs", "--form", "1", "--svg", "-", "--json", "-"], ["runs", "--form", "1", "--baud", "fast", "-"],
             ["runs", "--form", "1", "a", "b", "c"], ["runs", "--form", "1", "--form", "5", "-"], ["runs", "--form", "1", "--form", "5", "--form", "7", "a", "b"],
             ["runs", "--form", "1", "--form", "block", "a", "b"], ["runs", "--form", "1", "--csv", "--csv", "-"], ["export", "--csv", "--form", "1", "--form", "5", "-"]]
    for words in wrong:
        status, out, error = run(*words)
        check("usage of %s" % words, status == 2 and out == b"" and "--help" in error, (status, error))
    numbered = ", ".join("%s (%d)" % (name, form) for form, (name, _) in FORMS.items())
    for name in ("frame", "block", "c37118"):
        error = run("listen", "-", "--form", name)[2]
        check("not listened for: " + name, numbered in error and name + " is not listened" in error, error)
    names = [name for name, _ in FORMS.values()]
    for words in (["listen", "-"], ["runs", "-"], ["write"], ["simulate"]):
        error = run(*words)[2]
        check("the forms are named: %s" % words, all(name in error for name in names), error)
        check("those that are not listened for: %s" % words, ("block" in error) == (words[0] in ("write", "simulate")), error)


# ---- listen ----

def test_listen_pipe():
    for form in ["standard", "1", "Standard"]:
        status, out, error = run("listen", "-", "--form", form, given=b"D:0" + A)
        check("listen to a pipe for " + form, (status, out) == (0, BLOCK) and "end bytes=35 telegrams=1" in error, (status, error))
    for form in ["sat", "10", "SAT"]:
        status, out, error = run("listen", "-", "--form", form, given=b"D:0\x02" + SAT + SAT[:28])
        check("listen to a pipe for " + form, (status, out) == (0, SAT_BLOCK) and "end bytes=61 telegrams=1" in error, (status, error))
    for form in ["rmc", "12", "RMC"]:
        status, out, error = run("listen", "-", "--form", form, given=b"$GP" + RMC + RMC[:64])
        check("listen to a pipe for " + form, (status, out) == (0, RMC_BLOCK) and "end bytes=132 telegrams=1" in error, (status, error))
    status, out, error = run("listen", "-", "--form", "racal", given=A)
    check("nothing heard", (status, out) == (1, b"") and "telegrams=0" in error, (status, error))


def test_listen_like_heard():
    # the program heard takes these alone
    for form in range(1, 8):
        name = FORMS[form][0]
        given = (ROOT / ("tests/heard/form_%d.in" % form)).read_bytes()[2:]
        wanted = (ROOT / ("tests/heard/form_%d.out" % form)).read_bytes()
        _, out, error = run("listen", "-", "--form", name, given=given)
        check("listen prints as heard: " + name, out + error.encode() == wanted, error)


def test_listen_port():
    """A pseudo-terminal in its default mode: ETX would be the interrupt key, CR become LF."""
    for name, string in [("standard", A), ("racal", RACAL), ("computime", COMPUTIME), ("sat", SAT), ("rmc", RMC)]:
        clock, port = pty.openpty()
        before = termios.tcgetattr(port)
        process = start("listen", os.ttyname(port), "--form", name, "--baud", "9600")
        said = wait_for(process.stderr, b"Ctrl-C")
        during = termios.tcgetattr(port)
        check("port raw with its speed", during[3] == 0 and during[0] == 0 and during[4] == termios.B9600, (said, during[:6]))
        began = time.monotonic()
        os.write(clock, b"noise" + string)
        first = wait_for(process.stdout, b"\n\n")
        check("heard at once: " + name, first.count(b"time=") == 1 and time.monotonic() - began < 5, first)
        os.write(clock, string[:9])
        os.write(clock, string[9:])
        check("heard in parts: " + name, wait_for(process.stdout, b"\n\n") == first, "")
        process.send_signal(signal.SIGINT)
        status, error = finish(process)
        check("Ctrl-C: " + name, status == 0 and "end bytes=%d telegrams=2" % (5 + 2 * len(string)) in error, (status, error))
        check("port put back: " + name, termios.tcgetattr(port) == before, "")
        os.close(clock)
        os.close(port)


def test_export_port():
    clock, port = pty.openpty()
    process = start("export", "--csv", "--form", "racal", os.ttyname(port))
    wait_for(process.stdout, b"longitude_minutes\n")
    until = time.monotonic() + SECONDS
    while termios.tcgetattr(port)[3] != 0 and time.monotonic() < until:
        time.sleep(0.01)
    os.write(clock, RACAL)
    row = wait_for(process.stdout, b"\n")
    process.send_signal(signal.SIGINT)
    status, error = finish(process)
    check("export from a port", status == 0 and row.startswith(b"0,2000-02-29") and "telegrams=1" in error, (status, row, error))
    os.close(clock)
    os.close(port)


def test_listen_port_fails():
    clock, port = pty.openpty()
    process = start("listen", os.ttyname(port), "--form", "1")
    wait_for(process.stderr, b"Ctrl-C")
    os.write(clock, A)
    wait_for(process.stdout, b"\n\n")
    os.close(port)
    os.close(clock)
    status, error = finish(process)
    check("closed port", status == 3 and "closed or unplugged" in error and "telegrams=1" in error, (status, error))
    clock, port = pty.openpty()
    before = termios.tcgetattr(port)
    status, _, error = run("listen", os.ttyname(port), "--form", "1", "--framing", "7E1")
    check("framing that the port does not take", status == 3 and "7E1" in error, (status, error))
    check("port put back after that", termios.tcgetattr(port) == before, "")
    process = start("listen", os.ttyname(port), "--form", "1")
    wait_for(process.stderr, b"Ctrl-C")
    process.send_signal(signal.SIGTERM)
    status, error = finish(process)
    check("nothing heard on a port", status == 1 and "bytes=0 telegrams=0" in error, (status, error))
    os.close(clock)
    os.close(port)


def test_listen_reader_ends():
    """Whoever reads the output goes away while the clock is silent."""
    clock, port = pty.openpty()
    process = start("listen", os.ttyname(port), "--form", "1")
    wait_for(process.stderr, b"Ctrl-C")
    process.stdout.close()
    process.stdout = None
    status, error = finish(process)
    check("reader of the output ends", status == 3 and "ended" in error, (status, error))
    os.close(clock)
    os.close(port)


def test_listen_record(folder):
    kept = folder / "kept.log"
    given = b"noise" + A + b"\r\n\x00" + A[:5]
    status, out, error = run("listen", "-", "--form", "1", "--record", str(kept), given=given)
    check("record", (status, out) == (0, BLOCK) and kept.read_bytes() == given, (status, error))
    status, _, error = run("listen", "-", "--form", "1", "--record", str(kept), given=A)
    check("a recording is not overwritten", status == 2 and kept.read_bytes() == given, (status, error))
    status, _, error = run("listen", "-", "--form", "1", "--record", str(folder / "none/kept"), given=A)
    check("a recording that cannot be made", status == 3 and "none/kept" in error, (status, error))


def writing_end(pipe):
    """Opens a named pipe, once somebody reads it."""
    until = time.monotonic() + SECONDS
    while True:
        try:
            return os.open(pipe, os.O_WRONLY | os.O_NONBLOCK)
        except OSError:
            if time.monotonic() > until:
                raise
            time.sleep(0.01)


def test_listen_named_pipe(folder):
    """A named pipe is waited for, and Ctrl-C ends the waiting."""
    pipe = folder / "listened"
    os.mkfifo(pipe)
    process = start("listen", str(pipe), "--form", "racal")
    clock = writing_end(pipe)
    os.write(clock, RACAL)
    os.close(clock)
    status, error = finish(process)
    check("named pipe", status == 0 and "end bytes=16 telegrams=1" in error, (status, error))
    process = start("listen", str(pipe), "--form", "racal")
    time.sleep(0.2)
    process.send_signal(signal.SIGINT)
    status, error = finish(process)
    check("Ctrl-C at a pipe without a writer", status == 1 and "bytes=0" in error, (status, error))


# ---- on a terminal ----

def test_terminal(folder):
    """Progress of a long file and a red error on a terminal; the file stopped before its end is a failure."""
    long = folder / "long.log"
    with open(long, "wb") as file:
        file.truncate(1 << 36)
    seen, terminal = pty.openpty()
    process = start("export", "--csv", "--form", "1", str(long), stdout=subprocess.DEVNULL, stderr=terminal, env={**os.environ, "TERM": "xterm"})
    with os.fdopen(seen, "rb", buffering=0) as screen:
        told = wait_for(screen, b"%, 0 strings")
        process.send_signal(signal.SIGINT)
        told += wait_for(screen, b"not whole")
    os.close(terminal)
    check("progress", b"long.log: " in told and b" %, 0 strings" in told, told)
    check("Ctrl-C in a file", process.wait(SECONDS) == 3 and b"stopped before the end" in told, (process.returncode, told))
    check("red on a terminal", b"\x1b[31mlindenscoop:" in told, told)
    long.unlink()


# ---- export ----

def as_cell(key, value):
    """The CSV cell of a JSON value."""
    if value is None:
        return ""
    if isinstance(value, bool):
        return "yes" if value else "no"
    digits = {"latitude": 4, "longitude": 4, "latitude_minutes": 2, "longitude_minutes": 2}.get(key)
    return str(value) if digits is None else "%.*f" % (digits, value)


def test_export():
    for form, (name, _) in FORMS.items():
        wanted = log(form).with_suffix(".csv").read_text()
        status, out, _ = run("export", "--csv", "--form", name, str(log(form)))
        rows = list(csv.DictReader(io.StringIO(out.decode())))
        without = "".join(line.split(",", 1)[1] for line in out.decode().splitlines(True))
        check("CSV of " + name, status == 0 and without == wanted, out[:200])
        status, out, _ = run("export", "--json", "--form", str(form), "-", given=log(form).read_bytes())
        lines = [json.loads(line) for line in out.splitlines()]
        cells = [{key: as_cell(key, value) for key, value in line.items()} for line in lines]
        check("JSON as CSV of " + name, status == 0 and lines and cells == rows, out[:200])


def test_export_absent():
    status, out, _ = run("export", "--json", "--form", "racal", "-", given=b".." + RACAL)
    line = json.loads(out)
    sent = {"place": 2, "date": "2000-02-29", "time": "00:00:00"}
    check("absent is null", len(line) == 20 and all(line[key] == sent.get(key) for key in line), out)
    _, out, _ = run("export", "--csv", "--form", "racal", "-", given=b".." + RACAL)
    check("absent is an empty cell", out.splitlines()[1] == b"2,2000-02-29,,00:00:00" + b"," * 16, out)
    line = json.loads(run("export", "--json", "--form", "sat", "-", given=SAT.replace(b"UTC   ", b"CEST#!"))[1])
    sent = {"place": 0, "date": "2024-01-01", "time": "12:00:00", "sync": False, "utc": False, "summer": True, "change": True}
    check("what a SAT string carries", len(line) == 20 and all(line[key] == sent.get(key) for key in line), line)
    line = json.loads(run("export", "--json", "--form", "rmc", "-", given=RMC)[1])
    sent = {"place": 0, "date": "2023-12-18", "time": "22:09:52", "fraction": "0.00", "sync": True, "latitude_minutes": 2862.21,
            "longitude_minutes": 720.75}
    check("what an RMC string carries", len(line) == 20 and all(line[key] == sent.get(key) for key in line), line)
    line = json.loads(run("export", "--json", "--form", "3", "-", given=ERLANGEN)[1])
    zero = [line[key] for key in ("offset", "latitude", "longitude", "altitude", "utc", "latitude_minutes", "longitude_minutes")]
    check("zero that was sent", zero == ["+00:00", 0, 0, 0, None, None, None], line)
    out = run("export", "--csv", "--form", "12", "-", given=rmc(b"4742.21", b"0000.00"))[1]
    check("zero that was sent in minutes", out.splitlines()[1].endswith(b",,0.00,720.75"), out)


def test_export_years():
    """The year has its century, by the rule of W-205: 80 to 99 are 1980 to 1999, 00 to 79 are 2000 to 2079."""
    for yy in range(100):
        year = "%d" % (yy + (1900 if yy >= 80 else 2000))
        string = b"XGU%02d0630000000\r" % yy
        row = run("export", "--csv", "--form", "racal", "-", given=string)[1].splitlines()[1]
        line = run("export", "--json", "--form", "racal", "-", given=string)[1]
        told = (row.split(b",")[1].decode(), json.loads(line)["date"], run("write", "racal", given=line)[1])
        check("the year of %02d" % yy, told == (year + "-06-30", year + "-06-30", string), told)
    tuesday = A.replace(b"01.01.24;T:1", b"01.01.91;T:2")
    out = run("export", "--csv", "--form", "1", "-", given=tuesday + tuesday.replace(b"T:2", b"T:1"))[1]
    check("1991 with its weekday alone", [line.split(b",")[:2] for line in out.splitlines()[1:]] == [[b"0", b"1991-01-01"]], out)


def test_export_pieces():
    """Strings over the ends of pieces, each found once and at its place."""
    count = 30000
    given = b"".join(b"." * (i % 5) + RACAL for i in range(count))
    places, at = [], 0
    for i in range(count):
        places.append(at + i % 5)
        at += i % 5 + len(RACAL)
    _, out, _ = run("export", "--csv", "--form", "racal", "-", given=given)
    check("places over pieces", [int(line.split(b",")[0]) for line in out.splitlines()[1:]] == places, len(out))
    process = start("export", "--csv", "--form", "racal", "-", stdin=subprocess.PIPE)
    process.stdin.write(RACAL)
    process.stdin.flush()
    check("flushed at each read", b"2000-02-29" in wait_for(process.stdout, b"2000-02-29"), "")
    for byte in RACAL:
        process.stdin.write(bytes([byte]))
        process.stdin.flush()
    process.stdin.close()
    out = process.stdout.read()
    check("byte by byte", out.startswith(b"16,2000-02-29") and out.count(b"\n") == 1 and process.wait(SECONDS) == 0, out)
    process.stdout.close()


def test_export_files(folder):
    one, two = folder / "a,\"b\".log", folder / "two.log"
    one.write_bytes(RACAL[:9])
    two.write_bytes(RACAL[9:] + RACAL)
    _, out, _ = run("export", "--csv", "--form", "racal", str(one), str(two))
    rows = list(csv.DictReader(io.StringIO(out.decode())))
    check("files apart", [(row["file"], row["place"]) for row in rows] == [(str(two), "7")], out)
    one.write_bytes(RACAL)
    _, out, _ = run("export", "--csv", "--form", "racal", str(one), str(two))
    rows = list(csv.DictReader(io.StringIO(out.decode())))
    check("names in CSV", [row["file"] for row in rows] == [str(one), str(two)], out)
    _, out, _ = run("export", "--json", "--form", "racal", str(one), str(two))
    check("names in JSON", [json.loads(line)["file"] for line in out.splitlines()] == [str(one), str(two)], out)
    status, out, error = run("export", "--json", "--form", "racal", str(folder / "none"), str(two))
    check("a file that is not there", status == 3 and out.count(b"\n") == 1 and "none" in error, (status, error))


# ---- runs ----

def runs_cases():
    """Each log with its form and its bytes."""
    for name, form in STORED.items():
        yield name, form, (RUNS / (name + ".log")).read_bytes()
    for name, seconds in MADE.items():
        yield name, "racal", racal(seconds)


def rows_of(out):
    """Rows of CSV, with None for an empty cell."""
    cells = [[cell or None for cell in row] for row in csv.reader(io.StringIO(out.decode()))]
    names = [["rack", "kind", "first", "last", "seconds"]]
    return [(int(row[0]), *row[1:4], row[4] and int(row[4])) for row in cells[1:]] if cells[:1] == names else []


def objects_of(out):
    """Rows of JSON, whose keys are in one order."""
    objects = [json.loads(line) for line in out.splitlines()]
    return [tuple(each.values()) for each in objects if list(each) == ["rack", "kind", "first", "last", "seconds"]]


def text_of(lines):
    """Rows of text, without their racks; None for a line that is none."""
    line = r"(\w+) +(?:([-\d]+ [:\d]+)   ([-\d]+ [:\d]+) +|the next second is )(?:the same again|(\d+) s)(?: earlier)?"
    found = [re.fullmatch(line, text) for text in lines]
    return [match and (*match.groups()[:3], match[4] and int(match[4])) for match in found]


def sums_of(rows):
    """The line of sums of a rack's rows, as far as records that are passed over."""
    of = {kind: [row[4] for row in rows if row[1] == kind] for kind in ("heard", "missing", "repeat", "back")}
    numbers = len(of["heard"]), sum(of["heard"]), len(of["missing"]), sum(of["missing"]), len(of["repeat"]), len(of["back"])
    return "runs %d, seconds heard %d, gaps %d, seconds missing %d, repeats %d, steps back %d, records passed over " % numbers


WAYS = {"txt": [], "csv": ["--csv"], "json": ["--json"], "svg": ["--svg", "-", "--title", "Great hall, rack A & B"]}


def test_runs_stored():
    """The stored outputs, byte for byte, each made twice."""
    for name, form, data in runs_cases():
        for end, words in WAYS.items():
            stored = RUNS / ("%s.%s" % (name, end))
            if name not in (*STORED, "hours", "day"):
                continue
            for _ in range(2):
                status, out, error = run("runs", "--form", form, *words, "-", given=data)
                check("stored: " + stored.name, status == 0 and out == stored.read_bytes(), (status, error, out[:200]))
            check("counts of " + stored.name, error.startswith("end bytes=%d telegrams=" % len(data)), error)


def test_runs_listed():
    """CSV, JSON, text and sums are what is worked out from the log second by second."""
    for name, form, data in runs_cases():
        wanted = listed_of_racks([heard_in(form, data)])
        check("runs as CSV: " + name, rows_of(run("runs", "--csv", "--form", form, "-", given=data)[1]) == wanted, "")
        check("runs as JSON: " + name, objects_of(run("runs", "--json", "--form", form, "-", given=data)[1]) == wanted, "")
        *lines, sums = run("runs", "--form", form, "-", given=data)[1].decode().splitlines()
        check("runs as text: " + name, text_of(lines) == [row[1:] for row in wanted], lines[:5])
        widths = {len(text) for text in lines if text.split()[0] in ("heard", "missing")}
        check("runs in columns: " + name, len(widths) == 1, widths)
        spelled = sums_of(wanted) + "0"
        check("sums of runs: " + name, sums == spelled, sums)
        check("sums beside CSV: " + name, run("runs", "--csv", "--form", form, "-", given=data)[2].splitlines()[1:] == [spelled], "")


def test_runs_pictures():
    """What the pictures show is what is worked out from the logs, in the line that a page has room for."""
    lines = {"gaps": 60, "leap": 60, "many": 60, "apart": 60, "hours": 600, "halves": 600, "day": 3600, "sparse": 3600, "sparser": 86400, "alone": 60}
    for name, form, data in runs_cases():
        status, out, error = run("runs", "--svg", "-", "--form", form, "-", given=data)
        found = faults(out, heard_in(form, data))
        check("picture of " + name, status == 0 and not found, (status, error, found[:5]))
        check("line of the picture of " + name, Picture(out).line == lines[name], Picture(out).line)


def pair_cases(folder):
    """Each case of two logs: name, the words that name forms and logs, the seconds of each rack, how many records it passes over."""
    for name, logs in PAIRS.items():
        words, racks, passed_over = [], [], []
        for rack, seconds in zip("ab", logs):
            form = {**STORED, "undated": "sysplex"}.get(seconds, "racal") if isinstance(seconds, str) else "racal"
            data = (RUNS / (seconds + ".log")).read_bytes() if isinstance(seconds, str) else racal(seconds)
            path = folder / ("rack-%s.log" % rack)
            path.write_bytes(data)
            words += ["--form", form, str(path)]
            racks.append([] if seconds == "undated" else heard_in(form, data))
            passed_over.append(12 if seconds == "undated" else 0)
        yield name, words, racks, passed_over


def test_runs_pairs_stored(folder):
    """The stored outputs of two logs, byte for byte."""
    for name, logs, racks, _ in pair_cases(folder):
        for end, words in WAYS.items():
            stored = RUNS / ("%s.%s" % (name, end))
            status, out, error = run("runs", *words, *logs)
            check("stored: " + stored.name, status == (0 if all(racks) else 1) and out == stored.read_bytes(), (status, error, out[:200]))


def test_runs_pairs_listed(folder):
    """CSV, JSON, text, sums and pictures of two racks are what is worked out from each log by itself."""
    lines = {"pair-forms": 60, "pair-leap": 60, "pair-many": 600, "pair-day": 3600, "pair-days": 60, "pair-nothing": 60}
    for name, logs, racks, passed_over in pair_cases(folder):
        wanted = listed_of_racks(racks)
        of_rack = [[row for row in wanted if row[0] == rack] for rack in (0, 1)]
        sums = [sums_of(rows) + str(count) for rows, count in zip(of_rack, passed_over)]
        _, out, error = run("runs", "--csv", *logs)
        check("two racks as CSV: " + name, rows_of(out) == wanted, out[:200])
        told = [line for line in error.splitlines() if ": runs " in line]
        check("sums beside CSV: " + name, [text.split(", refused")[0] for text in told] == ["rack %d: %s" % each for each in enumerate(sums)], told)
        check("two racks as JSON: " + name, objects_of(run("runs", "--json", *logs)[1]) == wanted, "")
        text = run("runs", *logs)[1].decode().splitlines()
        heads = [at for at, line in enumerate(text) if line.startswith("rack ")]
        check("headings: " + name, [text[at] for at in heads] == ["rack %d: rack-%s.log, form %s" % (rack, "ab"[rack], logs[3 * rack + 1]) for rack in (0, 1)], heads)
        for rack, part in enumerate([text[1:heads[-1]], text[heads[-1] + 1:]]):
            check("rack %d as text: %s" % (rack, name), text_of(part[:-1]) == [row[1:] for row in of_rack[rack]], part[:5])
            check("sums of rack %d: %s" % (rack, name), part[-1].split(", refused")[0] == sums[rack], part[-1])
        out = run("runs", "--svg", "-", *logs)[1]
        found = faults(out, *racks)
        check("picture of " + name, not found, found[:5])
        check("the other rack's seconds are noticed in the picture of " + name, faults(out, *racks[::-1]), "")
        check("line of the picture of " + name, Picture(out).line == lines[name], Picture(out).line)
        headings = [words for words in Picture(out).words if words.startswith("Rack ")]
        check("names of the racks in the picture of " + name, headings == ["Rack 0: rack-a.log", "Rack 1: rack-b.log"], headings)


def test_runs_pairs_wandering(folder):
    """Two clocks that leave seconds out, repeat, are set back and have leap seconds: each is told what it is told alone."""
    for seed in range(40):
        racks = wandering(seed), wandering(1000 + seed % 4)
        paths = [folder / name for name in ("first.log", "second.log")]
        for path, seconds in zip(paths, racks):
            path.write_bytes(racal(seconds))
        out = run("runs", "--csv", "--form", "racal", *map(str, paths))[1]
        check("racks of seed %d" % seed, rows_of(out) == listed_of_racks(racks), out[:200])
        alone = [run("runs", "--csv", "--form", "racal", str(path))[1].splitlines()[1:] for path in paths]
        check("a rack as alone, seed %d" % seed, out.splitlines()[1:] == alone[0] + [b"1" + line[1:] for line in alone[1]], out[:200])
        found = faults(run("runs", "--svg", "-", "--form", "racal", *map(str, paths))[1], *racks)
        check("picture of racks of seed %d" % seed, not found, found[:5])


def test_runs_pairs_forms(folder):
    """A form for both logs, or one for each, wherever they stand; standard input is either log."""
    path = folder / "evening.log"
    path.write_bytes(racal(EVENING))
    gaps = (RUNS / "gaps.log").read_bytes()
    racks = [heard_in("standard", gaps), EVENING]
    wanted = listed_of_racks(racks)
    of_first = [row for row in wanted if row[0] == 0]
    for words, told in ((["--form", "standard", "--form", "racal", "-", str(path)], (0, wanted)), (["-", "--form=1", str(path), "--form=5"], (0, wanted)),
                        (["--form", "1", "--", "-", str(path)], (1, of_first))):
        status, out, error = run("runs", "--csv", *words, given=gaps)
        check("forms of two logs %s" % words, (status, rows_of(out)) == told, (status, error))
    status, out, error = run("runs", "--json", "--form", "racal", "--form", "standard", str(path), "-", given=gaps)
    check("standard input as rack 1", (status, objects_of(out)) == (0, listed_of_racks(racks[::-1])), (status, error))
    status, out, _ = run("runs", "--svg", "-", "--form", "racal", "--form", "standard", str(path), "-", given=gaps)
    drawn = Picture(out)
    check("names of two logs as the title", (drawn.root[0].text, drawn.words[0]) == ("evening.log and standard input",) * 2, drawn.words[:3])
    forms = [words for words in drawn.words if words.startswith("Time strings of form")]
    check("forms of two racks in a picture", [words.split(",")[0].split()[-1] for words in forms] == ["racal", "standard"], forms)
    odd = folder / "odd\nrack 7: \x1b.log"
    odd.write_bytes(RACAL)
    out = run("runs", "--form", "racal", str(odd), str(path))[1]
    check("a name that would be two lines", out.startswith("rack 0: odd\ufffdrack 7: \ufffd.log, form racal\nheard ".encode()), out[:80])


def test_runs_pairs_nothing(folder):
    """A rack of which nothing was heard is status 1 and told, and the other one is whole; the picture says so."""
    heard, silent, drawn = folder / "heard.log", folder / "silent.log", folder / "one.svg"
    heard.write_bytes(racal(EVENING))
    silent.write_bytes(A)
    for logs in ([heard, silent], [silent, heard]):
        rack, other = logs.index(silent), logs.index(heard)
        wanted = listed_of_racks([EVENING if log == heard else [] for log in logs])
        drawn.unlink(missing_ok=True)
        status, out, error = run("runs", "--csv", "--form", "racal", "--svg", str(drawn), *map(str, logs))
        check("nothing of rack %d" % rack, (status, rows_of(out)) == (1, wanted), (status, out[:200]))
        told = "rack %d: no string of racal was heard; `lindenscoop why FILE`" % rack
        check("rack %d is told" % rack, told in error and "rack %d: no string" % other not in error, error)
        found = faults(drawn.read_bytes(), *(EVENING if log == heard else [] for log in logs))
        check("picture without rack %d" % rack, not found, found[:5])
    drawn.unlink()
    status, out, error = run("runs", "--form", "racal", "--svg", str(drawn), str(silent), str(silent))
    check("nothing of both racks", status == 1 and error.count("no string of racal was heard") == 2 and b"heard  " not in out, (status, out, error))
    check("no picture of nothing of both racks", not drawn.exists(), "")


def test_runs_pairs_fail(folder):
    """A log that fails is told, does not keep the other from being listed, and leaves no picture; one that is not there is told before all else."""
    heard, drawn = folder / "heard.log", folder / "failed.svg"
    heard.write_bytes(racal(EVENING))
    for logs in ([heard, folder], [folder, heard]):
        status, out, error = run("runs", "--csv", "--form", "racal", "--svg", str(drawn), *map(str, logs))
        rows = listed_of_racks([EVENING if log == heard else [] for log in logs])
        check("a directory as rack %d" % logs.index(folder), (status, rows_of(out)) == (3, rows) and "directory" in error and not drawn.exists(), (status, error))
    status, out, error = run("runs", "--form", "racal", str(folder), str(folder))
    check("two directories", status == 3 and error.count("directory") == 2, (status, error))
    for logs in ([heard, folder / "none"], [folder / "none", heard]):
        status, out, error = run("runs", "--csv", "--form", "racal", *map(str, logs))
        check("a second log that is not there", (status, out) == (3, b"") and "none" in error, (status, out, error))
    with open("/dev/full", "wb") as full:
        status, _, error = run("runs", "--form", "racal", "--svg", str(drawn), str(heard), str(heard), stdout=full)
    check("full disk: two racks", status == 3 and error.count("cannot write") == 1 and not drawn.exists(), (status, error))


def test_runs_pairs_ports(folder):
    """Two logs are read one behind the other, so that a port is refused, with words on what to do."""
    heard = folder / "heard.log"
    heard.write_bytes(racal(EVENING))
    clock, port = pty.openpty()
    before = termios.tcgetattr(port)
    for logs in ([os.ttyname(port), str(heard)], [str(heard), os.ttyname(port)], [os.ttyname(port)] * 2):
        status, out, error = run("runs", "--form", "racal", *logs)
        check("a port beside a log", (status, out) == (2, b"") and os.ttyname(port) in error and "--record FILE" in error, (status, out, error))
    check("the port is as it was", termios.tcgetattr(port) == before, "")
    os.close(clock)
    os.close(port)


def test_runs_pairs_stopped(folder):
    """Ctrl-C in one of two logs is a failure; what was heard before is printed, and the sums of a log that was not read to its end are not."""
    heard, long, drawn = folder / "heard.log", folder / "long rack.log", folder / "stopped.svg"
    heard.write_bytes(racal(EVENING))
    with open(long, "wb") as file:
        file.write(racal(EVENING))
        file.truncate(1 << 36)
    sums = (sums_of(listed_of_racks([EVENING])) + "0\n").encode()
    for logs, count, told in (([heard, long], 1, b"\nrack 1: long rack.log"), ([long, heard], 0, b"rack 0: long rack.log")):
        process = start("runs", "--form", "racal", *map(str, logs), "--svg", str(drawn))
        out = wait_for(process.stdout, told)
        while b"heard " not in out.split(told)[1]:
            out += wait_for(process.stdout, b"heard ")
        process.send_signal(signal.SIGINT)
        out += process.stdout.read()
        status, error = finish(process)
        check("Ctrl-C in rack %d" % logs.index(long), status == 3 and "stopped before the end of" in error and not drawn.exists(), (status, error))
        check("sums of what was read to its end", out.count(sums) == count and out.count(b"seconds heard") == count, out)
        check("the log that was not read is told", ("stopped before %s was read; rack 1 is not in the list" % heard in error) == (logs[0] == long), error)
    long.unlink()
    process = start("runs", "--csv", "--form", "racal", "-", str(heard), stdin=subprocess.PIPE)
    process.stdin.write(racal(EVENING))
    process.stdin.flush()
    out = wait_for(process.stdout, b"0,heard")
    process.send_signal(signal.SIGINT)
    out += process.stdout.read()
    process.stdin.close()
    process.stdin = None
    status, error = finish(process)
    check("Ctrl-C in a pipe before a log", status == 3 and "was read; rack 1" in error and b"\n1," not in out, (status, error, out[-200:]))


def test_runs_wandering():
    """A clock that goes on, leaves some seconds out, repeats, is set back and has leap seconds."""
    for seed in range(40):
        seconds = wandering(seed)
        out = run("runs", "--csv", "--form", "racal", "-", given=racal(seconds))[1]
        check("runs of seed %d" % seed, rows_of(out) == listed_of_racks([seconds]), out[:200])
        found = faults(run("runs", "--svg", "-", "--form", "racal", "-", given=racal(seconds))[1], seconds)
        check("picture of seed %d" % seed, not found, found[:5])


def test_runs_one_second():
    """One missing second in lines of ten minutes and of an hour: two pixels wide, with a triangle above and its number at the right."""
    for name in ("hours", "day"):
        drawn = Picture(run("runs", "--svg", "-", "--form", "racal", "-", given=racal(MADE[name]))[1])
        marks = [piece for kind in ("missing", "mixed") for piece in drawn.pieces(kind) if piece.missing == 1]
        check("one missing second of " + name, [piece.width for piece in marks] == [2], marks)
        check("its triangle: " + name, [(piece.x + 1, piece.y) in drawn.triangles() for piece in marks] == [True], drawn.triangles())
        numbers = [text.text for text in drawn.group("lines") if text.get("fill") == "#c62828" and text.text == "1"]
        check("its number: " + name, len(numbers) == 1, numbers)


def test_runs_title(folder):
    """Letters that XML has for itself, and names that are long; without a title it is the file's name without its folder."""
    path = folder / "<hall> & \"rack\".log"
    path.write_bytes(RACAL * 2)
    draw = lambda *words: Picture(run("runs", "--svg", "-", "--form", "racal", *words)[1])
    for drawn, title in ((draw(str(path)), path.name), (draw(str(path), "--title=</text>]]>"), "</text>]]>"), (draw("--title", "a\tb\x1b", str(path)), "a b\ufffd")):
        check("title " + title, (drawn.root[0].text, drawn.words[0]) == (title, title), drawn.words[:2])
    long = ("Ä <b> " * 50).strip()
    drawn = draw("--title", long, str(path))
    check("a long title", len(drawn.words[0]) < 90 and " ".join(drawn.words).startswith(long), drawn.words[:5])
    status, out, _ = run("runs", "--svg", "-", "--form", "racal", "-", given=RACAL)
    check("standard input as the title", status == 0 and Picture(out).words[0] == "standard input", out[:300])


def test_runs_nothing(folder):
    """Nothing heard is status 1, with words on what to do, and leaves no picture."""
    drawn = folder / "nothing.svg"
    status, out, error = run("runs", "--form", "sysplex", "--svg", str(drawn), str(RUNS / "undated.log"))
    wanted = "end bytes=192 telegrams=12\n", "12 strings of sysplex", "refused with 14: ", "whole date, such as standard"
    check("strings without a date", (status, out) == (1, b"") and all(words in error for words in wanted), (status, out, error))
    check("no picture of strings without a date", not drawn.exists(), "")
    for words, head in ((["--csv"], b"rack,kind,first,last,seconds\n"), (["--json"], b""), ([], b""), (["--svg", "-"], b"")):
        status, out, error = run("runs", "--form", "racal", *words, "-", given=A)
        check("nothing heard %s" % words, (status, out) == (1, head) and "lindenscoop why" in error and "telegrams=0" in error, (status, out, error))


def small_files():
    resource.setrlimit(resource.RLIMIT_FSIZE, (1000, 1000))


def test_runs_picture_fails(folder):
    """A picture is a new file, and is whole or not there."""
    drawn, kept = folder / "new.svg", folder / "kept.svg"
    words = ["runs", "--form", "racal", "-", "--svg"]
    status, out, error = run(*words, str(drawn), given=RACAL)
    check("list and picture", status == 0 and out.startswith(b"heard ") and drawn.read_bytes() == run(*words, "-", given=RACAL)[1], (status, error))
    kept.write_bytes(b"kept")
    status, out, error = run(*words, str(kept), given=RACAL)
    check("a picture is not overwritten", (status, out, kept.read_bytes()) == (2, b"", b"kept") and "already" in error, (status, error))
    status, out, error = run(*words, str(folder / "none/new.svg"), given=RACAL)
    check("a picture that cannot be made", (status, out) == (3, b"") and "none/new.svg" in error, (status, error))
    for path in (folder, folder / "no such log"):
        drawn.unlink(missing_ok=True)
        status, _, error = run("runs", "--form", "racal", str(path), "--svg", str(drawn))
        check("no picture where the log fails", status == 3 and not drawn.exists(), (status, error))
    # Python ignores the signal of a file that is too large, and hands that on here
    status, _, error = run(*words, str(drawn), given=RACAL, preexec_fn=small_files, restore_signals=False)
    check("a picture without room", status == 3 and "new.svg" in error and "not whole" in error and not drawn.exists(), (status, error))
    with open("/dev/full", "wb") as full:
        status, _, error = run(*words, str(drawn), given=RACAL, stdout=full)
    check("no picture where the list fails", status == 3 and "space" in error and not drawn.exists(), (status, error))


def test_runs_stopped(folder):
    """A log that is not read to its end is a failure, and no picture of it is left."""
    long, drawn = folder / "long runs.log", folder / "stopped.svg"
    with open(long, "wb") as file:
        file.write(racal(MADE["hours"][:100]))
        file.truncate(1 << 36)
    process = start("runs", "--form", "racal", str(long), "--svg", str(drawn))
    until = time.monotonic() + SECONDS
    while not drawn.exists() and time.monotonic() < until:
        time.sleep(0.01)
    process.send_signal(signal.SIGINT)
    out = process.stdout.read()
    status, error = finish(process)
    check("Ctrl-C in a log", status == 3 and "stopped before the end" in error and not drawn.exists(), (status, error))
    check("no sums of a part", b"seconds heard" not in out, out)
    long.unlink()


def test_runs_at_once():
    """A run is printed when it is ended, and the last one at the end; a port is listened to until Ctrl-C."""
    given = racal(every("2024-05-04 20:00:00", 3) + every("2024-05-04 20:00:10", 1))
    process = start("runs", "--csv", "--form", "racal", "-", stdin=subprocess.PIPE)
    process.stdin.write(given)
    process.stdin.flush()
    first = wait_for(process.stdout, b",3\n")
    check("a run when it is ended", first.endswith(b"0,heard,2024-05-04 20:00:00,2024-05-04 20:00:02,3\n"), first)
    process.stdin.close()
    rest = process.stdout.read().splitlines()
    check("the last run at the end", rest[-1:] == [b"0,heard,2024-05-04 20:00:10,2024-05-04 20:00:10,1"] and process.wait(SECONDS) == 0, rest)
    clock, port = pty.openpty()
    process = start("runs", "--form", "racal", "--baud", "9600", os.ttyname(port))
    wait_for(process.stderr, b"Ctrl-C")
    os.write(clock, given)
    wait_for(process.stdout, b" 3 s\n")
    process.send_signal(signal.SIGINT)
    rest = process.stdout.read()
    status, error = finish(process)
    check("runs of a port", status == 0 and rest.endswith(b"steps back 0, records passed over 0\n") and b" 7 s\n" in rest and "telegrams=4" in error, (status, rest, error))
    os.close(clock)
    os.close(port)


# ---- failures ----

def test_failures(folder):
    given = folder / "a.log"
    given.write_bytes(A * 3)
    commands = {"listen": ["listen", "--form", "1"], "export": ["export", "--csv", "--form", "1"], "json": ["export", "--json", "--form", "1"],
                "runs": ["runs", "--form", "1"], "runs as CSV": ["runs", "--csv", "--form", "1"], "picture": ["runs", "--form", "1", "--svg", "-"],
                "why": ["why"]}
    for name, words in commands.items():
        with open("/dev/full", "wb") as full:
            status, _, error = run(*words, str(given), stdout=full)
        check("full disk: " + name, status == 3 and "space" in error, (status, error))
        status, _, error = run(*words, str(folder))
        check("a directory: " + name, status == 3 and "directory" in error, (status, error))
        status, _, error = run(*words, str(folder / "nothing"))
        check("no such file: " + name, status == 3 and "nothing" in error, (status, error))
        read, write = os.pipe()
        os.close(read)
        status, _, error = run(*words, str(given), stdout=write)
        os.close(write)
        check("ended pipe: " + name, status == 3 and "ended" in error, (status, error))
        for closed in ["1>&-", "0<&-"]:
            done = subprocess.run(["sh", "-c", '"$@" - ' + closed, "sh", program, *words], capture_output=True, timeout=SECONDS, input=b"")
            check("closed %s: %s" % (closed, name), done.returncode == 3 and b"closed" in done.stderr, done)
    line = b'{"date":"2024-02-29","time":"12:00:00"}'
    with open("/dev/full", "wb") as full:
        status, _, error = run("write", "racal", given=line, stdout=full)
        check("full disk: write", status == 3 and "space" in error, (status, error))
        check("full disk: write, refused", run("write", "standard", given=line, stdout=full)[0] == 1, "")
    status, _, error = run("write", "racal", str(folder))
    check("a directory: write", status == 3 and "directory" in error, (status, error))
    with open("/dev/full", "wb") as full:
        check("full disk: --help", run("--help", stdout=full)[0] == 3, "")
    check("no colour in a pipe", b"\x1b" not in b"".join([run("why", "-", given=A)[1], run("hear")[2].encode()]), "")


# ---- why ----

def why(name, given, *wanted, status=1):
    answer, out, error = run("why", "-", given=given)
    missing = [text for text in wanted if text not in out.decode()]
    check("why: " + name, answer == status and not missing, (answer, missing, out.decode(), error))


def even_parity(given):
    return bytes(byte | (bin(byte).count("1") % 2) << 7 for byte in given)


def test_why():
    why("heard", A * 2, "1 standard   strings heard: 2\n", "5 racal      strings heard: 0\n", status=0)
    why("empty file", b"", "the file is empty", "\n  10 sat        strings heard: 0\n  12 rmc        strings heard: 0\n")
    why("sum", b">900WD:24-01-01 12.00;00.000:00\r", "1 near miss", "refused with 6: the SPA or RMC sum", "at byte 29, its byte 29: in the checksum",
        "\"00\"; the bytes have the sum 3A")
    why("weekday", b".." + A.replace(b"T:1", b"T:2"), "refused with 5: two parts disagree", "begins at byte 2 and fails at byte 16", "the weekday")
    why("weekday of erlangen", ERLANGEN.replace(b"; 1;", b"; 2;"), "refused with 5", "the weekday, which is \"2\"")
    why("second 60 of erlangen", ERLANGEN.replace(b"00:00; +", b"00:60; +"), "refused with 5", "the letter of second 60")
    why("no such date", A.replace(b"01.01.24", b"30.02.24"), "refused with 4", "the day, which is \"30\"")
    why("no such date and no such hour", RACAL.replace(b"0229000000", b"0431250000"), "refused with 4", "the day, which is \"31\"")
    why("hour", RACAL.replace(b"29000000", b"29240000"), "refused with 4", "the hour, which is \"24\"")
    why("wrong byte", A.replace(b"12.00", b"12:00"), "refused with 3", "fails at byte 20", "':' instead of '.'")
    why("cut", A * 2 + A[:9], "refused with 2", "begins at byte 64 and fails at byte 73", status=0)
    why("CR removed", (SYSPLEX * 3).replace(b"\r", b""), "no CR left", "not raw", "strings of sysplex heard: 3")
    why("CR became LF", (RACAL * 3).replace(b"\r", b"\n"), "LF instead of CR", "not raw", "strings of racal heard: 3")
    why("CR LF became LF LF", (COMPUTIME * 3).replace(b"\r", b"\n"), "not raw", "strings of computime heard: 3")
    why("CR dropped", (RACAL * 3).replace(b"\r", b""), "CR was left out", "strings of racal heard: 3")
    why("parity", even_parity(A * 3), "parity", "7E1", "strings of standard heard: 3")
    why("CRLF conversion", (COMPUTIME * 3).replace(b"\n", b"\r\n"), "text mode", "strings of computime heard: 3")
    why("STX and ETX dropped", (A * 3).replace(b"\x02", b"").replace(b"\x03", b"\n"), "STX and ETX", "strings of standard heard: 3")
    why("caret letters", (A * 3).replace(b"\x02", b"^B").replace(b"\x03", b"^C"), "spelled out", "strings of standard heard: 3")
    why("wide", (A * 3).decode().encode("utf-16-le"), "UTF-16", "strings of standard heard: 3")
    why("wrong speed", bytes(i * 89 % 251 for i in range(900)), "the speed or the framing")
    why("blocks", BLOCK * 2, "the file holds blocks")
    for name in ("frame", "c37118"):
        why("a frame of " + name, run("write", name, given=FRAMED % b"+01:00")[1], "IEEE1344 frame, form 8 or 11, ", "the sign of the offset")
    why("other text", b"hello\r\n" * 20, "of none of these forms")


def test_why_sat():
    """What befalls SAT strings: ends that a recorder drops or turns, and clocks by the manuals whose words are not taken."""
    why("SAT heard", SAT * 2, "10 sat        strings heard: 2\n", " 3 erlangen   strings heard: 0\n", status=0)
    german = b"".join(SAT.replace(b"UTC ", word) for word in (b"MEZ ", b"MESZ", b"MEZ "))
    only = "Only UTC, CET and CEST are taken, the words of manual 004"
    why("German zones", german, "10 sat        strings heard: 0, 3 near misses", "3 refused with 3", "fails at byte 20, its byte 20: \"MEZ \" in the zone",
        "the zone is MEZ or MESZ", only, "strings of sat heard: 3")
    why("some German zones", SAT + german, "strings heard: 1, 3 near misses", only, "strings of sat heard: 4", status=0)
    out = run("why", "-", given=german)[1]
    check("why: one hint on zones", out.count(b"hint:") == 1 and b"'*'" not in out, out)
    for word in (b"UTC ", b"MEZ "):
        why("position for sync, %s" % word, SAT.replace(b"UTC  ", word + b"*") * 2, "is '*', which tells of the position", "strings of sat heard: 2")
    check("why: no hint on words that are right", b"hint:" not in run("why", "-", given=SAT + SAT.replace(b"/1/", b"/2/"))[1], "")
    why("zone", SAT.replace(b"UTC ", b"CETS"), "refused with 3", "\"CETS\" in the zone, which is \"UTC \", \"CET \" or \"CEST\"")
    why("weekday of SAT", SAT.replace(b"/1/", b"/3/"), "refused with 5", "the weekday, which is \"3\"")
    why("SAT with CR removed", (SAT * 3).replace(b"\r", b""), "no CR left", "strings of sat heard: 3")
    why("SAT with CR become LF", (SAT * 3).replace(b"\r", b"\n"), "not raw", "strings of sat heard: 3")
    why("SAT without STX and ETX", (SAT * 3).replace(b"\x02", b"").replace(b"\x03", b""), "STX and ETX", "strings of sat heard: 3")
    why("SAT with ETX as the interrupt key", (SAT * 3).replace(b"\r", b"\n").replace(b"\x03", b""), "interrupt key", "strings of sat heard: 3")
    why("SAT with parity", even_parity(SAT * 3), "parity", "strings of sat heard: 3")
    why("SAT from a screen", (SAT * 3).replace(b"\x02", b"<STX>").replace(b"\r\n\x03", b"<CR><LF><ETX>"), "spelled out", "strings of sat heard: 3")


def rmc(old, new):
    """The RMC string with some bytes replaced, and its sum made right again."""
    head, tail = RMC.replace(old, new).split(b"*")
    return head + b"*%02X" % functools.reduce(operator.xor, head[1:]) + tail[2:]


def test_why_rmc():
    """What befalls RMC strings, and receivers that send them otherwise."""
    why("RMC heard", RMC * 2, "12 rmc        strings heard: 2\n", status=0)
    why("another talker", rmc(b"GP", b"GN") * 3, "3 refused with 3", "its byte 2: 'N' instead of 'P'", "of another talker than GP", "Only $GPRMC is taken",
        "strings of rmc heard: 3")
    why("spaces for zeros", rmc(b",01200", b", 1200"), "space in the degrees of longitude", "manual 002 speaks of spaces", "strings of rmc heard: 1")
    why("sum of RMC", RMC.replace(b"*5A", b"*00"), "refused with 6", "in the checksum, which is \"00\"; the bytes have the sum 5A")
    why("60 minutes", rmc(b"4742", b"4760"), "refused with 4", "in the minutes of latitude, which is \"60.21\"; a degree has 60 minutes")
    why("beyond 180 degrees", rmc(b"01200", b"18000"), "refused with 4", "in the minutes of longitude, which is \"00.75\"; behind the last degree")
    why("S on a zero", rmc(b"4742.21,N", b"0000.00,S"), "refused with 5", "in north or south, which is \"S\"; on a zero it is 'N'")
    why("a speed", rmc(b"E,0.0", b"E,1.5"), "refused with 3", "RMC strings of another layout: 1", "65 bytes: speed \"1.5\" instead of 0.0")
    why("more digits", b".." + rmc(b"4742.21", b"4742.2100"), "refused with 3", "begins at byte 2 and has 67 bytes: latitude \"4742.2100\" instead of bbbb.bb",
        "65 bytes, as a Meinberg")
    other = b"$GNRMC,053232.438,A,3114.8789,N,12135.2442,E,0.26,167.42,020315,,,A*70\r\n"
    why("another receiver", other * 2, "of another layout: 2; the first begins at byte 0 and has 72 bytes: talker \"GN\" instead of GP, time \"053232.438\"",
        "variation \"\" instead of 0.0", "\"A\" behind these")
    why("RMC beside another", RMC + other, "strings heard: 1\n", "of another layout: 1; the first begins at byte 65", status=0)
    why("other NMEA strings", b"$GPZDA,221023.00,18,12,2023,00,00*61\r\n" * 3, "no RMC string among them", "switch RMC on")
    for name, given in (("right", RMC), ("a sum wrong", RMC.replace(b"*5A", b"*00")), ("damaged", RMC + RMC.replace(b"4742", b"47x2"))):
        check("why: no hint where there is none to give: " + name, b"hint:" not in run("why", "-", given=given)[1], run("why", "-", given=given)[1])
    why("RMC with CR removed", (RMC * 3).replace(b"\r", b""), "no CR left", "strings of rmc heard: 3")
    why("RMC with CR become LF", (RMC * 3).replace(b"\r", b"\n"), "not raw", "strings of rmc heard: 3")
    why("RMC with parity", even_parity(RMC * 3), "parity", "strings of rmc heard: 3")
    why("RMC from a screen", (RMC * 3).replace(b"\r\n", b"<CR><LF>"), "spelled out", "strings of rmc heard: 3")


def test_why_tells_forms_apart():
    """Standard, Erlangen and SAT strings all begin with STX, and RMC strings have digits as they do; of each the form is told, no other is near."""
    strings = {"standard": A, "erlangen": ERLANGEN, "sat": SAT, "rmc": RMC}
    for name, string in strings.items():
        status, out, _ = run("why", "-", given=string * 3)
        heard = [line.split() for line in out.decode().splitlines() if "strings heard" in line]
        told = [(words[1], words[4:]) for words in heard]
        wanted = [(form, ["3"] if form == name else ["0"]) for form, _ in FORMS.values()]
        check("why tells apart: " + name, (status, told) == (0, wanted), out.decode())
    out = run("why", "-", given=b"".join(strings.values()) * 2)[1].decode()
    for name in strings:
        check("why counts each of a mixed stream: " + name, " %-10s strings heard: 2\n" % name in out and "near" not in out, out)
        places = [line.split(b",")[0] for line in run("export", "--csv", "--form", name, "-", given=b"".join(strings.values()))[1].splitlines()[1:]]
        check("export finds its own alone: " + name, len(places) == 1, places)


def test_why_dumps():
    given = COMPUTIME * 5
    lines = [given[at:at + 16] for at in range(0, len(given), 16)]
    text = lambda part: "".join(chr(byte) if 32 <= byte < 127 else "." for byte in part)
    dumps = {
        "plain": given.hex(),
        "spaced": given.hex(" "),
        "xxd": "\n".join("%08x: %-39s  %s" % (16 * at, part.hex(" ", -2), text(part)) for at, part in enumerate(lines)),
        "hexdump -C": "\n".join("%08x  %s  %s  |%s|" % (16 * at, part[:8].hex(" "), part[8:].hex(" "), text(part)) for at, part in enumerate(lines)),
        "od": "\n".join("%07o %s" % (16 * at, part.hex(" ")) for at, part in enumerate(lines)),
        "hexdump": "\n".join("%07x %s" % (16 * at, " ".join("%02x%02x" % (part[i + 1], part[i]) for i in range(0, len(part), 2)))
                             for at, part in enumerate(lines)),
    }
    for name, dump in dumps.items():
        why("dump of " + name, dump.encode() + b"\n", "hex dump", "strings of computime heard: 5")


# ---- write ----

def test_write_back():
    for form, (name, length) in FORMS.items():
        given = log(form).read_bytes()
        lines = run("export", "--json", "--form", name, "-", given=given)[1]
        places = [json.loads(line)["place"] for line in lines.splitlines()]
        wanted = b"".join(given[place:place + length] for place in places)
        status, out, error = run("write", name, given=lines)
        check("written again: " + name, status == 0 and places and out == wanted, (status, error, out[:80]))
        again = "".join(json.dumps(json.loads(line)) + "\r\n" for line in lines.splitlines()).encode()
        status, out, error = run("write", str(form), "-", given=again)
        check("written again after another program: " + name, status == 0 and out == wanted, (status, error, out[:80]))


def test_write_other_forms():
    line = run("export", "--json", "--form", "1", "-", given=A)[1]
    check("write a block", run("write", "block", given=line)[:2] == (0, BLOCK[:-1]), "")
    status, out, error = run("write", "sysplex", given=b'{"date":"2023-12-31","time":"23:59:59","sync":true}')
    check("day of year of a date", out == b"\x01365:23:59:59 \r\n", (status, out, error))


def test_write_frames():
    """The ones of case L, and with an hour of offset, worked out from document 02, W-203: 65 is the hour, 64 the sign, 75 the parity."""
    zero, without, signed = [30, 52, 56, 75], [30, 52, 56, 65], [30, 52, 56, 64, 65, 75]
    for names, above, below in ((("frame", "8"), signed, without), (("c37118", "C37118", "11"), without, signed)):
        for name in names:
            for offset, wanted in ((b"+00:00", zero), (b"+01:00", above), (b"-01:00", below)):
                status, out, error = run("write", name, given=FRAMED % offset)
                ones = [at for at, element in enumerate(out) if element == 1]
                check("write %s, offset %s" % (name, offset), status == 0 and len(out) == 100 and ones == wanted, (status, ones, error))
        status, out, error = run("write", names[0], given=FRAMED % b"+00:45")
        check("write %s in quarters" % names[0], (status, out) == (1, b"") and names[0] + " refused with 9" in error, (status, out, error))


def test_write_sat():
    """A record with sync and without, in each zone; what the form does not carry is not asked for, and what it carries is."""
    head = b'{"date":"2024-01-01","time":"12:00:00","change":false,'
    zones = {b'"utc":true,"summer":false': b"UTC ", b'"utc":false,"summer":false': b"CET ", b'"utc":false,"summer":true': b"CEST"}
    for zone, word in zones.items():
        for sync, letter in ((b"true", b" "), (b"false", b"#")):
            line = head + zone + b',"sync":' + sync + b"}"
            status, out, error = run("write", "sat", given=line)
            check("write %s, sync %s" % (word, sync), (status, out) == (0, SAT.replace(b"UTC  ", word + letter)), (status, out, error))
            out = run("write", "10", given=line.replace(b'"change":false', b'"change":true,"leap":true,"fix":false'))[1]
            check("write %s before a change" % word, out == SAT.replace(b"UTC   ", word + letter + b"!"), out)
    for key in (b'"sync":null', b'"fix":true'):
        status, out, error = run("write", "sat", given=head + b'"utc":true,"summer":false,' + key + b"}")
        check("write SAT without sync: %s" % key, (status, out) == (1, b"") and "sat refused with 8" in error, (status, out, error))
    status, out, error = run("write", "sat", given=head + b'"utc":true,"summer":true,"sync":true}')
    check("write SAT in utc and summer", (status, out) == (1, b"") and "sat refused with 7" in error, (status, out, error))


def test_write_rmc():
    """The kinds that the form carries are asked for, and none is made of another."""
    head = b'{"date":"2023-12-18","time":"22:09:52","sync":true,'
    kinds = b'"fraction":"0.00","latitude_minutes":2862.21,"longitude_minutes":720.75}'
    for name in ("rmc", "12", "RMC"):
        status, out, error = run("write", name, given=head + kinds)
        check("write " + name, (status, out) == (0, RMC), (status, out, error))
    south = kinds.replace(b"2862.21", b"-0.01").replace(b"720.75", b"-10800").replace(b"0.00", b"0.99")
    out = run("write", "rmc", given=head.replace(b"true", b"false") + south)[1]
    wanted = rmc(b".00,A,4742.21,N,01200.75,E", b".99,V,0000.01,S,18000.00,W")
    check("write RMC in the south, without sync", out == wanted, out)
    degrees = b'"latitude":47.35,"longitude":8.0625,"altitude":431}'
    for other in (b'"fraction":"0.000",' + kinds.split(b",", 1)[1], b'"fraction":"0.00",' + degrees, b'"fraction":"0.00"}', kinds.split(b",", 1)[1]):
        status, out, error = run("write", "rmc", given=head + other)
        check("write RMC of %s" % other, (status, out) == (1, b"") and "rmc refused with 8" in error, (status, out, error))
    for form in ("spa", "capture"):
        status, out, error = run("write", form, given=head + b'"channel":0,' + kinds)
        check("hundredths are not written as " + form, (status, out) == (1, b"") and "refused with 8" in error, (status, out, error))
    for latitude in (b"5400.01", b"99999"):
        status, out, error = run("write", "rmc", given=head + kinds.replace(b"2862.21", latitude))
        check("beyond the pole: %s" % latitude, (status, out) == (1, b"") and "rmc refused with 7" in error, (status, out, error))
    block = run("write", "block", given=head + kinds)[1]
    check("a block of minutes", block + b"\n" == RMC_BLOCK, block)


def test_write_refused():
    good = b'{"date":"2024-02-29","time":"12:00:00"}'
    wrong = {
        b"time": b"column 1", b'{"date":"2024-02-29"}': b"\"time\" is missing", b'{"date":"2024-02-29","time":"12:00"}': b"\"time\" must be",
        b'{"date":"2023-02-29","time":"12:00:00"}': b"refused with 7", b'{"time":"12:00:00"}': b"refused with 8",
        b'{"date":"1979-12-31","time":"12:00:00"}': b"1980 to 2079", b'{"date":20240229,"time":"12:00:00"}': b"must be a string",
        b'{"date":"2080-01-01","time":"12:00:00"}': b"1980 to 2079", b'{"date":"0091-01-01","time":"12:00:00"}': b"1980 to 2079",
        b'{"date":"2024-02-29","time":"12:00:00","snyc":true}': b"no field \"snyc\"", b'{"time":"12:00:00","time":"12:00:01"}': b"twice",
        b'{"time":"12:00:00","date":"2024-02-29","day_of_year":60}': b"one of them must be null", good + b"}": b"nothing more",
        b'{"time":"12:00:00","latitude":1.5}': b"together", b'{"time":"12:00:00","longitude":1.5,"altitude":1}': b"together",
        b'{"time":"12:00:00","fraction":"0.1"}': b"2, 3 or 7 digits", b'{"time":"12:00:00","fraction":"0.1234"}': b"2, 3 or 7 digits",
        b'{"time":"12:00:00","latitude_minutes":1.5}': b"must be there together, or both be null",
        b'{"time":"12:00:00","latitude_minutes":null,"longitude_minutes":1.5}': b"must be there together, or both be null",
        b'{"time":"12:00:00","latitude":1,"longitude":1,"altitude":1,"latitude_minutes":1,"longitude_minutes":1}': b"are both there; give the kind",
        b'{"time":"12:00:00","latitude_minutes":1.005,"longitude_minutes":1}': b"two digits",
        b'{"time":"12:00:00","altitude":1,"latitude_minutes":1,"longitude_minutes":1}': b"together",
        b'{"time":"12:00:00","latitude_minutes":"1","longitude_minutes":1}': b"must be a number or null",
        b'{"time":"12:00:00","latitude_minutes":1,"longitude_minutes":100000}': b"no minutes of arc",
        b'{"time":"12:00:00","offset":"01:00"}': b"offset", b'{"time":"12:00:00","sync":1}': b"true, false or null",
        b'{"time":"12:00:00","channel":-1}': b"whole number", b'{"time":"12:00:00","latitude":1.23456,"longitude":1,"altitude":1}': b"four digits",
        b'{"time":"12:00:00","x":"\xff"}': b"UTF-8", b'{"time":"12:00:00","position":[1]}': b"expected a string",
    }
    for line, why_not in wrong.items():
        status, out, error = run("write", "racal", given=good + b"\n" + line + b"\n" + good)
        told = "line 2: " in error and why_not.decode() in error and "refused: 1" in error
        check("refused: %s" % line, status == 1 and out == b"XGU240229120000\r" * 2 and told, (status, out, error))
    status, out, error = run("write", "racal", given=b"\n")
    check("no line", (status, out) == (1, b"") and "no line" in error, (status, error))


# ---- simulate ----

def test_simulate_pipe():
    for name, _ in FORMS.values():
        clock = start("simulate", name, "--count", "40", "--interval", "0", "--damage", "4")
        status, out, error = run("export", "--json", "--form", name, "-", stdin=clock.stdout)
        clock.stdout.close()
        told = clock.stderr.read().decode()
        clock.stderr.close()
        good = status == 0 and out.count(b"\n") == 30 and clock.wait(SECONDS) == 0
        check("simulate into a pipe: " + name, good and "end sent=40 damaged=10 lost=0" in told, (status, out.count(b"\n"), error, told))


def test_simulate_time():
    """One string a second, with the running time in it."""
    began = time.time()
    status, out, error = run("simulate", "standard", "--count", "2")
    ended = time.time()
    lines = [json.loads(line) for line in run("export", "--json", "--form", "1", "-", given=out)[1].splitlines()]
    told = [calendar.timegm(time.strptime(line["date"] + line["time"], "%Y-%m-%d%H:%M:%S")) for line in lines]
    good = len(told) == 2 and int(began) < told[0] < told[1] <= ended
    check("simulate the running time", status == 0 and good, (told, began, ended, error))
    out = run("simulate", "racal", "--count", "16", "--interval", "0", "--damage", "4")[1]
    check("several kinds of damage", len(out) != 256 and out.count(b"XGU") >= 12, out)
    began = time.monotonic()
    run("simulate", "racal", "--count", "4", "--interval", "0.1")
    check("interval", time.monotonic() - began >= 0.3, time.monotonic() - began)
    for name, length in [("frame", 100), ("c37118", 100), ("block", None)]:
        status, out, _ = run("simulate", name, "--count", "1", "--interval", "0")
        check("simulate " + name, status == 0 and len(out) == (length or len(out)) and len(out) >= 100, (status, out))


def test_simulate_pty():
    clock = start("simulate", "standard", "--pty", "--interval", "0.05", "--damage", "3")
    name = wait_for(clock.stdout, b"\n").decode().strip()
    recorder = start("listen", name, "--form", "standard")
    heard = wait_for(recorder.stdout, b"\n\n")
    while heard.count(b"\n\n") < 4 and recorder.poll() is None:
        heard += wait_for(recorder.stdout, b"\n\n")
    recorder.send_signal(signal.SIGINT)
    status, error = finish(recorder)
    check("listen to a simulated clock", status == 0 and heard.count(b"sync=yes") >= 4, (status, error, heard))
    clock.send_signal(signal.SIGINT)
    status, error = finish(clock)
    check("Ctrl-C ends a simulated clock", status == 0 and "end sent=" in error and "damaged=0" not in error, (status, error))


def test_simulate_to(folder):
    path = folder / "clock.log"
    status, _, error = run("simulate", "racal", "--to", str(path), "--count", "3", "--interval", "0")
    check("simulate into a file", status == 0 and len(path.read_bytes()) == 48, (status, error))
    fast = ["simulate", "racal", "--interval", "0"]
    status, _, error = run(*fast, "--to", "/dev/full")
    check("full disk: simulate", status == 3 and "space" in error, (status, error))
    status, _, error = run(*fast, "--to", str(folder))
    check("a directory: simulate", status == 3 and "directory" in error, (status, error))
    pipe = folder / "pipe"
    os.mkfifo(pipe)
    reader = os.open(pipe, os.O_RDONLY | os.O_NONBLOCK)
    clock = start("simulate", "racal", "--to", str(pipe), "--interval", "3600")
    select.select([reader], [], [], SECONDS)
    os.close(reader)
    status, error = finish(clock)
    check("ended pipe: simulate", status == 3 and "ended" in error, (status, error))
    for words in [["simulate"], ["simulate", "racal", "--pty", "--to", "x"], ["simulate", "racal", "--damage", "0"],
                  ["simulate", "racal", "--count", "-1"], ["simulate", "racal", "--interval", "-1"], ["simulate", "racal", "x"]]:
        status, out, error = run(*words)
        check("usage of %s" % words, status == 2 and out == b"" and "--help" in error, (status, error))


def test_simulate_port():
    """A serial port as the target is set raw, so that no LF becomes CR LF."""
    recorder, port = pty.openpty()
    status, _, error = run("simulate", "computime", "--to", os.ttyname(port), "--count", "2", "--interval", "0")
    out = b""
    # a pseudo-terminal hands bytes on in its own time, and in parts
    while select.select([recorder], [], [], SECONDS if len(out) < 48 else 0.2)[0]:
        out += os.read(recorder, 4096)
    check("simulate onto a port", status == 0 and len(out) == 48 and out.count(b"\r\n") == 2, (status, out, error))
    os.close(recorder)
    os.close(port)


def attempt(name, test, folder):
    """Runs a test; what it leaves running is ended."""
    try:
        test(folder) if test.__code__.co_argcount else test()
    except Exception as error:
        check(name, False, repr(error))
    for process in started:
        if process.poll() is None:
            process.kill()
            process.wait()
    started.clear()


def main():
    global program
    if len(sys.argv) != 2:
        sys.exit("usage: test-command.py PROGRAM")
    program = str(pathlib.Path(sys.argv[1]).resolve())
    with tempfile.TemporaryDirectory() as folder:
        for name, test in list(globals().items()):
            if name.startswith("test_"):
                attempt(name, test, pathlib.Path(folder))
    print("%(passed)d passed, %(failed)d failed" % counts)
    sys.exit(1 if counts["failed"] else 0)


if __name__ == "__main__":
    main()
