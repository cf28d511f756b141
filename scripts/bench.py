#!/usr/bin/env python3
"""The benchmark: the library through its C interface, beside the C program (reference/c) and the second program (reference/program).

    scripts/bench.py [--quick]      instructions per byte or string and MB/s of every form and way, as tables
    scripts/bench.py --long         heard over streams of 1 MB to 10 GB through a pipe: speed and memory
    scripts/bench.py --compare      only builds the C program and compares its answers with the library's, as every run does first

It needs target/staticlib/liblindenscoop.a and target/bin/heard (scripts/build lindenscoop_c; scripts/build heard), gcc, cargo and valgrind, and
/usr/bin/time for --long. Instructions are counted by callgrind on 200 KB (100 KB with --quick), what a program does before and after left
out. MB/s is the best of three runs and depends on the machine and on what else runs there. With --quick sparse streams and noise are
for forms 1 and 3 only. The streams are of random records (reference/c/bench/streams.c).
"""
import functools
import os
import pathlib
import re
import subprocess
import sys
import time

ROOT = pathlib.Path(__file__).resolve().parent.parent
LIBRARY = ROOT / "target/staticlib/liblindenscoop.a"
MADE = ROOT / "target/bench"
CARGO = ROOT / "target/cargo"
FORMS = {1: "Standard", 2: "Capture", 3: "Uni Erlangen", 4: "ABB SPA", 5: "RACAL", 6: "SYSPLEX-1", 7: "Computime", 10: "SAT", 12: "RMC"}
# the forms that the program heard takes; it refuses the line of any other, and then there is nothing to measure
HEARD_FORMS = range(1, 8)
KINDS = {"dense": "strings back to back", "sparse": "one string in 960 bytes", "noise": "random bytes"}
STREAM_WAYS = ("search", "heard", "feed", "feed_all", "mark")
STRING_WAYS = ("read", "write", "block")
# the second program has one listener
SECOND_WAY = {"feed_all": "feed", "mark": "feed"}
SIDES = ("library", "C", "second")
WAYS = {"library": MADE / "ways-library", "C": MADE / "ways-c", "second": CARGO / "release/ways"}
HEARD = {"library": [ROOT / "target/bin/heard"], "C": [MADE / "heard"], "second": [CARGO / "release/reference", "heard"]}
QUICK = "--quick" in sys.argv
COUNTED = 100_000 if QUICK else 200_000
TIMED = 1_000_000 if QUICK else 5_000_000
ROUNDS = 3


def output(command, **how):
    return subprocess.run(command, check=True, stdout=subprocess.PIPE, **how).stdout


# ---- What is built ----

def compile_c(name, sources, *flags):
    """An executable in target/bench of the C program's parts and these sources."""
    parts = sorted(path for path in (ROOT / "reference/c").glob("*.c") if path.name != "heard.c")
    command = [os.environ.get("CC", "gcc"), "-std=c11", "-O3", "-Wall", "-Wextra", "-Wpedantic", "-Werror", *flags]
    include = "-I" + str(ROOT / "bindings/c/include")
    subprocess.run([*command, include, *parts, *(ROOT / "reference/c" / source for source in sources), LIBRARY, "-o", MADE / name], check=True)


def build_c():
    for needed in (LIBRARY, HEARD["library"][0]):
        if not needed.exists():
            sys.exit(f"bench: no {needed}; run `scripts/build lindenscoop_c` and `scripts/build heard` first")
    MADE.mkdir(parents=True, exist_ok=True)
    compile_c("heard", ["heard.c"])
    compile_c("streams", ["bench/random.c", "bench/streams.c"])
    compile_c("compare", ["bench/random.c", "bench/compare.c"])
    compile_c("ways-library", ["bench/ways.c"])
    compile_c("ways-c", ["bench/ways.c"], "-DPLAIN")


def build_second():
    subprocess.run(["cargo", "build", "--release", "--quiet", "--offline", "-p", "reference", "--target-dir", CARGO], check=True, cwd=ROOT)


def stream(form, kind, size):
    """A file with a form's line and a stream; the next stream of this size takes its place."""
    path = MADE / f"stream-{size}"
    path.write_bytes(output([MADE / "streams", str(form), kind, str(size)]))
    return path


# ---- That they answer the same ----

def heard_output(side, data):
    return output(HEARD[side], input=data)


def compare(sides):
    print(output([MADE / "compare", "1", "10000"]).decode(), end="", file=sys.stderr)
    inputs = [b"", b"1", b"8\n", b"0\n", b"1x", b"\n", b"7\n", b"10", b"10\n", b":\n", b"12\n", b"<\n"]
    inputs += [stream(form, kind, COUNTED).read_bytes() for form in FORMS for kind in (*KINDS, "damaged")]
    for data in inputs:
        if len({heard_output(side, data) for side in sides}) != 1:
            sys.exit(f"bench: heard prints other records on a stream that begins with {data[:40]!r}")


# ---- Instructions ----

def callgrind(command, **how):
    """The instructions of a whole run, and of each function way_*."""
    out = MADE / "callgrind.out"
    run = subprocess.run(["valgrind", "--tool=callgrind", f"--callgrind-out-file={out}", *command], check=True, capture_output=True, **how)
    functions = output(["callgrind_annotate", "--inclusive=yes", "--threshold=100", out]).decode()
    found = re.findall(r"^ *([\d,]+) .*?:way_(\w+)", functions, re.M)
    total = int(run.stderr.decode().split("Collected :")[1].split()[0])
    return total, {way: int(count.replace(",", "")) for count, way in found}, run.stdout.decode(errors="replace")


@functools.cache
def start_up(side):
    return callgrind(HEARD[side], input=b"1\n")[0]


def counts(form, kind):
    """By way and side, the instructions for each byte of a stream or for each string; all sides must have found the same."""
    path, counted, found = stream(form, kind, COUNTED), {}, {}
    for side in SIDES:
        total, by_way, printed = callgrind([WAYS[side], path])
        for way, strings in (line.split()[:2] for line in printed.splitlines()):
            found.setdefault(way, set()).add(strings)
            units = COUNTED if way in STREAM_WAYS else int(strings)
            counted[way, side] = by_way[way] / max(units, 1)
        if form in HEARD_FORMS:
            counted["heard", side] = (callgrind(HEARD[side], input=path.read_bytes())[0] - start_up(side)) / COUNTED
    if any(len(strings) > 1 for strings in found.values()):
        sys.exit(f"bench: form {form}, {kind}: not the same strings: {found}")
    return counted


# ---- MB/s ----

def timed(command, path):
    with open(path, "rb") as data:
        begin = time.perf_counter()
        subprocess.run(command, stdin=data, stdout=subprocess.DEVNULL, check=True)
        return path.stat().st_size / (time.perf_counter() - begin) / 1e6


def speeds(form, kind):
    # for `heard` long enough that its start does not count
    short, long = stream(form, kind, TIMED), stream(form, kind, 10 * TIMED)
    fast = {}
    for side in SIDES:
        for line in output([WAYS[side], short, str(ROUNDS)]).decode().splitlines():
            way, _, speed = line.split()
            fast[way, side] = float(speed)
        if form in HEARD_FORMS:
            fast["heard", side] = max(timed(HEARD[side], short if side == "second" else long) for _ in range(ROUNDS))
    return fast


# ---- The tables ----

def row(cells):
    print("| " + " | ".join(cells) + " |", flush=True)


def head(title, ways):
    print(f"\n### {title}\n")
    row(["form", *ways])
    row(["---"] * (1 + len(ways)))


def cells(figures, ways, places):
    """`library / C program / second program (library to C, library to second)` for each way, `-` for one that the form does not have."""
    for way in ways:
        if (way, "library") not in figures:
            yield "-"
            continue
        ours, plain, second = figures[way, "library"], figures[way, "C"], figures[SECOND_WAY.get(way, way), "second"]
        yield f"{ours:.{places}f} / {plain:.{places}f} / {second:.{places}f} ({ours / plain:.2f}, {ours / second:.2f})"


def tables():
    dense = {}
    for kind, meaning in KINDS.items():
        head(f"Instructions per byte, {kind}: {meaning}", STREAM_WAYS)
        for form in FORMS if kind == "dense" or not QUICK else (1, 3):
            figures = counts(form, kind)
            if kind == "dense":
                dense[form] = figures
            row([f"{form} {FORMS[form]}", *cells(figures, STREAM_WAYS, 1)])
    head("Instructions per string", STRING_WAYS)
    for form, figures in dense.items():
        row([f"{form} {FORMS[form]}", *cells(figures, STRING_WAYS, 0)])
    for kind in ("dense",) if QUICK else ("dense", "sparse"):
        head(f"MB/s, {kind}", STREAM_WAYS)
        for form in FORMS:
            row([f"{form} {FORMS[form]}", *cells(speeds(form, kind), STREAM_WAYS, 0)])


def long_run(size):
    """MB/s and the largest memory in KB, of heard behind a pipe."""
    begin = time.perf_counter()
    with subprocess.Popen([MADE / "streams", "1", "dense", str(size)], stdout=subprocess.PIPE) as source:
        command = ["/usr/bin/time", "-f", "%M", *HEARD["library"]]
        memory = subprocess.run(command, check=True, stdin=source.stdout, stdout=subprocess.DEVNULL, stderr=subprocess.PIPE).stderr
    if source.returncode:
        sys.exit("bench: the stream was not made to its end")
    return size / (time.perf_counter() - begin) / 1e6, int(memory)


def long_table():
    print("\n### heard on long streams, form 1, dense\n")
    row(["bytes", "instructions per byte", "MB/s", "largest memory, KB"])
    row(["---"] * 4)
    for size in (1_000_000, 10_000_000, 100_000_000, 10_000_000_000):
        count = "not counted"
        if size <= 10_000_000:
            count = f"{(callgrind(HEARD['library'], input=stream(1, 'dense', size).read_bytes())[0] - start_up('library')) / size:.2f}"
        speed, memory = max(long_run(size) for _ in range(ROUNDS if size <= 100_000_000 else 1))
        row([f"{size:,}", count, f"{speed:.0f}", f"{memory:,}"])


def main():
    build_c()
    if "--compare" in sys.argv:
        compare(("library", "C"))
        return
    build_second()
    compare(SIDES)
    long_table() if "--long" in sys.argv else tables()


if __name__ == "__main__":
    main()
