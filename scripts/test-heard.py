#!/usr/bin/env python3
"""Runs target/bin/heard on streams with known output.

    scripts/test-heard.py                   run them all
    scripts/test-heard.py --reference PROGRAM  besides, ask the reference program (reference/program) what each stream holds
    scripts/test-heard.py --self-check      plant faults in the expected outputs and in the choice of runs, and want them noticed

tests/heard has an input NAME.in and the output NAME.out for each stream. `example` is that of the scope paper, `line_*`
follow from its sentence on bad first lines, and all other outputs are the reference program's. `sample` is the recording in
samples/. The long streams are made here out of known strings.

Each stored stream goes in four ways: as a file, through a pipe, and in reads of 1 and of 7 bytes. Each long stream goes in as a
file, through a pipe and in reads of 7 bytes.
"""
import os
import pathlib
import subprocess
import sys
import tempfile
import threading

ROOT = pathlib.Path(__file__).resolve().parent.parent
HEARD = ROOT / "target/bin/heard"
FOLDER = ROOT / "tests/heard"
SECONDS = 60
# the bytes that heard reads at once
PIECE = 65536


def stored_cases():
    for given in sorted(FOLDER.glob("*.in")):
        yield given.stem, given.read_bytes(), given.with_suffix(".out").read_bytes()
    yield "sample", b"1\n" + (ROOT / "samples/standard.log").read_bytes(), (FOLDER / "sample.out").read_bytes()


def end_line(count_bytes, telegrams):
    return b"end bytes=%d telegrams=%d\n" % (count_bytes, telegrams)


def block_of(name):
    """The first block in a stored output, with its empty line."""
    return (FOLDER / (name + ".out")).read_bytes().split(b"\n\n")[0] + b"\n\n"


def long_cases():
    """Streams of several reads: every byte of a string comes to stand at a seam, and strings without a gap."""
    unit = (FOLDER / "example.in").read_bytes()[2:]
    block = block_of("example")
    count = 2 * PIECE // len(unit) + 9
    for shift in range(len(unit)):
        stream = b"\x02" * shift + unit * count
        yield "long_%d" % shift, b"1\n" + stream, block * count + end_line(len(stream), count)
    racal = b"XGU000229000000\r"
    count = 3 * PIECE // len(racal)
    yield "long_dense", b"5\n" + racal * count, block_of("form_5") * count + end_line(len(racal) * count, count)
    count = 3 * PIECE
    yield "long_noise", b"3\n" + b"\x02" * count, end_line(count, 0)


def from_file(given):
    with tempfile.TemporaryFile() as file:
        file.write(given)
        file.seek(0)
        return subprocess.run([HEARD], stdin=file, capture_output=True, timeout=SECONDS).stdout


def from_pipe(given):
    return subprocess.run([HEARD], input=given, capture_output=True, timeout=SECONDS).stdout


def packets(given, size):
    """The bytes in packets. A read takes one packet and drops what does not fit, so none reaches past the first line."""
    line = [given[i : i + 1] for i in range(min(2, len(given)))]
    return line + [given[i : i + size] for i in range(2, len(given), size)]


def in_reads_of(size):
    def run(given):
        # each write to such a pipe is a packet of its own, and each read takes one
        outlet, inlet = os.pipe2(os.O_DIRECT)

        def feed():
            try:
                for packet in packets(given, size):
                    os.write(inlet, packet)
            except BrokenPipeError:
                pass
            os.close(inlet)

        program = subprocess.Popen([HEARD], stdin=outlet, stdout=subprocess.PIPE)
        os.close(outlet)
        feeder = threading.Thread(target=feed)
        feeder.start()
        told = program.communicate(timeout=SECONDS)[0]
        feeder.join()
        return told

    return run


LONG_WAYS = ("file", "pipe", "reads of 7")
WAYS = {"file": from_file, "pipe": from_pipe, "reads of 1": in_reads_of(1), "reads of 7": in_reads_of(7)}


def runs():
    """Every run: its name, the way in, the input and the expected output."""
    for name, given, expected in stored_cases():
        for way in WAYS:
            yield name, way, given, expected
    for name, given, expected in long_cases():
        for way in LONG_WAYS:
            yield name, way, given, expected


def gaps(all_runs):
    """The ways by which no long stream with records in it goes in."""
    taken = {way for _, way, given, expected in all_runs if len(given) > 2 * PIECE and expected.count(b"\n\n") > 1000}
    return [way for way in LONG_WAYS if way not in taken]


def disagreements(all_runs):
    wrong = []
    for name, way, given, expected in all_runs:
        if WAYS[way](given) != expected:
            wrong.append("%s (%s)" % (name, way))
    return wrong


def told_by(reference, given):
    """What heard has to print, by the reference program's listener."""
    form, stream = given[:1].decode(), given[2:]
    request = "listen %s %s\n" % (form, stream.hex() or "-")
    answer = subprocess.run([reference], input=request, capture_output=True, text=True, timeout=SECONDS).stdout.strip()
    records = [] if answer == "-" else [bytes.fromhex(word.split(":")[1]) for word in answer.split(" ")]
    return b"".join(record + b"\n" for record in records) + end_line(len(stream), len(records))


def check_reference(reference):
    cases = [case for case in [*stored_cases(), *long_cases()] if not case[0].startswith("line_")]
    wrong = [name for name, given, expected in cases if told_by(reference, given) != expected]
    if wrong:
        sys.exit("heard: the reference program tells another output: " + ", ".join(wrong))
    print("heard: %d outputs are those of the reference program" % len(cases))


def with_a_wrong_byte(expected):
    place = len(expected) // 2
    return expected[:place] + bytes([expected[place] ^ 1]) + expected[place + 1 :]


def self_check():
    """A wrong byte in each expected output is noticed, and so are long streams of noise alone in place of those with records."""
    all_runs = list(runs())
    planted = [(name, way, given, with_a_wrong_byte(expected)) for name, way, given, expected in all_runs]
    noticed = disagreements(planted)
    if len(noticed) != len(planted):
        sys.exit("heard: %d of %d wrong bytes were not noticed" % (len(planted) - len(noticed), len(planted)))
    for missing in LONG_WAYS:
        fewer = [run for run in all_runs if run[1] != missing or run[0] == "long_noise" or not run[0].startswith("long_")]
        if gaps(fewer) != [missing]:
            sys.exit("heard: that only noise goes in as a long stream (%s) was not noticed" % missing)
    print("heard: %d wrong bytes and %d missing long streams noticed" % (len(planted), len(LONG_WAYS)))


def main(words):
    if not HEARD.exists():
        sys.exit("heard: no target/bin/heard; run `scripts/build heard` first")
    if words == ["--self-check"]:
        return self_check()
    if len(words) == 2 and words[0] == "--reference":
        check_reference(words[1])
    elif words:
        sys.exit(__doc__)
    all_runs = list(runs())
    if gaps(all_runs):
        sys.exit("heard: no long stream with records goes in by " + ", ".join(gaps(all_runs)) + "; see runs()")
    wrong = disagreements(all_runs)
    if wrong:
        sys.exit("heard: %d of %d runs disagree: %s" % (len(wrong), len(all_runs), ", ".join(wrong)))
    print("heard: %d runs agree" % len(all_runs))


if __name__ == "__main__":
    main(sys.argv[1:])
