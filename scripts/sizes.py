#!/usr/bin/env python3
"""Prints how large the library for C is, and how much stack its functions need.

    scripts/sizes.py

Needs a C compiler, binutils (size, objdump) and `scripts/build lindenscoop_c`. The stack is found in two ways. Touched: each function is
called on a painted stack, with the accepted strings of vectors/, whole and with each byte damaged
(bindings/c/tests/stack.c). At most: the frames of the machine code, along the deepest row of calls, with the 128 bytes below a
frame that the compiler may use without asking. Both count the return address and a record that is handed over by value; neither counts
memcpy of the C library.
"""
import os
import pathlib
import re
import subprocess
import sys
import tempfile

ROOT = pathlib.Path(__file__).resolve().parent.parent
LIBRARY = ROOT / "target/staticlib/liblindenscoop.a"
NAMES = ("read", "write", "search", "start", "feed", "feed_all", "mark", "full_year", "days_since_1980", "add_rack_second")
# those that take no record
RAW = ("start", "mark", "full_year", "days_since_1980")
# bytes of the stack, which is kept at multiples of 16, that a record handed over by value takes, or a seventh argument
BY_VALUE = {"add_rack_second": 128, "search": 16, "feed_all": 16}


def exported(name):
    """The name by which the library exports a function."""
    return f"lindenscoop_{name}_{'raw' if name in RAW else 'numbers'}"


def output(*words, **more):
    return subprocess.run(words, check=True, capture_output=True, text=True, **more).stdout


def unescaped(text):
    return re.sub(rb"\\x([0-9A-Fa-f]{2})", lambda match: bytes([int(match[1], 16)]), text.encode())


def accepted_strings():
    """Form and bytes of each string of vectors/ that is accepted, and of the block of each."""
    for path in sorted((ROOT / "vectors").glob("*.txt")):
        for line in path.read_text(encoding="utf-8").splitlines():
            form, data, number, block, *_ = (line.split("\t") + [""] * 4)[:5]
            if form.isdigit() and number == "0":
                yield form, unescaped(data)
                yield "9", unescaped(block)


def touched():
    """For each function the bytes of stack that it touched at most."""
    with tempfile.TemporaryDirectory() as folder:
        program = os.path.join(folder, "stack")
        include, source = ROOT / "bindings/c/include", ROOT / "bindings/c/tests/stack.c"
        output(os.environ.get("CC", "cc"), "-std=c99", "-O1", f"-I{include}", source, LIBRARY, "-Wl,-z,now", "-o", program)
        given = "".join(f"{form} {data.hex()}\n" for form, data in sorted(set(accepted_strings())))
        return {name: int(most) for name, most in (line.split() for line in output(program, input=given).splitlines())}


def bounds():
    """For each function the bytes of stack that its machine code can take."""
    frames, calls, name = {}, {}, None
    for line in output("objdump", "-dr", "--no-show-raw-insn", LIBRARY).splitlines():
        if match := re.match(r"[0-9a-f]+ <(.*)>:$", line):
            name = match[1]
            frames[name], calls[name] = 8, set()
        elif re.search(r"\tpush ", line):
            frames[name] += 8
        elif match := re.search(r"\tsub +\$0x([0-9a-f]+),%rsp", line):
            frames[name] += int(match[1], 16)
        # 128 bytes are taken by adding -128.
        elif match := re.search(r"\tadd +\$0x(f{8}[0-9a-f]{8}),%rsp", line):
            frames[name] += (1 << 64) - int(match[1], 16)
        elif re.search(r"\tcall +\*|\tsub +%\w+,%rsp|\tand +\$.*,%rsp", line):
            sys.exit(f"sizes: this is not understood: {line}")
        elif match := re.search(r"R_X86_64_PLT32\t(?:\.text\.)?(.*?)-0x4$", line):
            calls[name].add(match[1])

    def deepest(name, above=()):
        if name in above:
            sys.exit(f"sizes: {name} calls itself")
        return frames[name] + max([deepest(other, (*above, name)) for other in calls[name] if other in frames] + [128])

    unknown = {other for named in calls.values() for other in named} - frames.keys()
    if unknown - {"memcpy"}:
        sys.exit(f"sizes: these are called and not in the library: {unknown}")
    return {name: BY_VALUE.get(name, 0) + deepest(exported(name)) for name in NAMES}


def text_size():
    """Bytes of code and constants, of data that can be changed, and of data that starts as zero."""
    return [int(word) for word in output("size", "-t", LIBRARY).splitlines()[-1].split()[:3]]


def main():
    text, data, bss = text_size()
    print(f"code and constants: {text} bytes; variables: {data + bss} bytes")
    found, most = touched(), bounds()
    for name in NAMES:
        print(f"{exported(name)}: stack touched {found[name]} bytes, at most {most[name]}")
        if found[name] > most[name]:
            sys.exit("sizes: more was touched than the machine code can take")


if __name__ == "__main__":
    main()
