#!/usr/bin/env python3
"""Tries scripts/heard, the first command of README.md, with stand-ins for `rt` and for the program that it builds.

    scripts/test-first-command.py                try it
    scripts/test-first-command.py --self-check   plant faults in copies of scripts/heard, and want each noticed

The last test runs the proved program and needs `scripts/build heard`. The last line is 'N passed, M failed'.
"""
import concurrent.futures
import os
import pathlib
import pty
import re
import shutil
import subprocess
import sys
import tempfile
import threading
import time
import traceback

ROOT = pathlib.Path(__file__).resolve().parent.parent
SECONDS = 20
TOOLS = "sh cat dirname readlink find head tail awk cksum date mkdir rm grep sleep bash cp chmod".split()
# Prints what it was given, so that each byte that reached it is seen.
PROGRAM = "#!/bin/sh\nexec cat\n"
BUILD = 'mkdir -p out; cp "$STAND_IN" out/heard; chmod +x out/heard\n'
BUILDER = (ROOT / "scripts/build").read_text(encoding="utf-8")


def needed_crates():
    """The crates that heard stands on, lowest first, as crates.txt has them."""
    uses = {}
    for line in (ROOT / "crates.txt").read_text(encoding="utf-8").splitlines():
        name, colon, rest = line.split("#")[0].partition(":")
        if colon:
            uses[name] = rest.split()
    needed, todo = set(), ["heard"]
    while todo:
        name = todo.pop()
        if name in uses and name not in needed:
            needed.add(name)
            todo += uses[name]
    return [name for name in uses if name in needed]


CRATES = needed_crates()
PROVED = "".join(f"printf 'fn {name}::read: proved\\nlibrary {name}: modules loaded=1 checked=0\\ncrate {name}: modules loaded={i} checked=1\\n' >&2\n"
                 for i, name in enumerate(CRATES))
PROGRESS = [f"proved {i} of {len(CRATES)}: {name}" for i, name in enumerate(CRATES, 1)]


class Place:
    """A repository with the script, sources that stand for the real ones, and a folder of tools with a stand-in for rt."""

    def __init__(self, script, builder, rt=PROVED + BUILD, program=PROGRAM):
        self.folder = tempfile.TemporaryDirectory(prefix="first command ")
        self.home = pathlib.Path(self.folder.name)
        self.root = self.home / "a repository"
        (self.root / "scripts").mkdir(parents=True)
        (self.root / "crates/heard/src").mkdir(parents=True)
        self.source = self.root / "crates/heard/src/main.rt"
        self.source.write_text("fn main() {}\n")
        shutil.copy(ROOT / "crates.txt", self.root)
        self.script = self.root / "scripts/heard"
        self.script.write_text(script)
        self.script.chmod(0o755)
        self.builder = self.root / "scripts/build"
        self.builder.write_text(builder)
        self.builder.chmod(0o755)
        self.make_old()
        self.tools = self.home / "tools"
        self.tools.mkdir()
        for tool in TOOLS:
            (self.tools / tool).symlink_to(shutil.which(tool))
        self.program = self.home / "program"
        self.program.write_bytes(program if isinstance(program, bytes) else program.encode())
        self.calls = self.home / "calls"
        self.environment = {"PATH": str(self.tools), "STAND_IN": str(self.program), "CALLS": str(self.calls), "PLACE": str(self.home)}
        if rt is not None:
            self.set_rt(rt)

    def set_rt(self, text):
        rt = self.tools / "rt"
        rt.write_text('#!/bin/sh\necho "$PWD $*" >>"$CALLS"\n' + text)
        rt.chmod(0o755)

    def change(self, path):
        """Makes a source look as if it had been changed after the last proof, both some time ago."""
        now = time.time()
        self.make_old()
        os.utime(self.root / "target/heard.before", (now - 100, now - 100))
        os.utime(path, (now - 50, now - 50))

    def make_old(self):
        long_ago = time.time() - 1000
        for path in (self.root / "crates.txt", self.root / "crates", *(self.root / "crates").rglob("*")):
            os.utime(path, (long_ago, long_ago))

    def called(self):
        return self.calls.read_text().splitlines() if self.calls.exists() else []

    def run(self, *words, given=b"", script=None, **more):
        """Status, standard output and standard error."""
        if "stdin" not in more:
            more["input"] = given
        more = {"stdout": subprocess.PIPE, "stderr": subprocess.PIPE, "cwd": self.home, "env": self.environment, "timeout": SECONDS, **more}
        done = subprocess.run([script or self.script, *words], **more)
        return done.returncode, done.stdout, (done.stderr or b"").decode()

    def __enter__(self):
        return self

    def __exit__(self, *_):
        self.folder.cleanup()


class Trial:
    """The tests over one text of the script, and one of the script that builds."""

    def __init__(self, script, builder=BUILDER):
        self.script, self.builder = script, builder
        self.passed, self.failures = 0, []

    def check(self, holds, what):
        if holds:
            self.passed += 1
        else:
            self.failures.append(what)

    def same(self, found, expected, what):
        self.check(found == expected, f"{what}: {found!r}, expected {expected!r}")

    def place(self, **more):
        return Place(self.script, self.builder, **more)

    # ---- how it is called

    def test_links(self):
        with self.place() as place:
            log = place.home / "a.log"
            log.write_bytes(b"bytes")
            for name in ("bin", "my bin", "other"):
                (place.home / name).mkdir()
            links = {"absolute": place.script, "my bin/relative": "../a repository/scripts/heard", "other/link of a link": "../my bin/relative"}
            for name, target in links.items():
                (place.home / name).symlink_to(target)
                self.same(place.run("1", "a.log", script=place.home / name)[:2], (0, b"1\nbytes"), f"the link {name}")
            (place.home / "folder").symlink_to(place.root / "scripts")
            self.same(place.run("1", "a.log", script=place.home / "folder/heard")[:2], (0, b"1\nbytes"), "a link to the folder")
            (place.home / "bin/listen").symlink_to("../my bin/relative")
            path = {**place.environment, "PATH": f"{place.home}/bin:{place.tools}", "CDPATH": str(place.home)}
            done = subprocess.run(["sh", "-c", "listen 1 a.log"], cwd=place.home, env=path, capture_output=True, timeout=SECONDS)
            self.same((done.returncode, done.stdout), (0, b"1\nbytes"), "a link on PATH")
            self.same(place.called(), [f"{place.root}/crates/heard run"], "rt was called in the crate, once")

    def test_pipes(self):
        with self.place() as place:
            data = bytes(range(256)) * 1000
            wanted = (0, b"3\n" + data)
            self.same(place.run("3", given=data)[:2], wanted, "standard input")
            self.same(place.run("3", "-", given=data)[:2], wanted, "standard input as -")
            self.same(place.run("3", "/dev/stdin", given=data)[:2], wanted, "standard input by its name")
            self.same(place.run("3", given=b"")[:2], (0, b"3\n"), "an empty input")
            (place.home / "data").write_bytes(data)
            fifo = place.home / "a fifo"
            os.mkfifo(fifo)
            writer = threading.Thread(target=self.fill, args=(fifo, data))
            writer.start()
            self.same(place.run("3", fifo)[:2], wanted, "a named pipe")
            if writer.is_alive():  # the script did not open it
                os.close(os.open(fifo, os.O_RDONLY | os.O_NONBLOCK))
            writer.join(SECONDS)
            substituted = subprocess.run(["bash", "-c", '"$0" 3 <(cat data)', place.script], cwd=place.home, env=place.environment,
                                         capture_output=True, timeout=SECONDS)
            self.same((substituted.returncode, substituted.stdout), wanted, "process substitution")
            self.same(place.run("3", "data", given=b"not this")[:2], wanted, "a file beside standard input")

    @staticmethod
    def fill(fifo, data):
        try:
            fifo.write_bytes(data)
        except BrokenPipeError:  # what was read is compared
            pass

    def test_names(self):
        with self.place() as place:
            for name in ("two words.log", " ends in spaces ", "-", "-n", "--help", "a*b", "$HOME", "two\nlines", "'quoted\"", "\\back"):
                (place.home / name).write_bytes(name.encode())
                word = "./-" if name == "-" else name
                self.same(place.run("5", word, given=b"not this")[:2], (0, b"5\n" + name.encode()), f"a file of the name {name!r}")

    def test_forms(self):
        with self.place() as place:
            for number, name in enumerate("standard capture erlangen spa racal sysplex computime".split(), 1):
                for word in (name, str(number)):
                    self.same(place.run(word)[:2], (0, b"%d\n" % number), f"form {word}")

    def test_other_forms(self):
        """Forms that the library has and this program does not take: what is said must help."""
        others = "8", "9", "11", "frame", "block", "c37118", "C37118"
        commanded = {word: (number, name) for number, name in ((10, "sat"), (12, "rmc")) for word in (str(number), name, name.upper())}
        with self.place() as place:
            told = {word: place.run(word, given=b"bytes") for word in (*others, *commanded, "0", "15", "radio")}
            for word, (status, out, error) in told.items():
                self.same((status, out), (2, b""), f"form {word}")
                if word in commanded:
                    number, name = commanded[word]
                    for wanted in (f"{name.upper()} (form {number})", f"lindenscoop listen FILE --form {name},", f"lindenscoop export --csv --form {name} FILE",
                                   "\"The command\""):
                        self.check(wanted in error, f"form {word}: {wanted} is not said: {error}")
                else:
                    wanted = f"form {word} is not listened for" if word in others else f"there is no form \"{word}\""
                    self.check(wanted in error and "or 1 to 7" in error and "sat (10) and rmc (12)" in error, f"form {word}: {error}")
            self.same(place.called(), [], "rt was called for a form that is not taken")
        self.check("\n## The command\n" in (ROOT / "README.md").read_text(encoding="utf-8"), "README.md has no section that is named")

    def test_wrong_calls(self):
        with self.place() as place:
            (place.home / "log").write_bytes(b"")
            files = ["1", "log", "log"], ["1", "none"], ["1", ""], ["1", "."]
            for words in ([], [""], ["0"], ["8"], ["1 "], ["frame"], ["01"], ["1\n"], ["-x"], *files):
                status, out, error = place.run(*words)
                self.same((status, out), (2, b""), f"{words}")
                self.check("heard" in error, f"{words}: nothing is said")
            outer, inner = pty.openpty()
            status, out, error = place.run("1", stdin=inner)
            self.check((status, out) == (2, b"") and "terminal" in error, f"standard input is a terminal: {status} {error}")
            os.close(outer)
            os.close(inner)
            self.same(place.called(), [], "rt was called for a wrong call")

    def test_help(self):
        with self.place(rt=None) as place:
            for word in ("--help", "-h"):
                status, out, error = place.run(word)
                self.same((status, error), (0, ""), word)
                for wanted in (b"FORM [FILE]", b"SAT and RMC strings", b"lindenscoop listen FILE --form sat", b"standard input", b"minutes", b"status: 0", b" 1 not proved",
                               b" 2 a wrong", b" 3 there is", b" 4 the"):
                    self.check(wanted in out, f"{word} does not say {wanted}")

    # ---- the kit

    def test_no_kit(self):
        with self.place(rt=None) as place:
            status, out, error = place.run("1", given=b"bytes")
            self.same((status, out), (3, b""), "no kit")
            for wanted in ("`rt`", "PATH", "Rattle kit", "supplies the Rattle", "`bin`"):
                self.check(wanted in error, f"no kit: {wanted} is not said")
            place.set_rt(PROVED + BUILD)
            self.same(place.run("1")[0], 0, "the kit is there")
            (place.tools / "rt").unlink()
            self.same(place.run("1", given=b"bytes")[:2], (0, b"1\nbytes"), "built, and the kit is gone")
            place.change(place.source)
            self.same(place.run("1", given=b"bytes")[:2], (3, b""), "built, a source changed, and the kit is gone")

    def test_failures(self):
        refused = "printf 'crate cond: modules loaded=0 checked=1\\nerror: no proof of this\\nfn spelling::read: not proved\\n' >&2\n"
        ways = {
            "not proved": refused + "exit 1", "bad crates.txt": "echo 'rt: crates.txt: bad' >&2; exit 2", "cannot tell": "exit 3",
            "its run failed": PROVED + BUILD + "echo refused=1; exit 1", "killed": BUILD + "kill -9 $$",
            "no program": PROVED, "a program that cannot be run": PROVED + BUILD + "chmod -x out/heard",
        }
        for name, text in ways.items():
            with self.place(rt=text) as place:
                for time_ in ("first", "second"):
                    status, out, error = place.run("1", given=b"bytes")
                    self.same((status, out), (1, b""), f"{name}, the {time_} time")
                    self.check("not proved or not built" in error and "proved and built in" not in error, f"{name}: {error}")
                self.same(len(place.called()), 2, f"{name}: rt was called")
                if name == "not proved":
                    self.check("error: no proof of this" in error and "not proved\n" in error, f"what is not proved is not said: {error}")
                    self.check("crate cond" not in error, "what is proved is said among the faults")
                if name == "bad crates.txt":
                    self.check("rt: crates.txt: bad" in error, f"what rt said on standard error is not told: {error}")
                    log = (place.root / "target/heard.log").read_text()
                    self.check("rt: crates.txt: bad" in log, "what rt said on standard error is not in the log")
                if name == "its run failed":
                    self.same(self.told(error), PROGRESS, "progress where the run failed")
                place.set_rt(PROVED + BUILD)
                self.same(place.run("1", given=b"bytes")[:2], (0, b"1\nbytes"), f"{name}, and then proved")

    def test_failure_after_success(self):
        with self.place() as place:
            self.same(place.run("1", given=b"bytes")[:2], (0, b"1\nbytes"), "proved")
            place.change(place.source)
            place.set_rt("exit 1")
            for _ in range(2):
                self.same(place.run("1", given=b"bytes")[:2], (1, b""), "a program of earlier is run though its source is no longer proved")

    def test_when_it_proves(self):
        with self.place() as place:
            def calls(what, wanted):
                self.same(place.run("1", given=b"bytes")[:2], (0, b"1\nbytes"), what)
                self.same(len(place.called()), wanted, f"{what}: calls of rt")
            calls("the first time", 1)
            calls("nothing changed", 1)
            place.change(place.source)
            calls("a source changed", 2)
            place.change(place.root / "crates.txt")
            calls("crates.txt changed", 3)
            (place.root / "target/bin/heard").write_text("#!/bin/sh\necho another\n")
            calls("the program is another", 4)
            other = place.source.parent / "other.rt"
            other.write_text("")
            place.change(other)
            calls("a source was added", 5)
            other.unlink()
            place.change(other.parent)
            calls("a source was taken away", 6)
            (place.root / "target/bin/heard").unlink()
            calls("the program is gone", 7)
            shutil.rmtree(place.root / "target")
            calls("target/ is gone", 8)

    def test_rt_leaves_standard_input(self):
        with self.place(rt="cat >/dev/null\n" + PROVED + BUILD) as place:
            self.same(place.run("1", given=b"bytes")[:2], (0, b"1\nbytes"), "rt took standard input")

    # ---- progress

    def told(self, error):
        return [line for line in error.splitlines() if line.startswith("proved ")]

    def test_progress_in_lines(self):
        with self.place() as place:
            status, out, error = place.run("1", given=b"bytes")
            self.same(self.told(error), PROGRESS, "progress")
            self.check(re.search(r"^heard: proving %d crates .* about \d+ minutes" % len(CRATES), error), f"how long it takes is not said: {error}")
            self.check(re.search(r"(?m)^heard: proved and built in \d+ s$", error), f"its end is not said: {error}")
            self.check("\r" not in error and "\x1b" not in error and "fn " not in error, f"progress, not on a terminal: {error!r}")
            self.same(place.run("1", given=b"bytes"), (0, b"1\nbytes", ""), "the second time")
        fewer = PROVED.split("\n", 1)[1]
        with self.place(rt=fewer + BUILD + "echo refused=1; echo 'rt: running out/heard' >&2") as place:
            told = [line.split(": ")[1] for line in self.told(place.run("1")[2])]
            self.same(told, CRATES[1:], "progress where a crate is unchanged")

    def test_progress_as_it_comes(self):
        """The stand-in waits after its first crate until that one was told."""
        first, rest = PROVED.split("\n", 1)
        wait = 'n=0; while [ ! -e "$PLACE/told" ] && [ $n -lt 100 ]; do sleep 0.1; n=$((n + 1)); done; [ -e "$PLACE/told" ] || exit 1\n'
        with self.place(rt=f"{first}\n{wait}{rest}{BUILD}") as place:
            process = subprocess.Popen([place.script, "1"], stdin=subprocess.DEVNULL, stdout=subprocess.PIPE, stderr=subprocess.PIPE,
                                       env=place.environment, cwd=place.home)
            lines = [process.stderr.readline().decode() for _ in range(2)]
            (place.home / "told").touch()
            out, _ = process.communicate(timeout=SECONDS)
            self.same((lines[1], process.returncode, out), (PROGRESS[0] + "\n", 0, b"1\n"), "progress as it comes")

    def on_terminal(self, place):
        outer, inner = pty.openpty()
        process = subprocess.Popen([place.script, "1"], stdin=subprocess.DEVNULL, stdout=subprocess.PIPE, stderr=inner, env=place.environment,
                                   cwd=place.home)
        os.close(inner)
        told = b""
        while True:
            try:
                part = os.read(outer, 4096)
            except OSError:  # the other end is closed
                break
            if not part:
                break
            told += part
        out, _ = process.communicate(timeout=SECONDS)
        os.close(outer)
        return process.returncode, out, told.decode()

    def test_progress_on_a_terminal(self):
        with self.place() as place:
            status, out, told = self.on_terminal(place)
            self.same((status, out), (0, b"1\n"), "on a terminal")
            changing = "".join(f"\r\x1b[K{line}" for line in PROGRESS)
            self.check(f"\n{changing}\r\n" in told, f"progress on a terminal: {told!r}")
            self.check(told.endswith(" s\r\n"), f"the last line on a terminal: {told!r}")
        with self.place(rt="echo 'crate cond: modules loaded=0 checked=1' >&2; exit 1") as place:
            status, out, told = self.on_terminal(place)
            self.check((status, out) == (1, b"") and f"{PROGRESS[0]}\r\nheard: not proved" in told, f"a failure on a terminal: {status} {told!r}")

    # ---- what is read and written

    def test_broken_ends(self):
        with self.place() as place:
            place.run("1")
            for given in (b"", b"bytes"):
                with open("/dev/full", "wb") as full:
                    status, _, error = place.run("1", given=given, stdout=full)
                self.check(status == 4 and error, f"a full disk: {status} {error}")
            line = '"$0" 1 <(head -c 1000000 /dev/zero) | head -c 1; exit "${PIPESTATUS[0]}"'
            closed = subprocess.run(["bash", "-c", line, place.script], env=place.environment, capture_output=True, timeout=SECONDS)
            self.same((closed.returncode, closed.stdout), (4, b"1"), "an output that is closed")
            status, out, error = place.run("1", "/proc/self/mem")
            self.check(status == 4 and "input" in error, f"an input that fails: {status} {error}")
        with self.place(program="#!/bin/sh\ncat >/dev/null\nexit 7\n") as place:
            self.same(place.run("1", given=b"bytes")[:2], (4, b""), "a program that fails")

    def test_with_the_proved_program(self):
        program = ROOT / "target/bin/heard"
        if not program.exists():
            self.check(False, "no target/bin/heard; run `scripts/build heard` first")
            return
        with self.place(program=program.read_bytes()) as place:
            expected = (ROOT / "tests/heard/sample.out").read_bytes()
            self.same(place.run("1", ROOT / "samples/standard.log")[:2], (0, expected), "the command of README.md")

    def run(self):
        for name in dir(self):
            if name.startswith("test_"):
                try:
                    getattr(self, name)()
                except Exception:
                    self.failures.append(f"{name}:\n{traceback.format_exc()}")
        return self


# Each is a text of the script, or of the one that builds, and what a fault puts in its place.
FAULTS = [
    ('while [ -L "$name" ]; do', "while false; do"),
    ('name=$(dirname -- "$name")/$link', "name=$link"),
    ("CDPATH='' cd -P --", "cd"),
    ('cat <"$file"; fi', 'cat "$file"; fi'),
    ('[ ! -t 0 ] ||', "true ||"),
    ('[ ! -d "$file" ] ||', '[ -f "$file" ] ||'),
    ("rt run </dev/null", "rt run"),
    ("heard 2>&1 3>&-", "heard 3>&-"),
    ('rm -f "$root/target/bin/heard"', "true"),
    ("|| echo $? >&3; }", "|| echo 0 >&3; }"),
    ('|| [ ! -x "$program" ]; then', "; then"),
    ('rm -f "$proved"\n', ""),
    ('[ "$(cat "$proved")" = "$(cksum <"$program")" ]', "true"),
    ("[!o]* -newer", "[!o]* -type f -newer"),
    ("[!o]* -newer", "* -newer"),
    ('"$root/crates.txt" "$root"/crates', '"$root"/crates'),
    ("|| no_kit", "|| exit 3"),
    ("    exit 3\n", "    exit 0\n"),
    ("'crate '*': modules loaded='*)", "*': modules loaded='*)"),
    ("'crate '*': modules loaded='*)", "'crate '*': modules loaded=0 '*)"),
    ("if (seen[name]++) return", "seen[name]++"),
    ("printf '\\r\\033[K' >&2", "printf '\\n' >&2"),
    ("if [ ! -t 2 ]; then printf '\\n' >&2; fi", "printf '\\n' >&2"),
    ("done >\"$log\"", "done | cat >\"$log\""),
    ("&& echo 0 >&3 || echo $? >&3; } | tell_progress", "&& echo 0 >&3 || echo $? >&3; } | tac | tell_progress"),
    ("|| echo read >&3", "|| true"),
    ("|| echo run >&3", "|| true"),
    ("|| echo write >&3", "|| true"),
    ("grep -v ", "grep "),
    ("10 | [sS][aA][tT])", "10 | sat)"),
    ("10 | [sS][aA][tT])", "sat | SAT)"),
    ("12 | [rR][mM][cC])", "12 | rmc)"),
    ("12 | [rR][mM][cC])", "rmc | RMC)"),
    ("for_the_command 12 RMC rmc", "for_the_command 12 RMC sat"),
    ("for_the_command 10 SAT sat", "for_the_command 12 SAT sat"),
    ("8 | frame | 9 | block |", "8 | frame | block |"),
    ("| 11 | [cC]37118) fail", "| [cC]37118) fail"),
    ("| 11 | [cC]37118) fail", "| 11 | c37118) fail"),
    ('"lindenscoop listen FILE --form $3, or', '"or'),
    ("\nlindenscoop listen FILE --form sat\n", "\n"),
]


def is_noticed(script, old, new):
    if old not in script and old not in BUILDER:
        print(f"test-first-command: no such text to plant a fault in: {old!r}")
        return False
    texts = (script.replace(old, new), BUILDER) if old in script else (script, BUILDER.replace(old, new))
    if not Trial(*texts).run().failures:
        print(f"test-first-command: not noticed: {new!r} for {old!r}")
        return False
    return True


def self_check(script):
    # Most of the time is spent waiting for scripts that hang.
    with concurrent.futures.ThreadPoolExecutor(4) as pool:
        noticed = sum(pool.map(lambda fault: is_noticed(script, *fault), FAULTS))
    print(f"{noticed} passed, {len(FAULTS) - noticed} failed")
    return 0 if noticed == len(FAULTS) else 1


def main(words):
    if words not in ([], ["--self-check"]):
        sys.exit(__doc__)
    script = (ROOT / "scripts/heard").read_text(encoding="utf-8")
    if words:
        return self_check(script)
    trial = Trial(script).run()
    for failure in trial.failures:
        print(f"test-first-command: {failure}")
    print(f"{trial.passed} passed, {len(trial.failures)} failed")
    return 1 if trial.failures or not trial.passed else 0


if __name__ == "__main__":
    sys.exit(main(sys.argv[1:]))
