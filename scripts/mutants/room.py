"""A folder in which one crate can be changed and checked, over what its proof left."""
import concurrent.futures
import os
import re
import shutil
import subprocess
import tempfile

from mutants.edits import PARTS
from mutants.verdict import Log

# A test that a proof names and the function no longer has, with the names that are near; a way into a join behind such a test, likewise; a goal
# behind one; what is asked for instead.
GONE_TEST = re.compile(r"(?m)^(?:\./)?(proofs/\S+?):\d+:\d+: error: [^\n]*has no field `if-([^`]+)` \(nearest: ([^)]*)\)")
GONE_WAY = re.compile(r"(?m)^(?:\./)?(proofs/\S+?):\d+:\d+: error: module `[^`]*\.Goals` has no `(then-|else-)([^`]+)` [^\n]*\(did you mean ([^)?]*)")
GONE_GOAL = re.compile(r"(?m)^(?:\./)?(proofs/\S+?):\d+:\d+: error: [^\n]*`goal\.([\w-]*?-(?:then|else)-)([^`]+)`: module [^\n]* that can be named")
ASKED = re.compile(r"(?m)^help: `Goals` has no `([^`]*)`; rattle asks for ([^\n]*)")


def copied_folder(root):
    """A new folder with the texts of all crates: `rt` takes no links, and runs side by side have their own. What a check kept in the repository
    `rt check` finds by itself."""
    at = tempfile.mkdtemp(prefix="mutants-")
    for crate in os.listdir(f"{root}/crates"):
        for part in PARTS:
            if os.path.isdir(f"{root}/crates/{crate}/{part}"):
                shutil.copytree(f"{root}/crates/{crate}/{part}", f"{at}/crates/{crate}/{part}")
    shutil.copy(f"{root}/crates.txt", at)
    return at


def are_proved(root, crates, jobs):
    """Has `rt` prove what has changed of these crates since they were last proved, so many at a time."""
    quiet = {"stdout": subprocess.DEVNULL, "stderr": subprocess.DEVNULL}
    with concurrent.futures.ThreadPoolExecutor(jobs) as pool:
        return all(pool.map(lambda crate: subprocess.run(["rt", "check"], cwd=f"{root}/crates/{crate}", **quiet).returncode == 0, crates))


class Room:
    """A folder in which one crate can be changed and checked, over what its proof left."""

    def __init__(self, crate, root):
        self.crate, self.root = crate, root
        self.at, self.seconds, self.runs = copied_folder(root), 0.0, 0

    def restore(self, texts):
        """Puts the crate there as it stands, with these texts in place of its files', and what its proof left."""
        here, left = f"{self.at}/crates/{self.crate.name}", f"{self.crate.folder}/out/incremental"
        shutil.rmtree(here, ignore_errors=True)
        for part in PARTS:
            if os.path.isdir(f"{self.crate.folder}/{part}"):
                shutil.copytree(f"{self.crate.folder}/{part}", f"{here}/{part}")
        for file, text in texts.items():
            open(f"{here}/{file}", "w", encoding="utf-8").write(text)
        if os.path.isdir(left):
            shutil.copytree(left, f"{here}/out/incremental")

    def check(self, edits):
        """What the prover says of the crate with these edits; target/mutants keeps it."""
        texts = {}
        for edit in edits:
            texts = edit.applied(texts)
        for _ in range(4):
            status, words = self.checked(texts)
            renamed = self.with_tests_renamed(edits, texts, words)
            if renamed == texts:
                break
            texts = renamed
        for edit in edits:
            os.makedirs(f"{self.root}/target/mutants/{self.crate.name}", exist_ok=True)
            open(f"{self.root}/target/mutants/{edit.label}.log", "w", encoding="utf-8").write(words)
        return Log(status, words, f"{self.at}/crates/{self.crate.name}")

    def checked(self, texts):
        """The status and the words of a check with these texts."""
        self.restore(texts)
        self.runs += 1
        with open(f"{self.at}/said", "w+", encoding="utf-8") as said:
            child = subprocess.Popen(["rt", "check"], cwd=f"{self.at}/crates/{self.crate.name}", stdout=said, stderr=subprocess.STDOUT)
            _, status, used = os.wait4(child.pid, 0)
            child.returncode = os.waitstatus_to_exitcode(status)
            self.seconds += used.ru_utime + used.ru_stime
            said.seek(0)
            return child.returncode, said.read()

    def with_tests_renamed(self, edits, texts, words):
        """The texts where the proofs of the edited functions follow a test that an edit changed: a proof names the test `s < 9` by its text, as in
        if-s-lt9 and returns-then-s-lt9. What that test said is then still asked for."""
        texts = dict(texts)
        folders = [self.crate.by_name[name].proof_folder() for e in edits for name in e.bodies]
        asked = dict(ASKED.findall(words))
        gone = [(path, "if-", old, found) for path, old, found in GONE_TEST.findall(words)]
        gone += GONE_WAY.findall(words)
        gone += [(path, start, old, asked.get(start + old, "")) for path, start, old in GONE_GOAL.findall(words)]
        for path, start, old, found in gone:
            if path.startswith(tuple(folders)):
                folder = os.path.dirname(path)
                files = {f"{folder}/{n}": "" for n in os.listdir(f"{self.crate.folder}/{folder}") if n.endswith(".antt")}
                for file in files:
                    files[file] = open(f"{self.crate.folder}/{file}", encoding="utf-8").read()
                near = re.findall(rf"(?<=[.`]){start}([\w'-]+)", found)
                new = next((n for n in near if not any(start + n in text for text in files.values())), None)
                for file, text in files.items():
                    if new:
                        texts[file] = re.sub(rf"(?<=-){re.escape(old)}(?![\w'])", new, texts.get(file) or text)
        return texts

    def close(self):
        shutil.rmtree(self.at, ignore_errors=True)
