"""Edits: what each changes, and what it breaks."""
import glob
import os
import re

FOLDERS = ("must-fail", "mutants")
PARTS = ("src", "specs", "proofs")


class BadEdit(Exception):
    """An edit that cannot be tried; its text says what to do."""


class Edit:
    def __init__(self, crate, path):
        self.crate, self.path, self.pairs, self.named = crate, path, [], []
        self.folder, self.name = os.path.basename(os.path.dirname(path)), os.path.basename(path)[: -len(".edit")]
        file = old = None
        for line in open(path, encoding="utf-8").read().split("\n"):
            if line.startswith("file: "):
                file = line[len("file: ") :]
            elif line.startswith("old: "):
                old = line[len("old: ") :]
            elif line.startswith("new:"):
                self.pairs.append((file, old, line[len("new:") :].removeprefix(" ")))
            elif line.startswith("breaks: "):
                self.named.append(line[len("breaks: ") :].strip())
        for name in self.named:
            if "::" in name and name not in crate.by_name:
                raise BadEdit(f"'breaks: {name}': there is no such function; the crate has {', '.join(sorted(crate.by_name))}")
        if not self.pairs:
            raise BadEdit("it has no pair of 'old:' and 'new:' below a 'file:'")
        changed = [self.changes(file, old) for file, old, _ in self.pairs]
        functions = {name for name, _ in changed if name}
        self.only_bodies = bool(functions) and all(part in ("body", "use") for _, part in changed)
        inferred = len(functions) == 1 and all(part in ("body", "use", "contract") for _, part in changed)
        self.breaks = self.named or (sorted(functions) if inferred else [])
        self.bodies = functions

    def changes(self, file, old):
        """The function that a pair changes, or None, and which part of the file it changes."""
        text = self.text(file)
        at = self.place(file, text, old)
        if file.startswith("src/"):
            for function in self.crate.functions_of(file, text):
                if function.header <= at < function.end:
                    return function.name, "body" if function.start <= at else "contract"
        if re.match(r"(pub )?(ghost )?use ", text[text.rfind("\n", 0, at) + 1 :]):
            return None, "use"
        return None, "definition"

    def place(self, file, text, old):
        """Where the old text stands: once in the file, or else once in the body of a function that the edit names."""
        if old and text.count(old) == 1:
            return text.index(old)
        if old and self.folder == "mutants" and file.startswith("src/"):
            found = [(f.start, f.end) for f in self.crate.functions_of(file, text) if f.name in self.named and text.count(old, f.start, f.end) == 1]
            if len(found) == 1:
                return text.index(old, *found[0])
        raise BadEdit(f"its text 'old: {old}' stands {text.count(old) if old else 0} times in {file}: write one that stands there once")

    def text(self, file):
        path = f"{self.crate.folder}/{file}"
        if not file or file.split("/")[0] not in PARTS or not os.path.isfile(path):
            raise BadEdit(f"'file: {file}' is no file of the crate under src/, specs/ or proofs/")
        return open(path, encoding="utf-8").read()

    @property
    def bound(self):
        """The functions that it changes, and those that reach them or that they reach by calls."""
        return set().union(*map(self.crate.bound_to, self.bodies))

    def applied(self, texts):
        """The texts of the crate's files, of which `texts` are already changed, with this edit too."""
        texts = dict(texts)
        for file, old, new in self.pairs:
            text = texts.get(file) or self.text(file)
            at = self.place(file, text, old)
            texts[file] = text[:at] + new + text[at + len(old) :]
        return texts

    @property
    def label(self):
        return f"{self.crate.name}/{self.name}"


def edits_of(crate):
    """The crate's edits, and what is wrong with those that cannot be tried."""
    edits, wrongs = [], []
    for path in sorted(glob.glob(f"{crate.folder}/**/*.edit", recursive=True)):
        try:
            if os.path.relpath(os.path.dirname(path), crate.folder) not in FOLDERS:
                raise BadEdit(f"nothing tries it: move it to {' or '.join(FOLDERS)}")
            edits.append(Edit(crate, path))
        except BadEdit as bad:
            wrongs.append(f"{os.path.relpath(path, os.path.dirname(crate.folder))}: {bad}")
    return edits, wrongs


def groups_of(edits, apart):
    """Edits of bodies together, of which none changes a function that another must be apart from; every other edit alone."""
    groups, alone = [], []
    for edit in edits:
        if not edit.only_bodies or not edit.breaks:
            alone.append([edit])
            continue
        for group, bodies, texts in groups:
            try:
                if not bodies & apart(edit):
                    texts.update(edit.applied(texts))
                    group.append(edit)
                    bodies |= edit.bodies
                    break
            except BadEdit:
                continue
        else:
            groups.append(([edit], set(edit.bodies), edit.applied({})))
    return [group for group, _, _ in groups] + alone
