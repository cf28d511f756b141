"""The functions of a crate, read from its sources as `rt fmt` lays them out: where each body stands, what it calls, who can reach it."""
import functools
import glob
import os
import re

HEADER = re.compile(r'^( *)(pub(?:\(\w+\))? )?(extern "C" )?fn (\w+)')
# A block of an impl or a trait: the trait of an impl, with its arguments, and the type.
BLOCK = re.compile(r"^(?:pub )?(impl|trait)(?:<[^>]*>)? (?:(\w+)(?:<([^>]*)>)? for )?(\w+)")
CALL = re.compile(r"(\.)?(?:\b(\w+)::)?\b(\w+)\(")


class Function:
    """One function: its name as the prover writes it (racal::read), and where its header, its body and its end stand in the file."""

    def __init__(self, name, public, exported, method):
        self.name, self.public, self.exported, self.method = name, public, exported, method
        self.header = self.start = self.end = 0
        self.calls, self.asks = set(), set()
        # The type of an impl of a trait, and where the impl begins. The method is called by the type's name, or by a generic function of
        # another crate that is handed a value of the type.
        self.served = self.block = None

    @property
    def last(self):
        return self.name.split("::")[-1]

    def proof_folder(self):
        return "proofs/" + "/".join(self.name.split("::")[1:]) + "/"

    def is_called_by(self, call):
        """Whether a call `.last(`, `before::last(` or `last(` in the same crate can mean this function."""
        dot, before, last = call
        tail = last if before in ("", "crate") else f"{before}::{last}"
        return f"::{self.name}".endswith(f"::{tail}") and (self.method or not dot)


@functools.cache
def traits_of(root):
    """The traits that the repository declares. Who can name the types of another one's impl reaches its methods."""
    texts = (open(p, encoding="utf-8").read() for p in glob.glob(f"{root}/crates/*/src/**/*.rt", recursive=True))
    return {name for text in texts for name in re.findall(r"(?m)^pub trait (\w+)", text)}


class Crate:
    def __init__(self, root, name):
        self.name, self.folder, self.by_name = name, f"{root}/crates/{name}", {}
        self.types, self.open_modules, self.handed_on = {}, {()}, set()
        self.own_traits = traits_of(root)
        paths = sorted(glob.glob(f"{self.folder}/src/**/*.rt", recursive=True))
        texts = {os.path.relpath(p, self.folder): open(p, encoding="utf-8").read() for p in paths}
        for file, text in texts.items():
            self.declare(self.module_of(file), text)
        bodies = {f.name: (f, text[f.start : f.end]) for file, text in texts.items() for f in self.functions_of(file, text)}
        self.by_name = {name: function for name, (function, _) in bodies.items()}
        for function, body in bodies.values():
            called, words = CALL.findall(body), set(re.findall(r"\w+", body))
            function.asks = {last for dot, _, last in called if dot}
            asked = self.asked_by(root, called) if any(f.served in words for f in self.by_name.values()) else set()
            served = {f.name for f in self.by_name.values() if f.served in words and f.last in asked}
            named = {f.name for f in self.by_name.values() if any((f.served, f.last) == c[1:] for c in called)}
            function.calls = {f.name for f in self.by_name.values() if any(f.is_called_by(c) for c in called)} | served | named

    @staticmethod
    def asked_by(root, called):
        """The methods that functions of other crates, called here, call on what they are handed."""
        others = {(crate, last) for _, crate, last in called if os.path.isdir(f"{root}/crates/{crate}/src") and crate}
        return {m for crate, last in others for f in Crate(root, crate).by_name.values() if f.last == last for m in f.asks}

    @staticmethod
    def module_of(file):
        parts = file[len("src/") : -len(".rt")].split("/")
        return () if parts in (["lib"], ["main"]) else tuple(p for p in parts if p != "mod")

    def declare(self, module, text):
        for kind in re.findall(r"(?m)^(?:pub )?(?:struct|enum) (\w+)", text):
            self.types[kind] = module
        self.open_modules |= {module + (m,) for m in re.findall(r"(?m)^pub mod (\w+);", text)}
        for path, group in re.findall(r"(?m)^pub use ([\w:]+)(?:\{([^{}]*)\})?;", text):
            for item in group.split(",") if group else [""]:
                parts = path.rstrip(":").split("::") + item.split()
                self.handed_on.add(tuple(p for p in parts if p not in ("crate", "self")))

    def can_be_reached(self, module, item):
        """Whether another crate can name the item: every module above it is public, or it is handed on by `pub use`."""
        return all(module[:n] in self.open_modules for n in range(len(module) + 1)) or module + (item,) in self.handed_on

    def functions_of(self, file, text):
        """The functions of a file of sources, in the text that it has or would have."""
        at, owner, block_at, current, indent = 0, None, None, None, ""
        for line in text.split("\n"):
            end, header = at + len(line), HEADER.match(line)
            block = BLOCK.match(line)
            if block:
                owner, block_at = block.groups(), at
            elif header and not current:
                indent = header.group(1)
                current = self.function(header, self.module_of(file), owner if indent else None)
                current.header, current.block = at, block_at if indent else None
            # A method that a trait asks for has no body here.
            if current and not current.start and owner and owner[0] == "trait" and indent and line.endswith(";"):
                current = None
            if current and not current.start and re.match(indent + r"\S.*[{}]$|" + indent + r"\{$", line):
                current.start = at + line.index("{")
            if current and current.start and (line == indent + "}" or (header and line.endswith("}"))):
                current.end = end
                yield current
                current = None
            at = end + 1

    def function(self, header, module, owner):
        public, exported, name = header.group(2) == "pub ", bool(header.group(3)), header.group(4)
        kind, trait, arguments, item = owner or (None, None, None, None)
        if owner:
            module = self.types.get(item, module)
        # The prover names an impl by its type and its trait: U32FromRefusal.
        block = "".join(word[:1].upper() + word[1:] for part in (item, trait, arguments) if part for word in re.findall(r"\w+", part)) if trait else item
        given = bool(trait) and trait not in self.own_traits
        reached = given or (public and (exported or self.can_be_reached(module, item or name)))
        function = Function("::".join((self.name, *module, *([block] if block else []), name)), reached, exported, bool(owner))
        function.served = item if trait else None
        return function

    def bound_to(self, name):
        """The function, those that reach it by calls, and those that it reaches."""
        above, below = {name}, {name}
        for _ in self.by_name:
            above |= {f.name for f in self.by_name.values() if above & set(f.calls)}
            below |= {called for n in below if n in self.by_name for called in self.by_name[n].calls}
        return above | below

    def resting_on(self, name):
        """The public functions that rest on this one: itself where it is public, else those that reach it through private ones."""
        found, seen, todo = set(), set(), [name]
        while todo:
            here = todo.pop()
            if here in seen or here not in self.by_name:
                continue
            seen.add(here)
            if self.by_name[here].public:
                found.add(here)
            else:
                todo += [f.name for f in self.by_name.values() if here in f.calls]
        return found
