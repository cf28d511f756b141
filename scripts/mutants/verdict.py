"""What the prover said of a mutant, and whether that refuses what the mutant breaks."""
import os
import re

ERROR = re.compile(r"^(?:\./)?(\S+?):\d+:\d+: error: (?:`([^`]*)`: )?(.*(?:\n  .*)*)", re.M)
CITED = re.compile(r"\d+ declarations? that depends? on `")
# The goals that a check left open in a function without an answer for them.
OPEN = re.compile(r"`search` did not prove (.*)")
NO_SUCH_NAME = re.compile(r"is not in scope")
# Refusals that state no fact, each with what to do.
SHAPES = (
    (NO_SUCH_NAME, "a name is not in scope: add a pair that brings it in, or use one that the file has"),
    (
        re.compile(r"can be named from here|has no field|was not determined|this λ has \d+ binders"),
        "the proof no longer fits the code: change a number or a name, and no branch, call or loop",
    ),
    (
        # An argument of type `T (..)` is a test that was computed: that it does not come out true is a fact.
        re.compile(r"no occurrence of the path's|no (equation of the list|part of the goal) .*instance|settles argument (?!.* of type `T )"),
        "a rewrite finds no place, which shows nothing false: change something else",
    ),
    (re.compile(r"met a bound of its own|met the step limit"), "a search met its bound, which shows nothing false: change something else"),
)
# Goals that would be open beside any contract.
SAFETY = re.compile(r"(overflow|slice_bounds|offset_bounds|bounds|slice_copy_out|nonzero|shift|cast)[_-]")
NO_ANSWER = "a sum or an index no longer fits, which says nothing of the answer: change what is answered"


def advice_on(goal, words):
    """None where an error of the goal or law states a fact, else what to do."""
    return NO_ANSWER if goal and SAFETY.match(goal) else next((advice for shape, advice in SHAPES if shape.search(words)), None)


class Log:
    """What the prover said of a crate."""

    def __init__(self, status, said, folder):
        self.said, self.refused = said, status == 1 and re.search(r"(?m)^logic=not-proved", said)
        self.proved = status == 0 and re.search(r"(?m)^logic=proved", said)
        self.errors = [(p.removeprefix(folder + "/"), law, words) for p, law, words in ERROR.findall(said)]
        self.unproved = dict(re.findall(r"(?m)^fn (\S+): (not proved.*|no proof.*)$", said))

    def own_errors(self, crate, name):
        """The errors of the function or law itself, without those that only say that something below it is refused."""
        if name in crate.by_name:
            folder, left = crate.by_name[name].proof_folder(), OPEN.search(self.unproved.get(name, ""))
            own = [(law, w) for p, law, w in self.errors if p.startswith(folder) and not CITED.match(w)]
            return own + [(goal, f"no proof of {goal} was found") for goal in re.findall(r"`([^`]*)`", left.group(1) if left else "")]
        file, _, law = name.rpartition(".")
        of_file = lambda path: not file or path.endswith(f"/{file}.antt")
        return [(l, w) for p, l, w in self.errors if l == law and of_file(p) and not CITED.match(w)]

    def wrong_of(self, edit):
        """None where all that the edit breaks is refused for a fact, else what is wrong with that and what to do."""
        if not self.refused:
            return "it is NOT REFUSED" if self.proved else f"it does not reach the prover: {self.said[-300:]}"
        strange = next((words for _, _, words in self.errors if NO_SUCH_NAME.search(words)), None)
        if strange:
            return f"{SHAPES[0][1]}: {strange[:200]}"
        if not edit.breaks:
            facts = ", ".join(n for n in self.with_own_errors(edit.crate) if not self.wrong_with(edit.crate, n)) or "nothing"
            return f"it changes more than one function: add 'breaks: NAME' for each that must be refused; refused for a fact: {facts}"
        return next((w for w in (self.wrong_with(edit.crate, name) for name in edit.breaks) if w), None)

    def wrong_with(self, crate, name):
        own = self.own_errors(crate, name)
        if not own:
            return f"{name} has no error of its own; those that have one: {', '.join(self.with_own_errors(crate)) or 'none'}"
        advice = [advice_on(*one) for one in own]
        return f"{name}: {advice[0]}: {own[0][1][:200]}" if all(advice) else None

    def with_own_errors(self, crate):
        functions = {name for name in crate.by_name if self.own_errors(crate, name)}
        folders = tuple(f.proof_folder() for f in crate.by_name.values())
        laws = {os.path.basename(p)[: -len("antt")] + l for p, l, w in self.errors if l and not p.startswith(folders) and not CITED.match(w)}
        return sorted(functions) + sorted(laws)
