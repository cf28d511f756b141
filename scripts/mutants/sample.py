"""A crate of three functions, and edits of it that show something and nothing: what the self-check tries."""

# The crate of the self-check, and its edits: a name, the edit, and what must be said of it (nothing: it passes).
SAMPLE = {
    "crates.txt": "sample:\n",
    "crates/sample/src/lib.rt": """#![tactic(auto)]

ghost use Rattle.std.specs.Prelude.{◌≡◌, ◌+◌, ◌≤◌};

pub fn seven() -> u32
    ensures { result ≡ 7 }
{
    7
}

pub fn next(n: u32) -> u32
    requires { n ≤ 99 }
    ensures { result ≡ n + 1 }
{
    n + 1
}

pub fn eight() -> u32
    ensures { result ≡ 8 }
{
    next(seven())
}""",
    "crates/sample/proofs/eight/Answers.antt": """use native.Mathlib.Omega.{arith}
use Rattle.sample.proofs.eight.Goals as goal

pub returns : goal.returns
returns c = omega (arith, c.next.ensures, c.seven.ensures)
""",
}
SAMPLE_EDITS = (
    ("six", "old:     7\nnew:     6", None),
    ("nine", "old: next(seven())\nnew: next(next(seven()))", None),
    ("harmless", "old:     n + 1\nnew:     1 + n", "NOT REFUSED"),
    ("spelling", "breaks: sample::seven\nold: result ≡ 7\nnew: result ≡ sevn", "not in scope"),
    ("below", "breaks: sample::eight\nold:     7\nnew:     6", "no error of its own"),
    ("shape", "old: next(seven())\nnew: seven() + 1", "no longer fits"),
    ("needs", "old: next(seven())\nnew: next(7)", "no longer fits"),
    ("compiler", "old: next(seven())\nnew: nxt(seven())", "does not reach the prover"),
    ("contract", "old: result ≡ 8\nnew: result ≡ 9", None),
    ("several", "old: result ≡ 8\nnew: result ≡ 9\nold:     7\nnew:     6", "add 'breaks: NAME'"),
    ("gone", "old: nine\nnew: ten", "stands 0 times"),
    ("named", "breaks: sample::next\nold: n + 1\nnew: n + 2", None),
    ("overflow", "breaks: sample::next\nold: result ≡ n + 1\nnew: 0 ≤ result\nold:     n + 1\nnew:     n + 4294967295", "says nothing of the answer"),
    ("twice", "old: n + 1\nnew: n + 2", "stands 2 times"),
)
