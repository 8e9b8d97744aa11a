#!/usr/bin/env python3
"""Changes one operator or one number of a crate's code at a time, and says which changes its contracts do not refuse.

    (cd crates/CRATE && rt check) && python3 tools/mutants/survey.py CRATE

Every function has a list of changes. A round makes one change in each function and proves the crate in a copy; the functions of a cycle of calls
have one proof and count as one. A change is refused where its own function's proof stops at a fact. It is not where only a function that it
calls was refused, or where the proof file no longer fits the code: such changes are proved again without those that are decided, at last
alone. Printed are changes that are not refused, which give the same function or show a gap in a contract, and those that were refused for their shape
only, which show nothing. It takes minutes for each crate.
"""
import collections
import pathlib
import re
import sys
import tempfile

sys.dont_write_bytecode = True
sys.path.insert(0, str(pathlib.Path(__file__).resolve().parents[1]))
from room import Refusals, Room, functions  # noqa: E402

SWAPS = [("<", "<="), ("<=", "<"), (">", ">="), (">=", ">"), ("==", "!="), ("!=", "=="), ("+", "-"), ("-", "+"), ("*", "+"), ("/", "%"), ("%", "/"),
         ("&&", "||"), ("||", "&&"), ("&", "|"), ("+=", "-="), ("-=", "+=")]
NUMBER = re.compile(r"(?<![\w.])(0x[0-9a-fA-F_]+|\d[\d_]*)((?:[ui](?:8|16|32|64|size))?)\b")


def changes(line):
    """The line with one operator or number changed, in every way."""
    code = line.split("//")[0]
    for m in NUMBER.finditer(code):
        for n in (int(m[1].replace("_", ""), 0) + 1, int(m[1].replace("_", ""), 0) - 1):
            if n >= 0:
                yield f"{line[:m.start()]}{n}{m[2]}{line[m.end():]}"
    for old, new in SWAPS:
        for m in re.finditer(re.escape(f" {old} "), code):
            yield f"{line[:m.start()]} {new} {line[m.end():]}"
    for m in re.finditer(r"\b(true|false)\b", code):
        yield line[: m.start()] + ("false" if m[1] == "true" else "true") + line[m.end() :]
    for m in re.finditer(r"(?<![\w)])!(?=[a-z(])", code):
        yield line[: m.start()] + line[m.end() :]


def at_a_fact(function, refusals):
    """Whether a function is refused, and not for its shape. Where its answers name what is gone, a goal that is not proved may lack its answer,
    unless it is false of some values."""
    gone = any(name.startswith((function.goals, "its use lines")) for name in refusals.gone[function.place])
    facts = (refusals.false if gone else refusals.facts)[function.place]
    return any(name.startswith(function.goals) for name in facts)


class Crate:
    def __init__(self, name, folder):
        self.name, self.room = name, Room(name, folder)
        self.sources = {p.relative_to(self.room.inside): p.read_text().split("\n") for p in sorted((self.room.inside / "src").glob("*.rt"))}
        self.met = collections.Counter()

    def body(self, function):
        """The lines of a function's body."""
        lines, i = self.sources[function.source], function.line
        space = re.match(r"\s*", lines[i])[0]
        while not (lines[i] == space + "{" or re.match(re.escape(space) + r"(\S.*)?\) .*\{$|.*fn .*\) *\{$", lines[i])):
            i += 1
        first = i + 1
        while lines[i] != space + "}":
            i += 1
        return range(first, i)

    def prove(self, made):
        """What the prover says of the crate with these changes."""
        for path, lines in self.sources.items():
            now = list(lines)
            for _, n, line in (c for c in made if c[0].source == path):
                now[n] = line
            (self.room.inside / path).write_text("\n".join(now))
        log = self.room.check()
        return Refusals(self.name, log), log

    def judge(self, made):
        """What becomes of each change: no program, refused, refused for its shape, or not refused."""
        while made:
            refusals, log = self.prove(made)
            if refusals.is_proved:
                return self.note("not refused", made)
            if refusals.is_refused:
                told, what = [c for c in made if at_a_fact(c[0], refusals)], "refused"
            else:
                named = {(p, int(n) - 1) for p, n in re.findall(r"\b(src/\w+\.rt):(\d+):", log)}
                told, what = [c for c in made if (str(c[0].source), c[1]) in named], "no program"
            if not told and len(made) == 1:
                return self.note("shape" if what == "refused" else what, made)
            if not told:
                for change in made:
                    self.judge([change])
                return
            self.note(what, told)
            made = [c for c in made if c not in told]

    def note(self, what, made):
        self.met[what] += len(made)
        for function, n, line in made:
            if what in ("not refused", "shape"):
                old = self.sources[function.source][n].strip()
                print(f"{what}: {self.name} {function.path} {function.source.name}:{n + 1}: {old}  =>  {line.strip()}", flush=True)

    def survey(self):
        pending = {}
        for function in functions(self.name):
            for n in self.body(function):
                pending.setdefault(function.place, []).extend((function, n, line) for line in changes(self.sources[function.source][n]))
        refusals, log = self.prove([])
        if not refusals.is_proved:
            sys.exit(f"{self.name} is not proved as it is:\n{log[-2000:]}")
        while any(pending.values()):
            self.judge([c.pop(0) for c in pending.values() if c])
        print(f"{self.name}: {sum(self.met.values())} changes, " + ", ".join(f"{n} {what}" for what, n in sorted(self.met.items())), flush=True)


for crate in sys.argv[1:]:
    with tempfile.TemporaryDirectory() as folder:
        Crate(crate, pathlib.Path(folder) / "room").survey()
