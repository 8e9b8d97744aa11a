"""A room: a copy of one crate that may be changed, beside the crates below it, and what `rt check` says of the crate there.

`.ci/edits` and tools/mutants/survey.py use it. The crates below keep their files and their built libraries by hard links; the changed crate
begins with what checks of it kept in the checkout.
"""
import collections
import dataclasses
import os
import pathlib
import re
import shutil
import subprocess

root = pathlib.Path(__file__).resolve().parent.parent
PARTS = ("src", "specs", "proofs")
# a name that is gone: what antt says where an answer or a law names something that the changed text no longer has
GONE = re.compile(r"has no field|has no `|is not in scope|is no name")


def listed():
    """Each crate of crates.txt: its line, and the crates that the line names, lowest first as the file has them."""
    found = {}
    for line in (root / "crates.txt").read_text().splitlines():
        line = line.partition("#")[0].strip()
        if line:
            head, _, uses = line.partition(":")
            found[head.split()[0]] = line, uses.split()
    return found


CRATES = listed()


def below(crate):
    """The crates of the repository that a crate stands on."""
    found = []
    for name in CRATES[crate][1]:
        if name in CRATES:
            found += [c for c in [*below(name), name] if c not in found]
    return found


@dataclasses.dataclass(frozen=True)
class Function:
    """A function of a crate: its path, as `module/Type/function`, the folder of its proof, how the names of its goals there begin, and the line
    of its head, counted from 0."""

    path: str
    place: str
    goals: str
    is_public: bool
    source: pathlib.Path
    line: int


def functions(crate):
    """The functions of a crate, but for those of its tests, which stand last in a file. Those of a cycle of calls have one proof, in which the name of each goal begins with its function's."""
    found = []
    folder = root / "crates" / crate
    for source in sorted((folder / "src").glob("*.rt")):
        module, owner, cycle = [] if source.stem in ("lib", "main") else [source.stem], [], None
        for number, line in enumerate(source.read_text().split("\n")):
            if line == "#[cfg(test)]":
                break
            elif kind := re.match(r"impl(?:<[^>]*>)? (?:(\w+)(?:<(\w+)>)? for )?(\w+|\([\w, ]+\))", line):
                # (an impl of a trait is named after the type, the trait and its parameter, each with a capital; a tuple after its size and the types in it)
                trait, of, name = (part or "" for part in kind.groups())
                parts = re.findall(r"\w+", name)
                if name[0] == "(":
                    parts.insert(0, f"Tuple{len(parts)}")
                owner = ["".join(part[:1].upper() + part[1:] for part in (*parts, trait, of))]
            elif line == "}":
                owner = []
            elif named := re.match(r"\s*#\[cycle\((\w+)\)\]", line):
                cycle = named[1]
            elif head := re.match(r'\s*(pub )?(?:pub\(crate\) )?(?:extern "C" )?fn (\w+)', line):
                own, around = "/".join([*module, *owner, head[2]]), "/".join([*module, *owner, "+" + (cycle or head[2])])
                is_cycle = cycle or (folder / "proofs" / around).is_dir()
                goals = f"{head[2]}-" if cycle else ""
                found.append(Function(own, around if is_cycle else own, goals, bool(head[1]), source.relative_to(folder), number))
                cycle = None
    return found


def linked(folder, to):
    """Copies a folder, its files by hard links where these can be made."""

    def link(one, other):
        try:
            os.link(one, other)
        except OSError:
            shutil.copy2(one, other)

    shutil.copytree(folder, to, copy_function=link)


class Room:
    """A room in a new folder."""

    def __init__(self, crate, folder):
        self.crate, self.folder = crate, pathlib.Path(folder)
        self.inside = self.folder / "crates" / crate
        self.folder.mkdir(parents=True)
        # the lines of these crates alone: rt wants a folder for each line
        lines = [CRATES[name][0] for name in CRATES if name in (*below(crate), crate)]
        (self.folder / "crates.txt").write_text("".join(f"{line}\n" for line in lines))
        for name in below(crate):
            for part in (*PARTS, "out/rlib"):
                self.take(name, part, linked)
        for part in PARTS:
            self.take(crate, part, shutil.copytree)
        # (a check replaces a file of kept work and writes into none)
        self.take(crate, "out/incremental", linked)

    def take(self, name, part, copy):
        there = root / "crates" / name / part
        if there.is_dir():
            copy(there, self.folder / "crates" / name / part)

    def check(self):
        """What the prover says of the crate as it stands in the room. A check that was killed, most likely for memory, is made once more."""
        for _ in range(2):
            ran = subprocess.run(["rt", "check", "--jobs", "1"], cwd=self.inside, stdin=subprocess.DEVNULL, stdout=subprocess.PIPE,
                                 stderr=subprocess.STDOUT, errors="replace")
            if ran.returncode >= 0:
                break
        return ran.stdout


class Refusals:
    """What the prover refused, by its words."""

    def __init__(self, crate, log):
        # of a folder of proofs/, or a file of laws: the names of what was refused there, at a fact and for a name that is gone; and those of
        # the goals for which the check found values at which they are false
        self.facts, self.gone, self.false = (collections.defaultdict(set) for _ in range(3))
        self.is_proved = bool(re.search(r"^logic=proved ", log, re.M))
        self.is_refused = bool(re.search(r"^logic=not-proved$", log, re.M))
        places = {function.path.replace("/", "::"): function.place for function in functions(crate)}
        goals, false = set(), set()
        # a message may run over lines that begin with two spaces
        for line in re.sub(r"\n(?=  )", " ", log).splitlines():
            if error := re.match(r"(?:\./)?(?:proofs|specs)/(.+?)(?:/(?:Answers|Invariants|Proof))?\.antt:\d+:\d+: error: (?:`([^`]*)`: )?(.*)", line):
                # (a `use` line that names what is gone has no name of its own)
                if GONE.search(error[3]):
                    self.gone[error[1]].add(error[2] or "its use lines")
                elif error[2]:
                    self.facts[error[1]].add(error[2])
            elif note := re.match(r"note: src/\S+: it is not proved that .* \(`([^`]*)`\)(.*)", line):
                # (a goal that no tactic proves; the line of its function follows)
                goals.add(note[1])
                if "this goal is false" in note[2]:
                    false.add(note[1])
            elif said := re.match(rf"fn {crate}::(\S+): (.*)", line):
                if found := re.search(r"`search` did not prove ((?:`[^`]*`(?:, | and )?)+)", said[2]):
                    goals.update(re.findall(r"`([^`]*)`", found[1]))
                place = places.get(said[1], said[1])
                if not said[2].startswith("could not tell"):
                    self.facts[place] |= goals
                    self.false[place] |= false
                goals, false = set(), set()

    def of_function(self, function):
        """The goals of a function that were refused at a fact: its answer does not prove it, or no tactic does."""
        return {name for name in self.facts[function.place] if name.startswith(function.goals)}

    def of_laws(self, file, law):
        """The laws of a file that were refused at a fact: all of them, or those of one name and its parts."""
        return {name for name in self.facts[file] if not law or name == law or name.startswith(law + "-")}
