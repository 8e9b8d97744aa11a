#!/usr/bin/env python3
"""An outside check of the meaning: every view's bag of rows, and the verdict, beside PostgreSQL's.

    .ci/libraries trial
    python3 tools/outside/check.py [--files N] [--databases N] [--seed N] [PATH ...]

Our rows and verdicts come from the proved evaluator, through compare/evaluation/examples/databases.rs, for the marked
examples of document 01, the rule files examples/*.rules, those at the paths, and random files.
PostgreSQL's come from a private server on a local socket (server.py), over SQL made from the same rule file (sql.py) by a
decoder that knows documents 01 and 02 and none of our code (rulefile.py). Compared, for each database:

- its tables: the candidate's number as this script reads it, and the cells that our evaluator kept;
- every view: the rows as a bag, since SQL has no order;
- the verdict: a case if PostgreSQL accepts the rows under CHECK, PRIMARY KEY and FOREIGN KEY, some table has a row, and
  the goal view has a row (positive) or is shown negative (Definitions 2 to 4).

SQL differs from document 01 in one place, an aggregate over nothing with no grouping columns: one row in SQL, none here.
The SQL asks for a member there (count(*) > 0), and the summary says how often that mattered. No other sentence of
document 01 needs help: a sum, numeric in PostgreSQL, is cast to bigint, and round on numeric takes halves away from zero.

The last line is 'N files, M databases, D differences'. The exit status is 1 if D is not 0 or a kind was never met (asked
of 200 random files or more), and 2 if the check could not run. It needs Python 3, cargo and Debian's package postgresql.
It is not part of .ci/run.
"""

import argparse
import signal
import subprocess
import sys
import tempfile
from collections import Counter, defaultdict
from dataclasses import dataclass, field
from pathlib import Path

sys.dont_write_bytecode = True

import rulefile  # noqa: E402
import sql  # noqa: E402
from server import Failure, Server  # noqa: E402

HOME = Path(__file__).resolve().parents[2]
SHOWN = 10
COPY = "0301000110010000"  # a view of table 0's first column
EXAMPLE = "010101000000000c 0301000112000008010000010000 0301010112000005010000010000"
ROUNDED = "".join("05000a00" + value for value in ("000e", "000f", "fff1", "fff2", "0005", "fffb", "0000"))
SQUARE = "04010000010000"
# The accepted files of the marked examples, a word for each line.
MARKED = {
    "M1": f"{EXAMPLE} 070200",
    "M2": f"{EXAMPLE} 070201",
    "M3": f"0101010000000000 0301000710{ROUNDED} 070100",
    "M4": f"0102010000050005 0101010000050005 {COPY} 0301010110010000 050203 060203 060302 070400",
    "M5": f"0102010000000003 {COPY} 070101",
    "M6": f"0100010000000003 {COPY} 070100",
    "M7": f"0102010100040004 {COPY} 070100",
    "M8": "0102010000320033 0401000001101200006407010100000701010000 070100",
    "M9": "0102010000000003 04010000011410100700010000 070100",
    "M10": f"0101020000000fff00000fff {COPY} 070100",
    "M11": "0108010000000000 0108010000000000 0102010000000000 030200010110010000 070300",
    "M12": f"0101010080017fff 030100011002{SQUARE}{SQUARE} 070100",
}
OVER_NOTHING = (
    "aggregate over nothing: a row in SQL, none here",
    "aggregate over nothing: shown negative in SQL, not here",
)
# Each must be met, or the check says little.
REQUIRED = [
    *(f"view: {kind}" for kind in ("basic", "aggregate", "union", "intersection")),
    *(f"grouping columns: {count}" for count in range(5)),
    *(f"token {token:02x}" for token in [*range(8), *range(0x10, 0x18)]),
    *(f"aggregate {kind}" for kind in range(4)),
    *(f"exists: {what}" for what in ("over a table", "over a view", "below not", "within another", "in an aggregate view")),
    *(f"accepts: {answer}" for answer in ("valid", "key", "foreign-key")),
    *(
        f"verdict: {sign} {kind}, {verdict}"
        for sign in ("positive", "negative")
        for kind in ("basic", "aggregate", "union", "intersection")
        for verdict in ("case", "no case")
    ),
    *(f"one operand negative: {kind}" for kind in ("union", "intersection")),
    *OVER_NOTHING,
]


@dataclass
class Database:
    """What one side says of a database."""

    k: int
    rows: dict = field(default_factory=lambda: defaultdict(Counter))
    plain: dict = field(default_factory=lambda: defaultdict(Counter))
    cells: tuple = ()
    negative: set = field(default_factory=set)
    plain_negative: set = field(default_factory=set)
    accepts: str = ""
    verdict: int = -1

    def take(self, word, values):
        """Takes one line of either side."""
        if word == "accepts":
            self.accepts = values[0]
            return
        values = tuple(map(int, values))
        if word == "cells":
            self.cells = values
        elif word == "verdict":
            self.verdict = values[0]
        elif word in ("negative", "plain_negative"):
            getattr(self, word).add(values[0])
        else:
            {"row": self.rows, "plain": self.plain}[word][values[0]][values[1:]] += 1


@dataclass
class Text:
    """A rule file's text with its databases as we evaluate them."""

    name: str
    lines: list = field(default_factory=list)
    databases: list = field(default_factory=list)
    refused: str = ""


def read_databases(lines):
    """The databases of lines that begin with a word, the first of each with 'database'."""
    databases = []
    for line in lines:
        word, *values = line.split()
        if word == "database":
            databases.append(Database(int(values[0])))
        else:
            databases[-1].take(word, values)
    return databases


def read_texts(lines):
    """The texts that the example program writes, in turn."""
    texts, rest = [], []
    for line in lines:
        word, _, value = line.rstrip("\n").partition(" ")
        if word == "file":
            texts.append(Text(value))
            rest.append([])
        elif word == "line":
            texts[-1].lines.append(value)
        elif word == "refused":
            texts[-1].refused = value
        else:
            rest[-1].append(line)
    for text, own in zip(texts, rest):
        text.databases = read_databases(own)
    return texts


def negative(file, database, relation):
    """Whether PostgreSQL's answers show a view negative (Definitions 2 to 4)."""
    view = file.relations[relation]
    if view.kind in ("basic", "aggregate"):
        return relation in database.negative
    both = [negative(file, database, operand) for operand in (view.left, view.right)]
    return all(both) if view.kind == "union" else any(both)


def verdict(file, database):
    """Whether PostgreSQL's answers make the database a case."""
    if database.accepts != "valid" or not any(table.rows for table in file.tables):
        return 0
    shown = negative(file, database, file.goal) if file.negative else database.rows[file.goal]
    return int(bool(shown))


def one_sided(file, database):
    """Whether the goal is to show a union or an intersection negative, and just one operand is."""
    view = file.relations[file.goal]
    if not file.negative or view.kind in ("basic", "aggregate"):
        return False
    return negative(file, database, view.left) != negative(file, database, view.right)


class Check:
    """The comparison, and what it met."""

    def __init__(self):
        self.met = Counter()
        self.files = self.databases = self.differences = 0

    def differ(self, text, k, what, ours, theirs):
        self.differences += 1
        if self.differences <= SHOWN:
            print(f"DIFFERENCE in {text.name}, database {k}, {what}\n  ours       {ours}\n  PostgreSQL {theirs}")
            print("".join(f"    {line}\n" for line in text.lines), end="")

    def compare(self, server, text):
        """One file with all its databases."""
        file = rulefile.read(text.lines)
        databases = [(ours.k, file.database(ours.k)) for ours in text.databases]
        answers = read_databases(server.query(sql.script(file, databases), text.name))
        if [theirs.k for theirs in answers] != [ours.k for ours in text.databases]:
            raise Failure(f"{text.name}: psql answered for other databases than it was asked")
        self.files += 1
        self.mark_file(file)
        for ours, theirs, (_, tables) in zip(text.databases, answers, databases):
            self.databases += 1
            self.compare_tables(text, file, ours, tables)
            self.compare_views(text, file, ours, theirs)
            self.compare_verdict(text, file, ours, theirs)

    def compare_tables(self, text, file, ours, tables):
        cells = tuple(cell for rows in tables for row in rows for cell in row)
        if ours.cells != cells:
            self.differ(text, ours.k, "cells", ours.cells, cells)
        for relation, rows in enumerate(tables):
            if ours.rows[relation] != Counter(rows):
                self.differ(text, ours.k, f"table {relation}", dict(ours.rows[relation]), dict(Counter(rows)))

    def compare_views(self, text, file, ours, theirs):
        for relation, view in file.views():
            mine, other = ours.rows[relation], theirs.rows[relation]
            self.met[f"view: {view.kind}"] += 1
            self.met["rows of views"] += mine.total()
            self.met[f"view: {view.kind}, with rows"] += bool(mine)
            self.met["views with a row found more than once"] += max(mine.values(), default=0) > 1
            if mine != other:
                self.differ(text, ours.k, f"{view.kind} view {relation}", dict(mine), dict(other))
            self.met[OVER_NOTHING[0]] += sql.over_nothing(view) and theirs.plain[relation] != other
            self.met[OVER_NOTHING[1]] += relation in theirs.plain_negative - theirs.negative

    def compare_verdict(self, text, file, ours, theirs):
        expected = verdict(file, theirs)
        self.met[f"accepts: {theirs.accepts}"] += 1
        if theirs.accepts == "valid":
            sign = "negative" if file.negative else "positive"
            kind = file.relations[file.goal].kind
            self.met[f"verdict: {sign} {kind}, {'case' if expected else 'no case'}"] += 1
            self.met[f"one operand negative: {kind}"] += one_sided(file, theirs)
        if ours.verdict != expected:
            self.differ(text, ours.k, "verdict", ours.verdict, f"{expected}, rows {theirs.accepts}")

    def mark_file(self, file):
        self.met["materialized views (too much to unfold)"] += len(sql.materialized(file))
        self.met["foreign keys"] += len(file.foreign_keys)
        self.met["foreign keys of a table to itself"] += sum(k.child == k.parent for k in file.foreign_keys)
        self.met["keyed tables"] += sum(bool(table.key) for table in file.tables)
        for _, view in file.views():
            if view.kind == "aggregate":
                self.met[f"grouping columns: {len(view.grouping)}"] += 1
            if view.kind in ("basic", "aggregate"):
                self.mark_tokens([view.where, view.having, *view.select])
                self.mark_exists(file, view)

    def mark_tokens(self, trees):
        for tree in trees:
            for part in sql.parts(tree):
                self.met[f"token {part[0]:02x}"] += 1
                if part[0] == 7:
                    self.met[f"aggregate {part[1]}"] += 1

    def mark_exists(self, file, view):
        """What stands around each exists and within it. It stands in where alone."""
        for part in sql.parts(view.where):
            if part[0] == 0x14:
                self.met["exists: below not"] += part[1][0] == 0x17
            if part[0] == 0x17:
                self.met[f"exists: over a {'table' if part[1] < len(file.tables) else 'view'}"] += 1
                self.met["exists: within another"] += any(inner[0] == 0x17 for inner in sql.parts(part[2]))
                self.met["exists: in an aggregate view"] += view.kind == "aggregate"

    def finish(self, required):
        """The summary; whether all is well."""
        for name, count in sorted((+self.met).items()):
            print(f"{count:8} {name}")
        missing = [name for name in required if not self.met[name]]
        for name in missing:
            print(f"never met: {name}")
        print("SQL differs by document 01: an aggregate over nothing with no grouping columns gives no row, one in SQL;")
        rows, negative = (self.met[name] for name in OVER_NOTHING)
        print(f"  it mattered for {rows} times a view's rows and {negative} times its negation")
        print(f"{self.files} files, {self.databases} databases, {self.differences} differences")
        return not missing and self.differences == 0


def write_marked(place):
    """The marked examples as rule files."""
    for name, words in MARKED.items():
        path = Path(place) / name
        path.write_text("".join(word + "\n" for word in words.split()))
        yield path


def example_files():
    """The accepted rule files of examples/, not those in examples/refused."""
    return sorted((HOME / "examples").glob("*.rules"))


def evaluated(options, paths):
    """The texts with our rows and verdicts."""
    if not (HOME / "target/staticlib/libtrial.a").exists():
        raise Failure("target/staticlib/libtrial.a is not there: run `.ci/libraries trial` first")
    words = ["cargo", "run", "--release", "--offline", "--quiet", "--manifest-path", HOME / "compare/Cargo.toml"]
    words += ["-p", "evaluation", "--example", "databases", "--"]
    words += [options.seed, options.files, options.databases, *paths]
    done = subprocess.run([str(word) for word in words], stdout=subprocess.PIPE, text=True, check=False)
    if done.returncode != 0:
        raise Failure("the example program databases failed")
    return read_texts(done.stdout.splitlines())


def arguments():
    parser = argparse.ArgumentParser(description=__doc__.splitlines()[0])
    parser.add_argument("--files", type=int, default=300, help="random files (300)")
    parser.add_argument("--databases", type=int, default=4, help="databases of each, beside first, last and first case (4)")
    parser.add_argument("--seed", type=int, default=0)
    parser.add_argument("paths", nargs="*", metavar="PATH", help="more rule files")
    return parser.parse_args()


def run(options):
    check = Check()
    with tempfile.TemporaryDirectory() as place:
        texts = evaluated(options, [*write_marked(place), *example_files(), *options.paths])
    with Server() as server:
        for text in texts:
            if text.refused:
                print(f"refused, so not compared: {text.name} ({text.refused})")
                check.met["refused files"] += 1
            else:
                check.compare(server, text)
    return check.finish(REQUIRED if options.files >= 200 else [])


def main():
    signal.signal(signal.SIGTERM, lambda *_: sys.exit(2))
    try:
        return 0 if run(arguments()) else 1
    except Failure as failure:
        print(f"outside check: {failure}", file=sys.stderr)
        return 2


if __name__ == "__main__":
    sys.exit(main())
