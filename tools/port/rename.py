#!/usr/bin/env python3
"""Brings the repository's own names of definitions and lemmas to snake case, after port.py, once.

A word in mixed case that begins small, as `wellFormed` or `length-cutRows`, becomes `well_formed` and `length-cut_rows`. It reads and
writes the .antt files, the must-fail edits, and the clauses, `ghost use` lines and comments of the .rt files; functions of src/ are in snake case already, and
strings stay. Names of the kit's libraries stay. Where the new name stands somewhere in the repository already, the word is
in APART, and was looked at: there it names a function of src/, or something of a file that does not see the definition; three names of
lemmas that stood in one file with such a word give way first (FIRST). Any other clash stops the script before it writes.

usage: python3 tools/port/rename.py [--list]
"""
import pathlib
import re
import sys

root = pathlib.Path(__file__).resolve().parent.parent.parent
WORD = re.compile(r"[^\s(){}\[\];,.⌜⌝λ\"`:]+")
# names that give way first: in this file, from, to
FIRST = [
    ("language/proofs/FramesBack.antt", "is_view", "view_named"),
    ("language/proofs/ReadBack.antt", "two_bytes", "bytes_in_two"),
    ("views/proofs/Picks.antt", "item_count", "items_counted"),
]
# words whose new name stands elsewhere already, and means another thing there
APART = set(
    """
    behindFroms bothSentences byteOrZero caseFrame columnIn columnPairing columnsFault conditionSelect countedGroups countedSelect
    countedWhere digitOf foreignKeyHolds frameAt frameNumber fromList fromOf goalOf groupRows hasRoom hexDigit inOrder inWhere
    isCase isView isWithin itemCount joinedWith keptNext keyBody keyHead keyHolds keyPairs lastRow lessEqual lookAt ownBytes
    ownForms pairsFault partsAfter pastLines productBound putCell putCells putHulls putRange putRow putShape putStart putStarts
    rangeAt refusalFrame selectEnd setAsked setBound setBytes setNeeded setRows setRules sixWith someRow stageOf tableColumns
    tableHead tooMany turnFault twoAt twoBytes viewBytes viewRows whereGroups withGoal withKey withTable withValue withView
""".split()
)


def files():
    yield from sorted(p for p in root.glob("crates/*/**/*.antt") if "out" not in p.parts)
    yield from sorted(p for p in root.glob("crates/*/src/**/*.rt"))
    yield from sorted(p for p in root.glob("crates/*/must-fail/*.edit"))


def snake(part):
    if not re.match(r"[a-z_]", part):
        return part
    return re.sub(r"(?<=[a-z0-9'])([A-Z])", lambda m: "_" + m[1].lower(), part)


def kit_names(text):
    """The names that a file takes from the kit, as they stand there and under their new name here."""
    found = set()
    for where, names in re.findall(r"^(?:ghost )?use ([^\s{]+)\.\{([^}]*)\}", text, re.M):
        if not re.match(r"Rattle\.(?!std\b)", where):
            for name in filter(None, map(str.strip, names.split(","))):
                old, _, _ = name.partition(" as ")
                found.add(old)
    return found


texts = {p: p.read_text() for p in files()}
for name, old, new in FIRST:
    path = root / "crates" / name
    if any(new in WORD.findall(t) for t in texts.values()):
        sys.exit(f"{new} stands already")
    texts[path] = WORD.sub(lambda m: new if m[0] == old else m[0], texts[path])
kit = set().union(*(kit_names(t) for t in texts.values()))
words, edited = set(), set()
for path, text in texts.items():
    (edited if path.suffix == ".edit" else words).update(WORD.findall(text))
table = {}
for word in words | edited:
    new = word if word in kit else "-".join(p if p in kit else snake(p) for p in word.split("-"))
    if new != word:
        table[word] = new

faults = []
for word, new in sorted(table.items()):
    # a word that only edits have still is one that port.py turned elsewhere
    if new in words and word in words and word not in APART:
        faults.append(f"{word} would fall together with {new}")
back = {}
for word, new in sorted(table.items()):
    if new in back:
        faults.append(f"{word} and {back[new]} would both be {new}")
    back[new] = word
if "--list" in sys.argv:
    for word, new in sorted(table.items()):
        print(word, new, sep="\t")
for fault in faults:
    print(fault, file=sys.stderr)
if "--list" in sys.argv or faults:
    sys.exit(1 if faults else 0)

for path, text in texts.items():
    out = []
    for piece in re.split(r'("(?:[^"\\\n]|\\.)*")', text):
        out.append(piece if piece.startswith('"') else WORD.sub(lambda m: table.get(m[0], m[0]), piece))
    if "".join(out) != path.read_text():
        path.write_text("".join(out))
print(f"{len(table)} names")
