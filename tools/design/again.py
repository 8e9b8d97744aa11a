#!/usr/bin/env python3
"""Counts the places of older forms a second way: by what the code is, and not by the names that it has. One line for each question.

`tools/design/again.py [COMMIT] [--list]` reads the functions, types and loops of a commit, or of the checkout where none is named.
"""
import collections
import re
import sys

sys.dont_write_bytecode = True
from code_of import sources  # noqa: E402


def plain(text):
    """The code without comments, tests, ghost lines and clauses."""
    text = text.split("#[cfg(test)]")[0]
    keep = []
    for line in text.split("\n"):
        stripped = line.strip()
        if not stripped.startswith(("//", "ghost ", "ensures", "requires", "#[")):
            keep.append(line)
    return "\n".join(keep)


def functions(text):
    """Name, parameters and body of each function."""
    for m in re.finditer(r"\bfn (\w+)(?:<[^>]*>)?\(", text):
        at, deep = m.end(), 1
        while deep:
            deep += {"(": 1, ")": -1}.get(text[at], 0)
            at += 1
        params = re.sub(r"\s+", " ", text[m.end():at - 1]).strip(" ,")
        start = text.find("{", at)
        end, deep = start + 1, 1
        while deep and end < len(text):
            deep += {"{": 1, "}": -1}.get(text[end], 0)
            end += 1
        yield m[1], params, text[start:end]


def typed(params):
    """The parameters as (name, type), the receiver left out."""
    out, deep, word = [], 0, ""
    for c in params + ",":
        deep += (c in "<([") - (c in ">)]")
        if c == "," and deep == 0:
            if ":" in word:
                name, kind = word.split(":", 1)
                out.append((name.strip().removeprefix("mut "), kind.strip()))
            word = ""
        else:
            word += c
    return out


def main():
    words = [w for w in sys.argv[1:] if w != "--list"]
    files = {f: plain(t) for f, t in sources(words[0] if words else None).items()}
    every = [(f, *g) for f, t in files.items() for g in functions(t)]
    found = collections.OrderedDict()

    def note(question, places):
        found[question] = list(places)

    note("1 constants that stand for none or for a case", (f"{f}: {m[0]}" for f, t in files.items() for m in re.finditer(r"const \w+: \w+ = [^;]*(?:255|-1|\+ 1)[^;]*;", t)))
    note("1 enums with one case that has a value and one that has none or a number", (
        f"{f}: {m[1]}" for f, t in files.items() for m in re.finditer(r"enum (\w+) \{([^}]*)\}", t)
        if len(m[2].split(",")) <= 5 and "(" in m[2] and re.search(r"^\s*\w+(\(u8(, u16)?\))?,", m[2], re.M) and not re.search(r"\w+\([A-Z]\w*\).*\w+\([A-Z]\w*\)", m[2], re.S)))
    note("1 comparisons with a number that stands for a refusal, a kind or none", (
        f"{f}: {m[0]}" for f, t in files.items() for m in re.finditer(r"\b(?:fault|number|found|turn|kind|stage)\b(?:\.\w+)? (?:==|!=) \w+", t)))
    note("1 matches of a byte with numbers, by a name of a kind", (
        f"{f}: match {m[1]}" for f, t in files.items() for m in re.finditer(r"match (kind|number|stage|language|goal)\b", t)))
    bodies = collections.defaultdict(set)
    for f, name, params, body in every:
        shape = re.sub(r"\b[iu](?:8|16|32|64|size)\b", "N", re.sub(r"\s+", " ", body))
        for i, (p, _) in enumerate(typed(params)):
            shape = re.sub(rf"\b{re.escape(p)}\b", f"p{i}", shape)
        if len(shape) > 40:
            bodies[shape].add(f"{f}: {name}")
    note("2 functions whose bodies are the same but for types and names", (" = ".join(sorted(b)) for b in bodies.values() if len(b) > 1))
    types = collections.defaultdict(set)
    for f, t in files.items():
        for m in re.finditer(r"struct (\w+)(?:<[^>]*>)? \{([^}]*)\}", t):
            fields = [x.strip().removeprefix("pub ") for x in m[2].split(",") if x.strip()]
            if len(fields) > 1:
                types[(len(fields), tuple(sorted(x.split(":")[1].strip() for x in fields if ":" in x)))].add(f"{f}: {m[1]}")
                if len(fields) == 2 and any(x.startswith("next:") for x in fields):
                    types["a value and a place"].add(f"{f}: {m[1]}")
    note("2 types with fields of the same types", (" = ".join(sorted(b)) for b in types.values() if len(b) > 1))
    note("3 loops that change a counter in their last lines or by hand", (
        f"{f}: {name}" for f, name, _, body in every for m in re.finditer(r"\bwhile\b|\bloop\b", body)))
    note("4 functions that are one operation or one conversion", (
        f"{f}: {name}" for f, name, params, body in every
        if re.fullmatch(r"\{\s*\(?\w+(?:\.\w+)?(?: as \w+\)?)?(?: (?:==|<|<=|\+|-|\*) \(?\w+(?: as \w+\)?)?)?\s*\}", body) and params and re.search(r" as |==|<|\+|-|\*", body)))
    together = collections.Counter()
    for f, name, params, body in every:
        kinds = sorted(set(f"{n}: {k}" for n, k in typed(params)))
        for i, a in enumerate(kinds):
            for b in kinds[i + 1:]:
                for c in kinds[kinds.index(b) + 1:]:
                    together[f.split("/")[1], a, b, c] += 1
    often = {k for k, n in together.items() if n >= 3}
    note("5 functions with three parameters that three functions of the crate share", (
        f"{f}: {name}" for f, name, params, _ in every
        if any(k[0] == f.split("/")[1] and set(k[1:]) <= set(f"{n}: {t}" for n, t in typed(params)) for k in often)))
    note("6 functions that take a slice and a number of its entries", (
        f"{f}: {name}" for f, name, params, _ in every
        if re.search(r": &(?:'a )?(?:mut )?\[", params) and re.search(r"\b(?:n|m|count|cells|number|rows|used|length|size): ", params)))
    note("7 fields that are flags", (f"{f}: {m[1]}" for f, t in files.items() for m in re.finditer(r"^    (?:pub )?(\w+): bool,", t, re.M)))
    note("7 parameters that are flags", (f"{f}: {name}({p})" for f, name, params, _ in every for p, k in typed(params) if k == "bool"))
    for question, places in found.items():
        print(f"{len(places):4}  {question}")
        if "--list" in sys.argv:
            for p in places:
                print(f"      {p}")


main()
