#!/usr/bin/env python3
"""Prints each public function, type, definition of specs/ and theorem whose text changed since a commit, old and new side by side.

`tools/design/changes.py COMMIT` reads the commit and the checkout. Of types it has public structs, enums, traits and constants, and the laws and invariants of
impls of traits; of proofs/ the theorems that README or docs/ named at the commit. For what is gone, tools/design/moved.txt says what states its promise
now; what it says nothing of goes to standard error. docs/DESIGN-PASS.md ends with this list.
"""
import collections
import re
import sys

sys.dont_write_bytecode = True
from code_of import root, texts  # noqa: E402

NAME = re.compile(r"^(?:(?:abbrev|unfoldable)\s+)?pub\s+(?:record\s+|data\s+)?([^\s:({]+)")


def files(commit, suffix):
    return texts(commit, rf"crates/\w+/{'src' if suffix == 'rt' else 'specs'}/.+\.{suffix}")


def plain(path, text):
    """crate and module of a source file, and its lines without tests and comments."""
    _, crate, _, rest = path.split("/", 3)
    module = rest.removesuffix(".rt").replace("/", "::")
    lines = [x for x in text.split("#[cfg(test)]")[0].split("\n") if not x.lstrip().startswith("//")]
    return crate, "" if module in ("lib", "main") else module + "::", lines


def block(lines, i):
    """The lines from the i-th to the one that closes it, as one."""
    if lines[i].rstrip().endswith((";", "}")):
        return lines[i].strip()
    indent = re.match(" *", lines[i])[0]
    end = next((k for k in range(i + 1, len(lines)) if lines[k].rstrip(";,") in (indent + "}", indent + "]")), len(lines) - 1)
    return " ".join(" ".join(lines[i:end + 1]).split())


def head(lines, i):
    """The signature and the clauses of the function that begins there."""
    indent, parts = re.match(" *", lines[i])[0], []
    for k in range(i, len(lines)):
        line = lines[k].rstrip()
        if line == indent + "{":
            break
        parts.append(line.strip())
        if line.endswith(";") or (line.endswith("{") and not re.search(r"\b(ensures|requires|ghost)\b", line)):
            break
    return " ".join(parts).removesuffix(" {").removesuffix(";")


def functions(commit):
    """crate, module, type and name of each public function, with its signature and clauses. The functions of a trait and of an impl of one are
    listed with the trait and the impl."""
    out = {}
    for path, text in files(commit, "rt").items():
        crate, place, lines = plain(path, text)
        owner, trait = "", False
        for i, line in enumerate(lines):
            m = re.match(r"(?:impl(?:<[^>]*>)? |pub trait )(.+?) \{", line)
            if m:
                trait = " for " in m[1] or line.startswith("pub trait")
                owner = "" if trait else re.sub(r"<'\w+>", "", m[1]) + "::"
            if line == "}":
                owner, trait = "", False
            m = re.match(r" *pub (?:unsafe )?(?:const )?(?:extern \"C\" )?fn (\w+)", line)
            if m and not trait:
                key = crate, f"{place}{owner}{m[1]}"
                if key in out:
                    print(f"two functions of one name: {' '.join(key)}", file=sys.stderr)
                out[key] = head(lines, i)
    return out


def types(commit):
    """crate, module and name of each public struct, enum, trait and constant, with its text; of each impl of a trait its ghost items, which are its
    laws or the type's invariant, and the heads of its functions."""
    out = {}
    for path, text in files(commit, "rt").items():
        crate, place, lines = plain(path, text)
        derived = ""
        for i, line in enumerate(lines):
            if line.startswith("#[derive"):
                derived = line + " "
                continue
            m = re.match(r"pub (?:struct|enum|trait|const|type) (\w+)", line)
            if m:
                out[crate, place + m[1]] = derived + block(lines, i)
            m = re.match(r"impl(?:<[^>]*>)? (.+? for .+?) \{", line)
            if m:
                end = next((k for k in range(i, len(lines)) if lines[k] in ("}", line) and lines[k] == "}"), i)
                parts = []
                for k in range(i + 1, end):
                    if re.match(r"    (?:ghost \w+ = |type )", lines[k]):
                        parts.append(block(lines, k))
                    elif re.match(r"    fn ", lines[k]):
                        parts.append(head(lines, k) + ";")
                out[crate, f"{place}{m[1]}"] = " ".join([line.removesuffix(" {")] + parts)
            if not line.startswith("#["):
                derived = ""
    return out


def definitions(commit):
    """crate, file and name of each public declaration of specs/, with its text without comments."""
    out = {}
    for path, text in files(commit, "antt").items():
        _, crate, _, rest = path.split("/", 3)
        if rest == "Lib.antt":
            continue
        block, name = [], None
        for line in text.split("\n") + ["pub end-of-file"]:
            m = NAME.match(line)
            starts = re.match(r"\S", line) and not line.startswith(("--", "use ", "pub use", "unfolding", "}"))
            if m and name and m[1] == name:
                starts, m = False, None
            if starts and (m or (name and not line.startswith(name.split("◌")[0] or "◌"))):
                if name:
                    out[crate, rest.removesuffix(".antt"), name] = " ".join(" ".join(block).split())
                block, name = [], m[1] if m else None
            if name and not line.strip().startswith("--") and not line.startswith(("use ", "pub use")):
                block.append(line)
    return out


def theorems(commit):
    """The names in backticks that README and docs/ have at the commit: `File.name` as a pair, and a name alone with no file."""
    text = "\n".join(t for n, t in texts(commit, r"README\.md|docs/(?!PORT-NAMES)[\w/-]+\.md").items())
    pairs = {(m[1], m[2]) for m in re.finditer(r"`(\w+)\.([A-Za-z][\w'-]*)`", text)}
    return pairs | {(None, m[1]) for m in re.finditer(r"`([A-Za-z][\w'-]*)`", text)}


def statements(commit, names):
    """crate, file and name of each theorem of proofs/ that is among the names, with its statement; of what is no theorem but a definition the whole."""
    out = {}
    for path, text in texts(commit, r"crates/\w+/proofs/\w+\.antt").items():
        _, crate, _, rest = path.split("/", 3)
        file = rest.removesuffix(".antt")
        lines = text.split("\n")
        opening = ""
        for i, line in enumerate(lines):
            if re.match(r"\S", line) and not line.startswith("--"):
                opening = line
            m = re.match(r"( *)pub ([^\s:({]+) :(?: |$)", line)
            # (a field of a record is no theorem)
            if not m or (m[1] and re.match(r"(?:abbrev |unfoldable )?(?:pub )?(?:record|data) ", opening)):
                continue
            if (file, m[2]) not in names and (None, m[2]) not in names:
                continue
            parts = [line.strip()]
            for k in range(i + 1, len(lines)):
                if not lines[k].startswith(m[1] + " ") or re.match(r" *(?:unfolding|pub) ", lines[k]) or lines[k].lstrip().startswith("--"):
                    break
                parts.append(lines[k].strip())
            out[crate, file, m[2]] = " ".join(parts)
    return out


def moved():
    table = {}
    path = root / "tools/design/moved.txt"
    if path.exists():
        for line in path.read_text().split("\n"):
            if "=>" in line and not line.startswith("#"):
                old, new = line.split("=>", 1)
                table[old.strip()] = new.strip()
    return table


def show(title, old, new, table):
    print(f"\n### {title}\n")
    gone = [k for k in old if k not in new]
    fresh = {k: v for k, v in new.items() if k not in old}
    # a declaration that lies in another file now, with the same name
    by_name = collections.defaultdict(list)
    for k in fresh:
        by_name[k[0], k[-1].split("::")[-1]].append(k)
    for k in sorted(old):
        words = " ".join(k)
        if k in new:
            if old[k] != new[k]:
                print(f"- `{words}`\n  - was: `{old[k]}`\n  - is: `{new[k]}`")
            continue
        if words in table:
            print(f"- `{words}`\n  - was: `{old[k]}`\n  - is: {table[words]}")
            continue
        same = by_name.get((k[0], k[-1].split("::")[-1]), [])
        if len(same) == 1:
            print(f"- `{words}`, now `{' '.join(same[0])}`\n  - was: `{old[k]}`\n  - is: `{new[same[0]]}`")
            continue
        print(f"- `{words}`\n  - was: `{old[k]}`\n  - is: nothing of that name")
        print(f"moved.txt says nothing of: {words}", file=sys.stderr)
    print(f"\n{len(gone)} of {len(old)} names are gone or lie elsewhere; new are {len(fresh)}:")
    for k in sorted(fresh):
        print(f"- `{' '.join(k)}`: `{fresh[k]}`")


def main():
    commit = sys.argv[1]
    table = moved()
    show("Public functions", functions(commit), functions(None), table)
    show("Public types and constants, and impls of traits", types(commit), types(None), table)
    show("Definitions and theorems of specs/", definitions(commit), definitions(None), table)
    names = theorems(commit)
    show("Theorems of proofs/ that README or docs/ name", statements(commit, names), statements(None, names), table)


main()
