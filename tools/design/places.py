#!/usr/bin/env python3
"""Counts the places of older forms in the code of a commit, or of the checkout where none is named: one line for each pattern.

`tools/design/places.py [COMMIT] [--list]` prints the number of places of each pattern, and with --list each place. docs/DESIGN-PASS.md has the counts.
"""
import re
import sys

sys.dont_write_bytecode = True
from code_of import sources  # noqa: E402

# by point of docs/DESIGN-PASS.md: a name, and what one line of code has where the form stands
PATTERNS = [
    ("1 enums of the shape of Option or Result, or of bool", r"^(pub )?enum (Input|Answer|Skip|Ranged|HexPair|Accumulator|Boolean)\b"),
    ("1 fields with a refusal's number", r"^    (pub )?(fault|number): u8,(?!.*count)"),
    ("1 functions that answer a fault's number", r"^(pub(\(crate\))? )?fn [a-z_]*(fault|_head|_columns|_pairs|_body|_bytes|_rules|_select|_where|_groups|_froms|_list|relations|select_end|ends_at|between|below|first_of|column_pairing)\(.*-> u8"),
    ("1 parameters that are numbers of kinds, languages, stages, tokens or refusals", r"\bfn .*\b(kind|number|language|stage|token): u8|^    (kind|language|stage|token): u8,"),
    ("1 values that stand for none", r"TOO_MANY \}|=> 16,$|-> isize|next == k|const NONE: u8"),
    ("2 functions of one type that stand for another's", r"fn (byte_at|word_at|end_at|put_byte|put_word|put_short|put_end|lesser|greater|lesser64|greater64|narrow|narrow16)\("),
    ("3 while loops", r"^ *while "),
    ("4 arithmetic, equality, order and conversion by hand", r"fn (equal|same|less|less_equal|lesser|greater|lesser64|greater64|narrow|narrow16|widen16|add|subtract|multiply|subtract16|magnitude|distance|signed|bits|from_bytes|to_bytes|sum_of|one_if|least|one_more|byte_or_zero|at_most_six|wide|within|sure|capped|is_within|word_at|number_at|step|inside)\("),
    ("5 parameters that travel together", r"ends: &|marks: &|\bo: Outline|signs: &"),
    ("6 bytes in which fields are packed", r"ENTRY \*|code / 32|code / 4|code % 4|\* 32 \+|const (BYTES|FORMS): \[u8"),
    ("7 tables of steps, and switches by a flag", r"\b(union|grouped|asked|negate|condition|named): bool"),
]


def main():
    words = [w for w in sys.argv[1:] if w != "--list"]
    files = sources(words[0] if words else None)
    for name, pattern in PATTERNS:
        found = [(f, i, line) for f, text in files.items() for i, line in enumerate(text.split("\n"), 1)
                 if re.search(pattern, line) and not line.lstrip().startswith("//")]
        print(f"{len(found):4}  {name}")
        if "--list" in sys.argv:
            for f, i, line in found:
                print(f"      {f}:{i}: {line.strip()}")


main()
