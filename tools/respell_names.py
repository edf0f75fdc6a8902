#!/usr/bin/env python3
"""Spells this repository's own definitions and lemmas in snake case.

usage: python3 tools/respell_names.py [--list]   at the top of the repository, once, after the toolchain's own port script

A name in camel case that a file of specs/ or proofs/ declares, or that a `ghost use` gives to one, becomes snake case wherever
it stands as a whole word in crates/*/src, specs, proofs and must-fail. Names that Rust code declares keep their spelling; so do
strings. A new name that stands somewhere already stops the script, and nothing is written.
"""

import glob
import re
import sys

WORD = re.compile(r"(?<![\w'·])[A-Za-z_][\w'-]*")
DECLARED = re.compile(r"^\s*(?:abbrev |unfoldable )?(?:pub )?([a-z][\w'-]*)[^:=\n]*:(?:\s|$)", re.M)
RENAMED = re.compile(r"\bas ([a-z]\w*)")
# Names whose plain spelling would be that of a Rust function or of another definition, and names made of an older library's.
SPECIAL = {
    "generalCell": "general_cell_of",
    "getD-filled": "get_or-filled",
    "imageBounded": "image_is_bounded",
    "ofCell": "if_of_cell",
    "placeOf": "place_for",
    "predicateAt": "predicate_in",
    "predicateCell": "predicate_cell_of",
    "predicatesCleared": "with_predicates_cleared",
    "reservedClear": "reserved_are_clear",
    "sharesByte": "shares_a_byte",
    "withoutCell": "without_this_cell",
    "withoutReserved": "without_reserved_bits",
    "withoutShared": "without_shared_byte",
}
# Names of the toolchain's library that stand in camel case.
LIBRARY = {"cases_Bool"}


def snake(name):
    return SPECIAL.get(name) or re.sub(r"(?<=[a-z0-9])([A-Z])", lambda m: "_" + m[1].lower(), name)


def files():
    for kind in ("src/**/*.rt", "specs/**/*.antt", "proofs/**/*.antt", "must-fail/*.edit"):
        yield from sorted(glob.glob("crates/*/" + kind, recursive=True))


def camel(name):
    # A goal's name, as returns-in-Ok, has a part that Rust code declares.
    return name not in LIBRARY and re.match(r"[a-z]", name) and re.search(r"[a-z0-9_][A-Z]", name) and ("-" not in name or name in SPECIAL)


def code(text):
    """The text with its strings blanked."""
    return re.sub(r'b?"(?:\\.|[^"\\])*"', lambda m: " " * len(m[0]), text)


def main():
    texts = {f: open(f, encoding="utf-8").read() for f in files()}
    names = set()
    for f, t in texts.items():
        if f.endswith(".antt"):
            names |= {n for n in DECLARED.findall(t) if camel(n)}
        for line in t.splitlines():
            if "use " in line:
                names |= {n for n in RENAMED.findall(line) if camel(n)}
    words = {w for f, t in texts.items() for w in WORD.findall(code(t))}
    new = {n: snake(n) for n in names}
    meet = {n: (s, sorted({f for f, t in texts.items() if s in WORD.findall(code(t))})) for n, s in new.items() if s in words}
    if len(set(new.values())) < len(new) or meet:
        for n, (s, where) in sorted(meet.items()):
            print(f"{n}: {s} stands already in {', '.join(where)}")
        return 1
    if "--list" in sys.argv:
        print("\n".join(f"{n} {s}" for n, s in sorted(new.items())))
        return 0
    for f, t in texts.items():
        blanked = code(t)
        out, last = [], 0
        for m in WORD.finditer(blanked):
            if m[0] in new:
                out += [t[last : m.start()], new[m[0]]]
                last = m.end()
        made = "".join(out) + t[last:]
        if made != t:
            open(f, "w", encoding="utf-8").write(made)
    print(f"{len(new)} names")
    return 0


raise SystemExit(main())
