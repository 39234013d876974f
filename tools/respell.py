#!/usr/bin/env python3
"""Brings the names of definitions, lemmas, fields and variables to the spelling of Rattle's style guide.

usage: python3 tools/respell.py [--show]     at the top of the repository, once, after the toolchain's own port script

A dash joins names; each name is in snake case, so `firstFrom-none` becomes `first_from-none`. Types and facts keep their
capital. Names from Rattle source, exported names, strings, inputs and outputs stay: none of them is written firstFrom.
With --show nothing is written: it prints the names that would fall together with another one.
"""

import os
import re
import sys

FOLDERS = ["crates", "docs/DECISIONS.md", "docs/FORMAT.md", "docs/PROMISES.md", "docs/PROVING.md", "README.md", "CONTRIBUTING.md"]
KINDS = (".rt", ".antt", ".edit", ".md")
PAGES = (".md",)

# A word of a proof file: parts joined by dashes.
WORD = re.compile(r"[A-Za-z0-9_'₀-₉ℕ]+(?:-[A-Za-z0-9_'₀-₉ℕ]+)*")
CAMEL = re.compile(r"[a-z][a-z0-9₀-₉]*(?:[A-Z][a-z0-9₀-₉]*)+'?")

# Names whose new form is not that of the rule: facts, and names that are built on one of the library's.
PARTS = {"getD": "get_or", "limitsBy": "LimitsBy"}
WHOLE = {"get_d_sets": "get_or-sets", "get_d_map": "get_or-map_inside", "get_d_front": "get_or-front"}

# Words of the pages that name no definition.
KEPT = {"libFuzzer", "camelCase"}

# Lemmas of one file whose names would fall together with a field or a definition that is cited there.
IN_FILE = {
    "crates/pciv_format/proofs/ZeroLaws.antt": {"shifted_at": "shifted_value"},
    "crates/pciv_repair_file/proofs/IndexLaws.antt": {"slot_is": "kept_slot", "number_is": "number_at"},
    "crates/pciv_check/proofs/check_header/Proof.antt": {"step_is": "counted_step"},
}


def part(p):
    if p in PARTS:
        return PARTS[p]
    if not CAMEL.fullmatch(p):
        return p
    return re.sub(r"[A-Z]", lambda m: "_" + m.group(0).lower(), p)


def word(w):
    if w in KEPT:
        return w
    if w in WHOLE:
        return WHOLE[w]
    return "-".join(part(p) for p in w.split("-"))


def files():
    for top in FOLDERS:
        if os.path.isfile(top):
            yield top
        for folder, dirs, names in os.walk(top):
            dirs[:] = sorted(d for d in dirs if d != "out")
            for name in sorted(names):
                if name.endswith(KINDS):
                    yield os.path.join(folder, name)


def main():
    show = "--show" in sys.argv[1:]
    seen, before = {}, set()
    for path in files():
        with open(path, encoding="utf-8") as f:
            old = f.read()
        if not path.endswith(PAGES):
            for m in WORD.finditer(old):
                w = m.group(0)
                before.add(w)
                if word(w) != w:
                    seen.setdefault(word(w), set()).add(w)
        here = IN_FILE.get(path, {})
        new = WORD.sub(lambda m: here.get(m.group(0)) or word(m.group(0)), old)
        if new != old and not show:
            with open(path, "w", encoding="utf-8") as f:
                f.write(new)
    print(f"{sum(len(v) for v in seen.values())} names respelled")
    for new in sorted(seen):
        if len(seen[new]) > 1:
            print("fall together:", ", ".join(sorted(seen[new])), "as", new)
        elif new in before:
            print("there already:", next(iter(seen[new])), "as", new)


main()
