#!/usr/bin/env python3
"""Brings the repository's own definitions and lemmas to one spelling: words in snake case, and a prime as an apostrophe.

usage: tools/respell.py [--dry]     at the top of the repository, after the kit's port.py, once

A name is the repository's own where a file of crates/*/specs or crates/*/proofs declares it. Names of types keep their capital, names from the sources,
exported names and the names of goals keep their spelling. Names are changed in .antt files, in the clauses of .rt files, in the edits and in the pages.
"""

import glob
import os
import re
import sys

DECLARED = re.compile(r"^(\s*)((?:pub|unfoldable|abbrev|pattern)\s+)*(?:(record|data)\s+)?([^\s:(){}\[\]«»]+)\s*((?:[({][^)}]*[)}]\s*)*):(?!=)\s*(.*)$")
TOKEN = re.compile(r"[^\s(){}\[\].,;\"«»`]+")
ALIAS = re.compile(r"(?:^|[\s(])(?:laws|claim|Claims|[A-Z]\w*)\.$")
# Members of records and modules, which take no `_lem`.
MEMBERS = {
    "access-len": "access_len_fits",
    "map-len": "map_len_fits",
    "ram-len": "ram_len_fits",
    "is-valid": "is_valid",
    "mask-count": "mask_count",
    "answer-of": "answer_of",
    "is-bought": "is_bought",
    "image-read": "image_read",
    "imaged-run": "imaged_run",
}
MADE = re.compile(r"^(?:\{M : Type 1\} → statement M|tie\.|goal\.|given\.)")


def texts(*patterns):
    return sorted(p for pattern in patterns for p in glob.glob(pattern, recursive=True) if "/out/" not in p and os.path.isfile(p))


def snake(name):
    words = re.sub(r"(?<=[a-z0-9])(?=[A-Z])", "_", name.replace("-", "_").replace("′", "'"))
    return words.lower() if words != name.replace("-", "_") else words


def declared():
    """The own names that change: a name with a capital inside, a dash or a prime, that is no type and no goal."""
    names, made = {}, set()
    for p in texts("crates/*/specs/**/*.antt", "crates/*/proofs/**/*.antt"):
        with open(p, encoding="utf-8") as f:
            for line in f:
                m = DECLARED.match(line.rstrip("\n"))
                if not m or m.group(3) or m.group(4).startswith("--"):
                    continue
                name, sort = m.group(4), m.group(6)
                if p.endswith("/Proof.antt") and (MADE.match(sort) or name.endswith("-spec")):
                    made.add(name)
                    continue
                if not re.fullmatch(r"[a-z][A-Za-z0-9_'′₀-₉-]*", name):
                    continue
                to = snake(name)
                if to != name:
                    names[name] = to
    return {n: to for n, to in names.items() if n not in made}, made


def turned(text, names):
    """The text in the new spelling. What follows a dot is a member: a lemma that gets `_lem` is meant there only behind a module's alias."""

    def to(m):
        name = names.get(m.group(0), m.group(0))
        return m.group(0) if name.endswith("_lem") and text[m.start() - 1 : m.start()] == "." and not ALIAS.search(text[: m.start()]) else name

    return TOKEN.sub(to, text)


def main(argv):
    # Without the goals' types of an older kit, names of goals could not be told from lemmas.
    if not any(".Tie as tie" in open(p, encoding="utf-8").read() for p in texts("crates/*/proofs/**/Proof.antt")):
        print("respell: no proof of an older kit is here, so it was run already: nothing is changed", file=sys.stderr)
        return 2
    names, made = declared()
    files = {p: open(p, encoding="utf-8").read() for p in texts("crates/*/specs/**/*.antt", "crates/*/proofs/**/*.antt", "crates/*/src/**/*.rt", "crates/*/must-fail/*.edit", "docs/**/*.md", "README.md", "oracle/README.md")}
    used = {}
    for p, t in files.items():
        for m in TOKEN.finditer(t):
            used.setdefault(m.group(0), set()).add(p)
    # A lemma that would have its function's name ends in _lem.
    functions = {to for n, to in names.items() if "-" not in n}
    for n, to in sorted(names.items()):
        if n in MEMBERS:
            names[n] = MEMBERS[n]
        elif "-" in n and (to in functions or any(p.endswith(".antt") for p in used.get(to, ()))):
            names[n] = to + "_lem"
    back = {}
    for n, to in names.items():
        back.setdefault(to, []).append(n)
    for to, froms in sorted(back.items()):
        if len(froms) > 1:
            print(f"fall together: {', '.join(froms)} as {to}")
        elif to in used:
            print(f"already used: {froms[0]} as {to} in {', '.join(sorted(used[to])[:4])}")
    for n, to in sorted(names.items()):
        if to.endswith("_lem"):
            print(f"{n} is {to}")
    print(f"{len(names)} names, {len(made)} names of goals stay")
    if argv == ["--dry"]:
        return 0
    for p, t in files.items():
        new = turned(t, names)
        if new != t:
            with open(p, "w", encoding="utf-8") as f:
                f.write(new)
    return 0


if __name__ == "__main__":
    raise SystemExit(main(sys.argv[1:]))
