#!/usr/bin/env python3
"""Checks docs/CLAIMS.md against the proofs, docs/RULES.md against the definitions, and the header's table of ranges against
the second program.

usage: tests/claims.py

CLAIMS: every theorem of Demands has its row, in order, and every theorem named is found where it says. A row of the first
table is `| theorem | demand | ..` and speaks of Demands.antt; a row of the others is `| theorem | file | ..`. Names in the
text must stand in one of the tables, unless they are of a definition of specs/ or of a function of src/.
RULES: a section `### [file](..)` has rows `| definition | rule |`; each definition is found in that file, in its order.
Header: a row of the first table has the mode, the ranks, the values of i11, i12, i13 and i2, and for which P; a letter
behind a value leads to where it is another. A row of the second has the ranks, those values and the three of i2 in either
mode; those of i14 stand in a line below it. For every setting, mode and rank one row is meant, and its values are those of
precoder.py and of panels.py.
The last line is `N passed, M failed`.

Needs Python 3.9; takes a moment. Status 1: a test failed; 2: wrong words.
"""
import re
import sys
from pathlib import Path

import panels
from precoder import MODES, SETTINGS, ranks_of, values

ROOT = Path(__file__).resolve().parent.parent
DEMANDS = "crates/plan/specs/Demands.antt"


def read(file):
    path = ROOT / file
    return path.read_text(encoding="utf8") if path.exists() else ""


def theorems(file):
    """The theorems that a file of proofs makes public, in its order."""
    return re.findall(r"^ *pub (\S+) :", read(file), re.M)


def definitions(file):
    """The definitions that a file makes public, in its order."""
    return re.findall(r"^ *(?:unfoldable |abbrev )?pub (?:record |data )?(\S+)", read(file), re.M)


def not_theorems():
    """The names of definitions and of functions."""
    for file in ROOT.glob("crates/*/specs/*.antt"):
        yield from definitions(file.relative_to(ROOT))
    for file in ROOT.glob("crates/*/src/**/*.rt"):
        yield from re.findall(r"\bfn (\w+)", file.read_text(encoding="utf8"))


def of_claims():
    """The tests of CLAIMS: what is tested, and whether it holds."""
    claims = read("docs/CLAIMS.md")
    rows = re.findall(r"^\| `(\S+)` \| (.*?) \|", claims, re.M)
    files = {name: place if place.endswith(".antt") else DEMANDS for name, place in rows}
    for name, file in files.items():
        yield f"{name} is a theorem of {file}", name in theorems(file)
    yield "the theorems of Demands, in order", [name for name, _ in rows if files[name] == DEMANDS] == theorems(DEMANDS)
    others = set(not_theorems()) - files.keys()
    for name in sorted(set(re.findall(r"`([a-z]+(?:[_-][a-z]+)+)`", claims)) - others):
        yield f"{name} stands in a table", name in files


def of_rules():
    """The tests of RULES."""
    before, *sections = re.split(r"^### ", read("docs/RULES.md"), flags=re.M)
    yield "rules stand below their files", bool(sections) and not re.search(r"^\| `", before, re.M)
    for section in sections:
        heading, *_ = section.splitlines()
        file = re.sub(r"^\[(.*)\]\(\.\./\1\)$", r"\1", heading)
        names, there = re.findall(r"^\| `(\S+)` \|", section, re.M), definitions(file)
        yield f"{heading} leads to a file of definitions", bool(there)
        for name in names:
            yield f"{name} is a definition of {file}", name in there
        yield f"the rules of {file}, in order", bool(names) and names == [name for name in there if name in names]


ROW = re.compile(r"^//     (two ports|mode \d|either mode)? +v = (\d)(?:, (\d))?  +(.*)$", re.M)
NOTE = re.compile(r"\((\w)\) (\d.*?)(?=  |\n)")
OTHER = re.compile(r"(\d+) (?:at|if) ((?:\(\d+,\d+\)|, (?=\()| and |n2 = 1)+)")


def value_of(cell, notes, s):
    """How many values a cell gives an index at a setting; None if it says nothing of that."""
    plain, note = re.fullmatch(r"([\w*/]*) ?(?:\((\w)\))?", cell).groups()
    for number, places in OTHER.findall(notes.get(note, "")):
        if f"({s.N1},{s.N2})" in places or (places == "n2 = 1" and s.N2 == 1):
            return int(number)
    M = 1 if s.N2 == 1 else 4 * s.N2
    return {"4*n1": 4 * s.N1, "2*n1": 2 * s.N1, "M": M, "M/2": M // 2}.get(plain, int(plain) if plain.isdigit() else None)


def values_in_header(header, s, mode, v):
    """The values of the indices, of each row of the header's table that is meant."""
    meant = ["two ports"] if s.P == 2 else ["either mode", f"mode {mode}"]
    ports, notes, label = "P below 16" if s.P < 16 else "P of 16 or more", dict(NOTE.findall(header)), None
    for found in ROW.finditer(header):
        label = found[1] or label
        cells = re.split("  +", found[4])
        if label in meant and str(v) in (found[2], found[3]) and cells[4:] in ([], [ports]):
            yield tuple(value_of(cell, notes, s) for cell in cells[:4])


PANEL_ROW = re.compile(r"^//     v = (\d)(?:, (\d))?  +(.*)$", re.M)
PANEL_PHASES = re.compile(r"(\d \d \d) with (two|four) panels(?: in mode (\d))?")


def panel_values_in_header(header, s, mode, v):
    """The same of the second table, with three values of i14 and three of i2."""
    notes, words = dict(NOTE.findall(header)), {2: "two", 4: "four"}
    for found in PANEL_ROW.finditer(header):
        if str(v) not in (found[1], found[2]):
            continue
        *cells, in_mode_1, in_mode_2 = re.split("  +", found[3])
        i2 = in_mode_1 if mode == 1 else in_mode_2
        for i14, panels_word, in_mode in PANEL_PHASES.findall(header):
            if panels_word == words[s.Ng] and in_mode in ("", str(mode)):
                yield (*(value_of(cell, notes, s) for cell in cells), *map(int, i14.split()), *map(int, i2.split()))


def of_header():
    """The tests of the header's tables."""
    header = read("include/aspenflick.h")
    for s in panels.SETTINGS.values():
        for mode in panels.modes_of(s):
            for v in panels.ranks_of(s):
                found = list(panel_values_in_header(header, s, mode, v))
                name = f"the header's values at ({s.Ng},{s.N1},{s.N2}), mode {mode}, v = {v}"
                yield name, found == [panels.values(s, mode, v)]
    for s in SETTINGS.values():
        for mode in MODES:
            for v in ranks_of(s):
                found = list(values_in_header(header, s, mode, v))
                yield f"the header's values at ({s.N1},{s.N2}), mode {mode}, v = {v}", found == [values(s, mode, v)]


def main():
    if sys.argv[1:] in (["--help"], ["-h"]):
        print(__doc__.strip())
        return 0
    if sys.argv[1:]:
        print("claims: it takes no words but --help", file=sys.stderr)
        return 2
    tests = {**dict(of_claims()), **dict(of_rules()), **dict(of_header())}
    for name in (name for name, passed in tests.items() if not passed):
        print(f"FAIL {name}")
    failed = sum(not passed for passed in tests.values())
    print(f"{len(tests) - failed} passed, {failed} failed")
    return 1 if failed else 0


if __name__ == "__main__":
    sys.exit(main())
