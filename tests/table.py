#!/usr/bin/env python3
"""Checks the table of weights against cosines and sines of its own, in whole numbers of 10**-60.

usage: tests/table.py            check the constants of the source and of the definition, and what the compiled program
                                 `table` prints
       tests/table.py --print    print what `table` should print, which is the file crates/table/stdout

Also that the pairs keep the rules of the scope, at doubled places, and how near they come to its bounds, and where. Nothing
here is taken from the code or the definitions but the numbers that are checked.

Needs Python 3.9; takes a second. Status 1: a test failed; 2: wrong words.
"""
import re
import sys
from pathlib import Path

ROOT = Path(__file__).resolve().parent.parent
TURN, RADIUS, ONE = 384, 16384, 10**60
QUARTER, THIRD = TURN // 4, TURN // 3
# the first part at the phases that the scope names, doubled
ANCHORS = {0: 16384, 16: 15826, 24: 15137, 32: 14189, 48: 11585, 64: 8192, 72: 6270, 80: 4240, 96: 0}
# how far a part of a product, and a power, may be from the true one
BOUND = 32768


def arctan_of_inverse(n):
    """arctan(1/n) by its series."""
    total, term, k = 0, ONE // n, 0
    while term:
        total += (-1) ** k * (term // (2 * k + 1))
        term //= n * n
        k += 1
    return total


PI = 4 * (4 * arctan_of_inverse(5) - arctan_of_inverse(239))


def series(angle, k):
    """cos(angle) for k = 0 and sin(angle) for k = 1, by their series."""
    total, term = 0, ONE if k == 0 else angle
    while abs(term) > 1:
        total += term
        term = -term * angle // ONE * angle // ONE // ((k + 1) * (k + 2))
        k += 2
    return total


def nearest(value):
    """The whole number nearest to radius times value, and how far the product is from a tie, in units of 10**-60."""
    scaled = RADIUS * value
    whole = (2 * scaled + ONE) // (2 * ONE)
    return whole, ONE // 2 - abs(scaled - whole * ONE)


def expected():
    """The pairs, and the least distance from a tie."""
    pairs, margins = [], []
    for e in range(TURN):
        angle = 2 * PI * e // TURN
        (x, a), (y, b) = nearest(series(angle, 0)), nearest(series(angle, 1))
        pairs.append((x, y))
        margins += [a, b]
    return pairs, min(margins)


def in_source():
    """The pairs of the constants, and those of the comments beside them. A constant has y in its upper half."""
    text = (ROOT / "crates/lookup/src/lib.rt").read_text(encoding="utf8")
    rows = re.findall(r"^ *(\d+) => return 0x(\w{4})_(\w{4}), // (-?\d+), (-?\d+)$", text, re.M)
    halves = [(int(e), [int(half, 16) for half in (x, y)]) for e, y, x, _, _ in rows]
    pairs = [tuple(n - 2**16 * (n >= 2**15) for n in pair) if e == k else None for k, (e, pair) in enumerate(halves)]
    return pairs, [(int(x), int(y)) for *_, x, y in rows]


def in_definition():
    """The first parts from 0 to a quarter of a turn."""
    text = (ROOT / "crates/weight/specs/Table.antt").read_text(encoding="utf8")
    return [int(n) for n in re.findall(r"\d+", re.search(r"^first_quarter =\n((?: .*\n)+)", text, re.M)[1])]


def printed():
    """What the compiled program prints: `rt ci` holds it to this file."""
    lines = (ROOT / "crates/table/stdout").read_text().splitlines()
    rows = [tuple(map(int, line.split())) for line in lines]
    return [(x, y) if e == k else None for k, (e, x, y) in enumerate(rows)]


def product_deviations(pairs):
    """By two places, how far a part of conjugate(first) times second is from the true one at most."""
    found = {}
    for e, (a, b) in enumerate(pairs):
        for g, (c, d) in enumerate(pairs):
            x, y = pairs[(g - e) % TURN]
            found[e, g] = max(abs(a * c + b * d - RADIUS * x), abs(a * d - b * c - RADIUS * y))
    return found


def rules(pairs):
    """What the scope asks of the table, at doubled places, and what is known beyond it."""
    products = product_deviations(pairs)
    largest = max(products.values())
    powers = [x * x + y * y - RADIUS**2 for x, y in pairs]
    thirds = [k for k in range(THIRD) if not any(map(sum, zip(*pairs[k::THIRD])))]
    low, high = min(powers), max(powers)

    def at(*places):
        """These places, and the same in the other quarters."""
        return {(e + k * QUARTER) % TURN for e in places for k in range(4)}

    return [
        ("a quarter more turns (x,y) into (-y,x)",
         all(pairs[(e + QUARTER) % TURN] == (-y, x) for e, (x, y) in enumerate(pairs))),
        ("entries 0, 128 and 256 sum to zero", 0 in thirds and THIRD == 128),
        ("and 84 of all 128 such sums are zero, that of 16 not", len(thirds) == 84 and 16 not in thirds),
        ("x falls strictly from 0 to 96", all(pairs[e][0] > pairs[e + 1][0] for e in range(QUARTER)) and QUARTER == 96),
        ("every part of a product is within the bound", largest <= BOUND),
        ("the largest deviation of a product is 25237", largest == 25237),
        ("and it is at 20 and 76, and where they lie in the other quarters or exchanged",
         {places for places, n in products.items() if n == largest}
         == {(e, g) for pair in ((at(20), at(76)), (at(76), at(20))) for e in pair[0] for g in pair[1]}),
        ("every power is within the bound", -BOUND <= low and high <= BOUND),
        ("the lowest power is 17304 too low", low == -17304),
        ("and it is at 28 and 68 of every quarter", {e for e, n in enumerate(powers) if n == low} == at(28, 68)),
        ("the highest power is 15121 too high", high == 15121),
        ("and it is at 18 and 78 of every quarter", {e for e, n in enumerate(powers) if n == high} == at(18, 78)),
    ]


def main():
    if sys.argv[1:] in (["--help"], ["-h"]):
        print(__doc__.strip())
        return 0
    pairs, margin = expected()
    if sys.argv[1:] == ["--print"]:
        for e, (x, y) in enumerate(pairs):
            print(e, x, y)
        return 0
    if sys.argv[1:]:
        print("table: it takes no words but --print or --help", file=sys.stderr)
        return 2
    results = [("the pairs are well away from ties", 1000 * margin > ONE)]
    constants, comments = in_source()
    for name, found in (("source", constants), ("comments of the source", comments), ("program", printed())):
        results.append((f"{name}: {TURN} pairs", len(found) == TURN))
        results += [(f"{name}: entry {e}", e < len(found) and found[e] == pair) for e, pair in enumerate(pairs)]
    results.append(("definition: its first quarter", in_definition() == [x for x, _ in pairs[:QUARTER + 1]]))
    results += [(f"anchor {e}", pairs[e][0] == x) for e, x in ANCHORS.items()]
    results += rules(pairs)
    failed = [name for name, good in results if not good]
    for name in failed:
        print("FAIL", name)
    print(f"{len(results) - len(failed)} passed, {len(failed)} failed")
    return 1 if failed else 0


if __name__ == "__main__":
    sys.exit(main())
