#!/usr/bin/env python3
"""Makes the tables of docs/SPEED.md from the lines of `measure count` and `measure time`; exit status 1 if a target is
missed.

table.py [--quick] SINGLE MULTI CALLS TIMES FILE..
    so many single-panel and multi-panel reports in range, and so many CALLS in all, were compared before; TIMES is what
    was timed, an empty file where nothing was, and the other files are what was counted. --quick: the table of ratios
    and the worst rows alone
"""
import collections
import math
import sys

FUNCTIONS = ('phases', 'weights')
NAMES = {'ours': 'ours', 'c': 'C', 'eigen': 'Eigen'}

# The compilers of the C. What they make of it is compared row by row, and the better is C.
COMPILERS = ('clang', 'gcc')

# What the calls of one row have in common. The single panel, where ng is 1, has a row for both modes: its mode is 0.
Key = collections.namedtuple('Key', 'ports ng n1 n2 mode v')

# A codebook: what its rows are for, and the versions that ours is compared with, each with the most that the geometric
# mean and the worst of the ratios may be, or None.
Codebook = collections.namedtuple('Codebook', 'name rows targets')
SINGLE = Codebook('single-panel', 'settings and ranks', {'c': (1.00, 1.25), 'eigen': (None, 0.20)})
MULTI = Codebook('multi-panel', 'settings, modes and ranks', {'c': (1.00, 1.25)})


def read(paths):
    """The mean instructions of a call, by key, function and version, and how many calls it is the mean of."""
    counts = {}
    for path in paths:
        empty = {}
        for line in open(path):
            *report, function, version, instructions = line.split()
            if version == 'empty':
                empty[function] = int(instructions)
                continue
            ng, n1, n2, mode, v = map(int, report[:5])
            at = Key(2 * ng * n1 * n2, ng, n1, n2, mode if ng > 1 else 0, v)
            # The empty call's own instruction, a return, is one that every call has.
            own = int(instructions) - empty[function] + 1
            counts.setdefault((at, function, version), []).append(own)
    return {key: sum(of) / len(of) for key, of in counts.items()}, {key: len(of) for key, of in counts.items()}


def better(mean, calls_of):
    """Puts in what C takes and of how many calls, and gives by which compiler, by key and function."""
    by = {}
    for at, f in {(at, f) for at, f, _ in mean}:
        by[at, f] = min(COMPILERS, key=lambda compiler: mean[at, f, compiler])
        mean[at, f, 'c'], calls_of[at, f, 'c'] = (of[at, f, by[at, f]] for of in (mean, calls_of))
    return by


def read_times(path):
    """Our time by that of C, whichever compiler's is the better, by key and function."""
    times = {}
    for line in open(path):
        *numbers, function, clang, gcc = line.split()
        ng, n1, n2, mode, v = map(int, numbers)
        times[Key(2 * ng * n1 * n2, ng, n1, n2, mode, v), function] = max(float(clang), float(gcc))
    return times


def geometric(numbers):
    return math.exp(sum(map(math.log, numbers)) / len(numbers))


def fit(points):
    """The straight line nearest to the points in the sense of least squares, and the largest distance from it."""
    n = len(points)
    mean_x, mean_y = sum(x for x, _ in points) / n, sum(y for _, y in points) / n
    slope = sum((x - mean_x) * (y - mean_y) for x, y in points) / sum((x - mean_x) ** 2 for x, _ in points)
    start = mean_y - slope * mean_x
    return start, slope, max(abs(y - start - slope * x) for x, y in points)


def setting(at):
    return f'({at.n1},{at.n2})' if at.ng == 1 else f'({at.ng},{at.n1},{at.n2})'


def place(at):
    return setting(at) + (f' mode {at.mode}' if at.mode else '') + f' v={at.v}'


def row(cells):
    return '| ' + ' | '.join(cells) + ' |'


def ratios(name, of, mean_most, worst_most):
    """Prints the ratios, for each function by key, and gives whether the targets are met, if there are any."""
    met = True

    def judged(value, most):
        nonlocal met
        if most is None:
            return f'{value:.3f}', '', ''
        met = met and value <= most
        return f'{value:.3f}', f'{most:.2f}', 'met' if value <= most else '**missed**'

    means, every = [geometric(x.values()) for x in of], [y for x in of for y in x.values()]
    worst = [max(x, key=x.get) for x in of]
    print(row([name + ', geometric mean', *(f'{x:.3f}' for x in means), *judged(geometric(every), mean_most)]))
    print(row([name + ', worst', *(f'{x[at]:.3f} at {place(at)}' for x, at in zip(of, worst)),
               *judged(max(every), worst_most)]))
    return met


def summary(mean, times, books):
    """Prints the table of all ratios and gives whether the targets are met."""
    print(row(['Ratio', 'Phases', 'Weights', 'Both', 'Target', '']))
    print(row(['---', '--:', '--:', '--:', '--:', '---']))
    met = []
    for codebook, keys in books:
        for other, most in codebook.targets.items():
            if (keys[0], FUNCTIONS[0], other) in mean:
                of = [{at: mean[at, f, 'ours'] / mean[at, f, other] for at in keys} for f in FUNCTIONS]
                met.append(ratios(f'{codebook.name}, instructions, ours to {NAMES[other]}', of, *most))
    for codebook, keys in books if times else ():
        of = [{at: times[at, f] for at in keys} for f in FUNCTIONS]
        ratios(f'{codebook.name}, time, ours to C', of, None, None)
    print()
    if not times:
        print('Time is measured on x86-64 alone, and not here.')
        print()
    return all(met)


def worst_rows(mean, by, times, books, most):
    """Prints for each function the rows in which ours takes most beside C."""
    for codebook, keys in books:
        for f in FUNCTIONS:
            print(f'Worst rows of {codebook.name} {f}:')
            print()
            print(row(['Row', 'Ours', 'C', 'Compiler', 'to C', 'Time to C']))
            print(row(['---', '--:', '--:', '---', '--:', '--:']))
            for at in sorted(keys, key=lambda at: mean[at, f, 'c'] / mean[at, f, 'ours'])[:most]:
                ours, theirs = mean[at, f, 'ours'], mean[at, f, 'c']
                print(row([place(at), f'{ours:.0f}', f'{theirs:.0f}', by[at, f], f'{ours / theirs:.3f}',
                           f'{times[at, f]:.3f}' if times else '']))
            print()


def growth(mean, what, letter, keys, part):
    """Prints the instructions at the keys, which grow in one of their parts, and the straight line nearest to them."""
    print(f'Growth with {what}:')
    print()
    along = [getattr(at, part) for at in keys]
    print(row(['Function', 'Version', *(f'{letter} = {x}' for x in along), 'Nearest line', 'Largest distance']))
    print(row(['---', '---'] + ['--:'] * (len(keys) + 2)))
    for f in FUNCTIONS:
        for version in ('ours', 'c'):
            counts = [mean[at, f, version] for at in keys]
            start, slope, far = fit(list(zip(along, counts)))
            cells = [*(f'{count:.0f}' for count in counts), f'{start:.0f} + {slope:.1f}·{letter}', f'{far:.0f}']
            print(row([f, NAMES[version], *cells]))
    print()


def instructions(mean, codebook, keys):
    """Prints the instructions at every key, a row for each."""
    print(f'Instructions of a {codebook.name} call, mean over the measured reports:')
    print()
    others = list(codebook.targets)
    left = ['P', '(N1,N2)', 'v'] if codebook is SINGLE else ['P', '(Ng,N1,N2)', 'Mode', 'v']
    right = [cell for f in FUNCTIONS for cell in
             (f.capitalize(), *(x for other in others for x in (NAMES[other], f'to {NAMES[other]}')))]
    print(row(left + right))
    print(row(['--:', '---'] + ['--:'] * (len(left) + len(right) - 2)))
    for at in keys:
        cells = [str(at.ports), setting(at), *([str(at.mode)] if at.mode else []), str(at.v)]
        for f in FUNCTIONS:
            ours = mean[at, f, 'ours']
            cells.append(f'{ours:.0f}')
            for other in others:
                theirs = mean[at, f, other]
                cells += [f'{theirs:.0f}', f'{ours / theirs:.{3 if other == "eigen" else 2}f}']
        print(row(cells))


def main():
    words = sys.argv[1:]
    if words in (['--help'], ['-h']):
        print(__doc__.strip())
        return 0
    quick = words[:1] == ['--quick']
    words = words[quick:]
    if len(words) < 5:
        print('table: it takes [--quick] SINGLE MULTI CALLS TIMES FILE.. or --help', file=sys.stderr)
        return 2
    of_single, of_multi, calls = map(int, words[:3])
    times = read_times(words[3])
    mean, calls_of = read(words[4:])
    by = better(mean, calls_of)
    keys = sorted({at for at, *_ in mean})
    books = ((SINGLE, [at for at in keys if at.ng == 1]), (MULTI, [at for at in keys if at.ng > 1]))

    print(f'Compared before counting: {of_single:,} single-panel and {of_multi:,} multi-panel reports in range, '
          f'{calls:,} calls in all, no difference.')
    for codebook, of in books:
        counts = {version: sum(calls_of.get((at, 'phases', version), 0) for at in of)
                  for version in ('ours', *codebook.targets)}
        print(f'Measured {codebook.name} calls of each function: '
              + ', '.join(f'{n:,} of {NAMES[version]}' for version, n in counts.items() if n)
              + f', for {len(of)} {codebook.rows}.')
    won = [sum(compiler == c for c in by.values()) for compiler in COMPILERS]
    print(f'C is compiled by the kit\'s clang and by gcc, with -O3; for each function in each row the better of the two is '
          f'C: in instructions clang {won[0]} times and gcc {won[1]} times.')
    print()
    met = summary(mean, times, books)
    if quick:
        worst_rows(mean, by, times, books, 5)
        return 0 if met else 1
    growth(mean, 'the ports, one panel, one layer and N2 = 1', 'P',
           [at for at in keys if (at.ng, at.n2, at.v) == (1, 1, 1)], 'ports')
    growth(mean, 'the layers, (16,1)', 'v', [at for at in keys if at.n1 == 16], 'v')
    growth(mean, 'the layers, (4,2,2)', 'v', [at for at in keys if (at.ng, at.n1, at.n2) == (4, 2, 2)], 'v')
    instructions(mean, *books[0])
    print()
    instructions(mean, *books[1])
    return 0 if met else 1


sys.exit(main())
