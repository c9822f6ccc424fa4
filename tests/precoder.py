#!/usr/bin/env python3
"""Tests aspenflick_phases and aspenflick_weights against the complex matrices of TS 38.214, 5.2.2.2.1.

    precoder.py COMMAND..

COMMAND starts the program built from batch.c, which calls one of the two functions for each request on its standard
input. The last line is `N passed, M failed`; the exit status is 0 only if N is above 0 and M is 0, and 2 for wrong words.
Needs Python 3.9; takes about a minute. tests/calls builds the program and starts this.

Where the expected answers come from
------------------------------------
Phases: the matrix W of a report is computed in complex numbers as the standard prints it, with its factor 1/sqrt(v P);
the phase of an entry is read off its angle in 1/384 turns. No phase is computed in whole numbers.
Weights: the same complex entries without their factor, times 16384, each part taken to the nearest whole number, not by
way of the phase. No part is near a tie, and for all 384 phases the numbers are those of table.py, in 60 digits. Nothing
is taken from the library's table.
Offsets: the entry of each port, of size 1, times exp(j 2 pi o / 384) for its offset o; phases and weights are read off the
product. harness.py does so, once for each phase and offset.
Beams: of the v_{l,m} of each column of W, the (l,m) of the mask bit that stands for the same entries; no l or m is reduced
by arithmetic. Of a v~_{l,m}, (2l,m).

The rules come from 003, an early draft of 5.2.2.2.1; from 000 and 002, later excerpts that begin with Table -10; and
from 01, the scope, and 02, what was added to it. Which is from where:

From 003:
  - the settings of four ports and more with their O1 and O2 (Table -2), and P = 2 N1 N2 (the text above it);
  - the modes, 1 and 2, and the ranks that a setting has: those for which Tables -5 to -12 have a row, and Table -1 a
    column. 01's "v is 0, above 8 or above P" comes to the same;
  - how many values an index has: i11, i12 and i2 by the headings of Tables -5 to -12; i13 by the rows of Tables -3 and
    -4, and by the headings of Tables -7 and -8 for P >= 16; for two ports the rows of Table -1. All of it is legible;
  - k1 and k2 (Tables -3 and -4); phi_n, theta_p, u_m, v_{l,m} and v~_{l,m};
  - the matrices: W of two ports (Table -1) and of 1 to 6 and 8 layers (Tables -5 to -10 and -12; m'''' in the last of
    8 columns is read as m'''); l and m of 1 to 6 layers in both modes, but for what stands below;
  - the mask bits: how many, and which of them bars which precoder, for two ports and for more. A bit stands for the
    quantity v_{l,m}, so a beam has the bit of the v_{l,m} with the same entries: this is what reduces l and m. A
    v~_{l,m} is associated with three bits, the first modulo all bits, and barred if one or more of them is zero;
  - bit v-1 of the rank mask, r_{v-1}, for four ports and more.
From 000 and 002:
  - l and m of 7 and 8 layers: for N2 > 1 as 002 prints them (003 has an i12 too many, 000 one too few), for N2 = 1 as
    000 does (003 and 002 have a 0 too few);
  - the ranges of 6 to 8 layers in both, and W of 6 layers in 000, are those of 003.
From 01, where the sources are silent:
  - the numbers of the refusals and their order, and what the record of a refused and of an accepted report holds;
  - the two ports as a setting, (1,1), with i2 for the index of Table -1; that their mode is 1 or 2 and has no effect,
    and that they have a rank mask;
  - that an index without use has the value 0 alone;
  - the bytes of a mask: bit k is bit k mod 8 of byte k / 8, and there are exactly as many bytes as the bits fill;
  - weights, of radius 16384, x then y; the order of a buffer, layer after layer, how long it must be, and that what the
    answer does not need stays as lent.
From 02, where the sources are silent:
  - phases in 1/384 turns, as numbers of 16 bits; a list of P offsets, 0 to 383, each added to its port in every layer;
    refusal 13, of a list of another length or with a higher number, between 10 and 11;
  - that the record names the beam of each layer, in the order of the columns, and again one that another layer has;
  - that a half-length layer, of v~_{l,m}, has (2l,m);
  - that unused places, all those of a refused report and all those of two ports have (0,0).
From 01, where the sources are illegible:
  - W of 7 layers: Table -11 has 7 columns above 8 in 003, 8 in 000, 6 and a third row in 002. The first seven
    coefficients of 000's second row are those of 01;
  - m' of 5 layers for N2 > 1: Table -9, in 003 alone, prints i11, i11 + O1, i11 + O1, i12, i12 + O2 for l, l', l'', m,
    m', m'', one too few.
From 01, where 003 differs from it:
  - P of (12,1): Table -2 has it among 32 ports, against the text above it. It is 24;
  - l' of 2 layers in mode 1: Table -6 prints i12 + k1. l' and m' of 4 layers, P < 16: Table -8 prints "i12, k1" and
    "i12, k2". They are i11 + k1 and i12 + k2;
  - l' and m' of 2 layers in mode 2: for N2 > 1 Table -6 prints 2 i11 + k1 and 2 i12 + k2 beside every l and m; for
    N2 = 1 it prints 2 i11 + k1 beside l = 2 i11 + 1, but l + k1 beside the other three. They are l + k1 and m + k2.

What is sent and what is asked of the answers
---------------------------------------------
harness.py says it; longer and shorter buffers, drawn lists of offsets and masks are tried for every report. Numbers that
are no setting are all pairs up to 33 x 33, and others.
With offsets of 0 reports have only phases that are multiples of 6 or 8, which is tested. With lists of offsets they have
all 384, which is tested too, so that no weight goes unseen.
"""

import cmath
import collections
import functools
import itertools
import math
import sys

from harness import (DRAWN, FIXED, TURN, ZEROS, Codebook, Figures, Known, fixed_list, functions, main, near, numbers_in,
                     packed, pairs_in, places_of, read_off, turned)

# ---- Settings --------------------------------------------------------------------------------------------------------

Setting = collections.namedtuple('Setting', 'N1 N2 O1 O2 P')

# Table 5.2.2.2.1-2: (N1, N2) and (O1, O2).
TABLE_2 = [((2, 1), (4, 1)),
           ((2, 2), (4, 4)),
           ((4, 1), (4, 1)),
           ((3, 2), (4, 4)),
           ((6, 1), (4, 1)),
           ((4, 2), (4, 4)),
           ((8, 1), (4, 1)),
           ((4, 3), (4, 4)),
           ((6, 2), (4, 4)),
           ((12, 1), (4, 1)),
           ((4, 4), (4, 4)),
           ((8, 2), (4, 4)),
           ((16, 1), (4, 1))]

# (1,1) is 01's name for the two ports of Table -1, which use neither O1 nor O2; 1 stands for them.
SETTINGS = {(N1, N2): Setting(N1, N2, O1, O2, 2 * N1 * N2) for (N1, N2), (O1, O2) in [((1, 1), (1, 1)), *TABLE_2]}


# ---- Quantities (5.2.2.2.1) ------------------------------------------------------------------------------------------

def phi(n):
    return cmath.exp(1j * cmath.pi * n / 2)


def theta(p):
    return cmath.exp(1j * cmath.pi * p / 4)


def u(s, m):
    if s.N2 == 1:
        return [1]
    return [cmath.exp(2j * cmath.pi * m * b / (s.O2 * s.N2)) for b in range(s.N2)]


def v_beam(s, l, m):
    """v_{l,m}: u_m once for each a, times exp(j 2 pi l a / (O1 N1))."""
    return [cmath.exp(2j * cmath.pi * l * a / (s.O1 * s.N1)) * x for a in range(s.N1) for x in u(s, m)]


def v_tilde(s, l, m):
    """v~_{l,m}, the half-length beam: N1/2 rows, exp(j 4 pi l a / (O1 N1))."""
    return [cmath.exp(4j * cmath.pi * l * a / (s.O1 * s.N1)) * x for a in range(s.N1 // 2) for x in u(s, m)]


def one(s, l, m):
    """The single entry of a port of Table 5.2.2.2.1-1."""
    return [1]


# A beam by name: one of the three functions above, and l and m as the tables give them, not reduced.
Beam = collections.namedtuple('Beam', 'vector l m')

# ---- k1 and k2, in multiples of O1 and O2 ----------------------------------------------------------------------------


def table_3(N1, N2):
    """Table 5.2.2.2.1-3, 2 layers."""
    if N1 > N2 > 1:
        return [(0, 0), (1, 0), (0, 1), (2, 0)]
    if N1 == N2:
        return [(0, 0), (1, 0), (0, 1), (1, 1)]
    if N1 == 2 and N2 == 1:
        return [(0, 0), (1, 0)]
    return [(0, 0), (1, 0), (2, 0), (3, 0)]


# Table 5.2.2.2.1-4, 3 and 4 layers, P < 16.
TABLE_4 = {(2, 1): [(1, 0)],
           (4, 1): [(1, 0), (2, 0), (3, 0)],
           (6, 1): [(1, 0), (2, 0), (3, 0), (4, 0)],
           (2, 2): [(1, 0), (0, 1), (1, 1)],
           (3, 2): [(1, 0), (0, 1), (1, 1), (2, 0)]}

# ---- Matrices: rows of blocks, a block is a coefficient and a beam; `block` puts the factor 1/sqrt(v P) --------------

ONE = Beam(one, 0, 0)

TABLE_1 = {1: [[[(1, ONE)], [(x, ONE)]] for x in (1, 1j, -1, -1j)],
           2: [[[(1, ONE), (1, ONE)], [(x, ONE), (-x, ONE)]] for x in (1, 1j)]}


def W1(b, f):
    return [[(1, b)],
            [(f, b)]]


def W2(b, b1, f):
    return [[(1, b), (1, b1)],
            [(f, b), (-f, b1)]]


def W3(b, b1, f):
    return [[(1, b), (1, b1), (1, b)],
            [(f, b), (f, b1), (-f, b)]]


def W4(b, b1, f):
    return [[(1, b), (1, b1), (1, b), (1, b1)],
            [(f, b), (f, b1), (-f, b), (-f, b1)]]


def W3_half_length(h, t, f):
    return [[(1, h), (1, h), (1, h)],
            [(t, h), (-t, h), (t, h)],
            [(f, h), (f, h), (-f, h)],
            [(f * t, h), (-f * t, h), (-f * t, h)]]


def W4_half_length(h, t, f):
    return [[(1, h), (1, h), (1, h), (1, h)],
            [(t, h), (-t, h), (t, h), (-t, h)],
            [(f, h), (f, h), (-f, h), (-f, h)],
            [(f * t, h), (-f * t, h), (-f * t, h), (f * t, h)]]


def W5(b, b1, b2, f):
    return [[(1, b), (1, b), (1, b1), (1, b1), (1, b2)],
            [(f, b), (-f, b), (1, b1), (-1, b1), (1, b2)]]


def W6(b, b1, b2, f):
    return [[(1, b), (1, b), (1, b1), (1, b1), (1, b2), (1, b2)],
            [(f, b), (-f, b), (f, b1), (-f, b1), (1, b2), (-1, b2)]]


def W7(b, b1, b2, b3, f):
    """From 01: legible in none of the sources."""
    return [[(1, b), (1, b), (1, b1), (1, b2), (1, b2), (1, b3), (1, b3)],
            [(f, b), (-f, b), (f, b1), (1, b2), (-1, b2), (1, b3), (-1, b3)]]


def W8(b, b1, b2, b3, f):
    return [[(1, b), (1, b), (1, b1), (1, b1), (1, b2), (1, b2), (1, b3), (1, b3)],
            [(f, b), (-f, b), (f, b1), (-f, b1), (1, b2), (-1, b2), (1, b3), (-1, b3)]]


# ---- Indices (Tables 5.2.2.2.1-5 to -12) -----------------------------------------------------------------------------

Report = collections.namedtuple('Report', 'N1 N2 mode v i11 i12 i13 i2')

# Mode 2: what is added to (2 i11, 2 i12) in each quarter of i2's range.
MODE_2_STEPS = {'N2 > 1': [(0, 0), (1, 0), (0, 1), (1, 1)],
                'N2 = 1': [(0, 0), (1, 0), (2, 0), (3, 0)]}


def matrix(report):
    """The matrix W of a report in range, without its factor."""
    N1, N2, mode, v, i11, i12, i13, i2 = report
    s = SETTINGS[N1, N2]
    if s.P == 2:
        return TABLE_1[v][i2]
    if v in (3, 4) and s.P >= 16:
        return (W3_half_length if v == 3 else W4_half_length)(Beam(v_tilde, i11, i12), theta(i13), phi(i2))
    l, m, n = i11, i12, i2
    if mode == 2 and v <= 2:
        quarter, n = divmod(i2, 4 if v == 1 else 2)
        step_l, step_m = MODE_2_STEPS['N2 > 1' if N2 > 1 else 'N2 = 1'][quarter]
        l, m = 2 * i11 + step_l, 2 * i12 + step_m

    def beam(times_O1, times_O2):
        return Beam(v_beam, l + times_O1 * s.O1, m + times_O2 * s.O2)

    b, f = beam(0, 0), phi(n)
    if v == 1:
        return W1(b, f)
    if v == 2:
        # Mode 2: l' = l + k1 and m' = m + k2 with mode 2's l and m, from 01.
        return W2(b, beam(*table_3(N1, N2)[i13]), f)
    if v in (3, 4):
        return (W3 if v == 3 else W4)(b, beam(*TABLE_4[N1, N2][i13]), f)
    if v in (5, 6):
        # N2 > 1: l, l', l'' and m, m', m'' as Table -10 has them in 003; m' of 5 layers from 01.
        others = [beam(1, 0), beam(1, 1)] if N2 > 1 else [beam(1, 0), beam(2, 0)]
        return (W5 if v == 5 else W6)(b, *others, f)
    # As 002 has them for N2 > 1, and 000 for N2 = 1.
    others = [beam(1, 0), beam(0, 1), beam(1, 1)] if N2 > 1 else [beam(1, 0), beam(2, 0), beam(3, 0)]
    return (W7 if v == 7 else W8)(b, *others, f)


@functools.lru_cache(maxsize=None)
def vector(s, beam):
    return beam.vector(s, beam.l, beam.m)


@functools.lru_cache(maxsize=None)
def block(s, v, coefficient, beam):
    """The phases and the weights of one block of W, each read off its complex entry."""
    size = 1 / math.sqrt(v * s.P)
    return read_off([size * coefficient * x for x in vector(s, beam)], size)


# ---- Mask bits (5.2.2.2.1) -------------------------------------------------------------------------------------------

# Two ports: the bits a_0 to a_5 by the number of layers and the codebook index.
BITS_OF_TWO_PORTS = {1: [0, 1, 2, 3], 2: [4, 5]}


def mask_bits(s):
    """How many bits the beam mask has."""
    return 6 if s.P == 2 else s.N1 * s.O1 * s.N2 * s.O2


@functools.lru_cache(maxsize=None)
def bit_by_phases(s):
    """Bit a_{N2 O2 l + m} by the phases of its quantity v_{l,m}, l = 0, .., N1 O1 - 1, m = 0, .., N2 O2 - 1."""
    bits = {block(s, 1, 1, Beam(v_beam, l, m))[0]: s.N2 * s.O2 * l + m
            for l in range(s.N1 * s.O1) for m in range(s.N2 * s.O2)}
    if len(bits) != mask_bits(s):
        raise ArithmeticError(f'two bits of {s} stand for one beam')
    return bits


@functools.lru_cache(maxsize=None)
def bits_of_beam(s, beam):
    """The bits associated with all precoders that are based on a beam."""
    if beam.vector is v_tilde:
        l, m = beam.l, beam.m
        return [(s.N2 * s.O2 * (2 * l - 1) + m) % mask_bits(s),
                s.N2 * s.O2 * (2 * l) + m,
                s.N2 * s.O2 * (2 * l + 1) + m]
    return [bit_by_phases(s)[block(s, 1, 1, beam)[0]]]


def bits_of(s, v, i2, rows):
    """The bits of the beam mask that W reads."""
    if s.P == 2:
        return (BITS_OF_TWO_PORTS[v][i2],)
    return tuple(sorted({bit for row in rows for _, beam in row for bit in bits_of_beam(s, beam)}))


# ---- The beams that a record names (02) ------------------------------------------------------------------------------

@functools.lru_cache(maxsize=None)
def pair_of(s, beam):
    """The (l,m) by which a beam is named: of a v_{l,m} that of its bit, which is reduced."""
    if beam.vector is one:
        return 0, 0
    if beam.vector is v_tilde:
        return 2 * beam.l, beam.m
    (bit,) = bits_of_beam(s, beam)
    return divmod(bit, s.N2 * s.O2)


@functools.lru_cache(maxsize=None)
def phases_of_beams(s):
    """By (l,m), the phases of v_{l,m}, or of the single entry of two ports."""
    if s.P == 2:
        return {(0, 0): packed('H', [0])}
    return {divmod(bit, s.N2 * s.O2): phases for phases, bit in bit_by_phases(s).items()}


@functools.lru_cache(maxsize=None)
def first_rows(s, v):
    """By (l,m), the phases with which a layer of that beam begins. v~_{l,m} is the first half of v_{2l,m}."""
    parts = 2 if v in (3, 4) and s.P >= 16 else 1
    return {pair: phases[:len(phases) // parts] for pair, phases in phases_of_beams(s).items()}


Precoder = collections.namedtuple('Precoder', 'phases weights bits beams')


@functools.lru_cache(maxsize=None)
def precoder(report):
    """The phases and weights of a report in range, layer after layer, the mask bits it reads and its layers' beams."""
    s, rows = SETTINGS[report.N1, report.N2], matrix(report)
    blocks = [block(s, report.v, coefficient, beam) for column in zip(*rows) for coefficient, beam in column]
    phases, weights = zip(*blocks)
    beams = places_of([pair_of(s, beam) for _, beam in rows[0]])
    return Precoder(b''.join(phases), b''.join(weights), bits_of(s, report.v, report.i2, rows), beams)


# ---- Ranges (headings of Tables 5.2.2.2.1-5 to -12) ------------------------------------------------------------------

# A row of a table: the modes and the case it is for, and the values of each index.
Row = collections.namedtuple('Row', 'modes case i11 i12 i13 i2')

MODES = (1, 2)

# Of an index that has no use: 01 gives it the value 0.
ZERO = range(1)


@functools.lru_cache(maxsize=None)
def rows_of_tables(s):
    """By the number of layers, the rows of Tables 5.2.2.2.1-5 to -12 in the order of 003."""
    N1, N2, O1, O2, P = s
    k_rows_3, k_rows_4 = range(len(table_3(N1, N2))), range(len(TABLE_4.get((N1, N2), [])))
    table_5 = [Row([1], True, range(N1 * O1), range(N2 * O2), ZERO, range(4)),
               Row([2], N2 > 1, range(N1 * O1 // 2), range(N2 * O2 // 2), ZERO, range(16)),
               Row([2], N2 == 1, range(N1 * O1 // 2), range(1), ZERO, range(16))]
    table_6 = [Row([1], True, range(N1 * O1), range(N2 * O2), k_rows_3, range(2)),
               Row([2], N2 > 1, range(N1 * O1 // 2), range(N2 * O2 // 2), k_rows_3, range(8)),
               Row([2], N2 == 1, range(N1 * O1 // 2), range(1), k_rows_3, range(8))]
    table_7 = [Row([1, 2], P < 16, range(N1 * O1), range(N2 * O2), k_rows_4, range(2)),
               Row([1, 2], P >= 16, range(N1 * O1 // 2), range(N2 * O2), range(4), range(2))]
    table_9 = [Row([1, 2], N2 > 1, range(N1 * O1), range(N2 * O2), ZERO, range(2)),
               Row([1, 2], N1 > 2 and N2 == 1, range(N1 * O1), range(1), ZERO, range(2))]
    table_11 = [Row([1, 2], N1 == 4 and N2 == 1, range(N1 * O1 // 2), range(1), ZERO, range(2)),
                Row([1, 2], N1 > 4 and N2 == 1, range(N1 * O1), range(1), ZERO, range(2)),
                Row([1, 2], N1 == 2 and N2 == 2, range(N1 * O1), range(N2 * O2), ZERO, range(2)),
                Row([1, 2], N1 > 2 and N2 == 2, range(N1 * O1), range(N2 * O2 // 2), ZERO, range(2)),
                Row([1, 2], N1 > 2 and N2 > 2, range(N1 * O1), range(N2 * O2), ZERO, range(2))]
    # Tables -8, -10 and -12 have the headings of the tables before them.
    tables = [table_5, table_6, table_7, table_7, table_9, table_9, table_11, table_11]
    return {v: [row for row in rows if row.case] for v, rows in enumerate(tables, 1)}


@functools.lru_cache(maxsize=None)
def ranks_of(s):
    """The ranks v of a setting: those for which a table has a row for it, and for two ports the columns of Table -1."""
    return tuple(TABLE_1) if s.P == 2 else tuple(v for v, rows in rows_of_tables(s).items() if rows)


@functools.lru_cache(maxsize=None)
def values(s, mode, v):
    """How many values i11, i12, i13 and i2 have."""
    if s.P == 2:
        return 1, 1, 1, len(TABLE_1[v])
    (row,) = (row for row in rows_of_tables(s)[v] if mode in row.modes)
    return len(row.i11), len(row.i12), len(row.i13), len(row.i2)


# Reports in range for v = 1, 2, ..; in mode 2 the numbers for v = 1 and 2 that stand after them, if any.
REPORTS_IN_RANGE = {
    (1, 1): ([4, 2], []),
    (2, 1): ([32, 32, 16, 16], [64, 64]),
    (2, 2): ([256, 512, 384, 384, 128, 128, 128, 128], []),
    (4, 1): ([64, 128, 96, 96, 32, 32, 16, 16], [128, 256]),
    (3, 2): ([384, 768, 768, 768, 192, 192, 96, 96], []),
    (6, 1): ([96, 192, 192, 192, 48, 48, 48, 48], [192, 384]),
    (4, 2): ([512, 1024, 512, 512, 256, 256, 128, 128], []),
    (8, 1): ([128, 256, 128, 128, 64, 64, 64, 64], [256, 512]),
    (4, 3): ([768, 1536, 768, 768, 384, 384, 384, 384], []),
    (6, 2): ([768, 1536, 768, 768, 384, 384, 192, 192], []),
    (12, 1): ([192, 384, 192, 192, 96, 96, 96, 96], [384, 768]),
    (4, 4): ([1024, 2048, 1024, 1024, 512, 512, 512, 512], []),
    (8, 2): ([1024, 2048, 1024, 1024, 512, 512, 256, 256], []),
    (16, 1): ([256, 512, 256, 256, 128, 128, 128, 128], [512, 1024])}


def listed(s, mode, v):
    in_mode_1, in_mode_2 = REPORTS_IN_RANGE[s.N1, s.N2]
    return (in_mode_2 if mode == 2 and v <= len(in_mode_2) else in_mode_1)[v - 1]


# ---- The codebook, as the tests take it ------------------------------------------------------------------------------

PHASES, WEIGHTS = FUNCTIONS = functions('', 0)


def answer_of(function, report):
    return precoder(report).phases if function is PHASES else precoder(report).weights


@functools.lru_cache(maxsize=None)
def fixed_of(function, report):
    return turned(precoder(report).phases, fixed_list(SETTINGS[report.N1, report.N2]), function)


def near_misses(s):
    return [(s.N1 + 256, s.N2), (s.N1, s.N2 + 4), (s.N1, 0), (2 ** 31 + s.N1, s.N2)]


def draw_numbers(draw, s):
    return draw.choice(((int(draw.random() * 34), int(draw.random() * 34)), (s.N2, s.N1),
                        (draw.choice(near(s.N1 + 1)), s.N2), (s.N1, draw.choice(near(s.N2 + 1)))))


SINGLE = Codebook(
    functions=FUNCTIONS, Report=Report, settings=SETTINGS, most_layers=8, modes_of=lambda s: MODES, ranks_of=ranks_of,
    refusals={'i11': 6, 'i12': 7, 'i13': 8, 'i2': 9}, values=values, mask_bits=mask_bits,
    bits_of=lambda report: precoder(report).bits, beams_of=lambda report: precoder(report).beams, first_rows=first_rows,
    answer_of=answer_of, fixed_of=fixed_of, below=(34, 34),
    extremes=[0, 1, 2, 4, 255, 256, 258, 65535, 65536, 65537, 2 ** 30, 2 ** 31 - 1, 2 ** 31, 2 ** 31 + 1, 2 ** 32 - 2,
              2 ** 32 - 1],
    near_misses=near_misses, draw_numbers=draw_numbers, drawn=240_000, listed=listed, among=lambda s, mode, v: 1,
    known=Known(reports=78_892, phases=6_387_360, layers=266_128, pairs=471_268,
                reached={e for e in range(TURN) if e % 6 == 0 or e % 8 == 0},
                figures={ZEROS: Figures(207_900, -17_126, 15_121, 142_504, ((4, 3), 8)),
                         FIXED: Figures(144_126, -17_304, 15_121, 259_400, ((8, 2), 8)),
                         DRAWN: Figures(198_681, -17_304, 15_121, 259_400, ((2, 2), 8))},
                part_of_any_list=518_800))


# ---- The worked cases of 01 and 02, held against the model -----------------------------------------------------------

def worked_cases(tests):
    def number(report, mask=None, offsets=None, length=1000, function=PHASES):
        s = SETTINGS[report[:2]]
        mask = SINGLE.ones(s) if mask is None else mask
        offsets = (0,) * s.P if offsets is None else offsets
        return SINGLE.refusal(function, Report(*report), 255, mask, offsets, length)

    def layer(k, report, offsets=None):
        ports = SETTINGS[report[:2]].P
        phases = numbers_in('H', SINGLE.answer(PHASES, Report(*report), offsets or (0,) * ports))
        return list(phases[(k - 1) * ports:k * ports])

    def beams(report):
        """Those of the layers, and what else is not (0,0)."""
        v, pairs = report[3], pairs_in(precoder(Report(*report)).beams)
        return [*pairs[:v], *filter(any, pairs[v:])]

    def case(k, *facts):
        tests.begin(f'worked case {k}, by the model')
        tests.check(all(facts), f'its facts hold: {facts}')

    def both(fact):
        """Cases 4 to 9 name no mode; they hold in both."""
        return fact(1) and fact(2)

    one_layer, two_layers, beam_9 = (2, 1, 1, 1, 1, 0, 0, 1), (2, 1, 1, 2, 7, 0, 1, 0), (2, 1, 2, 1, 3, 0, 0, 15)
    case(1, number(one_layer) == 0, layer(1, one_layer) == [0, 48, 96, 144], beams(one_layer) == [(1, 0)])
    case(2, number(two_layers) == 0, layer(1, two_layers) == [0, 336, 0, 336],
         layer(2, two_layers) == [0, 144, 192, 336], beams(two_layers) == [(7, 0), (3, 0)])
    case(3, number(beam_9) == 0, layer(1, beam_9) == [0, 48, 288, 336], number(beam_9, mask=b'\xfd') == 10,
         beams(beam_9) == [(1, 0)])
    thirds = layer(1, (3, 2, 1, 3, 0, 0, 3, 0)), layer(2, (3, 2, 1, 3, 0, 0, 3, 0))
    case(4, both(lambda mode: layer(2, (3, 2, mode, 3, 0, 0, 3, 0)) == [0, 0, 256, 256, 128, 128] * 2),
         both(lambda mode: beams((3, 2, mode, 3, 0, 0, 3, 0)) == [(0, 0), (8, 0), (0, 0)]),
         collections.Counter((y - x) % TURN for x, y in zip(*thirds)) == {0: 4, 128: 4, 256: 4})
    case(5, both(lambda mode: layer(1, (8, 1, mode, 3, 1, 0, 1, 1)) ==
                 [0, 24, 48, 72, 48, 72, 96, 120, 96, 120, 144, 168, 144, 168, 192, 216]),
         both(lambda mode: beams((8, 1, mode, 3, 1, 0, 1, 1)) == [(2, 0)] * 3))
    case(6, both(lambda mode: layer(1, (1, 1, mode, 2, 0, 0, 0, 1)) == [0, 96]),
         both(lambda mode: layer(2, (1, 1, mode, 2, 0, 0, 0, 1)) == [0, 288]),
         both(lambda mode: beams((1, 1, mode, 2, 0, 0, 0, 1)) == [(0, 0), (0, 0)]),
         both(lambda mode: number((1, 1, mode, 2, 0, 0, 0, 2)) == 9))
    case(7, both(lambda mode: number((4, 1, mode, 7, 7, 0, 0, 0)) == 0),
         both(lambda mode: beams((4, 1, mode, 7, 7, 0, 0, 0))
              == [(7, 0), (7, 0), (11, 0), (15, 0), (15, 0), (3, 0), (3, 0)]),
         both(lambda mode: number((4, 1, mode, 7, 8, 0, 0, 0)) == 6))
    case(8, both(lambda mode: number((3, 2, mode, 8, 0, 3, 0, 0)) == 0),
         both(lambda mode: beams((3, 2, mode, 8, 0, 3, 0, 0))
              == [(0, 3), (0, 3), (4, 3), (4, 3), (0, 7), (0, 7), (4, 7), (4, 7)]),
         both(lambda mode: number((3, 2, mode, 8, 0, 4, 0, 0)) == 7))
    case(9, both(lambda mode: number((2, 1, mode, 5, 0, 0, 0, 0)) == 4),
         both(lambda mode: number((2, 1, mode, 1, 0, 1, 0, 0)) == 7),
         both(lambda mode: number((2, 1, mode, 1, 0, 0, 1, 0)) == 8),
         both(lambda mode: number((2, 1, mode, 2, 0, 0, 2, 0)) == 8))
    case(10, number(one_layer, length=4) == 0, number(one_layer, length=3) == 11,
         number(one_layer, length=8, function=WEIGHTS) == 0, number(one_layer, length=7, function=WEIGHTS) == 11)

    case('of beams that are reduced', beams((2, 2, 1, 2, 0, 7, 2, 0)) == [(0, 7), (0, 3)],
         beams((4, 2, 2, 2, 7, 3, 3, 7)) == [(15, 7), (7, 7)], beams((16, 1, 2, 1, 31, 0, 0, 15)) == [(1, 0)],
         beams((12, 1, 1, 5, 45, 0, 0, 0)) == [(45, 0), (45, 0), (1, 0), (1, 0), (5, 0)],
         beams((2, 2, 1, 4, 7, 7, 2, 0)) == [(7, 7), (3, 3), (7, 7), (3, 3)])
    case('of half-length beams', beams((4, 4, 1, 4, 7, 15, 3, 1)) == [(14, 15)] * 4,
         beams((8, 2, 2, 3, 0, 5, 0, 0)) == [(0, 5)] * 3, beams((8, 1, 1, 2, 3, 0, 0, 0)) == [(3, 0), (3, 0)])

    case('of offsets', layer(1, one_layer, (0, 383, 288, 241)) == [0, 47, 0, 1],
         layer(1, two_layers, (5, 48, 383, 47)) == [5, 0, 383, 383],
         layer(2, two_layers, (5, 48, 383, 47)) == [5, 192, 191, 383],
         number(one_layer, offsets=(0, 0, 0, 383)) == 0, number(one_layer, offsets=(0, 0, 0, 384)) == 13,
         number(one_layer, offsets=(65535, 0, 0, 0)) == 13, number(one_layer, offsets=(0, 0, 0)) == 13,
         number(one_layer, offsets=(0, 0, 0, 0, 0)) == 13, number(one_layer, offsets=()) == 13)
    case('of offsets in their order', number(beam_9, mask=b'\xfd', offsets=(384, 0, 0, 0)) == 10,
         number(one_layer, offsets=(0, 0, 0), length=3) == 13, number(one_layer, offsets=(0, 384, 0, 0), length=3) == 13,
         number(one_layer, offsets=(383, 0, 0, 0), length=3) == 11, number((2, 1, 1, 2, 8, 0, 1, 0), offsets=()) == 6)

    def barring(report):
        """The bits that bar a report when each is the only zero."""
        s = SETTINGS[report[:2]]
        return [k for k in range(mask_bits(s)) if number(report, mask=SINGLE.ones_but(s, k)) == 10]

    case('of three bits', barring((8, 1, 1, 3, 1, 0, 0, 0)) == [1, 2, 3], barring((8, 1, 1, 3, 0, 0, 0, 0)) == [0, 1, 31],
         barring((4, 2, 1, 3, 1, 3, 0, 0)) == [11, 19, 27], barring((4, 4, 1, 4, 0, 5, 0, 0)) == [5, 21, 245],
         barring((8, 1, 1, 2, 2, 0, 0, 0)) == [2], barring((6, 1, 1, 3, 2, 0, 0, 0)) == [2, 6])


def bits_of_half_length(tests):
    """Every half-length beam has three bits, all of its own m, and is the first rows of the beam of the middle one."""
    for s in SETTINGS.values():
        if s.P < 16:
            continue
        tests.begin(f'the bits of half-length beams of {SINGLE.name_of(s)}, by the model')
        beam_of = {bit: phases for phases, bit in bit_by_phases(s).items()}
        for l, m in itertools.product(range(s.N1 * s.O1 // 2), range(s.N2 * s.O2)):
            beam = Beam(v_tilde, l, m)
            bits = bits_of_beam(s, beam)
            phases = block(s, 1, 1, beam)[0]
            tests.check(len(set(bits)) == 3 and {bit % (s.N2 * s.O2) for bit in bits} == {m}, f'v~ of {l}, {m}: {bits}')
            tests.check(beam_of[bits[1]][:len(phases)] == phases, f'v~ of {l}, {m} is not that of bit {bits[1]}')


if __name__ == '__main__':
    sys.exit(main(SINGLE, [worked_cases, bits_of_half_length], __doc__, sys.argv[1:]))
