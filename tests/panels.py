#!/usr/bin/env python3
"""Tests aspenflick_panel_phases and aspenflick_panel_weights against the complex matrices of TS 38.214, 5.2.2.2.2.

    panels.py COMMAND..

COMMAND starts the program built from batch.c, which calls one of the two functions for each request on its standard
input. The last line is `N passed, M failed`; the exit status is 0 only if N is above 0 and M is 0, and 2 for wrong words.
Needs Python 3.9; takes about a minute. tests/panels builds the program and starts this.

Where the expected answers come from
------------------------------------
Phases: a layer is computed in complex numbers as the standard prints it, with its factor 1/sqrt(P), block by block: a
product of phi, a_p and b_n, each an exponential, times v_{l,m}. The phase of an entry is read off its angle in 1/384
turns. No phase is computed in whole numbers. The factor 1/sqrt(v) of the whole matrix turns no entry.
Weights: the same complex entries without their factor, times 16384, each part taken to the nearest whole number, not by
way of the phase.
Offsets: the entry of each port, of size 1, times exp(j 2 pi o / 384) for its offset o, as precoder.py says.
Beams: of the v_{l,m} of each layer, the (l,m) of the mask bit that stands for the same entries. No l or m is reduced by
arithmetic.

The rules come from 000, an excerpt of TS 38.214 that has all of 5.2.2.2.2. 002 and 003 have it too, with slips; 000
decides. 01 is the scope, and 02 adds this codebook to it. Which is from where:

From 000:
  - the settings (Ng,N1,N2) with P, O1 and O2 (Table 5.2.2.2.2-1). 002 and 003 have 16 and 32 three and four rows too low,
    against P = 2 Ng N1 N2 in the text above;
  - the modes, 1 and 2 for two panels and 1 for four, and the ranks, 1 to 4;
  - which numbers of i14 and i2 are used with how many panels in which mode, and how many values each index has (headings
    of Tables -3 to -6);
  - k1 and k2 of 3 and 4 layers (Table -2). In row 1 of (2,2) and (4,2) 003 has 0, 0 and O2, 0, where 000 and 002 have
    0, O2;
  - phi_n, a_p, b_n, u_m and v_{l,m}. But for a_p and b_n they are those of 5.2.2.2.1, which precoder.py has;
  - W^{1,2,1}, W^{2,2,1}, W^{1,4,1}, W^{2,4,1}, W^{1,2,2} and W^{2,2,2}, whose rows are the ports; W of 1 to 4 layers,
    and l, l', m and m' (Tables -3 to -6). For l' 002 prints i12 + k1, and for 2 layers neither m nor m'; 003 prints
    neither l' nor m';
  - the mask bits: how many, and which of them bars which precoder; bit v-1 of the rank mask, r_{v-1}, which has four.
From 003: k1 and k2 of 2 layers (Table 5.2.2.2.1-3), to which 000 refers; 01 has the same rows.
From 01, where 000 is silent: the refusals but for what stands below; that an index without use, here i13 with 1 layer,
has the value 0 alone; records, the bytes of masks, weights and buffers, as precoder.py says.
From 02, where 000 is silent: that i14 and i2 are three numbers each, and those without use are 0; refusal 12, of a number
of i14, between 8 and 9; that 1 covers Ng, 2 mode 2 with four panels, and 4 a rank above 4; that the record names the beam
of each layer, which is that of one panel, and that unused places and all those of a refused report have (0,0); 1/384 turns,
and offsets, one for each of the P ports of all panels, as precoder.py says.

What is sent and what is asked of the answers
---------------------------------------------
harness.py says it. Longer and shorter buffers, drawn lists of offsets and masks are tried for one report of 32, another
one of each 32 in turn; where only 8 or 16 reports have the same i11, i12 and i13, for one of these. So every i11, i12 and
i13 is among them, which is tested.
Numbers that are no setting are all up to 9 x 17 x 9, and others.
With offsets of 0 reports have only phases that are multiples of 12, which is tested. With lists of offsets they have all
384, which is tested too.
"""

import cmath
import collections
import functools
import math
import sys

from harness import (DRAWN, FIXED, TURN, ZEROS, Codebook, Figures, Known, fixed_list, functions, layers_in, main, near,
                     numbers_in, pairs_in, places_of, turned)
from precoder import Beam, bits_of_beam, block, mask_bits, pair_of, phases_of_beams, phi, table_3, v_beam

# ---- Settings --------------------------------------------------------------------------------------------------------

Setting = collections.namedtuple('Setting', 'Ng N1 N2 O1 O2 P')

# Table 5.2.2.2.2-1: P, (Ng, N1, N2) and (O1, O2).
TABLE_1 = [(8, (2, 2, 1), (4, 1)),
           (16, (2, 4, 1), (4, 1)),
           (16, (4, 2, 1), (4, 1)),
           (16, (2, 2, 2), (4, 4)),
           (32, (2, 8, 1), (4, 1)),
           (32, (4, 4, 1), (4, 1)),
           (32, (2, 4, 2), (4, 4)),
           (32, (4, 2, 2), (4, 4))]

SETTINGS = {numbers: Setting(*numbers, *oversampling, P) for P, numbers, oversampling in TABLE_1}


def modes_of(s):
    return {2: (1, 2), 4: (1,)}[s.Ng]


def ranks_of(s):
    return 1, 2, 3, 4


# ---- Quantities ------------------------------------------------------------------------------------------------------

def a(p):
    return cmath.exp(1j * cmath.pi / 4) * cmath.exp(1j * cmath.pi * p / 2)


def b(n):
    return cmath.exp(-1j * cmath.pi / 4) * cmath.exp(1j * cmath.pi * n / 2)


# ---- k1 and k2, in multiples of O1 and O2 ----------------------------------------------------------------------------

# Table 5.2.2.2.2-2, 3 and 4 layers.
TABLE_2 = {(2, 1): [(1, 0)],
           (4, 1): [(1, 0), (2, 0), (3, 0)],
           (8, 1): [(1, 0), (2, 0), (3, 0), (4, 0)],
           (2, 2): [(1, 0), (0, 1), (1, 1)],
           (4, 2): [(1, 0), (0, 1), (1, 1), (2, 0)]}


def k_rows(s, v):
    """The rows of k by i13. One layer has no use for k, and i13 is 0."""
    return [(0, 0)] if v == 1 else table_3(s.N1, s.N2) if v == 2 else TABLE_2[s.N1, s.N2]


# ---- Layers ----------------------------------------------------------------------------------------------------------

# The coefficients of the blocks of W^{1,Ng,mode} and W^{2,Ng,mode}, by the upper numbers; p[0] is p_1, n[0] n or n_0.
COEFFICIENTS = {
    (1, 2, 1): lambda p, n: [1, phi(n[0]),
                             phi(p[0]), phi(n[0]) * phi(p[0])],
    (2, 2, 1): lambda p, n: [1, -phi(n[0]),
                             phi(p[0]), -phi(n[0]) * phi(p[0])],
    (1, 4, 1): lambda p, n: [1, phi(n[0]),
                             phi(p[0]), phi(n[0]) * phi(p[0]),
                             phi(p[1]), phi(n[0]) * phi(p[1]),
                             phi(p[2]), phi(n[0]) * phi(p[2])],
    (2, 4, 1): lambda p, n: [1, -phi(n[0]),
                             phi(p[0]), -phi(n[0]) * phi(p[0]),
                             phi(p[1]), -phi(n[0]) * phi(p[1]),
                             phi(p[2]), -phi(n[0]) * phi(p[2])],
    (1, 2, 2): lambda p, n: [1, phi(n[0]),
                             a(p[0]) * b(n[1]), a(p[1]) * b(n[2])],
    (2, 2, 2): lambda p, n: [1, -phi(n[0]),
                             a(p[0]) * b(n[1]), -a(p[1]) * b(n[2])]}


@functools.lru_cache(maxsize=None)
def coefficients(upper, p, n):
    return COEFFICIENTS[upper](p, n)


PHASES, WEIGHTS = FUNCTIONS = functions('panel_', 2)


class Layers(dict):
    """The layers W of some upper numbers and one beam, by p, n as one tuple: the phases and the weights with offsets of 0,
    and those with the fixed list of the setting."""

    def __init__(self, s, upper, beam):
        self.s, self.upper, self.beam = s, upper, beam

    def __missing__(self, p_and_n):
        blocks = [block(self.s, 1, x, self.beam) for x in coefficients(self.upper, p_and_n[:3], p_and_n[3:])]
        phases, weights = map(b''.join, zip(*blocks))
        fixed = [turned(phases, fixed_list(self.s), function) for function in FUNCTIONS]
        self[p_and_n] = phases, weights, *fixed
        return self[p_and_n]


layers_of = functools.lru_cache(maxsize=None)(Layers)

# ---- Matrices (Tables 5.2.2.2.2-3 to -6) -----------------------------------------------------------------------------

# By the number of layers: the first upper number of each W, and whether it has l' and m' for l and m.
COLUMNS = {1: [(1, False)],
           2: [(1, False), (2, True)],
           3: [(1, False), (1, True), (2, False)],
           4: [(1, False), (1, True), (2, False), (2, True)]}

Report = collections.namedtuple('Report', 'Ng N1 N2 mode v i11 i12 i13 i141 i142 i143 i20 i21 i22')

# What a report fixes up to i13: the layers, each by p and n, the bits of the beam mask that are read, and the beams.
Columns = collections.namedtuple('Columns', 'layers bits beams')


@functools.lru_cache(maxsize=None)
def columns(Ng, N1, N2, mode, v, i11, i12, i13):
    s = SETTINGS[Ng, N1, N2]
    times_O1, times_O2 = k_rows(s, v)[i13]
    beams = Beam(v_beam, i11, i12), Beam(v_beam, i11 + times_O1 * s.O1, i12 + times_O2 * s.O2)
    layers = [layers_of(s, (first, Ng, mode), beams[primed]) for first, primed in COLUMNS[v]]
    read = {bit for _, primed in COLUMNS[v] for bit in bits_of_beam(s, beams[primed])}
    return Columns(layers, tuple(sorted(read)), places_of([pair_of(s, beams[primed]) for _, primed in COLUMNS[v]]))


def answer_of(function, report, fixed=False):
    part, p_and_n = FUNCTIONS.index(function) + len(FUNCTIONS) * fixed, report[8:]
    return b''.join([layers[p_and_n][part] for layers in columns(*report[:8]).layers])


def fixed_of(function, report):
    return answer_of(function, report, fixed=True)


# ---- Ranges (headings of Tables 5.2.2.2.2-3 to -6) -------------------------------------------------------------------

@functools.lru_cache(maxsize=None)
def values(s, mode, v):
    """How many values i11, i12, i13, the numbers of i14 and those of i2 have; 1 for a number without use (02)."""
    i14 = {(2, 1): (4, 1, 1), (2, 2): (4, 4, 1), (4, 1): (4, 4, 4)}[s.Ng, mode]
    n = 4 if v == 1 else 2
    i2 = {1: (n, 1, 1), 2: (n, 2, 2)}[mode]
    return (s.N1 * s.O1, s.N2 * s.O2, len(k_rows(s, v)), *i14, *i2)


# Reports in range for v = 1 to 4, in mode 1 and in mode 2.
REPORTS_IN_RANGE = {
    (2, 2, 1): ([128, 128, 64, 64], [2048, 2048, 1024, 1024]),
    (2, 4, 1): ([256, 512, 384, 384], [4096, 8192, 6144, 6144]),
    (4, 2, 1): ([2048, 2048, 1024, 1024], []),
    (2, 2, 2): ([1024, 2048, 1536, 1536], [16384, 32768, 24576, 24576]),
    (2, 8, 1): ([512, 1024, 1024, 1024], [8192, 16384, 16384, 16384]),
    (4, 4, 1): ([4096, 8192, 6144, 6144], []),
    (2, 4, 2): ([2048, 4096, 4096, 4096], [32768, 65536, 65536, 65536]),
    (4, 2, 2): ([16384, 32768, 24576, 24576], [])}


# ---- The codebook, as the tests take it ------------------------------------------------------------------------------

def near_misses(s):
    return [(s.Ng + 256, s.N1, s.N2), (s.Ng, s.N1, s.N2 + 4), (1, s.N1, s.N2), (s.Ng, 2 ** 31 + s.N1, s.N2),
            (s.Ng, s.N1, 0), (s.Ng + 1, s.N1, s.N2)]


def draw_numbers(draw, s):
    Ng, N1, N2 = s[:3]
    return draw.choice((tuple(int(draw.random() * 9) for _ in range(3)), (N1, Ng, N2), (Ng, N2, N1),
                        (draw.choice(near(Ng + 1)), N1, N2), (Ng, draw.choice(near(N1 + 1)), N2),
                        (Ng, N1, draw.choice(near(N2 + 1)))))


def of_one_beam(s, mode, v):
    """How many reports have the same i11, i12 and i13; they stand one after the other."""
    return math.prod(values(s, mode, v)[3:])


MULTI = Codebook(
    functions=FUNCTIONS, Report=Report, settings=SETTINGS, most_layers=4, modes_of=modes_of, ranks_of=ranks_of,
    refusals={'i11': 6, 'i12': 7, 'i13': 8, 'i141': 12, 'i142': 12, 'i143': 12, 'i20': 9, 'i21': 9, 'i22': 9},
    values=values, mask_bits=mask_bits, bits_of=lambda report: columns(*report[:8]).bits,
    beams_of=lambda report: columns(*report[:8]).beams, first_rows=lambda s, v: phases_of_beams(s), answer_of=answer_of,
    fixed_of=fixed_of,
    below=(10, 18, 10), extremes=[0, 2, 4, 258, 65537, 2 ** 31, 2 ** 31 + 1, 2 ** 32 - 1], near_misses=near_misses,
    drawn=120_000, draw_numbers=draw_numbers, listed=lambda s, mode, v: REPORTS_IN_RANGE[s[:3]][mode - 1][v - 1],
    among=lambda s, mode, v: min(32, of_one_beam(s, mode, v)),
    known=Known(reports=570_752, phases=42_340_864, layers=1_509_056, pairs=1_548_352, reached={*range(0, TURN, 12)},
                figures={ZEROS: Figures(194_816, -11_006, 6_213, 68_876, ((2, 4, 1), 4)),
                         FIXED: Figures(157_597, -17_304, 15_121, 129_700, ((2, 8, 1), 4)),
                         DRAWN: Figures(209_848, -17_304, 15_121, 129_700, ((2, 2, 1), 4))},
                part_of_any_list=518_800))


def part_of_range(tests):
    tests.begin('the part that is tried in more ways has every i11, i12 and i13')
    for s, mode, v in MULTI.groups():
        alike = of_one_beam(s, mode, v)
        tried = {n // alike for n in MULTI.part_of_range(s, mode, v)}
        tests.check(len(tried) == MULTI.listed(s, mode, v) / alike, f'not at {MULTI.name_of(s)} mode {mode} v={v}')


# ---- Reports worked out by hand from 000, held against the model -----------------------------------------------------

def worked_cases(tests):
    def number(setting, mode, v, mask=None, offsets=None, length=1000, **indices):
        s = SETTINGS.get(setting)
        report = Report(*setting, mode, v, *[0] * 9)._replace(**indices)
        mask = (MULTI.ones(s) if s else b'\xff') if mask is None else mask
        offsets = ((0,) * s.P if s else ()) if offsets is None else offsets
        return MULTI.refusal(PHASES, report, 255, mask, offsets, length)

    def layers(setting, mode, v, offsets=None, **indices):
        report = Report(*setting, mode, v, *[0] * 9)._replace(**indices)
        phases = MULTI.answer(PHASES, report, offsets or (0,) * SETTINGS[setting].P)
        return [[*numbers_in('H', layer)] for layer in layers_in(phases, v)]

    def beams(setting, mode, v, **indices):
        """Those of the layers, and what else is not (0,0)."""
        pairs = pairs_in(MULTI.beams_of(Report(*setting, mode, v, *[0] * 9)._replace(**indices)))
        return [*pairs[:v], *filter(any, pairs[v:])]

    def case(name, *facts):
        tests.begin(f'worked case: {name}, by the model')
        tests.check(all(facts), f'its facts hold: {facts}')

    case('two panels, mode 1',
         layers((2, 2, 1), 1, 1, i11=1, i141=1, i20=1) == [[0, 48, 96, 144, 96, 144, 192, 240]])
    case('two panels, mode 2: a_1 b_1 is half a turn, a_3 b_0 three quarters',
         layers((2, 2, 1), 2, 1, i11=1, i141=1, i142=3, i20=3, i21=1) == [[0, 48, 288, 336, 192, 240, 288, 336]])
    case('four panels, each with both polarisations',
         layers((4, 2, 1), 1, 1, i141=1, i142=2, i143=3, i20=1)
         == [[0, 0, 96, 96, 96, 96, 192, 192, 192, 192, 288, 288, 288, 288, 0, 0]])
    beams_7_and_3 = {'i11': 7, 'i13': 1, 'i141': 3, 'i20': 1}
    case('two layers, of beams 7 and 11, which is 3',
         layers((2, 2, 1), 1, 2, **beams_7_and_3)
         == [[0, 336, 96, 48, 288, 240, 0, 336], [0, 144, 288, 48, 288, 48, 192, 336]],
         beams((2, 2, 1), 1, 2, **beams_7_and_3) == [(7, 0), (3, 0)],
         number((2, 2, 1), 1, 2, b'\x88', **beams_7_and_3) == 0, number((2, 2, 1), 1, 2, b'\xf7', **beams_7_and_3) == 10,
         number((2, 2, 1), 1, 2, b'\x7f', **beams_7_and_3) == 10)
    case('offsets, one for each port of both panels',
         layers((2, 2, 1), 1, 2, (383, 48, 0, 1, 96, 143, 144, 47), **beams_7_and_3)
         == [[383, 0, 96, 49, 0, 383, 144, 383], [383, 192, 288, 49, 0, 191, 336, 383]],
         number((2, 2, 1), 1, 1, offsets=(383,) * 8) == 0, number((2, 2, 1), 1, 1, offsets=(*[0] * 7, 384)) == 13,
         number((2, 2, 1), 1, 1, offsets=(0,) * 4) == 13, number((2, 2, 1), 1, 1, offsets=(0,) * 9) == 13,
         number((2, 2, 1), 1, 1, offsets=()) == 13, number((4, 2, 1), 1, 1, offsets=(0,) * 8) == 13)
    case('four layers, k = (O1, O2)',
         layers((2, 2, 2), 1, 4, i13=2)
         == [[0] * 16, [0, 192, 192, 0] * 4, [0, 0, 0, 0, 192, 192, 192, 192] * 2,
             [0, 192, 192, 0, 192, 0, 0, 192] * 2],
         beams((2, 2, 2), 1, 4, i13=2) == [(0, 0), (4, 4), (0, 0), (4, 4)])
    case('three layers, k = (0, O2) in row 1',
         layers((2, 2, 2), 1, 3, i13=1)[1] == [0, 192] * 8, layers((2, 4, 2), 1, 3, i13=1)[1] == [0, 192] * 16,
         beams((2, 4, 2), 1, 3, i12=6, i13=1) == [(0, 6), (0, 2), (0, 6)])
    case('beams of one panel', beams((4, 4, 1), 1, 1, i11=15) == [(15, 0)],
         beams((2, 8, 1), 2, 4, i11=20, i13=3) == [(20, 0), (4, 0), (20, 0), (4, 0)],
         beams((4, 2, 2), 1, 2, i11=5, i12=3) == [(5, 3), (5, 3)])
    case('settings, modes and ranks', number((1, 2, 1), 1, 1) == 1, number((3, 2, 1), 1, 1) == 1,
         number((4, 8, 1), 1, 1) == 1, number((2, 1, 1), 1, 1) == 1, number((4, 2, 1), 1, 1) == 0,
         number((4, 2, 1), 2, 1) == 2, number((2, 2, 1), 3, 1) == 2, number((2, 2, 1), 1, 4) == 0,
         number((2, 2, 1), 1, 5) == 4)
    case('ports', all(s.P == 2 * s.Ng * s.N1 * s.N2 for s in SETTINGS.values()))
    case('bytes of a mask', [MULTI.mask_bytes(s) for s in SETTINGS.values()] == [1, 2, 1, 8, 4, 2, 16, 8])
    case('i11 and i12 have all their values in both modes',
         *[number((2, 2, 2), mode, 1, i11=7, i12=7) == 0 for mode in (1, 2)],
         *[number((2, 2, 2), mode, 1, i11=8) == 6 for mode in (1, 2)],
         *[number((2, 2, 2), mode, 1, i12=8) == 7 for mode in (1, 2)], number((2, 4, 1), 1, 1, i12=1) == 7)
    case('i13 with 1 layer, and the last rows of k', number((2, 8, 1), 1, 1, i13=1) == 8,
         number((2, 8, 1), 1, 2, i13=3) == 0, number((2, 8, 1), 1, 2, i13=4) == 8, number((2, 8, 1), 1, 3, i13=3) == 0,
         number((2, 8, 1), 1, 3, i13=4) == 8, number((4, 4, 1), 1, 4, i13=2) == 0, number((4, 4, 1), 1, 4, i13=3) == 8,
         number((2, 2, 1), 1, 3, i13=0) == 0, number((2, 2, 1), 1, 3, i13=1) == 8)
    case('numbers of i14, used and not', number((2, 2, 1), 1, 1, i141=3) == 0, number((2, 2, 1), 1, 1, i141=4) == 12,
         number((2, 2, 1), 1, 1, i142=1) == 12, number((2, 2, 1), 2, 1, i142=3) == 0,
         number((2, 2, 1), 2, 1, i142=4) == 12, number((2, 2, 1), 2, 1, i143=1) == 12,
         number((4, 2, 1), 1, 1, i143=3) == 0, number((4, 2, 1), 1, 1, i143=4) == 12)
    case('numbers of i2, used and not', number((2, 2, 1), 1, 1, i20=3) == 0, number((2, 2, 1), 1, 1, i20=4) == 9,
         number((2, 2, 1), 1, 2, i20=2) == 9, number((2, 2, 1), 1, 1, i21=1) == 9, number((2, 2, 1), 2, 1, i21=1) == 0,
         number((2, 2, 1), 2, 1, i22=2) == 9, number((2, 2, 1), 2, 2, i20=2) == 9)
    case('12 stands between 8 and 9', number((2, 2, 1), 1, 1, i13=1, i142=1) == 8,
         number((2, 2, 1), 1, 1, i142=1, i21=1) == 12)
    case('13 stands between 10 and 11', number((2, 2, 1), 1, 1, b'\xfe', offsets=(384,) * 8) == 10,
         number((2, 2, 1), 1, 1, offsets=(384,) * 8, length=7) == 13, number((2, 2, 1), 1, 1, offsets=(), length=0) == 13,
         number((2, 2, 1), 1, 1, length=7) == 11, number((2, 2, 1), 1, 1, offsets=(), i142=1) == 12)


if __name__ == '__main__':
    sys.exit(main(MULTI, [worked_cases, part_of_range], __doc__, sys.argv[1:]))
