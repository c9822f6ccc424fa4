#!/usr/bin/env python3
r"""Tests the program pmi: the stored cases of tests/cases, the ways in which input can arrive, and what it says where
input cannot be read or output cannot be written.

    cases.py COMMAND..    test; COMMAND starts pmi
    cases.py --write      write tests/cases anew

The last line is `N passed, M failed`; the exit status is 0 only if N is above 0 and M is 0, and 2 for wrong words.
Needs Python 3.9; takes about half a minute. tests/pmi starts this.

A case is stored as a line that has its name and what stands on standard input, and below it the lines that must come on
standard output, each behind four spaces:

    worked-2-the-example  '2 1 1 2 7 0 1 0\n'
        ok 4 2 8
        0 336 0 336
        0 144 192 336
    unreadable-257-bytes-the-example-first  '2 1 1 2 7 0 1 0\n' + 'x' * 241
        unreadable

The input is a Python string in which each character is a byte; a long run in it is one part of it, so many times. Both
are compared to the byte; the exit status is 0, and nothing comes on standard error unless a read or a write fails. A
case stands in the file of its kind, with which its name begins:

  worked       the reports that 01 works out, with the answers written here: 01's phases doubled, as 02 has them
  setting      every setting, mode and rank: all indices at their last values, and indices drawn within their ranges
  accepted     the last values in range, and unusual forms of numbers that are allowed
  refused-N    the first values out of range, values that fewer bits would make legal ones, and two faults at once, for
               which N is the number of the first
  unreadable   all that is not a line of the form, too long ones among it
  damage       the line of 01's example with one byte replaced, left out or put in

What a name promises (ok, refused N, unreadable) is held against the model, which gives all other answers. The model is
the one of precoder.py, with masks of ones and offsets of 0, behind a rule of its own for what is readable.
"""

import ast
import collections
import concurrent.futures
import fcntl
import itertools
import os
import random
import re
import struct
import subprocess
import sys
import tempfile
import termios
import time
import tty
from pathlib import Path

from harness import layers_in, phases_in
from precoder import MODES, PHASES, SETTINGS, SINGLE, Report, precoder, ranks_of, values

STORE = Path(__file__).resolve().parent / 'cases'
FEWEST, SEED = 300, 38_214

# ---- The answer to any input (01, The printing program) --------------------------------------------------------------

LINE, MOST = re.compile(rb'[0-9]{1,5}( [0-9]{1,5}){7}\n'), 65535
# 8 layers of 32 ports.
ROOM = 256


def report_of(data):
    """The report that stands in the bytes, or None if they are unreadable."""
    if not LINE.fullmatch(data):
        return None
    report = Report(*map(int, data.split()))
    return report if max(report) <= MOST else None


def answer_of(data):
    report = report_of(data)
    if report is None:
        return 'unreadable\n'
    s = SETTINGS.get(report[:2])
    mask, offsets = (SINGLE.ones(s), (0,) * s.P) if s else (b'', ())
    number = SINGLE.refusal(PHASES, report, 255, mask, offsets, ROOM)
    if number:
        return f'refused {number}\n'
    layers = layers_in(precoder(report).phases, report.v)
    lines = [('ok', s.P, report.v, report.v * s.P), *map(phases_in, layers)]
    return ''.join(' '.join(map(str, line)) + '\n' for line in lines)


# ---- Cases chosen by hand --------------------------------------------------------------------------------------------

EXAMPLE = b'2 1 1 2 7 0 1 0\n'

# Where 01 names no mode it is 1 here. The reports of cases 7 and 8 that are accepted are among the bounds.
WORKED = {
    'worked-1': ('2 1 1 1 1 0 0 1', """
ok 4 1 4
0 48 96 144
"""),
    'worked-2-the-example': ('2 1 1 2 7 0 1 0', """
ok 4 2 8
0 336 0 336
0 144 192 336
"""),
    'worked-3-beam-9-is-beam-1': ('2 1 2 1 3 0 0 15', """
ok 4 1 4
0 48 288 336
"""),
    'worked-4-thirds-of-a-turn': ('3 2 1 3 0 0 3 0', """
ok 12 3 36
0 0 0 0 0 0 0 0 0 0 0 0
0 0 256 256 128 128 0 0 256 256 128 128
0 0 0 0 0 0 192 192 192 192 192 192
"""),
    'worked-5-half-length-beam': ('8 1 1 3 1 0 1 1', """
ok 16 3 48
0 24 48 72 48 72 96 120 96 120 144 168 144 168 192 216
0 24 48 72 240 264 288 312 96 120 144 168 336 360 0 24
0 24 48 72 48 72 96 120 288 312 336 360 336 360 0 24
"""),
    'worked-6-two-ports': ('1 1 1 2 0 0 0 1', """
ok 2 2 4
0 96
0 288
"""),
    'worked-6-two-ports-i2-2': ('1 1 1 2 0 0 0 2', 'refused 9\n'),
    'worked-7-i11-8': ('4 1 1 7 8 0 0 0', 'refused 6\n'),
    'worked-8-i12-4': ('3 2 1 8 0 4 0 0', 'refused 7\n'),
    'worked-9-rank-5': ('2 1 1 5 0 0 0 0', 'refused 4\n'),
    'worked-9-i12-1': ('2 1 1 1 0 1 0 0', 'refused 7\n'),
    'worked-9-i13-1': ('2 1 1 1 0 0 1 0', 'refused 8\n'),
    'worked-9-i13-2-layers-2': ('2 1 1 2 0 0 2 0', 'refused 8\n'),
}

# The last value of an index for a setting, mode and rank, the other indices 0.
BOUNDS = {
    'i11': """
        1 1 1 1: 0     1 1 2 2: 0     2 1 1 1: 7     2 1 2 1: 3     2 1 2 2: 3     2 1 2 3: 7     2 2 1 7: 7
        2 2 2 1: 3     4 1 1 6: 15    4 1 1 7: 7     4 1 2 8: 7     3 2 1 8: 11    6 1 1 3: 23    4 2 1 3: 7
        4 2 1 7: 15    8 1 1 2: 31    8 1 1 3: 15    8 1 2 4: 15    8 1 1 5: 31    8 1 1 8: 31    4 3 1 4: 7
        6 2 1 2: 23    6 2 2 2: 11    12 1 1 1: 47   4 4 1 4: 7     8 2 1 8: 31    16 1 1 1: 63   16 1 2 1: 31
        16 1 1 4: 31   16 1 1 7: 63""",
    'i12': """
        1 1 1 1: 0     2 1 1 1: 0     4 1 1 7: 0     16 1 2 2: 0    2 2 1 1: 7     2 2 2 1: 3     2 2 1 8: 7
        3 2 1 6: 7     3 2 1 7: 3     3 2 2 8: 3     4 2 1 3: 7     4 2 1 7: 3     4 3 1 1: 11    4 3 2 2: 5
        4 3 1 8: 11    6 2 1 8: 3     8 2 1 6: 7     8 2 1 7: 3     4 4 1 3: 15    4 4 2 1: 7     4 4 1 7: 15""",
    'i13': """
        1 1 1 2: 0     2 1 1 1: 0     2 1 1 2: 1     2 1 2 2: 1     2 1 1 3: 0     4 1 1 2: 3     4 1 1 3: 2
        6 1 1 4: 3     2 2 1 2: 3     2 2 1 4: 2     3 2 1 3: 3     4 2 1 2: 3     4 2 1 4: 3     4 2 2 2: 3
        4 3 2 1: 0     16 1 1 3: 3    4 4 1 5: 0     8 2 1 8: 0""",
    'i2': """
        1 1 1 1: 3     1 1 2 1: 3     1 1 1 2: 1     1 1 2 2: 1     2 1 1 1: 3     2 1 2 1: 15    2 1 1 2: 1
        2 1 2 2: 7     4 2 1 1: 3     4 2 2 1: 15    4 2 2 2: 7     4 2 2 3: 1     3 2 1 5: 1     8 1 1 3: 1
        4 4 2 1: 15    16 1 1 8: 1""",
}
NUMBER_OF = {'i11': 6, 'i12': 7, 'i13': 8, 'i2': 9}

# 258 is 2 in eight bits, 257 is 1; (1,2), (2,4), (1,12), (3,4), (2,8) and (1,16) have the ports of a setting.
NOT_SETTINGS = """0 0, 0 1, 1 0, 2 0, 1 2, 1 4, 2 3, 2 4, 3 1, 3 3, 3 4, 4 5, 5 1, 5 2, 7 1, 8 3, 10 1, 12 2, 1 12, 1 16,
    2 8, 16 2, 17 1, 32 1, 258 1, 2 257, 260 258, 257 257, 32768 2, 2 32768, 65535 1, 65535 65535"""

REFUSED = {
    'refused-2-mode-0': '2 1 0 2 7 0 1 0',
    'refused-2-mode-0-two-ports': '1 1 0 1 0 0 0 0',
    'refused-2-mode-3': '2 1 3 2 7 0 1 0',
    'refused-2-mode-3-two-ports': '1 1 3 1 0 0 0 0',
    'refused-2-mode-3-setting-16-1': '16 1 3 8 63 0 0 1',
    'refused-2-mode-257': '2 1 257 2 7 0 1 0',
    'refused-2-mode-258': '4 2 258 2 7 0 1 0',
    'refused-2-mode-65535': '2 1 65535 2 7 0 1 0',
    'refused-4-rank-0-setting-1-1': '1 1 1 0 0 0 0 0',
    'refused-4-rank-0-setting-2-1': '2 1 1 0 0 0 0 0',
    'refused-4-rank-0-setting-4-4': '4 4 2 0 0 0 0 0',
    'refused-4-rank-3-setting-1-1': '1 1 1 3 0 0 0 0',
    'refused-4-rank-4-setting-1-1': '1 1 2 4 0 0 0 0',
    'refused-4-rank-8-setting-1-1': '1 1 1 8 0 0 0 0',
    'refused-4-rank-5-setting-2-1-mode-2': '2 1 2 5 0 0 0 0',
    'refused-4-rank-8-setting-2-1': '2 1 1 8 0 0 0 0',
    'refused-4-rank-9-setting-2-1': '2 1 1 9 0 0 0 0',
    'refused-4-rank-9-setting-2-2': '2 2 1 9 0 0 0 0',
    'refused-4-rank-9-setting-16-1': '16 1 1 9 0 0 0 0',
    'refused-4-rank-16-setting-4-4': '4 4 1 16 0 0 0 0',
    'refused-4-rank-32-setting-4-4': '4 4 1 32 0 0 0 0',
    'refused-4-rank-256': '2 1 1 256 0 0 0 0',
    'refused-4-rank-257': '2 1 1 257 7 0 0 0',
    'refused-4-rank-65535': '4 1 1 65535 0 0 0 0',
    'refused-6-i11-8-of-the-example': '2 1 1 2 8 0 1 0',
    'refused-6-i11-256': '2 1 1 2 256 0 1 0',
    'refused-6-i11-263': '2 1 1 2 263 0 1 0',
    'refused-6-i11-32768-mode-2': '16 1 2 1 32768 0 0 0',
    'refused-7-i12-256': '4 4 1 1 0 256 0 0',
    'refused-7-i12-256-no-use': '2 1 1 2 7 256 1 0',
    'refused-7-i12-32768-mode-2': '4 4 2 1 0 32768 0 0',
    'refused-8-i13-257': '2 1 1 2 7 0 257 0',
    'refused-8-i13-256-no-use': '4 4 1 8 0 0 256 0',
    'refused-9-i2-256': '2 1 1 2 7 0 1 256',
    'refused-9-i2-4-two-ports-mode-2': '1 1 2 1 0 0 0 4',
    'refused-9-i2-15-two-ports-mode-2': '1 1 2 1 0 0 0 15',
    'refused-9-i2-2-setting-16-1-layers-2': '16 1 1 2 63 0 3 2',
    'refused-9-i2-258-mode-2': '4 2 2 1 7 3 0 258',
    'refused-1-of-nines': '9 9 9 9 9 9 9 9',
    'refused-1-of-zeros': '0 0 0 0 0 0 0 0',
    'refused-1-eight-numbers-of-five-digits': '65535 65535 65535 65535 65535 65535 65535 65535',
    'refused-1-forty-eight-bytes-of-zeros': '00000 00000 00000 00000 00000 00000 00000 00000',
}

ACCEPTED = {
    'accepted-all-indices-0': '2 1 1 2 0 0 0 0',
    'accepted-all-indices-0-setting-16-1-layers-8': '16 1 1 8 0 0 0 0',
    'accepted-all-indices-0-two-ports': '1 1 1 1 0 0 0 0',
    'accepted-forty-eight-bytes': '00002 00001 00001 00002 00007 00000 00001 00000',
    'accepted-forty-eight-bytes-setting-16-1': '00016 00001 00002 00002 00031 00000 00003 00007',
    'accepted-leading-zeros-of-all-lengths': '2 01 001 0002 00007 0000 001 00',
    'accepted-leading-zeros-of-eight': '00008 00002 00001 00008 00031 00003 00000 00001',
    'accepted-the-longest-answer': '16 1 1 8 19 0 0 1',
}

# Lines as text, in Latin-1, without the newline.
UNREADABLE_LINES = {
    'unreadable-letter-in-place-of-a-number': '2 1 1 x 7 0 1 0',
    'unreadable-one-number': '2',
    'unreadable-two-numbers': '2 1',
    'unreadable-seven-numbers': '2 1 1 2 7 0 1',
    'unreadable-nine-numbers': '2 1 1 2 7 0 1 0 0',
    'unreadable-sixteen-numbers': '2 1 1 2 7 0 1 0 2 1 1 2 7 0 1 0',
    'unreadable-no-spaces': '21127010',
    'unreadable-eight-letters': 'a b c d e f g h',
    'unreadable-words': 'two one one two seven zero one zero',
    'unreadable-leading-space': ' 2 1 1 2 7 0 1 0',
    'unreadable-trailing-space': '2 1 1 2 7 0 1 0 ',
    'unreadable-leading-and-trailing-space': ' 2 1 1 2 7 0 1 0 ',
    'unreadable-double-space': '2 1 1 2  7 0 1 0',
    'unreadable-double-space-after-the-first': '2  1 1 2 7 0 1 0',
    'unreadable-double-space-before-the-last': '2 1 1 2 7 0 1  0',
    'unreadable-double-space-of-seven-numbers': '2 1 1 2  0 1 0',
    'unreadable-spaces-only': '       ',
    'unreadable-tab-between': '2 1 1\t2 7 0 1 0',
    'unreadable-tabs-between': '2\t1\t1\t2\t7\t0\t1\t0',
    'unreadable-tab-before': '\t2 1 1 2 7 0 1 0',
    'unreadable-tab-after': '2 1 1 2 7 0 1 0\t',
    'unreadable-vertical-tab-between': '2 1 1\v2 7 0 1 0',
    'unreadable-form-feed-between': '2 1 1\f2 7 0 1 0',
    'unreadable-form-feed-before': '\f2 1 1 2 7 0 1 0',
    'unreadable-return-before-the-newline': '2 1 1 2 7 0 1 0\r',
    'unreadable-return-at-the-start': '\r2 1 1 2 7 0 1 0',
    'unreadable-return-between': '2 1 1 2\r7 0 1 0',
    'unreadable-two-returns': '2 1 1 2 7 0 1 0\r\r',
    'unreadable-plus': '2 1 1 2 +7 0 1 0',
    'unreadable-plus-at-the-start': '+2 1 1 2 7 0 1 0',
    'unreadable-minus': '2 1 1 2 -7 0 1 0',
    'unreadable-minus-zero': '2 1 1 2 7 -0 1 0',
    'unreadable-minus-at-the-end': '2 1 1 2 7 0 1 0-',
    'unreadable-minus-instead-of-a-space': '2 1 1 2 7 0-1 0',
    'unreadable-decimal-point': '2 1 1 2 7.0 0 1 0',
    'unreadable-decimal-point-at-the-end': '2 1 1 2 7 0 1 0.',
    'unreadable-exponent': '2 1 1 2 7e0 0 1 0',
    'unreadable-hexadecimal': '0x2 1 1 2 7 0 1 0',
    'unreadable-hexadecimal-digit': '2 1 2 1 3 0 0 f',
    'unreadable-hexadecimal-suffix': '2 1 1 2 7h 0 1 0',
    'unreadable-octal': '2 1 1 2 0o7 0 1 0',
    'unreadable-binary': '2 1 1 2 0b111 0 1 0',
    'unreadable-underscore': '2 1 1 2 0_7 0 1 0',
    'unreadable-suffix': '2 1 1 2 7u 0 1 0',
    'unreadable-commas': '2,1,1,2,7,0,1,0',
    'unreadable-commas-and-spaces': '2, 1, 1, 2, 7, 0, 1, 0',
    'unreadable-comma-at-the-end': '2 1 1 2 7 0 1 0,',
    'unreadable-semicolon': '2 1 1 2 7 0 1 0;',
    'unreadable-brackets': '(2 1 1 2 7 0 1 0)',
    'unreadable-quotes': '"2 1 1 2 7 0 1 0"',
    'unreadable-names': 'N1=2 N2=1 mode=1 v=2 i11=7 i12=0 i13=1 i2=0',
    'unreadable-comment': '2 1 1 2 7 0 1 0 # example',
    'unreadable-an-answer': 'ok 4 2 8',
    'unreadable-byte-before-the-digits': '2 1 1 2 / 0 1 0',
    'unreadable-byte-after-the-digits': '2 1 1 2 : 0 1 0',
    'unreadable-65536': '2 1 1 2 7 0 1 65536',
    'unreadable-65536-of-nines': '9 9 9 9 9 9 9 65536',
    'unreadable-65538': '65538 1 1 2 7 0 1 0',
    'unreadable-65537-as-mode': '2 1 65537 2 7 0 1 0',
    'unreadable-70000': '2 1 1 2 70000 0 1 0',
    'unreadable-90000': '2 1 1 2 7 90000 1 0',
    'unreadable-99999': '2 1 1 2 7 0 99999 0',
    'unreadable-99999-eight-times': '99999 99999 99999 99999 99999 99999 99999 99999',
    'unreadable-100000': '2 1 1 2 100000 0 1 0',
    'unreadable-six-zeros': '2 1 1 2 7 000000 1 0',
    'unreadable-six-digits-eight-times': '000002 000001 000001 000002 000007 000000 000001 000000',
    'unreadable-twenty-zeros': '2 1 1 2 7 00000000000000000000 1 0',
    'unreadable-2-in-thirty-two-bits': '4294967298 1 1 2 7 0 1 0',
    'unreadable-2-in-sixty-four-bits': '18446744073709551618 1 1 2 7 0 1 0',
    'unreadable-2-in-a-hundred-and-twenty-eight-bits': '340282366920938463463374607431768211458 1 1 2 7 0 1 0',
    'unreadable-delete': '2 1 1 2 7 0 1 0\x7f',
    'unreadable-backspace': '2 1 1 2 8\b7 0 1 0',
    'unreadable-escape': '\x1b[0m2 1 1 2 7 0 1 0',
    'unreadable-nul-at-the-start': '\x002 1 1 2 7 0 1 0',
    'unreadable-nul-in-a-number': '2 1 1 2 7\x00 0 1 0',
    'unreadable-nul-between': '2 1 1 2\x007 0 1 0',
    'unreadable-nul-before-the-newline': '2 1 1 2 7 0 1 0\x00',
    'unreadable-space-with-its-top-bit': '2 1 1 2\xa07 0 1 0',
    'unreadable-digit-with-its-top-bit': '2 1 1 2 \xb7 0 1 0',
    'unreadable-superscript-two': '\xb2 1 1 2 7 0 1 0',
    'unreadable-byte-255': '2 1 1 2 7 0 1 0\xff',
    'unreadable-byte-128-at-the-start': '\x802 1 1 2 7 0 1 0',
}

UNREADABLE_BYTES = {
    'unreadable-empty': b'',
    'unreadable-newline-alone': b'\n',
    'unreadable-space-alone': b' ',
    'unreadable-digit-alone': b'2',
    'unreadable-nul-alone': b'\0',
    'unreadable-return-alone': b'\r',
    'unreadable-byte-255-alone': b'\xff',
    'unreadable-two-newlines-alone': b'\n\n',
    'unreadable-no-newline': b'2 1 1 2 7 0 1 0',
    'unreadable-no-newline-forty-seven-bytes': b'00002 00001 00001 00002 00007 00000 00001 00000',
    'unreadable-return-instead-of-the-newline': b'2 1 1 2 7 0 1 0\r',
    'unreadable-nul-instead-of-the-newline': b'2 1 1 2 7 0 1 0\0',
    'unreadable-space-instead-of-the-newline': b'2 1 1 2 7 0 1 0 ',
    'unreadable-newline-with-its-top-bit': b'2 1 1 2 7 0 1 0\x8a',
    'unreadable-newline-and-return': b'2 1 1 2 7 0 1 0\n\r',
    'unreadable-newline-first': b'\n2 1 1 2 7 0 1 0\n',
    'unreadable-newline-in-the-line': b'2 1 1 2\n7 0 1 0\n',
    'unreadable-newlines-instead-of-spaces': b'2\n1\n1\n2\n7\n0\n1\n0\n',
    'unreadable-second-newline': b'2 1 1 2 7 0 1 0\n\n',
    'unreadable-second-line': b'2 1 1 2 7 0 1 0\n2 1 1 2 7 0 1 0\n',
    'unreadable-second-line-begun': b'2 1 1 2 7 0 1 0\n2',
    'unreadable-letter-after-the-newline': b'2 1 1 2 7 0 1 0\nx',
    'unreadable-space-after-the-newline': b'2 1 1 2 7 0 1 0\n ',
    'unreadable-nul-after-the-newline': b'2 1 1 2 7 0 1 0\n\0',
    'unreadable-nuls-after-the-newline': b'2 1 1 2 7 0 1 0\n' + bytes(240),
    'unreadable-end-of-transmission-after-the-newline': b'2 1 1 2 7 0 1 0\n\x04',
    'unreadable-end-of-file-mark-after-the-newline': b'2 1 1 2 7 0 1 0\n\x1a',
    'unreadable-byte-after-a-refused-line': b'9 9 9 9 9 9 9 9\n9',
    'unreadable-byte-after-forty-eight-bytes': b'00002 00001 00001 00002 00007 00000 00001 00000\n0',
    'unreadable-forty-nine-bytes': b'00002 00001 00001 00002 00007 00000 00001 000000\n',
    'unreadable-byte-order-mark': '\ufeff2 1 1 2 7 0 1 0\n'.encode(),
    'unreadable-sixteen-bits-a-character': '2 1 1 2 7 0 1 0\n'.encode('utf-16-le'),
    'unreadable-sixteen-bits-a-character-marked': '\ufeff2 1 1 2 7 0 1 0\n'.encode('utf-16-be'),
    'unreadable-digits-arabic': '٢ ١ ١ ٢ ٧ ٠ ١ ٠\n'.encode(),
    'unreadable-digits-devanagari': '२ १ १ २ ७ ० १ ०\n'.encode(),
    'unreadable-digits-full-width': '２ １ １ ２ ７ ０ １ ０\n'.encode(),
    'unreadable-digit-full-width': '2 1 1 2 ７ 0 1 0\n'.encode(),
    'unreadable-superscript-two-encoded': '² 1 1 2 7 0 1 0\n'.encode(),
    'unreadable-no-break-space': '2 1 1 2\u00a07 0 1 0\n'.encode(),
    'unreadable-em-space': '2 1 1 2\u20037 0 1 0\n'.encode(),
    'unreadable-next-line-instead-of-the-newline': '2 1 1 2 7 0 1 0\u0085'.encode(),
    'unreadable-line-separator-instead-of-the-newline': '2 1 1 2 7 0 1 0\u2028'.encode(),
    'unreadable-minus-sign-encoded': '2 1 1 2 \u22127 0 1 0\n'.encode(),
    'unreadable-every-byte': bytes(range(256)),
}

# ---- Cases that are generated ----------------------------------------------------------------------------------------


def line_of(numbers):
    return ' '.join(map(str, numbers)).encode() + b'\n'


def settings():
    """Every setting, mode and rank, twice."""
    draw = random.Random(SEED)
    for s in SETTINGS.values():
        for mode, v in itertools.product(MODES, ranks_of(s)):
            name, every = f'setting-{s.N1}-{s.N2}-mode-{mode}-layers-{v}', list(SINGLE.reports_in_range(s, mode, v))
            yield name + '-last', line_of(every[-1])
            within = every[1:-1] or every[:1]
            yield name + '-drawn', line_of(within[int(draw.random() * len(within))])


def bounds():
    for index, rows in BOUNDS.items():
        for beginning, last in re.findall(r'(\d+ \d+ \d+ \d+): (\d+)', rows):
            place = 'setting-{}-{}-mode-{}-layers-{}'.format(*beginning.split())
            report = Report(*map(int, beginning.split()), 0, 0, 0, 0)
            for value in sorted({int(last), int(last) + 1} - {0}):
                answer = 'accepted' if value == int(last) else f'refused-{NUMBER_OF[index]}'
                yield f'{answer}-{index}-{value}-{place}', line_of(report._replace(**{index: value}))


def not_settings():
    for pair in re.findall(r'\d+ \d+', NOT_SETTINGS):
        yield f'refused-1-setting-{pair.replace(" ", "-")}', f'{pair} 1 1 0 0 0 0\n'.encode()


def orders():
    """Every two faults at once; an index of 64 is out of range in every mode and rank."""
    for legal, faults in (((1, 1, 1, 2, 0, 0, 0, 1), {1: ('N2', 2), 2: ('mode', 3), 4: ('v', 3)}),
                          ((4, 2, 1, 2, 9, 7, 3, 1), {1: ('N2', 5), 2: ('mode', 0), 4: ('v', 9)})):
        faults |= {number: (index, 64) for index, number in NUMBER_OF.items()}
        for first, second in itertools.combinations(faults, 2):
            report = Report(*legal)._replace(**dict([faults[first], faults[second]]))
            yield f'refused-{first}-before-{second}-setting-{legal[0]}-{legal[1]}', line_of(report)
        report = Report(*legal)._replace(**dict(faults.values()))
        yield f'refused-1-before-all-others-setting-{legal[0]}-{legal[1]}', line_of(report)


def numbers():
    """Each number of the example in turn: as large as is readable, larger, and with zeros before it."""
    for place, name in enumerate(Report._fields):
        def instead(text):
            parts = EXAMPLE.split()
            parts[place] = text
            return b' '.join(parts) + b'\n'

        legal = EXAMPLE.split()[place]
        yield f'refused-{(1, 1, 2, 4, 6, 7, 8, 9)[place]}-65535-as-{name}', instead(b'65535')
        yield f'unreadable-65536-as-{name}', instead(b'65536')
        yield f'unreadable-65536-as-{name}-others-9', line_of(65536 if k == place else 9 for k in range(8))
        yield f'accepted-five-digits-of-{name}', instead(legal.zfill(5))
        yield f'unreadable-six-digits-of-{name}', instead(legal.zfill(6))
        yield f'unreadable-no-{name}', instead(b'')


def long_inputs():
    """Around 256 bytes, the most that a line may have, and far beyond."""
    for size in (49, 255, 256, 257, 258, 512, 10_000):
        yield f'unreadable-{size}-bytes-of-digits', b'0' * size
        yield f'unreadable-{size}-bytes-of-digits-and-newline', b'0' * (size - 1) + b'\n'
        yield f'unreadable-{size}-bytes-the-example-first', EXAMPLE.ljust(size, b'x')
        yield f'unreadable-{size}-bytes-the-example-first-then-newlines', EXAMPLE.ljust(size, b'\n')
        yield f'unreadable-{size}-bytes-the-example-last', EXAMPLE.rjust(size, b'0')
        yield f'unreadable-{size}-bytes-spaces-before-the-newline', EXAMPLE[:-1].ljust(size - 1) + b'\n'
    yield 'unreadable-10000-bytes-of-newlines', b'\n' * 10_000
    yield 'unreadable-10000-bytes-of-nul', bytes(10_000)
    yield 'unreadable-the-example-625-times', EXAMPLE * 625


BYTE_NAMES = {b'\0': 'nul', b'\t': 'tab', b'\n': 'newline', b'\v': 'vertical-tab', b'\r': 'return', b' ': 'space',
              b',': 'comma', b'-': 'minus', b'/': 'slash', b'0': 'zero', b':': 'colon', b'\xa0': 'byte-160',
              b'\x8a': 'byte-138', b'\xb1': 'byte-177'}
# What takes the place of a digit, a space and the newline.
DAMAGES = {'digit': [b'/', b':', b'-', b'\n', b'\xb1'],
           'space': [b'\t', b'\n', b'\0', b'0', b',', b'\xa0'],
           'newline': [b'\r', b'\0', b' ', b'0', b'\v', b'\x8a']}


def damages():
    for place in range(len(EXAMPLE) + 1):
        before, at, after = EXAMPLE[:place], EXAMPLE[place:place + 1], EXAMPLE[place + 1:]
        name = f'damage-place-{place:02}'
        for added in (b' ', b'0', b'\n'):
            yield f'{name}-{BYTE_NAMES[added]}-put-in', before + added + at + after
        if at:
            kind = {b' ': 'space', b'\n': 'newline'}.get(at, 'digit')
            yield f'{name}-{kind}-left-out', before + after
            for instead in DAMAGES[kind]:
                yield f'{name}-{kind}-replaced-by-{BYTE_NAMES[instead]}', before + instead + after


def inputs():
    """Every case: its name and what stands on standard input. An input that two parts give has the name of the first."""
    def parts():
        for name, (line, _) in WORKED.items():
            yield name, line.encode() + b'\n'
        for name, line in (ACCEPTED | REFUSED | UNREADABLE_LINES).items():
            yield name, line.encode('latin-1') + b'\n'
        yield from UNREADABLE_BYTES.items()
        for part in (settings, bounds, not_settings, orders, numbers, long_inputs, damages):
            yield from part()

    names = {}
    for name, data in parts():
        names.setdefault(data, name)
    return {name: data for data, name in names.items()}


def promise_of(name):
    """What the answer is by the case's name, or begins with if several lines come; nothing for a damage."""
    if name in WORKED:
        return WORKED[name][1].lstrip('\n')
    kind, number = name.split('-')[:2]
    return {'setting': 'ok ', 'accepted': 'ok ', 'refused': f'refused {number}\n', 'unreadable': 'unreadable\n',
            'damage': None}[kind]


KINDS = ('worked', 'setting', 'accepted', 'refused', 'unreadable', 'damage')


def kind_of(name):
    return name.split('-')[0]


def generated():
    """Every case: its input and its answer, by its name."""
    return {name: (data, answer_of(data).encode()) for name, data in inputs().items()}


# ---- The store -------------------------------------------------------------------------------------------------------

# At most 16 bytes that come 32 times or more, one after the other.
RUN = re.compile(rb'(.{1,16}?)\1{31,}', re.S)
# A part of an input as it is written: a Python string, and how many times it comes.
PART = r"('(?:(?!['\\])[ -~]|\\[tnr'\\]|\\x[0-9a-f]{2})*')(?: \* (\d+))?"
CASE = re.compile(rf'^(?P<name>\S+)  (?P<input>{PART}(?: \+ {PART})*)\n(?P<answer>(?:    .*\n)+)', re.M)


def quoted(data):
    # With a double quote before it, repr takes single ones whatever follows.
    return "'" + repr(b'"' + data)[3:]


def written(data):
    """An input as it is written."""
    run = RUN.search(data)
    if not run:
        return quoted(data)
    before, after = data[:run.start()], data[run.end():]
    parts = before and quoted(before), f'{quoted(run[1])} * {len(run[0]) // len(run[1])}', after and written(after)
    return ' + '.join(part for part in parts if part)


def files_of(cases):
    """The files that hold the cases, by their names."""
    files = dict.fromkeys((f'{kind}.txt' for kind in KINDS), '')
    for name, (data, answer) in cases.items():
        lines = answer.decode().splitlines(keepends=True)
        files[f'{kind_of(name)}.txt'] += f'{name}  {written(data)}\n' + ''.join('    ' + line for line in lines)
    return files


def cases_in(text):
    """The cases that stand in a file, as often as they do: the name, and the input and the answer, of each."""
    for case in CASE.finditer(text):
        parts = re.findall(PART, case['input'])
        data = b''.join(ast.literal_eval('b' + part) * int(times or 1) for part, times in parts)
        yield case['name'], (data, re.sub('^    ', '', case['answer'], flags=re.M).encode('latin-1'))


def write_store():
    STORE.mkdir(exist_ok=True)
    for path in STORE.iterdir():
        path.unlink()
    for name, text in files_of(generated()).items():
        (STORE / name).write_bytes(text.encode('ascii'))


# ---- Running the program ---------------------------------------------------------------------------------------------

# A run that takes more seconds than this hangs; after so many that hang, the others are not begun.
PATIENCE, MOST_HUNG = 15, 6

Came = collections.namedtuple('Came', 'output errors status')


def answered(data):
    """What comes where nothing fails."""
    return Came(answer_of(data).encode(), b'', 0)


class Program:
    """The program under test, each time started anew."""

    def __init__(self, command):
        self.command, self.hung = command, 0

    def start(self, source, *starter, to=subprocess.PIPE):
        return subprocess.Popen([*starter, *self.command], stdin=source, stdout=to, stderr=subprocess.PIPE)

    def finish(self, process):
        try:
            output, errors = process.communicate(timeout=PATIENCE)
            return Came(output or b'', errors, process.returncode)
        except subprocess.TimeoutExpired:
            self.hung += 1
            process.kill()
            return Came(*process.communicate(), 'hung')

    def from_file(self, path, mode='rb'):
        with open(path, mode) as source:
            return self.finish(self.start(source))

    def from_file_of(self, data):
        """Its standard input is a file that holds the data."""
        with tempfile.TemporaryFile() as source:
            source.write(data)
            source.seek(0)
            return self.finish(self.start(source))

    def from_command(self, *command):
        """Its standard input is what another command writes, for as long as it reads."""
        with subprocess.Popen(command, stdout=subprocess.PIPE) as writer:
            process = self.start(writer.stdout)
            writer.stdout.close()
            came = self.finish(process)
            writer.kill()
        return came

    def without_input(self):
        """Its standard input is closed."""
        return self.finish(self.start(None, 'bash', '-c', 'exec "$@" <&-', 'bash'))

    def from_broken(self, data):
        """Its standard input has the data, and then every read fails: the master of a terminal that has been closed."""
        master, slave = os.openpty()
        tty.setraw(slave)
        os.write(slave, data)
        os.close(slave)
        with open(master, 'rb', buffering=0) as source:
            return self.finish(self.start(source))

    def into_file(self, data, path, mode='wb'):
        """Its standard output is a file or a device."""
        with tempfile.TemporaryFile() as source, open(path, mode) as to:
            source.write(data)
            source.seek(0)
            return self.finish(self.start(source, to=to))

    def without_output(self, data):
        """Its standard output is closed."""
        with tempfile.TemporaryFile() as source:
            source.write(data)
            source.seek(0)
            return self.finish(self.start(source, 'bash', '-c', 'exec "$@" >&-', 'bash'))

    def from_pipe(self, *pieces, held_open=False):
        """Each piece is sent when all before it has been read; the pipe is then closed, or held open to the end."""
        reading, writing = os.pipe()
        process, end = self.start(reading), time.monotonic() + PATIENCE
        os.close(reading)
        with open(writing, 'wb', buffering=0) as pipe:
            try:
                for piece in pieces:
                    pipe.write(piece)
                    while unread(pipe) and process.poll() is None and time.monotonic() < end:
                        time.sleep(0.001)
            except BrokenPipeError:
                pass
            if held_open:
                return self.finish(process)
        return self.finish(process)


def unread(pipe):
    """How many bytes of a pipe are still to be read."""
    return struct.unpack('i', fcntl.ioctl(pipe, termios.FIONREAD, bytes(4)))[0]


# ---- Tests -----------------------------------------------------------------------------------------------------------

MOST_SHOWN = 10


def shown(data):
    return repr(data) if len(data) <= 320 else f'{data[:160]!r} .. {data[-80:]!r} ({len(data)} bytes)'


class Tests:
    """The tests that passed and failed, as they are counted; the first that failed are printed."""

    def __init__(self):
        self.passed, self.failed = 0, 0

    def check(self, name, fact, *lines):
        if fact:
            self.passed += 1
            return
        self.failed += 1
        if self.failed <= MOST_SHOWN:
            print(f'FAIL {name}', *lines, sep='\n    ')

    def check_run(self, name, data, expected, came):
        def said(come):
            return f'{shown(come.output)}, errors {shown(come.errors)}, status {come.status}'

        self.check(name, came == expected, f'input     {shown(data)}', f'expected  {said(expected)}',
                   f'came      {said(came)}')

    def report(self):
        if self.failed > MOST_SHOWN:
            print(f'and {self.failed - MOST_SHOWN} more')
        print(f'{self.passed} passed, {self.failed} failed')
        return 0 if self.passed and not self.failed else 1


def check_store(tests, files, stored):
    """The cases are the generator's, each once, in its files and its order, and of every kind there are enough."""
    cases, made, times = dict(stored), generated(), collections.Counter(name for name, _ in stored)
    texts = files_of(made)
    for what, names in (('missing', made.keys() - cases.keys()), ('stale', cases.keys() - made.keys()),
                        ('different', {name for name in made.keys() & cases.keys() if made[name] != cases[name]}),
                        ('stored twice', {name for name in times if times[name] > 1})):
        tests.check(f'no case is {what}', not names, *sorted(names)[:MOST_SHOWN])
    tests.check('tests/cases is as --write writes it', files == texts,
                *sorted(name for name in files.keys() | texts.keys() if files.get(name) != texts.get(name)))
    for name, (_, answer) in made.items():
        answer, promise = answer.decode(), promise_of(name)
        if promise:
            kept = answer == promise if promise.endswith('\n') else answer.startswith(promise)
            tests.check(f'{name} by the model', kept, f'promised  {promise!r}', f'the model {answer!r}')
    tests.check(f'at least {FEWEST} cases', len(cases) >= FEWEST, f'{len(cases)} cases')
    counted = collections.Counter(map(kind_of, cases))
    tests.check('every kind of case', counted.keys() == set(KINDS) and min(counted.values()) >= 10, str(counted))
    print(f'{sum(counted.values())} stored cases: ' + ', '.join(f'{kind} {counted[kind]}' for kind in KINDS))


def check_coverage(tests, cases):
    """What the stored answers speak of, read from the cases and not from their names."""
    accepted = {(report_of(data) or ())[:4] for data, answer in cases.values() if answer.startswith(b'ok ')}
    every = {(s.N1, s.N2, mode, v) for s in SETTINGS.values() for mode in MODES for v in ranks_of(s)}
    tests.check('a case accepts every setting, mode and rank', accepted == every, str(sorted(every ^ accepted)))
    refused = collections.Counter(answer for _, answer in cases.values() if answer.startswith(b'refused'))
    possible = {f'refused {number}\n'.encode() for number in (1, 2, 4, 6, 7, 8, 9)}
    tests.check('every refusal that room and masks of ones leave, and no other',
                refused.keys() == possible and min(refused.values()) >= 10, str(refused))
    unreadable = {len(data) for data, answer in cases.values() if answer == b'unreadable\n'}
    tests.check('lengths of unreadable inputs', unreadable >= {0, 1, 49, 255, 256, 257, 258, 10_000}, str(unreadable))
    readable = {len(data) for data, answer in cases.values() if answer != b'unreadable\n'}
    tests.check('lengths of readable inputs', {min(readable), max(readable)} == {16, 48}, str(readable))


def deliveries(program):
    """Ways in which input can arrive: a name, the input (of one without end, its first bytes), and how it is sent."""
    for place in range(1, len(EXAMPLE)):
        yield (f'the example in two writes, {place} bytes first', EXAMPLE,
               lambda place=place: program.from_pipe(EXAMPLE[:place], EXAMPLE[place:]))

    def by_bytes(data):
        return lambda: program.from_pipe(*(data[k:k + 1] for k in range(len(data))))

    longest, long = b'00002 00001 00001 00002 00007 00000 00001 00000\n', EXAMPLE.ljust(300, b'\n')
    yield 'the example byte by byte', EXAMPLE, by_bytes(EXAMPLE)
    yield 'the longest readable line byte by byte', longest, by_bytes(longest)
    yield '256 bytes byte by byte', long[:256], by_bytes(long[:256])
    yield '257 bytes byte by byte', long[:257], by_bytes(long[:257])
    yield 'nothing through a pipe', b'', lambda: program.from_pipe()
    yield 'nothing from a device', b'', lambda: program.from_file('/dev/null')
    for late in (b'\n', b'\0', b' ', b'x', EXAMPLE):
        yield (f'{late!r} after the example has been read', EXAMPLE + late,
               lambda late=late: program.from_pipe(EXAMPLE, late))
    yield 'the end instead of the newline', EXAMPLE[:-1], lambda: program.from_pipe(EXAMPLE[:-1])
    yield '256 bytes, then the end', long[:256], lambda: program.from_pipe(long[:256])
    yield '256 bytes, then another', long[:257], lambda: program.from_pipe(long[:256], long[256:257])
    yield '257 bytes and no end', long[:257], lambda: program.from_pipe(long[:257], held_open=True)
    yield '257 bytes in pieces and no end', long[:257], lambda: program.from_pipe(EXAMPLE, long[16:257], held_open=True)
    yield '300 bytes and no end', long, lambda: program.from_pipe(long, held_open=True)
    yield 'the example without end', EXAMPLE * 20, lambda: program.from_command('yes', EXAMPLE[:-1].decode())
    yield 'newlines without end', b'\n' * 300, lambda: program.from_command('yes', '')
    yield 'zero bytes without end', bytes(300), lambda: program.from_file('/dev/zero')


def faults(program):
    """Reads and writes that fail: a name, the input, what then comes, and how it is sent."""
    not_read = Came(b'unreadable\n', b'pmi: the input could not be read\n', 0)
    not_written = Came(b'', b'pmi: the answer could not be written\n', 0)
    yield 'standard input closed', b'', not_read, program.without_input
    yield 'standard input open for writing only', b'', not_read, lambda: program.from_file('/dev/null', 'wb')
    yield 'an error instead of any input', b'', not_read, lambda: program.from_broken(b'')
    yield 'an error after the example', EXAMPLE, not_read, lambda: program.from_broken(EXAMPLE)
    for data in (EXAMPLE, b'2 1 1 2 8 0 1 0\n', b''):
        word = answer_of(data).split()[0]
        yield f'{word} to a full device', data, not_written, lambda data=data: program.into_file(data, '/dev/full')
        yield (f'{word} where standard output is open for reading only', data, not_written,
               lambda data=data: program.into_file(data, '/dev/null', 'rb'))
        yield f'{word} where standard output is closed', data, not_written, lambda data=data: program.without_output(data)


RANDOM_INPUTS, FEWEST_OF_A_KIND = 300, 50
# What damages a random line: most often a digit or a space.
USUAL = b'0123456789' * 3 + b'     \n\n\r\t\0+-,.\x80\xb2\xff'


def draw_input(draw):
    """Bytes in the form, near it or far from it."""
    def below(count):
        return int(draw.random() * count)

    far = draw.random()
    if far < 0.05:
        return bytes(below(256) for _ in range(below(300)))
    if far < 0.10:
        return bytes(USUAL[below(len(USUAL))] for _ in range(below(60)))
    s = list(SETTINGS.values())[below(len(SETTINGS))]
    mode, v = 1 + below(2), 1 + below(len(ranks_of(s)))
    parts = [s.N1, s.N2, mode, v, *map(below, values(s, mode, v))]
    if draw.random() < 0.45:
        place = below(8)
        limit = values(s, mode, v)[place - 4] if place >= 4 else (17, 5, 3, 9)[place]
        parts[place] = (limit, limit + below(4), 256 + parts[place], 65535, 65536 + parts[place], below(100_000))[below(6)]
    line = bytearray(b' '.join(str(part).zfill(1 + below(5) * below(2)).encode() for part in parts) + b'\n')
    for _ in range(max(0, below(6) - 2)):
        place, byte = below(len(line) + 1), USUAL[below(len(USUAL))] if draw.random() < 0.8 else below(256)
        line[place:place + below(2)] = bytes([byte]) * below(3)
    return bytes(line)


def random_inputs():
    draw = random.Random(SEED)
    return [draw_input(draw) for _ in range(RANDOM_INPUTS)]


def main(arguments):
    if arguments in (['--help'], ['-h']):
        print(__doc__.strip())
        return 0
    if arguments == ['--write']:
        write_store()
        return 0
    if not arguments or arguments[0].startswith('-'):
        print('cases: it takes COMMAND.., --write or --help', file=sys.stderr)
        return 2
    tests, program = Tests(), Program(arguments)
    files = {path.name: path.read_bytes().decode('latin-1') for path in STORE.iterdir()} if STORE.is_dir() else {}
    stored = [case for name in sorted(files) for case in cases_in(files[name])]
    check_store(tests, files, stored)
    check_coverage(tests, dict(stored))
    runs = [(name, data, Came(answer, b'', 0), lambda data=data: program.from_file_of(data))
            for name, (data, answer) in stored]
    arrived = [(name, data, answered(data), send) for name, data, send in deliveries(program)]
    drawn = [(f'random input {k}', data, answered(data), lambda data=data: program.from_pipe(data))
             for k, data in enumerate(random_inputs())]
    words = collections.Counter(expected.output.split()[0].decode() for _, _, expected, _ in drawn)
    tests.check('random inputs of every kind', len(words) == 3 and min(words.values()) >= FEWEST_OF_A_KIND, str(words))
    failing = list(faults(program))
    print(f'{len(arrived)} deliveries, {len(failing)} failing reads and writes, {len(drawn)} random inputs: '
          + ', '.join(f'{word} {count}' for word, count in sorted(words.items())))
    runs += arrived + failing + drawn
    not_run = Came(b'', b'', f'not run, as {MOST_HUNG} hung')
    with concurrent.futures.ThreadPoolExecutor(2) as pool:
        answers = pool.map(lambda run: run[3]() if program.hung < MOST_HUNG else not_run, runs)
        for (name, data, expected, _), came in zip(runs, answers):
            tests.check_run(name, data, expected, came)
    return tests.report()


if __name__ == '__main__':
    sys.exit(main(sys.argv[1:]))
