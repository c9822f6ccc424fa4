"""What the tests of both codebooks share: precoder.py has the single-panel one, panels.py the multi-panel one.

Each has a model of its codebook (`Codebook`), which gives the answer to any request. Here stand the requests and the
answers, as batch.c reads and writes them, what is sent, and what is asked of the answers that come. Needs Python 3.9.

What is sent, for each of the two functions
-------------------------------------------
  reports    every report in range of every setting, mode and rank, into a buffer just long enough, with only its bit of
             the rank mask and the bits it reads of the beam mask ones, twice: with offsets of 0, and with the fixed list
             of its setting, in which no two ports have the same; and with a list drawn for it and masks of ones into
             buffers longer and shorter by one number, for weights also by two
  masks      every report in range, with only the bits it reads ones, and with each bit it reads the only zero
  ranks      every rank mask, for every setting, mode and rank
  bounds     each number of a report and all lengths on both sides of their bounds and at values that 8, 16 or 31 bits
             cut down to legal ones; numbers that are no setting
  offsets    for every setting, mode and rank: 383 and 384 in every place of the list, higher ones in three places, lists
             of all lengths, and bad lists beside a buffer too short and beside each refusal that comes before
  order      all pairs of faults for every setting, mode and rank, and all sets of two or more faults for every setting
  random     requests drawn from legal numbers, bounds and extremes, answered by the whole model
Where nothing is said of the offsets they are the fixed list of the setting, and 0 with numbers that are no setting.
Of a codebook with very many reports only a part is sent into longer and shorter buffers and with such masks; its
docstring says which.
On a refusal the record's other numbers, l and m of its beams among them, are 0 and the buffer is as lent. Bytes around
the buffer, the mask and the offsets, and the mask and the offsets, never change. No call uses more than 1,280 bytes of
stack.
That mistakes with offsets are seen is itself tested: stand-ins that make one each (MISTAKES) answer what is sent, and
must be found out at every setting.

What is asked of the answers, for every report
----------------------------------------------
These are computed from the numbers that came from the library, not from the model; of equal answers, from one. They are
asked of the answers with offsets of 0, with the fixed lists and with the drawn ones:
  phases     every two layers are exactly orthogonal, by the count rule of 01, at doubled places, which is itself held
             against complex sums
  offsets    every phase with a list is the one with offsets of 0 and the offset of its port, added in whole numbers,
             modulo a turn
  beams      with offsets of 0 every layer of phases begins with the entries of v_{l,m} for the (l,m) that the record names
             for it, a half-length one with the first half of them; places behind the layers' have (0,0). That this fails
             where beams are spoiled is itself tested
  weights    the cross-sum of every two layers, the power of every weight, the power of every port over the layers, and
             how far the powers of two ports differ are within the limits that are proved; the worst of each is the
             figure known for it
The largest part that a cross-sum has with any list of offsets is found from the differences of phases and the table: each
port adds what the worst of its 384 offsets makes of it. That list is sent too, and the part comes.
The limits on sums and powers do not tell a weight from its mirror image (x and y exchanged, or y negated); that is seen
by the comparison with the model only.
"""

import array
import cmath
import collections
import copy
import functools
import gc
import itertools
import math
import operator
import random
import struct
import subprocess
import sys
import tempfile
from pathlib import Path

import table
from table import RADIUS, TURN

SEED = 38_214

# ---- Entries ---------------------------------------------------------------------------------------------------------

# The bytes of a number: a phase, an offset or a part of a weight.
WIDTH = 2


def packed(letter, numbers):
    """The bytes of numbers, by struct's letter: H for phases and offsets, h for weights."""
    return struct.pack(f'<{len(numbers)}{letter}', *numbers)


def numbers_in(letter, data):
    return struct.unpack(f'<{len(data) // WIDTH}{letter}', data)


@functools.lru_cache(maxsize=None)
def phases_in(data):
    return numbers_in('H', data)


@functools.lru_cache(maxsize=None)
def entry(e):
    """The complex number of size 1 at e parts of a turn."""
    return cmath.exp(2j * cmath.pi * e / TURN)


def nearest(part):
    """The whole number nearest to 16384 times a part of an entry of size 1."""
    scaled = RADIUS * part
    whole = round(scaled)
    if abs(scaled - whole) > 0.499:
        raise ArithmeticError(f'{scaled} is near a tie')
    return whole


def read_off(entries, size):
    """The phases and the weights of complex entries of this size, each read off its entry."""
    phases, weights = [], []
    for w in entries:
        e = round(cmath.phase(w) * TURN / (2 * cmath.pi)) % TURN
        if abs(w - size * entry(e)) > 1e-9:
            raise ArithmeticError(f'{w} of size {size} is not a whole phase')
        phases.append(e)
        weights += [nearest(w.real / size), nearest(w.imag / size)]
    return packed('H', phases), packed('h', weights)


class TurnedBy(dict):
    """What an offset makes of an entry, by its phase: the phase (H) or the weight (h) that is read off the product."""

    def __init__(self, offset, letter):
        self.offset, self.letter = offset, letter

    def __missing__(self, e):
        phase, weight = read_off([entry(e) * entry(self.offset)], 1)
        self[e] = phase if self.letter == 'H' else weight
        return self[e]


turned_by = functools.lru_cache(maxsize=None)(TurnedBy)


# Of the last lists only: a drawn one is used a few times, one after the other.
@functools.lru_cache(maxsize=64)
def turned_by_list(offsets, letter):
    return [turned_by(offset, letter) for offset in offsets]


def turned(phases, offsets, function):
    """The answer of a function for layers of these phases when each port is turned by its offset."""
    by_port = itertools.cycle(turned_by_list(offsets, function.letter))
    return b''.join(map(operator.getitem, by_port, numbers_in('H', phases)))


@functools.lru_cache(maxsize=64)
def list_bytes(offsets):
    """A list of offsets as it stands in a request."""
    return struct.pack(f'<H{len(offsets)}H', len(offsets), *offsets)


@functools.lru_cache(maxsize=None)
def fixed_list(s):
    """The fixed list of a setting: an offset for each port, no two of them alike."""
    draw = random.Random(f'{SEED} {tuple(s)}')
    return tuple(sorted(range(TURN), key=lambda offset: draw.random())[:s.P])


# ---- A codebook and its two functions --------------------------------------------------------------------------------

# Its code in a request; a number of its buffer, by struct's letter; the numbers of an entry.
Function = collections.namedtuple('Function', 'name code letter parts')

# How many functions batch.c knows, and the most bytes of stack that a call may use.
CODES, MOST_STACK = 4, 1280


def functions(prefix, code):
    """The two functions of a codebook, phases and weights."""
    return Function(prefix + 'phases', code, 'H', 1), Function(prefix + 'weights', code + 1, 'h', 2)


def needed(function, s, v):
    """The numbers of an answer."""
    return function.parts * v * s.P


# The offsets with which reports are sent, by name.
KINDS = ZEROS, FIXED, DRAWN = 'offsets of 0', 'the fixed list', 'drawn lists'

# The worst part of a cross-sum; the lowest and the highest power of a weight, less 16384 squared; how far the powers of two
# ports differ at most, and the setting and the rank where they do.
Figures = collections.namedtuple('Figures', 'part lowest highest apart apart_at')

# What is known of all reports: how many there are, their phases, their layers, their pairs of layers, the phases that they
# have with offsets of 0; the figures for each kind of offsets; the worst part of a cross-sum over all lists of offsets.
Known = collections.namedtuple('Known', 'reports phases layers pairs reached figures part_of_any_list')


class Codebook:
    """The model of a codebook: each field below, and what follows from them.

    functions     phases and weights
    Report        the numbers of a report: those of the setting, mode, v, the indices
    settings      by its numbers, all of a setting: those numbers first, P among the others
    most_layers   the largest rank of any setting
    modes_of      of a setting: its modes
    ranks_of      of a setting: its ranks
    refusals      the number of the refusal of each index, by its name in Report, in their order
    values        of a setting, mode and rank: how many values each index has
    mask_bits     of a setting: how many bits the beam mask has
    bits_of       of a report in range: the bits of the beam mask that it reads
    beams_of      of a report in range: the bytes of the beams that the record names, made by places_of
    first_rows    of a setting and rank: by (l,m), the phases with which a layer of that beam begins
    answer_of     of a function and a report in range: the bytes of the answer with offsets of 0, layer after layer
    fixed_of      the same with the fixed list of its setting: what `turned` gives, kept, as it is used the most
    below         what is no setting is tried for all numbers below these
    extremes      and for these in every place
    near_misses   of a setting: numbers near it that are no setting
    drawn         how many random requests there are for phases; for weights half as many
    draw_numbers  of a generator and a setting: numbers that mostly are no setting
    listed        of a setting, mode and rank: how many reports are in range
    known         what is known of all reports
    among         of a setting, mode and rank: one of so many reports is sent into longer and shorter buffers, with drawn
                  lists, and with masks
    """

    def __init__(self, **fields):
        self.__dict__.update(fields)
        self.phases, self.weights = self.functions
        self.numbers = self.Report._fields.index('mode')
        self.order = (1, 2, 3, 4, 5, *dict.fromkeys(self.refusals.values()), 10, 13, 11)

    def report(self, s, mode, v, indices):
        return self.Report(*s[:self.numbers], mode, v, *indices)

    def setting_of(self, report):
        return self.settings[report[:self.numbers]]

    def name_of(self, s):
        return '({})'.format(','.join(map(str, s[:self.numbers])))

    def cases(self, s):
        """The modes and ranks of a setting."""
        return itertools.product(self.modes_of(s), self.ranks_of(s))

    def groups(self):
        return ((s, mode, v) for s in self.settings.values() for mode, v in self.cases(s))

    def reports_in_range(self, s, mode, v):
        fixed = [[x] for x in (*s[:self.numbers], mode, v)]
        return map(self.Report._make, itertools.product(*fixed, *map(range, self.values(s, mode, v))))

    def part_of_range(self, s, mode, v):
        """The places of the reports in range that are tried in more ways: one of each so many, another in turn."""
        among, count = self.among(s, mode, v), math.prod(self.values(s, mode, v))
        return {n for n in range(count) if n % among == n // among % among}

    def corner_reports(self, s, mode, v):
        """Two reports in range: all indices 0, and all at their last values."""
        counts = self.values(s, mode, v)
        return [self.report(s, mode, v, [0] * len(counts)), self.report(s, mode, v, [count - 1 for count in counts])]

    @functools.lru_cache(maxsize=None)
    def mask_bytes(self, s):
        """As many as the bits fill (01)."""
        return (self.mask_bits(s) + 7) // 8

    @functools.lru_cache(maxsize=None)
    def mask_of(self, s, bits):
        """The mask in which exactly these bits are ones: bit k is bit k mod 8 of byte k / 8 (01)."""
        return sum(1 << k for k in bits).to_bytes(self.mask_bytes(s), 'little')

    def ones(self, s):
        return b'\xff' * self.mask_bytes(s)

    def ones_but(self, s, k):
        mask = bytearray(self.ones(s))
        mask[k // 8] -= 1 << k % 8
        return bytes(mask)

    def answer(self, function, report, offsets):
        """The bytes of the answer to a report in range, layer after layer."""
        if not any(offsets):
            return self.answer_of(function, report)
        if offsets == fixed_list(self.setting_of(report)):
            return self.fixed_of(function, report)
        return turned(self.answer_of(self.phases, report), offsets, function)

    def unfit(self, s, offsets):
        return len(offsets) != s.P or max(offsets) >= TURN

    def refusal(self, function, report, ranks, mask, offsets, length):
        """The first refusal that applies, or 0."""
        earlier = self.refusal_of_report(report, ranks, mask)
        return earlier or self.refusal_of_loan(function, self.setting_of(report), report.v, offsets, length)

    def refusal_of_report(self, report, ranks, mask):
        """The first up to 10 that applies, or 0: these depend on neither offsets nor buffer."""
        s, mode, v = self.settings.get(report[:self.numbers]), report.mode, report.v
        if s is None:
            return 1
        if mode not in self.modes_of(s):
            return 2
        if len(mask) != self.mask_bytes(s):
            return 3
        if v not in self.ranks_of(s):
            return 4
        if not ranks >> (v - 1) & 1:
            return 5
        out_of_range = map(operator.ge, report[self.numbers + 2:], self.values(s, mode, v))
        number = next(itertools.compress(self.refusals.values(), out_of_range), None)
        if number is not None:
            return number
        for k in self.bits_of(report):
            if not mask[k // 8] >> (k % 8) & 1:
                return 10
        return 0

    def refusal_of_loan(self, function, s, v, offsets, length):
        """The first of 13 and 11 that applies, or 0: these depend on no index and no mask."""
        if self.unfit(s, offsets):
            return 13
        if length < needed(function, s, v):
            return 11
        return 0


# ---- Requests and answers, as batch.c reads and writes them ----------------------------------------------------------

LENGTH, TAIL, STACK = struct.Struct('<H'), struct.Struct('<HB'), struct.Struct(f'<{CODES}I')
# A record: refusal, ports, layers and scale, and then l and m of the beam in each of its places.
PLACES = 8
NUMBERS, BEAMS = struct.Struct('<4I'), struct.Struct(f'<{2 * PLACES}I')
RECORD_SIZE = NUMBERS.size + BEAMS.size
LENT = [bytes((fill + 37 * i) % 256 for i in range(256)) for fill in range(256)]
MOST_LINES = 20


def places_of(pairs):
    """The bytes of a record's beams: these pairs (l,m), and (0,0) in the places behind them."""
    numbers = [*itertools.chain(*pairs)]
    return BEAMS.pack(*numbers, *[0] * (2 * PLACES - len(numbers)))


@functools.lru_cache(maxsize=None)
def pairs_in(data):
    """The pairs (l,m) of all places in the bytes of a record's beams."""
    numbers = BEAMS.unpack(data)
    return tuple(zip(numbers[::2], numbers[1::2]))


def record_of(number, ports, layers, beams):
    """The bytes of a record, and the one behind it by which the guards, the mask and the offsets are as lent."""
    return NUMBERS.pack(number, ports, layers, layers * ports) + beams + b'\1'


@functools.lru_cache(maxsize=None)
def refused_with(number):
    return record_of(number, 0, 0, places_of([]))


def as_lent(fill, size, start=0):
    """The bytes of a lent buffer, from a place on."""
    return b'' if start == size else (LENT[fill] * (size // 256 + 1))[start:size]


def show_report(report):
    return ' '.join(f'{name}={x}' for name, x in zip(report._fields, report))


def show_request(function, report, ranks, mask, offsets, length, fill):
    shown = mask[:32].hex() + ('..' if len(mask) > 32 else '')
    listed = ' '.join(map(str, offsets[:33])) + (' ..' if len(offsets) > 33 else '')
    return (f'{function.name} of {show_report(report)}, rank mask {ranks:02x}, beam mask {shown} ({len(mask)} bytes), '
            f'offsets {listed} ({len(offsets)}), buffer {length} from {fill}')


def show_record(answer):
    beams = pairs_in(answer[NUMBERS.size:RECORD_SIZE])
    return ' '.join([*map(str, NUMBERS.unpack_from(answer)), *[f'({l},{m})' for l, m in beams]])


def show_difference(function, answer, came):
    if len(came) < len(answer):
        return 'no answer came'
    text = f'expected record {show_record(answer)}, came {show_record(came)}'
    if came[RECORD_SIZE] != 1:
        text += '; the mask, an offset or a guard changed'
    numbers = zip(*[numbers_in(function.letter, data[RECORD_SIZE + 1:]) for data in (answer, came)])
    different = [(place, x, y) for place, (x, y) in enumerate(numbers) if x != y]
    if different:
        text += '; expected number {} {}, came {}'.format(*different[0]) + f' ({len(different)} numbers differ)'
    return text


# What is lent with a report besides the mask: the offsets and a buffer of this length; the refusal number that a
# request with them is built for (0 for none); and the bytes of both in a request.
Loan = collections.namedtuple('Loan', 'offsets length number data')


def loan_of(offsets, length, number):
    return Loan(offsets, length, number, list_bytes(offsets) + LENGTH.pack(length))


class Tests:
    """The tests by name, the requests of each and the answers they must have."""

    def __init__(self, book):
        self.book, self.names, self.failures = book, [], {}
        self.head = struct.Struct(f'<B{len(book.Report._fields)}IBH')
        # By the code of a function: how many requests are to be accepted or to have which refusal.
        self.expected = [collections.Counter() for _ in range(CODES)]
        self.deepest = [0] * CODES
        self.stack = [self.begin(f'{function.name}: no call uses more than {MOST_STACK:,} bytes of stack')
                      for function in book.functions]
        self.harness = self.begin('the harness answers every request and ends')
        self.clear()

    def clear(self):
        self.requests, self.answers, self.came = bytearray(), bytearray(), b''
        self.test_of, self.request_at, self.answer_at = array.array('L'), array.array('L'), array.array('L')
        # Reports, by mode and rank.
        self.reports = []

    def begin(self, name):
        """Starts a test: what is added or checked from here on belongs to it."""
        self.names.append(name)
        self.test = len(self.names) - 1
        return self.test

    def check(self, fact, text):
        if not fact:
            self.fail(self.test, text)

    def fail(self, test, text):
        first, count = self.failures.get(test, (text, 0))
        self.failures[test] = first, count + 1

    def add(self, function, report, ranks, mask, offsets, length, fill, number, test=None):
        """A request, and the refusal number it is built for (0 for none), which must be the model's too."""
        test = self.test if test is None else test
        by_model = self.book.refusal(function, report, ranks, mask, offsets, length)
        if by_model != number:
            request = show_request(function, report, ranks, mask, offsets, length, fill)
            self.fail(test, f'{request}: built for {number}, {by_model} by the model')
        self.put(function, report, ranks, mask, [loan_of(offsets, length, number)], fill, test)

    def loan(self, function, s, v, offsets, length, number):
        """A loan for reports in range of a setting and rank; its number must be the model's too."""
        by_model = self.book.refusal_of_loan(function, s, v, offsets, length)
        if by_model != number:
            self.fail(self.test, f'offsets {offsets}, buffer {length}: built for {number}, {by_model} by the model')
        return loan_of(offsets, length, number)

    def add_each(self, function, report, ranks, mask, loans, fill):
        """A request with each of the loans, for a report that must have no refusal up to 10 by the model."""
        by_model = self.book.refusal_of_report(report, ranks, mask)
        if by_model:
            self.fail(self.test, f'{function.name} of {show_report(report)}: {by_model} by the model')
        self.put(function, report, ranks, mask, loans, fill, self.test)

    def put(self, function, report, ranks, mask, loans, fill, test):
        """A request with each of the loans, and its answer."""
        requests, answers, expected, record = self.requests, self.answers, self.expected[function.code], None
        head, last = self.head.pack(function.code, *report, ranks, len(mask)) + mask, bytes([fill])
        for offsets, length, number, data in loans:
            self.test_of.append(test)
            self.request_at.append(len(requests))
            self.answer_at.append(len(answers))
            expected[number] += 1
            requests += head + data + last
            if number:
                answers += refused_with(number) + as_lent(fill, WIDTH * length)
            else:
                record = record or record_of(0, len(offsets), report.v, self.book.beams_of(report))
                answer = self.book.answer(function, report, offsets)
                answers += record + answer + as_lent(fill, WIDTH * length, len(answer))

    def run(self, command):
        """Sends all requests since they were cleared to one process and compares all answers."""
        try:
            with tempfile.TemporaryFile() as requests:
                requests.write(self.requests)
                requests.seek(0)
                done = subprocess.run(command, stdin=requests, stdout=subprocess.PIPE, timeout=900)
            came, status = done.stdout, done.returncode
        except subprocess.TimeoutExpired as late:
            came, status = late.stdout or b'', 'none after 900 seconds'
        except OSError as error:
            came, status = b'', error
        whole = len(self.answers) + STACK.size
        if status != 0 or len(came) != whole:
            self.fail(self.harness, f'exit status {status}, {len(came)} bytes of {whole}')
        else:
            self.deepest = list(map(max, self.deepest, STACK.unpack_from(came, len(self.answers))))
        self.came = came
        if not came.startswith(self.answers):
            ends = self.answer_at[1:] + array.array('L', [len(self.answers)])
            for k, (start, end) in enumerate(zip(self.answer_at, ends)):
                if came[start:end] != self.answers[start:end]:
                    self.differs(k, came[start:end], bytes(self.answers[start:end]))

    def differs(self, k, came, answer):
        if self.test_of[k] in self.failures:
            self.fail(self.test_of[k], None)
            return
        function, *asked = self.decode(self.request_at[k])
        self.fail(self.test_of[k], f'{show_request(function, *asked)}: {show_difference(function, answer, came)}')

    def decode(self, at):
        """The request that starts at a place, as it was added."""
        code, *report, ranks, mask_length = self.head.unpack_from(self.requests, at)
        (function,) = (function for function in self.book.functions if function.code == code)
        at += self.head.size
        mask = bytes(self.requests[at:at + mask_length])
        at += mask_length
        (count,) = numbers_in('H', self.requests[at:at + WIDTH])
        after = at + WIDTH * (1 + count)
        offsets = numbers_in('H', self.requests[at + WIDTH:after])
        return (function, self.book.Report(*report), ranks, mask, offsets, *TAIL.unpack_from(self.requests, after))

    def report(self):
        for function, test in zip(self.book.functions, self.stack):
            deepest, expected = self.deepest[function.code], self.expected[function.code]
            if not 0 < deepest <= MOST_STACK:
                self.fail(test, f'{deepest} bytes')
            refused = ', '.join(f'{number}: {expected[number]}' for number in self.book.order)
            print(f'{function.name}: {sum(expected.values())} requests, {expected[0]} to be accepted, '
                  f'by refusal {refused}; {deepest} bytes of stack at most')
        for test, (first, count) in list(self.failures.items())[:MOST_LINES]:
            more = f' ({count} such)' if count > 1 else ''
            print(f'FAIL {self.names[test]}{more}: {first}')
        passed = len(self.names) - len(self.failures)
        print(f'{passed} passed, {len(self.failures)} failed')
        return 0 if passed and not self.failures else 1


# ---- The weights and the count rule, held against other computations -------------------------------------------------

def weights_of_phases(tests):
    tests.begin('weights of all phases by the model and in 60 digits')
    pairs, _ = table.expected()
    for e, pair in enumerate(pairs):
        w = entry(e)
        tests.check((nearest(w.real), nearest(w.imag)) == pair, f'phase {e}: 60 digits give {pair}')


HALF, THIRD, SIXTH = TURN // 2, TURN // 3, TURN // 6


@functools.lru_cache(maxsize=None)
def sum_to_zero(phases):
    """Whether entries of these phases have the sum zero, exactly, by the count rule of 01 at doubled places."""
    count = collections.Counter(phases)
    d = [count[e] - count[e + HALF] for e in range(HALF)]
    return all(d[i] == d[THIRD + i] and d[SIXTH + i] == -d[THIRD + i] for i in range(SIXTH))


def count_rule(tests):
    tests.begin('the count rule and complex sums')
    draw, by_rule, sums = random.Random(SEED), collections.Counter(), 4_000
    for _ in range(sums):
        # Opposites and thirds, which sum to zero; half of the time one phase is turned.
        phases = []
        for _ in range(1 + draw.randrange(8)):
            parts, e = draw.choice((2, 3)), draw.randrange(TURN)
            phases += [(e + k * TURN // parts) % TURN for k in range(parts)]
        if draw.random() < 0.5:
            phases[0] = (phases[0] + draw.randrange(TURN)) % TURN
        zero = sum_to_zero(tuple(phases))
        by_rule[zero] += 1
        total = abs(sum(map(entry, phases)))
        tests.check(zero == (total < 1e-9), f'{phases}: {zero} by the rule, the sum has the size {total}')
    tests.check(min(by_rule[True], by_rule[False]) > sums // 4, f'drawn too unevenly: {by_rule}')


# ---- Every report in range -------------------------------------------------------------------------------------------

def fill_for(length, n):
    """A first fill value by which the next numbers after so many are, as lent, none that a function answers."""
    # The upper byte of a phase is 0 or 1, that of a weight at most 64 or at least 192; that of the next number is 74 above
    # this one's.
    upper = 66 + n % 50
    return (upper - 37 * (WIDTH * (length + 1) - 1)) % 256


def draw_list(draw, s):
    return tuple([int(draw.random() * TURN) for _ in range(s.P)])


# All reports of a setting with this mode and rank; by the kind of offsets, what is sent of them: the place of the
# report in `all`, its offsets, and the place of its answer.
Reports = collections.namedtuple('Reports', 'mode v all sent')


def reports_of(tests, function, s):
    """All reports of a setting; how many they are, and how many numbers answer them."""
    book, all_reports, all_numbers = tests.book, 0, 0
    draw = random.Random(f'{SEED} {function.name} {book.name_of(s)}')
    zeros, fixed, ones = (0,) * s.P, fixed_list(s), book.ones(s)
    for mode, v in book.cases(s):
        tests.begin(f'{function.name}: reports of {book.name_of(s)} mode {mode} v={v}')
        length, listed, reports = needed(function, s, v), book.listed(s, mode, v), [*book.reports_in_range(s, mode, v)]
        part, sent = book.part_of_range(s, mode, v), {kind: [] for kind in KINDS}

        def around(offsets):
            """Loans of buffers longer and shorter than needed, a longer one first."""
            return [tests.loan(function, s, v, offsets, buffer, number) for more in range(1, function.parts + 1)
                    for buffer, number in ((length + more, 0), (length - more, 11))]

        exact = [tests.loan(function, s, v, offsets, length, 0) for offsets in (zeros, fixed)]
        for n, report in enumerate(reports):
            # No number is lent alike in the longer buffers and in the one just long enough: neither a number too many
            # nor a number too few goes unseen.
            fill = fill_for(length, n)
            if n in part:
                drawn = draw_list(draw, s)
                sent[DRAWN].append((n, drawn, len(tests.answers)))
                tests.add_each(function, report, 255, ones, around(drawn), fill)
            mask = book.mask_of(s, book.bits_of(report))
            tests.add_each(function, report, 1 << (v - 1), mask, exact, (fill + 1 + n % 255) % 256)
            sent[ZEROS].append((n, zeros, tests.answer_at[-2]))
            sent[FIXED].append((n, fixed, tests.answer_at[-1]))
        tests.reports.append(Reports(mode, v, reports, sent))
        tests.check(len(reports) == listed, f'{len(reports)} reports in range, {listed} are listed')
        all_reports, all_numbers = all_reports + len(reports), all_numbers + len(reports) * length
    return all_reports, all_numbers


def every_report(tests, command):
    """Every report, setting by setting, and what is asked of the answers."""
    book, asked, totals = tests.book, Asked(tests), {function: (0, 0) for function in tests.book.functions}
    for function, s in itertools.product(book.functions, book.settings.values()):
        totals[function] = tuple(map(operator.add, totals[function], reports_of(tests, function, s)))
        tests.run(command)
        asked.of(function, s)
        tests.clear()
    for function, (reports, numbers) in totals.items():
        tests.begin(f'{function.name}: totals of reports and numbers')
        tests.check((reports, numbers) == (book.known.reports, function.parts * book.known.phases),
                    f'{reports} reports, {numbers} numbers')
        print(f'{function.name}: {reports} reports in range, {numbers} numbers')
    asked.figures()
    asked.worst_list(command)


# ---- What is asked of the answers ------------------------------------------------------------------------------------

def layers_in(answer, v):
    """The bytes of each layer."""
    size = len(answer) // v
    return [answer[k:k + size] for k in range(0, v * size, size)]


def are_named(rows, pairs, layers):
    """Whether each layer begins with the phases that `rows` has for its pair, and places behind the layers' have (0,0)."""
    begins = [pair in rows and layer.startswith(rows[pair]) for pair, layer in zip(pairs, layers)]
    return all(begins) and not any(map(any, pairs[len(layers):]))


def spoiled_beams(tests):
    """The beams of corner reports, by the model, with a wrong one for the last layer: left out, another, not reduced."""
    book = tests.book
    tests.begin('spoiled beams are seen')
    for s, mode, v in book.groups():
        for report in book.corner_reports(s, mode, v):
            rows, layers = book.first_rows(s, v), layers_in(book.answer_of(book.phases, report), v)
            *before, last = pairs_in(book.beams_of(report))[:v]
            l, m = last
            for pair in {last, (0, 0), (l + 1, m), (l + s.N1 * s.O1, m), (l, m + s.N2 * s.O2)}:
                seen = not are_named(rows, pairs_in(places_of([*before, pair])), layers)
                tests.check(seen == (pair != last), f'{show_report(report)}: {pair} for {last}')
            if v < PLACES:
                seen = not are_named(rows, pairs_in(places_of([*before, last, (1, 0)])), layers)
                tests.check(seen, f'{show_report(report)}: a beam too many')


def are_added(with_zeros, offsets, answer):
    """Whether the phases of an answer are those with offsets of 0, each with the offset of its port added."""
    sums = map(operator.add, numbers_in('H', with_zeros), itertools.cycle(offsets))
    return tuple([x % TURN for x in sums]) == numbers_in('H', answer)


@functools.lru_cache(maxsize=None)
def differences(first, second):
    """Port by port, how far the phases of the second layer are from those of the first."""
    return tuple([(y - x) % TURN for x, y in zip(phases_in(first), phases_in(second))])


@functools.lru_cache(maxsize=None)
def orthogonal(first, second):
    """Whether two layers of phases are so, exactly."""
    return sum_to_zero(differences(first, second))


@functools.lru_cache(maxsize=None)
def products(difference):
    """By the phase of the first of two weights with this difference, the parts of conjugate(first) times second."""
    pairs, _ = table.expected()
    return [(a * c + b * d, a * d - b * c)
            for (a, b), (c, d) in zip(pairs, pairs[difference:] + pairs[:difference])]


# The ends of a cross-sum: its part, and whether the least or the largest.
ENDS = [(part, end) for part in (0, 1) for end in (min, max)]


@functools.lru_cache(maxsize=None)
def ends_of(difference):
    """What a port with this difference adds to each end of a cross-sum, at the worst of its offsets."""
    return [end([product[part] for product in products(difference)]) for part, end in ENDS]


@functools.lru_cache(maxsize=None)
def largest_of_any_list(between):
    """The largest part, without its sign, that the cross-sum of layers with these differences has with any offsets."""
    return max(map(abs, map(sum, zip(*map(ends_of, between)))))


def list_for(first, second, largest):
    """Offsets with which a part of the cross-sum of two layers has this size, which it has with no larger ones."""
    between = differences(first, second)
    for k, (part, _) in enumerate(ENDS):
        if abs(sum(ends_of(difference)[k] for difference in between)) == largest:
            phases = [[product[part] for product in products(d)].index(ends_of(d)[k]) for d in between]
            return tuple([(x - e) % TURN for x, e in zip(phases, phases_in(first))])
    raise ArithmeticError(f'no offsets give {largest}')


Layer = collections.namedtuple('Layer', 'weights conjugates powers')


@functools.lru_cache(maxsize=None)
def layer_of(data):
    """The weights of a layer, and the power of each less 16384 squared; the powers as bytes, which are soon hashed."""
    numbers = numbers_in('h', data)
    pairs = [*zip(numbers[::2], numbers[1::2])]
    weights = [complex(x, y) for x, y in pairs]
    powers = array.array('q', [x * x + y * y - RADIUS ** 2 for x, y in pairs])
    return Layer(weights, [w.conjugate() for w in weights], powers.tobytes())


@functools.lru_cache(maxsize=None)
def largest_part(first, second):
    """The larger part, without its sign, of the sum over the ports of conjugate(first) times second."""
    # Exact: all parts are whole numbers far below 2 to the power of 53.
    total = sum(map(operator.mul, layer_of(first).conjugates, layer_of(second).weights))
    return int(max(abs(total.real), abs(total.imag)))


Powers = collections.namedtuple('Powers', 'lowest highest lowest_port highest_port')


@functools.lru_cache(maxsize=None)
def powers_of(by_layer):
    """The extremes among the powers of weights, and among the sums over the layers for each port."""
    by_layer = [array.array('q', powers) for powers in by_layer]
    by_port = [sum(port) for port in zip(*by_layer)]
    return Powers(min(map(min, by_layer)), max(map(max, by_layer)), min(by_port), max(by_port))


class Worst:
    """The largest value met (or the least, if `worse` is min), and the first report that has it."""

    def __init__(self, worse=max):
        self.worse, self.value, self.report = worse, None, None

    def meet(self, value, report):
        """Whether it is worse than all before."""
        worse = self.report is None or self.worse(self.value, value) != self.value
        if worse:
            self.value, self.report = value, report
        return worse

    def figure(self, tests, name, known, limit):
        """Tests that the worst value of all reports is the known one, and shows it beside the proved limit."""
        found = f'{self.value:,} at {show_report(self.report)}'
        tests.begin(name)
        tests.check(self.value == known, f'{found}; known is {known:,}')
        print(f'{name}: {found}; the proved limit is {limit:,}')


# Proved for every report and list: each part of a cross-sum is at most PART P in size; a power less 16384 squared is from
# LOWEST to HIGHEST, so within PART.
PART, LOWEST, HIGHEST = 32_768, -17_304, 15_121
APART = HIGHEST - LOWEST

# A setting, mode and rank, and the kind of the offsets.
Group = collections.namedtuple('Group', 's mode v kind')

# What came for a report: the bytes of the record's beams and of each layer.
Answer = collections.namedtuple('Answer', 'report beams layers')


def answer_in(data, report):
    """The answer in what came from the beams on."""
    return Answer(report, data[:BEAMS.size], layers_in(data[BEAMS.size + 1:], report.v))


class Asked:
    """What is asked of the answers as they came, setting by setting, and the worst of all."""

    def __init__(self, tests):
        self.tests, self.layers, self.pairs = tests, 0, collections.Counter()
        self.reached = {kind: set() for kind in KINDS}
        self.worst = {kind: Figures(Worst(), Worst(min), Worst(), Worst(), None) for kind in KINDS}
        self.any_list, self.any_list_layers = Worst(), None

    def of(self, function, s):
        """Of the answers to all reports of a setting."""
        for mode, v, reports, sent in self.tests.reports:
            size, with_zeros = WIDTH * needed(function, s, v), None
            for kind in KINDS:
                group, first_with = Group(s, mode, v, kind), {}
                came = [self.came(at, size) for _, _, at in sent[kind]]
                # Equal ones are asked once.
                for (n, _, _), data in zip(sent[kind], came):
                    first_with.setdefault(data, n)
                answers = {data: answer_in(data, reports[n]) for data, n in first_with.items()}
                if function is self.tests.book.phases:
                    layers = [answers[data].layers for data in came]
                    for layer in {*itertools.chain.from_iterable(layers)}:
                        self.reached[kind].update(phases_in(layer))
                    self.orthogonality(group, answers.values())
                    if kind == ZEROS:
                        with_zeros = layers
                        self.beams(group, answers.values())
                        self.lists(group, answers.values())
                        self.layers += v * len(came)
                    else:
                        self.offsets(group, reports, sent[kind], with_zeros, layers)
                else:
                    self.cross_sums(group, answers.values())
                    self.powers(group, answers.values())
                    self.pairs[kind] += math.comb(v, 2) * len(came)
        for cache in (phases_in, differences, orthogonal, layer_of, largest_part):
            cache.cache_clear()

    def came(self, at, size):
        """The bytes that came from the beams on, for an answer of so many bytes at a place."""
        # What did not come counts as bytes that no test allows: beams of no setting, equal phases of no report, weights
        # far too large.
        return self.tests.came[at + NUMBERS.size:at + RECORD_SIZE + 1 + size].ljust(BEAMS.size + 1 + size, b'\x7f')

    def begin(self, what, group):
        name = self.tests.book.name_of(group.s)
        self.tests.begin(f'{what.format(name)} mode {group.mode} v={group.v}, {group.kind}')

    def fail(self, report, text):
        self.tests.fail(self.tests.test, f'{show_report(report)}: {text}')

    def orthogonality(self, group, answers):
        if group.v > 1:
            self.begin('phases, exactly orthogonal: layers of {}', group)
            for report, _, layers in answers:
                if not all(itertools.starmap(orthogonal, itertools.combinations(layers, 2))):
                    self.fail(report, 'two layers are not orthogonal')

    def beams(self, group, answers):
        self.begin('phases: the beams of {} that records name', group)
        rows = self.tests.book.first_rows(group.s, group.v)
        for report, beams, layers in answers:
            if not are_named(rows, pairs_in(beams), layers):
                self.fail(report, 'a layer has not the beam that the record names')

    def lists(self, group, answers):
        """The worst of all lists of offsets, for every two layers."""
        self.begin('phases: cross-sums of {} with any list', group)
        for report, _, layers in answers:
            for first, second in itertools.combinations(layers, 2):
                largest = largest_of_any_list(differences(first, second))
                if largest > PART * group.s.P:
                    self.fail(report, f'a part is {largest:,} with some list')
                if self.any_list.meet(largest, report):
                    self.any_list_layers = first, second

    def offsets(self, group, reports, sent, with_zeros, came):
        self.begin('phases: offsets added to those of {}', group)
        first_with = {}
        for (n, offsets, _), layers in zip(sent, came):
            for before, layer in zip(with_zeros[n], layers):
                first_with.setdefault((before, offsets, layer), n)
        for (before, offsets, layer), n in first_with.items():
            if not are_added(before, offsets, layer):
                self.fail(reports[n], f'with {offsets} a layer is {phases_in(layer)}, without {phases_in(before)}')

    def cross_sums(self, group, answers):
        if group.v > 1:
            self.begin('weights: cross-sums of {}', group)
            for report, _, layers in answers:
                largest = max(itertools.starmap(largest_part, itertools.combinations(layers, 2)))
                if largest > PART * group.s.P:
                    self.fail(report, f'a part is {largest:,}')
                self.worst[group.kind].part.meet(largest, report)

    def powers(self, group, answers):
        self.begin('weights: powers of {}', group)
        v, worst, first_with = group.v, self.worst[group.kind], {}
        for report, _, layers in answers:
            first_with.setdefault(tuple([layer_of(layer).powers for layer in layers]), report)
        for by_layer, report in first_with.items():
            found = powers_of(by_layer)
            difference = found.highest_port - found.lowest_port
            if not (-PART <= LOWEST <= found.lowest and found.highest <= HIGHEST <= PART):
                self.fail(report, f'powers from {found.lowest:,} to {found.highest:,}')
            if not (v * LOWEST <= found.lowest_port and found.highest_port <= v * HIGHEST):
                self.fail(report, f'powers of ports from {found.lowest_port:,} to {found.highest_port:,}')
            if difference > v * APART:
                self.fail(report, f'powers of ports differ by {difference:,}')
            worst.lowest.meet(found.lowest, report)
            worst.highest.meet(found.highest, report)
            worst.apart.meet(difference, report)

    def figures(self):
        """What is known of all reports."""
        tests, book, known = self.tests, self.tests.book, self.tests.book.known
        tests.begin('phases: those of all reports are the ones known')
        tests.check(self.reached[ZEROS] == known.reached, f'they are {sorted(self.reached[ZEROS])}')
        with_lists = self.reached[FIXED] | self.reached[DRAWN]
        tests.check(with_lists == {*range(TURN)}, f'with lists there are only {sorted(with_lists)}')
        print(f'phases: reports have {len(self.reached[ZEROS])} of {TURN} with offsets of 0, and all with lists')
        tests.begin('phases: layers whose beams records name')
        tests.check(self.layers == known.layers, f'{self.layers} layers, known are {known.layers}')
        print(f'phases: {self.layers} layers, held against the beams that records name')
        for kind, worst in self.worst.items():
            of_kind = known.figures[kind]
            print(f'weights, {kind}: {self.pairs[kind]} pairs of layers')
            worst.part.figure(tests, f'weights, {kind}: largest part of a cross-sum', of_kind.part,
                              PART * book.setting_of(worst.part.report).P)
            if kind != DRAWN:
                tests.check(self.pairs[kind] == known.pairs, f'{self.pairs[kind]} pairs of layers, known are {known.pairs}')
            tests.check(worst.part.value <= known.part_of_any_list, 'it is larger than with any list')
            worst.lowest.figure(tests, f'weights, {kind}: lowest power of a weight, less 16384 squared', of_kind.lowest,
                                LOWEST)
            worst.highest.figure(tests, f'weights, {kind}: highest power of a weight, less 16384 squared',
                                 of_kind.highest, HIGHEST)
            at = worst.apart.report
            worst.apart.figure(tests, f"weights, {kind}: largest difference between two ports' powers", of_kind.apart,
                               at.v * APART)
            tests.check((at[:book.numbers], at.v) == of_kind.apart_at, f'known is {of_kind.apart_at}')
        self.any_list.figure(tests, 'weights: largest part of a cross-sum with any list of offsets',
                             known.part_of_any_list, PART * book.setting_of(self.any_list.report).P)

    def worst_list(self, command):
        """The list that makes the largest part of all, sent to the library."""
        tests, book, report = self.tests, self.tests.book, self.any_list.report
        tests.begin('weights: the worst list of offsets gives the largest part')
        s, offsets = book.setting_of(report), list_for(*self.any_list_layers, self.any_list.value)
        tests.add(book.weights, report, 255, book.ones(s), offsets, needed(book.weights, s, report.v), 0, 0)
        tests.run(command)
        layers = answer_in(self.came(0, WIDTH * needed(book.weights, s, report.v)), report).layers
        largest = max(itertools.starmap(largest_part, itertools.combinations(layers, 2)))
        tests.check(largest == self.any_list.value, f'{show_report(report)} with {offsets}: {largest:,}')
        print(f'weights: {largest:,} comes with the offsets {" ".join(map(str, offsets))}')
        tests.clear()


# ---- Masks -----------------------------------------------------------------------------------------------------------

def beam_masks(tests, function):
    book, bits_read = tests.book, 0
    for s, mode, v in book.groups():
        tests.begin(f'{function.name}: beam masks of {book.name_of(s)} mode {mode} v={v}')
        length, offsets, part = needed(function, s, v), fixed_list(s), book.part_of_range(s, mode, v)
        all_but = [book.ones_but(s, k) for k in range(8 * book.mask_bytes(s))]
        for n, report in enumerate(book.reports_in_range(s, mode, v)):
            if n in part:
                bits = book.bits_of(report)
                tests.add(function, report, 255, book.mask_of(s, bits), offsets, length, n % 256, 0)
                for k in bits:
                    tests.add(function, report, 255, all_but[k], offsets, length, (n + k) % 256, 10)
                bits_read += len(bits)
    print(f'{function.name}: {bits_read} mask bits read, each barred once')


def rank_masks(tests, function):
    book = tests.book
    for s in book.settings.values():
        for v in book.ranks_of(s):
            tests.begin(f'{function.name}: rank masks of {book.name_of(s)} v={v}')
            for mode in book.modes_of(s):
                report = book.corner_reports(s, mode, v)[1]
                for ranks in range(256):
                    number = 0 if ranks >> (v - 1) & 1 else 5
                    length = needed(function, s, v)
                    tests.add(function, report, ranks, book.ones(s), fixed_list(s), length, ranks, number)


# ---- Both sides of every bound ---------------------------------------------------------------------------------------

@functools.lru_cache(maxsize=None)
def near(count):
    """Numbers on both sides of a bound, and numbers that some bits, up to 31, or a doubling cut down to legal ones."""
    last = count - 1
    numbers = {0, last, count, count + 1, 2 * count - 1, 2 * count, 2 ** 32 - 1, 2 ** 32 - count, 2 ** 31 - 1}
    for bits in (5, 6, 8, 15, 16, 24, 30, 31):
        numbers |= {2 ** bits, 2 ** bits + last, 2 ** bits + last // 2, 2 ** bits - 1}
    return sorted(numbers)


def changed(numbers, change):
    """The numbers with one or more of them changed, in all ways."""
    ways = itertools.product(*[(x, change(x)) for x in numbers])
    return [way for way in ways if way != tuple(numbers)]


def not_settings(tests, function):
    book = tests.book

    def refused(numbers, lengths, ports, fill):
        for mode, v, length in itertools.product((1, 2), (1, 4), lengths):
            report = book.Report(*numbers, mode, v, *[0] * len(book.refusals))
            tests.add(function, report, 255, b'\xff' * length, (0,) * ports, 256, fill, 1)

    most = ' x '.join(str(below - 1) for below in book.below)
    tests.begin(f'{function.name}: numbers up to {most} that are not settings')
    small = [numbers for numbers in itertools.product(*map(range, book.below)) if numbers not in book.settings]
    tests.check(len(small) == math.prod(book.below) - len(book.settings), f'{len(small)} of them')
    for numbers in small:
        N1, N2 = numbers[-2:]
        # The second length is what the mask of such a setting would need, with O1 = 4 and O2 = 4 or 1; and there are as
        # many offsets as it would have ports.
        lengths = {1, 2 * N1 * N2 if N2 > 1 else (N1 + 1) // 2}
        refused(numbers, lengths, 2 * math.prod(numbers), (N1 + 34 * N2) % 256)

    tests.begin(f'{function.name}: numbers that become settings, or their ports, when cut down')
    for s in book.settings.values():
        for bits in (8, 16, 24, 31):
            for numbers in changed(s[:book.numbers], lambda x: x + 2 ** bits):
                refused(numbers, {book.mask_bytes(s)}, s.P, bits)
        for numbers in changed(s[:book.numbers], lambda x: 2 ** 32 - x):
            refused(numbers, {book.mask_bytes(s)}, s.P, s.P)

    tests.begin(f'{function.name}: settings of 32-bit extremes')
    for numbers in itertools.product(book.extremes, repeat=book.numbers):
        if numbers not in book.settings:
            refused(numbers, {0, 1, 2, 8, 32}, sum(numbers) % 33, sum(numbers) % 256)


def modes(tests, function):
    book = tests.book
    for s in book.settings.values():
        tests.begin(f'{function.name}: modes of {book.name_of(s)}')
        for v in book.ranks_of(s):
            for mode in sorted({1, *near(3)}):
                report = book.corner_reports(s, 1, v)[0]._replace(mode=mode)
                number = 0 if mode in book.modes_of(s) else 2
                length = needed(function, s, v)
                tests.add(function, report, 255, book.ones(s), fixed_list(s), length, mode % 256, number)


def mask_lengths(tests, function):
    book = tests.book
    for s in book.settings.values():
        tests.begin(f'{function.name}: beam mask lengths of {book.name_of(s)}')
        size = book.mask_bytes(s)
        lengths = {0, 1, size - 1, size, size + 1, 2 * size, 8 * size, 256 + size, 31, 32, 33, 64, 255, 256, 65535}
        for mode, v in book.cases(s):
            enough = needed(function, s, v)
            for length in sorted(lengths if v == 1 else lengths - {65535}):
                report = book.corner_reports(s, mode, v)[1]
                number = 0 if length == size else 3
                tests.add(function, report, 255, b'\xff' * length, fixed_list(s), enough, length % 256, number)


def rank_bounds(tests, function):
    book = tests.book
    for s in book.settings.values():
        tests.begin(f'{function.name}: ranks of {book.name_of(s)}')
        most = book.most_layers
        numbers = {*near(most + 1), *range(12), s.P - 1, s.P, s.P + 1, 33, 40, 65, 257, 264, 256 + s.P, 65536 + s.P}
        for mode, v in itertools.product(book.modes_of(s), sorted(numbers)):
            legal = v in book.ranks_of(s)
            for ranks in (0, 255):
                report, number = book.corner_reports(s, mode, 1)[0]._replace(v=v), 4 if not legal else 0 if ranks else 5
                enough = needed(function, s, most)
                tests.add(function, report, ranks, book.ones(s), fixed_list(s), enough, v % 256, number)


def index_bounds(tests, function):
    book = tests.book
    for s in book.settings.values():
        for place, (name, refused) in enumerate(book.refusals.items()):
            tests.begin(f'{function.name}: {name} of {book.name_of(s)}')
            for mode, v in book.cases(s):
                count, enough = book.values(s, mode, v)[place], needed(function, s, v)
                for report, index in itertools.product(book.corner_reports(s, mode, v), near(count)):
                    report, number = report._replace(**{name: index}), 0 if index < count else refused
                    tests.add(function, report, 255, book.ones(s), fixed_list(s), enough, index % 256, number)


def buffer_lengths(tests, function):
    book = tests.book
    for s in book.settings.values():
        tests.begin(f'{function.name}: buffer lengths of {book.name_of(s)}')
        for mode, v in book.cases(s):
            enough = needed(function, s, v)
            lengths = {0, 1, s.P - 1, s.P, v * s.P - 1, v * s.P, v * s.P + 1, enough - s.P, enough - 2, enough - 1,
                       enough, enough + 1, enough + 2, 2 * enough, 255, 256, 257, 255 + enough, 256 + enough,
                       511 + enough}
            for length in sorted(lengths | ({65535} if v == 1 else set())):
                for report in book.corner_reports(s, mode, v):
                    number = 0 if length >= enough else 11
                    tests.add(function, report, 255, book.ones(s), fixed_list(s), length, (length + v) % 256, number)


# ---- Offsets ---------------------------------------------------------------------------------------------------------

def with_offset(offsets, place, offset):
    """The list with another number in a place."""
    return (*offsets[:place], offset, *offsets[place + 1:])


# Above a turn; 8, 9 or 15 bits of them, or what is left without a turn or without 65,536, are legal.
HIGH = (385, 511, 512, 639, 640, 767, 768, 1024, 32767, 32768, 65152, 65153, 65535)


def lists_of(s):
    """Lists of a setting's offsets, those that are fit and those that are not."""
    fixed, zeros, P = fixed_list(s), (0,) * s.P, s.P
    yield from (zeros, fixed, fixed[::-1], (TURN - 1,) * P, (TURN,) * P, (65535,) * P)
    yield from (with_offset(fixed, place, offset) for place in range(P) for offset in (0, TURN - 1, TURN))
    yield from (with_offset(fixed, place, offset) for place in (0, P // 2, P - 1) for offset in HIGH)
    yield from (fixed[:count] for count in {0, 1, P // 2, P - 1})
    yield from (zeros + (0,), fixed + (0,), fixed + (TURN,), fixed * 2, zeros * 8, zeros * 16, fixed + (0,) * 256)


def offset_requests(book, function, s):
    """What is sent of a setting for its offsets: of which test it is, the request, and its number."""
    ones, earlier = book.ones(s), book.order[:book.order.index(13)]
    bad = [fixed_list(s)[:-1], fixed_list(s) + (0,), (), with_offset(fixed_list(s), s.P - 1, TURN)]
    for mode, v in book.cases(s):
        enough = needed(function, s, v)
        for variant, report in enumerate(book.corner_reports(s, mode, v)):
            first_layer = numbers_in('H', book.answer_of(book.phases, report))[:s.P]
            around_a_turn = [tuple([(TURN + more - e) % TURN for e in first_layer]) for more in (-1, 0, 1)]
            for offsets in (*lists_of(s), *around_a_turn):
                number = 0 if len(offsets) == s.P and all(offset < TURN for offset in offsets) else 13
                yield 'lists', (report, 255, ones, offsets, enough), number
            for offsets, length in itertools.product(bad, (0, enough - 1, enough + 1)):
                yield 'bad lists and buffers', (report, 255, ones, offsets, length), 13
            for offsets, number in itertools.product(bad, earlier):
                report_then, ranks, mask, _, length = with_faults(book, function, report, {number}, 7 * v + variant)
                yield 'bad lists after other faults', (report_then, ranks, mask, offsets, length), number
        if v == 1:
            yield 'lists', (report, 255, ones, (0,) * 65535, enough), 13


def offset_lists(tests, function):
    for s in tests.book.settings.values():
        named = {}
        for k, (what, request, number) in enumerate(offset_requests(tests.book, function, s)):
            if what not in named:
                named[what] = tests.begin(f'{function.name}: {what} of {tests.book.name_of(s)}')
            tests.add(function, *request, k % 256, number, named[what])


def altered(book, **methods):
    """A stand-in for the codebook that has other methods in place of these."""
    other = copy.copy(book)
    other.__dict__.update(methods)
    return other


def with_lists(book, fit, taken):
    """A stand-in that takes the lists that are `fit`, each for the list `taken` of it."""
    def answer(function, report, offsets):
        return book.answer(function, report, taken(book.setting_of(report), offsets))

    return altered(book, unfit=lambda s, offsets: not fit(s, offsets), answer=answer)


def with_sums(book, add):
    """A stand-in whose phases are made by `add` from a phase, the list and the place of layer and port."""
    def answer(function, report, offsets):
        phases, P = numbers_in('H', book.answer_of(book.phases, report)), len(offsets)
        return packed('H', [add(e, offsets, k // P, k % P) for k, e in enumerate(phases)])

    return altered(book, answer=answer)


def with_order(book, first, second):
    """A stand-in that tries refusal `first` before `second`; only 10, 13 and 11 are among them."""
    def refusal(function, report, ranks, mask, offsets, length):
        number = book.refusal(function, report, ranks, mask, offsets, length)
        s = book.settings.get(report[:book.numbers])
        applies = number == second and (book.unfit(s, offsets) if first == 13 else length < needed(function, s, report.v))
        return first if applies else number

    return altered(book, refusal=refusal)


# By what is wrong: the stand-in, of the codebook. Its answers are phases.
MISTAKES = {
    'offsets are left out': lambda book: with_sums(book, lambda e, o, layer, port: e),
    'an offset for each layer': lambda book: with_sums(book, lambda e, o, layer, port: (e + o[layer % len(o)]) % TURN),
    'offsets for the first layer alone':
        lambda book: with_sums(book, lambda e, o, layer, port: (e + o[port] * (layer == 0)) % TURN),
    'offsets of the ports in reverse': lambda book: with_sums(book, lambda e, o, layer, port: (e + o[-1 - port]) % TURN),
    'offsets of the first half for both':
        lambda book: with_sums(book, lambda e, o, layer, port: (e + o[port % (len(o) // 2)]) % TURN),
    'offsets less that of the first port':
        lambda book: with_sums(book, lambda e, o, layer, port: (e + o[port] - o[0]) % TURN),
    'offsets taken away': lambda book: with_sums(book, lambda e, o, layer, port: (e - o[port]) % TURN),
    'offsets counted in half parts': lambda book: with_sums(book, lambda e, o, layer, port: (e + 2 * o[port]) % TURN),
    'sums not reduced': lambda book: with_sums(book, lambda e, o, layer, port: e + o[port]),
    'sums of just a turn not reduced':
        lambda book: with_sums(book, lambda e, o, layer, port: (e + o[port] - 1) % TURN + 1 if e + o[port] else 0),
    'sums of 8 bits': lambda book: with_sums(book, lambda e, o, layer, port: (e + o[port]) % 256),
    'offsets of 8 bits': lambda book: with_sums(book, lambda e, o, layer, port: (e + o[port] % 256) % TURN),
    'a turn is taken for an offset': lambda book: with_lists(
        book, lambda s, o: len(o) == s.P and max(o) <= TURN, lambda s, o: tuple(x % TURN for x in o)),
    'a turn is taken in the last place': lambda book: with_lists(
        book, lambda s, o: len(o) == s.P and max(o[:-1]) < TURN, lambda s, o: tuple(x % TURN for x in o)),
    '383 is refused': lambda book: with_lists(book, lambda s, o: len(o) == s.P and max(o) < TURN - 1, lambda s, o: o),
    'offsets are reduced': lambda book: with_lists(
        book, lambda s, o: len(o) == s.P, lambda s, o: tuple(x % TURN for x in o)),
    'offsets wrap at 65,536': lambda book: with_lists(
        book, lambda s, o: len(o) == s.P and all((x + TURN) % 2 ** 16 < 2 * TURN for x in o),
        lambda s, o: tuple((x + TURN) % 2 ** 16 % TURN for x in o)),
    'a longer list is taken': lambda book: with_lists(
        book, lambda s, o: len(o) >= s.P and max(o[:s.P]) < TURN, lambda s, o: o[:s.P]),
    'a shorter list is taken': lambda book: with_lists(
        book, lambda s, o: len(o) <= s.P and all(x < TURN for x in o), lambda s, o: (*o, *[0] * (s.P - len(o)))),
    'no list is taken for offsets of 0': lambda book: with_lists(
        book, lambda s, o: not o or not book.unfit(s, o), lambda s, o: o or (0,) * s.P),
    '13 before 10': lambda book: with_order(book, 13, 10),
    '11 before 13': lambda book: with_order(book, 11, 13)}


def spoiled_offsets(tests):
    """Each mistake is seen at every setting by what is sent for its offsets, and wrong phases also without the model."""
    book = tests.book

    def answered(book, request):
        report, _, _, offsets, _ = request
        number = book.refusal(book.phases, *request)
        return number, b'' if number else book.answer(book.phases, report, offsets)

    for s in book.settings.values():
        tests.begin(f'mistakes with offsets are seen at {book.name_of(s)}')
        unseen = {name: mistake(book) for name, mistake in MISTAKES.items()}
        for _, request, _ in offset_requests(book, book.phases, s):
            right = answered(book, request)
            for name, other in list(unseen.items()):
                wrong = answered(other, request)
                if wrong != right:
                    del unseen[name]
                    if not wrong[0] and not right[0]:
                        before, offsets = book.answer_of(book.phases, request[0]), request[3]
                        tests.check(are_added(before, offsets, right[1]), f'{name}: the right phases look wrong')
                        tests.check(not are_added(before, offsets, wrong[1]), f'{name}: the phases look right')
            if not unseen:
                break
        tests.check(not unseen, f'unseen: {", ".join(unseen)}')


# ---- The order of refusals -------------------------------------------------------------------------------------------

def with_faults(book, function, report, faults, variant):
    """A request with these faults and no others, from a report in range; the variant picks the form of each fault."""
    s = book.setting_of(report)
    numbers, ranks, mask, length = report._asdict(), 255, book.ones(s), needed(function, s, report.v)
    offsets = fixed_list(s)

    def form(number, *forms):
        return forms[variant // number % len(forms)]

    if 1 in faults:
        numbers.update(zip(report._fields, form(1, *book.near_misses(s))))
    if 2 in faults:
        numbers['mode'] = form(2, 0, len(book.modes_of(s)) + 1, 2 ** 32 - 1, 256 + report.mode)
    if 4 in faults:
        numbers['v'] = form(4, 0, book.most_layers + 1, s.P + 1 if s.P < 8 else 2 ** 32 - 1, 256 + report.v)
    if 5 in faults:
        # A rank above P has a bit too; the other ranks out of range have none.
        v = numbers['v'] if 1 <= numbers['v'] <= 8 else report.v
        ranks = form(5, 0, 255 & ~(1 << (v - 1)))
    counts = dict(zip(book.refusals, book.values(s, report.mode, report.v)))
    for number in faults & {*book.refusals.values()}:
        # One of the indices that have this number.
        names = [name for name in book.refusals if book.refusals[name] == number]
        name = names[variant // 4 % len(names)]
        legal = numbers[name]
        # The first index out of range; without a mode or a rank, one that is so for all of them.
        first = 64 if faults & {2, 4} else counts[name]
        numbers[name] = form(number, first, 2 ** 32 - 1, 2 ** 31 + legal, 256 + legal)
    if 10 in faults:
        mask = form(10, bytes(len(mask)), book.ones_but(s, book.bits_of(report)[-1]))
    if 3 in faults:
        mask = form(3, mask[:-1], mask + b'\xff', b'', mask + mask)
    if 13 in faults:
        high = [with_offset(offsets, place, TURN) for place in (0, s.P // 2, s.P - 1)]
        offsets = form(13, offsets[:-1], high[0], offsets + (0,), high[1], (), high[2], offsets + offsets,
                       with_offset(offsets, s.P - 1, 65535))
    if 11 in faults:
        length = form(11, length - 1, 0)
    return book.Report(**numbers), ranks, mask, offsets, length


def orders(tests, function):
    book, variants = tests.book, itertools.count()

    def add(report, faults):
        variant, first = next(variants), min(faults, key=book.order.index)
        tests.add(function, *with_faults(book, function, report, faults, variant), variant % 256, first)

    pairs = list(itertools.combinations(book.order, 2))
    named = {pair: tests.begin(f'{function.name}: faults {pair[0]} and {pair[1]} together') for pair in pairs}
    for s, mode, v in book.groups():
        for report, pair in itertools.product(book.corner_reports(s, mode, v), pairs):
            tests.test = named[pair]
            add(report, set(pair))
    for s in book.settings.values():
        tests.begin(f'{function.name}: all sets of two or more faults of {book.name_of(s)}')
        reports = itertools.cycle([report for mode, v in book.cases(s) for report in book.corner_reports(s, mode, v)])
        for some in range(2, len(book.order) + 1):
            for faults in itertools.combinations(book.order, some):
                add(next(reports), set(faults))


# ---- Random requests -------------------------------------------------------------------------------------------------

FEWEST = 1_000


def draw_number(draw, count):
    """A legal number mostly, else one at a bound or far from it."""
    x = draw.random()
    if x < 0.84:
        return int(draw.random() * count)
    if x < 0.94:
        return count - 1
    if x < 0.97:
        return count + int(draw.random() * 3)
    return draw.choice(near(count))


def draw_mask(draw, book, report, s):
    """A beam mask: all ones, dense, sparse, or just what the report reads and some more."""
    length, x = book.mask_bytes(s), draw.random()
    if x > 0.96:
        length = draw.choice((0, length - 1, length + 1, 2 * length, int(draw.random() * 40)))
    bits = 8 * length
    every = (1 << bits) - 1
    x = draw.random()
    if x < 0.40 or bits == 0:
        mask = every
    elif x < 0.65:
        mask = every
        for _ in range(1 + int(draw.random() * 4)):
            mask &= ~(1 << int(draw.random() * bits))
    elif x < 0.80:
        mask = draw.getrandbits(bits) | draw.getrandbits(bits) | draw.getrandbits(bits)
    else:
        mask = draw.getrandbits(bits) & draw.getrandbits(bits) if x < 0.98 else 0
        if x < 0.94 and not book.refusal(book.phases, report, 255, book.ones(s), fixed_list(s), 1 << 16):
            mask |= sum(1 << k for k in book.bits_of(report)) & every
    return mask.to_bytes(length, 'little')


def draw_offsets(draw, book, s):
    """Offsets: drawn, of 0 or fixed; some lists have a number at the bound or above, and some another length."""
    x = draw.random()
    offsets = (0,) * s.P if x < 0.15 else fixed_list(s) if x < 0.30 else draw_list(draw, s)
    x, place = draw.random(), int(draw.random() * s.P)
    if x < 0.06:
        return with_offset(offsets, place, draw.choice((TURN, TURN + int(draw.random() * (2 ** 16 - TURN)), *HIGH)))
    if x < 0.12:
        return with_offset(offsets, place, TURN - 1)
    if x < 0.16:
        return draw.choice((offsets[:-1], offsets + (0,), (), offsets * 2, offsets[:place]))
    return offsets


def draw_request(draw, book, function):
    s = draw.choice(list(book.settings.values()))
    numbers, most, modes = s[:book.numbers], book.most_layers, book.modes_of(s)
    mode = legal_mode = modes[int(draw.random() * len(modes))]
    if draw.random() < 0.04:
        numbers = book.draw_numbers(draw, s)
    if draw.random() < 0.03:
        mode = draw.choice(near(3))
    v = legal_v = 1 + int(draw.random() * len(book.ranks_of(s)))
    if draw.random() < 0.04:
        v = draw.choice((0, most + 1, s.P + 1, 1 + int(draw.random() * most), 256 + v, draw.choice(near(most + 1))))
    indices = [draw_number(draw, count) for count in book.values(s, legal_mode, legal_v)]
    report = book.Report(*numbers, mode, v, *indices)
    ranks = draw.getrandbits(8)
    if draw.random() < 0.94:
        ranks |= 1 << (legal_v - 1)
    length, x = needed(function, s, legal_v), draw.random()
    if x < 0.30:
        length += int(draw.random() * 40)
    elif x < 0.42:
        length -= 1 + int(draw.random() * min(4, length))
    elif x < 0.50:
        length = int(draw.random() * 600 * function.parts)
    return report, ranks, draw_mask(draw, book, report, s), draw_offsets(draw, book, s), length


def random_requests(tests, function):
    book, draw, requests = tests.book, random.Random(SEED + function.code), tests.book.drawn // function.parts
    named = {number: tests.begin(f'{function.name}: random requests to be '
                                 + (f'refused with {number}' if number else 'accepted')) for number in (0, *book.order)}
    drawn = collections.Counter()
    for _ in range(requests):
        request = draw_request(draw, book, function)
        report, ranks, mask, offsets, length = request
        number = book.refusal(function, *request)
        drawn[number] += 1
        loan, fill = loan_of(offsets, length, number), draw.getrandbits(8)
        tests.put(function, report, ranks, mask, [loan], fill, named[number])
    for number, test in named.items():
        tests.test = test
        tests.check(drawn[number] >= FEWEST, f'only {drawn[number]} drawn')
    print(f'{function.name}: {requests} random requests, by refusal (0 for none) '
          + ', '.join(f'{number}: {drawn[number]}' for number in named))


def main(book, held, about, words):
    """Runs all tests of a codebook. The parts in `held` hold its model against what else is known of it."""
    name = Path(sys.argv[0]).stem
    if words in (['--help'], ['-h']):
        print(about.strip())
        return 0
    if not words or words[0].startswith('-'):
        print(f'{name}: it takes COMMAND.. or --help', file=sys.stderr)
        return 2
    # Millions of tuples are kept, and none is in a cycle.
    gc.disable()
    tests = Tests(book)
    for part in (*held, weights_of_phases, count_rule, spoiled_beams, spoiled_offsets):
        part(tests)
    every_report(tests, words)
    for function in book.functions:
        for part in (beam_masks, rank_masks, not_settings, modes, mask_lengths, rank_bounds, index_bounds,
                     buffer_lengths, offset_lists, orders, random_requests):
            part(tests, function)
        tests.run(words)
        tests.clear()
    return tests.report()
