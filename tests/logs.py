#!/usr/bin/env python3
"""Tests the program readlog: compares what it prints of logs, to the byte, with a reader of its own.

    logs.py READLOG.. -- PMI..    test; the words by which either program is started

The last line is `N passed, M failed`; the exit status is 0 only if N is above 0 and M is 0, and 2 for wrong words.
Needs Python 3.9; takes some twenty seconds. tests/readlog starts this.

The reader here is a grammar: a number is one of three forms of bytes, a report eight of them, and what stands behind the
last number that can be read has exactly one of the forms that are faults. It is held against logs that are read by hand.

What is sent:
  by hand    logs with the text that must come, written here
  short      logs of one byte
  prefixes   every third prefix of a log of twelve reports, which has the first and the last number of each count of bytes
  changes    that log with one byte changed
  lengths    logs whose ends, and whose faults, lie around the sizes that a buffer may have
  offsets    reports of 40 bytes, the longest, which lie across the end of a buffer in every way
  random     random logs, whole, cut or damaged
  pieces     logs that arrive in pieces, each sent when all before it has been read; and one that never ends
  failing    reads and writes that fail: one line on standard error says so, and no end or fault is printed
  large      100 MB, and 10 MB with a fault in the last report; what comes is compared as it comes
  pmi        lines that readlog has printed, answered by pmi
"""

import collections
import concurrent.futures
import functools
import os
import random
import re
import subprocess
import sys
import threading
import time

from cases import MOST_HUNG, WORKED, Came, Program, Tests, answered

SEED = 38_214

# ---- The reader -------------------------------------------------------------------------------------------------------

NUMBER = re.compile(rb'[\x00-\x7f]|[\x80-\xff]{1,3}[\x01-\x7f]|[\x80-\xff]{4}[\x01-\x0f]')
REPORT = re.compile(rb'(?:' + NUMBER.pattern + rb'){8}')
# What stands where no number does, by the number of the fault. The place is that of its last byte; of fault 1, the length.
FAULTS = {1: re.compile(rb'[\x80-\xff]{0,4}\Z'), 2: re.compile(rb'[\x80-\xff]{1,4}\x00'),
          3: re.compile(rb'[\x80-\xff]{4}[\x10-\xff]')}


@functools.lru_cache(maxsize=1 << 16)
def decimal(code):
    """The number that bytes stand for: their lower seven bits, the last ones first."""
    return str(int(''.join(format(byte, '08b')[1:] for byte in reversed(code)), 2))


def lines(log):
    """The lines that are to be printed of a log."""
    at = 0
    while report := REPORT.match(log, at):
        yield ' '.join(map(decimal, NUMBER.findall(report[0])))
        at = report.end()
    if at == len(log):
        yield 'end'
        return
    while number := NUMBER.match(log, at):
        at = number.end()
    (fault, found), = ((fault, found) for fault, form in FAULTS.items() if (found := form.match(log, at)))
    yield f'fault {fault} at {len(log) if fault == 1 else found.end() - 1}'


def text_of(log):
    return ''.join(line + '\n' for line in lines(log)).encode()


# ---- Logs -------------------------------------------------------------------------------------------------------------

def code(number):
    """The bytes of a number, in its shortest form."""
    groups = [number >> shift & 127 for shift in range(0, max(number.bit_length(), 1), 7)]
    return bytes([128 + group for group in groups[:-1]] + groups[-1:])


def log_of(*reports):
    return b''.join(code(number) for report in reports for number in report)


# A log in hexadecimal, and its text.
BY_HAND = {
    'nothing': ('', 'end'),
    'the first worked report': ('02 01 01 01 01 00 00 01', '2 1 1 1 1 0 0 1, end'),
    '200 and the largest number': ('C8 01 00 00 00 00 00 00 FF FF FF FF 0F', '200 0 0 0 0 0 0 4294967295, end'),
    'the last number of one byte, the first of two': ('7F 80 01 00 00 00 00 00 00', '127 128 0 0 0 0 0 0, end'),
    'two reports': ('01 02 03 04 05 06 07 08' * 2, '1 2 3 4 5 6 7 8, 1 2 3 4 5 6 7 8, end'),
    'the end inside a number': ('02 01 01 01 01 00 00 81', 'fault 1 at 8'),
    'the end between two numbers': ('02 01 01 01 01 00 00', 'fault 1 at 7'),
    'the end after four bytes that go on': ('80 80 80 80', 'fault 1 at 4'),
    'the end in the second report': ('01 02 03 04 05 06 07 08 01', '1 2 3 4 5 6 7 8, fault 1 at 9'),
    'a padded zero': ('80 00', 'fault 2 at 1'),
    'a padded number': ('02 C8 81 00 01 01 01 00 00 01', 'fault 2 at 3'),
    'a fifth byte of zero': ('80 80 80 80 00', 'fault 2 at 4'),
    'a fifth byte of 16': ('80 80 80 80 10', 'fault 3 at 4'),
    'a fifth byte with its top bit': ('00 80 80 80 80 80', 'fault 3 at 5'),
    'a fifth byte of 15 with its top bit': ('FF FF FF FF 8F 00', 'fault 3 at 4'),
    'a fault and another behind it': ('80 00 80 80 80 80 10', 'fault 2 at 1'),
    'two faults the other way': ('80 80 80 80 10 80 00', 'fault 3 at 4'),
}

BOUNDS = (0, 127, 128, 16383, 16384, 2 ** 21 - 1, 2 ** 21, 2 ** 28 - 1, 2 ** 28, 2 ** 32 - 1)
LARGEST = (2 ** 32 - 1,) * 8
TWELVE = ((2, 1, 1, 1, 1, 0, 0, 1), (4, 2, 1, 2, 200, 127, 128, 0), BOUNDS[:8], BOUNDS[2:], (16, 1, 2, 2, 31, 0, 3, 7),
          LARGEST, (2 ** 31, 2 ** 31 - 1, 65535, 65536, 255, 256, 1, 0), (0,) * 8, (127,) * 8,
          (129, 16385, 2 ** 21 + 1, 2 ** 28 + 1, 2 ** 32 - 2, 10, 100, 1000), (1, 1, 1, 1, 0, 0, 0, 3),
          (4, 4, 1, 8, 15, 15, 0, 1))
# Reports of 40 bytes, whose numbers have ten digits.
LONGEST = (LARGEST, (2 ** 28, *range(3 * 10 ** 9, 3 * 10 ** 9 + 6), 2 ** 32 - 2))


def small(size):
    """A log without fault of so many bytes, eight or more: small reports, the first of which makes up for the rest."""
    first = [128] * (size % 8) + [1] * (8 - size % 8)
    return log_of(first) + bytes(k % 128 for k in range(size // 8 * 8 - 8))


def draw_number(draw):
    return draw.choice((draw.randrange(64), draw.choice(BOUNDS), draw.getrandbits(32) >> draw.randrange(32)))


def draw_log(draw):
    """Without damage, or with some."""
    log = bytearray(log_of([draw_number(draw) for _ in range(8 * draw.randrange(1, 12))]))
    for _ in range(draw.choice((0, 0, 1, 2))):
        at = draw.randrange(len(log))
        change = draw.randrange(5)
        if change == 0:
            del log[at + 1:]
        elif change == 1:
            log[at] = draw.randrange(256)
        elif change == 2:
            log[at] ^= 128
        elif change == 3:
            log[at:at] = bytes(draw.randrange(128, 256) for _ in range(4)) + bytes([draw.choice((0, 1, 15, 16, 31, 143))])
        else:
            ends = next((k for k in range(at, len(log)) if log[k] < 128), at)
            log[ends:ends + 1] = bytes([log[ends] | 128, 0])
    return bytes(log)


# Sizes of a buffer, and how far from them a log ends.
SIZES, AROUND = (4096, 8192, 16384, 65536, 131072), (-1, 0, 1, 39, 40, 41)
RANDOM_LOGS, CHANGES = 130, 130


def logs():
    """A name and a log of each that is sent as a file."""
    draw, twelve, longest = random.Random(SEED), log_of(*TWELVE), log_of(*LONGEST)
    for byte in (0, 1, 9, 10, 99, 100, 127, 128, 129, 255):
        yield f'short: byte {byte}', bytes([byte])
    for size in range(0, len(twelve) + 1, 3):
        yield f'prefixes: {size} bytes', twelve[:size]
    for k in range(CHANGES):
        at = 2 * k % len(twelve)
        byte = twelve[at] ^ (128 if k % 2 else draw.randrange(1, 256))
        yield f'changes: byte {at} is {byte}', twelve[:at] + bytes([byte]) + twelve[at + 1:]
    for size in (size + more for size in SIZES for more in AROUND):
        yield f'lengths: {size} bytes, whole', small(size)
        yield f'lengths: {size} bytes of long reports', (longest * (size // 80 + 1))[:size]
    for place in (65535, 65536, 65537, 65575, 131072, 200_000):
        # in the third number of a report, which is the first one past the place or lies across it
        head = small(place - 2 - 4) + b'\1\1'
        yield f'lengths: fault 3 at {place}', head + b'\xff\xff\xff\xff\x1f' + longest
        yield f'lengths: fault 2 at {place}', head + b'\xff\xff\xff\xff\x00' + longest
        yield f'lengths: fault 1 at {place}', (head + b'\xff\xff\xff\xff')[:place]
    for shift in range(40):
        # 140,000 bytes
        yield f'offsets: {shift} bytes before reports of 40', small(8 + shift) + longest * 1750
    for k in range(RANDOM_LOGS):
        yield f'random: log {k}', draw_log(draw)


def in_pieces(log, size):
    return [log[k:k + size] for k in range(0, len(log), size)]


def deliveries():
    """A name, a log and its pieces, of each that is sent through a pipe."""
    twelve, longest = log_of(*TWELVE), log_of(*LONGEST)
    yield 'pieces: none', b'', []
    for cut in range(1, 80, 3):
        yield f'pieces: {cut} bytes first', longest, [longest[:cut], longest[cut:]]
    for name, log in (('twelve reports', twelve), ('a cut log', twelve[:-1]),
                      ('a padded number', twelve[:-1] + b'\x80\0\1'),
                      ('a large number', twelve[:-1] + b'\x80\x80\x80\x80\x10\1')):
        yield f'pieces: {name} byte by byte', log, in_pieces(log, 1)
    for size in (7, 39, 41):
        yield f'pieces: twelve reports by {size} bytes', twelve, in_pieces(twelve, size)
    # its text is not read before all is sent, so it has to fit into a pipe
    log = small(13) + longest * 110
    for size in (99, 999, 4096):
        yield f'pieces: {len(log)} bytes by {size}', log, in_pieces(log, size)


# ---- The large log ----------------------------------------------------------------------------------------------------

# What is repeated and what is read at a time, in bytes; after so many seconds it hangs.
BLOCK, CHUNK, SECONDS = 1_000_000, 1 << 16, 300


def large_block():
    """About a million bytes of reports, half of them small ones and half with 40 bytes."""
    draw, parts, size = random.Random(SEED), [], 0
    while size < BLOCK:
        few = [[draw.choice((2, 4, 8)), 1, 1, 2, draw.randrange(256), 0, 1, draw.randrange(2)] for _ in range(5)]
        parts.append(log_of(*few, [2 ** 32 - 1 - draw.randrange(2 ** 31) for _ in range(8)]))
        size += len(parts[-1])
    return b''.join(parts)


def text_behind(before, log):
    """The text of a log that stands behind so many bytes."""
    *reports, last = lines(log)
    words = last.split()
    if words[0] == 'fault':
        words[-1] = str(before + int(words[-1]))
    return ''.join(line + '\n' for line in (*reports, ' '.join(words))).encode()


# How many bytes of blocks are sent at least, and what stands behind them: nothing, or two reports of which the last has a
# padded number.
LARGE = {'whole': (100_000_000, b''), 'a fault in the last report': (10_000_000, log_of(*LONGEST)[:-1] + b'\0')}


def send_large(program, least, tail):
    """Sends the block again and again, and then the tail. Gives how many bytes that is, what is due and what came, in place
    of the output how many bytes are as due, and the seconds."""
    block, began = large_block(), time.monotonic()
    times, text = least // len(block) + 1, text_of(block)[:-len('end\n')]
    ending = text_behind(times * len(block), tail)
    twice, whole, seen = text + text, times * len(text), 0
    process = program.start(subprocess.PIPE)

    def send():
        try:
            with process.stdin as pipe:
                for _ in range(times):
                    pipe.write(block)
                pipe.write(tail)
        except BrokenPipeError:
            pass

    sender, patience = threading.Thread(target=send), threading.Timer(SECONDS, process.kill)
    sender.start()
    patience.start()
    with process:
        while came := os.read(process.stdout.fileno(), CHUNK):
            at, left = seen % len(text), max(0, whole - seen)
            due = twice[at:at + min(left, len(came))] + ending[max(0, seen - whole):max(0, seen + len(came) - whole)]
            if came != due:
                seen += len(os.path.commonprefix([came, due]))
                process.kill()
                break
            seen += len(came)
        errors = process.stderr.read()
        sender.join()
    patience.cancel()
    size, seconds = times * len(block) + len(tail), time.monotonic() - began
    return size, Came(whole + len(ending), b'', 0), Came(seen, errors, process.returncode), seconds


# ---- Tests ------------------------------------------------------------------------------------------------------------

def check_reader(tests):
    """The reader here, on what is read by hand, and codes of numbers both ways."""
    for name, (digits, text) in BY_HAND.items():
        tests.check(f'by hand: {name}', list(lines(bytes.fromhex(digits))) == text.split(', '))
    for number in (*BOUNDS, 200, 65535, 10 ** 9):
        tests.check(f'the code of {number}', NUMBER.fullmatch(code(number)) and decimal(code(number)) == str(number))
    tests.check('a report of 40 bytes', {len(log_of(report)) for report in LONGEST} == {40})


def check_pmi(tests, program, pmi):
    """What readlog prints of the worked reports of 01 is answered by pmi as they are."""
    reports = [line for line, _ in WORKED.values()]
    came = program.from_file_of(log_of(*(map(int, line.split()) for line in reports), LARGEST))
    printed = came.output.decode().splitlines(keepends=True)
    tests.check('pmi: a line for each worked report, and two more', len(printed) == len(reports) + 2, str(came))
    for line, (_, answer) in zip(printed, WORKED.values()):
        answer = answer.lstrip('\n').encode()
        tests.check_run(f'pmi: {line}', line.encode(), Came(answer, b'', 0), pmi.from_file_of(line.encode()))
    for line in printed[len(reports):]:
        tests.check_run(f'pmi: {line}', line.encode(), answered(line.encode()), pmi.from_file_of(line.encode()))


SAID = re.compile(rb'readlog: [a-z0-9 ]+\n')


def check_failing(tests, program):
    """Where a read or a write fails, the lines of whole reports that were read before may stand, and no other."""
    report = log_of(TWELVE[0])
    long = report * 20_000
    failing = {
        'standard input closed': program.without_input,
        'standard input open for writing only': lambda: program.from_file('/dev/null', 'wb'),
        'an error instead of a log': lambda: program.from_broken(b''),
        'an error after a report': lambda: program.from_broken(report),
        'an error inside a report': lambda: program.from_broken(report[:-1]),
    }
    for size, log in (('no log', b''), ('a report', report), ('a long log', long)):
        failing[f'{size} to a full device'] = lambda log=log: program.into_file(log, '/dev/full')
        failing[f'{size}, standard output closed'] = lambda log=log: program.without_output(log)
        failing[f'{size}, standard output for reading only'] = lambda log=log: program.into_file(log, '/dev/null', 'rb')
    for name, run in failing.items():
        came = run()
        tests.check(f'failing: {name}', came.output in (b'', text_of(report)[:-len('end\n')]) and came.status == 0
                    and SAID.fullmatch(came.errors), str(came))


# How many logs end in each way at least.
FEWEST = 30


def runs_of(program):
    """The name, the log, what is due and how it is sent, of each; of the log without end, its first bytes."""
    sent = [(f'by hand: {name}', bytes.fromhex(digits)) for name, (digits, _) in BY_HAND.items()] + list(logs())
    sent = [(name, log, lambda log=log: program.from_file_of(log)) for name, log in sent]
    sent += [(name, log, lambda pieces=pieces: program.from_pipe(*pieces)) for name, log, pieces in deliveries()]
    sent.append(('pieces: bytes that go on, without end', b'\x80' * 8,
                 lambda: program.from_command('bash', '-c', r"tr '\0' '\200' </dev/zero")))
    return [(name, log, Came(text_of(log), b'', 0), send) for name, log, send in sent]


def main(arguments):
    if arguments in (['--help'], ['-h']):
        print(__doc__.strip())
        return 0
    between = arguments.index('--') if '--' in arguments else 0
    readlog, pmi = arguments[:between], arguments[between + 1:]
    if not readlog or not pmi:
        print('logs: it takes READLOG.. -- PMI.. or --help', file=sys.stderr)
        return 2
    tests, program, began = Tests(), Program(readlog), time.monotonic()
    check_reader(tests)
    runs = runs_of(program)
    ends = collections.Counter(due.output.splitlines()[-1].partition(b' at ')[0].decode() for _, _, due, _ in runs)
    tests.check('logs that end in every way', len(ends) == 4 and min(ends.values()) >= FEWEST, str(ends))
    parts = collections.Counter(name.partition(':')[0] for name, _, _, _ in runs)
    for counted in (parts, ends):
        print(f'{len(runs)} logs: ' + ', '.join(f'{name} {count}' for name, count in counted.items()))
    not_run = Came(b'', b'', f'not run, as {MOST_HUNG} hung')
    with concurrent.futures.ThreadPoolExecutor(2) as pool:
        large = [(name, pool.submit(send_large, program, *sent)) for name, sent in LARGE.items()]
        answers = pool.map(lambda run: run[3]() if program.hung < MOST_HUNG else not_run, runs)
        for (name, log, due, _), came in zip(runs, answers):
            tests.check_run(name, log, due, came)
        for name, sent in large:
            size, due, came, seconds = sent.result()
            print(f'large: {name}: {size} bytes, {due.output} of text, in {seconds:.0f} s')
            tests.check(f'large: {name}', came == due, f'bytes of text, errors, status: {due}', f'as due up to {came}')
    check_failing(tests, program)
    check_pmi(tests, program, Program(pmi))
    print(f'in all {time.monotonic() - began:.0f} s')
    return tests.report()


if __name__ == '__main__':
    sys.exit(main(sys.argv[1:]))
