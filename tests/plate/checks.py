"""Runs plate on many inputs and compares every byte with reading.py. Usage: checks.py PLATE TOOLS
TOOLS is the folder with the compiled answers and peak. One line for each group; exits 1 on any difference.
"""

import datetime
import fcntl
import itertools
import os
import pty
import random
import socket
import subprocess
import sys
import tempfile
import termios
import time
import tty

from reading import DATED, HEADING, KINDS, NAMES, SECOND, Reading, request_of, shown, value_of

SHOWN = 3  # differences that a group shows
PATIENCE = 60  # seconds for one run
LAST_DAY = datetime.date.max.toordinal()
WRONG_NAMES = b"line tick pixel\n0 - !12\n"
START = NAMES + b"\n"

EXAMPLE = b"""kind start end hint low high
date 2021-03-01 2021-03-08 3 0 70
month 2021-05-10 2021-12-31 2 0 100
date 2021-03-08 2021-03-01 3 0 70
"""
EXAMPLE_OUTPUT = b"""line tick pixel
1 2021-03-01 0
1 2021-03-08 70
2 2021-06-01 9
2 2021-09-01 48
2 2021-12-01 87
3 - !4
"""

# One and more for each kind; ticks closer than a second, typed fractions, a list without ticks, signs, leading zeros, both ends
# of the hint.
GOOD = [
    b"date 2021-03-01 2021-03-08 3 0 70",
    b"date 2020-02-29 2021-03-01 4096 -100 100",
    b"month 2021-05-10 2021-12-31 2 0 100",
    b"year 1999-12-31 2024-01-01 5 100 -100",
    b"stamp 2021-03-01T00:00:00 2021-03-01T12:30:59 3 0 70",
    b"stamp 2021-03-01T23:59:59 2021-03-02T00:00:01 4 0 32767",
    b"stampmonth 2021-12-31T10:00:00 2021-12-31T12:00:00 3 0 70",
    b"stampyear 2019-12-31T23:59:59 2024-01-01T00:00:00 6 -0 00070",
    b"span -90 3600 7 0 500",
    b"span -315576000000 315576000000 3 -32767 32767",
    b"stamp 2021-03-01T23:59:59.25 2021-03-02T00:00:01.000000001 7 0 500",
    b"span -1.5 0.999999999 5 0 70",
    b"week 2021-03-01 2021-06-30 6 0 100",
]
LONGEST_READ = b"stampmonth 2021-03-01T00:00:00.000000000 2021-06-01T00:00:00.999999999"
LONGEST_READ += b" -000000000003 -000000000007 -000000000070"


class Plate:
    def __init__(self, program):
        self.program = program

    def output(self, data):
        try:
            done = subprocess.run([self.program], input=data, capture_output=True, timeout=PATIENCE)
        except subprocess.TimeoutExpired:
            return b"no end after %d seconds" % PATIENCE
        if done.returncode or done.stderr:
            return b"exit status %d, on standard error: %s" % (done.returncode, done.stderr[:200])
        return done.stdout

    def output_of_pieces(self, data, size):
        """Each piece is taken by plate before the next one comes. The output must fit a pipe."""
        with subprocess.Popen([self.program], stdin=subprocess.PIPE, stdout=subprocess.PIPE) as child:
            end, give_up = child.stdin.fileno(), time.monotonic() + PATIENCE
            try:
                for at in range(0, len(data), size):
                    os.write(end, data[at : at + size])
                    while waiting_in(end) and time.monotonic() < give_up:
                        time.sleep(0)
            except BrokenPipeError:
                pass  # it has ended before
            child.stdin.close()
            out = child.stdout.read()
        return out if child.returncode == 0 else b"exit status %d" % child.returncode


def waiting_in(pipe):
    return int.from_bytes(fcntl.ioctl(pipe, termios.FIONREAD, bytes(4)), sys.byteorder)


class Group:
    """Compares, counts, and shows the first differences."""

    failed = False

    def __init__(self, name):
        self.name, self.inputs, self.rows, self.differences = name, 0, 0, 0

    def same(self, what, expected, got):
        self.inputs += 1
        self.rows += expected.count(b"\n")
        if expected != got:
            self.difference(what, first_difference(expected, got))

    def difference(self, what, text):
        self.differences += 1
        if self.differences <= SHOWN:
            print("  %s: %s: %s" % (self.name, what, text))

    def done(self, more=""):
        print("plate: %s: %d inputs, %d rows, %d differences%s" % (self.name, self.inputs, self.rows, self.differences, more))
        Group.failed |= self.differences > 0 or self.inputs == 0


def first_difference(expected, got):
    for row, (a, b) in enumerate(itertools.zip_longest(expected.split(b"\n"), got.split(b"\n"))):
        if a != b:
            return "row %d: expected %.80r, got %.80r" % (row, a, b)
    return "none"


def shown_on(page):
    """The examples of a page: each a block, with the input on its left and the output on its right."""
    with open(page, "rb") as file:
        rows = file.read().split(b"\n")
    for first, row in enumerate(rows):
        if row.startswith(b"    " + NAMES + b" "):
            at = row.index(HEADING[:-1])
            block = list(itertools.takewhile(lambda row: row.startswith(b"    "), rows[first:]))
            left = [row[4:at].rstrip(b" =>") + b"\n" for row in block]
            yield b"".join(row for row in left if row.strip()), b"".join(row[at:] + b"\n" for row in block)


def example(plate, reading):
    group = Group("example")
    for page, count in (("README.md", 1), ("docs/PLATE.md", 3)):
        shown = list(shown_on(page))
        if len(shown) != count or shown[0] != (EXAMPLE, EXAMPLE_OUTPUT):
            group.difference(page, "another example, or not %d of them" % count)
        for given, output in shown:
            group.same(page + ", the reading", reading.expected(given), output)
            group.same(page + ", plate", plate.output(given), output)
    group.same("names alone", HEADING, plate.output(START))
    # The stored sample: reading.py ANSWERS <stdin >stdout makes its output.
    with open("crates/plate/stdin", "rb") as given, open("crates/plate/stdout", "rb") as stored:
        group.same("the stored sample", stored.read(), reading.expected(given.read()))
    group.done()


def edits(text, to):
    """Each byte removed, doubled, and replaced by each of the bytes given."""
    for i in range(len(text)):
        yield text[:i] + text[i + 1 :]
        yield text[: i + 1] + text[i:]
        for byte in to:
            if byte != text[i]:
                yield text[:i] + bytes([byte]) + text[i + 1 :]


def names(plate, reading):
    """Nothing but the names line itself will do, and nothing is read after another one."""
    group = Group("names line")
    rest = b"\n" + GOOD[0] + b"\n"
    wrong = [b"", b"\n", b"\n\n", NAMES, NAMES + b"\r\n", b"\n" + NAMES + rest, b"\xef\xbb\xbf" + NAMES + rest, GOOD[0] + b"\n"]
    wrong += [NAMES + b" " + rest, b" " + NAMES + rest, NAMES + b" more" + rest, NAMES.upper() + rest, b"#" + rest + NAMES + rest]
    wrong += [b" ".join(order) + rest for order in itertools.permutations(NAMES.split()) if b" ".join(order) != NAMES][:40]
    wrong += [NAMES + b" " * n + rest for n in (92, 93, 2**20)] + [NAMES * 2 + rest, NAMES + b"\0" + rest]
    wrong += [line + rest for line in edits(NAMES, b"e \n\0")]
    for data in wrong:
        group.same("the reading of %.60r" % data, WRONG_NAMES, reading.expected(data))
        group.same("%.60r" % data, WRONG_NAMES, plate.output(data))
    group.done()


def broken_off(plate, reading):
    """Each beginning of an input, so each line without its LF."""
    group = Group("broken off")
    whole = EXAMPLE + b"".join(GOOD[at] + b"\n" for at in (4, 8, 10, 11, 12))
    for end in range(len(whole) + 1):
        group.same("%d bytes" % end, reading.expected(whole[:end]), plate.output(whole[:end]))
    group.done()


def pieces(plate, reading):
    group = Group("in pieces")
    whole = EXAMPLE + b"x" * 300 + b"\n" + b"\n".join(GOOD[at] for at in (6, 4, 10, 11, 12, 8))
    for size in (1, 2, 3, 7, 34, 120, 121):
        group.same("of %d bytes" % size, reading.expected(whole), plate.output_of_pieces(whole, size))
    group.done()


def damaged(plate, reading):
    """All edits of the good lines, with every byte, all in one input."""
    group = Group("damaged lines")
    undamaged = reading.expected(START + b"\n".join(GOOD) + b"\n")
    if b"!" in undamaged:
        group.difference("undamaged", "a line is refused")
    data = START + b"".join(line + b"\n" for good in GOOD for line in [good, *edits(good, range(256))])
    expected = reading.expected(data)
    group.same("one input", expected, plate.output(data))
    group.done(", %d lines, %d of them unread" % (data.count(b"\n") - 1, expected.count(b" !12\n")))


def line_ends(plate, reading):
    group = Group("line ends, spaces, NUL")
    lines = []
    for good in GOOD:
        lines += [good + end for end in (b"\r", b"\0", b" ", b"\t", b"\v", b"\x1a", b" 1", b"\x85", b"\xa0")]
        lines += [b"\0" + good, b" " + good, good.replace(b" ", b"  "), good.replace(b" ", b"\t"), good.replace(b" ", b"\0")]
        lines += [b"", b"\0", b"\r", b" ", good]
    data = START + b"\n".join(lines) + b"\n"
    group.same("one input", reading.expected(data), plate.output(data))
    for cut in (START + b"\0", START + b"\n", START + b"\r", START + b"\r\n", START + b"\n\n\n", START + GOOD[0] + b"\r\n"):
        group.same("%r" % cut, reading.expected(cut), plate.output(cut))
    group.done()


def lengths(plate, reading):
    """Lines of every length around 120 and around powers of two, of letters and of a good line made longer; each between
    good ones."""
    group = Group("lengths")
    sizes = [*range(300), *(2**k + d for k in range(9, 18) for d in range(-2, 3))]
    for fill in (b"x", b" ", b"0", b"\0"):
        for begin in (b"", GOOD[0], GOOD[0] + b" "):
            lines = itertools.chain.from_iterable((begin.ljust(size, fill), GOOD[2]) for size in sizes if size > len(begin))
            data = START + b"\n".join(lines) + b"\n"
            group.same("lines from %r with %r" % (begin, fill), reading.expected(data), plate.output(data))
    lines = itertools.chain.from_iterable((b"x" * size + GOOD[0], GOOD[2]) for size in sizes)
    data = START + b"\n".join(lines) + b"\n"
    group.same("lines that end in a good one", reading.expected(data), plate.output(data))
    data = START + LONGEST_READ + b"\n" + LONGEST_READ + b"0\n"
    group.same("the longest line that reads", reading.expected(data), plate.output(data))
    for size in (119, 120, 121):  # exactly, alone, with and without LF
        for data in (START + b"x" * size, START + b"x" * size + b"\n", START + GOOD[0].ljust(size) + b"\n" + GOOD[0] + b"\n"):
            group.same("%d bytes" % size, reading.expected(data), plate.output(data))
    group.done()


def long_lines(plate, reading):
    group = Group("lines of 1 MiB")
    mebibyte, good = b"7" * 2**20, GOOD[0] + b"\n"
    for what, data in {
        "names, no LF": mebibyte,
        "names": mebibyte + b"\n" + START + good,
        "no LF": START + mebibyte,
        "a good line before, no LF": START + good + mebibyte,
        "a good line after": START + mebibyte + b"\n" + good,
        "good lines around, twice": START + (good + mebibyte + b"\n" + good) * 2,
        "a good line's bytes at its end": START + mebibyte + good + good,
        "LF only": START + b"\n" * 2**16,
    }.items():
        group.same(what, reading.expected(data), plate.output(data))
    group.done()


def random_value(draw, kind):
    if kind == "span":
        edge = draw.choice([0, 1, 60, 86400, 4 * 10**9, 315576 * 10**6, 10**12 - 1])
        number = draw.choice([edge, -edge, edge + 1, -edge - 1, edge - 1, draw.randint(-edge, edge), draw.randint(-9999, 9999)])
        return "%d" % max(-(10**12) + 1, min(number, 10**12 - 1))
    year = draw.choice([2020, 2021, 2021, 2021, 2022, 1, 9999, 1900, draw.randint(1, 9999)])
    date = "%04d-%02d-%02d" % (year, draw.randint(1, 12), draw.randint(1, 28))
    if draw.random() < 0.15:
        date = "%04d-%s" % (draw.choice([0, 1, 1900, 2000, 2023, 2024, 9999]), draw.choice(["02-28", "02-29", "02-30",
                            "04-30", "04-31", "12-31", "12-32", "00-10", "13-01", "01-00", "01-01"]))
    if not kind.startswith("stamp"):
        return date
    time_of_day = "%02d:%02d:%02d" % (draw.randint(0, 23), draw.randint(0, 59), draw.randint(0, 59))
    if draw.random() < 0.25:
        time_of_day = draw.choice(["00:00:00", "00:00:01", "23:59:59", "24:00:00", "23:60:00", "23:59:60", "99:99:99"])
    return date + "T" + time_of_day


def random_line(draw):
    kind = draw.choice(["date", "month", "year", "stamp", "stampmonth", "stampyear", "span", "week"])
    start, end = random_value(draw, kind), random_value(draw, kind)
    if draw.random() < 0.8 and (int(start) > int(end) if kind == "span" else start > end):
        start, end = end, start
    if draw.random() < 0.05:
        end = start
    hint = draw.choice(["0", "1", "2", "3", "5", "10", "-1", "4096", "4097", "007", str(draw.randint(0, 40))])
    limits = [draw.choice(["0", "-0", "100", "-32767", "32767", "32768", "-32768", "4294967296", "-999999999999",
                           str(draw.randint(-1000, 1000))]) for _ in range(2)]
    return " ".join([kind, start, end, hint, *limits]).encode()


def random_lines(plate, reading):
    """Well-formed lines around the bounds; every refusal that a line can get must come."""
    group, draw = Group("random lines"), random.Random(20260401)
    data = START + b"".join(random_line(draw) + b"\n" for _ in range(6000))
    expected = reading.expected(data)
    group.same("one input", expected, plate.output(data))
    for refusal in (3, 4, 5, 6, 7):
        if b" !%d\n" % refusal not in expected:
            group.difference("the lines", "none is refused by %d" % refusal)
    group.done()


# What starts and ends with fractions must print, written out by hand. First what does not read: at most one sign, at least a
# digit before the point, one to nine behind it, and no more than 12 before it.
UNREAD = {
    b"stamp": [b"2021-03-04T05:06.5", b"2021-03-04.5", b"2021-03-04.5T05:06:07", b"2021-03-04T05:06:7.5", b"2021-03-04T05:06:.5",
               b"2021-03-04T05:06:07,5", b"2021-03-04T05:06:07.5Z", b"2021-03-04T05:06:07..5", b"2021-03-04T05:06:07.-5",
               b"2021-03-04T05:06:07.5.5", b"2021-02-30T00:00:00.1234567890", b"2021-03-04T24:00:00.", b"2021-03-04T05:06:07. "],
    b"span": [b".5", b"-.5", b"1.", b"-1.", b".", b"-.", b"1.5.5", b"1..5", b"--0.5", b"-+0.5", b"+0.5", b"0.-5", b"0.+5",
              b"0.5-", b"0,5", b"0.5e0", b"0.5s", b"0x0.5", b"0. 5", b"1234567890123.5", b"-1234567890123.5", b"0.1234567890",
              b"1.\xd9\xa3", b"315576000000.5000000000"],
}
# In form, and no value: no such day, no such time of the day, beyond the bounds of a span.
NO_VALUE = {
    b"stamp": [b"2021-03-04T24:00:00.5", b"2021-03-04T24:00:00.0", b"2021-03-04T23:60:00.5", b"2021-03-04T05:60:00.5",
               b"2021-03-04T23:59:60.5", b"2021-03-04T05:06:60.5", b"2021-03-04T23:59:60.000000000", b"2021-02-29T00:00:00.5",
               b"0000-12-31T23:59:59.9", b"2021-02-30T00:00:00.123456789"],
    b"span": [b"-315576000000.5", b"-315576000000.000000001", b"315576000001.0", b"-315576000001.0", b"999999999999.999999999"],
}
BY_HAND = {
    # A list with a fraction shows nine digits at each tick, one without shows none, whatever was typed.
    b"stamp 2021-03-01T00:00:00 2021-03-01T00:00:01 2 0 70": [
        b"2021-03-01T00:00:00.000000000 0", b"2021-03-01T00:00:00.500000000 35"],
    b"stamp 2021-12-31T23:59:59 2022-01-01T00:00:01 4 0 100": [
        b"2021-12-31T23:59:59.000000000 0", b"2021-12-31T23:59:59.500000000 25",
        b"2022-01-01T00:00:00.000000000 50", b"2022-01-01T00:00:00.500000000 75"],
    b"stamp 2020-02-29T23:59:59.999999999 2020-03-01T00:00:00.000000001 2 0 2": [
        b"2020-02-29T23:59:59.999999999 0", b"2020-03-01T00:00:00.000000000 1"],
    b"stamp 2021-03-01T00:00:00.5 2021-03-01T00:00:03.5 3 0 60": [
        b"2021-03-01T00:00:01 10", b"2021-03-01T00:00:02 30", b"2021-03-01T00:00:03 50"],
    b"stamp 2021-03-01T00:00:00.000 2021-03-01T00:00:00.2 1 0 60": [b"2021-03-01T00:00:00 0"],
    b"stamp 9999-12-31T23:59:59.999999998 9999-12-31T23:59:59.999999999 1 0 9": [b"9999-12-31T23:59:59.999999998 0"],
    b"span -1 1 4 0 100": [b"-1.000000000 0", b"-0.500000000 25", b"0.000000000 50", b"0.500000000 75"],
    b"span -1.5 1.5 3 0 60": [b"-1 10", b"0 30", b"1 50"],
    b"span -1.000000001 -0.999999999 2 0 2": [b"-1.000000001 0", b"-1.000000000 1"],
    b"span 0.999999999 1.000000001 2 0 2": [b"0.999999999 0", b"1.000000000 1"],
    b"span -000000000000.5 0000.50 2 0 2": [b"-0.500000000 0", b"0.000000000 1"],
    # Months and years from a half second after midnight: that midnight is a tick, before the start, and needs no digits. So its
    # pixel can lie far outside the limits, have no number, or no place at all where the end is the start.
    b"stampmonth 2021-03-01T00:00:00.5 2021-05-01T00:00:00.5 3 0 61": [
        b"2021-03-01T00:00:00 0", b"2021-04-01T00:00:00 30", b"2021-05-01T00:00:00 60"],
    b"stampyear 2021-01-01T00:00:00.5 2022-01-01T00:00:00.5 3 0 365": [b"2021-01-01T00:00:00 0", b"2022-01-01T00:00:00 364"],
    b"stampmonth 2021-03-01T00:00:00.5 2021-03-01T00:00:01 3 0 70": [b"2021-03-01T00:00:00 -70"],
    b"stampyear 2021-01-01T00:00:00.999999998 2021-01-01T00:00:00.999999999 3 5 32767": [b"2021-01-01T00:00:00 -2147483643"],
    b"stampmonth 2021-03-01T00:00:00.999999998 2021-03-01T00:00:00.999999999 3 -5 32767": [b"2021-03-01T00:00:00 !10"],
    b"stampmonth 2021-03-01T00:00:00.5 2021-03-01T00:00:00.500 3 0 70": [b"2021-03-01T00:00:00 !9"],
    # The other refusals, at the nanosecond where there is one.
    b"stamp 2021-03-01T00:00:00.000000002 2021-03-01T00:00:00.000000001 3 0 70": [b"- !4"],
    b"span -0.000000001 -0.000000002 3 0 70": [b"- !4"],
    b"span 315576000000.999999999 315576000000.999999999 3 0 70": [b"- !5"],
    b"span -315576000000.0 315576000000.5 3 0 70": [
        b"-315576000000 0", b"-142776000000 19", b"30024000000 38", b"202824000000 57"],
    b"span 3999999999.999999999 4000000000 1 0 70": [b"3999999999.999999999 0"],
    b"span 3999999999 4000000000.000000001 1 0 70": [b"- !5"],
    b"span -4000000000.0 -3999999999.999999999 1 0 70": [b"-4000000000 0"],
    b"span -4000000000.000000001 -3999999999 1 0 70": [b"- !5"],
    b"span -4611686018.427387904 4611686018.427387903 1 0 2": [b"- !5"],
    b"span -4611686018.427387904 4611686018.427387904 1 0 2": [b"-4611513600 0", b"4028486400 1"],
    b"span 0.5 1.5 0 0 70": [b"- !6"],
    b"stamp 2021-03-01T00:00:00.5 2021-03-01T00:00:01.5 4097 0 70": [b"- !6"],
    b"span 0 1 2 0 32768": [b"0.000000000 !7", b"0.500000000 !7"],
}
# A sign or none, no second or one, no fraction, one of zeros or a half: head and tail, and the texts of this value and the one
# after it in a list that runs by the nanosecond up to the last column.
SIGNS = [
    (b"0", 0, 0, b"0.000000000", b"0.000000001", b"0.000000002"),
    (b"0.0", 0, 0, b"0.000000000", b"0.000000001", b"0.000000002"),
    (b"0.5", 0, 500000000, b"0.500000000", b"0.500000001", b"0.500000002"),
    (b"1", 1, 0, b"1.000000000", b"1.000000001", b"1.000000002"),
    (b"1.000000000", 1, 0, b"1.000000000", b"1.000000001", b"1.000000002"),
    (b"1.5", 1, 500000000, b"1.500000000", b"1.500000001", b"1.500000002"),
    (b"-0", 0, 0, b"0.000000000", b"0.000000001", b"0.000000002"),
    (b"-0.000000000", 0, 0, b"0.000000000", b"0.000000001", b"0.000000002"),
    (b"-0.5", -1, 500000000, b"-0.500000000", b"-0.499999999", b"-0.499999998"),
    (b"-1", -1, 0, b"-1.000000000", b"-0.999999999", b"-0.999999998"),
    (b"-1.0", -1, 0, b"-1.000000000", b"-0.999999999", b"-0.999999998"),
    (b"-1.500000000", -2, 500000000, b"-1.500000000", b"-1.499999999", b"-1.499999998"),
]
# Each fraction of these is damaged.
BROKEN = [
    b"stamp 2021-03-01T00:00:00.25 2021-03-01T00:00:02.123456789 3 0 70",
    b"stamp 2021-03-01T23:59:59.999999999 2021-03-02T00:00:00.5 2 0 70",
    b"stampmonth 2021-01-15T12:00:00.5 2021-06-30T23:59:59.98765432 6 100 0",
    b"stampyear 2019-12-31T23:59:59.000000001 2024-01-01T00:00:00.0 6 -50 50",
    b"span -1.5 1.999999999 3 0 500",
    b"span -0.000000001 0.12345678 2 0 500",
    b"span -315576000000.0 315576000000.5 3 -32767 32767",
]
# What week lines must print, written out by hand.
WEEKS = {
    b"week 2021-03-01 2021-06-30 6 0 100": [b"2021-03-01 0", b"2021-03-22 17", b"2021-04-12 34", b"2021-05-03 52",
                                            b"2021-05-24 69", b"2021-06-14 86"],
    # No Monday, no row, whatever the limits; a Monday at the start, at the end and alone.
    b"week 2021-03-02 2021-03-07 3 0 70": [],
    b"week 2021-03-02 2021-03-07 0 0 32768": [],
    b"week 2021-03-02 2021-03-02 3 5 9": [],
    b"week 2021-02-28 2021-02-28 3 5 9": [],
    b"week 2021-03-01 2021-03-07 3 0 60": [b"2021-03-01 0"],
    b"week 2021-02-23 2021-03-01 3 0 60": [b"2021-03-01 60"],
    b"week 2021-03-01 2021-03-01 3 5 9": [b"2021-03-01 5"],
    # N is 0; as many Mondays as N + 1, and one more; more than twice as many.
    b"week 2021-02-28 2021-03-22 0 0 22": [b"2021-03-01 1"],
    b"week 2021-03-01 2021-03-01 0 -7 70": [b"2021-03-01 -7"],
    b"week 2021-03-01 2021-03-15 2 0 14": [b"2021-03-01 0", b"2021-03-08 7", b"2021-03-15 14"],
    b"week 2021-03-01 2021-03-22 2 0 21": [b"2021-03-01 0", b"2021-03-15 14"],
    b"week 2021-03-02 2021-04-19 2 0 48": [b"2021-03-08 6", b"2021-03-29 27", b"2021-04-19 48"],
    b"week 2021-03-01 2021-03-08 4096 0 70": [b"2021-03-01 0", b"2021-03-08 70"],
    # Into a year that a week 53 stands before; limits that are swapped; the first day and the last.
    b"week 2020-12-21 2021-01-11 9 0 21": [b"2020-12-21 0", b"2020-12-28 7", b"2021-01-04 14", b"2021-01-11 21"],
    b"week 2021-03-03 2021-03-24 3 210 0": [b"2021-03-08 160", b"2021-03-15 90", b"2021-03-22 20"],
    b"week 0001-01-01 0001-01-14 1 0 13": [b"0001-01-01 0", b"0001-01-08 7"],
    b"week 9999-12-20 9999-12-31 4 0 11": [b"9999-12-20 0", b"9999-12-27 7"],
    b"week 9999-12-28 9999-12-31 4 0 11": [],
    b"week 0001-01-01 9999-12-31 1 -32767 32767": [b"0001-01-01 -32767", b"5000-07-07 0"],
    # Each refusal, and the first of several.
    b"week 2021-03-08 2021-03-01 3 0 70": [b"- !4"],
    b"week 2021-03-07 2021-03-02 3 0 70": [b"- !4"],
    b"week 2021-03-01 2021-03-08 -1 0 70": [b"- !6"],
    b"week 2021-03-02 2021-03-07 4097 0 70": [b"- !6"],
    b"week 2021-03-01 2021-03-08 3 0 32768": [b"2021-03-01 !7", b"2021-03-08 !7"],
    b"week 2021-03-01 2021-03-08 0 -32768 70": [b"2021-03-01 !7"],
    b"week 2021-02-30 2021-02-29 5000 0 40000": [b"- !3"],
    b"week 2021-03-08 2021-03-01 5000 0 40000": [b"- !4"],
    b"week 2021-03-01 2021-03-08 5000 0 40000": [b"- !6"],
}
NO_WEEK = [b"weeks", b"weekk", b"wweek", b"Week", b"WEEK", b"weeK", b"wee", b"eek", b"wek", b"w", b"week8", b"week-date",
           b"weekdate", b"weekly", b"isoweek", b"stampweek", b"8"]
NO_WEEK_END = {
    b"- !12": [b"2021-03-01T00:00:00", b"2021-03-01T00:00:00.5", b"2021-03-01T", b"2021-03-01.5", b"2021-03-01.0", b"2021-03-01.",
               b"2021-W09", b"2021-W09-1", b"2021W091", b"2021-09-1", b"2021-060", b"20210301", b"2021-3-01", b"2021/03/01",
               b"12021-03-01", b"-2021-03-01", b"737850", b"0"],
    b"- !3": [b"2021-02-29", b"1900-02-29", b"2021-04-31", b"2021-00-10", b"2021-13-01", b"2021-01-00", b"2021-12-32",
              b"0000-12-31", b"9999-99-99"],
}


def input_of(lines):
    return START + b"".join(line + b"\n" for line in lines)


def by_hand(group, plate, reading, table):
    """The rows as the table has them for each line, of the reading and of plate."""
    rows = [b"%d %s\n" % (number, row) for number, rows in enumerate(table.values(), 1) for row in rows]
    group.same("the reading", HEADING + b"".join(rows), reading.expected(input_of(table)))
    group.same("plate", HEADING + b"".join(rows), plate.output(input_of(table)))
    return list(table)


def weeks_by_hand(plate, reading):
    group, table = Group("weeks by hand"), dict(WEEKS)
    for name in NO_WEEK:
        table[name + b" 2021-03-01 2021-03-08 3 0 70"] = [b"- !12"]
    for refusal, texts in NO_WEEK_END.items():
        for text in texts:
            table[b"week %s 2021-03-08 3 0 70" % text] = table[b"week 2021-03-01 %s 3 0 70" % text] = [refusal]
    lines = by_hand(group, plate, reading, table)
    group.done(", %d lines" % len(lines))


def mondays(plate, reading):
    """Week lines from each weekday, also at both ends of the calendar. The rows must be those of the date line that lists every
    day of the span: its Mondays by Python's own weekday, of them every m-th, with the least m that leaves at most N + 1. And
    each of these Mondays, typed as start and end, is its own tick."""
    group, spans, table, listed = Group("Mondays"), {}, {}, set()
    firsts = [datetime.date.fromordinal(day + i) for day in (1, 737776, LAST_DAY - 90, LAST_DAY - 6) for i in range(7)]
    for first, days in itertools.product(firsts, [*range(64), 83, 84, 85, 90, 364, 365, 1000, 4096]):
        if first.toordinal() + days <= LAST_DAY:
            ends = "%s %s" % (first, first + datetime.timedelta(days))
            limits = ("0 1000", "300 -300")[days % 2]
            spans[ends, limits] = days, ("date %s 4096 %s" % (ends, limits)).encode()
    reading.expected(input_of(line for _, line in spans.values()))
    for (ends, limits), (days, line) in spans.items():
        rows = reading.rows[line]
        if len(rows) != days + 1:
            group.difference("%r" % line, "lists %d of %d days" % (len(rows), days + 1))
        found = [row for row in rows if datetime.date.fromisoformat(row[:10].decode()).weekday() == 0]
        listed.update(row[:10] for row in found)
        for hint in (0, 1, 2, 3, 5, 8, 4096):
            step = next(m for m in itertools.count(1) if -(-len(found) // m) <= hint + 1)
            table[("week %s %d %s" % (ends, hint, limits)).encode()] = found[::step]
    for text in sorted(listed):
        table[b"week %s %s 0 3 9" % (text, text)] = [text + b" 3"]
    lines = by_hand(group, plate, reading, table)
    empty = sum(not rows for rows in table.values())
    group.done(", %d lines, %d of them without a Monday, %d Mondays put as starts" % (
        len(lines) - len(listed), empty, len(listed)))


def typed_fractions(plate, reading):
    """A point and nought to ten digits behind every field of every kind: a date-time or a span takes one to nine, nothing else
    takes any. What was read shows to the nanosecond, by the refusal of a later start and, where the kind lists it, as a tick."""
    group, table = Group("typed fractions"), {}
    ends = [(kind, b"2021-03-04" if KINDS[kind] in DATED else b"2021-03-04T05:06:07") for kind in KINDS if kind != b"span"]
    for kind, end in [*ends, (b"span", b"7"), (b"span", b"-7")]:
        for digits, count in itertools.product((b"1234567890", b"9876543210", b"0000000000"), range(11)):
            fraction = b"." + digits[:count]
            read = KINDS[kind] not in DATED and 1 <= count <= 9
            for at in range(3 if read else 1, 6):
                fields = [kind, end, end, b"3", b"0", b"70"]
                fields[at] += fraction
                table[b" ".join(fields)] = [b"- !12"]
            value = int(digits[:count].ljust(9, b"0"))
            if not read or not value:
                continue
            typed, around = end + fraction, [end + b".%09d" % near for near in (value - 1, value, value + 1)]
            before, same, after = around[::-1] if end.startswith(b"-") else around
            listed = kind in (b"stamp", b"span")
            for start, last, rows in (
                (typed, same, []), (same, typed, []), (typed, before, [b"- !4"]), (after, typed, [b"- !4"]),
                (typed, after, [same + b" 0"] * listed), (before, typed, [before + b" 0"] * listed),
            ):
                table[b"%s %s %s 3 0 70" % (kind, start, last)] = rows
    lines = by_hand(group, plate, reading, table)
    group.done(", %d lines" % len(lines))
    return lines


def fractions_by_hand(plate, reading):
    group, table = Group("fractions by hand"), dict(BY_HAND)
    for refusal, texts in ((b"- !12", UNREAD), (b"- !3", NO_VALUE)):
        for kind in (b"stamp", b"stampmonth", b"stampyear", b"span"):
            good = b"0.5" if kind == b"span" else b"2021-03-04T05:06:07.5"
            for text in texts[b"span" if kind == b"span" else b"stamp"]:
                table[b"%s %s %s 3 0 70" % (kind, text, good)] = table[b"%s %s %s 3 0 70" % (kind, good, text)] = [refusal]
    lines = by_hand(group, plate, reading, table)
    group.done(", %d lines" % len(lines))
    return lines


def signs(plate, reading):
    group, table = Group("sign and fraction"), {}
    for typed, head, tail, text, more, end in SIGNS:
        group.same("%r" % typed, b"%d %d\n" % (head, tail), b"%d %d\n" % value_of(7, typed))
        group.same("%r shown" % typed, text, shown(7, head, tail, True).encode())
        table[b"span %s %s 2 0 2" % (typed, end)] = [text + b" 0", more + b" 1"]
    lines = by_hand(group, plate, reading, table)
    group.done(", %d lines" % len(lines))
    return lines


def compared(group, plate, reading, lines):
    data = input_of(lines)
    expected = reading.expected(data)
    group.same("one input", expected, plate.output(data))
    return expected


def around_zero(plate, reading):
    """Both orders of all these ends, so half of the lines start later than they end."""
    group, ends = Group("spans around zero"), [b"-0", b"-0.0", b"0", b"0.000", b"-2.0", b"2.0"]
    for second, fraction in itertools.product((b"0", b"1"), (b".000000001", b".25", b".5", b".999999999", b"")):
        ends += [sign + second + fraction for sign in (b"-", b"")]
    lines = [b"span %s %s %d 0 1000" % (*pair, hint) for pair in itertools.product(ends, repeat=2) for hint in (1, 2, 4, 9, 20)]
    compared(group, plate, reading, lines)
    group.done(", %d lines" % len(lines))
    return lines


def need_lists(group, reading, lines):
    """Lists of whole and broken seconds come, on the two kinds that can have them, and lists of whole seconds alone where a
    fraction was typed, on each kind that takes one."""
    mixed, whole = [], []
    for line in lines:
        kind, ticks = line.split(b" ")[0], [row.split(b" ")[0] for row in reading.rows[line]]
        zeros = sum(tick.endswith(b".000000000") for tick in ticks)
        if 0 < zeros < len(ticks):
            mixed.append(kind)
        elif b"." in line and ticks and b"." not in ticks[0] and ticks[0] != b"-":
            whole.append(kind)
    if set(mixed) != {b"stamp", b"span"}:
        group.difference("the lines", "whole and broken seconds in one list: %s" % set(mixed))
    if set(whole) != {b"stamp", b"stampmonth", b"stampyear", b"span"}:
        group.difference("the lines", "a typed fraction and whole seconds: %s" % set(whole))
    return ", %d lines, %d with whole and broken seconds, %d with whole ones after a typed fraction" % (
        len(lines), len(mixed), len(whole))


def mixed_lists(plate, reading):
    """Around a midnight, a leap day, a year's end and zero, from fractions of a second to years."""
    group, lines = Group("whole and broken seconds"), []
    moments = [datetime.datetime.fromisoformat(text) for text in ("2021-03-01", "2020-02-29T23:59:58", "2021-12-31T23:59:59")]
    fractions = [("", ""), ("", ".5"), (".5", ".5"), (".25", ".75"), (".000000001", ".999999999"), (".9", ".000"), (".0", ".1")]
    for seconds in (0, 1, 2, 3, 10, 60, 5000, 3 * 86400, 800 * 86400):
        ends = [("span", "%d" % start, "%d" % (start + seconds)) for start in (0, 1, -1 - seconds // 2)]
        for moment in moments:
            later = moment + datetime.timedelta(seconds=seconds)
            ends += [(kind, moment.isoformat(), later.isoformat()) for kind in ("stamp", "stampmonth", "stampyear")]
        for (kind, start, end), (first, last), hint in itertools.product(ends, fractions, (1, 3, 6, 15)):
            lines.append(("%s %s%s %s%s %d 0 1000" % (kind, start, first, end, last, hint)).encode())
    compared(group, plate, reading, lines)
    group.done(need_lists(group, reading, lines))
    return lines


def damaged_fractions(plate, reading):
    """All edits of each fraction, from its point to the space after it, with every byte."""
    group, lines = Group("damaged fractions"), []
    for good in BROKEN:
        fields = good.split(b" ")
        for at in (1, 2):
            whole, fraction = fields[at].split(b".")
            for edit in (b"." + fraction + b" ", *edits(b"." + fraction + b" ", range(256))):
                lines.append(b" ".join(fields[:at] + [whole + edit + b" ".join(fields[at + 1 :])]))
    expected = compared(group, plate, reading, lines)
    for good in BROKEN:
        if any(b"!" in row for row in reading.rows[good]):
            group.difference("%r" % good, "is refused undamaged")
    group.done(", %d lines, %d of them unread" % (len(lines), expected.count(b" !12\n")))
    return input_of(lines).split(b"\n")[1:-1]  # an edit can break a line in two


def random_fraction(draw):
    digits = draw.choice(["", "", "0", "5", "25", "000", "000000001", "999999999", "%d" % draw.randrange(10**6),
                          "%09d" % draw.randrange(10**9)])
    return "." + digits if digits else ""


def random_broken_line(draw):
    """Date-times and spans, mostly of few seconds or nanoseconds, with and without fractions."""
    kind = draw.choice(["stamp"] * 3 + ["span"] * 3 + ["stampmonth", "stampyear"])
    apart = draw.choice([0, 0, 0, 0, 1, 1, 1, 2, 3, 10, 59, 3600, 86400, 40 * 86400, 800 * 86400])
    if kind == "span":
        edge = draw.choice([0, 0, 1, 60, 86400, 4 * 10**9, 315576 * 10**6])
        start = draw.choice([-edge, edge, edge - apart, -edge - 1, draw.randint(-9999, 9999)])
        ends = ["%d" % start, "%d" % (start + apart)]
        ends = ["-0" if end == "0" and draw.random() < 0.4 else end for end in ends]
    else:
        text = draw.choice(["2021-03-01T00:00:00", "2020-01-01T00:00:00", "2020-12-31T23:59:59", "0001-01-01T00:00:00",
                            "2021-01-01T%02d:00:%02d" % (draw.randint(0, 23), draw.randint(0, 59))])
        ends = [text, (datetime.datetime.fromisoformat(text) + datetime.timedelta(seconds=apart)).isoformat()]
    fractions = [random_fraction(draw), random_fraction(draw)]
    if draw.random() < 0.3:
        first = draw.choice([0, 10**9 - 5000, draw.randrange(10**9 - 5000)])
        fractions = [".%09d" % first, ".%09d" % (first + draw.choice([0, 1, 2, 10, 100, 4095, 4097]))]
    ends = [end + fraction for end, fraction in zip(ends, fractions)]
    if draw.random() < 0.05:
        ends.reverse()
    seldom = str(draw.choice([0, 4097, 1.5, draw.randint(1, 200)]))
    hint = draw.choice(["1", "2", "3", "4", "5", "7", "10", "20", "50", seldom])
    limits = [draw.choice(["0", "-0", "70", "500", "-500", "32767", "-32767", str(draw.choice([32768, 0.5]))]) for _ in range(2)]
    return " ".join([kind, *ends, hint, *limits]).encode()


def random_fractions(plate, reading):
    """Every refusal that a line can get must come."""
    group, draw = Group("random fractions"), random.Random(20261117)
    lines = [random_broken_line(draw) for _ in range(3000)]
    expected = compared(group, plate, reading, lines)
    for refusal in (3, 4, 5, 6, 7, 9, 10, 12):
        if b" !%d\n" % refusal not in expected:
            group.difference("the lines", "none is refused by %d" % refusal)
    group.done(need_lists(group, reading, lines))
    return lines


def read_back(plate, reading, lines):
    """Every tick of these lines: its text is read to the tick's own head and tail, and plate reads it so: it is the first tick
    of a list by the nanosecond that starts with it. No two ticks of a line look alike, and nine digits stand where one needs
    them."""
    group, again = Group("ticks read back"), {}
    lines = [line for line in dict.fromkeys(lines) if reading.rows[line] and not reading.rows[line][0].startswith(b"- ")]
    requests = [request_of(line) for line in lines]
    for line, request, answer in zip(lines, requests, reading.told(requests)):
        kind, values = request[0], list(zip(answer[2::4], answer[3::4]))
        texts = [row.split(b" ")[0] for row in reading.rows[line]]
        read = [value_of(kind, text) for text in texts]
        group.same("%r" % line, *(b"".join(b"%d %d\n" % value for value in pairs) for pairs in (values, read)))
        if len(set(texts)) < len(texts):
            group.difference("%r" % line, "two ticks look alike")
        digits = 9 if any(tail % SECOND for _, tail in values) else 0
        if any(len(text.partition(b".")[2]) != digits or b"-" in text and not text.strip(b"-.0") for text in texts):
            group.difference("%r" % line, "the digits of %r" % texts[:SHOWN])
        name, whole = (b"span", SECOND) if kind == 7 else (b"stamp", 86400 * SECOND)
        for text, (head, tail) in zip(texts, values):
            end = divmod(head * whole + tail + 2, whole)
            if abs(end[0]) < 4 * 10**9 if kind == 7 else end[0] <= LAST_DAY:  # no list by the nanosecond ends beyond
                asked = b"%s %s %s 2 0 2" % (name, text, shown(kind, *end, True).encode())
                again[asked] = text if b"." in text else text + b".000000000"
    compared(group, plate, reading, again)
    for asked, text in again.items():
        if reading.rows[asked][0] != text + b" 0":
            group.difference("%r" % asked, "the first row is %r" % reading.rows[asked][0])
    group.done(", %d ticks put as starts" % len(again))


def random_bytes(plate, reading):
    group, draw = Group("random bytes"), random.Random(20260402)
    alphabets = [bytes(range(256)), b"0123456789-:. T\n", b"datespn 2021-03\n", b" \n", b"\0\r\n \xff"]
    for alphabet in alphabets:
        data = bytes(draw.choices(alphabet, k=2**16))
        group.same("all of %.20r" % alphabet, reading.expected(data), plate.output(data))
        group.same("after the names, %.20r" % alphabet, reading.expected(START + data), plate.output(START + data))
    # Good lines with a few random bytes in them.
    lines = []
    for _ in range(4000):
        line = bytearray(draw.choice(GOOD))
        for _ in range(draw.randint(1, 3)):
            line[draw.randrange(len(line))] = draw.choice(alphabets[draw.randrange(3)])
        lines.append(bytes(line))
    data = START + b"\n".join(lines) + b"\n"
    group.same("good lines spoilt", reading.expected(data), plate.output(data))
    group.done()


def full_buffer(plate, reading):
    """Lists of thousands among short lines: their rows go beyond the buffer at many places."""
    group, draw = Group("more rows than the buffer holds"), random.Random(20261116)
    longs = [b"stamp 2021-03-01T00:00:00 2021-03-01T01:08:16 4096 0 8192", b"date 2001-01-01 2012-03-20 4096 -32767 32767",
             b"stamp 2021-03-01T00:00:00 2021-03-01T00:00:01.02375 4096 -32767 32767", b"span -1.024 1.0235 4096 -32767 32767",
             b"week 1942-05-04 2020-11-02 4096 -32767 32767"]
    for _ in range(4):
        lines = [draw.choice(longs) if draw.random() < 0.5 else draw.choice(GOOD) for _ in range(40)]
        data = START + b"\n".join(lines) + b"\n"
        group.same("40 lines", reading.expected(data), plate.output(data))
    group.done()


class Said(bytes):
    """Both outputs of a run that may fail, as one text to compare."""

    def __new__(cls, out, error, status=0):
        return super().__new__(cls, b"exit status %d\non standard error: %s\non standard output:\n%s" % (status, error, out))


def closing(descriptor):
    """What a child does first, so that it starts with this one closed."""
    return lambda: os.close(descriptor)


def said_by(plate, *words, stdin=subprocess.DEVNULL, stdout=subprocess.PIPE, **more):
    more.update(stdin=stdin, stdout=stdout, stderr=subprocess.PIPE, timeout=PATIENCE)
    try:
        done = subprocess.run([plate.program, *words], **more)
    except subprocess.TimeoutExpired:
        return Said(b"", b"no end after %d seconds" % PATIENCE)
    return Said(done.stdout or b"", done.stderr, done.returncode)


def failing_reads(plate, reading):
    """The reason on standard error, the rows of the lines before it, and not the rows of an end."""
    group = Group("reads that fail")
    folder = os.open("/", os.O_RDONLY)
    group.same("a directory", Said(b"", b"plate: read: Is a directory\n"), said_by(plate, stdin=folder))
    os.close(folder)
    closed = said_by(plate, preexec_fn=closing(0))
    group.same("a closed descriptor", Said(b"", b"plate: read: Bad file descriptor\n"), closed)
    for begun in (b"", b"date 2021-03"):
        data = START + GOOD[0] + b"\n"
        rows = reading.expected(data)
        # The other end of a terminal hangs up once what it said is read.
        near, far = pty.openpty()
        tty.setraw(far)
        os.write(far, data + begun)
        os.close(far)
        group.same("a terminal that hangs up", Said(rows, b"plate: read: Input/output error\n"), said_by(plate, stdin=near))
        os.close(near)
        near, far = os.pipe()
        os.set_blocking(near, False)
        os.write(far, data + begun)
        not_yet = Said(rows, b"plate: read: Resource temporarily unavailable\n")
        group.same("a pipe that does not wait", not_yet, said_by(plate, stdin=near))
        os.close(near), os.close(far)
    group.done()


def failing_writes(plate, reading):
    """The reason on standard error, and nothing more, at a line and at the end of the input."""
    group, names = Group("writes that fail"), tempfile.TemporaryFile()
    names.write(START)
    for what, given in (("at a line", names), ("at the end", subprocess.DEVNULL)):
        with open("/dev/full", "wb") as full:
            names.seek(0)
            said = said_by(plate, stdin=given, stdout=full)
        group.same("a full disk, " + what, Said(b"", b"plate: write: No space left on device\n"), said)
        names.seek(0)
        said = said_by(plate, stdin=given, preexec_fn=closing(1))
        group.same("a closed output, " + what, Said(b"", b"plate: write: Bad file descriptor\n"), said)
    # std ignores SIGPIPE at a program's start, so it is the same whether plate inherits that or not
    for signals in (False, True):
        near, far = os.pipe()
        os.close(near)
        names.seek(0)
        said = said_by(plate, stdin=names, stdout=far, restore_signals=signals)
        group.same("nobody reads", Said(b"", b"plate: write: Broken pipe\n"), said)
        os.close(far)
    group.same("a pipe that does not wait", b"a part of the rows, and why", full_pipe(plate, reading))
    group.done()


def full_pipe(plate, reading):
    """Nobody takes from the pipe, and it does not let plate wait."""
    with tempfile.TemporaryFile() as given:
        data = START + b"date 2001-01-01 2012-03-20 4096 0 8192\n" * 9
        given.write(data)
        given.seek(0)
        near, far = os.pipe()
        os.set_blocking(far, False)
        said = said_by(plate, stdin=given, stdout=far)
        os.close(far)
        with open(near, "rb") as end:
            out = end.read()
    whole = reading.expected(data)
    if said != Said(b"", b"plate: write: Resource temporarily unavailable\n"):
        return said
    return b"a part of the rows, and why" if out and out != whole and whole.startswith(out) else b"other rows"


def arguments(plate, _):
    """--help alone prints the forms; all else is an error, and neither reads nor prints."""
    group = Group("arguments")
    error = b"plate: the only argument is --help; axes are read from standard input\n"
    with tempfile.TemporaryFile() as given:
        given.write(EXAMPLE)

        def said(*words, **more):
            given.seek(0)
            got = said_by(plate, *words, stdin=given, **more)
            if os.lseek(given.fileno(), 0, os.SEEK_CUR):
                group.difference(words, "the input was read")
            return got

        text = said("--help")
        for word in (b"exit status 0\non standard error: \n", b"kind start end hint low high", b"YYYY-MM-DDThh:mm:ss", b"span",
                     b"week"):
            if word not in text:
                group.difference("--help", "has no %r" % word)
        if text.count(b"\n") != 3 + 10:
            group.difference("--help", "%d lines" % (text.count(b"\n") - 3))
        for words in (["-h"], ["x"], [""], ["--hel"], ["--helps"], ["-" * 5000], ["--help", "--help"], ["x", "--help"]):
            group.same(words, Said(b"", error), said(*words))
        with open("/dev/full", "wb") as full:
            group.same("--help", Said(b"", b"plate: write: No space left on device\n"), said("--help", stdout=full))
    group.done()


def single_writes(plate, reading):
    """A chunk's rows come in one write: each is a message of its own here."""
    group = Group("one write for a chunk")
    for count in (1, 100, 1000):
        near, far = socket.socketpair(socket.AF_UNIX, socket.SOCK_SEQPACKET)
        data = START + b"".join(line + b"\n" for line in itertools.islice(itertools.cycle([GOOD[0], GOOD[2], GOOD[4]]), count))
        with tempfile.TemporaryFile() as given, near, far:
            given.write(data)
            given.seek(0)
            said = said_by(plate, stdin=given, stdout=far)
            far.close()
            group.same("standard error", Said(b"", b""), said)
            group.same("%d lines" % count, reading.expected(data), near.recv(2**20))
            group.same("after them", b"", near.recv(2**20))
    group.done()


def output_and_peak(plate, peak, data, folder):
    """From file to file, so that no other process slows plate down; the output, the largest memory in KiB, and the seconds."""
    put, got, report = (os.path.join(folder, name) for name in ("in", "out", "peak"))
    with open(put, "wb") as file:
        file.write(data)
    begin = time.monotonic()
    with open(put, "rb") as source, open(got, "wb") as sink:
        status = subprocess.run([peak, report, plate.program], stdin=source, stdout=sink, timeout=10 * PATIENCE).returncode
    seconds = time.monotonic() - begin
    with open(got, "rb") as out, open(report) as number:
        return out.read() if status == 0 else b"exit status %d" % status, int(number.read()), seconds


def many_lines(plate, reading, tools):
    """A thousand lines, a few times, and a million: the same bytes as expected, and no more memory but for the noise of pages
    that the system shares or not; a byte kept for each line is 976 KiB."""
    group, draw = Group("a million lines"), random.Random(20260403)
    pool = [draw.choice([random_line, random_broken_line])(draw) for _ in range(3000)]
    reading.expected(START + b"\n".join(pool) + b"\n")
    short = [line for line in pool if len(reading.rows[line]) <= 3][:1000]
    peaks = []
    with tempfile.TemporaryDirectory() as folder:
        for count in (10**3, 10**3, 10**3, 10**6):
            data = START + b"\n".join(draw.choices(short, k=count)) + b"\n"
            got, peak, seconds = output_and_peak(plate, os.path.join(tools, "peak"), data, folder)
            group.same("%d lines" % count, reading.expected(data), got)
            peaks.append(peak)
    few, many = max(peaks[:3]), peaks[3]
    if many > few + 400:
        group.difference("memory", "%d KiB for 10^3 lines, %d KiB for 10^6" % (few, many))
    group.done(", %d KiB and %d KiB, %d lines a second" % (few, many, 10**6 / seconds))


def main(program, tools):
    plate, reading = Plate(program), Reading(os.path.join(tools, "answers"))
    for check in (example, names, broken_off, pieces, damaged, line_ends, lengths, long_lines, random_lines, random_bytes,
                  weeks_by_hand, mondays, full_buffer, failing_reads, failing_writes, arguments, single_writes):
        check(plate, reading)
    lines = []
    for check in (typed_fractions, fractions_by_hand, signs, around_zero, mixed_lists, damaged_fractions, random_fractions):
        lines += check(plate, reading)
    read_back(plate, reading, lines)
    many_lines(plate, reading, tools)
    return Group.failed


if __name__ == "__main__":
    sys.exit(main(os.path.realpath(sys.argv[1]), sys.argv[2]))
