"""What plate must print for an input, read a second time from document 01 (section plate), and from its changes for ticks closer
than a second and for weeks.

Lines, fields, forms, real dates, refusals and the shown text are worked out here, the calendar by Python's own datetime.
Ticks and pixels are the archive's, asked through the program answers.
Usage: reading.py ANSWERS < input > output
"""

import datetime
import re
import subprocess
import sys

NAMES = b"kind start end hint low high"
HEADING = b"line tick pixel\n"
KINDS = {b"date": 1, b"month": 2, b"year": 3, b"stamp": 4, b"stampmonth": 5, b"stampyear": 6, b"span": 7, b"week": 8}
DATED = (1, 2, 3, 8)  # the kinds whose values are dates
LONGEST = 120  # bytes before the LF

NUMBER = re.compile(rb"-?[0-9]{1,12}")
FRACTION = rb"(?:\.([0-9]{1,9}))?"
DATE = re.compile(rb"([0-9]{4})-([0-9]{2})-([0-9]{2})")
STAMP = re.compile(DATE.pattern + rb"T([0-9]{2}):([0-9]{2}):([0-9]{2})" + FRACTION)
SPAN = re.compile(rb"(-?)([0-9]{1,12})" + FRACTION)
SECOND = 10**9  # nanoseconds


class NotReal(Exception):
    """A date or time in form that no calendar or clock has."""


def form_of(kind):
    return DATE if kind in DATED else SPAN if kind == 7 else STAMP


def nanoseconds(seconds, fraction):
    """The digits after the point may be fewer than nine, or none."""
    return seconds * SECOND + int((fraction or b"").ljust(9, b"0"))


def value_of(kind, field):
    """Head and tail of a start or end that has its form."""
    parts = form_of(kind).fullmatch(field).groups()
    if kind == 7:
        sign, seconds, fraction = parts
        away = nanoseconds(int(seconds), fraction)  # from zero
        return divmod(-away if sign else away, SECOND)
    *numbers, fraction = (*parts, 0, 0, 0, None) if kind in DATED else parts
    year, month, day, hour, minute, second = map(int, numbers)
    try:
        datetime.time(hour, minute, second)
        head = datetime.date(year, month, day).toordinal()
    except ValueError:
        raise NotReal from None
    return head, nanoseconds(hour * 3600 + minute * 60 + second, fraction)


def request_of(line):
    """The eight numbers of a line, or None if it does not read. NotReal if it reads, but an end is not real."""
    fields = line.split(b" ")
    if len(line) > LONGEST or len(fields) != 6 or fields[0] not in KINDS:
        return None
    kind = KINDS[fields[0]]
    forms = [form_of(kind)] * 2 + [NUMBER] * 3
    if not all(form.fullmatch(field) for form, field in zip(forms, fields[1:])):
        return None
    hint, low, high = map(int, fields[3:])
    return (kind, *value_of(kind, fields[1]), *value_of(kind, fields[2]), hint, low, high)


def shown(kind, head, tail, broken):
    """A tick's text, with nine digits after the seconds where its list has broken ones."""
    if kind == 7:
        whole = head * SECOND + tail
        seconds, fraction = divmod(abs(whole), SECOND)
        text = "%s%d" % ("-" if whole < 0 else "", seconds)
    else:
        text = datetime.date.fromordinal(head).isoformat()
        seconds, fraction = divmod(tail, SECOND)
        if kind not in DATED:
            text += "T%02d:%02d:%02d" % (seconds // 3600, seconds // 60 % 60, seconds % 60)
    return text + ".%09d" % fraction if broken else text


def rows_of(kind, answer):
    """The rows for one line, without its number: of the numbers that answers printed."""
    status, count, *ticks = answer
    if status:
        return [b"- !%d" % status]
    rows, broken = [], any(tail % SECOND for tail in ticks[1::4])
    for i in range(count):
        head, tail, refused, pixel = ticks[4 * i : 4 * i + 4]
        place = "!%d" % refused if refused else "%d" % pixel
        rows.append(("%s %s" % (shown(kind, head, tail, broken), place)).encode())
    return rows


class Reading:
    def __init__(self, answers):
        self.answers = answers
        self.rows = {}  # of each line seen

    def _learn(self, lines):
        """Works out the rows of lines not seen before; one process answers for all."""
        asked = []
        for line in set(lines) - self.rows.keys():
            try:
                request = request_of(line)
            except NotReal:
                self.rows[line] = [b"- !3"]
                continue
            if request is None:
                self.rows[line] = [b"- !12"]
            else:
                asked.append((line, request))
        for (line, request), answer in zip(asked, self.told([request for _, request in asked])):
            self.rows[line] = rows_of(request[0], answer)

    def told(self, requests):
        """The numbers that answers prints for each request."""
        if not requests:
            return []
        text = "".join(" ".join(map(str, request)) + "\n" for request in requests)
        told = subprocess.run([self.answers], input=text.encode(), stdout=subprocess.PIPE, check=True).stdout.splitlines()
        if len(told) != len(requests):
            raise RuntimeError("answers has %d lines for %d requests" % (len(told), len(requests)))
        return [list(map(int, answer.split())) for answer in told]

    def expected(self, data):
        *lines, rest = data.split(b"\n")
        if not lines or lines[0] != NAMES:
            return HEADING + b"0 - !12\n"
        del lines[0]
        self._learn(lines)
        out = [HEADING]
        for number, line in enumerate(lines, 1):
            for row in self.rows[line]:
                out.append(b"%d %s\n" % (number, row))
        if rest:  # a last line without LF
            out.append(b"%d - !12\n" % (len(lines) + 1))
        return b"".join(out)


if __name__ == "__main__":
    sys.stdout.buffer.write(Reading(sys.argv[1]).expected(sys.stdin.buffer.read()))
