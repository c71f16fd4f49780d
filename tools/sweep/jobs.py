"""Jobs: three texts, two forms and data in one text, and what is printed for it."""

import re

from .books import Book
from .faults import Malformed, Refused
from .runs import Conversion

MOST_BYTES = 4_000_000


def lines_with_ends(text):
    return re.findall(rb"[^\n]*\n|[^\n]+", text)


def without_end(line):
    return re.sub(rb"\r?\n$", b"", line)


class Job:
    """A job, cut at its marks."""

    def __init__(self, text):
        if len(text) > MOST_BYTES:
            raise Malformed(0)
        self.lines, self.at = lines_with_ends(text), 0
        self.in_form = self.mark(b"=IN f", b"=IN v")
        self.in_book = self.part()
        self.out_form = self.mark(b"=OUT f", b"=OUT v")
        self.out_book = self.part()
        self.mark(b"=MOVE")
        self.moves = self.part()
        self.mark(b"=DATA")
        self.data = self.bytes_of_lines()

    def mark(self, *wanted):
        """Takes a mark; the answer is its last letter, a form."""
        if self.at == len(self.lines):
            raise Malformed(0)
        line = without_end(self.lines[self.at])
        self.at += 1
        if line not in wanted:
            raise Malformed(self.at)
        return line[-1:].decode()

    def part(self):
        """Takes the lines up to the next mark."""
        start = self.at
        while self.at < len(self.lines) and not self.lines[self.at].startswith(b"="):
            self.at += 1
        return b"".join(self.lines[start:self.at])

    def bytes_of_lines(self):
        """The bytes of the data."""
        digits = b""
        for number, line in enumerate(self.lines[self.at:], self.at + 1):
            line = without_end(line)
            if not re.fullmatch(rb"[0-9A-Fa-f ]*", line):
                raise Malformed(number)
            digits += line.replace(b" ", b"")
        if len(digits) % 2:
            raise Malformed(len(self.lines))
        return bytes.fromhex(digits.decode())


def refusing(name, read):
    """What reading a text of this name gives; a refusal carries the name."""
    try:
        return read()
    except Refused as fault:
        fault.text = name
        raise


def conversion_of(job):
    source = refusing("in-book", lambda: Book("IN-RECORD", job.in_book))
    target = refusing("out-book", lambda: Book("OUT-RECORD", job.out_book))
    return refusing("moves", lambda: Conversion(source, target, job.moves, job.in_form, job.out_form))


def printed(text):
    """What a job prints, and its status."""
    try:
        job = Job(text)
        conversion = conversion_of(job)
    except Malformed as fault:
        return "job line %d\n" % fault.line, 2
    except Refused as fault:
        return "%s %s line %d\n" % (fault.text, fault.rule, fault.line), 3
    written, count, stop = conversion.run(job.data)
    shown = written.hex().upper() + "\n" if written else ""
    if stop is None:
        return shown + "done %d\n" % count, 0
    return shown + "record %d %s offset %d %s\n" % (count + 1, stop.side, stop.offset, stop.cause), 1
