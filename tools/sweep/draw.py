"""The jobs of the sweep, each drawn from its number alone.

A job's random numbers are the states of a linear congruential generator of 64 bits: the first state is the job's number, the next one is
6364136223846793005 times the state before plus 1442695040888963407, modulo 2 to the 64, and a number below n is the state that comes next
without its 33 lowest bits, modulo n. The items that can be drawn stand in the tables of crates/cob_test_jobs/data/sweep, a row each: the clauses of
the sender, the half bytes of its value, and the clauses of its receivers.
"""

import os
from collections import namedtuple

DATA = os.path.join(os.path.dirname(os.path.realpath(__file__)), "../../crates/cob_test_jobs/data/sweep")
# How many levels may stand below the record, and by how much they can rise.
MOST_DEPTH, STEPS = 4, (1, 2, 5, 12)
PREFIXES = ("E", "ITEM-", "THE-NAME-OF-AN-ENTRY-NUMBER")

Row = namedtuple("Row", "clauses halves receivers")
# How often an entry occurs: once, so many times, or from least to most times by the count of this number.
Times = namedtuple("Times", "least most count")
ONCE = Times(1, 1, None)


class Draw:
    """A generator of random numbers."""

    def __init__(self, number):
        self.state = number

    def below(self, limit):
        self.state = (self.state * 6364136223846793005 + 1442695040888963407) % 2 ** 64
        return (self.state >> 33) % limit


class Entry:
    """An entry that was drawn; shape is item, count, redefinition or group."""

    def __init__(self, number, named, depth, times, shape, row=None, of=None, children=()):
        self.number, self.named, self.depth, self.times = number, named, depth, times
        self.shape, self.row, self.of, self.children = shape, row, of, children


def rows_of(name):
    with open(os.path.join(DATA, name + ".rows")) as file:
        return [Row(*line.rstrip("\n").split("\t")[:2], line.rstrip("\n").split("\t")[2].split("|")) for line in file]


class Sketch:
    """A record as it is drawn: how many entries it has, and from which tables its items come."""

    def __init__(self, draw, items, counts):
        self.draw, self.items, self.counts, self.last = draw, items, counts, 0

    def number(self):
        self.last += 1
        return self.last

    def times(self, above, entries, depth):
        """Draws how often an entry occurs; a table that varies beneath no other gets a count before it."""
        which = self.draw.below(6)
        if which == 0:
            times = 1 + self.draw.below(3)
            return Times(times, times, None)
        if which > 1 or above is not ONCE and above.count is None:
            return ONCE
        count = above.count
        if count is None:
            count = self.number()
            row = self.counts[self.draw.below(len(self.counts))]
            entries.append(Entry(count, True, depth, ONCE, "count", row))
        least = self.draw.below(2)
        return Times(least, 3 + self.draw.below(2), count)

    def entries(self, depth, above):
        """Draws the entries of a group: above is the table that it stands in or is."""
        entries = []
        for _ in range((3 if depth == 1 else 1) + self.draw.below(3)):
            times = self.times(above, entries, depth)
            number, named = self.number(), self.draw.below(8) != 0
            if depth < MOST_DEPTH and self.draw.below(3) == 0:
                beneath = self.entries(depth + 1, above if times is ONCE else times)
                entries.append(Entry(number, named, depth, times, "group", children=beneath))
            else:
                self.item(entries, number, named, depth, times)
        return entries

    def item(self, entries, number, named, depth, times):
        """Draws an item, and perhaps a redefinition of it."""
        row = self.items[self.draw.below(len(self.items))]
        entries.append(Entry(number, named, depth, times, "item", row))
        if named and times is ONCE and self.draw.below(4) == 0:
            entries.append(Entry(self.number(), True, depth, ONCE, "redefinition", row, of=number))


def listed(entries, tables=()):
    """The named entries in their order, each with the tables that it stands in or is."""
    for entry in entries:
        own = tables if entry.times is ONCE else tables + (entry.times,)
        if entry.named:
            yield entry, own
        yield from listed(entry.children, own)


class Texts:
    """How a job writes its texts: the names and the levels of its records."""

    def __init__(self, draw):
        self.prefix, self.step = PREFIXES[draw.below(3)], STEPS[draw.below(4)]
        self.names = ["IN-REC", "OUT-REC"]
        self.has_record = [draw.below(4) != 0, draw.below(4) != 0]

    def record(self, side):
        """The name of a record."""
        return self.names[side] if self.has_record[side] else self.names[side] + "ORD"

    def name(self, number):
        return "%s%03d" % (self.prefix, number)

    def head(self, side):
        """The line of the record itself, where a copybook has one."""
        return "       01  %s.\n" % self.names[side] if self.has_record[side] else ""

    def entry(self, depth, name, clauses, times):
        """The lines of an entry."""
        lines = ["       %02d  %s" % (1 + depth * self.step, name)] + clauses
        if times.count is not None:
            lines += ["OCCURS %d TO %d DEPENDING ON" % times[:2], self.name(times.count)]
        elif times is not ONCE:
            lines.append("OCCURS %d" % times.most)
        return "\n           ".join(lines) + ".\n"

    def entries(self, entries):
        """The lines of the entries of the input record."""
        text = ""
        for entry in entries:
            name = self.name(entry.number) if entry.named else "FILLER"
            text += self.entry(entry.depth, name, self.clauses(entry), entry.times) + self.entries(entry.children)
        return text

    def clauses(self, entry):
        if entry.shape == "group":
            return []
        if entry.shape == "redefinition":
            return ["REDEFINES", self.name(entry.of), "PIC X(%d)" % (len(entry.row.halves) // 2)]
        return [entry.row.clauses]


def receiving_clauses(draw, entry):
    """The clauses of the receiver of an entry."""
    if entry.shape == "group":
        return "PIC X(9)"
    if entry.shape == "redefinition":
        return "PIC X(6)"
    return entry.row.receivers[draw.below(len(entry.row.receivers))]


def receivers(draw, texts, entries):
    """The lines of the output record: counts first, then every third entry behind a group that has no name."""
    text = "".join(texts.entry(1, texts.name(e.number), [receiving_clauses(draw, e)], ONCE) for e, _ in entries if e.shape == "count")
    others = [e for e, _ in entries if e.shape != "count"]
    first = draw.below(len(others)) if others else 0
    depth = 1
    for k in range(len(others)):
        entry = others[(first + len(others) - k) % len(others)]
        if k % 3 == 2:
            text += texts.entry(1, "FILLER", [], ONCE)
            depth = 2
        text += texts.entry(depth, texts.name(entry.number), [receiving_clauses(draw, entry)], entry.times)
    return text


def subscripts(draw, tables, counter=""):
    """Subscripts that are there whatever the counts are, and behind them the counter of a loop, if it has a name."""
    words = [str(1 if t.count is not None else 1 + draw.below(t.most)) for t in tables] + ([counter] if counter else [])
    return " (" + " ".join(words) + ")" if words else ""


def statement(draw, texts, entry, tables):
    """The statement that moves an entry to the one of its name, or the loop that moves its elements."""
    own = () if entry.times is ONCE else (entry.times,)
    in_loop = entry.times is not ONCE and entry.times.count is None and draw.below(2) == 0
    first, step = (1 + draw.below(2), 1 + draw.below(2)) if in_loop else (0, 0)
    counter, tables, own = ("I", tables[:-1], ()) if in_loop else ("", tables, own)
    name = texts.name(entry.number)
    lines = ["           MOVE", "%s OF %s%s" % (name, texts.record(0), subscripts(draw, tables, counter)), "TO",
             "%s OF %s%s" % (name, texts.record(1), subscripts(draw, own, counter))]
    words = "\n               ".join(lines)
    if not in_loop:
        return words + ".\n"
    head = "           PERFORM VARYING I FROM %d BY %d UNTIL I > %d\n" % (first, step, entry.times.most)
    return head + words + "\n           END-PERFORM.\n"


def statements(draw, texts, entries):
    """A statement for each entry, the counts first, and perhaps one of corresponding entries."""
    ordered = [pair for pair in entries if pair[0].shape == "count"] + [pair for pair in entries if pair[0].shape != "count"]
    text = "".join(statement(draw, texts, entry, tables) for entry, tables in ordered)
    if draw.below(3) == 0:
        text += "           MOVE CORRESPONDING %s TO %s.\n" % (texts.record(0), texts.record(1))
    return text


def half_byte(draw, symbol, count):
    """A half byte of a value: d is a digit, n one from 1 on, s a sign, t half a sign of its own, x any, and c the count."""
    if symbol == "d":
        return draw.below(10)
    if symbol == "n":
        return 1 + draw.below(9)
    if symbol == "s":
        return 12 + draw.below(2)
    if symbol == "t":
        return 4 + 2 * draw.below(2)
    if symbol == "x":
        return draw.below(16)
    return count if symbol == "c" else int(symbol, 16)


def value(draw, halves, count):
    """The bytes of a value."""
    drawn = [half_byte(draw, symbol, count) for symbol in halves]
    return bytes(16 * high + low for high, low in zip(drawn[::2], drawn[1::2]))


def record(draw, entries, counts):
    """The current part of a record; its counts are drawn where their items stand."""
    content = b""
    for entry in entries:
        if entry.shape == "count":
            counts[entry.number] = 1 + draw.below(3)
        times = entry.times.most if entry.times.count is None else counts[entry.times.count]
        for _ in range(times):
            if entry.shape in ("item", "count"):
                content += value(draw, entry.row.halves, counts.get(entry.number, 0))
            content += record(draw, entry.children, counts)
    return content


def greatest_length(entries):
    """How many bytes entries have where each table has its greatest number of elements."""
    own = lambda e: len(e.row.halves) // 2 if e.shape in ("item", "count") else 0
    return sum(e.times.most * (own(e) + greatest_length(e.children)) for e in entries)


def data(draw, entries, form):
    """The bytes of one record with its frame."""
    content = record(draw, entries, {})
    if form == "f":
        return content.ljust(greatest_length(entries), b"\x40")
    return (len(content) + 4).to_bytes(2, "big") + b"\0\0" + content


class SweepJob:
    """A job of the sweep: its forms, its texts and its data."""

    def __init__(self, number, items, counts):
        draw = Draw(number)
        texts = Texts(draw)
        self.in_form, self.out_form = "fv"[draw.below(2)], "fv"[draw.below(2)]
        entries = Sketch(draw, items, counts).entries(1, ONCE)
        named = list(listed(entries))
        self.in_book = texts.head(0) + texts.entries(entries)
        self.out_book = texts.head(1) + receivers(draw, texts, named)
        self.moves = statements(draw, texts, named)
        self.data = b"".join(data(draw, entries, self.in_form) for _ in range(1 + draw.below(3)))

    def text(self):
        """The job as one text."""
        return "=IN %s\n%s=OUT %s\n%s=MOVE\n%s=DATA\n%s\n" % (
            self.in_form, self.in_book, self.out_form, self.out_book, self.moves, self.data.hex().upper())
