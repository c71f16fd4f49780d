"""Lengths, places and counts. Counts are a dictionary by the number of a table; where one lacks, the table has its greatest count."""

from collections import namedtuple

from .faults import Stop
from .storage import value_of
from .trees import above, beneath, dimensions, size_of, varies

# How a reference names an entry: the entry, and a subscript for each of its tables.
Ref = namedtuple("Ref", "entry subscripts")


class ShortCount(Exception):
    """The item of a count ends past the bytes."""


def times(entry, counts):
    """How often an entry occurs."""
    if entry.occurs is None:
        return 1
    return counts.get(entry.number, entry.occurs.most) if varies(entry) else entry.occurs.most


def element(entry, counts):
    """The length of one element."""
    if entry.picture is not None:
        return size_of(entry)
    return sum(whole(child, counts) for child in entry.children if child.area is None)


def whole(entry, counts):
    return element(entry, counts) * times(entry, counts)


def offset(entry, subscripts, counts):
    """Where an element begins; the subscripts are those of the tables that it stands in or is."""
    own = [] if entry.occurs is None else subscripts[-1:]
    outer = subscripts[:len(subscripts) - len(own)]
    if entry.parent is None:
        start = 0
    elif entry.area is not None:
        start = offset(entry.area, outer, counts)
    else:
        siblings = entry.parent.children
        before = siblings[:siblings.index(entry)]
        start = offset(entry.parent, outer, counts) + sum(whole(e, counts) for e in before if e.area is None)
    return start + sum((subscript - 1) * element(entry, counts) for subscript in own)


def read_count(table, bytes_, counts, side):
    """The count of a table in a storage, under the counts before it."""
    item = table.count
    at = offset(item, [], counts)
    if at + size_of(item) > len(bytes_):
        raise ShortCount()
    number = value_of(item, bytes_[at:at + size_of(item)])
    if number is None or number.negative or not table.occurs.least <= number.units <= table.occurs.most:
        raise Stop(side, at, "Count")
    return number.units


def counts_of(book, bytes_, side, needed=lambda table: True):
    """The counts of those tables that are needed, taken in entry order."""
    counts = {}
    for table in book.tables():
        if needed(table):
            counts[table.number] = read_count(table, bytes_, counts, side)
    return counts


def is_needed(entry, table):
    """Whether a reference to an entry needs the count of a table."""
    holders = [entry] + list(above(entry))
    return (
        table.number <= entry.number
        or entry in above(table)
        or any(e.occurs is not None and e in above(table) for e in holders)
    )


def is_last(book, entry):
    """Whether no later entry outside a group follows it."""
    last = max([entry.number] + [e.number for e in beneath(entry)])
    return last == len(book.entries) - 1


def place(book, ref, bytes_, side, receiving):
    """Where an element that a statement names stands, and its length."""
    inner = lambda table: False
    if receiving and ref.entry.picture is None and is_last(book, ref.entry):
        inside = {ref.entry.number} | {e.number for e in beneath(ref.entry)}
        inner = lambda table: table.number in inside and table.count.number in inside
    counts = counts_of(book, bytes_, side, lambda table: is_needed(ref.entry, table) and not inner(table))
    start = offset(ref.entry, ref.subscripts, counts)
    if any(s > times(t, counts) for s, t in zip(ref.subscripts, dimensions(ref.entry))):
        raise Stop(side, start, "Subscript")
    return start, element(ref.entry, counts)


def elements(entry, counts):
    """The subscripts of each element of an entry, the last the fastest."""
    found = [[]]
    for table in dimensions(entry):
        found = [before + [k] for before in found for k in range(1, times(table, counts) + 1)]
    return found
