"""Records as they come in and go out, and a run over them."""

from .faults import Stop
from .layouts import ShortCount, counts_of, whole
from .moving import Record, initial
from .paragraphs import Paragraph


def next_fixed(data, most):
    """The next record of a fixed length, and what follows it."""
    if len(data) < most:
        raise Stop("in", 0, "F1 seen %d" % len(data))
    return data[:most], data[most:]


def next_variable(data, most):
    """The next record behind its descriptor, and what follows it."""
    if len(data) < 4:
        raise Stop("in", 0, "F1 seen %d" % len(data))
    number, segment = int.from_bytes(data[:2], "big"), data[2]
    if segment & 0xFC or data[3]:
        raise Stop("in", 0, "F2")
    if segment:
        raise Stop("in", 0, "F3")
    if number < 4:
        raise Stop("in", 0, "F2")
    if number == 4 or number > 4 + most:
        raise Stop("in", 0, "F4")
    if len(data) < number:
        raise Stop("in", 0, "F1 seen %d" % len(data))
    return data[4:number], data[number:]


def current_counts(book, record):
    """All counts of a record of varying length, which has the length that they give."""
    try:
        counts = counts_of(book, record, "in")
    except ShortCount:
        raise Stop("in", 0, "F4")
    if whole(book.root, counts) != len(record):
        raise Stop("in", 0, "F4")
    return counts


def next_record(book, form, data):
    """The next record of a form, and what follows it."""
    most = whole(book.root, {})
    if form == "f":
        return next_fixed(data, most)
    record, rest = next_variable(data, most)
    current_counts(book, record)
    return record, rest


def framed(book, form, storage):
    """What is written of an output storage."""
    counts = counts_of(book, storage, "out")
    if form == "f":
        return bytes(storage)
    length = whole(book.root, counts)
    return (length + 4).to_bytes(2, "big") + b"\0\0" + bytes(storage[:length])


class Conversion:
    """A prepared conversion: two books, their forms, and a paragraph between them."""

    def __init__(self, source, target, moves, in_form, out_form):
        self.books = {"in": source, "out": target}
        self.paragraph = Paragraph(source, target, moves)
        self.in_form, self.out_form = in_form, out_form

    def run(self, data):
        """What is written of the data, how many records, and the stop, if one came."""
        written, count, image = b"", 0, initial(self.books["out"])
        while data:
            try:
                record, data = next_record(self.books["in"], self.in_form, data)
                both = Record(self.books, record, bytearray(image))
                both.carry_out(self.paragraph.deeds)
                written += framed(self.books["out"], self.out_form, both.bytes["out"])
            except Stop as stop:
                return written, count, stop
            count += 1
        return written, count, None
