"""The printed rows of the crates of rows, as far as they ask about whole copybooks, paragraphs and listings."""

import re

from .books import Book
from .faults import Refused
from .layouts import whole
from .listings import layout_text, show_text
from .paragraphs import Paragraph


def source_of(entries):
    """The source text of entries that are parted by bars."""
    return "\n".join("       " + entry for entry in entries.split("|")).encode()


def book_answer(fields):
    """The greatest length of a copybook."""
    book = Book("IN-RECORD" if fields[0].endswith("in") else "OUT-RECORD", source_of(fields[1]))
    return str(whole(book.root, {}))


def paragraph_answer(fields):
    """How many single moves a paragraph has."""
    books = [Book(name, source_of(entries)) for name, entries in zip(("IN-RECORD", "OUT-RECORD"), fields[1:])]
    return "moves %d" % sum(len(move.receivers) for move in Paragraph(*books, source_of(fields[3])).moves)


def layout_answer(fields):
    return layout_text(Book("IN-RECORD", source_of(fields[1]))).replace("\n", "|")


def show_answer(fields):
    """The lines of records, and how they end."""
    shown, count, stop = show_text(Book("IN-RECORD", source_of(fields[1])), fields[2], bytes.fromhex(fields[3]))
    end = "done %d" % count if stop is None else "record %d %s offset %d %s" % (count + 1, stop.side, stop.offset, stop.cause)
    return shown.replace("\n", "|") + end


ANSWERS = {"in": book_answer, "out": book_answer, "read": paragraph_answer, "layout": layout_answer, "show": show_answer}


def answer(fields):
    """What a row is answered."""
    try:
        return ANSWERS[fields[0]](fields)
    except Refused as fault:
        return "%s line %d" % (fault.rule, fault.line)


def wanted(fields, printed):
    """The part of what stands in a row that is compared: of a copybook its length, of a paragraph no steps, of a stop no bytes."""
    if fields[0] in ("in", "out") and not re.search(r" line \d+$", printed):
        return printed.split(" ")[0]
    return re.sub(r" steps \d+$", "", printed.split(" after ")[0])


def is_bytes(field):
    """Whether a field is hexadecimal digits, and so no copybook."""
    return re.fullmatch(r"[0-9A-F ]+", field) is not None


def is_template(question):
    """Whether a row asks about all texts of a template."""
    return "{" in question


def rows(text):
    """The rows that are answered here, each with what it must be answered."""
    for line in text.splitlines():
        question, arrow, printed = line.rpartition(" -> ")
        fields = question.split(" | ")
        if arrow and fields[0] in ANSWERS and len(fields) > 1 and not is_bytes(fields[1]) and not is_template(question):
            yield fields, wanted(fields, printed)
