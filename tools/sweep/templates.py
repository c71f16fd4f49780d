"""Templates of copybooks and of paragraphs: what the program that reads each of their texts must print."""

import os
import re
from itertools import product

from .books import Book
from .faults import Refused
from .layouts import whole
from .paragraphs import Paragraph

DATA = os.path.join(os.path.dirname(os.path.realpath(__file__)), "..", "..", "crates", "cob_test_jobs", "data", "moves")
ESCAPED = re.compile(r"\\x([0-9A-F]{2})|\\(.)")
CONTROLS = {"n": "\n", "r": "\r", "t": "\t", "\\": "\\"}


def expanded(template):
    """The texts of a template: a piece of each pair of braces, the first ones changing fastest."""
    places = [part[1:-1].split("|") if part.startswith("{") else [part] for part in re.findall(r"\{[^}]*\}|[^{]+", template)]
    return ["".join(reversed(chosen)) for chosen in product(*reversed(places))]


def source_of(question, text):
    """The source text that a text of a template stands for."""
    if question == "raw":
        return ESCAPED.sub(lambda m: chr(int(m[1], 16)) if m[1] else CONTROLS[m[2]], text).encode("latin-1")
    return "\n".join("       " + line for line in text.split("|")).encode()


def reader_of(table, fields):
    """What the texts of a row are read by, which answers the size of each, and what these sizes are."""
    if table != "paragraph_templates":
        return (lambda text: whole(Book("IN-RECORD", text).root, {})), "lengths"
    books = [Book(name, source_of("lines", entries)) for name, entries in zip(("IN-RECORD", "OUT-RECORD"), fields[1:])]
    return (lambda text: sum(len(move.receivers) for move in Paragraph(*books, text).moves)), "moves"


def answer(table, fields):
    """What is answered to a row."""
    read, name = reader_of(table, fields)
    texts = expanded(fields[-1])
    sizes = []
    for text in texts:
        try:
            sizes.append(read(source_of(fields[0], text)))
        except Refused as fault:
            return "%s line %d: %s" % (fault.rule, fault.line, text)
    return "%d texts, each read, %s %d to %d" % (len(texts), name, min(sizes), max(sizes))


def lines(tables):
    """The lines that are printed for tables."""
    for table in tables:
        with open(os.path.join(DATA, table + ".rows"), encoding="ascii") as file:
            for line in file.read().splitlines():
                if not line.strip() or line.startswith("#"):
                    yield line
                else:
                    fields = line.split("\t")
                    yield " | ".join(fields) + " -> " + answer(table, fields)
