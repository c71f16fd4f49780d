"""The words of a text in reference format."""

import re
from collections import namedtuple

from .faults import Refused

MOST_BYTES = 1_000_000
QUOTES = "\"'"

# kind: word, literal or stop
Word = namedtuple("Word", "kind text line")


class Joined:
    """A line with the continuations behind it: its characters, each with its line, and the quote of a literal that is open."""

    def __init__(self, number, area):
        self.cells, self.quote = [], None
        self.add(number, area)

    def add(self, number, columns):
        """Adds columns up to 72; the spaces at their end are a part only of a literal that they leave open."""
        for character in columns:
            if self.quote is None and character in QUOTES:
                self.quote = character
            elif character == self.quote:
                self.quote = None
        self.last = number
        self.closed_in_72 = self.quote is None and columns[-1:] in ('"', "'")
        kept = columns if self.quote is not None else columns.rstrip()
        self.cells += [(character, number) for character in kept]


def lines_of(text):
    """The lines of a text, without their ends."""
    lines = text.split(b"\n")
    ended = [line[:-1] if line.endswith(b"\r") else line for line in lines[:-1]]
    return ended + lines[-1:] if lines[-1] else ended


def columns_of(line, number):
    """The indicator and columns 8 to 72 of a line, or None for a comment."""
    columns = line[:72].ljust(72)
    if columns[6:7] in b"*/Dd":
        return None
    if b"\t" in columns:
        raise Refused("T2", number)
    if any(not 0x20 <= byte <= 0x7E for byte in columns[6:]):
        raise Refused("T1", number)
    if columns[6:7] not in b" -":
        raise Refused("T6", number)
    return columns[6:7].decode(), columns[7:].decode()


def is_skipped(indicator, area):
    return not area.strip() or (
        indicator == " " and re.fullmatch(r"(EJECT|SKIP[123])\.?", area.strip().upper()) is not None
    )


def go_on(joined, number, area):
    """Joins a continuation line to the line before."""
    first = area.lstrip()
    if joined is None or area[:4].strip():
        raise Refused("T4", number)
    if joined.quote is not None:
        if first[0] != joined.quote:
            raise Refused("T4", number)
        joined.add(number, first[1:])
    elif first[0] in QUOTES and joined.closed_in_72:
        raise Refused("T4", number)
    else:
        joined.add(number, first)


def literal_at(cells, at):
    """The characters of the literal that begins here, and where it ends."""
    quote, text, at = cells[at][0], "", at + 1
    while True:
        if cells[at][0] != quote:
            text += cells[at][0]
            at += 1
        elif at + 1 < len(cells) and cells[at + 1][0] == quote:
            text += quote
            at += 2
        else:
            return text, at + 1


def word_at(cells, at):
    """The words of a run of characters that begins here, and where it ends."""
    end = at
    while end < len(cells) and cells[end][0] not in " \"'":
        end += 1
    text, line, stop_line = "".join(c for c, _ in cells[at:end]).upper(), cells[at][1], cells[end - 1][1]
    if end < len(cells) and cells[end][0] != " ":
        return [Word("word", text, line)], end
    stop = [Word("stop", ".", stop_line)] if text.endswith(".") else []
    text = text[:-1] if text[-1] in ",;." else text
    return ([Word("word", text, line)] if text else []) + stop, end


def cut(joined):
    """The words of a joined line."""
    if joined is None:
        return []
    if joined.quote is not None:
        raise Refused("T3", joined.last)
    words, at, cells = [], 0, joined.cells
    while at < len(cells):
        if cells[at][0] == " ":
            at += 1
        elif cells[at][0] in QUOTES:
            line = cells[at][1]
            text, at = literal_at(cells, at)
            words.append(Word("literal", text, line))
        else:
            found, at = word_at(cells, at)
            words += found
    return words


def words_of(text):
    """The words, literals and stops of a text."""
    if len(text) > MOST_BYTES:
        raise Refused("T5", 1)
    words, joined = [], None
    for number, line in enumerate(lines_of(text), 1):
        columns = columns_of(line, number)
        if columns is None or is_skipped(*columns):
            continue
        indicator, area = columns
        if indicator == "-":
            go_on(joined, number, area)
        else:
            words += cut(joined)
            joined = Joined(number, area)
    return words + cut(joined)


def paragraph_words_of(text):
    """The words of a paragraph: each word is cut again at brackets and commas."""
    words = []
    for word in words_of(text):
        if word.kind == "word":
            words += [Word("word", piece, word.line) for piece in re.findall(r"[()]|[^(),]+", word.text)]
        else:
            words.append(word)
    return words
