"""Pictures as lists of positions."""

import re
from collections import namedtuple

MOST_CHARACTERS, MOST_SIZE, MOST_EDITED_SIZE, MOST_DIGITS = 50, 32_752, 249, 31

# A symbol of a picture with its repeats written out, and its role: character, digit, suppressed, floating, first floating, insertion,
# point, sign, currency or none. CR and DB are the symbols C and D.
Position = namedtuple("Position", "symbol role")


class BadPicture(Exception):
    """A text is no picture, by this rule."""


class Picture:
    """A picture: its category, its positions, and the counts over them."""

    def __init__(self, category, positions):
        self.category, self.positions = category, positions
        symbols = "".join(p.symbol for p in positions)
        self.signed = symbols.startswith("S") if category == "numeric" else any(is_sign(p) for p in positions)
        self.size = sum(width(p) for p in positions)
        self.digits, self.scale = counts_of(category, positions, symbols)


def is_sign(position):
    return position.symbol in "CD" or position.role in ("sign", "floating") and position.symbol in "+-"


def width(position):
    """How many bytes a position has."""
    return 2 if position.symbol in "CD" else 0 if position.role == "none" else 1


def is_digit_place(position):
    return position.role in ("digit", "suppressed", "floating")


def counts_of(category, positions, symbols):
    """Digits and scale."""
    if category == "numeric":
        nines, ps = symbols.count("9"), symbols.count("P")
        if ps:
            return nines, nines + ps if symbols.lstrip("SV")[0] == "P" else -ps
        return nines, symbols.partition("V")[2].count("9")
    if category != "numeric-edited":
        return 0, 0
    point = next((k for k, p in enumerate(positions) if p.symbol in ".V"), len(positions))
    places = [is_digit_place(p) for p in positions]
    return sum(places), sum(places[point:])


def spelled(text):
    """The symbols of a picture, with repeats written out (as far as they matter) and CR and DB as C and D."""
    symbols, at = "", 0
    while at < len(text):
        found = re.compile(r"CR|DB|[AX9SVPZ*$+B0/,.-]").match(text, at)
        if found is None:
            refuse_character(text[at], symbols)
        at, repeat = found.end(), 1
        if text[at:at + 1] == "(":
            count = re.compile(r"\((\d+)\)").match(text, at)
            if count is None or int(count[1]) == 0:
                raise BadPicture("P3")
            at, repeat = count.end(), int(count[1])
        symbols += found[0][0] * min(repeat, MOST_SIZE + 1)
    return symbols


def refuse_character(character, before):
    if character in "ENGU":
        raise BadPicture("P7")
    raise BadPicture("P3" if character == "(" else "P2")


NUMERIC = re.compile(r"S?(9+(V9*)?|V9+|V?P+9+|9+P+V?)")
TAIL = r"([+CD-])?"


def edited_patterns():
    """Patterns of numeric edited pictures, each with the symbol of its run, and none where it has no run."""
    yield re.compile(r"([+-]?)(\$?)[9B/0,]*([.V][9B/0,]*)?" + TAIL), ""
    for run in ("Z", "*"):
        r = re.escape(run)
        yield re.compile(r"([+-]?)(\$?)[B/0,]*%s[B/0,%s]*[9B/0,]*([.V][9B/0,]*)?" % (r, r) + TAIL), run
        yield re.compile(r"([+-]?)(\$?)[B/0,]*(?:%s[B/0,%s]*)?([.V][B/0,%s]*)" % (r, r, r) + TAIL), run
    for run, before, tail in (("$", "([+-]?)", TAIL), ("+", "()", "()"), ("-", "()", "()")):
        r = re.escape(run)
        yield re.compile(before + r"()[B/0,]*%s[B/0,]*%s[B/0,%s]*[9B/0,]*([.V][9B/0,]*)?" % (r, r, r) + tail), run
        yield re.compile(before + r"()[B/0,]*%s[B/0,%s]*([.V][B/0,%s]*)" % (r, r, r) + tail), run


def edited_run(symbols):
    """The symbol of the run of a numeric edited picture (none where it has none), or None where the symbols are none."""
    for pattern, run in edited_patterns():
        found = pattern.fullmatch(symbols)
        if found is None or found[1] and found[4]:
            continue
        if run and symbols.count(run) < (1 if run in "Z*" else 2):
            continue
        return run
    return None


def edited_role(symbol, run, seen):
    """The role of a symbol of a numeric edited picture, with how many of the run stand before it."""
    if symbol == run:
        return "suppressed" if run in "Z*" else "floating" if seen else "first floating"
    if symbol in "B/0,":
        return "insertion"
    return {"9": "digit", ".": "point", "V": "none", "$": "currency"}.get(symbol, "sign")


def numeric_edited(symbols):
    """A numeric edited picture."""
    if "P" in symbols or re.match(r"[B/0,]*\$[B/0,]*([+-])[B/0,]*\1", symbols):
        raise BadPicture("P7")
    run = edited_run(symbols)
    if run is None or symbols[-1] in ",." or not re.search(r"[^9V]", symbols):
        raise BadPicture("P4")
    positions = []
    for at, symbol in enumerate(symbols):
        positions.append(Position(symbol, edited_role(symbol, run, run in symbols[:at] if run else False)))
    picture = Picture("numeric-edited", positions)
    if not 1 <= picture.digits <= MOST_DIGITS:
        raise BadPicture("P5")
    return picture


def with_characters(category, symbols):
    """A picture of characters, with insertions among them or none."""
    return Picture(category, [Position(s, "insertion" if s in "B0/" else "character") for s in symbols])


def numeric(symbols):
    if not 1 <= symbols.count("9") + symbols.count("P") <= MOST_DIGITS:
        raise BadPicture("P5")
    return Picture("numeric", [Position(s, "digit" if s == "9" else "none") for s in symbols])


def category_of(symbols):
    """The picture of symbols that are written out."""
    if NUMERIC.fullmatch(symbols):
        return numeric(symbols)
    if re.fullmatch("A+", symbols):
        return with_characters("alphabetic", symbols)
    if re.fullmatch("[AX9]+", symbols):
        return with_characters("alphanumeric", symbols)
    if re.fullmatch("[AX9B0/]+", symbols) and re.search("[AX]", symbols):
        return with_characters("alphanumeric-edited", symbols)
    return numeric_edited(symbols)


def picture_of(text):
    """The picture of a text."""
    if not text:
        raise BadPicture("P1")
    if len(text) > MOST_CHARACTERS:
        raise BadPicture("P6")
    picture = category_of(spelled(text))
    if picture.size > (MOST_EDITED_SIZE if "edited" in picture.category else MOST_SIZE):
        raise BadPicture("P6")
    return picture
