"""Books: the tree of a copybook's entries, and the rules that it keeps."""

from fractions import Fraction

from .entries import Entry, entries_of, number_of
from .layouts import element, whole
from .trees import above, bears, dimensions, is_or_holds_varying, nearest, varies

MOST_TABLES, MOST_BYTES, MOST_DIGITS, MOST_BINARY_DIGITS, MOST_LITERAL = 7, 32_752, 31, 18, 160


class Book:
    """A record description: its entries in order, each with its parent, and what each stands for."""

    def __init__(self, name, text):
        self.entries = with_record(name, entries_of(text))
        join(self.entries)
        for entry in self.entries:
            settle(entry)
        for entry in self.entries:
            check_redefinition(entry)
            check_tables(entry)
            check_clauses(entry)
        for entry in self.entries:
            find_count(entry, self.entries)
        self.root = self.entries[0]
        check_lengths(self)
        for entry in self.entries:
            check_value(entry)

    def tables(self):
        """The tables that vary, in entry order."""
        return [entry for entry in self.entries if varies(entry)]


def with_record(name, entries):
    """The entries beneath a record of this name, where they do not begin with one of their own."""
    if entries[0].level == 1:
        return entries
    return [Entry(1, name, entries[0].line)] + entries


def join(entries):
    """Puts each entry beneath the nearest one before it with a smaller level."""
    last = None
    for number, entry in enumerate(entries):
        entry.number = number
        if not 1 <= entry.level <= 49 or number and entry.level == 1:
            entry.refuse("B3")
        while last is not None and last.level >= entry.level:
            last = last.parent
        entry.parent, last = last, entry
        if entry.parent is not None:
            entry.parent.children.append(entry)
        if entry.parent is not None and entry.parent.picture is not None:
            entry.refuse("B3")
    for entry in entries:
        if entry.picture is None and not entry.children:
            entry.refuse("B3")


def settle(entry):
    """Finds out the storage and the category of an entry."""
    groups = [e.usage for e in above(entry) if e.usage is not None]
    if groups and entry.usage is not None and entry.usage != groups[0]:
        entry.refuse("B5")
    entry.storage = entry.category = "group"
    if entry.picture is None:
        return
    entry.category = entry.picture.category
    usage = nearest(entry, "usage") or "display"
    if usage != "display":
        check_usage(entry, usage)
    settle_sign(entry, usage)
    if entry.category == "numeric":
        entry.storage = usage if usage != "display" else "separate" if entry.separate else "zoned"
        if entry.blank:
            check_blank_number(entry)
            entry.storage = entry.category = "numeric-edited"
    else:
        entry.storage = entry.category


def check_usage(entry, usage):
    """Packed and binary items are numbers, and binary ones have few digits."""
    symbols = [p.symbol for p in entry.picture.positions]
    digits = symbols.count("9") + symbols.count("P")
    if entry.category != "numeric" or usage == "binary" and digits > MOST_BINARY_DIGITS:
        entry.refuse("B5")


def settle_sign(entry, usage):
    """Finds out where the sign of a number stands."""
    takes = entry.category == "numeric" and entry.picture.signed and usage == "display"
    if entry.sign is not None and not takes:
        entry.refuse("B6")
    sign = nearest(entry, "sign") if takes else None
    entry.leading = sign is not None and sign.leading
    entry.separate = sign is not None and sign.separate


def check_blank_number(entry):
    symbols = [p.symbol for p in entry.picture.positions]
    if entry.picture.signed or "P" in symbols or entry.storage not in ("zoned",):
        entry.refuse("B11")


def area_of(entry):
    """The entry that began the area of a redefinition."""
    siblings = entry.parent.children if entry.parent is not None else []
    for before in reversed(siblings[:siblings.index(entry)] if entry in siblings else []):
        if before.level != entry.level:
            continue
        if before.name == entry.redefines:
            return before if before.redefines is None else area_of(before)
        if before.redefines is None:
            break
    return entry.refuse("B7")


def check_redefinition(entry):
    """REDEFINES names an area of the same group and level, with nothing between that defines new storage."""
    entry.area = None
    if entry.redefines is None:
        return
    entry.area = area_of(entry)
    siblings = entry.parent.children
    between = siblings[siblings.index(entry.area) + 1:siblings.index(entry)]
    if any(e.redefines is None for e in between) or entry.area.occurs is not None:
        entry.refuse("B7")
    if is_or_holds_varying(entry) or is_or_holds_varying(entry.area):
        entry.refuse("B7")


def check_tables(entry):
    """OCCURS: not at the record, so many dimensions at most, and numbers in order."""
    if entry.occurs is None:
        return
    if entry.parent is None or len(dimensions(entry)) > MOST_TABLES:
        entry.refuse("B8")
    least, most = entry.occurs.least, entry.occurs.most
    if most < 1 or varies(entry) and not least < most:
        entry.refuse("B8")


def check_clauses(entry):
    """JUSTIFIED and BLANK WHEN ZERO."""
    if entry.justified and entry.category not in ("alphabetic", "alphanumeric"):
        entry.refuse("B11")
    asterisks = entry.picture is not None and any(p.symbol == "*" for p in entry.picture.positions)
    if entry.blank and (entry.category != "numeric-edited" or asterisks):
        entry.refuse("B11")


def find_count(entry, entries):
    """The count of a table that varies."""
    entry.count = None
    if not varies(entry):
        return
    found = [e for e in entries if bears(e, entry.occurs.count, entry.occurs.qualifiers)]
    if len(found) != 1:
        entry.refuse("B9")
    count = entry.count = found[0]
    whole = count.category == "numeric" and count.picture.scale == 0
    if not whole or any(p.symbol == "P" for p in count.picture.positions) or dimensions(count) or count.number > entry.number:
        entry.refuse("B9")


def check_lengths(book):
    if whole(book.root, {}) > MOST_BYTES:
        book.root.refuse("B14")
    for entry in book.entries:
        if entry.area is not None and whole(entry, {}) > element(entry.area, {}):
            entry.refuse("B7")


def check_value(entry):
    """VALUE: none in a redefinition or beneath a group that has one, and it fits."""
    if entry.value is None:
        return
    if any(e.area is not None for e in [entry] + list(above(entry))) or any(e.value is not None for e in above(entry)):
        entry.refuse("B10")
    if entry.category == "numeric":
        fits = entry.value.kind == "figurative" and entry.value.byte == 0xF0 or number_fits(entry)
    else:
        fits = characters_fit(entry.value, element(entry, {}))
    if not fits:
        entry.refuse("B10")


def number_fits(item):
    """Whether a number holds its literal without loss."""
    if item.value.kind != "number":
        return False
    sign, whole, part = number_of(item.value.text)
    if len(whole) + len(part) > MOST_DIGITS or sign and not item.picture.signed:
        return False
    units = Fraction(int(whole + part), 10 ** len(part)) * Fraction(10) ** item.picture.scale
    return units.denominator == 1 and units < 10 ** item.picture.digits


def characters_fit(value, size):
    if value.kind == "all":
        return 1 <= len(value.text) <= MOST_LITERAL
    return value.kind == "figurative" or value.kind == "quoted" and len(value.text) <= min(size, MOST_LITERAL)
