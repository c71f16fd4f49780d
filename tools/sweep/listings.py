"""The lines that list a copybook and the values of records."""

from .faults import Stop
from .layouts import ShortCount, counts_of, element, elements, offset
from .runs import next_record
from .storage import CHARACTERS, value_of
from .trees import dimensions, size_of, varies


def occurs_of(entry):
    """What a line says of a table."""
    if entry.occurs is None:
        return ""
    if varies(entry):
        return " occurs %d %d on %s" % (entry.occurs.least, entry.occurs.most, entry.occurs.count)
    return " occurs %d" % entry.occurs.most


def layout_text(book):
    """A line for each entry."""
    lines = []
    for entry in book.entries:
        at = offset(entry, [1] * len(dimensions(entry)), {})
        redefines = " redefines " + entry.redefines if entry.redefines else ""
        lines.append("%02d %s %d %d %s" % (entry.level, entry.name or "FILLER", at, element(entry, {}), entry.storage)
                     + redefines + occurs_of(entry) + "\n")
    return "".join(lines)


def character(byte):
    """A byte between quotes."""
    shown = CHARACTERS.get(byte)
    return "\\x%02X" % byte if shown is None or shown in "\"\\" else shown


def number_text(value):
    """A number as text."""
    digits = str(value.units) + "0" * (-value.scale if value.units else 0)
    if value.scale > 0:
        digits = digits.zfill(value.scale + 1)
        digits = digits[:-value.scale] + "." + digits[-value.scale:]
    return ("-" if value.negative else "") + digits


def value_text(item, content):
    """The value of an item's bytes."""
    if item.category != "numeric":
        return '"%s"' % "".join(map(character, content))
    value = value_of(item, content)
    return "?" + content.hex().upper() if value is None else number_text(value)


def record_text(book, record, counts):
    """A line for each element of each named elementary item."""
    lines = []
    for item in book.entries:
        if item.picture is None or item.name is None:
            continue
        for subscripts in elements(item, counts):
            at = offset(item, subscripts, counts)
            named = item.name + ("(%s)" % ",".join(map(str, subscripts)) if subscripts else "")
            lines.append("%s %d %s\n" % (named, at, value_text(item, record[at:at + size_of(item)])))
    return "".join(lines)


def all_counts(book, record):
    try:
        return counts_of(book, record, "in")
    except ShortCount:
        raise Stop("in", 0, "F4")


def show_text(book, form, data):
    """The lines of the records that come, how many there are, and the stop, if one came."""
    lines, count = "", 0
    while data:
        try:
            record, data = next_record(book, form, data)
            shown = record_text(book, record, all_counts(book, record))
        except Stop as stop:
            return lines, count, stop
        count += 1
        lines += "record %d\n" % count + shown
    return lines, count, None
