"""What receivers get, and the moves of a paragraph carried out on a record."""

from .editing import edited, value_of_text
from .entries import Constant, number_of
from .faults import NoValue, Stop
from .layouts import element, elements, offset, place
from .paragraphs import Tested
from .storage import SPACE, encoded, number, store_number, value_of
from .trees import above, size_of

ZERO = number(False, 0, 0)


def amount_of(item, content):
    """The value of an item's bytes, where a value is asked for."""
    if item.category == "numeric":
        value = value_of(item, content)
    elif item.category == "numeric-edited":
        value = value_of_text(item.picture, item.blank, content)
    else:
        value = amount_of_digits(content)
    if value is None:
        raise NoValue()
    return value


def amount_of_digits(content):
    """The whole number of characters that are digits."""
    if not 1 <= len(content) <= 31 or any(not 0xF0 <= byte <= 0xF9 for byte in content):
        return None
    return number(False, int("".join(str(byte - 0xF0) for byte in content)), 0)


def digits_of(item, content):
    """The digits that a whole number gives to characters."""
    value = amount_of(item, content)
    return encoded(str(value.units).zfill(item.picture.digits) + "0" * -item.picture.scale)


def repeated(pattern, size):
    return (pattern * (size // len(pattern) + 1))[:size]


def constant_characters(constant, size):
    """The characters of a constant for a receiver of this size."""
    if constant.kind == "figurative":
        return bytes([constant.byte]) * size
    if constant.kind == "all":
        return repeated(encoded(constant.text), size)
    return encoded("".join(number_of(constant.text)[1:]) if constant.kind == "number" else constant.text)


def constant_amount(constant):
    """The value of a constant."""
    if constant.kind == "figurative":
        return ZERO
    if constant.kind == "quoted":
        return number(False, int(constant.text), 0)
    sign, whole, part = number_of(constant.text)
    return number(sign == "-", int(whole + part), len(part))


def left(content, size):
    return content[:size].ljust(size, bytes([SPACE]))


def in_places(item, content):
    """Characters put into the places of an alphanumeric edited item, the insertions between."""
    content, shown = iter(content), b""
    for position in item.picture.positions:
        if position.role == "character":
            shown += bytes([next(content, SPACE)])
        else:
            shown += encoded(" " if position.symbol == "B" else position.symbol)
    return shown


def characters(item, content):
    """Characters in an item of characters."""
    size = size_of(item)
    if item.category == "alphanumeric-edited":
        return in_places(item, content)
    if item.justified:
        return content[-size:].rjust(size, bytes([SPACE])) if content else left(b"", size)
    return left(content, size)


def amount_in(item, value):
    """A value in a number or an edited number."""
    if item.category == "numeric-edited":
        return edited(item.picture, item.blank, value)
    return store_number(item, value)


def received(sender, content, receiver, size):
    """The bytes that a receiver of this size gets from a constant, or from an entry with its bytes."""
    constant = isinstance(sender, Constant)
    if receiver.picture is None or not constant and sender.picture is None:
        return left(constant_characters(sender, size) if constant else content, size)
    if receiver.category in ("numeric", "numeric-edited"):
        return amount_in(receiver, constant_amount(sender) if constant else amount_of(sender, content))
    if constant:
        return characters(receiver, constant_characters(sender, size))
    return characters(receiver, digits_of(sender, content) if sender.category == "numeric" else content)


class Record:
    """The storages of both sides while the moves of a record are carried out."""

    def __init__(self, books, source, target):
        self.books, self.bytes = books, {"in": source, "out": target}

    def carry_out(self, deeds):
        """Carries out moves, and loops to items: each turn behind a test of its number, and a test behind the last one."""
        for deed in deeds:
            if isinstance(deed, Tested):
                for number, own in deed.turns:
                    if number > self.bound(deed):
                        break
                    self.carry_out(own)
                else:
                    self.bound(deed)
            else:
                self.move(deed)

    def bound(self, tested):
        """The number that the item of a loop holds."""
        start, length = place(self.books[tested.side], tested.bound, self.bytes[tested.side], tested.side, False)
        value = value_of(tested.bound.entry, bytes(self.bytes[tested.side][start:start + length]))
        if value is None or value.negative or value.units > tested.most:
            raise Stop(tested.side, start, "Count")
        return value.units

    def move(self, move):
        """Carries out one move."""
        start, content, sender = 0, b"", move.sender
        if move.side is not None:
            start, length = place(self.books[move.side], move.sender, self.bytes[move.side], move.side, False)
            content, sender = bytes(self.bytes[move.side][start:start + length]), move.sender.entry
        for receiver in move.receivers:
            at, size = place(self.books["out"], receiver, self.bytes["out"], "out", True)
            try:
                self.bytes["out"][at:at + size] = received(sender, content, receiver.entry, size)
            except NoValue:
                raise Stop(move.side, start, "NoValue")


def initial(book):
    """The storage before the first move."""
    storage = bytearray(element(book.root, {}))
    for entry in book.entries:
        if any(e.area is not None for e in [entry] + list(above(entry))):
            continue
        if entry.value is not None and entry.picture is None:
            content = left(constant_characters(entry.value, element(entry, {})), element(entry, {}))
        elif entry.picture is None or any(e.value is not None for e in above(entry)):
            continue
        else:
            content = initial_item(entry)
        for subscripts in elements(entry, {}):
            at = offset(entry, subscripts, {})
            storage[at:at + len(content)] = content
    return storage


def initial_item(item):
    """What an item holds before the first move."""
    size = size_of(item)
    if item.value is None:
        if item.category == "numeric" or item.category == "numeric-edited":
            return amount_in(item, ZERO)
        return characters(item, bytes([SPACE]) * size)
    if item.category == "numeric":
        return store_number(item, constant_amount(item.value))
    return left(constant_characters(item.value, size), size)
