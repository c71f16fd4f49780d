"""Whether the moves back bring back what the moves there take, by the rules, and what a record holds that is to come back."""

from .layouts import Ref, element, elements, offset
from .moving import amount_of
from .paragraphs import NUMBERS
from .trees import size_of, varies

TEXT = {"alphabetic", "alphanumeric"}


def loses_nothing(item, other):
    """Whether an item takes all that another one holds: digits on both sides of the point and a sign, or characters from the left."""
    if item.category in NUMBERS and other.category in NUMBERS:
        one, two = item.picture, other.picture
        before = one.digits - one.scale <= two.digits - two.scale
        return before and one.scale <= two.scale and (two.signed or not one.signed)
    texts = all(it.category in TEXT and not it.justified for it in (item, other))
    return texts and size_of(item) <= size_of(other)


def stands_one_way(book):
    """Whether no entry redefines another, and no table varies."""
    return not any(entry.area is not None or varies(entry) for entry in book.entries)


def singles(paragraph):
    """The single moves, each of a sender of a side to one receiver."""
    return [(move.side, move.sender, receiver) for move in paragraph.moves for receiver in move.receivers]


def is_elementary(single):
    """Whether a single move is one of an item of the input record to an item."""
    side, sender, receiver = single
    return side == "in" and isinstance(sender, Ref) and sender.entry.picture is not None and receiver.entry.picture is not None


def occurrence(ref):
    return ref.entry.number, tuple(ref.subscripts)


def receive_once(moves):
    return len({occurrence(receiver) for _, _, receiver in moves}) == len(moves)


def named_items(book):
    """Each occurrence of each named item of a record."""
    for entry in book.entries:
        if entry.picture is not None and entry.name is not None:
            for subscripts in elements(entry, {}):
                yield Ref(entry, subscripts)


def is_lossless(books, there, back):
    """Whether the paragraph back brings back all that the one there takes: of the books, in which both stand, from the first to the second."""
    forth, home = singles(there), singles(back)
    if not all(map(stands_one_way, books)) or not all(map(is_elementary, forth + home)):
        return False
    if not receive_once(forth) or not receive_once(home):
        return False
    homes = {(occurrence(sender), occurrence(receiver)) for _, sender, receiver in home}
    away = {}
    for _, sender, receiver in forth:
        if loses_nothing(sender.entry, receiver.entry):
            away.setdefault(occurrence(sender), []).append(occurrence(receiver))
    return all(any((to, occurrence(x)) in homes for to in away.get(occurrence(x), [])) for x in named_items(books[0]))


def held(book, record):
    """What each named item of a record holds: its value, or its bytes where it is of characters."""
    found = []
    for x in named_items(book):
        start = offset(x.entry, x.subscripts, {})
        content = bytes(record[start:start + element(x.entry, {})])
        if x.entry.category in NUMBERS:
            value = amount_of(x.entry, content)
            found.append((value.negative, value.units * 10 ** (40 - value.scale)))
        else:
            found.append(content)
    return found
