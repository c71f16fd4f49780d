"""Paragraphs: MOVE statements, and the moves that they mean between two records."""

import re
from collections import namedtuple

from .books import MOST_BYTES, MOST_DIGITS, MOST_LITERAL
from .entries import Constant, number_of
from .faults import Refused
from .layouts import Ref
from .statements import (
    MOST_WRITTEN_OUT, Bound, Broken, Loop, Named, Statement, bound_in_turn, count_of, ends_by_item, in_turn, numbers_of, statements_of)
from .trees import above, bears, dimensions, size_of

# A single statement: one sender and its receivers, each a reference; the sender's side and theirs.
Move = namedtuple("Move", "side sender receivers")
# A loop to an item: the item's side and the reference to it, the greatest number that it may hold, and of each turn its number and what is carried out. Behind
# the last one stands the number that the counter has then.
Tested = namedtuple("Tested", "side bound most turns behind")

# Which categories of receivers an elementary sender of a category may be moved to.
CHARACTERS = {"alphabetic", "alphanumeric", "alphanumeric-edited"}
NUMBERS = {"numeric", "numeric-edited"}
ALLOWED = {
    "alphabetic": CHARACTERS, "alphanumeric": CHARACTERS | NUMBERS, "alphanumeric-edited": CHARACTERS,
    "numeric": CHARACTERS | NUMBERS, "numeric-edited": NUMBERS | CHARACTERS - {"alphabetic"},
}


class Paragraph:
    """The moves of a paragraph between the records of two books."""

    def __init__(self, source, target, text):
        self.bearers = {}
        for side, book in (("in", source), ("out", target)):
            for entry in book.entries:
                self.bearers.setdefault(entry.name, []).append((side, entry))
        block, self.first_loop = statements_of(text, self.bearers)
        self.is_tested, self.count = any(map(ends_by_item, block)), 0
        self.deeds = self.block(block, {})
        self.moves = list(all_moves(self.deeds))

    def block(self, block, numbers):
        """What is carried out of statements in order, where the counters round them have these numbers; those of a loop once for each turn."""
        found = []
        for item in block:
            if isinstance(item, Broken):
                raise item.fault
            if isinstance(item, Statement):
                found += self.statement(in_turn(item, numbers))
            elif not isinstance(item, Loop):
                continue
            elif isinstance(item.bound, Bound):
                found.append(self.tested(item, numbers))
            elif self.is_tested or count_of(item.body):
                for number in numbers_of(item):
                    found += self.block(item.body, {**numbers, item.counter: number})
        return found

    def statement(self, statement):
        """The moves of a statement."""
        self.line, sender, receivers = statement.line, statement.sender, statement.receivers
        found = self.corresponding(sender, receivers[0]) if statement.together else [self.single(sender, receivers)]
        self.count += 1
        if self.is_tested and self.count > MOST_WRITTEN_OUT:
            raise TooMany("M12", self.first_loop)
        return found

    def tested(self, loop, numbers):
        """A loop to an item: the turns up to the greatest number whose turn is legal. The first one has to be. Those that BY passes over count too."""
        self.line = loop.line
        side, bound = self.reference(bound_in_turn(loop, numbers, self.bearers))
        if bound.entry.category != "numeric" or bound.entry.picture.scale != 0:
            self.refuse("M11")
        turns, number = [], loop.first
        while True:
            before = self.count
            try:
                deeds = self.block(loop.body, {**numbers, loop.counter: number})
            except TooMany:
                raise
            except Refused:
                if number == loop.first:
                    raise
                self.count = before
                return Tested(side, bound, number - 1, turns, loop.first + len(turns) * loop.step)
            if (number - loop.first) % loop.step == 0:
                turns.append((number, deeds))
            number += 1
            if number > loop.first + MOST_BYTES:
                raise Refused("M11", loop.line)

    def refuse(self, rule):
        raise Refused(rule, self.line)

    def reference(self, named):
        """The side and the reference that a written name means."""
        found = [(side, entry) for side, entry in self.bearers.get(named.name, []) if bears(entry, named.name, named.qualifiers)]
        if len(found) != 1:
            self.refuse("M3" if found else "M2")
        (side, entry), subscripts = found[0], named.subscripts
        tables = dimensions(entry)
        if len(subscripts) != len(tables) or any(len(s) > MOST_DIGITS for s in subscripts):
            self.refuse("M4")
        if any(not 1 <= int(s) <= table.occurs.most for s, table in zip(subscripts, tables)):
            self.refuse("M4")
        return side, Ref(entry, [int(s) for s in subscripts])

    def single(self, sender, receivers):
        """The move of a statement."""
        side, sent = self.reference(sender) if isinstance(sender, Named) else (None, sender)
        targets = []
        for receiver in receivers:
            other, ref = self.reference(receiver)
            if other != "out":
                self.refuse("M5")
            self.check(sent, ref.entry)
            targets.append(ref)
        return Move(side, sent, targets)

    def check(self, sent, receiver):
        """The rules of one move."""
        rule = constant_rule(sent, receiver) if isinstance(sent, Constant) else entry_rule(sent.entry, receiver)
        if rule is not None:
            self.refuse(rule)

    def corresponding(self, sender, receiver):
        """The moves of the pairs of two groups."""
        (side, sent), (other, to) = self.reference(sender), self.reference(receiver)
        if other != "out":
            self.refuse("M5")
        if sent.entry.picture is not None or to.entry.picture is not None:
            self.refuse("M8")
        found = pairs(sent.entry, to.entry)
        if any(len({id(pair[k]) for pair in found}) < len(found) for k in (0, 1)):
            self.refuse("M9")
        moves = []
        for one, two in found:
            self.check(Ref(one, []), two)
            moves.append(Move(side, Ref(one, sent.subscripts), [Ref(two, to.subscripts)]))
        return moves


class TooMany(Refused):
    """The turns of loops come to too many statements."""


def all_moves(deeds):
    """The moves of all turns, in their order."""
    for deed in deeds:
        if isinstance(deed, Tested):
            for _, own in deed.turns:
                yield from all_moves(own)
        else:
            yield deed


def is_whole(item):
    return item.picture.scale <= 0


def entry_rule(sender, receiver):
    """The rule that forbids the move of an entry."""
    if sender.picture is None or receiver.picture is None:
        return None
    if not is_allowed(sender, receiver):
        return "M6"
    long = sender.category == "alphanumeric" and receiver.category in NUMBERS and size_of(sender) > MOST_DIGITS
    return "M10" if long else None


def is_allowed(sender, receiver):
    """Whether the table of moves has a move between two items."""
    to = receiver.category
    if sender.category == "numeric" and to in CHARACTERS:
        return to != "alphabetic" and is_whole(sender)
    return to in ALLOWED[sender.category]


def constant_rule(constant, receiver):
    """The rule that forbids the move of a literal or a figurative constant."""
    to = receiver.category
    if constant.kind == "figurative":
        forbidden = {"alphabetic"} if constant.byte == 0xF0 else NUMBERS
        return "M6" if to in forbidden else None
    if constant.kind == "number":
        return number_rule(constant.text, to)
    if not 1 <= len(constant.text) <= MOST_LITERAL:
        return "M7"
    if to not in NUMBERS:
        return None
    if constant.kind == "all":
        return "M6"
    if not re.fullmatch(r"[0-9]+", constant.text):
        return "M7"
    return "M10" if len(constant.text) > MOST_DIGITS else None


def number_rule(text, to):
    """The rule that forbids the move of a numeric literal."""
    sign, whole, part = number_of(text)
    if len(whole) + len(part) > MOST_DIGITS or to == "group" and (sign or part):
        return "M7"
    return "M6" if to == "alphabetic" or part and to not in NUMBERS else None


def paired_name(entry, group):
    """The names from an entry up to a group, named groups alone between."""
    between = []
    for holder in above(entry):
        if holder is group:
            return entry.name, between
        between += [holder.name] if holder.name else []
    return None


def subordinates(group):
    """The entries beneath a group that may be paired: none that redefines or occurs, or stands in one that does."""
    found = []
    for entry in group.children:
        if entry.area is None and entry.occurs is None:
            found += [entry] + subordinates(entry)
    return found


def pairs(sender, receiver):
    """The pairs of two groups, in the order of the sending one."""
    found = []
    for one in subordinates(sender):
        for two in subordinates(receiver):
            same = one.name and paired_name(one, sender) == paired_name(two, receiver)
            elementary = one.picture is not None or two.picture is not None
            if same and elementary and entry_rule(one, two) != "M6":
                found.append((one, two))
    return found
