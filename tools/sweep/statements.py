"""Statements: the words of a paragraph as MOVE statements, with loops round them."""

import re
from collections import deque, namedtuple

from .entries import FIGURATIVE, Constant, is_name, number_of
from .faults import Refused
from .words import paragraph_words_of

MOST_OPEN, MOST_WRITTEN_OUT = 16, 100_000
LOOP_WORDS = ("PERFORM", "END-PERFORM", "CONTINUE")

# A name as it is written; each of its subscripts is digits, or counted.
Named = namedtuple("Named", "name qualifiers subscripts")
# The number of a counter, with so much added to it.
Counted = namedtuple("Counted", "counter added")
# A MOVE: its line, whether it is CORRESPONDING, the sender and the receivers.
Statement = namedtuple("Statement", "line together sender receivers")
# The words of an item that a loop ends by.
Bound = namedtuple("Bound", "words")
# Words that are only looked over, and what is wrong with words of MOVE statements.
Skipped = namedtuple("Skipped", "words")
Broken = namedtuple("Broken", "fault words")
# A loop: its line, its counter, the first number and how much is added, the number or the item that it ends by, and its statements.
Loop = namedtuple("Loop", "line counter first step bound body")


class Words:
    """The words of a paragraph, taken from the front."""

    def __init__(self, words):
        self.words, self.line = deque(words), words[0].line if words else 1

    def refuse(self, rule):
        raise Refused(rule, self.line)

    def next(self):
        return self.words[0].text if self.words and self.words[0].kind == "word" else ""

    def take(self):
        if not self.words:
            self.refuse("M1")
        return self.words.popleft()

    def take_if(self, *wanted):
        if self.next() and self.next() in wanted:
            return self.take()
        return None

    def expect(self, wanted):
        if not self.take_if(wanted):
            self.refuse("M1")

    def stops(self):
        """Takes any number of periods; the answer is whether there is one."""
        some = False
        while self.words and self.words[0].kind == "stop":
            some = self.take() is not None
        return some


class Statements(Words):
    """The statements of a paragraph between records whose entries have these names, with the counters of the loops that are open."""

    def __init__(self, words, entries):
        super().__init__(words)
        self.entries, self.counters, self.first_loop = entries, [], None

    def is_name_here(self):
        """Whether the next word is a name: none of the words of loops, and no counter of a loop round it."""
        word = self.next()
        return is_name(word) and word not in LOOP_WORDS and word not in self.counters

    def name(self):
        if not self.is_name_here():
            self.refuse("M1")
        return self.take().text

    def named(self):
        """A reference as it is written."""
        names, subscripts = [self.name()], []
        while self.take_if("OF", "IN"):
            names.append(self.name())
        if self.take_if("("):
            while not self.take_if(")"):
                subscripts.append(self.subscript())
            if not subscripts:
                self.refuse("M1")
        return Named(names[0], names[1:], subscripts)

    def subscript(self):
        """Digits; or a counter, perhaps with a number that is added or taken away."""
        if re.fullmatch(r"\d+", self.next()):
            return self.take().text
        if self.next() not in self.counters or not self.next():
            self.refuse("M1")
        counter, sign, added = self.take().text, self.take_if("+", "-"), "0"
        if sign:
            if not re.fullmatch(r"\d{1,9}", self.next()):
                self.refuse("M1")
            added = self.take().text
        return Counted(counter, int(added) * (-1 if sign and sign.text == "-" else 1))

    def sender(self):
        """A literal, a figurative constant, a counter, or a reference."""
        if self.words and self.words[0].kind == "literal":
            return Constant("quoted", self.take().text, None)
        if self.take_if("ALL"):
            if self.words and self.words[0].kind == "literal":
                return Constant("all", self.take().text, None)
            if self.next() not in FIGURATIVE:
                self.refuse("M1")
        if self.next() in FIGURATIVE:
            return Constant("figurative", None, FIGURATIVE[self.take().text])
        if number_of(self.next()):
            return Constant("number", self.take().text, None)
        if self.next() in self.counters:
            return Counted(self.take().text, 0)
        return self.named()

    def move(self):
        """A MOVE statement with its periods; what stands behind it without a period has to be another statement."""
        self.expect("MOVE")
        together = self.take_if("CORRESPONDING", "CORR") is not None
        sender = self.named() if together else self.sender()
        self.expect("TO")
        receivers = [self.named()]
        while not together and self.is_name_here():
            receivers.append(self.named())
        if not self.stops() and self.words and self.next() not in ("MOVE",) + LOOP_WORDS:
            self.refuse("M1")
        return Statement(self.line, together, sender, receivers)

    def passed_over(self):
        """Words of MOVE statements of which only the beginning is looked at."""
        found = []
        while self.words and self.next() not in LOOP_WORDS:
            found.append(self.take())
        return Skipped(found)

    def moves(self):
        """MOVE statements up to a word of loops, or what is wrong with them."""
        found, words = [], list(self.words)
        try:
            while self.words and self.next() not in LOOP_WORDS:
                self.line = self.words[0].line
                found.append(self.move())
        except Refused as fault:
            self.passed_over()
            return [Broken(fault, words[:len(words) - len(self.words)])]
        return found

    def block(self, has_turns):
        """The statements up to the end of their loop, or of the paragraph; of those in a loop of no turn only the beginnings are looked at."""
        found = []
        while self.words and not (self.counters and self.next() == "END-PERFORM"):
            self.line = self.words[0].line
            if self.next() == "PERFORM":
                found.append(self.loop(has_turns))
            elif self.take_if("CONTINUE"):
                self.stops()
            elif self.next() != "MOVE":
                self.refuse("M1")
            elif has_turns:
                found += self.moves()
            else:
                found.append(self.passed_over())
        return found

    def loop(self, has_turns):
        """A loop with the periods behind it."""
        line = self.line
        self.first_loop = self.first_loop or line
        if not self.counters:
            self.check_ends()
        self.expect("PERFORM")
        counter, first, step, tested, bound = self.head()
        if len(self.counters) == MOST_OPEN:
            raise Refused("M12", self.first_loop)
        if self.next() == "END-PERFORM":
            self.refuse("M1")
        if tested != counter or counter in self.counters or counter in self.entries:
            self.refuse("M11")
        self.counters.append(counter)
        body = self.block(has_turns and (isinstance(bound, Bound) or first <= bound))
        self.counters.pop()
        self.expect("END-PERFORM")
        self.stops()
        return Loop(line, counter, first, step, bound, body)

    def check_ends(self):
        """A loop at the top has its END-PERFORM, as those within have, and no period stands before it."""
        depth = 0
        for word in self.words:
            text = word.text if word.kind == "word" else ""
            depth += (text == "PERFORM") - (text == "END-PERFORM")
            if depth == 0:
                return
            if word.kind == "stop":
                break
        self.refuse("M1")

    def head(self):
        """What stands before the statements of a loop: the counter, its first number, what is added, the name that is tested, and what it ends by."""
        self.expect("VARYING")
        counter = self.counter()
        self.expect("FROM")
        first = self.number()
        self.expect("BY")
        step = self.number()
        self.expect("UNTIL")
        tested = self.counter()
        if not self.take_if(">"):
            self.take_if("IS")
            self.expect("GREATER")
            self.take_if("THAN")
        return counter, first, step, tested, self.bound() or self.number()

    def bound(self):
        """The words of an item, if a name stands here; they are read in the turn that the loop stands in."""
        found = []
        if is_name(self.next()) and self.next() != "THAN":
            while self.words and self.words[0].kind != "stop" and self.next() not in ("MOVE",) + LOOP_WORDS:
                found.append(self.take())
        return Bound(found) if found else None

    def counter(self):
        if not is_name(self.next()) or self.next() in LOOP_WORDS:
            self.refuse("M1")
        return self.take().text

    def number(self):
        if not re.fullmatch(r"\d{1,9}", self.next()) or int(self.next()) == 0:
            self.refuse("M1")
        return int(self.take().text)


def statements_of(text, entries):
    """The statements of a paragraph between records whose entries have these names, with its loops. What is wrong with loops is told first."""
    reader = Statements(paragraph_words_of(text), entries)
    if is_name(reader.next()) and reader.next() not in LOOP_WORDS:
        reader.take()
        if not reader.words or reader.take().kind != "stop":
            reader.refuse("M1")
    if not reader.words:
        raise Refused("M1", 1)
    Statements(reader.words, entries).block(False)
    found = reader.block(True)
    if any(ends_by_item(item) for item in found):
        check_bounds(found)
    else:
        check_grammar(found)
    if sum(count_of([item]) for item in found if isinstance(item, Loop)) > MOST_WRITTEN_OUT:
        raise Refused("M12", reader.first_loop)
    return found, reader.first_loop


def check_grammar(block):
    """Where all loops end by numbers, what is wrong with words is told before what statements mean."""
    for item in block:
        if isinstance(item, Broken):
            raise item.fault
        if isinstance(item, Loop):
            check_grammar(item.body)


def numbers_of(loop):
    """The numbers that the counter of a loop to a number takes."""
    return range(loop.first, loop.bound + 1, loop.step)


def count_of(block):
    """How many MOVE statements are carried out at least: a loop to an item has a turn."""
    return sum(turns_of(item) * count_of(item.body) if isinstance(item, Loop) else isinstance(item, Statement) for item in block)


def turns_of(loop):
    return 1 if isinstance(loop.bound, Bound) else len(numbers_of(loop))


def ends_by_item(item):
    """Whether a statement is a loop that ends by an item, or has one within."""
    return isinstance(item, Loop) and (isinstance(item.bound, Bound) or any(map(ends_by_item, item.body)))


def check_bounds(block):
    """Each loop to an item has its counter as a subscript."""
    for item in block:
        if isinstance(item, Loop):
            if isinstance(item.bound, Bound) and not is_subscript(item.counter, item.body):
                raise Refused("M11", item.line)
            check_bounds(item.body)


def is_subscript(counter, block):
    """Whether a counter is a subscript in statements, or in what a loop among them ends by. A loop of no turn has none."""
    for item in block:
        if isinstance(item, (Broken, Skipped)) and is_within_brackets(counter, item.words):
            return True
        places = []
        if isinstance(item, Statement):
            places = [item.sender, *item.receivers]
        elif isinstance(item, Loop):
            if isinstance(item.bound, Bound) and is_within_brackets(counter, item.bound.words):
                return True
            if turns_of(item) and is_subscript(counter, item.body):
                return True
        if any(isinstance(s, Counted) and s.counter == counter for place in places if isinstance(place, Named) for s in place.subscripts):
            return True
    return False


def is_within_brackets(name, words):
    inside = False
    for word in words:
        if inside and word.text == name:
            return True
        inside = word.text == "(" or inside and word.text != ")"
    return False


def bound_in_turn(loop, numbers, entries):
    """What the words of a loop's bound name, with the number of each counter in its place. Words that name nothing are refused on the loop's line."""
    reader = Statements(loop.bound.words, entries)
    reader.counters, reader.line = list(numbers), loop.line
    named = reader.named()
    if reader.words:
        reader.refuse("M1")
    return named_in_turn(named, numbers)


def named_in_turn(reference, numbers):
    """A reference with the number of each counter in its place."""
    digits = [str(max(0, numbers[s.counter] + s.added)) if isinstance(s, Counted) else s for s in reference.subscripts]
    return Named(reference.name, reference.qualifiers, digits)


def in_turn(statement, numbers):
    """A statement with the number of each counter in its place."""
    sender = statement.sender
    if isinstance(sender, Counted):
        sender = Constant("number", str(numbers[sender.counter]), None)
    elif isinstance(sender, Named):
        sender = named_in_turn(sender, numbers)
    return Statement(statement.line, statement.together, sender, [named_in_turn(receiver, numbers) for receiver in statement.receivers])
