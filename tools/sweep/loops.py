"""Jobs whose paragraphs have loops, each drawn from its number alone. A third of them are then spoiled in one place, and most of these break a rule."""

from .draw import Draw, rows_of, value

MARGIN = "           "
# Items of the input record that loops end by, and two that none may end by.
BOUNDS = ["05  BI PIC 9(3).", "05  BP PIC S9(3) COMP-3.", "05  BE PIC 9 OCCURS 3.", "05  BF PIC 9V9.", "05  BX PIC X."]
# Receivers of a counter, and of a group.
COUNTED = ("PIC 9(3)", "PIC X(4)", "PIC ZZ9", "PIC S9(5) COMP-3", "PIC 9(4) COMP", "PIC X(3) JUST", "PIC $$$9.99", "PIC 9")
TESTS = ((">",), ("GREATER",), ("GREATER", "THAN"), ("IS", "GREATER"), ("IS", "GREATER", "THAN"))
COUNTERS = ("I", "J", "K", "L", "THE-COUNTER", "FROM", "UNTIL", "N_1", "VARYING", "1A")
# What is written in the place of the numbers, the test or the name of a loop's head, and is none.
NO_NUMBERS = ("0", "000", "1234567890", "-1", "+1", "1.5", "I", "ONE", "(1)", '"1"', "1.")
NO_TESTS = ("<", ">=", "=", "IS >", "NOT <", "GREATER OR EQUAL", "THAN", "> THAN", "EXCEEDS", "")
NO_SUMS = ("%s+1", "%s +1", "%s+ 1", "1 + %s", "%s * 2", "%s + 1234567890", "%s +", "+ %s", "%s - -1", "%s + 1 + 1", "%s + %s", "%s ( 1 )", "- 1")
# What is written in the place of the item that a loop ends by, some of it none.
NO_ITEMS = (("BF",), ("BX",), ("BE",), ("BE", "(", "4", ")"), ("BE", "(", "0", ")"), ("BI", "OF", "OUT-REC"), ("BI", "(", "1", ")"), ("IN-REC",), ("NO-ENTRY",),
            ("BI", "BP"), ("BI", "OF"), ("BI", "THAN"), ("BO", "OF", "BO"), ("MOVE",), ("BE", "(", "I", ")"), ("BE", "(", "J", "+", "1", ")"), ("CT1",), ("BR",))
STRAY = ("FOO", "5", '"A"', "TO", "MOVED", "END-IF", "( 1 )", "IF A1")


class Move:
    """A statement, as its words."""

    def __init__(self, *words):
        self.words = list(words)


class Loop:
    """A loop: its counter, how it is written, and what stands in it."""

    def __init__(self, counter, first, step, last, test, body):
        self.counter, self.tested, self.test, self.body = counter, counter, test, body
        self.first, self.step, self.last = str(first), str(step), last if isinstance(last, list) else [str(last)]
        self.front, self.end = ("PERFORM", "VARYING"), "END-PERFORM"

    def head(self):
        return [*self.front, self.counter, "FROM", self.first, "BY", self.step, "UNTIL", self.tested, *self.test, *self.last]


class Table:
    """Tables in one another in both records, those of the output in another order, with items in the innermost."""

    def __init__(self, draw, number, items):
        self.number, depth = number, 1 + draw.below(3)
        self.sizes = [1 + draw.below(5 if depth == 1 else 3) for _ in range(depth)]
        self.order = list(range(depth))
        for place in range(depth):
            other = draw.below(depth)
            self.order[place], self.order[other] = self.order[other], self.order[place]
        self.others = [max(1, size + draw.below(3) - 1) for size in self.sizes]
        self.rows = [items[draw.below(len(items))] for _ in range(1 + draw.below(3))]
        self.received = [row.receivers[draw.below(len(row.receivers))] for row in self.rows]
        self.counted, self.turned = COUNTED[draw.below(len(COUNTED))], draw.below(2) == 0
        # whether the outermost table of the input, and of the output, varies
        self.varies = [draw.below(3) == 0, draw.below(4) == 0]

    def sending(self):
        return self.groups(0, self.sizes, list(range(len(self.sizes))), [row.clauses for row in self.rows])

    def receiving(self):
        lines = [self.item("H", n, clauses) for n, clauses in enumerate(self.received)] + ["20  NO%d %s." % (self.number, self.counted)]
        return self.groups(1, self.others, self.order, None)[:len(self.sizes)] + (lines[::-1] if self.turned else lines)

    def item(self, letter, number, clauses):
        return "20  A%d%d %s." % (self.number, number, clauses)

    def groups(self, side, sizes, order, clauses):
        """The lines of groups in one another, each a table, and of the items in the innermost."""
        letter = "GH"[side]
        lines = []
        for place, dimension in enumerate(order):
            least, count = ("0 TO ", " DEPENDING ON CT%d" % self.number) if self.varies[side] and place == 0 else ("", "")
            lines.append("%02d  %s%d%d OCCURS %s%d%s." % (5 + place, letter, self.number, dimension, least, sizes[dimension], count))
        return lines + [self.item(letter, n, text) for n, text in enumerate(clauses or [])]

    def counts(self, side):
        """The line of its count, where it varies."""
        return ["05  CT%d PIC 9(2)%s." % (self.number, " VALUE 2" if side else "")] if self.varies[side] else []

    def drawn_count(self, draw):
        """How many elements its outermost table has in a record."""
        return draw.below(self.sizes[0] + 1) if self.varies[0] else self.sizes[0]

    def length(self):
        """How many bytes its elements have where it has its greatest number of them."""
        own = sum(len(row.halves) // 2 for row in self.rows)
        for size in self.sizes:
            own *= size
        return own

    def data(self, draw, count):
        """The bytes of its elements, of the outermost table so many."""
        content = b""
        for size in self.sizes[1:]:
            count *= size
        for _ in range(count):
            content += b"".join(value(draw, row.halves, 1) for row in self.rows)
        return content


class Sketch:
    """The statements of a table, with loops for some of its dimensions."""

    def __init__(self, draw, table, counters, records):
        self.draw, self.table, self.records = draw, table, records
        depth = len(table.sizes)
        self.loops, self.places = [], []
        for dimension in range(depth):
            self.places.append(self.place(dimension, counters))

    def place(self, dimension, counters):
        """How both elements of a dimension are named: by numbers, or by the counter of a loop."""
        draw, size, other = self.draw, self.table.sizes[dimension], self.table.others[dimension]
        if draw.below(6) == 0:
            return str(1 + draw.below(size)), str(1 + draw.below(other))
        added = [draw.below(4) - 1 if draw.below(3) == 0 else 0 for _ in range(2)]
        first, last = max(1, 1 - added[0], 1 - added[1]), min(size - added[0], other - added[1])
        if last < first:
            added, first, last = [0, 0], 1, min(size, other)
        step = 1 if draw.below(3) else 1 + draw.below(3)
        first = first + draw.below(last - first + 1) if draw.below(4) == 0 else first
        bound = last - (last - first) % step + draw.below(step) if draw.below(2) else last
        if draw.below(12) == 0:
            first, bound = bound + 1 + draw.below(3), bound
        if draw.below(3) == 0:
            bound = self.item()
        self.loops.append([counters.pop(), first, step, bound])
        return tuple(self.sum(self.loops[-1][0], plus) for plus in added)

    def item(self):
        """The words of an item that a loop ends by."""
        draw, table = self.draw, self.table
        found = [["CT%d" % table.number, "OF", self.records[side]] for side in (0, 1) if table.varies[side]]
        found += [["BI"], ["BI", "OF", self.records[0]], ["BP"], ["BO"]]
        outer = [loop[0] for loop in self.loops] or ["1"]
        found += [["BE", "(", outer[draw.below(len(outer))], ")"], ["BE", "(", str(1 + draw.below(3)), ")"]]
        return found[draw.below(len(found))]

    def sum(self, counter, plus):
        if plus == 0:
            return counter + " + 0" if self.draw.below(20) == 0 else counter
        return "%s %s %d" % (counter, "+" if plus > 0 else "-", abs(plus))

    def subscripts(self, side, last=None):
        order = self.table.order if side else range(len(self.places))
        words = [self.places[d][side] for d in order]
        words[-1] = last or words[-1]
        return ["(", *" ".join(words).split(" "), ")"]

    def element(self, side, name, last=None):
        return [name, "OF", "%s%d%d" % ("GH"[side], self.table.number, self.innermost(side)), *self.subscripts(side, last)]

    def innermost(self, side):
        return self.table.order[-1] if side else len(self.places) - 1

    def group(self, side):
        return ["%s%d%d" % ("GH"[side], self.table.number, self.innermost(side)), *self.subscripts(side)]

    def moves(self):
        """The statements that stand in the innermost loop."""
        draw, table = self.draw, self.table
        found = []
        if draw.below(3) == 0:
            found.append(Move("MOVE", ("CORR", "CORRESPONDING")[draw.below(2)], *self.group(0), "TO", *self.group(1)))
        for number in range(len(table.rows)):
            name = "A%d%d" % (table.number, number)
            if draw.below(4) or not found:
                receivers = self.element(1, name)
                if draw.below(5) == 0:
                    receivers += self.element(1, name, "1")
                found.append(Move("MOVE", *self.element(0, name), "TO", *receivers))
            if draw.below(6) == 0:
                found.append(Move("MOVE", *self.element(1, name, "1"), "TO", *self.element(1, name)))
        if self.loops and draw.below(3) == 0:
            found.append(Move("MOVE", self.loops[draw.below(len(self.loops))][0], "TO", *self.element(1, "NO%d" % table.number)))
        if self.loops and draw.below(9) == 0:
            found.append(Move("MOVE", self.loops[0][0], "TO", *self.group(1)))
        return found

    def statements(self):
        """All statements, in their loops."""
        draw, found = self.draw, self.moves()
        # (the bound of a loop may have the counters of those before it as subscripts)
        for counter, first, step, bound in self.loops[::-1] if draw.below(4) else self.loops:
            if draw.below(8) == 0:
                found.insert(draw.below(len(found) + 1), Move("CONTINUE"))
            if not isinstance(bound, list) and first > bound and draw.below(2):
                found = [Move("MOVE", "ANYTHING", "(", "THAT", "5", "STANDS", counter)] + found
            zeros = "0" * draw.below(3) if draw.below(5) == 0 else ""
            found = [Loop(counter, zeros + str(first), step, bound, TESTS[draw.below(len(TESTS))], found)]
        return found


def all_of(block, kind):
    """The loops of a block, or its statements, in their order, each with the list that it stands in."""
    for item in block:
        if isinstance(item, kind):
            yield item, block
        if isinstance(item, Loop):
            yield from all_of(item.body, kind)


class Spoiler:
    """Spoils a paragraph in one place."""

    def __init__(self, draw, job):
        self.draw, self.job = draw, job
        self.loops, self.moves = list(all_of(job.block, Loop)), [it for it in all_of(job.block, Move) if it[0].words[0] == "MOVE"]

    def one_of(self, things):
        return things[self.draw.below(len(things))]

    def spoil(self):
        ways = [self.head, self.test, self.end, self.period, self.nothing_in_it, self.sum, self.free, self.stray, self.cut, self.bound, self.shift,
                self.name, self.named_again, self.other_name, self.many, self.deep, self.subscript, self.operand, self.reserved, self.bad_front]
        if self.loops and self.moves:
            self.one_of(ways)()

    def head(self):
        loop, _ = self.one_of(self.loops)
        name, words = self.one_of(("first", "step", "last", "counter", "tested")), self.one_of(NO_NUMBERS)
        setattr(loop, name, [words] if name == "last" else words)

    def test(self):
        self.one_of(self.loops)[0].test = self.one_of(NO_TESTS).split()

    def bad_front(self):
        loop, _ = self.one_of(self.loops)
        loop.front = self.one_of((("PERFORM",), ("PERFORM", "WITH", "TEST", "AFTER", "VARYING"), ("VARYING",), ("PERFORM", "3", "TIMES"), ("PERFORM", "A-PARAGRAPH", "VARYING")))

    def end(self):
        self.one_of(self.loops)[0].end = self.one_of(("", "END-PERFORM END-PERFORM", "END-IF", ". END-PERFORM", "PERFORM"))

    def period(self):
        loop, _ = self.one_of(self.loops)
        words = self.one_of(loop.body)
        if isinstance(words, Move):
            words.words.insert(self.draw.below(len(words.words) + 1), ".")
        else:
            words.end += " ."

    def nothing_in_it(self):
        self.one_of(self.loops)[0].body = []

    def sum(self):
        move, _ = self.one_of(self.moves)
        places = [n for n, word in enumerate(move.words) if word in [loop.counter for loop, _ in self.loops]]
        if places:
            place = self.one_of(places)
            text = self.one_of(NO_SUMS)
            move.words[place:place + 1] = (text.replace("%s", move.words[place])).split()

    def free(self):
        """A statement of a loop outside of it."""
        self.job.block.insert(self.draw.below(len(self.job.block) + 1), self.one_of(self.moves)[0])

    def stray(self):
        _, block = self.one_of(self.loops + self.moves)
        block.insert(self.draw.below(len(block) + 1), Move(*self.one_of(STRAY).split()))

    def cut(self):
        move, _ = self.one_of(self.moves)
        del move.words[self.draw.below(len(move.words)):]

    def bound(self):
        loop, _ = self.one_of(self.loops)
        if loop.last[0].isdigit():
            loop.last = [str(int(loop.last[0]) + 1 + self.draw.below(3))]
        else:
            loop.last = list(self.one_of(NO_ITEMS))

    def shift(self):
        """A number more behind a counter."""
        move, _ = self.one_of(self.moves)
        places = [n for n, word in enumerate(move.words) if word in [loop.counter for loop, _ in self.loops]]
        if places:
            place = self.one_of(places)
            sign, amount = self.one_of("+-"), self.one_of(("1", "2", "5", "99", "999999999", "0"))
            if move.words[place + 1:place + 2] not in (["+"], ["-"]):
                move.words[place + 1:place + 1] = [sign, amount]

    def name(self):
        """A counter with the name of an entry, or of none."""
        loop, _ = self.one_of(self.loops)
        self.rename(loop, self.one_of(("G10", "H10", "A10", "NO1", "A11", *self.job.names, "IN-RECORD", "OUT-RECORD", "COND", "NO-ENTRY")))

    def rename(self, loop, name):
        old = loop.counter
        loop.counter = loop.tested = name
        for move, _ in all_of(loop.body, Move):
            move.words = [name if word == old else word for word in move.words]

    def named_again(self):
        within = [(loop, inner) for loop, _ in self.loops for inner, _ in all_of(loop.body, Loop)]
        if within:
            loop, inner = self.one_of(within)
            self.rename(inner, loop.counter)

    def other_name(self):
        self.one_of(self.loops)[0].tested = self.one_of(("Z", "I", "J", "K", "IN-REC", "G10"))

    def many(self):
        """So many turns that there may be too many statements."""
        move, block = self.one_of(self.moves)
        place = block.index(move)
        counts = self.one_of(((1, 100_001), (317, 316), (2, 50_001), (999_999_999, 1), (100, 7), (1000, 101), (999_999_999, 999_999_999)))
        inner = Loop("Z2", 1, 1, counts[0], (">",), [move])
        block[place] = Loop("Z1", 1, 1, counts[1], (">",), [inner])

    def deep(self):
        """So many loops in one another that there may be too many."""
        loop, block = self.one_of(self.loops)
        place = block.index(loop)
        for number in range(12 + self.draw.below(6)):
            block[place] = Loop("Y%d" % number, 1, 1, 1, (">",), [block[place]])

    def subscript(self):
        move, _ = self.one_of(self.moves)
        places = [n for n, word in enumerate(move.words) if word in "()"]
        if places:
            place = self.one_of(places)
            move.words[place:place + 1] = self.one_of((["(", "1"], ["1", ")"], [], ["0", move.words[place]], ["("], [")"]))

    def operand(self):
        """A name that is none, or that of another entry."""
        move, _ = self.one_of(self.moves)
        places = [n for n, word in enumerate(move.words) if word[0] in "AGH" and word[-1].isdigit()]
        if places:
            move.words[self.one_of(places)] = self.one_of(("G10", "H10", "A10", "A19", "IN-REC", "OUT-REC", "I", "NO1"))

    def reserved(self):
        move, _ = self.one_of(self.moves)
        places = [n for n, word in enumerate(move.words) if word[0] in "AGHN" and word[-1].isdigit()]
        if places:
            move.words[self.one_of(places)] = self.one_of(("CONTINUE", "PERFORM", "END-PERFORM", "PERFORMS", "MOVE"))


class Writer:
    """Writes words into lines, some of them in small letters."""

    def __init__(self, draw):
        self.draw, self.lines, self.line = draw, [], MARGIN

    def begin(self):
        """Begins a line, if there is something on this one."""
        if self.line.strip():
            self.lines.append(self.line.rstrip())
        self.line = MARGIN

    def words(self, words):
        for place, word in enumerate(words):
            if self.draw.below(40) == 0 or len(self.line) + len(word) > 68:
                self.begin()
            joined = self.line.endswith("(") or word == ")" or word == "(" and self.draw.below(3) == 0
            if joined and self.draw.below(4) and self.line.strip():
                self.line = self.line.rstrip()
            self.line += (word.lower() if self.draw.below(12) == 0 else word) + (", " if word.isdigit() and self.draw.below(30) == 0 else " ")

    def block(self, block, is_top):
        for item in block:
            if self.draw.below(10):
                self.begin()
            if isinstance(item, Move):
                self.words(item.words)
            else:
                self.words(item.head())
                self.block(item.body, False)
                self.begin()
                self.words(item.end.split())
            if is_top and self.draw.below(3):
                self.words(["."] * (1 + self.draw.below(8) // 7))

    def text(self):
        self.begin()
        return "".join(line + "\n" for line in self.lines)


class LoopJob:
    """A job whose paragraph has loops."""

    def __init__(self, number):
        draw = self.draw = Draw(number)
        items = rows_of("items")
        self.heads = [draw.below(4) != 0, draw.below(4) != 0]
        self.names = [name if has else name + "ORD" for name, has in zip(("IN-REC", "OUT-REC"), self.heads)]
        tables = [Table(draw, n + 1, items) for n in range(1 + draw.below(2))]
        self.books = [self.book(side, tables) for side in (0, 1)]
        self.block = [Move("MOVE", "CT%d" % table.number, "OF", self.names[0], "TO", "CT%d" % table.number, "OF", self.names[1])
                      for table in tables if all(table.varies) and draw.below(8)]
        if draw.below(4) == 0:
            self.block.append(Move("MOVE", "BI", "TO", "BO"))
        for table in tables:
            for _ in range(1 + draw.below(2)):
                counters = [COUNTERS[(draw.below(3) + n) % len(COUNTERS)] for n in range(0, 9, 3)]
                self.block += Sketch(draw, table, counters, self.names).statements()
        self.is_spoiled = draw.below(3) == 0
        if self.is_spoiled:
            Spoiler(draw, self).spoil()
        writer = Writer(draw)
        if draw.below(4) == 0:
            writer.words([("CONVERT", "A-NAME", "PERFORMED")[draw.below(3)], "."])
        writer.block(self.block, True)
        self.moves = writer.text()
        self.data = b"".join(self.record(draw, tables) for _ in range(1 + draw.below(2)))
        if draw.below(6) == 0:
            place = draw.below(len(self.data))
            self.data = self.data[:place] + bytes([draw.below(256)]) + self.data[place + 1:]

    def book(self, side, tables):
        """A copybook: counts and items that loops end by, and then the tables."""
        head = ["01  %s." % self.names[side]] if self.heads[side] else []
        counts = [line for table in tables for line in table.counts(side)]
        bounds = ["05  BO PIC S9(4) COMP VALUE 2."] if side else BOUNDS
        lines = [line for table in tables for line in (table.receiving() if side else table.sending())]
        return "".join("       %s\n" % line for line in head + counts + bounds + lines + ["    88  COND VALUE 1."])

    def record(self, draw, tables):
        """The bytes of a record. What a table lacks stands behind all of them."""
        counts = [table.drawn_count(draw) for table in tables]
        content = b"".join(b"%c%c" % (0xF0 + count // 10, 0xF0 + count % 10) for table, count in zip(tables, counts) if table.varies[0])
        content += bytes([0xF0, 0xF0, 0xF0 + draw.below(5)]) + bytes([0, 16 * draw.below(5) + 0x0C + draw.below(10) // 9])
        content += bytes(0xF0 + draw.below(4) for _ in range(3)) + b"\xF1\xF0\xF1"
        content += b"".join(table.data(draw, count) for table, count in zip(tables, counts))
        most = sum(table.length() for table in tables) + sum(2 for table in tables if table.varies[0]) + 11
        return content.ljust(most, b"\x40")

    def text(self):
        """The job as one text."""
        return "=IN f\n%s=OUT f\n%s=MOVE\n%s=DATA\n%s\n" % (*self.books, self.moves, self.data.hex().upper())
