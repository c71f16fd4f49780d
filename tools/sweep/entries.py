"""The entries of a copybook, by the grammar of entries."""

import re
from collections import deque, namedtuple

from .faults import Refused
from .pictures import BadPicture, picture_of
from .words import words_of

MOST_ENTRIES = 2_000
FIGURATIVE = {
    "SPACE": 0x40, "SPACES": 0x40, "ZERO": 0xF0, "ZEROS": 0xF0, "ZEROES": 0xF0, "HIGH-VALUE": 0xFF, "HIGH-VALUES": 0xFF,
    "LOW-VALUE": 0x00, "LOW-VALUES": 0x00, "QUOTE": 0x7F, "QUOTES": 0x7F,
}
USAGES = {
    "DISPLAY": "display", "BINARY": "binary", "PACKED-DECIMAL": "packed", "COMP": "binary", "COMPUTATIONAL": "binary",
    "COMP-4": "binary", "COMPUTATIONAL-4": "binary", "COMP-3": "packed", "COMPUTATIONAL-3": "packed",
}
LEFT_OUT = set(
    "SYNC SYNCHRONIZED COMP-1 COMP-2 COMP-5 COMPUTATIONAL-1 COMPUTATIONAL-2 COMPUTATIONAL-5 INDEX POINTER "
    "PROCEDURE-POINTER FUNCTION-POINTER NATIONAL DISPLAY-1 EXTERNAL GLOBAL TYPEDEF GROUP-USAGE UNBOUNDED COPY REPLACE EXEC".split()
)
RESERVED = LEFT_OUT | set(FIGURATIVE) | set(USAGES) | set(
    "REDEFINES PICTURE PIC IS USAGE SIGN LEADING TRAILING SEPARATE CHARACTER OCCURS TIMES TO DEPENDING ON OF IN ASCENDING DESCENDING "
    "KEY INDEXED BY VALUE VALUES ARE JUSTIFIED JUST RIGHT BLANK WHEN ALL FILLER MOVE CORRESPONDING CORR".split()
)
NUMBER = re.compile(r"([+-]?)(\d*)(?:\.(\d+))?")

# How often an entry occurs: from least to most times, fixed where no count is named.
Occurs = namedtuple("Occurs", "least most count qualifiers")
# A sign: at the front, and in a byte of its own.
Sign = namedtuple("Sign", "leading separate")
# A literal or a figurative constant. kind: number, quoted, figurative or all.
Constant = namedtuple("Constant", "kind text byte")


class Entry:
    """An entry as it is written; what it stands in and what stands beneath it is set by the tree."""

    def __init__(self, level, name, line):
        self.level, self.name, self.line = level, name, line
        self.redefines = self.picture = self.usage = self.sign = self.occurs = self.value = None
        self.justified = self.blank = False
        self.number, self.parent, self.children = 0, None, []

    def refuse(self, rule):
        raise Refused(rule, self.line)


def is_name(word):
    return (
        re.fullmatch(r"(?=.*[A-Z])[A-Z0-9][A-Z0-9_-]{0,29}", word) is not None
        and not word.endswith("-")
        and word not in RESERVED
    )


def number_of(word):
    """The parts of a numeric literal: its sign, and the digits on both sides of the point; None where the word is none."""
    found = NUMBER.fullmatch(word)
    return (found[1], found[2], found[3] or "") if found and (found[2] or found[3]) else None


class Clauses:
    """The words of an entry behind its level, which are taken from the front."""

    def __init__(self, words, entry):
        self.words, self.entry = deque(words), entry

    def word(self):
        """The next word, or nothing where a literal stands or the entry ends."""
        return self.words[0].text if self.words and self.words[0].kind == "word" else ""

    def take(self):
        if not self.words:
            self.entry.refuse("B2")
        return self.words.popleft()

    def take_if(self, *wanted):
        """Takes the next word where it is one of these."""
        if self.word() in wanted and self.word():
            self.take()
            return True
        return False

    def name(self):
        """A name that a clause asks for."""
        if not is_name(self.word()):
            self.entry.refuse("B13" if self.word() else "B2")
        return self.take().text

    def names(self):
        if not is_name(self.word()):
            self.entry.refuse("B2")
        while is_name(self.word()):
            self.take()

    def whole(self):
        """A number of one to nine digits."""
        if not re.fullmatch(r"\d{1,9}", self.word()):
            self.entry.refuse("B8" if re.fullmatch(r"\d+", self.word()) else "B2")
        return int(self.take().text)


def take_constant(clauses):
    """The literal or figurative constant at the front, or None."""
    if not clauses.words:
        return None
    if clauses.words[0].kind == "literal":
        return Constant("quoted", clauses.take().text, None)
    every = clauses.take_if("ALL")
    if every and clauses.words and clauses.words[0].kind == "literal":
        return Constant("all", clauses.take().text, None)
    if clauses.word() in FIGURATIVE:
        return Constant("figurative", None, FIGURATIVE[clauses.take().text])
    if not every and number_of(clauses.word()):
        return Constant("number", clauses.take().text, None)
    return None


def redefines_clause(entry, clauses):
    entry.redefines = clauses.name()


def picture_clause(entry, clauses):
    clauses.take_if("IS")
    if not clauses.word():
        entry.refuse("B2")
    try:
        entry.picture = picture_of(clauses.take().text)
    except BadPicture as fault:
        entry.refuse("B4 %s" % fault)


def usage_clause(entry, clauses):
    clauses.take_if("IS")
    if clauses.word() not in USAGES:
        entry.refuse("B2")
    entry.usage = USAGES[clauses.take().text]


def sign_clause(entry, clauses):
    clauses.take_if("IS")
    if clauses.word() not in ("LEADING", "TRAILING"):
        entry.refuse("B2")
    leading, separate = clauses.take().text == "LEADING", clauses.take_if("SEPARATE")
    if separate:
        clauses.take_if("CHARACTER")
    entry.sign = Sign(leading, separate)


def keys(clauses):
    """Key phrases, and names of indexes."""
    while clauses.take_if("ASCENDING", "DESCENDING"):
        clauses.take_if("KEY")
        clauses.take_if("IS")
        clauses.names()
    if clauses.take_if("INDEXED"):
        clauses.take_if("BY")
        clauses.names()


def occurs_clause(entry, clauses):
    least, most = None, clauses.whole()
    if clauses.take_if("TO"):
        least, most = most, clauses.whole()
    clauses.take_if("TIMES")
    if not clauses.take_if("DEPENDING"):
        if least is not None:
            entry.refuse("B2")
        entry.occurs = Occurs(most, most, None, [])
    else:
        clauses.take_if("ON")
        count, qualifiers = clauses.name(), []
        while clauses.take_if("OF", "IN"):
            qualifiers.append(clauses.name())
        entry.occurs = Occurs(1 if least is None else least, most, count, qualifiers)
    keys(clauses)


def value_clause(entry, clauses):
    clauses.take_if("IS", "ARE")
    entry.value = take_constant(clauses)
    if entry.value is None:
        entry.refuse("B2")


def justified_clause(entry, clauses):
    clauses.take_if("RIGHT")
    entry.justified = True


def blank_clause(entry, clauses):
    clauses.take_if("WHEN")
    if not clauses.take_if("ZERO", "ZEROS", "ZEROES"):
        entry.refuse("B2")
    entry.blank = True


# Each clause by its first word: how it is read, and whether that word is its own or its content's.
CLAUSES = {
    "REDEFINES": redefines_clause, "PICTURE": picture_clause, "PIC": picture_clause, "USAGE": usage_clause, "SIGN": sign_clause,
    "OCCURS": occurs_clause, "VALUE": value_clause, "VALUES": value_clause, "JUSTIFIED": justified_clause, "JUST": justified_clause,
    "BLANK": blank_clause,
}


def read_clause(entry, clauses, seen):
    """Reads one clause, which the entry must not have already."""
    word = clauses.word()
    if word in USAGES:
        clause = usage_clause
    elif word in ("LEADING", "TRAILING"):
        clause = sign_clause
    elif word in CLAUSES:
        clause = CLAUSES[clauses.take().text]
    else:
        entry.refuse("B2")
    if clause in seen:
        entry.refuse("B2")
    seen.add(clause)
    clause(entry, clauses)


def level_of(word):
    """The level of an entry's first word."""
    if word.kind != "word" or not re.fullmatch(r"\d{1,2}", word.text):
        raise Refused("B2", word.line)
    if word.text in ("66", "77"):
        raise Refused("B12 " + word.text, word.line)
    return int(word.text)


def read_name(entry, clauses):
    """The name behind the level: none, FILLER, or a name of its own."""
    word = clauses.word()
    if clauses.take_if("FILLER") or not word or word in CLAUSES or word in USAGES or word in ("LEADING", "TRAILING"):
        return
    entry.name = clauses.name()


def check_words(sentence):
    """No word that is left out by name stands in an entry, but for the values of a level 88."""
    texts = [word.text if word.kind == "word" else "" for word in sentence]
    if texts[0] == "88" and len(texts) > 2 and texts[2] in ("VALUE", "VALUES"):
        texts = texts[:2]
    for text in texts:
        if text in LEFT_OUT:
            raise Refused("B12 " + text, sentence[0].line)


def is_condition(words, some_before):
    """Whether an entry is of level 88, which must be well formed."""
    if words[0].text != "88":
        return False
    texts = [word.text for word in words]
    if not some_before or len(texts) < 3 or texts[2] not in ("VALUE", "VALUES"):
        raise Refused("B2", words[0].line)
    if not is_name(texts[1]):
        raise Refused("B13", words[0].line)
    return True


def sentences(words):
    """The words of each entry, without its period."""
    sentence = []
    for word in words:
        if word.kind != "stop":
            sentence.append(word)
        elif sentence:
            yield sentence
            sentence = []
        else:
            raise Refused("B2", word.line)
    if sentence:
        raise Refused("B2", sentence[0].line)


def entries_of(text):
    """The data entries of a text."""
    entries = []
    for sentence in sentences(words_of(text)):
        check_words(sentence)
        if is_condition(sentence, entries):
            continue
        entry = Entry(level_of(sentence[0]), None, sentence[0].line)
        if len(entries) == MOST_ENTRIES:
            entry.refuse("B15")
        clauses, seen = Clauses(sentence[1:], entry), set()
        read_name(entry, clauses)
        while clauses.words:
            read_clause(entry, clauses, seen)
        entries.append(entry)
    if not entries:
        raise Refused("B1", 1)
    return entries
