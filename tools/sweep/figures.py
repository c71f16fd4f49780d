"""What the sweep prints: a line for each 20 jobs."""

from .books import Book
from .draw import SweepJob, rows_of
from .faults import Refused
from .jobs import Job, conversion_of, printed
from .listings import layout_text, show_text
from .paragraphs import Paragraph

JOBS, JOBS_A_LINE, MOST_BYTES = 1_000, 20, 1_000_000


def added(total, content):
    """A sum over bytes in their order: each makes of the sum 1099511628211 times itself, and adds itself, modulo 2 to the 64."""
    for byte in content:
        total = (total * 1099511628211 + byte) % 2 ** 64
    return total


def written_by(job):
    """All that the calls of a job write, in their order, and how many records the run converts."""
    text = job.text().encode()
    conversion = conversion_of(Job(text))
    source, target = conversion.books["in"], conversion.books["out"]
    shown, _, show_stop = show_text(source, job.in_form, job.data)
    written, records, stop = conversion.run(job.data)
    if stop is not None or show_stop is not None:
        raise ValueError("a record stops")
    whole, _ = printed(text)
    return layout_text(source).encode() + layout_text(target).encode() + shown.encode() + written + whole.encode(), records


def paragraph_line(size):
    """What is said of a paragraph of so many bytes, of MOVE CORRESPONDING alone."""
    statement = b"       MOVE CORRESPONDING A TO B.\n"
    text = (statement * (size // len(statement))).ljust(size, b"\n")
    sending, receiving = (Book("", b"       01  %c.\n           05  X PIC X.\n" % name) for name in b"AB")
    try:
        told = "%d moves" % len(Paragraph(sending, receiving, text).moves)
    except Refused as fault:
        told = "%s line %d" % (fault.rule, fault.line)
    return "paragraph of %d bytes: %s" % (size, told)


def lines():
    """The lines of the sweep."""
    items, counts = rows_of("items"), rows_of("counts")
    for first in range(1, JOBS + 1, JOBS_A_LINE):
        total = records = 0
        for number in range(first, first + JOBS_A_LINE):
            written, count = written_by(SweepJob(number, items, counts))
            total, records = added(total, written), records + count
        yield "jobs %d to %d: %d ok, %d records, sum %d" % (first, first + JOBS_A_LINE - 1, JOBS_A_LINE, records, total)
    yield paragraph_line(MOST_BYTES)
    yield paragraph_line(MOST_BYTES + 1)
