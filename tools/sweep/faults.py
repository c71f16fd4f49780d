"""What stops the reading of a text, a job or a record."""


class Refused(Exception):
    """A text breaks a rule: its name, with what it carries, and the line."""

    def __init__(self, rule, line):
        super().__init__(rule, line)
        self.rule, self.line = rule, line


class Malformed(Exception):
    """A job has a bad line, or 0 where a mark lacks or the job is too long."""

    def __init__(self, line):
        super().__init__(line)
        self.line = line


class Stop(Exception):
    """A record stops a run: the side, the offset and the cause."""

    def __init__(self, side, offset, cause):
        super().__init__(side, offset, cause)
        self.side, self.offset, self.cause = side, offset, cause


class NoValue(Exception):
    """Bytes represent no value."""
