"""Entries in their tree: what stands above an entry and beneath it, and what that says of it."""


def above(entry):
    """The groups that an entry stands in, from the inside out."""
    while entry.parent is not None:
        entry = entry.parent
        yield entry


def beneath(entry):
    """The entries beneath an entry, in their order."""
    for child in entry.children:
        yield child
        yield from beneath(child)


def varies(entry):
    return entry.occurs is not None and entry.occurs.count is not None


def is_or_holds_varying(entry):
    return varies(entry) or any(varies(e) for e in beneath(entry))


def dimensions(entry):
    """The tables that an entry stands in or is, the outermost first."""
    return [e for e in reversed([entry] + list(above(entry))) if e.occurs is not None]


def nearest(entry, field):
    """What the entry or the nearest group above it says in a clause."""
    return next((getattr(e, field) for e in [entry] + list(above(entry)) if getattr(e, field) is not None), None)


def bears(entry, name, qualifiers):
    """Whether an entry has this name, and these qualifiers among the names above it, from the inside out."""
    if entry.name is None or entry.name != name:
        return False
    groups = (group.name for group in above(entry))
    return all(any(group == qualifier for group in groups) for qualifier in qualifiers)


def size_of(item):
    """How many bytes an item has."""
    digits = item.picture.digits
    if item.storage == "packed":
        return digits // 2 + 1
    if item.storage == "binary":
        return 2 if digits <= 4 else 4 if digits <= 9 else 8
    return item.picture.size + (1 if item.storage == "separate" else 0)
