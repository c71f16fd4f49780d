"""The manual pages that `cobconv manual` prints, one behind another, as files."""

import re


def pages(printed):
    """Each page by the name of its file: it begins with a line `.TH`, and what it is a page of stands below that of its name."""
    found = {}
    for page in re.split(rb"(?m)^(?=\.TH )", printed):
        if page:
            name = re.search(rb"(?m)^\.SH NAME\n(\S+) ", page)[1].replace(b"\\-", b"-").decode()
            found[f"{name}.1"] = page
    return found
