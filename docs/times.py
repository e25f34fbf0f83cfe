"""How long proving takes, as the pages tell it: the minutes of processor time that the last gate from nothing measured, in tools/gate_times.csv."""
import re
import sys

import sources

sys.path.append(f"{sources.TOP}/tools")

from unproved.crates import Repository  # noqa: E402
from unproved.times import FILE, minutes_to_prove  # noqa: E402

# Where a page tells the time of a crate and all below it: the page, the words around the number, and the crate.
PLACES = (
    ("README.md", r"(proves mapcli first: some )\d+( minutes of processor time)", "mapcli"),
    ("docs/USE.md", r"(takes about )\d+(\s+minutes\s+of\s+processor\s+time\s+if\s+these\s+crates)", "facingberyl"),
)


def right(page, text):
    """Returns a page's text with the minutes that were measured."""
    for where, words, crate in PLACES:
        if where == page:
            minutes = minutes_to_prove([*Repository(sources.TOP).below(crate), crate])
            text = re.sub(words, rf"\g<1>{minutes}\2", text)
    return text


def faults():
    for page, words, _ in PLACES:
        text = sources.text_of(page)
        if not re.search(words, text):
            yield f"{page}: it does not say: {words}"
        elif right(page, text) != text:
            yield f"{page}: {FILE} has another time; python3 docs/check.py --fix"
