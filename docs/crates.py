"""Writes crates/README.md, the list of all crates, from crates.txt and the first sentence of each crate's README.

usage: python3 docs/crates.py

The groups and their order are those of crates.txt: a comment there begins a group."""
import re
import textwrap

import sources

PATH = "crates/README.md"
HEAD = """# The crates

Made by `python3 docs/crates.py` from [crates.txt](../crates.txt) and the first sentence of each README; a crate stands
below those that it uses. [ARCHITECTURE](../docs/ARCHITECTURE.md) has a figure of the layers. Each README says what the
contracts show of a crate, what is proved, and what is only tested.
"""


def first_sentence(crate):
    """Returns the first sentence of a crate's README, with the paths of its links as they are from crates/."""
    text = sources.text_of(f"crates/{crate}/README.md") if sources.is_file(f"crates/{crate}/README.md") else ""
    said = " ".join(re.sub(r"^#[^\n]*\n+|<!--.*?-->", "", text).partition("\n\n")[0].split())
    said = re.split(r"(?<=\.)\s", said + " ", maxsplit=1)[0].strip().rstrip(":")
    return re.sub(r"\]\(([^():#]+)", lambda it: f"]({moved(crate, it[1])}", said)


def moved(crate, target):
    return target.removeprefix("../") if target.startswith("../") else f"{crate}/{target}"


def groups():
    """Returns the groups of crates.txt: the comment above each, and its crates."""
    found = []
    for line in sources.text_of("crates.txt").splitlines():
        if line.startswith("#"):
            found.append((line.lstrip("# ").strip(), []))
        elif ":" in line:
            found[-1][1].append(line.split(":")[0].split()[0])
    return found


def page():
    parts = [HEAD]
    for title, crates in groups():
        parts.append(f"## {title}\n")
        for crate in crates:
            said = first_sentence(crate)
            line = f"- [{crate}]({crate}/README.md): {said}"
            parts.append("\n".join(textwrap.wrap(line, 120, subsequent_indent="  ", break_long_words=False, break_on_hyphens=False)))
        parts.append("")
    return "\n".join(parts).rstrip() + "\n"


if __name__ == "__main__":
    with open(f"{sources.TOP}/{PATH}", "w", encoding="utf-8") as it:
        it.write(page())
