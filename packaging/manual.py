"""Manual pages of the headers and of their functions, made of their comments."""
import os
import re

COMMENT = re.compile(r"/\*(.*?)\*/", re.S)
TYPED = r"((?:FACING_CHECKED )?(?:FACING_API )?[a-z][\w *]*\bfacing_\w+\([^{;]*?\))(?=\s*[{;])"
DECLARED = re.compile(r"/\*((?:(?!\*/).)*)\*/\s*\n" + TYPED, re.S)

# The calls of pools, which have no comments of their own.
POOLED = re.compile(r"(?<!\*/\n)FACING_CHECKED FACING_API ([a-z][\w *]*\b(facing_(?:\w+_)?pool_\w+)\([^{;]*?\))(?=\s*\{)")

# What returns a number that is no status.
NO_STATUS = ("facing_forks_seen", "facing_back_off")


def plain(text):
    """A text in which troff reads no escape and no request."""
    text = text.replace("\\", "\\e").replace("-", "\\-")
    return "\n".join("\\&" + it if it.startswith((".", "'")) else it for it in text.split("\n"))


def without_stars(comment):
    return "\n".join(re.sub(r"^ ?\*? ?", "", it).rstrip() for it in comment.strip().split("\n"))


def head_of(text):
    """Returns the comment at a header's head, of C or of C++."""
    if text.startswith("//"):
        lines = []
        for line in text.split("\n"):
            if not line.startswith("//"):
                break
            lines.append(line[3:])
        return "\n".join(lines)
    return without_stars(COMMENT.match(text)[1])


def paragraphs(text):
    """Sets prose as paragraphs; what is indented, and each line of a list, stays as it is."""
    said = []
    for part in re.split(r"\n\s*\n", text):
        if re.search(r"(?m)^ {2,}\S", part):
            said += [".PP", ".nf", plain(part), ".fi"]
        else:
            # A line that begins with a blank begins a line of the page, and so does what follows a list.
            said += [".PP", re.sub(r"(?m)^( .*\n)(?=\S)", r"\1.br\n", plain(part.rstrip()))]
    return said


def functions(text):
    """Yields the functions that a header declares for programs: the name, the declaration, and what its comment says."""
    for comment, declared in DECLARED.findall(text):
        declared = re.sub(r"\bFACING_(CHECKED|API) ", "", " ".join(declared.split()))
        name = re.search(r"\b(facing_\w+)\(", declared)[1]
        if not name.startswith("facing_c_"):
            yield name, declared, " ".join(without_stars(comment).split())
    for declared, name in POOLED.findall(text):
        call = name.replace("_pool_", "_")
        yield name, " ".join(declared.split()), f"Makes the call {call} by a client of the pool, which any thread may call."


def list_of(its):
    said = [".SH FUNCTIONS"] if its else []
    for _, declared, comment in its:
        said += [".TP", f".B {plain(declared)}", plain(comment)]
    return said


def head(name, about, header, date, version):
    """The first sections of a page."""
    said = [f'.TH {name.upper()} 3 "{date}" "facing {version}"', ".SH NAME", f"{name} \\- {plain(about)}"]
    return [*said, ".SH SYNOPSIS", ".nf", f".B #include <{header}>"]


def page_of(function, header, version, date):
    """Returns the manual page of a function."""
    name, declared, comment = function
    about = re.split(r"\.\s|\.$|;|:\s", comment, maxsplit=1)[0]
    said = [*head(name, about, header, date, version), ".sp", f".B {plain(declared)};", ".sp", "Link with \\-lfacing \\-lpthread.", ".fi"]
    said += [".SH DESCRIPTION", plain(comment)]
    if declared.startswith("uint32_t") and name not in NO_STATUS:
        said += [".SH RETURN VALUE", "A status: FACING_DONE (0), or why the call was not made, of which", ".BR facing_strerror (3)"]
        said += ["returns a sentence.", f".BR {header} (3)", "says what fails with which status."]
    called = re.sub(r"^facing_(\w+_)?pool_", lambda it: f"facing_{it[1] or ''}", name)
    also = [header, *([called] if called != name and called not in ("facing_take", "facing_give") else [])]
    return "\n".join([*said, ".SH SEE ALSO", ",\n".join(f".BR {it} (3)" for it in also)]) + "\n"


def page_of_header(path, text, its, version, date):
    """Returns the manual page of a header."""
    name, comment = os.path.basename(path), head_of(text)
    about = " ".join(re.split(r"\.\s|\.$|:\s", comment, maxsplit=1)[0].split())
    said = [*head(name, about, name, date, version), ".sp", "Link with \\-lfacing \\-lpthread.", ".fi", ".SH DESCRIPTION"]
    said += paragraphs(comment)[1:] + list_of(its)
    others = sorted(it for it in os.listdir(os.path.dirname(path)) if it.startswith("facing") and it != name)
    said += [".SH SEE ALSO", ",\n".join(f".BR {plain(it)} (3)" for it in others)]
    return "\n".join(said) + "\n"


def pages(path, version, date):
    """Yields the names and the texts of the manual pages of a header and of its functions."""
    with open(path, encoding="utf-8") as it:
        text = it.read()
    its, header = list(functions(text)), os.path.basename(path)
    yield header, page_of_header(path, text, its, version, date)
    for function in its:
        yield function[0], page_of(function, header, version, date)
