"""Compares what the pages say of the code with the code.

usage: python3 docs/check.py [--fix]

It proves nothing. It checks that
  a line of a page has at most 200 characters;
  a link leads to a file, a folder or a heading that exists, and each page but a stub is reached from the top README;
  a link whose text is one name in backticks, such as [`IsFront`](..), leads to a file that defines it, and if it names a
    line (`#L12`) to that line; clauses in parentheses after it, such as (`called`, `refused`), are clauses of that function;
  the text of a block `antt` is, but for line breaks, in the file that the last comment with a path names;
  each other block has a comment before it, such as `<!-- crates/example_tour/stdout -->`: its parts are, but for line
    breaks and indents where they are code, in that file; or `<!-- typed -->`: it is a command, whose program and options
    exist, or a form; or `<!-- drawn -->`: it is a figure;
  each line of an example in the comment of a call of the library is in the tests that run it;
  each crate of crates.txt has a README;
  the rows of wrong_bodies.csv name clauses and tests that exist; each stored edit has its row, and changes the sources;
  API.md, TESTS.md and crates/README.md are what api.py, tests.py and crates.py make of the sources, and refusals.csv what
    refusals.py finds; SPEED.md and CACHE.md have the figures of bench/measured; the pictures are what drawings.py draws,
    and how long proving takes is what the last gate from nothing measured;
  the exports of crates/facing and the headers say of each call what tools/exports makes of it;
  VERSION has the version that mapcli prints, and bin/words.py the texts, names and ranges that the programs print;
  KIT names the toolchain of this machine, and the top README names it too.
It prints a line for each fault, and ends with status 1 if there is one. With --fix it first writes the generated pages
and mends the lines that links name, and the file if another of the same crate defines the name."""
import csv
import os
import posixpath
import re
import sys

import api
import cache_figures
import crates
import drawings
import figures
import programs
import sources
import tests
import times
from sources import is_file, text_of

sys.path.append(f"{sources.TOP}/tools")
from exporting import places  # noqa: E402

COLUMNS = 200
# A stub has as many lines: it says where a page went.
STUB = 3
ANTT_PATH = r"[a-z_]+/(?:src|specs)/(?:\w+/)?\w+\.(?:rt|antt)"
BODIES = "docs/wrong_bodies.csv"
COLUMNS_OF_BODIES = ["crate", "body", "function", "clauses", "test", "edit"]
# The folders of the tests of the C library, of its headers, of what stands on them, and of packages.
TESTS_OF_HEADERS = ("examples/c/tests", "examples/cpp", "examples/rust/tests", "examples/python", "examples", "packaging")
LINK = r"\[((?:[^\[\]]|\[[^\]]*\])+)\]\(([^()\s]+)\)"
EXAMPLES = {
    "crates/clients/src/*.rt": "crates/test_[ls][ih][ba]*/src/*.rt",
    "crates/chm/src/*.rt": "crates/test_c[ho]*/src/*.rt",
    "crates/chm/src/*/*.rt": "crates/test_c[ho]*/src/*.rt",
    "crates/bulk_tasks/src/*.rt": "crates/test_pool/src/*.rt",
    "crates/functions/src/*.rt": "crates/test_[ls][ih][ba]*/src/*.rt",
    "crates/live_maps/src/*.rt": "crates/test_live/src/*.rt",
    "crates/text_maps/src/*.rt": "crates/test_text/src/*.rt",
    "crates/sets/src/*.rt": "crates/test_text/src/*.rt",
    "crates/caches/src/*.rt": "crates/test_caches/src/*.rt",
}


def words_of(text):
    """Returns the words of a text without the dashes that begin a comment, so that a comment may be broken into more lines."""
    return [it for it in text.split() if it != "--"]


def is_within(part, whole):
    return f" {' '.join(words_of(part))} " in f" {' '.join(words_of(whole))} "


def wide_lines(page, text):
    for number, line in enumerate(text.splitlines(), 1):
        if len(line) > COLUMNS:
            yield f"{page}:{number}: {len(line)} characters"


# == Links ==


def without_code(text):
    """Returns a page's text with its blocks left empty, so that their brackets are no links."""
    text = re.sub(r"(?ms)^ *```.*?^ *```$", lambda it: "\n" * it[0].count("\n"), text)
    return re.sub(r"(?m)(?<=\n\n)(?: {4}.*\n|\n)+", lambda it: "\n" * it[0].count("\n"), text)


def links_in(page):
    """Returns each link of a page to something here: its text, its path from the top, its fragment, and what follows it."""
    text = without_code(text_of(page))
    for found in re.finditer(LINK, text):
        target, _, fragment = found[2].partition("#")
        if not re.match(r"\w+:", found[2]):
            path = posixpath.normpath(posixpath.join(posixpath.dirname(page), target)) if target else page
            yield found[1], path, fragment, " ".join(text[found.end() : found.end() + 400].split())


def headings_of(page):
    found = re.findall(r"(?m)^#+ (.*)$", re.sub(r"<!--.*?-->", "", without_code(text_of(page))))
    return {re.sub(r"[^\w\- ]", "", re.sub(LINK, r"\1", it).lower()).strip().replace(" ", "-") for it in found}


def wrong_links(page):
    for shown, path, fragment, after in links_in(page):
        where = f"{page}: the link {shown} to {path}"
        name = re.fullmatch(r"`([\w:!()]+)`", shown)
        if not os.path.exists(f"{sources.TOP}/{path}"):
            yield f"{where}: there is no such file"
        elif fragment and path.endswith(".md"):
            if fragment not in headings_of(path):
                yield f"{where}: there is no heading {fragment}"
        elif name and os.path.splitext(path)[1] in sources.KINDS:
            yield from wrong_name(where, name[1], path, fragment)
            yield from lost_clauses(where, name[1], path, after)


def wrong_name(where, name, path, fragment):
    line = sources.line_of(name, path)
    if os.path.splitext(os.path.basename(path))[0] + os.path.splitext(path)[1] == name:
        return
    if line is None:
        yield f"{where}: the file does not define it"
    elif fragment and fragment != f"L{line}" and not is_function_at(name, path, fragment):
        yield f"{where}#{fragment}: it is in line {line}"


def is_function_at(name, path, fragment):
    """Whether a function of this name is defined in the line that a link names: two types of a file may have one each."""
    lines, number = text_of(path).splitlines(), int(fragment.removeprefix("L") or 0)
    return 0 < number <= len(lines) and bool(re.search(rf"\bfn {re.escape(name.split('::')[-1])}\b", lines[number - 1]))


def lost_clauses(where, name, path, after):
    """Clauses in parentheses behind the link to a function."""
    if behind := re.match(r"\(((?:`[a-z_]+`(?:, )?)+)\)", after):
        heads = sources.heads_of(name.split("::")[-1], text_of(path))
        for clause in re.findall(r"`([a-z_]+)`", behind[1]):
            if heads and not any(sources.has_clause(it, clause) for it in heads):
                yield f"{where}: it has no clause {clause}"


def unreached(pages):
    """Pages that no way of links from the top README leads to, but for stubs, which links from outside may lead to."""
    reached, ahead = set(), ["README.md"]
    while ahead:
        page = ahead.pop()
        if page not in reached:
            reached.add(page)
            ahead += [path for _, path, _, _ in links_in(page) if path.endswith(".md") and is_file(path)]
    return [f"{it}: no link leads here" for it in pages if it not in reached and len(text_of(it).splitlines()) > STUB]


def mended(page):
    """Returns a page's text with right lines in its links, and the file of the same crate where one file lost a name."""

    def mend(found):
        name = re.fullmatch(r"`([\w:!]+)`", found[1])
        target, _, fragment = found[2].partition("#")
        path = posixpath.normpath(posixpath.join(posixpath.dirname(page), target))
        if not name or not path.startswith("crates/") or os.path.splitext(path)[1] not in sources.KINDS:
            return found[0]
        if not is_file(path) or sources.line_of(name[1], path) is None:
            folder = posixpath.dirname(path)
            others = [it for it in sources.below_top(f"{folder}/*{os.path.splitext(path)[1]}") if sources.line_of(name[1], it)]
            if len(others) != 1:
                return found[0]
            path = others[0]
            target = posixpath.relpath(path, posixpath.dirname(page) or ".")
        is_right = fragment and is_function_at(name[1], path, fragment)
        line = f"#{fragment}" if is_right else f"#L{sources.line_of(name[1], path)}" if fragment else ""
        return f"[{found[1]}]({target}{line})"

    return re.sub(LINK, mend, text_of(page))


# == Blocks ==


def wrong_quotes(page, text):
    if len(re.findall(r"```", text)) != 2 * len(re.findall(r"(?ms)^ *```.*?^ *```$", text)):
        yield f"{page}: a block is not closed"
    for found in re.finditer(r"(?ms)^ *```antt\n(.*?)^ *```$", text):
        path, whole = "", ""
        for part in re.split(r"\n\s*\n", found[1].rstrip()):
            named = re.match(rf"-- ({ANTT_PATH})\n", part + "\n")
            if named:
                path, part = named[1], part[named.end() :]
                whole = text_of(f"crates/{path}") if is_file(f"crates/{path}") else ""
            if part.strip() and not is_within(part, whole):
                yield f"{page}: crates/{path} has not: {' '.join(part.split())[:90]}"


def blocks_of(text):
    """Returns the blocks that are indented by 4 or fenced, each with the line it begins at and the last line before it that is not empty."""
    lines = re.sub(r"(?ms)^```antt$.*?^```$", lambda it: "\n" * it[0].count("\n"), text).splitlines()
    before, block, fenced = "", [], False
    for number, line in enumerate([*lines, "."], 1):
        fence = line.startswith("```")
        if fenced and not fence or not fenced and re.match(" {4}", line) and (block or not lines[number - 2].strip()):
            block.append(line)
        elif block and not fenced and not line.strip():
            block.append(line)
        else:
            if block:
                yield number - len(block), before, "\n".join(block)
                block = []
            before = line if line.strip() and not fence else before
        fenced ^= fence


def is_shown(part, path, whole):
    """Whether a part of a block stands in a file: code whatever the line breaks, other text line by line."""
    if not path.endswith(".rt"):
        lines = [it.removeprefix("    ") for it in part.splitlines()]
        return "\n".join(lines).strip() in whole
    part, whole = ("".join(it.split()).replace(",)", ")") for it in (part, whole))
    return part in whole


def wrong_examples(page, text):
    for number, before, block in blocks_of(text):
        named = re.search(r"<!-- ([\w./]+) -->$", before.strip())
        if not named:
            yield f"{page}:{number}: no comment names the file of this block"
        elif named[1] not in ("typed", "drawn"):
            whole = text_of(named[1]) if is_file(named[1]) else ""
            for part in re.split(r"\n\s*\n", block.strip("\n")):
                if not whole or part.strip() and not is_shown(part, named[1], whole):
                    yield f"{page}:{number}: {named[1]} has not: {' '.join(part.split())[:90]}"


def wrong_commands(page, text):
    """Commands of typed blocks that name a program which is not here, or an option that no text of its folder has."""
    for number, before, block in blocks_of(text):
        if "<!-- typed -->" in before:
            for line in block.splitlines():
                words = re.split(r" {3,}", line.strip())[0].split()
                while words and (re.fullmatch(r"[A-Z_]+=\S*", words[0]) or words[0] == "python3"):
                    del words[0]
                program = words[0] if words else ""
                if re.match(r"(?:bin|tools|bench|docs|examples|\.ci)/", program):
                    if not is_file(program):
                        yield f"{page}:{number}: there is no program {program}"
                        continue
                    known = text_of(program) + "".join(text_of(it) for it in sources.below_top(f"{posixpath.dirname(program)}/*.py"))
                    yield from (f"{page}:{number}: {program} has no option {it}" for it in words[1:] if it.startswith("--") and it not in known)


# What a test expects, where an example passes its fault on.
EXPECTED = re.compile(r'\.expect\(rt,"[^"]*"\)')


def squeezed(code):
    """Returns code without white space, last commas, and whether what it is given is lent there or was lent before."""
    lent = "".join(code.replace("&mut ", "").split())
    return re.sub(r",([)}])", r"\1", lent).replace("&rt,", "rt,").replace("&rt)", "rt)")


def forms_of(line):
    """Returns the forms in which a test may have a line of an example: an assertion is a comparison there, or the other way; and a
    comparison of what a call returns may be made by `returns(CALL, VALUE)`."""
    yield squeezed(line).rstrip(",")
    if compared := re.fullmatch(r"(.*)\? == (.*)", line.strip()):
        yield squeezed(f"returns({compared[1]}, {compared[2]})")
    if asserted := re.fullmatch(r"assert_eq!\((.*)\);?", line.strip()):
        for comma in re.finditer(", ", asserted[1]):
            yield squeezed(f"{asserted[1][:comma.start()]} == {asserted[1][comma.end():]}")
    if asserted := re.fullmatch(r"assert!\((.*)\);?", line.strip()):
        yield squeezed(asserted[1])


def wrong_call_examples():
    """Examples in the comments of calls, each of which the tests of EXAMPLES run."""
    for shown_in, run_by in EXAMPLES.items():
        run = squeezed("\n".join(text_of(it) for it in sources.below_top(run_by)))
        run = f"{run}\n{EXPECTED.sub('?', run)}"
        for path in sources.below_top(shown_in):
            for number, line in enumerate(text_of(path).splitlines(), 1):
                shown = re.match(r"\s*///     (.*)$", line)
                if shown and not any(it in run for it in forms_of(shown[1])):
                    yield f"{path}:{number}: {run_by} has not: {shown[1].strip()}"


# == Crates, wrong bodies, generated pages ==


def lost_crates():
    for crate in sources.crates():
        if not is_file(f"crates/{crate}/README.md"):
            yield f"crates/{crate} has no README.md"


def wrong_bodies():
    """Rows that name a function, a clause, a test or an edit that is not there, and edits without a row or that change nothing."""
    every_test = {name for it in sources.crates() for path in sources.sources_of(it) for name, _, _ in sources.tests_in(path)}
    for path in sources.below_top("tools/test_*.py"):
        every_test |= set(re.findall(r"(?m)^ +def test_(\w+)\(", text_of(path)))
    told = set()
    with open(f"{sources.TOP}/{BODIES}", encoding="utf-8", newline="") as it:
        rows = list(csv.DictReader(it))
        for number, row in enumerate(rows, 2):
            where = f"{BODIES}:{number}"
            if list(row) != COLUMNS_OF_BODIES or None in row.values():
                yield f"{where}: other columns than {', '.join(COLUMNS_OF_BODIES)}"
                continue
            yield from wrong_body(where, row, every_test)
            told.add((row["crate"], row["edit"]))
    for crate in sources.crates():
        stored = [f"must-fail/{it}" for it in sources.edits_in(f"crates/{crate}/must-fail")]
        stored += [f"tools/edits/{it}" for it in sources.edits_in(f"tools/edits/{crate}")]
        yield from (f"{BODIES}: of {crate} there is no row for the edit {it}" for it in stored if (crate, it) not in told)
        for path in (sources.path_of_edit(crate, it) for it in stored):
            yield from (f"{path}: the sources have not, or have more than once: {it}" for it in sources.misses_of(crate, path))


def wrong_body(where, row, every_test):
    if row["crate"] not in sources.crates():
        yield f"{where}: there is no crate {row['crate']}"
        return
    text = "\n".join(text_of(it) for it in sources.sources_of(row["crate"]))
    heads = sources.heads_of(row["function"].split("::")[-1], text) if row["function"] else []
    if row["function"] and not heads:
        yield f"{where}: {row['crate']} has no function {row['function']}"
    for clause in row["clauses"].split():
        if heads and not any(sources.has_clause(it, clause) for it in heads):
            yield f"{where}: {row['function']} has no clause {clause}"
    for test in row["test"].split():
        if test not in every_test and not any(is_file(f"{it}/{test}") for it in TESTS_OF_HEADERS):
            yield f"{where}: there is no test {test}"
    if row["edit"] and not is_file(sources.path_of_edit(row["crate"], row["edit"])):
        yield f"{where}: the edit {row['edit']} is not stored: its place is must-fail/NAME or tools/edits/NAME"
    if not (row["function"] or row["test"]):
        yield f"{where}: nothing refuses it"


def old_pages():
    for made in (api, crates, tests):
        if not is_file(made.PATH) or text_of(made.PATH) != made.page():
            yield f"{made.PATH}: the sources say something else; python3 docs/check.py --fix"
    yield from (f"docs/tests.py: there is no test {name}" for name in tests.lost(list(tests.all_tests())))
    for path, draw in drawings.PICTURES.items():
        if not is_file(path) or text_of(path) != draw():
            yield f"{path}: docs/drawings.py draws something else; python3 docs/check.py --fix"
    yield from (*times.faults(), *api.faults())
    for of, data in ((figures, figures.DATA), (cache_figures, "bench/measured")):
        if text_of(of.PATH) != of.page():
            yield f"{of.PATH}: {data} has other figures; python3 docs/check.py --fix"


def other_refusals():
    """What the list of places where a refusal is made says, where its script is here."""
    if is_file("docs/refusals.py"):
        import refusals

        yield from refusals.faults()


def fix(pages):
    fixed = {made.PATH: made.page() for made in (api, crates, tests)}
    fixed |= {it: times.right(it, mended(it)) for it in pages if it not in (*sources.GENERATED, figures.PATH)}
    fixed[figures.PATH] = figures.page()
    fixed[cache_figures.PATH] = cache_figures.page(fixed[cache_figures.PATH])
    fixed |= {path: draw() for path, draw in drawings.PICTURES.items()}
    for page, text in fixed.items():
        if not is_file(page) or text != text_of(page):
            with open(f"{sources.TOP}/{page}", "w", encoding="utf-8") as it:
                it.write(text)
            print(f"{page}: written anew")
    text_of.cache_clear()


def main():
    if {"-h", "--help"} & set(sys.argv[1:]):
        print(__doc__)
        return 0
    pages = sources.pages()
    if "--fix" in sys.argv[1:]:
        fix(pages)
        pages = sources.pages()
    faults = list(unreached(pages))
    for page in pages:
        text = text_of(page)
        for look in (wide_lines, wrong_quotes, wrong_examples, wrong_commands):
            faults += look(page, text)
        faults += wrong_links(page)
    for look in (wrong_call_examples, lost_crates, wrong_bodies, old_pages, other_refusals, programs.faults, places.faults):
        faults += look()
    for fault in faults:
        print(fault)
    print(f"{len(pages)} pages, {len(faults)} faults")
    return 1 if faults else 0


if __name__ == "__main__":
    sys.exit(main())
