"""Knows in which files the texts of calls stand, finds each there by its name, and puts it in."""
import os
import re

from .calls import CALLS
from .kinds import KINDS
from .texts import CallOfKind, imports

TOP = os.path.dirname(os.path.dirname(os.path.dirname(os.path.realpath(__file__))))
SOURCES, INCLUDE = "crates/facing/src", "include"
POOLS, CPP, RUST = f"{INCLUDE}/facing_pool.h", f"{INCLUDE}/facing.hpp", "examples/rust/src/exports.rs"
# The text of a name: the comment right before it, and all up to the brace that ends it.
EXPORT = r'(?ms)(?:^///[^\n]*\n)*^#\[unsafe\(no_mangle\)\]\npub extern "C" fn NAME\(.*?^\}\n'
DECLARATION = r"(?m)^uint32_t NAME\([^;{]*\);\n"
FUNCTION = r"(?ms)(?:^/\*(?:(?!\*/).)*\*/\n)?^FACING_CHECKED FACING_API uint32_t NAME\(.*?^\}\n"
METHOD = r"(?ms)^    [\w:<>]+ NAME\(KEY key.*?^    \}\n"
IN_RUST = r"(?m)^    pub\(crate\) fn NAME\([^;{]*;\n"
IMPORTS = r"(?m)(?:^NAME\{[^}]*\};\n)+"


class Misplaced(Exception):
    """A text has no place in its file, or several."""


class Text:
    """A text of a file. It is found by a pattern; a new one stands behind the text before it, and a gap."""

    def __init__(self, name, pattern, made, gap="\n"):
        self.name, self.made, self.gap = name, made, gap
        self.pattern = pattern.replace("NAME", re.escape(name))

    def place(self, whole):
        """Returns where the text stands in that of a file, or None."""
        found = [it.span() for it in re.finditer(self.pattern, whole)]
        if len(found) > 1:
            raise Misplaced(f"{self.name} stands there {len(found)} times")
        return found[0] if found else None


def texts():
    """Yields files, each with texts in their order; a file may come several times."""
    for kind in KINDS:
        calls = [CallOfKind(it, kind) for it in CALLS if kind.name in it.kinds]
        path, lines = imports(kind, calls)
        yield f"{SOURCES}/{kind.source}", [Text(path, IMPORTS, lines)]
        own = (kind.source, kind.header)
        for files in dict.fromkeys(it.call.files or own for it in calls):
            source, header = files
            of_files = [it for it in calls if (it.call.files or own) == files]
            yield f"{SOURCES}/{source}", [Text(it.export_name, EXPORT, it.export()) for it in of_files]
            yield f"{INCLUDE}/{header}", [Text(it.export_name, DECLARATION, it.declaration(), "") for it in of_files]
            yield f"{INCLUDE}/{header}", [Text(it.function_name, FUNCTION, it.function()) for it in of_files]
        yield RUST, [Text(it.export_name, IN_RUST, it.in_rust(), "") for it in calls]
        method = METHOD.replace("KEY", "std::string_view" if kind.is_bytes else "key_type")
        yield CPP, [Text(it.call.name, method, it.method(), "") for it in calls if it.method()]
        yield POOLS, [Text(it.pool_name, FUNCTION, it.pool_function()) for it in calls if it.call.handle == "client"]


def with_texts(whole, its):
    """Returns the text of a file with these texts in it."""
    behind = None
    for it in its:
        if place := it.place(whole):
            start, end = place
            made = it.made
        elif behind is None:
            raise Misplaced(f"{it.name} is the first of its kind: write it by hand, and what it says is corrected then")
        else:
            start = end = behind
            made = it.gap + it.made
        whole = whole[:start] + made + whole[end:]
        behind = start + len(made)
    return whole


def differences(whole, its):
    """Yields what a file has otherwise, each with its line, and what it lacks, with none."""
    for it in its:
        if not (place := it.place(whole)):
            yield None, it.name
        elif (stands := whole[slice(*place)]) != it.made:
            same = os.path.commonprefix([stands, it.made])
            yield whole[: place[0]].count("\n") + same.count("\n") + 1, it.name


def text_of(path):
    with open(f"{TOP}/{path}", encoding="utf-8") as it:
        return it.read()


def faults():
    """Yields a line for each place where a file differs from the texts."""
    made = {}
    for path, its in texts():
        made.setdefault(path, set()).update(it.name for it in its)
        try:
            for line, name in differences(text_of(path), its):
                yield f"{path}:{line}: tools/exports makes something else of {name}" if line else f"{path}: it lacks {name}, which tools/exports adds"
        except Misplaced as why:
            yield f"{path}: {why}"
    for path in (it for it in made if it.startswith(SOURCES)):
        for name in re.findall(r"fn (facing_c_\w*try_\w+)", text_of(path)):
            if name not in made[path]:
                yield f"{path}: tools/exporting/calls.py has no row of {name}"


def write():
    """Writes the texts into their files, and returns which files changed."""
    files = {}
    for path, its in texts():
        files[path] = with_texts(files.get(path) or text_of(path), its)
    changed = [it for it in files if files[it] != text_of(it)]
    for path in changed:
        with open(f"{TOP}/{path}", "w", encoding="utf-8") as it:
            it.write(files[path])
    return changed
