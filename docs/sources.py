"""What the scripts of this folder read of the repository: its pages, its sources, and what the sources define."""
import functools
import glob
import os
import re

TOP = os.path.dirname(os.path.dirname(os.path.realpath(__file__)))
# Pages that a script of docs/ writes.
GENERATED = ("crates/README.md", "docs/API.md", "docs/TESTS.md")


@functools.cache
def text_of(path):
    with open(f"{TOP}/{path}", encoding="utf-8") as it:
        return it.read()


def is_file(path):
    return os.path.isfile(f"{TOP}/{path}")


def below_top(pattern):
    return sorted(os.path.relpath(it, TOP) for it in glob.glob(f"{TOP}/{pattern}"))


def pages():
    """Returns all pages, the top ones first."""
    return [*below_top("*.md"), *below_top("docs/*.md"), *below_top("docs/history/*.md"), *below_top("crates/README.md"), *below_top("bench/*/README.md"), *below_top("crates/*/README.md")]


def crates():
    """Returns the crates of crates.txt, in its order."""
    lines = [it.partition("#")[0] for it in text_of("crates.txt").splitlines()]
    return [it.split(":")[0].split()[0] for it in lines if ":" in it]


def sources_of(crate):
    """Returns the paths of a crate's sources, those in folders below `src` too."""
    return sorted({*below_top(f"crates/{crate}/src/*.rt"), *below_top(f"crates/{crate}/src/*/*.rt")})


def edits_in(folder):
    """Returns the names of the edits that are stored in a folder."""
    return [os.path.basename(it).removesuffix(".edit") for it in below_top(f"{folder}/*.edit")]


def path_of_edit(crate, edit):
    """Returns where an edit is stored, by its place in wrong_bodies.csv: `must-fail/NAME`, which the gate tries, or `tools/edits/NAME`."""
    folder, _, name = edit.rpartition("/")
    return {"must-fail": f"crates/{crate}/must-fail/{name}.edit", "tools/edits": f"tools/edits/{crate}/{name}.edit"}.get(folder, "")


def misses_of(crate, path):
    """Returns the texts that an edit replaces and that do not stand exactly once in the file that it names."""
    file = ""
    for line in text_of(path).splitlines():
        if line.startswith("file: "):
            file = f"crates/{crate}/{line[len('file: '):].strip()}"
        elif line.startswith("old: "):
            old = line[len("old: "):]
            if not is_file(file) or text_of(file).count(old) != 1:
                yield old


@functools.cache
def all_specs():
    return "\n".join(text_of(it) for it in below_top("crates/*/specs/*.antt"))


RUST = r"^\s*(?:(?:pub(?:\([a-z]+\))?|ghost|const|unsafe|extern .C.) )*(?:fn|struct|enum|trait|type|const|static|mod|use|macro_rules!) +"
SPECS = r"^\s*(?:(?:abbrev|pub|record|data|lemma|def|theorem) )*"
KINDS = {".rt": RUST, ".antt": SPECS, ".py": r"^\s*(?:def|class) |^"}


def line_of(name, path):
    """Returns the number of the line of a source that defines a name, as `Map::call` or `IsFront`, or None."""
    kind = KINDS.get(os.path.splitext(path)[1])
    last = re.escape(name.split("::")[-1].removesuffix("()"))
    if kind is None:
        return None
    shapes = [rf"(?:{kind}){last}(?![\w-])"]
    if path.endswith(".rt"):
        shapes += [rf"^\s*(?:pub )?{last}(?::|,|\(| \{{|$)", rf"^\s*ghost {last}(?::| =)"]
    lines = text_of(path).splitlines()
    for shape in shapes:
        for number, line in enumerate(lines, 1):
            if re.match(shape, line):
                return number
    return None


def heads_of(function, text):
    """Returns the heads of the functions of this name, from `fn` up to the brace of the body, or the `;` where there is none."""
    return re.findall(rf"(?ms)\bfn {re.escape(function)}\b(?:.*?)(?:^\s*\{{\s*$|\{{\}}|^(?![^\n]* = )[^\n]*;$)", text)


def fields_of(head):
    """Returns the fields of the records of specs that a function's clauses name: parts of what it ensures, as clauses are."""
    ensured = re.findall(r"(?ms)^\s*ensures (.*?)(?=^\s*(?:requires|ensures) |\Z)", head)
    fields, names = set(), set(re.findall(r"\b[A-Z]\w+", "".join(ensured)))
    for name in list(names):
        for body in re.findall(rf"(?ms)^ *abbrev pub {name} :.*?\n *{name} [^=]*=(.*?)(?=\n\s*\n|\Z)", all_specs()):
            names.update(re.findall(r"\b[A-Z]\w+", body))
    for name in names:
        for body in re.findall(rf"(?ms)^ *pub record {name} .*?\bwhere\n(.*?)(?=\n\s*\n|\Z)", all_specs()):
            fields.update(re.findall(r"(?m)^ +pub ([a-z_]+) :", body))
    return fields


def has_clause(head, clause, kinds="ensures|requires"):
    return bool(re.search(rf"\b(?:{kinds})\*? {clause} \{{", head)) or clause in fields_of(head)


def tests_in(path):
    """Returns of each test in a file: its name, its line, and the comment before it."""
    found, comment, marked = [], [], False
    for number, line in enumerate(text_of(path).splitlines(), 1):
        line = line.strip()
        if line.startswith("///"):
            comment.append(line[3:].strip())
        elif line == "#[test]":
            marked = True
        elif marked and (name := re.match(r"(?:pub )?fn (\w+)", line)):
            found.append((name[1], number, " ".join(comment)))
            comment, marked = [], False
        elif not line.startswith("#["):
            comment, marked = [], False
    return found


def module_comment(path):
    """Returns the comment at the head of a source, as one line."""
    head = re.match(r"(?:\s*//!.*\n)+", text_of(path))
    return " ".join(it.strip()[3:].strip() for it in head[0].splitlines()) if head else ""


def sentence(text):
    """Returns the first sentence of a comment."""
    return re.split(r"(?<=[.:;])\s", text.strip(), maxsplit=1)[0].rstrip(".:;")
