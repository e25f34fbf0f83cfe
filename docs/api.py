"""Writes docs/API.md, the list of the library's public calls, from the sources.

usage: python3 docs/api.py

Of each type, trait and constant that the library exports, as itself or in a module: a link to it, the first sentence of
its comment, and its variants or public fields. Of each `pub fn` of the crates and files in PARTS: its signature with a
link to it, the first sentence of its comment, and the names of its clauses, which are its promise. `faults` tells of
what the library exports and no part lists. Errors are the names in the section `# Errors` of its comment, else the
type of its error. What most calls of a file share stands once below its heading, and a call says where it differs."""
import collections
import os
import re
import textwrap

import sources

PATH = "docs/API.md"
HEAD = """# The library's calls

`python3 docs/api.py` makes this page from the sources, and [check.py](check.py) compares it with them. [USE](USE.md)
explains how the calls go together. An entry has the signature, with a link to the source; what the call does; and in
parentheses the names of its clauses, which are its promise. The source also says what a call locks, costs and
allocates, and most calls have an example there. `rt` is the runtime handle.

- **Errors.** The errors of most calls of a group are below its heading. An entry names its errors if they are others. A
  call that fails has changed nothing, unless its source says what it leaves. `Fault` stands for `PassFull` and
  `NoMemory`.
- **Waiting.** Only a call whose `R` is bound by `Wait` may wait: for the lock of a bucket, or for what its entry names.
- **Memory.** A call that cannot fail needs no memory. Any call may also begin to grow the table, or help with it, which
  allocates; if that fails, the call still succeeds.
"""
CLOSED = ("quiet.rt", "single.rt", "taken.rt", "reopen.rt")
# What is listed: the crate, a heading, the files, and those that are left out; no files for all of the crate. `FILE:TYPE` is what a file has of a type.
PARTS = (
    ("clients", "The library", (), ()),
    ("sets", "Sets (`facingberyl::SharedSet`)", (), ()),
    ("caches", "A bounded cache (`facingberyl::Cache`)", (), ()),
    ("text_maps", "Maps for text from outside (`facingberyl::TextMap`)", (), ()),
    ("bulk_tasks", "Bulk operations (`facingberyl::bulk`)", ("operations.rt", "reducing.rt", "searching.rt", "acting.rt", "plan.rt", "traits.rt", "batches.rt"), ()),
    ("steal_pool", "What a bulk operation calls before each leaf (`facingberyl::bulk::Gate`)", ("gate.rt",), ()),
    ("live_maps", "Bulk operations on a live map (`facingberyl::live`)", (), ()),
    ("live_bulk", "Clients of a bulk operation (`facingberyl::live::clients_for`)", ("clients.rt",), ()),
    ("chm", "The closed map (`facingberyl::Quiet`)", CLOSED, ()),
    ("chm", "The map and its passes apart (`facingberyl::Map`)", (), CLOSED + ("debug.rt", "fault.rt", "laws.rt")),
    ("count_ledger", "Passes (`facingberyl::Pass`)", ("tokens.rt", "roster.rt:Roster"), ()),
    ("hashkeys", "Keys, and what they are looked up by (`facingberyl::HashKey`)", (), ()),
    ("bin_history", "Calls as values (`facingberyl::Call`)", ("call.rt", "lean_calls.rt:Op", "limits.rt"), ()),
    ("bin_entries", "The key of a call (`facingberyl::KeyArg`)", ("key_arg.rt",), ()),
    ("functions", "Functions and values that are ready to use (`facingberyl::Add`)", (), ()),
    ("seeded_keys", "Keys under a secret seed (`seeded_keys`)", (), ()),
)
# The crate that a program names, and its modules, by the crates that they are.
LIBRARY = "facingberyl"
MODULES = {"bulk": "bulk_tasks", "live": "live_maps"}


def comment_before(lines, index):
    """Returns the comment that stands before a line, and the attributes between."""
    said = []
    while index and (lines[index - 1].strip().startswith(("///", "#["))):
        index -= 1
        if (line := lines[index].strip()).startswith("///"):
            said.insert(0, line[3:])
    return said


def sections(said):
    """Returns a comment's text, its example and, of each heading `# X`, the text below it."""
    parts, now, shown = {"": [], "Example": []}, "", False
    for line in said:
        if "```" in line:
            shown = not shown
        elif shown or line.startswith("     "):
            parts["Example"].append(line)
        elif heading := re.match(r" # (\w+)", line):
            now = heading[1]
            parts[now] = []
        else:
            parts[now].append(line.strip())
    return {key: " ".join(" ".join(lines).split()) for key, lines in parts.items()}


def owner_of(lines, index):
    """Returns the type in whose `impl` or `trait` block an indented function stands."""
    for number in range(index, -1, -1):
        if lines[number].startswith(("impl", "pub trait", "trait")):
            head = re.sub(r"\bfor<.*?>", "", " ".join(lines[number : number + 40]).partition("{")[0])
            depth, flat = 0, ""
            for letter in head:
                depth += (letter == "<") - (letter == ">")
                flat += letter if not depth and letter not in "<>" else ""
            flat = flat.partition(" where ")[0]
            if "trait " in flat:
                flat = flat.partition(":")[0]
            return re.findall(r"\w+", flat)[-1]
    return ""


def head_of(text):
    """Returns a function's head without its brace, and without what follows where a function without clauses opens its body in the line."""
    opened = re.match(r"(?s)(.*?) \{\n", text)
    if opened and not re.search(r"\b(?:requires|ensures)\b", opened[1]):
        text = opened[1]
    return text.rstrip("{; \n")


def signature_of(head):
    """Returns a function's head up to its answer, in one line, and the type of its answer."""
    flat = " ".join(head.split())
    flat = re.split(r" (?:where|requires|ensures)\*? ", flat + " where ")[0].strip()
    flat = flat.replace("( ", "(").replace(", )", ")").replace(",)", ")")
    depth, end = 0, 0
    for end, letter in enumerate(flat):
        depth += (letter in "(<") - (letter in ")>" and flat[end - 1] != "-")
        if letter == ")" and not depth:
            break
    return flat, flat[end + 1 :].removeprefix(" -> ")


def last_parameter(text):
    """Returns the name of the last parameter of a type, of which the text begins behind its first bracket."""
    depth, last = 0, ""
    for number, letter in enumerate(text):
        depth += (letter in "(<") - (letter in ")>" and text[number - 1] != "-")
        if depth < 0:
            break
        last = "" if letter == "," and not depth else last + letter
    return last.partition("<")[0].strip()


def errors_of(parts, answer):
    """Returns the names of the errors of a call, or what is said of them where no name is."""
    own = f"`{last_parameter(answer[answer.index('Result<') + 7 :])}`" if re.search(r"\bResult<", answer) else "none"
    if said := parts.get("Errors"):
        first = re.split(r"(?<=\.)\s", said, maxsplit=1)[0].rstrip(".")
        names = ", ".join(dict.fromkeys(re.findall(r"`[A-Z]\w+`", said)))
        why = first[0].lower() + first[1:]
        return names or (f"{own}, {why}" if first.startswith(("Where ", "For ", "Out of ")) else why)
    return own


class Call:
    """A public function: where it stands, and what is said of it."""

    def __init__(self, path, lines, index):
        self.name = re.search(r"fn (\w+)", lines[index])[1]
        rest = "\n".join(lines[index:])
        head = head_of((sources.heads_of(self.name, rest) or [rest])[0])
        signature, answer = signature_of(head)
        parts = sections(comment_before(lines, index))
        clauses = re.findall(r"(?m)^\s*ensures\*? (\w+) \{", head)
        self.owner = owner_of(lines, index) if lines[index].startswith(" ") else ""
        shown = f"{self.owner}::{self.name}" if self.owner else self.name
        self.link = f"[`{shown}`](../{path}#L{index + 1})"
        self.signature = re.sub(r"^(?:pub )?fn \w+", "", signature).replace("< ", "<").replace(", >", ">")
        self.first = re.split(r"(?<=\.)\s", parts[""], maxsplit=1)[0]
        self.promise = ", ".join(f"`{it}`" for it in clauses)
        self.errors = errors_of(parts, answer)

    def entry(self, shared):
        own = f" Errors: {self.errors}." if self.errors != shared else ""
        promise = f" ({self.promise})" if self.promise else ""
        text = f"- {self.link} `{self.signature}`. {self.first.rstrip('.')}{promise}.{own}"
        return wrapped(text, "  ")


def wrapped(text, indent=""):
    return "\n".join(textwrap.wrap(text, 120, subsequent_indent=indent, break_long_words=False, break_on_hyphens=False))


def shared_by(calls):
    """Returns the errors that most of the calls share."""
    said, count = collections.Counter(it.errors for it in calls).most_common(1)[0]
    return said if 2 * count >= len(calls) else ""


def calls_in(path):
    """Returns the public calls of a source. The calls of a trait that users write are its own; those of `impl Trait for` are not listed."""
    lines = sources.text_of(path).splitlines()
    inside = [it for it, line in enumerate(lines) if re.match(r"    (?:pub )?fn \w+|pub fn \w+", line)]
    return [Call(path, lines, it) for it in inside if "pub fn" in lines[it] or in_public_trait(lines, it)]


def exports_of(crate):
    """Returns what a crate exports: of each name where it takes it from, which is a crate or a module of its own, and its name there."""
    found = {}
    for used in re.finditer(r"(?ms)^\s*pub use ([\w:]+?)(?:::\{(.*?)\}|);", sources.text_of(f"crates/{crate}/src/lib.rt")):
        path, names = (used[1], used[2]) if used[2] else used[1].rpartition("::")[::2]
        for name in filter(None, (it.strip() for it in names.split(","))):
            there, _, here = name.partition(" as ")
            found[here or there] = path.split("::")[0], there
    return found


def variants_of(lines, index):
    """Returns a sentence with the variants of an enum, or the public fields of a struct."""
    if not re.match(r"pub (?:struct|enum)\b.*\{$", lines[index]):
        return ""
    names = []
    for line in lines[index + 1 :]:
        if line == "}":
            break
        if found := re.match(r"    (?:pub (\w+):|([A-Z]\w*)[(,{ ]|([A-Z]\w*)$)", line):
            names.append(found[1] or found[2] or found[3])
    what = "Variants" if "enum" in lines[index] else "Fields"
    return f" {what}: {', '.join(f'`{it}`' for it in names)}." if names else ""


def definition_of(crate, name):
    """Returns where a type, a trait or a constant that a crate exports is defined, the first sentence of its comment, and its variants or public fields."""
    origin, there = exports_of(crate).get(name, ("", name))
    if origin in sources.crates():
        return definition_of(origin, there)
    module = {f"crates/{crate}/src/{origin}.rt"} if origin else set()
    for path in sorted(sources.sources_of(crate), key=lambda it: it not in module):
        lines = sources.text_of(path).splitlines()
        for index, line in enumerate(lines):
            if re.match(rf"pub (?:struct|enum|trait|type|const) {there}\b", line):
                said = sections(comment_before(lines, index))[""]
                return path, index + 1, re.split(r"(?<=\.)\s", said, maxsplit=1)[0] + variants_of(lines, index)
    raise LookupError(f"{crate} exports {name}, and no file of it defines {there}")


def export_lines(crate):
    """Returns a line for each type, trait and constant that a crate exports."""
    for name in (it for it in exports_of(crate) if not it.islower()):
        path, number, first = definition_of(crate, name)
        yield wrapped(f"- [`{name}`](../{path}#L{number}): {first}" if first else f"- [`{name}`](../{path}#L{number})", "  ")


def export_parts():
    """Returns the list of what the library exports, and of what each of its modules does."""
    for name in (LIBRARY, *(f"{LIBRARY}::{it}" for it in MODULES)):
        crate = MODULES.get(name.removeprefix(f"{LIBRARY}::"), LIBRARY)
        yield from (f"## Types, traits and constants that `{name}` exports\n", *export_lines(crate), "")


def calls_of(crate, files, without):
    """Returns of each file of a part that has calls its path and its calls."""
    wanted = dict(it.partition(":")[::2] for it in files)
    for path in sources.sources_of(crate):
        name = os.path.basename(path)
        if files and name not in wanted or name in without:
            continue
        if calls := [it for it in calls_in(path) if not wanted.get(name) or it.owner == wanted[name]]:
            yield path, calls


def unlisted():
    """Returns the functions that the library exports, and those of types and traits that it exports, which no part lists."""
    listed = {(path, it.name) for crate, _, files, without in PARTS for path, calls in calls_of(crate, files, without) for it in calls}
    names = {name for _, name in listed}
    for exporter in (LIBRARY, *MODULES.values()):
        for name in exports_of(exporter):
            if name.islower() and name not in {*MODULES, *names}:
                yield name
            elif not name.islower() and not name.isupper():
                crate = definition_of(exporter, name)[0].split("/")[1]
                calls = [(path, it) for path in sources.sources_of(crate) for it in calls_in(path) if it.owner == name]
                yield from (f"{name}::{it.name}" for path, it in calls if (path, it.name) not in listed)


def faults():
    yield from (f"docs/api.py: no part lists {it}, which the library exports" for it in dict.fromkeys(unlisted()))


def page():
    out = [HEAD, *export_parts()]
    for crate, title, files, without in PARTS:
        out.append(f"## {title}\n")
        for path, calls in calls_of(crate, files, without):
            shared = shared_by(calls)
            out.append(f"### {sources.sentence(sources.module_comment(path))}\n")
            if shared:
                out += [wrapped(f"Errors: {shared}."), ""]
            out += [it.entry(shared) for it in calls]
            out.append("")
    return "\n".join(out).rstrip() + "\n"


def in_public_trait(lines, index):
    for number in range(index, -1, -1):
        if lines[number] and not lines[number][0].isspace() and lines[number][0] not in ")}>":
            return lines[number].startswith("pub trait")
    return False


if __name__ == "__main__":
    with open(f"{sources.TOP}/{PATH}", "w", encoding="utf-8") as it:
        it.write(page())
