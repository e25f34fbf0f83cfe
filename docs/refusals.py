"""Lists the places of the code where a failure of memory begins, and compares them with docs/refusals.csv.

usage: python3 docs/refusals.py [--list]

A call that allocates returns `Err(AllocError)` or `NoMemory` if an allocation fails, and no clause can say that memory was
short. So each place that makes such an error, and does not only pass one on, is listed in docs/refusals.csv: its file, its
function, how many there are in it, and why it may fail.
A failure begins where `Err(AllocError)` or a `NoMemory` is written as a value, and where `remap` or `merge` returns an
`Err`. It is passed on by `?`, by a `From`, and by an arm of a `match` on the same error. Tests are left out.
It prints a line for each place that is not listed, and for each that is listed and does not exist, and ends with status 1 if
there is one. With --list it prints all places as rows of the list, without reasons."""
import collections
import csv
import glob
import os
import re
import sys

TOP = os.path.dirname(os.path.dirname(os.path.realpath(__file__)))
LIST = "docs/refusals.csv"
HEADS = ["file", "function", "count", "reason"]
# (a value of an error, or a pattern of it)
REFUSAL = re.compile(r"\bErr\(\s*AllocError\s*\)|\b(?:\w+::)*NoMemory\b")
REMAP = re.compile(r"\bErr\(")
OPENING, CLOSING = "([{", ")]}"


def end_of(text, at):
    """Returns where the bracket that opens at this place is closed."""
    depth = 0
    for place in range(at, len(text)):
        depth += (text[place] in OPENING) - (text[place] in CLOSING)
        if not depth:
            return place + 1
    return len(text)


def code_of(text):
    """Returns a file without its comments, texts, clauses and ghost items."""
    text = re.sub(r'//[^\n]*|b?"(?:[^"\\]|\\.)*"', "", text)
    text = re.sub(r"\bghost use [^;]*;", "", text)
    while found := re.search(r"\b(?:requires|ensures|ghost)\b[^{;]*\{", text):
        text = text[: found.start()] + text[end_of(text, found.end() - 1) :]
    return text


def functions_of(code):
    """Returns the functions with a body, each with where it begins and ends and its head."""
    for found in re.finditer(r"\bfn (\w+)", code):
        rest = re.compile(r"[{;]").search(code, found.end())
        if rest and rest[0] == "{":
            yield found[1], found.start(), end_of(code, rest.start()), code[found.start() : rest.start()]


def is_pattern(after):
    """Whether what a value would end is a pattern, by what follows it."""
    return re.match(r"(?:\([^()]*\))?[\s)]*(?:=>|\||=[^=]|,?\s*\.\.)", after) is not None


def is_passed_on(before):
    """Whether it stands in an arm for the same refusal."""
    arms, _, value = before.rpartition("=>")
    return ";" not in value and re.search(r"(?:AllocError|NoMemory)(?:\([^()]*\))?[\s)]*$", arms) is not None


def made_in(body, pattern):
    for found in pattern.finditer(body):
        if not is_pattern(body[found.end() :]) and not is_passed_on(body[: found.start()]):
            yield found.start()


def places_of(text):
    """Returns how many refusals each function of a file makes."""
    code = code_of(text)
    functions = list(functions_of(code))
    made = collections.Counter()
    for name, begin, end, head in functions:
        if name == "from":
            continue
        inner = [it for it in functions if begin < it[1] and it[2] <= end]
        pattern = REMAP if name in ("remap", "merge") and "&self" in head else REFUSAL
        for at in made_in(code[begin:end], pattern):
            if not any(it[1] <= begin + at < it[2] for it in inner):
                made[name] += 1
    return made


def is_tested_with(path):
    crate = path.split("/")[1]
    return crate.startswith("test_") or path.endswith("/tests.rt")


def places():
    """Returns all places: a file, a function, and how many refusals it makes."""
    found = {}
    for path in sorted(os.path.relpath(it, TOP) for it in glob.glob(f"{TOP}/crates/*/src/**/*.rt", recursive=True)):
        if not is_tested_with(path):
            with open(f"{TOP}/{path}", encoding="utf-8") as it:
                found.update({(path[len("crates/") :], name): count for name, count in places_of(it.read()).items()})
    return found


def listed():
    with open(f"{TOP}/{LIST}", encoding="utf-8", newline="") as it:
        return {(row["file"], row["function"]): row for row in csv.DictReader(it)}


def faults():
    """Returns a line for each place where the code and the list differ."""
    made, told = places(), listed()
    for place in sorted({*made, *told}):
        where = f"crates/{place[0]}: {place[1]}"
        if place not in told:
            yield f"{where} makes a refusal that {LIST} has not"
        elif place not in made:
            yield f"{LIST}: {where} makes no refusal"
        elif int(told[place]["count"]) != made[place]:
            yield f"{where} makes {made[place]} refusals, and {LIST} has {told[place]['count']}"
        elif not told[place]["reason"].strip():
            yield f"{LIST}: {where} has no reason"


def main(*words):
    if words == ("--list",):
        rows = csv.writer(sys.stdout, lineterminator="\n")
        rows.writerow(HEADS)
        rows.writerows([*place, count, ""] for place, count in sorted(places().items()))
        return 0
    lines = list(faults())
    for line in lines:
        print(line)
    print(f"{len(places())} places, {len(lines)} faults")
    return 1 if lines else 0


if __name__ == "__main__":
    sys.exit(main(*sys.argv[1:]))
