"""Looks at the sources that the gate does not prove, those of the crates of tests and of the crates that are built without proofs, as `rt ci`
looks at those that it proves.

usage: python3 tools/gating/texts.py

It prints a line for each fault, and ends with status 1 if there is one."""
import os
import re
import subprocess
import sys

TOP = os.path.dirname(os.path.dirname(os.path.dirname(os.path.realpath(__file__))))
sys.dont_write_bytecode = True
sys.path.insert(0, f"{TOP}/tools")
from unproved.crates import TESTS, Kit, NotBuilt, Repository, text_of  # noqa: E402

# The folders of a crate in which files of a kind are read.
FOLDERS = {".rt": ("src",), ".antt": ("specs", "proofs")}
MODULE = re.compile(r"(?m)^\s*(?:#\[[^\n]*\]\s*)?(?:pub(?:\([a-z]+\))? )?mod (\w+);")
IGNORED = re.compile(r"(?m)^(?!\s*//).*#\s*!?\s*\[\s*ignore\b")
TACTIC = re.compile(r"(?m)^#!\[tactic\(auto\)\]$")


def misused(repository):
    """Crates that use one which only tests may use, or which nobody may."""
    for crate, uses in repository.used.items():
        for it in (it for it in uses if it in repository.used and not repository.is_proved(it)):
            if repository.sections[it] != TESTS:
                yield f"crates.txt: {crate} names {it}, which is built without proofs: no crate may use it"
            elif repository.sections[crate] != TESTS:
                yield f"crates.txt: {crate} names {it}, which is a crate of tests: only a crate of tests may use it"


def files_below(folder):
    """Returns the paths of the sources and proofs below a crate's folder, as they are within it."""
    for at, folders, names in os.walk(folder):
        folders[:] = sorted(it for it in folders if f"{at}/{it}" != f"{folder}/out")
        yield from (os.path.relpath(f"{at}/{it}", folder) for it in sorted(names) if os.path.splitext(it)[1] in FOLDERS)


def modules_from(folder, path):
    """Returns a source, and those that it and its modules name, as paths within the crate's folder."""
    yield path
    top, name = os.path.dirname(path), os.path.splitext(os.path.basename(path))[0]
    below = top if name in ("lib", "main", "mod") else f"{top}/{name}"
    for module in MODULE.findall(text_of(f"{folder}/{path}") or ""):
        found = next((it for it in (f"{below}/{module}.rt", f"{below}/{module}/mod.rt") if os.path.isfile(f"{folder}/{it}")), None)
        if found:
            yield from modules_from(folder, found)


def unread(folder):
    """Files of a crate that no build of it reads."""
    root = next((it for it in ("src/main.rt", "src/lib.rt") if os.path.isfile(f"{folder}/{it}")), None)
    read = set(modules_from(folder, root)) if root else set()
    for path in files_below(folder):
        kind = os.path.splitext(path)[1]
        if path.split("/")[0] not in FOLDERS[kind] or kind == ".rt" and path not in read:
            yield path


def faults_of(crate, folder, kit):
    """What `rt ci` would refuse of a crate's text."""
    files = list(files_below(folder))
    yield from (f"crates/{crate}/{it}: no build reads it: a module has to name it" for it in unread(folder))
    for path in (it for it in files if it.endswith(".rt")):
        if IGNORED.search(text_of(f"{folder}/{path}")):
            yield f"crates/{crate}/{path}: a test under #[ignore], which nothing would run: remove the attribute or the test"
    if files and not any(TACTIC.search(text_of(f"{folder}/src/{it}.rt") or "") for it in ("main", "lib")):
        yield f"crates/{crate}: its first source has no line #![tactic(auto)]"
    words = [f"{kit.folder}/bin/rattle", "fmt", "--check", *files]
    ran = subprocess.run(words, cwd=folder, capture_output=True, text=True, errors="replace", check=False)
    if ran.returncode:
        yield f"crates/{crate}: run rt fmt in its folder: {' '.join((ran.stdout + ran.stderr).split())[:300]}"


def faults():
    repository, kit = Repository(TOP), Kit()
    yield from misused(repository)
    for crate in repository.used:
        if not repository.is_proved(crate):
            if os.path.isdir(f"{repository.folder(crate)}/src"):
                yield from faults_of(crate, repository.folder(crate), kit)
            else:
                yield f"crates.txt names {crate}, and crates/{crate}/src is not there"


def main():
    found = 0
    for it in faults():
        found += 1
        print(it, flush=True)
    print(f"{found} faults")
    return 1 if found else 0


if __name__ == "__main__":
    try:
        sys.exit(main())
    except NotBuilt as why:
        sys.exit(f"texts.py: {why}")
