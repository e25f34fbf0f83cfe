"""Builds the tests of several crates, and their programs, as one program without their proofs: what is below them is read and compiled once
for all. One build keeps the trial run's checks of steps, so that a step that a proof would refuse ends the test; another one is optimised, as
users build a program, so that a wrong optimisation shows."""
import copy
import hashlib
import os
import re

from . import module
from .build import Build, Room

# The modules that the crates become, and the tests that the programs become.
PREFIX, PROGRAM = "in_", "the_program"
# What the toolchain made of the sources.
MODULE = "module.bc"
# A crate's tests are built with those of other crates that have the same one of these below them, the first that they have: more in one
# program would be more copies of generic functions than the kit compiles (65,536).
LAYERS = ("caches", "clients", "mapcli_core", "chm")
MAIN = re.compile(r"^fn main\(", re.M)
# The first source. A test is started with its name as the first word, so the words of a crate's program come after that.
ROOT = """//! Tests of several crates.
#![tactic(auto)]

{modules}
use std::env;
use std::io;

/// Returns the words of a program, with the name of the test in place of the program's.
#[cfg(test)]
fn words_of(rt: &HostRuntime) -> io::Result<env::Args> {{
    let mut words = env::args(rt)?;
    drop(words.next());
    Ok(words)
}}
"""


def count_of_tests(repository, crate):
    """Returns how many tests the sources of a crate have."""
    count = 0
    for path in repository.files(crate):
        with open(path, encoding="utf-8") as it:
            count += len(re.findall(r"^\s*#\[test\]$", it.read(), re.M))
    return count


def has_test(repository, crate, name):
    """Returns whether a crate has a test, or a module of tests, of this name."""
    for path in repository.files(crate):
        with open(path, encoding="utf-8") as it:
            text = it.read()
        is_module = name in os.path.relpath(path, repository.folder(crate)).removesuffix(".rt").split("/")
        if "#[test]" in text and (is_module or re.search(rf"(?m)^\s*#\[test\]\n(?:\s*#\[.*\n)*\s*(?:pub )?fn {name}\b", text)):
            return True
    return False


def is_program(repository, crate):
    return os.path.isfile(f"{repository.folder(crate)}/src/main.rt")


def groups_of(repository):
    """Returns the crates whose tests, or whose program, are built together, by what they stand on."""
    groups = {}
    for crate in repository.used:
        if count_of_tests(repository, crate) or is_program(repository, crate):
            below = repository.below(crate)
            layer = next((it for it in LAYERS if it in below), "lower")
            groups.setdefault(layer, []).append(crate)
    return groups


def write_module(folder, crate, to):
    """Writes the sources of a crate as those of a module of another one, in which a program is a test."""
    name = PREFIX + crate
    top = "main.rt" if os.path.isfile(f"{folder}/main.rt") else "lib.rt"
    for at, _, files in os.walk(folder):
        for file in (it for it in files if it.endswith(".rt")):
            path = os.path.relpath(f"{at}/{file}", folder)
            with open(f"{folder}/{path}", encoding="utf-8") as it:
                text = re.sub(r"\bcrate::(?!(?:proofs|specs)::)", f"crate::{name}::", it.read()).replace("env::args(", "crate::words_of(")
            if path == top:
                text = MAIN.sub(f"#[test]\nfn {PROGRAM}(", re.sub(r"(?m)^(?:#!\[.*\]|//!.*)\n", "", text))
            written = f"{to}/{name}.rt" if path == top else f"{to}/{name}/{path}"
            os.makedirs(os.path.dirname(written), exist_ok=True)
            with open(written, "w", encoding="utf-8") as it:
                it.write(text)


class Tests(Build):
    """The build of the tests of some crates that looks at each step. What is kept of it is a folder, with the program and with the module that
    the other build is made from."""

    KIND = "tests_{}"

    def __init__(self, repository, layer, crates, tell=lambda step: None):
        self.repository, self.crates, self.layer = copy.copy(repository), crates, layer
        self.crate = f"tests_{layer}"
        uses = [it for crate in crates for it in repository.used[crate]]
        self.repository.used = {**repository.used, self.crate: list(dict.fromkeys(uses))}
        self.repository.kinds = {**repository.kinds, self.crate: []}
        self.set_up(tell, f"{repository.folder(crates[0])}/out/unproved", self.KIND.format(layer))

    def kept(self):
        made = hashlib.sha256()
        for it in self.crates:
            made.update(self.repository.sum(self.kit, it).encode())
        return f"{self.place}/{self.kind}-{made.hexdigest()[:24]}"

    def room(self, folder, log):
        return TestsRoom(self, folder, log)

    def program(self):
        """Returns the path of the program, which is built where it is not kept."""
        return f"{self.make()}/program"


class OptimisedTests(Tests):
    """The build of the tests of some crates as users build a program: optimised, without the checks of steps."""

    KIND = "tests_{}.optimised"

    def room(self, folder, log):
        return OptimisedRoom(self, folder, log)

    def program(self):
        return self.make()

    def module(self):
        """Returns the path of the module that the build which looks at each step read."""
        return f"{Tests(self.repository, self.layer, self.crates, self.tell).make()}/{MODULE}"


class TestsRoom(Room):
    """Where the tests are built that look at each step."""

    # (not optimised: that costs at least twice the time that it saves when the tests run)
    level, extra = "-O0", ("--test",)

    def root(self):
        to = f"{self.folder}/src"
        for it in self.build.crates:
            write_module(f"{self.build.repository.folder(it)}/src", it, to)
        with open(f"{to}/lib.rt", "w", encoding="utf-8") as it:
            it.write(ROOT.format(modules="".join(f"#[cfg(test)]\nmod {PREFIX}{crate};\n" for crate in self.build.crates)))
        return f"{to}/lib.rt"

    def rewritten(self, lines, given):
        # The hints on inlining are left out: a call of the map is long, and inlining it in every test costs more time than it saves.
        return module.plain(lines, {}, has_checks=True)

    def make(self):
        """Returns the path of a folder with the program and the module."""
        program, kept = super().make(), f"{self.folder}/kept"
        os.mkdir(kept)
        os.rename(program, f"{kept}/program")
        os.rename(f"{self.folder}/{MODULE}", f"{kept}/{MODULE}")
        return kept


class OptimisedRoom(Room):
    """Where the tests are built as users build a program, from the module of the other build."""

    def read(self):
        os.symlink(self.build.module(), f"{self.folder}/{MODULE}")

    def rewritten(self, lines, given):
        return module.plain(lines, given)
