"""What the commands of this folder share: a build that is staged by tools/install, and what a package says of it."""
import gzip
import os
import re
import shutil
import subprocess
import sys
import time

HERE = os.path.dirname(os.path.realpath(__file__))
TOP = os.path.dirname(HERE)
ABOUT = "A concurrent hash map for numbers and byte strings"
LICENCE = "none: the owner has chosen no licence yet"


class NotMade(Exception):
    """Why there is no package."""


def text_of(path):
    with open(path, encoding="utf-8") as it:
        return it.read()


def put(path, text):
    os.makedirs(os.path.dirname(path), exist_ok=True)
    with open(path, "w", encoding="utf-8") as it:
        it.write(text)


def put_gzip(path, text):
    """The same bytes each time: without the time of day."""
    os.makedirs(os.path.dirname(path), exist_ok=True)
    with open(path, "wb") as it:
        it.write(gzip.compress(text.encode(), 9, mtime=0))


def run(*words, **more):
    try:
        ran = subprocess.run(words, capture_output=True, text=True, check=False, **more)
    except FileNotFoundError:
        raise NotMade(f"there is no {words[0]}: install it") from None
    if ran.returncode:
        raise NotMade(f"{' '.join(words[:2])} failed: {(ran.stderr or ran.stdout).strip()}")
    return ran.stdout


def newest_glibc(library):
    """Returns the newest version of glibc of which the library needs a symbol, as two numbers."""
    needed = re.findall(r"\bGLIBC_(\d+)\.(\d+)", run("objdump", "-T", library))
    if not needed:
        raise NotMade(f"{library} needs no symbol of glibc")
    return max((int(major), int(minor)) for major, minor in needed)


def proofs_of(log):
    """Returns the last lines of a log of `rt check` in crates/facing: what was loaded and checked, and how many holes there are."""
    lines = text_of(log).splitlines()
    crate = [it for it in lines if it.startswith("crate facing: ")]
    if not crate or not lines or lines[-1].strip() != "holes=0":
        raise NotMade(f"{log} does not end as a log of `rt check` in crates/facing without holes")
    return f"{crate[-1]}; {lines[-1].strip()}"


class Build:
    """The library that is packed. With UNPROVED=1 in the environment it is built without its proofs."""

    def __init__(self, log=""):
        self.is_proved = os.environ.get("UNPROVED") != "1"
        self.version = text_of(f"{TOP}/VERSION").strip()
        self.abi = ".".join(self.version.split(".")[:2])
        self.time = int(run("git", "-C", TOP, "log", "-1", "--format=%ct"))
        if self.is_proved and not log:
            raise NotMade("a package of the proved library needs --proofs LOG, the log of `rt check` in crates/facing")
        if self.is_proved and run("git", "-C", TOP, "status", "--porcelain"):
            raise NotMade("a package of the proved library is made of a commit, and files are changed here")
        self.proofs = proofs_of(log) if self.is_proved else "none: the library was built without its proofs"
        self.mark = "" if self.is_proved else "-unproved"
        self.told = self.version + ("" if self.is_proved else "+unproved")

    def facts(self):
        """What the file BUILD of a package says."""
        kit, commit = text_of(f"{TOP}/KIT").strip(), run("git", "-C", TOP, "rev-parse", "HEAD").strip()
        return f"version: {self.version}\nkit: {kit}\ncommit: {commit}\nproofs: {self.proofs}\nlicence: {LICENCE}\n"

    def about(self):
        """The line that describes a package of Debian's."""
        return ABOUT.replace("A concurrent", "concurrent") + ("" if self.is_proved else ", unproved")

    def date(self, form):
        return time.strftime(form, time.gmtime(self.time))

    def stage(self, root, prefix, libdir="lib"):
        """Installs into a folder as if it were the root of the system, and strips what the linker does not need."""
        at = {**os.environ, "DESTDIR": root}
        run(f"{TOP}/tools/install", "--libdir", libdir, prefix, env=at)
        folder = f"{root}{prefix}/{libdir}"
        run("strip", "--strip-unneeded", f"{folder}/libfacing.so.{self.version}")
        run("strip", "--strip-debug", "--enable-deterministic-archives", f"{folder}/libfacing.a")
        return folder


def main(about, make):
    """Runs a command that makes packages in a folder. `make` takes a Build and the folder, and returns their paths."""
    words, log = sys.argv[1:], ""
    if words in (["-h"], ["--help"]):
        print(about)
        return 0
    if words[:1] == ["--proofs"] and len(words) == 3:
        log, words = words[1], words[2:]
    if len(words) != 1 or words[0].startswith("-"):
        print(about, file=sys.stderr)
        return 2
    try:
        out = os.path.abspath(words[0])
        os.makedirs(out, exist_ok=True)
        for path in make(Build(log), out):
            print(path)
    except (NotMade, OSError) as why:
        print(f"{os.path.basename(sys.argv[0])}: {why}", file=sys.stderr)
        return 1
    return 0


def copied(path, folder):
    os.makedirs(folder, exist_ok=True)
    return shutil.copy(path, folder)
