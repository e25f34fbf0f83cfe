"""Tests of bin/test, tools/try_edits and .ci/run: the first two with wrong words, the gate over stubs of its parts, and what it asks of the
crates of tests over small ones."""
import os
import re
import shutil
import signal
import subprocess
import sys
import time

TOP = os.path.dirname(os.path.dirname(os.path.realpath(__file__)))
# A stub of a part of the gate: it prints what a file beside it has, with the words that it was given, and has its status.
# Where a file beside it says so it waits, and may be one that the signal of Ctrl-C does not end.
PART = """import os, signal, sys, time
its = os.path.realpath(__file__)
with open(its + ".says", encoding="utf-8") as it:
    print(it.read().replace("WORDS", " ".join(sys.argv[1:])), end="", flush=True)
if os.path.exists(its + ".waits"):
    if os.path.exists(its + ".is_deaf"):
        signal.signal(signal.SIGINT, signal.SIG_IGN)
    open(its + ".began", "w").close()
    time.sleep(60)
sys.exit(os.path.exists(its + ".fails"))
"""
# A stub of rt, which tells what it is to prove, and builds a program.
RT = """import os
print("rt: in a repository" if os.path.exists(".git") else "rt: in a copy")
print("rt: crates", " ".join(sorted(os.listdir("crates"))))
with open("crates.txt", encoding="utf-8") as it:
    print("rt: lines", " ".join(it.read().split()), flush=True)
print("rt:", os.getcwd() + "/crates/low")
os.makedirs("crates/low/out")
with open("crates/low/out/low", "w", encoding="utf-8") as it:
    it.write("built")
"""
SCRIPTS = {
    "docs/check.py": "60 pages, 0 faults\n",
    "tools/gating/texts.py": "0 faults\n",
    "bin/rt": "rt: low proved\nrt: ok\n57 passed, 0 failed\n",
    "bin/test": "test_low: 9 passed\n9 passed, 0 failed\n",
    "tools/histories": "500 histories of 90000 calls\n",
    "examples/run.py": "words: WORDS\n26 passed, 0 failed, 2 left out\n",
    "docs/check_refusals.py": "refused in WORDS\n0 faults\n",
}
CRATES = "# Crates\nlow:\n\n# Tests\ntest_low: low\n"


class Gate:
    """A copy of the gate, over parts that say what they are told to say."""

    def __init__(self, top):
        self.top = top
        for path in ("tools/gate", "tools/gate_cost", ".ci/run"):
            os.makedirs(os.path.dirname(f"{top}/{path}"), exist_ok=True)
            shutil.copy(f"{TOP}/{path}", f"{top}/{path}")
        for path in ("tools/unproved", "tools/gating"):
            shutil.copytree(f"{TOP}/{path}", f"{top}/{path}", ignore=shutil.ignore_patterns("__pycache__"))
        for path, says in SCRIPTS.items():
            self.write(path, f"#!{sys.executable}\n{RT}{PART}" if path == "bin/rt" else PART)
            self.write(f"{path}.says", says)
        os.chmod(f"{top}/bin/rt", 0o755)
        shutil.copy(f"{TOP}/tools/gate_times.csv", f"{top}/tools/gate_times.csv")
        os.makedirs(f"{top}/.git")
        os.makedirs(self.its_own(), exist_ok=True)
        self.write("crates.txt", CRATES)
        for crate in ("low", "test_low"):
            self.write(f"crates/{crate}/src/lib.rt", "")
        self.write("crates/low/out/low", "old")
        self.write("crates/low/out/unproved/built", "kept")

    def write(self, path, text):
        os.makedirs(os.path.dirname(f"{self.top}/{path}"), exist_ok=True)
        with open(f"{self.top}/{path}", "w", encoding="utf-8") as it:
            it.write(text)

    def run(self, *words):
        """Returns the status and the lines, started as a gate is: with no input."""
        with self.begun(*words) as ran:
            output, _ = ran.communicate(timeout=60)
        return ran.returncode, output.splitlines()

    def begun(self, *words):
        environment = {**os.environ, "CI": "true", "PATH": f"{self.top}/bin:{os.environ['PATH']}", "TMPDIR": self.its_own()}
        how = {"cwd": "/", "env": environment, "stdin": subprocess.DEVNULL, "stdout": subprocess.PIPE, "stderr": subprocess.STDOUT}
        return subprocess.Popen([f"{self.top}/.ci/run", *words], text=True, start_new_session=True, **how)

    def stopped(self, path, number, is_deaf=False):
        """Starts the gate, and sends a signal to all that it shares a terminal with once this part waits. Returns the status, lines and seconds."""
        marks = [f"{path}.waits", *[f"{path}.is_deaf"] * is_deaf]
        for it in marks:
            self.write(it, "")
        with self.begun() as ran:
            for _ in range(600):
                if self.has_begun(path):
                    break
                time.sleep(0.1)
            began = time.monotonic()
            os.killpg(ran.pid, number)
            output, _ = ran.communicate(timeout=60)
        for it in marks:
            os.remove(f"{self.top}/{it}")
        if os.path.exists(f"{self.top}/{path}.began"):
            os.remove(f"{self.top}/{path}.began")
        return ran.returncode, output.splitlines(), time.monotonic() - began

    def has_begun(self, path):
        """Returns whether a part waits."""
        return os.path.exists(f"{self.top}/{path}.began")

    def its_own(self):
        """Returns a folder for what the gate leaves for a while, outside of the repository."""
        return f"{self.top}.tmp"

    def has_builds(self):
        """Returns whether what was built without proofs is in its place, and nothing is left of the copy."""
        return self.read("crates/low/out/unproved/built") == "kept" and not os.listdir(self.its_own())

    def read(self, path):
        try:
            with open(f"{self.top}/{path}", encoding="utf-8") as it:
                return it.read()
        except OSError:
            return None


def test_stops(tests, gate):
    """The gate is stopped in each of its parts, and where `rt ci` does not end by itself."""
    places = [(path, False) for path in SCRIPTS] + [("bin/rt", True), ("examples/run.py", True)]
    for path, is_deaf in places:
        for number in (signal.SIGINT, signal.SIGTERM):
            what = f"the gate, stopped in {path}{' that goes on' * is_deaf} by signal {number:d}"
            status, lines, seconds = gate.stopped(path, number, is_deaf)
            tests.want(f"{what}: its status", status == 128 + number, (status, lines))
            tests.want(f"{what}: one sentence", lines[-1:] != [] and lines[-1].startswith("gate: stopped after 0 minutes; "), lines)
            tests.want(f"{what}: no traceback", not any("Traceback" in it for it in lines), lines)
            tests.want(f"{what}: at once", seconds < 2 or slow(), seconds)
            tests.want(f"{what}: its builds", gate.has_builds())


def slow():
    """Returns whether more is at work on this machine than it has processors, so that a second is no measure."""
    return os.getloadavg()[0] > len(os.sched_getaffinity(0))


def test_gate(tests, top):
    gate = Gate(top)
    status, lines = gate.run()
    tests.want("the gate: its status", status == 0, status)
    tests.want("the gate: the sum of what its parts count", lines[-1:] == ["97 passed, 0 failed"], lines)
    alone = [it for it in lines if re.fullmatch(r"\d+ passed, \d+ failed", it)]
    tests.want("the gate: only one line counts all", len(alone) == 1, alone)
    tests.want("the gate: what is left out is told", "2 parts were left out, as told above" in lines, lines)
    tests.want("the gate: what it will take", any(re.match(r"gate: some \d+ minutes of processor time", it) for it in lines), lines)
    tests.want("the gate: each proof", "gate: low, 1 of 1 proofs, 0 minutes gone" in lines, lines)
    for said in ("rt: in a copy", "rt: crates low", "rt: lines # Crates low: # Tests", "rt: crates/low"):
        tests.want(f"the gate: what rt ci finds: {said}", said in lines, lines)
    for said in ("refused in mapcli", "refused in map_bench"):
        tests.want(f"the gate: {said}", said in lines, lines)
    tests.want("the gate: a program that was built is in the tree", gate.read("crates/low/out/low") == "built")
    tests.want("the gate: its builds", gate.has_builds())
    test_stops(tests, gate)
    status, lines = gate.run("--all")
    tests.want("the gate --all: what is left out fails", status == 1 and lines[-1:] == ["97 passed, 2 failed"], lines)
    tests.want("the gate --all: the tests in C are told", "words: --all" in lines, lines)
    gate.write("bin/rt.says", "56 passed, 1 failed\n")
    gate.write("bin/rt.fails", "")
    gate.write("tools/histories.fails", "")
    status, lines = gate.run()
    tests.want("the gate: what fails is counted", status == 1 and lines[-1:] == ["95 passed, 2 failed"], lines)
    os.remove(f"{gate.top}/bin/rt")
    lines = gate.run()[1]
    tests.want("the gate: where there is no rt", "rt ci: left out, there is no rt" in lines or shutil.which("rt"), lines)


# What a small tree has, of which nothing is refused.
TREE = {
    "crates.txt": "low:\n\n# Built without proofs\nbench: low\n\n# Tests\ntest_low: low\n",
    "crates/low/src/lib.rt": "#![tactic(auto)]\n\npub fn one() -> u64 {\n    1\n}\n",
    "crates/bench/src/main.rt": "#![tactic(auto)]\n\nfn main(_rt: HostRuntime) {}\n",
    "crates/test_low/src/lib.rt": "#![tactic(auto)]\n\n#[cfg(test)]\nmod ones;\n",
    "crates/test_low/src/ones.rt": "use low::one;\n\n#[test]\nfn it_is_one() {\n    assert_eq!(one(), 1);\n}\n",
}
# What is refused: the file that is other than above, its text, and what is said.
REFUSED = (
    ("crates.txt", TREE["crates.txt"].replace("low:", "low: test_low", 1), "low names test_low, which is a crate of tests: only a crate of tests may use it"),
    ("crates.txt", TREE["crates.txt"].replace("bench: low", "bench: test_low"), "bench names test_low, which is a crate of tests"),
    ("crates.txt", TREE["crates.txt"].replace("test_low: low", "test_low: bench"), "test_low names bench, which is built without proofs: no crate may use it"),
    ("crates/test_low/src/lost.rt", "fn lost() {}\n", "crates/test_low/src/lost.rt: no build reads it"),
    ("crates/test_low/lost.rt", "fn lost() {}\n", "crates/test_low/lost.rt: no build reads it"),
    ("crates/test_low/data/Lost.antt", "", "crates/test_low/data/Lost.antt: no build reads it"),
    ("crates/test_low/src/ones.rt", TREE["crates/test_low/src/ones.rt"].replace("    assert", "  assert"), "crates/test_low: run rt fmt in its folder: src/ones.rt"),
    ("crates/test_low/src/ones.rt", TREE["crates/test_low/src/ones.rt"].replace("#[test]", "#[test]\n#[ignore]"), "ones.rt: a test under #[ignore]"),
    ("crates/bench/src/main.rt", "fn main(_rt: HostRuntime) {}\n", "crates/bench: its first source has no line #![tactic(auto)]"),
)


def test_texts(tests, top):
    """What the gate asks of the text of crates that it does not prove."""
    for path in ("tools/unproved", "tools/gating"):
        shutil.copytree(f"{TOP}/{path}", f"{top}/{path}", ignore=shutil.ignore_patterns("__pycache__"))

    def said(path="", text=""):
        shutil.rmtree(f"{top}/crates", ignore_errors=True)
        for its_path, its_text in {**TREE, **({path: text} if path else {})}.items():
            os.makedirs(os.path.dirname(f"{top}/{its_path}"), exist_ok=True)
            with open(f"{top}/{its_path}", "w", encoding="utf-8") as it:
                it.write(its_text)
        ran = subprocess.run([sys.executable, f"{top}/tools/gating/texts.py"], capture_output=True, text=True, timeout=60, check=False)
        return ran.returncode, ran.stdout + ran.stderr

    tests.want("texts: nothing is refused", said() == (0, "0 faults\n"), said())
    for path, text, what in REFUSED:
        status, told = said(path, text)
        tests.want(f"texts: {what}", status == 1 and what in told, told)


def test_words(tests):
    """Words that nothing is begun for."""
    for words, status, said in (
        (["bin/test", "no_such"], 2, "bin/test: crates.txt names no crate no_such"),
        (["bin/test", "test_chm", "no_such"], 2, "bin/test: test_chm has no test or module no_such"),
        (["bin/test", "--no-such"], 2, "usage: bin/test [--checked] [CRATE..]"),
        (["bin/test", "--help"], 0, "usage: bin/test [--checked] [CRATE..]"),
        (["docs/check_refusals.py", "no_such"], 2, "check_refusals: there is no program no_such"),
        (["tools/try_edits", "no_such"], 2, "try_edits: there are no edits of no_such"),
        (["tools/try_edits", "--help"], 0, "usage: tools/try_edits [--built] [CRATE..]"),
        (["tools/gate_cost", "--help"], 0, "usage: tools/gate_cost"),
        ([".ci/run", "--no-such"], 2, "usage: .ci/run [--all]"),
    ):
        ran = subprocess.run([*[sys.executable] * words[0].endswith(".py"), f"{TOP}/{words[0]}", *words[1:]], capture_output=True, text=True, timeout=60, check=False)
        tests.want(" ".join(words), ran.returncode == status and said in ran.stdout + ran.stderr, ran)
