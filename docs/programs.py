"""Compares what the launchers and the file VERSION tell of the programs with the programs' sources, and the file KIT with the toolchain."""
import re
import shutil
import subprocess
import sys

import sources


def version_faults():
    """The version that mapcli tells, where it tells one."""
    told = re.search(r'const VERSION: &str = "([^"]*)"', "\n".join(sources.text_of(it) for it in sources.sources_of("mapcli_core")))
    if told and (not sources.is_file("VERSION") or sources.text_of("VERSION").strip() != told[1]):
        yield f"VERSION: mapcli_core tells {told[1]}"


def word_faults():
    """Texts, names and ranges that the launchers tell in the programs' place and that the programs' sources have otherwise, or more or fewer."""
    sys.path.append(f"{sources.TOP}/bin")
    import words

    for command, crate in ((words.MAPCLI, "mapcli_core"), (words.MAP_BENCH, "map_bench")):
        text = "\n".join(sources.text_of(it) for it in sources.sources_of(crate)).replace("_", "")
        told = [command.about, command.file, command.after, command.version]
        for it in command.options:
            told += [it.name, it.text, it.default, it.value, *it.names]
            if it.most and it.most != words.U32:
                told.append(f"{it.least}..={it.most}")
        for it in told:
            quoted = it if "..=" in it or "\n" in it else f'"{it}"'
            if it and quoted.replace("_", "") not in text:
                yield f"bin/words.py: {crate} has not: {it[:80]!r}"
        args = len(re.findall(r"(?m)^fn \w+<'a>\(alloc: Global\) -> Arg<'a>", text))
        if args != len(command.options) + bool(command.file):
            yield f"bin/words.py: {crate} takes {args} arguments"
    refused = re.search(r'NOT_UTF_8: &str = "([^"]*)"', sources.text_of("crates/mapcli/src/main.rt"))
    if refused and refused[1] != words.NOT_UTF_8:
        yield "bin/words.py: mapcli tells something else of words that are not UTF-8"


def kit_faults():
    """The kit that the file KIT names: the top README names it too, and its logic is that of the toolchain, where there is one to ask."""
    kit = sources.text_of("KIT").strip() if sources.is_file("KIT") else ""
    if not kit or kit not in sources.text_of("README.md"):
        yield f"README.md: the file KIT names {kit or 'no kit'}"
    if shutil.which("rt"):
        logic = re.search(r"\blogic \w+", subprocess.run(["rt", "version"], capture_output=True, text=True).stdout)
        if logic and logic[0] not in kit:
            yield f"KIT: the toolchain that is here has another: {logic[0]}"


def faults():
    yield from version_faults()
    yield from word_faults()
    yield from kit_faults()
