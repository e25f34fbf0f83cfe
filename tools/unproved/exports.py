"""A program that calls each export of a static library, from which the toolchain's trial run makes a module with all of them."""
import glob
import os
import re
import shutil

EXPORT = re.compile(r'#\[unsafe\(no_mangle\)\]\s*pub extern "C" fn (\w+)\((.*?)\)(?: -> [^{]*?)?\s*(?=\{|ensures|requires)', re.S)
MAIN = """
/// Any value: it never returns.
fn any_value<T>() -> T {{
    loop {{}}
}}

fn main(rt: HostRuntime) {{
{calls}
}}
"""


def module_of(path, folder):
    parts = os.path.relpath(path, folder).removesuffix(".rt").split("/")
    return "::".join(parts[:-1] if parts[-1] in ("lib", "mod") else parts)


def count_of(parameters):
    """Returns how many parameters there are: what stands in brackets is a part of one."""
    while re.search(r"[(<\[][^()<>\[\]]*[)>\]]", parameters):
        parameters = re.sub(r"[(<\[][^()<>\[\]]*[)>\]]", "", parameters)
    return len([it for it in parameters.split(",") if it.strip()])


def exports_in(folder):
    """Yields the path and the name of each export of the sources in a folder, and how many parameters it has."""
    for path in sorted(glob.glob(f"{folder}/**/*.rt", recursive=True)):
        with open(path, encoding="utf-8") as it:
            for name, parameters in EXPORT.findall(it.read()):
                module = module_of(path, folder)
                yield f"{module}::{name}" if module else name, name, count_of(parameters)


def write_program(source, folder):
    """Copies a library's sources into a folder as a program that calls each export. Returns the exports' names."""
    shutil.copytree(source, folder)
    os.rename(f"{folder}/lib.rt", f"{folder}/main.rt")
    found = list(exports_in(source))
    calls = "\n".join(f"    let _ = {path}({', '.join(['any_value()'] * count)});" for path, _, count in found)
    with open(f"{folder}/main.rt", "a", encoding="utf-8") as it:
        it.write(MAIN.format(calls=calls))
    return [name for _, name, _ in found]
