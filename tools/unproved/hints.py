"""The hints on inlining that sources give their functions, by the names that these have in a module of the toolchain's trial run."""
import glob
import os
import re

# What each attribute of a source is called in a module.
ATTRIBUTES = {"inline": "inlinehint", "inline(always)": "alwaysinline", "inline(never)": "noinline", "cold": "cold"}
ATTRIBUTE = re.compile(r"\s*#\[(inline(?:\((?:always|never)\))?|cold)\]$")
FUNCTION = re.compile(r"\s*(?:pub(?:\([^)]*\))? )?(?:const )?(?:unsafe )?(?:extern \"C\" )?fn (\w+)")
TRAIT = re.compile(r"(?:pub(?:\([^)]*\))? )?(?:unsafe )?trait (\w+)")
TYPE = re.compile(r"(?m)^ *(?:pub(?:\([^)]*\))? )?(?:struct|enum|union) (\w+)")


def without_generics(text):
    """Returns code without what stands between < and >."""
    depth, left = 0, ""
    for before, it in zip(" " + text, text):
        closes = it == ">" and before not in "-="
        depth += it == "<"
        left += it if not depth else ""
        depth -= closes
    return left


def name_of_type(text, has_trait):
    """Returns what a type without its generics is called as a part of a function's name."""
    text = re.sub(r"'\w+ ?", "", text.strip())
    if text.startswith("&"):
        inner = text[1:].removeprefix("mut ").strip()
        return "Ref" + ("" if re.fullmatch("[A-Z]", inner) else name_of_type(inner, True))
    if text.startswith("["):
        return ("Array" if ";" in text else "Slice") if has_trait else ("array+N+T" if ";" in text else "slice+T")
    if text.startswith("("):
        return f"Tuple{text.count(',') + 1}"
    last = text.split("::")[-1].strip()
    return last[:1].upper() + last[1:] if has_trait else last


def name_of_impl(head):
    """Returns what the head of an impl block is called, its type and its trait together, and whether it has a trait."""
    head = re.sub(r"\s+", " ", without_generics(head)).partition("{")[0]
    head = re.sub(r"^(unsafe )?impl ?", "", head).partition(" where")[0]
    trait, is_of_trait, its_type = head.rpartition(" for ")
    if not is_of_trait:
        return name_of_type(head, False), False
    return name_of_type(its_type, True) + trait.split("::")[-1].strip(), True


class Crate:
    """A crate's sources, as `rt fmt` leaves them."""

    def __init__(self, name, folder):
        self.texts, self.types = {}, {}
        for path in glob.glob(f"{folder}/**/*.rt", recursive=True):
            parts = os.path.relpath(path, folder).removesuffix(".rt").split("/")
            module = "::".join([name, *(parts[:-1] if parts[-1] in ("lib", "main", "mod") else parts)])
            with open(path, encoding="utf-8") as it:
                self.texts[module] = it.read()

    def hints(self):
        """Returns each function that has hints, and these."""
        hinted = {module: text for module, text in self.texts.items() if "#[inline" in text or "#[cold]" in text}
        if hinted:
            for module, text in self.texts.items():
                for its_type in TYPE.findall(text):
                    self.types.setdefault(its_type, []).append(module)
        return dict(it for module, text in hinted.items() for it in self.hints_in(module, text))

    def around(self, module, head):
        """Returns the first part of a function's name in an impl block of a module: where its type, or the block, lies."""
        name, is_of_trait = name_of_impl(head)
        if not is_of_trait and name in self.types:
            module = max(self.types[name], key=lambda it: len(os.path.commonprefix([it, module])))
        return f"{module}::{name}"

    def hints_in(self, module, text):
        around, head, hints = module, None, []
        for line in text.splitlines():
            if head is not None or line.startswith(("impl", "unsafe impl")):
                head = (head or "") + line + " "
                if "{" in line:
                    around, head = self.around(module, head), None
            elif found := TRAIT.match(line):
                around = f"{module}::{found[1]}"
            elif line.startswith("}"):
                around = module
            elif found := ATTRIBUTE.match(line):
                hints.append(ATTRIBUTES[found[1]])
            elif found := FUNCTION.match(line):
                if hints:
                    yield f"{around}::{found[1]}", hints
                hints = []
            elif not line.lstrip().startswith(("#[", "//")):
                hints = []
