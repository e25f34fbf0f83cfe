"""Makes of a call what the sources and headers say of it."""
import re
from string import Template

from .kinds import EXPORT, NULL, NULL_WITH_ROOM, Function
from .layout import c_comment, c_lines, rattle_comment, rattle_imports, rattle_lines, rust_declaration

# How C has what an export takes: {0} is the name of the argument, {1}_len that of its length.
DECLARED = {"u64": "uint64_t {0}", "u32": "uint32_t {0}", "&[u8]": "const uint8_t *{0}, size_t {1}_len", "&mut [u8]": "uint8_t *{0}, size_t {1}_len"}
TAKEN = {**DECLARED, "&[u8]": "const void *{0}, size_t {1}_len", "&mut [u8]": "void *{0}, size_t {1}_len"}
PASSED = {"u64": "{0}", "u32": "{0}", "&[u8]": "facing_bytes_at({0}), {1}_len", "&mut [u8]": "facing_bytes_at({0}), {1}_len"}
IN_RUST = {"u64": "{0}: u64", "u32": "{0}: u32", "&[u8]": "{0}: Bytes, {0}_len: usize", "&mut [u8]": "{0}: Room, {0}_len: usize"}
# (C++ has the word `new`)
NAMES_IN_C = {"old": "old_value", "new": "new_value"}


def in_c(how, arguments):
    """Returns how C has each argument."""
    return [how[of].format(NAMES_IN_C.get(name, name), name) for name, of in arguments]


class CallOfKind:
    """A call of a kind of map, and the texts that are made of it."""

    def __init__(self, call, kind):
        self.call, self.kind = call, kind
        self.export_name = f"facing_c_{kind.prefix}{'try_' if call.handle == 'client' else ''}{call.name}"
        self.function_name = f"facing_{kind.prefix}{call.name}"
        self.pool_name = f"facing_{kind.prefix}pool_{call.name}"
        self.in_rattle = kind.exports.get(call.name) or kind.exports[call.answers]
        self.in_header = kind.functions.get(call.name) or Function(f"    {kind.macro}\n")
        self.has_room = kind.is_bytes and call.answers == "value"
        typed = [it.partition(": ") for it in call.takes.split(", ") if it]
        self.values = [(name, of or kind.value) for name, _, of in typed]
        self.arguments = [("key", kind.key), *self.values, *[("room", "&mut [u8]")] * self.has_room]
        self.words = {**self.words_of_rattle(), **self.words_of_c(), **self.words_of_cpp()}

    def words_of_rattle(self):
        """Returns what the templates in Rattle may have of the call."""
        call, kind = self.call, self.kind
        names, merging = [name for name, _ in self.values], [call.merging] if call.merging else []
        taken = [*[f"Bytes({it})" if kind.is_bytes else it for it in names], *[f"Merging::{it}" for it in merging]]
        said = [f"{it}.now" for it in names] if kind.is_bytes else ["k", *names, *[f"Merging.{it}" for it in merging]]
        return {
            "op": f"Op::{call.op}({', '.join(taken)})" if taken else f"Op::{call.op}",
            "call": " ".join([call.op, *said]),
            "at": "key" if kind.key == "u64" else "key.now",
            "noun": kind.noun,
            "Noun": kind.noun.capitalize(),
            "handle": call.handle,
            "export": self.export_name,
            "parameters": ",\n    ".join(f"{name}: {of}" for name, of in self.arguments),
            "answer": self.in_rattle.answer,
        }

    def words_of_c(self):
        """Returns what the templates in C may have of the call."""
        has_number = self.kind.key == "u64"
        wrong = "facing_bytes_are_wrong({0}, {1}_len, room, room_len)" if self.has_room else "facing_bytes_are_none({0}, {1}_len)"
        passed = ["lent", "&back", *in_c(PASSED, self.arguments), self.kind.answer]
        return {
            "made": f"{self.export_name}({', '.join(passed)})",
            "wrong": " || ".join(in_c({"&[u8]": wrong}, [it for it in self.arguments if it[1] == "&[u8]"])),
            "or_no_key": "" if has_number else " || facing_bytes_are_none(key, key_len)",
            "key": in_c(PASSED, self.arguments[:1])[0],
            "place": "key" if has_number else "FACING_BYTES_PLACE(key, key_len)",
            "library": f"FACING_{self.kind.name.upper()}",
        }

    def words_of_cpp(self):
        """Returns what the templates in C++ may have of the call."""
        names = [NAMES_IN_C.get(name, name) for name, _ in self.values]
        if not self.kind.is_bytes:
            taken, passed = ["key_type key", *[f"std::uint64_t {it}" for it in names]], ["key", *names]
        else:
            names = ["key", *[{"value": "value_"}.get(it, it) for it in names]]
            taken, passed = [f"std::string_view {it}" for it in names], [f"{it}.data(), {it}.size()" for it in names]
        bound = f"        bound({names[-1]});\n" if self.values else ""
        return {"name": self.call.name, "function": self.function_name, "taken": ", ".join(taken), "passed": ", ".join(passed), "bound": bound}

    def filled(self, template, **more):
        return Template(template).substitute(self.words, **more)

    def export(self):
        text = self.filled(
            EXPORT,
            clauses=self.filled(self.in_rattle.clauses),
            null=self.filled(NULL_WITH_ROOM if self.has_room else NULL),
            body=rattle_lines(self.filled(self.in_rattle.body)),
        )
        return rattle_comment(self.call.said(self.kind.name, "export")) + text

    def declaration(self):
        answer = "facing_seen *seen" if self.in_rattle.answer == "FacingExchanged" else "facing_answer *answer"
        taken = [f"facing_handle {self.call.handle}", "facing_handle *out", *in_c(DECLARED, self.arguments), answer]
        return c_lines(f"uint32_t {self.export_name}({', '.join(taken)});\n")

    def in_rust(self):
        """Returns the declaration for Rust."""
        taken = ", ".join(IN_RUST[of].format(name) for name, of in self.arguments).replace("key_len", "len")
        answer = "seen: Found" if self.in_rattle.answer == "FacingExchanged" else "answer: Told"
        arguments = [f"{self.call.handle}: Handle", "out: Out", *taken.split(", "), answer]
        return rust_declaration(f"pub(crate) fn {self.export_name}", arguments, "-> u32;")

    def parameters(self):
        """Returns the parameters of the header's function behind the handle."""
        if self.in_header.parameters:
            return [*in_c(TAKEN, self.arguments[:1]), self.in_header.parameters]
        return [*in_c(TAKEN, self.arguments), "facing_bytes_answer *answer" if self.kind.is_bytes else "facing_answer *answer"]

    def function(self):
        taken = ", ".join([f"facing_{self.kind.prefix}handle *{self.call.handle}", *self.parameters()])
        body = self.filled(self.in_header.body)
        text = f"FACING_CHECKED FACING_API uint32_t {self.function_name}({taken}) {{\n{body}}}\n"
        return c_comment(self.call.said(self.kind.name, "header")) + c_lines(text)

    def pool_function(self):
        """Returns the function of a pool, which makes the call by one of its clients."""
        taken = ", ".join([f"facing_{self.kind.prefix}pool *pool", *self.parameters()])
        names = [re.search(r"\w+$", it)[0] for it in taken.split(", ")[1:]]
        body = f"    FACING_BY_{self.kind.name.upper()}({self.function_name}({', '.join(['client', *names])}));\n"
        return c_lines(f"FACING_CHECKED FACING_API uint32_t {self.pool_name}({taken}) {{\n{body}}}\n")

    def method(self):
        """Returns the method of a client in C++, or nothing where it is written by hand."""
        own = self.call.answers if self.call.op else None
        template = self.kind.methods.get(self.call.name) or self.kind.methods.get(own)
        return c_lines(self.filled(template)) if template else ""


def imports(kind, calls):
    """Returns from what path a source imports the variants that the contracts of its calls name, and the lines that do."""
    path = f"ghost use Rattle.bin_history.specs.declared.{kind.variants}.TheVariants."
    return path, rattle_imports(path, dict.fromkeys(it.call.op for it in calls if "$call" in it.in_rattle.clauses))
