"""Breaks lines as `rt fmt` does in Rattle, as clang-format did in the headers, and as rustfmt does in Rust."""
import textwrap

COLUMNS_OF_RATTLE, COLUMNS_OF_C, COLUMNS_OF_C_COMMENT, COLUMNS_OF_RUST = 105, 125, 124, 120
# A call in Rattle whose arguments are longer has one in each line.
ARGUMENTS_OF_RATTLE = 60


def comment(text, columns, first, behind):
    """Returns the lines of a comment. A line break in its text stays."""
    lines = []
    for part in text.split("\n"):
        lines += textwrap.wrap(part, columns - len(behind), break_long_words=False, break_on_hyphens=False)
    return "".join(f"{behind if number else first}{line}\n" for number, line in enumerate(lines))


def rattle_comment(text):
    return comment(text, COLUMNS_OF_RATTLE, "/// ", "/// ")


def c_comment(text):
    return comment(f"{text} */", COLUMNS_OF_C_COMMENT, "/* ", " * ")


def rattle_imports(path, names):
    """Returns the lines that import names from a path, as many in each as it has columns for."""
    lines = []
    for name in names:
        more = f"{lines[-1]}, {name}" if lines else ""
        if more and len(f"{path}{{{more}}};") < COLUMNS_OF_RATTLE:
            lines[-1] = more
        else:
            lines.append(name)
    return "".join(f"{path}{{{it}}};\n" for it in lines)


def rattle_lines(body):
    """Returns the lines of a function with their long calls broken."""
    return "\n".join(rattle_call(it) if "(" in it else it for it in body.split("\n"))


def rattle_call(line):
    """Returns a line that makes a call, with each argument in a line where they are long."""
    head, arguments, tail = in_parentheses(line)
    if len(arguments) <= ARGUMENTS_OF_RATTLE:
        return line
    lines = ",\n        ".join(split(arguments, ", "))
    # `rt fmt` lets no comma stand behind what a macro takes.
    return f"{head}\n        {lines}{'' if head.endswith('!(') else ','}\n    {tail}"


def rust_declaration(head, arguments, result):
    """Returns a declaration in a block of Rust. In one line rustfmt lets it have two columns more."""
    line = f"    {head}({', '.join(arguments)})"
    if len(f"{line} {result}") <= COLUMNS_OF_RUST + 2:
        return f"{line} {result}\n"
    if len(line) <= COLUMNS_OF_RUST:
        return f"{line}\n        {result}\n"
    return f"    {head}(\n" + "".join(f"        {it},\n" for it in arguments) + f"    ) {result}\n"


def in_parentheses(line):
    """Returns a line up to its first parenthesis, what is in it, and the rest."""
    start = end = line.index("(") + 1
    depth = 1
    while depth:
        depth += {"(": 1, ")": -1}.get(line[end], 0)
        end += 1
    return line[:start], line[start : end - 1], line[end - 1 :]


def split(text, by):
    """Returns what stands between separators that are in no parentheses."""
    parts, depth = [], 0
    for part in text.split(by):
        if depth:
            parts[-1] += by + part
        else:
            parts.append(part)
        depth += part.count("(") - part.count(")")
    return parts


def c_lines(text):
    """Returns a text in C with its long lines broken."""
    return "\n".join(it if len(it) <= COLUMNS_OF_C else broken(it) for it in text.split("\n"))


def broken(line, column=0):
    """Breaks a long call, declaration or head of a function, which begins at a column. The lines below begin under the first argument or,
    where an argument is too long there, four columns further in than the line. Where one is too long there too, it is broken itself."""
    head, inside, tail = in_parentheses(line)
    arguments = [f"{it}," for it in split(inside, ", ")]
    arguments[-1] = arguments[-1][:-1] + tail
    under, further = column + len(head), column + len(line) - len(line.lstrip()) + 4
    if lines := filled(arguments, under):
        return head + lines
    if lines := filled(arguments, further):
        return f"{head}\n{' ' * further}{lines}"
    return head + filled(arguments, under, is_last_resort=True)


def filled(pieces, column, further=0, is_last_resort=False):
    """Returns pieces in lines that begin at a column, those below the first `further` to the right: as many pieces in each as fit. One that
    fits in none is broken as a last resort; else nothing is returned."""
    lines, at = [], column
    for piece in pieces:
        if lines and at + len(lines[-1]) + 1 + len(piece) <= COLUMNS_OF_C:
            lines[-1] += f" {piece}"
            continue
        at = column + further if lines else column
        if at + len(piece) <= COLUMNS_OF_C:
            lines.append(piece)
        elif not is_last_resort:
            return ""
        else:
            first, *others = split(piece, " || ")
            lines.append(filled([first, *[f"|| {it}" for it in others]], at, 4) if others else broken(piece, at))
    return f"\n{' ' * (column + further)}".join(lines)
