"""Two kinds of picture, as SVG with no background: bars in panels, and lines over two logarithmic scales."""
import math

# Text and lines take the colour of the reader's page; bars and curves have colours that stand out on white and on black.
STYLE = """<style>
svg { color: #1f2328; font: 13px system-ui, sans-serif; }
@media (prefers-color-scheme: dark) { svg { color: #e6edf3; } }
text { fill: currentColor; }
.title { font-weight: 600; }
.small { font-size: 11px; }
.axis { stroke: currentColor; stroke-opacity: 0.35; }
.grid { stroke: currentColor; stroke-opacity: 0.12; }
</style>"""
OWN = ["#2f81f7", "#00a5b5"]
OTHERS = ["#d97706", "#8b949e", "#3fa34d", "#a371f7", "#db61a2", "#b08d57"]


def colours(names, own):
    """Gives each map a colour: this repository's the first."""
    ours, others = iter(OWN * len(names)), iter(OTHERS * len(names))
    return {it: next(ours) if it in own else next(others) for it in names}


def text(x, y, said, anchor="start", kind=""):
    said = said.replace("&", "&amp;").replace("<", "&lt;")
    return f'<text x="{x:.1f}" y="{y:.1f}" text-anchor="{anchor}"{kind and f" class={chr(34)}{kind}{chr(34)}"}>{said}</text>'


def line(x1, y1, x2, y2, kind):
    return f'<line x1="{x1:.1f}" y1="{y1:.1f}" x2="{x2:.1f}" y2="{y2:.1f}" class="{kind}"/>'


def whole(width, height, parts, title):
    head = f'<svg xmlns="http://www.w3.org/2000/svg" viewBox="0 0 {width} {height}" width="{width}" height="{height}" role="img">'
    return "\n".join([head, f"<title>{title}</title>", STYLE, *parts, "</svg>", ""])


def bars(title, note, panels, names, own, kinds):
    """Draws a panel for each of `panels`, (its name, {(map, kind): number}). A map has a bar for each kind, the last one in full colour."""
    colour, left, gap, thick = colours(names, own), 22 + 8 * max(map(len, names)), 62, 13
    panel = (940 - left - gap * len(panels)) / len(panels)
    row = thick * len(kinds) + 13
    top, bottom = 68, 68 + row * len(names)
    parts = [text(8, 22, title, kind="title")]
    for i, name in enumerate(names):
        parts.append(text(left - 10, top + i * row + thick * len(kinds) / 2 + 4, name, "end", "title" * (name in own)))
    for at, (said, numbers) in enumerate(panels):
        x = left + at * (panel + gap)
        most = max(numbers.values(), default=1)
        parts.append(text(x, top - 14, said, kind="title"))
        for i, name in enumerate(names):
            for j, kind in enumerate(kinds):
                number, y = numbers.get((name, kind)), top + i * row + j * thick
                if number is None:
                    parts.append(text(x + 4, y + thick - 3, "not measured", kind="small"))
                    continue
                wide, strength = panel * number / most, 0.45 + 0.55 * (j + 1 == len(kinds))
                parts.append(f'<rect x="{x:.1f}" y="{y:.1f}" width="{wide:.1f}" height="{thick - 1}" fill="{colour[name]}" fill-opacity="{strength}"/>')
                parts.append(text(x + wide + 4, y + thick - 3, f"{number:.1f}", kind="small"))
        parts.append(line(x, top - 6, x, bottom - 6, "axis"))
    y, x = bottom + 14, left
    for j, kind in enumerate(kinds):
        strength = 0.45 + 0.55 * (j + 1 == len(kinds))
        parts.append(f'<rect x="{x}" y="{y - 10}" width="22" height="11" fill="currentColor" fill-opacity="{strength * 0.7:.2f}"/>')
        parts.append(text(x + 28, y, kind))
        x += 120
    parts.append(text(932, y, note, "end", "small"))
    return whole(940, bottom + 26, parts, title)


def ticks(low, high):
    """Returns the numbers from low to high that are 1, 2 or 5 times a power of ten, or the powers alone where there are many."""
    powers = [10**it for it in range(math.floor(math.log10(low)), math.ceil(math.log10(high)) + 1)]
    found = [step * it for it in powers for step in (1, 2, 5) if low <= step * it <= high]
    return found if len(found) < 10 else [it for it in powers if low <= it <= high]


def steps(most):
    """Returns the numbers from 0 to most in steps of 1, 2 or 5 times a power of ten, six at most."""
    step = next(it for it in (digit * 10**power for power in range(12) for digit in (1, 2, 5)) if most / it < 6)
    return [step * it for it in range(int(most / step) + 1)]


def lines(title, panels, names, own, from_zero=False):
    """Draws a panel for each of `panels`: (its name, the name of its x axis, marks on that axis, {map: [(x, y)]}). With `from_zero` the
    y axis begins at 0, and is not logarithmic."""
    colour, left, gap, top, height = colours(names, own), 66, 70, 74, 300
    panel = (940 - left - gap * (len(panels) - 1) - 16) / len(panels)
    parts = [text(8, 22, title, kind="title")]
    for at, (said, below, marks, curves) in enumerate(panels):
        x0, points = left + at * (panel + gap), [it for curve in curves.values() for it in curve]
        if not points:
            continue
        low, high = min(y for _, y in points) * 0.85, max(y for _, y in points) * 1.15
        least, most = min(x for x, _ in points), max(x for x, _ in points)
        across = lambda x: x0 + panel * (math.log(x / least) / math.log(most / least) if most > least else 0.5)
        up = lambda y: top + height * (1 - (y / high if from_zero else math.log(y / low) / math.log(high / low)))
        parts.append(text(x0, top - 14, said, kind="title"))
        for y in steps(high) if from_zero else ticks(low, high):
            parts += [line(x0, up(y), x0 + panel, up(y), "grid"), text(x0 - 6, up(y) + 4, f"{y:,.0f}", "end", "small")]
        for x in marks:
            if least <= x <= most:
                parts += [line(across(x), top + height, across(x), top + height + 4, "axis")]
                parts += [text(across(x), top + height + 17, short(x), "middle", "small")]
        parts += [line(x0, top, x0, top + height, "axis"), line(x0, top + height, x0 + panel, top + height, "axis")]
        parts.append(text(x0 + panel / 2, top + height + 36, below, "middle", "small"))
        for name in sorted(curves, key=lambda it: it in own):
            way = " ".join(f"{across(x):.1f},{up(y):.1f}" for x, y in curves[name])
            wide = 3 if name in own else 1.6
            parts.append(f'<polyline points="{way}" fill="none" stroke="{colour[name]}" stroke-width="{wide}" stroke-linejoin="round"/>')
            parts += [f'<circle cx="{across(x):.1f}" cy="{up(y):.1f}" r="{wide}" fill="{colour[name]}"/>' for x, y in curves[name]]
    x, y = left, top + height + 62
    for name in names:
        parts.append(f'<rect x="{x}" y="{y - 10}" width="22" height="11" fill="{colour[name]}"/>')
        parts.append(text(x + 28, y, name, kind="title" * (name in own)))
        x += 50 + 8 * len(name)
    return whole(940, y + 14, parts, title)


def short(number):
    for unit, letter in ((1_000_000, "M"), (1_000, "k")):
        if number >= unit:
            return f"{number / unit:g}{letter}" if number % unit == 0 else f"{number / unit:.1f}{letter}"
    return f"{number:g}"
