"""The shapes that a picture is made of, as SVG: texts, boxes and lines, the signs of what happens to a job, and how they look.

All sizes are pixels. Texts are not measured but reckoned by `wide`, so the same bytes come out on any machine.
"""
import re
from xml.sax.saxutils import escape

UNFIT = re.compile("[^\n\x20-\x7e\xa0-\ud7ff\ue000-\ufffd\U00010000-\U0010ffff]")
URGENT, CALM = (142, 181, 224), (236, 243, 250)     # colours of level 1 and of the last level
WIDTHS = {letter: width for letters, width in (("ijl.,:;'|! ", 0.32), ("frtI-()/", 0.42), ("w", 0.82), ("mMW%@", 1)) for letter in letters}
STYLE = """
text{font-family:Helvetica,Arial,'Liberation Sans','DejaVu Sans',sans-serif;fill:#1c2733}
.bold{font-weight:bold}.dim{fill:#66707c}.end{text-anchor:end}.mid{text-anchor:middle}
.page{fill:#fff;stroke:#d9dfe5}.lane{fill:#f3f5f8}.band{fill:#fff;fill-opacity:.86;stroke:#b9c2cc}.grid{stroke:#d9dfe5}
.axis{stroke:#4a5561;fill:none}.minor{stroke:#9aa4ae}.gap{fill:#fff}
.number{text-anchor:middle;stroke:#fff;stroke-width:3;paint-order:stroke}
.runs{fill:#1f4f8f}.runs.late{fill:url(#ran-late)}
.waits{stroke:#7d93ad;stroke-width:.8}.waits.late{fill:url(#waited-late);stroke:#d9262c}
.open{fill-opacity:.35;stroke-dasharray:3 2}.runs.open{stroke:#1f4f8f}.runs.late.open{stroke:#d9262c}
.release{fill:#10161d;stroke:#10161d;stroke-width:1.6}.deadline{fill:#fff;stroke:#8227b5;stroke-width:1.5}
.done{fill:#1d7a35}.late{fill:#c4161c}.move{fill:#7a4b00}.clock{fill:none;stroke:#4a5561;stroke-width:1.3}
.chip{fill:#c4161c}.on{fill:#fff;font-weight:bold}.sign{fill:#fff;stroke:#fff;stroke-width:1.3}
.hand{fill:none;stroke:#fff;stroke-width:1.3}
.pole{fill:none;stroke-width:2}.pole.done{stroke:#1d7a35}.pole.late{stroke:#c4161c}.pole.clock{stroke-width:1}
.pole.move{stroke:#7a4b00;stroke-width:1;stroke-dasharray:2 2}.pole.refused{stroke:#c4161c;stroke-width:1;stroke-dasharray:3 2}
"""

HATCH = "<defs>" + "".join(
    f'<pattern id="{name}" width="5" height="5" patternUnits="userSpaceOnUse" patternTransform="rotate(45)">'
    f'<rect width="5" height="5" fill="{ground}"/><rect width="1.2" height="5" fill="{stroke}"/></pattern>'
    for name, ground, stroke in (("ran-late", "#d9262c", "#f08a86"), ("waited-late", "#fdd9d6", "#f6b5b0"))) + "</defs>"


# ---- elements

def px(value):
    """A number with one decimal at most."""
    return f"{value:.1f}".removesuffix(".0")


def clean(words):
    """A text as XML may hold it."""
    return escape(UNFIT.sub("\N{REPLACEMENT CHARACTER}", words))


def wide(words, size):
    """The width of a text, or a little more: by its letters, as the widest of the fonts has them."""
    return size * sum(WIDTHS.get(letter, 0.64 if letter.isascii() else 1) for letter in words)


def text(x, y, words, size, style=""):
    return f'<text x="{px(x)}" y="{px(y)}" font-size="{size}"' + f' class="{style}"' * bool(style) + f">{clean(words)}</text>"


def box(x, y, width, height, style, more=""):
    return f'<rect x="{px(x)}" y="{px(y)}" width="{px(width)}" height="{px(height)}" class="{style}"{more}/>'


def circle(x, y, radius, style):
    return f'<circle cx="{px(x)}" cy="{px(y)}" r="{px(radius)}" class="{style}"/>'


def path(style, *steps):
    """Each step a letter and its numbers."""
    return f'<path class="{style}" d="{"".join(letter + " ".join(map(px, numbers)) for letter, *numbers in steps)}"/>'


def group(title, *shapes):
    """Shapes of which a browser tells the title when one points at them."""
    return f"<g><title>{clean(title)}</title>{''.join(shapes)}</g>"


# ---- signs

def release(x, top, bottom):
    """An arrow up; top and bottom are those of the bar."""
    return path("release", ("M", x, bottom + 2), ("V", top), ("M", x - 3, top), ("L", x, top - 6), ("L", x + 3, top), ("Z",))


def deadline(x, top, bottom):
    """An arrow down, with a hollow head."""
    return path("deadline", ("M", x, top - 5), ("V", bottom), ("M", x - 3.5, bottom), ("L", x, bottom + 6), ("L", x + 3.5, bottom), ("Z",))


def clock(x, y, style):
    return circle(x, y, 3.6, style) + path(style, ("M", x, y - 2.4), ("V", y), ("H", x + 1.8))


def call(word, x, y):
    """Which call was refused."""
    if word == "clock":
        return clock(x, y, "hand")
    if word == "done":
        return circle(x, y, 2.4, "sign")
    return path("sign", ("M", x, y + 3.5), ("V", y), ("M", x - 2, y), ("L", x, y - 3), ("L", x + 2, y), ("Z",))


def room(kind, words, size):
    """The width of a note."""
    return 13 + wide(words, size) + 4 * (kind == "refused")


def note(kind, word, words, x, y, size):
    """A sign with its centre at x, and the words behind it; y is their foot."""
    middle = y - 0.36 * size
    if kind == "refused":
        chip = box(x - 6, middle - size / 2 - 1, room(kind, words, size) - 2, size + 2, "chip", ' rx="2.5"')
        return chip + call(word, x, middle) + text(x + 5.5, y, words, size, "on")
    if kind == "clock":
        return clock(x, middle, "clock")
    moved = path("move", ("M", x - 3.6, middle - 3), ("H", x + 3.6), ("L", x, middle + 3.4), ("Z",))
    return (moved if kind == "move" else circle(x, middle, 3.6, kind)) + text(x + 6, y, words, size, kind + " bold" * (kind == "late"))


# ---- bars

def shade(level, most):
    """The higher the level, the lighter."""
    share = min(1, (level - 1) / max(1, most - 1))
    return "#" + "".join(f"{round(a + (b - a) * share):02x}" for a, b in zip(URGENT, CALM))


def bar(fill, late, x, y, width, height, more=""):
    """Of a running job, or with a colour to fill it of a waiting one."""
    style = ("waits" if fill else "runs") + " late" * late + more
    return box(x, y, width, height, style, f' fill="{fill}"' if fill and not late else "")


def zigzag(x, y):
    """Two strokes across a line that is interrupted between them."""
    strokes = [path("axis", ("M", x + side - 2, y + 5), ("L", x + side + 2, y - 5)) for side in (-3, 3)]
    return box(x - 3, y - 3, 6, 6, "gap") + "".join(strokes)
