"""Pieces of an SVG: lines, words, and marks. A mark has a kind, and each kind has a form of its own besides its colour.

Colours stand in classes, so that a page can put other ones in their place; `style` gives those of a picture on white.
"""

import html

# The kinds of marks: the colour, the form, and whether it is filled. No two kinds have the same form and filling.
KINDS = {
    "taken": ("#1b7a4b", "circle", True), "again": ("#1b7a4b", "circle", False), "done": ("#0b6a88", "square", True), "read": ("#0b6a88", "square", False),
    "warn": ("#b04a00", "triangle", True), "warned": ("#b04a00", "triangle", False), "refused": ("#b3261e", "diamond", True), "unwanted": ("#b3261e", "diamond", False),
    "all": ("#1f5fbf", "hexagon", True), "certified": ("#1f5fbf", "hexagon", False), "fault": ("#7b2d8b", "pentagon", True), "stop": ("#212529", "octagon", True),
    "idle": ("#5c656d", "bar", True), "left": ("#5c656d", "bar", False), "back": ("#5c656d", "cross", True),
}
INK, GREY, PALE = "ink", "grey", "pale"
PLAIN = {INK: "#212529", GREY: "#5c656d", PALE: "#ced4da"}
# The corners of a form, around the middle, by its half width and half height.
CORNERS = {
    "square": [(-0.9, -0.9), (0.9, -0.9), (0.9, 0.9), (-0.9, 0.9)],
    "diamond": [(0, -1.2), (1.2, 0), (0, 1.2), (-1.2, 0)],
    "triangle": [(0, -1.45), (1.4, 0.95), (-1.4, 0.95)],
    "hexagon": [(-1.1, 0), (-0.6, -1), (0.6, -1), (1.1, 0), (0.6, 1), (-0.6, 1)],
    "pentagon": [(0, -1.15), (1.15, -0.2), (0.75, 1), (-0.75, 1), (-1.15, -0.2)],
    "octagon": [(-0.42, -1), (0.42, -1), (1, -0.42), (1, 0.42), (0.42, 1), (-0.42, 1), (-1, 0.42), (-1, -0.42)],
    "bar": [(-1.1, -0.65), (1.1, -0.65), (1.1, 0.65), (-1.1, 0.65)],
    "cross": [(-1, -0.5), (-0.5, -1), (0, -0.5), (0.5, -1), (1, -0.5), (0.5, 0), (1, 0.5), (0.5, 1), (0, 0.5), (-0.5, 1), (-1, 0.5), (-0.5, 0)],
}
# How wide a character is at most, in parts of its size, in the fonts that a picture names; others are as wide as a capital or OTHER.
WIDTHS = {**dict.fromkeys("fijlrt.,:;'|()[]! -", 0.42), **dict.fromkeys("m@…", 1.02), **dict.fromkeys("w#✓", 0.85)}
CAPITAL, OTHER = 0.8, 0.65


def width_of(text, size):
    """How wide a text is at most."""
    return sum(WIDTHS.get(it, CAPITAL if it.isupper() else OTHER) for it in text) * size


def cut(text, most):
    """A text, or its beginning and a sign that it goes on."""
    return text if len(text) <= most else f"{text[: most - 1]}…"


def number(value):
    """A coordinate, without digits that nobody sees."""
    return f"{value:.1f}".rstrip("0").rstrip(".")


def form_of(kind, x, y, wide, high):
    """The form of a mark, as an element."""
    form = KINDS[kind][1]
    if form == "circle":
        return f'<ellipse class="form" cx="{number(x)}" cy="{number(y)}" rx="{number(wide)}" ry="{number(high)}"/>'
    points = " ".join(f"{number(x + a * wide)},{number(y + b * high)}" for a, b in CORNERS[form])
    return f'<polygon class="form" points="{points}"/>'


def style():
    """The colours of a picture on white."""
    found = [".letter{text-anchor:middle;font-size:10px;fill:#fff}", ".form{stroke-width:1.5}"]
    for kind, (colour, _, is_filled) in KINDS.items():
        found.append(f".{kind} .form{{fill:{colour if is_filled else '#fff'};stroke:{colour}}}")
        found += [] if is_filled else [f".{kind} .letter{{fill:{colour}}}"]
    for name, colour in {**{kind: it[0] for kind, it in KINDS.items()}, **PLAIN}.items():
        found.append(f"text.{name}{{fill:{colour}}}line.{name}{{stroke:{colour}}}")
    return "<style>" + "".join(found) + "</style>"


class Picture:
    """Pieces of an SVG, how far they go, the marks among them (kind and letter), and the boxes of level words."""

    def __init__(self):
        self.pieces, self.marks, self.boxes, self.wide, self.high = [], set(), [], 0, 0

    def add(self, piece, wide=0, high=0):
        self.pieces.append(piece)
        self.wide, self.high = max(self.wide, wide), max(self.high, high)

    def take(self, other):
        """Takes all that another picture has."""
        self.pieces += other.pieces
        self.boxes += other.boxes
        self.marks |= other.marks
        self.wide, self.high = max(self.wide, other.wide), max(self.high, other.high)

    def line(self, x1, y1, x2, y2, colour=GREY, width=1.5, dash=None):
        dashed = f' stroke-dasharray="{dash}"' if dash else ""
        self.add(f'<line class="{colour}" x1="{number(x1)}" y1="{number(y1)}" x2="{number(x2)}" y2="{number(y2)}" stroke-width="{width}"{dashed}/>', max(x1, x2), max(y1, y2))

    def text(self, x, y, text, size=11, colour=INK, anchor="start", turned=0, bold=False):
        turn = f' transform="rotate({turned} {number(x)} {number(y)})"' if turned else ""
        weight = ' font-weight="bold"' if bold else ""
        wide = width_of(text, size)
        left = x - {"start": 0, "middle": wide / 2, "end": wide}[anchor]
        if not turned:
            self.boxes.append((left, y - size * 0.8, left + wide, y + size * 0.2, text))
        anchored = "" if anchor == "start" else f' text-anchor="{anchor}"'
        self.add(f'<text class="{colour}" x="{number(x)}" y="{number(y)}" font-size="{size}"{anchored}{weight}{turn}>{html.escape(text)}</text>', x + wide * 0.7 if turned else left + wide, y)

    def mark(self, x, y, kind, told, letter="", size=9, line=None):
        """A mark of a kind, with a letter in it and with what is told of it. With a line, it says of which line of the schedule it is."""
        self.marks.add((kind, letter))
        wide = max(size, width_of(letter, 10) / 2 + 2) if letter else size
        low = 5 if KINDS[kind][1] == "triangle" else 3.5
        inside = f'<text class="letter" x="{number(x)}" y="{number(y + low)}">{html.escape(letter)}</text>' if letter else ""
        of = f' data-line="{line}"' if line else ""
        self.add(f'<g class="mark {kind}"{of}><title>{html.escape(told)}</title>{form_of(kind, x, y, wide, size)}{inside}</g>', x + wide, y + size)

    def svg(self, head=None):
        """The whole picture; its style comes first."""
        wide, high = int(self.wide + 30), int(self.high + 30)
        font = 'font-family="DejaVu Sans, Verdana, sans-serif"'
        top = f'<svg xmlns="http://www.w3.org/2000/svg" width="{wide}" height="{high}" viewBox="0 0 {wide} {high}" {font}>'
        ground = [style(), f'<rect width="{wide}" height="{high}" fill="#ffffff"/>'] if head is None else head
        return "\n".join([top, *ground, *self.pieces, "</svg>"]) + "\n"
