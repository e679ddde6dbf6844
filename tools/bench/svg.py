"""Pieces of SVG text, in millimetres, and the room that is left for labels among them."""
import html
import math
import re
import textwrap

COLOURS = ('#1f5fa8', '#d9730d')  # curves, in turn
INK, RED, GREEN, GREY, WHITE = '#222222', '#c2185b', '#2e7d32', '#9e9e9e', '#ffffff'
FONTS = 'DejaVu Sans Condensed, Liberation Sans, Arial, Helvetica, sans-serif'
WIDE = 0.56                       # a letter's width in its height, at most, for these fonts
EVEN = 0.52                       # the same over a line of words


def num(v):
    """A length in the drawing: a thousandth of a millimetre is finer than any plotter."""
    text = f'{v:.3f}'.rstrip('0').rstrip('.')
    return '0' if text in ('-0', '') else text


def rounded(v, places=2):
    """A number in words for the bench: so many places at most, and no idle zeros."""
    text = f'{v:,.{places}f}'
    return text.rstrip('0').rstrip('.') if '.' in text else text


def escaped(words):
    """Words as they may stand in SVG and HTML; a file's name may hold what neither of them can."""
    return html.escape(re.sub('[^ -~\xa0-\ud7ff\ue000-\ufffd\U00010000-\U0010ffff]', '\ufffd', words), quote=False)


def wrapped(words, width, size):
    """The lines that words make in this width; none ends at a space that is to hold (U+00A0), which is an ordinary one then."""
    return [found.replace('\xa0', ' ') for found in textwrap.wrap(words, max(int(width / (EVEN * size)), 12))]


def look(fill, colour, wide):
    """How a thing, or a group of them, is filled and drawn."""
    return f'fill="{fill}" stroke="{colour}" stroke-width="{num(wide)}"'


def group(style, things):
    return f'<g {style}>\n' + '\n'.join(things) + '\n</g>' if things else ''


def path(d, style=''):
    return f'<path d="{d}"{style and " " + style}/>'


def line(x1, y1, x2, y2, colour, wide):
    return f'<line x1="{num(x1)}" y1="{num(y1)}" x2="{num(x2)}" y2="{num(y2)}" stroke="{colour}" stroke-width="{num(wide)}"/>'


def circle(x, y, r, style=''):
    return f'<circle cx="{num(x)}" cy="{num(y)}" r="{num(r)}"{style and " " + style}/>'


def plus(x, y, r):
    """The two strokes of a cross, for a path."""
    return f'M{num(x - r)} {num(y)}h{num(2 * r)}m{num(-r)} {num(-r)}v{num(2 * r)}'


def titled(words, thing):
    """A thing with words that show where a pointer rests on it."""
    return f'<g><title>{escaped(words)}</title>{thing}</g>'


def diamond(x, y, r, colour, wide):
    return path(f'M{num(x - r)} {num(y)}l{num(r)} {num(-r)}l{num(r)} {num(r)}l{num(-r)} {num(r)}z', look('none', colour, wide))


def rings(x, y, r, wide):
    """Two rings, one in the other: something is wrong there."""
    return circle(x, y, r, look('none', RED, wide)) + circle(x, y, 0.7 * r, look('none', RED, wide))


def target(x, y, r, wide):
    """A registration cross."""
    return path(plus(x, y, r), look('none', INK, wide)) + circle(x, y, r * 0.55, look('none', INK, wide))


def text(x, y, size, words, colour=INK, anchor='start'):
    return f'<text x="{num(x)}" y="{num(y)}" font-size="{num(size)}" fill="{colour}" text-anchor="{anchor}">{escaped(words)}</text>'


def coloured_lines(x, y, size, step, lines):
    """Lines of text, each with its colour, one below the other."""
    return [text(x, y + i * step, size, words, colour) for i, (colour, words) in enumerate(lines)]


def lines_of(x, y, size, step, lines, colour=INK):
    """Lines of text of one colour."""
    return coloured_lines(x, y, size, step, [(colour, words) for words in lines])


def bar(x, y, tick, wide):
    """The bar of 100 mm, with a tick for each 10."""
    ticks = [line(x + 10 * i, y - (tick if i % 5 == 0 else 0.6 * tick), x + 10 * i, y, INK, 0.7 * wide) for i in range(11)]
    return [line(x, y, x + 100, y, INK, wide)] + ticks


class Room:
    """Which places are taken, by the cells of a fine grid: whether a label has room is then asked of the cells under it alone."""

    def __init__(self, cell):
        self.cell, self.taken = cell, set()

    def cells(self, box):
        x1, y1, x2, y2 = (math.floor(v / self.cell) for v in box)
        return ((i, j) for i in range(x1, x2 + 1) for j in range(y1, y2 + 1))

    def take(self, box):
        self.taken.update(self.cells(box))

    def place(self, x, y, size, words, reach, allowed, steps):
        """The box of a label at the nearest free place beside (x, y), so many steps away at most, or None."""
        wide, high = WIDE * size * (len(words) + 0.6), size
        for step in range(1, steps):
            far = reach + 0.55 * size * step
            for turn in range(16):
                a = math.pi * (0.25 + turn / 8)
                cx, cy = x + math.cos(a) * (far + wide / 2), y - math.sin(a) * (far + high / 2)
                box = (cx - wide / 2, cy - high * 0.72, cx + wide / 2, cy + high * 0.72)
                if allowed(box) and self.taken.isdisjoint(self.cells(box)):
                    self.take(box)
                    return box
        return None


def label(x, y, size, words, colour, reach, box):
    """Words in their box, and a leader to the point that they are said of."""
    ex, ey = min(max(x, box[0]), box[2]), min(max(y, box[1]), box[3])
    d = math.hypot(ex - x, ey - y) or 1.0
    leader = line(x + (ex - x) * reach * 0.8 / d, y + (ey - y) * reach * 0.8 / d, ex, ey, colour, size * 0.035)
    return leader + text((box[0] + box[2]) / 2, (box[1] + box[3]) / 2 + size * 0.36, size, words, colour, 'middle')
