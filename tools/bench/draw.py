"""An outline drawn at true scale, one unit to the millimetre: the marks, the curves, the mark that is farthest off, and what there is to say of them."""
import math
from collections import namedtuple

from bench.cleaning import EQUAL, RANGE, spans, standing
from bench.curves import at, box_of, cover, extent, grown, inside, reach, seam_angle, shared
from bench.outline import LONG, trouble
from bench.said import counted, millimetres, plain
from bench.svg import (COLOURS, FONTS, GREEN, GREY, INK, RED, WHITE, WIDE, Room, bar, circle, coloured_lines, diamond, escaped, group, label, line, lines_of, look, num, path, plus, rings,
                       rounded, target, text, titled, wrapped)
from shared.table import LARGEST

WHOLE = 6.35             # mm, which are 24 pixels and 18 points: a page of whole ones is rounded by no browser, which would stretch the drawing
FAR_OFF = 10 * LARGEST   # a point beyond is no place on any paper
MOST_BOXES = 20000       # that cover all curves together
NAMED = 8                # curves that a note names one by one
SMALLER, LARGER = 0.7, 1.15  # a small ring and a dropped mark's, by the ring of the farthest mark
FAR_AWAY, NEAR_BY = 14, 4  # steps that a label may stand away from its point: the few that must be said, and the many that need not

Sizes = namedtuple('Sizes', 'font thin bold arm dot halo')


# ---- what can be drawn

def fair(points):
    return all(abs(v) <= FAR_OFF for point in points for v in point)


def fair_ones(points):
    """The points that have a place, each once."""
    return [point for point in dict.fromkeys(points) if fair([point])]


def breaks(curves, ring):
    """The pairs of points where a curve ends and the next one begins elsewhere."""
    pairs = zip(curves, curves[1:] + curves[:1]) if ring else zip(curves, curves[1:])
    return [(before[3], after[0]) for before, after in pairs if before[3] != after[0]]


class Outline:
    """What can be drawn of a list of curves. The list may be faulty: a curve then may be anywhere, or nowhere."""

    def __init__(self, listed):
        self.listed = listed
        self.curves = [(k, curve) for k, curve in enumerate(listed.curves) if fair(curve)]
        self.missing = [k for k, curve in enumerate(listed.curves) if not fair(curve)]
        self.breaks = breaks(listed.curves, listed.ring)
        self.gaps = fair_ones(point for pair in self.breaks for point in pair)
        # where curves begin and end, by their own points; where two meet there is one
        self.joints = fair_ones([curve[0] for _, curve in self.curves] + [before for before, _ in self.breaks] + [curve[3] for curve in listed.curves[-1:]])
        self.angle = seam_angle(listed.curves) if listed.ring else None
        self.bound()

    def bound(self):
        """The box of what is drawn; a faulty list may not have it grow without end."""
        marks = box_of(self.listed.marks)
        self.margin = max((marks[2] - marks[0]) / 2, (marks[3] - marks[1]) / 2, 50.0)
        corners = [corner for _, curve in self.curves for box in [extent(curve)] for corner in (box[:2], box[2:])]
        whole = box_of(self.listed.marks + corners + self.joints + self.gaps)
        self.box = shared(whole, grown(marks, self.margin))
        self.cut_off = self.box != whole
        self.wide, self.tall = self.box[2] - self.box[0], self.box[3] - self.box[1]

    def seam(self):
        return 'no direction' if self.angle is None else f'{rounded(self.angle)}°'


# ---- what there is to say

def named(numbers):
    """Curves by their numbers, as many as one wants to read."""
    some = ', '.join(map(str, numbers[:NAMED]))
    return f'curve {some}' if len(numbers) == 1 else f'curves {some}' + f' and {len(numbers) - NAMED:,} more' * (len(numbers) > NAMED)


def measured(listed):
    if not listed.curves:
        return 'The marks by themselves: no curves are fitted.'
    if listed.far is None:
        return 'No largest distance: not every mark has a distance from its curve that is a number.'
    far, mark, under = listed.far
    x, y = listed.marks[mark]
    return (f'Largest distance from a mark to its curve: {millimetres(far, listed.tolerance)} mm, at mark\xa0{mark} (ringed), x\xa0{rounded(x)}, y\xa0{rounded(y)}, '
            f"under curve\xa0{under}; by the checker's arithmetic, at the mark's parameter.")


def long_notes(listed):
    return [f'Small rings: the worst mark of each curve with {LONG} marks or more under it; its distance stands beside it where there is room.'] if listed.long else []


def seam_notes(outline):
    x, y = outline.listed.marks[0]
    turn = f'The outline turns there by {outline.seam()}; 0° is no kink.'
    if outline.angle is None:
        turn = 'No angle there: a curve has no direction, as where marks lie on the seam itself.'
    return [f'The seam is mark 0 (diamond), x\xa0{rounded(x)}, y\xa0{rounded(y)}: there the last curve meets the first. {turn}']


def trouble_notes(outline):
    """What a faulty list hides or breaks off."""
    notes = []
    if outline.breaks:
        notes.append(f'Gaps (double rings): {len(outline.breaks):,}. There a curve does not begin where the one before it ended.')
    if outline.missing:
        notes.append(f'Not drawn: {named(outline.missing)}, with a point that is no number or is too far off for any paper.')
    if outline.cut_off:
        notes.append(f'What runs more than {rounded(outline.margin, 0)} mm outside the marks is cut off.')
    return notes


def title(listed):
    about = ', a closed outline' * listed.ring + ', cleaned' * (listed.cleaned is not None)
    curves = f', {counted(len(listed.curves), "curve")}' if listed.curves else ''
    return f'{listed.name}{about}: {counted(len(listed.marks), "mark")}{curves}, tolerance {plain(listed.tolerance)} mm'


def verdict(listed):
    """What the checker said of a list that came in a file."""
    return f'The curves are those that the file holds. The list checker says: {listed.verdict.words}'


def notes_of(outline):
    listed = outline.listed
    return [title(listed), *([verdict(listed)] if listed.verdict else []), measured(listed), *long_notes(listed), *trouble_notes(outline), *(seam_notes(outline) if listed.ring else []),
            ('Marks and curves count from 0; every tenth curve has its number.' if listed.curves else 'Marks count from 0.') + ' x runs right, y up.']


def alarm(listed):
    """What has to stand in red on every sheet, or nothing."""
    words = trouble(listed)
    return '' if words is None else f'{"Not passed" if listed.verdict else "Not fitted"}. {words}'


# ---- what was dropped

def equal_ones(listed):
    """Of each mark on which others were dropped its place, and their numbers."""
    found = {}
    for drop in listed.cleaned.of(EQUAL) if listed.cleaned else []:
        found.setdefault(drop.equals, (drop.point, []))[1].append(drop.number)
    return list(found.values())


def dropped_notes(listed):
    """What was dropped, in grey: equal marks by their numbers, and those that no sheet can hold with where they stood."""
    cleaned = listed.cleaned
    if cleaned is None:
        return []
    equal, wild = cleaned.of(EQUAL), cleaned.of(RANGE)
    notes = [f'Cleaned: {cleaned.words()}.']
    if equal:
        notes.append(f'Equal to the last one kept (grey rings): {spans([drop.number for drop in equal])}.')
    if wild:
        some = '; '.join(f'{drop.number} ({standing(drop.point)})' for drop in wild[:NAMED])
        notes.append(f'Out of range, and so on no sheet: {some}' + f'; and {len(wild) - NAMED:,} more' * (len(wild) > NAMED) + '.')
    return notes + ['The numbers of dropped marks are those of the file as it was; all others count the marks that are kept.'] * bool(cleaned.drops)


def coloured_notes(outline):
    """All notes, each with its colour."""
    return [(INK, note) for note in notes_of(outline)] + [(GREY, note) for note in dropped_notes(outline.listed)]


# ---- the drawing, layer by layer

def sizes(size, marks):
    """Small things grow with the drawing, within what a hand and an eye at the table can use."""
    gaps = sorted(math.dist(a, b) for a, b in zip(marks, marks[1:])) or [size]
    arm = max(min(size * 0.0024, 0.3 * gaps[len(gaps) // 2]), 0.6)
    dot = max(min(size * 0.0016, 6.0), 0.6)
    return Sizes(min(max(size * 0.012, 3.4), 40.0), min(max(size * 0.00028, 0.12), 1.0), min(max(size * 0.0007, 0.3), 2.0), arm, dot, max(2.6 * dot, 1.4 * arm))


class Layer:
    """Things that are drawn alike: the SVG text of each, and the boxes that it covers."""

    def __init__(self, style):
        self.style, self.things = style, []

    def add(self, words, *boxes):
        self.things.append((words, boxes))


def round_box(x, y, r):
    return x - r, y - r, x + r, y + r


class Picture:
    """An outline on paper: its left lies at x 0 and its top at y 0, moved by `shift`, whole millimetres, so that marks of a table's grid keep their few digits."""

    def __init__(self, outline, size, shift):
        self.outline, self.listed = outline, outline.listed
        self.sizes = sizes(size, self.listed.marks)
        self.left, self.top = shift[0] - math.floor(outline.box[0]), shift[1] + math.ceil(outline.box[3])
        self.box = box_of([self.put(outline.box[:2]), self.put(outline.box[2:])])
        border = 2 * (outline.wide + outline.tall)
        self.small = max(0.7 * self.sizes.font, sum(min(reach(curve), border) for _, curve in outline.curves) / MOST_BOXES)
        self.room = Room(max(0.3 * self.sizes.font, self.small / 3))
        self.layers = [*self.curves(), self.marks(), self.dropped(), self.joints(), self.gaps(), self.signs()]
        self.labels = Layer('')

    def put(self, p):
        return p[0] + self.left, self.top - p[1]

    def curves(self):
        """In two colours in turn. Labels keep clear of them."""
        layers = [Layer(look('none', colour, self.sizes.bold)) for colour in COLOURS]
        for k, curve in self.outline.curves:
            points = [self.put(p) for p in curve]
            boxes = list(cover(points, self.box, self.small))
            a, b, c, d = (f'{num(x)} {num(y)}' for x, y in points)
            layers[k % 2].add(path(f'M{a} C{b} {c} {d}'), *boxes)
            for box in boxes:
                self.room.take(box)
        return layers

    def marks(self):
        layer = Layer(look('none', INK, self.sizes.thin))
        for x, y in map(self.put, self.listed.marks):
            layer.add(path(plus(x, y, self.sizes.arm)), round_box(x, y, self.sizes.arm))
            self.room.take((x, y, x, y))
        return layer

    def dropped(self):
        """A ring about each mark on which others were dropped, with their numbers where a pointer rests on it."""
        layer, r = Layer(look('none', GREY, self.sizes.bold)), LARGER * self.sizes.halo
        for point, numbers in equal_ones(self.listed):
            x, y = self.put(point)
            self.ringed(layer, titled(f'dropped: {spans(numbers)}', circle(x, y, r)), x, y, r)
        return layer

    def joints(self):
        layer = Layer(look(WHITE, INK, self.sizes.thin * 1.3))
        for x, y in map(self.put, self.outline.joints):
            layer.add(circle(x, y, self.sizes.dot), round_box(x, y, self.sizes.dot))
        return layer

    def ringed(self, layer, words, x, y, r):
        """A sign round a place, which labels keep clear of."""
        layer.add(words, round_box(x, y, r))
        self.room.take(round_box(x, y, r))

    def gaps(self):
        layer = Layer('')
        for x, y in map(self.put, self.outline.gaps):
            self.ringed(layer, rings(x, y, 1.5 * self.sizes.halo, self.sizes.bold), x, y, 1.5 * self.sizes.halo)
        return layer

    def worst_ones(self):
        """The worst mark of each long curve; the farthest of all has a sign of its own."""
        return [(k, far, mark) for k, far, mark in self.listed.long if self.listed.far is None or mark != self.listed.far[1]]

    def signs(self):
        """The worst marks of long curves, the farthest mark, and a ring's seam."""
        layer, halo, bold = Layer(''), self.sizes.halo, self.sizes.bold
        for k, _, mark in self.worst_ones():
            x, y = self.put(self.listed.marks[mark])
            self.ringed(layer, circle(x, y, SMALLER * halo, look('none', COLOURS[k % 2], 0.7 * bold)), x, y, SMALLER * halo)
        if self.listed.far:
            x, y = self.put(self.listed.marks[self.listed.far[1]])
            self.ringed(layer, circle(x, y, halo, look('none', RED, bold)), x, y, halo)
        if self.listed.ring:
            x, y = self.put(self.listed.marks[0])
            self.ringed(layer, diamond(x, y, 1.3 * halo, GREEN, bold), x, y, 1.3 * halo)
        return layer

    def label(self, point, size, words, colour, clear, allowed, steps=FAR_AWAY):
        """Words beside a point, where nothing else is; none if there is no such place within so many steps."""
        x, y = self.put(point)
        box = self.room.place(x, y, size, words, clear, allowed, steps)
        if box:
            self.labels.add(label(x, y, size, words, colour, clear, box), box_of([(x, y), box[:2], box[2:]]))

    def label_all(self, allowed):
        """The numbers beside the drawing, each in a box that is allowed."""
        font, halo = self.sizes.font, self.sizes.halo
        if self.listed.far:
            far, mark, _ = self.listed.far
            self.label(self.listed.marks[mark], font, f'{millimetres(far, self.listed.tolerance)} mm', RED, halo * 1.25, allowed)
        if self.listed.ring:
            self.label(self.listed.marks[0], font, f'seam {self.outline.seam()}', GREEN, halo * 1.6, allowed)
        for point, numbers in equal_ones(self.listed):
            self.label(point, font * 0.8, spans(numbers), GREY, LARGER * halo * 1.25, allowed)
        for k, curve in self.outline.curves:
            if k % 10 == 0:
                self.label(at(curve, 0.5), font * 0.9, str(k), COLOURS[k % 2], self.sizes.dot, allowed)
        for k, far, mark in self.worst_ones():
            words = f'{millimetres(far, self.listed.tolerance)} mm'
            self.label(self.listed.marks[mark], font * 0.7, words, COLOURS[k % 2], SMALLER * halo * 1.25, allowed, NEAR_BY)


def window(x, y, wide, tall, things, at_x=None, at_y=None):
    """A part of the drawing, at its own place or at another; what lies outside is not shown."""
    place = f'x="{num(x if at_x is None else at_x)}" y="{num(y if at_y is None else at_y)}" width="{num(wide)}" height="{num(tall)}"'
    return [f'<svg {place} viewBox="{num(x)} {num(y)} {num(wide)} {num(tall)}">', *things, '</svg>']


# ---- the sheet

def signs_of(outline):
    """What the signs are called, each with the function that draws it about (x, y), as large as letters of a size."""
    signs = [('mark', lambda x, y, s: path(plus(x, y, 0.3 * s), look('none', INK, 0.045 * s)))]
    if equal_ones(outline.listed):
        signs.append(('dropped', lambda x, y, s: circle(x, y, 0.38 * s, look('none', GREY, 0.08 * s))))
    if outline.listed.curves:
        signs.append(('joint', lambda x, y, s: circle(x, y, 0.22 * s, look(WHITE, INK, 0.05 * s))))
    if outline.listed.long:
        signs.append(('worst', lambda x, y, s: circle(x, y, 0.24 * s, look('none', COLOURS[0], 0.06 * s))))
    if outline.listed.far:
        signs.append(('farthest mark', lambda x, y, s: circle(x, y, 0.33 * s, look('none', RED, 0.08 * s))))
    if outline.listed.ring:
        signs.append(('seam', lambda x, y, s: diamond(x, y, 0.39 * s, GREEN, 0.08 * s)))
    if outline.breaks:
        signs.append(('gap', lambda x, y, s: rings(x, y, 0.42 * s, 0.06 * s)))
    return signs


def key(x, y, size, outline):
    """The line of signs, and where it ends."""
    mid, far, parts = y - size * 0.33, size * 1.1, []
    if outline.listed.curves:
        parts += [line(x + i * far, mid, x + (i + 1) * far, mid, colour, size * 0.09) for i, colour in enumerate(COLOURS)]
        parts.append(text(x + 2.3 * far, y, size, 'curves'))
        x += 2.3 * far + 7.5 * WIDE * size
    for words, sign in signs_of(outline):
        parts += [sign(x, mid, size), text(x + 0.66 * size, y, size, words)]
        x += 0.66 * size + (len(words) + 2) * WIDE * size
    return parts, x


class Sheet:
    """One page with the whole outline; below it a band with the bar, the signs and the notes."""

    def __init__(self, listed):
        self.listed, self.outline = listed, Outline(listed)
        outline, size = self.outline, max(self.outline.wide, self.outline.tall)
        font = sizes(size, listed.marks).font
        self.edge = 3.2 * font + 8
        least = max(outline.wide, 150.0, 0.12 * outline.tall)   # room for the bar and for the notes
        self.caption = min(font, least / (WIDE * 84))
        self.step = 1.5 * self.caption
        self.wide = math.ceil((least + 2 * self.edge) / WHOLE) * WHOLE
        self.field = self.wide - 2 * self.edge
        self.alarm = wrapped(alarm(listed), self.field, self.caption)
        self.head = self.edge + self.step * len(self.alarm)
        self.foot = self.head + outline.tall + self.edge          # where the band begins
        self.column = max(100, key(0, 0, self.caption, outline)[1], 60 * WIDE * self.caption) + 2 * self.caption  # 60 letters say how far the crosses stand apart
        self.notes = [(colour, words) for colour, note in coloured_notes(outline) for words in wrapped(note, self.notes_width(), self.caption)]
        below = 0 if self.beside() else (len(self.notes) + 0.5) * self.step
        band = max(9 + 6.5 * self.caption + below, 5 + (len(self.notes) + 1) * self.step)
        self.tall = math.ceil((self.foot + band + 0.3 * self.edge) / WHOLE) * WHOLE
        self.picture = Picture(outline, size, (round(self.edge + (self.field - outline.wide) / 2), round(self.head)))

    def beside(self):
        """Whether the notes have room beside the signs."""
        return self.field >= self.column + 84 * WIDE * self.caption

    def notes_width(self):
        return min(self.field - self.column * self.beside(), 120 * WIDE * self.caption)

    def corners(self):
        return [(x, y) for x in (self.edge / 2, self.wide - self.edge / 2) for y in (self.edge / 2, self.tall - self.edge / 2)]

    def drawing(self):
        """The layers and the labels; cut off at the outline's box where something runs out of it."""
        picture, edge = self.picture, self.edge
        for x, y in self.corners():
            picture.room.take(round_box(x, y, edge * 0.3))
        page = (edge * 0.25, self.head - edge * 0.75, self.wide - edge * 0.25, self.foot - edge * 0.25)
        picture.label_all(lambda box: inside(box, page))
        layers = [group(layer.style, [words for words, _ in layer.things]) for layer in picture.layers]
        clear = grown(picture.box, 2 * picture.sizes.halo)
        shown = window(*clear[:2], clear[2] - clear[0], clear[3] - clear[1], layers) if self.outline.cut_off else layers
        return shown + [words for words, _ in picture.labels.things]

    def band(self):
        """The bar, the signs and the notes."""
        x, y, caption, thin = self.edge, self.foot + 3, self.caption, self.picture.sizes.thin
        parts = bar(x, y, max(4.0, 0.5 * caption), max(0.3, 0.8 * thin))
        y += 2 + 1.1 * caption
        parts += lines_of(x, y, caption, self.step, [
            'The bar is 100 mm long. Print at 100 %, and measure it.',
            f'Registration crosses: {rounded(self.wide - self.edge, 1)} mm across, {rounded(self.tall - self.edge, 1)} mm down.'])
        y += 2.5 * self.step
        parts += key(x, y, caption, self.outline)[0]
        x, y = (x + self.column, self.foot + 5 + 1.1 * caption) if self.beside() else (x, y + self.step * 1.3)
        return parts + coloured_lines(x, y, caption, self.step, self.notes)

    def svg(self):
        wide, tall, thin = num(self.wide), num(self.tall), self.picture.sizes.thin
        return '\n'.join([
            f'<svg xmlns="http://www.w3.org/2000/svg" width="{wide}mm" height="{tall}mm" viewBox="0 0 {wide} {tall}" font-family="{FONTS}">',
            f'<style>@page {{ size: {wide}mm {tall}mm; margin: 0 }}</style>',  # a browser that prints makes its page of the drawing's own size
            f'<title>{escaped(title(self.listed))}</title>',
            '<rect width="100%" height="100%" fill="#ffffff"/>',
            *self.drawing(),
            *[target(x, y, self.edge * 0.22, 1.4 * thin) for x, y in self.corners()],
            *lines_of(self.edge, self.edge * 0.35 + self.caption, self.caption, self.step, self.alarm, RED),
            *self.band(),
            '</svg>', ''])


def draw(listed):
    """The sheet of a list of curves, as SVG text."""
    return Sheet(listed).svg()
