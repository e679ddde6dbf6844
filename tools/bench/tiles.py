"""An outline at true scale over many sheets of paper: one HTML file with a page for each, which any browser prints."""
import math
import re

from bench.curves import grown, inside
from bench.draw import Outline, Picture, alarm, coloured_notes, round_box, title, verdict, window
from bench.svg import FONTS, GREY, INK, RED, WIDE, bar, coloured_lines, escaped, group, look, num, path, rounded, target, text, wrapped
from shared.command import Stop

PAPERS = {'A4': (210.0, 297.0), 'A3': (297.0, 420.0)}
MARGIN = 8.0             # mm that a printer may leave white
OVERLAP = 10.0           # mm that neighbouring sheets have in common
LEAST, LARGEST = 148.0, 5000.0  # mm of a side: the bar and the plan have to stand beside each other; a browser has to take it
MOST = 400               # sheets
CROSS = 4.0              # mm, a cross's arm
SMALL, STEP = 2.6, 3.5   # mm, the letters of the notes and their lines
NAME = 4.0               # mm, the letters of a sheet's own name
JOIN = ('Cut along the dashed lines at the top and at the left, through the crosses, and lay the sheet on the ones above it and to its left, '
        'so that each cross is whole again and the curve runs on; then glue. Where the plan has no box nothing is drawn, and there is no sheet.')


def paper_of(words):
    """Width and height of the paper that is asked for."""
    if words.upper() in PAPERS:
        return PAPERS[words.upper()]
    sides = re.fullmatch('([0-9]+(?:[.][0-9]+)?)[xX]([0-9]+(?:[.][0-9]+)?)', words)
    if not sides:
        raise Stop(f'--tiles takes A4, A3, or width x height in millimetres as in 210x297, and not {words[:40]!r}')
    wide, tall = map(float, sides.groups())
    if not (LEAST <= min(wide, tall) and max(wide, tall) <= LARGEST):
        raise Stop(f'--tiles {words[:40]}: a sheet is at least {LEAST:.0f} mm wide and high, for the bar and the words on it, and at most {LARGEST:,.0f} mm')
    return wide, tall


# ---- the band below each sheet's part of the drawing

class Band:
    """The bar, what the sheet is called, and the notes; at the right the plan. It is of one height on all sheets."""

    def __init__(self, outline, wide, advice):
        self.plan = min(0.24 * wide, wide - 104, 50.0)
        room = wide - self.plan - 4
        beside = room >= 104 + WIDE * NAME * len('Row 100 of 100, column 100 of 100; sheet 100 of 100')
        self.name = (104, 6) if beside else (0, 11)
        self.red = wrapped(alarm(outline.listed), room, SMALL)
        notes = [(INK, note) for note in advice] + coloured_notes(outline)
        if self.red and outline.listed.verdict:
            notes.remove((INK, verdict(outline.listed)))
        self.lines = [(colour, words) for colour, note in notes for words in wrapped(note, room, SMALL)]
        self.tall = math.ceil(self.name[1] + 4.2 + (len(self.red) + (2 if advice else 1) + len(self.lines) - 0.5) * STEP)

    def svg(self, scale):
        """What is the same on all sheets; `scale` are the lines on what to measure: two, or one where there is one sheet."""
        lines = [(RED, words) for words in self.red] + [(INK, words) for words in scale] + self.lines
        return group('id="band"', bar(0, 6, 4, 0.3) + coloured_lines(0, self.name[1] + 4.2, SMALL, STEP, lines))


# ---- the sheets over the drawing

class Grid:
    """Sheets of one size over a drawing, by row and column from 0. Each shows a frame of it; neighbouring frames have a strip in common, and crosses stand on its
    middle line."""

    def __init__(self, paper, outline, area, advice):
        self.paper, self.wide = paper, paper[0] - 2 * MARGIN
        self.band = Band(outline, self.wide, advice)
        self.tall = paper[1] - 2 * MARGIN - self.band.tall
        self.pitch = self.wide - OVERLAP, self.tall - OVERLAP
        spans = area[2] - area[0] - OVERLAP, area[3] - area[1] - OVERLAP
        self.columns, self.rows = (max(math.ceil(span / pitch), 1) for span, pitch in zip(spans, self.pitch))
        # the drawing stands in the middle of the sheets
        self.left = math.floor(area[0] - (self.columns * self.pitch[0] - spans[0]) / 2)
        self.top = math.floor(area[1] - (self.rows * self.pitch[1] - spans[1]) / 2)

    def line_x(self, column):
        """Where the crosses at the left of a column stand."""
        return self.left + OVERLAP / 2 + column * self.pitch[0]

    def line_y(self, row):
        return self.top + OVERLAP / 2 + row * self.pitch[1]

    def frame(self, sheet):
        x, y = self.line_x(sheet[1]) - OVERLAP / 2, self.line_y(sheet[0]) - OVERLAP / 2
        return x, y, x + self.wide, y + self.tall

    def under(self, box, less=0.0):
        """The sheets whose frames, made less by so much on each side, meet a box."""
        x, y, (across, down) = self.left + less, self.top + less, self.pitch
        columns = range(max(math.ceil((box[0] - x - self.wide + 2 * less) / across), 0), min(math.floor((box[2] - x) / across), self.columns - 1) + 1)
        rows = range(max(math.ceil((box[1] - y - self.tall + 2 * less) / down), 0), min(math.floor((box[3] - y) / down), self.rows - 1) + 1)
        return [(row, column) for row in rows for column in columns]

    def used(self, layers):
        """The sheets that something is drawn on, up to the lines where they are cut; what lies beyond is on a neighbour too. None if they are too many."""
        found = set()
        if max(self.columns, self.rows) > MOST:  # an outline that is so long meets as many
            return None
        for layer in layers:
            for _, boxes in layer.things:
                for box in boxes:
                    found.update(self.under(box, OVERLAP / 2))
                if len(found) > MOST:
                    return None
        return found

    def scale(self):
        """What to measure on a sheet."""
        crosses = f'The crosses stand {rounded(self.pitch[0], 1)} mm apart across, {rounded(self.pitch[1], 1)} mm down.'
        return ['Print at 100 %, and measure: the bar is 100 mm long.'] + [crosses] * (self.columns * self.rows > 1)


def sides(sheet):
    """The neighbours above, below, left and right."""
    row, column = sheet
    return (row - 1, column), (row + 1, column), (row, column - 1), (row, column + 1)


def cross_places(grid, sheet, used):
    """Where crosses stand: at a corner that another sheet has too, and in the middle of a side that another sheet has too."""
    (row, column), (above, below, left, right) = sheet, sides(sheet)
    x1, x2, y1, y2 = grid.line_x(column), grid.line_x(column + 1), grid.line_y(row), grid.line_y(row + 1)
    middle_x, middle_y = (x1 + x2) / 2, (y1 + y2) / 2
    corners = [((x, y), {across, down, (down[0], across[1])}) for x, across in ((x1, left), (x2, right)) for y, down in ((y1, above), (y2, below))]
    middles = [((middle_x, y1), {above}), ((middle_x, y2), {below}), ((x1, middle_y), {left}), ((x2, middle_y), {right})]
    return [place for place, others in corners + middles if others & used]


def cut_lines(grid, sheet, used):
    """The middle lines of the strips that the sheet shares, from one side of its frame to the other."""
    (row, column), (above, below, left, right) = sheet, sides(sheet)
    x1, y1, x2, y2 = grid.frame(sheet)
    across = [f'M{num(x1)} {num(grid.line_y(row + (other == below)))}H{num(x2)}' for other in (above, below) if other in used]
    down = [f'M{num(grid.line_x(column + (other == right)))} {num(y1)}V{num(y2)}' for other in (left, right) if other in used]
    return ''.join(across + down)


# ---- the plan

def plan_of(grid, picture, used):
    """The plan, with the outline and a box for every sheet that is printed, and the function that gives a sheet's box."""
    scale = min(grid.band.plan / (grid.columns * grid.pitch[0]), (grid.band.tall - 1) / (grid.rows * grid.pitch[1]))

    def small(x, y):
        return f'{num((x - grid.line_x(0)) * scale)} {num((y - grid.line_y(0)) * scale)}'

    def cell(sheet):
        row, column = sheet
        return f'M{small(grid.line_x(column), grid.line_y(row))}h{num(grid.pitch[0] * scale)}v{num(grid.pitch[1] * scale)}h{num(-grid.pitch[0] * scale)}z'

    marks = picture.listed.marks[::math.ceil(len(picture.listed.marks) / 400)] + picture.listed.marks[-1:]
    way = 'M' + 'L'.join(small(*picture.put(mark)) for mark in marks) + 'z' * picture.listed.ring
    parts = [path(''.join(cell(sheet) for sheet in sorted(used)), look('none', GREY, 0.12)), path(way, look('none', INK, 0.2))]
    return group('id="plan"', parts), cell, grid.columns * grid.pitch[0] * scale


# ---- the pages

def best(paper, outline, picture):
    """The way up that wants fewer sheets, and the sheets; how they are joined is said only where there are several."""
    area = grown(picture.box, 2 * picture.sizes.font)
    for advice in ([], [JOIN]):
        grids = [grid for sides in (paper, paper[::-1]) for grid in [Grid(sides, outline, area, advice)] if grid.tall >= 4 * OVERLAP]
        if not grids:
            raise Stop(f'a sheet of {num(paper[0])} x {num(paper[1])} mm has no room for the drawing beside what is to be said of it; take a larger one')
        found = [(grid, used) for grid in grids for used in [grid.used(picture.layers)] if used is not None]
        if found:
            grid, used = min(found, key=lambda one: len(one[1]))
            if advice or len(used) == 1:
                return grid, used
    raise Stop(f'{outline.listed.name} is {rounded(outline.wide, 0)} x {rounded(outline.tall, 0)} mm and takes more than {MOST} sheets of {num(paper[0])} x {num(paper[1])} mm'
               '; take larger paper (--tiles A3, or width x height in millimetres), or plot it without --tiles, for a roll')


class Tiles:
    """The pages of an outline on one paper."""

    def __init__(self, listed, words):
        paper = paper_of(words)
        self.listed, outline = listed, Outline(listed)
        self.picture = Picture(outline, min(max(paper) - 2 * MARGIN, max(outline.wide, outline.tall)), (0, 0))
        self.grid, self.used = best(paper, outline, self.picture)
        self.label()
        self.parts = self.shares()
        self.plan, self.cell, self.plan_wide = plan_of(self.grid, self.picture, self.used)

    def label(self):
        """Each label stands whole on one sheet at least, and on no cross."""
        for sheet in self.used:
            for x, y in cross_places(self.grid, sheet, self.used):
                self.picture.room.take(round_box(x, y, CROSS))
        self.picture.label_all(lambda box: any(sheet in self.used and inside(box, self.grid.frame(sheet)) for sheet in self.grid.under(box)))

    def shares(self):
        """What of each layer is drawn on each sheet: only what falls on it, so that the file hardly grows with the number of sheets."""
        parts = {sheet: [] for sheet in self.used}
        for layer in self.picture.layers + [self.picture.labels]:
            shares = {}
            for words, boxes in layer.things:
                for sheet in {sheet for box in boxes for sheet in self.grid.under(box)} & self.used:
                    shares.setdefault(sheet, []).append(words)
            for sheet, things in shares.items():
                parts[sheet].append(group(layer.style, things))
        return parts

    def name(self, sheet, place):
        return f'Row {sheet[0] + 1} of {self.grid.rows}, column {sheet[1] + 1} of {self.grid.columns}; sheet {place} of {len(self.used)}'

    def defs(self):
        """What every page shows, written once."""
        return ['<defs>', self.plan, self.grid.band.svg(self.grid.scale()), group('id="cross"', [target(0, 0, CROSS, 0.15)]), '</defs>']

    def page(self, sheet, place):
        grid = self.grid
        left, top, _, _ = grid.frame(sheet)
        shown = [*self.parts[sheet], path(cut_lines(grid, sheet, self.used), look('none', GREY, 0.2) + ' stroke-dasharray="2 2"'),
                 *[f'<use href="#cross" x="{num(x)}" y="{num(y)}"/>' for x, y in cross_places(grid, sheet, self.used)]]
        wide, tall = num(grid.wide), num(grid.tall + grid.band.tall)
        return '\n'.join([
            f'<section><svg xmlns="http://www.w3.org/2000/svg" width="{wide}mm" height="{tall}mm" viewBox="0 0 {wide} {tall}" font-family="{FONTS}">',
            *(self.defs() if place == 1 else []),
            *window(left, top, grid.wide, grid.tall, shown, 0, 0),
            f'<rect width="{wide}" height="{num(grid.tall)}" {look("none", INK, 0.1)}/>',
            f'<g transform="translate(0 {num(grid.tall)})"><use href="#band"/>', text(*grid.band.name, NAME, self.name(sheet, place)), '</g>',
            f'<g transform="translate({num(grid.wide - self.plan_wide)} {num(grid.tall + 1)})">', path(self.cell(sheet), 'fill="#f3c98f"'), '<use href="#plan"/></g>',
            '</svg></section>'])

    def html(self):
        wide, tall = map(num, self.grid.paper)
        count = len(self.used)
        return '\n'.join([
            '<!DOCTYPE html>',
            '<html lang="en" xmlns="http://www.w3.org/1999/xhtml"><head><meta charset="utf-8"/>',
            f'<title>{escaped(title(self.listed))}, on {count} sheet{"s" * (count != 1)}</title>',
            '<style>',
            f'@page {{ size: {wide}mm {tall}mm; margin: 0 }}',
            'body { margin: 0 }',
            f'section {{ padding: {num(MARGIN)}mm 0 0 {num(MARGIN)}mm }}',
            'section + section { break-before: page }',
            'section > svg { display: block; overflow: visible }',
            '@media screen { body { background: #bbbbbb }',
            f'section {{ box-sizing: border-box; width: {wide}mm; height: {tall}mm; margin: 5mm auto; background: #ffffff }} }}',
            '</style></head><body>',
            *[self.page(sheet, place) for place, sheet in enumerate(sorted(self.used), 1)],
            '</body></html>', ''])


def tiles(listed, words):
    """The pages of a list of curves on the paper that is asked for, as HTML text."""
    return Tiles(listed, words).html()
