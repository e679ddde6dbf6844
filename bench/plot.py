"""The plot of bench/run: nanoseconds a mark against marks, on logarithmic axes, as SVG."""
import math

from bench.svg import COLOURS, FONTS, GREEN, GREY, INK, WHITE, circle, group, line, look, num, path, text
from figures import ALONE, BOTH, EVEN, apart, chosen, geometric_mean, sizes

WIDE, HIGH = 960, 1120          # of the drawing, in its own units
PANEL_WIDE, PANEL_HIGH = 400, 250
LEFTS, TOPS = (60, 540), (64, 424, 784)
FOOT = 1086                     # where the words below the panels stand
KEYS = 85                       # where the legend begins, from a panel's left
APART = 36                      # that two marked sizes have between them at least
PALE = '#e3e3e3'
PORT, RUST = COLOURS
STROKES = {'port': (PORT, ''), 'rust': (RUST, '6 3'), 'fit_joined': (PORT, ''), 'fit_ring': (GREEN, '2 3'), 'check_worst': (INK, '8 3 2 3')}


class Axis:
    """A logarithmic axis: values from low to high lie from `start` on over `length`, which is below zero for one that runs up."""

    def __init__(self, low, high, start, length):
        self.low, self.start, self.scale = math.log(low), start, length / math.log(high / low)

    def at(self, value):
        return self.start + (math.log(value) - self.low) * self.scale


def steps(low, high):
    """1, 2 and 5 times powers of ten, from the last one not above low to the first one not below high."""
    all_steps = [k * 10.0 ** power for power in range(math.floor(math.log10(low)) - 1, math.ceil(math.log10(high)) + 1) for k in (1, 2, 5)]
    first = max(step for step in all_steps if step <= low)
    last = min(step for step in all_steps if step >= high)
    return [step for step in all_steps if first <= step <= last]


def spaced(values, axis):
    """The values that can be marked without touching each other, the last one among them."""
    kept = []
    for value in sorted(values, reverse=True):
        if not kept or axis.at(kept[-1]) - axis.at(value) >= APART:
            kept.append(value)
    return kept[::-1]


class Series:
    """What one line and its dots show: a name for the legend, how it is drawn, pairs of marks and nanoseconds, and how far its dots stand aside."""

    def __init__(self, name, stroke, pairs, shift):
        self.name, self.pairs, self.shift = name, pairs, shift
        self.colour, self.dashes = STROKES[stroke]

    def drawn(self, x, y):
        means = [(marks, geometric_mean(cost for at, cost in self.pairs if at == marks)) for marks in sorted({marks for marks, _ in self.pairs})]
        dots = [circle(x.at(marks) + self.shift, y.at(cost), 2) for marks, cost in self.pairs]
        way = 'M' + 'L'.join(f'{num(x.at(marks))} {num(y.at(cost))}' for marks, cost in means)
        return [group(f'fill="{self.colour}" fill-opacity="0.4"', dots), path(way, self.stroke())]

    def stroke(self):
        return look('none', self.colour, 2) + (f' stroke-dasharray="{self.dashes}"' if self.dashes else '')

    def key(self, x, y):
        """Its line of the legend."""
        return [path(f'M{num(x)} {num(y - 4)}h30', self.stroke()), text(x + 36, y, 12, self.name)]


def by_both(rows, call):
    """The two series of a call that both have."""
    return [Series(name, side, [(row.marks, getattr(row, side)) for row in chosen(rows, call=call)], shift)
            for name, side, shift in (('Rust (flo_curves)', 'rust', -3), ('port (Wesalondo)', 'port', 3))]


def by_the_port(rows):
    return [Series(name, call, [(row.marks, row.port) for row in chosen(rows, call=call)], shift)
            for call, name, shift in zip(ALONE, ('joined fit', 'ring fit', 'list checker'), (-3, 3, 0))]


def panels(rows):
    """A title, its series and its sizes: four of outlines that differ, and two of one outline in stretches."""
    others, even = apart(rows), chosen(rows, family=EVEN)
    for call in BOTH:
        yield call, by_both(others, call), sizes(others)
    yield 'the port alone: flo_curves has no such calls', by_the_port(others), sizes(others)
    if even:
        yield f'{BOTH[0]}: the same 100,000 marks, in shorter outlines', by_both(even, BOTH[0]), sizes(even)
        yield 'the port alone: the same marks, in shorter outlines', by_the_port(even), sizes(even)


def grid(x, y, marks, costs, left, top):
    """The lines behind a panel, with their numbers."""
    bottom, right = top + PANEL_HIGH, left + PANEL_WIDE
    lines = [line(x.at(value), top, x.at(value), bottom, PALE, 1) for value in marks]
    lines += [line(left, y.at(value), right, y.at(value), PALE, 1) for value in costs]
    numbers = [text(x.at(value), bottom + 16, 11, f'{value:,}', INK, 'middle') for value in marks]
    numbers += [text(left - 6, y.at(value) + 4, 11, f'{value:,.0f}' if value >= 1 else f'{value:g}', INK, 'end') for value in costs]
    return lines + [f'<rect x="{left}" y="{top}" width="{PANEL_WIDE}" height="{PANEL_HIGH}" {look("none", GREY, 1)}/>'] + numbers


def panel(title, series, all_sizes, costs, left, top):
    x, y = Axis(all_sizes[0] * 0.85, all_sizes[-1] * 1.15, left, PANEL_WIDE), Axis(costs[0], costs[-1], top + PANEL_HIGH, -PANEL_HIGH)
    drawn = grid(x, y, spaced(all_sizes, x), costs, left, top)
    drawn += [text(left, top - 24, 14, title), text(left - 50, top - 7, 11, 'nanoseconds a mark', INK)]
    drawn += [text(left + PANEL_WIDE / 2, top + PANEL_HIGH + 33, 11, 'marks in the outline', INK, 'middle')]
    drawn += [piece for one in series for piece in one.drawn(x, y)]
    return drawn + [piece for k, one in enumerate(series) for piece in one.key(left + KEYS + (PANEL_WIDE - KEYS) / len(series) * k, top - 7)]


def plot(rows):
    """The SVG of these rows; all panels have the same axis of costs."""
    fits = [row for row in rows if row.call in BOTH + ALONE]
    all_costs = [cost for row in fits for cost in (row.rust, row.port) if cost is not None]
    costs, places = steps(min(all_costs) / 1.1, max(all_costs) * 1.1), [(left, top) for top in TOPS for left in LEFTS]
    drawn = [piece for (title, series, own), (left, top) in zip(panels(fits), places) for piece in panel(title, series, own, costs, left, top)]
    words = 'A dot is one outline at one tolerance, a line the geometric mean at that number of marks. All axes are logarithmic; lower is quicker.'
    return '\n'.join([
        f'<svg xmlns="http://www.w3.org/2000/svg" viewBox="0 0 {WIDE} {HIGH}" width="{WIDE}" height="{HIGH}" font-family="{FONTS}">',
        f'<rect width="{WIDE}" height="{HIGH}" fill="{WHITE}"/>', *drawn, text(10, FOOT + 14, 12, words), '</svg>', ''])
