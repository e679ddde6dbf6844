"""fit_cases: outlines by the five fits, and by the three that the second engine makes too.

A record is thirteen words (which fit, how many numbers the marks have, the rooms for curves, first marks, worst marks, parameters and open parts, whether lists are
printed, tolerance, tangents) and the marks. A line says 0 and how many curves, or the refusal, and of each lent slice how many places are as
before, how many are plus zero, and a digest. The lists are the Rust's, 6 is where one of its operations was not finite, and what else is refused,
and what the slices hold then, is by the document's table. The first KEPT outlines are read from the kept input; both sides of each line of the document
come from `borders`. Behind each outline of a direct, a joined or a ring fit comes the same for the second engine, whose answers are to be those of the first."""
import itertools
import math

from shared import kept
from shared.ends import ENDS
from shared.meetings import ABOUTS
from shared.table import FIRST_FITS, FITS, FLAT, FLAT_FITS, by_both, fit_of, fit_refusal
from shared.words import INFINITY, MINUS, NAN, bits, digest_of, number, numbers, pattern_of, patterns_of, words

NAME = 'fit_cases'
KEPT = 580
HEAD = 13
ROOMS = 4   # lent slices: curves, first marks, worst marks, parameters; behind them comes that for open parts
SHORT = 64  # marks of which lists are printed
BEFORE = [bits(7.5), 7, 7, bits(7.5), 7]  # what the lent slices hold
NO_TANGENTS = [0] * 4
NO_ROOM = [0] * ROOMS
ABOVE = bits(math.nextafter(1e6, math.inf))
ABOVE_TWO = bits(math.nextafter(2.0, math.inf))


def room_for(kind, count, *more):
    """The room that so many marks want, with more or less of each. A ring has a curve and a parameter more."""
    most = count if fit_of(kind) == 'ring' else count - 1
    return [want + extra for want, extra in zip([9 * most, most, most, most + 1], more or NO_ROOM)]


def open_for(kind, count):
    """The room for open parts: the first engine has none."""
    return 2 * count if kind in FLAT_FITS else 0


class Outline:
    """A case of one fit. Marks, tolerance and tangents are patterns."""

    def __init__(self, kind, tolerance, marks, room=None, tangents=None, lists=None, open_=None):
        self.kind, self.tolerance, self.marks = kind, tolerance, marks
        self.tangents = tangents or NO_TANGENTS
        self.count = len(marks) // 2
        self.room = (room or room_for(kind, self.count)) + [open_for(kind, self.count) if open_ is None else open_]
        self.lists = self.count <= SHORT if lists is None else lists

    def line(self):
        """The line of replay."""
        tangents = self.tangents if fit_of(self.kind) == 'direct' else []
        return f'{self.kind} {words([self.tolerance] + tangents + self.marks)}'

    def record(self):
        return kept.packed([FITS.index(self.kind), len(self.marks), *self.room, int(self.lists), self.tolerance] + self.tangents + self.marks)

    def refusal(self):
        """The table's, with 4 in its place."""
        wanted = room_for(self.kind, self.count) + [open_for(self.kind, self.count)]
        short = any(have < want for have, want in zip(self.room, wanted))
        return fit_refusal(self.line().split(' '), short)

    def flat(self):
        """The same for the second engine, with as much room for open parts as it asks for; None where that has no such fit."""
        if self.kind + FLAT not in FLAT_FITS:
            return None
        return Outline(self.kind + FLAT, self.tolerance, self.marks, self.room[:ROOMS], self.tangents, self.lists)


def read():
    """The outlines of the kept input."""
    source = kept.Words(NAME)
    while source:
        kind, length, *rest = source.take(HEAD)
        room, (open_, lists, tolerance, *tangents) = rest[:ROOMS], rest[ROOMS:]
        yield Outline(FITS[kind], tolerance, source.take(length), room, tangents, bool(lists), open_)


# ---- both sides of each line of the document

def arcs(known):
    """A maker of half circles of so many marks. The machine's sine may round otherwise on another machine, so a known outline that lies
    on the half circle counts before one that is worked out."""
    by_length = {}
    for marks in known:
        by_length.setdefault(len(marks), []).append(marks)

    def arc(count):
        turns = [math.pi * i / max(count - 1, 1) for i in range(count)]
        values = [turn(angle) * 100 for angle in turns for turn in (math.cos, math.sin)]
        for marks in by_length.get(len(values), []):
            if all(abs(value - number(mark)) <= 1e-9 for value, mark in zip(values, marks)):
                return marks
        return patterns_of(*values)
    return arc


def unit(dx, dy):
    """to_unit_vector: a product with the inverse of the magnitude."""
    magnitude = math.sqrt(dx * dx + dy * dy)
    return [dx * (1.0 / magnitude), dy * (1.0 / magnitude)] if magnitude else [0.0, 0.0]


def own_tangents(marks):
    """The tangents of an outline's first and last two marks, by start_tangent and end_tangent."""
    x0, y0, x1, y1 = numbers(marks[:4])
    x2, y2, x3, y3 = numbers(marks[-4:])
    return patterns_of(*unit(x1 - x0, y1 - y0), *unit(x2 - x3, y2 - y3))


def taken(kind, tolerance, marks, room=None, open_=None):
    """An outline that the fit takes; the direct one with the outline's own tangents."""
    return Outline(kind, tolerance, marks, room, own_tangents(marks) if fit_of(kind) == 'direct' else None, open_=open_)


THOUSANDTH = bits(0.001)
LINE_OF_THREE = patterns_of(0, 0, 1, 0, 2, 0)
LINE_OF_TWO = patterns_of(0, 0, 4, 0)
ON_ONE_SPOT = patterns_of(3, 5, 3, 5, 3, 5)


def few_marks(kind):
    yield taken(kind, THOUSANDTH, LINE_OF_THREE)
    yield taken(kind, THOUSANDTH, LINE_OF_TWO)
    yield taken(kind, THOUSANDTH, ON_ONE_SPOT[:4])
    yield Outline(kind, THOUSANDTH, ON_ONE_SPOT, room_for(kind, 3, 9, 1, 1, 1))
    for room in (NO_ROOM, [18, 3, 3, 4]):
        yield Outline(kind, THOUSANDTH, [], room)
        yield Outline(kind, THOUSANDTH, patterns_of(1, 2), room)
    for length in (1, 3, 9):
        yield Outline(kind, THOUSANDTH, patterns_of(*range(length)), [72, 8, 8, 9])
    yield Outline(kind, THOUSANDTH, patterns_of(*range(5)), NO_ROOM)


ONE_SHORT = [[-(place == i) for i in range(ROOMS)] for place in range(ROOMS)]  # each slice in turn


def rooms(kind, arc):
    yield taken(kind, THOUSANDTH, arc(9))
    yield taken(kind, THOUSANDTH, arc(9), room_for(kind, 9, 1, 1, 1, 1))
    for less in (*ONE_SHORT, (-8, 0, 0, 0), (-9, -1, -1, -1)):  # eight numbers a curve are too few
        yield Outline(kind, THOUSANDTH, arc(9), room_for(kind, 9, *less))
    yield Outline(kind, THOUSANDTH, arc(2), [0, 0, 0, 1])


def ranges(kind, arc):
    for tolerance in (MINUS, 0):
        yield taken(kind, tolerance, arc(7))
    for tolerance in (MINUS + 1, NAN, INFINITY, MINUS + INFINITY):
        yield Outline(kind, tolerance, arc(7))
    yield taken(kind, 1, arc(7))
    yield taken(kind, THOUSANDTH, patterns_of(1e6, -1e6, -1e6, 1e6, 0, 0, 1e6, 1e6))
    for place, pattern in itertools.product((0, 3, 7), (ABOVE, MINUS + ABOVE, NAN, INFINITY, MINUS + INFINITY)):
        marks = patterns_of(0, 0, 1, 2, 3, 4, 5, 6)
        marks[place] = pattern
        yield Outline(kind, THOUSANDTH, marks)


def orders(kind, arc):
    """Two refusals at once."""
    yield Outline(kind, NAN, [NAN, 0], NO_ROOM)
    yield Outline(kind, NAN, arc(3), NO_ROOM)
    yield Outline(kind, NAN, ON_ONE_SPOT)


def saw(count):
    """Teeth, in whole numbers: at tolerance 0 every curve has two marks, so that a ring of 4,096 marks fills the program's room."""
    return patterns_of(*(value for i in range(count) for value in (37 * i % 1024, i * i % 11)))


def rings(arc):
    """What a ring alone has: one mark less is too few, the room is for one curve more, and the last mark may be the first."""
    for count in (1, 2):
        yield Outline('ring', THOUSANDTH, arc(3)[:2 * count])
        yield Outline('ring', NAN, arc(3)[:2 * count], NO_ROOM)
    for less in (*ONE_SHORT, NO_ROOM):
        yield Outline('ring', THOUSANDTH, arc(3), room_for('ring', 3, *less))
    for count in (3, 4, 198):
        yield Outline('ring', THOUSANDTH, arc(count))
    for marks in (LINE_OF_TWO, LINE_OF_THREE, arc(9), arc(198), arc(199)):  # the first mark once more, and twice
        yield Outline('ring', THOUSANDTH, marks + marks[:2])
        yield Outline('ring', THOUSANDTH, marks + marks[:2] * 2)
    for count in (2, 4, 199, 200):
        yield Outline('ring', THOUSANDTH, ON_ONE_SPOT[:2] * count)
    for count in (4095, 4096):
        yield Outline('ring', 0, saw(count))
    for less in ONE_SHORT:
        yield Outline('ring', THOUSANDTH, arc(200), room_for('ring', 200, *less))
    yield Outline('ring', THOUSANDTH, saw(4097), room_for('ring', 4096))
    yield Outline('ring', NAN, [NAN] + saw(4097)[1:], NO_ROOM)


def long_outlines(arc):
    """More than 4,096 marks, which were once too many; of teeth every curve has two marks, and they fill the room that the program has."""
    yield Outline('source', THOUSANDTH, arc(4097))
    yield Outline('loop', bits(9.0), saw(4097))
    yield Outline('joined', 0, saw(4097))
    yield Outline('joined', THOUSANDTH, saw(4097), room_for('joined', 4097, 0, 0, 0, -1))


def meetings():
    """Marks with a direction between them and without one, where two blocks meet: at mark 150 of 200 on a parabola through it, and at mark 0 of a ring that one curve is to follow."""
    bowl = patterns_of(*(value for i in range(-150, 50) for value in (i, i * i / 64)))
    for about in ABOUTS:
        before, after = patterns_of(*about[:2]), patterns_of(*about[2:])
        yield Outline('joined', bits(2.0), bowl[:298] + before + after + bowl[304:])
        yield Outline('ring', bits(9.0), after + patterns_of(4, 1, 5, 4, 2, 6, -1, 3) + before)


def borders(arc):
    for kind in FIRST_FITS:
        yield from few_marks(kind)
        yield from rooms(kind, arc)
        yield from ranges(kind, arc)
        yield from orders(kind, arc)
    for place, pattern in itertools.product(range(4), (ABOVE_TWO, MINUS + ABOVE_TWO, NAN, INFINITY, MINUS + INFINITY)):
        tangents = patterns_of(1, 0, -1, 0)
        tangents[place] = pattern
        yield Outline('direct', THOUSANDTH, arc(5), None, tangents)
    yield from long_outlines(arc)
    yield Outline('direct', THOUSANDTH, arc(513))
    yield Outline('direct', NAN, arc(513), NO_ROOM)
    for kind in ('source', 'loop', 'joined', 'ring'):
        for count in (199, 200, 201, 249, 250, 400):
            yield taken(kind, THOUSANDTH, arc(count))
    yield from rings(arc)
    yield from meetings()
    for kind, marks in itertools.product(FIRST_FITS, ENDS):  # minus zero is the least tolerance
        yield taken(kind, MINUS, patterns_of(*marks))


def kept_arcs():
    """The half circles that are kept."""
    return arcs(outline.marks for outline in read())


def kept_borders():
    """The border cases, with the kept half circles."""
    return borders(kept_arcs())


# ---- the second engine

def open_rooms(arc):
    """The room for open parts: as much as is asked for, one more, one less, and none. 4 by it alone comes before 5, and after 3, 1 and 2. Of a ring too every mark that is given counts once."""
    for kind in FLAT_FITS:
        for count, more in itertools.product((3, 9, 200), (-1, 0, 1)):
            yield taken(kind, THOUSANDTH, arc(count), None, 2 * count + more)
        for have in (0, 17, 18):
            yield taken(kind, NAN, arc(9), None, have)
        yield taken(kind, THOUSANDTH, arc(9), room_for(kind, 9, -1, 0, 0, 0), 17)
        yield taken(kind, THOUSANDTH, ON_ONE_SPOT, None, 7)
        for marks in ([], patterns_of(1, 2), patterns_of(*range(5))):
            yield Outline(kind, THOUSANDTH, marks, [72, 8, 8, 9], open_=0)
    yield Outline('direct_flat', NAN, arc(513), NO_ROOM, open_=0)


# ---- answers

class Lists:
    """What an accepted fit gives, from its line of answer: curves as pairs of first mark and nine patterns, their worst marks, and a parameter for every mark."""

    def __init__(self, said):
        count, rest = int(said.split(' ')[1]), said.split(' ')[2:]
        rows = [rest[11 * k:11 * k + 11] for k in range(count)]
        self.firsts, self.worsts = [int(row[0]) for row in rows], [int(row[1]) for row in rows]
        self.curves = [(first, [pattern_of(word) for word in row[2:]]) for first, row in zip(self.firsts, rows)]
        self.params = [pattern_of(word) for word in rest[11 * count:]]

    def nines(self):
        return [pattern for _, nine in self.curves for pattern in nine]

    def eights(self):
        """The curves' own numbers."""
        return [pattern for _, nine in self.curves for pattern in nine[:8]]

    def text(self):
        """A line for each curve, its first mark, its worst mark and nine numbers, and one of the parameters."""
        lines = [f'{first} {worst} {words(nine).lower()}\n' for (first, nine), worst in zip(self.curves, self.worsts)]
        return ''.join(lines) + f' {words(self.params).lower()}\n'


def state(lent, before):
    """A lent slice after the call."""
    return ' %d %d %016x' % (lent.count(before), lent.count(0), digest_of(lent))


def written(lent, new):
    return new + lent[len(new):]


def text(outline, said):
    """What the program has to write. A run leaves zeros for open parts."""
    lent = [[before] * length for before, length in zip(BEFORE, outline.room)]
    more = ''
    if said == '6':
        lent = [[0] * length for length in outline.room]
    if said.startswith('0 '):
        lists = Lists(said)
        said = f'0 {len(lists.curves)}'
        lent = [written(part, new) for part, new in zip(lent, (lists.nines(), lists.firsts, lists.worsts, lists.params, [0] * outline.room[ROOMS]))]
        more = lists.text() if outline.lists else ''
    return said + ''.join(map(state, lent, BEFORE)) + '\n' + more


def answers(outlines, rust):
    """The answers in replay's form, with 4 in its place."""
    refused = [outline.refusal() for outline in outlines]
    said = iter(rust.answer_all([outline.line() for outline, refusal in zip(outlines, refused) if not refusal]))
    return [str(refusal) if refusal else next(said) for refusal in refused]


def make(rust):
    before = list(read())
    collected = [outline for outline in before if outline.kind in FIRST_FITS][:KEPT]
    first = [*kept.at_least(collected, KEPT, NAME), *kept_borders()]
    outlines = [*by_both(first, Outline.flat), *open_rooms(kept_arcs())]
    said = answers(outlines, rust)
    stdin = b''.join(outline.record() for outline in outlines)
    stdout = ''.join(text(outline, answer) for outline, answer in zip(outlines, said))
    return kept.Made(NAME, stdin, stdout, len(outlines), len(before), kept.tally(said))
